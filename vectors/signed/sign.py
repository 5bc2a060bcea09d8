# Signs the return addresses of a crash that was recorded where the signing instructions do nothing; README.md has the
# commands:
#
#     python3 sign.py made_up/key_a_leaf little a 007f000000000000 0 1 3
#
# The numbers at the end are those of the frames whose functions sign. Their return addresses get a signature in the
# bits of the mask where they lie, on the stack or in LR. Like a machine's it depends on the address, on CFA and on the
# key; the rule is made up.
import sys

KEYS = {"a": 0xBF58476D1CE4E5B9, "b": 0x94D049BB133111EB}


def signature(ra, cfa, key, mask):
    return (ra ^ cfa) * key & mask


folder, order, key, mask = sys.argv[1], sys.argv[2], KEYS[sys.argv[3]], int(sys.argv[4], 16)
signing = [int(number) for number in sys.argv[5:]]
with open(folder + "/run.txt") as file:
    run = {name: int(number, 16) for name, number in map(str.split, file)}
with open(folder + "/frames.txt") as file:
    frames = [[int(number, 16) for number in line.split()] for line in file]
with open(folder + "/stack.bin", "rb") as file:
    stack = bytearray(file.read())
assert run["mask"] == 0, "its return addresses are signed already"
run["mask"] = mask

signatures = [signature(ra, cfa, key, mask) if number in signing else 0 for number, (cfa, ra, _) in enumerate(frames)]
made = [signatures[number] for number in signing]
assert 0 not in made and len(set(made)) == len(made), "each is another, and none is nothing"
assert all(frames[number][1] & mask == 0 for number in signing), "what is signed is found again"

fp = run["fp"]
for bits, (_, ra, callers_fp) in zip(signatures, frames):
    if fp == callers_fp:
        # A leaf, which saves nothing: FP is its caller's, and RA is in LR.
        assert run["lr"] == ra
        run["lr"] |= bits
    else:
        # FP is the address of two words, the caller's FP and RA.
        at = fp - run["stack_address"]
        assert stack[at : at + 16] == callers_fp.to_bytes(8, order) + ra.to_bytes(8, order)
        stack[at + 8 : at + 16] = (ra | bits).to_bytes(8, order)
    fp = callers_fp

with open(folder + "/run.txt", "w") as file:
    file.write("".join("%s %016x\n" % (name, run[name]) for name in run))
with open(folder + "/stack.bin", "wb") as file:
    file.write(stack)

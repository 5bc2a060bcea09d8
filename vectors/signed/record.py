# Lets a program run into its fault and writes the crash as the debugger knows it; README.md has the commands. For gdb:
#
#     gdb-multiarch -batch -ex 'py folder = "emulator/key_a_leaf"' -x record.py key_a_exe
#
# `folder` is where the files go. The program waits in the emulator, at port 1234.
import gdb


def word(number):
    return "%016x" % number


def register(frame, name):
    return int(frame.read_register(name)) & (2**64 - 1)


# CFA, RA and FP of a frame are SP, PC and FP of its caller; _start, which calls the first function, has none, and the
# first function has none where nobody called it. The debugger clears a signed RA by its own mask.
def frames_of(frame):
    callers = []
    while frame.pc() != 0 and frame.name() != "_start":
        frame = frame.older()
        callers.append([register(frame, name) for name in ("sp", "pc", "x29")])
    return callers


def section_address():
    shown = gdb.execute("maint info sections .sframe", to_string=True)
    line = next(line for line in shown.splitlines() if ".sframe" in line)
    return int(line.split("]")[-1].split("->")[0], 16)


# The bits of a code address that hold a signature, as the emulator tells them; none where the machine has no
# signatures.
def mask(frame):
    names = [known.name for known in frame.architecture().registers()]
    return register(frame, "pauth_cmask") if "pauth_cmask" in names else 0


def write(name, text):
    with open(folder + "/" + name, "w") as file:
        file.write(text)


gdb.execute("target remote :1234")
gdb.execute("continue")
at_fault = gdb.newest_frame()
frames = frames_of(at_fault)
sp = register(at_fault, "sp")
run = {
    "section_address": section_address(),
    "stack_address": sp,
    "pc": at_fault.pc(),
    "sp": sp,
    "fp": register(at_fault, "x29"),
    "lr": register(at_fault, "x30"),
    "mask": mask(at_fault),
    "limit": 64,
    "frames": len(frames),
    "ending": 30 if frames[-1][1] == 0 else 21,
}
write("run.txt", "".join("%s %s\n" % (name, word(run[name])) for name in run))
write("frames.txt", "".join(" ".join(map(word, frame)) + "\n" for frame in frames))
write("gdb.txt", gdb.execute("backtrace", to_string=True))
with open(folder + "/stack.bin", "wb") as file:
    file.write(bytes(gdb.selected_inferior().read_memory(sp, frames[-1][0] - sp)))
gdb.execute("kill")

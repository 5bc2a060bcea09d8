# Lets a program run into its fault and writes the crash as the debugger knows it; README.md has the commands. For gdb:
#
#     gdb -batch -ex 'py folder, begin = "amd64_halt", ["run"]' -x record.py amd64_exe
#
# `folder` is where the files go, and `begin` the commands that bring the program to its fault.
import gdb


def word(number):
    return "%016x" % number


def register(frame, name):
    return int(frame.read_register(name)) & (2**64 - 1)


# CFA, RA and FP of a frame are SP, PC and FP of its caller; _start, which calls the first function, has none.
def frames_of(innermost, fp):
    callers = []
    frame = innermost
    while frame.name() != "_start":
        frame = frame.older()
        callers.append([register(frame, name) for name in ("sp", "pc", fp)])
    return callers


def section_address():
    shown = gdb.execute("maint info sections .sframe", to_string=True)
    line = next(line for line in shown.splitlines() if ".sframe" in line)
    return int(line.split("]")[-1].split("->")[0], 16)


def write(name, text):
    with open(folder + "/" + name, "w") as file:
        file.write(text)


for command in begin:
    gdb.execute(command)
at_fault = gdb.newest_frame()
on_aarch64 = "aarch64" in at_fault.architecture().name()
fp = "x29" if on_aarch64 else "rbp"
frames = frames_of(at_fault, fp)
sp = register(at_fault, "sp")
run = {
    "section_address": section_address(),
    "stack_address": sp,
    "pc": at_fault.pc(),
    "sp": sp,
    "fp": register(at_fault, fp),
    "lr": register(at_fault, "x30") if on_aarch64 else 0,
    "limit": 64,
    "frames": len(frames),
    "ending": 21,
}
write("run.txt", "".join("%s %s\n" % (name, word(run[name])) for name in run))
write("frames.txt", "".join(" ".join(map(word, frame)) + "\n" for frame in frames))
write("gdb.txt", gdb.execute("backtrace", to_string=True))
with open(folder + "/stack.bin", "wb") as file:
    file.write(bytes(gdb.selected_inferior().read_memory(sp, frames[-1][0] - sp)))
gdb.execute("kill")

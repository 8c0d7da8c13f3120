"""`python3 -m examples.stack [ARCHIVE]`: the most stack that each export can take, read from the archive's machine code: what a function
pushes and subtracts, along all that it calls. PP_STACK_BYTES of the header has to be no less. Status 1 where it is less, or where the
code has a call that cannot be followed: through a pointer, to itself, or to a function outside that is not known to take little."""
import os
import re
import subprocess
import sys

TOP = os.path.dirname(os.path.dirname(os.path.abspath(__file__)))
ARCHIVE = os.path.join(TOP, "build", "lib", "libpiece_picker.a")
HEADER = os.path.join(TOP, "include", "piece_picker.h")
RETURN_ADDRESS = 8
RED_ZONE = 128
# of the C library: they take far less than is counted for them
OUTSIDE = {"memcpy": 1024, "memset": 1024}

MEMBER = re.compile(r"^(\S+):\s+file format ")
FUNCTION = re.compile(r"^[0-9a-f]+ <(.+)>:$")
PUSH = re.compile(r"\tpush\s")
# taken at once, or page by page down to what %r11 then holds
TAKEN = re.compile(r"\tsub\s+\$0x([0-9a-f]+),%r(?:sp|11)$")
# any other change of %rsp but what gives back
ODD = re.compile(r"\t(?!sub\s+\$|add\s+\$0x[0-7]?[0-9a-f]{1,7},|cmp\s|test\s)\w+\s.*,%rsp$")
CALL = re.compile(r"\tcall\s")
BY_POINTER = re.compile(r"\t(?:call\s+\*|jmp\s+\*(%r\w+|.*))")
# the name that belongs to the call, or to the jump to another function, on the line before
NAMED = re.compile(r"R_X86_64_PLT32\s+(?:\.text\.)?(.+?)(?:[+-]0x[0-9a-f]+)?$")


class Unknown(Exception):
    """Code whose stack cannot be told."""


class Function:
    """What one function takes itself, counting all its paths, and which it calls."""

    def __init__(self, member, name):
        self.member, self.name, self.frame, self.callees, self.deepest, self.before = member, name, 0, set(), None, ""

    def read(self, line):
        """One line of its code."""
        called, taken, pointer = NAMED.search(line), TAKEN.search(line), BY_POINTER.search(line)
        if called:
            self.callees.add(called.group(1))
        elif CALL.search(self.before):
            raise Unknown(f"{self.name}: {self.before.strip()}")
        if taken or PUSH.search(line):
            self.frame += int(taken.group(1), 16) if taken else 8
        if ODD.search(line) or pointer and not self.is_table(pointer.group(1)):
            raise Unknown(f"{self.name}: {line.strip()}")
        self.before = line

    def is_table(self, register):
        """A jump within the function, to a place that a table gives: the place was just added to the table's own."""
        return register is not None and re.search(rf"\tadd\s+%r\w+,{register}$", self.before) is not None


def functions(archive):
    """Each function of the archive, by its member and name: members have functions of the same name, each its own."""
    text = subprocess.run(["objdump", "-dr", "--no-show-raw-insn", archive], capture_output=True, text=True, check=True).stdout
    found, member, f = {}, None, None
    for line in text.split("\n"):
        opened, start = MEMBER.match(line), FUNCTION.match(line)
        if opened:
            member, f = opened.group(1), None
        elif start:
            f = found[member, start.group(1)] = Function(member, start.group(1))
        elif f:
            f.read(line.rstrip())
    return found


def deepest(found, member, name, above=()):
    """The stack of a function with all that it calls."""
    if name in OUTSIDE:
        return OUTSIDE[name]
    if name in above or (member, name) not in found:
        raise Unknown(f"{name} calls itself" if name in above else f"{name} is not in {member}")
    f = found[member, name]
    if f.deepest is None:
        calls = [deepest(found, member, callee, above + (name,)) for callee in sorted(f.callees)]
        f.deepest = f.frame + RETURN_ADDRESS + max(calls, default=RED_ZONE)
    return f.deepest


def promised():
    with open(HEADER, encoding="ascii") as header:
        found = re.search(r"PP_STACK_BYTES = (\d+)", header.read())
    if not found:
        raise Unknown("the header has no PP_STACK_BYTES")
    return int(found.group(1))


def main():
    try:
        found = functions(sys.argv[1] if len(sys.argv) > 1 else ARCHIVE)
        exports = {name: deepest(found, member, name) for member, name in found if name.startswith("pp_")}
        if not exports:
            raise Unknown("no export in the archive")
        enough = promised()
    except (OSError, subprocess.CalledProcessError, Unknown) as why:
        print(f"stack: {why}", file=sys.stderr)
        return 1
    most = max(exports, key=exports.get)
    print(f"{len(exports)} exports take at most {exports[most]} bytes of stack ({most}); the header says {enough}")
    return 0 if exports[most] <= enough else 1


if __name__ == "__main__":
    sys.exit(main())

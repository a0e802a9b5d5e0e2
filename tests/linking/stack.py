#!/usr/bin/env python3
"""The most stack that each operation can take: the frames of the archive's functions, added up along every way that calls can go.

    stack.py OBJDUMP ARCHIVE HEADER

A frame is how far a function moves the stack pointer, whether it writes there or not, with the return address. Functions that call themselves or each other
stand in rooms of which it is known how deep they go (DEPTHS); others are an error, as is an instruction that moves the stack pointer in a
way that is not known here. For each operation it prints the sum and the header's number. A line ends with `too much` where the sum is
above; the exit status is then 1.
"""
import re
import subprocess
import sys

DEPTHS = {
    # Conditionals 8 deep, and the lines around them.
    "locale_category": 9,
    # 32,768 items, halved until one is left.
    "table_listing": 16,
}
RETURN = 8


def give_up(why):
    sys.exit("stack.py: " + why)


def disassembled(objdump, archive):
    command = [objdump, "-dr", "--no-show-raw-insn", archive]
    return subprocess.run(command, check=True, capture_output=True, text=True).stdout.splitlines()


class Function:
    """Its frame, and the names that it calls, from its instructions in the order in which they stand."""

    def __init__(self):
        self.now = self.frame = RETURN
        self.calls = set()
        self.before = ""
        # How much a loop takes that touches every page of a large frame: %r11 is where it ends.
        self.loop = None

    def follow(self, instruction):
        operation, operands = (instruction.split(None, 1) + [""])[:2]
        operation = operation.rstrip("q")
        constant = re.match(r"\$0x([0-9a-f]+),%(rsp|r11)$", operands)
        number, register = (int(constant.group(1), 16), constant.group(2)) if constant else (0, "")
        if operation == "push":
            self.now += 8
        elif operation == "pop":
            self.now -= 8
        elif operation == "sub" and register == "r11" and re.match(r"mov\s+%rsp,%r11", self.before):
            self.loop = number
        elif operation == "sub" and register == "rsp":
            self.now += self.loop or number
            self.loop = None
        elif operation == "add" and register == "rsp":
            self.now -= number
        elif operation == "ret":
            # What follows is reached by a jump from inside of the frame.
            self.now = self.frame
        elif operands.endswith(",%rsp") and operation not in ("cmp", "test"):
            give_up("a stack pointer moved by " + instruction)
        elif operation == "call" and operands.startswith("*"):
            give_up("a call through a pointer")
        self.frame = max(self.frame, self.now)
        self.before = instruction


def called_by(line):
    """What a call goes to, or the relocation of a call or a jump, if the line is one."""
    relocation = re.search(r"R_X86_64_(?:PLT32|PC32)\s+(?:\.text\.)?(\S+?)(?:[-+]0x[0-9a-f]+)?$", line)
    return relocation or re.search(r"\tcallq?\s+[0-9a-f]+ <([^>+]+)>$", line)


def read(lines):
    """The functions of an archive by name."""
    functions, function = {}, None
    for line in lines:
        begins = re.match(r"[0-9a-f]+ <(.+)>:$", line)
        instruction = re.match(r"\s*[0-9a-f]+:\t([a-z].*)$", line)
        called = called_by(line)
        if begins:
            if begins.group(1) in functions:
                give_up("two functions of the name " + begins.group(1))
            function = functions[begins.group(1)] = Function()
        elif function and instruction:
            function.follow(instruction.group(1).strip())
        if function and called:
            function.calls.add(called.group(1))
    # memcpy and memset are not of the archive.
    for function in functions.values():
        function.calls &= functions.keys()
    return functions


def circles(functions):
    """The functions in groups: each with those that it can come back from, and behind all that the group calls (Tarjan)."""
    order, low, path, groups = {}, {}, [], []

    def visit(name):
        order[name] = low[name] = len(order)
        path.append(name)
        for call in functions[name].calls:
            if call not in order:
                visit(call)
                low[name] = min(low[name], low[call])
            elif call in path:
                low[name] = min(low[name], order[call])
        if low[name] == order[name]:
            first = path.index(name)
            groups.append(path[first:])
            del path[first:]

    for name in functions:
        if name not in order:
            visit(name)
    return groups


def times(functions, group):
    """How often the functions of a group can be on the stack at once."""
    if len(group) == 1 and group[0] not in functions[group[0]].calls:
        return 1
    rooms = {name.split("::")[0] for name in group}
    if len(rooms) != 1 or not rooms <= DEPTHS.keys():
        give_up("a circle of calls: " + " ".join(group))
    return DEPTHS[rooms.pop()]


def deepest(functions):
    """For each function, the most stack from its call on."""
    most = {}
    for group in circles(functions):
        own = times(functions, group) * sum(functions[name].frame for name in group)
        below = max((most[call] for name in group for call in functions[name].calls if call not in group), default=0)
        most.update((name, own + below) for name in group)
    return most


def published(header):
    with open(header, encoding="ascii") as lines:
        return re.findall(r"^#define ZEHARMEKU_STACK_([A-Z]+) (\d+)$", lines.read(), re.MULTILINE)


def main():
    objdump, archive, header = sys.argv[1:]
    most = deepest(read(disassembled(objdump, archive)))
    failed = False
    for name, number in published(header):
        taken = most["zeharmeku_" + name.lower()]
        bad = taken > int(number)
        print(f"{name.lower()}: {taken} of {number}{', too much' if bad else ''}")
        failed |= bad
    sys.exit(int(failed))


main()

#!/usr/bin/env python3
"""A second reader of images, written from the description of their layout and not from the program, and a runner of their code.

    tests/images.py --cases            writes changed_images.cases and lamps.img in crates/bkit_cases/data
    tests/images.py PROGRAM [VALUES]   executes images with changed bytes by PROGRAM and by this reader, and names each that differs

PROGRAM is the built bkit. It executes three images with each of their bytes changed to each other value (or to VALUES of them, spread
evenly), each front of them, and each with one more byte. An image is changed in one place, so most faults of it stand alone; which of
two faults is told is asked where a change makes two.
"""
import itertools
import os
import subprocess
import sys
import tempfile
from concurrent.futures import ThreadPoolExecutor

from lines import as_digits, as_lines

TOP = os.path.dirname(os.path.dirname(os.path.abspath(__file__)))
DATA = f"{TOP}/crates/bkit_cases/data"
USUAL_GREATEST = 2147483647
MOST_GREATEST = 2**62 - 1
MOST_CELLS = 1000000
MOST_DEPTH = 1000
FUEL = 200

# Each instruction: its name, the widths of its operands in bytes with a sign where they have one, and how many values it pops and pushes.
INSTRUCTIONS = {
    0x01: ("Push", (-8,), 0, 1),
    0x02: ("Load", (4,), 0, 1),
    0x03: ("Store", (4,), 1, 0),
    0x04: ("ALoad", (4, -8, 4), 1, 1),
    0x05: ("AStore", (4, -8, 4), 2, 0),
    0x06: ("Add", (), 2, 1),
    0x07: ("Sub", (), 2, 1),
    0x08: ("Mul", (), 2, 1),
    0x09: ("Div", (), 2, 1),
    0x0A: ("Mod", (), 2, 1),
    0x0B: ("Neg", (), 1, 1),
    0x0C: ("Eq", (), 2, 1),
    0x0D: ("Lt", (), 2, 1),
    0x0E: ("Le", (), 2, 1),
    0x0F: ("Not", (), 1, 1),
    0x10: ("Jump", (-4,), 0, 0),
    0x11: ("JumpZero", (-4,), 1, 0),
    0x12: ("Ret", (), 0, 0),
}
CODES = {name: code for code, (name, *_) in INSTRUCTIONS.items()}


class BadImage(Exception):
    """Why the bytes are no image, as the program's line tells it."""


# ---- the layout


class Bytes:
    def __init__(self, all_bytes):
        self.all = all_bytes
        self.at = 0

    def take(self, count):
        if self.at + count > len(self.all):
            raise BadImage(f"Short at {len(self.all)}")
        self.at += count
        return self.all[self.at - count : self.at]

    def number(self, width):
        """The place of a number, and the number. A width below 0 is that of a number with a sign."""
        at = self.at
        return at, int.from_bytes(self.take(abs(width)), "big", signed=width < 0)

    def count(self):
        return self.number(2)[1]

    def name(self):
        return self.take(self.count())

    def parameters(self):
        return [(self.number(2), self.number(4)) for _ in range(self.count())]


class Image:
    """What the bytes say, each number with its place."""

    def __init__(self, all_bytes):
        read = Bytes(all_bytes)
        if read.take(4) != b"BKIM":
            raise BadImage("Magic at 0")
        version = read.number(2)[1]
        if version not in (1, 2):
            raise BadImage("Version at 4")
        # The second version says the greatest number, which is that of the first in no image.
        self.has_range = version == 2
        self.greatest = read.number(-8) if self.has_range else (None, USUAL_GREATEST)
        self.cells = read.number(4)
        self.counts = []
        self.sets = []
        for _ in range(read.count()):
            self.counts.append(read.number(2))
            self.sets.append([read.name() for _ in range(self.counts[-1][1])])
        self.operations = []
        for _ in range(read.count()):
            name, start = read.name(), read.number(4)
            self.operations.append((name, start, read.parameters(), read.parameters()))
        self.length = read.number(4)
        self.code = []
        for _ in range(self.length[1]):
            at, code = read.number(1)
            if code not in INSTRUCTIONS:
                raise BadImage(f"BadInst at {at}")
            name, widths, *_ = INSTRUCTIONS[code]
            self.code.append((at, name, [read.number(width) for width in widths]))
        if read.at < len(all_bytes):
            raise BadImage(f"Extra at {read.at}")


# ---- the numbers


def is_value(image, number):
    return -image.greatest[1] <= number <= image.greatest[1]


def faults_of_parameter(image, kind, slot):
    if kind[1] >= 2 + len(image.sets):
        yield kind[0], "BadSlot"
    if slot[1] >= image.cells[1]:
        yield slot[0], "BadSlot"


def faults_of_instruction(image, place):
    at, name, operands = image.code[place]
    if name in ("Load", "Store") and operands[0][1] >= image.cells[1]:
        yield operands[0][0], "BadSlot"
    if name == "Push" and not is_value(image, operands[0][1]):
        yield operands[0][0], "BadSlot"
    if name in ("ALoad", "AStore"):
        base, low, count = operands
        if base[1] + count[1] > image.cells[1]:
            yield base[0], "BadSlot"
        if count[1] > 0 and not (is_value(image, low[1]) and is_value(image, low[1] + count[1] - 1)):
            yield low[0], "BadSlot"
        if count[1] == 0:
            yield count[0], "BadSlot"
    if name in ("Jump", "JumpZero") and not 0 <= place + operands[0][1] < len(image.code):
        yield at, "BadJump"
    if place == len(image.code) - 1 and name not in ("Jump", "Ret"):
        yield at, "BadJump"


def faults_of_numbers(image):
    if image.has_range and (not 1 <= image.greatest[1] <= MOST_GREATEST or image.greatest[1] == USUAL_GREATEST):
        yield image.greatest[0], "BadSlot"
    if image.cells[1] > MOST_CELLS:
        yield image.cells[0], "BadSlot"
    for at, count in image.counts:
        if count > image.greatest[1] + 1:
            yield at, "BadSlot"
    for _, start, inputs, outputs in image.operations:
        if start[1] >= len(image.code):
            yield start[0], "BadSlot"
        for kind, slot in itertools.chain(inputs, outputs):
            yield from faults_of_parameter(image, kind, slot)
    if not image.code:
        yield image.length[0], "BadJump"
    for place in range(len(image.code)):
        yield from faults_of_instruction(image, place)


# ---- the depths


def successors(image, place):
    """The places whose depth follows from that of this one."""
    _, name, operands = image.code[place]
    if name in ("Jump", "JumpZero"):
        yield place + operands[0][1]
    if name not in ("Jump", "Ret") and place + 1 < len(image.code):
        yield place + 1


def depths(image):
    """For each place the set of its depths, or None where it has two and so any number of them."""
    found = [set() for _ in image.code]

    def add(place, depth):
        todo = [(place, depth)]
        while todo:
            place, depth = todo.pop()
            if found[place] is None or depth in found[place]:
                continue
            found[place] = None if found[place] or depth is None else {depth}
            _, _, pops, pushes = INSTRUCTIONS[CODES[image.code[place][1]]]
            after = None if found[place] is None else depth - pops + pushes
            todo += [(it, after) for it in successors(image, place)]

    follows = {it for place in range(len(image.code)) for it in successors(image, place)}
    fixed = {0, *(start[1] for _, start, _, _ in image.operations)}
    for place in range(len(image.code)):
        if place in fixed or place not in follows:
            add(place, 0)
    for place in range(len(image.code)):
        # Depths that follow from each other alone: the smallest place first.
        if found[place] == set():
            add(place, 0)
    return found


def fault_of_depths(image):
    for (at, name, _), found in zip(image.code, depths(image)):
        _, _, pops, _ = INSTRUCTIONS[CODES[name]]
        if found is None:
            return at
        (depth,) = found
        if pops > 0 and depth < pops or depth > MOST_DEPTH or name == "Ret" and depth != 0:
            return at
    return None


def load(all_bytes):
    image = Image(all_bytes)
    faults = sorted(faults_of_numbers(image))
    if faults:
        raise BadImage("{1} at {0}".format(*faults[0]))
    at = fault_of_depths(image)
    if at is not None:
        raise BadImage(f"Stack at {at}")
    return image


# ---- the runner


class Trap(Exception):
    pass


def arithmetic(image, name, a, b):
    if name == "Div":
        if b == 0:
            raise Trap("DivZero")
        value = abs(a) // abs(b)
        value = value if (a < 0) == (b < 0) else -value
    elif name == "Mod":
        if a < 0 or b <= 0:
            raise Trap("ModRange")
        value = a % b
    else:
        value = {"Add": a + b, "Sub": a - b, "Mul": a * b, "Eq": int(a == b), "Lt": int(a < b), "Le": int(a <= b)}[name]
    if not is_value(image, value):
        raise Trap("Overflow")
    return value


def cell_of(operands, index):
    base, low, count = operands
    if not low <= index < low + count:
        raise Trap("Index")
    return base + index - low


def execute(image, cells, place, fuel):
    """Executes from a place on: `done` and the steps, or how it ended instead, after which steps and where."""
    stack = []
    for steps in range(fuel):
        _, name, operands = image.code[place]
        operands = [number for _, number in operands]
        following = place + 1
        try:
            if name == "Push":
                stack.append(operands[0])
            elif name == "Load":
                stack.append(cells[operands[0]])
            elif name == "Store":
                cells[operands[0]] = stack.pop()
            elif name == "ALoad":
                stack.append(cells[cell_of(operands, stack.pop())])
            elif name == "AStore":
                value, index = stack.pop(), stack.pop()
                cells[cell_of(operands, index)] = value
            elif name == "Neg":
                stack.append(-stack.pop())
            elif name == "Not":
                stack.append(int(stack.pop() == 0))
            elif name == "Jump":
                following = place + operands[0]
            elif name == "JumpZero":
                if stack.pop() == 0:
                    following = place + operands[0]
            elif name == "Ret":
                return "done", steps + 1, place
            else:
                b, a = stack.pop(), stack.pop()
                stack.append(arithmetic(image, name, a, b))
        except Trap as trap:
            return f"trapped {trap}", steps, place
        place = following
    return "out of fuel", fuel, place


# ---- calls and replies


def shown(image, kind, value):
    if kind == 1 and value in (0, 1):
        return b"TRUE" if value else b"FALSE"
    if kind >= 2 and 0 <= value < len(image.sets[kind - 2]):
        return image.sets[kind - 2][value]
    return str(value).encode()


def read_call(image, line):
    """The operation and its arguments, or None. The lines of this file have no blanks, and no argument out of range."""
    name, found, rest = line.partition(b"(")
    words = rest[:-1].split(b",") if found else []
    operation = next((it for it in image.operations if it[0] == name), None)
    if operation is None or len(words) != len(operation[2]):
        return None
    values = []
    for ((_, kind), _), word in zip(operation[2], words):
        is_number = word.lstrip(b"-").isdigit()
        if kind == 0 and is_number:
            values.append(int(word))
        elif kind == 1 and word in (b"TRUE", b"FALSE"):
            values.append(int(word == b"TRUE"))
        elif kind >= 2 and word not in (b"TRUE", b"FALSE") and word in image.sets[kind - 2]:
            values.append(image.sets[kind - 2].index(word))
        else:
            return None
    return operation, values


def closing(calls, steps):
    return f"end {calls} calls, {steps} steps\n".encode()


def stopped(name, end, place):
    """The line and the status of a call that is not done."""
    if end == "out of fuel":
        return name + b" out of fuel\n", 8
    return name + f" {end} at {place}\n".encode(), 7


def transcript(image, calls, fuel):
    cells = [0] * image.cells[1]
    end, total, place = execute(image, cells, 0, fuel)
    if end != "done":
        line, status = stopped(b"initialisation", end, place)
        return status, line + closing(0, total)
    written = b""
    for done, ((name, start, inputs, outputs), values) in enumerate(calls):
        for (_, (_, slot)), value in zip(inputs, values):
            cells[slot] = value
        end, steps, place = execute(image, cells, start[1], fuel)
        total += steps
        if end != "done":
            line, status = stopped(name, end, place)
            return status, written + line + closing(done, total)
        replies = [shown(image, kind, cells[slot]) for (_, kind), (_, slot) in outputs]
        written += name + (b" = " + b", ".join(replies) if replies else b"") + b"\n"
    return 0, written + closing(len(calls), total)


def answer(all_bytes, lines, fuel=FUEL):
    """The status and the output of `exec` on these bytes and a script of these lines."""
    try:
        image = load(all_bytes)
    except BadImage as why:
        return 9, f"bad image {why}\n".encode()
    calls = []
    for number, line in enumerate(lines, 1):
        call = read_call(image, line)
        if call is None:
            return 6, f"bad call line {number}\n".encode()
        calls.append(call)
    return transcript(image, calls, fuel)


# ---- three images


def put_name(name):
    return len(name).to_bytes(2, "big") + name


def put_parameters(parameters):
    made = len(parameters).to_bytes(2, "big")
    for kind, slot in parameters:
        made += kind.to_bytes(2, "big") + slot.to_bytes(4, "big")
    return made


def assembled(cells, sets, operations, code, greatest=USUAL_GREATEST):
    if greatest == USUAL_GREATEST:
        made = b"BKIM" + (1).to_bytes(2, "big")
    else:
        made = b"BKIM" + (2).to_bytes(2, "big") + greatest.to_bytes(8, "big")
    made += cells.to_bytes(4, "big") + len(sets).to_bytes(2, "big")
    for names in sets:
        made += len(names).to_bytes(2, "big") + b"".join(put_name(it) for it in names)
    made += len(operations).to_bytes(2, "big")
    for name, start, inputs, outputs in operations:
        made += put_name(name) + start.to_bytes(4, "big") + put_parameters(inputs) + put_parameters(outputs)
    made += len(code).to_bytes(4, "big")
    for name, *operands in code:
        number = CODES[name]
        made += bytes([number])
        for width, value in zip(INSTRUCTIONS[number][1], operands):
            made += value.to_bytes(abs(width), "big", signed=width < 0)
    return made


COUNTER = assembled(
    2,
    [],
    [(b"reset", 3, [], []), (b"setmax", 6, [], []), (b"get", 9, [], [(0, 1)])],
    [("Push", 0), ("Store", 0), ("Ret",)] * 2 + [("Push", 10), ("Store", 0), ("Ret",), ("Load", 0), ("Store", 1), ("Ret",)],
)
COUNTER_CALLS = [b"setmax", b"get"]

# Every instruction, two sets, an array of three cells, and a loop. `all` stores its element, answers it with a truth value and a number;
# `sum` counts down from its argument; `odd` works on two numbers.
LAMPS = assembled(
    10,
    [[b"red", b"green", b"blue"], [b"on"]],
    [
        (b"all", 6, [(2, 3), (1, 4)], [(2, 5), (1, 4), (0, 0)]),
        (b"sum", 13, [(0, 6)], [(0, 7)]),
        (b"odd", 28, [(0, 6), (0, 8)], [(0, 7), (1, 9), (3, 3)]),
    ],
    [
        # the initialisation: 5 in cell 1 of the array
        ("Push", 1), ("Push", 5), ("AStore", 0, 0, 3), ("Push", 0), ("Store", 7), ("Ret",),
        # all
        ("Load", 3), ("Load", 3), ("AStore", 0, 0, 3), ("Load", 3), ("ALoad", 0, 0, 3), ("Store", 5), ("Ret",),
        # sum
        ("Push", 0), ("Store", 7), ("Push", 0), ("Load", 6), ("Lt",), ("JumpZero", 9), ("Load", 7), ("Load", 6), ("Add",), ("Store", 7),
        ("Load", 6), ("Push", 1), ("Sub",), ("Jump", 17), ("Ret",),
        # odd
        ("Load", 6), ("Load", 8), ("Mul",), ("Load", 8), ("Div",), ("Load", 8), ("Mod",), ("Neg",), ("Store", 7),
        ("Load", 7), ("Push", 0), ("Eq",), ("Not",), ("Store", 9), ("Ret",),
        # the rest of the loop of sum
        ("Store", 6), ("Jump", -29), ("Push", 3), ("Push", 4), ("Le",), ("Store", 9), ("Ret",),
    ],
)  # fmt: skip
# The loop of sum: its test begins at 15 and leaves to 27; 26 jumps to 43, and 44 back to 15. Nothing reaches 45 to 49.
LAMPS_CALLS = [b"all(green,TRUE)", b"sum(4)", b"odd(7,3)", b"odd(9,4)", b"all(blue,FALSE)", b"odd(5,0)"]

# The whole numbers from -3 to 3: a set with as many elements as they can number, an array over a part of them, and a sum.
SMALL = assembled(
    4,
    [[b"a", b"b", b"c", b"d"]],
    [(b"add", 5, [(0, 3)], [(0, 3)]), (b"same", 9, [(2, 2)], [(2, 2)])],
    [
        ("Push", -1), ("Push", 3), ("AStore", 0, -1, 2), ("Push", 0), ("Store", 3),
        ("Load", 3), ("Push", 2), ("Add",), ("Store", 3), ("Ret",),
    ],
    greatest=3,
)  # fmt: skip
# The initialisation goes on into add, and same is its last instruction.
SMALL_CALLS = [b"add(1)", b"same(d)", b"add(-3)", b"add(2)"]

IMAGES = [("counter", COUNTER, COUNTER_CALLS), ("lamps", LAMPS, LAMPS_CALLS), ("small", SMALL, SMALL_CALLS)]


def changed(image, at, value):
    return image[:at] + bytes([value]) + image[at + 1:]


# ---- cases


def case_values(byte):
    """Nothing, all ones, the next number, and the top bit turned."""
    return sorted({0x00, 0xFF, (byte + 1) % 256, byte ^ 0x80} - {byte})


def one_case(name, image, lines):
    status, written = answer(image, lines)
    made = [f"== {name}", f"words exec c.img c.calls --fuel {FUEL}", "text c.img", *as_digits(image), "text c.calls"]
    made += ["|" + line.decode() for line in lines]
    return "\n".join([*made, f"status {status}", *as_lines(written)]) + "\n\n"


def write_cases():
    made = "# The image of the counter with each byte changed to each of a few values. tests/images.py writes this file: what is wanted comes\n"
    made += "# from its own reader of images and its own runner, and not from the program.\n\n"
    for at, byte in enumerate(COUNTER):
        for value in case_values(byte):
            made += one_case(f"changed_image_{at:03}_as_{value:02x}", changed(COUNTER, at, value), COUNTER_CALLS)
    made += "# The same of an image of the whole numbers from -3 to 3, up to its operations.\n\n"
    for at, byte in enumerate(SMALL[: SMALL.index(b"add")]):
        for value in case_values(byte):
            made += one_case(f"changed_small_{at:03}_as_{value:02x}", changed(SMALL, at, value), SMALL_CALLS)
    made += "# An image with each instruction, two sets, an array and a loop, as it is.\n\n"
    made += one_case("image_of_each_instruction", LAMPS, LAMPS_CALLS)
    with open(f"{DATA}/lamps.img", "wb") as file:
        file.write(LAMPS)
    with open(f"{DATA}/changed_images.cases", "w") as file:
        file.write(made.rstrip("\n") + "\n")


# ---- comparison


def variants(image, count):
    """Images that differ from this one, each with what was done to it."""
    yield "as it is", image
    for length in range(len(image)):
        yield f"cut at {length}", image[:length]
    yield "with a byte more", image + b"\0"
    for at, byte in enumerate(image):
        others = [it for it in range(256) if it != byte]
        for value in others[:: max(1, len(others) // count)]:
            yield f"byte {at} is {value:02x}", changed(image, at, value)


def compared(program, name, lines, what, image):
    """What differs, or None."""
    status, written = answer(image, lines)
    with tempfile.TemporaryDirectory(prefix="images-") as folder:
        with open(f"{folder}/c.img", "wb") as file:
            file.write(image)
        with open(f"{folder}/c.calls", "wb") as file:
            file.write(b"".join(line + b"\n" for line in lines))
        words = [program, "exec", "c.img", "c.calls", "--fuel", str(FUEL)]
        ran = subprocess.run(words, cwd=folder, stdin=subprocess.DEVNULL, stdout=subprocess.PIPE, timeout=120)
    if (ran.returncode, ran.stdout) == (status, written):
        return None
    return f"{name}, {what}: {ran.returncode} {ran.stdout[:80]!r}, wanted {status} {written[:80]!r}"


def compare(program, count):
    differ = 0
    total = 0
    with ThreadPoolExecutor(os.cpu_count()) as pool:
        for name, image, lines in IMAGES:
            for said in pool.map(lambda it: compared(program, name, lines, *it), variants(image, count)):
                total += 1
                if said:
                    differ += 1
                    print(said)
    print(f"{total} images, {differ} differ")
    return 1 if differ else 0


def main():
    if sys.argv[1:] == ["--cases"]:
        write_cases()
        return 0
    if len(sys.argv) in (2, 3):
        return compare(os.path.abspath(sys.argv[1]), int(sys.argv[2]) if len(sys.argv) == 3 else 255)
    print(__doc__)
    return 2


if __name__ == "__main__":
    sys.exit(main())

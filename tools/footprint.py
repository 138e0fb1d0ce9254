"""What tools/footprint prints, from the objects and the linked firmwares in target/archive/TARGET.

The bound of a function's stack is its own frame and the deepest of what it calls, and so on, but for the functions that
the firmware brings. Frames are the compiler's own figures (-fstack-usage); on x86-64 these leave out three things, which
are added: where a call comes from, the arguments that a call pushes, and what a function that calls none may use below
its frame. The arguments of an exported function are its caller's. What a function calls is read from the object: each function has a section of its own there,
so that whatever refers to another one does so by a relocation, and every such reference is taken for a call. So nothing
is left out, a call by a pointer neither. It fails on a frame that is not constant, on a function without a figure, and on
one that could call itself; since a call of itself needs no relocation, that is seen in the intermediate code."""
import os
import re
import struct
import sys

FUNCTIONS = ["amp_feed", "amp_read", "amp_next", "amp_list", "amp_write", "amp_close", "amp_fresh", "amp_stamp_order",
             "amp_write_enable"]
FIRMWARES = {"whole": "all nine functions", "reader": "a reader: fresh, feed, close", "read": "one frame: read",
             "lister": "the lister: list, next", "writers": "the writers: write, write_enable"}
GROWTH = 20  # a figure may be larger than what is written by one part in so many
BESIDE = 128

# Of the ELF format.
ALLOCATED, WRITTEN, CODE = 2, 1, 4
SYMBOLS, RELA, REL, NO_BITS = 2, 4, 9, 8
FUNCTION = 2

# Of x86-64: how many arguments have a register, the width of one that has none, and what may be used below a frame.
REGISTERS, WORD, BELOW = 6, 8, 128


class Object:
    """The sections, symbols and references of an ELF file."""

    def __init__(self, path):
        with open(path, "rb") as file:
            self.bytes = file.read()
        self.wide = self.bytes[4] == 2
        at, = self.unpack("Q", 40) if self.wide else self.unpack("I", 32)
        size, count, names = self.unpack("HHH", 58 if self.wide else 46)
        form = "IIQQQQIIQQ" if self.wide else "IIIIIIIIII"
        self.sections = [self.unpack(form, at + i * size) for i in range(count)]
        self.names = [self.text(names, section[0]) for section in self.sections]
        self.symbols = [symbol for section in self.sections if section[1] == SYMBOLS
                        for symbol in self.symbols_of(section)]

    def unpack(self, form, at):
        return struct.unpack_from("<" + form, self.bytes, at)

    def text(self, section, at):
        start = self.sections[section][4] + at
        return self.bytes[start:self.bytes.index(b"\0", start)].decode()

    def symbols_of(self, section):
        """Each symbol's name, kind, and the number of the section that it is in, 0 where it is in none."""
        size = 24 if self.wide else 16
        for at in range(section[4], section[4] + section[5], size):
            if self.wide:
                name, info, _, inside = self.unpack("IBBH", at)
            else:
                name, _, _, info, _, inside = self.unpack("IIIBBH", at)
            yield self.text(section[6], name), info & 15, inside

    def references(self):
        """Each relocation: the section that it is in, and the symbol that it refers to."""
        for section in self.sections:
            if section[1] in (RELA, REL):
                size = (24 if self.wide else 12) if section[1] == RELA else (16 if self.wide else 8)
                for at in range(section[4], section[4] + section[5], size):
                    info, = self.unpack("Q", at + 8) if self.wide else self.unpack("I", at + 4)
                    yield section[7], self.symbols[info >> 32 if self.wide else info >> 8]

    def is_code(self, number):
        return self.sections[number][2] & CODE != 0

    def function_in(self, number):
        """The name of the function that a section has."""
        return self.names[number].removeprefix(".text.")

    def flash(self):
        return sum(s[5] for s in self.sections if s[2] & ALLOCATED and s[1] != NO_BITS)

    def memory(self):
        return sum(s[5] for s in self.sections if s[2] & WRITTEN)


def calls_itself(path):
    """The first function of the intermediate code that could call itself, by whatever way; or None."""
    calls, function = {}, ""
    with open(path, encoding="utf-8") as file:
        for line in file:
            if m := re.match(r'define .*?@("[^"]+"|\w+)\(', line):
                function = m[1]
                calls[function] = set()
            elif m := re.match(r'  .*?call [^@]*@("[^"]+"|\w+)\(', line):
                calls[function].add(m[1])
    # a function whose calls are all gone can't; take those away until none is left that can be
    while gone := {name for name, called in calls.items() if not called & calls.keys()}:
        calls = {name: called for name, called in calls.items() if name not in gone}
    return next(iter(calls), None)


def pushed(path):
    """What a call of each function pushes on x86-64: where it came from, and arguments that have no register."""
    found = {}
    with open(path, encoding="utf-8") as file:
        for line in file:
            if m := re.match(r'define .*?@(?:"([^"]+)"|([\w.]+))\((.*)\)', line):
                beyond = max(0, m[3].count("%") - REGISTERS)
                found[m[1] or m[2]] = WORD + (beyond + 1) // 2 * 2 * WORD
    return found


def frames(path):
    """The compiler's figure for each function's frame."""
    found = {}
    with open(path, encoding="utf-8") as file:
        for line in file:
            where, size, how = line.rstrip("\n").split("\t")
            if how != "static":
                raise SystemExit(f"{path}: {where} has a frame that is {how}")
            found[re.sub(r"^[^:]*:(\d+:)?", "", where)] = int(size)
    return found


class Stack:
    """The frames and calls of all objects of a target."""

    def __init__(self, folder):
        self.frames, self.calls, self.outside, self.pushed, self.below = {}, {}, set(), {}, 0
        if circle := calls_itself(f"{folder}/amp.ll"):
            raise SystemExit(f"{circle} could call itself, or one that does")
        if os.path.exists(f"{folder}/optimized.ll"):
            self.pushed, self.below = pushed(f"{folder}/optimized.ll"), BELOW
        for name in ("module", "narrow"):
            if os.path.exists(f"{folder}/{name}.o"):
                self.frames.update(frames(f"{folder}/{name}.su"))
                self.add(Object(f"{folder}/{name}.o"))
        self.outside -= self.frames.keys()

    def add(self, code):
        for inside, (name, kind, target) in code.references():
            if not code.is_code(inside):
                self.in_tables(code, inside, target)
            elif target == 0 and name:
                self.calls.setdefault(code.function_in(inside), set()).add(name)
                self.outside.add(name)
            elif code.is_code(target) and (target != inside or kind == FUNCTION):
                self.calls.setdefault(code.function_in(inside), set()).add(code.function_in(target))

    def in_tables(self, code, inside, target):
        """A table may lead back to the function that it belongs to, and to no other."""
        name, own = code.names[inside], code.function_in(target)
        allowed = name in (f".rodata.{own}", f".ARM.exidx.text.{own}")
        if code.sections[inside][2] & ALLOCATED and code.is_code(target) and not allowed:
            raise SystemExit(f"{name} refers to {own}")

    def passed(self, function, is_exported):
        """What a call of the function pushes before its frame begins."""
        if not self.pushed:
            return 0
        return WORD if is_exported else self.pushed[function]

    def bound(self, function, above=()):
        if function in self.outside:
            return self.below
        if function in above or function not in self.frames or self.pushed and function not in self.pushed:
            raise SystemExit(f"{function} has no frame, or calls itself")
        deepest = max((self.bound(called, (*above, function)) for called in self.calls.get(function, ())), default=self.below)
        return self.passed(function, not above) + self.frames[function] + deepest


def measured(targets):
    """Each figure by its table, row and column; and what the firmware has to bring, by target."""
    figures, outside = {}, {}
    for target in targets:
        folder = f"target/archive/{target}"
        for name, words in FIRMWARES.items():
            firmware = Object(f"{folder}/{name}.elf")
            if firmware.memory() != 0:
                raise SystemExit(f"{folder}/{name}.elf has memory that is written")
            figures["Flash", words, target] = firmware.flash()
        stack = Stack(folder)
        outside[target] = sorted(stack.outside)
        for function in FUNCTIONS:
            figures["Stack", f"`amp::{function}`", target] = stack.bound(function)
    return figures, outside


def tables(targets, figures, outside):
    for table in ("Flash", "Stack"):
        yield f"| {table}, bytes | {' | '.join(targets)} |"
        yield "|---|" + "---|" * len(targets)
        for row in dict.fromkeys(row for name, row, _ in figures if name == table):
            yield f"| {row} | {' | '.join(f'{figures[table, row, target]:,}' for target in targets)} |"
        yield ""
    yield "| Target | The firmware brings |"
    yield "|---|---|"
    for target in targets:
        yield f"| {target} | {', '.join(outside[target])} |"


def written(path):
    """The same, as a document has it."""
    figures, outside, head = {}, {}, []
    with open(path, encoding="utf-8") as file:
        for line in file:
            cells = [cell.strip() for cell in line.strip().strip("|").split("|")]
            if not line.startswith("|"):
                head = []
            elif not head:
                head = cells
            elif head[0] in ("Flash, bytes", "Stack, bytes") and "---" not in cells[0]:
                for target, cell in zip(head[1:], cells[1:]):
                    figures[head[0].removesuffix(", bytes"), cells[0], target] = int(cell.replace(",", ""))
            elif head == ["Target", "The firmware brings"]:
                outside[cells[0]] = cells[1].split(", ")
    return figures, outside


def too_deep(targets, figures):
    """Where a call was seen to use more than its bound, as c/stack.c told. What passes the arguments, and what the
    firmware's functions use, is not in the bound; together it has to be less than BESIDE bytes."""
    for target in targets:
        path = f"target/board/{target}/stack.said"
        if not os.path.exists(path):
            yield f"the stack was not measured on {target}"
            continue
        with open(path, encoding="utf-8") as file:
            for function, seen, _ in (line.split() for line in file if line.startswith("amp_")):
                if int(seen) >= figures["Stack", f"`amp::{function}`", target] + BESIDE:
                    yield f"{function} was seen to use {seen} bytes of stack on {target}"


def main():
    check = sys.argv[1] == "--check"
    targets = sys.argv[2 if check else 1:]
    figures, outside = measured(targets)
    if not check:
        print("\n".join(tables(targets, figures, outside)))
        return 0
    path, wrong = "docs/BENCHMARKS.md", list(too_deep(targets, figures))
    said, listed = written(path)
    for place, now in figures.items():
        then = said.get(place, -1)
        if now * GROWTH > then * (GROWTH + 1):
            wrong.append(f"{', '.join(place)}: {now}, and {path} has {then}")
        elif now != then:
            print(f"{', '.join(place)}: {now}, and {path} has {then}")
    for target, names in outside.items():
        wrong += [f"{target} calls {name}, and {path} does not say so" for name in names if name not in listed.get(target, ())]
    print("\n".join([*wrong, f"{len(figures)} figures of flash and stack, {len(wrong)} things wrong"]))
    return 1 if wrong else 0


sys.exit(main())

"""A model of script programs, written from docs/SCRIPTS.md alone: it has objects and pages, and no table of words.

`Program` reads a script text, and `play` runs it on one of three heaps:
    Endless     never uses storage again, and has room for all
    Quarantine  uses the storage of freed objects again after a cycle, as `markus run` without options does
    Reuse       uses it again at once, at the first place where an object fits
The scripts take turns, one instruction each. So what is printed is right for any order where no script uses another's
objects. A number is never taken for a pointer here: a text whose numbers stay below 65,536 has none that could be."""
import bisect

CLASS_WORDS = [2, 4, 6, 8, 12, 16, 24, 32]
LARGEST_CELL = CLASS_WORDS[-1]
PAGE_WORDS = 64
MOST_PAGES = 4096
WRAP = 1 << 64


def storage_words(words):
    """The words of the cell, or of all pages, that an object takes."""
    if words <= LARGEST_CELL:
        return CLASS_WORDS[bisect.bisect_left(CLASS_WORDS, words)]
    return -(-words // PAGE_WORDS) * PAGE_WORDS


class Object:
    """An object with its words: numbers, and pointers as pairs of an object and an offset, or None."""

    __slots__ = ("words", "storage", "large", "leaf", "freed", "fresh", "page", "cell", "mark")

    def __init__(self, fields):
        self.words = [0 if field == "n" else None for field in fields]
        self.leaf = all(field == "n" for field in fields)
        self.storage = storage_words(len(fields))
        self.large = len(fields) > LARGEST_CELL
        self.freed = self.fresh = False
        self.mark = 0


class Endless:
    """A heap that never uses storage again."""

    def new(self, fields):
        return Object(fields)

    def free(self, it):
        """Whether it wasn't freed before."""
        first, it.freed = not it.freed, True
        return first


class Reuse:
    """First fit, with the storage of a freed object free at once."""

    def __init__(self, pages, resident):
        self.pages, self.resident = pages, resident
        self.taken = bytearray(pages)
        self.cells = {}  # of a block's page, as bits: those that are free
        self.open = {}  # by size and sort: 1 for each block with a free cell
        self.in_use = self.most_in_use = self.reached = self.held = self.most_held = 0

    def change(self, pages, words):
        """So many more pages are resident, and words held."""
        self.in_use += pages
        self.held += words
        self.most_in_use = max(self.most_in_use, self.in_use)
        self.most_held = max(self.most_held, self.held)

    def take_pages(self, count):
        """The lowest range of free pages, or -1."""
        first = self.taken.find(bytes(count)) if self.in_use + count <= self.resident else -1
        if first >= 0:
            self.taken[first:first + count] = b"\1" * count
            self.reached = max(self.reached, first + count)
        return first

    def place(self, it):
        """Whether there is a place, which it then has."""
        if it.large:
            count = it.storage // PAGE_WORDS
            it.page, it.cell = self.take_pages(count), 0
            if it.page >= 0:
                self.change(count, it.storage)
            return it.page >= 0
        blocks = self.open.setdefault((it.storage, it.leaf), bytearray(self.pages))
        it.page, new_pages = blocks.find(1), 0
        if it.page < 0:
            it.page, new_pages = self.take_pages(1), 1
            if it.page < 0:
                return False
            self.cells[it.page] = (1 << PAGE_WORDS // it.storage) - 1
        free = self.cells[it.page]
        it.cell = (free & -free).bit_length() - 1
        self.cells[it.page] = free & free - 1
        blocks[it.page] = self.cells[it.page] != 0
        self.change(new_pages, it.storage)
        return True

    def unmap(self, it):
        self.change(-(it.storage // PAGE_WORDS), -it.storage)

    def give_back(self, it):
        """Its storage is free again."""
        if it.large:
            self.taken[it.page:it.page + it.storage // PAGE_WORDS] = bytes(it.storage // PAGE_WORDS)
            return
        self.cells[it.page] |= 1 << it.cell
        empty = self.cells[it.page] == (1 << PAGE_WORDS // it.storage) - 1
        self.open[it.storage, it.leaf][it.page] = not empty
        if empty:
            self.taken[it.page] = 0
        self.change(-empty, -it.storage)

    def new(self, fields):
        it = Object(fields)
        return it if self.place(it) else None

    def free(self, it):
        if it.freed:
            return False
        it.freed = True
        if it.large:
            self.unmap(it)
        self.give_back(it)
        return True


class Quarantine(Reuse):
    """First fit, with the storage of a freed object free after a cycle that finds no pointer to it."""

    def __init__(self, pages, resident, roots):
        super().__init__(pages, resident)
        self.roots = roots
        self.waiting = []  # what is freed and not released
        self.fresh = self.cycles = 0

    def cycle(self):
        self.cycles += 1
        self.fresh = 0
        found = [pointer[0] for pointer in self.roots() if pointer]
        while found:
            it = found.pop()
            if it.mark == self.cycles:
                continue
            it.mark = self.cycles
            if not it.leaf and not (it.large and it.freed):
                found += [word[0] for word in it.words if type(word) is tuple and word[0].mark != self.cycles]
        for it in self.waiting:
            if it.mark != self.cycles:
                self.give_back(it)
        self.waiting = [it for it in self.waiting if it.mark == self.cycles]

    def new(self, fields):
        it = Object(fields)
        if not self.place(it):
            self.cycle()
            if not self.place(it):
                return None
        return it

    def free(self, it):
        if it.freed:
            return False
        it.freed = True
        self.waiting.append(it)
        if it.large:
            self.unmap(it)
        else:
            self.fresh += it.storage
        if 4 * self.fresh > self.held:
            self.cycle()
        return True


class Program:
    """A script text in parts: its heap, types and globals, and each script's registers and lines."""

    def __init__(self, text):
        self.types, self.globals, self.scripts = {}, [], []
        lines = [line.split() for line in text.splitlines()]
        self.pages, self.resident = map(int, lines[0][1:])
        for number, words in enumerate(lines[1:], 2):
            if words[0] == "type":
                self.types[words[1]] = [field for word in words[2:] for field in fields(word)]
            elif words[0] == "global":
                self.globals.append(words[1])
            elif words[0] == "script":
                self.scripts.append((words[1], [], []))
            else:
                registers, code = self.scripts[-1][1:]
                (registers if words[0] in ("ptr", "num") else code).append((number, words))


def fields(word):
    """What a word of a `type` line stands for: `n` or `p` for each word of an object."""
    if word[0] == "p":
        return ["p"]
    return ["n"] * int(word[2:] or 1)


class Script:
    """A script as it runs: its registers, and what it has printed."""

    def __init__(self, run, name, registers, code):
        self.run, self.code = run, code
        self.told = [f"script {name}"]
        self.register = {words[1]: None if words[0] == "ptr" else 0 for _, words in registers}
        self.ends = self.match()

    def match(self):
        """For each line that opens a block the line of its `else`, if it has one, and of its `end`."""
        ends, opened = {}, []
        for at, (_, words) in enumerate(self.code):
            if words[0] in ("repeat", "if"):
                opened.append([at])
            elif words[0] == "else":
                opened[-1].append(at)
            elif words[0] == "end":
                first, *between = opened.pop()
                ends[first] = (between[0] if between else at, at)
        return ends

    def steps(self, start, stop):
        """Executes the lines from start to stop, and yields after each instruction."""
        at = start
        while at < stop:
            number, (kind, *words) = self.code[at]
            if kind == "repeat":
                for _ in range(int(words[0])):
                    yield from self.steps(at + 1, self.ends[at][1])
                at = self.ends[at][1]
            elif kind == "if":
                middle, end = self.ends[at]
                taken = (at + 1, middle) if self.register[words[0]] else (middle + 1, end)
                yield from self.steps(*taken)
                at = end
            else:
                refusal = getattr(self, "do_" + kind)(*words)
                if refusal:
                    self.told.append(f"{number}: {refusal}")
                yield
            at += 1

    def access(self, name, offset):
        """Why the word can't be accessed, or None; its object; and its place there."""
        pointer = self.register[name]
        if pointer is None:
            return "null", None, 0
        it, at = pointer
        return "fault" if it.large and it.freed else None, it, at + int(offset)

    def load(self, into, name, offset, refused):
        refusal, it, at = self.access(name, offset)
        self.register[into] = refused if refusal else it.words[at]
        return refusal

    def store(self, name, offset, value):
        refusal, it, at = self.access(name, offset)
        if not refusal:
            it.words[at] = value
        return refusal

    def do_new(self, into, kind):
        it = self.run.heap.new(self.run.program.types[kind])
        if it is None:
            return "full"
        self.register[into] = (it, 0)

    def do_free(self, name):
        pointer = self.register[name]
        return "double" if pointer and not self.run.heap.free(pointer[0]) else None

    def do_getn(self, into, name, offset):
        return self.load(into, name, offset, 0)

    def do_getp(self, into, name, offset):
        return self.load(into, name, offset, None)

    def do_setn(self, name, offset, value):
        return self.store(name, offset, self.register[value])

    do_setp = do_setn

    def do_casp(self, into, name, offset, before, after):
        refusal, it, at = self.access(name, offset)
        equal = not refusal and it.words[at] == self.register[before]
        if equal:
            it.words[at] = self.register[after]
        self.register[into] = int(equal)
        return refusal

    def do_lea(self, into, name, offset):
        pointer = self.register[name]
        self.register[into] = pointer and (pointer[0], pointer[1] + int(offset))
        return None if pointer else "null"

    def do_move(self, into, name):
        self.register[into] = self.register[name]

    def do_clear(self, into):
        self.register[into] = None

    def do_loadg(self, into, name):
        self.register[into] = self.run.globals[name]

    def do_storeg(self, name, into):
        self.run.globals[into] = self.register[name]

    def do_same(self, into, one, other):
        self.register[into] = int(self.register[one] == self.register[other])

    def do_isnull(self, into, name):
        self.register[into] = int(self.register[name] is None)

    def do_show(self, name):
        self.told.append("ptr" if self.register[name] else "null")

    def do_const(self, into, value):
        self.register[into] = int(value)

    def do_add(self, into, one, other):
        self.register[into] = (self.register[one] + self.register[other]) % WRAP

    def do_sub(self, into, one, other):
        self.register[into] = (self.register[one] - self.register[other]) % WRAP

    def do_print(self, name):
        self.told.append(str(self.register[name]))


class Run:
    """A run of a program on a heap."""

    def __init__(self, program, kind, pages=MOST_PAGES, resident=MOST_PAGES):
        self.program = program
        self.globals = dict.fromkeys(program.globals)
        self.scripts = [Script(self, *parts) for parts in program.scripts]
        sizes = () if kind is Endless else (pages, resident)
        self.heap = kind(*sizes, self.roots) if kind is Quarantine else kind(*sizes)

    def roots(self):
        """The pointers of registers and globals."""
        held = [it for script in self.scripts for it in script.register.values() if type(it) is tuple]
        return held + list(self.globals.values())

    def play(self):
        """What is printed."""
        waiting = [script.steps(0, len(script.code)) for script in self.scripts]
        while waiting:
            waiting = [steps for steps in waiting if next(steps, waiting) is not waiting]
        return "".join(line + "\n" for script in self.scripts for line in script.told)


def play(text, kind, pages=MOST_PAGES, resident=MOST_PAGES):
    """The run of a text on a heap of this kind, and what it printed."""
    run = Run(Program(text), kind, pages, resident)
    return run, run.play()

"""The logs that tools/record writes, as steps on numbered objects."""
import collections
import itertools
import pathlib
import re

MOST_WORDS = 4096
FORMS = {"m": 2, "c": 2, "a": 2, "r": 3, "f": 1}
KINDS = {"m": "malloc", "c": "calloc", "a": "memalign", "r": "realloc", "f": "free"}


class Fault(Exception):
    """A log can't be read: where and why."""


def words_of(size):
    return min(max(-(-size // 8), 1), MOST_WORDS)


class Log:
    """What a process did, as steps on numbered objects: ("new", object, bytes), ("free", object) and, for a realloc in
    place, ("resize", object, its new number, bytes). Each step has the number of events that were read with it."""

    def __init__(self, path):
        self.path, self.steps, self.at = path, [], {}
        self.counts, self.threads = collections.Counter(), set()
        self.objects = self.events = 0
        try:
            text = pathlib.Path(path).read_text(errors="replace")
        except OSError as fault:
            raise Fault(f"{path}: {fault.strerror}") from fault
        # A last line without its end was being written when the process ended.
        first, *lines = text.split("\n")[:-1] or [""]
        head = re.fullmatch(r"(process|forked) \d+ \d+ (.*)", first)
        if not head:
            raise Fault(f"{path}: line 1: not a log of tools/record")
        self.forked, self.name = head[1] == "forked", head[2]
        for number, line in enumerate(lines, 2):
            self.read(number, line)

    def read(self, number, line):
        try:
            thread, kind, *numbers = line.split(" ")
            size = [] if kind == "f" else [int(numbers.pop())]
            values = [int(address, 16) for address in numbers] + size
        except (ValueError, IndexError):
            thread, kind, values = "", "", []
        if len(values) != FORMS.get(kind):
            raise Fault(f"{self.path}: line {number}: not an event of a log")
        self.threads.add(thread)
        self.events += 1
        self.counts[KINDS[kind]] += 1
        if kind == "f":
            self.free(values[0])
        elif kind == "r":
            self.realloc(*values)
        else:
            self.new(*values)

    def step(self, *parts):
        self.steps.append((self.events, *parts))

    def new(self, address, size):
        if address in self.at:
            self.counts["given twice"] += 1
            self.free(address)
        self.objects += 1
        self.at[address] = self.objects
        self.step("new", self.objects, size)

    def free(self, address):
        it = self.at.pop(address, None)
        if it:
            self.step("free", it)
        else:
            self.counts["of null" if address == 0 else "unknown"] += 1

    def realloc(self, old, address, size):
        it = self.at.pop(old, None)
        if old and not it:
            self.counts["unknown"] += 1
        if it and old == address:
            self.objects += 1
            self.at[address] = self.objects
            self.step("resize", it, self.objects, size)
            return
        if address:
            self.new(address, size)
        if it:
            self.step("free", it)


def lives(log, events):
    """Of each object of the first events: the event that made it, the one that ended it, and its words."""
    live = {}
    for at, what, it, *operands in log.steps:
        if at > events:
            break
        if what != "new":
            made, words = live.pop(it)
            yield made, at, words
        if what != "free":
            live[operands[0] if what == "resize" else it] = at, words_of(operands[-1])
    for made, words in live.values():
        yield made, min(events, log.events) + 1, words


def weights(logs, events):
    """By size in words: how many objects are live when most words are, and on average."""
    found = collections.Counter()
    for log in logs:
        objects, change = list(lives(log, events)), collections.Counter()
        for made, ended, words in objects:
            change[made] += words
            change[ended] -= words
        moments = sorted(change)
        live = list(itertools.accumulate(change[at] for at in moments))
        most = moments[live.index(max(live))]
        for made, ended, words in objects:
            found[words] += (made <= most < ended) + (ended - made) / moments[-1]
    return found

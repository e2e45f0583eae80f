#!/usr/bin/env python3
"""A plain reading of a log: its lines, the source of each read, and the verdict on its order.

  tools/read_log.py <LOG     prints the line that `t1sim check` prints: holds, broken or the first line at fault

Written from docs/FORMATS.md ("The log", "The verdict on a log"), apart from the program and from the page, so that each
can be compared with it. Nothing here is proved, and nothing is quick.
"""
import re
import sys
from dataclasses import dataclass, field

VERSION, SYNTAX, RANGE, UNENDED = "Version", "Syntax", "Range", "Unended"
GREATEST = 2**32 - 1
IO = 2**39
READS = ("fetch", "load", "atomic")
WRITES = ("store", "atomic")


class Fault(Exception):
    """The first line at fault, counted from 1, and what is at fault with it."""

    def __init__(self, line, kind):
        super().__init__(f"log line {line}: {kind}")
        self.line, self.kind = line, kind


@dataclass(frozen=True)
class Shape:
    """What a chip has: banks, strands of a core, sets of a bank, and (sets, ways) of the two L1 caches."""

    banks: int
    strands: int
    sets: int
    caches: dict


SHAPES = {
    "t1": Shape(4, 4, 1024, {"i": (128, 4), "d": (128, 4)}),
    "t2": Shape(8, 8, 512, {"i": (64, 8), "d": (128, 4)}),
}


@dataclass(eq=False)
class Item:
    strand: int
    number: int
    kind: str
    addr: int = 0
    size: int = 0
    got: str = None  # hexadecimal digits, or None
    put: str = None
    how: str = ""  # M, H or F
    time: int = 0  # the time of H and F
    index: int = 0  # the commit of M, and the time at which it was sent
    seen: int = 0
    mask: int = 0
    line: int = 0
    at: int = -1  # its line of the order, from 0

    @property
    def name(self):
        return f"{self.strand}.{self.number}"

    @property
    def is_access(self):
        return self.kind in ("fetch", "load", "store", "atomic")

    @property
    def is_barrier(self):
        return self.kind == "flush" or (self.kind == "membar" and self.mask & 0x62 != 0)

    def writes(self, byte):
        """Whether it is a changing write of this byte."""
        return self.put is not None and self.addr <= byte < self.addr + self.size

    def byte_put(self, byte):
        return int(self.put[2 * (byte - self.addr) :][:2], 16)

    def byte_got(self, byte):
        return int(self.got[2 * (byte - self.addr) :][:2], 16)


@dataclass
class Strand:
    items: list = field(default_factory=list)
    end: str = ""
    units: int = 0
    pc: int = 0
    trap: str = ""


@dataclass
class Commit:
    index: int
    dest: int
    item: Item
    way: int  # or None
    evicted: int  # or None
    kills: list  # of (core, cache, set, way)


@dataclass
class Log:
    chip: str = "t1"
    hyper: bool = False
    cores: int = 0
    strands_of_core: int = 0
    ram: int = 0
    sets: int = 0
    budget: int = 0
    entry: int = 0
    image: dict = field(default_factory=dict)  # address of a block: its 32 bytes
    strands: list = field(default_factory=list)
    commits: list = field(default_factory=list)
    order: list = field(default_factory=list)  # of (strand, number)
    console: str = ""

    @property
    def shape(self):
        return SHAPES[self.chip]

    def core_of(self, item):
        return item.strand // self.strands_of_core

    def byte_of_image(self, byte):
        block = self.image.get(byte - byte % 32)
        return block[byte % 32] if block else 0

    def item_at(self, place):
        """The item of a place, or None."""
        strand, number = place
        items = self.strands[strand].items if strand < len(self.strands) else []
        return items[number] if number < len(items) else None


# ---- the forms of lines

N = r"(0|[1-9][0-9]*)"
H = "[0-9a-f]"
SIZES = rf"cores {N} strands {N} ram {N} sets {N} budget {N}"
CONFIG = {1: re.compile(rf"config {SIZES}"), 2: re.compile(rf"config chip (t1|t2) hyper ([01]) {SIZES}")}
ENTRY = re.compile(rf"entry ({H}{{10}})")
BLOCK = re.compile(rf"m ({H}{{10}}) ({H}{{64}})")
PLACE = rf" (?:([HF]) {N}|M {N} {N})"
ACCESS = re.compile(rf"i {N} {N} (fetch|load|store|atomic) ({H}{{10}}) {N} ({H}+|-) ({H}+|-){PLACE}")
BARRIER = re.compile(rf"i {N} {N} (?:membar ({H}{{2}})|(flush))")
END = re.compile(rf"e {N} (?:(halted|spent) {N} ({H}{{16}})|(fault) {N} ({H}{{16}}) ({H}{{3}}))")
COMMIT = re.compile(rf"c {N} {N} {N} {N} (?:{N}|(-)) (?:({H}{{10}})|(-))((?: {N}\.[di]\.{N}\.{N}){{0,64}})")
ORDER = re.compile(rf"o {N} {N}")
CONSOLE = re.compile(rf"k ((?:{H}{{2}}){{1,32}})")


class Reader:
    """Reads line by line. `self.number` is the line that is read, from 1."""

    def __init__(self, text, versions):
        self.text, self.versions = text, versions
        pieces = text.decode("latin-1").split("\n")
        self.lines, self.whole = pieces[:-1], len(pieces) - 1  # what stands behind the last line feed is no line
        self.rest = pieces[-1]
        self.number = 0
        self.log = Log()

    def syntax(self):
        raise Fault(self.number, SYNTAX)

    def demand(self, holds):
        if not holds:
            raise Fault(self.number, RANGE)

    def next(self):
        if self.number == self.whole:
            raise Fault(self.whole, UNENDED)
        self.number += 1
        return self.lines[self.number - 1]

    def read(self):
        first = self.next()
        if first not in [f"t1log {version}" for version in self.versions]:
            raise Fault(1, VERSION)
        self.config(int(first[-1]))
        m = ENTRY.fullmatch(self.next())
        if not m:
            self.syntax()
        self.log.entry = int(m[1], 16)
        line = self.blocks()
        for strand in range(self.log.cores * self.log.strands_of_core):
            line = self.strand(strand, line)
        self.tail(line)
        if self.number < self.whole or self.rest:
            raise Fault(self.whole, UNENDED)
        return self.log

    def config(self, version):
        m = CONFIG[version].fullmatch(self.next())
        if not m:
            self.syntax()
        log, groups = self.log, m.groups()
        if version == 2:
            log.chip, log.hyper, groups = groups[0], groups[1] == "1", groups[2:]
            self.demand(log.chip != "t1" or log.hyper)
        log.cores, log.strands_of_core, log.ram, log.sets, log.budget = map(int, groups)
        self.demand(1 <= log.cores <= 8 and 1 <= log.strands_of_core <= log.shape.strands)
        self.demand(65536 <= log.ram <= 268435456 and log.ram % 65536 == 0)
        self.demand(1 <= log.sets <= log.shape.sets and log.sets & (log.sets - 1) == 0)
        self.demand(1 <= log.budget <= 1000000 and log.budget * log.cores * log.strands_of_core <= 1000000)

    def blocks(self):
        least = 0
        while True:
            line = self.next()
            m = BLOCK.fullmatch(line)
            if not m:
                return line
            addr, block = int(m[1], 16), bytes.fromhex(m[2])
            self.demand(addr % 32 == 0 and least <= addr < self.log.ram and any(block))
            self.log.image[addr] = block
            least = addr + 32

    def strand(self, strand, line):
        """Items and the end of a strand; the answer is the line behind them."""
        made = Strand()
        while True:
            if m := ACCESS.fullmatch(line):
                made.items.append(self.access(strand, len(made.items), m))
            elif m := BARRIER.fullmatch(line):
                if (m[1], m[2]) != (str(strand), str(len(made.items))):
                    self.syntax()
                mask = int(m[3], 16) if m[3] else 0
                self.demand(mask <= 0x7F)
                made.items.append(Item(strand, len(made.items), "flush" if m[4] else "membar", mask=mask, line=self.number))
            elif m := END.fullmatch(line):
                if m[1] != str(strand):
                    self.syntax()
                made.end, made.trap = m[2] or m[5], m[8] or ""
                made.units, made.pc = int(m[3] or m[6]), int(m[4] or m[7], 16)
                self.demand(made.units <= GREATEST and int(made.trap or "0", 16) <= 0x1FF)
                self.log.strands.append(made)
                return self.next()
            else:
                self.syntax()
            line = self.next()

    def access(self, strand, number, m):
        kind, size = m[3], int(m[5])
        got = None if m[6] == "-" else m[6]
        put = None if m[7] == "-" else m[7]
        if (m[1], m[2]) != (str(strand), str(number)):
            self.syntax()
        if (got is None) != (kind == "store") or (kind in ("fetch", "load") and put is not None) or (kind == "store" and put is None):
            self.syntax()
        if any(value is not None and len(value) != 2 * size for value in (got, put)):
            self.syntax()
        addr, ram = int(m[4], 16), self.log.ram
        self.demand(size in ((4,) if kind == "fetch" else (1, 2, 4, 8)))
        self.demand(addr % size == 0 and (addr < ram or (addr >= IO and kind in ("load", "store"))))
        numbers = [int(n) for n in (m[9], m[10], m[11]) if n is not None]
        self.demand(all(n <= GREATEST for n in numbers))
        item = Item(strand, number, kind, addr, size, got, put, how=m[8] or "M", line=self.number)
        if item.how == "M":
            item.index, item.seen = numbers
        else:
            item.time = numbers[0]
        return item

    def tail(self, line):
        """Commits, the order, the console and the end."""
        log, commits, order, short = self.log, True, True, False
        while line != "end":
            if (m := COMMIT.fullmatch(line)) and commits and m[1] == str(len(log.commits)):
                self.commit(m)
            elif (m := ORDER.fullmatch(line)) and order:
                commits = False
                strand, number = int(m[1]), int(m[2])
                self.demand(strand < len(log.strands) and number <= GREATEST)
                log.order.append((strand, number))
            elif (m := CONSOLE.fullmatch(line)) and not short:
                commits = order = False
                short = len(m[1]) < 64
                log.console += m[1]
            else:
                self.syntax()
            line = self.next()

    def commit(self, m):
        log = self.log
        index, dest, strand, number = (int(m[k]) for k in range(1, 5))
        kills = [kill.split(".") for kill in m[9].split()]
        kills = [(int(core), cache, int(at), int(way)) for core, cache, at, way in kills]
        item = log.item_at((strand, number))
        self.demand(item is not None and item.how == "M" and item.index == index)
        self.demand(dest <= log.shape.banks)
        way = int(m[5]) if m[5] else None
        self.demand(way is None or way < log.shape.caches["i" if item.kind == "fetch" else "d"][1])
        for core, cache, at, killed in kills:
            sets, ways = log.shape.caches[cache]
            self.demand(core < log.cores and at < sets and killed < ways)
        log.commits.append(Commit(index, dest, item, way, int(m[7], 16) if m[7] else None, kills))


def read_log(text, versions=(1, 2)):
    """The log of a text of bytes. Raises the first fault."""
    return Reader(text, versions).read()


# ---- the verdict

def unlisted(log):
    """The first line of the order that names no access or one again, else the least access without a line."""
    named = set()
    for at, place in enumerate(log.order):
        item = log.item_at(place)
        if item is None or not item.is_access or place in named:
            return f"{place[0]}.{place[1]}"
        named.add(place)
        item.at = at
    for strand in log.strands:
        for item in strand.items:
            if item.is_access and (item.strand, item.number) not in named:
                return item.name
    return None


def crossed(log, is_first, is_second):
    """The least item of a kind that stands behind a later one of another kind of its strand, and the least such one."""
    for strand in log.strands:
        lowest, below = len(log.order), []  # the least line of the order of a later one
        for item in reversed(strand.items):
            below.append(lowest)
            if is_second(item):
                lowest = min(lowest, item.at)
        for item, least in zip(strand.items, reversed(below)):
            if is_first(item) and least < item.at:
                return item.name, next(y.name for y in strand.items[item.number + 1 :] if is_second(y) and y.at < item.at)
    return None


def barrier_crossed(log):
    """The least barrier with an earlier write that stands behind a later read, and the least such read."""
    for strand in log.strands:
        lowest, below = len(log.order), []  # the least line of the order of a later read
        for item in reversed(strand.items):
            below.append(lowest)
            if item.kind in READS:
                lowest = min(lowest, item.at)
        last = -1  # the greatest one of an earlier write
        for item, least in zip(strand.items, reversed(below)):
            if item.kind in WRITES:
                last = max(last, item.at)
            if item.is_barrier and least < last:
                return item.name, next(y.name for y in strand.items[item.number + 1 :] if y.kind in READS and y.at < last)
    return None


def sources_of(log):
    """For each read, by its name: for each of its bytes the write that it should have come from, None for the image.

    The source of a byte is the last in the order of the changing writes of it that stand before the read, and, of a
    load or atomic, of those that are earlier in its own strand. Only for an order that lists each access once.
    """
    own = {}
    for strand in log.strands:
        latest = {}
        for item in strand.items:
            if item.kind in ("load", "atomic"):
                own[item.name] = [latest.get(byte) for byte in range(item.addr, item.addr + item.size)]
            if item.put is not None:
                for byte in range(item.addr, item.addr + item.size):
                    if byte not in latest or latest[byte].at < item.at:
                        latest[byte] = item
    found, last = {}, {}
    for place in log.order:
        item = log.item_at(place)
        span = range(item.addr, item.addr + item.size)
        if item.kind in READS:
            before = [last.get(byte) for byte in span]
            theirs = own.get(item.name, [None] * item.size)
            found[item.name] = [later(a, b) for a, b in zip(before, theirs)]
        if item.put is not None:
            for byte in span:
                last[byte] = item
    return found


def later(a, b):
    return b if a is None or (b is not None and b.at > a.at) else a


def source_by_definition(log, read, byte):
    """The same of one byte, by the definition and nothing else."""
    candidates = [
        write
        for strand in log.strands
        for write in strand.items
        if write.writes(byte)
        and (write.at < read.at or (read.kind != "fetch" and write.strand == read.strand and write.number < read.number))
    ]
    return max(candidates, key=lambda write: write.at, default=None)


def wrong_byte(log, read, sources):
    """The lowest byte of a read that is not that of its source, -1 for a read of I/O that is not 0, None where all are right."""
    if read.addr >= IO:
        return None if int(read.got, 16) == 0 else -1
    for k, source in enumerate(sources):
        byte = read.addr + k
        if read.byte_got(byte) != (source.byte_put(byte) if source else log.byte_of_image(byte)):
            return k
    return None


def verdict(log):
    """holds, or broken, the first axiom that fails, and its places."""
    if (first := unlisted(log)) is not None:
        return f"broken Listing {first} -"
    if found := crossed(log, lambda x: x.kind in READS, lambda y: y.is_access):
        return "broken LoadOp " + " ".join(found)
    if found := crossed(log, lambda x: x.kind in WRITES, lambda y: y.kind in WRITES):
        return "broken StoreStore " + " ".join(found)
    sources = sources_of(log)
    for place in log.order:
        item = log.item_at(place)
        if item.kind in READS and (k := wrong_byte(log, item, sources[item.name])) is not None:
            source = sources[item.name][k] if k >= 0 else None
            return f"broken Value {item.name} {source.name if source else '-'}"
    if found := barrier_crossed(log):
        return "broken Barrier " + " ".join(found)
    return "holds"


def main():
    try:
        print(verdict(read_log(sys.stdin.buffer.read())))
    except Fault as fault:
        print(fault)


if __name__ == "__main__":
    main()

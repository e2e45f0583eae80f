#!/usr/bin/env python3
"""Why a read of a log got its value, and what a log comes to, in plain words.

  tools/plain_why.py why S.I <LOG
  tools/plain_why.py stats [--top N] <LOG

Written from definitions over the log alone, which stand beside each line as comments, so that proved commands can be
compared with it. Status 0; 8 and the line of `check` where the order is broken; 2 where the text is no log, or the
place is no read (`no read S.I`).
"""
import sys
from collections import defaultdict

from read_log import IO, READS, Fault, read_log, sources_of, verdict

LOADS = {0: "lduw", 1: "ldub", 2: "lduh", 3: "ldtw", 4: "stw", 5: "stb", 6: "sth", 7: "sttw", 8: "ldsw", 9: "ldsb", 10: "ldsh", 11: "ldx", 13: "ldstub", 14: "stx", 15: "swap"}
LINES = {"d": 16, "i": 32}  # bytes of a line of each L1 cache
STORES = (4, 5, 6, 7, 14)


# ---- facts of a log, each a definition of two or three lines

def cache_of(item):
    """A fetch goes through the instruction cache, all else through the data cache."""
    return "i" if item.kind == "fetch" else "d"


def line_of(item):
    return item.addr // LINES[cache_of(item)]


def dest_text(log, dest):
    return "the I/O bridge" if dest == log.shape.banks else f"bank {dest}"


def commit_of(log, item):
    """The commit that names an item, or None: of an item that is placed M, where the log has that commit."""
    return log.commits[item.index] if item.how == "M" and item.index < len(log.commits) and log.commits[item.index].item is item else None


def passed_by(log, load):
    """The earlier stores of its strand that stand behind a load in the memory order."""
    return [x for x in log.strands[load.strand].items[: load.number] if x.kind == "store" and x.at > load.at]


def last_fill(log, read, below):
    """The greatest commit below a time that has a way, is of the read's core and kind, and of the read's line."""
    for c in reversed(log.commits[:below]):
        if c.way is not None and c.item.kind == read.kind and log.core_of(c.item) == log.core_of(read) and line_of(c.item) == line_of(read):
            return c
    return None


def loss_of(log, fill, below):
    """The least commit above a fill and below a time that kills its way in its set of its core's cache, or that fills
    this way with another line; and whether it kills."""
    cache, core = cache_of(fill.item), log.core_of(fill.item)
    sets = log.shape.caches[cache][0]
    at = line_of(fill.item) % sets
    for c in log.commits[fill.index + 1 : below]:
        if (core, cache, at, fill.way) in c.kills:
            return c, True
        fills = c.way == fill.way and c.item.kind == fill.item.kind and log.core_of(c.item) == core
        if fills and line_of(c.item) % sets == at and line_of(c.item) != line_of(fill.item):
            return c, False
    return None, False


# ---- the instruction of a read

def register(number):
    return "%" + "goli"[number >> 3] + str(number & 7)


def instruction_of(log, item):
    """The word of the last fetch before an access in its strand, as the disassembler writes it, and its address."""
    fetch = next((x for x in reversed(log.strands[item.strand].items[: item.number]) if x.kind == "fetch"), None)
    if fetch is None:
        return None
    word = int(fetch.got, 16)
    op, op3 = word >> 30, word >> 19 & 63
    rd, rs1, rs2 = (register(word >> k & 31) for k in (25, 14, 0))
    number = (word & 0x1FFF) - (0x2000 if word & 0x1000 else 0)
    by_number, space = word & 0x2000, "%asi" if word & 0x2000 else str(word >> 5 & 255)
    if op != 3:
        return f".word 0x{word:08x}", fetch.addr
    if op3 in (60, 62):
        return f"{'casa' if op3 == 60 else 'casxa'} [{rs1}] {space}, {rs2}, {rd}", fetch.addr
    name = LOADS.get(op3 & 15)
    if name is None or op3 > 31:
        return f".word 0x{word:08x}", fetch.addr
    address = f"[{rs1}{number:+d}]" if by_number else f"[{rs1}+{rs2}]"
    if op3 & 16:
        name, address = name + "a", f"{address} {space}"
    return (f"{name} {rd}, {address}" if (op3 & 15) in STORES else f"{name} {address}, {rd}"), fetch.addr


# ---- why

def why(log, read, sources):
    """The lines of the account of a read."""
    lines = [head_line(log, read)]
    for first, last, source, right in runs_of(log, read, sources):
        lines.append(source_line(log, read, first, last, source, right))
    # of each source that stands before the read, once, in order of bytes: when it was sent and which commit it is
    for source in dict.fromkeys(s for s in sources if s is not None and s.at < read.at):
        if c := commit_of(log, source):
            lines.append(f"{source.kind} {source.name} was sent at time {source.seen} and is commit {c.index} at {dest_text(log, c.dest)}")
    lines += place_lines(log, read)
    # passed: earlier stores of its strand behind it in the order
    if read.kind == "load" and (passed := passed_by(log, read)):
        lines.append(f"load {read.name} passed {len(passed)} store{'s' if len(passed) > 1 else ''} of its strand: " + " ".join(x.name for x in passed))
    return lines


def head_line(log, read):
    """Kind, place, what it got and of where; of an atomic what it put; then its instruction, and where that stands."""
    line = f"{read.kind} {read.name} got {read.got} of {read.addr:010x}"
    if read.kind == "atomic":
        line += f" and put {read.put or 'nothing'}"
    code = None if read.kind == "fetch" else instruction_of(log, read)
    return line + (f": {code[0]} at {code[1]:010x}" if code else "")


def runs_of(log, read, sources):
    """Neighbouring bytes that have one source and are all right or all not: first, last, source, whether right."""
    runs = []
    for k, source in enumerate(sources):
        byte = read.addr + k
        wants = 0 if byte >= IO else source.byte_put(byte) if source else log.byte_of_image(byte)
        right = read.byte_got(byte) == wants
        if runs and runs[-1][2] is source and runs[-1][3] == right:
            runs[-1][1] = k
        else:
            runs.append([k, k, source, right])
    return runs


def source_line(log, read, first, last, source, right):
    """Which write these bytes are those of, or should be."""
    one = first == last
    those, them = ("that", "it") if one else ("those", "them")
    begin = f"byte {first}" if one else f"bytes {first} to {last}"
    begin += f" {'is' if one else 'are'}" if right else " should be"
    end = "" if right else f", and {'is' if one else 'are'} not"
    if read.addr >= IO:
        return f"{begin} 0, as of all I/O{end}"  # a read of I/O gets 0
    if source is None:
        return f"{begin} {those} of the image, no write of {them} stands before it{end}"  # no candidate
    if source.at < read.at:
        return f"{begin} {those} of {source.kind} {source.name}, the last write of {them} before it{end}"
    # an earlier store of its own strand, which stands behind the read in the order
    line = f"{begin} {those} of {source.kind} {source.name} of its own strand, which stands behind it"
    if read.how == "F":
        line += f": forwarded at time {read.time}"
        if c := commit_of(log, source):
            line += f", seen by others from commit {c.index} on"
    return line + end


def place_lines(log, read):
    """How it was answered: by a bank (and why it was not in the L1 cache), by the L1 cache, by the buffer."""
    core, cache = log.core_of(read), "instruction" if read.kind == "fetch" else "data"
    name = f"{read.kind} {read.name}"
    if read.how == "F":
        return []  # told with its source
    if read.how == "H":
        fill = last_fill(log, read, read.time)
        since = f": core {core} has had the line since {fill.item.name} filled it as commit {fill.index}" if fill else ""
        return [f"{name} hit at time {read.time}{since}"]
    sent = f"was sent at time {read.seen} and is commit {read.index}"
    if read.addr >= IO:
        return [f"{name} went to the I/O bridge, {sent}"]
    if read.kind == "atomic":
        return [f"{name} went to its bank, {sent}: it reads memory after {read.index} commits"]
    missed = f"{name} missed, {sent}: it reads memory after {read.index} commits"
    fill = last_fill(log, read, read.seen)
    if fill is None:
        return [f"core {core} had not filled the line before", missed]
    lost, killed = loss_of(log, fill, read.seen)
    if lost is None:
        return [f"core {core} had the line, which {fill.item.name} had filled as commit {fill.index}", missed]
    slot = f"core {core}, set {line_of(read) % log.shape.caches[cache_of(read)][0]} way {fill.way}"
    had = f"which {fill.item.name} had filled as commit {fill.index}"
    if not killed:
        return [f"commit {lost.index} filled the {cache} line of {slot} anew, {had}", missed]
    # evicted: the L2 line of 64 bytes that made room for the commit is that of the read
    evicts = f"evicted {lost.evicted:010x} and " if lost.evicted == read.addr // 64 * 64 else ""
    return [f"commit {lost.index} {evicts}killed the {cache} line of {slot}, {had}", missed]


# ---- stats

def stats(log, sources, top):
    """The lines of what a log comes to."""
    items = [log.item_at(place) for place in log.order]
    n = {kind: sum(x.kind == kind for x in items) for kind in ("fetch", "load", "store", "atomic")}  # by kind, fetches apart
    loads = [x for x in items if x.kind == "load"]
    how = {letter: sum(x.how == letter for x in loads) for letter in "HFM"}  # a hit, forwarded, a miss
    kills = sum(len(c.kills) for c in log.commits)
    passed = sum(1 for x in loads if passed_by(log, x))  # loads with an earlier store of their strand behind them
    lines = [
        f"accesses {len(items)} (fetches {n['fetch']} loads {n['load']} stores {n['store']} atomics {n['atomic']}), commits {len(log.commits)}, kills {kills}",
        f"loads: {how['H']} hits, {how['F']} forwarded, {how['M']} misses; {passed} passed a store of their strand",
    ]
    lines += address_lines(log, items, sources, top) + lock_lines(items)
    return lines + ["", "strand  units  loads misses stores atomics passed  end"] + [strand_line(log, s) for s in range(len(log.strands))]


def address_lines(log, items, sources, top):
    """Words of 8 bytes, by rank: 4 times the reads from other strands and 2 times the kills. Those of rank 0 are left out."""
    words = defaultdict(lambda: {"strands": set(), "load": 0, "store": 0, "atomic": 0, "others": 0, "kills": 0})
    for x in items:
        if x.kind == "fetch":
            continue
        word = words[x.addr // 8 * 8]
        word["strands"].add(x.strand)
        word[x.kind] += 1
        # from others: a byte of it has its source in another strand
        word["others"] += x.kind in READS and any(s is not None and s.strand != x.strand for s in sources[x.name])
        c = commit_of(log, x)
        word["kills"] += len(c.kills) if c else 0  # of the commits of its accesses
    rank = {addr: 4 * w["others"] + 2 * w["kills"] for addr, w in words.items()}
    chosen = [addr for addr in sorted(words, key=lambda a: (-rank[a], a)) if rank[addr] > 0][:top]
    lines = ["", "address      strands  loads stores atomics  from others  kills"] if chosen else []
    for addr in chosen:
        w = words[addr]
        lines.append(f"{addr:010x}{len(w['strands']):10}{w['load']:7}{w['store']:7}{w['atomic']:8}{w['others']:13}{w['kills']:7}")
    return lines


def holds_of(items):
    """A lock is held from an atomic that puts something other than 0 in the place of 0 to the next store of 0 there by
    its strand, where no other atomic took it in between."""
    taken, holds = {}, defaultdict(list)
    for x in items:
        if x.kind == "atomic" and x.put is not None and int(x.got, 16) == 0 and int(x.put, 16) != 0:
            taken[x.addr] = x
        elif x.kind == "store" and int(x.put, 16) == 0 and x.addr in taken and taken[x.addr].strand == x.strand:
            holds[x.addr].append((taken.pop(x.addr), x))
    return holds


def lock_lines(items):
    lines = []
    for addr, holds in sorted(holds_of(items).items()):
        by = [sum(take.strand == s for take, _ in holds) for s in {take.strand for take, _ in holds}]
        tries = sum(x.kind == "atomic" and x.addr == addr for x in items)  # atomics of that address
        over = sum(a[0].strand != b[0].strand for a, b in zip(holds, holds[1:]))  # neighbours of different strands
        spans = [give.index - take.index for take, give in holds]  # commits from the one to the other
        longest = holds[spans.index(max(spans))][0]
        lines += ["", f"lock {addr:010x}: held {len(holds)} times by {len(by)} strands ({min(by)} to {max(by)} each), {tries} tries, handed over {over} times; for {sorted(spans)[len(spans) // 2]} commits (median), {max(spans)} at most ({longest.name})"]
    return lines


def strand_line(log, s):
    strand = log.strands[s]
    of = lambda kind: [x for x in strand.items if x.kind == kind]
    misses, passed = sum(x.how == "M" for x in of("load")), sum(1 for x in of("load") if passed_by(log, x))
    end = strand.end + (f" {strand.trap}" if strand.trap else "")
    return f"{s:6}{strand.units:7}{len(of('load')):7}{misses:7}{len(of('store')):7}{len(of('atomic')):8}{passed:7}  {end}"


# ---- the commands

def answer(words, text):
    """The lines of the output, and the status."""
    try:
        log = read_log(text)
    except Fault as fault:
        return [str(fault)], 2
    said = verdict(log)
    if words[0] == "stats":
        if said != "holds":
            return [said], 8
        return stats(log, sources_of(log), int(words[2]) if words[1:2] == ["--top"] else 10), 0
    s, i = map(int, words[1].split("."))
    read = log.item_at((s, i))
    if read is None or read.kind not in READS:
        return [f"no read {s}.{i}"], 2
    if said == "holds":
        return why(log, read, sources_of(log)[read.name]), 0
    # of an order that breaks Value the account is told too, with what should be
    return [said] + (why(log, read, sources_of(log)[read.name]) if said.startswith("broken Value") else []), 8


def main():
    if sys.argv[1:2] not in (["why"], ["stats"]):
        sys.exit(__doc__)
    lines, status = answer(sys.argv[1:], sys.stdin.buffer.read())
    print("\n".join(lines))
    sys.exit(status)


if __name__ == "__main__":
    main()

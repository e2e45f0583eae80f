// ---- The reader of logs ----------------------------------------------------------------------------------------
// A text becomes a log, or the first line at fault is named with its kind, as `t1sim check` names it. The forms and
// the ranges are those of docs/FORMATS.md, "The log"; version 2 is that of the chip with eight banks.

const MOST_BYTES = 67108864;
const GREATEST = 4294967295;
const IO = 2 ** 39; // addresses from here on are I/O
const FETCH = 0, LOAD = 1, STORE = 2, ATOMIC = 3, MEMBAR = 4, FLUSH = 5;
const KINDS = ['fetch', 'load', 'store', 'atomic', 'membar', 'flush'];
// Banks, strands of a core, sets of a bank, and sets, ways and bytes of a line of each L1 cache.
const SHAPES = {
  t1: { banks: 4, strands: 4, sets: 1024, i: { sets: 128, ways: 4, line: 32 }, d: { sets: 128, ways: 4, line: 16 } },
  t2: { banks: 8, strands: 8, sets: 512, i: { sets: 64, ways: 8, line: 32 }, d: { sets: 128, ways: 4, line: 16 } },
};

// The first line at fault of a text, from 1; 0 where there is no line.
class Fault extends Error {
  constructor(line, kind, what, text) { super(what); this.line = line; this.kind = kind; this.text = text; }
}

class Item {
  constructor(s, i, kind, line) {
    this.s = s; this.i = i; this.kind = kind; this.line = line;
    this.addr = -1; this.size = 0; this.got = null; this.put = null; // values are hexadecimal digits, or null
    this.how = ''; this.time = -1; this.index = -1; this.seen = -1; this.mask = 0; // how: M, H or F
    this.commit = null; this.pos = -1; this.row = -1; this.fold = null;
    this.runs = null; this.right = true; this.readers = null; this.passed = 0; this.nth = 0;
  }
  get name() { return this.s + '.' + this.i; }
  get isAccess() { return this.kind <= ATOMIC; }
  get isRead() { return this.kind !== STORE && this.kind <= ATOMIC; }
  get isWrite() { return this.kind === STORE || this.kind === ATOMIC; }
  get isBarrier() { return this.kind === FLUSH || (this.kind === MEMBAR && (this.mask & 0x62) !== 0); }
  get isIo() { return this.addr >= IO; }
  get source() { return this.runs && this.runs.length ? this.runs[0].write : null; } // of its lowest byte
}

const FORMS = (() => {
  const n = '(0|[1-9][0-9]*)', h = '[0-9a-f]';
  const sizes = `cores ${n} strands ${n} ram ${n} sets ${n} budget ${n}`;
  return {
    config: [null, new RegExp(`^config ${sizes}$`), new RegExp(`^config chip (t1|t2) hyper ([01]) ${sizes}$`)],
    entry: new RegExp(`^entry (${h}{10})$`),
    block: new RegExp(`^m (${h}{10}) (${h}{64})$`),
    access: new RegExp(`^i ${n} ${n} (fetch|load|store|atomic) (${h}{10}) ${n} (${h}+|-) (${h}+|-) (?:([HF]) ${n}|M ${n} ${n})$`),
    barrier: new RegExp(`^i ${n} ${n} (?:membar (${h}{2})|flush)$`),
    end: new RegExp(`^e ${n} (?:(halted|spent) ${n} (${h}{16})|(fault) ${n} (${h}{16}) (${h}{3}))$`),
    commit: new RegExp(`^c ${n} ${n} ${n} ${n} (?:${n}|-) (?:(${h}{10})|-)((?: ${n}\\.[di]\\.${n}\\.${n}){0,64})$`),
    order: new RegExp(`^o ${n} ${n}$`),
    console: new RegExp(`^k ((?:${h}{2}){1,32})$`),
  };
})();

class Reader {
  constructor(text) {
    this.lines = text.split('\n');
    this.rest = this.lines.pop(); // what stands behind the last line feed is no line
    this.at = 0; // lines that were read
    this.log = null;
  }
  syntax(what) { throw new Fault(this.at, 'Syntax', what, this.lines[this.at - 1].slice(0, 400)); }
  demand(holds, what) { if (!holds) throw new Fault(this.at, 'Range', what, this.lines[this.at - 1].slice(0, 400)); }
  unended(what) { const n = this.lines.length; throw new Fault(n, 'Unended', what, n ? this.lines[n - 1].slice(0, 400) : this.rest.slice(0, 400)); }
  next() {
    if (this.at === this.lines.length) this.unended('The text ends before the line "end" and its line feed.');
    return this.lines[this.at++];
  }

  read() {
    const first = this.next();
    if (first !== 't1log 1' && first !== 't1log 2') throw new Fault(1, 'Version', versionHint(first), first.slice(0, 400));
    this.config(first === 't1log 2' ? 2 : 1);
    const m = FORMS.entry.exec(this.next());
    if (!m) this.syntax('Here the line "entry" has to stand.');
    this.log.entry = parseInt(m[1], 16);
    let line = this.blocks();
    for (let s = 0; s < this.log.cores * this.log.per; s++) line = this.strand(s, line);
    this.tail(line);
    if (this.at < this.lines.length || this.rest !== '') this.unended('The text goes on behind the line "end".');
    return this.log;
  }

  config(version) {
    const m = FORMS.config[version].exec(this.next());
    if (!m) this.syntax('Here the line "config" has to stand.');
    const [chip, hyper] = version === 2 ? [m[1], m[2] === '1'] : ['t1', false];
    const [cores, per, ram, sets, budget] = m.slice(version === 2 ? 3 : 1).map(Number), shape = SHAPES[chip];
    this.demand(version === 1 || chip !== 't1' || hyper, 'Such a machine has a log of version 1.');
    this.demand(cores >= 1 && cores <= 8 && per >= 1 && per <= shape.strands, 'The cores or their strands are outside the limits.');
    this.demand(ram >= 65536 && ram <= 268435456 && ram % 65536 === 0, 'The RAM is outside the limits.');
    this.demand(sets >= 1 && sets <= shape.sets && (sets & (sets - 1)) === 0, 'The sets are outside the limits.');
    this.demand(budget >= 1 && budget <= 1000000 && budget * cores * per <= 1000000, 'The budget is outside the limits.');
    this.log = { version, chip, hyper, shape, cores, per, ram, sets, budget, entry: 0, image: new Map(), strands: [], commits: [], places: [], console: '' };
  }

  // the blocks of the image; the answer is the line behind them
  blocks() {
    for (let least = 0; ;) {
      const line = this.next(), m = FORMS.block.exec(line);
      if (!m) return line;
      const addr = parseInt(m[1], 16);
      this.demand(addr % 32 === 0 && addr >= least && addr < this.log.ram && !/^0+$/.test(m[2]), 'A block is at no multiple of 32, outside RAM, not ascending or all zeros.');
      this.log.image.set(addr, m[2]);
      least = addr + 32;
    }
  }

  // the items and the end of a strand; the answer is the line behind them
  strand(s, line) {
    const items = [];
    for (; ; line = this.next()) {
      let m = FORMS.access.exec(line);
      if (m) { items.push(this.access(s, items.length, m)); continue; }
      if ((m = FORMS.barrier.exec(line))) {
        if (+m[1] !== s || +m[2] !== items.length) this.syntax('The strands are not in order, or their items do not count up.');
        const item = new Item(s, items.length, m[3] === undefined ? FLUSH : MEMBAR, this.at);
        item.mask = m[3] === undefined ? 0 : parseInt(m[3], 16);
        this.demand(item.mask <= 0x7f, 'The mask is above 7f.');
        items.push(item);
        continue;
      }
      if (!(m = FORMS.end.exec(line))) this.syntax('Here an item of strand ' + s + ' or its end has to stand.');
      if (+m[1] !== s) this.syntax('The strands are not in order.');
      const units = +(m[3] || m[6]), trap = m[8] || '';
      this.demand(units <= GREATEST && parseInt(trap || '0', 16) <= 0x1ff, 'The units or the type of the trap are out of range.');
      this.log.strands.push({ items, end: m[2] || m[5], units, pc: m[4] || m[7], trap });
      return this.next();
    }
  }

  access(s, i, m) {
    const it = new Item(s, i, KINDS.indexOf(m[3]), this.at), ram = this.log.ram;
    if (+m[1] !== s || +m[2] !== i) this.syntax('The strands are not in order, or their items do not count up.');
    it.addr = parseInt(m[4], 16);
    it.size = +m[5];
    if (m[6] !== '-') it.got = m[6];
    if (m[7] !== '-') it.put = m[7];
    const wants = it.isRead === (it.got !== null) && (it.kind === ATOMIC || (it.kind === STORE) === (it.put !== null));
    if (!wants) this.syntax('A fetch and a load put nothing, a store gets nothing.');
    for (const v of [it.got, it.put]) if (v !== null && v.length !== 2 * it.size) this.syntax('A value has not two digits for each byte.');
    this.demand(it.kind === FETCH ? it.size === 4 : it.size === 1 || it.size === 2 || it.size === 4 || it.size === 8, 'No access of this kind has this size.');
    this.demand(it.addr % it.size === 0, 'The address is no multiple of the size.');
    this.demand(it.addr < ram || (it.isIo && (it.kind === LOAD || it.kind === STORE)), 'The address is not one that such an access reaches.');
    it.how = m[8] || 'M';
    if (it.how === 'M') { it.index = +m[10]; it.seen = +m[11]; } else it.time = +m[9];
    this.demand(it.index <= GREATEST && it.seen <= GREATEST && it.time <= GREATEST, 'A number is above 4294967295.');
    return it;
  }

  // commits, the memory order, the console, the end
  tail(line) {
    const log = this.log;
    for (let part = 0, short = false; line !== 'end'; line = this.next()) {
      let m;
      if (part === 0 && (m = FORMS.commit.exec(line)) && +m[1] === log.commits.length) this.commit(m);
      else if (part <= 1 && (m = FORMS.order.exec(line))) {
        part = 1;
        this.demand(+m[1] < log.strands.length && +m[2] <= GREATEST, 'There is no such strand.');
        log.places.push([+m[1], +m[2]]);
      } else if (!short && (m = FORMS.console.exec(line))) {
        part = 2;
        short = m[1].length < 64;
        log.console += m[1];
      } else this.syntax('The line has no form that is allowed here, or is out of count.');
    }
  }

  commit(m) {
    const log = this.log, [index, dest, s, i] = [+m[1], +m[2], +m[3], +m[4]];
    const item = log.strands[s] && log.strands[s].items[i];
    this.demand(item && item.how === 'M' && item.index === index, 'The commit names no access that is placed at its index.');
    this.demand(dest <= log.shape.banks, 'There is no such destination.');
    const way = m[5] === undefined ? -1 : +m[5];
    this.demand(way < log.shape[item.kind === FETCH ? 'i' : 'd'].ways, 'There is no such way.');
    const kills = [];
    for (const text of m[7] === '' ? [] : m[7].slice(1).split(' ')) {
      const [core, cache, set, killed] = text.split('.'), shape = log.shape[cache];
      this.demand(+core < log.cores && +set < shape.sets && +killed < shape.ways, 'A kill names no copy that there can be.');
      kills.push({ core: +core, cache, set: +set, way: +killed });
    }
    item.commit = { index, dest, item, way, evicted: m[6] === undefined ? -1 : parseInt(m[6], 16), kills };
    log.commits.push(item.commit);
  }
}

function versionHint(first) {
  if (first === 't1brief 1' || first === 't1brief 2') return 'This is a summary. The log is what the same command writes without --brief.';
  if (/^t1log [12]\r$/.test(first)) return 'Its lines end with CR and LF. Those of a log end with LF alone: something on the way changed it.';
  return 'This is no log: its first line is neither "t1log 1" nor "t1log 2".';
}

// The log of a text in which each character is a byte. Throws the first fault.
function readLog(text) { return new Reader(text).read(); }

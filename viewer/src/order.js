// ---- The memory order ------------------------------------------------------------------------------------------
// Positions, the source of each read, and the verdict, by the definitions that `t1sim check` judges by
// (docs/FORMATS.md, "The verdict on a log").

// Gives each access its position in the order. `log.order` has the items that are listed, `log.unlisted` the name of
// the first line that names no access or one again, else of the least access without a line, else null.
function placeAll(log) {
  log.order = [];
  log.unlisted = null;
  for (const [s, i] of log.places) {
    const it = log.strands[s].items[i];
    if (!it || !it.isAccess || it.pos >= 0) log.unlisted = log.unlisted || s + '.' + i;
    else { it.pos = log.order.length; log.order.push(it); }
  }
  for (const strand of log.strands) {
    let nth = 0;
    for (const it of strand.items) {
      if (it.isAccess && it.pos < 0) log.unlisted = log.unlisted || it.name;
      if (it.kind === STORE) it.nth = nth++;
    }
  }
}

function byteOfImage(log, byte) {
  const block = log.image.get(byte - byte % 32);
  return block ? block.substr(2 * (byte % 32), 2) : '00';
}

// The source of a byte of a read is the last in the order of the changing writes of it that stand before the read, and,
// of a load or an atomic, of those that are earlier in its own strand. Bytes with one source are one run; a run without
// a write is the image's. An own write that stands before the read is among the first kind anyhow, so only those that
// stand behind it are kept aside.
function findSources(log) {
  const behind = ownWritesBehind(log), last = new Map();
  for (const it of log.order) {
    if (it.isRead) {
      const own = behind.get(it), end = it.addr + it.size;
      it.runs = [];
      for (let byte = it.addr; byte < end; byte++) {
        let write = last.get(byte) || null;
        const later = own && own[byte - it.addr];
        if (later) write = later;
        const run = it.runs[it.runs.length - 1];
        if (run && run.write === write) run.to = byte - it.addr;
        else it.runs.push({ from: byte - it.addr, to: byte - it.addr, write, right: true });
      }
      judge(log, it);
      if (it.kind !== FETCH) for (const { write } of it.runs) if (write) { const readers = write.readers = write.readers || []; if (readers[readers.length - 1] !== it) readers.push(it); }
    }
    if (it.put !== null) for (let byte = it.addr; byte < it.addr + it.size; byte++) last.set(byte, it);
  }
}

// For loads and atomics: the greatest own earlier write of each byte, where it stands behind them in the order.
function ownWritesBehind(log) {
  const found = new Map();
  for (const { items } of log.strands) {
    const latest = new Map();
    let greatest = -1; // position of a changing write so far
    for (const it of items) {
      if ((it.kind === LOAD || it.kind === ATOMIC) && greatest > it.pos) {
        const own = Array.from({ length: it.size }, (_, k) => latest.get(it.addr + k));
        if (own.some(w => w && w.pos > it.pos)) found.set(it, own.map(w => (w && w.pos > it.pos ? w : null)));
      }
      if (it.put === null) continue;
      greatest = Math.max(greatest, it.pos);
      for (let byte = it.addr; byte < it.addr + it.size; byte++) if (!latest.has(byte) || latest.get(byte).pos < it.pos) latest.set(byte, it);
    }
  }
  return found;
}

// Whether a read got what its sources give; of I/O it gets 0.
function judge(log, it) {
  if (it.isIo) { it.right = /^0*$/.test(it.got); it.runs = [{ from: 0, to: it.size - 1, write: null, right: it.right }]; return; }
  for (const run of it.runs) {
    const got = it.got.slice(2 * run.from, 2 * run.to + 2), { write } = run;
    if (write) { const at = it.addr + run.from - write.addr; run.right = write.put.slice(2 * at, 2 * at + got.length) === got; }
    else for (let k = run.from; k <= run.to; k++) if (byteOfImage(log, it.addr + k) !== it.got.substr(2 * k, 2)) run.right = false;
    if (!run.right) it.right = false;
  }
}

// The write of the lowest wrong byte of a read that is not right.
function wrongSource(log, it) {
  if (it.isIo) return null;
  for (const run of it.runs) if (!run.right) return run.write;
  return null;
}

// How many earlier stores of its strand a load passed: they stand behind it in the order.
function countPassed(log) {
  for (const strand of log.strands) {
    const greatest = strand.greatest = new Int32Array(strand.items.length + 1).fill(-1); // position of a store among the first k items
    strand.items.forEach((it, k) => { greatest[k + 1] = it.kind === STORE ? Math.max(greatest[k], it.pos) : greatest[k]; });
    for (const it of strand.items) it.passed = it.kind === LOAD && greatest[it.i] > it.pos ? passedBy(log, it).length : 0;
  }
}

function passedBy(log, it) {
  const { items, greatest } = log.strands[it.s], found = [];
  for (let k = it.i; k > 0 && greatest[k] > it.pos; k--) if (items[k - 1].kind === STORE && items[k - 1].pos > it.pos) found.push(items[k - 1]);
  return found.reverse();
}

// The least item of one sort that stands behind a later one of another sort of its strand, and the least such one.
function crossed(log, isFirst, isSecond) {
  for (const { items } of log.strands) {
    const least = leastBehind(log, items, isSecond);
    for (const x of items) if (isFirst(x) && least[x.i] < x.pos) return [x, items.find(y => y.i > x.i && isSecond(y) && y.pos < x.pos)];
  }
  return null;
}

// The least barrier that has an earlier write behind a later read in the order, and the least such read.
function barrierCrossed(log) {
  for (const { items } of log.strands) {
    const least = leastBehind(log, items, x => x.isRead);
    let last = -1;
    for (const x of items) {
      if (x.isWrite) last = Math.max(last, x.pos);
      if (x.isBarrier && least[x.i] < last) return [x, items.find(y => y.i > x.i && y.isRead && y.pos < last)];
    }
  }
  return null;
}

// For each item the least position of a later one of its strand of some sort.
function leastBehind(log, items, isSecond) {
  const least = new Int32Array(items.length + 1).fill(log.order.length);
  for (let k = items.length - 1; k > 0; k--) least[k - 1] = isSecond(items[k]) ? Math.min(least[k], items[k].pos) : least[k];
  return least;
}

// What `check` would print of the log: it holds, or the first axiom that fails and its places.
function verdictOf(log) {
  if (log.unlisted) return `broken Listing ${log.unlisted} -`;
  let two = crossed(log, x => x.isRead, y => y.isAccess);
  if (two) return `broken LoadOp ${two[0].name} ${two[1].name}`;
  two = crossed(log, x => x.isWrite, y => y.isWrite);
  if (two) return `broken StoreStore ${two[0].name} ${two[1].name}`;
  const wrong = log.order.find(x => !x.right);
  if (wrong) { const w = wrongSource(log, wrong); return `broken Value ${wrong.name} ${w ? w.name : '-'}`; }
  two = barrierCrossed(log);
  if (two) return `broken Barrier ${two[0].name} ${two[1].name}`;
  return 'holds';
}

// All that the page shows of an order.
function studyOrder(log) {
  placeAll(log);
  if (!log.unlisted) { findSources(log); countPassed(log); }
  log.verdict = verdictOf(log);
}

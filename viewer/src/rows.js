// ---- Rows: what is shown of an order, and where ----------------------------------------------------------------

const wordOf = addr => addr - addr % 8;

function isShown(it, filter) {
  return (it.kind !== FETCH || filter.fetches) && (!filter.picked.size || filter.picked.has(wordOf(it.addr)))
    && (!filter.range || (it.addr + it.size > filter.range[0] && it.addr <= filter.range[1])) && (filter.strand === null || it.s === filter.strand);
}

// One row for each access that is shown; loads that repeat what their strand just read are one row.
function layRows(view, filter) {
  const { log } = view, open = new Map(), rows = view.rows = [];
  for (const it of log.order) { it.row = -1; it.fold = null; }
  for (const it of log.order) {
    if (!isShown(it, filter)) { if (it.kind !== FETCH) open.delete(it.s); continue; }
    const o = open.get(it.s);
    if (filter.fold && o && it.kind === LOAD && o.first.addr === it.addr && o.first.size === it.size && o.first.got === it.got && o.first.source === it.source) {
      o.count++; o.last = it; it.row = o.row; it.fold = o;
      continue;
    }
    const row = { first: it, last: it, count: 1, row: rows.length, labelEnd: 0 };
    it.row = row.row; it.fold = row; rows.push(row);
    if (it.kind === LOAD) open.set(it.s, row); else if (it.kind !== FETCH) open.delete(it.s);
  }
  const at = view.rowAt = new Int32Array(log.order.length + 1); // the row at or behind each position
  for (let p = 0, r = 0; p < log.order.length; p++) { while (r < rows.length && rows[r].first.pos < p) r++; at[p] = r; }
  at[log.order.length] = rows.length;
  view.map = null;
  layBarriers(view);
}

// A barrier stands behind all that is earlier in its strand.
function layBarriers(view) {
  view.barriers = [];
  for (const { items } of view.log.strands) {
    let last = -1;
    for (const it of items) {
      if (it.isAccess) last = Math.max(last, it.pos);
      else view.barriers.push({ it, row: view.rowAt[Math.min(last + 1, view.log.order.length)] });
    }
  }
}

// The row above which a store was made: the first behind the fetch of its instruction.
function madeRow(view, it) {
  const fetch = fetchOf(view.log, it);
  return fetch ? view.rowAt[Math.min(fetch.pos + 1, view.log.order.length)] : it.row;
}

// An atomic that puts something in the place of 0 takes a lock, which the next store of 0 by its strand gives back.
function findLocks(log) {
  const held = new Map();
  log.locks = [];
  for (const it of log.order) {
    if (it.kind === ATOMIC && it.put !== null && /^0+$/.test(it.got) && !/^0+$/.test(it.put)) held.set(it.addr, it);
    else if (it.kind === STORE && /^0+$/.test(it.put) && held.has(it.addr) && held.get(it.addr).s === it.s) {
      log.locks.push({ take: held.get(it.addr), give: it });
      held.delete(it.addr);
    }
  }
}

const isFromOther = it => it.kind !== FETCH && it.runs !== null && it.runs.some(run => run.write && run.write.s !== it.s);

// The counts of a log, and for each word of memory how often it was used.
function count(log) {
  const words = new Map(), total = { fetch: 0, load: 0, store: 0, atomic: 0, commits: log.commits.length, kills: 0, hits: 0, forwarded: 0, misses: 0, passed: 0, reads: 0, wrong: 0 };
  for (const it of log.order) {
    total[KINDS[it.kind]]++;
    if (it.isRead) { total.reads++; if (!it.right) total.wrong++; }
    if (it.passed) total.passed++;
    if (it.kind === LOAD) total[it.how === 'H' ? 'hits' : it.how === 'F' ? 'forwarded' : 'misses']++;
    if (it.kind === FETCH) continue;
    const at = wordOf(it.addr);
    if (!words.has(at)) words.set(at, { at, load: 0, store: 0, atomic: 0, strands: new Set(), others: 0, kills: 0 });
    const word = words.get(at);
    word[KINDS[it.kind]]++;
    word.strands.add(it.s);
    if (isFromOther(it)) word.others++;
    if (it.commit) word.kills += it.commit.kills.length;
  }
  for (const c of log.commits) total.kills += c.kills.length;
  log.total = total;
  log.words = [...words.values()].sort((p, q) => 4 * q.others + 2 * q.kills - 4 * p.others - 2 * p.kills || q.strands.size - p.strands.size || p.at - q.at);
}

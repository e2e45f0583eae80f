// ---- What the log shows of the L1 caches -----------------------------------------------------------------------

const cacheOf = it => (it.kind === FETCH ? 'i' : 'd');
const coreOf = (log, it) => Math.floor(it.s / log.per);
const lineOf = (log, it) => Math.floor(it.addr / log.shape[cacheOf(it)].line);

// The last commit below a time that filled this core's line of the access.
function lastFill(log, it, below) {
  const core = coreOf(log, it), line = lineOf(log, it);
  for (let n = Math.min(below, log.commits.length) - 1; n >= 0; n--) {
    const c = log.commits[n];
    if (c.way >= 0 && c.item.kind === it.kind && coreOf(log, c.item) === core && lineOf(log, c.item) === line) return c;
  }
  return null;
}

// How a core lost the line that a commit had filled, below a time: the first later commit that killed the copy, or
// filled its way with another line.
function lossOf(log, fill, below) {
  const cache = cacheOf(fill.item), core = coreOf(log, fill.item), { sets } = log.shape[cache], set = lineOf(log, fill.item) % sets;
  for (let n = fill.index + 1; n < below && n < log.commits.length; n++) {
    const c = log.commits[n];
    if (c.kills.some(k => k.core === core && k.cache === cache && k.set === set && k.way === fill.way)) return { commit: c, killed: true, set };
    const fills = c.way === fill.way && c.item.kind === fill.item.kind && coreOf(log, c.item) === core && lineOf(log, c.item) % sets === set;
    if (fills && lineOf(log, c.item) !== lineOf(log, fill.item)) return { commit: c, killed: false, set };
  }
  return null;
}

// The commit that made a load or fetch miss, or null.
function killerOf(log, it) {
  if (it.how !== 'M' || it.isIo || it.kind > LOAD) return null;
  const fill = lastFill(log, it, it.seen), loss = fill && lossOf(log, fill, it.seen);
  return loss && loss.killed ? loss.commit : null;
}

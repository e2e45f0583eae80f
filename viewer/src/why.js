// ---- Why: the account of an access, in words -------------------------------------------------------------------
// A part of a line is a text or an item; items become buttons. Lines are lists of parts.

const destText = (log, dest) => (dest === log.shape.banks ? 'the I/O bridge' : 'bank ' + dest);

function headOf(view, it) {
  const { log } = view, parts = [`${KINDS[it.kind]} `, it, ` of ${it.size} byte${it.size > 1 ? 's' : ''} at ${hex(it.addr)}`];
  const name = nameOf(view.names, it.addr), code = it.kind === FETCH ? null : instructionOf(log, it);
  if (name) parts.push(` (${name})`);
  if (it.got !== null) parts.push(` got ${short(it.got)}`);
  if (it.put !== null) parts.push(`${it.got !== null ? ' and' : ''} put ${short(it.put)}`);
  const source = code && view.names && view.names.lines.get(code.pc);
  if (code) parts.push(`: ${source ? source.text : code.text || 'fetched'} at ${hex(code.pc)}`);
  if (source) parts.push(`, line ${source.line} of the text`);
  parts.push(`; line ${it.line} of the log` + (it.pos < 0 ? ', not in the order' : `, place ${it.pos} of the order`));
  return parts;
}

// For each run of bytes with one source, what that is, or should be; then of each source its commit.
function sourceLines(view, it) {
  const { log } = view, lines = [], told = new Set(), killer = killerOf(log, it);
  for (const { from, to, write, right } of it.runs) {
    const one = from === to, those = one ? 'that' : 'those', them = one ? 'it' : 'them', end = right ? '' : `, and ${one ? 'is' : 'are'} not`;
    const begin = `${one ? `byte ${from}` : `bytes ${from} to ${to}`} ${right ? (one ? 'is' : 'are') : 'should be'}`;
    if (it.isIo) lines.push([`${begin} 0, as of all I/O${end}`]);
    else if (!write) lines.push([`${begin} ${those} of the image: no write of ${them} stands before it${end}`]);
    else if (write.pos > it.pos) lines.push([`${begin} ${those} of store `, write, ` of its own strand, which stands behind it${it.how === 'F' ? `: forwarded at time ${it.time}` : ''}${write.commit ? `; others see it from commit ${write.index} on` : ''}${end}`]);
    else {
      lines.push([`${begin} ${those} of ${KINDS[write.kind]} `, write, `, the last write of ${them} before it${end}`]);
      if (write.commit && !told.has(write)) lines.push([`${KINDS[write.kind]} `, write, ` was sent at time ${write.seen} and is commit ${write.index} at ${destText(log, write.commit.dest)}`, ...(write.commit === killer ? [] : killParts(write.commit))]);
      told.add(write);
    }
  }
  return lines;
}

function killParts(commit) {
  const data = [...new Set(commit.kills.filter(k => k.cache === 'd').map(k => k.core))], code = [...new Set(commit.kills.filter(k => k.cache === 'i').map(k => k.core))];
  const parts = [];
  if (data.length) parts.push(`; it killed the data line of core${data.length > 1 ? 's' : ''} ${data.join(', ')}`);
  if (code.length) parts.push(`; it killed the instruction line of core${code.length > 1 ? 's' : ''} ${code.join(', ')}`);
  return parts;
}

function missLines(view, it) {
  const { log } = view, core = coreOf(log, it), fill = lastFill(log, it, it.seen), loss = fill && lossOf(log, fill, it.seen);
  if (!fill) return [[`core ${core} had not filled the line before`]];
  if (!loss) return [[`core ${core} had the line filled by `, fill.item, ` as commit ${fill.index}`]];
  if (!loss.killed) return [[`core ${core} had the line since `, fill.item, ` filled it as commit ${fill.index}, until `, loss.commit.item, ` filled set ${loss.set} way ${fill.way} with another, as commit ${loss.commit.index}`]];
  const evicts = loss.commit.evicted >= 0 && Math.floor(it.addr / 64) * 64 === loss.commit.evicted;
  return [[`commit ${loss.commit.index}, `, loss.commit.item, `, ${evicts ? `evicted ${hex(loss.commit.evicted)} from L2 and ` : ''}killed the line of core ${core}, set ${loss.set} way ${fill.way}, which `, fill.item, ` had filled as commit ${fill.index}`]];
}

function placeLines(view, it) {
  const { log } = view, kind = KINDS[it.kind];
  if (it.how === 'F') return it.runs && it.source && it.source.pos > it.pos ? [] : [[`${kind} `, it, ` was forwarded at time ${it.time}`]];
  if (it.how === 'H') {
    const fill = lastFill(log, it, it.time), core = coreOf(log, it);
    return [[`${kind} `, it, ` hit at time ${it.time}`, ...(fill ? [`: core ${core} has had the line since `, fill.item, ` filled it as commit ${fill.index}`] : [])]];
  }
  const sent = `was sent at time ${it.seen} and is commit ${it.index}`, at = it.commit ? ` at ${destText(log, it.commit.dest)}` : '';
  if (it.kind === STORE) return [[`it waited in its strand's buffer, ${sent}${at}`, ...(it.commit ? killParts(it.commit) : [])]];
  if (it.kind === ATOMIC) return [[`atomic `, it, ` went to its bank with an empty buffer, ${sent}${at}: it reads memory after ${it.index} commits`, ...(it.commit ? killParts(it.commit) : [])]];
  if (it.isIo) return [[`${kind} `, it, ` went to the I/O bridge, ${sent}`]];
  return [...missLines(view, it), [`${kind} `, it, ` missed, ${sent}${at}: it reads memory after ${it.index} commits`]];
}

function whyOf(view, it) {
  const { log } = view, lines = [headOf(view, it)];
  if (it.runs) lines.push(...sourceLines(view, it));
  lines.push(...placeLines(view, it));
  if (it.passed) lines.push([`it passed ${it.passed} store${it.passed > 1 ? 's' : ''} of its strand, still in the buffer: `, ...join(passedBy(log, it))]);
  if (it.kind === STORE && !log.unlisted) {
    const over = log.strands[it.s].items.filter(x => x.i > it.i && x.kind === LOAD && x.pos < it.pos);
    if (over.length) lines.push([`${over.length} later load${over.length > 1 ? 's' : ''} of its strand came before it in the order: `, ...join(over.slice(0, 8))]);
  }
  if (it.readers) lines.push([`read by `, ...join(it.readers.slice(0, 24)), it.readers.length > 24 ? ` and ${it.readers.length - 24} more` : '']);
  if (it.fold && it.fold.count > 1) lines.push([`one sign for ${it.fold.count} loads, `, it.fold.first, ' to ', it.fold.last, ', which got this value from this source']);
  return lines;
}

const join = items => items.flatMap((x, k) => (k ? [', ', x] : [x]));
const textOf = parts => parts.map(p => (p instanceof Item ? p.name : p)).join('');

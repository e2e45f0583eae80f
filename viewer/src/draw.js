// ---- The picture -----------------------------------------------------------------------------------------------
// Down is the memory order, across are the strands by core. A view has a log, its rows, the first row on the screen
// (`top`, which may be a fraction), the height of a row, and the width and height that it fills.

const HEAD = 46, SPINE = 64, GAP = 8;
const mapWidth = view => (view.rows.length * view.rowH > view.h - HEAD ? 58 : 0);
const laneWidth = view => (view.w - SPINE - mapWidth(view) - GAP * view.log.cores) / view.log.strands.length;
const laneLeft = (view, s) => SPINE + GAP / 2 + Math.floor(s / view.log.per) * GAP + s * laneWidth(view);
const laneX = (view, s) => laneLeft(view, s) + (laneWidth(view) > 180 ? Math.max(56, laneWidth(view) * 0.2) : laneWidth(view) / 2);
const rowY = (view, row) => HEAD + (row - view.top + 0.5) * view.rowH;
const radius = view => Math.max(1.6, Math.min(5.5, view.rowH * 0.27, laneWidth(view) * 0.42));
const short = digits => digits.replace(/^0+/, '') || '0';
const hex = addr => addr.toString(16);
const addrText = (view, addr) => nameOf(view.names, addr) || (addr >= IO ? 'io' + (addr > IO ? '+' + hex(addr - IO) : '') : hex(addr));

function stroke(g, colour, width, from, ...to) {
  g.strokeStyle = colour; g.lineWidth = width;
  g.beginPath(); g.moveTo(...from);
  for (const p of to) g.lineTo(...p);
  g.stroke();
}

function drawView(view, g, plain = false) {
  const shown = { from: Math.max(0, Math.floor(view.top) - 1), to: Math.min(view.rows.length, Math.ceil(view.top + (view.h - HEAD) / view.rowH) + 1) };
  const { sel } = view, near = sel && !view.suggested && sel.row >= 0 ? new Set([sel, ...(sel.runs || []).map(r => r.write), ...(sel.readers || [])]) : null;
  const killer = sel ? killerOf(view.log, sel) : null;
  g.fillStyle = theme.bg; g.fillRect(0, 0, view.w, view.h);
  view.hits = [];
  drawLanes(view, g);
  g.save(); g.beginPath(); g.rect(0, HEAD, view.w - (plain ? 0 : mapWidth(view)), view.h - HEAD); g.clip();
  drawLocks(view, g, shown);
  if (view.rowH < 3) drawFar(view, g, shown);
  else {
    drawSpine(view, g, shown);
    if (app.filter.kills) drawKills(view, g, shown, near, killer);
    drawTails(view, g, shown, near);
    const labels = laneWidth(view) >= 62 && view.rowH >= 14;
    for (let k = shown.from; k < shown.to; k++) view.rows[k].labelEnd = labels ? labelOf(view, g, view.rows[k]).end : 0;
    drawArrows(view, g, shown, near);
    for (let k = shown.from; k < shown.to; k++) drawRow(view, g, view.rows[k], near, labels);
    drawBarriers(view, g, shown);
  }
  g.restore();
  drawHeads(view, g);
  if (!plain && mapWidth(view)) drawMap(view, g);
}

function drawLanes(view, g) {
  const { log } = view;
  g.fillStyle = theme.band;
  for (let c = 0; c < log.cores; c++) { const a = laneLeft(view, c * log.per); g.fillRect(a, HEAD, laneWidth(view) * log.per, view.h - HEAD); }
  for (let s = 0; s < log.strands.length; s++) { const x = Math.round(laneX(view, s)) + 0.5; stroke(g, theme.lane, 1, [x, HEAD], [x, view.h]); }
}

function drawHeads(view, g) {
  const { log } = view, wide = laneWidth(view);
  g.fillStyle = theme.bg; g.fillRect(0, 0, view.w, HEAD);
  stroke(g, theme.faint, 1, [0, HEAD + 0.5], [view.w, HEAD + 0.5]);
  g.textAlign = 'center'; g.textBaseline = 'middle'; g.fillStyle = theme.dim; g.font = TEXT_FONT;
  g.fillText('commit', SPINE - 24, 33);
  for (let c = 0; c < log.cores; c++) g.fillText((wide * log.per > 46 ? 'core ' : '') + c, laneLeft(view, c * log.per) + wide * log.per / 2, 14);
  g.fillStyle = theme.ink; g.font = wide > 30 ? '600 13px system-ui, "DejaVu Sans", sans-serif' : '10px system-ui, "DejaVu Sans", sans-serif';
  const every = wide >= 15 ? 1 : wide >= 8 ? 2 : 4;
  for (let s = 0; s < log.strands.length; s += every) g.fillText((wide > 62 ? 'strand ' : '') + s, laneX(view, s), 33);
  g.textAlign = 'left';
}

function drawLocks(view, g, shown) {
  for (const { take, give } of view.log.locks) {
    const a = view.rowAt[take.pos], b = view.rowAt[give.pos];
    if (b < shown.from || a > shown.to || !isShown(take, app.filter)) continue;
    const w = Math.min(laneWidth(view) * 0.44, 30), x = laneX(view, take.s) - w, h = Math.max(2, (b - a) * view.rowH);
    g.fillStyle = colourOf(take.addr, 0.16); g.fillRect(x, rowY(view, a), 2 * w, h);
    g.strokeStyle = colourOf(take.addr, 0.5); g.lineWidth = 1; g.strokeRect(x, rowY(view, a), 2 * w, h);
  }
}

// commits by number, and a dotted line from each to its access
function drawSpine(view, g, shown) {
  const big = view.rowH >= 12, r = radius(view);
  stroke(g, theme.dim, 2, [SPINE - 8, Math.max(HEAD, rowY(view, -0.4))], [SPINE - 8, Math.min(view.h, rowY(view, view.rows.length - 0.6))]);
  for (let k = shown.from; k < shown.to; k++) {
    const it = view.rows[k].first, y = rowY(view, k);
    if (!it.commit) continue;
    g.fillStyle = theme.dim; g.beginPath(); g.arc(SPINE - 8, y, big ? 3 : 1.3, 0, 7); g.fill();
    if (!big) continue;
    g.font = '11px ui-monospace, "DejaVu Sans Mono", monospace'; g.textAlign = 'right'; g.textBaseline = 'middle';
    g.fillText(String(it.commit.index), SPINE - 16, y);
    g.textAlign = 'left';
    g.setLineDash([1, 3]); stroke(g, theme.faint, 1, [SPINE - 4, y], [laneX(view, it.s) - r - 2, y]); g.setLineDash([]);
  }
}

// a red line from a commit to a cross at each core whose copy it killed
function drawKills(view, g, shown, near, killer) {
  const r = radius(view), q = Math.max(1.5, Math.min(4, view.rowH * 0.2));
  for (let k = shown.from; k < shown.to; k++) {
    const it = view.rows[k].first;
    if (!it.commit || !it.commit.kills.length) continue;
    const y = rowY(view, k), from = laneX(view, it.s), on = view.sel === it || killer === it.commit;
    for (const core of new Set(it.commit.kills.map(kill => kill.core))) {
      const x = laneLeft(view, core * view.log.per) + 6;
      g.globalAlpha = on ? 0.9 : near ? 0.15 : 0.45;
      if (view.rowH >= 12 || on) stroke(g, theme.kill, on ? 1.6 : 1, [from + (x > from ? r : -r), y], [x, y]);
      g.globalAlpha = near && !on ? 0.35 : 1;
      stroke(g, theme.kill, 1.8, [x - q, y - q], [x + q, y + q]); stroke(g, theme.kill, 1.8, [x - q, y + q], [x + q, y - q]);
      g.globalAlpha = 1;
    }
  }
}

// a dashed tail above a store: its time in the buffer
function drawTails(view, g, shown, near) {
  const big = view.rowH >= 12;
  for (let k = shown.from; k < Math.min(view.rows.length, shown.to + 400); k++) {
    const it = view.rows[k].first;
    if (it.kind !== STORE) continue;
    const made = madeRow(view, it);
    if (made >= k || made > shown.to) continue;
    const x = laneX(view, it.s) - (big ? radius(view) + (laneWidth(view) > 60 ? 13 : 3) + 4 * (it.nth % 4) : 0), y = rowY(view, made) - view.rowH / 2, c = colourOf(it.addr, near && !near.has(it) ? 0.25 : 0.8);
    g.setLineDash([3, 2]); stroke(g, c, big ? 2 : 1, [x, y], [x, rowY(view, k)]); g.setLineDash([]);
    if (big) stroke(g, c, 2, [x - 3, y], [x + 3, y]);
  }
}

// from each write to the reads that got it, across strands; own ones where asked for; dashed where it was forwarded
function drawArrows(view, g, shown, near) {
  let left = 1500;
  for (let k = shown.from; k < shown.to && left > 0; k++) {
    const it = view.rows[k].first;
    if (it.isRead) left--;
    sourceArrows(view, g, it, near ? 0.12 : view.rowH < 7 ? 0.3 : 0.6, 1.3);
  }
  const { sel } = view;
  if (!sel || sel.row < 0) return;
  sourceArrows(view, g, sel, 1, 2.4);
  for (const read of (sel.readers || []).slice(0, 400)) if (read.row >= 0 && read.fold.first === read) arrow(view, g, sel, read, colourOf(read.addr), 2);
}

function sourceArrows(view, g, it, alpha, width) {
  if (!it.runs || it.kind === FETCH) return;
  for (const write of new Set(it.runs.map(run => run.write))) {
    if (!write || write.row < 0 || (write.s === it.s && write.pos < it.pos && !app.filter.own && alpha < 1)) continue;
    arrow(view, g, write, it, colourOf(it.addr, write.kind === ATOMIC && write.put === write.got && alpha < 1 ? alpha * 0.4 : alpha), width);
  }
}

function arrow(view, g, a, b, colour, width) {
  const r = radius(view) + 1, y1 = rowY(view, a.row), y2 = rowY(view, b.row), xa = laneX(view, a.s), xb = laneX(view, b.s);
  const right = it => (view.rows[it.row].labelEnd ? view.rows[it.row].labelEnd + 3 : laneX(view, it.s) + r);
  const inLane = xa === xb, d = inLane || xb < xa ? -1 : 1; // the way that its head points
  const x1 = inLane || d > 0 ? right(a) : xa - r, x2 = !inLane && d > 0 ? xb - r : right(b);
  const bend = inLane ? Math.max(x1, x2) + Math.min(26, laneWidth(view) * 0.3) : 0, k = Math.max(20, Math.abs(x2 - x1) * 0.45);
  g.strokeStyle = colour; g.fillStyle = colour; g.lineWidth = width;
  g.setLineDash(b.pos < a.pos ? [4, 3] : []);
  g.beginPath(); g.moveTo(x1, y1);
  if (inLane) g.bezierCurveTo(bend, y1, bend, y2, x2, y2); else g.bezierCurveTo(x1 + d * k, y1, x2 - d * k, y2, x2 - d * 2, y2);
  g.stroke(); g.setLineDash([]);
  if (view.rowH <= 7) return;
  g.beginPath(); g.moveTo(x2, y2); g.lineTo(x2 - d * 5.4, y2 - 2.6); g.lineTo(x2 - d * 5.4, y2 + 2.6); g.closePath(); g.fill();
}

function drawSign(g, it, x, y, r, colour) {
  g.lineWidth = 1.8; g.strokeStyle = colour; g.fillStyle = colour;
  g.beginPath();
  if (it.kind === STORE) { g.rect(x - r, y - r, 2 * r, 2 * r); g.fill(); }
  else if (it.kind === ATOMIC) {
    g.moveTo(x, y - r * 1.4); g.lineTo(x + r * 1.4, y); g.lineTo(x, y + r * 1.4); g.lineTo(x - r * 1.4, y); g.closePath();
    if (it.put === null || it.put === it.got) { g.fillStyle = theme.bg; g.fill(); g.stroke(); } else g.fill();
  } else if (it.kind === LOAD) {
    g.arc(x, y, r, 0, 7); g.fillStyle = theme.bg; g.fill(); g.stroke();
    if (it.how === 'M') { g.beginPath(); g.arc(x, y, r * 0.4, 0, 7); g.fillStyle = colour; g.fill(); }
  } else { g.arc(x, y, r * 0.5, 0, 7); g.fill(); }
}

function drawRow(view, g, row, near, labels) {
  const it = row.first, x = laneX(view, it.s), y = rowY(view, row.row), r = radius(view), { sel } = view;
  const faded = near && !near.has(it) && row !== sel.fold, colour = it.kind === FETCH ? theme.dim : colourOf(it.addr);
  g.globalAlpha = faded ? 0.3 : 1;
  drawSign(g, it, x, y, r, colour);
  view.hits.push([x, y, it]);
  if (row.count > 1) { const end = rowY(view, view.rowAt[row.last.pos]) - view.rowH / 2; if (end > y + r + 2) stroke(g, colourOf(it.addr, 0.5), Math.max(1.5, r * 0.7), [x, y + r + 1], [x, end]); }
  if (it.passed && view.rowH > 5) drawPassed(g, x - r - (laneWidth(view) > 60 ? 8 : 4), y, Math.max(2, r * 0.7));
  g.globalAlpha = 1;
  if (!it.right) { g.strokeStyle = theme.kill; g.lineWidth = 2; g.strokeRect(x - r - 4, y - r - 4, 2 * r + 8, 2 * r + 8); }
  if (labels) drawLabel(view, g, row, y, faded, colour);
  if (view.hover === it || (sel && sel.fold === row)) { g.beginPath(); g.arc(x, y, r + 5, 0, 7); g.strokeStyle = theme.sel; g.lineWidth = 2; g.stroke(); }
}

function drawPassed(g, x, y, q) { g.fillStyle = theme.kill; g.beginPath(); g.moveTo(x - q, y + q * 0.7); g.lineTo(x + q, y + q * 0.7); g.lineTo(x, y - q); g.closePath(); g.fill(); }

// beside a sign: the value, then the address and what there is room for, then a warning
function labelOf(view, g, row) {
  const it = row.first, x = laneX(view, it.s) + radius(view) + 7, edge = laneLeft(view, it.s) + laneWidth(view);
  const value = it.kind === FETCH ? hex(it.addr) : it.kind === ATOMIC ? short(it.got) + (it.put === null ? '' : '→' + short(it.put)) : short(it.put || it.got);
  const cut = value.length > 12 ? value.slice(0, 5) + '…' + value.slice(-4) : value;
  g.font = VALUE_FONT;
  const second = x + g.measureText(cut).width + 6;
  g.font = TEXT_FONT;
  const fits = (parts, more) => second + g.measureText([...parts, more].join('   ')).width < edge - 4;
  const parts = [], warn = it.passed ? `passed ${it.passed} store${it.passed > 1 ? 's' : ''}` : '';
  const line = view.names && it.kind !== FETCH && fetchOf(view.log, it), source = line && view.names.lines.get(line.addr);
  const code = source ? source.text : it.kind === FETCH ? '' : (instructionOf(view.log, it) || { text: '' }).text;
  if (row.count > 1) parts.push('×' + row.count);
  for (const part of [it.kind === FETCH ? '' : addrText(view, it.addr), it.how === 'F' ? 'forwarded' : it.how === 'H' && it.kind !== FETCH ? 'hit' : '', code]) if (part && fits([...parts, warn], part)) parts.push(part);
  const text = parts.join('   '), warnAt = second + (text ? g.measureText(text).width + 10 : 0), shows = warn && warnAt + g.measureText(warn).width < edge;
  return { x, value: cut, second, text, warn: shows ? warn : '', warnAt, end: shows ? warnAt + g.measureText(warn).width : second + g.measureText(text).width };
}

function drawLabel(view, g, row, y, faded, colour) {
  const l = labelOf(view, g, row);
  g.textAlign = 'left'; g.textBaseline = 'middle';
  g.globalAlpha = 0.85; g.fillStyle = theme.band; g.fillRect(l.x - 2, y - 8, l.end - l.x + 4, 16);
  g.globalAlpha = faded ? 0.45 : 1;
  g.font = VALUE_FONT; g.fillStyle = colour; g.fillText(l.value, l.x, y);
  g.font = TEXT_FONT; g.fillStyle = theme.dim; if (l.text) g.fillText(l.text, l.second, y);
  if (l.warn) { g.fillStyle = theme.kill; g.fillText(l.warn, l.warnAt, y); }
  g.globalAlpha = 1;
}

function drawBarriers(view, g, shown) {
  for (const { it, row } of view.barriers) {
    if (row < shown.from || row > shown.to || (app.filter.strand !== null && app.filter.strand !== it.s)) continue;
    const x = laneX(view, it.s), y = rowY(view, row) - view.rowH / 2, w = Math.min(laneWidth(view) * 0.35, 26);
    stroke(g, it.isBarrier ? theme.ink : theme.dim, it.isBarrier ? 2.5 : 1.2, [x - w, y], [x + w, y]);
  }
}

// many rows to a line of the screen: each access a bar, kills a red one at the left of the core
function drawFar(view, g, shown) {
  const w = Math.max(1.5, laneWidth(view) * 0.7), h = Math.max(1, view.rowH), seen = new Map();
  for (let k = shown.from; k < shown.to; k++) {
    const it = view.rows[k].first, key = wordOf(it.addr) * 2 + (it.kind === LOAD ? 1 : 0), y = rowY(view, k);
    if (!seen.has(key)) seen.set(key, colourOf(it.addr, it.kind === LOAD ? 0.5 : 1));
    g.fillStyle = seen.get(key); g.fillRect(laneX(view, it.s) - w / 2, y, w, h);
    if (!app.filter.kills || !it.commit || !it.commit.kills.length) continue;
    g.fillStyle = theme.kill;
    for (const kill of it.commit.kills) g.fillRect(laneLeft(view, kill.core * view.log.per), y, 3, h);
  }
}

// the strip at the right: the whole log, and a frame around what is seen
function drawMap(view, g) {
  const h = view.h - HEAD, w = mapWidth(view) - 14, x = view.w - w - 7, { rows } = view;
  if (!view.map) {
    view.map = document.createElement('canvas'); view.map.width = w; view.map.height = Math.max(1, h);
    const m = view.map.getContext('2d'), each = w / view.log.strands.length, seen = new Map();
    for (let k = 0; k < rows.length; k++) {
      const it = rows[k].first, key = wordOf(it.addr) * 2 + (it.kind === LOAD ? 1 : 0);
      if (!seen.has(key)) seen.set(key, colourOf(it.addr, it.kind === LOAD ? 0.5 : 1));
      m.fillStyle = seen.get(key); m.fillRect(it.s * each, Math.floor(k / rows.length * h), Math.max(1.2, each), Math.max(1, h / rows.length));
    }
  }
  g.fillStyle = theme.band; g.fillRect(x - 7, HEAD, w + 14, h);
  g.drawImage(view.map, x, HEAD);
  if (view.sel && view.sel.row >= 0) { g.fillStyle = theme.sel; g.fillRect(x - 6, HEAD + view.sel.row / rows.length * h - 1, w + 12, 2); }
  g.strokeStyle = theme.ink; g.lineWidth = 1.2;
  g.strokeRect(x - 4.5, Math.round(HEAD + Math.max(0, view.top) / rows.length * h) + 0.5, w + 8, Math.max(6, h / view.rowH / rows.length * h));
}

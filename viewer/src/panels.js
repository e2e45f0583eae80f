// ---- Panels: all that is not the picture. Nothing here makes markup of a text. -----------------------------------

const $ = id => document.getElementById(id);
function el(tag, words = {}, ...inside) {
  const e = document.createElement(tag);
  for (const [k, v] of Object.entries(words)) { if (k === 'class') e.className = v; else if (k.startsWith('on')) e[k] = v; else if (v !== null) e.setAttribute(k, v); }
  e.append(...inside);
  return e;
}

function showWhy(view, it) {
  if (!it) { $('why').replaceChildren(el('p', {}, 'Choose an access: by a click, by the arrow keys, or by its name in the field.')); return; }
  const button = x => el('button', { class: 'link', type: 'button', onclick: () => select(view, x, true) }, x.name);
  const lines = whyOf(view, it).map(parts => el('li', {}, ...parts.map(p => (p instanceof Item ? button(p) : p))));
  const verdict = !it.runs ? [] : [el('p', { class: it.right ? 'ok' : 'bad' }, it.right ? '✓ it got what its last write gave' : '✗ it did not get what its last write gave')];
  $('why').replaceChildren(el('ol', { class: 'why' }, ...lines), ...verdict);
}

function showWords() {
  const { filter } = app, views = app.views, words = new Map();
  for (const v of views) for (const w of v.log.words) if (!words.has(w.at)) words.set(w.at, views.map(u => u.log.words.find(x => x.at === w.at) || null));
  const list = [...words].slice(0, 40).map(([at, each]) => {
    const sum = k => each.reduce((n, w) => n + (w ? w[k] : 0), 0), most = Math.max(...each.map(w => (w ? w.strands.size : 0)));
    const patch = el('i', { 'aria-hidden': 'true' });
    patch.style.background = colourOf(at);
    const name = nameOf((views.find(v => v.names) || {}).names, at);
    return el('button', { class: 'addr', type: 'button', 'aria-pressed': String(filter.picked.has(at)), onclick: e => pick(at, e.shiftKey || e.ctrlKey) }, patch,
      el('span', { class: 'mono' }, (at >= IO ? 'I/O ' + hex(at - IO) : hex(at)) + (name ? ' ' + name : '')), el('span', {}, `${most} strand${most === 1 ? '' : 's'}`),
      el('small', {}, `${sum('load')} load, ${sum('store')} store, ${sum('atomic')} atomic; ${sum('others')} from another, ${sum('kills')} killed`));
  });
  $('words').replaceChildren(...list, ...(words.size > 40 ? [el('small', {}, `and ${words.size - 40} more: name one above`)] : []));
}

function showStrands(view) {
  const head = el('tr', {}, ...['', 'units', 'ld', 'st', 'at', 'miss', 'passed', ''].map(t => el('th', { scope: 'col' }, t)));
  const rows = view.log.strands.map((strand, s) => {
    const n = f => strand.items.filter(f).length, on = app.filter.strand === s;
    const cells = [strand.units, n(x => x.kind === LOAD), n(x => x.kind === STORE), n(x => x.kind === ATOMIC), n(x => x.kind === LOAD && x.how === 'M'), n(x => x.passed), strand.end === 'halted' ? '' : strand.end + (strand.trap ? ' ' + strand.trap : '')];
    return el('tr', {}, el('th', { scope: 'row' }, el('button', { class: 'link', type: 'button', 'aria-pressed': String(on), onclick: () => pickStrand(s) }, 's' + s)), ...cells.map(c => el('td', {}, String(c))));
  });
  $('strands').replaceChildren(el('table', {}, el('caption', { class: 'unseen' }, 'Strands: units, loads, stores, atomics, loads that missed, loads that passed a store'), el('thead', {}, head), el('tbody', {}, ...rows)));
}

function lockTexts(log) {
  const by = new Map();
  for (const { take, give } of log.locks) {
    if (!by.has(take.addr)) by.set(take.addr, []);
    by.get(take.addr).push({ s: take.s, span: give.index - take.index });
  }
  return [...by].map(([addr, holds]) => {
    const spans = holds.map(h => h.span).sort((p, q) => p - q), over = holds.filter((h, k) => k && holds[k - 1].s !== h.s).length;
    return `${hex(addr)}: held ${holds.length} times by ${new Set(holds.map(h => h.s)).size} strands, handed over ${over} times; for ${spans[spans.length >> 1]} commits (median), ${spans[spans.length - 1]} at most`;
  });
}

function showMore(view) {
  const { log } = view, parts = [], locks = lockTexts(log);
  if (locks.length) parts.push(el('h2', {}, 'Locks'), ...locks.map(t => el('p', {}, t)));
  if (log.console) {
    const bytes = log.console.match(/../g).slice(0, 400), text = bytes.map(b => { const c = parseInt(b, 16); return c >= 32 && c < 127 ? String.fromCharCode(c) : c === 10 ? '\n' : '·'; }).join('');
    parts.push(el('h2', {}, 'Console'), el('pre', { class: 'mono' }, text + (bytes.length <= 16 ? '   ' + bytes.join(' ') : '')));
  }
  $('more').replaceChildren(...parts);
}

function summary(view) {
  const { log } = view, t = log.total, s = (n, word) => `${n} ${word}${n === 1 ? '' : 's'}`, good = log.verdict === 'holds';
  const words = [`${log.version === 2 ? log.chip.toUpperCase() + (log.hyper ? ' hyper, ' : ', ') : ''}${s(log.cores, 'core')} of ${log.per}`, s(log.order.length, 'access').replace('accesss', 'accesses'), s(t.commits, 'commit'), s(t.kills, 'kill')];
  if (t.passed) words.push(`${s(t.passed, 'load')} passed a store`);
  return [words.join(' · ') + ' · ', el('span', { class: good ? 'ok' : 'bad' }, good ? `all ${t.reads} reads agree` : log.unlisted || !t.wrong ? log.verdict : `${s(t.wrong, 'wrong read')}: ${log.verdict}`)];
}

function showFault(fault, name) {
  const text = fault instanceof Fault ? `${name}: line ${fault.line}: ${fault.kind}. ${fault.message}` : `${name}: ${fault.message || fault}`;
  const close = el('button', { type: 'button', onclick: () => { $('fault').hidden = true; } }, 'close');
  $('fault').replaceChildren(el('b', {}, text), el('pre', { class: 'mono' }, fault.text || ''), close);
  $('fault').hidden = false;
}

function say(text) { $('said').textContent = text; }

// the signs, drawn by what draws them in the picture
function showSigns() {
  const sample = (kind, words) => Object.assign(new Item(0, 0, kind, 0), words), line = (g, c, w, ...p) => stroke(g, c, w, ...p), dim = () => theme.dim;
  const signs = [
    [g => drawSign(g, sample(STORE, { put: '1' }), 14, 9, 5, dim()), 'a store at its commit; the dashed line above it: its time in the buffer'],
    [g => drawSign(g, sample(LOAD, { how: 'H' }), 14, 9, 5, dim()), 'a load from an L1 cache or the buffer'],
    [g => drawSign(g, sample(LOAD, { how: 'M' }), 14, 9, 5, dim()), 'a load that went to its bank'],
    [g => drawSign(g, sample(ATOMIC, { got: '0', put: '1' }), 14, 9, 5, dim()), 'an atomic; hollow: it changed nothing'],
    [g => drawPassed(g, 14, 9, 5), 'a load that passed a store of its strand'],
    [g => line(g, theme.ink, 2.5, [4, 9], [24, 9]), 'a barrier; thin: it waits for no store'],
    [g => { line(g, theme.kill, 1.8, [10, 5], [18, 13]); line(g, theme.kill, 1.8, [10, 13], [18, 5]); }, 'the copy of a core is killed'],
    [g => { g.fillStyle = `rgba(${tint(HUES[0])},.25)`; g.fillRect(6, 2, 16, 14); }, 'a lock is held'],
  ];
  $('signs').replaceChildren(...signs.flatMap(([draw, text]) => {
    const c = el('canvas', { width: '56', height: '36', 'aria-hidden': 'true' }), g = c.getContext('2d');
    g.scale(2, 2); draw(g);
    return [c, el('span', {}, text)];
  }));
}

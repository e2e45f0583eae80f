// ---- The page: views, files, keys ------------------------------------------------------------------------------

const app = { views: [], active: 0, hues: new Map(), filter: { fetches: false, fold: true, own: false, kills: true, picked: new Set(), range: null, strand: null } };
const active = () => app.views[app.active];

// ---- views

function makeView(log, name) {
  const canvas = el('canvas', { tabindex: '0', role: 'application', 'aria-roledescription': 'picture of a log', 'aria-describedby': 'keys' });
  const title = el('h2', { class: 'title' }), box = el('section', { class: 'view' }, title, canvas);
  const view = { log, name, canvas, box, title, g: canvas.getContext('2d'), names: null, rows: [], rowAt: null, top: -1, rowH: 24, w: 0, h: 0, sel: null, suggested: false, hover: null, hits: [], map: null, waiting: false, drawMs: 0 };
  canvas.setAttribute('aria-label', `${name}, the memory order of a run`);
  listen(view);
  return view;
}

function draw(view) {
  const began = performance.now(), ratio = devicePixelRatio;
  view.g.setTransform(ratio, 0, 0, ratio, 0, 0);
  drawView(view, view.g);
  view.drawMs = performance.now() - began;
}
function soon(view) { if (!view.waiting) { view.waiting = true; requestAnimationFrame(() => { view.waiting = false; draw(view); }); } }
const screenRows = view => (view.h - HEAD) / view.rowH;
function clampTop(view) { view.top = Math.max(-1, Math.min(view.top, view.rows.length + 1 - screenRows(view))); }

function measure(view) {
  view.w = view.canvas.clientWidth; view.h = view.canvas.clientHeight;
  view.canvas.width = view.w * devicePixelRatio; view.canvas.height = view.h * devicePixelRatio;
  view.map = null;
}
function resize(view) { measure(view); clampTop(view); draw(view); }

// Moves by rows; with two logs both, where they scroll together.
function scrollBy(view, rows) {
  for (const v of $('together').checked ? app.views : [view]) { v.top += rows; clampTop(v); soon(v); }
}
function zoom(view, factor, at = view.h / 2) {
  for (const v of $('together').checked ? app.views : [view]) {
    const row = v.top + (at - HEAD) / v.rowH;
    v.rowH = Math.max(Math.min(1, (v.h - HEAD) / (v.rows.length + 1)), Math.min(40, v.rowH * factor));
    v.top = row - (at - HEAD) / v.rowH;
    clampTop(v); soon(v);
  }
}
function whole() { for (const v of app.views) { v.rowH = Math.min(26, (v.h - HEAD) / (v.rows.length + 2)); v.top = -1; draw(v); } }

// Lays the rows anew, with what stood in the middle still there.
function relay() {
  for (const v of app.views) {
    const middle = v.rows.length ? v.rows[Math.min(v.rows.length - 1, Math.max(0, Math.floor(v.top + screenRows(v) / 2)))].first.pos : 0;
    layRows(v, app.filter);
    v.top = (v.rowAt[middle] || 0) - screenRows(v) / 2;
    clampTop(v); draw(v);
  }
  showWords();
  if (active()) showStrands(active());
}
function pick(at, more) {
  const { picked } = app.filter, had = picked.has(at);
  if (!more) picked.clear();
  if (had) picked.delete(at); else picked.add(at);
  relay();
}
function pickStrand(s) { app.filter.strand = app.filter.strand === s ? null : s; relay(); }
function clearFilter() { Object.assign(app.filter, { range: null, strand: null }); app.filter.picked.clear(); }

function select(view, it, scroll) {
  activate(view);
  view.sel = it; view.suggested = false;
  if (it && it.row < 0 && it.pos >= 0) { clearFilter(); if (it.kind === FETCH) { app.filter.fetches = true; $('fetches').checked = true; } relay(); }
  showWhy(view, it);
  if (it) say(`${KINDS[it.kind]} ${it.name}, ${whyOf(view, it).map(textOf).slice(1).join('. ')}`);
  if (it && scroll && (it.row < view.top + 1 || it.row > view.top + screenRows(view) - 2)) { view.top = it.row - screenRows(view) / 2; clampTop(view); }
  if (it) history.replaceState(null, '', '#' + it.name);
  draw(view);
}
function activate(view) {
  const at = app.views.indexOf(view);
  if (at < 0 || (at === app.active && view.shownOnce)) return;
  app.active = at; view.shownOnce = true;
  for (const v of app.views) v.box.classList.toggle('active', v === view && app.views.length > 1);
  showStrands(view); showMore(view); showWhy(view, view.sel);
}

// ---- files

// Opens a log in place of all, or beside the one that is shown. A text that is refused changes nothing.
function openLog(text, name, beside = false) {
  const began = performance.now(), log = readLog(text), read = performance.now();
  studyOrder(log); findLocks(log); count(log);
  const studied = performance.now(), view = makeView(log, name);
  app.views = beside && app.views.length ? [app.views[0], view] : [view];
  app.active = -1;
  if (app.views.length === 1) clearFilter();
  giveHues();
  $('fault').hidden = true; $('empty').hidden = true; $('pair').hidden = app.views.length < 2;
  $('views').replaceChildren(...app.views.map(v => v.box));
  for (const v of app.views) { v.title.replaceChildren(el('b', {}, v.name), ' ', ...summary(v)); layRows(v, app.filter); }
  view.sel = firstOf(view); view.suggested = true;
  for (const v of app.views) { measure(v); v.rowH = Math.max(14, Math.min(38, (v.h - HEAD) / (v.rows.length + 2))); v.top = -1; draw(v); }
  document.title = app.views.map(v => v.name).join(' and ');
  activate(view); showWords();
  view.times = { read: read - began, study: studied - read, layout: performance.now() - studied };
  say(`${name} is open: ${view.title.textContent}`);
  return view;
}

// What is worth a first look: a read whose line was killed, one that passed a store, one that got another's write.
function firstOf(view) {
  const loads = view.log.order.filter(x => x.kind === LOAD);
  return loads.find(x => x.passed) || loads.slice(0, 400).find(x => isFromOther(x) && killerOf(view.log, x)) || loads.find(isFromOther) || loads[0] || null;
}

function giveHues() {
  app.hues.clear();
  for (let k = 0; app.hues.size < HUES.length; k++) {
    const at = app.views.map(v => v.log.words[k]).filter(w => w);
    if (!at.length) break;
    for (const w of at) if (!app.hues.has(w.at) && app.hues.size < HUES.length) app.hues.set(w.at, HUES[app.hues.size]);
  }
}

// Names for the log of the same name, or for each whose runs begin where the text does.
function openNames(text, name) {
  const names = readNames(text), same = app.views.filter(v => v.name.replace(/\.log$/, '') === name.replace(/\.s$/, ''));
  const to = (same.length ? same : app.views).filter(v => v.log.entry === names.entry);
  if (!to.length) throw new Error(app.views.length ? `its entry is ${hex(names.entry)}, and that of the log is ${hex(active().log.entry)}` : 'open the log of this text first');
  for (const v of to) { v.names = names; draw(v); }
  showWords(); showWhy(active(), active().sel);
  say(`names of ${name}`);
}

async function openFiles(files, beside) {
  const sorted = [...files].sort((a, b) => a.name.endsWith('.s') - b.name.endsWith('.s'));
  let logs = 0;
  for (const file of sorted) {
    try {
      if (file.size > MOST_BYTES) throw new Error(`it has ${file.size} bytes; a log has at most ${MOST_BYTES}`);
      if (file.name.endsWith('.s')) { openNames(await file.text(), file.name); continue; }
      const bytes = new Uint8Array(await file.arrayBuffer());
      openLog(new TextDecoder('windows-1252').decode(bytes), file.name, beside || logs > 0);
      logs++;
    } catch (fault) { showFault(fault, file.name); }
  }
}

function svgOf(view) {
  const pen = new SvgPen(view.w, view.h, document.createElement('canvas').getContext('2d'));
  drawView(view, pen, true);
  draw(view);
  return pen.text(`${view.name}: the memory order of a run`);
}
function saveSvg() {
  for (const v of app.views) {
    const url = URL.createObjectURL(new Blob([svgOf(v)], { type: 'image/svg+xml' }));
    el('a', { href: url, download: v.name.replace(/\.log$/, '') + '.svg' }).click();
    setTimeout(() => URL.revokeObjectURL(url), 1000);
  }
}

// ---- the mouse and the keys

function nearest(view, e) {
  let best = null, least = 144;
  for (const [x, y, it] of view.hits) { const d = (x - e.offsetX) ** 2 + (y - e.offsetY) ** 2; if (d < least) { least = d; best = it; } }
  return best;
}
function listen(view) {
  const { canvas } = view, onMap = e => mapWidth(view) && e.offsetX > view.w - mapWidth(view);
  const jump = e => scrollBy(view, (e.offsetY - HEAD) / (view.h - HEAD) * view.rows.length - screenRows(view) / 2 - view.top);
  canvas.addEventListener('wheel', e => { e.preventDefault(); if (e.ctrlKey) zoom(view, e.deltaY < 0 ? 1.15 : 1 / 1.15, e.offsetY); else scrollBy(view, e.deltaY / view.rowH); }, { passive: false });
  canvas.addEventListener('mousedown', e => { activate(view); if (onMap(e)) { view.dragging = true; jump(e); } });
  addEventListener('mouseup', () => { view.dragging = false; });
  canvas.addEventListener('mousemove', e => {
    if (view.dragging) { jump(e); return; }
    const it = nearest(view, e);
    if (it !== view.hover) { view.hover = it; canvas.title = it ? textOf(headOf(view, it)) : ''; soon(view); }
  });
  canvas.addEventListener('click', e => { if (!onMap(e)) select(view, nearest(view, e)); });
  canvas.addEventListener('focus', () => activate(view));
  canvas.addEventListener('keydown', e => { if (KEYS[e.key] && !e.ctrlKey && !e.altKey && !e.metaKey) { KEYS[e.key](view); e.preventDefault(); } });
}
function step(view, by) {
  const row = view.sel && view.sel.row >= 0 ? view.sel.row + by : Math.max(0, Math.floor(view.top));
  if (view.rows[row]) select(view, view.rows[row].first, true);
}
function along(view, by) {
  if (!view.sel) { step(view, by); return; }
  const { items } = view.log.strands[view.sel.s];
  for (let k = view.sel.i + by; items[k]; k += by) if (items[k].row >= 0) { select(view, items[k], true); return; }
}
const KEYS = {
  ArrowDown: v => step(v, 1), ArrowUp: v => step(v, -1), ArrowRight: v => along(v, 1), ArrowLeft: v => along(v, -1),
  s: v => { if (v.sel && v.sel.source) select(v, v.sel.source, true); },
  Home: v => scrollBy(v, -1e9), End: v => scrollBy(v, 1e9), PageDown: v => scrollBy(v, screenRows(v) - 2), PageUp: v => scrollBy(v, 2 - screenRows(v)),
  '+': v => zoom(v, 1.3), '-': v => zoom(v, 1 / 1.3), 0: () => whole(), Escape: v => { clearFilter(); relay(); select(v, null); },
};

// What the field takes: an address, a span of them, a strand, the name of an access, a name of the text.
function find(text) {
  const view = active(), t = text.trim();
  let m;
  clearFilter();
  if (!t) { relay(); return true; }
  const item = (m = /^(\d+)\.(\d+)$/.exec(t)) && view.log.strands[+m[1]] && view.log.strands[+m[1]].items[+m[2]];
  const label = view.names && view.names.labels.find(l => l.name === t);
  if (item && item.isAccess) { relay(); select(view, item, true); return true; }
  if (label) app.filter.range = [label.addr, label.addr + 7];
  else if ((m = /^s(\d+)$/i.exec(t)) && view.log.strands[+m[1]]) app.filter.strand = +m[1];
  else if ((m = /^(?:0x)?([0-9a-f]{1,10})(?:-(?:0x)?([0-9a-f]{1,10}))?$/i.exec(t))) { const a = parseInt(m[1], 16); app.filter.range = m[2] ? [a, parseInt(m[2], 16)] : [wordOf(a), wordOf(a) + 7]; }
  else { relay(); return false; }
  relay();
  return true;
}

function retheme() { readTheme(); showSigns(); for (const v of app.views) { v.map = null; draw(v); } if (app.views.length) showWords(); }

function begin() {
  $('file').onchange = e => { openFiles([...e.target.files], false); e.target.value = ''; };
  $('second').onchange = e => { openFiles([...e.target.files], true); e.target.value = ''; };
  addEventListener('dragover', e => { e.preventDefault(); document.body.classList.add('drag'); });
  addEventListener('dragleave', e => { if (!e.relatedTarget) document.body.classList.remove('drag'); });
  addEventListener('drop', e => { e.preventDefault(); document.body.classList.remove('drag'); openFiles([...e.dataTransfer.files], app.views.length > 0 && e.clientX > innerWidth * 0.66); });
  addEventListener('resize', () => app.views.forEach(resize));
  for (const id of ['fetches', 'fold']) $(id).onchange = e => { app.filter[id] = e.target.checked; relay(); };
  for (const id of ['own', 'kills']) $(id).onchange = e => { app.filter[id] = e.target.checked; app.views.forEach(draw); };
  $('larger').onclick = () => active() && zoom(active(), 1.3);
  $('smaller').onclick = () => active() && zoom(active(), 1 / 1.3);
  $('whole').onclick = whole;
  $('svg').onclick = saveSvg;
  $('find').onchange = e => { if (active()) e.target.setAttribute('aria-invalid', String(!find(e.target.value))); };
  matchMedia('(prefers-color-scheme: dark)').addEventListener('change', retheme);
  retheme();
  showWhy(null, null);
}
begin();

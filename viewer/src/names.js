// ---- Names from the guest's assembly text ----------------------------------------------------------------------
// Where each label and each statement of a text stands: docs/FORMATS.md, "The assembly language". It assembles
// nothing: it counts bytes. A text that it cannot place gives an error, and the page goes on without names.

const STATEMENT = /^\s*(\.?[A-Za-z][\w.,$]*)\s*(.*?)\s*$/;

function readNames(text) {
  const names = new Map(), labels = [], lines = new Map();
  let at = 0, chunk = 0, first = -1;
  const put = bytes => { if (bytes > 0 && first < 0) first = at; at += bytes; };
  text.split('\n').forEach((full, n) => {
    let line = withoutComment(full), m;
    const fail = what => { throw new Error(`line ${n + 1}: ${what}`); };
    const value = expr => sumOf(expr, names, at, fail);
    while ((m = /^\s*([A-Za-z_.$][\w.$]*)\s*:/.exec(line))) {
      names.set(m[1], at);
      labels.push({ name: m[1], addr: at, chunk });
      line = line.slice(m[0].length);
    }
    if (!line.trim()) return;
    if ((m = /^\s*([A-Za-z_.$][\w.$]*)\s*=(.*)$/.exec(line))) { names.set(m[1], value(m[2])); return; }
    if (!(m = STATEMENT.exec(line))) fail('no statement');
    const [, word, rest] = m;
    if (word[0] !== '.') { lines.set(at, { line: n + 1, text: line.trim().replace(/\s+/g, ' ') }); put(word === 'set' ? 8 : 4); return; }
    if (word === '.org') { at = value(rest); chunk += 1; }
    else if (word === '.align') { const to = value(rest); if (to < 1) fail('no alignment'); put((to - at % to) % to); }
    else if (word === '.skip') put(value(rest));
    else if (word === '.ascii' || word === '.asciz') put(rest.slice(1, -1).replace(/\\./g, 'x').length + (word === '.asciz' ? 1 : 0));
    else if (WIDTHS[word]) put(WIDTHS[word] * rest.split(',').length);
    else if (word !== '.text' && word !== '.global') fail(`the directive ${word} is not one of this language`);
  });
  const start = labels.find(l => l.name === '_start');
  labels.sort((p, q) => p.addr - q.addr);
  return { labels, lines, entry: start ? start.addr : Math.max(first, 0) };
}

const WIDTHS = { '.byte': 1, '.half': 2, '.word': 4, '.xword': 8 };

function withoutComment(line) {
  const m = /^(?:[^"!]|"(?:[^"\\]|\\.)*")*/.exec(line);
  return m[0];
}

// A sum of numbers and names of earlier lines.
function sumOf(expr, names, at, fail) {
  let sum = 0;
  const terms = expr.trim().match(/[+-]?\s*[^\s+-]+/g) || fail('no expression');
  for (const term of terms) {
    const m = /^([+-]?)\s*(.+)$/.exec(term), atom = m[2];
    const value = atom === '.' ? at : /^(0x[0-9a-fA-F]+|\d+)$/.test(atom) ? Number(atom) : names.has(atom) ? names.get(atom) : fail(`${atom} is not known`);
    sum += m[1] === '-' ? -value : value;
  }
  return sum;
}

// The name of an address by the last label before it, at most 4 KiB behind it; null where there is none.
function nameOf(names, addr) {
  if (!names) return null;
  let found = null;
  for (const l of names.labels) { if (l.addr > addr) break; found = l; }
  if (!found || addr - found.addr >= 4096) return null;
  const off = addr - found.addr;
  return found.name + (off ? '+' + off : '');
}

// ---- The instruction of an access, from the word that its strand fetched before it.
const MNEMONICS = { 0: 'lduw', 1: 'ldub', 2: 'lduh', 3: 'ldtw', 4: 'stw', 5: 'stb', 6: 'sth', 7: 'sttw', 8: 'ldsw', 9: 'ldsb', 10: 'ldsh', 11: 'ldx', 13: 'ldstub', 14: 'stx', 15: 'swap' };
const REGISTER = r => '%' + 'goli'[r >> 3] + (r & 7);

function fetchOf(log, it) {
  const { items } = log.strands[it.s];
  let k = it.i - 1;
  while (k >= 0 && items[k].kind !== FETCH) k--;
  return k < 0 ? null : items[k];
}

function instructionOf(log, it) {
  const fetch = fetchOf(log, it);
  if (!fetch) return null;
  const w = parseInt(fetch.got, 16), op3 = w >>> 19 & 63, rd = REGISTER(w >>> 25 & 31), rs1 = REGISTER(w >>> 14 & 31), rs2 = REGISTER(w & 31);
  const number = (w & 0x1fff) - (w & 0x1000 ? 0x2000 : 0), byNumber = (w & 0x2000) !== 0;
  if (w >>> 30 !== 3) return { pc: fetch.addr, text: '' };
  const space = byNumber ? '%asi' : String(w >>> 5 & 255);
  if (op3 === 60 || op3 === 62) return { pc: fetch.addr, text: `${op3 === 60 ? 'casa' : 'casxa'} [${rs1}] ${space}, ${rs2}, ${rd}` };
  const name = MNEMONICS[op3 & 15], other = (op3 & 48) === 16;
  if (!name || op3 > 31) return { pc: fetch.addr, text: '' };
  const address = `[${rs1}${byNumber ? (number < 0 ? number : number ? '+' + number : '') : (w & 31) ? '+' + rs2 : ''}]` + (other ? ' ' + space : '');
  const stores = (op3 & 15) >= 4 && (op3 & 15) <= 7 || (op3 & 15) === 14;
  return { pc: fetch.addr, text: `${name}${other ? 'a' : ''} ${stores ? `${rd}, ${address}` : `${address}, ${rd}`}` };
}

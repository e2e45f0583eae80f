// ---- Pens: what draws ------------------------------------------------------------------------------------------
// The pictures are drawn by the calls of a canvas. SvgPen takes the same calls, those that the page uses, and keeps
// them as the text of an SVG file.

const TEXT_FONT = '11px system-ui, "DejaVu Sans", sans-serif', VALUE_FONT = '12px ui-monospace, "DejaVu Sans Mono", monospace';

class SvgPen {
  constructor(width, height, measure) {
    this.width = width; this.height = height; this.measure = measure;
    this.out = []; this.path = ''; this.open = 0; this.clips = 0; this.stack = [];
    this.fillStyle = '#000'; this.strokeStyle = '#000'; this.lineWidth = 1; this.globalAlpha = 1; this.font = TEXT_FONT;
    this.textAlign = 'left'; this.textBaseline = 'alphabetic'; this.dash = [];
  }
  static escaped(text) { return String(text).replace(/[&<>"']/g, c => `&#${c.charCodeAt(0)};`); }
  n(x) { return String(Math.round(x * 100) / 100); }
  add(tag, attributes, inside) {
    const words = Object.entries(attributes).filter(([, v]) => v !== null).map(([k, v]) => ` ${k}="${SvgPen.escaped(v)}"`).join('');
    this.out.push(inside === undefined ? `<${tag}${words}/>` : `<${tag}${words}>${SvgPen.escaped(inside)}</${tag}>`);
  }
  get alpha() { return this.globalAlpha < 1 ? this.n(this.globalAlpha) : null; }
  beginPath() { this.path = ''; }
  moveTo(x, y) { this.path += `M${this.n(x)} ${this.n(y)}`; }
  lineTo(x, y) { this.path += `L${this.n(x)} ${this.n(y)}`; }
  bezierCurveTo(a, b, c, d, x, y) { this.path += `C${[a, b, c, d, x, y].map(v => this.n(v)).join(' ')}`; }
  closePath() { this.path += 'Z'; }
  rect(x, y, w, h) { this.path += `M${this.n(x)} ${this.n(y)}h${this.n(w)}v${this.n(h)}h${this.n(-w)}Z`; }
  arc(x, y, r) { this.path += `M${this.n(x - r)} ${this.n(y)}a${this.n(r)} ${this.n(r)} 0 1 0 ${this.n(2 * r)} 0a${this.n(r)} ${this.n(r)} 0 1 0 ${this.n(-2 * r)} 0Z`; }
  fill() { this.add('path', { d: this.path, fill: this.fillStyle, opacity: this.alpha }); }
  stroke() { this.add('path', { d: this.path, fill: 'none', stroke: this.strokeStyle, 'stroke-width': this.n(this.lineWidth), 'stroke-dasharray': this.dash.length ? this.dash.join(' ') : null, opacity: this.alpha }); }
  fillRect(x, y, w, h) { this.beginPath(); this.rect(x, y, w, h); this.fill(); }
  strokeRect(x, y, w, h) { this.beginPath(); this.rect(x, y, w, h); this.stroke(); }
  setLineDash(dash) { this.dash = dash; }
  fillText(text, x, y) {
    const m = /^(?:(\d+) )?(\d+)px (.*)$/.exec(this.font), down = this.textBaseline === 'middle' ? +m[2] * 0.35 : 0;
    this.add('text', { x: this.n(x), y: this.n(y + down), fill: this.fillStyle, 'font-family': m[3], 'font-size': m[2], 'font-weight': m[1] || null, 'text-anchor': { left: null, center: 'middle', right: 'end' }[this.textAlign], opacity: this.alpha }, text);
  }
  measureText(text) { this.measure.font = this.font; return this.measure.measureText(text); }
  save() { this.stack.push(this.open); }
  restore() { for (const to = this.stack.pop(); this.open > to; this.open--) this.out.push('</g>'); }
  clip() { const id = 'clip' + this.clips++; this.out.push(`<clipPath id="${id}"><path d="${this.path}"/></clipPath><g clip-path="url(#${id})">`); this.open++; }
  text(title) {
    return `<svg xmlns="http://www.w3.org/2000/svg" width="${this.width}" height="${this.height}" viewBox="0 0 ${this.width} ${this.height}" role="img">\n<title>${SvgPen.escaped(title)}</title>\n${this.out.join('\n')}\n</svg>\n`;
  }
}

// ---- Colours: those of the theme, and for each address that strands share a hue, as dark or light as it takes to be
// read on the ground (a contrast of 4.5 at least).
const HUES = [212, 28, 152, 328, 48, 268, 96, 186, 8, 300];
let theme = {};

function readTheme() {
  const css = getComputedStyle(document.documentElement);
  theme = Object.fromEntries(['bg', 'panel', 'ink', 'dim', 'faint', 'lane', 'kill', 'sel', 'band'].map(k => [k, css.getPropertyValue('--' + k).trim()]));
  theme.dark = luminance(rgbOfHex(theme.bg)) < 0.2;
  theme.tints = new Map();
}
const rgbOfHex = h => [1, 3, 5].map(k => parseInt(h.substr(k, 2), 16));
function luminance(rgb) { const [r, g, b] = rgb.map(v => (v /= 255) <= 0.03928 ? v / 12.92 : ((v + 0.055) / 1.055) ** 2.4); return 0.2126 * r + 0.7152 * g + 0.0722 * b; }
function contrast(a, b) { const [p, q] = [luminance(a), luminance(b)].sort((x, y) => y - x); return (p + 0.05) / (q + 0.05); }
function rgbOfHsl(h, s, l) { return [0, 8, 4].map(n => { const k = (n + h / 30) % 12; return Math.round(255 * (l - s * Math.min(l, 1 - l) * Math.max(-1, Math.min(k - 3, 9 - k, 1)))); }); }

function tint(hue) {
  if (hue === undefined) return rgbOfHex(theme.dim);
  if (!theme.tints.has(hue)) {
    let l = theme.dark ? 0.62 : 0.42, rgb;
    do { rgb = rgbOfHsl(hue, 0.72, l); l += theme.dark ? 0.02 : -0.02; } while (contrast(rgb, rgbOfHex(theme.band)) < 4.6 && l > 0 && l < 1);
    theme.tints.set(hue, rgb);
  }
  return theme.tints.get(hue);
}
function colourOf(addr, alpha = 1) { return `rgba(${tint(app.hues.get(wordOf(addr))).join(',')},${alpha})`; }

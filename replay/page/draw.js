/* What the pictures have in common: elements of SVG as text, colours, patterns and styles. Score and node draw with these alone. */

/* Colour and pattern say where a message stands and nothing else: solid in the hardware queue, hatched in a frame, dotted in a swap
   page. */
const COLOURS = {
  ink: '#1c1b19',
  dim: '#57534e',
  paper: '#ffffff',
  rule: '#d6d1c7',
  slot: '#a8a29e',
  queue: '#1d4f91',
  queueLight: '#dbe7f5',
  frame: '#a8480f',
  frameLight: '#f6dcc4',
  swap: '#55407a',
  swapLight: '#e6e0ee',
  runs: '#f4d35e',
  runsLight: '#fbf3d5',
  refused: '#9b1c1c',
  moved: '#8a3a0b',
};

const SANS = '"DejaVu Sans","Segoe UI",Helvetica,Arial,sans-serif';
const MONO = '"DejaVu Sans Mono",Menlo,Consolas,monospace';
/* The width of a sign of MONO, for a size of 1; and the size of p-small. */
const MONO_SIGN = 0.602;
const SMALL = 9.5;

/* A pattern in a hidden part of a page is not drawn: these stand once in a part that always is, and in each picture saved. */
const PATTERNS = `<defs>
<pattern id="p-hatch" width="5" height="5" patternUnits="userSpaceOnUse" patternTransform="rotate(45)">
<rect width="5" height="5" fill="${COLOURS.frameLight}"/><rect width="2" height="5" fill="${COLOURS.frame}"/></pattern>
<pattern id="p-dots" width="5" height="5" patternUnits="userSpaceOnUse"><rect width="5" height="5" fill="${COLOURS.swapLight}"/>
<circle cx="1.3" cy="1.3" r="1.1" fill="${COLOURS.swap}"/><circle cx="3.8" cy="3.8" r="1.1" fill="${COLOURS.swap}"/></pattern>
<marker id="p-arrow" viewBox="0 0 8 8" refX="7" refY="4" markerUnits="userSpaceOnUse" markerWidth="11" markerHeight="11" orient="auto">
<path d="M0 0 8 4 0 8z" fill="${COLOURS.ink}"/></marker>
</defs>`;

/* Two classes in each selector, so that a class overrules what is said of all texts. */
const PICTURE_CSS = `
.p-picture text{font-family:${SANS};font-size:11px;fill:${COLOURS.ink}}
.p-picture .p-mono{font-family:${MONO};font-size:10.5px}
.p-picture .p-small{font-size:${SMALL}px}
.p-picture .p-bold{font-weight:700}
.p-picture .p-middle{text-anchor:middle}
.p-picture .p-end{text-anchor:end}
.p-picture .p-dim{fill:${COLOURS.dim}}
.p-picture .p-white{fill:${COLOURS.paper}}
.p-picture .p-refused{fill:${COLOURS.refused}}
.p-picture .p-moved{fill:${COLOURS.moved}}
.p-picture .p-halo{paint-order:stroke;stroke:${COLOURS.paper};stroke-width:3px}
.p-picture .p-queue{fill:${COLOURS.queue}}
.p-picture .p-waits{fill:${COLOURS.queueLight};stroke:${COLOURS.queue};stroke-width:.8}
.p-picture .p-frame{fill:url(#p-hatch);stroke:${COLOURS.frame};stroke-width:1}
.p-picture .p-swap{fill:url(#p-dots);stroke:${COLOURS.swap};stroke-width:1}
.p-picture .p-plain{fill:${COLOURS.dim}}
.p-picture .p-chip{fill:${COLOURS.paper}}
.p-picture .p-runs{fill:${COLOURS.runs};stroke:${COLOURS.ink};stroke-width:1}
.p-picture .p-has{fill:${COLOURS.runsLight}}
.p-picture .p-slot{fill:${COLOURS.paper};stroke:${COLOURS.slot};stroke-width:1}
.p-picture .p-upcall{fill:${COLOURS.ink};stroke:${COLOURS.paper};stroke-width:1}
.p-picture .p-trap{fill:${COLOURS.paper};stroke:${COLOURS.refused};stroke-width:1.6}
.p-score .p-tiny{font-size:9px}
.p-score .p-row{fill:${COLOURS.paper};stroke:${COLOURS.rule};stroke-width:1}
.p-score .p-area,.p-overview .p-area{stroke:none}
.p-score .p-timer{fill:none;stroke:${COLOURS.ink};stroke-width:1.6}
.p-score .p-limit{fill:none;stroke:${COLOURS.refused};stroke-width:1;stroke-dasharray:4 3}
.p-score .p-timeout{fill:none;stroke:${COLOURS.refused};stroke-width:1.3;stroke-dasharray:5 3}
.p-score .p-cross{fill:none;stroke:${COLOURS.refused};stroke-width:1.5}
.p-score .p-atomic{fill:none;stroke:${COLOURS.ink};stroke-width:2}
.p-score .p-pending{fill:${COLOURS.ink}}
.p-score .p-force{fill:none;stroke:${COLOURS.ink};stroke-width:2;stroke-dasharray:2 3}
.p-score .p-revoked{fill:none;stroke:${COLOURS.refused};stroke-width:1.5}
.p-score .p-launch{fill:none;stroke:${COLOURS.ink};stroke-width:1.8}
.p-score .p-head{stroke:${COLOURS.paper};stroke-width:1}
.p-score .p-head-queue{fill:${COLOURS.queue}}
.p-score .p-head-frame{fill:${COLOURS.frame}}
.p-score .p-head-swap{fill:${COLOURS.swap}}
.p-score .p-head-plain{fill:${COLOURS.dim}}
.p-score .p-read{fill:${COLOURS.ink};stroke:${COLOURS.paper};stroke-width:.8}
.p-score .p-reason{fill:${COLOURS.paper};stroke:${COLOURS.frame};stroke-width:1.2}
.p-score .p-end-sign{fill:${COLOURS.paper};stroke:${COLOURS.ink};stroke-width:1.8}
.p-score .p-cursor{fill:none;stroke:${COLOURS.ink};stroke-width:2.5}
.p-score .p-cursor-sign{fill:${COLOURS.ink}}
.p-score .p-hit{fill:transparent;cursor:pointer}
.p-overview .p-little-refused{fill:${COLOURS.refused}}
.p-overview .p-little-trap{fill:${COLOURS.ink}}
`;

function xml(text) {
  return String(text).replace(/[&<>"]/g, sign => ({ '&': '&amp;', '<': '&lt;', '>': '&gt;', '"': '&quot;' })[sign]);
}

/* A number of a picture: one decimal is as fine as can be seen, and keeps files small. */
const tenths = number => String(Math.round(number * 10) / 10);

/* An element with its attributes, of which those without a value are left out. Content is XML. */
function tag(name, attributes, content = '') {
  const said = ([key, value]) => ` ${key}="${typeof value === 'number' ? tenths(value) : xml(value)}"`;
  const all = Object.entries(attributes).filter(([, value]) => value !== undefined && value !== '');
  return `<${name}${all.map(said).join('')}` + (content === '' ? '/>' : `>${content}</${name}>`);
}

/* look: classes; more: further attributes, such as data-at. */
const text = (x, y, said, look, more) => tag('text', { x, y, class: look, ...more }, xml(said));
const rect = (x, y, width, height, look, more, content) => tag('rect', { x, y, width, height, class: look, ...more }, content);
const circle = (cx, cy, r, look, more) => tag('circle', { cx, cy, r, class: look, ...more });
const path = (d, look, more) => tag('path', { d, class: look, ...more });
const title = said => tag('title', {}, xml(said));

/* A path's data, its numbers in tenths: points`M${x} ${y}H${end}`. */
const points = (signs, ...numbers) => String.raw({ raw: signs }, ...numbers.map(tenths));

/* Drawn things that belong together, named for whoever reads the picture back. */
const part = (at, content, more) => tag('g', { 'data-at': at, ...more }, content);

const monoWidth = (said, size) => String(said).length * size * MONO_SIGN;

/* The words of a message in so much room: all of them, or the first, or as much of it as there is room for. Nothing where not even that
   fits. */
function fitted(words, room, size) {
  const fits = said => monoWidth(said, size) <= room;
  const whole = words.join(' ');
  if (fits(whole)) return whole;
  const first = String(words[0]);
  if (words.length > 1 && fits(first + ' …')) return first + ' …';
  return fits('0…') ? first.slice(0, Math.floor(room / (size * MONO_SIGN)) - 1) + '…' : '';
}

/* A text in small on a chip of paper, for what it lies over; x: its left end. */
function chip(x, y, said, look, more) {
  const width = monoWidth(said, SMALL) + 3;
  return rect(x - 1.5, y - 8, width, 9, 'p-chip') + text(x, y, said, `p-mono p-small ${look}`, more);
}

/* A whole picture. kind: its class besides p-picture; told: what it shows, for the ear; alone: as a file of its own, with its styles and
   patterns. */
function picture({ width, height, kind, label, told, alone, css = '' }, content) {
  const own = alone ? title(label) + tag('desc', {}, xml(told ?? label)) + `<style>${PICTURE_CSS}${css}</style>${PATTERNS}` : '';
  const size = { viewBox: `0 0 ${tenths(width)} ${tenths(height)}`, width, height };
  const named = { xmlns: 'http://www.w3.org/2000/svg', class: `p-picture ${kind}`, role: 'img', 'aria-label': label };
  return tag('svg', { ...named, ...size }, own + content);
}

/* The page: stepping, links, drawing, saving, printing. */

/* Rows of the listing in the document at a time: a longer one is shown in part, around the current line. */
const ROWS = 120;
/* Columns of a printed score, and their width: a system is as wide as the paper. */
const PRINTED_COLUMNS = 20;
const PRINTED_WIDTH = 29;
/* Pixels that the wide picture of a node takes to be read. */
const NARROWEST = 640;
/* Milliseconds between steps while it plays. */
const PACE = 900;

const element = id => document.getElementById(id);

/* What is shown: a run, what is counted of it, the line at which it is, how wide node and score can be, the lines that the score shows, and
   what plays it on. */
const view = { run: null, counts: '', at: 0, room: null, from: 0, to: 0, timer: 0 };

const viewer = () => Number(element('viewer').value);
const isEmpty = run => run.last < run.first;

/* ---- stepping ---- */

function go(line) {
  const { run } = view;
  view.at = Math.max(run.first - 1, Math.min(run.last, Math.trunc(line) || 0));
  draw();
}

/* What a reader looks for: a refusal, a trap, or several messages that moved at once; seen by a group, its own refusals and upcalls. */
function isEvent(run, i) {
  const { answer, trap, upcall, moved } = reportOf(run.line(i));
  if (viewer()) return !isHidden(run, i) && (answer > 0 || upcall === viewer());
  return answer > 0 || trap > 0 || moved > 1;
}

function goToEvent(step) {
  const { run } = view;
  let line = view.at + step;
  while (line >= run.first && line <= run.last && !isEvent(run, line)) line += step;
  go(line);
}

function playOrPause() {
  const playing = view.timer !== 0;
  clearInterval(view.timer);
  view.timer = 0;
  if (!playing) {
    if (view.at === view.run.last) go(view.run.first - 1);
    view.timer = setInterval(() => (view.at < view.run.last ? go(view.at + 1) : playOrPause()), PACE);
  }
  element('play').innerHTML = playing ? '<span aria-hidden="true">▶ </span>play' : '<span aria-hidden="true">❚❚ </span>pause';
  element('play').setAttribute('aria-pressed', String(!playing));
}

/* ---- drawing ---- */

/* How wide things are is asked before anything is drawn: asked in between, the browser would lay the page out each time. */
function draw() {
  view.room = { node: element('node').clientWidth, score: element('score').clientWidth - SCORE_LEFT - SCORE_RIGHT };
  drawIn('said', drawNow);
  drawIn('node', drawNode);
  drawIn('score', drawScore);
  drawRows();
  drawControls();
  const hash = `#line=${view.at}` + (viewer() ? `&seen=${viewer()}` : '');
  if (location.hash !== hash) history.replaceState(null, '', hash);
  document.body.dataset.line = view.at;
}

/* A run that was damaged may hold what no run does: what can't be drawn of it is said, and all else is drawn. */
function drawIn(id, drawPart) {
  try {
    drawPart();
  } catch (error) {
    element(id).textContent = `This can’t be drawn: ${error.message}.`;
    document.body.dataset.undrawn = id;
  }
}

/* Where the run is before its first line. */
const beforeFirst = run => (run.begin === 'power-on' && run.first === 1 ? 'at power-on' : `before line ${run.first}`);

function drawNow() {
  const { run, at } = view;
  element('counts').textContent = viewer() ? privateCounts(viewer()) : view.counts;
  const line = at >= run.first ? run.line(at) : null;
  const hidden = line && isHidden(run, at);
  const where = line ? `line ${thousands(at)} of ${thousands(run.total)}` : isEmpty(run) ? '' : `before line ${thousands(run.first)}`;
  const what = hidden ? '·' : line ? line.shown || '(an empty line)' : beforeFirst(run).replace('at ', '');
  const answer = !line || hidden ? '' : answerHtml(line.report[0]);
  const sentences = line ? (viewer() ? privateWords(run, at, viewer()) : wordsOf(run, at)) : [startWords(run)];
  const step = `<span class="dim">${where}</span> <code>${xml(what)}</code> ${answer}`;
  element('said').innerHTML = `<p class="step">${step}</p><p>${sentences.map(xml).join(' ')}</p>`;
  element('report').innerHTML = line && !hidden ? reportHtml(line.report) : '';
}

const answerHtml = answer => (answer ? `<span class="bad">refused: ${answer}</span>` : '<span class="good">accepted</span>');

/* A line that the group which looks on takes no part in. */
const isHidden = (run, i) => viewer() > 0 && !concerns(run, i, viewer());

const privateCounts = g => `What group ${g} sees of this run: its own answers, its upcalls, and its line, first in, first out.`;

function startWords(run) {
  if (!run.isNode) return 'The memory that this run begins with is no node.';
  if (isEmpty(run) || (run.begin === 'power-on' && run.first === 1)) return 'Power-on: nobody runs, and everything is empty or off.';
  return run.begin === 'power-on' ? 'The lines before were played; they are not shown here.' : 'The run begins at a node that was there.';
}

/* The columns of the listing, by their names; the kernel's are no group's. */
const REPORT = ['answer', 'value', 'trap', 'upcall', 'moved'];
const ofKernel = column => (column === 'trap' || column === 'moved' ? 'kernel' : '');

function reportHtml(report) {
  const cell = (name, value, classes) => `<div class="${classes}"><dt>${name}</dt><dd>${value}</dd></div>`;
  const cells = REPORT.map((name, i) => cell(name, thousands(report[i]), `${report[i] ? 'set' : ''} ${ofKernel(name)}`));
  if (report.length > REPORT.length) {
    const [node, group, ...words] = report.slice(REPORT.length).map(thousands);
    cells.push(cell('sent', `to node ${node}, of group ${group}: ${words.join(', ')}`, 'set'));
  }
  return cells.join('');
}

function drawNode() {
  const { run, at } = view;
  element('node').innerHTML = pictureNow({ narrow: view.room.node < NARROWEST });
  element('outlined').hidden = viewer() > 0 || at < run.first || !run.isNode;
  element('stateBox').hidden = viewer() > 0 || !run.isNode;
  if (element('stateBox').open) drawState();
}

/* The node after the current line, or what the group that looks on sees. */
function pictureNow(options) {
  const { run, at } = view;
  return viewer() ? privatePicture(run, at, viewer(), options) : nodePicture(run, at, options);
}

function drawState() {
  element('state').textContent = view.run.isNode ? stateText(view.run, view.at) : '';
}

/* The width of a column: the whole run where it fits, else what can be read. */
function columnWidth(room, count) {
  const chosen = Number(element('column').value);
  if (chosen) return chosen;
  if (count * 44 <= room) return Math.min(90, room / count);
  return count * 24 <= room ? 24 : 34;
}

function drawScore() {
  const { run, at } = view;
  const box = element('score');
  const count = run.last - run.first + 1;
  if (isEmpty(run)) {
    box.replaceChildren();
    element('overview').hidden = true;
    element('window').textContent = '';
    return;
  }
  const room = view.room.score;
  const column = columnWidth(room, count);
  const fits = Math.max(4, Math.floor(room / column));
  const shown = Math.min(count, fits);
  view.from = Math.max(run.first, Math.min(at - Math.floor(shown / 2), run.last - shown + 1));
  view.to = view.from + shown - 1;
  const picture = scorePicture(run, { from: view.from, to: view.to, column, cursor: at, seenBy: viewer(), click: true });
  box.innerHTML = picture.svg;
  element('window').textContent = windowWords(picture.quiet, shown < count);
  drawOverview(room, shown < count);
}

function windowWords(quiet, part) {
  const { run, from, to } = view;
  const words = [];
  if (part) words.push(`The score shows lines ${thousands(from)} to ${thousands(to)}.`);
  const groups = quiet.length === 1 ? 'group' : 'groups';
  if (run.isNode && quiet.length > 0 && !viewer()) words.push(`No part in this run: ${groups} ${quiet.join(', ')}.`);
  return words.join(' ');
}

/* The whole run in little, drawn once for a width; over it where the score is, and the current line. */
function drawOverview(room, part) {
  const { run, at, from, to } = view;
  const box = element('overview');
  box.hidden = !part;
  if (!part) return;
  const drawn = `${room} ${viewer()}`;
  if (box.dataset.drawn !== drawn) {
    box.innerHTML = overviewPicture(run, room, viewer()) + '<div id="frame"></div><div id="cursor"></div>';
    box.dataset.drawn = drawn;
  }
  const left = line => SCORE_LEFT + ((line - run.first) / (run.last - run.first + 1)) * room;
  element('frame').style.left = `${left(from)}px`;
  element('frame').style.width = `${left(to + 1) - left(from)}px`;
  element('cursor').style.left = `${left(at + 0.5)}px`;
}

/* A row of the listing as the file has it; of a line that a group has no part in, its number. */
function rowHtml(run, i) {
  if (isHidden(run, i)) return `<tr data-line="${i}" class="other"><td>${i}</td><td class="left">·</td>${'<td></td>'.repeat(4)}</tr>`;
  const line = run.line(i);
  const cells = REPORT.map((name, k) => `<td class="${ofKernel(name)} ${line.report[k] ? '' : 'zero'}">${line.report[k]}</td>`).join('');
  const sent = line.report.slice(REPORT.length).join(',');
  const { reason } = line;
  const told = reason ? `${reason.number} at ${reason.line}` : '';
  const linked = reason && reason.line <= run.last ? `<a href="#line=${reason.line}">${told}</a>` : told;
  const refused = line.report[0] ? ' class="refused"' : '';
  const begin = `<tr data-line="${i}"${refused}><td>${i}</td><td class="left"><code>${xml(line.shown)}</code></td>`;
  return `${begin}${cells}<td class="left">${sent}</td><td class="left kernel">${linked}</td></tr>`;
}

/* The rows in the document stay the same for half their number of steps. */
function drawRows() {
  const { run, at } = view;
  const half = ROWS / 2;
  const block = run.first + Math.floor((at - run.first) / half) * half;
  const first = Math.max(run.first, Math.min(block - half / 2, run.last - ROWS + 1));
  const last = Math.min(run.last, first + ROWS - 1);
  const shown = `${first} ${last} ${viewer()}`;
  const body = element('rows');
  if (body.dataset.shown !== shown) {
    const rows = [];
    for (let i = first; i <= last; i++) rows.push(rowHtml(run, i));
    body.innerHTML = rows.join('');
    body.dataset.shown = shown;
  }
  body.querySelector('[aria-current]')?.removeAttribute('aria-current');
  const now = body.querySelector(`[data-line="${at}"]`);
  now?.setAttribute('aria-current', 'step');
  element('list').scrollTop = now ? now.offsetTop - element('list').clientHeight / 2 : 0;
}

function drawControls() {
  const { run, at } = view;
  const slider = element('slider');
  slider.min = run.first - 1;
  slider.max = run.last;
  slider.value = at;
  const shown = at < run.first || isHidden(run, at) ? '' : `: ${run.line(at).shown}`;
  slider.setAttribute('aria-valuetext', at < run.first ? beforeFirst(run) : `line ${at}${shown}`);
  element('before').textContent = beforeFirst(run).replace('at ', '');
  for (const id of ['first', 'back', 'eventBack']) element(id).disabled = at < run.first;
  for (const id of ['last', 'next', 'eventNext']) element(id).disabled = at === run.last;
  document.body.dataset.view = viewer() ? 'group' : 'archive';
}

/* ---- another run: the file's own, or the reader's ---- */

function show(run, own) {
  Object.assign(view, { run, counts: countsWords(run) });
  delete element('overview').dataset.drawn;
  delete element('rows').dataset.shown;
  element('title').textContent = run.title;
  document.title = `${run.title} · a node of the FUGU machine`;
  element('notice').textContent = own ? '' : noticeWords(run);
  element('notice').hidden = own;
  element('own').hidden = own;
  document.body.dataset.own = String(own);
  document.body.dataset.empty = String(isEmpty(run));
  const groups = Array.from(run.parts).sort((one, other) => one - other);
  const options = ['<option value="0">the archive</option>', ...groups.map(g => `<option value="${g}">group ${g}</option>`)];
  element('viewer').innerHTML = options.join('');
}

/* The file's own, before its first line. */
function showOwn(own) {
  show(own, true);
  view.at = own.first - 1;
  element('script').value = boxText(ownScript(own.data));
  element('played').textContent = '';
}

function noticeWords(run) {
  const from = run.begin === 'power-on' ? 'power-on' : 'the memory that the file’s own lines begin with';
  return `This is your own script, not the run in this file. The proved code in this page played it, from ${from}.`;
}

function countsWords(run) {
  if (isEmpty(run)) return 'A node of the FUGU machine. Write a script, and the proved code in this page plays it.';
  const count = of => run.data.lines.filter(line => of(line.report)).length;
  const refused = count(report => report[0] > 0);
  const lines = run.last - run.first + 1;
  const [first, last, total] = [run.first, run.last, run.total].map(thousands);
  const part = lines < run.total ? `Lines ${first} to ${last} of ${total}: ` : `${counted(lines, 'line')}: `;
  const timeouts = counted(count(report => report[2] === 3), 'timeout');
  const events = [counted(count(report => report[3] > 0), 'upcall'), `${counted(count(report => report[2] > 0), 'trap')} (${timeouts})`];
  const reasons = run.begin === 'power-on' ? '' : ' Reasons are told from power-on, and it does not begin there: so none are told.';
  return `${part}${thousands(lines - refused)} accepted, ${thousands(refused)} refused; ${events.join(', ')}.${reasons}`;
}

/* ---- saving ---- */

function save(name, type, content) {
  const link = document.createElement('a');
  link.href = URL.createObjectURL(new Blob([content], { type }));
  link.download = name;
  link.click();
  setTimeout(() => URL.revokeObjectURL(link.href), 10000);
}

function saveScore() {
  const { run, from, to, room } = view;
  if (isEmpty(run)) return;
  const options = { from, to, column: columnWidth(room.score, run.last - run.first + 1) };
  save(`score-${from}-${to}.svg`, 'image/svg+xml', scorePicture(run, { ...options, seenBy: viewer(), alone: true }).svg);
}

function saveNode() {
  const { at } = view;
  save(viewer() ? `group-${viewer()}-line-${at}.svg` : `node-line-${at}.svg`, 'image/svg+xml', pictureNow({ alone: true }));
}

/* The words of the memory, each with its lowest byte first: as the desk keeps a node. */
function saveDump() {
  const words = view.run.memory(view.at);
  const bytes = new DataView(new ArrayBuffer(4 * words.length));
  words.forEach((word, i) => bytes.setUint32(4 * i, word, true));
  save(`line-${view.at}.node`, 'application/octet-stream', bytes.buffer);
}

/* ---- printing: the score in systems, one below the other, the node as it is where there is room, and every row with its words ---- */

function printed() {
  const { run } = view;
  if (element('printedScore').childElementCount > 0 || isEmpty(run)) return;
  const when = view.at >= run.first ? `after line ${thousands(view.at)}` : beforeFirst(run);
  const head = element('listing').querySelector('thead tr').innerHTML + '<th scope="col" class="left">in words</th>';
  element('printedScore').innerHTML = `<h2>The score</h2>${printedSystems(run)}<h2>The node ${when}</h2>`;
  element('node').innerHTML = pictureNow({});
  const table = `<thead><tr>${head}</tr></thead><tbody>${printedRows(run)}</tbody>`;
  element('printedListing').innerHTML = `<h2>The listing</h2><table>${table}</table>`;
}

/* Systems of the same length, so that none is left with a line or two. */
function printedSystems(run) {
  const count = run.last - run.first + 1;
  const columns = Math.ceil(count / Math.ceil(count / PRINTED_COLUMNS));
  const column = Math.min(2 * PRINTED_WIDTH, (PRINTED_COLUMNS * PRINTED_WIDTH) / columns);
  const systems = [];
  for (let from = run.first; from <= run.last; from += columns) {
    const to = Math.min(run.last, from + columns - 1);
    systems.push(`<div class="system">${scorePicture(run, { from, to, column, seenBy: viewer(), lean: true }).svg}</div>`);
  }
  return systems.join('');
}

function printedRows(run) {
  const rows = [];
  for (let i = run.first; i <= run.last; i++) {
    const words = viewer() ? privateWords(run, i, viewer()) : wordsOf(run, i);
    rows.push(rowHtml(run, i).replace('</tr>', () => `<td class="left">${words.map(xml).join(' ')}</td></tr>`));
  }
  return rows.join('');
}

function unprinted() {
  element('printedScore').replaceChildren();
  element('printedListing').replaceChildren();
  drawNode();
}

/* ---- the beginning ---- */

const KEYS = {
  ArrowRight: () => go(view.at + 1),
  ArrowDown: () => go(view.at + 1),
  ArrowLeft: () => go(view.at - 1),
  ArrowUp: () => go(view.at - 1),
  PageDown: () => go(view.at + 10),
  PageUp: () => go(view.at - 10),
  Home: () => go(view.run.first - 1),
  End: () => go(view.run.last),
  ' ': playOrPause,
  n: () => goToEvent(1),
  p: () => goToEvent(-1),
  s: saveScore,
  d: saveNode,
  m: saveDump,
};

/* Keys are left to what is typed or chosen in, but for the slider, and a button's own to it. */
function pressed(event) {
  const { target, key } = event;
  const typing = /^(TEXTAREA|SELECT|INPUT)$/.test(target.tagName) && target.id !== 'slider';
  const own = key === ' ' && /^(BUTTON|SUMMARY)$/.test(target.tagName);
  if (typing || own || event.ctrlKey || event.metaKey || event.altKey || !KEYS[key]) return;
  event.preventDefault();
  KEYS[key]();
}

function followLink() {
  const [, line, group] = /^#line=(\d+)(?:&seen=(\d+))?$/.exec(location.hash) ?? [];
  if (group) element('viewer').value = group;
  if (element('viewer').value === '') element('viewer').value = '0';
  go(line === undefined ? view.at : Number(line));
}

function listen() {
  const clicked = { first: KEYS.Home, back: KEYS.ArrowLeft, next: KEYS.ArrowRight, last: KEYS.End, play: playOrPause };
  Object.assign(clicked, { eventBack: KEYS.p, eventNext: KEYS.n, saveScore, saveNode, saveDump });
  for (const [id, action] of Object.entries(clicked)) element(id).onclick = action;
  element('slider').oninput = event => go(Number(event.target.value));
  element('column').onchange = draw;
  element('viewer').onchange = draw;
  element('stateBox').ontoggle = drawState;
  const lineAt = event => Number(event.target.closest('[data-line]')?.dataset.line ?? view.at);
  element('score').onclick = event => go(lineAt(event));
  element('rows').onclick = event => event.target.closest('a') ?? go(lineAt(event));
  element('overview').onclick = event => {
    const { run, room } = view;
    const left = element('overview').getBoundingClientRect().left + SCORE_LEFT;
    go(run.first + ((event.clientX - left) / room.score) * (run.last - run.first + 1));
  };
  addEventListener('keydown', pressed);
  addEventListener('hashchange', followLink);
  addEventListener('resize', draw);
  addEventListener('beforeprint', printed);
  addEventListener('afterprint', unprinted);
  matchMedia('print').addEventListener('change', event => (event.matches ? printed() : unprinted()));
}

function begin() {
  element('patterns').innerHTML = PATTERNS;
  const style = document.createElement('style');
  style.textContent = PICTURE_CSS + NODE_CSS;
  document.head.append(style);
  element('signs').innerHTML = signsPicture();
  let own;
  try {
    own = makeRun(readRun(element('run').textContent));
  } catch (error) {
    element('notice').textContent = `This page is damaged: ${error.message}.`;
    element('notice').hidden = false;
    document.documentElement.classList.replace('loading', 'damaged');
    return;
  }
  own.title = element('title').textContent;
  document.body.dataset.machine = String(isEmpty(own));
  listen();
  showOwn(own);
  element('own').onclick = () => {
    showOwn(own);
    draw();
  };
  element('rows').replaceChildren();
  document.documentElement.classList.remove('loading');
  followLink();
  setTimeout(prepareCode, 0, own);
}

begin();

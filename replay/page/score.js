/* The run as a score: a column for each line, a lane for each group; the whole run in little; and the key to the signs.

   What holds after line N is drawn from the middle of N's column to the middle of the next. Whoever reads the picture back finds in
   data-at what is drawn; where it lasts, data-from and data-to are the first and the last line after which it is so, as far as shown.
     line N operation | answer      the text is what is drawn
     runs G                         who has the processor, 0 for nobody; data-from, data-to
     line N queue K                 a cell: after line N a message stands at place K of the queue; data-group
     line N moved K, line N timeout, line N trap T, line N upcall G, line N launch NODE
     timer                          data-counts: the timer after each line, from the one before the first column on
     lane G                         a group's lane; in it
       lane G FLAG                  atomic, pending, force or revoked is on; data-from, data-to
       lane G message M             M: the line of its arrival, or "start K": it stood at place K of its group's line before that
       lane G message M PLACE       a stretch of its bar in queue, frame or swap, or plain where a group sees it; data-from, data-to
       lane G message M begin, read, end, reason R      data-line
       lane G heights PLACE         where more wait than bars fit: data-counts, after each line
     pages frame, pages swap        data-counts
     line N out K, line N in K      pages sent out, brought in
     cursor                         the current line; data-line */

/* Room for the names of the rows, and behind the last column; for the sign of the current line, and between rows. */
const SCORE_LEFT = 88;
const SCORE_RIGHT = 14;
const SCORE_TOP = 9;
const ROW_GAP = 5;

/* Columns narrower than this have no texts and no bars, only heights. */
const NARROW = 9;

/* ---- what the messages of a run live through ---- */

const stories = new WeakMap();

/* The lives of a run's messages by group, and the most that stands anywhere after a line: told once for a run. */
function storyOf(run) {
  if (!stories.has(run)) stories.set(run, { lives: livesOf(run), most: mostOf(run, run.first - 1, run.last) });
  return stories.get(run);
}

const groupsOf = map => Array.from({ length: map.groups }, (_, i) => i + 1);

/* By reports and memories alone. A life: whose message, its words, the line that brought it, the lines that read it, the line that
   disposed of it, and the stretches of lines after which it stood in one place. */
function livesOf(run) {
  const lives = Array.from({ length: run.map.groups + 1 }, () => []);
  const lines = lives.map(() => []);
  const begin = (group, name, words, from, reason) => {
    const life = { group, name, words, from, reason, reads: [], end: null, stretches: [] };
    lives[group].push(life);
    lines[group].push(life);
  };
  const start = run.node(run.first - 1);
  for (const g of groupsOf(run.map)) {
    lineOf(start, g).forEach((message, k) => begin(g, `start ${k}`, message.words, run.first - 1, null));
    place(run, lines[g], g, run.first - 1);
  }
  for (let i = run.first; i <= run.last; i++) {
    live(run, i, lines, begin);
    for (const g of groupsOf(run.map)) if (stirred(run, g, i)) place(run, lines[g], g, i);
  }
  for (const life of lines.flat()) lastOf(life.stretches).to = run.last;
  for (const all of lives) slotsOf(all).forEach((slot, k) => (all[k].slot = slot));
  return lives;
}

const lastOf = list => list[list.length - 1];

/* What line i does to a message: it arrives, is read, or is disposed of. */
function live(run, i, lines, begin) {
  const { fields, report, reason } = run.line(i);
  if (report[0] !== 0) return;
  const line = lines[run.brief(i).running];
  if (fields[0] === 'A') begin(Number(fields[1]), String(i), fields.slice(2).map(Number), i, reason);
  if (fields[0] === 'E') line[0].reads.push(i);
  if (fields[0] === 'D') {
    const life = line.shift();
    life.end = i;
    lastOf(life.stretches).to = i - 1;
  }
}

/* Whether a group's messages may stand elsewhere after line i than before. */
function stirred(run, g, i) {
  const before = run.brief(i - 1).groups[g];
  const after = run.brief(i).groups[g];
  return before.count !== after.count || before.queued !== after.queued || String(before.away) !== String(after.away);
}

/* The buffer's messages are the first of the line; each stands in a page of the list, which is in a frame or away in swap. */
function place(run, line, g, i) {
  const { used, count, away } = run.brief(i).groups[g];
  line.forEach((life, k) => {
    const kept = away.includes(Math.floor((used + k) / run.map.page)) ? 'swap' : 'frame';
    const place = k < count ? kept : 'queue';
    const last = lastOf(life.stretches);
    if (last?.place === place) return;
    if (last) last.to = i - 1;
    life.stretches.push({ place, from: i });
  });
}

/* A row for each bar, the first that is free. */
function slotsOf(lives) {
  const taken = [];
  return lives.map(life => {
    const free = taken.findIndex(to => to < life.from);
    const slot = free < 0 ? taken.length : free;
    taken[slot] = lastOf(life.stretches).to;
    return slot;
  });
}

const waiting = (brief, g) => brief.groups[g].count + brief.groups[g].queued;

/* The most that stands anywhere after one of the lines from..to, and which groups take part there. */
function mostOf(run, from, to) {
  const most = { queue: 0, frames: 0, swap: 0, waiting: new Array(run.map.groups + 1).fill(0), parts: new Set() };
  for (let i = from; i <= to; i++) {
    const brief = run.brief(i);
    most.queue = Math.max(most.queue, brief.queue.length);
    most.frames = Math.max(most.frames, brief.frames);
    most.swap = Math.max(most.swap, brief.swap);
    for (const g of groupsOf(run.map)) {
      most.waiting[g] = Math.max(most.waiting[g], waiting(brief, g));
      if (takesPart(brief, g)) most.parts.add(g);
    }
  }
  return most;
}

/* ---- the sheet ---- */

/* Lines from..to of a run, each in a column of so many pixels, and states: these and the line before, after which the first column
   begins. x(i): the moment of line i; begin(i), end(i): where what holds after line i begins, and where what holds until after line i
   ends. A lean sheet is laid out for what these lines need, any other for what the run needs, so that its rows stay in their places from
   step to step. */
function sheetOf(run, { from, to, column, seenBy = 0, lean = false }) {
  const right = SCORE_LEFT + (to - from + 1) * column;
  const x = i => SCORE_LEFT + (i - from + 0.5) * column;
  const begin = i => (i < from ? SCORE_LEFT : x(i));
  const end = i => (i >= to ? right : x(i + 1));
  const states = Array.from({ length: to - from + 2 }, (_, k) => from - 1 + k);
  const sheet = { run, from, to, column, seenBy, right, x, begin, end, states, lines: states.slice(1) };
  if (!run.isNode) return sheet;
  const { lives, most } = storyOf(run);
  return { ...sheet, lives, most: lean ? mostOf(run, from - 1, to) : most };
}

/* The most of something that stands after a line shown. */
const mostShown = (sheet, countOf) => Math.max(...sheet.states.map(i => countOf(sheet.run.brief(i))));

/* Lines after which a value is the same, from before the first column to the last. */
function stretchesOf(sheet, valueOf) {
  const found = [];
  for (const i of sheet.states) {
    const value = valueOf(sheet.run.brief(i));
    const last = lastOf(found);
    if (last && last.value === value) last.to = i;
    else found.push({ value, from: i, to: i });
  }
  return found;
}

const during = ({ from, to }) => ({ 'data-from': from, 'data-to': to });
const named = (at, more) => ({ 'data-at': at, ...more });

/* A count after each line as a stepped area, between a low and a high one. */
function area(sheet, at, look, countsOf, heightOf) {
  const levels = sheet.states.map(i => ({ i, counts: countsOf(sheet.run.brief(i)) }));
  const step = (level, from, to) => points`L${from} ${heightOf(level)}H${to}`;
  const there = levels.map(({ i, counts }) => step(counts[1], sheet.begin(i), sheet.end(i)));
  const back = levels.map(({ i, counts }) => step(counts[0], sheet.end(i), sheet.begin(i))).reverse();
  const data = 'M' + (there.join('') + back.join('')).slice(1) + 'z';
  return path(data, look, named(at, { 'data-counts': levels.map(({ counts }) => counts[1] - counts[0]).join() }));
}

/* ---- the score ---- */

function scorePicture(run, options) {
  const sheet = sheetOf(run, { ...options, lean: options.lean || options.alone });
  const rows = laidOut(rowsOf(sheet));
  const bottom = lastOf(rows).top + lastOf(rows).height;
  const quiet = run.isNode ? groupsOf(run.map).filter(g => !sheet.most.parts.has(g)) : [];
  const width = sheet.right + SCORE_RIGHT;
  const height = bottom + 4 + (options.alone ? 16 : 0);
  const content = [
    ...rows.map(row => rowGround(sheet, row)),
    cursorSign(sheet, options.cursor, bottom),
    run.isNode && !sheet.seenBy ? timeouts(sheet, rows, bottom) : '',
    ...rows.map(row => row.draw(row.top)),
    options.alone ? text(SCORE_LEFT, bottom + 15, aloneText(sheet, quiet), 'p-dim p-small') : '',
    options.click ? hits(sheet, bottom) : '',
  ];
  const label = `Lines ${sheet.from} to ${sheet.to} of ${run.title} as a score` + (sheet.seenBy ? `, seen by group ${sheet.seenBy}` : '');
  const told = 'A column for each line of the script, a lane for each group, its messages as bars.';
  return { svg: picture({ width, height, kind: 'p-score', label, told, alone: options.alone }, content.join('')), width, height, quiet };
}

/* What a picture on its own says below itself. */
function aloneText(sheet, quiet) {
  const lines = `${sheet.run.title}, lines ${sheet.from} to ${sheet.to}`;
  if (sheet.seenBy) return `${lines}, seen by group ${sheet.seenBy}`;
  return quiet.length > 0 ? `${lines}. No part in them: group${quiet.length > 1 ? 's' : ''} ${quiet.join(', ')}` : lines;
}

/* A row: its names, notes below them in small, its height, whether it has a frame, and what draws it from its top on: first the ground
   below all signs, then what stands on it. */
function rowsOf(sheet) {
  const { run, seenBy, most } = sheet;
  const heads = [numberRow(sheet), operationRow(sheet), answerRow(sheet)];
  if (!run.isNode) return heads;
  if (seenBy) return [...heads, runsRow(sheet), laneRow(sheet, seenBy)];
  const lanes = groupsOf(run.map).filter(g => most.parts.has(g));
  const pages = most.frames > 2 || most.swap > 0 ? [pagesRow(sheet)] : [];
  return [...heads, runsRow(sheet), queueRow(sheet), timerRow(sheet), ...lanes.map(g => laneRow(sheet, g)), ...pages];
}

function laidOut(rows) {
  let top = SCORE_TOP;
  return rows.map(row => {
    const placed = { ...row, top };
    top += row.height + (row.framed ? ROW_GAP : 0);
    return placed;
  });
}

function rowGround(sheet, { top, height, framed, names, notes = [], ground = () => '' }) {
  const frame = framed ? rect(SCORE_LEFT, top, sheet.right - SCORE_LEFT, height, 'p-row') : '';
  const first = top + (framed ? Math.min(height / 2 + 4, 15) : 12);
  const labels = names.map((name, k) => text(SCORE_LEFT - 8, first + k * 11, name, 'p-end'));
  const small = notes.map((note, k) => text(SCORE_LEFT - 8, first + (names.length + k) * 11, note, 'p-end p-small p-dim'));
  return frame + ground(top) + labels.join('') + small.join('');
}

/* ---- the rows without a frame: line, operation, answer ---- */

const HEAD_HEIGHT = 16;
const HEAD_TEXT = 10.5;

const headRow = (names, draw) => ({ names, height: HEAD_HEIGHT, framed: false, draw: top => draw(top + 12) });

/* Every line's number where there is room, else every second, fifth, tenth .. */
function numberRow(sheet) {
  const room = monoWidth(sheet.to, HEAD_TEXT) + 6;
  const every = [1, 2, 5, 10, 20, 50, 100, 200, 500].find(step => step * sheet.column >= room) ?? 1000;
  const numbered = sheet.lines.filter(i => i % every === 0);
  return headRow(['line'], y => numbered.map(i => text(sheet.x(i), y, i, 'p-middle p-small p-dim')).join(''));
}

/* A group sees what is its own, of the rest only that there was a line. */
const isSeen = (sheet, i) => !sheet.seenBy || concerns(sheet.run, i, sheet.seenBy);

function operationRow(sheet) {
  const said = i => (isSeen(sheet, i) ? operationText(sheet.run.line(i), sheet.column - 3) : '·');
  const drawn = (i, y) => text(sheet.x(i), y, said(i), 'p-mono p-middle', named(`line ${i} operation`));
  return headRow(['operation'], y => (sheet.column < NARROW ? '' : sheet.lines.map(i => drawn(i, y)).join('')));
}

/* The line where it fits, else its first fields; an unreadable one that does not fit is a question mark. */
function operationText({ shown, report }, room) {
  const signs = Math.floor(room / monoWidth('0', HEAD_TEXT));
  if (shown !== '' && shown.length <= signs) return shown;
  if (report[0] === 2) return '?';
  const comma = shown.lastIndexOf(',', signs - 1);
  return shown.slice(0, Math.max(comma, 1)) + (signs > 1 ? '…' : '');
}

function answerRow(sheet) {
  const answered = sheet.lines.filter(i => isSeen(sheet, i));
  return headRow(['answer'], y => answered.map(i => answerSign(sheet, i, y)).join(''));
}

/* The operations that hand back a value. */
const VALUED = 'CMEPL';

/* A refusal is never left out: where its number has no room, a cross stands for it. */
function answerSign(sheet, i, y) {
  const { fields, report } = sheet.run.line(i);
  const [answer, value] = report;
  const fits = said => monoWidth(said, HEAD_TEXT) <= sheet.column - 2;
  const said = (sign, look) => text(sheet.x(i), y, sign, `p-mono p-middle ${look}`, named(`line ${i} answer`));
  if (answer > 0) {
    if (fits(`×${answer}`)) return said(`×${answer}`, 'p-bold p-refused');
    return path(points`M${sheet.x(i) - 2} ${y - 8}l4 7m0 -7l-4 7`, 'p-cross', named(`line ${i} answer`));
  }
  if (!VALUED.includes(fields[0])) return '';
  return said([`=${value}`, '=…', '='].find(fits) ?? '', 'p-bold');
}

/* ---- who runs, the hardware queue, the timer ---- */

function runsRow(sheet) {
  const runner = brief => (!sheet.seenBy || brief.running === sheet.seenBy ? brief.running : 0);
  const idle = sheet.seenBy ? 'not here' : 'nobody';
  const band = (span, top) => {
    const [x, end] = [sheet.begin(span.from), sheet.end(span.to)];
    const name = [span.value ? `group ${span.value}` : idle, span.value || '–'].find(said => monoWidth(said, 11) <= end - x);
    const box = span.value ? rect(x + 0.5, top + 2, end - x - 1, 16, 'p-runs') : '';
    const look = span.value ? 'p-middle p-bold' : 'p-middle p-dim p-halo';
    return part(`runs ${span.value}`, box + (name ? text((x + end) / 2, top + 14, name, look) : ''), during(span));
  };
  return { names: ['runs'], height: 20, framed: true, draw: top => stretchesOf(sheet, runner).map(span => band(span, top)).join('') };
}

/* Heights of a queue's cell; the highest bears a number. */
const CELLS = [11, 7, 4];

/* The head is the lowest cell. The row is as high as the run needs, the cells are as high as what is shown lets them be. */
function queueRow(sheet) {
  const most = sheet.most.queue;
  const height = most <= 5 ? Math.max(26, most * CELLS[0] + 4) : Math.max(5 * CELLS[0], most * lastOf(CELLS)) + 4;
  const cell = CELLS.find(cell => mostShown(sheet, brief => brief.queue.length) * cell <= height - 4);
  const draw = top => {
    const cells = sheet.states.map(i => queueCells(sheet, i, top + height - 2, cell));
    return cells.join('') + sheet.lines.map(i => movedSign(sheet, i, top + 10)).join('');
  };
  return { names: ['hardware', 'queue'], height, framed: true, draw };
}

function queueCells(sheet, i, base, cell) {
  const { queue, running } = sheet.run.brief(i);
  const [x, end] = [sheet.begin(i), sheet.end(i)];
  const numbered = cell === CELLS[0] && end - x >= NARROW;
  return queue
    .map((group, k) => {
      const y = base - (k + 1) * cell;
      const box = rect(x + 0.5, y, end - x - 1, cell - 1, group === running ? 'p-queue' : 'p-waits');
      const look = group === running ? 'p-tiny p-middle p-bold p-white' : 'p-tiny p-middle';
      return part(`line ${i} queue ${k}`, box + (numbered ? text((x + end) / 2, y + 8.5, group, look) : ''), { 'data-group': group });
    })
    .join('');
}

function movedSign(sheet, i, y) {
  const moved = sheet.run.line(i).report[4];
  if (!moved || sheet.column < 16) return '';
  return chip(sheet.x(i) + 3, y, `↓${moved}`, 'p-bold p-moved', named(`line ${i} moved ${moved}`));
}

const TIMER_HEIGHT = 34;

function timerRow(sheet) {
  const { ticks } = sheet.run.map;
  const draw = top => {
    const y = value => top + TIMER_HEIGHT - 3 - (value / ticks) * (TIMER_HEIGHT - 6);
    const values = sheet.states.map(i => sheet.run.brief(i).timer);
    const saw = path(timerPath(sheet, y), 'p-timer', named('timer', { 'data-counts': values.join() }));
    return path(points`M${SCORE_LEFT} ${y(ticks)}H${sheet.right}`, 'p-limit') + saw;
  };
  return { names: ['timer'], notes: [`0 to ${ticks - 1}`], height: TIMER_HEIGHT, framed: true, draw };
}

/* Ticks rise within their column, up to the limit where there was a timeout; all else that sets the timer does so at its moment. */
function timerPath(sheet, y) {
  const { run } = sheet;
  let before = run.brief(sheet.from - 1).timer;
  let data = points`M${SCORE_LEFT} ${y(before)}`;
  for (const i of sheet.lines) {
    const { fields, report } = run.line(i);
    const after = run.brief(i).timer;
    const reached = report[2] === 3 ? run.map.ticks : fields[0] === 'T' && report[0] === 0 ? after : before;
    data += points`H${sheet.x(i) - sheet.column * 0.4}L${sheet.x(i)} ${y(reached)}V${y(after)}`;
    before = after;
  }
  return data + points`H${sheet.right}`;
}

/* A timeout goes through all that is framed; the word stands beside it where there is room before the next. */
function timeouts(sheet, rows, bottom) {
  const { top } = rows.find(row => row.framed);
  const timer = rows.find(row => row.names[0] === 'timer');
  const all = sheet.lines.filter(i => sheet.run.line(i).report[2] === 3);
  const drawn = (i, k) => {
    const x = sheet.x(i);
    const room = (k + 1 < all.length ? sheet.x(all[k + 1]) : sheet.right) - x;
    const word = room < 52 ? '' : text(x + 4, timer.top + 14, 'timeout', 'p-small p-bold p-refused p-halo');
    return part(`line ${i} timeout`, path(points`M${x} ${top}V${bottom}`, 'p-timeout') + word);
  };
  return all.map(drawn).join('');
}

/* ---- a group's lane ---- */

/* Flags and events above, then the bars, one to a row. */
const LANE_HEAD = 22;
const BAR = 11;
const BAR_ROW = 15;

function laneRow(sheet, g) {
  const rows = laneRows(sheet, g);
  const shown = sheet.lives[g].filter(life => life.from <= sheet.to && lastOf(life.stretches).to >= sheet.from - 1);
  const most = mostShown(sheet, brief => waiting(brief, g));
  const crowded = most > rows || sheet.column < NARROW;
  const height = LANE_HEAD + rows * BAR_ROW;
  const ground = top => hasProcessor(sheet, g, top, height);
  const draw = top => {
    const waits = crowded ? heights(sheet, g, shown, most, top + LANE_HEAD, rows * BAR_ROW) : bars(sheet, shown, rows, top + LANE_HEAD);
    return part(`lane ${g}`, laneFlags(sheet, g, top) + waits + laneEvents(sheet, g, top));
  };
  const notes = crowded && most > 0 ? [`up to ${most}`] : [];
  return { names: [`group ${g}`], notes, height, framed: true, ground, draw };
}

/* A row for each message that ever waits at once, as long as all fit on a screen: where more than four groups take part, lanes get low. */
function laneRows(sheet, g) {
  const few = sheet.most.parts.size <= 4 || sheet.seenBy;
  const most = sheet.most.waiting[g];
  if (most <= (few ? 9 : 3)) return Math.max(1, most);
  return few ? 3 : 1;
}

function hasProcessor(sheet, g, top, height) {
  const spans = stretchesOf(sheet, brief => brief.running === g).filter(span => span.value);
  return spans.map(({ from, to }) => rect(sheet.begin(from), top + 0.5, sheet.end(to) - sheet.begin(from), height - 1, 'p-has')).join('');
}

/* How a flag is drawn while it is on, from x to end in a lane; a bracket has an end only where the flag goes on or off. */
const FLAG_SIGNS = {
  atomic: (x, end, top, opens, closes) => {
    const foot = isThere => top + (isThere ? 12 : 5);
    return path(points`M${x} ${foot(opens)}V${top + 5}H${end}V${foot(closes)}`, 'p-atomic');
  },
  pending: (x, end, top) => rect(x, top + 7.5, end - x, 4, 'p-pending'),
  force: (x, end, top) => path(points`M${x} ${top + 13.5}H${end}`, 'p-force'),
  revoked: (x, end, top) => path(zigzag(x, end, top + 18), 'p-revoked'),
};
/* What a group knows of its flags. */
const OWN_FLAGS = ['atomic', 'pending'];

function zigzag(x, end, y) {
  let data = points`M${x} ${y + 1.7}`;
  for (let at = x + 4, up = true; at < end; at += 4, up = !up) data += points`L${at} ${up ? y - 1.7 : y + 1.7}`;
  return data;
}

function laneFlags(sheet, g, top) {
  const names = sheet.seenBy ? OWN_FLAGS : Object.keys(FLAG_SIGNS);
  const drawn = (name, span) => {
    const sign = FLAG_SIGNS[name](sheet.begin(span.from), sheet.end(span.to), top, span.from >= sheet.from, span.to < sheet.to);
    return part(`lane ${g} ${name}`, sign, during(span));
  };
  const spans = name => stretchesOf(sheet, brief => brief.groups[g][name]).filter(span => span.value);
  return names.map(name => spans(name).map(span => drawn(name, span)).join('')).join('');
}

function laneEvents(sheet, g, top) {
  return sheet.lines.map(i => lineEvents(sheet, g, i, top)).join('');
}

/* An upcall, a trap, a launch. Where a trap and an upcall come in one line, they stand beside each other. */
function lineEvents(sheet, g, i, top) {
  const [, , trap, upcall, , node, sender] = sheet.run.line(i).report;
  const trapped = trap > 0 && sheet.run.brief(i).running === g && !sheet.seenBy;
  const x = sheet.x(i);
  let signs = '';
  if (upcall === g) signs += part(`line ${i} upcall ${g}`, upcallSign(x + (trapped ? 13 : 0), top + 2));
  if (trapped) signs += part(`line ${i} trap ${trap}`, trapSign(x, top + 1, trap));
  if (sender === g) signs += part(`line ${i} launch ${node}`, launchSign(x, top + 15, sheet.column < 22 ? '' : node));
  return signs;
}

const upcallSign = (x, y) => path(points`M${x} ${y}l5.5 10h-11z`, 'p-upcall');
const trapSign = (x, y, trap) => rect(x - 6, y, 12, 12, 'p-trap') + text(x, y + 9.5, trap, 'p-small p-bold p-middle p-refused');
const launchSign = (x, y, node) =>
  path(points`M${x - 7} ${y}h10m-4 -4l4 4l-4 4`, 'p-launch') + (node === '' ? '' : text(x + 5, y + 3.5, node, 'p-small p-bold p-halo'));

/* ---- messages as bars ---- */

/* Bars keep their rows along the run where these fit; else they get rows for what is shown. */
function bars(sheet, shown, rows, top) {
  const slots = shown.every(life => life.slot < rows) ? shown.map(life => life.slot) : slotsOf(shown);
  return shown.map((life, k) => bar(sheet, life, top + slots[k] * BAR_ROW)).join('');
}

/* To its group a message is in its line, wherever it stands. */
function placesSeen(sheet, life) {
  if (!sheet.seenBy) return life.stretches;
  return [{ place: 'plain', from: life.from, to: lastOf(life.stretches).to }];
}

const isShown = (sheet, i) => i >= sheet.from && i <= sheet.to;
/* Whether it came within the run, and was not there before. */
const arrives = life => life.name === String(life.from);
/* Whether the line that buffered it is shown; of a message that was never buffered the reason says so, and has no place. */
const reasonShown = (sheet, { reason, stretches }) =>
  reason && !sheet.seenBy && isShown(sheet, reason.line) && stretches.some(({ place }) => place !== 'queue');

function bar(sheet, life, y) {
  const at = `lane ${life.group} message ${life.name}`;
  const all = placesSeen(sheet, life).filter(({ from, to }) => from <= sheet.to && to >= sheet.from - 1);
  const shown = all.map(({ place, from, to }) => ({ place, from: Math.max(from, sheet.from - 1), to: Math.min(to, sheet.to) }));
  const signs = [
    title(`For group ${life.group}, ${arrives(life) ? `of line ${life.name}` : 'there before'}: ${life.words.join(' ')}`),
    ...shown.map(span => stretchSign(sheet.begin(span.from), sheet.end(span.to), y, span.place, at, span)),
    arrives(life) && isShown(sheet, life.from) ? headSign(sheet.x(life.from), y, shown[0].place, at, life.from) : '',
    wordsInBar(sheet, life, shown, y),
    ...life.reads.filter(i => isShown(sheet, i)).map(i => readSign(sheet.x(i), y, at, i)),
    reasonShown(sheet, life) ? reasonSign(sheet.x(life.reason.line), y, at, life.reason) : '',
    life.end !== null && isShown(sheet, life.end) ? endSign(sheet.x(life.end), y, at, life.end) : '',
  ];
  return part(at, signs.join(''));
}

/* In the queue a bar is a little lower, so that its turn can be seen by its outline too. */
function stretchSign(x, end, y, place, at, span) {
  const inset = place === 'frame' || place === 'swap' ? 0 : 1;
  return rect(x, y + inset, end - x, BAR - 2 * inset, `p-${place}`, named(`${at} ${place}`, during(span)));
}

/* at: of what message; line: in which. */
const inLine = (at, line) => named(at, { 'data-line': line });
const headSign = (x, y, place, at, line) => circle(x, y + BAR / 2, 4.2, `p-head p-head-${place}`, inLine(`${at} begin`, line));
const endSign = (x, y, at, line) => circle(x, y + BAR / 2, 4.2, 'p-end-sign', inLine(`${at} end`, line));
const readSign = (x, y, at, line) => rect(x - 1.5, y - 1.5, 3, BAR + 3, 'p-read', inLine(`${at} read`, line));

function reasonSign(x, y, at, { number, line }) {
  const sign = circle(x, y + BAR / 2, 5.8, 'p-reason') + text(x, y + 8.7, number, 'p-tiny p-bold p-middle p-moved');
  return part(`${at} reason ${number}`, title(`reason ${number}: ${REASONS[number]}`) + sign, { 'data-line': line });
}

/* A message's words, in the first stretch with room for them behind its first sign and before the next. */
function wordsInBar(sheet, life, shown, y) {
  if (sheet.column < 22) return '';
  for (const span of shown) {
    const x = sheet.begin(span.from) + 9;
    const read = life.reads.find(i => i >= sheet.from && i > span.from && i <= span.to);
    const said = fitted(life.words, (read ? sheet.x(read) + 3 : sheet.end(span.to)) - x - 7, SMALL);
    const isSolid = span.place === 'queue' || span.place === 'plain';
    if (said !== '') return isSolid ? text(x, y + 9, said, 'p-mono p-small p-bold p-white') : chip(x, y + 9, said, '');
  }
  return '';
}

/* Where more wait than bars fit: how many in swap pages, in frames and in the queue, one above the other, and what arrives and leaves. */
function heights(sheet, g, shown, most, top, height) {
  const y = count => top + height - 2 - (count / Math.max(1, most)) * (height - 4);
  const drawn = (place, countsOf) => area(sheet, `lane ${g} heights ${place}`, `p-${place} p-area`, brief => countsOf(brief.groups[g]), y);
  const areas = sheet.seenBy
    ? drawn('plain', ({ count, queued }) => [0, count + queued])
    : drawn('swap', ({ swapped }) => [0, swapped]) +
      drawn('frame', ({ swapped, count }) => [swapped, count]) +
      drawn('queue', ({ count, queued }) => [count, count + queued]);
  const middle = i => y(waiting(sheet.run.brief(i), g)) - BAR / 2;
  return areas + (sheet.column < NARROW ? '' : shown.map(life => bareSigns(sheet, life, middle)).join(''));
}

/* The signs of a message that has no bar of its own: its beginning and its end, on the height after that line. */
function bareSigns(sheet, life, middle) {
  const at = `lane ${life.group} message ${life.name}`;
  const sign = (i, draw) => (i !== null && isShown(sheet, i) ? draw(sheet.x(i), middle(i)) : '');
  const begin = (x, y) => {
    const atOnce = reasonShown(sheet, life) && life.reason.line === life.from;
    return atOnce ? reasonSign(x, y, at, life.reason) : headSign(x, y, placesSeen(sheet, life)[0].place, at, life.from);
  };
  return part(at, (arrives(life) ? sign(life.from, begin) : '') + sign(life.end, (x, y) => endSign(x, y, at, life.end)));
}

/* ---- pages ---- */

/* Of the frames, and above it of the swap pages. */
const PAGES_BAND = 22;

function pagesRow(sheet) {
  const { most } = sheet;
  const bands = [{ place: 'frame', countOf: brief => brief.frames, note: 'frames' }];
  if (most.swap > 0) bands.push({ place: 'swap', countOf: brief => brief.swap, note: 'in swap' });
  for (const band of bands) band.most = mostShown(sheet, band.countOf);
  const height = bands.length * PAGES_BAND + 4;
  const drawn = ({ place, countOf, most }, base) => {
    const level = count => base - (count / Math.max(1, most)) * (PAGES_BAND - 4);
    return area(sheet, `pages ${place}`, `p-${place} p-area`, brief => [0, countOf(brief)], level);
  };
  const draw = top => {
    const base = k => top + height - 2 - k * PAGES_BAND;
    return bands.map((band, k) => drawn(band, base(k))).join('') + sheet.lines.map(i => pageSigns(sheet, i, base(1))).join('');
  };
  const notes = bands.filter(band => band.most > 0).map(band => `up to ${band.most} ${band.note}`);
  return { names: ['pages'], notes, height, framed: true, draw };
}

/* Pages that went up into swap or came down from it in a line. */
function pageSigns(sheet, i, y) {
  if (sheet.column < 22) return '';
  const [before, after] = [sheet.run.brief(i - 1), sheet.run.brief(i)];
  const sign = (dx, arrow, name, count) => {
    const at = named(`line ${i} ${name} ${count}`);
    return count > 0 ? chip(sheet.x(i) + dx, y + 3, `${arrow}${count}`, 'p-bold', at) : '';
  };
  return sign(-13, '↑', 'out', after.sentOut - before.sentOut) + sign(2, '↓', 'in', after.broughtIn - before.broughtIn);
}

/* ---- the current line, and columns to click ---- */

/* Its box lies below all signs: what holds after a line has its text in the middle, and there the box has its sides. */
function cursorSign(sheet, cursor, bottom) {
  if (cursor === undefined || cursor < sheet.from - 1 || cursor > sheet.to) return '';
  const width = cursor < sheet.from ? 6 : Math.max(sheet.column, 6);
  const x = cursor < sheet.from ? SCORE_LEFT : sheet.x(cursor);
  const box = rect(x - width / 2, SCORE_TOP - 1, width, bottom - SCORE_TOP + 3, 'p-cursor');
  return part('cursor', box + path(points`M${x - 6} 0h12l-6 8z`, 'p-cursor-sign'), { 'data-line': cursor });
}

function hits(sheet, bottom) {
  const reasons = reasonsByTurn(sheet);
  const tip = i => (isSeen(sheet, i) ? [`line ${i}: ${sheet.run.line(i).shown}`, ...(reasons.get(i) ?? [])].join('\n') : `line ${i}`);
  const hit = i => rect(sheet.x(i) - sheet.column / 2, 0, sheet.column, bottom, 'p-hit', { 'data-line': i }, title(tip(i)));
  return sheet.lines.map(hit).join('');
}

/* The columns lie over all signs, so a column's tip tells the reasons that are named with its line. */
function reasonsByTurn(sheet) {
  const told = new Map();
  if (!sheet.run.isNode || sheet.seenBy) return told;
  for (const { reason, name } of sheet.lives.flat()) {
    if (!reason || reason.line < sheet.from || reason.line > sheet.to) continue;
    const before = told.get(reason.line) ?? [];
    told.set(reason.line, [...before, `message of line ${name}: reason ${reason.number}, ${REASONS[reason.number]}`]);
  }
  return told;
}

/* ---- the whole run in little ---- */

const OVERVIEW_HEIGHT = 60;

/* A row of it: its name, from where and how far up it goes, and one above the other what is counted of a line or of the node after it. */
function overviewRows(run, seenBy) {
  const row = (name, base, height, ...parts) => ({ name, base, height, parts: parts.map(([look, count]) => ({ look, count })) });
  const isRefused = i => run.line(i).report[0] > 0 && (!seenBy || concerns(run, i, seenBy));
  const refused = row('refused', 10, 6, ['p-little-refused', i => Number(isRefused(i))]);
  if (!run.isNode) return [refused];
  if (seenBy) {
    const runs = row('runs', 21, 6, ['p-plain', i => Number(run.brief(i).running === seenBy)]);
    return [refused, runs, row('its line', 57, 30, ['p-plain', i => waiting(run.brief(i), seenBy)])];
  }
  const sum = (i, countOf) => run.brief(i).groups.slice(1).reduce((total, group) => total + countOf(group), 0);
  const swap = ['p-swap p-area', i => sum(i, group => group.swapped)];
  const frames = ['p-frame p-area', i => sum(i, group => group.count - group.swapped)];
  return [
    refused,
    row('traps', 21, 6, ['p-little-trap', i => Number(run.line(i).report[2] > 0)]),
    row('buffered', 43, 20, swap, frames),
    row('in the queue', 57, 11, ['p-queue', i => run.brief(i).queue.length]),
  ];
}

/* width: that of all lines together, as in the score beside the same margins. */
function overviewPicture(run, width, seenBy = 0) {
  const bins = binsOf(run, width);
  const rows = overviewRows(run, seenBy).map(row => {
    const areas = overviewAreas(row, bins, width / bins.length).filter(({ data }) => data !== '');
    const drawn = areas.map(({ look, data }) => path(data, look, named(`overview ${row.name}`)));
    return text(SCORE_LEFT - 8, row.base, row.name, 'p-end p-small') + drawn.join('');
  });
  const size = { width: SCORE_LEFT + width + SCORE_RIGHT, height: OVERVIEW_HEIGHT };
  return picture({ ...size, kind: 'p-overview', label: 'The whole run in little' }, rows.join(''));
}

/* Of the lines that fall together the one that has most is drawn. */
function overviewAreas({ base, height, parts }, bins, each) {
  const counted = i => parts.map(part => part.count(i));
  const total = counts => counts.reduce((sum, count) => sum + count, 0);
  const highest = lines => lines.map(counted).reduce((best, counts) => (total(counts) > total(best) ? counts : best));
  const levels = bins.map(highest);
  const scale = height / Math.max(1, ...levels.map(total));
  const column = (counts, k, x) => {
    const low = base - total(counts.slice(0, k)) * scale;
    return counts[k] === 0 ? '' : points`M${x} ${low}v${-counts[k] * scale}h${each}v${counts[k] * scale}z`;
  };
  return parts.map(({ look }, k) => ({ look, data: levels.map((counts, bin) => column(counts, k, SCORE_LEFT + bin * each)).join('') }));
}

/* The run's lines in as many parts as can be told apart. */
function binsOf(run, width) {
  const lines = run.last - run.first + 1;
  const bins = Array.from({ length: Math.max(1, Math.min(lines, Math.floor(width / 2))) }, () => []);
  for (let k = 0; k < lines; k++) bins[Math.floor((k * bins.length) / lines)].push(run.first + k);
  return bins;
}

/* ---- the key to the signs ---- */

function signsPicture() {
  const y = 3;
  const bar = (x, end, place) => stretchSign(x, end, y, place, 'key', {});
  const reason = reasonSign(18, y, 'key', { number: 6 });
  const few = path('M2 15V9H18V6H34V15z', 'p-frame p-area') + path('M2 9V7H18V4H34V6H18V9z', 'p-queue');
  const signs = [
    [bar(2, 34, 'queue') + headSign(6, y, 'queue', 'key'), 'a message arrives, and stands in the hardware queue'],
    [bar(2, 34, 'frame'), 'in its group’s buffer, in a frame'],
    [bar(2, 34, 'swap'), 'in its buffer, in a swap page'],
    [bar(2, 18, 'queue') + bar(18, 34, 'frame') + reason, 'buffered, and the reason’s number'],
    [bar(2, 34, 'queue') + readSign(18, y, 'key'), 'a word of it is read'],
    [bar(2, 24, 'queue') + endSign(24, y, 'key'), 'disposed of'],
    [few, 'so many wait, where there is no room for bars'],
    [upcallSign(18, 3), 'upcall'],
    [FLAG_SIGNS.atomic(3, 33, 0, true, true) + FLAG_SIGNS.pending(3, 20, 0), 'atomic; below it, pending'],
    [FLAG_SIGNS.force(3, 33, -5), 'force'],
    [FLAG_SIGNS.revoked(3, 33, -9), 'revoked'],
    [trapSign(18, 2, 1), 'trap 1, 2 or 3'],
    [path('M18 0V17', 'p-timeout'), 'timeout'],
    [launchSign(14, 9, 3), 'launched, to node 3'],
    [rect(1, 1, 34, 15, 'p-row') + rect(9, 1.5, 25, 14, 'p-has'), 'has the processor'],
    [chip(12, 12, '×10', 'p-bold p-refused'), 'refused with 10'],
    [chip(12, 12, '=7', 'p-bold'), 'the value is 7'],
    [chip(12, 12, '↓2', 'p-bold p-moved'), 'two messages moved to the buffers'],
    [chip(4, 12, '↑1 ↓1', 'p-bold'), 'a page sent out to swap, one brought in'],
  ];
  const svg = sign => tag('svg', { class: 'p-picture p-score', width: 36, height: 17, viewBox: '0 0 36 17', 'aria-hidden': 'true' }, sign);
  return signs.map(([sign, words]) => `<span>${svg(sign)} ${xml(words)}</span>`).join(' ');
}

/* The node after a line: hardware queue, processor, timer, groups, frames and swap pages; what one group sees of it; and the node as text.

   What is drawn is named by data-at, so that a picture can be read back; texts and classes are what is drawn:
     queue I               a place, head 0: group and words (rect p-queue; p-slot where it is empty)
     processor             the running group;  timer: its value, and counts, stands or forced;  timeout: where the line had one
     way direct, way to the buffers, way from the network: p-way-used where the line used it
     group G               its row, with  group G runs,  group G upcall,  group G case,  group G flag NAME (rect p-on, p-off),
                           group G used I (a used-up place of its first page),  group G line I (rect p-queue, p-frame or p-swap),
                           group G more (how many of its line are not drawn),
                           group G descriptor I,  group G pledge,  group G mail (p-on, p-off);  pledges: their sum
     page P                page numbers as docs/MEMORY.md has them; in it  page P owner,  page P place I (p-on, p-off),
                           next frame, next swap or oldest where it is that
     frames, swap          how many are in use;  sent out, brought in: so far
     NAME changed          an outline (p-changed) round what the line changed, NAME as above
   Where words are cut, the title has them whole. */

const NODE_CSS = `
.p-node .p-head{font-size:12.5px;font-weight:700}
.p-node .p-large{font-size:14px;font-weight:700}
.p-node .p-tiny{font-size:9px}
.p-node .p-on{fill:${COLOURS.ink};stroke:${COLOURS.ink};stroke-width:1}
.p-node .p-off{fill:${COLOURS.paper};stroke:${COLOURS.slot};stroke-width:1}
.p-node .p-used{fill:#f0ede6;stroke:${COLOURS.slot};stroke-width:.8}
.p-node .p-box{fill:${COLOURS.paper};stroke:${COLOURS.ink};stroke-width:1.4}
.p-node .p-processor{fill:${COLOURS.runs};stroke:${COLOURS.ink};stroke-width:1.4}
.p-node .p-buffered{fill:${COLOURS.paper};stroke:${COLOURS.ink};stroke-width:1.6}
.p-node .p-revoked{fill:${COLOURS.paper};stroke:${COLOURS.ink};stroke-width:1.6;stroke-dasharray:4 2}
.p-node .p-line{fill:none;stroke:${COLOURS.rule};stroke-width:1}
.p-node .p-stroke{fill:none;stroke:${COLOURS.slot};stroke-width:1}
.p-node .p-way{fill:none;stroke:${COLOURS.slot};stroke-width:1.6}
.p-node .p-way-used{fill:none;stroke:${COLOURS.ink};stroke-width:4}
.p-node .p-passed{fill:#e3ddd0}
.p-node .p-hand{fill:none;stroke:${COLOURS.ink};stroke-width:2.6;stroke-linecap:round}
.p-node .p-tick{fill:none;stroke:${COLOURS.ink};stroke-width:1}
.p-node .p-changed{fill:none;stroke:${COLOURS.ink};stroke-width:2.2}
.p-node .p-thin{stroke-width:1}
`;

/* The size of words in places. */
const WORD_SIZE = 10.5;

/* Where things stand: queue, processor and timer, then a row for each group, in which y counts from the row's top, then the pages. */
const WIDE_PLAN = {
  kind: 'p-node p-wide',
  width: 900,
  network: { x: 2, arrow: 44, words: true },
  queue: { x: 62, y: 26, width: 576, height: 48, rows: 1, row: 0 },
  processor: { x: 670, y: 16, width: 120, height: 64 },
  dial: { x: 850, y: 54, radius: 36 },
  direct: { way: ({ end, middle }) => points`M${end} ${middle}H668`, x: 652, y: 42 },
  buffers: { way: ({ head, bottom }) => points`M${head} ${bottom + 17}V116H338V133`, x: 350, y: 111 },
  groups: 156,
  row: 37,
  case: { x: 48, y: 6 },
  flags: { x: 123, y: 6, pitch: 49 },
  line: { x: 322, y: 6, end: 670, heading: 8 },
  descriptor: { x: 675, y: 6, pitch: 21.5, width: 20, height: 19 },
  pledge: 869,
  mail: 888,
  paging: { sentOut: 636, broughtIn: 774, y: 0 },
};
const NARROW_PLAN = {
  kind: 'p-node p-narrow',
  width: 360,
  network: { x: 2, arrow: 2, words: false },
  queue: { x: 18, y: 26, width: 338, height: 44, rows: 2, row: 62 },
  processor: { x: 228, y: 190, width: 124, height: 64 },
  dial: { x: 46, y: 226, radius: 36 },
  direct: { way: ({ head, bottom }) => points`M${head + 8} ${bottom + 17}V188`, x: 316, y: 182 },
  buffers: { way: ({ head, bottom }) => points`M${head - 8} ${bottom + 17}V168H160V286`, x: 170, y: 163 },
  groups: 328,
  row: 94,
  case: { x: 42, y: 6 },
  flags: { x: 115, y: 6, pitch: 47 },
  line: { x: 8, y: 38, end: 354, heading: 22 },
  descriptor: { x: 72, y: 72, pitch: 35, width: 33, height: 17, name: 8 },
  pledge: 324,
  mail: 342,
  paging: { sentOut: 104, broughtIn: 232, y: 19 },
};
const ROW = { cellHeight: 19, label: 30.5, caseWidth: 66, flagWidth: 43 };
const LINE_CELL = { widest: 84, narrowest: 30, used: 10, gap: 4, more: 48 };
/* Below a frame stands whether it is the oldest. */
const TILE = { pitch: 27.9, width: 26, height: 40, row: 54, frameRow: 65 };

/* After line i of a run; before the first line shown there is no line to tell of. */
function viewOf(run, i) {
  const line = i < run.first ? null : run.line(i);
  return { map: run.map, line, report: reportOf(line), node: run.node(i), before: line === null ? null : run.node(i - 1) };
}

/* Whether the line changed what `of` takes from a node. */
function isChanged(view, of) {
  return view.before !== null && JSON.stringify(of(view.before)) !== JSON.stringify(of(view.node));
}

/* The outline of a box, where the line changed what `of` takes from a node. It stands off, so that it shows round what is dark too. */
function outline(view, at, of, { x, y, width, height }, off = 2, look = 'p-changed') {
  return isChanged(view, of) ? rect(x - off, y - off, width + 2 * off, height + 2 * off, look, { 'data-at': `${at} changed` }) : '';
}

const boxed = ({ x, y, width, height }, look) => rect(x, y, width, height, look);

/* Text in the middle of a box, its foot so far below the box's top. */
const centred = (box, down, said, look) => text(box.x + box.width / 2, box.y + down, said, `p-middle ${look}`);

/* narrow: arranged for a screen too narrow for the wide picture. */
function nodePicture(run, i, { alone, narrow } = {}) {
  const plan = narrow ? NARROW_PLAN : WIDE_PLAN;
  if (!run.isNode) return noNodePicture(plan, alone);
  const view = { ...viewOf(run, i), plan };
  const pages = pagesPart(view, groupsEnd(view) + 40);
  const parts = [queuePart(view), waysPart(view), processorPart(view), timerPart(view), groupsPart(view), pages.drawn];
  return picture({ ...nodeLabels(run, i), ...plan, height: pages.end, alone, css: NODE_CSS }, parts.join(''));
}

function nodeLabels(run, i) {
  const when = whenOf(run, i) + (i < run.first ? '' : `, ${run.line(i).shown}`);
  const words = i < run.first ? [] : wordsOf(run, i);
  return { label: `The node ${when}`, told: [`${run.title}: the node ${when}.`, ...words].join(' ') };
}

function whenOf(run, i) {
  return i > 0 ? `after line ${i}` : run.begin === 'power-on' ? 'at power-on' : 'before line 1';
}

/* In place of a node where the memory is none. */
function noNodePicture({ kind, width }, alone) {
  const label = 'This memory is no node';
  const said = ['Each line is answered 1:', `${ANSWERS[1]}.`, 'Nothing changes.'].map((words, k) => text(10, 56 + k * 18, words));
  const head = text(10, 28, `${label}.`, 'p-large');
  return picture({ width, height: 110, kind, label, alone, css: NODE_CSS }, head + said.join(''));
}

/* The hardware queue: its head stands at the right, beside the processor. */
function queuePart(view) {
  const { map, node, plan } = view;
  const { x, y } = plan.queue;
  const said = `${node.queue.length} of ${map.places} places; the head is at the right`;
  const places = Array.from({ length: map.places }, (_, i) => queuePlace(view, i));
  const head = text(x, y - 10, 'Hardware queue', 'p-head') + text(x + 126, y - 10, said, 'p-small p-dim', { 'data-at': 'queue' });
  return head + places.join('');
}

/* The box of a place. The last row has the head. */
function placeBox({ map, plan }, i) {
  const { x, y, width, height, rows, row } = plan.queue;
  const across = Math.ceil(map.places / rows);
  const pitch = width / across;
  return { x: x + (across - 1 - (i % across)) * pitch, y: y + (rows - 1 - Math.floor(i / across)) * row, width: pitch - 5, height };
}

function queuePlace(view, i) {
  const box = placeBox(view, i);
  const at = `queue ${i}`;
  const message = view.node.queue[i];
  const drawn = message === undefined ? boxed(box, 'p-slot') : queuedMessage(box, message);
  const name = centred(box, box.height + 12, i === 0 ? 'head' : i, 'p-small p-dim');
  return part(at, drawn) + name + outline(view, at, node => node.queue[i], box);
}

function queuedMessage(box, { group, words }) {
  return [
    title(`group ${group}: ${words.join(' ')}`),
    boxed(box, 'p-queue'),
    centred(box, 20, group, 'p-large p-white'),
    centred(box, 38, fitted(words, box.width - 2, WORD_SIZE), 'p-mono p-white'),
  ].join('');
}

/* The ways of a message: thick where this line used them. */
function waysPart(view) {
  const { report, plan } = view;
  const box = placeBox(view, 0);
  const head = { head: box.x + box.width / 2, end: box.x + box.width + 4, middle: box.y + box.height / 2, bottom: box.y + box.height };
  const said = report.moved > 0 ? `moved ${report.moved} to the buffers` : 'to the buffers';
  return [
    networkPart(view),
    way('way direct', plan.direct.way(head), isReadDirect(view)),
    text(plan.direct.x, plan.direct.y, 'direct', 'p-small p-dim p-middle'),
    way('way to the buffers', plan.buffers.way(head), report.moved > 0),
    text(plan.buffers.x, plan.buffers.y, said, report.moved > 0 ? 'p-bold' : 'p-small p-dim', { 'data-at': 'moved' }),
  ].join('');
}

function networkPart(view) {
  const { x, arrow, words } = view.plan.network;
  const middle = view.plan.queue.y + view.plan.queue.height / 2;
  const said = words ? text(x, middle - 3, 'from the', 'p-small p-dim') + text(x, middle + 9, 'network', 'p-small p-dim') : '';
  return said + way('way from the network', points`M${arrow} ${middle}H${view.plan.queue.x - 2}`, hasArrived(view));
}

function way(at, drawn, used) {
  return path(drawn, used ? 'p-way-used' : 'p-way', { 'data-at': at, 'marker-end': 'url(#p-arrow)' });
}

function hasArrived({ line, report }) {
  return line !== null && report.answer === 0 && line.fields[0] === 'A';
}

/* A word read or a message disposed of where its group found it in the hardware queue. */
function isReadDirect({ line, report, before }) {
  if (line === null || report.answer !== 0 || !['E', 'D'].includes(line.fields[0])) return false;
  return lineOf(before, before.running)[0].queue !== undefined;
}

function processorPart(view) {
  const box = view.plan.processor;
  const { running } = view.node;
  const reads = running === 0 ? '' : caseOf(view.node, running) === 'direct' ? 'reads direct' : 'reads from its buffer';
  const drawn = [
    boxed(box, running === 0 ? 'p-box' : 'p-processor'),
    centred(box, 17, 'Processor', 'p-head'),
    centred(box, 37, running === 0 ? 'nobody' : `group ${running}`, 'p-large'),
    centred(box, 54, reads, 'p-small'),
  ];
  return part('processor', drawn.join('')) + outline(view, 'processor', node => node.running, box);
}

/* The timer as a dial, whose whole round is a timeout. */
function timerPart(view) {
  const { node, map, report } = view;
  const { x, y, radius } = view.plan.dial;
  const state = isForced(node) ? 'forced' : timerCounts(node) ? 'counts' : 'stands';
  const drawn = [
    dialFace(view.plan.dial, node.timer / map.ticks),
    text(x, y + radius + 15, `${node.timer} of ${map.ticks}`, 'p-middle p-mono'),
    text(x, y + radius + 28, state, 'p-middle p-small'),
  ];
  const changed = isChanged(view, of => of.timer) ? circle(x, y, radius + 2, 'p-changed', { 'data-at': 'timer changed' }) : '';
  const timeout = rect(x - 27, y + 7, 54, 16, 'p-trap') + text(x, y + 19, TRAPS[3], 'p-middle p-bold p-refused');
  const name = text(x, y - radius - 6, 'Timer', 'p-head p-middle');
  return name + part('timer', drawn.join('')) + changed + (report.trap === 3 ? part('timeout', timeout) : '');
}

/* now: which part of the round has passed. */
function dialFace({ x, y, radius }, now) {
  const at = (share, r) => {
    const angle = (share - 0.25) * 2 * Math.PI;
    return [x + r * Math.cos(angle), y + r * Math.sin(angle)];
  };
  const line = (from, to, look) => path(points`M${from[0]} ${from[1]}L${to[0]} ${to[1]}`, look);
  const [endX, endY] = at(now, radius);
  const passed = points`M${x} ${y}V${y - radius}A${radius} ${radius} 0 ${now > 0.5 ? 1 : 0} 1 ${endX} ${endY}z`;
  const ticks = Array.from({ length: 8 }, (_, i) => line(at(i / 8, radius), at(i / 8, radius - (i % 2 === 0 ? 7 : 4)), 'p-tick'));
  const hand = line([x, y], at(now, radius - 9), 'p-hand') + circle(x, y, 3, 'p-on');
  return circle(x, y, radius, 'p-box') + (now > 0 ? path(passed, 'p-passed') : '') + ticks.join('') + hand;
}

const groupsEnd = ({ map, plan }) => plan.groups + map.groups * plan.row;

function groupsPart(view) {
  const { map, node, plan } = view;
  const sum = `sum of the pledges ${sumOfPledges(map, node)} of ${map.pages}`;
  return [
    groupHeadings(plan),
    ...node.groups.slice(1).map(group => groupRow(view, group, plan.groups + (group.group - 1) * plan.row)),
    text(plan.pledge, groupsEnd(view) + 15, sum, 'p-end p-small', { 'data-at': 'pledges' }),
  ].join('');
}

function groupHeadings(plan) {
  const heading = (x, said, look = '', up = 8) => text(x, plan.groups - up, said, `p-small p-dim ${look}`);
  return [
    text(6, plan.groups - 8, 'Groups', 'p-head'),
    heading(plan.case.x + ROW.caseWidth / 2, 'case', 'p-middle'),
    heading(plan.flags.x, 'flags'),
    heading(plan.line.x, 'line: the buffer, then what is in the hardware queue', '', plan.line.heading),
    plan.descriptor.name === undefined ? heading(plan.descriptor.x, 'descriptor') : '',
    heading(plan.pledge + 3, 'pledge', 'p-end'),
    heading(plan.mail, 'mail', 'p-middle'),
  ].join('');
}

/* A group's row from y on. */
function groupRow(view, group, y) {
  const g = group.group;
  const { plan, node } = view;
  const drawn = [
    node.running === g ? rect(0, y + 1, plan.width, plan.row - 1, 'p-has') : '',
    path(points`M0 ${y + plan.row}H${plan.width}`, 'p-line'),
    groupName(view, g, y),
    caseBadge(view, g, y),
    ...FLAGS.map((flag, i) => flagBox(view, g, flag, flagPlace(plan, i, y))),
    groupLine(view, group, y + plan.line.y),
    plan.descriptor.name === undefined ? '' : text(plan.descriptor.name, y + plan.descriptor.y + 12, 'descriptor', 'p-small p-dim'),
    descriptorPart(view, group, { ...plan.descriptor, y: y + plan.descriptor.y }),
    pledgePart(view, g, y + plan.case.y),
    mailLamp(view, g, y + plan.case.y + ROW.cellHeight / 2),
  ];
  return part(`group ${g}`, drawn.join(''));
}

const flagPlace = ({ flags }, i, y) => ({ x: flags.x + i * flags.pitch, y: y + flags.y, width: ROW.flagWidth, height: ROW.cellHeight });

function groupName(view, g, y) {
  const runs = view.node.running === g ? path(points`M5 ${y + 10.5}l9 5l-9 5z`, 'p-on', { 'data-at': `group ${g} runs` }) : '';
  const upcall = path(points`M${view.plan.case.x - 7} ${y + 10}l5 9h-10z`, 'p-upcall') + text(4, y + 34, 'upcall', 'p-small');
  return runs + text(18, y + 20.5, g, 'p-large') + (view.report.upcall === g ? part(`group ${g} upcall`, upcall) : '');
}

function caseBadge(view, g, y) {
  const box = { x: view.plan.case.x, y: y + view.plan.case.y, width: ROW.caseWidth, height: ROW.cellHeight };
  const looks = { direct: 'p-slot', buffered: 'p-buffered', revoked: 'p-revoked' };
  const kind = caseOf(view.node, g);
  const drawn = boxed(box, looks[kind]) + centred(box, 14, kind, kind === 'direct' ? '' : 'p-bold');
  return part(`group ${g} case`, drawn) + outline(view, `group ${g} case`, node => caseOf(node, g), box);
}

function flagBox(view, g, flag, box) {
  const on = view.node.groups[g][flag] === 1;
  const at = `group ${g} flag ${flag}`;
  const drawn = boxed(box, on ? 'p-on' : 'p-off') + centred(box, box.height / 2 + 3.5, flag, on ? 'p-small p-white' : 'p-small p-dim');
  return part(at, drawn) + outline(view, at, node => node.groups[g][flag], box);
}

/* A group's line from y on: the used-up places of its first page, then as many of its messages as there is room for. */
function groupLine(view, group, y) {
  const { x } = view.plan.line;
  const line = lineOf(view.node, group.group);
  if (line.length === 0) return text(x, y + 13, 'empty', 'p-small p-dim');
  const { cells, end } = lineCells(view, line, x + group.used * LINE_CELL.used);
  const at = `group ${group.group}`;
  const drawn = cells.map((cell, i) => lineMessage(view, `${at} line ${i}`, line[i], { ...cell, y, height: ROW.cellHeight }));
  const names = cells.map((cell, i) => lineName(view.map, line, i, cell.x, y));
  const more = `+ ${thousands(line.length - cells.length)}`;
  const rest = cells.length < line.length ? text(end + 4, y + 13.5, more, 'p-mono', { 'data-at': `${at} more` }) : '';
  return usedPlaces(view, group, y) + drawn.join('') + names.join('') + rest;
}

/* Where the messages of a line are drawn from x on, and where the last of them ends. */
function lineCells({ map, plan }, line, x) {
  const room = plan.line.end - x;
  const gaps = LINE_CELL.gap * Math.ceil(line.length / map.page);
  const width = Math.min(LINE_CELL.widest, Math.max(LINE_CELL.narrowest, Math.floor((room - gaps) / line.length)));
  const end = width * line.length + gaps <= room ? plan.line.end : plan.line.end - LINE_CELL.more;
  const cells = [];
  for (const message of line) {
    if (x + width > end) break;
    cells.push({ x, width: width - 4 });
    x += width + (message.place === map.page - 1 ? LINE_CELL.gap : 0);
  }
  return { cells, end: x };
}

function usedPlaces(view, { group, used, pages }, y) {
  const drawn = Array.from({ length: used }, (_, i) => {
    const at = `group ${group} used ${i}`;
    const box = { x: view.plan.line.x + i * LINE_CELL.used, y, width: LINE_CELL.used - 2, height: ROW.cellHeight };
    const struck = boxed(box, 'p-used') + path(points`M${box.x} ${y}l${box.width} ${box.height}`, 'p-stroke');
    return part(at, title('used up') + struck) + outline(view, at, node => wordsInPage(view.map, node, pages[0])[i], box);
  });
  return drawn.join('');
}

/* Where a message stands, as a class of the pictures. */
function standsIn(map, message) {
  if (message.queue !== undefined) return 'p-queue';
  return message.page < map.frames ? 'p-frame' : 'p-swap';
}

function lineMessage(view, at, message, box) {
  const { map } = view;
  const stands = standsIn(map, message);
  const inQueue = stands === 'p-queue';
  const said = fitted(message.words, box.width - 3, WORD_SIZE);
  const chip = monoWidth(said, WORD_SIZE) + 3;
  const atPlace = inQueue ? node => node.queue[message.queue] : node => wordsInPage(map, node, message.page)[message.place];
  const drawn = [
    title(message.words.join(' ')),
    boxed(box, stands),
    inQueue ? '' : rect(box.x + (box.width - chip) / 2, box.y + 3.5, chip, box.height - 7, 'p-chip'),
    centred(box, 13.5, said, inQueue ? 'p-mono p-white' : 'p-mono'),
  ];
  return part(at, drawn.join('')) + outline(view, at, atPlace, box);
}

/* Below the first message of a page the page's name, below the first in the hardware queue that. */
function lineName(map, line, i, x, y) {
  const name = message => (message.queue === undefined ? pageName(map, message.page) : 'queue');
  const here = name(line[i]);
  return i > 0 && name(line[i - 1]) === here ? '' : text(x, y + ROW.label, here, 'p-small p-dim');
}

/* The words of a descriptor, each in a cell. */
function descriptorPart(view, { group, descriptor }, { x, y, pitch, width, height }) {
  const cells = Array.from({ length: view.map.message }, (_, i) => {
    const at = `group ${group} descriptor ${i}`;
    const box = { x: x + i * pitch, y, width, height };
    const word = descriptor[i];
    const said = word === undefined ? '' : title(word) + centred(box, height / 2 + 4, fitted([word], width - 1, WORD_SIZE), 'p-mono');
    return part(at, boxed(box, 'p-slot') + said) + outline(view, at, node => node.groups[group].descriptor[i], box, 1);
  });
  return cells.join('');
}

function pledgePart(view, g, y) {
  const at = `group ${g} pledge`;
  const x = view.plan.pledge;
  const of = node => pledge(view.map, node, g);
  const box = { x: x - 18, y, width: 22, height: ROW.cellHeight };
  return text(x, y + 13.5, of(view.node), 'p-end p-mono', { 'data-at': at }) + outline(view, at, of, box);
}

/* A lamp: filled where the group has mail. */
function mailLamp(view, g, y) {
  const at = `group ${g} mail`;
  const x = view.plan.mail;
  const lamp = circle(x, y, 5, hasMail(view.node, g) ? 'p-on' : 'p-off', { 'data-at': at });
  return lamp + (isChanged(view, node => hasMail(node, g)) ? circle(x, y, 8.5, 'p-changed', { 'data-at': `${at} changed` }) : '');
}

/* Frames and swap pages from y on, and where they end. */
function pagesPart(view, y) {
  const { map, node, plan } = view;
  const frames = `${node.entry.length} of ${map.frames} in use; a page holds ${map.page} messages`;
  const swap = `${map.swap - node.swapLine.length} of ${map.swap} in use`;
  const first = tiles(view, 0, map.frames, y + plan.paging.y + 26, TILE.frameRow);
  const second = tiles(view, map.frames, map.pages, first.end + 32, TILE.row);
  const drawn = [
    text(6, y + 4, 'Page frames', 'p-head') + text(104, y + 4, frames, 'p-small p-dim', { 'data-at': 'frames' }),
    pagingPart(view, y + 4 + plan.paging.y),
    text(6, first.end + 10, 'Swap pages', 'p-head') + text(104, first.end + 10, swap, 'p-small p-dim', { 'data-at': 'swap' }),
    first.drawn + second.drawn,
  ];
  return { drawn: drawn.join(''), end: second.end };
}

function pagingPart(view, y) {
  const { sentOut, broughtIn } = view.plan.paging;
  const told = (at, x, of) => {
    const said = text(x, y, `${at} so far ${thousands(of(view.node))}`, 'p-small', { 'data-at': at });
    return said + outline(view, at, of, { x: x - 5, y: y - 12, width: 124, height: 16 });
  };
  return told('sent out', sentOut, node => node.sentOut) + told('brought in', broughtIn, node => node.broughtIn);
}

/* The pages from one number on and below another, in rows as wide as the picture. An outline lies over the tiles beside it. */
function tiles(view, from, below, y, row) {
  const across = Math.floor((view.plan.width - 5) / TILE.pitch);
  const boxOf = i => ({ x: 5 + (i % across) * TILE.pitch, y: y + Math.floor(i / across) * row, width: TILE.width, height: TILE.height });
  const pages = Array.from({ length: below - from }, (_, i) => ({ page: from + i, box: boxOf(i) }));
  const drawn = pages.map(({ page, box }) => tile(view, page, box)).concat(pages.map(({ page, box }) => tileOutline(view, page, box)));
  return { drawn: drawn.join(''), end: y + Math.ceil(pages.length / across) * row };
}

function tile(view, page, box) {
  const { map, node } = view;
  const owner = pageOwner(map, node, page);
  const look = owner === null ? 'p-slot' : page < map.frames ? 'p-frame' : 'p-swap';
  const drawn = [
    boxed(box, look),
    centred(box, -3, pageName(map, page), 'p-small p-dim'),
    owner === null ? nextMark(view, page, box) : ownedTile(view, page, owner, box),
  ];
  return part(`page ${page}`, drawn.join(''));
}

function tileOutline(view, page, box) {
  const { map } = view;
  const content = node => [pageOwner(map, node, page)?.group, wordsInPage(map, node, page)];
  return outline(view, `page ${page}`, content, box, 1);
}

function ownedTile(view, page, owner, { x, y }) {
  const middle = x + TILE.width / 2;
  return [
    rect(middle - 7, y + 2, 14, 15, 'p-chip'),
    text(middle, y + 15, owner.group, 'p-large p-middle', { 'data-at': `page ${page} owner` }),
    tilePlaces(view, page, owner, x, y + 19),
    view.node.entry[0] === page ? oldestMark(view, x, y + TILE.height + 10) : '',
  ].join('');
}

/* Below a tile, to its left where there is no room to its right. */
function oldestMark({ plan }, x, y) {
  const at = { 'data-at': 'oldest' };
  return x + 50 < plan.width ? text(x, y, '▴ oldest', 'p-small', at) : text(x + TILE.width, y, 'oldest ▴', 'p-small p-end', at);
}

/* Which of a page's places are filled, in two rows. */
function tilePlaces(view, page, owner, x, y) {
  const { map, node, before } = view;
  const across = Math.ceil(map.page / 2);
  const pitch = (TILE.width - 2) / across;
  const waiting = new Map([node, before ?? node].map(of => [of, wordsInPage(map, of, page)]));
  const drawn = Array.from({ length: map.page }, (_, place) => {
    const at = `page ${page} place ${place}`;
    const box = { x: x + 2.5 + (place % across) * pitch, y: y + 3.2 + Math.floor(place / across) * 8.4, width: pitch - 3, height: 5 };
    const look = place >= owner.from && place < owner.to ? 'p-on' : 'p-off';
    const waits = of => waiting.get(of)[place];
    return rect(box.x, box.y, box.width, box.height, look, { 'data-at': at }) + outline(view, at, waits, box, 1.5, 'p-changed p-thin');
  });
  return rect(x + 1, y, TILE.width - 2, TILE.height - 20, 'p-chip') + drawn.join('');
}

/* A free page that is the next taken says so. */
function nextMark({ node }, page, box) {
  const at = node.free[0] === page ? 'next frame' : node.swapLine[0] === page ? 'next swap' : null;
  return at === null ? '' : part(at, centred(box, 18, 'next', 'p-tiny') + centred(box, 29, 'taken', 'p-tiny'));
}

/* Where things stand in the picture of what a group sees. */
const OWN_WIDE = {
  kind: WIDE_PLAN.kind,
  width: WIDE_PLAN.width,
  about: { x: 86, y: 24 },
  processor: { x: 10, y: 42, width: 170, height: 48 },
  flags: { x: 204, y: 50, pitch: 84, width: 76, height: 32 },
  descriptor: { x: 392, y: 50, pitch: 63, width: 58, height: 32 },
  line: { x: 10, y: 136, pitch: 98, width: 92, height: 40, across: 9, rows: 1 },
};
const OWN_NARROW = {
  kind: NARROW_PLAN.kind,
  width: NARROW_PLAN.width,
  about: { x: 10, y: 44 },
  processor: { x: 10, y: 62, width: 154, height: 48 },
  flags: { x: 180, y: 70, pitch: 88, width: 78, height: 32 },
  descriptor: { x: 10, y: 142, pitch: 43, width: 40, height: 32 },
  line: { x: 10, y: 220, pitch: 115, width: 110, height: 40, across: 3, rows: 4 },
};

/* What group g sees: its private line, flags, descriptor and processor; nothing of where a message stands or of the kernel's part. */
function privatePicture(run, i, g, { alone, narrow } = {}) {
  const plan = narrow ? OWN_NARROW : OWN_WIDE;
  const { about, flags, descriptor } = plan;
  if (!run.isNode) return noNodePicture(plan, alone);
  const view = { ...viewOf(run, i), plan };
  const label = `What group ${g} sees ${whenOf(run, i)}`;
  const words = i < run.first ? [] : privateWords(run, i, g);
  const told = [`${run.title}: what group ${g} sees.`, ...words].join(' ');
  const parts = [
    text(10, 24, `Group ${g}`, 'p-large'),
    text(about.x, about.y, "Its line is its own. Where a message stands it can't tell.", 'p-dim'),
    ownProcessor(view, g),
    ...['atomic', 'pending'].map((flag, k) => flagBox(view, g, flag, { ...flags, x: flags.x + k * flags.pitch })),
    text(descriptor.x, descriptor.y - 8, 'descriptor', 'p-small p-dim') + descriptorPart(view, view.node.groups[g], descriptor),
    ownLine(view, g),
  ];
  return picture({ label, told, ...plan, height: ownBox(plan.line, ownFits(view, g) - 1).y + 60, alone, css: NODE_CSS }, parts.join(''));
}

function ownProcessor(view, g) {
  const box = view.plan.processor;
  const has = node => node.running === g;
  const told = view.report.upcall === g;
  const said = centred(box, told ? 20 : 29, has(view.node) ? 'has the processor' : 'does not run', 'p-head');
  const upcall = path(points`M${box.x + 50} ${box.y + 29}l5 9h-10z`, 'p-upcall') + text(box.x + 62, box.y + 38, 'upcall', 'p-bold');
  const drawn = part('processor', boxed(box, has(view.node) ? 'p-processor' : 'p-box') + said);
  return drawn + (told ? part(`group ${g} upcall`, upcall) : '') + outline(view, 'processor', has, box);
}

/* The box of a message of a group's own line. */
function ownBox({ x, y, pitch, width, height, across }, i) {
  return { x: x + (i % across) * pitch, y: y + Math.floor(i / across) * (height + 8), width, height };
}

/* How many messages are drawn, and at least one has room. */
function ownFits({ node, plan }, g) {
  return Math.max(1, Math.min(lineOf(node, g).length, plan.line.across * plan.line.rows));
}

/* A group's messages in their order. What changed is how many there are, and the one that came. */
function ownLine(view, g) {
  const { x, y } = view.plan.line;
  const line = lineOf(view.node, g);
  const fits = ownFits(view, g);
  const messages = line.slice(0, fits).map((message, i) => ownMessage(view, g, i, message, ownBox(view.plan.line, i)));
  const said = `Its line: ${line.length === 0 ? 'empty' : counted(line.length, 'message')}`;
  const head = text(x, y - 11, said, 'p-head', { 'data-at': `group ${g} line` });
  const changed = outline(view, `group ${g} line`, node => lineOf(node, g).length, { x: x - 4, y: y - 26, width: 160, height: 20 });
  const more = { 'data-at': `group ${g} more` };
  const rest = line.length > fits ? text(view.plan.width - 20, y - 11, `+ ${thousands(line.length - fits)}`, 'p-end p-mono', more) : '';
  return head + changed + messages.join('') + rest;
}

function ownMessage(view, g, i, { words }, box) {
  const at = `group ${g} line ${i}`;
  const said = centred(box, box.height / 2 + 4, fitted(words, box.width - 4, WORD_SIZE), 'p-mono');
  const stands = node => i < lineOf(node, g).length;
  return part(at, title(words.join(' ')) + boxed(box, 'p-box') + said) + outline(view, at, stands, box);
}

/* The node after line i as text, a fact a line, in the words of `judge --state`. */
function stateText(run, i) {
  const { map } = run;
  const node = run.node(i);
  const padded = words => words.concat(Array(map.message - words.length).fill(0));
  const kept = node.groups.slice(1).flatMap(({ buffer }) => buffer).sort((a, b) => a.page - b.page || a.place - b.place);
  const lines = [
    ['running', node.running],
    ['timer', node.timer],
    ...node.queue.map(({ group, words }) => ['queued', group, 'words', ...padded(words)]),
    ['free', ...node.free],
    ['entry', ...node.entry],
    ['swap-free', ...node.swapLine.map(page => page - map.frames)],
    ['out', node.sentOut, 'in', node.broughtIn],
    ...node.groups.slice(1).map(group => groupFacts(map, group)),
    ...kept.map(({ page, place, words }) => [pageName(map, page), 'place', place, 'length', words.length, 'words', ...padded(words)]),
  ];
  return lines.map(line => line.join(' ') + '\n').join('');
}

function groupFacts(map, group) {
  const flags = FLAGS.flatMap(flag => [flag, group[flag]]);
  const pages = group.pages.map(page => pageName(map, page));
  return ['group', group.group, ...flags, 'h', group.used, 'n', group.count, 'pages', ...pages, 'descriptor', ...group.descriptor];
}

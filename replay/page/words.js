/* A line said in words: what its report, its reason and the memories before and after it hold. No rule is carried out here. */

/* The tables of docs/LISTING.md, in its words: they stand in the page's key, which is there without a script, too. */
const ANSWERS = tableOf('answers');
const TRAPS = tableOf('traps');
const REASONS = tableOf('reasons');

function tableOf(id) {
  const rows = Array.from(document.querySelectorAll(`#${id} dt`), number => [number.textContent, number.nextElementSibling.textContent]);
  return Object.fromEntries(rows);
}

const FLAGS = ['atomic', 'pending', 'force', 'revoked'];

/* The report of a line by the listing's columns; zeros where there is no line. */
function reportOf(line) {
  const [answer, value, trap, upcall, moved, ...sent] = line === null ? [0, 0, 0, 0, 0] : line.report;
  return { answer, value, trap, upcall, moved, sent };
}

const thousands = number => String(Number(number)).replace(/\B(?=(\d{3})+$)/g, ',');
const counted = (number, one) => `${thousands(number)} ${one}${number === 1 ? '' : 's'}`;
const verb = (number, one, many) => (number === 1 ? one : many);
/* Words parted by commas, the last by "and". */
const listed = words => words.join(', ').replace(/, ([^,]*)$/, ' and $1');

/* What a running group does by an operation: to do, does, and the rest of the sentence. */
const DEEDS = {
  M: ['ask', 'asks', () => 'whether a message waits'],
  E: ['read', 'reads', ([, i]) => `word ${thousands(i)} of its first message`],
  D: ['dispose of', 'disposes of', () => 'its first message'],
  B: ['begin', 'begins', ([, force]) => `an atomic section${Number(force) === 1 ? ' with force' : ''}`],
  N: ['end', 'ends', () => 'its atomic section'],
  P: ['add', 'adds', ([, word]) => `the word ${thousands(word)} to its descriptor`],
  L: ['launch', 'launches', ([, node]) => `its descriptor to node ${thousands(node)}`],
};

/* What the network, the kernel and whoever looks on ask for. */
const ASKED = {
  A: ([, group, ...words]) => `A message of ${counted(words.length, 'word')} comes for group ${thousands(group)}.`,
  I: ([, group]) => `The processor is to be given to group ${thousands(group)}.`,
  S: ([, group]) => `The processor is to go to group ${thousands(group)}.`,
  T: ([, ticks]) => `${thousands(ticks)} ticks are to pass.`,
};

/* All that is told of a line at once: its operation and fields, its report, the nodes before and after it. */
function tellOf(run, i) {
  const line = run.line(i);
  const nodes = run.isNode ? { before: run.node(i - 1), after: run.node(i) } : {};
  return { map: run.map, line, fields: line.fields, operation: line.fields[0], ...reportOf(line), ...nodes };
}

/* What line i did, as sentences. */
function wordsOf(run, i) {
  const told = tellOf(run, i);
  if (told.answer !== 0) return refusedWords(told);
  const same = told.line.changes === '' && !['C', 'M', 'E'].includes(told.operation);
  const sentences = [
    ...DID[told.operation](told),
    movedWords(told),
    flagWords(told),
    timerWords(told),
    told.upcall === 0 ? '' : upcallWords(told.upcall),
    pagingWords(told),
    reasonWords(told.line.reason),
    same ? 'Nothing changes.' : '',
  ];
  return sentences.filter(sentence => sentence !== '');
}

function refusedWords({ answer, operation, fields, line, before }) {
  const refused = [`Refused with ${answer}: ${refusalOf(operation, answer)}.`, 'Nothing changes.'];
  if (answer === 1) return refused;
  if (answer === 2) return [unreadableWords(line), ...refused];
  if (answer === 7) return ['This is for a running group to do.', ...refused];
  if (operation in ASKED) return [ASKED[operation](fields), ...refused];
  const [todo, , rest] = DEEDS[operation];
  return [`Group ${before.running} wants to ${todo} ${rest(fields)}.`, ...refused];
}

const unreadableWords = line => (line.bytes.length === 0 ? "This empty line can't be read." : `This line can't be read: ${line.shown}`);

/* What the table of answers says of an operation: the part that begins with its letter, else the first, without the letters. */
function refusalOf(operation, answer) {
  const parts = ANSWERS[answer].split(/[.;] /);
  const own = parts.find(part => part.startsWith(`${operation}: `)) ?? parts[0];
  return own.replace(/^[^:]*: /, '');
}

/* What each accepted operation did. */
const DID = {
  A: arrivalWords,
  O: switchWords,
  I: switchWords,
  S: switchWords,
  T: ticksWords,
  C: turnWords,
  M: told => [deedWords(told), waitsWords(told, first => `, in ${whereWords(first)}`)],
  E: told => [deedWords(told), `It is ${thousands(told.value)}, read from ${whereWords(firstOf(told))}.`],
  D: disposeWords,
  B: beginWords,
  N: endWords,
  P: told => [deedWords(told), valueWords(told)],
  L: told => [deedWords(told), valueWords(told)],
};

function deedWords({ operation, fields, before }) {
  const [, does, rest] = DEEDS[operation];
  return `Group ${before.running} ${does} ${rest(fields)}.`;
}

/* The message that M, E and D speak of; the page of a buffer's first is in a frame, and so is that which an arrival enters. */
const firstOf = ({ before }) => lineOf(before, before.running)[0];

function whereWords(message) {
  return message.queue === undefined ? `the buffer, frame ${message.page}` : 'the hardware queue';
}

function arrivalWords({ fields, moved, after }) {
  const [, group, ...words] = fields;
  const arrives = `A message of ${counted(words.length, 'word')} arrives for group ${thousands(group)}.`;
  const behind = after.queue.length - 1;
  const { buffer } = after.groups[Number(group)];
  if (moved === 1) return [arrives, `It passes through the hardware queue into ${whereWords(buffer.at(-1))} (moved 1).`];
  if (behind === 0) return [arrives, 'It is the head of the hardware queue.'];
  return [arrives, `It stands in the hardware queue behind ${counted(behind, 'other')}.`];
}

/* What O, I and S did to the processor. */
function switchWords({ before, after }) {
  const [from, to] = [before.running, after.running];
  if (from === 0 && to === 0) return ['The kernel takes the processor away. Nobody has it.'];
  if (from === to) return [`The processor is to go to group ${to}. It has it already.`];
  if (to === 0) return [`The kernel takes the processor from group ${from}.`];
  if (from === 0) return [`The kernel gives the processor to group ${to}.`];
  return [`The kernel takes the processor from group ${from} and gives it to group ${to}.`];
}

function ticksWords(told) {
  const ticks = Number(told.fields[1]);
  const pass = `${counted(ticks, 'tick')} ${verb(ticks, 'passes', 'pass')}.`;
  if (told.trap === 3) return [pass, ...timeoutWords(told)];
  return [pass, timerCounts(told.before) ? '' : "The timer stands: no message is in the hardware queue, and it isn't forced."];
}

function timeoutWords({ map, before }) {
  const empty = before.queue.length === 0 ? 'No message was in the hardware queue.' : '';
  const again = before.groups[before.running].revoked === 1 ? `Group ${before.running} was revoked already.` : '';
  return [`The timer reached ${map.ticks}: the kernel steps in (trap 3, ${TRAPS[3]}).`, empty, again];
}

function turnWords({ value, before }) {
  const asks = 'Whose turn is it?';
  if (value === 0) return [asks, 'No group has mail.'];
  if (value === before.running) return [asks, `Group ${value}, which runs: no other group has mail.`];
  return [asks, `Group ${value}: it is the first with mail${before.running === 0 ? '' : ` after group ${before.running}, which runs`}.`];
}

/* What M hands back, and where the message stands if that is to be told. */
function waitsWords(told, where = () => '') {
  return told.value === 0 ? 'None does.' : `One does, of ${counted(told.value, 'word')}${where(firstOf(told))}.`;
}

function disposeWords(told) {
  const { trap, after } = told;
  const first = firstOf(told);
  const stood = `It stood in ${whereWords(first)}`;
  if (trap === 0) return [deedWords(told), `${stood}: the direct case.`];
  const freed = after.free.includes(first.page) ? ` Frame ${first.page} is free again.` : '';
  return [deedWords(told), `${stood}: the kernel steps in (trap 1, ${TRAPS[1]}).${freed}`];
}

function beginWords(told) {
  const { atomic } = told.before.groups[told.before.running];
  return [deedWords(told), atomic === 1 ? 'It is in one already; sections are not counted.' : ''];
}

function endWords(told) {
  const { atomic, count } = told.before.groups[told.before.running];
  if (atomic === 0) return [deedWords(told), 'It was in none.'];
  const buffered = count === 0 ? 'It was revoked' : `${counted(count, 'message')} ${verb(count, 'was', 'were')} in its buffer`;
  return [deedWords(told), told.trap === 2 ? `${buffered}: the kernel steps in (trap 2, ${TRAPS[2]}).` : ''];
}

/* What P and L hand back. */
function valueWords({ operation, value, sent }) {
  if (operation === 'P') return `The descriptor has ${counted(value, 'word')} now.`;
  return `${counted(value, 'word')} ${verb(value, 'is', 'are')} sent, stamped with group ${sent[1]}; the descriptor is empty again.`;
}

/* An arrival tells of its moving by itself. */
function movedWords({ operation, moved }) {
  if (moved === 0 || operation === 'A') return '';
  const messages = counted(moved, 'message');
  const who = operation === 'D' ? `Behind it ${messages} ${verb(moved, 'moves', 'move')}` : `The whole hardware queue, ${messages}, moves`;
  return `${who} to the buffers (moved ${moved}).`;
}

/* Flags that went on or off. Those that every upcall sets are told with it. */
function flagWords({ before, after, upcall }) {
  const told = upcall === 0 ? FLAGS : FLAGS.filter(flag => !['atomic', 'pending'].includes(flag));
  const sentences = after.groups.slice(1).map(now => {
    const was = before.groups[now.group];
    const on = told.filter(flag => now[flag] > was[flag]);
    const off = told.filter(flag => now[flag] < was[flag]);
    const turned = (flags, how) => (flags.length === 0 ? [] : [`${listed(flags)} ${how}`]);
    const all = [...turned(on, 'on'), ...turned(off, 'off')];
    return all.length === 0 ? '' : `Group ${now.group}: ${all.join('; ')}.`;
  });
  return sentences.filter(sentence => sentence !== '').join(' ');
}

function timerWords({ before, after, map }) {
  return before.timer === after.timer ? '' : `The timer goes from ${before.timer} to ${after.timer} of ${map.ticks}.`;
}

const upcallWords = g => `Upcall: group ${g} is told that a message waits; it is atomic and pending from here on.`;

function pagingWords({ before, after }) {
  const out = after.sentOut - before.sentOut;
  const back = after.broughtIn - before.broughtIn;
  const is = count => `${counted(count, 'page')} ${verb(count, 'is', 'are')}`;
  const told = [out === 0 ? [] : [`${is(out)} sent out to swap`], back === 0 ? [] : [`${is(back)} brought in`]].flat();
  return told.length === 0 ? '' : `${told.join(', ')}.`;
}

/* Why an arrival was buffered, or was not: told of runs from power-on. */
function reasonWords(reason) {
  if (reason === null) return '';
  const { number, line } = reason;
  if (number === 1) return `Reason 1: ${REASONS[1]} at line ${line}.`;
  if (number === 2) return `Reason 2: ${REASONS[2]} at line ${line}, the script's last.`;
  return `It is buffered at line ${line}, reason ${number}: ${REASONS[number]}.`;
}

/* Whether group g takes part in line i: by an operation of its own, or by an upcall. */
function concerns(run, i, g) {
  const line = run.line(i);
  const { answer, upcall } = reportOf(line);
  const answered = ![1, 2, 7].includes(answer);
  return upcall === g || (answered && line.fields[0] in DEEDS && run.brief(i - 1).running === g);
}

/* What group g notices of line i: its own answers and upcalls, and that it got or lost the processor. */
function privateWords(run, i, g) {
  const told = tellOf(run, i);
  const own = concerns(run, i, g) && told.operation in DEEDS ? answerWords(told) : [];
  const sentences = [...own, processorWords(told, g), told.upcall === g ? upcallWords(g) : ''].filter(sentence => sentence !== '');
  return sentences.length === 0 ? [`Group ${g} notices nothing.`] : sentences;
}

/* A group's own answer: nothing of trap, moved or place. */
function answerWords(told) {
  if (told.answer !== 0) return refusedWords(told);
  const values = {
    M: () => waitsWords(told),
    E: () => `It is ${thousands(told.value)}.`,
    P: () => valueWords(told),
    L: () => valueWords(told),
  };
  return [deedWords(told), values[told.operation]?.() ?? ''];
}

function processorWords({ before, after }, g) {
  if (before === undefined || (before.running === g) === (after.running === g)) return '';
  return after.running === g ? `Group ${g} gets the processor.` : `Group ${g} loses the processor.`;
}

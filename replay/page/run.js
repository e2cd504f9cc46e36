/* A run as the page has it (docs/REPLAY.md, the format), and the memory after any of its lines. */

/* The whole memory is kept once in so many lines: any other is at most as many changes away. */
const KEPT_EVERY = 64;

/* Words by their addresses, and a line of the run. */
const WORDS = '(?:\\d+=\\d+(?:,\\d+)*(?: (?=\\d)|(?=\\||$)))*';
const START = new RegExp(`^${WORDS}$`);
const LINE = new RegExp(`^(\\d+)\\|([^|]*)\\|(\\d+(?:,\\d+){4,})\\|(${WORDS})\\|(|\\d+ at \\d+)$`);

/* The text of the data block. An Error tells what of it can't be read. */
function readRun(text) {
  const rows = text.trim().split('\n');
  const named = (name, form = /^/) => {
    const row = rows.shift() ?? '';
    const value = row.slice(name.length + 1);
    if ((row !== name && !row.startsWith(name + ' ')) || !form.test(value)) throw new Error(`the run has no ${name} where it should`);
    return value;
  };
  if (named('fugu-replay') !== '1') throw new Error('the run is of another format');
  const words = Number(named('words'));
  const sizes = Object.fromEntries(named('map').split(' ').map(size => size.split('=')).map(([name, size]) => [name, Number(size)]));
  if (mapOf(sizes).size !== words) throw new Error('the run has a map that is not of its words');
  const data = { sizes, title: named('title'), begin: named('begin'), memory: Number(named('memory', /^\d+$/)) };
  [data.first, data.last, data.total] = named('lines', /^\d+ \d+ \d+$/).split(' ').map(Number);
  named('newline');
  data.start = named('start', START);
  if (rows.pop() !== 'end') throw new Error('the run is cut short');
  data.lines = rows.map((row, i) => readLine(row, data.first + i));
  if (data.lines.length !== data.last - data.first + 1) throw new Error('the run has not as many lines as it says');
  return data;
}

function readLine(row, number) {
  const [, told, text, report, changes, reason] = LINE.exec(row) ?? [];
  if (Number(told) !== number) throw new Error(`the run has no line ${number} where it should`);
  return lineOfRun(number, bytesOf(text), report, changes, reason);
}

/* A line as all the page's rooms take it: the report as numbers, the fields as the script parts them. */
function lineOfRun(number, bytes, report, changes, reason) {
  const shown = shownText(bytes);
  const told = /^(\d+) at (\d+)$/.exec(reason);
  return {
    number,
    bytes,
    shown,
    fields: shown.split(','),
    report: report.split(',').map(Number),
    changes,
    reason: told && { number: Number(told[1]), line: Number(told[2]) },
  };
}

/* The bytes of a text in which \xHH stands for those that can't be shown. */
function bytesOf(text) {
  const bytes = [];
  for (let i = 0; i < text.length; i++) {
    if (text[i] === '\\') {
      bytes.push(parseInt(text.slice(i + 2, i + 4), 16));
      i += 3;
    } else bytes.push(text.charCodeAt(i));
  }
  return Uint8Array.from(bytes);
}

/* The longest line that can be read: of a longer one no more is shown. */
const SHOWN = 128;

/* A byte as it can be shown. */
const signOf = byte => (byte < 32 || byte > 126 || byte === 92 ? '\\x' + byte.toString(16).padStart(2, '0') : String.fromCharCode(byte));

/* Bytes as text that shows each of them, as the listing has it. */
function shownText(bytes) {
  const text = Array.from(bytes.subarray(0, SHOWN), signOf).join('');
  return bytes.length > SHOWN ? `${text}… (${bytes.length} bytes)` : text;
}

/* Puts the words of a text such as "2=1 4=1,1,7" into a memory. */
function put(memory, changes) {
  if (changes === '') return;
  for (const change of changes.split(' ')) {
    const [address, words] = change.split('=');
    words.split(',').forEach((word, i) => (memory[Number(address) + i] = Number(word)));
  }
}

/* The memory before the first line shown. */
function startMemory(data) {
  const memory = new Uint32Array(data.memory);
  put(memory, data.start);
  return memory;
}

/* Such a text for the words that differ: the longest runs of neighbours, as they are now. */
function changesText(before, now) {
  const changes = [];
  for (let address = 0; address < now.length; address++) {
    if (before[address] === now[address]) continue;
    const from = address;
    while (address < now.length && before[address] !== now[address]) address++;
    changes.push(`${from}=${now.subarray(from, address).join(',')}`);
  }
  return changes.join(' ');
}

function makeRun(data) {
  const map = mapOf(data.sizes);
  const first = data.first;
  const last = data.last;
  const memory = startMemory(data);
  const isNode = data.begin !== 'no-node';
  const kept = [];
  const briefs = [];
  const parts = new Set();
  const see = i => {
    if (i % KEPT_EVERY === 0) kept.push(memory.slice());
    if (!isNode) return;
    const brief = briefOf(map, memory);
    briefs.push(brief);
    for (let g = 1; g <= map.groups; g++) if (takesPart(brief, g)) parts.add(g);
  };
  see(0);
  data.lines.forEach((line, i) => {
    put(memory, line.changes);
    see(i + 1);
  });
  const memoryAt = at => {
    const i = at - first + 1;
    const near = Math.floor(i / KEPT_EVERY);
    const found = kept[near].slice();
    for (let j = near * KEPT_EVERY; j < i; j++) put(found, data.lines[j].changes);
    return found;
  };
  const nodes = new Map();
  const node = at => {
    if (!nodes.has(at)) {
      if (nodes.size > 8) nodes.clear();
      nodes.set(at, readNode(map, memoryAt(at)));
    }
    return nodes.get(at);
  };
  return {
    data,
    map,
    first,
    last,
    total: data.total,
    title: data.title,
    begin: data.begin,
    isNode,
    parts,
    line: at => data.lines[at - first],
    memory: memoryAt,
    node,
    brief: at => briefs[at - first + 1],
  };
}

/* Whether a group has a part in what a node holds: the processor, a message, a flag or a word of a descriptor. */
function takesPart(brief, g) {
  const { atomic, count, queued, descriptor } = brief.groups[g];
  return brief.running === g || atomic + count + queued + descriptor > 0;
}

/* What the score needs of a node, small enough to be kept for every line: of each group, by its number, its flags, how many of its
   messages are in the buffer, in swap pages among these, and in the hardware queue, and which pages of its list, counted from 0, are in
   swap (away). */
function briefOf(map, memory) {
  const groups = [null];
  const queue = [];
  for (let i = 0; i < memory[map.queueCount]; i++) queue.push(memory[map.queued(i)]);
  for (let g = 1; g <= map.groups; g++) {
    const at = map.group(g);
    const [atomic, pending, force, revoked, used, count, pageCount, descriptor] = memory.subarray(at, at + map.descriptor);
    const away = [];
    for (let i = 0; i < pageCount; i++) if (memory[at + map.list + i] >= map.frames) away.push(i);
    const swapped = away.map(i => filledPlaces(map, { used, count }, i)).reduce((sum, { from, to }) => sum + to - from, 0);
    const queued = queue.filter(group => group === g).length;
    groups.push({ atomic, pending, force, revoked, used, count, away, swapped, queued, descriptor });
  }
  return {
    running: memory[map.running],
    timer: memory[map.timer],
    queue,
    groups,
    frames: memory[map.entryCount],
    swap: map.swap - memory[map.swapCount],
    sentOut: memory[map.sentOut],
    broughtIn: memory[map.broughtIn],
  };
}

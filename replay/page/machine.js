/* The machine in the page: the proved code plays the file's own run again, and a reader's own scripts. */

/* Lines that a run may have to be shown. */
const MOST_LINES = 20000;

/* The code that stands in the file: its length and sum are told before it. */
function codeBytes() {
  const [head, ...rows] = element('code').textContent.trim().split('\n');
  const [, length, sum] = /^code (\d+) ([0-9a-f]{8})$/.exec(head) ?? [];
  const bytes = Uint8Array.from(atob(rows.join('')), sign => sign.charCodeAt(0));
  if (bytes.length !== Number(length) || crc32(bytes) !== parseInt(sum, 16)) throw new Error('it is not the code that was put there');
  return bytes;
}

function crc32(bytes) {
  let sum = -1;
  for (const byte of bytes) {
    sum ^= byte;
    for (let bit = 0; bit < 8; bit++) sum = (sum >>> 1) ^ (0xedb88320 & -(sum & 1));
  }
  return ~sum >>> 0;
}

/* The text of the proved call by lines: of each arrival's line its reason as the run has it. */
function reasonsByLine(text) {
  const told = text.matchAll(/^line (\d+): reason (\d+) at line (\d+):/gm);
  return new Map(Array.from(told, ([, line, reason, at]) => [Number(line), `${reason} at ${at}`]));
}

/* A run of a script, played by the proved code from where the file's own lines begin; reasons are told from power-on. */
function playedRun(calls, own, title, script) {
  const { sizes, memory, start } = own;
  const begin = beginOf(own);
  const rows = [];
  calls.play(startMemory(own), script, (...row) => rows.push(row));
  const reasons = begin === 'power-on' ? reasonsByLine(calls.reasons(script)) : new Map();
  const lines = rows.map(([bytes, report, changes], i) => lineOfRun(i + 1, bytes, report, changes, reasons.get(i + 1) ?? ''));
  return { sizes, title, begin, memory, first: 1, last: lines.length, total: lines.length, start, lines };
}

/* The bytes of the lines that stand in the file, each with a newline. */
function ownScript(data) {
  const lines = data.lines.map(line => line.bytes);
  const script = new Uint8Array(lines.reduce((length, line) => length + line.length + 1, 0)).fill(10);
  let at = 0;
  for (const line of lines) {
    script.set(line, at);
    at += line.length + 1;
  }
  return script;
}

/* Whether the file's lines are the whole script, played from power-on. */
const isWhole = data => data.begin === 'power-on' && data.first === 1 && data.last === data.total;

/* Where a script begins that is played from the memory before the file's first line. */
const beginOf = data => (data.begin === 'power-on' && data.first > 1 ? 'node' : data.begin);

/* Plays the file's own run again, and says whether all lines agree. */
function playedAgain(calls, data) {
  const again = playedRun(calls, data, data.title, ownScript(data));
  const differing = changesText(startMemory(data), calls.powerOn());
  if (beginOf(data) === 'power-on' && differing !== '') return 'the memory at the start is not power-on’s';
  if (calls.test(startMemory(data)) !== (data.begin !== 'no-node')) return 'whether the memory at the start is a node is told wrong';
  const told = line => [line.shown, line.report, line.changes, isWhole(data) ? line.reason : null];
  const same = (one, other) => JSON.stringify(told(one)) === JSON.stringify(told(other));
  const differs = data.lines.findIndex((line, i) => !again.lines[i] || !same(line, again.lines[i]));
  if (differs >= 0) return `line ${data.first + differs} differs`;
  return again.lines.length === data.lines.length ? '' : 'there are more lines than it has';
}

/* The lines of a text: what is left behind the last newline is one, too. */
function lineCount(script) {
  const newlines = script.reduce((count, byte) => count + (byte === 10), 0);
  return newlines + (script.length > 0 && script.at(-1) !== 10);
}

/* What is in the box as bytes, and bytes as text for the box: \xHH stands for a byte that a box can't hold, any other backslash for
   itself. */
function boxBytes(text) {
  const escaped = text.replace(/\\(?!x[0-9a-f]{2})/gi, '\\x5c');
  return bytesOf(Array.from(new TextEncoder().encode(escaped), byte => String.fromCharCode(byte)).join(''));
}
const boxText = bytes => Array.from(bytes, byte => (byte === 10 ? '\n' : signOf(byte))).join('');

function playScript(calls, own, title, script) {
  const count = lineCount(script);
  element('played').textContent = '';
  if (count > MOST_LINES) {
    const most = thousands(MOST_LINES);
    element('played').textContent = `${thousands(count)} lines are more than the ${most} that a page shows: nothing was played.`;
    return;
  }
  const data = playedRun(calls, own.data, title, script);
  show(makeRun(data), false);
  go(Math.min(view.at, data.last));
  element('played').textContent = `Played: ${counted(count, 'line')}.`;
}

/* What the proved code found of the file's own run. */
function againWords(data, difference) {
  if (difference) return `Played again in this page by the proved code, the run differs from what stands in this file: ${difference}.`;
  const count = data.lines.length;
  if (count === 0) return 'The proved code in this page is ready.';
  const agree = count === 1 ? 'the line agrees' : `all ${thousands(count)} lines agree`;
  const taken = beginOf(data) === 'power-on' ? '' : ' The memory that they begin with is taken as it stands.';
  return `Played again in this page by the proved code: ${agree}, report and memory.${taken}`;
}

function sayChecked(words, good) {
  element('checked').textContent = words;
  element('checked').className = good ? 'live good' : 'live bad';
  document.body.dataset.checked = good ? 'agrees' : 'differs';
}

async function prepareCode(own) {
  try {
    const calls = await provedCalls(codeBytes());
    const difference = playedAgain(calls, own.data);
    sayChecked(againWords(own.data, difference), difference === '');
    letPlay(calls, own);
  } catch (error) {
    sayChecked(`The proved code in this page does not run here (${error.message}): all else works.`, false);
    element('edit').hidden = true;
  }
}

/* From now on the reader's own scripts are played: from the box, or a file that is opened or dropped. */
function letPlay(calls, own) {
  const take = async file => {
    if (!file) return;
    const script = new Uint8Array(await file.arrayBuffer());
    element('script').value = boxText(script);
    playScript(calls, own, file.name, script);
  };
  element('again').onclick = () => playScript(calls, own, 'Your script', boxBytes(element('script').value));
  element('file').onchange = event => {
    take(event.target.files[0]);
    /* So that the same file can be opened again, when it was changed. */
    event.target.value = '';
  };
  addEventListener('dragover', event => event.preventDefault());
  addEventListener('drop', event => {
    event.preventDefault();
    take(event.dataTransfer.files[0]);
  });
}

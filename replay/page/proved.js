/* The proved calls in the page: capi/fugu.h tells what each does, and what is lent to it. */

/* The two pairs of calls over portions, and what each is lent beside memory and input: 64-bit words of state, bytes of a kept line, and
   bytes of output. That of the listing has room for one line, so that the call stops behind each. */
const FEED = { name: 'fugu_feed', state: 2, kept: 130, out: 192 };
const TELL = { name: 'fugu_tell', state: 19, kept: 130, out: 4480 };
/* The words that say what a portion came to, why the call stopped, how many bytes it wrote and how many it used; and what the end did,
   the first two. */
const PORTION_TOLD = 3;
const END_TOLD = 2;
/* Why it stopped. */
const ALL_USED = 0;
const NO_ROOM = 1;

const REPORT_WORDS = 16;
/* The bytes of a script that are lent at a time. */
const PORTION = 65536;
/* The bytes by which the code's memory grows. */
const GROWS_BY = 65536;
const NEWLINE = 10;

/* The calls of the code. Where there are none, or a call does not answer as promised, an Error says so. */
async function provedCalls(bytes) {
  const { instance } = await WebAssembly.instantiate(bytes);
  const code = instance.exports;
  const size = code.fugu_size();
  return {
    size,
    powerOn: () => poweredOn(code, size),
    test: memory => tested(code, memory),
    reasons: script => reasonsText(code, size, script),
    play: (memory, script, each) => playLines(code, memory, script, each),
  };
}

/* ---- lending ---- */

/* Lends parts of the code's memory, behind all that it has there itself: of each, by its name, the kind of array and the length. They are
   zeros. An array over them knows where it stands and how long it is, which is what a call is told. What was lent before no longer is. */
function lend(code, kinds) {
  const base = code.__heap_base.value;
  let end = base;
  const places = Object.entries(kinds).map(([name, [Kind, length]]) => {
    const from = Math.ceil(end / Kind.BYTES_PER_ELEMENT) * Kind.BYTES_PER_ELEMENT;
    end = from + length * Kind.BYTES_PER_ELEMENT;
    return { name, Kind, from, length };
  });
  const lacking = end - code.memory.buffer.byteLength;
  if (lacking > 0) code.memory.grow(Math.ceil(lacking / GROWS_BY));
  new Uint8Array(code.memory.buffer, base, end - base).fill(0);
  return Object.fromEntries(places.map(({ name, Kind, from, length }) => [name, new Kind(code.memory.buffer, from, length)]));
}

/* What a call answers that is handed these parts. */
function answer(code, name, ...parts) {
  return code[name](...parts.flatMap(part => [part.byteOffset, BigInt(part.length)])) >>> 0;
}

/* A call that answers how many words it wrote, which is known. */
function call(code, name, written, ...parts) {
  const answered = answer(code, name, ...parts);
  if (answered !== written) throw new Error(`${name} answered ${answered}, and not ${written}`);
}

/* ---- calls on a memory ---- */

function poweredOn(code, size) {
  const { memory, report } = lend(code, { memory: [Uint32Array, size], report: [Uint32Array, REPORT_WORDS] });
  call(code, 'fugu_power_on', REPORT_WORDS, memory, report);
  return memory.slice();
}

function tested(code, words) {
  const { memory } = lend(code, { memory: [Uint32Array, words.length] });
  memory.set(words);
  return answer(code, 'fugu_test', memory) === 1;
}

/* ---- calls over portions ---- */

/* Hands a script in portions to a pair of calls, and then its end. Of each call that wrote something it yields the text, the memory, and
   where in the script the last line ends that this tells of. */
function* fed(code, pair, words, script) {
  const { memory, state, part, kept, out, input } = lend(code, {
    memory: [Uint32Array, words.length],
    state: [BigUint64Array, pair.state],
    part: [BigUint64Array, PORTION_TOLD],
    kept: [Uint8Array, pair.kept],
    out: [Uint8Array, pair.out],
    input: [Uint8Array, PORTION],
  });
  const told = end => ({ text: String.fromCharCode(...out.subarray(0, Number(part[1]))), memory, end });
  memory.set(words);
  for (let from = 0; from < script.length; from += PORTION) {
    const portion = script.subarray(from, from + PORTION);
    input.set(portion);
    for (let used = 0; used < portion.length; ) {
      call(code, pair.name, PORTION_TOLD, memory, state, kept, input.subarray(used, portion.length), out, part);
      const [stop, written, more] = Array.from(part, Number);
      used += more;
      const promised = used < portion.length ? NO_ROOM : ALL_USED;
      if (stop !== promised || more === 0) throw new Error(`${pair.name} stopped with ${stop} and used ${more} bytes`);
      /* Behind the line's newline nothing was used, or all, and that is kept. */
      if (written > 0) yield told(from + portion.lastIndexOf(NEWLINE, used - 1));
    }
  }
  call(code, `${pair.name}_end`, END_TOLD, memory, state, kept, out, part);
  if (Number(part[0]) !== ALL_USED) throw new Error(`${pair.name}_end stopped with ${part[0]}`);
  if (part[1] > 0n) yield told(script.length);
}

/* Plays a script on a copy of a memory. Of each line it hands on the bytes, the report as the listing has it behind the line's number, and
   the words that changed as a run has them. */
function playLines(code, words, script, each) {
  const before = words.slice();
  let number = 0;
  let from = 0;
  for (const { text, memory, end } of fed(code, FEED, words, script)) {
    number += 1;
    const [, listed, report] = /^(\d+),([\d,]+)\n$/.exec(text) ?? [];
    if (Number(listed) !== number) throw new Error(`${FEED.name} did not list line ${number}`);
    each(script.subarray(from, end), report, changesText(before, memory));
    before.set(memory);
    from = end + 1;
  }
}

/* Of every message of a script that is played from power-on its reason, as the proved call words it. */
function reasonsText(code, size, script) {
  return Array.from(fed(code, TELL, poweredOn(code, size), script), ({ text }) => text).join('');
}

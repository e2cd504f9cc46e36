/* Where each number of a node stands in its memory: docs/MEMORY.md. Sizes come from the run's header; this is the one place that knows
   addresses. */

/* The words before the hardware queue: the running group, the timer, and how many messages and free frames there are. */
const QUEUE = 4;
/* A queued message: its group, its length, its words. A kept one: its length, its words. */
const QUEUED_WORDS = 2;
const KEPT_WORDS = 1;
/* A group's record: four flags, h, n, how many pages and how many words in the descriptor, these words, the list of pages. */
const DESCRIPTOR = 8;

function mapOf(sizes) {
  const { frames, swap, page, groups, places, message } = sizes;
  const pages = frames + swap;
  const place = QUEUED_WORDS + message;
  const list = DESCRIPTOR + message;
  const record = list + pages;
  const kept = KEPT_WORDS + message;
  const free = QUEUE + places * place;
  const firstGroup = free + frames;
  const firstPage = firstGroup + groups * record;
  const counts = firstPage + pages * page * kept;
  const swapLine = counts + 4;
  const entry = swapLine + swap;
  return {
    ...sizes,
    pages,
    size: entry + frames,
    running: 0,
    timer: 1,
    queueCount: 2,
    freeCount: 3,
    queued: i => QUEUE + i * place,
    free,
    group: g => firstGroup + (g - 1) * record,
    descriptor: DESCRIPTOR,
    list,
    kept: (number, i) => firstPage + (number * page + i) * kept,
    swapCount: counts,
    entryCount: counts + 1,
    sentOut: counts + 2,
    broughtIn: counts + 3,
    swapLine,
    entry,
  };
}

/* The node that stands in a memory. */
function readNode(map, memory) {
  const words = (from, count) => Array.from(memory.subarray(from, from + count));
  const queuedAt = i => {
    const at = map.queued(i);
    return { group: memory[at], words: words(at + QUEUED_WORDS, memory[at + 1]) };
  };
  const node = {
    running: memory[map.running],
    timer: memory[map.timer],
    queue: Array.from({ length: memory[map.queueCount] }, (_, i) => queuedAt(i)),
    free: words(map.free, memory[map.freeCount]),
    entry: words(map.entry, memory[map.entryCount]),
    swapLine: words(map.swapLine, memory[map.swapCount]),
    sentOut: memory[map.sentOut],
    broughtIn: memory[map.broughtIn],
    groups: [null],
  };
  for (let g = 1; g <= map.groups; g++) node.groups.push(readGroup(map, memory, words, g));
  return node;
}

function readGroup(map, memory, words, g) {
  const at = map.group(g);
  const [atomic, pending, force, revoked, used, count, pageCount, length] = words(at, DESCRIPTOR);
  const pages = words(at + map.list, pageCount);
  const keptAt = i => {
    const place = (used + i) % map.page;
    const page = pages[Math.floor((used + i) / map.page)];
    const where = map.kept(page, place);
    return { words: words(where + KEPT_WORDS, memory[where]), page, place };
  };
  return {
    group: g,
    atomic,
    pending,
    force,
    revoked,
    used,
    count,
    pages,
    descriptor: words(at + map.descriptor, length),
    buffer: Array.from({ length: count }, (_, i) => keptAt(i)),
  };
}

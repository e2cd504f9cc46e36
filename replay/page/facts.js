/* What is reckoned from a node: formulas by name, each under its sentence of docs/LISTING.md or docs/MEMORY.md. Nothing else reckons. */

/* "A group's line is its buffer, then its messages in the hardware queue." */
function lineOf(node, g) {
  const inQueue = node.queue.map(({ group, words }, place) => ({ group, words, queue: place }));
  return node.groups[g].buffer.concat(inQueue.filter(message => message.group === g));
}

/* "A group is buffered while its buffer holds a message or the group is revoked, else direct."
   One that is buffered with an empty buffer is called revoked. */
function caseOf(node, g) {
  if (node.groups[g].count > 0) return 'buffered';
  return node.groups[g].revoked === 1 ? 'revoked' : 'direct';
}

/* "k messages in the hardware queue" */
function queued(node, g) {
  return node.queue.filter(message => message.group === g).length;
}

/* "A group's pledge is the number of pages it would need if all its messages now in the hardware queue were buffered:
   (h + n + k) / 8, rounded up." */
function pledge(map, node, g) {
  const { used, count } = node.groups[g];
  return Math.ceil((used + count + queued(node, g)) / map.page);
}

/* "The pledges of all groups never sum to above 96, the frames and swap pages together." */
function sumOfPledges(map, node) {
  return node.groups.slice(1).reduce((sum, { group }) => sum + pledge(map, node, group), 0);
}

/* "A group has mail while its line is not empty, wherever its messages stand." */
function hasMail(node, g) {
  return lineOf(node, g).length > 0;
}

/* "The timer is forced while the running group has force on." */
function isForced(node) {
  return node.running !== 0 && node.groups[node.running].force === 1;
}

/* "The timer runs while the hardware queue holds a message or it is forced." */
function timerCounts(node) {
  return node.queue.length > 0 || isForced(node);
}

/* "The messages of a buffer with h used-up places stand at the places h, h + 1, .. counted through its list of pages."
   Which places of the list's page of this index are filled: those not below from and below to. */
function filledPlaces(map, { used, count }, index) {
  return { from: index === 0 ? used : 0, to: Math.min(map.page, used + count - map.page * index) };
}

/* Of a page that is in a list: whose it is, which of the list's pages, and its filled places. */
function pageOwner(map, node, page) {
  const owner = node.groups.slice(1).find(({ pages }) => pages.includes(page));
  if (owner === undefined) return null;
  const index = owner.pages.indexOf(page);
  return { group: owner.group, index, ...filledPlaces(map, owner, index) };
}

/* "Below 32 it is the frame of that number, from 32 on the swap page of the number less 32." */
function pageName(map, page) {
  return page < map.frames ? `f${page}` : `s${page - map.frames}`;
}

/* "Place p is place p mod 8 of the list's page number p / 8." What waits at each place of a page: words, or null where nothing does. */
function wordsInPage(map, node, page) {
  const owner = pageOwner(map, node, page);
  const wordsAt = place => {
    if (owner === null || place < owner.from || place >= owner.to) return null;
    const { buffer, used } = node.groups[owner.group];
    return buffer[owner.index * map.page + place - used].words;
  };
  return Array.from({ length: map.page }, (_, place) => wordsAt(place));
}

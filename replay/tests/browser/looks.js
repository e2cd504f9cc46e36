/* What is seen of a page, measured: its texts and patterns by their boxes, held against two pictures of the window, one with all texts
   taken off and one with all texts in a colour that nothing else has. Put into a page as looks. */
globalThis.looks = (() => {
  /* The colour of no other thing, and the least contrast of a text. */
  const MARKED = [255, 0, 255];
  const CONTRAST = 4.5;
  /* The share of a pixel from which on it is a text's. */
  const COVERED = 0.3;
  /* The share of a text's pixels that may lie on another ground: where a line that is drawn passes behind it. */
  const CROSSED = 0.12;
  const PATTERNS = { 'p-frame': 'p-hatch', 'p-swap': 'p-dots' };

  const style = document.createElementNS('http://www.w3.org/1999/xhtml', 'style');
  document.documentElement.append(style);

  /* All texts in one colour; without one, as they are. */
  const paint = colour => {
    const all = `*, ::before, ::after, ::placeholder { color: ${colour} !important; } text { fill: ${colour} !important; }`;
    style.textContent = colour ? all : '';
  };

  /* ---- boxes, in pixels of the window ---- */

  const common = (one, other) => ({
    left: Math.max(one.left, other.left),
    top: Math.max(one.top, other.top),
    right: Math.min(one.right, other.right),
    bottom: Math.min(one.bottom, other.bottom),
  });
  const inset = ({ left, top, right, bottom }, by) => ({ left: left + by, top: top + by, right: right - by, bottom: bottom - by });
  const isWide = ({ left, top, right, bottom }, pixels) => right - left >= pixels && bottom - top >= pixels;

  /* Where something in an element can be seen: within all that cuts off what is too large. */
  const clips = new Map();
  const clipOf = element => {
    if (element === null) return { left: 0, top: 0, right: innerWidth, bottom: innerHeight };
    if (!clips.has(element)) {
      const outer = clipOf(element.parentElement);
      clips.set(element, getComputedStyle(element).overflow === 'visible' ? outer : common(outer, element.getBoundingClientRect()));
    }
    return clips.get(element);
  };

  /* ---- texts ---- */

  const nameOf = element => element.closest('[data-at]')?.dataset.at ?? `#${element.closest('[id]')?.id ?? ''}`;
  const told = ({ said, element }) => `"${said.slice(0, 40)}" in ${nameOf(element)}`;
  const numbers = colour => colour.match(/[\d.]+/g).map(Number);
  const colourOf = element => numbers(getComputedStyle(element)[element.ownerSVGElement ? 'fill' : 'color']);

  /* Texts that are not seen, or not by their nodes. */
  const UNSEEN = 'script, style, title, desc, option, textarea';

  /* Each line of each text. */
  const written = function* () {
    const nodes = document.createTreeWalker(document.documentElement, NodeFilter.SHOW_TEXT);
    while (nodes.nextNode()) {
      const { currentNode: node } = nodes;
      const element = node.parentElement;
      if (node.data.trim() === '' || element.matches(UNSEEN) || !element.checkVisibility()) continue;
      const range = document.createRange();
      range.selectNodeContents(node);
      for (const box of range.getClientRects()) yield { element, said: node.data.trim(), box, colour: colourOf(element) };
    }
  };
  /* What is written in boxes to choose and to type in. */
  const typed = function* () {
    for (const element of document.querySelectorAll('select, textarea')) {
      if (!element.checkVisibility()) continue;
      const said = element.value || element.placeholder;
      const colour = numbers(getComputedStyle(element, element.value ? null : '::placeholder').color);
      if (said) yield { element, said, box: element.getBoundingClientRect(), colour };
    }
  };
  /* Below a head that stays where it is. In a picture the columns to click lie over all texts, and none is below a head. */
  const isCovered = ({ element, seen }) => {
    if (element.ownerSVGElement) return false;
    const top = document.elementFromPoint((seen.left + seen.right) / 2, (seen.top + seen.bottom) / 2);
    return top === null || !(top.contains(element) || element.contains(top));
  };
  const isThere = ({ box, seen }) => box.width >= 2 && seen.right - seen.left >= 2 && seen.bottom - seen.top >= 0.7 * box.height;
  const texts = () => {
    const all = [...written(), ...typed()].map(text => ({ ...text, seen: common(text.box, clipOf(text.element)) }));
    return all.filter(text => isThere(text) && !isCovered(text));
  };

  /* ---- pixels ---- */

  const pixelsOf = async base64 => {
    const bytes = Uint8Array.from(atob(base64), sign => sign.charCodeAt(0));
    const bitmap = await createImageBitmap(new Blob([bytes], { type: 'image/png' }));
    const context = new OffscreenCanvas(bitmap.width, bitmap.height).getContext('2d');
    context.drawImage(bitmap, 0, 0);
    return context.getImageData(0, 0, bitmap.width, bitmap.height);
  };
  const pixelsIn = function* ({ left, top, right, bottom }, { width, height }) {
    for (let y = Math.max(0, Math.floor(top)); y < Math.min(height, Math.ceil(bottom)); y++)
      for (let x = Math.max(0, Math.floor(left)); x < Math.min(width, Math.ceil(right)); x++) yield 4 * (y * width + x);
  };
  const at = ({ data }, pixel) => [data[pixel], data[pixel + 1], data[pixel + 2]];
  const away = (one, other) => Math.abs(one[0] - other[0]) + Math.abs(one[1] - other[1]) + Math.abs(one[2] - other[2]);

  const linear = Array.from({ length: 256 }, (_, i) => (i <= 10 ? i / 255 / 12.92 : ((i / 255 + 0.055) / 1.055) ** 2.4));
  const luminance = ([red, green, blue]) => 0.2126 * linear[red] + 0.7152 * linear[green] + 0.0722 * linear[blue];
  const contrast = (one, other) => {
    const [dark, light] = [luminance(one), luminance(other)].sort((a, b) => a - b);
    return (light + 0.05) / (dark + 0.05);
  };

  /* The contrasts of a text with what lies below it, at each of its pixels; none where it can't be seen. */
  const contrasts = ({ seen, colour }, bare, marked) => {
    const found = [];
    for (const pixel of pixelsIn(seen, bare)) {
      const ground = at(bare, pixel);
      if (away(at(marked, pixel), ground) > COVERED * away(MARKED, ground)) found.push(contrast(colour, ground));
    }
    return found.sort((a, b) => a - b);
  };
  const textFault = (text, bare, marked) => {
    const found = contrasts(text, bare, marked);
    const what = told(text);
    if (found.length === 0) return `${what} can't be seen`;
    if (text.colour.length > 3) return `${what} is seen through`;
    const worst = found[Math.floor(found.length * CROSSED)];
    return worst < CONTRAST ? `${what} has ${worst.toFixed(1)} : 1` : '';
  };

  /* ---- texts of pictures: none cut off, none over another ---- */

  const cutFault = text => {
    const { box } = text;
    const picture = text.element.ownerSVGElement?.getBoundingClientRect();
    const isCut = picture && (box.left < picture.left - 1 || box.right > picture.right + 1 || box.bottom > picture.bottom + 3);
    return isCut ? `${told(text)} is cut off` : '';
  };
  /* The letters take the middle of a text's box. */
  const letters = ({ left, right, top, height }) => ({ left, right, top: top + 0.3 * height, bottom: top + 0.7 * height });
  const overFaults = all => {
    const drawn = all.filter(text => text.element.ownerSVGElement).map(text => ({ ...text, letters: letters(text.box) }));
    const isOver = (one, other) => isWide(common(one.letters, other.letters), 1);
    return drawn.flatMap((one, i) => {
      const over = drawn.slice(i + 1).filter(other => isOver(one, other));
      return over.map(other => `${told(one)} and ${told(other)} lie over each other`);
    });
  };

  /* ---- patterns ---- */

  const patterned = () =>
    Object.entries(PATTERNS).flatMap(([look, id]) => {
      const drawn = Array.from(document.querySelectorAll(`.${look}`)).filter(shape => shape.checkVisibility());
      return drawn.map(shape => ({ shape, id, seen: inset(common(shape.getBoundingClientRect(), clipOf(shape)), 1.5) }));
    });
  /* How far a pixel is from the ground to the colour upon it: 0 to 1; NaN where it is of another colour. */
  const between = (pixel, ground, colour) => {
    const way = colour.map((part, i) => part - ground[i]);
    const along = other => way.reduce((sum, part, i) => sum + part * other[i], 0);
    const share = along(pixel.map((part, i) => part - ground[i])) / along(way);
    return away(pixel, ground.map((part, i) => part + share * way[i])) < 40 ? share : NaN;
  };
  const patternFault = ({ shape, id, seen }, bare) => {
    const what = `${shape.getAttribute('class')} in ${nameOf(shape)}`;
    if (getComputedStyle(shape).fill !== `url("#${id}")`) return `${what} has the fill ${getComputedStyle(shape).fill}`;
    const pattern = document.getElementById(id);
    if (pattern === null) return `${what}: there is no ${id}`;
    const [ground, colour] = Array.from(pattern.children, part => numbers(getComputedStyle(part).fill));
    const shares = Array.from(pixelsIn(seen, bare), pixel => between(at(bare, pixel), ground, colour));
    const count = (from, to) => shares.filter(share => share > from && share < to).length;
    const [light, dark] = [count(-0.15, 0.3), count(0.5, 1.15)];
    return light >= 2 && dark >= 2 ? '' : `${what}: ${light} pixels of its ground and ${dark} of its pattern`;
  };

  /* ---- all of it ---- */

  const look = async (bareShot, markedShot) => {
    const [bare, marked] = [await pixelsOf(bareShot), await pixelsOf(markedShot)];
    clips.clear();
    const all = texts();
    const drawn = patterned().filter(({ seen }) => isWide(seen, 4));
    const faults = [
      ...all.map(text => textFault(text, bare, marked)),
      ...all.map(cutFault),
      ...overFaults(all),
      ...drawn.map(one => patternFault(one, bare)),
    ];
    const count = id => drawn.filter(one => one.id === id).length;
    return { texts: all.length, hatched: count('p-hatch'), dotted: count('p-dots'), faults: faults.filter(Boolean) };
  };
  return { bare: () => paint('transparent'), marked: () => paint(`rgb(${MARKED})`), plain: () => paint(''), look };
})();

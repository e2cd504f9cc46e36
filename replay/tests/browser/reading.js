/* Pictures read back: of each thing that is named by data-at what is drawn, and not what its attributes say of it.
   Put into a page as readBack. */
globalThis.readBack = (() => {
  /* Colour and pattern by the name of what they say. */
  const FILLS = {
    'url("#p-hatch")': 'frame',
    'url("#p-dots")': 'swap',
    'rgb(29, 79, 145)': 'queue',
    'rgb(219, 231, 245)': 'waits',
    'rgb(28, 27, 25)': 'ink',
    'rgb(255, 255, 255)': 'paper',
  };
  /* A fill hangs on the classes of an element and of its picture alone. */
  const known = new Map();
  const fillOf = shape => {
    const key = `${shape.ownerSVGElement.getAttribute('class')} ${shape.tagName} ${shape.getAttribute('class')}`;
    if (!known.has(key)) {
      const { fill } = getComputedStyle(shape);
      known.set(key, FILLS[fill] ?? fill);
    }
    return known.get(key);
  };
  const SHAPES = 'rect, circle, path';
  const shapeOf = element => (element.matches(SHAPES) ? element : element.querySelector(SHAPES));
  const textsOf = element => {
    const texts = element.matches('text') ? [element] : Array.from(element.querySelectorAll('text'));
    return texts.map(text => text.textContent).filter(Boolean).join(' ');
  };
  const whole = element => {
    const shape = shapeOf(element);
    return {
      at: element.dataset.at,
      within: element.parentElement.closest('[data-at]')?.dataset.at ?? '',
      text: textsOf(element),
      title: element.querySelector(':scope > title')?.textContent ?? '',
      fill: shape ? fillOf(shape) : '',
      look: shape?.getAttribute('class') ?? '',
    };
  };
  const placed = element => {
    const { x, y, width, height } = element.getBBox();
    return { ...whole(element), counts: element.dataset.counts ?? '', x, y, width, height };
  };
  const named = (selector, read) => Array.from(document.querySelectorAll(`${selector} [data-at]`), read);
  return {
    node: () => named('#node', whole),
    /* The columns by their lines, where each begins and how wide it is, and everything with its box. */
    score: () => ({
      columns: Array.from(document.querySelectorAll('#score .p-hit'), ({ dataset, x, width }) => [
        Number(dataset.line),
        x.baseVal.value,
        width.baseVal.value,
      ]),
      drawn: named('#score', placed),
    }),
  };
})();

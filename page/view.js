// @ts-check
// Small parts of the page.

/**
 * @typedef {Node | string} Part
 * @typedef {string | number | boolean | null | undefined | ((event: any) => void)} Attribute
 * @typedef {object} Lens
 * @property {(wanted: number, x?: number, y?: number) => void} zoom
 * @property {(dx: number, dy: number) => void} move
 * @property {(dx: number, dy: number) => void} shift
 * @property {() => void} all
 */

// This function creates an element with attributes and children; a child may be a text.
/**
 * @template {keyof HTMLElementTagNameMap} Tag
 * @param {Tag} tag
 * @param {Record<string, Attribute>} [attributes]
 * @param {...(Part | Part[])} children
 * @returns {HTMLElementTagNameMap[Tag]}
 */
export function el(tag, attributes = {}, ...children) {
  const it = document.createElement(tag);
  for (const [name, value] of Object.entries(attributes)) {
    if (typeof value === 'function') it.addEventListener(name.slice(2), value);
    else if (value === true) it.setAttribute(name, '');
    else if (value !== false && value !== null && value !== undefined) {
      it.setAttribute(name, String(value));
    }
  }
  it.append(...children.flat());
  return it;
}

// This function writes a number with narrow spaces between thousands, the tables' mark before
// decimals, and its unit, if it has one.
/** @type {(text: string, mark?: string | null, unit?: string) => string} */
export function grouped(text, mark = '.', unit = '') {
  const found = /^(-?)(\d+)(?:\.(\d+))?$/.exec(text);
  if (!found) return text;
  const digits = found[2].length > 4
    ? found[2].replace(/(?<=\d)(?=(?:\d{3})+$)/g, '\u202f')
    : found[2];
  return (found[1] && '\u2212') + digits + (found[3] ? (mark || '.') + found[3] : '')
    + (unit && ` ${unit}`);
}

// This function returns a button that saves a file. The content is created when the user clicks.
/**
 * @param {string} name
 * @param {() => BlobPart} made
 */
export function saver(name, made, type = 'text/plain') {
  return el('button', {
    type: 'button',
    onclick: () => {
      const link = el('a', {
        download: name,
        href: URL.createObjectURL(new Blob([made()], { type })),
      });
      link.click();
      setTimeout(() => URL.revokeObjectURL(link.href), 10000);
    },
  }, name);
}

// This function controls the visible part of a picture: it zooms at a point, moves by parts of the
// view, shifts by distances, or shows all.
/** @type {(svg: SVGSVGElement) => Lens} */
function lensOf(svg) {
  const whole = svg.viewBox.baseVal;
  const home = [whole.x, whole.y, whole.width, whole.height];
  let view = home.slice();
  const show = () => svg.setAttribute('viewBox', view.join(' '));
  return {
    zoom(wanted, x = view[0] + view[2] / 2, y = view[1] + view[3] / 2) {
      const factor = Math.max(home[2] / 60, Math.min(home[2] * 2, view[2] * wanted)) / view[2];
      view = [
        x - (x - view[0]) * factor,
        y - (y - view[1]) * factor,
        view[2] * factor,
        view[3] * factor,
      ];
      show();
    },
    move(dx, dy) { view[0] += dx * view[2]; view[1] += dy * view[3]; show(); },
    shift(dx, dy) { view[0] += dx; view[1] += dy; show(); },
    all() { view = home.slice(); show(); },
  };
}

// The wheel with Ctrl zooms at the pointer, and dragging moves the picture.
/** @type {(svg: SVGSVGElement, lens: Lens) => void} */
function followPointer(svg, lens) {
  /** @type {DOMPoint | null} */
  let from = null;
  const spot = (/** @type {MouseEvent} */ event) =>
    new DOMPoint(event.clientX, event.clientY).matrixTransform(svg.getScreenCTM().inverse());
  svg.addEventListener(
    'wheel',
    (event) => {
      if (!event.ctrlKey && !event.metaKey) return;
      event.preventDefault();
      const { x, y } = spot(event);
      lens.zoom(event.deltaY < 0 ? 0.85 : 1 / 0.85, x, y);
    },
    { passive: false }
  );
  svg.addEventListener('pointerdown', (event) => {
    from = spot(event);
    svg.setPointerCapture(event.pointerId);
  });
  svg.addEventListener('pointermove', (event) => {
    if (!from) return;
    const to = spot(event);
    lens.shift(from.x - to.x, from.y - to.y);
  });
  svg.addEventListener('pointerup', () => { from = null; });
}

// This function shows a picture with its buttons. The wheel with Ctrl zooms at the pointer,
// dragging moves the picture, and buttons and keys do the same.
/** @type {(text: string) => HTMLElement} */
export function pictureOf(text) {
  const drawn = new DOMParser().parseFromString(text, 'image/svg+xml').documentElement;
  const svg = /** @type {SVGSVGElement} */ (
    /** @type {unknown} */ (document.importNode(drawn, true))
  );
  const lens = lensOf(svg);
  followPointer(svg, lens);
  /** @type {Record<string, () => void>} */
  const keys = {
    '+': () => lens.zoom(0.7),
    '-': () => lens.zoom(1.43),
    0: () => lens.all(),
    ArrowLeft: () => lens.move(-0.1, 0),
    ArrowRight: () => lens.move(0.1, 0),
    ArrowUp: () => lens.move(0, -0.1),
    ArrowDown: () => lens.move(0, 0.1),
  };
  /** @type {(sign: string, title: string, act: () => void) => HTMLElement} */
  const button = (sign, title, act) =>
    el('button', { type: 'button', title, 'aria-label': title, onclick: act }, sign);
  return el(
    'div',
    {
      class: 'picture',
      tabindex: 0,
      role: 'group',
      'aria-label': 'Picture: + and - zoom, as the wheel does with Ctrl; arrows move, 0 shows the '
        + 'whole picture',
      onkeydown: (/** @type {KeyboardEvent} */ event) => {
        if (!keys[event.key] || event.ctrlKey || event.metaKey) return;
        event.preventDefault();
        keys[event.key]();
      },
    },
    svg,
    el(
      'div',
      { class: 'zoom' },
      button('+', 'nearer', keys['+']),
      button('−', 'farther', keys['-']),
      button('↺', 'whole picture', keys[0])
    )
  );
}

// Elements are made here, and text gets into the page as text alone: no name, no refusal and no file is ever read as HTML.
import { paths } from './icons.js';

const SVG = 'http://www.w3.org/2000/svg';

// An element with properties, listeners (`on`), fields of data (`data`) and attributes (whatever has a dash, and some others), and what is in it.
// What isn't there, as of a condition, is left out.
export function h(tag, given = {}, ...inside) {
  const element = document.createElement(tag);
  for (const [key, value] of Object.entries(given)) {
    if (value === undefined || value === null) continue;
    if (key === 'on') for (const [event, act] of Object.entries(value)) element.addEventListener(event, act);
    else if (key === 'data') Object.assign(element.dataset, value);
    else if (key === 'class') element.className = value;
    else if (key.includes('-') || ['role', 'for', 'scope', 'list', 'colspan'].includes(key)) {
      if (value !== false) element.setAttribute(key, value);
    }
    else element[key] = value;
  }
  element.append(...inside.flat(2).filter((one) => one !== null && one !== undefined && one !== false));
  return element;
}

const drawings = new Map();

// A drawing beside a text or a label: nothing for who listens. Each is made once, and copied.
export function icon(name) {
  if (!drawings.has(name)) {
    const drawing = document.createElementNS(SVG, 'svg');
    drawing.setAttribute('viewBox', '0 0 24 24');
    drawing.setAttribute('aria-hidden', 'true');
    drawing.classList.add('icon', `icon-${name}`);
    for (const d of paths[name]) {
      const path = document.createElementNS(SVG, 'path');
      path.setAttribute('d', d);
      drawing.append(path);
    }
    drawings.set(name, drawing);
  }
  return drawings.get(name).cloneNode(true);
}

// A name of a file, a user or a group: its direction doesn't reach what stands beside it, and what is cut can be read whole.
export function named(name, given = {}) {
  return h('bdi', { class: 'name', title: visible(name), ...given }, visible(name));
}

// Characters that would break a line or hide in it are shown as signs of their own.
export function visible(name) {
  return name.replace(/[\u0000-\u001f\u007f]/g, (one) => String.fromCharCode(one === '\u007f' ? 0x2421 : 0x2400 + one.charCodeAt(0)))
    .replace(/[\u202a-\u202e\u2066-\u2069\u200e\u200f\u061c\u2028\u2029\u0085]/g, '\ufffd');
}

export function button(text, act, given = {}) {
  const { drawn, only, ...rest } = given;
  const shown = only ? [icon(drawn)] : [drawn && icon(drawn), h('span', {}, text)];
  return h('button', { type: 'button', on: { click: act }, 'aria-label': only ? text : undefined, title: only ? text : undefined, ...rest }, ...shown);
}

let silence;
let coming;

// Says what has come of an act, to who reads and to who listens. A refusal stays until the next word.
export function say(text, bad = false) {
  const line = document.getElementById('said');
  clearTimeout(silence);
  cancelAnimationFrame(coming);
  line.classList.toggle('bad', bad);
  // A text that is said twice is read out twice only if it was away meanwhile.
  put(line);
  if (!text) return;
  coming = requestAnimationFrame(() => {
    put(line, h('span', {}, text), button('Close this message', () => say(''), { drawn: 'close', only: true, class: 'plain' }));
  });
  if (!bad) silence = setTimeout(() => say(''), 6000);
}

export function put(parent, ...inside) {
  parent.replaceChildren(...inside.flat(2).filter((one) => one !== null && one !== undefined && one !== false));
}

let numbers = 0;

// A field with its label above it, and a hint below it that a screen reader reads with it.
export function field(label, input, hint) {
  input.id ||= `f${++numbers}`;
  const below = hint && h('p', { class: 'hint', id: `${input.id}-hint` }, hint);
  if (below) input.setAttribute('aria-describedby', below.id);
  return h('div', { class: 'field' }, h('label', { for: input.id }, label), input, below);
}

export function check(label, given = {}) {
  const box = h('input', { type: 'checkbox', ...given });
  return { box, line: h('label', { class: 'check' }, box, h('span', {}, label)) };
}

export async function copyText(text) {
  try {
    await navigator.clipboard.writeText(text);
    return true;
  } catch {
    // Without TLS there is no clipboard: the text stands there marked, and the keys of the system copy it.
    return false;
  }
}

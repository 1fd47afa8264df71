// The panel of uploads: those that are under way and those that failed. What is done is counted, and of what waits the next ones are shown.
import { h, named, visible, button, put } from './dom.js';
import { size, counted } from './format.js';

const NEXT = 3;
const MOST = 50;

let panel = null;
let heading = null;
let whole = null;
let list = null;
let controls = null;
let lines = new Map();

function build() {
  heading = h('h2', { tabIndex: -1 });
  whole = h('progress', { max: 1, 'aria-label': 'All uploads' });
  list = h('ul');
  controls = h('div', { class: 'panel-acts' });
  panel = h('section', { class: 'uploads card', 'aria-label': 'Uploads' }, h('div', { class: 'panel-head' }, heading, controls), whole, list);
  document.body.append(panel);
  document.body.dataset.uploads = '';
}

export function drawPanel(items, acts) {
  if (!items.length) {
    panel?.remove();
    delete document.body.dataset.uploads;
    panel = null;
    lines = new Map();
    return;
  }
  if (!panel) build();
  const of = (state) => items.filter((item) => item.state === state);
  const running = of('running');
  const waiting = of('waiting');
  const failed = of('failed');
  const done = of('done').length;
  const busy = running.length + waiting.length > 0;
  const total = items.length - of('cancelled').length;
  const words = busy ? `${done} of ${total} uploaded` : `${counted(done, 'file')} uploaded${failed.length ? `, ${failed.length} failed` : ''}`;
  if (heading.textContent !== words) heading.textContent = words;
  whole.hidden = !busy;
  const bytes = items.filter((item) => item.file && !item.final && item.state !== 'cancelled');
  whole.max = Math.max(1, bytes.reduce((sum, item) => sum + item.file.size, 0));
  whole.value = bytes.reduce((sum, item) => sum + (item.state === 'done' ? item.file.size : Math.min(item.sent, item.file.size)), 0);
  if (controls.dataset.busy !== String(busy)) {
    controls.dataset.busy = busy;
    put(controls, busy ? button('Cancel all', acts.cancelAll, { class: 'plain' }) : button('Close', acts.clear, { class: 'plain' }));
  }

  const shown = [...running, ...failed.slice(0, MOST), ...waiting.slice(0, NEXT)];
  for (const [item, line] of lines) {
    if (shown.includes(item)) continue;
    if (line.element.contains(document.activeElement)) heading.focus();
    line.element.remove();
    lines.delete(item);
  }
  shown.forEach((item, index) => {
    if (!lines.has(item)) lines.set(item, lineOf(item, acts));
    const { element, update } = lines.get(item);
    if (list.children[index] !== element) list.insertBefore(element, list.children[index] ?? null);
    update();
  });
}

function lineOf(item, acts) {
  const name = item.path.at(-1);
  const bar = h('progress', { max: 1, 'aria-label': visible(name) });
  const words = h('span', { class: 'state' });
  const act = h('span', { class: 'act' });
  const element = h('li', { data: { upload: name } }, h('div', { class: 'line' }, named(name), act), bar, words);
  let state = null;
  return {
    element,
    update() {
      const size_ = item.file?.size ?? 0;
      bar.hidden = item.state === 'failed';
      bar.value = item.state === 'waiting' ? 0 : size_ ? Math.min(1, item.sent / size_) : 1;
      const said = item.state === 'failed' ? item.fault : item.broken ? 'The connection broke off. It goes on by itself …'
        : item.state === 'waiting' ? `Waits. ${size(size_)}` : `${size(Math.min(item.sent, size_))} of ${size(size_)}`;
      if (words.textContent !== said) words.textContent = said;
      if (state === item.state) return;
      state = item.state;
      element.classList.toggle('failed', state === 'failed');
      if (state === 'failed') words.setAttribute('role', 'alert');
      else words.removeAttribute('role');
      put(act, state !== 'failed' ? button('Cancel', () => acts.cancel(item), { class: 'plain', 'aria-label': `Cancel ${visible(name)}` })
        : !item.final && button('Try again', () => acts.tryAgain(item), { class: 'plain', 'aria-label': `Try again ${visible(name)}` }));
    },
  };
}

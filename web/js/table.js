// The table of what is in a folder. Of ten thousand rows those are in the page that can be seen, and the one that has the focus.
import { h, icon, named, visible, button, put } from './dom.js';
import { size, exactly, date, day } from './format.js';
import { kindOf } from './kinds.js';

const COLUMNS = [['name', 'Name'], ['size', 'Size'], ['changed', 'Changed'], ['owner', 'Owner']];
const BEYOND = 6;

// Where there is room for one column alone, one choice takes the place of the others' heads.
const ORDERS = [
  ['name', 'Name, A to Z'], ['-name', 'Name, Z to A'], ['-changed', 'Newest first'], ['changed', 'Oldest first'], ['-size', 'Largest first'], ['size', 'Smallest first'],
  ['owner', 'Owner, A to Z'], ['-owner', 'Owner, Z to A'],
];

const collator = new Intl.Collator(undefined, { numeric: true });
// How the list is sorted stays while one goes from folder to folder.
const order = { by: 'name', down: false };

const compare = {
  name: (a, b) => collator.compare(a.name, b.name),
  size: (a, b) => a.size - b.size,
  changed: (a, b) => a.changed - b.changed,
  owner: (a, b) => collator.compare(a.owner, b.owner),
};

function sorted(entries) {
  const by = compare[order.by];
  const sign = order.down ? -1 : 1;
  return [...entries].sort((a, b) => (a.kind !== b.kind ? (a.kind === 'folder' ? -1 : 1) : sign * by(a, b) || compare.name(a, b)));
}

const alike = (a, b) => ['id', 'kind', 'size', 'changed', 'owner', 'permissions'].every((key) => a[key] === b[key]);

// A row that says nothing yet. Copies of it are made much faster than rows piece by piece, and many come while one scrolls.
const template = h('tr', {},
  h('td', { class: 'pick' }, h('input', { type: 'checkbox' })),
  h('td', { class: 'name' }, h('div', { class: 'what' }, h('div', { class: 'both' }, h('a', {}, h('bdi', { class: 'name' })), h('span', { class: 'under' })))),
  h('td', { class: 'size' }), h('td', { class: 'changed' }), h('td', { class: 'owner' }, h('bdi', { class: 'name' })),
  h('td', { class: 'acts' }, h('button', { type: 'button', class: 'plain only', 'aria-haspopup': 'menu', 'aria-expanded': 'false' }, h('span', { class: 'dots', 'aria-hidden': 'true' }, '⋮'))));

function write(element, name) {
  element.textContent = element.title = name;
}

// `addressOf(entry)` is where its name leads, `menuOf(entry, button, point)` opens its acts, `selected(entries)` is told of what is marked, and
// `press(key, entry)` of the keys F2 and Delete. `isShared(entry)` draws it so, and
// `user` is whose files go without their owner's name where there is little room.
export function fileTable({ addressOf, menuOf, selected, press, isShared, user }) {
  const all = h('input', { type: 'checkbox', 'aria-label': 'Select all', on: { change: () => selectAll(all.checked) } });
  const heads = COLUMNS.map(([by, text]) => h('th', { scope: 'col', class: by }, button(text, () => sortBy(by), { class: 'plain sort' })));
  const choice = h('select', { class: 'sort-by', 'aria-label': 'Sort by', on: { change: () => sortBy(choice.value.replace('-', ''), choice.value.startsWith('-')) } },
    ...ORDERS.map(([value, text]) => h('option', { value }, text)));
  heads[0].append(choice);
  const body = h('tbody', { on: { click: clicked, change: changed, keydown: key, contextmenu: context, focusin: () => draw() } });
  const table = h('table', { id: 'files', 'aria-label': 'Files and folders' },
    h('thead', {}, h('tr', { 'aria-rowindex': '1' }, h('th', { scope: 'col', class: 'pick' }, all), ...heads,
      h('th', { scope: 'col', class: 'acts' }, h('span', { class: 'unseen' }, 'Actions')))),
    body);

  let entries = [];
  let shown = [];
  let rows = new Map();
  let height = 0;
  let wanted = '';
  let last = null;
  let waiting = false;
  const marked = new Set();

  const soon = () => {
    if (waiting) return;
    waiting = true;
    requestAnimationFrame(() => {
      waiting = false;
      draw();
    });
  };
  const resized = () => {
    height = 0;
    soon();
  };
  addEventListener('scroll', soon, { passive: true });
  addEventListener('resize', resized);

  function row(index) {
    const entry = shown[index];
    const name = visible(entry.name);
    const element = template.cloneNode(true);
    const [pick, what, bytes, changed_, owner, acts] = element.cells;
    const link = what.querySelector('a');
    element.setAttribute('aria-rowindex', String(index + 2));
    Object.assign(element.dataset, { name: entry.name, kind: entry.kind });
    pick.firstChild.setAttribute('aria-label', `Select ${name}`);
    what.firstChild.prepend(icon(entry.kind === 'folder' ? (isShared(entry) ? 'folder-shared' : 'folder') : kindOf(entry.name).drawn));
    link.href = addressOf(entry);
    write(link.firstChild, name);
    put(link.nextSibling, entry.owner !== user && [named(entry.owner), ' · '], `${size(entry.size)} · ${day(entry.changed)}`);
    bytes.textContent = size(entry.size);
    bytes.title = exactly(entry.size);
    changed_.textContent = date(entry.changed);
    if (isShared(entry)) owner.prepend(icon('people'));
    write(owner.lastChild, visible(entry.owner));
    acts.firstChild.setAttribute('aria-label', `Actions for ${name}`);
    mark(element, entry.name);
    return element;
  }

  function mark(element, name) {
    const on = marked.has(name);
    element.classList.toggle('marked', on);
    element.querySelector('input').checked = on;
  }

  const indexOf = (element) => {
    const found = element?.closest?.('tr[data-name]');
    return found && body.contains(found) ? Number(found.getAttribute('aria-rowindex')) - 2 : -1;
  };

  // Puts those rows into the page that are in sight, and the one that has or is to get the focus. What stands already stays as it is.
  function draw(pinned = indexOf(document.activeElement)) {
    if (!body.isConnected) return;
    if (!shown.length) return body.replaceChildren();
    if (!height) {
      if (!rows.has(0)) rows.set(0, row(0));
      if (!rows.get(0).isConnected) body.prepend(rows.get(0));
      height = rows.get(0).getBoundingClientRect().height || 48;
    }
    const top = body.getBoundingClientRect().top;
    const from = Math.max(0, Math.min(shown.length - 1, Math.floor(-top / height) - BEYOND));
    const to = Math.min(shown.length - 1, Math.max(0, Math.ceil((innerHeight - top) / height) + BEYOND));
    const indexes = [];
    if (pinned >= 0 && pinned < from) indexes.push(pinned);
    for (let index = from; index <= to; index++) indexes.push(index);
    if (pinned > to) indexes.push(pinned);

    const keep = new Set(indexes);
    for (const [index, element] of rows) {
      if (keep.has(index)) continue;
      element.remove();
      rows.delete(index);
    }
    body.querySelectorAll('.gap').forEach((one) => one.remove());
    let at = body.firstChild;
    let next = 0;
    const gap = (count) => {
      if (!count) return;
      const space = h('tr', { class: 'gap', 'aria-hidden': true }, h('td', { colspan: '6' }));
      space.firstChild.style.height = `${count * height}px`;
      body.insertBefore(space, at);
    };
    for (const index of indexes) {
      gap(index - next);
      if (!rows.has(index)) rows.set(index, row(index));
      const element = rows.get(index);
      if (element === at) at = at.nextSibling;
      else body.insertBefore(element, at);
      next = index + 1;
    }
    gap(shown.length - next);
  }

  // What is shown anew keeps the rows that say the same, and the focus where it was, by name, or at the row that took its place.
  function refresh() {
    const active = document.activeElement;
    const before = indexOf(active);
    const name = before >= 0 ? active.closest('tr').dataset.name : null;
    const fold = (text) => text.normalize('NFC').toLowerCase();
    const found = wanted ? entries.filter((entry) => fold(entry.name).includes(fold(wanted))) : entries;
    const old = [...rows].map(([index, element]) => [shown[index], element]);
    shown = sorted(found);
    const places = new Map(shown.map((entry, index) => [entry.name, index]));
    rows = new Map();
    for (const [entry, element] of old) {
      const index = places.get(entry.name);
      if (index === undefined || !alike(entry, shown[index])) {
        element.remove();
        continue;
      }
      element.setAttribute('aria-rowindex', String(index + 2));
      rows.set(index, element);
    }
    table.setAttribute('aria-rowcount', String(shown.length + 1));
    choice.value = `${order.down ? '-' : ''}${order.by}`;
    COLUMNS.forEach(([by], index) => {
      if (by === order.by) heads[index].setAttribute('aria-sort', order.down ? 'descending' : 'ascending');
      else heads[index].removeAttribute('aria-sort');
    });
    table.hidden = !shown.length;
    draw();
    if (name !== null && shown.length && document.activeElement !== active) {
      const index = places.get(name);
      focusRow(index ?? Math.min(before, shown.length - 1), partOf(active), index !== undefined);
    }
    told();
  }

  const partOf = (element) => (element.matches('input') ? 'input' : element.matches('td button') ? 'td button' : 'a');

  function told() {
    const names = new Set(entries.map((entry) => entry.name));
    for (const name of marked) if (!names.has(name)) marked.delete(name);
    const count = shown.filter((entry) => marked.has(entry.name)).length;
    all.checked = count > 0 && count === shown.length;
    all.indeterminate = count > 0 && count < shown.length;
    selected(entries.filter((entry) => marked.has(entry.name)));
  }

  function focusRow(index, part = 'a', still = false) {
    if (!still) see(index);
    draw(index);
    rows.get(index).querySelector(part)?.focus({ preventScroll: true });
  }

  // Scrolls so far that the row can be seen, below what stands fixed at the top.
  function see(index) {
    const top = body.getBoundingClientRect().top + index * height;
    const head = table.tHead.getBoundingClientRect().bottom;
    if (top < head) scrollBy(0, top - head - 4);
    else if (top + height > innerHeight - 8) scrollBy(0, top + height - innerHeight + 8);
    draw();
  }

  function sortBy(by, down) {
    order.down = down ?? (order.by === by ? !order.down : by === 'size' || by === 'changed');
    order.by = by;
    refresh();
  }

  function selectAll(on) {
    for (const entry of shown) on ? marked.add(entry.name) : marked.delete(entry.name);
    for (const element of rows.values()) mark(element, element.dataset.name);
    told();
  }

  let range = false;
  function clicked(event) {
    range = event.shiftKey;
    const index = indexOf(event.target);
    const opener = event.target.closest('td.acts button');
    if (opener) menuOf(shown[index], opener);
    // A row can be marked by a press beside its name, where there is room for a finger.
    else if (index >= 0 && event.target.closest('td.pick') && !event.target.matches('input')) event.target.querySelector('input').click();
  }

  function changed(event) {
    const index = indexOf(event.target);
    const on = event.target.checked;
    const [from, to] = range && last !== null && last < shown.length ? [Math.min(last, index), Math.max(last, index)] : [index, index];
    for (let one = from; one <= to; one++) on ? marked.add(shown[one].name) : marked.delete(shown[one].name);
    last = index;
    for (const element of rows.values()) mark(element, element.dataset.name);
    told();
  }

  function key(event) {
    const index = indexOf(event.target);
    if (index < 0 || event.altKey || event.ctrlKey || event.metaKey) return;
    const page = Math.max(1, Math.floor(innerHeight / height) - 3);
    const next = { ArrowDown: index + 1, ArrowUp: index - 1, Home: 0, End: shown.length - 1, PageDown: index + page, PageUp: index - page }[event.key];
    if (next !== undefined) {
      focusRow(Math.max(0, Math.min(shown.length - 1, next)), partOf(event.target));
    } else if (event.key === 'F2' || event.key === 'Delete') press(event.key, shown[index]);
    else return;
    event.preventDefault();
  }

  function context(event) {
    const index = indexOf(event.target);
    if (index < 0 || event.shiftKey) return;
    event.preventDefault();
    menuOf(shown[index], rows.get(index).querySelector('td.acts button'), event.clientX || event.clientY ? { x: event.clientX, y: event.clientY } : undefined);
  }

  return {
    element: table,
    show: (given) => {
      entries = given;
      refresh();
    },
    find: (text) => {
      wanted = text;
      refresh();
      return shown.length;
    },
    clear: () => selectAll(false),
    focus: (name) => {
      const index = shown.findIndex((entry) => entry.name === name);
      if (index >= 0) focusRow(index);
    },
    draw: () => draw(),
    close: () => {
      removeEventListener('scroll', soon);
      removeEventListener('resize', resized);
    },
  };
}

// The view of a folder: a member's own, or one that a link shares.
import { h, icon, named, visible, button, put, say } from './dom.js';
import { counted, size } from './format.js';
import { told } from './refusals.js';
import { fileTable } from './table.js';
import { openMenu } from './menu.js';
import { actsOf, mayOf, makeFolder, removeAll, transferAll, downloadAll, rename } from './acts.js';
import { MAY } from './places.js';
import { go } from './router.js';
import { openViewer } from './viewer.js';
import { upload, onStored } from './uploads.js';
import { dropped, picked } from './drop.js';
import { learnGivers } from './shares.js';

const same = (a, b) => a.length === b.length && a.every((one, index) => one === b[index]);

export function openFiles(main, place, firstPath, asked, arrival) {
  let path = firstPath;
  let entries = null;
  let permissions = 0;
  let owner = null;
  let loading = null;
  let viewer = null;
  let selection = [];

  const heading = h('h1', { tabIndex: -1 });
  const crumbs = h('nav', { 'aria-label': 'Path', class: 'crumbs' });
  const acts = h('div', { class: 'acts-bar' });
  const marked = h('div', { class: 'selection', role: 'toolbar', 'aria-label': 'Selected', hidden: true });
  const find = h('input', { type: 'search', 'aria-label': 'Find in this folder', placeholder: 'Find in this folder', on: { input: () => look() } });
  const bar = h('div', { class: 'bar' }, acts, marked, h('label', { class: 'find' }, icon('find'), find));
  const found = h('p', { role: 'status', class: 'unseen' });
  const empty = h('div', { class: 'empty', hidden: true });
  const foot = h('p', { class: 'foot quiet' });
  const files = h('input', { type: 'file', multiple: true, id: 'pick-files', class: 'unseen', tabIndex: -1, 'aria-hidden': true, on: { change: () => chosen(files) } });
  const folder = h('input', { type: 'file', id: 'pick-folder', class: 'unseen', tabIndex: -1, 'aria-hidden': true, on: { change: () => chosen(folder) } });
  folder.webkitdirectory = true;
  const veil = h('div', { class: 'veil', hidden: true }, h('p', {}, icon('upload'), 'Drop files and folders here'));

  const table = fileTable({
    addressOf: (entry) => (entry.kind === 'folder' ? place.addressOf([...path, entry.name]) : place.addressOf(path, entry.name)),
    isShared: (entry) => place.isMount([...path, entry.name], entry),
    user: place.user,
    menuOf: (entry, anchor, point) => openMenu(anchor, actsOf(context(), entry), point),
    selected: (entries_) => {
      selection = entries_;
      toolbar();
    },
    press: (key, entry) => {
      const those = key === 'Delete' && selection.length ? selection : [entry];
      const what = key === 'Delete' ? 'remove' : 'rename';
      if (!those.every((one) => mayOf(context(), one)[what])) say(`You may not ${what} ${those.length === 1 ? 'this' : 'all of these'}.`, true);
      else if (key === 'Delete') removeAll(context(), those);
      else rename(context(), entry);
    },
  });
  const by = place.kind === 'link' && h('p', { class: 'quiet' }, 'Shared with you by a link.');
  put(main, crumbs, heading, by, bar, found, table.element, empty, foot, files, folder, veil);

  const context = () => ({ place, path, entries, permissions, owner, reload, focus: table.focus });
  const may = (what) => (permissions & what) !== 0;

  function head() {
    const title = path.at(-1) ?? (place.kind === 'own' ? 'Files' : place.title || 'Shared folder');
    put(heading, named(title));
    document.title = `${visible(title)} – Files`;
    const steps = path.map((name, index) => [name, path.slice(0, index + 1)]);
    const top = place.kind === 'own' ? 'Files' : place.title || 'Shared folder';
    crumbs.hidden = !path.length;
    put(crumbs, h('ol', {}, ...[[top, []], ...steps].map(([name, to], index) => h('li', {},
      index < steps.length ? h('a', { href: place.addressOf(to) }, named(name)) : h('span', { 'aria-current': 'page' }, named(name))))));
  }

  function toolbar() {
    const canAdd = may(MAY.create) && entries !== null;
    // The buttons stay while the list is read anew, and with them the focus.
    if (acts.childElementCount === 0 || !canAdd) {
      put(acts, canAdd && [
        button('Upload files', () => files.click(), { drawn: 'upload', class: 'main' }),
        button('Upload a folder', () => folder.click(), { drawn: 'folder', 'aria-label': 'Upload a folder', title: 'Upload a folder' }),
        button('New folder', () => makeFolder(context()), { drawn: 'new-folder', 'aria-label': 'New folder', title: 'New folder' }),
      ]);
    }
    const some = selection.length > 0;
    const had = marked.contains(document.activeElement);
    acts.hidden = some;
    marked.hidden = !some;
    if (!some) {
      if (had) heading.focus({ preventScroll: true });
      return;
    }
    const onlyFiles = selection.every((entry) => entry.kind === 'file');
    const allow = (what) => selection.every((entry) => mayOf(context(), entry)[what]);
    const focused = had && document.activeElement.textContent;
    put(marked,
      h('span', { class: 'count', role: 'status' }, `${selection.length} selected`),
      allow('move') && button('Move', () => transferAll(context(), selection, 'move'), { drawn: 'move', title: 'Move' }),
      allow('copy') && button('Copy', () => transferAll(context(), selection, 'copy'), { drawn: 'copy', title: 'Copy' }),
      onlyFiles && button('Download', () => downloadAll(context(), selection), { drawn: 'download', title: 'Download' }),
      allow('remove') && button('Remove', () => removeAll(context(), selection), { drawn: 'remove', title: 'Remove' }),
      button('Clear', () => table.clear(), { drawn: 'close', title: 'Clear the selection' }));
    if (focused) [...marked.querySelectorAll('button')].find((one) => one.textContent === focused)?.focus();
  }

  function look() {
    const count = table.find(find.value.trim());
    rest(count);
    put(found, find.value.trim() && entries?.length ? `${counted(count, 'name')} found.` : '');
  }

  // What stands below the table, or in its place.
  function rest(count) {
    const none = entries && !entries.length;
    const lost = entries?.length && !count;
    empty.hidden = !none && !lost;
    empty.classList.remove('refused');
    find.closest('label').hidden = !entries?.length;
    if (lost) put(empty, h('p', {}, 'No name in this folder has that in it.'));
    else if (none) {
      put(empty, icon('folder'), h('p', { class: 'large' }, 'Nothing is here yet.'),
        may(MAY.create) && h('p', { class: 'quiet' }, 'Drop files and folders here, or upload them by the button above.'));
    }
    if (!entries) return put(foot);
    const folders = entries.filter((entry) => entry.kind === 'folder').length;
    const mine = path.length || place.kind !== 'own' ? entries : entries.filter((entry) => entry.owner === place.user);
    const bytes = mine.reduce((sum, entry) => sum + entry.size, 0);
    const what = [folders && counted(folders, 'folder'), entries.length - folders && counted(entries.length - folders, 'file')].filter(Boolean).join(', ');
    put(foot, what && `${what}. `, what && (path.length || place.kind !== 'own' ? `${size(bytes)} in all. ` : `Your files take up ${size(bytes)}. `),
      may(MAY.create) && 'A file that is sent from here may have 16 MiB.');
  }

  async function load(fresh) {
    loading?.abort();
    const mine = loading = new AbortController();
    main.setAttribute('aria-busy', 'true');
    // What was seen here before is there at once, and what has changed meanwhile follows.
    const before = fresh && place.seenAt(path);
    if (before) {
      ({ permissions, owner } = before);
      show(before.entries);
      arrive(fresh);
    }
    const [answer, about] = await Promise.all([place.list(path, mine.signal), place.about(path)]);
    if (mine.signal.aborted) return;
    main.setAttribute('aria-busy', 'false');
    if (answer.file) return go(place.addressOf(path.slice(0, -1), path.at(-1)), true);
    if (!answer.ok) return refused(answer.refusal);
    ({ permissions, owner } = about);
    show(answer.entries);
    if (fresh && !before) arrive(fresh);
    if (place.kind === 'own' && !path.length) learnGivers(answer.entries.filter((entry) => entry.owner !== place.user));
  }

  function arrive({ height }) {
    if (!height) return;
    scrollTo(0, height);
    table.draw();
  }

  function show(given) {
    entries = given;
    head();
    table.show(entries);
    rest(find.value.trim() ? table.find(find.value.trim()) : entries.length);
    toolbar();
  }

  function refused(refusal) {
    entries = null;
    permissions = 0;
    head();
    table.show([]);
    toolbar();
    rest(0);
    empty.hidden = false;
    empty.classList.add('refused');
    const missing = place.kind === 'link' && !path.length ? 'There is no such link. Look whether the whole address was copied.' : 'This folder isn’t there. Perhaps somebody moved or removed it.';
    put(empty, h('p', { class: 'large', role: 'alert' }, told(refusal, { missing })),
      h('p', {}, button('Try again', () => load(null)), path.length > 0 && h('a', { href: place.addressOf([]) }, place.kind === 'own' ? 'Go to your files' : 'Go to what is shared')));
  }

  async function reload() {
    await load(null);
  }

  function chosen(input) {
    const some = picked(input.files);
    input.value = '';
    send(some);
  }

  function send(some) {
    if (some.length) upload({ place, path, owner: owner === place.user ? null : owner }, some);
  }

  // Something is dragged over the page: files may be let go anywhere on it.
  let depth = 0;
  const hasFiles = (event) => event.dataTransfer?.types.includes('Files');
  const drag = {
    dragenter: (event) => {
      if (!hasFiles(event)) return;
      event.preventDefault();
      depth++;
      veil.hidden = !may(MAY.create);
    },
    dragover: (event) => {
      if (!hasFiles(event)) return;
      event.preventDefault();
      event.dataTransfer.dropEffect = may(MAY.create) ? 'copy' : 'none';
    },
    dragleave: () => {
      depth = Math.max(0, depth - 1);
      if (!depth) veil.hidden = true;
    },
    drop: async (event) => {
      if (!hasFiles(event)) return;
      event.preventDefault();
      depth = 0;
      veil.hidden = true;
      if (may(MAY.create)) send(await dropped(event.dataTransfer));
    },
  };
  for (const [event, act] of Object.entries(drag)) document.addEventListener(event, act);
  const stopListening = onStored((where, there) => {
    if (where === place && same(there, path)) reload();
  });

  // The file that the address names is looked at. `here`: one came to it from this folder, so what closes it is the way back.
  function view(name, here) {
    if (!name || viewer?.name === name) return name ? null : viewer?.close();
    viewer?.close();
    const at = path;
    const entry = entries?.find((one) => one.name === name) ?? { name, kind: 'file', permissions: 0 };
    viewer = openViewer(place, at, entry, () => {
      if (viewer?.name === name) viewer = null;
      if (location.hash === place.addressOf(at, name)) here ? history.back() : go(place.addressOf(at), true);
      if (same(at, path)) table.focus(name);
    });
  }

  head();
  toolbar();
  load({ height: arrival?.height ?? 0 }).then(() => view(asked.view));

  return {
    update(next, nextAsked, nextArrival) {
      const at = place.kind === 'link' ? next.slice(1) : next;
      if (place.kind === 'link' && next[0] !== place.link) return false;
      asked = nextAsked;
      if (same(at, path)) {
        view(asked.view, true);
        return true;
      }
      viewer?.close();
      path = at;
      find.value = '';
      table.find('');
      entries = null;
      permissions = 0;
      table.show([]);
      table.clear();
      empty.hidden = true;
      put(foot);
      head();
      toolbar();
      scrollTo(0, 0);
      load({ height: nextArrival?.height ?? 0 }).then(() => view(asked.view));
      heading.focus({ preventScroll: true });
      return true;
    },
    close() {
      loading?.abort();
      table.close();
      stopListening();
      for (const [event, act] of Object.entries(drag)) document.removeEventListener(event, act);
      viewer?.close();
    },
  };
}

// A dialog in which one goes through folders and chooses one.
import { h, icon, named, button, put } from './dom.js';
import { openDialog } from './dialogs.js';
import { told } from './refusals.js';
import { MAY } from './places.js';

const collator = new Intl.Collator(undefined, { numeric: true });

// The path of the folder that was chosen, or null. `entries` of `from` are what is on its way: no folder goes into itself. `same` says whether
// it may go where it is, as a copy may.
export function pickFolder(place, from, entries, title, word, same) {
  return new Promise((done) => {
    const self = openDialog(title, { kind: 'picker', closed: done });
    const where = h('p', { class: 'where', 'aria-live': 'polite' });
    const list = h('ul', { class: 'folders' });
    const choose = button(word, () => self.close(path), { class: 'main' });
    self.content.append(where, list);
    self.actions.append(button('Cancel', () => self.close()), choose);
    const top = place.kind === 'own' ? 'Files' : place.title || 'Shared folder';
    const own = new Set(entries.filter((entry) => entry.kind === 'folder').map((entry) => entry.name));
    const isFrom = (at) => at.length === from.length && at.every((name, index) => name === from[index]);
    let path = null;

    async function show(at) {
      self.refuse('');
      list.setAttribute('aria-busy', 'true');
      const [answer, about] = await Promise.all([place.list(at), place.about(at)]);
      list.setAttribute('aria-busy', 'false');
      if (!answer.ok || answer.file) {
        self.refuse(answer.ok ? 'That is a file.' : told(answer.refusal));
        if (!path && at.length) show([]);
        return;
      }
      path = at;
      put(where, 'In ', h('strong', {}, named(at.at(-1) ?? top)));
      const folders = answer.entries.filter((entry) => entry.kind === 'folder' && !(isFrom(at) && own.has(entry.name))).sort((a, b) => collator.compare(a.name, b.name));
      const line = (drawn, content, to, label) => h('li', {}, h('button', { type: 'button', 'aria-label': label, on: { click: () => show(to) } }, icon(drawn), content));
      put(list,
        at.length > 0 && line('up', h('span', {}, 'One up'), at.slice(0, -1)),
        ...folders.map((entry) => line('folder', named(entry.name), [...at, entry.name])),
        !folders.length && h('li', { class: 'quiet none' }, 'There is no folder in it.'));
      choose.disabled = (isFrom(at) && !same) || !(about.permissions & MAY.create);
      if (!(about.permissions & MAY.create)) self.refuse('You may not put anything in here.');
      (list.querySelector('button') ?? choose).focus();
    }
    show(from);
  });
}

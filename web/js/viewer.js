// Looks at a file: pictures, text and PDF. What it is goes by its name, and what it is shown as is never a type that runs anything.
import { h, visible, named, button, put } from './dom.js';
import { openDialog } from './dialogs.js';
import { told } from './refusals.js';
import { size } from './format.js';
import { kindOf, textOf } from './kinds.js';
import { save } from './acts.js';

const LONGEST = 1_000_000;

export function openViewer(place, path, entry, closed) {
  const { name } = entry;
  const loading = new AbortController();
  let bytes = null;
  let address = null;
  const self = openDialog(visible(name), {
    kind: 'viewer',
    closed: () => {
      loading.abort();
      if (address) URL.revokeObjectURL(address);
      closed();
    },
  });
  put(self.heading, named(name));
  const download = button('Download', () => save(bytes, name), { drawn: 'download', disabled: true });
  const close = button('Close', () => self.close(), { class: 'main' });
  self.actions.append(download, close);
  self.content.classList.add('look');
  self.content.setAttribute('aria-busy', 'true');
  close.focus();
  load();

  async function load() {
    const answer = await place.read([...path, name], loading.signal);
    if (loading.signal.aborted) return;
    self.content.setAttribute('aria-busy', 'false');
    if (!answer.ok) return self.refuse(told(answer.refusal));
    if (answer.isJson) return self.refuse('That is a folder.');
    bytes = answer.bytes;
    download.disabled = false;
    show(kindOf(name));
  }

  function blob(type) {
    address = URL.createObjectURL(new Blob([bytes], { type }));
    return address;
  }

  function show({ kind, type }) {
    if (kind === 'image') {
      const picture = h('img', { src: blob(type), alt: visible(name), on: { error: () => none('This picture can’t be shown: it may be damaged, or of another kind than its name says.') } });
      self.content.dataset.shows = 'image';
      return put(self.content, picture);
    }
    if (kind === 'pdf' && new TextDecoder('latin1').decode(bytes.slice(0, 1024)).includes('%PDF-')) {
      self.content.dataset.shows = 'pdf';
      return put(self.content, h('iframe', { src: blob(type), title: visible(name) }));
    }
    const text = kind === 'pdf' ? null : textOf(bytes);
    if (text === null) return none(`This can’t be looked at here. Download it: it has ${size(bytes.byteLength)}.`);
    // A browser takes long to lay out a text of many megabytes, and nobody reads it so.
    if (text !== '') self.content.dataset.shows = 'text';
    put(self.content, text === '' ? h('p', { class: 'quiet' }, 'This file is empty.') : h('pre', { tabIndex: 0, dir: 'auto' }, text.slice(0, LONGEST)),
      text.length > LONGEST && h('p', { class: 'quiet' }, 'This is its beginning. Download it to read all of it.'));
  }

  function none(words) {
    delete self.content.dataset.shows;
    put(self.content, h('p', { class: 'quiet' }, words));
  }

  return { name, close: () => self.close() };
}

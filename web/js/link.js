// A visitor's page: what a link shares, a folder or a file, without a sign-in.
import { h, icon, named, visible, button, put } from './dom.js';
import { linkFiles } from './places.js';
import { openFiles } from './files.js';
import { told } from './refusals.js';
import { size } from './format.js';
import { kindOf, textOf } from './kinds.js';
import { openViewer } from './viewer.js';
import { save } from './acts.js';

// The addresses of a link's folders have its name with them, so that the page can tell it: the server doesn't.
export function openLink(main, [token, ...path], asked, arrival) {
  const place = linkFiles(token, asked.name ?? '');
  let inner = null;
  let over = false;
  if (path.length) inner = openFiles(main, place, path, asked, arrival);
  else first();
  return {
    update: (next, nextAsked, nextArrival) => inner?.update?.(next, nextAsked, nextArrival) ?? false,
    close() {
      over = true;
      inner?.close?.();
    },
  };

  async function first() {
    put(main, h('p', { class: 'quiet' }, 'Looking what is shared …'));
    const answer = await place.list([]);
    if (over) return;
    if (answer.ok && !answer.file) {
      inner = openFiles(main, place, [], asked, arrival);
      return;
    }
    main.setAttribute('aria-busy', 'false');
    if (answer.ok) file(answer.bytes);
    else refused(answer.refusal);
  }

  function refused(refusal) {
    document.title = 'A shared link – Files';
    put(main, h('div', { class: 'one-file card' }, icon('link'), h('h1', { tabIndex: -1 }, 'This link leads nowhere'),
      h('p', { class: 'quiet', role: 'alert' }, told(refusal, { missing: 'There is no such link. Look whether the whole address was copied.' })),
      h('div', { class: 'acts-bar' }, button('Try again', first))));
  }

  function file(bytes) {
    const name = asked.name || nameOf(bytes);
    document.title = `${visible(name)} – Files`;
    const seen = kindOf(name);
    const look = seen.kind !== 'other' && button('Look at it', () => openViewer({ read: async () => ({ ok: true, bytes }) }, [], { name }, () => {}), { drawn: 'look' });
    put(main, h('div', { class: 'one-file card' }, icon(seen.drawn), h('h1', { tabIndex: -1 }, named(name)),
      h('p', { class: 'quiet' }, `${size(bytes.byteLength)}, shared with you by a link`),
      h('div', { class: 'acts-bar' }, button('Download', () => save(bytes, name), { drawn: 'download', class: 'main' }), look)));
  }
}

// A link of a file that doesn't tell its name: one that fits what is in it.
function nameOf(bytes) {
  const head = new TextDecoder('latin1').decode(bytes.slice(0, 12));
  const ending = head.startsWith('\x89PNG') ? '.png' : head.startsWith('\xff\xd8\xff') ? '.jpg' : head.startsWith('GIF8') ? '.gif'
    : head.startsWith('RIFF') && head.endsWith('WEBP') ? '.webp' : head.startsWith('%PDF-') ? '.pdf' : textOf(bytes) !== null ? '.txt' : '';
  return `Shared file${ending}`;
}

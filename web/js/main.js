// Where the page begins: it shows the view that the address asks for.
import { h, icon, named, put, say, button } from './dom.js';
import { session, resume, onChange, leave } from './session.js';
import { start, go } from './router.js';
import { ownFiles, readAddress } from './places.js';
import { showSignIn } from './signin.js';
import { openFiles } from './files.js';
import { openLink } from './link.js';
import { openShares } from './shared.js';
import { openTrash } from './trash.js';
import { openPeople } from './people.js';
import { uploadsRunning } from './uploads.js';

const main = document.getElementById('main');
const top = document.getElementById('top');
// The view that is shown: whether it can take up another address by itself (`update`), and what it lets go of (`close`).
let view = null;
let own = null;

function show(address, arrival) {
  const { path, asked } = readAddress(address);
  const [first, ...rest] = path ?? [''];
  const member = session();
  const kind = first === 'link' && rest.length ? 'link' : !member ? 'sign-in' : first === 'people' && !member.admin ? 'files' : ['files', 'shares', 'trash', 'people'].includes(first) ? first : 'files';
  if (kind === 'files' && first !== 'files') return go('#/files/', true);
  if (member && own?.user !== member.name) own = ownFiles(member);
  if (document.body.dataset.view === kind && view?.update?.(rest, asked, arrival)) return;
  view?.close?.();
  document.body.dataset.view = kind;
  main.setAttribute('aria-busy', 'true');
  put(main);
  head(kind);
  scrollTo(0, 0);
  view = kind === 'sign-in' ? showSignIn(main, left)
    : kind === 'link' ? openLink(main, rest, asked, arrival)
    : kind === 'shares' ? openShares(main, own, rest)
    : kind === 'trash' ? openTrash(main, member)
    : kind === 'people' ? openPeople(main)
    : openFiles(main, own, rest, asked, arrival);
  // Who came by a link of the page reads on from its heading; who opened the page isn't moved.
  if (arrival && kind !== 'sign-in') main.querySelector('h1')?.focus({ preventScroll: true });
}

// Who came by a link has nowhere else to go.
function brand(member) {
  const inside = [icon('folder'), h('span', {}, 'filesd')];
  return member ? h('a', { class: 'brand', href: '#/files/', 'aria-label': 'filesd, to your files' }, ...inside) : h('span', { class: 'brand' }, ...inside);
}

function head(kind) {
  const member = session();
  top.hidden = !member && kind !== 'link';
  const link = (to, text, drawn, mine) => h('a', { href: to, 'aria-current': kind === mine ? 'page' : undefined }, icon(drawn), h('span', {}, text));
  put(top,
    brand(member),
    member && h('nav', { 'aria-label': 'Main' },
      link('#/files/', 'Files', 'file', 'files'),
      link('#/shares/given', 'Shared', 'share', 'shares'),
      link('#/trash', 'Trash', 'remove', 'trash'),
      member.admin && link('#/people', 'People', 'people', 'people')),
    member ? h('div', { class: 'me' }, icon('person'), named(member.name), button('Sign out', signOut, { class: 'plain' }))
      : h('a', { class: 'plain me', href: '#/files/' }, 'Sign in'));
}

function signOut() {
  if (uploadsRunning() && !confirm('Files are still on their way. Sign out and leave them?')) return;
  leave();
}

let left = null;

onChange((_, why) => {
  left = why;
  own = null;
  document.querySelectorAll('dialog').forEach((one) => one.close());
  delete document.body.dataset.view;
  say('');
  if (why === 'out') go('#/files/', true);
  show(location.hash.slice(1), null);
  if (why === 'in') main.querySelector('h1')?.focus({ preventScroll: true });
});

addEventListener('beforeunload', (event) => {
  if (uploadsRunning()) event.preventDefault();
});

resume();
start(show);

// Who is signed in. A token stands in the tab's own storage, which ends with the tab, or in the browser's where the member asked for it; it
// is never in an address nor in a cookie.
import { ask, askOcs } from './api.js';
import { escaped, byteLength } from './names.js';
import { forgetAll, saw } from './known.js';

const KEY = 'filesd.session';
let current = null;
const watchers = [];

export const session = () => current;
export const onChange = (act) => watchers.push(act);

const changed = (why) => watchers.forEach((act) => act(current, why));

function read(storage) {
  try {
    const found = JSON.parse(storage.getItem(KEY));
    return typeof found?.name === 'string' && typeof found?.token === 'string' ? found : null;
  } catch {
    return null;
  }
}

// Where storage is forbidden to the page it goes on without: signed in until it is left.
function forget() {
  for (const storage of [sessionStorage, localStorage]) {
    try {
      storage.removeItem(KEY);
    } catch {
      // Nothing is kept there.
    }
  }
}

export function resume() {
  try {
    current = read(sessionStorage) ?? read(localStorage);
  } catch {
    current = null;
  }
  if (current) saw('member', current.name);
  // Who signs out in one tab is signed out in all that remember the same.
  addEventListener('storage', (event) => {
    if (event.key === KEY && event.newValue === null && current?.remembered) leave('elsewhere');
  });
}

export async function signIn(name, token, remembered) {
  if (byteLength(name) === 0 || byteLength(name) > 240 || /[/\\\0]/.test(name)) return { ok: false, refusal: { reason: 'no-name' } };
  if (!/^[\x21-\x7e]{1,128}$/.test(token)) return { ok: false, refusal: { reason: 'token' } };
  const answer = await ask('GET', `/remote.php/dav/files/${escaped(name)}/`, { token, want: 'json' });
  if (!answer.ok) return answer;
  current = { name, token, remembered, admin: await isAdmin(name, token) };
  try {
    (remembered ? localStorage : sessionStorage).setItem(KEY, JSON.stringify(current));
  } catch {
    // As above.
  }
  saw('member', name);
  changed('in');
  return { ok: true };
}

// No route says who is an administrator. So one that changes nothing is asked: to take the member out of a group that can't be there, since its
// name is 128 bits of chance. An administrator is told that there is no such group, anybody else that it isn't theirs to ask.
async function isAdmin(name, token) {
  const chance = [...crypto.getRandomValues(new Uint8Array(16))].map((one) => one.toString(16).padStart(2, '0')).join('');
  const answer = await askOcs('DELETE', `/ocs/v2.php/cloud/users/${escaped(name)}/groups`, { token, parameters: { groupid: `no-group-${chance}` } });
  return !answer.ok && answer.refusal.reason === 'not-found';
}

export function leave(why = 'out') {
  current = null;
  forget();
  forgetAll();
  changed(why);
}

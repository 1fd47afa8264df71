// Shares: what is asked of the server about them, and how they are told in words.
import { h, icon, named, visible, check, copyText, say, put } from './dom.js';
import { askOcs } from './api.js';
import { session, leave } from './session.js';
import { sawShares } from './known.js';
import { lastDay, listed, todayInUtc } from './format.js';
import { openDialog } from './dialogs.js';
import { MAY, linkFiles } from './places.js';

const ROUTE = '/ocs/v2.php/apps/files_sharing/api/v1/shares';
export const TYPE = { member: 0, group: 1, link: 3 };

async function asked(method, target, parameters) {
  const answer = await askOcs(method, target, { token: session()?.token, parameters });
  if (!answer.ok && answer.status === 401) leave('token');
  if (answer.ok) sawShares([answer.data].flat().filter((share) => share?.id));
  return answer;
}

const written = (path) => `/${path.join('/')}`;

export const sharesOf = (path) => asked('GET', `${ROUTE}?path=${encodeURIComponent(written(path))}`);
export const sharesMade = () => asked('GET', ROUTE);
export const sharesReceived = () => asked('GET', `${ROUTE}?shared_with_me=true`);

let learned = '';

// Who made the shares that lead to these mounts. Once a share is ended nobody tells that any more, and a refusal names its number alone.
export async function learnGivers(mounts) {
  const ids = mounts.map((entry) => entry.id).join(' ');
  if (!ids || ids === learned) return;
  learned = ids;
  await sharesReceived();
}

export const makeShare = (path, { type, name, permissions, day }) => asked('POST', ROUTE, {
  path: written(path), shareType: type, ...(type === TYPE.link ? {} : { shareWith: name }), permissions, ...(day ? { expireDate: day } : {}),
});
export const changeShare = (share, parameters) => asked('PUT', `${ROUTE}/${share.id}`, parameters);
export const endShare = (share) => asked('DELETE', `${ROUTE}/${share.id}`);

export const isOver = (share) => share.expiration !== null && share.expiration < todayInUtc();

// What a share allows beside reading: its words for a folder and for a file.
const WORDS = [
  [MAY.update, 'change files', 'change it'],
  [MAY.create, 'add to it', null],
  [MAY.remove, 'remove from it', null],
  [MAY.share, 'share it on', 'share it on'],
];

export function mayInWords(permissions, kind) {
  const words = WORDS.filter(([bit, folder, file]) => permissions & bit && (kind === 'file' ? file : folder)).map(([, folder, file]) => (kind === 'file' ? file : folder));
  return words.length > 1 ? `Read it, ${listed(words)}` : words.length ? `Read it and ${words[0]}` : 'Read it';
}

export function untilInWords(share) {
  if (share.expiration === null) return 'No last day';
  return `${isOver(share) ? 'Was until' : 'Until'} ${lastDay(share.expiration)}`;
}

export function withWhom(share) {
  if (share.share_type === TYPE.link) return h('span', { class: 'whom' }, icon('link'), 'Anybody with the link');
  return h('span', { class: 'whom' }, icon(share.share_type === TYPE.group ? 'people' : 'person'), named(share.share_with));
}

export function whomInText(share) {
  return share.share_type === TYPE.link ? 'the link' : visible(share.share_with);
}

// Boxes for what is allowed beside reading, of what may be given away.
export function mayBoxes({ kind, type, allowed, value = 0 }) {
  const boxes = WORDS.filter(([bit, , file]) => allowed & bit && (kind === 'folder' || file) && !(type === TYPE.link && bit === MAY.share))
    .map(([bit, folder, file]) => ({ bit, ...check(kind === 'file' ? file : folder, { checked: (value & bit) !== 0 }) }));
  return {
    element: h('fieldset', { class: 'may' }, h('legend', {}, boxes.length ? 'They may read it, and' : 'They may read it.'), ...boxes.map(({ line }) => line)),
    value: () => boxes.reduce((sum, { bit, box }) => sum | (box.checked ? bit : 0), MAY.read),
  };
}

export function dayField(value) {
  return h('input', { type: 'date', value: value ?? '', min: '1970-01-01', max: '9998-12-31' });
}

export const DAY_HINT = 'The share ends at the midnight after this day, in UTC. Empty: it has no last day.';

export const linkAddress = (share, name) => new URL(linkFiles(share.token, name).addressOf([]), location.href).href;

export async function copyLink(share, name) {
  const address = linkAddress(share, name);
  if (await copyText(address)) return true;
  const self = openDialog('The link', { kind: 'narrow' });
  const input = h('input', { type: 'text', readOnly: true, value: address, 'aria-label': 'The link' });
  self.content.append(h('p', {}, 'Copy it from here.'), input);
  const close = h('button', { type: 'button', class: 'main', on: { click: () => self.close() } }, 'Close');
  put(self.actions, close);
  input.focus();
  input.select();
  return false;
}

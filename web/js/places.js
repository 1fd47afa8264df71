// Where files are: a member's own (`/remote.php/`), or what a link shares (`/public.php/`). Both answer alike, so one set of acts serves both.
import { ask, store } from './api.js';
import { escaped, escapedPath, unescapedPath } from './names.js';
import { sawPlace, forgetPlaces, saw } from './known.js';
import { leave } from './session.js';

export const LARGEST = 16 * 1024 * 1024;
export const MAY = { read: 1, update: 2, create: 4, remove: 8, share: 16 };

export function ownFiles({ name, token }) {
  return place({ kind: 'own', user: name, token, base: `/remote.php/dav/files/${escaped(name)}`, address: '#/files' });
}

export function linkFiles(token, title) {
  return place({ kind: 'link', link: token, title, base: `/public.php/dav/files/${escaped(token)}`, address: `#/link/${escaped(token)}` });
}

function place(self) {
  // The entries that were listed last, by the path of their folder.
  self.listings = new Map();
  self.abouts = new Map();
  const target = (path) => self.base + (path.length ? escapedPath(path) : '/');
  const asked = async (...given) => {
    const answer = await ask(...given);
    // A token that isn't taken any more: the session is over.
    if (!answer.ok && self.token && answer.status === 401) leave('token');
    return answer;
  };

  self.addressOf = (path, view) => {
    const query = [self.title && `name=${escaped(self.title)}`, view && `view=${escaped(view)}`].filter(Boolean).join('&');
    return `${self.address}${escapedPath(path) || '/'}${query && `?${query}`}`;
  };
  self.isMount = (path, entry) => self.kind === 'own' && path.length === 1 && entry.owner !== self.user;

  self.list = async (path, signal) => {
    const answer = await asked('GET', target(path), { token: self.token, want: 'any', signal });
    if (!answer.ok) return answer;
    // A file is sent with another type than a listing.
    if (!answer.isJson) return { ok: true, file: true, bytes: answer.bytes };
    const entries = answer.json.entries;
    self.listings.set(escapedPath(path), new Map(entries.map((entry) => [entry.name, entry])));
    if (self.kind === 'own') {
      for (const entry of entries) {
        sawPlace(entry.id, [...path, entry.name], entry);
        saw('member', entry.owner);
      }
    }
    return { ok: true, entries };
  };

  // What may be done in a folder, and whose it is: its own line, which stands in the listing of the folder above it. Nobody tells that of what
  // a link is of, so it is asked to become a folder: that is refused either way, as not allowed or because it is there.
  self.about = async (path) => {
    const key = escapedPath(path);
    let found = { permissions: 31, owner: self.kind === 'own' ? self.user : null };
    if (path.length) {
      const above = path.slice(0, -1);
      if (!self.listings.get(escapedPath(above))?.has(path.at(-1))) await self.list(above);
      found = self.listings.get(escapedPath(above))?.get(path.at(-1)) ?? found;
    } else if (self.kind === 'link' && !self.abouts.has(key)) {
      const answer = await asked('MKCOL', target([]), {});
      found.permissions = answer.status === 405 ? MAY.read | MAY.create : MAY.read;
    } else if (self.kind === 'link') found = self.abouts.get(key);
    const { permissions, owner } = found;
    self.abouts.set(key, { permissions, owner });
    return { permissions, owner };
  };

  // What was seen of a folder before, if it was.
  self.seenAt = (path) => {
    const key = escapedPath(path);
    const about = self.abouts.get(key);
    return about && self.listings.has(key) ? { ...about, entries: [...self.listings.get(key).values()] } : null;
  };

  self.read = (path, signal) => asked('GET', target(path), { token: self.token, want: 'bytes', signal });
  self.make = (path) => asked('MKCOL', target(path), { token: self.token });
  self.remove = (path) => {
    forgetPlaces();
    return asked('DELETE', target(path), { token: self.token });
  };
  self.store = (path, body, told, signal) => store(target(path), { token: self.token, body, told, signal });
  const transfer = (method) => (from, to, over) => {
    forgetPlaces();
    return asked(method, target(from), { token: self.token, fields: { Destination: location.origin + target(to), Overwrite: over ? 'T' : 'F' } });
  };
  self.move = transfer('MOVE');
  self.copy = transfer('COPY');
  return self;
}

// The path and the query of an address behind its first word.
export function readAddress(text) {
  const [path, query = ''] = text.split('?');
  const asked = Object.fromEntries(query.split('&').filter(Boolean).map((one) => {
    const [name, value = ''] = one.split('=');
    return [name, unescapedPath(value)?.join('/') ?? ''];
  }));
  return { path: unescapedPath(path), asked };
}

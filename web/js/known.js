// What the page has seen on its way: who made which share, where a number is in one's files, and names of members and groups to suggest,
// since the server has no list of them. It is in memory alone, but for who made which share: a page that is loaded anew can tell still who
// ended one. That lasts as long as the tab.
const KEY = 'filesd.givers';
const givers = new Map(remembered());
const places = new Map();
const names = { member: new Set(), group: new Set() };

function remembered() {
  try {
    return JSON.parse(sessionStorage.getItem(KEY)) ?? [];
  } catch {
    return [];
  }
}

function remember() {
  try {
    if (givers.size) sessionStorage.setItem(KEY, JSON.stringify([...givers].slice(-500)));
    else sessionStorage.removeItem(KEY);
  } catch {
    // Where storage is forbidden to the page it goes without.
  }
}

function sawShare(share) {
  givers.set(Number(share.id), share.uid_owner);
  saw('member', share.uid_owner);
  saw('member', share.uid_file_owner);
  if (share.share_type === 0) saw('member', share.share_with);
  if (share.share_type === 1) saw('group', share.share_with);
}

export function sawShares(shares) {
  shares.forEach(sawShare);
  remember();
}

export const giverOf = (share) => givers.get(share);

export const sawPlace = (node, path, entry) => places.set(node, { path, entry });

// What was moved or removed takes with it where all under it is.
export const forgetPlaces = () => places.clear();

export const placeOf = (node) => places.get(node);

export function saw(kind, name) {
  if (name) names[kind].add(name);
}

export const seen = (kind) => [...names[kind]].sort((a, b) => a.localeCompare(b));

export function forgetAll() {
  givers.clear();
  remember();
  places.clear();
  names.member.clear();
  names.group.clear();
}

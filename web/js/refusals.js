// A refusal in plain words: made of its reason, its fields, and what the page knows of the act (`who` owns the folder, `name` of the file).
import { exactly, number } from './format.js';
import { visible } from './dom.js';
import { giverOf } from './known.js';

const CAUSES = {
  ended: (who) => `${who ?? 'Whoever shared this'} ended the share that let you in.`,
  expired: () => 'The share that let you in was until a day that is over.',
  'no-reshare': () => 'This was passed on to you, and that isn’t allowed any more.',
  'not-member': (who) => `${who ?? 'Who passed this on to you'} doesn’t receive it any more.`,
  'moved-out': () => 'This was moved out of the shared folder, so it isn’t shared with you any more.',
  narrowed: (who) => `The share lets you in, but doesn’t allow this.${who ? ` Ask ${who} for more.` : ''}`,
};

const RULES = {
  root: 'All your files at once can’t be shared. Share a folder.',
  self: 'You can’t share it with yourself, nor with who owns it.',
  already: 'You share it with them already. Change that share instead.',
  widened: 'You can’t allow more than you are allowed yourself.',
  chain: 'It was passed on 16 times already, and can’t be passed on again.',
  past: 'This last day is over already. Days end at midnight in UTC.',
  'token-taken': 'By chance the link’s token was taken. Please try again.',
  taken: 'There is one of that name already, or the token is in use.',
};

const TARGETS = {
  root: 'What is shared as a whole, or all your files, can’t be moved or removed here.',
  same: 'It is there already.',
  inside: 'A folder can’t go into itself, nor replace a folder that it is in.',
  mount: 'What others share with you stays among your files at the top, and nothing can replace it.',
};

const FAULTS = {
  empty: 'A name is empty.', long: 'A name is longer than 240 bytes.', 'not-utf8': 'A name is no valid text.', slash: 'A name has a slash or a backslash in it.',
  zero: 'A name has a zero byte in it.', dots: 'A name is one or two dots.', deep: 'That would be more than 64 folders, one in the other.',
};

const FIELDS = {
  shareWith: 'Say with whom to share it.', expireDate: 'The last day has to be a day between 1970 and 9998.', permissions: 'Choose what is allowed.',
  userid: 'That is no name for a member.', groupid: 'That is no name for a group.', token: 'A token has 1 to 128 letters, digits and signs, and no blanks.',
  quota: 'A quota is at most 1 TiB.', value: 'The server didn’t take this value.', destination: 'The server didn’t take this place.',
};

const LIMITS = {
  users: 'members', groups: 'groups', tokens: 'tokens', members: 'memberships', nodes: 'files and folders', depth: 'folders one in the other',
  shares: 'shares', mounts: 'shared folders in members’ files', pieces: 'contents of files',
};

function quota({ charge, quota: allowed, size }, { who }) {
  const over = charge + size - allowed;
  const whose = who ? `${visible(who)}’s` : 'your';
  const more = over > 0 ? `It would be ${exactly(over)} over ${whose} quota of ${exactly(allowed)}.` : `It doesn’t fit into ${whose} quota of ${exactly(allowed)}.`;
  return `${more} ${who ? 'Their' : 'Your'} files take up ${exactly(charge)}. ${who ? 'Ask them to remove something.' : 'Remove something, or ask an administrator for more.'}`;
}

const REASONS = {
  token: () => 'The token isn’t right. Look at each letter, or ask an administrator for another one.',
  'not-you': () => 'This is another member’s, or only an administrator may do it.',
  'forbidden-name': () => 'This name is not allowed here.',
  'bad-name': ({ fault }) => FAULTS[fault] ?? 'That is no name for a file.',
  'bad-parameter': ({ field }) => FIELDS[field] ?? `The server didn’t take “${field}”.`,
  'broken-link': ({ cause, share }) => (CAUSES[cause] ?? (() => 'A share on the way doesn’t let you in any more.'))(giverOf(share)),
  'no-share': () => 'What was shared with you here isn’t shared any more.',
  'bad-target': ({ cause }) => TARGETS[cause] ?? 'It can’t go there.',
  rule: ({ rule }) => RULES[rule] ?? 'It can’t be shared so.',
  'not-found': (_, { missing }) => missing ?? 'It isn’t there any more. Perhaps somebody moved or removed it.',
  exists: () => 'There is something of that name already.',
  'no-parent': () => 'The folder that it should go into isn’t there any more.',
  overwrite: () => 'There is something of that name already.',
  'too-large': () => 'It is larger than 16 MiB, which is the most that this page can send.',
  locked: () => 'Somebody reads or stores there at this moment. Try again soon.',
  store: () => 'The server couldn’t store it. Nothing was changed. Tell the administrator.',
  damaged: () => 'The server finds this file damaged. Tell the administrator.',
  memory: () => 'The server is short of memory. Nothing was changed. Try again soon.',
  limit: ({ which, count }) => (which === 'depth' ? 'That would be more than 64 folders, one in the other.'
    : `The server has no room for more ${LIMITS[which] ?? 'of these'}${count ? `: ${number(count)} is the most` : ''}. Tell the administrator.`),
  quota,
  method: () => 'The server doesn’t know how to do this.',
  'run-full': () => 'The server begins anew at this moment. Try again.',
  'too-many': () => 'That were too many requests at once. Wait a moment, and try again.',
  away: () => 'The server is away at the moment. Nothing was changed. Try again soon.',
  late: () => 'The server didn’t answer in time. It may have been done all the same: look before you try again.',
  offline: () => 'The server can’t be reached. Look at your connection, and try again.',
  cancelled: () => 'Cancelled.',
};

export function told(refusal, about = {}) {
  const { reason, status } = refusal;
  return Object.hasOwn(REASONS, reason) ? REASONS[reason](refusal, about) : `The server refused it (${[reason, status].filter(Boolean).join(' ')}).`;
}

// What is done with files and folders: each act with its question before it and its refusals in words.
import { h, named, visible, field, say } from './dom.js';
import { question, formDialog, openDialog, markStem } from './dialogs.js';
import { faultOf, formC, freeName } from './names.js';
import { told } from './refusals.js';
import { counted } from './format.js';
import { MAY } from './places.js';
import { pickFolder } from './picker.js';
import { openSharing } from './sharing.js';
import { go } from './router.js';
import { kindOf } from './kinds.js';

// What may be done with an entry: what the share that leads to it allows, and nothing else. By a link a copy goes where the link leads, so it
// has to allow that something is added.
export function mayOf({ place, path, permissions }, entry) {
  const may = (what) => (entry.permissions & what) !== 0;
  const mount = place.isMount([...path, entry.name], entry);
  return {
    mount,
    share: place.kind === 'own' && may(MAY.share),
    rename: mount || may(MAY.update),
    move: !mount && may(MAY.remove),
    copy: place.kind === 'own' || (permissions & MAY.create) !== 0,
    remove: mount || may(MAY.remove),
  };
}

export function actsOf(context, entry) {
  const { place, path } = context;
  const may = mayOf(context, entry);
  const isFile = entry.kind === 'file';
  return [
    !isFile && { text: 'Open', drawn: 'folder', act: () => go(place.addressOf([...path, entry.name])) },
    isFile && kindOf(entry.name).kind !== 'other' && { text: 'Look at', drawn: 'look', act: () => go(place.addressOf(path, entry.name)) },
    isFile && { text: 'Download', drawn: 'download', act: () => downloadAll(context, [entry]) },
    may.share && { text: 'Share', drawn: 'share', act: () => openSharing(place, [...path, entry.name], entry) },
    may.rename && { text: 'Rename', drawn: 'rename', act: () => rename(context, entry) },
    may.move && { text: 'Move', drawn: 'move', act: () => transferAll(context, [entry], 'move') },
    may.copy && { text: 'Copy', drawn: 'copy', act: () => transferAll(context, [entry], 'copy') },
    may.mount && { text: 'Leave', drawn: 'leave', kind: 'danger', act: () => removeAll(context, [entry]) },
    !may.mount && may.remove && { text: 'Remove', drawn: 'remove', kind: 'danger', act: () => removeAll(context, [entry]) },
  ].filter(Boolean);
}

const nameInput = (value = '') => h('input', { type: 'text', value, autocomplete: 'off', autocapitalize: 'none', spellcheck: false });

// Whose quota it is that a refusal speaks of; null where it is the member's own.
const about = ({ place, owner }) => ({ who: owner && owner !== place.user ? owner : null });

export async function makeFolder(context) {
  const { place, path, reload, focus } = context;
  const input = nameInput();
  const made = await formDialog('New folder', [field('Name', input)], {
    submit: 'Make it',
    act: async () => {
      const name = formC(input.value);
      const fault = faultOf(name);
      if (fault) return fault;
      const answer = await place.make([...path, name]);
      return answer.ok ? null : told(answer.refusal, about(context));
    },
  });
  if (!made) return;
  await reload();
  focus(formC(input.value));
  say(`The folder “${visible(formC(input.value))}” is made.`);
}

export async function rename(context, entry) {
  const { place, path, reload, focus } = context;
  const input = nameInput(entry.name);
  let name = entry.name;
  const asking = formDialog('Rename', [field('New name', input)], {
    submit: 'Rename',
    act: async () => {
      if (input.value === entry.name) return null;
      name = formC(input.value);
      const fault = faultOf(name);
      if (fault) return fault;
      const answer = await place.move([...path, entry.name], [...path, name], false);
      return answer.ok ? null : told(answer.refusal);
    },
  });
  markStem(input, entry.kind === 'folder');
  if (!(await asking) || name === entry.name) return;
  await reload();
  focus(name);
  say(`“${visible(entry.name)}” is named “${visible(name)}” now.`);
}

const all = (entries) => (entries.length === 1 ? `“${visible(entries[0].name)}”` : counted(entries.length, 'thing'));

// What becomes of what is removed: it goes into the trash of whose it is, and nobody else can put it back.
function afterwards(place, owner) {
  const mine = place.kind === 'own' && (!owner || owner === place.user);
  const whose = mine ? 'your trash' : owner ? `${visible(owner)}’s trash` : 'the trash of whose it is';
  const who = mine ? 'you can' : 'only its owner can';
  return [
    h('p', {}, `It stays in ${whose} for 30 days, where ${who} put it back. What is larger than half of ${mine ? 'your' : 'the owner’s'} quota is gone for good at once.`),
    h('p', {}, 'What was shared of it isn’t any more, nor when it is put back.'),
  ];
}

export async function removeAll(context, entries) {
  const { place, path } = context;
  const mounts = entries.filter((entry) => place.isMount([...path, entry.name], entry));
  const others = entries.filter((entry) => !mounts.includes(entry));
  const folders = others.some((entry) => entry.kind === 'folder');
  const words = [];
  if (others.length === 1) words.push(h('p', {}, named(others[0].name), folders ? ' is removed with all that is in it.' : ' is removed.'));
  else if (others.length) words.push(`${counted(others.length, 'thing')} are removed${folders ? ', folders with all that is in them' : ''}.`);
  if (others.length) words.push(...afterwards(place, context.owner));
  if (mounts.length === 1) words.push(h('p', {}, named(mounts[0].name), ` goes from your files. Nothing is removed of what ${visible(mounts[0].owner)} shares with you.`));
  else if (mounts.length) words.push(`${mounts.length} things that others share with you go from your files. Nothing is removed of what is shared.`);
  const sure = await question(others.length === 0 ? 'Leave what is shared?' : others.length === 1 ? 'Remove it?' : 'Remove them?', words, [
    { text: 'Cancel', value: null },
    { text: others.length ? 'Remove' : 'Leave', value: true, kind: 'main danger' },
  ]);
  if (!sure) return;
  const results = await each(entries, (entry) => place.remove([...path, entry.name]));
  await context.reload();
  outcome(results, others.length ? 'removed' : 'left', context);
}

// One after the other: what one act holds the next would only wait for.
async function each(entries, act) {
  const results = [];
  for (const [index, entry] of entries.entries()) {
    if (entries.length > 20 && index % 20 === 0) say(`${index} of ${entries.length} are done.`);
    results.push({ entry, answer: await act(entry) });
  }
  return results;
}

function outcome(results, done, context) {
  const failed = results.filter(({ answer }) => !answer.ok && !answer.skipped);
  const good = results.filter(({ answer }) => answer.ok).map(({ entry }) => entry);
  if (failed.length === 0) return say(good.length ? `${all(good)} ${good.length === 1 ? 'is' : 'are'} ${done}.` : 'Nothing was changed.');
  if (results.length === 1) return say(`“${visible(failed[0].entry.name)}” isn’t ${done}. ${told(failed[0].answer.refusal, about(context))}`, true);
  const self = openDialog(`${failed.length} of ${results.length} aren’t ${done}`);
  self.content.append(h('ul', { class: 'reasons' }, ...failed.slice(0, 100).map(({ entry, answer }) => h('li', {}, named(entry.name), h('span', {}, told(answer.refusal, about(context)))))));
  const close = h('button', { type: 'button', class: 'main', on: { click: () => self.close() } }, 'Close');
  self.actions.append(close);
  close.focus();
}

export async function transferAll(context, entries, how) {
  const { place, path, reload } = context;
  const [word, done] = how === 'move' ? ['Move', 'moved'] : ['Copy', 'copied'];
  const to = await pickFolder(place, path, entries, `${word} ${entries.length === 1 ? `“${visible(entries[0].name)}”` : counted(entries.length, 'thing')} to`, `${word} here`, how === 'copy');
  if (!to) return;
  const act = place[how];
  const here = to.length === path.length && to.every((name, index) => name === path[index]);
  let taken = here ? new Set(context.entries.map((entry) => entry.name)) : null;
  // A copy beside itself has another name, without a question.
  const target = (entry, both) => {
    const name = both ? freeName(entry.name, taken) : entry.name;
    taken?.add(name);
    return [...to, name];
  };
  const results = await each(entries, (entry) => act([...path, entry.name], target(entry, here), false));
  const clashes = results.filter(({ answer }) => !answer.ok && answer.refusal.reason === 'overwrite');
  if (clashes.length) {
    const how_ = await whatIfThere(clashes.map(({ entry }) => entry.name));
    if (how_ === 'both') {
      const listed = await place.list(to);
      taken = new Set(listed.ok ? listed.entries.map((entry) => entry.name) : []);
    }
    for (const clash of clashes) {
      clash.answer = how_ === 'skip' ? { ok: false, skipped: true }
        : await act([...path, clash.entry.name], target(clash.entry, how_ === 'both'), how_ === 'replace');
    }
  }
  await reload();
  outcome(results, done, {});
}

// What is to be done about names that are taken, for all of them: replace, both or skip.
export async function whatIfThere(names) {
  const words = [
    h('p', {}, names.length === 1 ? named(names[0]) : `${counted(names.length, 'name')} of these`, names.length === 1 ? ' is there already.' : ' are there already.'),
    names.length > 1 && h('ul', { class: 'few' }, ...names.slice(0, 5).map((name) => h('li', {}, named(name))), names.length > 5 && h('li', {}, `and ${names.length - 5} more`)),
    h('p', { class: 'quiet' }, 'What an upload replaces is gone for good. What a move or a copy replaces can be put back from the trash of its owner, as long as that holds it.'),
  ].filter(Boolean);
  return (await question(names.length === 1 ? 'It is there already' : 'Some are there already', words, [
    { text: 'Skip', value: 'skip' },
    { text: 'Replace', value: 'replace', kind: 'danger' },
    { text: 'Keep both', value: 'both', kind: 'main' },
  ])) ?? 'skip';
}

// Bytes into a file on the member's device. They have no type of their own, so the browser stores them, whatever they are.
export function save(bytes, name) {
  const address = URL.createObjectURL(new Blob([bytes], { type: 'application/octet-stream' }));
  const link = h('a', { href: address, download: name, hidden: true });
  document.body.append(link);
  link.click();
  link.remove();
  setTimeout(() => URL.revokeObjectURL(address), 60_000);
}

export async function downloadAll(context, entries) {
  const { place, path } = context;
  const results = await each(entries, async (entry) => {
    const answer = await place.read([...path, entry.name]);
    if (answer.ok) save(answer.bytes, entry.name);
    return answer;
  });
  outcome(results, 'downloaded', context);
}

// The view of shares: those that a member made, and those that others made for them.
import { h, icon, named, visible, button, put, say } from './dom.js';
import { told } from './refusals.js';
import { sharesMade, sharesReceived, mayInWords, untilInWords, withWhom, whomInText, copyLink, isOver } from './shares.js';
import { openChange, openEnd } from './sharing.js';
import { placeOf } from './known.js';
import { removeAll } from './acts.js';

// A share tells the number of what it is of, and not where that is. So the member's folders are looked through for it, this many at most.
const MOST = 200;

export function openShares(main, place, [which = 'given']) {
  const given = which !== 'received';
  let over = false;
  document.title = 'Shared – Files';
  const tab = (to, text, on) => h('a', { href: to, 'aria-current': on ? 'page' : undefined }, text);
  const empty = h('div', { class: 'empty', hidden: true });
  const body = h('tbody');
  const table = h('table', { id: 'shares', hidden: true, 'aria-label': given ? 'Shared by me' : 'Shared with me' },
    h('thead', {}, h('tr', {}, ...['What', given ? 'With' : 'By', 'May', 'Last day'].map((text, index) => h('th', { scope: 'col', class: ['c-what', 'c-whom', 'c-may', 'c-until'][index] }, text)),
      h('th', { scope: 'col', class: 'c-acts' }, h('span', { class: 'unseen' }, 'Actions')))), body);
  put(main, h('h1', { tabIndex: -1 }, 'Shared'),
    h('nav', { class: 'tabs', 'aria-label': 'Which shares' }, tab('#/shares/given', 'By me', given), tab('#/shares/received', 'With me', !given)), table, empty);
  load();

  async function load() {
    main.setAttribute('aria-busy', 'true');
    const [answer] = await Promise.all([given ? sharesMade() : sharesReceived(), place.list([])]);
    if (over) return;
    if (!answer.ok) {
      main.setAttribute('aria-busy', 'false');
      table.hidden = true;
      empty.hidden = false;
      return put(empty, h('p', { class: 'large', role: 'alert' }, told(answer.refusal)), button('Try again', load));
    }
    show(answer.data);
    if (given) await search(answer.data);
    main.setAttribute('aria-busy', 'false');
  }

  function show(shares) {
    table.hidden = !shares.length;
    empty.hidden = shares.length > 0;
    put(empty, icon('share'), h('p', { class: 'large' }, given ? 'You share nothing yet.' : 'Nobody shares anything with you yet.'),
      given && h('p', { class: 'quiet' }, 'Open the actions of a file or folder, and choose Share.'));
    put(body, ...shares.map(given ? madeRow : receivedRow));
  }

  async function search(shares) {
    const lacking = () => shares.filter((share) => !placeOf(share.file_source));
    const folders = [...(place.listings.get('')?.values() ?? [])].filter((entry) => entry.kind === 'folder').map((entry) => [entry.name]);
    for (let count = 0; count < MOST && folders.length && lacking().length && !over; count++) {
      const path = folders.shift();
      const answer = await place.list(path);
      if (answer.ok && answer.entries) folders.push(...answer.entries.filter((entry) => entry.kind === 'folder').map((entry) => [...path, entry.name]));
    }
    if (over) return;
    for (const share of shares) fill(share, lacking().includes(share));
  }

  const rowOf = (share) => body.querySelector(`tr[data-share="${share.id}"]`);

  function what(share, sought) {
    const found = placeOf(share.file_source);
    if (!found) return h('span', { class: 'quiet' }, sought ? `Number ${share.file_source}, in no folder that was looked through` : 'Looking where it is …');
    const { path, entry } = found;
    const above = path.length > 1 ? `in ${visible(path.slice(0, -1).join(' / '))}` : '';
    return h('div', { class: 'what' }, icon(entry.kind === 'folder' ? 'folder' : 'file'), h('div', { class: 'both' },
      h('a', { href: entry.kind === 'folder' ? place.addressOf(path) : place.addressOf(path.slice(0, -1), path.at(-1)) }, named(path.at(-1))),
      above && h('span', { class: 'quiet small', dir: 'auto' }, above)));
  }

  function cells(share, kind) {
    return [h('td', { class: 'c-may' }, mayInWords(share.permissions, kind)), h('td', { class: isOver(share) ? 'c-until over' : 'c-until' }, untilInWords(share))];
  }

  const under = (share, kind) => h('p', { class: 'under' }, `${mayInWords(share.permissions, kind)} · ${untilInWords(share)}`);

  function fill(share, sought = false) {
    const row = rowOf(share);
    if (row) put(row.querySelector('.c-what'), what(share, sought));
  }

  function madeRow(share) {
    const kind = placeOf(share.file_source)?.entry.kind ?? 'folder';
    const to = whomInText(share);
    return h('tr', { data: { share: share.id } },
      h('td', { class: 'c-what' }, what(share)),
      h('td', { class: 'c-whom' }, withWhom(share), under(share, kind)),
      ...cells(share, kind),
      h('td', { class: 'c-acts' }, h('div', { class: 'share-acts' },
        share.token && button('Copy link', async () => {
          if (await copyLink(share, placeOf(share.file_source)?.path.at(-1))) say('The link is copied.');
        }, { drawn: 'copy' }),
        button('Change', async () => {
          const place_ = placeOf(share.file_source);
          if (!(await openChange(share, place_?.entry.kind ?? 'folder', place_?.entry.permissions))) return;
          rowOf(share)?.replaceWith(madeRow(share));
          rowOf(share)?.querySelector('.share-acts button:not(.danger)')?.focus();
          say('The share is changed.');
        }, { 'aria-label': `Change the share with ${to}` }),
        button('End', async () => {
          if (!(await openEnd(share, { refuse: (text) => say(text, true) }))) return;
          await load();
          main.querySelector('h1').focus({ preventScroll: true });
          say('The share is ended.');
        }, { class: 'danger', 'aria-label': `End the share with ${to}` }))));
  }

  function receivedRow(share) {
    const entry = [...(place.listings.get('')?.values() ?? [])].find((one) => one.id === share.file_source && one.owner !== place.user);
    const kind = entry?.kind ?? 'folder';
    const reload = async () => {
      await load();
      main.querySelector('h1').focus({ preventScroll: true });
    };
    return h('tr', { data: { share: share.id } },
      h('td', { class: 'c-what' }, entry ? what(share) : h('span', { class: 'quiet' }, 'It lets you in no more, or you left it.')),
      h('td', { class: 'c-whom' }, h('span', { class: 'whom' }, icon('person'), named(share.uid_owner)),
        share.share_type === 1 && h('span', { class: 'quiet small' }, 'for the group ', named(share.share_with)), under(share, kind)),
      ...cells(share, kind),
      h('td', { class: 'c-acts' }, h('div', { class: 'share-acts' }, entry && button('Leave', () => removeAll({ place, path: [], entries: [], owner: null, reload }, [entry]), {
        class: 'danger', 'aria-label': `Leave ${visible(entry.name)}`,
      }))));
  }

  return { close: () => { over = true; } };
}

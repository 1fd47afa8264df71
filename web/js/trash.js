// The view of the trash: what was removed of a member's own files lies there for 30 days, and can be put back.
import { h, icon, named, visible, button, put, say } from './dom.js';
import { question } from './dialogs.js';
import { ask } from './api.js';
import { leave } from './session.js';
import { escaped } from './names.js';
import { told } from './refusals.js';
import { forgetPlaces } from './known.js';
import { size, date, day, counted } from './format.js';

const DAYS = 30;
const SECONDS_A_DAY = 86_400;
const GONE = { missing: 'It isn’t in the trash any more.' };

function trashOf({ name, token }) {
  const base = `/remote.php/dav/trashbin/${escaped(name)}`;
  const asked = async (method, target, given = {}) => {
    const answer = await ask(method, base + target, { token, ...given });
    if (!answer.ok && answer.status === 401) leave('token');
    return answer;
  };
  return {
    list: () => asked('GET', '/trash', { want: 'json' }),
    drop: (id) => asked('DELETE', `/trash/${id}`),
    empty: () => asked('DELETE', '/trash'),
    putBack: (id) => {
      forgetPlaces();
      return asked('MOVE', `/trash/${id}`, { fields: { Destination: `${location.origin}${base}/restore/${id}` } });
    },
  };
}

export function openTrash(main, member) {
  const trash = trashOf(member);
  let over = false;
  document.title = 'Trash – Files';
  const body = h('tbody');
  const heads = [['What', 'c-what'], ['Size', 'c-size'], ['Removed', 'c-when'], ['Goes for good', 'c-until']];
  const table = h('table', { id: 'trash', hidden: true, 'aria-label': 'Trash' },
    h('thead', {}, h('tr', {}, ...heads.map(([text, kind]) => h('th', { scope: 'col', class: kind }, text)),
      h('th', { scope: 'col', class: 'c-acts' }, h('span', { class: 'unseen' }, 'Actions')))), body);
  const blank = h('div', { class: 'empty', hidden: true });
  const emptyIt = button('Empty the trash', emptyAll, { drawn: 'remove', class: 'danger', hidden: true });
  const heading = h('h1', { tabIndex: -1 }, 'Trash');
  put(main, h('div', { class: 'titled' }, heading, emptyIt),
    h('p', { class: 'quiet intro' }, `What you remove stays here for ${DAYS} days, the newest first, in as much as half of your quota. It takes nothing of your quota meanwhile.`),
    table, blank);
  load();

  async function load() {
    main.setAttribute('aria-busy', 'true');
    const answer = await trash.list();
    if (over) return;
    main.setAttribute('aria-busy', 'false');
    const items = answer.ok ? answer.json.items : [];
    table.hidden = emptyIt.hidden = !items.length;
    blank.hidden = items.length > 0;
    if (answer.ok) put(blank, icon('remove'), h('p', { class: 'large' }, 'The trash is empty.'));
    else put(blank, h('p', { class: 'large', role: 'alert' }, told(answer.refusal)), button('Try again', load));
    put(body, ...items.map(row));
  }

  function row(item) {
    const shown = visible(item.name);
    const until = item.at + DAYS * SECONDS_A_DAY;
    return h('tr', { data: { item: item.id } },
      h('td', { class: 'c-what' }, h('div', { class: 'what' }, icon(item.kind === 'folder' ? 'folder' : 'file'), h('div', { class: 'both' }, named(item.name),
        h('p', { class: 'under' }, `${size(item.size)} · removed ${day(item.at)}`)))),
      h('td', { class: 'c-size' }, size(item.size)),
      h('td', { class: 'c-when' }, date(item.at)),
      h('td', { class: 'c-until' }, day(until)),
      h('td', { class: 'c-acts' }, h('div', { class: 'share-acts' },
        button('Put back', () => done(trash.putBack(item.id), `“${shown}” is back in your files.`, `“${shown}” isn’t put back.`), { 'aria-label': `Put back ${shown}` }),
        button('Remove for good', () => drop(item), { class: 'danger', 'aria-label': `Remove ${shown} for good` }))));
  }

  // What has come of an act is said once the list shows it. Focus goes to the heading: the row that it stood in has gone.
  async function done(asked, text, otherwise) {
    const answer = await asked;
    if (over) return;
    await load();
    heading.focus({ preventScroll: true });
    if (answer.ok) say(text);
    else say(`${otherwise} ${told(answer.refusal, GONE)}`, true);
  }

  async function drop(item) {
    const shown = visible(item.name);
    const sure = await question('Remove for good?', [h('p', {}, named(item.name), ' can’t be put back then.')], [
      { text: 'Cancel', value: null },
      { text: 'Remove for good', value: true, kind: 'main danger' },
    ]);
    if (sure) await done(trash.drop(item.id), `“${shown}” is gone for good.`, `“${shown}” isn’t removed.`);
  }

  async function emptyAll() {
    const count = body.rows.length;
    const sure = await question('Empty the trash?', `${count === 1 ? 'What is in it' : `All ${counted(count, 'thing')}`} can’t be put back then.`, [
      { text: 'Cancel', value: null },
      { text: 'Empty it', value: true, kind: 'main danger' },
    ]);
    if (sure) await done(trash.empty(), 'The trash is empty.', 'The trash isn’t emptied.');
  }

  return { close: () => { over = true; } };
}

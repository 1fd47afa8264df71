// The dialog in which something is shared, and its shares are changed and ended.
import { h, icon, named, visible, field, button, put } from './dom.js';
import { openDialog, formDialog, question } from './dialogs.js';
import { told } from './refusals.js';
import { seen } from './known.js';
import { session } from './session.js';
import {
  TYPE, sharesOf, makeShare, changeShare, endShare, mayInWords, untilInWords, withWhom, whomInText, mayBoxes, dayField, DAY_HINT, copyLink,
} from './shares.js';

const KINDS = [[TYPE.member, 'A member', 'person'], [TYPE.group, 'A group', 'people'], [TYPE.link, 'Anybody with the link', 'link']];

export function suggestions(kind, id) {
  return h('datalist', { id }, ...seen(kind).map((name) => h('option', { value: name })));
}

const fault = (refusal, type) => told(refusal, { missing: type === TYPE.group ? 'There is no group of this name. Capitals count.' : type === TYPE.member ? 'There is no member of this name. Capitals count.' : undefined });

export function openSharing(place, path, entry) {
  const name = path.at(-1);
  const self = openDialog(`Share “${visible(name)}”`, { kind: 'sharing' });
  const status = h('p', { role: 'status', class: 'quiet status' });
  const list = h('ul', { class: 'share-list' });
  const form = h('form', { noValidate: true, on: { submit: sent } });
  put(self.heading, 'Share ', named(name));
  self.content.append(list, form, status);
  form.id = `${self.heading.id}-form`;

  let type = TYPE.member;
  let boxes = null;
  let whom = null;
  let day = null;
  let send = null;
  build();
  refresh();
  whom?.focus();

  function build() {
    boxes = mayBoxes({ kind: entry.kind, type, allowed: entry.permissions });
    day = dayField();
    whom = type === TYPE.link ? null : h('input', { type: 'text', autocomplete: 'off', autocapitalize: 'none', spellcheck: false, list: 'whom' });
    send = h('button', { type: 'submit', class: 'main' }, type === TYPE.link ? 'Make a link' : 'Share');
    send.setAttribute('form', form.id);
    put(self.actions, button('Done', () => self.close()), send);
    put(form,
      h('fieldset', { class: 'kinds' }, h('legend', {}, 'Share it with'), ...KINDS.map(([value, text, drawn]) => h('label', { class: value === type ? 'chosen' : '' },
        h('input', { type: 'radio', name: 'kind', value: String(value), checked: value === type, on: { change: () => choose(value) } }), icon(drawn), h('span', {}, text)))),
      whom && field(type === TYPE.group ? 'Name of the group' : 'Name of the member', whom),
      whom && suggestions(type === TYPE.group ? 'group' : 'member', 'whom'),
      type === TYPE.link && h('p', { class: 'hint' }, 'Whoever has the link gets in without signing in. Give it on by a way that nobody else reads.'),
      boxes.element,
      field('Last day (UTC)', day, DAY_HINT));
  }

  function choose(value) {
    type = value;
    build();
    form.querySelector('input[type=radio]:checked').focus();
  }

  async function sent(event) {
    event.preventDefault();
    if (send.disabled) return;
    self.refuse('');
    const asked = whom;
    const name_ = asked?.value.trim();
    if (asked && !name_) {
      self.refuse('Say with whom to share it.');
      return asked.focus();
    }
    if (day.validity.badInput) return self.refuse('This is no day.');
    send.disabled = true;
    const answer = await makeShare(path, { type, name: name_, permissions: boxes.value(), day: day.value });
    send.disabled = false;
    if (!answer.ok) {
      self.refuse(fault(answer.refusal, type));
      return (whom ?? send).focus();
    }
    // What is allowed stays as it was chosen, for the next one; nothing that stands there is made anew, as one may write on meanwhile.
    status.textContent = type === TYPE.link ? 'The link is made.' : `It is shared with ${visible(name_)}.`;
    if (asked?.isConnected) {
      asked.value = '';
      asked.focus();
    }
    await refresh();
    if ([send, document.body].includes(document.activeElement)) list.querySelector(`[data-share="${answer.data.id}"] button`)?.focus();
  }

  async function refresh() {
    const answer = await sharesOf(path);
    if (!answer.ok) return self.refuse(told(answer.refusal));
    put(list, ...answer.data.map(line));
    list.hidden = !answer.data.length;
  }

  function line(share) {
    const to = whomInText(share);
    const by = share.uid_owner !== session()?.name && h('span', {}, ' · shared on by ', named(share.uid_owner));
    return h('li', { data: { share: share.id } },
      h('div', { class: 'share-words' }, withWhom(share), h('p', { class: 'quiet' }, `${mayInWords(share.permissions, entry.kind)} · ${untilInWords(share)}`, by)),
      h('div', { class: 'share-acts' },
        share.token && button('Copy link', async () => {
          if (await copyLink(share, name)) status.textContent = 'The link is copied.';
        }, { drawn: 'copy' }),
        button('Change', async () => {
          if (await openChange(share, entry.kind, entry.permissions)) {
            status.textContent = 'The share is changed.';
            again(share);
          }
        }, { 'aria-label': `Change the share with ${to}` }),
        button('End', async () => {
          const ended = await openEnd(share, self);
          if (!ended) return;
          status.textContent = 'The share is ended.';
          await refresh();
          (whom ?? send).focus();
        }, { class: 'danger', 'aria-label': `End the share with ${to}` })));
  }

  async function again(share) {
    await refresh();
    list.querySelector(`[data-share="${share.id}"] button:not(.danger)`)?.focus();
  }
}

// Asks, and ends it. True where it was ended.
export async function openEnd(share, { refuse }) {
  const words = share.share_type === TYPE.link ? 'Whoever has the link gets in no more. A new link will be another one.'
    : 'They get in no more, nor does anybody to whom they passed it on. No file is removed.';
  const sure = await question('End this share?', words, [
    { text: 'Cancel', value: null },
    { text: 'End it', value: true, kind: 'main danger' },
  ]);
  if (!sure) return false;
  const answer = await endShare(share);
  if (!answer.ok) refuse(told(answer.refusal, { missing: 'This share is ended already.' }));
  return answer.ok;
}

// True where something was changed. What is left as it was isn't sent: a last day that is over couldn't be given again.
export async function openChange(share, kind, allowed = 31) {
  const boxes = mayBoxes({ kind, type: share.share_type, allowed, value: share.permissions });
  const day = dayField(share.expiration);
  return formDialog(share.share_type === TYPE.link ? 'Change the link' : `Change the share with ${whomInText(share)}`, [boxes.element, field('Last day (UTC)', day, DAY_HINT)], {
    submit: 'Change it',
    act: async () => {
      if (day.validity.badInput) return 'This is no day.';
      const parameters = {
        ...(boxes.value() !== share.permissions && { permissions: boxes.value() }),
        ...(day.value !== (share.expiration ?? '') && { expireDate: day.value }),
      };
      if (!Object.keys(parameters).length) return null;
      const answer = await changeShare(share, parameters);
      if (!answer.ok) return told(answer.refusal, { missing: 'This share is ended.' });
      Object.assign(share, answer.data);
      return null;
    },
  });
}

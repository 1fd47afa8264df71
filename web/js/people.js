// The view of administrators: members, groups, who is in them, quotas and tokens. The server has no list of any of them to ask for.
import { h, field, button, put, say, visible, copyText } from './dom.js';
import { askOcs } from './api.js';
import { session, leave } from './session.js';
import { escaped, faultOf } from './names.js';
import { told } from './refusals.js';
import { saw } from './known.js';
import { suggestions } from './sharing.js';
import { openDialog } from './dialogs.js';
import { exactly } from './format.js';

const ROUTE = '/ocs/v2.php/cloud';
const GIB = 1024 ** 3;

async function asked(method, target, parameters) {
  const answer = await askOcs(method, ROUTE + target, { token: session()?.token, parameters });
  if (!answer.ok && answer.status === 401) leave('token');
  return answer;
}

const text = (given = {}) => h('input', { type: 'text', autocomplete: 'off', autocapitalize: 'none', spellcheck: false, ...given });
const member = () => text({ list: 'members' });
const group = () => text({ list: 'groups' });
const gib = (value = '') => h('input', { type: 'number', min: 0, max: 1024, step: 'any', inputMode: 'decimal', value });

// 192 bits of chance, as letters and digits.
const chance = () => [...crypto.getRandomValues(new Uint8Array(24))].map((one) => one.toString(16).padStart(2, '0')).join('');

const nameFault = (input, what) => (input.value.trim() === '' ? `Give the name of the ${what}.` : faultOf(input.value.trim()));
const tokenFault = (input) => (/^[\x21-\x7e]{1,128}$/.test(input.value.trim()) ? null : 'A token has 1 to 128 letters, digits and signs, and no blanks. “Make a token” makes a good one.');

function bytesOf(input) {
  const bytes = Math.round(input.valueAsNumber * GIB);
  return Number.isFinite(bytes) && bytes >= 0 && bytes <= 1024 * GIB ? bytes : null;
}
const quotaFault = (input) => (bytesOf(input) === null ? 'A quota is a number of GiB, 1,024 at most.' : null);

export function openPeople(main) {
  document.title = 'People – Files';
  const known = h('div', { hidden: true });
  put(main, h('h1', { tabIndex: -1 }, 'People'),
    h('p', { class: 'quiet intro' }, 'The server tells no list of members or groups: keep one. No member, group or token can be taken away again.'),
    h('div', { class: 'cards' }, newMember(), newGroup(), groups(), quotas(), tokens()), known);
  suggest();
  main.setAttribute('aria-busy', 'false');

  function suggest() {
    put(known, suggestions('member', 'members'), suggestions('group', 'groups'));
  }

  // A form with its acts, which are buttons: the first one is meant by the key Enter. Each gives words of what was done, or throws a fault.
  function card(title, hint, fields, acts) {
    const refusal = h('p', { role: 'alert', class: 'refusal' });
    const buttons = acts.map(({ word, act, kind }, index) => h('button', {
      type: index ? 'button' : 'submit', class: kind ?? (index ? '' : 'main'), on: index ? { click: () => run(act) } : {},
    }, word));
    const form = h('form', { noValidate: true, on: { submit: (event) => { event.preventDefault(); run(acts[0].act); } } }, ...fields, refusal, h('div', { class: 'send' }, ...buttons));
    let busy = false;
    async function run(act) {
      if (busy) return;
      busy = true;
      put(refusal);
      const { fault, done } = await act();
      busy = false;
      if (fault) return put(refusal, fault);
      say(done);
      suggest();
    }
    const heading = h('h2', {}, title);
    heading.id = `card-${title.toLowerCase().replaceAll(' ', '-')}`;
    return h('section', { class: 'card', 'aria-labelledby': heading.id }, heading, hint && h('p', { class: 'hint' }, hint), form);
  }

  const refused = (answer, missing) => ({ fault: told(answer.refusal, { missing }) });
  const NONE = 'There is no member of this name. Capitals count.';

  function newMember() {
    const name = text();
    const token = text();
    const quota = gib('10');
    return card('New member', null, [
      field('Name', name, 'It stays: a member can’t be renamed.'),
      tokenField(token),
      field('Quota in GiB', quota),
    ], [{
      word: 'Make the member',
      act: async () => {
        const fault = nameFault(name, 'member') ?? tokenFault(token) ?? quotaFault(quota);
        if (fault) return { fault };
        const [given, secret] = [name.value.trim(), token.value.trim()];
        const answer = await asked('POST', '/users', { userid: given, token: secret, quota: bytesOf(quota) });
        if (!answer.ok) return refused(answer);
        saw('member', given);
        name.value = token.value = '';
        handOver(given, secret);
        return { done: `${visible(given)} is a member now.` };
      },
    }]);
  }

  function newGroup() {
    const name = text();
    return card('New group', 'Members of the group “admin” are administrators.', [field('Name', name)], [{
      word: 'Make the group',
      act: async () => {
        const fault = nameFault(name, 'group');
        if (fault) return { fault };
        const given = name.value.trim();
        const answer = await asked('POST', '/groups', { groupid: given });
        if (!answer.ok) return refused(answer);
        saw('group', given);
        name.value = '';
        return { done: `The group “${visible(given)}” is made.` };
      },
    }]);
  }

  function groups() {
    const who = member();
    const which = group();
    const act = (method, words) => async () => {
      const fault = nameFault(who, 'member') ?? nameFault(which, 'group');
      if (fault) return { fault };
      const [name, into] = [who.value.trim(), which.value.trim()];
      const answer = await asked(method, `/users/${escaped(name)}/groups`, { groupid: into });
      if (!answer.ok) return refused(answer, 'There is no such member, or no such group. Capitals count.');
      saw('member', name);
      saw('group', into);
      return { done: `${visible(name)} ${words} “${visible(into)}” now.` };
    };
    return card('Groups', null, [field('Member', who), field('Group', which)], [
      { word: 'Put in', act: act('POST', 'is in') },
      { word: 'Take out', act: act('DELETE', 'is not in') },
    ]);
  }

  function quotas() {
    const who = member();
    const quota = gib();
    return card('Quota', 'What a member’s files may take up together. A smaller one removes nothing.', [field('Member', who), field('Quota in GiB', quota)], [{
      word: 'Set the quota',
      act: async () => {
        const fault = nameFault(who, 'member') ?? quotaFault(quota);
        if (fault) return { fault };
        const name = who.value.trim();
        const answer = await asked('PUT', `/users/${escaped(name)}`, { key: 'quota', value: bytesOf(quota) });
        if (!answer.ok) return refused(answer, NONE);
        saw('member', name);
        return { done: `${visible(name)} may store ${exactly(bytesOf(quota))} now.` };
      },
    }]);
  }

  function tokens() {
    const who = member();
    const token = text();
    return card('Another token', 'For who has lost theirs. Those that they had are still taken.', [field('Member', who), tokenField(token)], [{
      word: 'Give the token',
      act: async () => {
        const fault = nameFault(who, 'member') ?? tokenFault(token);
        if (fault) return { fault };
        const [name, secret] = [who.value.trim(), token.value.trim()];
        const answer = await asked('PUT', `/users/${escaped(name)}`, { key: 'token', value: secret });
        if (!answer.ok) return refused(answer, NONE);
        saw('member', name);
        token.value = '';
        handOver(name, secret);
        return { done: `${visible(name)} has a further token.` };
      },
    }]);
  }
}

function tokenField(input) {
  const line = field('Token', input);
  const make = button('Make a token', () => {
    input.value = chance();
    input.focus();
  });
  const beside = h('div', { class: 'beside' });
  input.before(beside);
  beside.append(input, make);
  return line;
}

// The token is shown this once: it isn't kept here, and the server can't tell it.
function handOver(name, token) {
  const self = openDialog(`The token of ${visible(name)}`, { kind: 'narrow' });
  const input = h('input', { type: 'text', readOnly: true, value: token, 'aria-label': 'Token' });
  const status = h('p', { role: 'status', class: 'quiet' });
  self.content.append(h('p', {}, 'Tell it to them by a way that nobody else reads. It can’t be shown again.'), input, status);
  self.actions.append(button('Copy the token', async () => {
    const copied = await copyText(token);
    if (!copied) input.select();
    status.textContent = copied ? 'It is copied.' : 'Copy the marked text.';
  }), button('Done', () => self.close(), { class: 'main' }));
}

// The view for who isn't signed in.
import { h, icon, field, check, put } from './dom.js';
import { signIn } from './session.js';
import { told } from './refusals.js';

const WHY = {
  token: 'You are signed out: your token isn’t taken any more. Sign in anew.',
  elsewhere: 'You signed out in another tab.',
  out: 'You are signed out.',
};

export function showSignIn(main, why) {
  document.title = 'Sign in – Files';
  const name = h('input', { type: 'text', name: 'name', autocomplete: 'username', autocapitalize: 'none', spellcheck: false, required: true });
  const token = h('input', { type: 'password', name: 'token', autocomplete: 'current-password', required: true });
  const remember = check('Remember me on this device');
  const refusal = h('p', { role: 'alert', class: 'refusal' });
  const send = h('button', { type: 'submit', class: 'main wide' }, 'Sign in');
  put(main, h('div', { class: 'sign-in-brand' }, h('span', { class: 'brand' }, icon('folder'), h('span', {}, 'filesd'))), h('div', { class: 'sign-in card' },
    h('h1', { tabIndex: -1 }, 'Sign in'),
    h('p', { class: 'quiet' }, WHY[why] ?? 'With the name and the token that your administrator gave you.'),
    h('form', { on: { submit: sent }, noValidate: true },
      field('Name', name),
      field('Token', token),
      remember.line,
      h('p', { class: 'hint' }, 'Only on a device of your own. Otherwise you are signed out when this tab is closed.'),
      refusal, send)));
  main.setAttribute('aria-busy', 'false');
  name.focus();

  async function sent(event) {
    event.preventDefault();
    if (send.disabled) return;
    put(refusal);
    if (!name.value.trim() || !token.value.trim()) {
      put(refusal, 'Give your name and your token.');
      (name.value.trim() ? token : name).focus();
      return;
    }
    send.disabled = true;
    // A blank that came along with a token from a mail isn't part of it.
    const answer = await signIn(name.value.trim(), token.value.trim(), remember.box.checked);
    send.disabled = false;
    if (answer.ok) return;
    const { reason } = answer.refusal;
    put(refusal, reason === 'not-you' ? 'This token is another member’s. Look at the name: capitals count.'
      : reason === 'no-name' ? 'That is no name for a member.' : told(answer.refusal));
    token.focus();
    token.select();
  }
}

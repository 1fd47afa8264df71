// Dialogs: the browser's own, so that the keyboard stays inside, Escape closes, and the focus returns to where it was.
import { h, button, put } from './dom.js';

let numbers = 0;

// An open dialog. `closed` is told what it was closed with; `refuse` says what went wrong, in the dialog.
export function openDialog(title, { kind = '', closed } = {}) {
  const id = `dialog-${++numbers}`;
  const heading = h('h2', { id }, title);
  const refusal = h('p', { role: 'alert', class: 'refusal' });
  const content = h('div', { class: 'content' });
  const actions = h('div', { class: 'actions' });
  const element = h('dialog', { 'aria-labelledby': id, class: kind }, heading, content, refusal, actions);
  const opener = document.activeElement;
  let result = null;

  const self = {
    element, content, actions, heading,
    refuse: (text) => put(refusal, text),
    close: (with_ = null) => {
      result = with_;
      element.close();
    },
  };
  element.addEventListener('close', () => {
    element.remove();
    // What had the focus may have gone meanwhile, with the row that it stood in.
    if (!opener?.isConnected) (document.querySelector('#main h1') ?? document.getElementById('main')).focus({ preventScroll: true });
    closed?.(result);
  });
  // A press on the backdrop closes; one that began inside, as in marking a text, doesn't.
  let pressed = null;
  element.addEventListener('pointerdown', (event) => { pressed = event.target; });
  element.addEventListener('click', (event) => {
    if (event.target === element && pressed === element) self.close();
  });
  document.body.append(element);
  element.showModal();
  return self;
}

// A question with several answers, each `{ text, value, kind }`. Null where it is closed.
export function question(title, content, choices) {
  return new Promise((done) => {
    const self = openDialog(title, { kind: 'narrow', closed: done });
    self.content.append(...[content].flat().map((one) => (typeof one === 'string' ? h('p', {}, one) : one)));
    for (const { text, value, kind } of choices) self.actions.append(button(text, () => self.close(value), { class: kind ?? '' }));
    // Nothing is done by the key Enter alone that can't be undone.
    self.actions.querySelector('button:not(.danger)')?.focus();
  });
}

// A form in a dialog. `act` does it: null where it was done, else what went wrong, in words, and the dialog stays. Meanwhile it can't be sent twice.
export function formDialog(title, fields, { submit, act, kind = 'narrow' }) {
  return new Promise((done) => {
    const self = openDialog(title, { kind, closed: done });
    const send = h('button', { type: 'submit', class: 'main' }, submit);
    const form = h('form', { noValidate: true, on: { submit: sent } }, ...fields);
    form.id = `${self.heading.id}-form`;
    send.setAttribute('form', form.id);
    self.content.append(form);
    self.actions.append(button('Cancel', () => self.close()), send);
    const first = form.querySelector('input:not([type=checkbox])');
    first?.focus();

    async function sent(event) {
      event.preventDefault();
      if (send.disabled) return;
      send.disabled = true;
      self.refuse('');
      const fault = await act();
      send.disabled = false;
      if (fault === null) return self.close(true);
      self.refuse(fault);
      first?.focus();
    }
  });
}

// Marks the stem of a name, without its ending, as one mostly wants to change.
export function markStem(input, isFolder) {
  const dot = input.value.lastIndexOf('.');
  input.setSelectionRange(0, isFolder || dot < 1 ? input.value.length : dot);
}

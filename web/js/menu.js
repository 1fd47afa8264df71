// A menu of acts that opens at a button, and at a point where one pressed the other button of the mouse.
import { h, icon } from './dom.js';

let close = null;

// `items` are `{ text, drawn, act, kind }`.
export function openMenu(anchor, items, point) {
  close?.();
  const menu = h('div', { role: 'menu', class: 'menu', 'aria-label': anchor.getAttribute('aria-label') ?? 'Actions', on: { keydown: key } },
    ...items.map(({ text, drawn, act, kind }) => h('button', {
      type: 'button', role: 'menuitem', tabIndex: -1, class: kind ?? '',
      on: { click: () => { shut(true); act(); } },
    }, icon(drawn), h('span', {}, text))));
  const buttons = [...menu.children];
  document.body.append(menu);
  anchor.setAttribute('aria-expanded', 'true');

  // It stands below the button, or above where there is no room, and never beyond the edge of the window.
  const at = point ? { left: point.x, right: point.x, top: point.y, bottom: point.y } : anchor.getBoundingClientRect();
  const { offsetWidth: width, offsetHeight: height } = menu;
  const left = point ? at.left : at.right - width;
  const top = at.bottom + height + 8 > innerHeight ? at.top - height - 4 : at.bottom + 4;
  menu.style.left = `${Math.max(8, Math.min(left, innerWidth - width - 8))}px`;
  menu.style.top = `${Math.max(8, top)}px`;
  buttons[0].focus({ preventScroll: true });

  const away = (event) => {
    if (!menu.contains(event.target)) shut(false);
  };
  const scrolled = () => shut(true);
  document.addEventListener('pointerdown', away, true);
  addEventListener('scroll', scrolled, { passive: true });
  addEventListener('resize', scrolled);
  addEventListener('hashchange', scrolled);
  close = () => shut(false);

  function shut(back) {
    document.removeEventListener('pointerdown', away, true);
    removeEventListener('scroll', scrolled);
    removeEventListener('resize', scrolled);
    removeEventListener('hashchange', scrolled);
    close = null;
    menu.remove();
    anchor.setAttribute('aria-expanded', 'false');
    if (back && anchor.isConnected) anchor.focus({ preventScroll: true });
  }

  function key(event) {
    const now = buttons.indexOf(document.activeElement);
    const next = { ArrowDown: (now + 1) % buttons.length, ArrowUp: (now + buttons.length - 1) % buttons.length, Home: 0, End: buttons.length - 1 }[event.key];
    if (next !== undefined) buttons[next].focus();
    else if (event.key === 'Escape' || event.key === 'Tab') shut(true);
    else if (event.key.length === 1 && event.key !== ' ') {
      const letter = event.key.toLowerCase();
      [...buttons.slice(now + 1), ...buttons].find((one) => one.textContent.toLowerCase().startsWith(letter))?.focus();
      return;
    } else return;
    event.preventDefault();
  }
}

// Addresses behind `#`: each view has one, so the browser's back and forward lead where one was, at the height where one was.
const heights = new Map();
let count = 0;
let here = null;

// The number of an entry of the history: what has one was shown before.
function mark() {
  const known = history.state?.entry;
  if (known === undefined) history.replaceState({ entry: `${Date.now()}-${count++}` }, '');
  here = history.state.entry;
  return known !== undefined;
}

export function start(show) {
  history.scrollRestoration = 'manual';
  addEventListener('scroll', () => {
    if (here === history.state?.entry) heights.set(here, scrollY);
  }, { passive: true });
  addEventListener('hashchange', () => arrive(show));
  arrive(show);
}

function arrive(show) {
  const before = here;
  const again = mark();
  show(location.hash.slice(1), before === null ? null : { height: again ? heights.get(here) ?? 0 : 0 });
}

export function go(address, replace = false) {
  if (address === location.hash) return;
  if (replace) location.replace(address);
  else location.hash = address;
}

// Files on their way to the server: what is planned before the first one goes, three at a time, and again where a connection broke off.
import { faultOf, freeName } from './names.js';
import { pause, passes } from './api.js';
import { told } from './refusals.js';
import { size } from './format.js';
import { LARGEST } from './places.js';
import { whatIfThere } from './acts.js';
import { say } from './dom.js';
import { drawPanel } from './progress.js';
import { onChange } from './session.js';

const AT_ONCE = 3;
const TURNS = 8;

let items = [];
let running = 0;
const watchers = new Set();

// `act` is told the place and the folder in which something was stored.
export function onStored(act) {
  watchers.add(act);
  return () => watchers.delete(act);
}

export const uploadsRunning = () => items.some((item) => item.state === 'waiting' || item.state === 'running');

onChange((_, why) => {
  if (why !== 'in') cancelAll();
});

const keyOf = (path) => path.join('/');

// What is known of the folders that the files go to: for each its names, or why there is none.
async function prepare(where, wanted, known) {
  const { place, path } = where;
  const answer = await place.list(path);
  if (!answer.ok) return answer.refusal;
  known.set('', { names: new Map(answer.entries.map((entry) => [entry.name, entry.kind])) });
  const folders = new Map();
  for (const { path: to, folder } of wanted) {
    for (let length = 1; length <= to.length - (folder ? 0 : 1); length++) folders.set(keyOf(to.slice(0, length)), to.slice(0, length));
  }
  for (const [key, to] of [...folders].sort(([, a], [, b]) => a.length - b.length)) {
    known.set(key, await folder(where, to, known));
  }
  // What is on its way there already isn't listed yet.
  for (const item of items) {
    if (item.where.place !== place || keyOf(item.where.path) !== keyOf(path) || !['waiting', 'running'].includes(item.state)) continue;
    known.get(keyOf(item.path.slice(0, -1)))?.names?.set(item.path.at(-1), 'file');
  }
  return null;
}

async function folder({ place, path }, to, known) {
  const above = known.get(keyOf(to.slice(0, -1)));
  if (above.fault) return above;
  const kind = above.names.get(to.at(-1));
  if (kind === 'file') return { fault: 'A file has the name of the folder that it should go into.' };
  const answer = kind === 'folder' ? await place.list([...path, ...to]) : await place.make([...path, ...to]);
  if (answer.ok) {
    above.names.set(to.at(-1), 'folder');
    return { names: new Map((answer.entries ?? []).map((entry) => [entry.name, entry.kind])) };
  }
  return { fault: told(answer.refusal) };
}

export async function upload(where, found) {
  const about = { who: where.owner };
  const failed = (one, fault) => ({ ...one, where, state: 'failed', fault, sent: 0, final: true });
  const bad = [];
  const good = [];
  for (const one of found) {
    const fault = one.path.map(faultOf).find(Boolean)
      ?? (one.folder ? null : !one.file ? 'It can’t be read.' : one.file.size > LARGEST ? `It is ${size(one.file.size - LARGEST)} larger than what this page can send, which is 16 MiB.` : null);
    if (fault) bad.push(failed(one, fault));
    else good.push(one);
  }
  const known = new Map();
  if (good.length) {
    say(`Looking where ${good.length === 1 ? 'it goes' : 'they go'} …`);
    const refusal = await prepare(where, good, known);
    if (refusal) return say(`Nothing is uploaded. ${told(refusal, about)}`, true);
    say('');
  }
  const ready = [];
  const clashes = [];
  for (const one of good.filter((each) => each.file)) {
    const { names, fault } = known.get(keyOf(one.path.slice(0, -1)));
    const kind = names?.get(one.path.at(-1));
    if (fault) bad.push(failed(one, fault));
    else if (kind === 'folder') bad.push(failed(one, 'A folder has that name already.'));
    else if (kind) clashes.push(one);
    else {
      names.set(one.path.at(-1), 'new');
      ready.push(one);
    }
  }
  if (clashes.length) {
    const how = await whatIfThere(clashes.map((one) => one.path.at(-1)));
    for (const one of clashes) {
      const { names } = known.get(keyOf(one.path.slice(0, -1)));
      // Two files of one name in what is uploaded are two files, whatever was answered of those that are there.
      if (how === 'both' || (how === 'replace' && names.get(one.path.at(-1)) === 'new')) {
        one.path = [...one.path.slice(0, -1), freeName(one.path.at(-1), names)];
        names.set(one.path.at(-1), 'new');
      }
      if (how !== 'skip') ready.push(one);
    }
  }
  if (!uploadsRunning()) items = items.filter((item) => item.state === 'failed');
  for (const one of ready) items.push({ ...one, where, about, state: 'waiting', sent: 0, turn: 0, stop: new AbortController() });
  items.push(...bad);
  if (good.some((one) => one.folder || one.path.length > 1)) stored(where);
  draw();
  for (let count = 0; count < AT_ONCE; count++) work();
}

async function work() {
  if (running >= AT_ONCE) return;
  const item = items.find((one) => one.state === 'waiting');
  if (!item) return;
  running++;
  item.state = 'running';
  draw();
  const answer = await send(item);
  running--;
  if (item.state === 'running') {
    item.state = answer.ok ? 'done' : answer.refusal.reason === 'cancelled' ? 'cancelled' : 'failed';
    item.fault = answer.ok ? null : answer.refusal.reason === 'unreadable' ? 'It can’t be read any more.' : told(answer.refusal, item.about);
  }
  item.sent = item.file.size;
  if (answer.ok) stored(item.where);
  draw();
  if (!uploadsRunning()) finished();
  work();
}

// What is stored is the same whether it is sent once or twice, so a broken connection and an answer that got lost are made good by sending anew.
async function send(item) {
  for (;;) {
    try {
      await item.file.slice(0, 1).arrayBuffer();
    } catch {
      return { ok: false, refusal: { reason: 'unreadable' } };
    }
    const answer = await item.where.place.store([...item.where.path, ...item.path], item.file, (sent) => {
      item.sent = sent;
      draw();
    }, item.stop.signal);
    const broken = !answer.ok && (['offline', 'away', 'late'].includes(answer.refusal.reason) || passes(answer.status, answer.refusal));
    if (!broken || item.turn >= TURNS) return answer;
    item.turn++;
    item.sent = 0;
    item.broken = true;
    draw();
    await again(item);
    item.broken = false;
    if (item.stop.signal.aborted) return { ok: false, refusal: { reason: 'cancelled' } };
  }
}

// Waits longer from turn to turn, and no longer than until the connection is there again or the file is wanted no more.
function again(item) {
  return Promise.race([
    pause(Math.min(500 * 2 ** item.turn, 15_000)),
    new Promise((done) => addEventListener('online', done, { once: true })),
    new Promise((done) => item.stop.signal.addEventListener('abort', done, { once: true })),
  ]);
}

const due = new Map();

// Whoever shows the folder looks anew: soon behind the last file, and meanwhile not more often than every other second.
function stored({ place, path }) {
  const key = `${place.base} ${keyOf(path)}`;
  const more = uploadsRunning();
  if (more && due.has(key)) return;
  clearTimeout(due.get(key));
  due.set(key, setTimeout(() => {
    due.delete(key);
    watchers.forEach((act) => act(place, path));
  }, more ? 2000 : 50));
}

function finished() {
  const done = items.filter((item) => item.state === 'done').length;
  const failed = items.filter((item) => item.state === 'failed').length;
  if (done) say(`${done === 1 ? 'One file is' : `${done} files are`} uploaded.${failed ? ` ${failed} failed.` : ''}`);
  if (!failed) {
    setTimeout(() => {
      // Meanwhile a later upload may be under way, or have failed, which somebody has to read.
      if (!uploadsRunning() && !items.some((item) => item.state === 'failed')) clear();
    }, 2500);
  }
}

export function cancel(item) {
  item.stop?.abort();
  if (item.state === 'waiting') item.state = 'cancelled';
  draw();
}

export function cancelAll() {
  items.filter((item) => item.state === 'waiting' || item.state === 'running').forEach(cancel);
}

export function tryAgain(item) {
  Object.assign(item, { state: 'waiting', sent: 0, turn: 0, fault: null, stop: new AbortController() });
  draw();
  work();
}

export function clear() {
  items = [];
  draw();
}

let waiting = false;
function draw() {
  if (waiting) return;
  waiting = true;
  requestAnimationFrame(() => {
    waiting = false;
    drawPanel(items, { cancel, cancelAll, tryAgain, clear });
  });
}

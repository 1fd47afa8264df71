// Names and paths. A path is a list of names. What the server has is asked for as it is; what is new is in Unicode's form C, so that a
// name from a Mac and the same one from elsewhere are one file.
const bytes = new TextEncoder();

export const byteLength = (text) => bytes.encode(text).length;

// What a name may not be, in words; null where it may be.
export function faultOf(name) {
  if (name === '') return 'Give it a name.';
  if (name === '.' || name === '..') return 'A name can’t be one or two dots.';
  if (/[/\\]/.test(name)) return 'A name can’t have a slash or a backslash in it.';
  if (name.includes('\0')) return 'A name can’t have a zero byte in it.';
  if (name.toLowerCase() === '.htaccess') return 'This name is not allowed here.';
  if (name.isWellFormed && !name.isWellFormed()) return 'This name is no valid text.';
  const length = byteLength(name);
  if (length > 240) return `This name is ${length - 240} ${length === 241 ? 'byte' : 'bytes'} too long: it may have 240.`;
  return null;
}

export const formC = (name) => name.normalize('NFC');

// One segment of a target. What encodeURIComponent leaves alone may stand in a path, too.
export const escaped = (name) => encodeURIComponent(name);

export const escapedPath = (path) => path.map((name) => '/' + escaped(name)).join('');

// The names of an escaped path; null where an escape is none, as in an address that was cut.
export function unescapedPath(text) {
  try {
    return text.split('/').filter((one) => one !== '').map(decodeURIComponent);
  } catch {
    return null;
  }
}

// The name, or the first of "name (2).txt", "name (3).txt" .. that isn't taken. It is cut where it gets too long.
export function freeName(name, taken) {
  if (!taken.has(name)) return name;
  const dot = name.lastIndexOf('.');
  const [stem, end] = dot > 0 ? [name.slice(0, dot), name.slice(dot)] : [name, ''];
  for (let number = 2; ; number++) {
    const behind = ` (${number})${end}`;
    let before = [...stem];
    while (before.length && byteLength(before.join('') + behind) > 240) before.pop();
    const free = before.join('') + behind;
    if (!taken.has(free)) return free;
  }
}

export const endingOf = (name) => (name.lastIndexOf('.') > 0 ? name.slice(name.lastIndexOf('.') + 1).toLowerCase() : '');

// What was chosen or dropped, as a list of `{ path, file }` and, of folders that are empty, `{ path, folder: true }`. Names get their form C here.
import { formC } from './names.js';

export function picked(files) {
  return [...files].map((file) => ({ path: (file.webkitRelativePath || file.name).split('/').map(formC), file }));
}

// What was dropped has to be taken hold of at once: after the first wait the browser has let go of it.
export async function dropped(transfer) {
  const entries = [...transfer.items].filter((item) => item.kind === 'file').map((item) => item.webkitGetAsEntry?.() ?? item.getAsFile());
  const found = [];
  for (const entry of entries) {
    if (entry instanceof File) found.push({ path: [formC(entry.name)], file: entry });
    else if (entry) await walk(entry, [], found);
  }
  return found;
}

async function walk(entry, above, found) {
  const path = [...above, formC(entry.name)];
  if (entry.isFile) {
    const file = await new Promise((done) => entry.file(done, () => done(null)));
    found.push({ path, file });
    return;
  }
  // A folder is read in parts, of which the last one is empty.
  const reader = entry.createReader();
  let count = 0;
  for (;;) {
    const part = await new Promise((done) => reader.readEntries(done, () => done([])));
    if (!part.length) break;
    count += part.length;
    for (const one of part) await walk(one, path, found);
  }
  if (!count) found.push({ path, folder: true });
}

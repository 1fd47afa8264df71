// What can be looked at here, by the ending of a name. Pictures are those that are only pictures: SVG and HTML are shown as the text that they
// are written in, since a browser would run what is in them.
import { endingOf } from './names.js';

const IMAGES = { png: 'png', jpg: 'jpeg', jpeg: 'jpeg', gif: 'gif', webp: 'webp', avif: 'avif', bmp: 'bmp', ico: 'x-icon' };
const TEXTS = new Set(('txt text md markdown rst adoc csv tsv json jsonl xml html htm xhtml svg css js mjs ts jsx tsx py rs rt c h cc cpp hpp java kt go rb php pl lua '
  + 'sh bash zsh fish bat ps1 sql toml yaml yml ini cfg conf env log tex bib ics vcf eml srt vtt diff patch properties gpx geojson').split(' '));

export function kindOf(name) {
  const ending = endingOf(name);
  if (Object.hasOwn(IMAGES, ending)) return { kind: 'image', type: `image/${IMAGES[ending]}`, drawn: 'image' };
  if (ending === 'pdf') return { kind: 'pdf', type: 'application/pdf', drawn: 'text' };
  if (TEXTS.has(ending)) return { kind: 'text', drawn: 'text' };
  return { kind: 'other', drawn: 'file' };
}

// The text of these bytes; null where they are none.
export function textOf(bytes) {
  const head = new Uint8Array(bytes, 0, Math.min(bytes.byteLength, 2));
  const is16 = (head[0] === 0xff && head[1] === 0xfe) || (head[0] === 0xfe && head[1] === 0xff);
  try {
    const text = new TextDecoder(is16 ? (head[0] === 0xff ? 'utf-16le' : 'utf-16be') : 'utf-8', { fatal: true }).decode(bytes);
    return text.includes('\0') ? null : text;
  } catch {
    return null;
  }
}

// Sizes, moments and days, as they are read.
const UNITS = ['bytes', 'KiB', 'MiB', 'GiB', 'TiB'];
const whole = new Intl.NumberFormat();
const one = new Intl.NumberFormat(undefined, { maximumFractionDigits: 1 });
const moment = new Intl.DateTimeFormat(undefined, { dateStyle: 'medium', timeStyle: 'short' });
const shortDay = new Intl.DateTimeFormat(undefined, { dateStyle: 'medium' });
const utcDay = new Intl.DateTimeFormat(undefined, { dateStyle: 'medium', timeZone: 'UTC' });

export function size(bytes) {
  if (bytes === 1) return '1 byte';
  let unit = 0;
  let shown = bytes;
  while (shown >= 1024 && unit < UNITS.length - 1) {
    shown /= 1024;
    unit++;
  }
  return `${shown < 10 && unit ? one.format(shown) : whole.format(Math.round(shown))} ${UNITS[unit]}`;
}

export const exactly = (bytes) => (bytes === 1 ? '1 byte' : `${whole.format(bytes)} bytes`);

export const number = (count) => whole.format(count);

// The second zero is that of the demonstration's rows: they have no date.
export const date = (seconds) => (seconds ? moment.format(new Date(seconds * 1000)) : '–');

export const day = (seconds) => (seconds ? shortDay.format(new Date(seconds * 1000)) : '–');

// A last day as the server has it, "2031-12-24": a day of UTC.
export const lastDay = (text) => `${utcDay.format(new Date(`${text}T00:00:00Z`))} (UTC)`;

export const todayInUtc = () => new Date().toISOString().slice(0, 10);

export const counted = (count, single, many = `${single}s`) => `${whole.format(count)} ${count === 1 ? single : many}`;

export function listed(words) {
  return words.length < 2 ? words.join('') : `${words.slice(0, -1).join(', ')} and ${words.at(-1)}`;
}

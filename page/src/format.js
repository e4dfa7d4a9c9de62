// Numbers as texts, and as places on an axis.

export const clamp = (low, number, high) => Math.max(low, Math.min(high, number));

const digits = new Intl.NumberFormat("en-US", { maximumFractionDigits: 3 });

export const grouped = (number) => digits.format(number).replaceAll(",", "\u202f");
export const percent = (part, decimals = 1) => `${(part * 100).toFixed(decimals)}%`;
export const counted = (number, one, many = `${one}s`) => `${grouped(number)} ${number === 1 ? one : many}`;

export const some = (texts, most) => texts.slice(0, most).join(", ") + (texts.length > most ? " …" : "");
export const cut = (text, length) => (text.length > length ? `${text.slice(0, Math.max(1, length - 1))}…` : text);

/** Places of the numbers from `from` to `to` on `span` pixels behind `left`. */
export class Scale {
  constructor(from, to, left, span) {
    Object.assign(this, { from, to, left, span });
  }

  place(number) {
    return this.left + ((number - this.from) / (this.to - this.from)) * this.span;
  }

  number(place) {
    return this.from + ((place - this.left) / this.span) * (this.to - this.from);
  }

  /** Marks, so many pixels apart or more: multiples of 1, 2 or 5 times a power of ten. */
  marks(apart) {
    const most = Math.max(2, Math.abs(this.span) / apart);
    const step = stepOf((this.to - this.from) / most);
    const first = Math.ceil(this.from / step);
    const count = Math.floor(this.to / step + 1e-9) - first + 1;
    return Array.from({ length: count }, (_, i) => Number(((first + i) * step).toPrecision(12)));
  }
}

/** The least of 1, 2 or 5 times a power of ten that is at least this. */
export function stepOf(least) {
  const power = 10 ** Math.floor(Math.log10(Math.max(least, 1e-6)));
  return power * [1, 2, 5, 10].find((factor) => factor * power >= least * (1 - 1e-9));
}

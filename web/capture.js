// Half-bits, and captures in the format of docs/FORMATS.md. Nothing here is proved.

const MOST_HALVES = 16777216;
const MOST_BYTES = 67108864;
const LONGEST = 65535;

/** Creates a buffer that grows without a copy. */
const growing = (most) => new ArrayBuffer(4096, { maxByteLength: most });

/** The longest half of a zero, in microseconds. */
const LONGEST_ZERO = 10000;

/** A list of half-bits. Places count from 0. */
class Halves {
  constructor({ count = 0, long = 0, buffer = growing(2 * MOST_HALVES) } = {}) {
    this.count = count;
    // the number of half-bits that are longer than half of a zero
    this.long = long;
    this.us = new Uint16Array(buffer);
  }

  /** Adds n half-bits of a duration in microseconds. Returns false, and adds none, if there would be too many. */
  push(us, n) {
    const end = this.count + n;
    if (end > MOST_HALVES) return false;
    while (end > this.us.length) this.grow();
    if (us > LONGEST_ZERO) this.long += n;
    if (n === 1) this.us[this.count] = us;
    else this.us.fill(us, this.count, end);
    this.count = end;
    return true;
  }

  /** Adds the first n durations of a block, none of which is longer than half of a zero. Returns false if there would
   * be too many, and then adds only as many as there may be. */
  pushBlock(block, n) {
    const end = Math.min(this.count + n, MOST_HALVES);
    while (end > this.us.length) this.grow();
    this.us.set(block.subarray(0, end - this.count), this.count);
    const isAll = end === this.count + n;
    this.count = end;
    return isAll;
  }

  grow() {
    const { buffer } = this.us;
    buffer.resize(Math.min(2 * buffer.byteLength, buffer.maxByteLength));
  }

  /** Returns a list of the durations from one place up to another place, which is excluded. */
  slice(from, to) {
    return [...this.us.subarray(from, Math.min(to, this.count))];
  }
}

/** Returns true if more than half of the half-bits are longer than half of a zero. */
const isInNanoseconds = (halves) => 2 * halves.long > halves.count;

/** A text with an error: the error code as `dcc` writes it, if it has one, and a sentence. */
const refusal = (fault, text) => ({ fault, text });

const tooLong = () =>
  refusal(
    'dcc: U7 input too long',
    'The capture is too long. The page shows the part within the limits: 16,777,216 half-bits and 64 MiB.',
  );

const [TAB, FEED, RETURN, BLANK, HASH, STAR, DIGIT] = [9, 10, 13, 32, 35, 42, 48];
const isGap = (byte) => byte === BLANK || byte === FEED || byte === TAB || byte === RETURN;

/** Returns the place after the word that begins at a place. */
const endOfWord = (bytes, at) => {
  let end = at;
  while (end < bytes.length && !isGap(bytes[end]) && bytes[end] !== HASH) end += 1;
  return end;
};

/** Returns the number in bytes[from..to], or -1 if these are not digits or more digits than allowed. */
const numberIn = (bytes, from, to, digits) => {
  if (from === to || to - from > digits) return -1;
  let number = 0;
  for (let at = from; at < to; at += 1) {
    const digit = bytes[at] - DIGIT;
    if (digit < 0 || digit > 9) return -1;
    number = 10 * number + digit;
  }
  return number;
};

/** Adds the half-bits of the word bytes[from..to], `us` or `us*n`. Returns null if the word is no run, and false if
 * there would be too many half-bits. */
const pushWord = (halves, bytes, from, to) => {
  let star = from;
  while (star < to && bytes[star] !== STAR) star += 1;
  const us = numberIn(bytes, from, star, 10);
  const n = star === to ? 1 : numberIn(bytes, star + 1, to, 8);
  return us < 0 || n < 1 || n > MOST_HALVES ? null : halves.push(Math.min(us, LONGEST), n);
};

/** Returns the captures before and after the first line `---`, or null if there is no such line. */
const cutAtDashes = (text) => {
  const [, before, behind] = text.match(/^([^]*?\n|)[ \t\r]*---[ \t\r]*(?:#[^\n]*)?(?:\n([^]*))?$/) ?? [];
  return before === undefined ? null : [before, behind ?? ''];
};

/** Returns the error of a word, and whether a second capture follows it. */
const badWord = (bytes, line, from, to) => {
  const word = textOf(bytes.subarray(from, to));
  const isTwo = word === '---' && cutAtDashes(textOf(bytes)) !== null;
  const shown = word.length > 40 ? `${word.slice(0, 40)}…` : word;
  const more = isTwo ? ' Behind this line stands a second capture, as “dcc same” reads it.' : '';
  const refused = refusal(
    `dcc: U2 line ${line}: bad number`,
    `Line ${line}: “${shown}” is no duration. ` +
      `A word of a capture is a whole number of microseconds, as 58, or a run of them, as 58*28.${more}`,
  );
  return { refused, isTwo };
};

/** The number of half-bits of a block. A block has a fixed size, so a browser writes to it faster than to half-bits. */
const BLOCK = 65536;

const NO_NUMBER = 255;

/** The numbers of two digits, by the two bytes of the digits as a little-endian number. */
const TWO_DIGITS = new Uint8Array(65536).fill(NO_NUMBER);
for (let tens = 0; tens < 10; tens += 1) {
  for (let ones = 0; ones < 10; ones += 1) TWO_DIGITS[DIGIT + tens + 256 * (DIGIT + ones)] = 10 * tens + ones;
}

/** Reads durations of two or three digits from a place of a view on, up to any other word, and adds them to a block. A
 * space or a line feed ends each of them. Returns the place after them, their number, and the number of line feeds. */
const shortDurations = (view, from, block) => {
  // (this loop reads almost all half-bits: it reads four bytes at once, and no branch depends on the number of digits)
  const last = view.byteLength - 4;
  let [at, n, lines] = [from, 0, 0];
  while (n < BLOCK && at <= last) {
    const word = view.getInt32(at, true);
    const number = TWO_DIGITS[word & 0xffff];
    const third = ((word >> 16) & 0xff) - DIGIT;
    // 1 if the third byte can be a digit, otherwise 0
    const more = 1 + (third >> 31);
    const behind = (word >>> (16 + 8 * more)) & 0xff;
    if (number === NO_NUMBER || third > 9) break;
    if (behind === FEED) lines += 1;
    else if (behind !== BLANK) break;
    block[n] = number * (1 + 9 * more) + third * more;
    n += 1;
    at += 3 + more;
  }
  return [at, n, lines];
};

/** Reads a capture. Of a capture with too many bytes it reads the first bytes. The word that the limit cuts does not
 * count. */
const readCapture = (all, tell = () => {}) => {
  const [halves, isCut] = [new Halves(), all.length > MOST_BYTES];
  const bytes = isCut ? all.subarray(0, MOST_BYTES) : all;
  const view = new DataView(bytes.buffer, bytes.byteOffset, bytes.length);
  const block = new Uint16Array(BLOCK);
  let line = 1;
  for (let at = 0, next = TOLD_EACH; at < bytes.length; ) {
    if (at >= next) {
      tell(at / bytes.length);
      next = at + TOLD_EACH;
    }
    const [end, n, lines] = shortDurations(view, at, block);
    if (n > 0) {
      if (!halves.pushBlock(block, n)) return { halves, refused: tooLong() };
      [at, line] = [end, line + lines];
    } else if (bytes[at] === HASH) {
      const feed = bytes.indexOf(FEED, at);
      at = feed < 0 ? bytes.length : feed;
    } else if (isGap(bytes[at])) {
      if (bytes[at] === FEED) line += 1;
      at += 1;
    } else {
      const end = endOfWord(bytes, at);
      if (isCut && end === bytes.length) break;
      const isPushed = pushWord(halves, bytes, at, end);
      if (isPushed === null) return { halves, ...badWord(bytes, line, at, end) };
      if (!isPushed) return { halves, refused: tooLong() };
      at = end;
    }
  }
  return { halves, refused: isCut ? tooLong() : null };
};

const textOf = (bytes) => new TextDecoder('utf-8', { ignoreBOM: true }).decode(bytes);

/** The number of characters or bytes that are read between two reports to the page. */
const TOLD_EACH = 2000000;

/** Calls `take` for each line of a text that is not empty, with the number of the line from 1. Ends if `take` returns
 * false. */
const takeLines = (text, take, tell = () => {}) => {
  for (let line = 1, at = 0, next = TOLD_EACH; at < text.length; line += 1) {
    const feed = text.indexOf('\n', at);
    const end = feed < 0 ? text.length : feed;
    if (end > at && !take(text.slice(at, end), line)) return;
    if (end >= next) {
      tell(end / text.length);
      next = end + TOLD_EACH;
    }
    at = end + 1;
  }
};

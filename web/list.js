// The outcomes and lost packets that the table shows: those that match the filter. If repeats are folded, only the
// first of successive equal items is shown.

// the kinds of packets, in the order of include/dcc.h
const ALL_KINDS = [...Array(13).keys()];
const [
  IDLE, RESET, SPEED28, SPEED128, FUNCTION, STATE, CV_WRITE, CV_VERIFY, CV_BIT_WRITE, CV_BIT_VERIFY, ACCESSORY, SIGNAL,
  OTHER,
] = ALL_KINDS;

/** The choices of the filter, each with its kinds of packets, and whether it shows refusals too. */
const KINDS = {
  all: { name: 'all', kinds: ALL_KINDS, withRefusals: true },
  busy: { name: 'all but idle', kinds: ALL_KINDS.slice(1), withRefusals: true },
  refusals: { name: 'refusals', kinds: [], withRefusals: true },
  lost: { name: 'lost packets', kinds: ALL_KINDS, isLost: true },
  packets: { name: 'packets', kinds: ALL_KINDS, isLost: false },
  idle: { name: 'idle', kinds: [IDLE] },
  reset: { name: 'reset', kinds: [RESET] },
  speed: { name: 'speed', kinds: [SPEED28, SPEED128] },
  functions: { name: 'functions', kinds: [FUNCTION] },
  states: { name: 'binary states', kinds: [STATE] },
  cvs: { name: 'CVs', kinds: [CV_WRITE, CV_VERIFY, CV_BIT_WRITE, CV_BIT_VERIFY] },
  accessories: { name: 'accessories', kinds: [ACCESSORY] },
  signals: { name: 'signals', kinds: [SIGNAL] },
  others: { name: 'other frames', kinds: [OTHER] },
};

/** Returns a test of frames that computes each frame once. */
const once = (test) => {
  const known = new Map();
  return (bytes) => {
    if (!known.has(bytes)) known.set(bytes, test(bytes));
    return known.get(bytes);
  };
};

/** Returns true if an item matches the filter: its kind, and a decoder if one is named. A refusal matches each decoder.
 * A lost packet matches as if a decoder had heard it. */
const wantedBy = (dcc, kind, decoder, found = () => true) => {
  const { kinds, withRefusals, isLost } = KINDS[kind];
  const isOfKind = once((bytes) => kinds.includes(dcc.kind(bytes)));
  const isForIt = once((bytes) => !decoder || dcc.hears(decoder, bytes));
  return (item) => {
    const { refusal, bytes, lost } = item;
    if (!found(item)) return false;
    if (refusal) return Boolean(withRefusals);
    return (isLost === undefined || isLost === Boolean(lost)) && isOfKind(bytes) && isForIt(bytes);
  };
};

/** Returns a test of items: their words, their words for people, or their bytes have a text. Blanks between digits of
 * bytes do not count. */
const finderOf = (dcc, text) => {
  const words = text.trim().toLowerCase();
  const digits = words.replace(/\s+/g, '');
  if (!words) return () => true;
  const isFound = once((bytes) => peopleWords(dcc, bytes).toLowerCase().includes(words));
  return (item) => {
    const hasBytes = /^[0-9a-f]+$/.test(digits) && hex(item.bytes).includes(digits);
    return hasBytes || told(dcc, item).toLowerCase().includes(words) || (!item.refusal && isFound(item.bytes));
  };
};

/** Returns the place of a half-bit that a text names: its number, or a time in seconds (s), milliseconds (ms) or
 * microseconds (us). Returns the number of an item that ends there or later, or null. */
const itemAt = (items, text) => {
  const [, number, unit] = text.trim().match(/^([0-9]+(?:\.[0-9]+)?) *(s|ms|us|µs)?$/) ?? [];
  if (number === undefined) return null;
  const times = { s: 1e6, ms: 1e3, us: 1, µs: 1 };
  const isThere = unit ? (it) => it.time >= number * times[unit] : (it) => it.at >= Number(number);
  const at = items.findIndex(isThere);
  return at < 0 ? items.length - 1 : at;
};

/** Returns true if an item has the row of the item before it. Where half-bits are missing, a row begins. */
const isRepeat = (a, b) => {
  const [one, other] = [a, b].map((it) => (it.lost ? causesText(it.lost) : ''));
  return a.refusal === b.refusal && a.bytes === b.bytes && one === other && !b.gaps;
};

/** The rows of items that come part by part: the place of the first item, the place of the last one, and their number.
 * Equal frames are one list. */
class Rows {
  constructor(items, isWanted, isFolded) {
    Object.assign(this, { items, isWanted, isFolded, list: [], read: 0, shown: 0 });
  }

  /** Adds the rows of the items that have come since the last call. */
  take() {
    const { items } = this;
    for (; this.read < items.length; this.read += 1) if (this.isWanted(items[this.read])) this.add(items, this.read);
    return this;
  }

  add(items, i) {
    const last = this.list[this.list.length - 1];
    this.shown += 1;
    if (this.isFolded && last && isRepeat(items[last.last], items[i])) {
      last.last = i;
      last.times += 1;
    } else {
      this.list.push({ first: i, last: i, times: 1 });
    }
  }
}

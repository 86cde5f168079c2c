// SPDX-License-Identifier: MIT OR Apache-2.0
/**
 * Digital Command Control (DCC) for JavaScript: packets in half-bits, statistics, packet lines, frames, decoders,
 * service mode, a command station.
 *
 * The module dcc.wasm is the library for C, compiled for 32-bit WebAssembly. Its functions are proved (docs/C.md).
 * This file calls them. This file and the conversion to 32 bits are tested, not proved.
 */

const readModule = async () => {
  const place = new URL('dcc.wasm', import.meta.url);
  if (place.protocol !== 'file:') return (await fetch(place)).arrayBuffer();
  const { readFile } = await import('node:fs/promises');
  return readFile(place);
};

const { instance } = await WebAssembly.instantiate(await readModule(), {});
const calls = instance.exports;

/** The memory of the module for one call after the other. Each object is kept outside, and copied in for a call. */
const OBJECT_BYTES = 1801;
const MANY = 32768;
const sizes = {
  object: OBJECT_BYTES, frame: 7, lost: 28, out: 32, line: 41, packet: 16, text: 256, cvs: 1024, timing: 8, taken: 8, statistics: 280,
  halves: 2 * MANY,
};
const places = {};
let end = (calls.__heap_base.value + 15) & ~15;
for (const [name, bytes] of Object.entries(sizes)) {
  places[name] = end;
  end += (bytes + 15) & ~15;
}
let memory;
/** Grows the memory to a number of bytes. */
const reserve = (bytes) => {
  const lacking = Math.ceil((bytes - calls.memory.buffer.byteLength) / 65536);
  if (lacking > 0) calls.memory.grow(lacking);
  memory = new Uint8Array(calls.memory.buffer);
};
reserve(end);
function view() {
  return new DataView(calls.memory.buffer);
}

const HALVES_MOST = 16_777_216;
const BYTES_MOST = 67_108_864;
const HIGHEST = 65535;
// a run, a comment, a line feed, or a word that is no run
const WORDS = /([0-9]{1,10})(?:\*([0-9]{1,8}))?(?![^ \t\r\n#])|#[^\n]*|\n|[^ \t\r\n#]+/g;

/** An error code of the library or of a capture, in `code` and `message`: H6, L1, P10, C4, `U2 line 3: bad number`. */
export class Refused extends Error {
  constructor(code) {
    super(code);
    this.name = 'Refused';
    this.code = code;
  }
}

const check = (answer, letter) => {
  if (answer) throw new Refused(`${letter}${answer}`);
};

/** Returns a number. Errors: TypeError if it is no integer, RangeError if it is not `least` to `most`. */
const checkedNumber = (name, number, least, most = Infinity) => {
  if (!Number.isInteger(number)) throw new TypeError(`${name} is an integer, not ${String(number)}`);
  if (number < least || number > most) {
    const limits = most === Infinity ? `${least} or more` : `${least} to ${most}`;
    throw new RangeError(`${name} is ${limits}, not ${number}`);
  }
  return number;
};

const checkedBytes = (name, items) => {
  if (items instanceof Uint8Array) return items;
  if (!Array.isArray(items)) throw new TypeError(`${name} is a Uint8Array or a list of bytes`);
  return Uint8Array.from(items, (it) => checkedNumber(`a byte of ${name}`, it, 0, 255));
};

const checkedHalf = (us) => Math.min(checkedNumber('a half-bit', us, 0), HIGHEST);

const checkedText = (name, text) => {
  if (typeof text !== 'string') throw new TypeError(`${name} is a string`);
  return text;
};

/** Copies the bytes of a frame into the memory of the module. Returns the arguments of a function that takes a frame.
 * All frames of more than 7 bytes are refused in the same way, so only 7 bytes of such a frame are copied. */
const laid = (frame) => {
  const bytes = checkedBytes('a frame', frame);
  memory.set(bytes.subarray(0, 7), places.frame);
  return [places.frame, BigInt(bytes.length)];
};

/** Returns the frame at a place of the memory: its length and then its bytes. */
const frameAt = (at) => memory.slice(at + 1, at + 1 + memory[at]);

/** Makes a call on an object that is kept outside of the memory. */
const withObject = (object, call) => {
  memory.set(object, places.object);
  const answer = call(places.object);
  object.set(memory.subarray(places.object, places.object + object.length));
  return answer;
};

const LOCO_OR_NONE = ['', 's', 'l'];

/** Returns the kind and the number of an address: 'all', 's3' or 'l1000'. Errors: Refused with P10 if the text is none
 * of these, P11 if its number is above 65535. */
const addressOf = (address) => {
  if (checkedText('an address', address) === 'all') return [0, 0];
  const [, kind, digits] = /^([sl])([0-9]{1,5})$/.exec(address) ?? [];
  if (kind === undefined) throw new Refused('P10');
  if (Number(digits) > HIGHEST) throw new Refused('P11');
  return [LOCO_OR_NONE.indexOf(kind), Number(digits)];
};

const checkedBool = (name, value) => {
  if (typeof value !== 'boolean') throw new TypeError(`${name} is true or false`);
  return value ? 1 : 0;
};
const hex = (bytes) => [...bytes].map((it) => it.toString(16).padStart(2, '0')).join('');
const ones = (bytes, count) => [...Array(count).keys()].filter((n) => (bytes[n >> 3] >> (n & 7)) & 1);

/** Returns the bytes of the frame of a packet line, with the error byte last. */
export const frame = (text) => {
  const bytes = new TextEncoder().encode(checkedText('a packet line', text));
  // a line can have any length, so it lies behind all other objects
  reserve(end + bytes.length);
  memory.set(bytes, end);
  check(calls.dcc_frame_of_line(end, BigInt(bytes.length), places.out), 'P');
  return frameAt(places.out);
};

/** Returns the packet line of the bytes of a frame: `loco s3 speed28 f 4`. */
export const line = (bytes) => {
  check(calls.dcc_line(...laid(bytes), places.line), 'L');
  const text = memory.subarray(places.line, places.line + sizes.line);
  return String.fromCharCode(...text.subarray(0, text.indexOf(0)));
};

/** Returns the plain words of the bytes of a packet, as `dcc show --plain` writes them. A packet has 3 to 15 bytes. */
export const plain = (bytes) => {
  const packet = checkedBytes('a packet', bytes);
  // all packets of more than 15 bytes are refused in the same way
  memory.set(packet.subarray(0, 16), places.packet);
  check(calls.dcc_plain(places.packet, BigInt(packet.length), places.text), 'L');
  const text = memory.subarray(places.text, places.text + sizes.text);
  return String.fromCharCode(...text.subarray(0, text.indexOf(0)));
};

const KINDS = [
  'idle', 'reset', 'speed28', 'speed128', 'functions', 'state', 'cv write', 'cv verify', 'cv bitwrite', 'cv bitverify',
  'accessory', 'signal', 'other',
];

/** Returns the fields of the packet of a frame. The fields are those of `dcc_packet` in dcc.h that its kind uses. */
export const read = (bytes) => {
  check(calls.dcc_read(...laid(bytes), places.out), 'L');
  const [at, numbers] = [places.out, view()];
  const kind = KINDS[memory[at]];
  const packet = { kind };
  if (kind === 'accessory') {
    packet.board = numbers.getUint16(at + 2, true);
    packet.output = memory[at + 15];
    packet.on = memory[at + 8] === 1;
  } else if (kind === 'signal') {
    packet.signal = numbers.getUint16(at + 2, true);
    packet.aspect = memory[at + 16];
  } else if (kind !== 'idle' && kind !== 'other') {
    const to = memory[at + 1];
    packet.address = to === 0 ? 'all' : `${LOCO_OR_NONE[to]}${numbers.getUint16(at + 2, true)}`;
  }
  if (kind === 'speed28' || kind === 'speed128') {
    packet.forward = memory[at + 4] === 1;
    packet.bits = memory[at + 5];
  }
  if (kind === 'functions') Object.assign(packet, { group: memory[at + 6], bits: memory[at + 5] });
  if (kind === 'state') Object.assign(packet, { state: memory[at + 7], on: memory[at + 8] === 1 });
  if (kind.startsWith('cv ')) packet.cv = numbers.getUint16(at + 10, true);
  if (kind === 'cv write' || kind === 'cv verify') packet.value = memory[at + 12];
  if (kind.startsWith('cv bit')) Object.assign(packet, { place: memory[at + 13], one: memory[at + 14] === 1 });
  return packet;
};

/** Writes the fields of a packet or of a service packet into the memory: the place of each field and its value. */
const writeBytes = (at, fields) => fields.forEach(([place, value]) => { memory[at + place] = value; });

/** Returns the bytes of the frame of a packet with these fields. `read` returns these fields for the frame. A packet
 * of the kind 'other' has no fields, so its frame cannot be made of them.
 *
 * Errors: Refused with P10 if there is no such kind or group, or with the code of a field, as for a packet line. */
export const packetFrame = (packet) => {
  if (packet === null || typeof packet !== 'object') throw new TypeError('a packet is an object');
  const kind = KINDS.indexOf(packet.kind);
  if (kind < 0 || packet.kind === 'other') throw new Refused('P10');
  const [at, numbers] = [places.out, view()];
  const byte = (name) => checkedNumber(`the field ${name}`, packet[name], 0, 255);
  const bool = (name) => checkedBool(`the field ${name}`, packet[name]);
  const word = (name, place) => {
    numbers.setUint16(at + place, checkedNumber(`the field ${name}`, packet[name], 0, HIGHEST), true);
  };
  memory.fill(0, at, at + 18);
  memory[at] = kind;
  if (kind >= 1 && kind <= 9) {
    const [to, address] = addressOf(packet.address);
    memory[at + 1] = to;
    numbers.setUint16(at + 2, address, true);
  }
  if (kind === 2 || kind === 3) writeBytes(at, [[4, bool('forward')], [5, byte('bits')]]);
  if (kind === 4) writeBytes(at, [[6, byte('group')], [5, byte('bits')]]);
  if (kind === 5) writeBytes(at, [[7, byte('state')], [8, bool('on')]]);
  if (kind >= 6 && kind <= 9) word('cv', 10);
  if (kind === 6 || kind === 7) writeBytes(at, [[12, byte('value')]]);
  if (kind === 8 || kind === 9) writeBytes(at, [[13, byte('place')], [14, bool('one')]]);
  if (kind === 10) {
    word('board', 2);
    writeBytes(at, [[15, byte('output')], [8, bool('on')]]);
  }
  if (kind === 11) {
    word('signal', 2);
    writeBytes(at, [[16, byte('aspect')]]);
  }
  memory.fill(0, places.frame, places.frame + sizes.frame);
  check(calls.dcc_frame_of_packet(at, places.frame), 'P');
  return frameAt(places.frame);
};

const SERVICE_KINDS = ['write', 'verify', 'bitwrite', 'bitverify'];

/** Returns the bytes of the frame of a service packet, on the programming track (NMRA S-9.2.3): `{ kind, cv, value }`
 * of the kinds 'write' and 'verify', `{ kind, cv, place, one }` of the kinds 'bitwrite' and 'bitverify'.
 *
 * Errors: Refused with P10 if there is no such kind, P6 if the CV is not 1 to 1024, then P7 if the place is above 7. */
export const serviceFrame = (packet) => {
  if (packet === null || typeof packet !== 'object') throw new TypeError('a service packet is an object');
  const kind = SERVICE_KINDS.indexOf(packet.kind);
  if (kind < 0) throw new Refused('P10');
  const [at, bits] = [places.out, kind > 1];
  memory.fill(0, at, at + 6);
  view().setUint16(at, checkedNumber('the field cv', packet.cv, 0, HIGHEST), true);
  memory[at + 2] = 6 + kind;
  if (bits) memory[at + 4] = checkedNumber('the field place', packet.place, 0, 255);
  if (bits) memory[at + 5] = checkedBool('the field one', packet.one);
  else memory[at + 3] = checkedNumber('the field value', packet.value, 0, 255);
  check(calls.dcc_service_frame(at, places.frame), 'P');
  return frameAt(places.frame);
};

/** Returns the fields of the service packet that has this frame on the programming track, or null if none has. */
export const readService = (bytes) => {
  const at = places.out;
  const answer = calls.dcc_service_read(...laid(bytes), at);
  if (answer === 10) return null;
  check(answer, 'L');
  const packet = { kind: SERVICE_KINDS[memory[at + 2] - 6], cv: view().getUint16(at, true) };
  if (memory[at + 2] < 8) return { ...packet, value: memory[at + 3] };
  return { ...packet, place: memory[at + 4], one: memory[at + 5] === 1 };
};

/** Returns the eight frames in which a station asks a question of a Reader or a Writer: three resets, and five copies
 * of the question. Each has a preamble of 20 ones. The answer is yes if the decoder acknowledges any of them. */
export const questionFrames = (question) => {
  const bytes = checkedBytes('a frame', question);
  return [...Array.from({ length: 3 }, () => new Uint8Array(3)), ...Array.from({ length: 5 }, () => bytes.slice())];
};

/** Returns the half-bits of the bytes of a frame in microseconds, as a list. */
export const halves = (bytes, { one = 58, zeroFirst = 100, zeroSecond = 100, preamble = 14 } = {}) => {
  const numbers = view();
  [one, zeroFirst, zeroSecond].forEach((us, n) => {
    numbers.setUint16(places.timing + 2 * n, checkedNumber('a half-bit', us, 0, HIGHEST), true);
  });
  memory[places.timing + 6] = checkedNumber('a preamble', preamble, 0, 255);
  const sender = new Uint8Array(16);
  const answer = withObject(sender, (at) => calls.dcc_sender_start(at, ...laid(bytes), places.timing));
  check(answer, answer > 2 ? 'H' : 'L');
  const list = [];
  memory.set(sender, places.object);
  for (let us = calls.dcc_sender_half(places.object); us; us = calls.dcc_sender_half(places.object)) list.push(us);
  return list;
};

/** Returns the number of the turnout of an output. A pair of outputs drives one turnout. Turnouts are counted from
 * board 1 (NMRA), or from board 0. Errors: RangeError if the board is not `firstBoard` to 510, or the output is not 0
 * to 7. Board 511 stands for all boards. */
export const turnout = (board, output, firstBoard = 1) => {
  const first = checkedNumber('firstBoard', firstBoard, 0, 1);
  const boards = checkedNumber('a board with turnouts', board, first, 510) - first;
  return 4 * boards + (checkedNumber('an output', output, 0, 7) >> 1) + 1;
};

/** Returns the board and the pair of a turnout. The pair has the outputs `2 * pair` and `2 * pair + 1`. Errors:
 * RangeError if the number is not 1 to 2040, or not 1 to 2044 if turnouts are counted from board 0. */
export const turnoutPair = (number, firstBoard = 1) => {
  const first = checkedNumber('firstBoard', firstBoard, 0, 1);
  const pairs = checkedNumber('a turnout', number, 1, 4 * (511 - first)) - 1;
  return { board: (pairs >> 2) + first, pair: pairs & 3 };
};

/** Returns half-bits of these microseconds as a Uint16Array. It returns a Uint16Array itself, without a copy. */
const halvesOf = (items) => (items instanceof Uint16Array ? items : Uint16Array.from(items, checkedHalf));

/** A packet or a refusal: the number of its last half-bit, counted from 1, the name of the refusal or null, and its
 * bytes. */
export class Seen {
  constructor(at, refusal, bytes) {
    Object.assign(this, { at, refusal, frame: bytes });
  }

  /** Returns the line that `dcc show --words` writes. */
  toString() {
    if (this.refusal === null) return `${this.at} ${line(this.frame)}`;
    return `${this.at} refused ${this.refusal} ${hex(this.frame)}`.trimEnd();
  }
}

const seenAt = (at) => {
  const refusal = memory[places.out + 4];
  return new Seen(at, refusal ? `H${refusal}` : null, frameAt(places.out + 5));
};

/** Finds packets in half-bits (NMRA S-9.1, S-9.2). */
export class Framer {
  #framer = new Uint8Array(24);
  #taken = 0;

  /** Takes equal half-bits of `us` microseconds. Returns the packet or refusal that one of them completes, or null. A
   * half-bit above 65535 counts as 65535. */
  push(us, count = 1) {
    const half = checkedHalf(us);
    checkedNumber('a count', count, 1, 0xffffffff);
    const isEnd = withObject(this.#framer, (at) => calls.dcc_push_run(at, half, count, places.out));
    const before = this.#taken;
    this.#taken += count;
    return isEnd ? seenAt(before + view().getUint32(places.out, true)) : null;
  }

  /** Takes half-bits of these microseconds, in order: an array or a Uint16Array. Returns a list of their packets and
   * refusals. If an item is no half-bit, the framer takes no item. */
  pushMany(items) {
    const all = halvesOf(items);
    const [room, found] = [new Uint16Array(calls.memory.buffer, places.halves, MANY), []];
    memory.set(this.#framer, places.object);
    for (let from = 0; from < all.length; from += MANY) {
      const part = all.subarray(from, from + MANY);
      room.set(part);
      for (let at = 0; at < part.length; ) {
        const [place, left] = [places.halves + 2 * at, BigInt(part.length - at)];
        const isEnd = calls.dcc_push_many(places.object, place, left, places.out, places.taken);
        at += view().getUint32(places.taken, true);
        if (isEnd) found.push(seenAt(this.#taken + from + at));
      }
    }
    this.#taken += all.length;
    this.#framer.set(memory.subarray(places.object, places.object + this.#framer.length));
    return found;
  }
}

/** Returns the packets and refusals in half-bits, which are numbers of microseconds, in order. */
export const seen = (items) => new Framer().pushMany(items);

/** A packet that a decoder does not hear: the number of its last half-bit, counted from 1, its bytes, and its causes. A
 * cause that is not there is null. */
export class Lost {
  constructor(at, bytes, preamble, ones, zeros) {
    Object.assign(this, { at, frame: bytes, preamble, ones, zeros });
  }

  /** Returns the line that `dcc lost --words` writes. */
  toString() {
    const { preamble } = this;
    const after = preamble?.after ? ` after ${preamble.after}` : '';
    const causes = preamble ? [`preamble ${preamble.ones}${after}`] : [];
    for (const [name, off] of [['ones', this.ones], ['zeros', this.zeros]]) {
      if (off) causes.push(`${name} ${off.count} from ${off.least} to ${off.most}`);
    }
    return `${this.at} lost ${line(this.frame)}: ${causes.join(', ')}`;
  }
}

const offLimitsAt = (at) => {
  const [count, numbers] = [view().getUint32(at, true), view()];
  return count ? { count, least: numbers.getUint16(at + 4, true), most: numbers.getUint16(at + 6, true) } : null;
};

const lostAt = (end) => {
  const [isShort, ones, isAfter, since] = memory.subarray(places.lost + 7, places.lost + 11);
  const preamble = isShort ? { ones, after: isAfter ? end - since : null } : null;
  return new Lost(end, frameAt(places.lost), preamble, offLimitsAt(places.lost + 12), offLimitsAt(places.lost + 20));
};

/** Finds packets that a decoder does not hear, though they were sent (docs/FORMATS.md). */
export class LostFinder {
  #finder = new Uint8Array(808);
  #taken = 0;

  /** Takes equal half-bits of `us` microseconds. Returns a list of the packets that are lost among them. */
  push(us, count = 1) {
    const half = checkedHalf(us);
    const found = [];
    memory.set(this.#finder, places.object);
    for (let left = checkedNumber('a count', count, 1, 0xffffffff); left > 0; ) {
      const at = calls.dcc_lost_push_run(places.object, half, left, places.lost) >>> 0;
      this.#taken += at || left;
      if (at) found.push(lostAt(this.#taken));
      left -= at || left;
    }
    this.#keep();
    return found;
  }

  #keep() {
    this.#finder.set(memory.subarray(places.object, places.object + this.#finder.length));
  }

  /** Takes half-bits of these microseconds, in order: an array or a Uint16Array. Returns a list of the packets that are
   * lost in them. If an item is no half-bit, the finder takes no item. */
  pushMany(items) {
    const halves = halvesOf(items);
    const [room, found] = [new Uint16Array(calls.memory.buffer, places.halves, MANY), []];
    memory.set(this.#finder, places.object);
    for (let from = 0; from < halves.length; from += MANY) {
      const part = halves.subarray(from, from + MANY);
      room.set(part);
      for (let at = 0; at < part.length; ) {
        const [place, left] = [places.halves + 2 * at, BigInt(part.length - at)];
        const isLost = calls.dcc_lost_push_many(places.object, place, left, places.lost, places.taken);
        at += view().getUint32(places.taken, true);
        if (isLost) found.push(lostAt(this.#taken + from + at));
      }
    }
    this.#taken += halves.length;
    this.#keep();
    return found;
  }
}

/** Returns the packets in half-bits that a decoder does not hear, in order. */
export const lost = (items) => new LostFinder().pushMany(items);

const TALLIES = ['below', 'ones', 'between', 'zeros', 'above', 'differences', 'sums'];

const tallyAt = (at) => {
  const number = (place) => Number(view().getBigUint64(at + place, true));
  const [count, sum] = [number(0), number(8)];
  if (!count) return { count, sum, least: null, most: null, mean: null };
  return { count, sum, least: number(16), most: number(24), mean: sum / count };
};

/** Computes the statistics of half-bits (NMRA S-9.1, S-9.2), which the program writes with `dcc timing`. */
export class Meter {
  #meter = new Uint8Array(1104);

  /** Takes equal half-bits of `us` microseconds. A half-bit above 65535 counts as 65535. Errors: RangeError, and
   * nothing changes, if the meter would have taken 2^32 or more half-bits. */
  push(us, count = 1) {
    const half = checkedHalf(us);
    checkedNumber('a count', count, 1, 0xffffffff);
    const isTaken = withObject(this.#meter, (at) => calls.dcc_meter_push_run(at, half, count));
    if (!isTaken) throw new RangeError('a meter takes less than 2^32 half-bits');
  }

  /** Takes half-bits of these microseconds, in order: an array or a Uint16Array. Errors: those of push. The meter then
   * takes no item. */
  pushMany(items) {
    const all = halvesOf(items);
    const [room, before] = [new Uint16Array(calls.memory.buffer, places.halves, MANY), this.#meter.slice()];
    for (let from = 0; from < all.length; from += MANY) {
      const part = all.subarray(from, from + MANY);
      room.set(part);
      const count = BigInt(part.length);
      if (!withObject(this.#meter, (at) => calls.dcc_meter_push_many(at, places.halves, count))) {
        this.#meter = before;
        throw new RangeError('a meter takes less than 2^32 half-bits');
      }
    }
  }

  /** Returns the statistics of all half-bits that the meter has taken (docs/FORMATS.md). All times are in microseconds.
   * A number that there is not is null. */
  statistics() {
    const at = places.statistics;
    withObject(this.#meter, (meter) => calls.dcc_meter_read(meter, at));
    const numbers = view();
    const word = (place) => numbers.getUint32(at + place, true);
    return {
      halves: word(264),
      time: Number(numbers.getBigUint64(at, true)),
      packets: word(240),
      refused: Object.fromEntries([1, 2, 3, 4, 5].map((n) => [`H${n}`, word(240 + 4 * n)])),
      lost: word(268),
      preamble: memory[at + 274] ? numbers.getUint16(at + 272, true) : null,
      gap: memory[at + 275] ? Number(numbers.getBigUint64(at + 8, true)) : null,
      ...Object.fromEntries(TALLIES.map((name, n) => [name, tallyAt(at + 16 + 32 * n)])),
    };
  }
}

/** Returns the statistics of half-bits, as Meter.statistics does. */
export const timing = (items) => {
  const meter = new Meter();
  meter.pushMany(items);
  return meter.statistics();
};

/** Returns the half-bits of a capture, which is a string or its bytes (docs/FORMATS.md).
 *
 * Errors: Refused with the text of the program: `U2 line 3: bad number` at a word that is no run, `U7 input too long`
 * if the capture has more than 16777216 half-bits or 67108864 bytes. */
export const durations = (capture) => {
  if (!(capture instanceof Uint8Array)) checkedText('a capture', capture);
  const bytes = typeof capture === 'string' ? new TextEncoder().encode(capture) : capture;
  // each byte becomes one character
  const text = new TextDecoder('latin1').decode(bytes.subarray(0, BYTES_MOST));
  // the limit cuts a word that ends at its last byte
  const last = bytes.length > BYTES_MOST ? BYTES_MOST - 1 : BYTES_MOST;
  // the number of half-bits is not known before the text is read, so the list grows
  let [list, count, lineNumber] = [new Uint16Array(4096), 0, 1];
  for (const found of text.matchAll(WORDS)) {
    const [word, us, n = '1'] = found;
    if (word === '\n') lineNumber += 1;
    if (word === '\n' || word[0] === '#') continue;
    if (found.index + word.length > last) break;
    const more = us === undefined ? 0 : Number(n);
    if (more < 1 || more > HALVES_MOST) throw new Refused(`U2 line ${lineNumber}: bad number`);
    if (more > HALVES_MOST - count) throw new Refused('U7 input too long');
    if (count + more > list.length) {
      const longer = new Uint16Array(Math.max(2 * list.length, count + more));
      longer.set(list);
      list = longer;
    }
    list.fill(Math.min(Number(us), HIGHEST), count, count + more);
    count += more;
  }
  if (bytes.length > BYTES_MOST) throw new Refused('U7 input too long');
  return list.slice(0, count);
};

const checkedCvs = (cvs) => {
  if (cvs instanceof Uint8Array || Array.isArray(cvs)) {
    if (cvs.length !== 1024) throw new RangeError(`a decoder has 1024 CVs, not ${cvs.length}`);
    return checkedBytes('the list of CVs', cvs);
  }
  if (cvs === null || typeof cvs !== 'object') throw new TypeError('CVs are a list, or an object of numbers');
  const list = new Uint8Array(1024);
  for (const [name, value] of Object.entries(cvs)) {
    const number = checkedNumber('the number of a CV', Number(name), 1, 1024);
    list[number - 1] = checkedNumber(`CV${number}`, value, 0, 255);
  }
  return list;
};

const withCvs = (cvs, bytes, call) => {
  memory.set(checkedCvs(cvs), places.cvs);
  const object = new Uint8Array(bytes);
  withObject(object, (at) => call(at, places.cvs));
  return object;
};

const isHeard = (object, bytes, call) => {
  const answer = withObject(object, (at) => call(at, ...laid(bytes), places.out));
  check(answer, answer === 13 ? 'P' : 'L');
  return memory[places.out] === 1;
};

const applied = (object, bytes, call) => {
  const answer = withObject(object, (at) => call(at, ...laid(bytes)));
  check(answer, answer === 13 ? 'P' : 'L');
};

let [locoOf, boardOf] = [];

/** The registers of a locomotive decoder, at the begin of its object. */
class LocoRegisters {
  #loco;

  constructor(loco) {
    this.#loco = loco;
  }

  static {
    locoOf = (it) => it.#loco;
  }

  /** The active address: 's3', 'l1000' or null. */
  get address() {
    const kind = LOCO_OR_NONE[this.#loco[0]];
    return kind ? `${kind}${this.#loco[4] + 256 * this.#loco[5]}` : null;
  }

  /** 'stop', 'emergency', or the step and the number of steps: { step, steps }. */
  get speed() {
    const [mode, step] = this.#loco.subarray(1);
    return ['stop', 'emergency'][mode] ?? { step, steps: mode };
  }

  /** True if the direction is forward. */
  get isForward() {
    return this.#loco[3] === 1;
  }

  /** The numbers of the functions that are on. */
  get functions() {
    return ones(this.#loco.subarray(16), 69);
  }

  /** The numbers of the binary states that are on. */
  get states() {
    return ones(this.#loco.subarray(32), 128);
  }

  /** The frame of the CV write that takes effect if the decoder hears it again, or null. */
  get pending() {
    return this.#loco[6] ? this.#loco.slice(7, 7 + this.#loco[6]) : null;
  }

  /** The values of the CVs, CV1 first. */
  get cvs() {
    return this.#loco.slice(48, 1072);
  }

  /** Returns the lines of the decoder in a decoder text (docs/FORMATS.md). */
  toString() {
    const speed = typeof this.speed === 'string' ? this.speed : `${this.speed.steps} ${this.speed.step}`;
    const cvs = [...this.cvs].flatMap((value, n) => (value ? [`cv ${n + 1} ${value}`] : []));
    return [
      `loco ${this.address ?? 'none'}`, `speed ${speed} ${this.isForward ? 'f' : 'r'}`,
      ['on', ...this.functions].join(' '), ['states', ...this.states].join(' '),
      `pending ${this.pending ? hex(this.pending) : 'none'}`, ...cvs,
    ].join('\n');
  }
}

/** A locomotive decoder that is powered up with these CVs: 1024 bytes, or an object with numbers and values. */
export class Loco extends LocoRegisters {
  constructor(cvs) {
    super(withCvs(cvs, 1072, calls.dcc_loco_new));
  }

  /** Applies the packet of a frame. A packet for other decoders changes nothing. */
  apply(bytes) {
    applied(locoOf(this), bytes, calls.dcc_loco_apply);
  }

  /** Returns true if the packet of a frame is for this decoder. */
  hears(bytes) {
    return isHeard(locoOf(this), bytes, calls.dcc_loco_hears);
  }
}

/** The registers of an accessory decoder, at the begin of its object. */
class BoardRegisters {
  #board;

  constructor(board) {
    this.#board = board;
  }

  static {
    boardOf = (it) => it.#board;
  }

  /** The number of the board: 0 to 510, or 511 of a decoder that hears only the packets for all boards. */
  get number() {
    return this.#board[0] + 256 * this.#board[1];
  }

  /** The numbers of the outputs that are on. */
  get outputs() {
    return ones(this.#board.subarray(2), 8);
  }

  /** For each pair of outputs, 0 or 1: the output that was turned on last. */
  get positions() {
    return [...this.#board.subarray(3, 7)];
  }

  /** The aspects of the signals of the board. */
  get aspects() {
    return [...this.#board.subarray(7, 11)];
  }

  /** Returns the lines of the decoder in a decoder text (docs/FORMATS.md). */
  toString() {
    const rows = [['out', this.outputs], ['position', this.positions], ['aspect', this.aspects]];
    return [`board ${this.number}`, ...rows.map(([name, words]) => [name, ...words].join(' '))].join('\n');
  }
}

/** An accessory decoder with all outputs off, with a number of 0 to 510. */
export class Board extends BoardRegisters {
  constructor(number) {
    super(new Uint8Array(12));
    checkedNumber('a board', number, 0, HIGHEST);
    check(withObject(boardOf(this), (at) => calls.dcc_board_new(at, number)), 'P');
  }

  /** Applies the packet of a frame. A packet for other decoders changes nothing. */
  apply(bytes) {
    applied(boardOf(this), bytes, calls.dcc_board_apply);
  }

  /** Returns true if the packet of a frame is for this decoder. */
  hears(bytes) {
    return isHeard(boardOf(this), bytes, calls.dcc_board_hears);
  }
}

/** Lets a decoder on both tracks hear a frame, and returns its answer. */
const heard = (object, bytes, call) => {
  check(withObject(object, (at) => call(at, ...laid(bytes), places.out)), 'L');
  return { acknowledged: memory[places.out + 2] === 1, changed: view().getUint16(places.out, true) || null };
};

/** A locomotive decoder on the main track and on the programming track (NMRA S-9.2.3), which is powered up with these
 * CVs. */
export class TrackLoco extends LocoRegisters {
  constructor(cvs) {
    super(withCvs(cvs, 1088, calls.dcc_decoder_new));
  }

  /** Hears a frame of either track. Returns whether the decoder acknowledges it, and the number of the CV whose value
   * changed, or null.
   *
   * The reset 00 00 00 stops the decoder and enters service mode. In service mode, service packets reach only the CVs.
   * Each other frame first ends service mode as endService does. The decoder then hears the frame as on the main track.
   */
  hear(bytes) {
    return heard(locoOf(this), bytes, calls.dcc_decoder_hear);
  }

  /** Ends service mode. A program calls this function if no packet of service mode comes for 20 milliseconds. If a
   * service packet changed a CV since service mode began, the decoder powers up with its CVs, and so has its new
   * address. */
  endService() {
    withObject(locoOf(this), calls.dcc_decoder_end_service);
  }

  /** Keeps the decoder on the main track if `mainOnly` is true: then no frame enters service mode, and the decoder
   * acknowledges no frame. If the decoder is in service mode, service mode ends first. */
  setMainOnly(mainOnly) {
    const only = checkedBool('mainOnly', mainOnly);
    withObject(locoOf(this), (at) => calls.dcc_decoder_set_main_only(at, only));
  }

  /** True if the decoder is in service mode. */
  get isInService() {
    return locoOf(this)[1072] === 1;
  }
}

/** An accessory decoder on the main track and on the programming track (NMRA S-9.2.3), which is powered up with these
 * CVs. The lower six bits of its number are in CV1, and the upper three bits in CV9. */
export class TrackBoard extends BoardRegisters {
  constructor(cvs) {
    super(withCvs(cvs, 1046, calls.dcc_board_decoder_new));
  }

  /** Hears a frame of either track, as TrackLoco.hear does. */
  hear(bytes) {
    return heard(boardOf(this), bytes, calls.dcc_board_decoder_hear);
  }

  /** Ends service mode, as TrackLoco.endService does. */
  endService() {
    withObject(boardOf(this), calls.dcc_board_decoder_end_service);
  }

  /** Keeps the decoder on the main track if `mainOnly` is true, as TrackLoco.setMainOnly does. */
  setMainOnly(mainOnly) {
    const only = checkedBool('mainOnly', mainOnly);
    withObject(boardOf(this), (at) => calls.dcc_board_decoder_set_main_only(at, only));
  }

  /** True if the decoder is in service mode. */
  get isInService() {
    return boardOf(this)[1036] === 1;
  }

  /** The values of the CVs, CV1 first. */
  get cvs() {
    return boardOf(this).slice(12, 1036);
  }
}

/** A decoder on the programming track (NMRA S-9.2.3), with 1024 CVs or an object with numbers and values. */
export class Service {
  #service;

  constructor(cvs) {
    this.#service = withCvs(cvs, 1032, calls.dcc_service_new);
  }

  /** Applies a frame. Returns true if the decoder acknowledges the frame. */
  apply(bytes) {
    const answer = withObject(this.#service, (at) => calls.dcc_service_apply(at, ...laid(bytes), places.out));
    check(answer, answer === 13 ? 'P' : 'L');
    return memory[places.out] === 1;
  }

  /** True if the decoder is in service mode. */
  get isInService() {
    return this.#service[0] === 1;
  }

  /** The values of the CVs, CV1 first. */
  get cvs() {
    return this.#service.slice(8);
  }
}

/** The reading of a CV on a programming track by nine questions (NMRA S-9.2.3). */
export class Reader {
  #reader = new Uint8Array(4);

  constructor(cv) {
    checkedNumber('a CV', cv, 0, HIGHEST);
    check(withObject(this.#reader, (at) => calls.dcc_reader_new(at, cv)), 'P');
  }

  /** Returns the frame of the next question. A station sends three resets, and then this frame five times. */
  question() {
    check(withObject(this.#reader, (at) => calls.dcc_reader_question(at, places.out)), 'P');
    return frameAt(places.out);
  }

  /** Takes the answer to the question: true if the decoder acknowledged it. Returns null if there is a further
   * question, and the value of the CV after the ninth question.
   *
   * Errors: Refused with the code S1 if the decoder did not acknowledge the ninth question. */
  answer(yes) {
    const is = checkedBool('an answer', yes);
    const state = withObject(this.#reader, (at) => calls.dcc_reader_answer(at, is, places.out));
    if (state === 2) throw new Refused('S1');
    check(state > 2 ? state : 0, 'P');
    return state === 1 ? memory[places.out] : null;
  }
}

/** The writing of a CV on a programming track by two questions (NMRA S-9.2.3). The first question writes the byte, and
 * the second question verifies that the CV has this byte. */
export class Writer {
  #writer = new Uint8Array(4);

  constructor(cv, value) {
    checkedNumber('a CV', cv, 0, HIGHEST);
    checkedNumber('a value', value, 0, 255);
    check(withObject(this.#writer, (at) => calls.dcc_writer_new(at, cv, value)), 'P');
  }

  /** Returns the frame of the next question. A station sends three resets, and then this frame five times. */
  question() {
    check(withObject(this.#writer, (at) => calls.dcc_writer_question(at, places.out)), 'P');
    return frameAt(places.out);
  }

  /** Takes the answer to the question: true if the decoder acknowledged it. Returns null after the first question,
   * whatever the answer is. After the second question, returns true if the decoder acknowledged it, so that the CV has
   * the byte, and false otherwise. */
  answer(yes) {
    const is = checkedBool('an answer', yes);
    const state = withObject(this.#writer, (at) => calls.dcc_writer_answer(at, is));
    check(state > 2 ? state : 0, 'P');
    return [null, true, false][state];
  }
}

/** The functions F0 to F68 of a locomotive, all off at first (RCN-212). A packet sets all functions of a group, so a
 * station that turns one function needs the states of the other functions of the group. */
export class Functions {
  #functions = new Uint8Array(16);

  /** Turns a function on or off. Returns the frame to an address, 'all', 's3' or 'l1000', that sets the group of the
   * function, with the states of all functions of the group. With 14 speed steps, a decoder takes F0 from the packets
   * of the kind 'speed28', and ignores the F0 of the group.
   *
   * Errors: Refused with P1, P2, P10 or P11 if there is no such address, then P13 above function 68. The functions
   * then do not change. */
  turn(address, number, on) {
    const to = addressOf(address);
    const [it, is] = [checkedNumber('a function', number, 0, 255), checkedBool('the state of a function', on)];
    check(withObject(this.#functions, (at) => calls.dcc_functions_turn(at, ...to, it, is, places.out)), 'P');
    return frameAt(places.out);
  }

  /** Returns true if the function is on. No function above 68 is on. */
  isOn(number) {
    const it = checkedNumber('a function', number, 0, 255);
    return withObject(this.#functions, (at) => calls.dcc_functions_is_on(at, it)) === 1;
  }

  /** The numbers of the functions that are on. */
  get on() {
    return [...Array(69).keys()].filter((it) => this.isOn(it));
  }
}

/** A command station with at most 64 waiting commands, at most 128 entries that it sends again and again, and 1 to 8
 * copies of each command. */
export class Station {
  #station = new Uint8Array(1801);

  constructor({ queue = 64, slots = 128, repeats = 2 } = {}) {
    for (const it of [queue, slots, repeats]) checkedNumber('a size', it, 0, 255);
    check(withObject(this.#station, (at) => calls.dcc_station_new(at, queue, slots, repeats)), 'C');
  }

  /** Adds the command of a frame to the queue. Errors: Refused with C3 if a station does not send this packet, C4 if
   * the queue is full. */
  command(bytes) {
    const answer = withObject(this.#station, (at) => calls.dcc_station_command(at, ...laid(bytes)));
    check(answer, answer < 3 ? 'L' : 'C');
  }

  /** Returns the next frame to send. */
  next() {
    withObject(this.#station, (at) => calls.dcc_station_next(at, places.out));
    return frameAt(places.out);
  }

  /** Stops all locomotives. The next frames are copies of the emergency stop of all locomotives, as many as of a
   * command. Removes each waiting command that sets the speed of a locomotive to a step, and returns their number. All
   * other commands wait. No locomotive moves again before the station gets a command that sets a speed to a step. */
  stop() {
    return withObject(this.#station, calls.dcc_station_stop);
  }

  /** Removes the entries with an address, 's3' or 'l1000', for example when a locomotive leaves the track. The waiting
   * commands stay. No entry has the address 'all'. Errors: Refused with P1, P2, P10 or P11 if there is no such address.
   */
  forget(address) {
    const to = addressOf(address);
    check(withObject(this.#station, (at) => calls.dcc_station_forget(at, ...to)), 'P');
  }

  /** The number of waiting commands. A stop that waits does not count. */
  get waiting() {
    return withObject(this.#station, calls.dcc_station_waiting);
  }

  /** The number of entries. */
  get entries() {
    return withObject(this.#station, calls.dcc_station_entries);
  }
}

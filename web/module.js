// The functions of the module (include/dcc.h), which are proved. The places of the objects in memory are not proved.

const OUTCOME_BYTES = 12;
const LOST_BYTES = 808;
const LOST_PACKET_BYTES = 28;
const HALVES_EACH = 32768;
const LINE_BYTES = 41;
const PLAIN_BYTES = 256;
const CVS = 1024;
const DECODER_BYTES = { loco: 1072, board: 12 };
const PAGE_BYTES = 65536;

/** The smallest module with a 64-bit memory. */
const SMALLEST = Uint8Array.of(0, 0x61, 0x73, 0x6d, 1, 0, 0, 0, 5, 3, 1, 4, 0);

/** Returns why this browser cannot run the module, or null. */
const lackOfBrowser = () => {
  if (typeof WebAssembly !== 'object' || typeof BigInt !== 'function') {
    return 'This browser cannot run the page: it has no WebAssembly, or WebAssembly is disabled.';
  }
  return null;
};

/** Returns the name of the module for this browser: with a 64-bit memory, whose sizes are those of the proofs, if the
 * browser has one. */
const moduleOfBrowser = () => (WebAssembly.validate(SMALLEST) ? 'module' : 'module32');

/** Checks the result of a function that can have no error here. */
const checked = (call, answer) => {
  if (answer !== 0) throw new Error(`${call} answers ${answer}`);
};

const hex = (bytes) => bytes.map((it) => it.toString(16).padStart(2, '0')).join('');

class Dcc {
  /** Takes a compiled module. Workers share the machine code of a module. */
  static async load(module) {
    const { exports } = await WebAssembly.instantiate(module, {});
    return new Dcc(exports);
  }

  constructor(calls) {
    this.calls = calls;
    // a place in a 64-bit memory is a BigInt
    this.placeOf = typeof calls.__heap_base.value === 'bigint' ? BigInt : Number;
    // the objects, one after the other
    let end = (Number(calls.__heap_base.value) + 15) & ~15;
    const room = (bytes) => {
      const at = end;
      end += (bytes + 15) & ~15;
      return at;
    };
    this.framer = room(24);
    this.outcome = room(OUTCOME_BYTES);
    this.finder = room(LOST_BYTES);
    this.lostPacket = room(LOST_PACKET_BYTES);
    this.frame = room(7);
    this.line = room(LINE_BYTES);
    this.text = room(PLAIN_BYTES);
    this.packet = room(18);
    this.decoder = room(DECODER_BYTES.loco);
    this.cvs = room(CVS);
    this.heard = room(1);
    this.taken = room(8);
    this.halves = room(2 * HALVES_EACH);
    this.reserve(end);
    this.memory = new Uint8Array(calls.memory.buffer);
    this.known = new Map();
  }

  /** Grows the memory to a number of bytes. Browsers differ in the type of the number of pages. */
  reserve(bytes) {
    const lack = Math.ceil((bytes - this.calls.memory.buffer.byteLength) / PAGE_BYTES);
    if (lack <= 0) return;
    try {
      this.calls.memory.grow(BigInt(lack));
    } catch {
      this.calls.memory.grow(lack);
    }
  }

  bytesAt(at, n) {
    return this.memory.subarray(at, at + n);
  }

  /** Returns the length and the bytes of a frame as one number, at most 7 * 256 ** 6. */
  numberAt(at, n) {
    let number = n;
    for (let i = 0; i < n; i += 1) number = 256 * number + this.memory[at + i];
    return number;
  }

  /** Returns the bytes of a frame as a list. Equal frames have one list. */
  frameAt(at, n) {
    const number = this.numberAt(at, n);
    let bytes = this.known.get(number);
    if (!bytes) this.known.set(number, (bytes = [...this.bytesAt(at, n)]));
    return bytes;
  }

  /** Returns the list that represents equal frames. */
  frameOf(bytes) {
    this.memory.set(bytes, this.frame);
    return this.frameAt(this.frame, bytes.length);
  }

  /** Returns the outcomes of half-bits as the arrays of PackedOutcomes. */
  outcomes(halves, tell) {
    const packed = new PackedOutcomes();
    const search = new OutcomeSearch(this, (...outcome) => packed.add(...outcome));
    searchAll(halves, search, tell);
    return packed.arrays();
  }

  /** Returns the lost packets in half-bits: the number of the last half-bit, from 1, its end in microseconds, the
   * bytes, and the causes. */
  lost(halves, tell) {
    const list = [];
    searchAll(halves, new LostSearch(this, (packet) => list.push(packet)), tell);
    return list;
  }

  /** Returns the lost packet that a call wrote, which ends with half-bit `end`: its bytes and its causes. */
  lostAt(end) {
    const view = new DataView(this.memory.buffer, this.lostPacket, LOST_PACKET_BYTES);
    const off = (at) => {
      const n = view.getUint32(at, true);
      return n ? { count: n, least: view.getUint16(at + 4, true), most: view.getUint16(at + 6, true) } : null;
    };
    const [isShort, ones, isAfter, since] = this.bytesAt(this.lostPacket + 7, 4);
    const preamble = isShort ? { ones, after: isAfter ? end - since : null } : null;
    const bytes = this.frameAt(this.lostPacket + 1, view.getUint8(0));
    return { bytes, lost: { preamble, ones: off(12), zeros: off(20) } };
  }

  /** Writes the bytes of a frame into the memory, and returns their place and length as arguments. */
  lay(bytes) {
    this.memory.set(bytes, this.frame);
    return [this.placeOf(this.frame), BigInt(bytes.length)];
  }

  /** Returns the text at a place of the memory, which ends before the first zero. */
  textAt(at, n) {
    const text = this.bytesAt(at, n);
    return String.fromCharCode(...text.subarray(0, text.indexOf(0)));
  }

  /** Returns the packet line of the bytes of a packet. */
  words(bytes) {
    checked('dcc_line', this.calls.dcc_line(...this.lay(bytes), this.placeOf(this.line)));
    return this.textAt(this.line, LINE_BYTES);
  }

  /** Returns the plain words of the bytes of a packet. */
  plain(bytes) {
    checked('dcc_plain', this.calls.dcc_plain(...this.lay(bytes), this.placeOf(this.text)));
    return this.textAt(this.text, PLAIN_BYTES);
  }

  /** Returns the kind of a packet, a number of include/dcc.h. */
  kind(bytes) {
    checked('dcc_read', this.calls.dcc_read(...this.lay(bytes), this.placeOf(this.packet)));
    return this.memory[this.packet];
  }

  /** Returns the fields of a packet (include/dcc.h). */
  packetOf(bytes) {
    const kind = this.kind(bytes);
    const at = this.packet;
    const word = (place) => this.memory[at + place] + 256 * this.memory[at + place + 1];
    const [, to, , , forward, bits, group, state, on] = this.bytesAt(at, 9);
    const [value, place, one, output, aspect] = this.bytesAt(at + 12, 5);
    const [address, cv] = [word(2), word(10)];
    return { kind, to, address, forward, bits, group, state, on, cv, value, place, one, output, aspect };
  }

  /** Returns a new locomotive decoder with these CVs: its kind and its fields. */
  newLoco(cvs) {
    this.bytesAt(this.cvs, CVS).set(cvs);
    this.calls.dcc_loco_new(this.placeOf(this.decoder), this.placeOf(this.cvs));
    return { kind: 'loco', numbers: this.bytesAt(this.decoder, DECODER_BYTES.loco).slice() };
  }

  /** Returns a new accessory decoder. */
  newBoard(number) {
    checked('dcc_board_new', this.calls.dcc_board_new(this.placeOf(this.decoder), number));
    return { kind: 'board', numbers: this.bytesAt(this.decoder, DECODER_BYTES.board).slice() };
  }

  /** Returns true if a decoder hears a packet. */
  hears(decoder, bytes) {
    const { kind, numbers } = decoder;
    this.memory.set(numbers, this.decoder);
    return this.isHeard(kind, bytes);
  }

  /** Returns true if the decoder in the memory hears a packet. */
  isHeard(kind, bytes) {
    const call = kind === 'loco' ? this.calls.dcc_loco_hears : this.calls.dcc_board_hears;
    checked(`dcc_${kind}_hears`, call(this.placeOf(this.decoder), ...this.lay(bytes), this.placeOf(this.heard)));
    return this.memory[this.heard] === 1;
  }

  /** Returns a decoder after these packets. Packets for other decoders do not change it. */
  after(decoder, packets) {
    const { kind, numbers } = decoder;
    const call = kind === 'loco' ? this.calls.dcc_loco_apply : this.calls.dcc_board_apply;
    this.memory.set(numbers, this.decoder);
    for (const bytes of packets) {
      if (!this.isHeard(kind, bytes)) continue;
      checked(`dcc_${kind}_apply`, call(this.placeOf(this.decoder), ...this.lay(bytes)));
    }
    return { kind, numbers: this.bytesAt(this.decoder, numbers.length).slice() };
  }
}

/** Returns the text of `dcc show --words` after the number of the half-bit. */
const told = (dcc, { refusal, bytes, lost }) => {
  if (lost) return `lost ${dcc.words(bytes)}: ${causesText(lost)}`;
  if (!refusal) return dcc.words(bytes);
  return `refused H${refusal}${bytes.length ? ` ${hex(bytes)}` : ''}`;
};

// SPDX-License-Identifier: MIT OR Apache-2.0

/** Bytes of a frame with the error byte last. */
export type Bytes = Uint8Array | number[];

/** 1024 values of CVs with CV1 first, or an object with numbers and values of CVs. */
export type Cvs = Uint8Array | number[] | { [cv: number]: number };

/** An error code of the library or of a capture, for example H6, L1, P10, C4, or `U2 line 3: bad number`. */
export class Refused extends Error {
  readonly code: string;
}

/** Returns the bytes of the frame of a packet line. */
export function frame(text: string): Uint8Array;

/** Returns the packet line of the bytes of a frame: `loco s3 speed28 f 4`. */
export function line(frame: Bytes): string;

/** Returns the plain words of the bytes of a packet, as `dcc show --plain` writes them. A packet has 3 to 15 bytes. */
export function plain(packet: Bytes): string;

/** The fields of a packet. An address is `all`, `s` with a short address, or `l` with a long address. */
export type Packet =
  | { kind: 'idle' | 'other' }
  | { kind: 'reset'; address: string }
  | { kind: 'speed28' | 'speed128'; address: string; forward: boolean; bits: number }
  | { kind: 'functions'; address: string; group: number; bits: number }
  | { kind: 'state'; address: string; state: number; on: boolean }
  | { kind: 'cv write' | 'cv verify'; address: string; cv: number; value: number }
  | { kind: 'cv bitwrite' | 'cv bitverify'; address: string; cv: number; place: number; one: boolean }
  | { kind: 'accessory'; board: number; output: number; on: boolean }
  | { kind: 'signal'; signal: number; aspect: number };

/** Returns the fields of the packet of a frame. */
export function read(frame: Bytes): Packet;

/** Returns the bytes of the frame of a packet with these fields. */
export function packetFrame(packet: Packet): Uint8Array;

/** The fields of a service packet. */
export type ServicePacket =
  | { kind: 'write' | 'verify'; cv: number; value: number }
  | { kind: 'bitwrite' | 'bitverify'; cv: number; place: number; one: boolean };

/** Returns the bytes of the frame of a service packet. */
export function serviceFrame(packet: ServicePacket): Uint8Array;

/** Returns the fields of the service packet that has this frame, or null. */
export function readService(frame: Bytes): ServicePacket | null;

/** Returns the eight frames in which a station asks a question of a Reader or a Writer. */
export function questionFrames(question: Bytes): Uint8Array[];

/** The half-bits of a one and of a zero in microseconds, and the number of ones in the preamble. */
export interface Timing {
  one?: number;
  zeroFirst?: number;
  zeroSecond?: number;
  preamble?: number;
}

/** Returns the half-bits of a frame in microseconds. */
export function halves(frame: Bytes, timing?: Timing): number[];

/** Returns the number of the turnout of an output. Turnouts are counted from board 1 (NMRA), or from board 0. */
export function turnout(board: number, output: number, firstBoard?: 0 | 1): number;

/** Returns the board and the pair of a turnout. The pair has the outputs `2 * pair` and `2 * pair + 1`. */
export function turnoutPair(number: number, firstBoard?: 0 | 1): { board: number; pair: number };

/** A packet or a refusal. */
export class Seen {
  constructor(at: number, refusal: string | null, frame: Uint8Array);
  /** The number of the last half-bit, counted from 1. */
  readonly at: number;
  /** null for a packet, H1 to H5 for a refusal. */
  readonly refusal: 'H1' | 'H2' | 'H3' | 'H4' | 'H5' | null;
  /** The bytes of a packet, or the refused bytes of H5. */
  readonly frame: Uint8Array;
  /** Returns the line that `dcc show --words` writes. */
  toString(): string;
}

/** Finds packets in half-bits. */
export class Framer {
  /** Takes equal half-bits. Returns the packet or refusal that one of them completes, or null. */
  push(us: number, count?: number): Seen | null;
  /** Takes half-bits in order. Returns their packets and refusals. */
  pushMany(halves: Uint16Array | Iterable<number>): Seen[];
}

/** Returns the packets and refusals in half-bits. */
export function seen(halves: Uint16Array | Iterable<number>): Seen[];

/** Half-bits outside the limits of a decoder: their number, the shortest and the longest in microseconds. */
export interface OffLimits {
  readonly count: number;
  readonly least: number;
  readonly most: number;
}

/** A packet that a decoder does not hear, and its causes. */
export class Lost {
  constructor(
    at: number, frame: Uint8Array, preamble: Lost['preamble'], ones: OffLimits | null, zeros: OffLimits | null,
  );
  /** The number of the last half-bit, counted from 1. */
  readonly at: number;
  readonly frame: Uint8Array;
  /** The half-bits of ones before the packet if they are too few, and the half-bit that ends a refusal or null. */
  readonly preamble: { readonly ones: number; readonly after: number | null } | null;
  /** The half-bits of ones outside 52 to 64 microseconds. */
  readonly ones: OffLimits | null;
  /** The half-bits of zeros outside 90 to 10000 microseconds. */
  readonly zeros: OffLimits | null;
  /** Returns the line that `dcc lost --words` writes. */
  toString(): string;
}

/** Finds packets that a decoder does not hear. */
export class LostFinder {
  /** Takes equal half-bits. Returns the packets that are lost among them. */
  push(us: number, count?: number): Lost[];
  /** Takes half-bits in order. Returns the packets that are lost in them. */
  pushMany(halves: Uint16Array | Iterable<number>): Lost[];
}

/** Returns the packets in half-bits that a decoder does not hear. */
export function lost(halves: Iterable<number>): Lost[];

/** The count, the sum, the least, the greatest and the mean of some durations in microseconds. */
export interface Tally {
  readonly count: number;
  readonly sum: number;
  readonly least: number | null;
  readonly most: number | null;
  readonly mean: number | null;
}

/** The statistics that `dcc timing` writes for half-bits. */
export interface Statistics {
  readonly halves: number;
  readonly time: number;
  readonly packets: number;
  readonly refused: Readonly<Record<'H1' | 'H2' | 'H3' | 'H4' | 'H5', number>>;
  readonly lost: number;
  readonly preamble: number | null;
  readonly gap: number | null;
  readonly below: Tally;
  readonly ones: Tally;
  readonly between: Tally;
  readonly zeros: Tally;
  readonly above: Tally;
  readonly differences: Tally;
  readonly sums: Tally;
}

/** Computes the statistics of half-bits that come one by one. */
export class Meter {
  push(us: number, count?: number): void;
  pushMany(halves: Uint16Array | Iterable<number>): void;
  statistics(): Statistics;
}

/** Returns the statistics of half-bits. */
export function timing(halves: Uint16Array | Iterable<number>): Statistics;

/** Returns the half-bits of a capture. */
export function durations(capture: string | Uint8Array): Uint16Array;

/** A locomotive decoder. */
export class Loco {
  constructor(cvs: Cvs);
  apply(frame: Bytes): void;
  hears(frame: Bytes): boolean;
  readonly address: string | null;
  readonly speed: 'stop' | 'emergency' | { step: number; steps: 14 | 28 | 126 };
  readonly isForward: boolean;
  readonly functions: number[];
  readonly states: number[];
  readonly pending: Uint8Array | null;
  readonly cvs: Uint8Array;
  toString(): string;
}

/** An accessory decoder. */
export class Board {
  constructor(number: number);
  apply(frame: Bytes): void;
  hears(frame: Bytes): boolean;
  readonly number: number;
  readonly outputs: number[];
  readonly positions: number[];
  readonly aspects: number[];
  toString(): string;
}

/** The answer of a decoder on both tracks: the CV whose value changed, or null. */
export interface Answer {
  readonly acknowledged: boolean;
  readonly changed: number | null;
}

/** A locomotive decoder on the main track and on the programming track. */
export class TrackLoco {
  constructor(cvs: Cvs);
  hear(frame: Bytes): Answer;
  endService(): void;
  setMainOnly(mainOnly: boolean): void;
  readonly isInService: boolean;
  readonly address: string | null;
  readonly speed: 'stop' | 'emergency' | { step: number; steps: 14 | 28 | 126 };
  readonly isForward: boolean;
  readonly functions: number[];
  readonly states: number[];
  readonly pending: Uint8Array | null;
  readonly cvs: Uint8Array;
  toString(): string;
}

/** An accessory decoder on the main track and on the programming track. */
export class TrackBoard {
  constructor(cvs: Cvs);
  hear(frame: Bytes): Answer;
  endService(): void;
  setMainOnly(mainOnly: boolean): void;
  readonly isInService: boolean;
  readonly number: number;
  readonly outputs: number[];
  readonly positions: number[];
  readonly aspects: number[];
  readonly cvs: Uint8Array;
  toString(): string;
}

/** A decoder on the programming track. */
export class Service {
  constructor(cvs: Cvs);
  /** Applies a frame. Returns true if the decoder acknowledges the frame. */
  apply(frame: Bytes): boolean;
  readonly isInService: boolean;
  readonly cvs: Uint8Array;
}

/** The reading of a CV by nine questions. */
export class Reader {
  constructor(cv: number);
  question(): Uint8Array;
  /** Returns null if there is a further question, and the value of the CV after the ninth question. */
  answer(yes: boolean): number | null;
}

/** The writing of a CV by two questions. */
export class Writer {
  constructor(cv: number, value: number);
  question(): Uint8Array;
  /** Returns null after the first question. After the second, returns true if the CV has the byte. */
  answer(yes: boolean): boolean | null;
}

/** The functions of a locomotive that a station remembers. */
export class Functions {
  /** Turns a function on or off. Returns the frame that sets the group of the function. */
  turn(address: string, number: number, on: boolean): Uint8Array;
  isOn(number: number): boolean;
  readonly on: number[];
}

/** A command station. */
export class Station {
  constructor(sizes?: { queue?: number; slots?: number; repeats?: number });
  command(frame: Bytes): void;
  next(): Uint8Array;
  /** Stops all locomotives. Returns the number of waiting commands that it removes. */
  stop(): number;
  /** Removes the entries with an address. */
  forget(address: string): void;
  readonly waiting: number;
  readonly entries: number;
}

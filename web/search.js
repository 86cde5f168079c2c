// Searches for packets in half-bits that come part by part. The module finds them (include/dcc.h), and the script
// counts half-bits and microseconds. A Dcc has one search of each kind at a time. Nothing here is proved.

/** A search for packets and refusals. It calls `add` with each: the number of the last half-bit, from 1, its end in
 * microseconds, the refusal or 0, and a key and a function that returns the frame, as PackedOutcomes takes them. */
class OutcomeSearch {
  constructor(dcc, add) {
    const { memory } = dcc.calls;
    Object.assign(this, { dcc, add, count: 0, time: 0 });
    this.places = [dcc.framer, dcc.outcome, dcc.taken].map((it) => dcc.placeOf(it));
    this.room = new Uint16Array(memory.buffer, dcc.halves, HALVES_EACH);
    this.taken = new Uint32Array(memory.buffer, dcc.taken, 1);
    this.view = new DataView(memory.buffer, dcc.outcome, OUTCOME_BYTES);
    dcc.calls.dcc_framer_new(this.places[0]);
  }

  /** Searches a part, which has at most HALVES_EACH half-bits and follows the part before it. */
  push(part) {
    const { dcc, room, view } = this;
    const { dcc_push_many: push } = dcc.calls;
    const [framer, outcome, taken] = this.places;
    const frame = () => [...dcc.bytesAt(dcc.outcome + 6, view.getUint8(5))];
    let { time } = this;
    room.set(part);
    for (let at = 0; at < part.length; ) {
      const isEnd = push(framer, dcc.placeOf(dcc.halves + 2 * at), BigInt(part.length - at), outcome, taken);
      for (const end = at + this.taken[0]; at < end; at += 1) time += room[at];
      if (!isEnd) continue;
      const key = dcc.numberAt(dcc.outcome + 6, view.getUint8(5));
      this.add(this.count + at, time, view.getUint8(4), key, frame);
    }
    this.count += part.length;
    this.time = time;
  }
}

/** A search for lost packets. It calls `add` with each. */
class LostSearch {
  constructor(dcc, add) {
    const { memory } = dcc.calls;
    Object.assign(this, { dcc, add, count: 0, time: 0 });
    this.places = [dcc.finder, dcc.lostPacket, dcc.taken].map((it) => dcc.placeOf(it));
    this.room = new Uint16Array(memory.buffer, dcc.halves, HALVES_EACH);
    this.taken = new Uint32Array(memory.buffer, dcc.taken, 1);
    dcc.bytesAt(dcc.finder, LOST_BYTES).fill(0);
  }

  /** Searches a part, which has at most HALVES_EACH half-bits and follows the part before it. */
  push(part) {
    const { dcc, room } = this;
    const { dcc_lost_push_many: push } = dcc.calls;
    const [finder, packet, taken] = this.places;
    let { time } = this;
    room.set(part);
    for (let at = 0; at < part.length; ) {
      const isLost = push(finder, dcc.placeOf(dcc.halves + 2 * at), BigInt(part.length - at), packet, taken);
      for (const end = at + this.taken[0]; at < end; at += 1) time += room[at];
      if (isLost) this.add({ at: this.count + at, time, refusal: 0, ...dcc.lostAt(this.count + at) });
    }
    this.count += part.length;
    this.time = time;
  }
}

/** Searches half-bits from a place on, up to their end. Calls `tell` with the part that is done, from 0 to 1. */
const searchAll = (halves, search, tell = () => {}, begin = 0) => {
  for (let from = begin; from < halves.count; from += HALVES_EACH) {
    const to = Math.min(from + HALVES_EACH, halves.count);
    search.push(halves.us.subarray(from, to));
    if (from % TOLD_EACH < HALVES_EACH) tell(to / halves.count);
  }
};

// The first difference of two captures for a decoder, by the definitions of `dcc same` (docs/DEFINITIONS.md, "Lists
// that are alike"). The module decides which decoder hears a packet, and the registers that a packet sets. The
// comparison itself is a script of the page and is not proved.

/** A probe of a kind of decoder: two states that differ in each plain register. A register that a packet sets is
 * equal in both states afterwards. */
const LOCO_PROBES = [
  { speed: [0, 0, 1], bits: 0 },
  { speed: [28, 5, 0], bits: 255 },
];

/** Creates a locomotive decoder in a speed mode, with all functions and states off, or all on. */
const locoProbe = (fresh, mode, { speed, bits }) => {
  const numbers = fresh.numbers.slice();
  numbers.set(speed, LOCO.speedMode);
  numbers.fill(bits, LOCO.functions, LOCO.cvs);
  // no function above 68 and no state 0 exists
  numbers.fill(0, LOCO.functions + 9, LOCO.states);
  numbers[LOCO.functions + 8] &= 0x1f;
  numbers[LOCO.states] &= 0xfe;
  numbers[LOCO.cvs + 28] = mode === 28 ? 2 : 0;
  return { kind: 'loco', numbers };
};

const boardProbe = (fresh, bits) => {
  const numbers = fresh.numbers.slice();
  numbers[BOARD.outs] = bits;
  numbers.fill(bits & 1, BOARD.positions, BOARD.aspects);
  numbers.fill(bits, BOARD.aspects, BOARD.aspects + 4);
  return { kind: 'board', numbers };
};

/** Returns the probes, for a locomotive decoder one for each speed mode. */
const probesOf = (fresh) => {
  if (fresh.kind === 'board') return [[boardProbe(fresh, 0), boardProbe(fresh, 255)]];
  return [28, 14].map((mode) => LOCO_PROBES.map((it) => locoProbe(fresh, mode, it)));
};

/** The plain registers that are numbers: the speed with its mode, and the direction, or the positions and the aspects
 * of a board. */
const plainNumbers = ({ kind, numbers }) =>
  kind === 'board'
    ? [...numbers.subarray(BOARD.positions, BOARD.aspects + 4)]
    : [256 * numbers[LOCO.speedMode] + numbers[LOCO.step], numbers[LOCO.forward]];

/** The bytes whose bits are plain registers, and the bits of each byte that are registers: no function above 68 and
 * no state 0 exists. */
const plainBits = ({ kind }) => {
  const bytes = (at, count) => [...Array(count).keys()].map((i) => ({ at: at + i, mask: 255 }));
  if (kind === 'board') return bytes(BOARD.outs, 1);
  const [functions, states] = [bytes(LOCO.functions, 9), bytes(LOCO.states, 16)];
  functions[8].mask = 0x1f;
  states[0].mask = 0xfe;
  return [...functions, ...states];
};

/** Returns the values to which a packet sets plain registers: pairs of the number of a register, counted from a first
 * number, and its value. Both states of the probe have this value after the packet. */
const setBy = (dcc, probes, first, bytes) => {
  const [one, other] = probes.map((it) => dcc.after(it, [bytes]));
  const others = plainNumbers(other);
  const sets = plainNumbers(one).flatMap((value, i) => (value === others[i] ? [[first + i, value]] : []));
  plainBits(one).forEach(({ at, mask }, i) => {
    const alike = ~(one.numbers[at] ^ other.numbers[at]) & mask;
    for (let bit = 0; alike >> bit; bit += 1) {
      if ((alike >> bit) & 1) sets.push([first + 8 * (i + 2) + bit, (one.numbers[at] >> bit) & 1]);
    }
  });
  return sets;
};

/** A number above the number of plain registers. */
const REGISTERS = 1000;

/** The facts about packets that the definitions need, for one decoder. */
class Packets {
  constructor(dcc, fresh) {
    const probes = probesOf(fresh);
    this.hears = once((bytes) => dcc.hears(fresh, bytes));
    this.isWrite = once((bytes) => fresh.kind === 'loco' && pendingOf(dcc.after(fresh, [bytes])).length > 0);
    // the registers of the second speed mode have other numbers
    this.sets = once((bytes) => probes.flatMap((it, mode) => setBy(dcc, it, REGISTERS * mode, bytes)));
  }

  /** Returns the places of the outcomes that the decoder hears. Of more than two equal writes in a row it returns the
   * last two. */
  heard(outcomes) {
    const list = [...outcomes.keys()].filter((i) => !outcomes[i].refusal && this.hears(outcomes[i].bytes));
    const bytes = list.map((i) => outcomes[i].bytes);
    return list.filter((_, i) => !(this.isWrite(bytes[i]) && bytes[i] === bytes[i + 1] && bytes[i] === bytes[i + 2]));
  }

  /** Returns the blocks between the writes, and the write that ends each block, or null for the last block. */
  blocks(outcomes) {
    const blocks = [{ block: [], write: null }];
    for (const i of this.heard(outcomes)) {
      const last = blocks[blocks.length - 1];
      if (this.isWrite(outcomes[i].bytes)) {
        last.write = i;
        blocks.push({ block: [], write: null });
      } else {
        last.block.push(i);
      }
    }
    return blocks;
  }
}

/** Returns the turns of two packets in a block: their places, without each place after an equal packet. */
const turnsOf = (block, outcomes, p, q) => {
  const both = block.filter((i) => outcomes[i].bytes === p || outcomes[i].bytes === q);
  return both.filter((i, n) => n === 0 || outcomes[both[n - 1]].bytes !== outcomes[i].bytes);
};

/** Numbers in the order of their last occurrences, the last one first. */
class Recent {
  constructor(size) {
    this.size = size;
    // a ring. The number after all numbers is its end
    this.next = new Int32Array(size + 1);
    this.before = new Int32Array(size + 1);
    this.next[size] = this.before[size] = size;
  }

  /** Moves a number to the front. Calls `pass` with each number that occurred since its last occurrence. */
  come(number, pass) {
    const { next, before, size } = this;
    let it = next[size];
    for (; it !== size && it !== number; it = next[it]) pass(it);
    if (it === number) [next[before[number]], before[next[number]]] = [next[number], before[number]];
    [next[number], before[number]] = [next[size], size];
    before[next[size]] = number;
    next[size] = number;
  }

  /** Returns the rank of each number, 0 for the number that occurred last. */
  ranks() {
    const ranks = new Int32Array(this.size);
    for (let it = this.next[this.size], rank = 0; it !== this.size; it = this.next[it], rank += 1) ranks[it] = rank;
    return ranks;
  }
}

/** The packets of a block that set one set of registers, as numbers, with the values that they set. Two packets
 * conflict if these values differ. The object counts how often two of them change turns: up for the first block,
 * down for the second. */
class Rivals {
  constructor(numbers, values) {
    const known = [...new Set(values)];
    this.numbers = numbers;
    this.values = values.map((it) => known.indexOf(it));
    this.changes = new Int32Array(numbers.length ** 2);
    this.recent = [0, 1].map(() => new Recent(numbers.length));
  }

  come(side, place) {
    const { changes, values, numbers } = this;
    this.recent[side].come(place, (other) => {
      const pair = Math.min(place, other) * numbers.length + Math.max(place, other);
      if (values[place] !== values[other]) changes[pair] += side === 0 ? 1 : -1;
    });
  }

  /** Returns the first two packets that conflict and take different turns, or null. Two packets take equal turns if
   * they change turns equally often and the same packet has the last turn. */
  firstOther() {
    const { changes, values, numbers } = this;
    const [left, right] = this.recent.map((it) => it.ranks());
    for (let p = 0; p < numbers.length; p += 1) {
      for (let q = p + 1; q < numbers.length; q += 1) {
        const isOther = changes[p * numbers.length + q] !== 0 || left[p] < left[q] !== right[p] < right[q];
        if (isOther && values[p] !== values[q]) return [numbers[p], numbers[q]];
      }
    }
    return null;
  }
}

/** Returns the rivals among packets, for each set of registers that some packets set. */
const rivalsAmong = (packets, members) => {
  const setters = new Map();
  members.forEach((bytes, number) => {
    for (const [register, value] of packets.sets(bytes)) {
      if (!setters.has(register)) setters.set(register, { numbers: [], values: [] });
      setters.get(register).numbers.push(number);
      setters.get(register).values.push(value);
    }
  });
  const groups = new Map();
  for (const { numbers, values } of setters.values()) {
    const name = numbers.join(' ');
    const before = groups.get(name)?.values;
    groups.set(name, { numbers, values: before ? values.map((it, i) => `${before[i]} ${it}`) : values });
  }
  return [...groups.values()].map(({ numbers, values }) => new Rivals(numbers, values));
};

/** Returns the first two packets that conflict and take different turns in two blocks of the same packets, or null.
 * */
const otherOrder = (packets, blocks, sides) => {
  const frames = blocks.map((block, side) => block.map((i) => sides[side][i].bytes));
  const members = [...new Set(frames[0])];
  const rivals = rivalsAmong(packets, members);
  const places = new Map(members.map((it) => [it, []]));
  for (const it of rivals) it.numbers.forEach((number, place) => places.get(members[number]).push([it, place]));
  frames.forEach((list, side) => {
    for (const bytes of list) for (const [it, place] of places.get(bytes)) it.come(side, place);
  });
  const pairs = rivals.map((it) => it.firstOther()).filter(Boolean);
  if (!pairs.length) return null;
  const [first] = pairs.sort(([p, q], [r, s]) => p - r || q - s);
  return first.map((it) => members[it]);
};

/** Returns the places of the packets of a block that another block does not have. */
const missingIn = (block, outcomes, other, others) => {
  const known = new Set(other.map((i) => others[i].bytes));
  return block.filter((i) => !known.has(outcomes[i].bytes));
};

/** Returns the first difference: the verdict of `dcc same`, and the places of each capture that show it. Calls `tell`
 * with the part that is compared, from 0 to 1. */
const differenceOf = (packets, sides, tell = () => {}) => {
  const [left, right] = sides.map((it) => packets.blocks(it));
  for (let k = 0; ; k += 1) {
    tell(k / left.length);
    const blocks = [left[k].block, right[k].block];
    const writes = [left[k].write, right[k].write];
    const missing = [0, 1].map((it) => missingIn(blocks[it], sides[it], blocks[1 - it], sides[1 - it]));
    if (missing.some((it) => it.length)) return { verdict: `members ${k}`, block: k, blocks, missing };
    const pair = otherOrder(packets, blocks, sides);
    if (pair) return { verdict: `order ${k}`, block: k, blocks, pair };
    const [one, other] = writes.map((i, side) => (i === null ? null : sides[side][i].bytes));
    if (one !== other) return { verdict: 'writes', block: k, blocks, writes };
    if (one === null) return { verdict: 'alike', block: k, blocks };
  }
};

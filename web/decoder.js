// The state of a decoder: the numbers of its object in include/dcc.h, and its text in docs/FORMATS.md. The module
// applies packets to the decoder. Nothing here is proved.

/** The offsets of the fields of a decoder in its object. */
const LOCO = {
  addressKind: 0, speedMode: 1, step: 2, forward: 3, address: 4, pendingLength: 6, pending: 7, functions: 16,
  states: 32, cvs: 48,
};
const BOARD = { number: 0, outs: 2, positions: 3, aspects: 7 };

/** The number of functions, F0 included, and of binary states, with the unused state 0. */
const FUNCTIONS = 69;
const STATES = 128;

/** Returns the places of the bits that are one, from 0. */
const onesOf = (numbers, at, count) => [...Array(count).keys()].filter((n) => (numbers[at + (n >> 3)] >> (n & 7)) & 1);

/** Returns the CVs of a new locomotive decoder: its address, and 28 speed steps. */
const cvsOf = (kind, address) => {
  const cvs = new Uint8Array(CVS);
  cvs[28] = kind === 'l' ? 0x22 : 0x02;
  if (kind === 's') cvs[0] = address;
  if (kind === 'l') [cvs[16], cvs[17]] = [192 + (address >> 8), address & 255];
  return cvs;
};

const MOST_ADDRESS = { s: 127, l: 10239, b: 510 };

/** Returns a new decoder with the address that a word names, for example s3, l1000, none or b12. Returns null if the
 * word names no decoder. */
const decoderOf = (dcc, word) => {
  if (word === 'none') return dcc.newLoco(cvsOf('none'));
  const [, kind, digits] = word.match(/^([slb])(\d{1,5})$/) ?? [];
  const address = Number(digits);
  if (!kind || address > MOST_ADDRESS[kind] || (kind === 's' && address === 0)) return null;
  return kind === 'b' ? dcc.newBoard(address) : dcc.newLoco(cvsOf(kind, address));
};

const wordAt = (numbers, at) => numbers[at] + 256 * numbers[at + 1];

/** Returns the pending packet of a locomotive decoder, or no bytes. */
const pendingOf = ({ numbers }) => [...numbers.subarray(LOCO.pending, LOCO.pending + numbers[LOCO.pendingLength])];

/** Returns the CVs that differ in two decoders, with both values. */
const changedCvs = (before, after) => {
  const list = [];
  for (let cv = 1; cv <= CVS; cv += 1) {
    const [was, is] = [before, after].map((it) => it.numbers[LOCO.cvs + cv - 1]);
    if (was !== is) list.push({ cv, was, is });
  }
  return list;
};

const line = (...words) => `${words.join(' ')}\n`;

const speedWords = (numbers) => {
  const [mode, step] = [numbers[LOCO.speedMode], numbers[LOCO.step]];
  return [...(mode > 1 ? [mode, step] : [mode ? 'emergency' : 'stop']), numbers[LOCO.forward] ? 'f' : 'r'];
};

const locoLines = ({ numbers }) => {
  const kind = numbers[LOCO.addressKind];
  const pending = hex(pendingOf({ numbers }));
  const cvs = [...numbers.subarray(LOCO.cvs)].map((value, i) => (value ? line('cv', i + 1, value) : ''));
  return (
    line('loco', kind ? `${kind === 1 ? 's' : 'l'}${wordAt(numbers, LOCO.address)}` : 'none') +
    line('speed', ...speedWords(numbers)) +
    line('on', ...onesOf(numbers, LOCO.functions, FUNCTIONS)) +
    line('states', ...onesOf(numbers, LOCO.states, STATES)) +
    line('pending', pending || 'none') +
    cvs.join('')
  );
};

const boardLines = ({ numbers }) =>
  line('board', wordAt(numbers, BOARD.number)) +
  line('out', ...onesOf(numbers, BOARD.outs, 8)) +
  line('position', ...numbers.subarray(BOARD.positions, BOARD.positions + 4)) +
  line('aspect', ...numbers.subarray(BOARD.aspects, BOARD.aspects + 4));

/** Returns the decoder text of one decoder, as `dcc run` writes it. */
const decoderText = (decoder) => {
  const lines = decoder.kind === 'loco' ? locoLines(decoder) : boardLines(decoder);
  return `dcc-decoders 2\n${lines}end\n`;
};

const listOf = (words) => (words.length ? words.join(' ') : 'none');

/** Returns the state of a decoder in words: pairs of a name and a value. */
const stateWords = (dcc, fresh, decoder) => {
  const { numbers } = decoder;
  if (decoder.kind === 'board') {
    return [
      ['Outputs that are on', listOf(onesOf(numbers, BOARD.outs, 8))],
      ['Positions of its pairs', [...numbers.subarray(BOARD.positions, BOARD.positions + 4)].join(' ')],
      ['Aspects', [...numbers.subarray(BOARD.aspects, BOARD.aspects + 4)].join(' ')],
    ];
  }
  const [mode, step, forward] = [numbers[LOCO.speedMode], numbers[LOCO.step], numbers[LOCO.forward]];
  const pending = pendingOf(decoder);
  const cvs = changedCvs(fresh, decoder).map(({ cv, was, is }) => `CV${cv} ${is}, was ${was}`);
  return [
    ['Speed', mode > 1 ? `step ${step} of ${mode}` : mode ? 'emergency stop' : 'stopped'],
    ['Direction', forward ? 'forward' : 'reverse'],
    ['Functions that are on', listOf(onesOf(numbers, LOCO.functions, FUNCTIONS).map((n) => `F${n}`))],
    ['Binary states that are on', listOf(onesOf(numbers, LOCO.states, STATES))],
    ['CVs that differ from a new decoder', cvs.length ? cvs.join('; ') : 'none'],
    ['Pending CV write', pending.length ? dcc.words(pending) : 'none'],
  ];
};

/** The number of outcomes between two stored states. */
const KEPT_EVERY = 4096;

/** A decoder that hears the outcomes of a capture. It stores some states, so its state after any outcome is found
 * quickly. */
class Hearing {
  constructor(dcc, fresh, outcomes) {
    this.dcc = dcc;
    this.outcomes = outcomes;
    this.kept = [fresh];
    this.last = { n: 0, state: fresh };
  }

  /** Returns the state of the decoder after the first n outcomes. */
  after(n) {
    const whole = Math.floor(n / KEPT_EVERY);
    for (let i = this.kept.length; i <= whole; i += 1) {
      this.kept.push(this.over(this.kept[i - 1], (i - 1) * KEPT_EVERY, i * KEPT_EVERY));
    }
    // the outcomes of a sniffer go on from the last state
    const isOn = this.last.n >= whole * KEPT_EVERY && this.last.n <= n;
    const from = isOn ? this.last : { n: whole * KEPT_EVERY, state: this.kept[whole] };
    this.last = { n, state: this.over(from.state, from.n, n) };
    return this.last.state;
  }

  over(decoder, from, to) {
    const packets = this.outcomes.slice(from, to).filter((it) => !it.refusal);
    return this.dcc.after(decoder, packets.map((it) => it.bytes));
  }
}

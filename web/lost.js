// Lost packets: packets that a decoder of this toolkit does not hear (docs/FORMATS.md). The module finds them with
// their causes. This script writes the causes, and merges lost packets with the outcomes. Nothing here is proved.

/** Returns the class of a half-bit in the wider limits of lost packets. */
const nearestClassOf = (us) => (us >= 26 && us <= 76 ? 'one' : us >= 77 && us <= 20000 ? 'zero' : 'bad');

/** Returns the causes of a lost packet as `dcc lost` writes them. */
const causesText = ({ preamble, ones, zeros }) => {
  const texts = [];
  if (preamble) texts.push(`preamble ${preamble.ones}${preamble.after === null ? '' : ` after ${preamble.after}`}`);
  for (const [name, off] of [['ones', ones], ['zeros', zeros]]) {
    if (off) texts.push(`${name} ${off.count} from ${off.least} to ${off.most}`);
  }
  return texts.join(', ');
};

const microseconds = ({ least, most }) => (least === most ? `${least} µs` : `${least} to ${most} µs`);

/** Returns the causes of a lost packet as a sentence. */
const causesSentence = ({ preamble, ones, zeros }) => {
  const texts = [];
  if (preamble) {
    const refusal = `, since a refusal that ends at half-bit ${preamble.after} used those before`;
    const after = preamble.after === null ? '' : refusal;
    texts.push(`only ${plural(preamble.ones, 'half-bit')} of ones before the packet, and a decoder needs 20${after}`);
  }
  if (ones) texts.push(`${plural(ones.count, 'half-bit')} of ones of ${microseconds(ones)}, outside 52 to 64`);
  if (zeros) texts.push(`${plural(zeros.count, 'half-bit')} of zeros of ${microseconds(zeros)}, outside 90 to 10000`);
  return texts.join('; ');
};

/** Returns the half-bits that show the first cause of a lost packet whose body begins at a place. */
const causeOf = (halves, { at, lost }, start) => {
  const text = causesSentence(lost);
  if (lost.preamble) {
    const from = start - lost.preamble.ones;
    return { from: Math.min(from, start - 1), to: start, text };
  }
  let first = preambleBefore(halves, start, Math.max(0, start - 20), nearestClassOf);
  while (first + 1 < at && classOf(halves.us[first]) === nearestClassOf(halves.us[first])) first += 1;
  return { from: first, to: first + 1, text };
};

/** Returns outcomes and lost packets in the order of their ends. Each item has the number of outcomes up to it, and
 * `before` is the number of outcomes before these. */
const mergedItems = (outcomes, lost, before = 0) => {
  if (!lost.length) return outcomes;
  const items = [];
  let next = 0;
  outcomes.forEach((it, i) => {
    for (; next < lost.length && lost[next].at < it.at; next += 1) items.push({ ...lost[next], heard: before + i });
    items.push(it);
  });
  for (; next < lost.length; next += 1) items.push({ ...lost[next], heard: before + outcomes.length });
  return items;
};

/** The durations of the two half-bits of a RailCom cutout: the gap before it, and the cutout (RCN-217, S-9.3.2). */
const CUTOUT = { gap: [20, 40], length: [400, 500] };

const isWithinPair = (us, [least, most]) => us >= least && us <= most;

/** Returns true if the two half-bits at a place, directly after a packet, are a RailCom cutout. */
const isCutout = (halves, at) =>
  at + 1 < halves.count && isWithinPair(halves.us[at], CUTOUT.gap) && isWithinPair(halves.us[at + 1], CUTOUT.length);

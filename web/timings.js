// Statistics of the half-bits of a capture beside the limits of NMRA S-9.1 (docs/FORMATS.md), and histograms of their
// durations. Nothing here is proved.

/** The limits of a decoder and of a station, in microseconds. */
const LIMITS = {
  ones: { station: [55, 61], decoder: [52, 64] },
  differences: { station: [3], decoder: [6] },
  zeros: { station: [95, 9900], decoder: [90, 10000] },
  sums: { station: [12000] },
};
const FIGURES = ['ones', 'differences', 'zeros', 'sums', 'below', 'between', 'above'];

/** The number of half-bits of a preamble that count as bits of the packet after it: those of the ten required ones.
 * */
const PREAMBLE_HALVES = 20;

/** A tally: the count, the least, the greatest and the sum of some values. */
class Figure {
  constructor() {
    [this.count, this.least, this.most, this.sum] = [0, Infinity, 0, 0];
  }

  take(value, times = 1) {
    this.count += times;
    this.sum += times * value;
    this.least = Math.min(this.least, value);
    this.most = Math.max(this.most, value);
  }

  /** Returns the mean, rounded down to hundredths. */
  mean() {
    const hundredths = (100 * this.sum - ((100 * this.sum) % this.count)) / this.count;
    return `${Math.floor(hundredths / 100)}.${String(hundredths % 100).padStart(2, '0')}`;
  }

  /** Returns the words of its lines: count, least, most and mean. */
  words() {
    if (!this.count) return ['0', 'none', 'none', 'none'];
    return [this.count, this.least, this.most, this.mean()].map(String);
  }
}

/** Returns the class of a half-bit. */
const listOfHalf = (us) => {
  const kind = classOf(us);
  if (kind !== 'bad') return kind === 'one' ? 'ones' : 'zeros';
  return us < 52 ? 'below' : us < 90 ? 'between' : 'above';
};

/** Adds the bits from one place up to another place, which is excluded. A bit is a pair of half-bits. */
const takeBits = ({ us }, from, to, { differences, sums }) => {
  for (let at = from; at < to; at += 2) {
    if (classOf(us[at]) === 'one') differences.take(Math.abs(us[at] - us[at + 1]));
    else sums.take(us[at] + us[at + 1]);
  }
};

/** The greatest preamble that is counted exactly, in half-bits. */
const MOST_PREAMBLE = 65535;

/** Returns the figures of half-bits from the number of each duration. */
const figuresOf = (counts) => {
  const figures = Object.fromEntries(FIGURES.map((it) => [it, new Figure()]));
  counts.forEach((n, us) => n && figures[listOfHalf(us)].take(us, n));
  return figures;
};

/** Statistics of half-bits and packets that come part by part. */
class Timings {
  constructor() {
    const counts = new Uint32Array(LONGEST + 1);
    // the half-bits of each duration, those of RailCom cutouts, and the places up to which each list is read
    Object.assign(this, { counts, ofCutouts: counts.slice(), halves: 0, outcomes: 0, lost: 0 });
    Object.assign(this, { packets: 0, refused: [0, 0, 0, 0, 0], preamble: null, before: 0, last: null });
    Object.assign(this, { cutouts: 0, cutoutsRead: [0, 0], bits: { differences: new Figure(), sums: new Figure() } });
    this.gaps = new Figure();
  }

  /** Adds the half-bits, outcomes and lost packets that have come since the last call. */
  take(halves, outcomes, lost) {
    for (; this.halves < halves.count; this.halves += 1) this.counts[halves.us[this.halves]] += 1;
    for (const it of outcomes.slice(this.outcomes)) this.takeOutcome(halves, outcomes, it);
    for (const it of lost.slice(this.lost)) this.takePreamble(halves, outcomes, it);
    Object.assign(this, { outcomes: outcomes.length, lost: lost.length });
    [outcomes, lost].forEach((it, i) => this.takeCutouts(halves, it, i));
    return this;
  }

  takeOutcome(halves, outcomes, outcome) {
    const { at, bytes, time, refusal } = outcome;
    if (refusal) {
      this.refused[refusal - 1] += 1;
      return;
    }
    // the body of the packet and the ten ones before it
    takeBits(halves, at - 18 * bytes.length - 2 - PREAMBLE_HALVES, at, this.bits);
    this.takePreamble(halves, outcomes, outcome);
    if (this.packets) this.gaps.take(time - this.last);
    this.packets += 1;
    this.last = time;
  }

  /** Adds the preamble of a packet that is seen or lost, in half-bits of ones that no outcome uses. A half-bit counts
   * as half of a one by the limits of lost packets. */
  takePreamble(halves, outcomes, { at, bytes, lost: causes }) {
    const start = at - 18 * bytes.length - 2;
    // the number of outcomes that end before this body
    while (this.before > 0 && outcomes[this.before - 1].at > start) this.before -= 1;
    while (this.before < outcomes.length && outcomes[this.before].at <= start) this.before += 1;
    const outcome = outcomes[this.before - 1];
    const used = outcome ? outcome.at - onesLeft(outcome) : 0;
    // an unfinished body can use the ones of a preamble that is too short
    const ones = causes?.preamble?.ones ?? start - preambleBefore(halves, start, used, nearestClassOf);
    this.preamble = Math.min(this.preamble ?? MOST_PREAMBLE, ones);
  }

  /** Adds the half-bits of RailCom cutouts after packets. A cutout may not be complete yet. */
  takeCutouts(halves, items, i) {
    for (; this.cutoutsRead[i] < items.length; this.cutoutsRead[i] += 1) {
      const { at, refusal } = items[this.cutoutsRead[i]];
      if (at + 1 >= halves.count) return;
      if (refusal || !isCutout(halves, at)) continue;
      this.cutouts += 1;
      for (const it of [at, at + 1]) this.ofCutouts[halves.us[it]] += 1;
    }
  }

  /** Returns the statistics. The limits are compared with all half-bits but those of RailCom cutouts. */
  told() {
    const { halves, packets, refused, lost, preamble, bits, cutouts } = this;
    const counts = this.counts.map((n, us) => n - this.ofCutouts[us]);
    const figures = { ...figuresOf(this.counts), ...bits };
    const time = ['ones', 'zeros', 'below', 'between', 'above'].reduce((sum, it) => sum + figures[it].sum, 0);
    const gap = this.gaps.count ? this.gaps.most : null;
    const judged = { ...figuresOf(counts), ...bits };
    return { halves, time, packets, refused, lost, preamble, gap, figures, judged, counts, cutouts };
  }
}

/** Returns the statistics of a capture. */
const timingsOf = (halves, outcomes, lost = []) => new Timings().take(halves, outcomes, lost).told();

/** Returns the statistics as the text of `dcc timing`. */
const timingText = ({ halves, time, packets, refused, lost, preamble, gap, figures }) => {
  const lines = [`halves ${halves}`, `time ${time}`, `packets ${packets}`];
  refused.forEach((n, i) => lines.push(`refused H${i + 1} ${n}`));
  lines.push(`lost ${lost}`, `preamble least ${preamble ?? 'none'}`, `gap most ${gap ?? 'none'}`);
  for (const name of FIGURES) {
    ['count', 'least', 'most', 'mean'].forEach((word, i) => lines.push(`${name} ${word} ${figures[name].words()[i]}`));
    for (const [who, limits] of Object.entries(LIMITS[name] ?? {})) lines.push(`${name} ${who} ${limits.join(' ')}`);
  }
  return lines.map((it) => `${it}\n`).join('');
};

/** The content of each list of the report. */
const FIGURE_NAMES = {
  ones: 'halves of a one',
  differences: 'the two halves of a one, their difference',
  zeros: 'halves of a zero',
  sums: 'the two halves of a zero, their sum',
  below: 'shorter than a half of a one',
  between: 'between a one and a zero',
  above: 'longer than a half of a zero',
};

const limitWords = (limits) => {
  if (!limits) return '';
  return limits.length === 1 ? `at most ${count(limits[0])}` : limits.map(count).join(' to ');
};

/** Returns true if values keep to limits: a least and a greatest value, or only a greatest value. */
const isWithin = (figure, limits) => {
  if (!limits || !figure.count) return true;
  return figure.most <= limits[limits.length - 1] && (limits.length === 1 || figure.least >= limits[0]);
};

const figureRow = (name, figure) => {
  const row = make('tr');
  row.append(make('th', '', FIGURE_NAMES[name]), ...figure.words().map((it) => make('td', '', it)));
  row.firstChild.scope = 'row';
  for (const who of ['station', 'decoder']) {
    const limits = LIMITS[name]?.[who];
    row.append(make('td', isWithin(figure, limits) ? '' : 'beyond', limitWords(limits)));
  }
  return row;
};

/** Shows the statistics: the two histograms, the table and the text. */
const showTimings = (timings) => {
  $('histogram').replaceChildren(...drawHistogram(timings.counts, $('histogram').clientWidth));
  const head = make('tr');
  const titles = ['Microseconds', 'count', 'least', 'greatest', 'mean', 'limits of a station', 'limits of a decoder'];
  head.append(...titles.map((it) => Object.assign(make('th', '', it), { scope: 'col' })));
  const { judged } = timings;
  $('figures').replaceChildren(head, ...FIGURES.map((it) => figureRow(it, judged[it])));
  const { preamble, gap, cutouts } = timings;
  const longest = gap === null ? '' : ` Longest time between the ends of two packets: ${milliseconds(gap)}.`;
  const shortest = preamble === null ? '' : ` Shortest preamble: ${plural(preamble, 'half-bit')}.`;
  const refused = timings.refused.map((n, i) => `H${i + 1} ${count(n)}`).join(', ');
  const whole = `Whole time: ${milliseconds(timings.time)}.`;
  const railcom = ` ${plural(cutouts, 'RailCom cutout')}: the table and the drawings leave out their half-bits.`;
  const cut = cutouts ? railcom : '';
  $('timing-sum').textContent = `${whole}${longest}${shortest} Refused: ${refused}.${cut} A red limit is exceeded.`;
  $('timing-lines').value = timingText(timings);
};

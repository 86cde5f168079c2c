// A capture that grows: the half-bits of a sniffer, with the packets that are found in them so far. Nothing here is
// proved.

const ANEW = 'the sniffer began anew';
const BYTES_LOST = 'bytes of the port were lost';

/** The milliseconds in which the packets of a second are counted. */
const RATE_TIME = 5000;

/** Returns a place where half-bits are missing as a sentence. */
const gapText = ({ unfit, why }) =>
  unfit ? `${plural(unfit, 'half-bit')} did not fit into the memory of the board before this.` : `${why} before this.`;

/** Returns an item, or the causes of a lost packet, after the first half-bits of a capture are cut. */
const movedItem = (item, cut, time, heard) => {
  const moved = { ...item, at: item.at - cut, time: item.time - time, heard: item.heard - heard };
  return item.lost ? { ...moved, lost: movedCauses(item.lost, cut) } : moved;
};
const movedCauses = (causes, cut) => {
  const { preamble } = causes;
  return preamble?.after ? { ...causes, preamble: { ...preamble, after: preamble.after - cut } } : causes;
};

class Live {
  /** Creates a capture of at most `most` half-bits. */
  constructor(dcc, most = MOST_HALVES) {
    // unfitCount has the half-bits that did not fit by the last comment, and allUnfit all of them
    Object.assign(this, { dcc, most, name: 'Sniffer', halves: new Halves(), gaps: [] });
    Object.assign(this, { unfitCount: 0, allUnfit: 0, losses: 0, forgotten: 0 });
    this.beginSearch();
  }

  /** Begins to search at the first half-bit. */
  beginSearch() {
    Object.assign(this, { outcomes: [], lost: [], items: [], refusals: 0, packets: 0, toldGaps: 0, marks: [] });
    this.timings = new Timings();
    const { dcc } = this;
    const addOutcome = (at, time, refusal, key, bytesOf) => {
      const bytes = this.dcc.frameOf(bytesOf());
      this[refusal ? 'refusals' : 'packets'] += 1;
      this.outcomes.push({ at, time, refusal, bytes, heard: this.outcomes.length + 1 });
    };
    this.searches = [new OutcomeSearch(dcc, addOutcome), new LostSearch(dcc, (it) => this.lost.push(it))];
  }

  /** Adds n half-bits of a duration. If there would be too many, the capture first forgets the oldest. */
  push(us, n) {
    if (this.halves.count + n > this.most) this.forget();
    this.halves.push(us, n);
  }

  /** Takes the number of half-bits that did not fit since the sketch began. They have the greatest duration, and are
   * directly before this place or directly after it. */
  unfit(total) {
    const more = total - this.unfitCount;
    this.unfitCount = total;
    if (more <= 0) return;
    this.allUnfit += more;
    let from = this.halves.count;
    while (from > 0 && this.halves.us[from - 1] === LONGEST) from -= 1;
    const last = this.gaps[this.gaps.length - 1];
    if (last?.unfit && last.from === from) last.unfit += more;
    else this.gaps.push({ from, unfit: more });
  }

  /** Takes a place where half-bits are missing. A half-bit of the greatest duration separates those before from those
   * after. */
  lose(why) {
    if (why === ANEW) this.unfitCount = 0;
    this.losses += 1;
    this.gaps.push({ from: this.halves.count, why });
    this.push(LONGEST, 1);
  }

  /** Searches the half-bits that have come since the last search. */
  search() {
    const { halves, outcomes, lost, items } = this;
    const [heard, missed] = [outcomes.length, lost.length];
    for (const it of this.searches) searchAll(halves, it, undefined, it.count);
    const added = mergedItems(outcomes.slice(heard), lost.slice(missed), heard);
    for (const it of added) {
      for (; this.gaps[this.toldGaps]?.from < it.at; this.toldGaps += 1) {
        it.gaps = [...(it.gaps ?? []), this.gaps[this.toldGaps]];
      }
      items.push(it);
    }
    this.timings.take(halves, outcomes, lost);
  }

  /** Forgets the oldest quarter, and half-bits after it up to the end bit of a packet. The half-bits of this end bit
   * stay, since they count for the next preamble. */
  forget() {
    this.search();
    const { halves } = this;
    const quarter = halves.count >> 2;
    const packet = this.outcomes.find((it) => !it.refusal && it.at - 2 >= quarter);
    const cut = packet ? packet.at - 2 : quarter;
    this.halves = new Halves();
    this.halves.pushBlock(halves.us.subarray(cut, halves.count), halves.count - cut);
    for (let at = cut; at < halves.count; at += 1) if (halves.us[at] > LONGEST_ZERO) this.halves.long += 1;
    this.gaps = this.gaps.filter((it) => it.from >= cut).map((it) => Object.assign(it, { from: it.from - cut }));
    this.forgotten += cut;
    // anywhere else, a search of the rest can find other packets
    if (packet) this.moveItems(cut, halves.us.subarray(0, cut).reduce((sum, it) => sum + it, 0));
    else this.beginSearch();
  }

  /** Moves the items after the end bit that begins at a cut. `time` is the time of the cut. */
  moveItems(cut, time) {
    const { outcomes, items } = this;
    const isKept = (it) => it.at > cut + 2;
    const heard = outcomes.filter((it) => !isKept(it)).length;
    this.items = items.filter(isKept).map((it) => movedItem(it, cut, time, heard));
    this.outcomes = this.items.filter((it) => !it.lost);
    this.lost = this.items.filter((it) => it.lost);
    this.refusals = this.outcomes.filter((it) => it.refusal).length;
    const end = this.items[this.items.length - 1]?.at ?? 0;
    Object.assign(this, { toldGaps: this.gaps.filter((it) => it.from < end).length, timings: new Timings() });
    for (const it of this.searches) Object.assign(it, { count: it.count - cut, time: it.time - time });
  }

  /** Returns the packets a second in the last seconds by the clock, or null at the begin. */
  rate(now) {
    this.marks.push({ now, packets: this.packets });
    while (this.marks.length > 2 && now - this.marks[1].now >= RATE_TIME) this.marks.shift();
    const [first] = this.marks;
    const seconds = (now - first.now) / 1000;
    return seconds < 1 ? null : (this.packets - first.packets) / seconds;
  }

  /** Returns the capture as it is now. */
  still() {
    const { count: n, long, us } = this.halves;
    const halves = new Halves({ count: n, long, buffer: us.buffer });
    const [outcomes, lost, items] = [this.outcomes, this.lost, this.items].map((it) => it.slice());
    const tail = tailOf(halves, items[items.length - 1]);
    return { name: this.name, halves, outcomes, lost, items, refusals: this.refusals, tail };
  }
}

/** Yields a capture as text, in parts. A comment tells each place where half-bits are missing. */
function* captureText({ halves, gaps = [] }) {
  let [words, next] = [[], 0];
  for (let at = 0; at < halves.count; ) {
    const isGap = gaps[next]?.from <= at;
    if (words.length === 16 || (isGap && words.length)) yield `${words.splice(0).join(' ')}\n`;
    for (; gaps[next]?.from <= at; next += 1) yield `# ${gapText(gaps[next])}\n`;
    const us = halves.us[at];
    const most = Math.min(halves.count, gaps[next]?.from ?? Infinity);
    let end = at + 1;
    while (end < most && halves.us[end] === us) end += 1;
    words.push(end - at > 1 ? `${us}*${end - at}` : us);
    at = end;
  }
  yield `${words.join(' ')}\n`;
}

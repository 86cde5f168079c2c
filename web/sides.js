// Two captures side by side, with their first difference for a decoder.

/** The number of packets that are drawn before and after the difference. */
const AROUND = 2;

const around = (list, at) => {
  const from = Math.max(0, Math.min(at, list.length - 1) - AROUND);
  return list.slice(from, from + 2 * AROUND + 1);
};

/** Returns a difference as a sentence. */
const tellDifference = (dcc, difference, sides) => {
  const { verdict, block, missing, pair, writes } = difference;
  const where = block ? `After write ${block} to the decoder` : 'Before the first write to the decoder';
  const words = (side, i) => `“${told(dcc, sides[side].outcomes[i])}”`;
  if (missing) {
    const only = (name, side) => {
      return missing[side].length && `only the ${name} capture has ${words(side, missing[side][0])}`;
    };
    const has = ['first', 'second'].map(only);
    return `${where}, ${has.filter(Boolean).join(', and ')}.`;
  }
  if (pair) {
    const both = pair.map((it) => `“${dcc.words(it)}”`).join(' and ');
    return `${where}, ${both} alternate in different ways, and they set one register to two values.`;
  }
  if (writes) {
    const [one, other] = writes.map((i, side) => (i === null ? 'has no further write' : `writes ${words(side, i)}`));
    return `${where}, the next writes differ: the first capture ${one}, the second ${other}.`;
  }
  return verdict === 'alike' ? 'Each register of the decoder has the same value after both captures.' : '';
};

/** Returns the places of a side to draw, and those of them that differ. */
const shownOf = (difference, side, outcomes, otherTurns) => {
  const { blocks, missing, pair, writes } = difference;
  const block = blocks[side];
  if (missing) {
    const at = missing[side].length ? block.indexOf(missing[side][0]) : 0;
    return { list: around(block, at), differs: new Set(missing[side]) };
  }
  if (pair) {
    const turns = turnsOf(block, outcomes, ...pair);
    return { list: around(turns, otherTurns), differs: new Set(turns.slice(otherTurns, otherTurns + 1)) };
  }
  if (writes) {
    const list = block.slice(-AROUND);
    if (writes[side] === null) return { list, differs: new Set() };
    return { list: [...list, writes[side]], differs: new Set([writes[side]]) };
  }
  return { list: [], differs: new Set() };
};

/** Returns the first turn that differs. */
const firstOtherTurn = ({ blocks, pair }, [outcomes, others]) => {
  if (!pair) return 0;
  const [one, two] = [turnsOf(blocks[0], outcomes, ...pair), turnsOf(blocks[1], others, ...pair)];
  const at = one.findIndex((i, n) => n >= two.length || outcomes[i].bytes !== others[two[n]].bytes);
  return at < 0 ? one.length : at;
};

/** One side: the packets around the difference, as in the table. */
class Side extends Grid {
  constructor(dcc, name, capture, { list, differs }, zoom) {
    const body = make('tbody');
    super(dcc, body);
    Object.assign(this, { capture, rows: list });
    body.append(...list.map((i, n) => this.draw(n, i, zoom)));
    list.forEach((i, n) => this.element(n).classList.toggle('differs', differs.has(i)));
    if (list.length) this.element(0).tabIndex = 0;
    this.section = this.frame(`${name}: ${capture.name}`, name);
  }

  frame(title, name) {
    const side = make('section', 'side');
    side.setAttribute('aria-label', name);
    const table = make('table');
    table.setAttribute('role', 'grid');
    table.setAttribute('aria-label', `The ${name} capture: up and down choose a row, left and right a half-bit in it`);
    table.append(this.body);
    side.append(make('h3', '', title), this.rows.length ? table : make('p', 'soft', 'no packet for the decoder here'));
    return side;
  }

  /** Chooses the row that was chosen before the side was drawn again, if it is still there. */
  chooseAs({ capture, rows, chosen, half }) {
    const n = capture === this.capture && chosen !== null ? this.rows.indexOf(rows[chosen]) : -1;
    if (n < 0) return;
    this.choose(n);
    if (half !== null) this.chooseHalf(half);
  }
}

/** The first difference of two captures for a decoder, and its two sides. */
class Sides {
  constructor(dcc, work) {
    Object.assign(this, { dcc, work, drawn: [], compared: [], difference: null });
  }

  /** Shows the difference, or what lacks for it. */
  async show(captures, decoder, zoom, otherLack) {
    const isEmpty = captures.some((it) => !it?.halves.count);
    const lack =
      otherLack ||
      (!decoder && 'Name a decoder, for example s3, l1000 or b12.') ||
      (isEmpty && 'Enter a second capture in the field above.');
    if (lack) {
      this.work.drop('comparison');
      return this.draw([lack], []);
    }
    const difference = await this.differenceOf(captures, decoder.word);
    if (difference === STOPPED) return this.draw(['The comparison was stopped.'], []);
    // null if another comparison has begun
    return difference && this.draw(this.verdict(difference, captures), this.sides(difference, captures, zoom));
  }

  /** Returns the difference of two captures, and stores it. */
  async differenceOf(captures, word) {
    const compared = [...captures, word];
    if (this.difference && compared.every((it, i) => it === this.compared[i])) return this.difference;
    const job = { who: word, sides: captures.map((it) => packOutcomes(it.outcomes)) };
    const difference = await this.work.run('comparison', `Comparing for ${word}`, 'compare', job);
    if (!difference || difference === STOPPED) return difference;
    this.compared = compared;
    this.difference = { ...difference, pair: difference.pair?.map((it) => this.dcc.frameOf(it)) };
    return this.difference;
  }

  verdict(difference, captures) {
    const isCut = captures.some((it) => it.refused) ? ' The comparison ends at the error.' : '';
    return [make('code', '', difference.verdict), ` ${tellDifference(this.dcc, difference, captures)}${isCut}`];
  }

  sides(difference, captures, zoom) {
    if (difference.verdict === 'alike') return [];
    const turn = firstOtherTurn(difference, captures.map((it) => it.outcomes));
    const shown = (it, i) => shownOf(difference, i, it.outcomes, turn);
    return captures.map((it, i) => new Side(this.dcc, ['first', 'second'][i], it, shown(it, i), zoom));
  }

  draw(words, sides) {
    const before = this.drawn;
    this.drawn = sides;
    $('verdict').replaceChildren(...words);
    $('sides').replaceChildren(...sides.map((it) => it.section));
    showEnds($('sides'));
    before.forEach((it, i) => sides[i]?.chooseAs(it));
  }
}

// The table of packets and refusals: a page of its rows. Below the chosen row are the numbers of its turnout and the
// state of a decoder.

/** The number of rows that are shown while a capture grows. */
const ROWS_OF_LIVE = 8;

class Table extends Grid {
  constructor(dcc) {
    super(dcc, $('rows'));
    Object.assign(this, { zoom: 1, first: 0, isLive: false });
    const [start, end] = [() => 0, () => Infinity];
    const pages = { start, back: () => this.first - ROWS_OF_PAGE, on: () => this.first + ROWS_OF_PAGE, end };
    for (const [id, to] of Object.entries(pages)) $(id).addEventListener('click', () => this.turn(to()));
  }

  get items() {
    return this.capture.items;
  }

  /** Shows rows of a capture, and the state of a decoder or null. The half-bits after the last outcome are shown if
   * the filter matches them. */
  show(capture, rows, decoder, withTail) {
    // a capture that grew is another object with the same items
    const isSame = this.capture?.items[0] === capture.items[0];
    const chosen = isSame && this.chosen !== null ? this.rows[this.chosen].last : null;
    Object.assign(this, { capture, rows, withTail, chosen: null, half: null });
    this.decoder = decoder && { ...decoder, hearing: new Hearing(this.dcc, decoder.fresh, capture.outcomes) };
    if (this.isLive) return this.turn(0);
    // the row that was chosen, or the last row before it; with a decoder, at least the first row
    const n = chosen === null ? -1 : rows.findLastIndex((it) => it.first <= chosen);
    this.turn(Math.max(0, n));
    if (n >= 0 || decoder) this.choose(Math.max(0, n));
  }

  /** Shows a page of rows, from one row on. */
  turn(first) {
    const { rows } = this;
    if (this.isLive) {
      $('rows').replaceChildren();
      return this.grow();
    }
    const last = Math.max(0, Math.floor((rows.length - 1) / ROWS_OF_PAGE) * ROWS_OF_PAGE);
    this.first = Math.min(Math.max(0, Math.floor(first / ROWS_OF_PAGE) * ROWS_OF_PAGE), last);
    const end = Math.min(rows.length, this.first + ROWS_OF_PAGE);
    $('pager').hidden = rows.length <= ROWS_OF_PAGE;
    $('place').textContent = `${count(this.first + 1)} to ${count(end)} of ${count(rows.length)}`;
    for (const id of ['start', 'back']) $(id).disabled = this.first === 0;
    for (const id of ['on', 'end']) $(id).disabled = this.first === last;
    const list = rows.slice(this.first, end).map((_, i) => this.row(this.first + i));
    if (end === rows.length && this.capture.tail && this.withTail) list.push(this.tailRow());
    $('rows').replaceChildren(...list);
    showEnds($('rows'));
    if (this.isShown(this.chosen)) this.choose(this.chosen);
    else if (list.length) list[0].tabIndex = 0;
  }

  /** Shows the newest rows of a capture that grows, the last row first, and the state of the decoder above them. Keeps
   * the drawings of rows that are shown already, and returns the number of those that are drawn. */
  grow() {
    const { rows } = this;
    const focused = document.activeElement?.closest('#rows [data-row]');
    if (focused) {
      this.choose(Number(focused.dataset.row));
      return 0;
    }
    this.first = Math.max(0, rows.length - ROWS_OF_LIVE);
    $('pager').hidden = true;
    const shown = new Set();
    for (const it of $('rows').querySelectorAll('[data-row]')) {
      const n = Number(it.dataset.row);
      it.tabIndex = -1;
      if (n >= this.first && it.look === this.lookOf(n)) shown.add(n);
      else it.remove();
    }
    const added = [];
    for (let n = rows.length - 1; n >= this.first; n -= 1) if (!shown.has(n)) added.push(this.row(n));
    const isOpen = $('rows').querySelector('.detail .text')?.open;
    $('rows').querySelector('.detail')?.remove();
    $('rows').prepend(...added);
    showEnds(...added);
    if (rows.length) this.element(rows.length - 1).tabIndex = 0;
    const last = this.items[this.items.length - 1];
    if (this.decoder && last) {
      $('rows').prepend(this.detailOf(this.tellState(last, this.capture.outcomes.length)));
      $('rows').querySelector('.detail .text').open = isOpen;
    }
    return added.length;
  }

  /** Returns what can change in a row while the capture grows. */
  lookOf(n) {
    const { first, times } = this.rows[n];
    return [times, ...(this.items[first].gaps ?? []).map(gapText)].join();
  }

  row(n) {
    const { first, last, times } = this.rows[n];
    const row = Object.assign(this.draw(n, first, this.zoom), { look: this.lookOf(n) });
    if (times > 1) {
      const { at, time } = this.items[last];
      const repeats = `${count(times)} times, the last at ${at}, ${milliseconds(time)}`;
      row.querySelector('.what').append(make('span', 'times', repeats));
    }
    return row;
  }

  tailRow() {
    const { tail, halves } = this.capture;
    const row = make('tr', 'open');
    row.setAttribute('role', 'row');
    const ones = plural(tail.ones, 'half of a one', 'halves of ones');
    const why = tail.isOpen
      ? 'The capture ends within a packet.'
      : `No packet begins here: 20 halves of ones and then a half of a zero would begin one. It ends in ${ones}.`;
    const what = cell('td', 'what');
    const more = `${plural(tail.end - tail.begin, 'half-bit')} after the last packet`;
    what.append(make('span', 'open-words', more), make('span', 'open-why', why));
    row.append(cell('th', 'number', '…'), what, drawingCell(halves, tail, why, this.zoom));
    return row;
  }

  isShown(n) {
    return n !== null && n >= this.first && n < Math.min(this.rows.length, this.first + ROWS_OF_PAGE);
  }

  /** Chooses a row, and pauses a capture that grows. Shows below the row the numbers of its turnout, and the state of
   * the decoder after its last packet. */
  choose(n) {
    if (!this.rows.length) return;
    const { isLive } = this;
    if (isLive) this.pause();
    if (!this.isShown(n)) this.turn(n);
    $('rows').querySelector('.detail')?.remove();
    super.choose(n);
    const item = this.items[this.rows[n].last];
    const turnout = item.refusal ? '' : turnoutSentence(this.dcc.packetOf(item.bytes));
    const state = this.tellState(item, item.heard);
    this.element(n).after(this.detailOf(turnout ? [make('p', 'turnout', turnout), ...state] : state));
    if (this.half !== null) this.chooseHalf(this.half);
    if (!isLive) return;
    this.element(n).scrollIntoView({ block: 'center' });
    this.element(n).focus();
  }

  detailOf(parts) {
    const row = make('tr', 'detail');
    row.setAttribute('role', 'row');
    const held = cell('td', 'held');
    held.colSpan = 3;
    held.append(...parts);
    row.append(held);
    return row;
  }

  /** Returns the state of the decoder after a number of outcomes, in words and as a decoder text. */
  tellState(outcome, n) {
    const { decoder } = this;
    if (!decoder) {
      return [make('p', 'soft', 'Name a decoder above, for example s3, l1000 or b12, to see its state here.')];
    }
    const state = decoder.hearing.after(n);
    const list = make('dl', 'state');
    for (const [name, value] of stateWords(this.dcc, decoder.fresh, state)) {
      list.append(make('dt', '', name), make('dd', '', value));
    }
    const text = make('details', 'text');
    text.append(make('summary', '', 'as decoder text'), make('pre', '', decoderText(state)));
    const title = `${decoder.word} after half-bit ${outcome.at}, if it was new before the first half-bit:`;
    return [make('p', 'state-of', title), list, text];
  }
}

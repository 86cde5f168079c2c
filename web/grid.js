// A grid of packets and refusals with their drawings. A click, a touch or the arrow keys choose a row, and a half-bit
// in this row. The Tab key treats the grid as one element.

const ROWS_OF_PAGE = 50;

const THREE_DIGITS = { minimumFractionDigits: 3, maximumFractionDigits: 3 };

const milliseconds = (us) => `${(us / 1000).toLocaleString('en', THREE_DIGITS)} ms`;

const cell = (name, className, text) => {
  const it = make(name, className, text);
  it.setAttribute('role', name === 'th' ? 'rowheader' : 'gridcell');
  return it;
};

/** Returns the cells of an outcome: its number, its time, its words, and further text. */
const cellsOf = (dcc, outcome, strip) => {
  const what = cell('td', 'what');
  what.append(make('span', 'words', told(dcc, outcome)));
  const people = outcome.refusal ? '' : peopleWords(dcc, outcome.bytes);
  if (people) what.append(make('span', 'people', people));
  if (strip.fault) what.append(make('span', 'why', strip.fault.text));
  else what.append(make('span', 'bytes', outcome.bytes.map((it) => hex([it])).join(' ')));
  for (const it of outcome.gaps ?? []) what.append(make('span', 'gap', gapText(it)));
  const number = cell('th', 'number');
  number.append(make('span', 'at', outcome.at), make('span', 'time', milliseconds(outcome.time)));
  return [number, what];
};

/** Returns the cell of a drawing. */
const drawingCell = (halves, strip, description, zoom) => {
  const it = cell('td', 'drawing');
  const track = make('div', 'track');
  // the arrow keys move through the half-bits, so the Tab key skips each drawing
  track.tabIndex = -1;
  if (strip.hidden) it.append(make('span', 'hidden', `${plural(strip.hidden, 'half-bit')} before this are not drawn`));
  track.append(drawStrip(halves, strip, description, zoom));
  it.append(track);
  return it;
};

/** The width in pixels below which a drawing begins at the preamble, since it shows less than half of a packet. */
const NARROW = 500;

/** Scrolls drawings that are wider than their cell to their end, where the packet is. The drawing of a lost packet is
 * scrolled to the cause, and a drawing in a narrow cell to the preamble. */
const showEnds = (...elements) => {
  for (const it of elements.flatMap((element) => [...element.querySelectorAll('.track')])) {
    const { strip, edges } = it.querySelector('svg');
    const xOf = (place) => edges[place - strip.from];
    const preamble = strip.parts.find((part) => part.kind === 'preamble');
    if (strip.isLost) it.scrollLeft = xOf(strip.fault.from) - it.clientWidth / 4;
    else if (it.clientWidth < NARROW && preamble) it.scrollLeft = xOf(preamble.from) - 3;
    else it.scrollLeft = it.scrollWidth;
  }
};

class Grid {
  /** Creates the grid in an element. Each row has its number in `rows`. The rows belong to `capture`. */
  constructor(dcc, body) {
    Object.assign(this, { dcc, body, capture: null, rows: [], chosen: null, half: null });
    body.addEventListener('keydown', (event) => this.press(event));
    body.addEventListener('click', (event) => this.click(event));
    body.addEventListener('mousemove', (event) => this.hover(event));
  }

  /** The items of which the rows show some. */
  get items() {
    return this.capture.outcomes;
  }

  element(n) {
    return this.body.querySelector(`[data-row="${n}"]`);
  }

  /** Returns the row with a number, which shows an item. */
  draw(n, i, zoom) {
    const { halves } = this.capture;
    const outcome = this.items[i];
    const strip = stripOf(halves, outcome, this.items[i - 1]);
    const row = make('tr', outcome.lost ? 'lost' : outcome.refusal ? 'refused' : 'packet');
    row.dataset.row = n;
    row.tabIndex = -1;
    row.setAttribute('role', 'row');
    row.setAttribute('aria-selected', 'false');
    const more = strip.fault ? `: ${strip.fault.text}` : `, bytes ${hex(outcome.bytes)}`;
    row.append(...cellsOf(this.dcc, outcome, strip), drawingCell(halves, strip, told(this.dcc, outcome) + more, zoom));
    return row;
  }

  /** Chooses a row. No half-bit of another row stays chosen. */
  choose(n) {
    if (n !== this.chosen) this.half = null;
    this.chosen = n;
    for (const it of this.body.querySelectorAll('[data-row]')) {
      const isChosen = Number(it.dataset.row) === n;
      it.tabIndex = isChosen ? 0 : -1;
      it.setAttribute('aria-selected', isChosen);
      if (!isChosen) for (const mark of it.querySelectorAll('.half, .chosen')) mark.remove();
    }
  }

  /** Chooses a half-bit of the chosen row, and shows its duration below the drawing. */
  chooseHalf(place) {
    const row = this.element(this.chosen);
    const svg = row.querySelector('svg');
    const { from, end } = svg.strip;
    this.half = Math.min(Math.max(place, from), end - 1);
    markHalf(svg, this.half);
    let line = row.querySelector('.half');
    if (!line) {
      line = make('p', 'half');
      line.setAttribute('role', 'status');
      row.querySelector('.drawing').append(line);
    }
    line.textContent = this.tell(this.half);
  }

  tell(place) {
    return tellHalf(place, this.capture.halves.slice(place, place + 1)[0]);
  }

  /** Shows the half-bit under the mouse. */
  hover(event) {
    const svg = event.target.closest('svg');
    if (!svg) return;
    const place = placeAt(svg, event.clientX - svg.getBoundingClientRect().left);
    if (svg === this.lit?.svg && place === this.lit.place) return;
    this.lit = { svg, place };
    lightHalf(svg, place, this.tell(place));
  }

  click(event) {
    const row = event.target.closest('[data-row]');
    if (!row) return;
    const svg = event.target.closest('svg');
    const place = svg && placeAt(svg, event.clientX - svg.getBoundingClientRect().left);
    this.choose(Number(row.dataset.row));
    if (svg) this.chooseHalf(place);
  }

  press(event) {
    const row = event.target.closest('[data-row]');
    if (!row || event.ctrlKey || event.altKey || event.metaKey) return;
    const n = Number(row.dataset.row);
    const end = this.rows.length - 1;
    const rows = {
      Enter: n,
      ' ': n,
      ArrowDown: this.chosen === null ? n : n + 1,
      ArrowUp: n - 1,
      PageDown: n + ROWS_OF_PAGE,
      PageUp: n - ROWS_OF_PAGE,
      Home: 0,
      End: end,
      ArrowLeft: n,
      ArrowRight: n,
    };
    if (!(event.key in rows)) return;
    event.preventDefault();
    this.choose(Math.min(Math.max(rows[event.key], 0), end));
    if (event.key === 'ArrowLeft') this.step(-1);
    if (event.key === 'ArrowRight') this.step(1);
    this.element(this.chosen).focus();
  }

  /** Moves to the next half-bit of the chosen row, or to the one before. The first move goes to the place of the
   * refusal, or to the beginning of the packet. */
  step(by) {
    const { fault, start } = this.element(this.chosen).querySelector('svg').strip;
    this.chooseHalf(this.half === null ? (fault ? fault.from : start) : this.half + by);
  }
}

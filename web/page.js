// The page: it reads a text, and shows its packets and their drawings.

const decode = (base64) => Uint8Array.from(atob(base64), (it) => it.charCodeAt(0));

/** The most lines of the list in its field. A browser needs some 6 KB for each line. */
const LINES_SHOWN = 2000;

/** The milliseconds between two drawings of the durations in a capture that grows. */
const TIMINGS_EACH = 3000;

class Page {
  constructor(dcc, work) {
    this.dcc = dcc;
    this.work = work;
    this.table = new Table(dcc);
    this.sides = new Sides(dcc, work);
    this.source = new Source('', work, (read) => this.take(read));
    this.second = new Source('second-', work, (read) => this.takeSecond(read));
    this.sniffer = new Sniffer(this);
    this.table.pause = () => this.sniffer.pause();
    $('kind').append(...Object.entries(KINDS).map(([key, { name }]) => new Option(name, key)));
    for (const id of ['kind', 'own', 'fold']) $(id).addEventListener('change', () => this.list());
    $('find').addEventListener('input', () => this.list());
    $('go').addEventListener('change', () => this.go());
    for (const id of ['who', 'second-who']) $(id).addEventListener('input', () => this.name($(id).value));
    $('zoom').addEventListener('input', () => this.scale());
    $('listing').addEventListener('toggle', () => this.writeListing());
    $('timing').addEventListener('toggle', () => this.showTimings());
    $('comparison').addEventListener('toggle', () => this.compare());
    $('save').addEventListener('click', () => download('packets.txt', this.listing()));
    $('cut').addEventListener('click', () => this.cut());
    for (const it of document.querySelectorAll('[data-example]')) {
      it.addEventListener('click', () => this.source.put($(it.dataset.example).textContent.trimStart()));
    }
    document.addEventListener('dragover', (event) => {
      if (event.dataTransfer.types.includes('Files')) event.preventDefault();
    });
    document.addEventListener('drop', (event) => this.drop(event));
  }

  get halves() {
    return this.capture.halves;
  }

  get outcomes() {
    return this.capture.outcomes;
  }

  /** A file that is dropped on the second capture becomes the second capture, otherwise the first. */
  drop(event) {
    const [file] = event.dataTransfer.files;
    if (!file) return;
    event.preventDefault();
    const isSecond = event.target instanceof Element && event.target.closest('#comparison');
    (isSecond ? this.second : this.source).open(file);
  }

  /** Shows a capture that a worker has read. */
  heard({ count: n, long, buffer, outcomes: packed, ...read }) {
    const halves = new Halves({ count: n, long, buffer });
    const outcomes = unpackOutcomes(this.dcc, packed);
    const lost = read.lost.map((it) => ({ ...it, bytes: this.dcc.frameOf(it.bytes) }));
    const items = mergedItems(outcomes, lost);
    const refusals = outcomes.filter((it) => it.refusal).length;
    return { ...read, halves, outcomes, lost, items, refusals, tail: tailOf(halves, items[items.length - 1]) };
  }

  async show(capture) {
    this.capture = capture;
    this.sumUp();
    this.list();
    this.writeListing();
    this.showTimings();
    await this.compare();
  }

  async take(read) {
    this.sniffer.leave();
    this.table.isLive = false;
    $('cut').hidden = !read.isTwo;
    await this.show(this.heard(read));
    // a test waits for this
    document.body.dataset.read = Number(document.body.dataset.read ?? 0) + 1;
  }

  async takeSecond(read) {
    this.other = this.heard(read);
    await this.compare();
    document.body.dataset.read = Number(document.body.dataset.read ?? 0) + 1;
  }

  /** Shows a capture that grows: the newest rows, and those that come. */
  follow(live) {
    this.table.isLive = true;
    $('cut').hidden = true;
    this.show(live);
  }

  /** Shows what has come to the capture that grows, and returns the number of rows that are drawn. After it has
   * forgotten half-bits, it has other items. */
  grow() {
    const { table, rows } = this;
    if (!table.isLive) return 0;
    this.sumUp();
    if (this.capture.items !== rows.items) this.list();
    this.rows.take();
    const drawn = table.grow();
    this.tellFilter();
    this.writeListing();
    // a drawing that is in use stays
    const isDue = performance.now() - this.timedAt > TIMINGS_EACH;
    if (isDue && !$('timing').contains(document.activeElement)) this.showTimings();
    return drawn;
  }

  /** Shows a capture that grew as it is now, and its newest rows if those were shown. */
  hold(capture) {
    const { first, isLive } = this.table;
    this.table.isLive = false;
    this.show(capture);
    if (isLive && this.decoder()) this.table.choose(this.table.rows.length - 1);
    else if (isLive || this.table.chosen === null) this.table.turn(isLive ? Infinity : first);
  }

  /** Splits two captures with a line `---` between them into the first and the second. */
  async cut() {
    const [first, second] = cutAtDashes(textOf(await bytesOf(this.source.input())));
    await this.source.open(new File([first], 'before the dashes'));
    await this.second.open(new File([second], 'behind the dashes'));
    $('comparison').open = true;
    $('second-who').focus();
  }

  sumUp() {
    const { halves, outcomes, lost, name, refusals } = this.capture;
    const packets = plural(outcomes.length - refusals, 'packet');
    const found = `${packets}, ${count(refusals)} refused, ${count(lost.length)} lost`;
    const told = `${plural(halves.count, 'half-bit')}, ${found}.`;
    const nanoseconds = ' These look like nanoseconds: most are longer than 10000 microseconds.';
    const long = halves.count && isInNanoseconds(halves) ? nanoseconds : '';
    const why = ' Nowhere do 20 halves of ones stand directly before a half of a zero whose packet ends.';
    $('sum').textContent = `${name}: ${told}${long}${halves.count && !outcomes.length && !lost.length ? why : ''}`;
    $('result').hidden = halves.count === 0;
    // a reader of the screen would read the numbers of a capture that grows without an end
    for (const id of ['sum', 'who-says']) $(id).ariaLive = this.table.isLive ? 'off' : 'polite';
  }

  /** Takes the name of a decoder from one of the two fields. */
  name(word) {
    for (const id of ['who', 'second-who']) if ($(id).value !== word) $(id).value = word;
    this.list();
    this.compare();
  }

  /** Returns the named decoder, or null. */
  decoder() {
    const word = $('who').value.trim();
    const fresh = decoderOf(this.dcc, word);
    return fresh && { word, fresh };
  }

  /** Shows the outcomes that match the filter. */
  list() {
    const decoder = this.decoder();
    const kind = $('kind').value;
    const found = finderOf(this.dcc, $('find').value);
    const isWanted = wantedBy(this.dcc, kind, $('own').checked ? decoder?.fresh : null, found);
    this.rows = new Rows(this.capture.items, isWanted, $('fold').checked).take();
    this.table.show(this.capture, this.rows.list, decoder, kind === 'all' && !$('find').value.trim());
    this.tellFilter();
  }

  /** Chooses the row of a half-bit or a time. */
  go() {
    const { rows } = this.table;
    const item = itemAt(this.capture.items, $('go').value);
    if (item === null || !rows.length) return;
    const n = rows.findIndex((it) => it.last >= item);
    this.table.choose(n < 0 ? rows.length - 1 : n);
    this.table.element(this.table.chosen).scrollIntoView({ block: 'center' });
  }

  tellFilter() {
    const { shown } = this.rows;
    const word = $('who').value.trim();
    const says = [];
    if (word && !this.decoder()) {
      says.push(`“${word}” names no decoder. Names are s1 to s127, l0 to l10239, none, and b0 to b510.`);
    }
    const all = this.capture.items.length;
    if (shown < all) says.push(`The table shows ${count(shown)} of ${count(all)}.`);
    $('who-says').textContent = says.join(' ');
  }

  scale() {
    $('zoom-is').textContent = `${$('zoom').value} %`;
    this.table.zoom = Number($('zoom').value) / 100;
    this.table.turn(this.table.first);
    this.compare();
  }

  /** Yields the output of `dcc show --words`, in parts with as many lines as the field takes. */
  *listing() {
    const words = once((bytes) => this.dcc.words(bytes));
    for (let at = 0; at < this.outcomes.length; at += LINES_SHOWN) {
      const part = this.outcomes.slice(at, at + LINES_SHOWN);
      yield part.map((it) => `${it.at} ${it.refusal ? told(this.dcc, it) : words(it.bytes)}\n`).join('');
    }
  }

  /** Shows the list as text if its section is open. Of a long list the field has the first lines, and the file has
   * all lines. */
  writeListing() {
    if (!$('listing').open) return;
    const all = this.outcomes.length;
    $('lines').value = this.listing().next().value ?? '';
    const part = `The first ${count(LINES_SHOWN)} of ${count(all)} lines. The file has all lines.`;
    $('lines-shown').textContent = all > LINES_SHOWN ? part : '';
  }

  showTimings() {
    this.timedAt = performance.now();
    const { halves, outcomes, lost, timings } = this.capture;
    if ($('timing').open && halves.count) showTimings(timings?.told() ?? timingsOf(halves, outcomes, lost));
  }

  async compare() {
    if (!$('comparison').open) return;
    const [captures, decoder] = [[this.capture, this.other], this.decoder()];
    await this.sides.show(captures, decoder, this.table.zoom, this.table.isLive && 'Pause the list to compare it.');
  }
}

let page = null;
const begin = async () => {
  const lack = lackOfBrowser();
  const end = (text) => {
    $('input').hidden = true;
    $('fault').hidden = false;
    $('fault-text').textContent = text;
  };
  if (lack) {
    return end(`${lack} Without a browser, “dcc show --words” writes the same list.`);
  }
  try {
    const module = await WebAssembly.compile(decode($(moduleOfBrowser()).textContent.trim()));
    page = new Page(await Dcc.load(module), new Work(module));
  } catch (error) {
    return end(`The module of this page cannot be started here: ${error.message}`);
  }
  return page.source.put($('example-capture').textContent.trimStart());
};
if (SCRIPT === undefined) beginWorker();
else begin();

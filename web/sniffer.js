// A sniffer at a serial port (Web Serial): an Arduino with the sketch Sniffer. The page sends it only the letter r, and
// reads half-bits in runs. Nothing here is proved.

const BAUD = 1000000;

/** The bytes that the browser keeps for the page: a second and a half at the port's rate. */
const BUFFER = 160000;

/** Milliseconds: between two looks at what has come, between two drawings of many rows, between two letters r while no
 * runs come, and without half-bits until the page says so. */
const [LOOK_EACH, MANY_EACH, ASK_EACH, SILENT_AFTER] = [400, 1500, 1000, 3000];

/** The number of rows that are drawn at each look. A full track has more new rows than a person reads, and each costs
 * some milliseconds of a processor. */
const FEW_ROWS = 4;

const LETTER = 'r'.charCodeAt(0);

class Sniffer {
  /** Creates the buttons. `page` shows the capture. */
  constructor(page) {
    Object.assign(this, { page, live: null, port: null, most: MOST_HALVES, said: '' });
    $('connect').addEventListener('click', () => (this.port ? this.disconnect() : this.connect()));
    $('pause').addEventListener('click', () => this.turn());
    $('keep').addEventListener('click', () => download('track.txt', captureText(this.live)));
    if (navigator.serial) return;
    $('connect').disabled = true;
    $('connect').textContent = 'Connect a sniffer: this browser has no Web Serial';
  }

  /** Opens the port that the user chooses, and reads it until it ends. */
  async connect() {
    if (this.isOpening) return;
    this.isOpening = true;
    this.say('');
    const port = await this.open();
    this.isOpening = false;
    if (!port) return;
    this.begin(port);
    const sentence = await this.read();
    this.end(sentence);
  }

  /** Returns an open port, or null. */
  async open() {
    try {
      const port = await navigator.serial.requestPort();
      await port.open({ baudRate: BAUD, bufferSize: BUFFER });
      return port;
    } catch (error) {
      // without this error, the user has chosen a port
      const isChosen = error.name !== 'NotFoundError';
      if (isChosen) this.say(`The port cannot be opened: ${error.message} Another program may use this port.`);
      return null;
    }
  }

  begin(port) {
    this.live = new Live(this.page.dcc, this.most);
    const now = performance.now();
    Object.assign(this, { port, runs: new Runs(this.live), isLeaving: false, isLeft: false, answer: '', since: now });
    Object.assign(this, { drawn: 0, drawnAt: now });
    this.timer = setInterval(() => this.look(), LOOK_EACH);
    this.say('');
    $('connect').textContent = 'Disconnect';
    this.page.source.clear();
    this.follow();
    this.ask();
  }

  /** Reads the port. Returns a sentence if the port has gone. */
  async read() {
    const { port } = this;
    let error = null;
    const fail = (it) => {
      error = it;
      return { done: true };
    };
    while (port.readable) {
      error = null;
      this.reader = port.readable.getReader();
      for (let it = await this.reader.read().catch(fail); !it.done; it = await this.reader.read().catch(fail)) {
        this.take(it.value);
      }
      this.reader.releaseLock();
      if (this.isLeaving) return '';
      if (!error || !port.readable) break;
      // the port goes on after an overflow
      this.runs.goOn();
    }
    return `The port has gone: ${error?.message ?? 'it has ended.'} The page keeps what came before.`;
  }

  take(bytes) {
    const text = new TextDecoder('latin1').decode(bytes);
    this.answer = (this.answer + text).slice(-KEPT);
    if (this.runs.isBegun) this.since = performance.now();
    this.runs.take(text);
  }

  /** Sends the letter r. A board that a port resets reads it after a second or two. */
  async ask() {
    Object.assign(this, { asked: performance.now(), answer: '' });
    if (this.port.writable?.locked !== false) return;
    const writer = this.port.writable.getWriter();
    await writer.write(Uint8Array.of(LETTER)).catch(() => {});
    writer.releaseLock();
  }

  /** Shows what has come since the last look. */
  look() {
    const now = performance.now();
    this.live.search();
    this.complain(now);
    if (!this.runs.isBegun && now - this.asked >= ASK_EACH) this.ask();
    const rate = this.live.rate(now);
    if (this.drawn > FEW_ROWS && now - this.drawnAt < MANY_EACH) return;
    Object.assign(this, { drawn: this.page.grow(), drawnAt: now });
    this.tellLive(rate);
  }

  /** Shows a sentence, or hides the sentence that it has shown. */
  say(sentence) {
    if (sentence !== this.said) this.page.source.tell(null, sentence);
    this.said = sentence;
  }

  /** Says why no half-bits come. */
  complain(now) {
    const isSilent = now - this.since > SILENT_AFTER;
    if (!isSilent) return this.say('');
    if (this.runs.isBegun) return this.say('No half-bits come: does the track have power and a signal?');
    if (!this.answer) return this.say('The board sends nothing. Is the sketch Sniffer on this board?');
    if (!this.answer.trim()) return this.say('The sniffer measures no half-bits: does the track have a signal?');
    return this.say(
      'The bytes of this port are no runs of half-bits. Is the sketch Sniffer on this board, with 1,000,000 baud?',
    );
  }

  tellLive(rate) {
    const { timings, allUnfit, losses, forgotten, most } = this.live;
    const { isLive } = this.page.table;
    const says = [];
    if (this.port && rate !== null) says.push(`${rate.toFixed(1)} packets a second.`);
    if (timings.preamble !== null) says.push(`Shortest preamble: ${plural(timings.preamble, 'half-bit')}.`);
    const lacks = [];
    if (allUnfit) lacks.push(`${plural(allUnfit, 'half-bit')} did not fit into the memory of the board.`);
    if (losses) lacks.push(`Half-bits are missing at ${plural(losses, 'other place')}.`);
    if (forgotten) {
      lacks.push(`The page keeps at most ${count(most)} half-bits: it has forgotten the first ${count(forgotten)}.`);
    }
    if (!isLive && this.port) says.push('The list is paused.');
    $('live').hidden = false;
    $('pause').hidden = !this.port;
    $('pause').textContent = isLive ? 'Pause' : 'Follow';
    $('live-text').textContent = says.join(' ');
    $('live-lacks').textContent = lacks.join(' ');
  }

  /** Pauses the list and shows its last row, or follows what comes. */
  turn() {
    const { table } = this.page;
    if (!table.isLive) {
      this.follow();
      return $('sum').scrollIntoView();
    }
    this.pause();
    return table.element(table.rows.length - 1)?.scrollIntoView({ block: 'center' });
  }

  /** Shows the newest packets, and those that come. */
  follow() {
    this.page.follow(this.live);
    this.tellLive(null);
  }

  /** Shows the capture as it is now, in its own order. */
  pause() {
    this.live.search();
    this.page.hold(this.live.still());
    this.tellLive(null);
  }

  async disconnect() {
    this.isLeaving = true;
    await this.reader.cancel().catch(() => {});
  }

  /** Ends the reading, and shows what came. */
  end(sentence) {
    clearInterval(this.timer);
    this.port.close().catch(() => {});
    this.port = null;
    $('connect').textContent = 'Connect a sniffer';
    if (this.isLeft) return;
    this.pause();
    this.say(sentence);
  }

  /** Leaves the sniffer for another capture. */
  leave() {
    $('live').hidden = true;
    clearInterval(this.timer);
    Object.assign(this, { isLeft: true, said: '' });
    if (this.port) this.disconnect();
  }
}

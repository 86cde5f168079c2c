// Work that can take long: reading a file, and the comparison of two captures. A worker does it, so the page stays
// usable and the user can stop it. A worker runs the script of this page, so nothing is loaded. Nothing here is
// proved.

/** The script of the page. A worker has no document. */
const SCRIPT = globalThis.document?.currentScript.textContent;

/** The number of bytes of a file that are read at once, since a browser stores them twice. */
const PIECE = 16000000;

/** The largest text that the field of a capture shows. */
const LARGEST_SHOWN = 400000;

/** Returns the bytes of a text or of a file. */
const bytesOf = async (input, tell = () => {}) => {
  if (typeof input === 'string') return new TextEncoder().encode(input);
  const bytes = new Uint8Array(input.size);
  for (let at = 0; at < bytes.length; at += PIECE) {
    bytes.set(new Uint8Array(await input.slice(at, at + PIECE).arrayBuffer()), at);
    tell(at / bytes.length);
  }
  return bytes;
};

/** Outcomes as a few arrays, which go from a worker to the page and back: the number of the last half-bit, from 1, its
 * end in microseconds, the refusal or 0, and the number of the frame. Equal frames have one number. */
class PackedOutcomes {
  constructor() {
    Object.assign(this, { at: [], time: [], refusal: [], frame: [], frames: [], known: new Map() });
  }

  /** Adds an outcome. The key names its frame, and equal frames have one key. `bytesOf` returns the frame. */
  add(at, time, refusal, key, bytesOf) {
    let number = this.known.get(key);
    if (number === undefined) {
      number = this.frames.push(bytesOf()) - 1;
      this.known.set(key, number);
    }
    this.at.push(at);
    this.time.push(time);
    this.refusal.push(refusal);
    this.frame.push(number);
  }

  arrays() {
    const [at, frame] = [new Uint32Array(this.at), new Uint32Array(this.frame)];
    return { at, time: new Float64Array(this.time), refusal: new Uint8Array(this.refusal), frame, frames: this.frames };
  }
}

const packOutcomes = (outcomes) => {
  const packed = new PackedOutcomes();
  for (const { at, time, refusal, bytes } of outcomes) packed.add(at, time, refusal, bytes, () => bytes);
  return packed.arrays();
};

const unpackOutcomes = (dcc, { at, time, refusal, frame, frames }) => {
  const own = frames.map((it) => dcc.frameOf(it));
  const outcomes = [];
  for (let i = 0; i < at.length; i += 1) {
    outcomes.push({ at: at[i], time: time[i], refusal: refusal[i], bytes: own[frame[i]], heard: i + 1 });
  }
  return outcomes;
};

/** The jobs of a worker, by name. A job calls `tell` with its name and the part that is done, from 0 to 1. */
const JOBS = {
  /** Reads a text or a file, and returns its half-bits, its outcomes, and its text if a field shows it. */
  async read(dcc, { input, key, isShown }, tell) {
    const file = await bytesOf(input, (part) => tell('read from the disk', part));
    const { bytes, sentence } = await withoutGzip(file);
    const text = isShown && bytes.length <= LARGEST_SHOWN ? textOf(bytes) : '';
    const tellRead = (part) => tell('read', part);
    const { halves, ...read } = sentence ? refusedFile(sentence) : await readFile(bytes, key, tellRead);
    // the bytes are freed before the outcomes need memory, if the browser can do this
    bytes.buffer.transfer?.(0);
    const outcomes = dcc.outcomes(halves, (part) => tell('searched for packets', part));
    const lost = dcc.lost(halves, (part) => tell('searched for lost packets', part));
    return { ...read, text, count: halves.count, long: halves.long, buffer: halves.us.buffer, outcomes, lost };
  },

  /** Returns the first difference of two captures for a decoder. */
  compare(dcc, { who, sides }, tell) {
    const packets = new Packets(dcc, decoderOf(dcc, who));
    return differenceOf(packets, sides.map((it) => unpackOutcomes(dcc, it)), (part) => tell('compared', part));
  },
};

/** The shortest time of a job, in milliseconds, that is shown to the user. */
const TELL_EACH = 100;

/** Starts a worker, which does one job and returns the result. */
const beginWorker = () => {
  globalThis.onmessage = async ({ data: { module, name, job } }) => {
    let last = 0;
    const tell = (what, part) => {
      if (performance.now() < last + TELL_EACH) return;
      last = performance.now();
      postMessage({ what, part });
    };
    try {
      const answer = await JOBS[name](await Dcc.load(module), job, tell);
      postMessage({ answer }, answer.buffer ? [answer.buffer] : []);
    } catch (error) {
      postMessage({ error: error.message });
    }
  };
};

/** The result of a job that the user has stopped. */
const STOPPED = Symbol('stopped');

/** The work of a page: each job has a worker of its own, a line with its progress, and a button that stops it. */
class Work {
  constructor(module) {
    this.module = module;
    this.script = URL.createObjectURL(new Blob([SCRIPT], { type: 'text/javascript' }));
    this.running = new Map();
    $('stop').addEventListener('click', () => this.stop());
  }

  /** Does a job. Returns null if another job for the same place begins before it is done, and STOPPED if the user
   * stops it. */
  run(place, title, name, job) {
    this.drop(place);
    return new Promise((done, fail) => {
      const worker = new Worker(this.script);
      this.running.set(place, { worker, title, done });
      worker.addEventListener('message', ({ data: { answer, error, what, part } }) => {
        if (what) return this.tell(place, `${title}: ${Math.floor(100 * part)} % ${what}`);
        this.end(place);
        return error ? fail(new Error(error)) : done(answer);
      });
      worker.addEventListener('error', (event) => {
        event.preventDefault();
        this.end(place);
        fail(new Error(event.message ?? 'this browser does not let the page have a worker'));
      });
      worker.postMessage({ module: this.module, name, job });
      setTimeout(() => this.tell(place, title), TELL_EACH);
    });
  }

  /** Stops the job for a place. */
  drop(place) {
    this.running.get(place)?.done(null);
    this.end(place);
  }

  /** Stops all jobs. */
  stop() {
    for (const [place, { done }] of [...this.running]) {
      done(STOPPED);
      this.end(place);
    }
  }

  end(place) {
    this.running.get(place)?.worker.terminate();
    this.running.delete(place);
    this.show();
  }

  /** Shows the progress of the job for a place. */
  tell(place, text) {
    const job = this.running.get(place);
    if (!job) return;
    job.text = text;
    this.show();
  }

  /** Shows the progress of each job. */
  show() {
    const texts = [...this.running.values()].map((it) => it.text).filter(Boolean);
    $('work-text').textContent = texts.join('; ');
    $('work').hidden = !texts.length;
  }
}

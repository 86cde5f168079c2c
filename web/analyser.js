// Reads files of logic analysers as half-bits, with the errors of tools/to-capture. Nothing here is proved.

/** An error that ends the reading of a file. Its message is a sentence. */
class Unreadable extends Error {}

/** Returns text of a file as it is quoted in a sentence. */
const plain = (text) => {
  const shown = text.slice(0, 41).replace(/[^ -~]/g, '?');
  return text.length > 40 ? `${shown.slice(0, 40)}..` : shown;
};

const quoted = (text) => `"${plain(text)}"`;

/** The channels of a file, and the half-bits of one channel. */
class Recording {
  constructor() {
    this.line = 0;
    this.channels = [];
    this.halves = new Halves();
    this.levels = 0;
    this.ones = 0;
    this.shortest = Infinity;
    this.longest = 0;
    this.last = 0;
    this.hasPacket = false;
    this.isFull = false;
  }

  /** Ends the reading with an error of the current line. */
  refuseLine(text) {
    throw new Unreadable(`line ${this.line}: ${text}`);
  }

  /** Adds a channel. A channel of a VCD file has an id. */
  add(name, id) {
    const label = id === undefined ? name : `${name} (${id})`;
    this.channels.push({ key: String(this.channels.length), name, id, label });
  }

  /** Selects the requested channel, or the first one. */
  pick(key) {
    this.picked = this.channels.find((it) => it.key === key) ?? this.channels[0];
  }

  /** Takes the level at a time in microseconds. Only a change of the level is an edge. The first level is the level
   * at the start. */
  take(at, level) {
    if (this.levels && level === this.level) return;
    if (this.levels > 1) this.half(at - this.edge);
    this.levels += 1;
    this.level = level;
    this.edge = at;
  }

  /** Adds a half-bit. Its duration is rounded to the nearest microsecond, by the sums of the script. */
  half(time) {
    const us = time < LONGEST ? Math.trunc(time + 0.5) : LONGEST;
    if (this.isFull || !this.halves.push(us, 1)) {
      this.isFull = true;
      return;
    }
    this.shortest = Math.min(this.shortest, us);
    this.longest = Math.max(this.longest, us);
    this.last = us;
    if (us >= 90 && us <= 10000 && this.ones >= 20) this.hasPacket = true;
    this.ones = us >= 52 && us <= 64 ? this.ones + 1 : 0;
  }

  /** Returns the error of the whole file, or null. */
  fault() {
    if (!this.picked) return 'the input ends before its first level';
    // the end of the last level is unknown. It gets the length of the half-bit before it, since it can be the second
    // half of a bit
    if (this.halves.count) this.half(this.last);
    const channel = `the channel ${quoted(this.picked.label)} has no`;
    if (!this.halves.count) return `${channel} two edges${this.choice()}`;
    if (this.isFull || this.hasPacket) return null;
    const lengths = `of ${this.shortest} to ${this.longest} microseconds`;
    return (
      `${channel} packet: ${this.halves.count} halves, ${lengths}, and nowhere ` +
      `20 halves of ones (52 to 64) before a half of a zero (90 to 10000)${this.choice()}`
    );
  }

  choice() {
    const { length } = this.channels;
    if (length < 2) return '';
    const labels = this.channels.slice(0, 20).map((it) => plain(it.label));
    return `; the channels are ${labels.join(', ')}${length > 20 ? ` and ${length - 20} more` : ''}: choose another`;
  }
}

/** The most characters of a time, and of the unit of a VCD file. */
const [MOST_OF_TIME, MOST_OF_UNIT] = [100, 20];

const isBlank = (code) => code === BLANK || code === TAB;

const MICROSECONDS = { s: 1e6, ms: 1e3, us: 1, ns: 1e-3, ps: 1e-6, fs: 1e-9 };
const COMMANDS = new Set(
  ['$comment', '$date', '$enddefinitions', '$scope', '$timescale', '$upscope', '$var', '$version'],
);

/** Reads a VCD file (IEEE 1364) word by word. A value is on a line of its own, or on the line of its time. */
class Vcd {
  constructor(recording, key) {
    this.recording = recording;
    this.key = key;
    this.at = 0;
    this.unit = 0;
    this.command = null;
    this.vector = null;
    this.known = new Set();
  }

  row(row) {
    for (let at = 0; at < row.length; ) {
      let end = at;
      while (end < row.length && !isBlank(row.charCodeAt(end))) end += 1;
      if (end > at) this.word(row.slice(at, end));
      at = end + 1;
    }
  }

  word(word) {
    const first = word[0];
    if (this.command) {
      if (word === '$end') this.endCommand();
      else this.words.push(word);
    } else if (this.vector) {
      // the id follows a value of several bits. A single bit can be written in this way too
      if (word === this.id && /^b.*[01]$/i.test(this.vector)) this.recording.take(this.at, this.vector.slice(-1));
      this.vector = null;
    } else if (first === '#') {
      this.time(word);
    } else if (first === '0' || first === '1') {
      if (word.slice(1) === this.id) this.recording.take(this.at, first);
    } else if (/[brs]/i.test(first)) {
      this.vector = word;
    } else if (COMMANDS.has(word)) {
      this.command = word;
      this.words = [];
    }
  }

  /** Ends a section, from its keyword to $end. */
  endCommand() {
    const { command, words } = this;
    if (command === '$timescale') {
      const text = words.join('');
      const [, count, unit] = (text.length <= MOST_OF_UNIT && text.match(/^(\d+)([a-z]+)$/)) || [];
      this.unit = count * MICROSECONDS[unit] || 0;
    }
    if (command === '$var' && words[1] === '1') this.addWire(words.slice(3, 5).join(''), words[2]);
    if (command === '$enddefinitions') this.begin();
    this.command = null;
  }

  /** Adds a wire. A module can have one wire under the same name twice. */
  addWire(name, id) {
    if (this.known.has(`${name} ${id}`)) return;
    this.known.add(`${name} ${id}`);
    this.recording.add(name, id);
  }

  begin() {
    if (!this.recording.channels.length) {
      throw new Unreadable('no $var of one bit stands before the times: there is no channel');
    }
    this.recording.pick(this.key);
    this.id = this.recording.picked.id;
  }

  time(word) {
    if (!this.recording.picked) this.begin();
    if (!this.unit) {
      throw new Unreadable('no $timescale, as $timescale 1 ns $end, stands before the times: they have no unit');
    }
    if (!/^#[0-9]+$/.test(word) || word.length > MOST_OF_TIME) this.recording.refuseLine(`${quoted(word)} is no time`);
    const time = Number(word.slice(1)) * this.unit;
    if (time < this.at) this.recording.refuseLine('its time lies before that of the line above');
    this.at = time;
  }
}

/** Returns the microseconds of the unit in the title of the first column, for example Time [s], Time(ms) or
 * nanoseconds. Returns 0 if the title has no unit of time. */
const unitOf = (title) => {
  const text = title.toLowerCase();
  if (!/^time|seconds/.test(text)) return 0;
  if (/pico|[^a-z]ps/.test(text)) return 1e-6;
  if (/nano|[^a-z]ns/.test(text)) return 1e-3;
  if (/micro|[^a-z]us|[^ -~]s/.test(text)) return 1;
  return /milli|[^a-z]ms/.test(text) ? 1e3 : 1e6;
};

/** Returns the hertz of a rate such as 24 MHz, or 0 if the text is no rate. */
const hertz = (text) => {
  if (!/^ *[0-9]+(\.[0-9]+)? *([kMGH]|$)/.test(text)) return 0;
  const unit = ['G', 'M', 'k'].find((it) => text.includes(it));
  return parseFloat(text) * ({ G: 1e9, M: 1e6, k: 1e3 }[unit] ?? 1);
};

/** Returns a text without the blanks around it. A regular expression for this would take quadratic time. */
const withoutBlanks = (text) => {
  let [from, end] = [0, text.length];
  while (from < end && text[from] === ' ') from += 1;
  while (from < end && text[end - 1] === ' ') end -= 1;
  return text.slice(from, end);
};

/** Returns how often a character occurs in a text. */
const countOf = (text, character) => {
  let count = 0;
  for (let at = text.indexOf(character); at >= 0; at = text.indexOf(character, at + 1)) count += 1;
  return count;
};

/** Returns the separator of the columns, by the first line. Text in quotes does not count. */
const separatorOf = (row) => {
  const bare = row.replace(/"[^"]*"/g, '');
  return bare.includes(';') ? ';' : bare.includes('\t') ? '\t' : ',';
};

/** Reads a digital CSV: a time, and a column for each channel. A row is an edge of any channel, or a sample. */
class Csv {
  constructor(recording, key) {
    this.recording = recording;
    this.key = key;
    this.rows = 0;
    this.at = 0;
    this.rate = 0;
    this.toldNames = [];
    this.toldChannels = 0;
  }

  row(row) {
    if (row[0] === ';' || row[0] === '#') {
      // the shortest comment that matters is longer
      if (row.length > 10) this.comment(row);
    } else if (/[^ \t]/.test(row)) {
      this.separator ??= separatorOf(row);
      const fields = this.split(row);
      if (!this.recording.picked) this.columns(row, fields);
      else if (fields.length === this.headerColumns) this.values(fields);
      else this.refuseColumns(row.includes('"') ? fields.length : countOf(row, this.separator) + 1);
    }
  }

  /** Reads the number of channels and their names from a comment of sigrok. The names are between commas and blanks,
   * without quotes. */
  comment(row) {
    const [, rate] = row.match(/[Ss]ample ?rate: (.*)/) ?? [];
    if (rate) this.rate = hertz(rate);
    const [, count, names] = row.match(/Channels \((\d+)\/\d+\): *(.*)/) ?? [];
    if (count) [this.toldChannels, this.toldNames] = [Number(count), names ? names.split(', ') : []];
  }

  /** Returns the fields of a row, without the blanks around them. Of a row without quotes it returns at most one
   * field more than the header has. */
  split(row) {
    const most = this.headerColumns === undefined ? undefined : this.headerColumns + 1;
    const fields = row.includes('"') ? this.splitQuoted(row) : row.split(this.separator, most);
    return fields.map(withoutBlanks);
  }

  /** Splits a row with quotes. A quote at the beginning of a field opens the quoted text, and the next quote closes
   * it. Two quotes in it stand for one. */
  splitQuoted(row) {
    const [fields, pieces] = [[], row.split('"')];
    let [text, isQuoted, isClosed] = ['', false, false];
    for (let i = 0; i < pieces.length; i += 1) {
      if (i > 0 && isQuoted && pieces[i] === '' && i < pieces.length - 1) {
        text += '"';
        i += 1;
      } else if (i > 0 && isQuoted) {
        [isQuoted, isClosed] = [false, true];
      } else if (i > 0 && !isClosed && /^ *$/.test(text)) {
        isQuoted = true;
      } else if (i > 0) {
        text += '"';
      }
      const parts = isQuoted ? [pieces[i]] : pieces[i].split(this.separator);
      text += parts[0];
      for (const part of parts.slice(1)) {
        fields.push(text);
        [text, isClosed] = [part, false];
      }
    }
    if (isQuoted) this.recording.refuseLine('a quote is not closed');
    return [...fields, text];
  }

  /** Reads the columns from the first line. If the first line is already a row, the channels are called 0, 1 and so
   * on. */
  columns(row, fields) {
    const { recording, rate } = this;
    const isRow = this.timeOf(fields[0]) !== null;
    this.unit = isRow ? 1e6 : unitOf(fields[0]);
    this.isTimed = this.unit !== 0 && !(isRow && rate);
    if (!this.isTimed && rate) this.unit = 1e6 / rate;
    if (!this.unit || (this.isTimed && fields.length === 1)) {
      const none = 'begins neither a VCD file nor a digital CSV with a time in its first column: export one of these';
      recording.refuseLine(`${quoted(row)} ${none}`);
    }
    // sigrok writes the unit in the header, or not at all
    if (rate && (fields[0].toLowerCase() === 'time' || (isRow && fields.length > this.toldChannels))) {
      const none = 'tells no unit of time: let sigrok-cli write -O csv:time=true:dedup=true, without label';
      recording.refuseLine(`${quoted(row)} ${none}`);
    }
    [this.header, this.headerColumns] = [recording.line, fields.length];
    const titles = fields.slice(Number(this.isTimed));
    // a name with a comma and a blank would look like two names. In this case no name is used
    const names = this.toldNames.length === titles.length ? this.toldNames : titles.map((_, place) => String(place));
    titles.forEach((title, place) => recording.add(isRow ? String(place) : title === 'logic' ? names[place] : title));
    recording.pick(this.key);
    this.column = Number(recording.picked.key) + Number(this.isTimed);
    if (isRow) this.values(fields);
  }

  refuseColumns(count) {
    const columns = `${count} column${count === 1 ? '' : 's'}`;
    const why = `a name or value with ${quoted(this.separator)} in it needs quotes`;
    this.recording.refuseLine(`it has ${columns}, and line ${this.header} has ${this.headerColumns}: ${why}`);
  }

  values(fields) {
    const { recording } = this;
    const told = this.isTimed ? this.timeOf(fields[0]) : this.rows;
    if (told === null) recording.refuseLine(`${quoted(fields[0])} is no time`);
    const time = told * this.unit;
    if (this.rows && time < this.at) recording.refuseLine('its time lies before that of the line above');
    this.rows += 1;
    this.at = time;
    const level = fields[this.column];
    if (level !== '0' && level !== '1') {
      recording.refuseLine(`${quoted(level)} is no level 0 or 1: export the digital channel, not its voltage`);
    }
    recording.take(time, level);
  }

  /** Returns a time in the unit of its column, or null if the text is no time. */
  timeOf(text) {
    if (text.length > MOST_OF_TIME) return null;
    const number = this.separator === ',' ? text : text.replace(',', '.');
    if (/^[-+]?[0-9]*\.?[0-9]+([eE][-+]?0?[0-9][0-9]?)?$/.test(number)) return Number(number);
    // a date and a time of day are the seconds since the beginning of the month
    if (!/^[0-9]+-[0-9]+-[0-9]+[T ][0-9]+:[0-9]+:[0-9]+(\.[0-9]+)?(Z| ?[-+][0-9:]+)?$/.test(number)) return null;
    const [, , day, hour, minute, second] = number.split(/[-T:+Z ]/).map(Number);
    return ((day * 24 + hour) * 60 + minute) * 60 + second;
  }
}

/** The most channels in the menu of the page. A browser needs minutes for a menu of 200,000 channels. */
const CHANNELS_OFFERED = 1000;

/** Returns the half-bits of a file, its channels, and the channel that was read. If the file cannot be read to its
 * end, the result has the reason. */
const readRecording = (form, text, key, tell) => {
  const recording = new Recording();
  const file = form === 'VCD' ? new Vcd(recording, key) : new Csv(recording, key);
  let [sentence, hasBegun] = [null, false];
  const takeRow = (row, line) => {
    recording.line = line;
    // sigrok-cli can write META before the file
    if (!hasBegun && row.startsWith('META ')) return true;
    hasBegun ||= /[^ \t\r]/.test(row);
    file.row(row.endsWith('\r') ? row.slice(0, -1) : row);
    return !recording.isFull;
  };
  try {
    takeLines(text, takeRow, tell);
    sentence = recording.fault();
  } catch (error) {
    if (!(error instanceof Unreadable)) throw error;
    sentence = error.message;
  }
  return resultOf(form, recording, sentence);
};

/** Returns what was read of a file: its half-bits, its channels, and why the rest was not read, or null. */
const resultOf = (form, recording, sentence) => {
  const { halves, channels, picked } = recording;
  const refused = recording.isFull ? tooLong() : sentence && refusal(null, `${form}: ${sentence}.`);
  const offered = channels.filter((it, place) => place < CHANNELS_OFFERED || it === picked);
  return { form, halves, channels: offered, allChannels: channels.length, key: picked?.key, refused };
};

/** Returns true if a file begins with these bytes. */
const beginsWith = (bytes, ...begin) => begin.every((it, i) => it === bytes[i]);

const isZip = (bytes) => beginsWith(bytes, 0x50, 0x4b);

/** Returns why a file has none of the known forms, or null. */
const strangeFile = (bytes) => {
  if (isZip(bytes)) {
    return (
      'this is a zip archive, as .sr of sigrok and PulseView, .sal of Logic 2 and .dsl of DSView are: ' +
      'export it as VCD or CSV, as by sigrok-cli -i track.sr -O vcd'
    );
  }
  if (beginsWith(bytes, 0xff, 0xfe) || beginsWith(bytes, 0xfe, 0xff)) {
    return 'this text is UTF-16, as PowerShell writes it behind >: let sigrok-cli write the file, by -o track.vcd';
  }
  return null;
};

/** Returns the form of a text: VCD or CSV, or null for a capture. The first line that is no comment decides. Words of
 * a capture are separated by blanks, not by commas. */
const formOf = (text) => {
  let form = null;
  takeLines(text, (row) => {
    if (/^[ \t]*\$/.test(row)) form = 'VCD';
    else if (row[0] === ';') form = 'CSV';
    else if (/^#|^META /.test(row) || !/[^ \t\r]/.test(row)) return true;
    else if (isCsvRow(row.slice(0, 1000))) form = 'CSV';
    return false;
  });
  return form;
};

/** Returns true if a line is the header or a row of a CSV. Tabs may also separate the words of a capture, so the time
 * of a row with tabs is no whole number, or it is 0 and only levels follow. */
const isCsvRow = (front) =>
  /^"?[a-z].*[,;\t]/i.test(front) ||
  /^[^,;]+[,;] *"?[01]"?\s*([,;]|$)/.test(front) ||
  /^"?[-+]?[0-9]*[-+.,eE:"][^\t#]*\t *"?[01]"?\s*(\t|$)/.test(front) ||
  /^0+(\t[01])+\s*$/.test(front);

/** The number of bytes that suffice to detect the form of a file. */
const FRONT = 1000000;

/** Returns the bytes after a byte order mark, which editors of Windows write. */
const withoutMark = (bytes) => (beginsWith(bytes, 0xef, 0xbb, 0xbf) ? bytes.subarray(3) : bytes);

const refusedFile = (sentence) => ({
  form: 'File',
  halves: new Halves(),
  refused: refusal(null, `File: ${sentence}.`),
});

/** Returns the half-bits of a file in any form, up to its first error. Calls `tell` with the part that is read, from
 * 0 to 1. */
const readBytes = (file, key, tell) => {
  const bytes = withoutMark(file);
  const strange = strangeFile(bytes);
  if (strange) return refusedFile(strange);
  const form = formOf(textOf(bytes.subarray(0, FRONT)));
  if (form) return readRecording(form, textOf(bytes), key, tell);
  return { form: 'Capture', ...readCapture(bytes, tell) };
};

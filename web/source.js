// An input for a capture: typed or pasted into a field, opened as a file, or dropped.

const $ = (id) => document.getElementById(id);
const make = (name, className, text) => {
  const it = document.createElement(name);
  if (className) it.className = className;
  if (text !== undefined) it.textContent = text;
  return it;
};

/** Lets the user save parts of a text as a file. */
const download = (name, parts) => {
  const link = make('a');
  link.href = URL.createObjectURL(new Blob([...parts], { type: 'text/plain' }));
  link.download = name;
  link.click();
  // a browser can begin to read it later
  setTimeout(() => URL.revokeObjectURL(link.href), 60000);
};

class Source {
  /** Creates the input. The ids of its elements begin with a prefix. It calls `use` with each capture. */
  constructor(prefix, work, use) {
    this.part = (name) => $(`${prefix}${name}`);
    this.place = prefix;
    this.work = work;
    this.use = use;
    this.file = null;
    this.part('text').addEventListener('input', () => this.wait());
    this.part('file').addEventListener('change', () => this.open(this.part('file').files[0]));
    this.part('channel').addEventListener('change', () => this.read(this.part('channel').value));
  }

  /** Waits until the user stops typing. */
  wait() {
    this.file = null;
    clearTimeout(this.timer);
    this.timer = setTimeout(() => this.read(), 150);
  }

  put(text) {
    this.file = null;
    this.part('text').value = text;
    return this.read();
  }

  /** Empties the field, and reads no more of what it had. */
  clear() {
    clearTimeout(this.timer);
    this.work.drop(this.place);
    this.file = null;
    this.part('text').value = '';
    this.offerChannels({});
  }

  /** Opens a file. A large file is shown only as packets, not in the field. */
  async open(file) {
    if (!file) return;
    this.file = file;
    await this.read(undefined, true);
    this.part('file').value = '';
  }

  /** Reads the text of the field or of the file each time, so that the bytes of a large file are not kept. */
  input() {
    return this.file ?? this.part('text').value;
  }

  async read(key, isNew) {
    clearTimeout(this.timer);
    const { file } = this;
    const name = file?.name ?? 'The text';
    const read = await this.work
      .run(this.place, name, 'read', { input: this.input(), key, isShown: isNew })
      .catch((error) => this.tell(null, `${name} cannot be read: ${error.message}`));
    if (read === STOPPED) return this.tell(null, `Reading was stopped. What is shown below was read before.`);
    // another capture has replaced it, or it cannot be read
    if (!read) return null;
    if (isNew) this.part('text').value = read.text;
    this.tell(read.refused?.fault, read.refused?.text);
    this.offerChannels(read);
    return this.use({ ...read, name: file ? `${file.name} (${read.form})` : read.form });
  }

  tell(fault, text) {
    this.part('fault').hidden = !text;
    this.part('fault-text').textContent = text ?? '';
    this.part('fault-code').textContent = fault ?? '';
  }

  offerChannels({ channels = [], allChannels = channels.length, key }) {
    this.part('channels').hidden = channels.length < 2;
    this.part('channel').replaceChildren(...channels.map((it) => new Option(it.label, it.key, false, it.key === key)));
    const more = `These are ${count(channels.length)} of ${count(allChannels)}: tools/to-capture -c takes any.`;
    this.part('channels-more').textContent = channels.length < allChannels ? more : '';
  }
}

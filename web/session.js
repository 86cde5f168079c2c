// Files that are compressed: gzip, and sessions of sigrok and PulseView (.sr), which are zip archives with the samples
// of all channels. Nothing here is proved.

/** Returns bytes that a stream of the browser decompresses. Ends after `most` bytes. */
const decompressed = async (bytes, format, most) => {
  const reader = new Blob([bytes]).stream().pipeThrough(new DecompressionStream(format)).getReader();
  const parts = [];
  let length = 0;
  for (let part = await reader.read(); !part.done && length <= most; part = await reader.read()) {
    parts.push(part.value);
    length += part.value.length;
  }
  if (length > most) await reader.cancel();
  const all = new Uint8Array(length);
  parts.reduce((at, part) => {
    all.set(part, at);
    return at + part.length;
  }, 0);
  return all;
};

const [ZIP_END, ZIP_ENTRY, ZIP_LOCAL] = [0x06054b50, 0x02014b50, 0x04034b50];

/** Returns the entries of a zip archive by their names, or null if the bytes are none. */
const zipEntries = (bytes) => {
  const view = new DataView(bytes.buffer, bytes.byteOffset, bytes.length);
  let end = bytes.length - 22;
  while (end >= 0 && end > bytes.length - 66000 && view.getUint32(end, true) !== ZIP_END) end -= 1;
  if (end < 0 || view.getUint32(end, true) !== ZIP_END) return null;
  const entries = new Map();
  let at = view.getUint32(end + 16, true);
  for (let n = view.getUint16(end + 10, true); n > 0; n -= 1) {
    if (at + 46 > bytes.length || view.getUint32(at, true) !== ZIP_ENTRY) return null;
    const [name, extra, comment] = [28, 30, 32].map((it) => view.getUint16(at + it, true));
    const [size, local] = [20, 42].map((it) => view.getUint32(at + it, true));
    if (local + 30 > bytes.length || view.getUint32(local, true) !== ZIP_LOCAL) return null;
    const from = local + 30 + view.getUint16(local + 26, true) + view.getUint16(local + 28, true);
    const [flags, method] = [8, 10].map((it) => view.getUint16(at + it, true));
    const [data, checksum] = [bytes.subarray(from, from + size), view.getUint32(at + 16, true)];
    entries.set(textOf(bytes.subarray(at + 46, at + 46 + name)), { isSecret: (flags & 1) > 0, method, data, checksum });
    at += 46 + name + extra + comment;
  }
  return entries;
};

/** The most bytes of one piece of samples. sigrok writes pieces of some megabytes. */
const MOST_OF_PIECE = 512 * 1024 * 1024;

const [STORED, DEFLATED] = [0, 8];

/** The CRC-32 of each byte, by the polynomial of zip archives. */
const CRC_OF_BYTE = Uint32Array.from({ length: 256 }, (_, byte) => {
  let crc = byte;
  for (let bit = 0; bit < 8; bit += 1) crc = crc & 1 ? (crc >>> 1) ^ 0xedb88320 : crc >>> 1;
  return crc;
});

const checksumOf = (bytes) => {
  let crc = 0xffffffff;
  for (let at = 0; at < bytes.length; at += 1) crc = CRC_OF_BYTE[(crc ^ bytes[at]) & 0xff] ^ (crc >>> 8);
  return ~crc >>> 0;
};

/** Returns the bytes of an entry of a zip archive. Throws Unreadable if the entry is damaged, or of another kind than
 * sigrok writes. */
const contentOf = async (name, { isSecret, method, data, checksum }) => {
  const refuse = (why) => {
    throw new Unreadable(`${quoted(name)} of this session cannot be read: ${why}`);
  };
  if (isSecret) refuse('it is encrypted');
  if (method !== STORED && method !== DEFLATED) refuse(`its method of compression is ${method}, not deflate`);
  const unpacked = method === STORED ? data : decompressed(data, 'deflate-raw', MOST_OF_PIECE);
  const content = await Promise.resolve(unpacked).catch((error) => refuse(`it is damaged (${error.message})`));
  if (content.length > MOST_OF_PIECE) refuse('it has more than 512 MiB');
  if (checksumOf(content) !== checksum) refuse('it is damaged (its checksum is wrong)');
  return content;
};

/** Returns a session of sigrok: its rate in hertz, the bytes of a sample, its channels and the pieces of its samples.
 * Returns null if an archive is none. Throws Unreadable if its metadata are damaged. */
const sessionIn = async (bytes) => {
  const entries = zipEntries(bytes);
  const metadata = entries?.get('metadata');
  if (!metadata) return null;
  const fields = {};
  for (const line of textOf(await contentOf('metadata', metadata)).split(/\r?\n/)) {
    const [, name, value] = line.match(/^([^=]*)=(.*)$/) ?? [];
    if (name !== undefined) fields[name.trim().toLowerCase()] ??= value.trim();
  }
  const { capturefile, samplerate, unitsize } = fields;
  const probes = Object.keys(fields).filter((it) => /^probe[1-9][0-9]*$/.test(it)).map((it) => Number(it.slice(5)));
  const [rate, size] = [hertz(samplerate ?? ''), Number(unitsize)];
  const numberOf = (name) => Number(name.slice(capturefile.length + 1));
  const isPiece = (name) => name === capturefile || /^-[0-9]+$/.test(name.slice(capturefile.length));
  const names = [...entries.keys()].filter((it) => capturefile && it.startsWith(capturefile) && isPiece(it));
  if (!(rate > 0) || !(size >= 1) || !probes.length || !names.length) return null;
  probes.sort((a, b) => a - b);
  if (probes[probes.length - 1] > 8 * size) return null;
  names.sort((a, b) => numberOf(a) - numberOf(b));
  const channels = probes.map((it) => ({ bit: it - 1, name: fields[`probe${it}`] }));
  return { rate, size, channels, pieces: names.map((it) => [it, entries.get(it)]) };
};

/** Reads the samples of one channel of a session. */
const takeSamples = async (recording, { rate, size, channels, pieces }, tell) => {
  const { bit } = channels[Number(recording.picked.key)];
  let [before, last] = [0, null];
  for (const [n, [name, piece]] of pieces.entries()) {
    tell(n / pieces.length);
    const samples = await contentOf(name, piece);
    const end = Math.floor(samples.length / size);
    for (let i = 0, at = bit >> 3; i < end; i += 1, at += size) {
      const level = (samples[at] >> (bit & 7)) & 1;
      if (level !== last) {
        recording.take(((before + i) * 1e6) / rate, level);
        last = level;
      }
    }
    before += end;
  }
};

/** Returns the half-bits of a session, its channels, and the channel that was read. Returns null if an archive is no
 * session. */
const readSession = async (bytes, key, tell) => {
  const recording = new Recording();
  let sentence = null;
  try {
    const session = await sessionIn(bytes);
    if (!session) return null;
    for (const { name } of session.channels) recording.add(name);
    recording.pick(key);
    await takeSamples(recording, session, tell);
    sentence = recording.fault();
  } catch (error) {
    if (!(error instanceof Unreadable)) throw error;
    sentence = error.message;
  }
  return resultOf('Session', recording, sentence);
};

const isGzip = (bytes) => beginsWith(bytes, 0x1f, 0x8b);

/** Returns the bytes of a file without the compression of gzip. If a gzip file is damaged, the result has a sentence
 * and no bytes. */
const withoutGzip = async (file) => {
  if (!isGzip(file)) return { bytes: file };
  const refuse = (sentence) => ({ bytes: new Uint8Array(), sentence });
  try {
    const bytes = await decompressed(file, 'gzip', MOST_BYTES + 1);
    return isGzip(bytes) ? refuse('this gzip file has another gzip file in it: decompress it first') : { bytes };
  } catch (error) {
    return refuse(`this gzip file is damaged, or cut (${error.message})`);
  }
};

/** Returns the half-bits of a file in any form, up to its first error. Calls `tell` with the part that is read, from 0
 * to 1. */
const readFile = async (bytes, key, tell) =>
  (isZip(bytes) ? await readSession(bytes, key, tell) : null) ?? readBytes(bytes, key, tell);

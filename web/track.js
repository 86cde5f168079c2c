// The track as a drawing: a pulse for each half-bit, and a span for each part of a packet. The module gives the ends
// of packets, their bytes and the refusals. Nothing here is proved.

const MOST_LEAD = 240;
const BYTES_OF_PACKET = 6;

/** Returns the class of a half-bit (NMRA S-9.1). */
const classOf = (us) => (us >= 52 && us <= 64 ? 'one' : us >= 90 && us <= 10000 ? 'zero' : 'bad');

/** Returns the number of half-bits of ones that count for the next preamble: those of the end bit of an outcome. */
const onesLeft = (outcome) => (outcome && [0, 3, 5].includes(outcome.refusal) ? 2 : 0);

/** Returns the place of the first start bit from a place on: a half-bit of a zero after at least 20 half-bits of
 * ones. Returns the end if there is none. */
const startFrom = (halves, from, ones, end) => {
  for (let at = from; at < end; at += 1) {
    const kind = classOf(halves.us[at]);
    if (kind === 'zero' && ones >= 20) return at;
    ones = kind === 'one' ? ones + 1 : 0;
  }
  return end;
};

/** Returns the place of the first half-bit of ones in the row of such half-bits directly before a place, but not
 * before a bound. */
const preambleBefore = (halves, at, least, kindOf = classOf) => {
  let from = at;
  while (from > least && kindOf(halves.us[from - 1]) === 'one') from -= 1;
  return from;
};

/** Returns the parts of a body, from its start bit on: start bits, bytes and the end bit with their places, and its
 * bits. `kindOf` returns the class of a half-bit. */
const bodyParts = (halves, start, end, kindOf = classOf) => {
  const durations = halves.slice(start, end);
  const parts = [];
  const bits = [];
  for (let half = 0; half + 1 < durations.length; half += 2) {
    const [first, second] = [kindOf(durations[half]), kindOf(durations[half + 1])];
    const isBit = first === second && first !== 'bad';
    const [at, bit] = [start + half, first === 'one' ? 1 : 0];
    if (isBit) bits.push({ at, bit });
    if ((half / 2) % 9 === 0) {
      const byte = parts.filter((it) => it.kind === 'byte').length;
      const kind = !isBit ? 'rest' : bit ? 'end' : byte === BYTES_OF_PACKET ? 'zero' : 'start';
      parts.push({ kind, from: at, to: at + 2 });
    } else {
      if ((half / 2) % 9 === 1) parts.push({ kind: 'byte', from: at, to: at, value: 0, bits: 0 });
      const part = parts[parts.length - 1];
      part.to = at + 2;
      if (isBit) {
        part.value = 2 * part.value + bit;
        part.bits += 1;
      }
    }
  }
  const last = parts.length ? parts[parts.length - 1] : null;
  if (durations.length % 2 && last) last.to = end;
  return { parts, bits };
};

/** Adds the hex digits of each byte. A byte that is cut has none. */
const labelBytes = (parts) => {
  for (const it of parts) if (it.kind === 'byte') it.label = it.bits === 8 ? hex([it.value]) : '…';
};

const sum = (bytes) => bytes.reduce((a, b) => a ^ b, 0);
const count = (n) => n.toLocaleString('en');
const plural = (n, one, many = `${one}s`) => `${count(n)} ${n === 1 ? one : many}`;

/** Returns the place of the reason of a refusal, and a sentence. */
const faultOf = (halves, outcome, parts) => {
  const end = outcome.at;
  const [before, last] = halves.slice(Math.max(0, end - 2), end);
  const bytes = parts.filter((it) => it.kind === 'byte');
  switch (outcome.refusal) {
    case 1: {
      const us = halves.slice(end - 1, end)[0];
      const text = `${us} µs is neither half of a one (52 to 64) nor half of a zero (90 to 10000)`;
      return { from: end - 1, to: end, text };
    }
    case 2:
      return {
        from: end - 2,
        to: end,
        text: `${before} and ${last} µs: a bit cannot be half a ${classOf(before)} and half a ${classOf(last)}`,
      };
    case 3:
      return { from: end - 2, to: end, text: `an end bit after ${plural(bytes.length, 'byte')}: a packet has 3 to 6` };
    case 4:
      return { from: end - 2, to: end, text: 'a zero after the sixth byte, where the end bit has to be' };
    default: {
      const error = bytes[bytes.length - 1];
      const [is, wanted] = [hex(outcome.bytes.slice(-1)), hex([sum(outcome.bytes.slice(0, -1))])];
      const text = `the error byte is ${is}, but the exclusive or of the bytes before it is ${wanted}`;
      return { from: error.from, to: error.to, text };
    }
  }
};

/** Adds the half-bits before the start bit: the preamble, and half-bits of no packet. Of many half-bits the first are
 * hidden. */
const withLead = (halves, strip) => {
  const { begin, start, end, isLost, least = begin } = strip;
  const preamble = preambleBefore(halves, start, least, isLost ? nearestClassOf : classOf);
  const from = Math.max(begin, start - MOST_LEAD);
  const lead = [];
  const cutout = strip.isAfterPacket && from === begin && isCutout(halves, begin) ? begin : null;
  const free = cutout === null ? from : begin + 2;
  if (cutout !== null) lead.push({ kind: 'none', from, to: free, label: 'RailCom cutout' });
  // half-bits before a lost packet can be those of another packet
  if (free < preamble) lead.push({ kind: 'none', from: free, to: preamble, label: isLost ? '' : 'no packet' });
  if (preamble < start) {
    const ones = plural(Math.floor((start - preamble) / 2), 'one');
    // fewer than 20 half-bits are enough if those of the end bit before make up the rest
    const isEnough = start < end && start - preamble < 20 && !isLost;
    const label = isEnough ? `${ones} + end bit` : `preamble: ${ones}`;
    lead.push({ kind: 'preamble', from: Math.max(from, preamble), to: start, label });
  }
  return { ...strip, from, cutout, hidden: from - begin, ones: start - preamble, parts: [...lead, ...strip.parts] };
};

/** Returns the half-bits from the end of the item before to the end of a lost packet, with their parts. A refusal can
 * end within the lost packet, so the strip begins before its preamble. */
const lostStripOf = (halves, item, previous) => {
  const end = item.at;
  const start = end - 18 * item.bytes.length - 2;
  const begin = Math.max(0, Math.min(previous ? previous.at : 0, start - 40));
  const { parts, bits } = bodyParts(halves, start, end, nearestClassOf);
  labelBytes(parts);
  parts.filter((it) => it.kind === 'byte')[item.bytes.length - 1].kind = 'error';
  // half-bits of ones that another packet uses are no part of a preamble that is too short
  const { preamble } = item.lost;
  const least = preamble ? start - preamble.ones : begin;
  return withLead(halves, { begin, start, end, parts, bits, fault: causeOf(halves, item, start), isLost: true, least });
};

/** Returns the half-bits from the end of the item before to the end of this one, with their parts. */
const stripOf = (halves, outcome, previous) => {
  if (outcome.lost) return lostStripOf(halves, outcome, previous);
  const [begin, end] = [previous ? previous.at : 0, outcome.at];
  const bytes = outcome.bytes.length;
  const start = bytes ? end - 18 * bytes - 2 : startFrom(halves, begin, onesLeft(previous), end);
  const { parts, bits } = bodyParts(halves, start, end);
  const fault = outcome.refusal ? faultOf(halves, outcome, parts) : null;
  labelBytes(parts);
  if (bytes) parts.filter((it) => it.kind === 'byte')[bytes - 1].kind = 'error';
  const isAfterPacket = Boolean(previous && !previous.refusal);
  return withLead(halves, { begin, start, end, parts, bits, fault, isAfterPacket });
};

/** Returns the half-bits after the last outcome, or null. */
const tailOf = (halves, previous) => {
  const [begin, end] = [previous ? previous.at : 0, halves.count];
  if (begin === end) return null;
  const start = startFrom(halves, begin, onesLeft(previous), end);
  const { parts, bits } = bodyParts(halves, start, end);
  labelBytes(parts);
  const isAfterPacket = Boolean(previous && !previous.refusal);
  const strip = withLead(halves, { begin, start, end, parts, bits, fault: null, isAfterPacket });
  return { ...strip, isOpen: start < end };
};

// ---- drawing ----

const PIXELS_PER_US = 0.122;
const LONG = 130;
const ROWS = { label: 16, wave: 34, bits: 15, note: 17 };
const SVG = 'http://www.w3.org/2000/svg';

/** Returns the width of a half-bit in the drawing: to scale for an ordinary half-bit, shortened for a longer one. */
const widthOf = (us, zoom) => {
  const wide = us <= LONG ? us : LONG + 40 * Math.log2(us / LONG);
  return Math.max(2.5, wide * PIXELS_PER_US * zoom);
};

const node = (name, attributes, text) => {
  const it = document.createElementNS(SVG, name);
  for (const [key, value] of Object.entries(attributes)) it.setAttribute(key, value);
  if (text !== undefined) it.textContent = text;
  return it;
};

const round = (x) => Math.round(10 * x) / 10;

const CLASS_NAMES = { one: 'half of a one', zero: 'half of a zero', bad: 'half of no bit' };

/** Returns the text of a pulse: the half-bit at a place. */
const tellHalf = (place, us) => `half-bit ${place + 1}: ${us} µs, ${CLASS_NAMES[classOf(us)]}`;

/** Returns the vertical place of the pulse of a half-bit. The level changes at each half-bit. */
const PULSE = ROWS.wave / 2 - 4;
const MIDDLE = ROWS.label + ROWS.wave / 2;
const topOf = (place) => (place % 2 === 0 ? MIDDLE - PULSE : MIDDLE);

/** Returns the pulses and the wave along them. All pulses of a class are one shape, since a browser needs 2 KB for
 * each shape. */
const drawPulses = (strip, durations, x) => {
  const group = node('g', {});
  const shapes = { one: '', zero: '', bad: '', cutout: '' };
  let wave = '';
  durations.forEach((us, i) => {
    const place = strip.from + i;
    const isUp = place % 2 === 0;
    const top = topOf(place);
    const isCut = strip.cutout !== null && place >= strip.cutout && place < strip.cutout + 2;
    const pulse = `M${round(x[i])} ${top}H${round(x[i + 1])}V${top + PULSE}H${round(x[i])}Z`;
    shapes[isCut ? 'cutout' : classOf(us)] += pulse;
    wave += `${i ? 'V' : `M${round(x[0])} `}${isUp ? top : top + PULSE}H${round(x[i + 1])}`;
    if (us > LONG) {
      const at = round((x[i] + x[i + 1]) / 2);
      group.append(node('text', { class: 'us', x: at, y: isUp ? MIDDLE + 9 : MIDDLE - 3 }, us));
    }
  });
  for (const [kind, d] of Object.entries(shapes)) if (d) group.prepend(node('path', { class: `pulse ${kind}`, d }));
  group.append(node('path', { class: 'wave', d: wave }));
  return group;
};

/** Returns the bits below the pulses, as one text with a place for each bit. */
const drawBits = (bits, xOf) => {
  const x = bits.map(({ at }) => round((xOf(at) + xOf(at + 2)) / 2)).join(' ');
  return node('text', { class: 'bit', x, y: ROWS.label + ROWS.wave + 11 }, bits.map((it) => it.bit).join(''));
};

const drawParts = (strip, xOf) => {
  const group = node('g', {});
  const height = ROWS.label + ROWS.wave + ROWS.bits;
  let byte = 0;
  for (const it of strip.parts) {
    const [x, width] = [xOf(it.from), xOf(it.to) - xOf(it.from)];
    const isByte = it.kind === 'byte' || it.kind === 'error';
    const odd = isByte && byte++ % 2 ? ' odd' : '';
    const isBad = strip.fault && it.from >= strip.fault.from && it.to <= strip.fault.to ? ' bad' : '';
    const kind = `part ${it.kind}${odd}${isBad}`;
    group.append(node('rect', { class: kind, x: round(x), y: 0, width: round(width), height }));
    const room = it.label && width >= 7 * it.label.length ? it.label : '';
    if (room) group.append(node('text', { class: `label ${it.kind}`, x: round(x + width / 2), y: 12.5 }, room));
  }
  return group;
};

/** Returns a frame around the half-bits from one place up to another place, which is excluded. */
const drawFrame = (name, [x, end], room) => {
  const height = ROWS.label + ROWS.wave + ROWS.bits - 1;
  return node('rect', { class: name, x: round(x - room), y: 1, width: round(end - x + 2 * room), height });
};

/** Returns the drawing of a strip, with a text for screen readers. The drawing stores where each half-bit begins. */
const drawStrip = (halves, strip, description, zoom = 1) => {
  const durations = halves.slice(strip.from, strip.end);
  const x = [3];
  for (const us of durations) x.push(x[x.length - 1] + widthOf(us, zoom));
  const xOf = (place) => x[place - strip.from];
  const [width, bottom] = [Math.ceil(x[x.length - 1]) + 3, ROWS.label + ROWS.wave + ROWS.bits];
  const height = bottom + ROWS.note;
  const svg = node('svg', { width, height, viewBox: `0 0 ${width} ${height}`, role: 'img', 'aria-label': description });
  svg.append(drawParts(strip, xOf), drawPulses(strip, durations, x));
  if (strip.bits.length) svg.append(drawBits(strip.bits, xOf));
  svg.append(node('text', { class: 'place first', x: 3, y: bottom + 13 }, strip.from + 1));
  // the two numbers of a strip of one half-bit are equal
  if (width > 90) svg.append(node('text', { class: 'place last', x: width - 3, y: bottom + 13 }, strip.end));
  if (strip.fault) svg.append(drawFrame('where', [xOf(strip.fault.from), xOf(strip.fault.to)], 1));
  return Object.assign(svg, { strip, edges: x });
};

/** Returns the place of the half-bit at a distance in pixels from the left. */
const placeAt = (svg, pixels) => {
  const next = svg.edges.findIndex((it) => it > pixels);
  const i = next < 0 ? svg.edges.length - 2 : Math.max(0, next - 1);
  return svg.strip.from + i;
};

/** Highlights the pulse of a half-bit, with a title that gives its duration. */
const lightHalf = (svg, place, text) => {
  const at = place - svg.strip.from;
  const [x, end] = [svg.edges[at], svg.edges[at + 1]];
  svg.querySelector('.lit')?.remove();
  const lit = node('rect', { class: 'lit', x: round(x), y: topOf(place), width: round(end - x), height: PULSE });
  lit.append(node('title', {}, text));
  svg.append(lit);
};

/** Marks a half-bit in its drawing, and scrolls to it. */
const markHalf = (svg, place) => {
  const at = place - svg.strip.from;
  const ends = [svg.edges[at], svg.edges[at + 1]];
  svg.querySelector('.chosen')?.remove();
  svg.append(drawFrame('chosen', ends, 1.5));
  const track = svg.parentNode;
  const isHidden = ends[0] < track.scrollLeft + 20 || ends[1] > track.scrollLeft + track.clientWidth - 20;
  if (isHidden) track.scrollLeft = ends[0] - track.clientWidth / 2;
};

// Two histograms of the durations in a capture, with the limits of NMRA S-9.1: one of short half-bits with a bar for
// each microsecond, and one of long half-bits.

const BARS = { height: 200, left: 52, right: 14, top: 42, bottom: 36 };
const WIDEST = 560;
const SHORT = { from: 40, to: 130, ticks: [40, 50, 60, 70, 80, 90, 100, 110, 120, 130] };
const LONG_BARS = { from: 130, to: 66000, bars: 48, ticks: [200, 500, 1000, 2000, 5000, 10000, 20000, 50000] };

/** Returns the bars of short half-bits: the range of durations, the number of half-bits, and a name. The first bar
 * includes all shorter half-bits. */
const shortBars = (counts) => {
  const bars = [];
  for (let us = SHORT.from; us < SHORT.to; us += 1) {
    bars.push({ from: us, to: us + 1, count: counts[us], name: `${us} µs` });
  }
  bars[0].count += counts.subarray(0, SHORT.from).reduce((a, b) => a + b, 0);
  bars[0].name = `${SHORT.from} µs or less`;
  return bars;
};

/** Returns the bars of long half-bits, each wider than the one before it. A half-bit above 65535 µs counts as 65535,
 * so the last bar includes these half-bits. */
const longBars = (counts) => {
  const ratio = (LONG_BARS.to / LONG_BARS.from) ** (1 / LONG_BARS.bars);
  return [...Array(LONG_BARS.bars).keys()].map((i) => {
    const [from, to] = [i, i + 1].map((n) => Math.round(LONG_BARS.from * ratio ** n));
    const name = to > LONGEST ? `${from} µs or more` : to > from + 1 ? `${from} to ${to - 1} µs` : `${from} µs`;
    return { from, to, count: counts.subarray(from, to).reduce((a, b) => a + b, 0), name };
  });
};

/** Returns the place of a duration: to scale for short half-bits, by its logarithm for long ones. */
const scaleOf = ({ from, to }, isLong, width) => {
  const wide = width - BARS.left - BARS.right;
  const part = isLong ? (us) => Math.log(us / from) / Math.log(to / from) : (us) => (us - from) / (to - from);
  return (us) => BARS.left + wide * Math.min(1, Math.max(0, part(us)));
};

/** Returns a band between two limits, with its name above it. */
const drawBand = (xOf, { name, limits, row }) => {
  const group = node('g', { class: `band ${name}` });
  const [x, end] = limits.map(xOf);
  const [top, bottom, text] = [BARS.top, BARS.height - BARS.bottom, BARS.top - 5 - 15 * row];
  group.append(node('rect', { class: 'within', x: round(x), y: top, width: round(end - x), height: bottom - top }));
  for (const at of new Set([x, end])) {
    group.append(node('line', { x1: round(at), x2: round(at), y1: top - 3 - 15 * row, y2: bottom }));
  }
  group.append(node('text', { x: round((x + end) / 2), y: text }, `${name} ${limits.join(' to ')}`));
  return group;
};

/** Returns the lines for 1, 10, 100 and so on, up to the greatest count. */
const drawCounts = (most, yOf, width) => {
  const group = node('g', { class: 'counts' });
  for (let n = 1; n <= most; n *= 10) {
    const y = round(yOf(n));
    group.append(node('line', { x1: BARS.left, x2: width - BARS.right, y1: y, y2: y }));
    group.append(node('text', { x: BARS.left - 5, y: y + 4 }, n < 1e6 ? count(n) : `${n / 1e6} M`));
  }
  return group;
};

/** Returns the durations below the bars, without those that have no room. */
const drawTicks = (ticks, xOf) => {
  const group = node('g', { class: 'ticks' });
  const y = BARS.height - BARS.bottom;
  let end = 0;
  for (const us of ticks) {
    const half = 4 * String(us).length;
    if (xOf(us) - half < end) continue;
    end = xOf(us) + half;
    group.append(node('text', { x: round(xOf(us)), y: y + 14 }, us));
  }
  group.append(node('text', { class: 'unit', x: BARS.left, y: y + 30 }, 'microseconds'));
  return group;
};

const drawBar = ({ from, to, count: n, name }, xOf, y, bottom) => {
  const x = xOf(from);
  const width = Math.max(1, xOf(to) - x - 0.5);
  const place = { x: round(x), y: round(y), width: round(width), height: round(bottom - y) };
  const bar = node('rect', { class: `bar ${classOf(from)}`, ...place });
  bar.append(node('title', {}, `${name}: ${plural(n, 'half-bit')}`));
  return bar;
};

/** Returns one of the two drawings. The height of a bar is the logarithm of its count, so a single half-bit is
 * visible beside a million. */
const drawBars = (bars, { scale, isLong, bands, width }) => {
  const xOf = scaleOf(scale, isLong, width);
  const most = Math.max(10, ...bars.map((it) => it.count));
  const bottom = BARS.height - BARS.bottom;
  const log = (n) => Math.log10(n + 0.3) - Math.log10(0.3);
  const yOf = (n) => bottom - ((bottom - BARS.top - 4) * log(n)) / log(most);
  const durations = `each duration from ${scale.from} microseconds on`;
  const label = `The number of half-bits of ${durations}: left and right choose a bar`;
  const viewBox = `0 0 ${width} ${BARS.height}`;
  const svg = node('svg', { class: 'bars', width, height: BARS.height, viewBox, role: 'img', 'aria-label': label });
  svg.append(...bands.map((it) => drawBand(xOf, it)), drawCounts(most, yOf, width));
  const drawn = bars.filter((it) => it.count).map((it) => drawBar(it, xOf, yOf(it.count), bottom));
  svg.append(...drawn, drawTicks(scale.ticks, xOf));
  return svg;
};

/** Returns a drawing of bars. A click, a touch or the arrow keys choose a bar, whose text is shown below the drawing.
 * */
const withChoice = (svg) => {
  const figure = make('div', 'chart');
  const line = make('p', 'half');
  line.setAttribute('role', 'status');
  const bars = [...svg.querySelectorAll('.bar')];
  const last = bars.length - 1;
  let chosen = -1;
  const choose = (n) => {
    bars[chosen]?.classList.remove('told');
    chosen = Math.min(Math.max(n, 0), last);
    bars[chosen].classList.add('told');
    line.textContent = bars[chosen].textContent;
  };
  svg.tabIndex = bars.length ? 0 : -1;
  svg.addEventListener('keydown', (event) => {
    const places = { ArrowLeft: chosen - 1, ArrowRight: chosen + 1, Home: 0, End: last };
    if (!bars.length || !(event.key in places) || event.ctrlKey || event.altKey || event.metaKey) return;
    event.preventDefault();
    choose(places[event.key]);
  });
  svg.addEventListener('click', (event) => {
    const distances = bars.map((it) => {
      const { left, right } = it.getBoundingClientRect();
      return Math.abs((left + right) / 2 - event.clientX);
    });
    if (bars.length) choose(distances.indexOf(Math.min(...distances)));
  });
  figure.append(svg, line);
  return figure;
};

/** Returns both drawings with a width in pixels. */
const drawHistogram = (counts, room) => {
  const width = Math.min(WIDEST, room);
  const band = (figure) => {
    return Object.entries(LIMITS[figure]).map(([name, limits]) => ({ name, limits, row: name === 'station' ? 0 : 1 }));
  };
  return [
    drawBars(shortBars(counts), { scale: SHORT, isLong: false, bands: [...band('ones'), ...band('zeros')], width }),
    drawBars(longBars(counts), { scale: LONG_BARS, isLong: true, bands: band('zeros'), width }),
  ].map(withChoice);
};

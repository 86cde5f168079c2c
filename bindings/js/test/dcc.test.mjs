// Compares the module with the program `dcc`: packet by packet on lines that are written out, then on random packets
// with wrong half-bits. The program is that of a release or of this repository, or the one that DCC_PROGRAM names.
import assert from 'node:assert/strict';
import { spawnSync } from 'node:child_process';
import { copyFileSync, existsSync, mkdirSync, mkdtempSync, readFileSync, rmSync, writeFileSync } from 'node:fs';
import { tmpdir } from 'node:os';
import { join } from 'node:path';
import { fileURLToPath, pathToFileURL } from 'node:url';
import test from 'node:test';
import * as dcc from '../dcc.mjs';

const top = fileURLToPath(new URL('../../../', import.meta.url));
const places = [`${top}bin/x86_64-unknown-linux-gnu/dcc`, `${top}crates/dcc/out/dcc`];
const program = process.env.DCC_PROGRAM ?? places.find((it) => existsSync(it));
assert.ok(program, 'no program dcc: name one in DCC_PROGRAM');

const IDLE = Uint8Array.of(0xff, 0, 0xff);
const SPEED = Uint8Array.of(0x03, 0x62, 0x61);
const rows = readFileSync(`${top}bindings/each_register.txt`, 'latin1').split('\n').filter((it) => it && it[0] !== '#');

/** What the program writes, says and ends with. */
const told = (words, input) => {
  const ran = spawnSync(program, words, { input, maxBuffer: 1 << 30 });
  return { out: ran.stdout.toString(), error: ran.stderr.toString(), status: ran.status };
};
const written = (words, input) => {
  const { out, error, status } = told(words, input);
  assert.equal(status, 0, error);
  return out;
};

/** A generator of numbers below 1, the same in each run. */
const random = (seed) => () => {
  seed = (seed * 1103515245 + 12345) % 2147483648;
  return seed / 2147483648;
};

const decoders = () => [
  ...[{ 1: 3, 29: 2 }, { 17: 0xc3, 18: 0xe8, 29: 0x22 }, { 1: 3, 29: 0 }, {}].map((it) => new dcc.Loco(it)),
  ...[12, 0, 510].map((it) => new dcc.Board(it)),
];
const textOf = (fleet) => ['dcc-decoders 2', ...fleet.map(String), 'end', ''].join('\n');
const run = (fleet, capture) =>
  written(['run'], textOf(fleet) + capture).split(/\n(?=loco|board|end)/).slice(1, -1);

/** Whether the packet of a line is for a decoder, by the words of the line. */
const isFor = (decoder, row) => {
  const words = row.split(' ');
  const number = Number(words[1]);
  if (decoder instanceof dcc.Board) {
    const own = decoder.number;
    if (words.slice(0, 3).join(' ') === 'loco all reset') return true;
    if (words[0] === 'accessory') return [own, 511].includes(number);
    return words[0] === 'signal' && ((number >= 4 * own && number < 4 * own + 4) || number === 2047);
  }
  if (words[0] === 'loco') return ['all', decoder.address].includes(words[1]);
  if (words[0] !== 'frame') return false;
  const [first, second] = [words[1].slice(0, 2), words[1].slice(2, 4)].map((it) => parseInt(it, 16));
  if (first === 0) return true;
  const address = first < 128 ? `s${first}` : first >= 192 && first < 232 ? `l${(first - 192) * 256 + second}` : '';
  return decoder.address === address;
};

const refused = (code, call) =>
  assert.throws(call, (error) => error instanceof dcc.Refused && error.code === code && error.message === code, code);

test('each register is as run writes it', () => {
  const [fleet, reached] = [decoders(), new Set()];
  for (const row of rows) {
    const frame = dcc.frame(row);
    const after = run(fleet, written(['encode'], `${row}\n`));
    fleet.forEach((it, n) => {
      assert.equal(it.hears(frame), isFor(it, row), row);
      assert.ok(it.hears(frame) || String(it) === after[n], row);
      it.apply(frame);
      assert.equal(String(it), after[n], row);
      after[n].split('\n').forEach((word) => reached.add(word));
    });
  }
  for (const it of ['speed emergency r', 'speed 14 8 f', 'speed 28 28 r', 'speed 126 126 f', 'pending 03ec0609e0',
    'out 0 2 5 6 7', 'aspect 6 6 6 6', 'board 510']) assert.ok(reached.has(it), it);
});

test('properties', () => {
  const loco = new dcc.Loco({ 17: 0xc3, 18: 0xe8, 29: 0x22 });
  assert.deepEqual([loco.address, loco.speed, loco.isForward, loco.pending], ['l1000', 'stop', true, null]);
  for (const it of ['speed128 r 1', 'functions 61 129', 'state 127 on', 'cv write 3 7']) {
    loco.apply(dcc.frame(`loco l1000 ${it}`));
  }
  assert.deepEqual([loco.speed, loco.isForward], ['emergency', false]);
  assert.deepEqual([loco.functions, loco.states], [[61, 68], [127]]);
  assert.deepEqual(loco.pending, dcc.frame('loco l1000 cv write 3 7'));
  assert.deepEqual([loco.cvs.length, loco.cvs[16], loco.cvs[17]], [1024, 0xc3, 0xe8]);
  loco.apply(dcc.frame('loco l1000 speed128 f 60'));
  assert.deepEqual([loco.speed, loco.isForward], [{ step: 59, steps: 126 }, true]);
  assert.deepEqual([new dcc.Loco({}).address, new dcc.Loco({ 1024: 5 }).cvs[1023]], [null, 5]);
  assert.deepEqual(new dcc.Loco([5, ...Array(1023).fill(0)]).cvs, new dcc.Loco({ 1: 5 }).cvs);
  const short = new dcc.Loco({ 1: 3 });
  short.apply(dcc.frame('loco s3 cv write 3 7'));
  assert.deepEqual(short.pending, dcc.frame('loco s3 cv write 3 7'));
  const board = new dcc.Board(12);
  for (const it of ['accessory 12 7 on', 'accessory 12 2 on', 'signal 51 9']) board.apply(dcc.frame(it));
  assert.deepEqual([board.number, board.outputs, board.positions, board.aspects], [12, [2, 7], [0, 0, 0, 1],
    [0, 0, 0, 9]]);
});

test('the fields of packets are those of their lines', () => {
  const fields = (it) => {
    const { kind, address, forward, bits, group, state, on, cv, value, place, one, board, output, signal, aspect } = it;
    const word = (yes) => (yes ? 'on' : 'off');
    if (kind === 'idle') return 'idle';
    if (kind === 'accessory') return `accessory ${board} ${output} ${word(on)}`;
    if (kind === 'signal') return `signal ${signal} ${aspect}`;
    const rest = {
      reset: '', speed28: ` ${forward ? 'f' : 'r'} ${bits}`, speed128: ` ${forward ? 'f' : 'r'} ${bits}`,
      functions: ` ${group} ${bits}`, state: ` ${state} ${word(on)}`, 'cv write': ` ${cv} ${value}`,
      'cv verify': ` ${cv} ${value}`, 'cv bitwrite': ` ${cv} ${place} ${Number(one)}`,
      'cv bitverify': ` ${cv} ${place} ${Number(one)}`,
    };
    return `loco ${address} ${kind}${rest[kind]}`;
  };
  const kinds = new Set();
  const more = ['loco l1000 cv bitverify 1024 7 1', 'loco s3 cv bitwrite 513 0 0', 'loco all cv verify 2 255',
    'signal 2047 31',
    'accessory 511 7 off', 'loco s3 state 127 on', 'loco s3 functions 9 15', 'loco l10239 speed128 r 127',
      'loco all reset'];
  for (const row of [...rows, ...more]) {
    const frame = dcc.frame(row);
    const packet = dcc.read(frame);
    kinds.add(packet.kind);
    if (packet.kind === 'other') assert.match(dcc.line(frame), /^frame /);
    else assert.equal(fields(packet), dcc.line(frame));
  }
  assert.deepEqual(dcc.read(dcc.frame('frame 7c000a76')), { kind: 'other' });
  assert.equal(kinds.size, 13, [...kinds].join());
});

test('plain words are those of the table', () => {
  const table = readFileSync(`${top}examples/plain.txt`, 'latin1').split('\n').filter((it) => it && it[0] !== '#');
  for (const [packet, words] of table.map((it) => it.split(' | '))) {
    assert.equal(dcc.plain(Buffer.from(packet, 'hex')), words);
  }
  assert.ok(table.length > 60);
  assert.throws(() => dcc.plain([3, 3]), { code: 'L1' });
  assert.throws(() => dcc.plain(new Uint8Array(16)), { code: 'L1' });
  assert.throws(() => dcc.plain(new Uint8Array(100)), { code: 'L1' });
  assert.throws(() => dcc.plain([3, 0x62, 0x60]), { code: 'L2' });
  assert.equal(dcc.plain(new Uint8Array(15)), `frame ${'00'.repeat(15)}`);
});

test('turnouts are those of show', () => {
  const boards = [...Array(511).keys()];
  const outputs = [...boards, 511].flatMap((board) => [...Array(8).keys()].map((output) => [board, output]));
  const capture = written(['encode'], outputs.map(([board, output]) => `accessory ${board} ${output} on\n`).join(''));
  const shown = written(['show', '--plain'], capture).trim().split('\n').map((it) => /turnout (.*)/.exec(it)?.[1]);
  const told = (call, ...words) => {
    try {
      return String(call(...words));
    } catch (error) {
      return error instanceof RangeError ? undefined : error;
    }
  };
  outputs.forEach(([board, output], n) => {
    assert.equal(told(dcc.turnout, board, output), shown[n]);
    assert.equal(told(dcc.turnout, board, output, 0), board === 511 ? undefined : String((n >> 1) + 1));
  });
  assert.deepEqual([dcc.turnout(40, 2), dcc.turnout(40, 2, 0)], [158, 162]);
  for (const [first, most] of [[1, 2040], [0, 2044]]) {
    for (let number = 1; number <= most; number += 1) {
      const { board, pair } = dcc.turnoutPair(number, first);
      const sides = [0, 1].map((side) => dcc.turnout(board, 2 * pair + side, first));
      assert.deepEqual(sides, [number, number]);
    }
    for (const number of [0, most + 1]) assert.throws(() => dcc.turnoutPair(number, first), RangeError);
    for (const output of [-1, 8]) assert.throws(() => dcc.turnout(510, output, first), RangeError);
  }
  assert.deepEqual(dcc.turnoutPair(158), { board: 40, pair: 1 });
  for (const first of [-1, 2]) {
    assert.throws(() => dcc.turnout(40, 2, first), RangeError);
    assert.throws(() => dcc.turnoutPair(158, first), RangeError);
  }
  assert.throws(() => dcc.turnout('40', 2), TypeError);
  assert.throws(() => dcc.turnoutPair(1.5), TypeError);
});

test('half-bits have their timing', () => {
  const sent = rows.map((it) => `${dcc.halves(dcc.frame(it), { preamble: 20 }).join(' ')}\n`).join('');
  assert.equal(sent, written(['encode', '--service'], `${rows.join('\n')}\n`));
  const [ones, zeros] = [(n) => Array(2 * n).fill(55), (n) => Array(n).fill([9900, 2100]).flat()];
  const timing = { one: 55, zeroFirst: 9900, zeroSecond: 2100, preamble: 14 };
  assert.deepEqual(dcc.halves(IDLE, timing), [...ones(14), ...zeros(1), ...ones(8), ...zeros(10), ...ones(9)]);
  assert.equal(dcc.halves(IDLE).length, 2 * (14 + 28));
});

test('a framer takes runs, long half-bits and arrays', () => {
  for (const text of ['58*28 100*14 58*4 100*4 58*4 100*6 58*2 100*6 58*4 100*8 58*4', '58*40 100*2 100*500',
    '58*28 100*14 58*4 100*4 58*4 100*6 65594*2', '58*40 100*18 58*9']) {
    const framer = new dcc.Framer();
    const found = text.split(' ').map((it) => framer.push(...it.split('*').map(Number))).filter(Boolean);
    assert.equal(found.map((it) => `${it}\n`).join(''), written(['show', '--words'], text));
  }
  for (const us of [65535, 65536, 65594, 2 ** 32 + 58, 2 ** 53 - 1]) {
    const framer = new dcc.Framer();
    assert.equal(framer.push(58, 40), null);
    assert.equal(framer.push(100), null);
    assert.equal(String(framer.push(us)), '42 refused H1');
    assert.equal(String(new dcc.Framer().pushMany([...Array(40).fill(58), 100, us])[0]), '42 refused H1');
  }
  const framer = new dcc.Framer();
  framer.push(58, 0xffffffff);
  framer.push(100, 18);
  assert.equal(framer.push(58, 9).at, 0xffffffff + 20);
  const all = rows.slice(0, 6).flatMap((it) => dcc.halves(dcc.frame(it)));
  const parts = new dcc.Framer();
  const found = [[0, 100], [100, 100], [100, 101], [101, all.length]].flatMap(([a, b]) => parts.pushMany(all.slice(a,
    b)));
  assert.equal(found.length, 6);
  assert.deepEqual(found, dcc.seen(Uint16Array.from(all)));
  const many = Array(2000).fill(all).flat();
  assert.equal(dcc.seen(many).length, 12000);
  assert.equal(dcc.seen(many).at(-1).at, many.length);
});

test('captures are read as show reads them', () => {
  const good = '58*28 100*14 58*4 100*4 58*4 100*6 58*2 100*6 58*4 100*8 58*4';
  const faults = ['58*0', '5_8', '58*-3', '58*', '58x', '*5', '-58', '+58', '58*99999999', '58*16777217',
    '58*123456789',
    '58*5*2', '12345678901', '00000000058', '---', '\u0665', '58\f58', '58\v58', '\0', '58\0', '\ufeff58', '1e3',
      '58.0',
    '58\u00a07', '58\u20287', '58\x85'];
  const texts = faults.map((it) => `${good}\n# a comment\r\n\t58\n58 ${it} 58\n58*0\n`);
  texts.push('', '#', '\n\n', '58', '58#58x', `${good}#58`, `${good} # a\r58x\n${good}`,
    `\r\n${good.replaceAll(' ', '\r')}\r\n`,
    '0000000058*00000028 0*1 70000 4294967354 9999999999*3', ...['65594', '4294967354', '65535'].map((it) =>
      `${good} 58*20 100 ${it} 58`));
  texts.push('\ufeff58', `\ufeff${good}`, `70*20000 ${good}`, `58 70*4095 ${good} 70*8192 ${good} 70*99999 ${good}`);
  const next = random(5);
  for (let n = 0; n < 100; n += 1) {
    const text = [...good];
    for (let i = 0; i < 1 + 3 * next(); i += 1) text.splice(next() * text.length, 0,
      ' \t\r\n#*-+_05889x\f\0\n'[Math.floor(next() * 17)]);
    texts.push(text.join(''));
  }
  for (const text of texts) {
    const { out, error } = told(['show', '--words'], text);
    const listing = () => dcc.seen(dcc.durations(text)).map((it) => `${it}\n`).join('');
    if (error) refused(error.replace('dcc: ', '').trimEnd(), listing);
    else assert.equal(listing(), out, JSON.stringify(text));
    assert.deepEqual(error || dcc.durations(text), error || dcc.durations(Buffer.from(text)));
  }
  for (const text of [texts[0], good, '']) {
    const script = fileURLToPath(new URL('../show.mjs', import.meta.url));
    const here = spawnSync(process.execPath, [script], { input: text });
    const { out, error, status } = told(['show', '--words'], text);
    assert.deepEqual([here.stderr.toString(), here.status], [error.replace('dcc:', 'show.mjs:'), status]);
    assert.equal(here.stdout.toString(), status ? '' : out);
  }
  assert.deepEqual([...dcc.durations('65534 65535 65536 4294967354*2')], [65534, 65535, 65535, 65535, 65535]);
});

test('captures have limits', () => {
  const full = `#${'x'.repeat(67108864 - 10)}\n`; // eight bytes are left
  for (const [text, code] of [['58*16777216', ''], ['58*16777216 58', 'U7'], ['58*16777216 58x', 'U2'],
    ['58*16777215 58*2', 'U7'],
    [`${full}58 58 58`, ''], [`${full}58 58 58 `, 'U7'], [`${full}58 58 x`, ''], [`${full}58 58x  9`, 'U2'],
      [`${full}58 58  x9`, 'U7'],
    [`${full}58 58 #9`, ''], [`${full}58 5 58*`, '']]) {
    const { error } = told(['show'], text);
    let said = '';
    try {
      dcc.durations(text);
    } catch (fault) {
      said = `dcc: ${fault.code}\n`;
    }
    assert.equal(said, error, text.slice(-20));
    if (code) assert.ok(error.startsWith(`dcc: ${code}`), text.slice(-20));
  }
});

test('random packets with wrong half-bits', () => {
  const lines = spawnSync('awk', ['-f', `${top}tools/random-packets.awk`]).stdout.toString().trimEnd().split('\n');
  assert.ok(lines.length > 10000);
  const halves = written(['encode'], `${lines.join('\n')}\n`);
  assert.equal(lines.slice(0, 2000).map((it) => `${dcc.halves(dcc.frame(it)).join(' ')}\n`).join(''),
    halves.split('\n').slice(0, 2000).map((it) => `${it}\n`).join(''));
  const next = random(7);
  const noise = halves.split(/\s+/).filter(Boolean).map((it) =>
    (next() < 0.002 ? String(Math.floor(120 * next())) : it)).join(' ');
  assert.equal(dcc.seen(dcc.durations(noise)).map((it) => `${it}\n`).join(''), written(['show', '--words'], noise));
});

test('lost packets are those of dcc lost', () => {
  const lines = spawnSync('awk', ['-f', `${top}tools/random-packets.awk`]).stdout.toString().trimEnd().split('\n');
  const packets = written(['encode'], `${lines.slice(0, 3000).join('\n')}\n`).trimEnd().split('\n');
  const next = random(11);
  const faulty = packets.map((it) => {
    const halves = it.split(' ').map(Number);
    const kind = Math.floor(6 * next());
    if (kind === 0) return halves.slice(2 + Math.floor(18 * next()));
    if (kind === 1) return halves.map((us) => (us === 58 ? 66 : us));
    if (kind === 2) return halves.map((us) => (us === 100 && next() < 0.2 ? 84 : us));
    if (kind === 3) return [...Array(28).fill(58), 100, 100, 100, 58, ...halves.slice(12)];
    return halves;
  });
  const capture = faulty.flat().join(' ');
  const wanted = written(['lost', '--words'], capture);
  for (const it of [' after ', 'ones', 'zeros']) assert.ok(wanted.includes(it), it);
  assert.ok(wanted.split('\n').length > 500);
  assert.equal(dcc.lost(dcc.durations(capture)).map((it) => `${it}\n`).join(''), wanted);
  const [inParts, all] = [new dcc.LostFinder(), dcc.durations(capture)];
  const lostInParts = [];
  for (let at = 0; at < all.length; at += 999) lostInParts.push(...inParts.pushMany(all.subarray(at, at + 999)));
  assert.equal(lostInParts.map((it) => `${it}\n`).join(''), wanted);
  assert.deepEqual(inParts.pushMany([]), []);
  assert.throws(() => inParts.pushMany([58, '58']), TypeError);
  const finder = new dcc.LostFinder();
  // the run after the packet goes on, and is the preamble of the next packet
  const packet = '100*14 58*4 100*4 58*4 100*6 58*2 100*6 58*4 100*8';
  const runs = `58*16 ${packet} 58*18 ${packet} 58*4`;
  const found = runs.split(' ').flatMap((it) => finder.push(...it.split('*').map(Number)));
  assert.equal(found.map((it) => `${it}\n`).join(''), written(['lost', '--words'], runs));
  assert.deepEqual(found.map((it) => it.at), [72, 142]);
  assert.deepEqual([found[0].at, found[0].frame, found[0].preamble], [72, SPEED, { ones: 16, after: null }]);
  assert.deepEqual([found[0].ones, found[0].zeros], [null, null]);
  assert.equal(finder.push(58, 100_000).length, 0);
  assert.throws(() => finder.push('58'), TypeError);
  assert.throws(() => finder.push(58, 0), RangeError);
});

test('a station is that of encode', () => {
  const lines = spawnSync('awk', ['-f', `${top}tools/random-packets.awk`]).stdout.toString().split('\n').slice(0, 3000);
  const next = random(4);
  const orders = lines.flatMap((it) => (next() < 0.5 ? [it, `send ${1 + Math.floor(9 * next())}`] : [it]));
  for (const [queue, slots, repeats] of [[4, 8, 2], [64, 128, 1], [1, 1, 8]]) {
    const [station, sent] = [new dcc.Station({ queue, slots, repeats }), []];
    for (const it of orders) {
      const count = it.startsWith('send ') ? Number(it.slice(5)) : 0;
      for (let n = 0; n < count; n += 1) sent.push(Buffer.from(station.next()).toString('hex'));
      if (count) continue;
      try {
        station.command(dcc.frame(it));
      } catch (error) {
        sent.push(`# refused ${error.code}`);
      }
    }
    const words = ['encode', '--hex', '--station', '--queue', queue, '--slots', slots, '--repeats',
      repeats].map(String);
    assert.equal(`${sent.join('\n')}\n`, written(words, `${orders.join('\n')}\n`));
  }
  const station = new dcc.Station({ queue: 2, slots: 4, repeats: 2 });
  assert.deepEqual([station.waiting, station.entries], [0, 0]);
  station.command(SPEED);
  station.command(dcc.frame('loco s3 cv write 29 2'));
  assert.deepEqual([station.waiting, station.entries], [2, 0]);
  refused('C4', () => station.command(dcc.frame('loco s4 reset')));
  assert.deepEqual([dcc.line(station.next()), station.waiting, station.entries], ['loco s3 speed28 f 4', 2, 1]);
  const usual = new dcc.Station();
  for (let n = 1; n <= 64; n += 1) usual.command(dcc.frame(`loco s${n} functions 0 16`));
  refused('C4', () => usual.command(SPEED));
  assert.deepEqual(Array.from({ length: 3 }, () => usual.next()[0]), [1, 1, 2]);
  for (let n = 65; n <= 130; n += 1) {
    usual.next();
    usual.next();
    usual.command(dcc.frame(`loco l${n} functions 0 16`));
  }
  for (let n = 0; n < 300; n += 1) usual.next();
  assert.deepEqual([usual.waiting, usual.entries], [0, 128]);
});

test('a CV is read as readcv reads it', () => {
  for (const [cv, value] of [[1, 10], [29, 2], [8, 200], [1024, 255], [17, 0]]) {
    const [service, reader, lines] = [new dcc.Service({ [cv]: value }), new dcc.Reader(cv), []];
    assert.equal(service.isInService, false);
    let result = null;
    while (result === null) {
      const question = reader.question();
      const frames = [...Array(3).fill(Uint8Array.of(0, 0, 0)), ...Array(5).fill(question)];
      const yes = frames.map((it) => service.apply(it)).some(Boolean);
      assert.equal(service.isInService, true);
      lines.push(`${Buffer.from(question).toString('hex')} ${yes ? 'yes' : 'no'}`);
      result = reader.answer(yes);
    }
    const cvLine = value ? `cv ${cv} ${value}\n` : '';
    const text = `dcc-decoders 2\nloco none\nspeed stop f\non\nstates\npending none\n${cvLine}end\n`;
    assert.equal(`${lines.join('\n')}\nvalue ${result}\n`, written(['readcv', '--cv', String(cv)], text));
    assert.deepEqual([result, service.cvs[cv - 1], service.cvs.length], [value, value, 1024]);
  }
  const service = new dcc.Service({ 3: 5 });
  const write = Uint8Array.of(0x7c, 2, 9, 0x7c ^ 2 ^ 9);
  const said = [Uint8Array.of(0, 0, 0), write, write].map((it) => service.apply(it));
  assert.deepEqual([said, service.cvs[2]], [[false, false, true], 9]);
  const empty = new dcc.Reader(8);
  for (let n = 0; n < 8; n += 1) assert.equal(empty.answer(false), null);
  refused('S1', () => empty.answer(false));
});

/** The text that `dcc timing` writes for statistics. */
const timingText = (found) => {
  const shown = (number) => (number === null ? 'none' : String(number));
  const tally = (name) => {
    const { count, sum, least, most } = found[name];
    const hundredths = count ? String(Math.floor((100 * (sum % count)) / count)).padStart(2, '0') : '';
    const mean = count ? `${Math.floor(sum / count)}.${hundredths}` : 'none';
    assert.equal(found[name].mean, count ? sum / count : null);
    const said = [`count ${count}`, `least ${shown(least)}`, `most ${shown(most)}`, `mean ${mean}`];
    return said.map((it) => `${name} ${it}`);
  };
  return [
    `halves ${found.halves}`, `time ${found.time}`, `packets ${found.packets}`,
    ...Object.entries(found.refused).map(([name, count]) => `refused ${name} ${count}`), `lost ${found.lost}`,
    `preamble least ${shown(found.preamble)}`, `gap most ${shown(found.gap)}`, ...tally('ones'), 'ones station 55 61',
    'ones decoder 52 64', ...tally('differences'), 'differences station 3', 'differences decoder 6', ...tally('zeros'),
    'zeros station 95 9900', 'zeros decoder 90 10000', ...tally('sums'), 'sums station 12000', ...tally('below'),
    ...tally('between'), ...tally('above'), '',
  ].join('\n');
};

test('statistics are those of timing', () => {
  const example = readFileSync(`${top}examples/main_track.txt`, 'latin1');
  const next = random(5);
  const sent = written(['encode'], rows.map((it) => `${it}\n`).join('').repeat(8)).split(/\s+/).filter(Boolean);
  const noise = sent.map((us) => (next() < 0.01 ? Math.floor(300 * next() ** 3) : Number(us) + Math.floor(8 * next())));
  noise[5000] = 12000;
  noise[6000] = 70000;
  for (const text of ['', '58', example, noise.join(' '), Array(9).fill(sent.join(' ')).join(' ')]) {
    const all = dcc.durations(text);
    const wanted = written(['timing'], text);
    assert.equal(timingText(dcc.timing(all)), wanted);
    const meter = new dcc.Meter();
    for (let at = 0; at < all.length; at += 40000) meter.pushMany(all.subarray(at, at + 40000));
    assert.equal(timingText(meter.statistics()), wanted);
  }
  const meter = new dcc.Meter();
  for (const it of '58*28 100*14 58*4 100*4 58*4 100*6 58*2 100*6 58*4 100*8 58*4'.split(' ')) {
    meter.push(...it.split('*').map(Number));
  }
  meter.push(70000);
  const found = meter.statistics();
  assert.deepEqual([found.halves, found.packets, found.time, found.above.most], [85, 1, 6468 + 65535, 65535]);
  assert.throws(() => meter.push('58'), TypeError);
  assert.throws(() => meter.push(58, 0), RangeError);
  assert.throws(() => meter.pushMany([58, -1]), RangeError);
  assert.deepEqual(meter.statistics(), found);
});

test('a full meter takes nothing', async () => {
  const room = mkdtempSync(join(tmpdir(), 'dcc-'));
  const text = readFileSync(new URL('../dcc.mjs', import.meta.url), 'utf8');
  const old = 'const calls = instance.exports;';
  assert.equal(text.split(old).length, 2);
  // a library whose meters are full after the first call with a list
  const full = `const calls = { ...instance.exports, dcc_meter_push_run: () => 0, dcc_meter_push_many: (...words) =>
    (calls.isFull ? 0 : (calls.isFull = instance.exports.dcc_meter_push_many(...words))) };`;
  writeFileSync(join(room, 'dcc.mjs'), text.replace(old, full));
  copyFileSync(new URL('../dcc.wasm', import.meta.url), join(room, 'dcc.wasm'));
  const { Meter } = await import(pathToFileURL(join(room, 'dcc.mjs')));
  const meter = new Meter();
  assert.throws(() => meter.push(58), { name: 'RangeError', message: 'a meter takes less than 2^32 half-bits' });
  assert.throws(() => meter.pushMany(new Uint16Array(40000)), { name: 'RangeError' });
  assert.equal(meter.statistics().halves, 0);
  rmSync(room, { recursive: true });
});

test('packets have their frames', () => {
  const more = ['loco l1000 cv bitverify 1024 7 1', 'loco s3 cv bitwrite 513 0 0', 'loco all cv verify 2 255',
    'signal 2047 31', 'accessory 511 7 off', 'loco s3 state 127 on', 'loco s3 functions 9 15', 'loco all reset'];
  const kinds = new Set();
  for (const row of [...rows, ...more]) {
    const packet = dcc.read(dcc.frame(row));
    kinds.add(packet.kind);
    if (packet.kind !== 'other') assert.deepEqual(dcc.packetFrame(packet), dcc.frame(row), row);
  }
  assert.equal(kinds.size, 13);
  const speed = { kind: 'speed28', address: 's3', forward: true, bits: 4 };
  for (const [code, packet] of [
    ['P10', { kind: 'other' }], ['P10', { kind: 'none' }], ['P10', {}], ['P1', { ...speed, address: 's128' }],
    ['P2', { ...speed, address: 'l10240' }], ['P10', { ...speed, address: '3' }], ['P10', { ...speed, address: 's' }],
    ['P11', { ...speed, address: 's70000' }], ['P8', { ...speed, bits: 32 }],
    ['P10', { kind: 'functions', address: 's3', group: 4, bits: 0 }],
    ['P9', { kind: 'functions', address: 's3', group: 0, bits: 32 }],
    ['P14', { kind: 'state', address: 's3', state: 128, on: true }],
    ['P6', { kind: 'cv write', address: 's3', cv: 1025, value: 0 }],
    ['P7', { kind: 'cv bitverify', address: 's3', cv: 1, place: 8, one: true }],
    ['P3', { kind: 'accessory', board: 512, output: 8, on: true }],
    ['P4', { kind: 'accessory', board: 511, output: 8, on: true }], ['P5', { kind: 'signal', signal: 2048, aspect: 0 }],
  ]) refused(code, () => dcc.packetFrame(packet));
  for (const packet of [null, 'idle', { ...speed, forward: 1 }, { ...speed, bits: '4' }, { ...speed, address: 3 }]) {
    assert.throws(() => dcc.packetFrame(packet), TypeError);
  }
  for (const packet of [{ ...speed, bits: 256 }, { kind: 'signal', signal: 65536, aspect: 0 }]) {
    assert.throws(() => dcc.packetFrame(packet), RangeError);
  }
});

test('service packets have their frames', () => {
  for (const [hex, packet] of [
    ['7c000a76', { kind: 'write', cv: 1, value: 10 }], ['7503ff89', { kind: 'verify', cv: 260, value: 255 }],
    ['781cf99d', { kind: 'bitwrite', cv: 29, place: 1, one: true }],
    ['7bffe763', { kind: 'bitverify', cv: 1024, place: 7, one: false }],
  ]) {
    const frame = Uint8Array.from(Buffer.from(hex, 'hex'));
    assert.deepEqual(dcc.serviceFrame(packet), frame, hex);
    assert.deepEqual(dcc.readService(frame), packet, hex);
  }
  for (const it of [IDLE, SPEED, [0, 0, 0]]) assert.equal(dcc.readService(it), null);
  const bit = { kind: 'bitwrite', cv: 1, place: 8, one: true };
  for (const [code, call] of [
    ['L1', () => dcc.readService([1, 1])], ['L2', () => dcc.readService([1, 2, 4])],
    ['P10', () => dcc.serviceFrame({ kind: 'cv write' })], ['P6', () => dcc.serviceFrame({ ...bit, cv: 1025 })],
    ['P7', () => dcc.serviceFrame(bit)], ['P6', () => dcc.serviceFrame({ kind: 'verify', cv: 0, value: 1 })],
  ]) refused(code, call);
  for (const it of [null, { ...bit, one: 1 }, { ...bit, place: '1' }]) {
    assert.throws(() => dcc.serviceFrame(it), TypeError);
  }
  assert.throws(() => dcc.serviceFrame({ kind: 'write', cv: 1, value: 256 }), RangeError);
  const frames = dcc.questionFrames(SPEED);
  assert.deepEqual(frames, [...Array(3).fill(new Uint8Array(3)), ...Array(5).fill(SPEED)]);
  frames[3][0] = 9;
  assert.deepEqual([frames[4], SPEED[0]], [SPEED, 3]);
});

test('decoders on both tracks have registers', () => {
  const locos = [{ 1: 3, 29: 2 }, { 17: 0xc3, 18: 0xe8, 29: 0x22 }, { 1: 3, 29: 0 }, {}];
  const boards = [12, 0, 510].map((it) => [it, { 1: it & 63, 9: it >> 6 }]);
  const pairs = [...locos.map((it) => [new dcc.Loco(it), new dcc.TrackLoco(it)]),
    ...boards.map(([number, cvs]) => [new dcc.Board(number), new dcc.TrackBoard(cvs)])];
  for (const [plain, both] of pairs) {
    both.setMainOnly(true);
    for (const row of rows) {
      plain.apply(dcc.frame(row));
      both.hear(dcc.frame(row));
      assert.equal(String(both), String(plain), row);
    }
  }
  for (const decoder of [new dcc.TrackLoco({ 1: 5, 29: 2 }), new dcc.TrackBoard({ 1: 5 })]) {
    const number = () => String(decoder.address ?? decoder.number).replace('s', '');
    const write = dcc.serviceFrame({ kind: 'write', cv: 1, value: 10 });
    const hear = (...frames) => frames.map((it) => decoder.hear(it));
    const no = { acknowledged: false, changed: null };
    assert.deepEqual(hear([0, 0, 0], write), [no, no]);
    assert.equal(decoder.isInService, true);
    assert.deepEqual(hear(write), [{ acknowledged: true, changed: 1 }]);
    assert.deepEqual([number(), decoder.cvs[0], decoder.cvs.length], ['5', 10, 1024]);
    decoder.endService();
    assert.deepEqual([number(), decoder.isInService], ['10', false]);
    decoder.hear([0, 0, 0]);
    decoder.setMainOnly(true);
    assert.equal(decoder.isInService, false);
    assert.deepEqual(hear([0, 0, 0], write, write), [no, no, no]);
    decoder.setMainOnly(false);
    assert.deepEqual(hear([0, 0, 0], write, write), [no, no, { acknowledged: true, changed: null }]);
    refused('L1', () => decoder.hear([1, 1]));
    refused('L2', () => decoder.hear([1, 2, 4]));
    assert.throws(() => decoder.setMainOnly(1), TypeError);
    assert.equal(decoder.isInService, true);
  }
  const [loco, speed] = [new dcc.TrackLoco({ 1: 3, 29: 2 }), { step: 1, steps: 28 }];
  assert.deepEqual([loco.hear(SPEED).changed, loco.speed, loco.isForward], [null, speed, true]);
  const change = dcc.frame('loco s3 cv write 3 7');
  assert.deepEqual([loco.hear(change), loco.pending], [{ acknowledged: false, changed: null }, change]);
  assert.equal(loco.hear(change).changed, 3);
});

test('a CV is written by two questions', () => {
  for (const [cv, value, wanted] of [[1, 10, true], [1024, 255, true], [8, 9, false]]) {
    const [service, writer] = [new dcc.Service({ 8: 13 }), new dcc.Writer(cv, value)];
    const ask = () => dcc.questionFrames(writer.question()).map((it) => service.apply(it)).some(Boolean);
    assert.deepEqual(dcc.readService(writer.question()), { kind: 'write', cv, value });
    assert.equal(writer.answer(ask()), null);
    assert.deepEqual(dcc.readService(writer.question()), { kind: 'verify', cv, value });
    assert.equal(writer.answer(ask()), wanted);
    assert.equal(service.cvs[cv - 1], wanted ? value : 13);
  }
  const writer = new dcc.Writer(1, 10);
  assert.deepEqual([writer.answer(false), writer.answer(false), writer.answer(true)], [null, false, true]);
  refused('P6', () => new dcc.Writer(0, 1));
  refused('P6', () => new dcc.Writer(1025, 1));
  for (const call of [() => new dcc.Writer(1, '1'), () => writer.answer(1)]) assert.throws(call, TypeError);
  assert.throws(() => new dcc.Writer(1, 256), RangeError);
});

test('one function is turned', () => {
  const [loco, functions] = [new dcc.Loco({ 1: 3, 29: 2 }), new dcc.Functions()];
  assert.deepEqual(functions.on, []);
  for (const [number, on, text] of [
    [0, true, '0 16'], [4, true, '0 24'], [0, false, '0 8'], [5, true, '5 1'], [12, true, '9 8'], [13, true, '13 1'],
    [20, true, '13 129'], [28, true, '21 128'], [36, true, '29 128'], [61, true, '61 1'], [68, true, '61 129'],
  ]) {
    const frame = functions.turn('s3', number, on);
    assert.equal(dcc.line(frame), `loco s3 functions ${text}`);
    assert.equal(functions.isOn(number), on);
    loco.apply(frame);
    assert.deepEqual(loco.functions, functions.on);
  }
  assert.equal(dcc.line(functions.turn('all', 1, true)), 'loco all functions 0 9');
  assert.equal(dcc.line(functions.turn('l1000', 1, false)), 'loco l1000 functions 0 8');
  const before = functions.on;
  for (const [code, address, number] of [['P13', 's3', 69], ['P1', 's0', 1], ['P2', 'l10240', 1], ['P10', 'x', 1]]) {
    refused(code, () => functions.turn(address, number, true));
  }
  assert.deepEqual([functions.on, functions.isOn(69), functions.isOn(255)], [before, false, false]);
  for (const call of [() => functions.turn('s3', 1, 1), () => functions.turn(3, 1, true), () => functions.isOn('1')]) {
    assert.throws(call, TypeError);
  }
  assert.throws(() => functions.isOn(256), RangeError);
});

test('a station stops and forgets', () => {
  const station = new dcc.Station({ queue: 8, slots: 8, repeats: 2 });
  const lines = (count) => Array.from({ length: count }, () => dcc.line(station.next()));
  for (const it of ['loco s3 speed28 f 20', 'loco s3 functions 0 16', 'loco l3 speed28 f 4']) {
    station.command(dcc.frame(it));
  }
  assert.deepEqual([station.stop(), station.waiting], [2, 1]);
  assert.deepEqual(lines(4), [...Array(2).fill('loco all speed28 f 3'), ...Array(2).fill('loco s3 functions 0 16')]);
  station.command(dcc.frame('loco l3 functions 0 1'));
  lines(2);
  assert.deepEqual([station.waiting, station.entries, station.stop()], [0, 2, 0]);
  lines(2);
  for (const [code, address] of [['P1', 's0'], ['P2', 'l10240'], ['P10', '3'], ['P11', 's99999']]) {
    refused(code, () => station.forget(address));
  }
  assert.throws(() => station.forget(3), TypeError);
  for (const it of ['all', 's4']) station.forget(it);
  assert.equal(station.entries, 2);
  station.forget('s3');
  assert.deepEqual([station.entries, lines(1)], [1, ['loco l3 functions 0 1']]);
  station.forget('l3');
  assert.deepEqual([station.entries, lines(1)], [0, ['idle']]);
});

test('errors have their codes', () => {
  for (const [code, call] of [
    ['P1', () => dcc.frame('loco s128 reset')], ['P10', () => dcc.frame('')], ['P10', () => dcc.frame('idle\0')],
    ['P10', () => dcc.frame('idl\u00e9')], ['P11', () => dcc.frame('loco s3 speed28 f 4\n')],
      ['P14', () => dcc.frame('loco s3 state 128 on')],
    ['P10', () => dcc.frame(`idle${' '.repeat(600)}x`)], ['P1', () => dcc.frame(`loco s0 reset${' '.repeat(500000)}`)],
      ['P3', () => new dcc.Board(511)], ['P3', () => new dcc.Board(65535)],
    ['L1', () => dcc.line([1, 1])], ['L2', () => dcc.line([1, 2, 4])], ['L1', () => dcc.line(new Uint8Array(7))],
    ['L1', () => dcc.line(new Uint8Array(100000))], ['L1', () => dcc.read([1, 1])], ['L2', () => dcc.read([1, 2, 4])],
    ['L2', () => new dcc.Loco({}).apply([1, 2, 4])], ['L1', () => new dcc.Loco({}).hears([])],
      ['L1', () => new dcc.Board(1).apply([])],
    ['L2', () => new dcc.Board(1).hears([1, 2, 4])], ['C3', () => new dcc.Station().command(IDLE)],
      ['L1', () => new dcc.Station().command([1, 1])],
    ['L2', () => new dcc.Service({}).apply([1, 2, 4])], ['P6', () => new dcc.Reader(0)],
      ['P6', () => new dcc.Reader(1025)],
    ['L1', () => dcc.halves([1, 1])], ['L2', () => dcc.halves([1, 2, 4])], ['H6', () => dcc.halves(IDLE, { one: 54 })],
    ['H7', () => dcc.halves(IDLE, { zeroFirst: 94 })], ['H7', () => dcc.halves(IDLE, { zeroSecond: 94 })],
      ['H8', () => dcc.halves(IDLE, { preamble: 13 })],
    ['C1', () => new dcc.Station({ queue: 0 })], ['C1', () => new dcc.Station({ slots: 129 })],
      ['C1', () => new dcc.Station({ repeats: 9 })],
  ]) refused(code, call);
  assert.throws(() => dcc.line([1, 2, 4]), { name: 'Refused' });
  new dcc.Station({ queue: 64, slots: 128, repeats: 8 });
});

test('arguments are checked', () => {
  const calls = [
    () => new dcc.Framer().push('58'), () => new dcc.Framer().push(58.5), () => new dcc.Framer().push(NaN),
      () => new dcc.Framer().push(58, '1'),
    () => dcc.line('036261'), () => dcc.line([3.5, 1, 2]), () => dcc.line(null), () => dcc.line(new Set(SPEED)),
      () => dcc.frame(3), () => dcc.frame(null),
    () => dcc.halves(IDLE, { one: '58' }), () => new dcc.Loco(null), () => new dcc.Loco(3),
      () => new dcc.Loco({ a: 2 }),
    () => new dcc.Loco({ 1: null }), () => new dcc.Board('1'), () => new dcc.Station({ queue: '1' }),
      () => dcc.durations(58),
    () => dcc.seen(['58']), () => new dcc.Reader('8'), () => new dcc.Reader(8).answer(1), () => new dcc.Service('x'),
  ];
  for (const call of calls) assert.throws(call, TypeError, String(call));
  const ranges = [
    () => new dcc.Framer().push(-1), () => new dcc.Framer().push(58, 0), () => new dcc.Framer().push(58, 2 ** 32),
      () => dcc.line([256, 0, 0]),
    () => new dcc.Loco({ 0: 1 }), () => new dcc.Loco({ 1025: 1 }), () => new dcc.Loco({ 1: 256 }),
      () => new dcc.Loco([1, 2]),
    () => new dcc.Board(-1), () => new dcc.Board(65536), () => new dcc.Station({ queue: 256 }),
      () => dcc.halves(IDLE, { one: 65536 }),
    () => dcc.halves(IDLE, { preamble: 256 }), () => dcc.seen([-1]), () => new dcc.Reader(65536),
  ];
  for (const call of ranges) assert.throws(call, RangeError, String(call));
  const framer = new dcc.Framer();
  framer.pushMany([...Array(40).fill(58), 100]);
  assert.throws(() => framer.pushMany([70, -1]), RangeError);
  assert.equal(String(framer.pushMany([70])[0]), '42 refused H1');
});

test('objects do not share their state', () => {
  const [a, b] = [new dcc.Loco({ 1: 3, 29: 2 }), new dcc.Loco({ 1: 4, 29: 2 })];
  a.apply(SPEED);
  assert.deepEqual([a.speed, b.speed, a.address, b.address], [{ step: 1, steps: 28 }, 'stop', 's3', 's4']);
  const cvs = a.cvs;
  cvs[0] = 99;
  assert.equal(a.cvs[0], 3);
  const first = dcc.frame('idle');
  dcc.frame('loco s3 reset');
  assert.deepEqual(first, IDLE);
});

test('a page of a server loads the module', () => {
  const script = `
    import { readFileSync } from 'node:fs';
    import { createServer } from 'node:http';
    import vm from 'node:vm';
    const folder = process.env.DCC_FOLDER;
    const server = createServer(({ url }, answer) => answer.end(readFileSync(folder + url)));
    server.listen(0, '127.0.0.1', async () => {
      const url = 'http://127.0.0.1:' + server.address().port + '/dcc.mjs';
      const module = new vm.SourceTextModule(readFileSync(folder + '/dcc.mjs', 'utf8'), {
        identifier: url,
        initializeImportMeta: (meta) => Object.assign(meta, { url }),
        importModuleDynamically: (name) => { throw new Error('a browser has no ' + name); },
      });
      await module.link((name) => { throw new Error('a browser has no ' + name); });
      await module.evaluate();
      console.log(module.namespace.line(Uint8Array.of(3, 0x62, 0x61)));
      server.close();
    });`;
  const env = { ...process.env, DCC_FOLDER: fileURLToPath(new URL('../', import.meta.url)) };
  const words = ['--no-warnings', '--experimental-vm-modules', '--input-type=module', '-e', script];
  const { stdout, stderr } = spawnSync(process.execPath, words, { env });
  assert.deepEqual([stdout.toString(), stderr.toString()], ['loco s3 speed28 f 4\n', '']);
});

/** What the script that makes dcc.wasm writes and ends with. */
const make = (words, more = {}) => {
  const env = { ...process.env, ...more };
  const ran = spawnSync(fileURLToPath(new URL('../make', import.meta.url)), words, { env });
  return { error: ran.stderr.toString(), status: ran.status };
};
const lacking = [process.env.CLANG ?? 'clang', 'wasm-ld'].find((it) => spawnSync(it, ['--version']).status !== 0);
const skip = lacking && `there is no ${lacking}`;
const oneFile = [`${top}c/dcc.c`, `${top}crates/dcc_c/out/c/dcc.c`].find((it) => existsSync(it));

test('make compiles the one C file', { skip }, async () => {
  const room = mkdtempSync(join(tmpdir(), 'dcc-'));
  assert.deepEqual(make([oneFile, room]), { error: '', status: 0 });
  const compiled = new WebAssembly.Module(readFileSync(join(room, 'dcc.wasm')));
  const functions = [...new Set(readFileSync(`${top}include/dcc.h`, 'utf8').match(/\bdcc_[a-z_]+(?=\()/g))];
  assert.ok(functions.length >= 63);
  const names = WebAssembly.Module.exports(compiled).map(({ name }) => name);
  assert.deepEqual(names.sort(), ['__heap_base', 'memory', ...functions].sort());
  assert.deepEqual(WebAssembly.Module.imports(compiled), []);
  copyFileSync(new URL('../dcc.mjs', import.meta.url), join(room, 'dcc.mjs'));
  const other = await import(pathToFileURL(join(room, 'dcc.mjs')));
  const [loco, same] = [dcc, other].map((it) => new it.Loco({ 1: 3, 29: 2 }));
  for (const row of rows) {
    assert.deepEqual(other.frame(row), dcc.frame(row), row);
    loco.apply(dcc.frame(row));
    same.apply(dcc.frame(row));
    assert.equal(String(same), String(loco), row);
  }
  rmSync(room, { recursive: true });
});

test('make says what it lacks', { skip }, () => {
  const room = mkdtempSync(join(tmpdir(), 'dcc-'));
  const wrong = join(room, 'wrong.c');
  writeFileSync(wrong, '#error wrong\n');
  for (const [file, more, word] of [
    [join(room, 'nothing.c'), {}, 'there is no '], [wrong, {}, 'It needs wasm-ld too'],
    [oneFile, { CLANG: join(room, 'no-clang') }, 'clang makes no module of '],
  ]) {
    const { error, status } = make([file, room], more);
    assert.deepEqual([error.includes(word), status], [true, 1], error);
  }
  assert.ok(!existsSync(join(room, 'dcc.wasm')));
  rmSync(room, { recursive: true });
});

test('make takes the module of the place', { skip }, () => {
  const room = mkdtempSync(join(tmpdir(), 'dcc-'));
  const [folder, out] = [join(room, 'bindings', 'js'), join(room, 'crates', 'dcc_c', 'out', 'wasm32')];
  for (const it of [folder, join(room, 'c'), join(room, 'include')]) mkdirSync(it, { recursive: true });
  const module = join(folder, 'dcc.wasm');
  for (const [from, to] of [
    [fileURLToPath(new URL('../make', import.meta.url)), join(folder, 'make')],
    [oneFile, join(room, 'c', 'dcc.c')],
    [`${top}include/dcc.h`, join(room, 'include', 'dcc.h')],
  ]) copyFileSync(from, to);
  const isMade = () => {
    assert.equal(spawnSync(join(folder, 'make')).status, 0);
    return WebAssembly.validate(readFileSync(module));
  };
  // a release has the module, and no crates
  writeFileSync(module, 'of a release');
  assert.equal(isMade(), false);
  assert.equal(readFileSync(module, 'utf8'), 'of a release');
  mkdirSync(out, { recursive: true });
  assert.equal(isMade(), true);
  writeFileSync(join(out, 'dcc.wasm'), 'of the toolchain');
  assert.equal(isMade(), false);
  assert.equal(readFileSync(module, 'utf8'), 'of the toolchain');
  rmSync(room, { recursive: true });
});

test('the package has its files', () => {
  const folder = new URL('../', import.meta.url);
  const { files, types, exports } = JSON.parse(readFileSync(new URL('package.json', folder), 'utf8'));
  const wanted = ['LICENSE-APACHE', 'LICENSE-MIT', 'README.md', 'dcc.d.mts', 'dcc.mjs', 'dcc.wasm'];
  assert.deepEqual([...files].sort(), wanted);
  for (const it of wanted) assert.ok(existsSync(new URL(it, folder)), it);
  const named = [types, ...Object.values(exports['.']), exports['./dcc.wasm']].map((it) => it.slice(2));
  assert.deepEqual([...new Set(named)].sort(), ['dcc.d.mts', 'dcc.mjs', 'dcc.wasm']);
});

test('the types name what the module has', () => {
  const types = readFileSync(new URL('../dcc.d.mts', import.meta.url), 'utf8').replace(/\/\*\*[^]*?\*\//g, '');
  const named = [...types.matchAll(/^export (?:function|class) (\w+)/gm)].map(([, name]) => name);
  assert.deepEqual(named.sort(), Object.keys(dcc).sort());
  const objects = {
    Seen: new dcc.Seen(84, null, SPEED),
    Lost: new dcc.Lost(72, SPEED, null, null, null),
    Refused: new dcc.Refused('L1'),
  };
  const classes = [...types.matchAll(/^export class (\w+)[^{]*\{([^]*?)^\}/gm)];
  assert.equal(classes.length, 15);
  const namesOf = (it) =>
    (it === Object.prototype ? [] : [...Object.getOwnPropertyNames(it), ...namesOf(Object.getPrototypeOf(it))]);
  for (const [, name, body] of classes) {
    const typed = [...body.matchAll(/^  (?:readonly )?(\w+)[(:]/gm)].map(([, it]) => it);
    const own = objects[name] ? Object.keys(objects[name]).filter((it) => it !== 'name') : [];
    const inherited = name === 'Refused' ? [] : namesOf(dcc[name].prototype);
    const members = [...new Set([...inherited, ...own])];
    const constructed = (it) => it !== 'constructor';
    assert.deepEqual(typed.filter(constructed).sort(), members.filter(constructed).sort(), name);
  }
  const options = (text) => text.split(/[,;]\s*/).map((it) => it.trim().split(/[?: ]/)[0]).filter(Boolean);
  const taken = (call) => options(/\{([^{}]*)\} = \{\}/.exec(String(call))[1]);
  assert.deepEqual(options(/interface Timing \{([^}]*)/.exec(types)[1]), taken(dcc.halves));
  assert.deepEqual(options(/sizes\?: \{([^}]*)/.exec(types)[1]), taken(dcc.Station));
  const kindsOf = (text) => [...text.matchAll(/'([^']*)'/g)].map(([, it]) => it);
  const fieldsOf = (type) => {
    const text = types.slice(types.indexOf(`export type ${type} =`)).split('\nexport function')[0];
    const packets = [...text.matchAll(/^  \| \{ kind: ([^;}]*)(.*)\}/gm)];
    return new Map(packets.flatMap(([, kinds, rest]) => kindsOf(kinds).map((it) => [it, options(rest)])));
  };
  const [fields, ofService] = [fieldsOf('Packet'), fieldsOf('ServicePacket')];
  assert.deepEqual([fields.size, ofService.size], [13, 4]);
  for (const [first, second] of [[0x7c, 10], [0x74, 10], [0x78, 0xf9], [0x78, 0xe9]]) {
    const { kind, ...packet } = dcc.readService([first, 0, second, first ^ second]);
    assert.deepEqual(Object.keys(packet), ofService.get(kind), kind);
  }
  for (const row of rows) {
    const { kind, ...packet } = dcc.read(dcc.frame(row));
    assert.deepEqual(Object.keys(packet).sort(), fields.get(kind).sort(), row);
  }
});

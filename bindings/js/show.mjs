#!/usr/bin/env node
// SPDX-License-Identifier: MIT OR Apache-2.0
// Lists the packets and refusals of a capture on standard input, as `dcc show --words` does.
import { readFileSync } from 'node:fs';
import { Refused, durations, seen } from './dcc.mjs';

try {
  const lines = seen(durations(readFileSync(0))).map((it) => `${it}\n`);
  process.stdout.write(lines.join(''));
} catch (error) {
  if (!(error instanceof Refused)) throw error;
  process.stderr.write(`show.mjs: ${error.code}\n`);
  process.exitCode = 3;
}

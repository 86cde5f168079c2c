#!/usr/bin/env python3
"""Compares `dcc lost --spikes` with the definition on random half-bits: compare.py DCC TOP COUNT

The half-bits are packets with faults, in which spikes are put at random places and runs of spikes are frequent. The
script also compares the joined half-bits with those of tools/without-spikes.awk."""
import os
import random
import subprocess
import sys
from concurrent.futures import ProcessPoolExecutor

sys.dont_write_bytecode = True
import definition

dcc, top, count = sys.argv[1], sys.argv[2], int(sys.argv[3])


def output(words, text):
    return subprocess.run(words, input=text, capture_output=True, text=True, check=True).stdout


def capture(chance):
    """Returns the words of a random capture."""
    words = []
    for _ in range(chance.randrange(1, 4)):
        ones = chance.randrange(6, 26)
        body = [100, 100]
        data = [chance.randrange(256) for _ in range(2)]
        for byte in [*data, data[0] ^ data[1] ^ (chance.random() < .1)]:
            if len(body) > 2:
                body += [100, 100]
            for place in range(7, -1, -1):
                body += [58, 58] if byte >> place & 1 else [100, 100]
        halves = [58] * ones + body + [58, 58]
        for us in halves:
            fault = chance.random()
            if fault < .004:
                words.append(str(chance.choice([1, 5, 20, 24, 66, 70, 85, 120, 30000])))
            elif fault < .012:
                n = chance.choice([1, 1, 1, 2, 3, 4, 300])
                words.append(f'{chance.randrange(0, 6)}*{n}')
                continue
            elif fault < .02:
                first, spike = chance.randrange(1, us - 5), chance.randrange(1, 5)
                words += [str(first), str(spike), str(us - spike - first)]
                continue
            words.append(str(us))
    return words


def compared(seed):
    """Compares a random capture. Returns the difference or nothing, the number of packets, and of those with spikes."""
    chance = random.Random(seed)
    words = capture(chance)
    text = ' '.join(words) + '\n'
    limit = chance.choice([1, 2, 5, 5, 5, 21, 25])
    wanted = ''.join(f'{line}\n' for line in definition.lines_of(limit, text))
    told = output([dcc, 'lost', '--spikes', str(limit)], text)
    if wanted != told:
        return f'seed {seed}, limit {limit}: {text}the definition has\n{wanted}and dcc writes\n{told}', 0, 0
    joined = output(['awk', '-v', f'least={limit}', '-f', f'{top}/tools/without-spikes.awk'], text)
    if definition.durations_of(joined) != definition.joined_durations(limit, text):
        return f'seed {seed}, limit {limit}: {text}without-spikes.awk joins in another way', 0, 0
    return None, wanted.count('\n'), wanted.count('spikes')


if __name__ == '__main__':
    with ProcessPoolExecutor(len(os.sched_getaffinity(0))) as pool:
        differences, lines, spiked = zip(*pool.map(compared, range(count), chunksize=10))
    for it in filter(None, differences):
        sys.exit(it)
    print(f'{count} captures: {sum(lines)} packets found, {sum(spiked)} of them with spikes')

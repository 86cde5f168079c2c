#!/usr/bin/env python3
"""Makes random recordings with faults, and compares the packets that `dcc` names with those that were sent.

  faults.py DCC RECORDINGS   runs `dcc show` and `dcc lost --spikes 5` on recordings of 1 to 6 packets
  faults.py --make SEED      writes the recording with this seed, and its packets as comments

A packet of a recording has one of three faults, or none:
  a preamble of 4 to 9 ones, where a decoder needs 10;
  half-bits of ones of 66 to 70 microseconds, in the preamble and the body;
  a spike of 1 to 4 microseconds, which splits a half-bit of the preamble, the start bit or the body."""
import random
import subprocess
import sys

FAULTS = ['none', 'preamble', 'ones', 'spike']


def frame_of(chance):
    """Returns a random frame of 3 to 6 bytes."""
    data = [chance.randrange(256) for _ in range(chance.randrange(2, 6))]
    check = 0
    for byte in data:
        check ^= byte
    return data + [check]


def bits_of(frame):
    bits = []
    for byte in frame:
        bits += [0] + [byte >> place & 1 for place in range(7, -1, -1)]
    return bits + [1]


def packet_halves(chance, frame, fault):
    """Returns the half-bits of a packet."""
    ones = chance.randrange(4, 10) if fault == 'preamble' else chance.randrange(14, 20)
    longer = chance.randrange(8, 13) if fault == 'ones' else 0
    halves = []
    for bit in [1] * ones + bits_of(frame):
        for _ in range(2):
            halves.append((58 + longer if bit else 100) + (0 if longer else chance.randrange(-1, 2)))
    if fault == 'spike':
        place = chance.choice([chance.randrange(2 * ones), 2 * ones + chance.randrange(2),
                               chance.randrange(2 * ones + 2, len(halves))])
        spike = chance.randrange(1, 5)
        first = chance.randrange(1, halves[place] - spike)
        halves[place:place + 1] = [first, spike, halves[place] - spike - first]
    return halves


def recording(seed):
    """Returns the half-bits of a recording, and its packets: the frame, the fault, and its last half-bit."""
    chance = random.Random(seed)
    halves, packets = [], []
    for _ in range(chance.randrange(1, 7)):
        frame = frame_of(chance)
        fault = chance.choice(FAULTS)
        halves += packet_halves(chance, frame, fault)
        packets.append((bytes(frame).hex(), fault, len(halves)))
    # the last half-bit of a capture is followed by the next preamble
    return halves + [58] * 4, packets


def named(dcc, call, text):
    """Returns the lines of a call, each as a place, a packet and the causes."""
    done = subprocess.run([dcc, *call], input=text, capture_output=True, text=True, check=True)
    rows = []
    for line in done.stdout.splitlines():
        words = line.split(' ', 3)
        if call[0] == 'lost':
            rows.append((int(words[0]), words[2].rstrip(':'), words[3]))
        elif words[1] != 'refused':
            rows.append((int(words[0]), words[1], 'seen'))
    return rows


def main():
    if sys.argv[1] == '--make':
        halves, packets = recording(int(sys.argv[2]))
        print(*halves)
        for packet in packets:
            print('#', *packet)
        return 0
    dcc, recordings = sys.argv[1], int(sys.argv[2])
    sent = seen = lost = other = missing = unspiked = 0
    for seed in range(recordings):
        halves, packets = recording(seed)
        text = ' '.join(map(str, halves)) + '\n'
        shown = named(dcc, ['show'], text)
        found = named(dcc, ['lost', '--spikes', '5'], text)
        rows = sorted(shown + found)
        wanted = [frame for frame, _, _ in packets]
        names = [name for _, name, _ in rows]
        # the sent packets are, in order, among the named ones
        at = 0
        for name in names:
            if at < len(wanted) and name == wanted[at]:
                at += 1
        if at < len(wanted):
            missing += 1
            print(f'recording {seed}: {wanted[at]} is not named')
        sent += len(wanted)
        seen += len(shown)
        lost += len(found)
        other += len(names) - len(wanted)
        # a packet that `lost` finds without joining has no spike in its causes
        unspiked += sum(1 for _, _, causes in found if 'spikes' not in causes)
    print(f'{recordings} recordings: {sent} packets sent, {seen} seen, {lost} found by lost, {unspiked} of them'
          f' without a spike, {other} other packets named, {missing} recordings with a packet that is not named')
    return 1 if missing else 0


sys.exit(main())

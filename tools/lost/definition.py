#!/usr/bin/env python3
"""Lists the packets of `dcc lost --spikes US`, computed from the definition: definition.py US < CAPTURE

With the word `join` after US, the script prints the capture with its joined half-bits instead.
Each step reads the whole list, so the script is slow. It does not share code with dcc."""
import sys


def half_class(us):
    return 'one' if 52 <= us <= 64 else 'zero' if 90 <= us <= 10000 else 'bad'


def nearest_class(us):
    return 'one' if 26 <= us <= 76 else 'zero' if 77 <= us <= 20000 else 'bad'


def outcome_of(halves):
    """Returns the number of half-bits of the outcome of a body, its kind and its bytes, or None."""
    bits = []
    while 2 * len(bits) + 1 < len(halves) and halves[2 * len(bits)] == halves[2 * len(bits) + 1] != 'bad':
        bits.append(1 if halves[2 * len(bits)] == 'one' else 0)
    data, at = [], 0
    while at < len(bits):
        if bits[at] == 1:
            kind = 'short' if len(data) < 3 else 'packet' if xor_of(data) == 0 else 'error byte'
            return at * 2 + 2, kind, data
        if len(data) == 6:
            return at * 2 + 2, 'long', data
        if len(bits) < at + 9:
            break
        data.append(int(''.join(map(str, bits[at + 1:at + 9])), 2))
        at += 9
    left = halves[2 * len(bits):]
    if left and left[0] == 'bad':
        return 2 * len(bits) + 1, 'bad', []
    if len(left) > 1:
        return 2 * len(bits) + 2, 'bad' if left[1] == 'bad' else 'split', []
    return None


def xor_of(data):
    value = 0
    for byte in data:
        value ^= byte
    return value


def ones_at_end(classes):
    count = 0
    while count < len(classes) and classes[len(classes) - 1 - count] == 'one':
        count += 1
    return count


def heard(durations):
    """Returns the outcomes (place, kind, bytes), the unused half-bits at the end, and if a body is unfinished."""
    classes = [half_class(us) for us in durations]
    outcomes, used = [], 0
    for place in range(len(classes)):
        if place < used or classes[place] != 'zero' or ones_at_end(classes[used:place]) < 20:
            continue
        outcome = outcome_of(classes[place:])
        if outcome is None:
            return outcomes, 0, True
        count, kind, data = outcome
        outcomes.append((place + count - 1, kind, data))
        used = place + count - (2 if kind in ('packet', 'short', 'error byte') else 0)
    return outcomes, min(20, len(classes) - used), False


def joined(limit, durations):
    """Returns the joined half-bits, each as the list of its half-bits."""
    groups, takes_next = [], False
    for us in durations:
        if groups and (us < limit or takes_next):
            groups[-1].append(us)
            takes_next = us < limit and not takes_next
        else:
            groups.append([us])
            takes_next = False
    return groups


def longest_frame(classes):
    """Returns the longest frame whose body, after at least 8 ones, is the end of a list of classes."""
    for n in (6, 5, 4, 3):
        end = classes[-(18 * n + 10):]
        if len(end) < 18 * n + 10 or any(half != 'one' for half in end[:8]) or end[8] != 'zero':
            continue
        outcome = outcome_of(end[8:])
        if outcome and outcome[1] == 'packet' and len(outcome[2]) == n:
            return outcome[2]
    return None


def off_limits(durations, name, ranges):
    off = [us for us in durations if any(least <= us <= most for least, most in ranges)]
    return [f'{name} {len(off)} from {min(off)} to {max(off)}'] if off else []


def found(limit, durations):
    """Returns the line of the packet that is found at the end of a list, or None."""
    outcomes, _, is_unfinished = heard(durations)
    if is_unfinished or (outcomes and outcomes[-1][0] == len(durations) - 1):
        return None
    groups = joined(limit, durations)
    lengths = [min(65535, sum(group)) for group in groups]
    frame = longest_frame([nearest_class(us) for us in lengths])
    if frame is None:
        return None
    body = 18 * len(frame) + 2
    before = [us for group in groups[:-body] for us in group]
    if any(kind == 'packet' and place >= len(before) for place, kind, _ in outcomes):
        return None
    ones = ones_at_end([nearest_class(us) for us in lengths[:-body][-20:]])
    unused = heard(before)[1]
    causes = []
    if min(ones, unused) < 20:
        causes.append(f'preamble {min(ones, unused)}')
        if unused < ones and outcomes and outcomes[-1][1] != 'packet' and len(durations) - 1 - outcomes[-1][0] < 255:
            causes[0] += f' after {outcomes[-1][0] + 1}'
    counted = lengths[-(body + ones):]
    causes += off_limits(counted, 'ones', [(26, 51), (65, 76)])
    causes += off_limits(counted, 'zeros', [(77, 89), (10001, 20000)])
    spikes = sum(min(65535, sum(us < limit for us in group)) for group in groups[-(body + ones):])
    if spikes:
        causes.append(f'spikes {spikes}')
    return f'{len(durations)} lost {bytes(frame).hex()}: ' + ', '.join(causes)


def durations_of(capture):
    """Returns the half-bits of a capture."""
    durations = []
    for word in capture.split():
        us, _, n = word.partition('*')
        durations += [min(65535, int(us))] * int(n or 1)
    return durations


def joined_durations(limit, capture):
    """Returns the joined half-bits of a capture."""
    return [min(65535, sum(group)) for group in joined(limit, durations_of(capture))]


def lines_of(limit, capture):
    """Returns the lines of all packets that are found in a capture."""
    durations, end, lines = durations_of(capture), 0, []
    for group in joined(limit, durations):
        end += len(group)
        line = found(limit, durations[:end])
        if line:
            lines.append(line)
    return lines


def main():
    limit, capture = int(sys.argv[1]), sys.stdin.read()
    if 'join' in sys.argv[2:]:
        print(*joined_durations(limit, capture))
        return
    for line in lines_of(limit, capture):
        print(line)


if __name__ == '__main__':
    main()

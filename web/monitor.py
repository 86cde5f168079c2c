"""Tests of the page as a track monitor, compared with the program: times, the filter, the states of decoders, two
captures, timings; and how the page looks and is used at two widths and in two colour schemes.
"""
import itertools
import json
import os
import pathlib
import random
import re
import subprocess
import tempfile
import time
import zipfile

from harness import TOP, Browser, body, check, same, show, some_noise

MAIN_TRACK = TOP / "examples" / "main_track.txt"
WHO = ["s3", "s4", "l1000", "none", "b12"]
LARGEST = 16777216


def random_lines(count):
    ran = subprocess.run(
        ["awk", "-f", TOP / "tools" / "random-packets.awk"], capture_output=True, check=True, text=True
    )
    return ran.stdout.splitlines()[:count]


def encoded(program, lines):
    return subprocess.run(
        [program, "encode"], input="\n".join(lines).encode(), capture_output=True, check=True
    ).stdout.decode()


def rows_shown(browser):
    """All rows of the list, on whichever page, as their words and how many they stand for."""
    return browser.js("page.table.rows.map(({ first, times }) => [told(page.dcc, page.capture.items[first]), times])")


def times(browser):
    for text in (MAIN_TRACK.read_text(), some_noise(300)):
        browser.paste(text)
        halves = [min(int(it), 65535) for it in browser.halves().split()]
        ends = list(itertools.accumulate(halves))
        wanted = browser.js("page.outcomes.map((it) => it.at)")
        same(
            "the time of an outcome is the sum of the half-bits",
            browser.js("page.outcomes.map((it) => it.time)"),
            [ends[at - 1] for at in wanted],
        )
    browser.paste(MAIN_TRACK.read_text())
    same(
        "times stand beside the numbers",
        browser.js("[...document.querySelectorAll('#rows .number')].map((it) => it.innerText.split('\\n'))"),
        [["84", "5.791 ms"], ["168", "14.494 ms"], ["252", "21.043 ms"], ["336", "27.515 ms"]],
    )


def hears(who, words):
    """Whether a packet line is for a decoder, told from the line."""
    kind, *more = words.split()
    if kind == "loco":
        return more[0] in ("all", who) and who[0] != "b" or more == ["all", "reset"]
    number = int(who[1:]) if who[0] == "b" else None
    if kind == "accessory":
        return number is not None and int(more[0]) in (number, 511)
    if kind == "signal":
        return number is not None and (int(more[0]) == 2047 or int(more[0]) < 2044 and int(more[0]) // 4 == number)
    if kind == "frame" and number is None:
        first, second = bytes.fromhex(more[0])[:2]
        return first == 0 or who == f"s{first}" or 192 <= first <= 231 and who == f"l{(first - 192) * 256 + second}"
    return False


def kind_of(words):
    first, *more = words.split()
    if first == "loco":
        return {"reset": "reset", "functions": "functions", "state": "states", "cv": "cvs"}.get(more[1], "speed")
    return {"accessory": "accessories", "signal": "signals", "frame": "others"}.get(first, first)


def listed(program, capture):
    """The outcomes and the lost packets in the order of their ends, as the program writes them, without places."""
    words = [program, "lost", "--words"]
    lost = subprocess.run(words, input=capture, capture_output=True, text=True, check=True).stdout
    lines = [it.split(" ", 1) for it in [*show(program, capture)[0].splitlines(), *lost.splitlines()]]
    return [it for _, it in sorted(lines, key=lambda line: int(line[0]))]


def packet_in(line):
    """The packet line of a packet that was heard or lost."""
    return line.removeprefix("lost ").split(":")[0]


def filters(browser, program):
    capture = encoded(program, random_lines(3000)) + some_noise(200)
    browser.paste(capture)
    lines = listed(program, capture)
    lost = [it for it in lines if it.startswith("lost")]
    packets = [it for it in lines if not it.startswith(("refused", "lost"))]
    sent = [it for it in lines if not it.startswith("refused")]
    check("the track has packets of all kinds", len({kind_of(it) for it in packets}) == 9)
    for kind in ("idle", "reset", "speed", "functions", "states", "cvs", "accessories", "signals", "others"):
        browser.pick("kind", kind)
        same(f"the kind {kind}", rows_shown(browser), [[it, 1] for it in sent if kind_of(packet_in(it)) == kind])
    browser.pick("kind", "refusals")
    same("refusals alone", rows_shown(browser), [[it, 1] for it in lines if it.startswith("refused")])
    browser.pick("kind", "busy")
    same("all but idle", rows_shown(browser), [[it, 1] for it in lines if packet_in(it) != "idle"])
    browser.pick("kind", "lost")
    same("lost packets alone", rows_shown(browser), [[it, 1] for it in lost])
    check("some packets are lost", len(lost) > 2)
    browser.pick("kind", "packets")
    for who in WHO[::2]:
        browser.pick("who", who)
        wanted = [it for it in packets if hears(who, it)]
        same(f"what {who} hears", rows_shown(browser), [[it, 1] for it in wanted])
        check(f"{who} hears something and not all", 0 < len(wanted) < len(packets))
    browser.pick("who", "s3")
    browser.pick("kind", "all")
    wanted = [it for it in lines if it.startswith("refused") or hears("s3", packet_in(it))]
    same("a refusal may have been for anyone", rows_shown(browser), [[it, 1] for it in wanted])
    browser.js("document.getElementById('fold').click()")
    folded = [[it, len(list(them))] for it, them in itertools.groupby(wanted)]
    same("equal ones in a row are folded", rows_shown(browser), folded)
    check("there were some", len(folded) < len(wanted))
    check("the row tells how many there are", re.search(r"\d times, the last at \d+", browser.text("#rows")))
    browser.js("document.getElementById('own').click()")
    same("all again", sum(times for _, times in rows_shown(browser)), len(lines))
    browser.js("document.getElementById('fold').click(); document.getElementById('own').click()")
    for word in ("x", "s128", "b511"):
        browser.pick("who", word)
        check(f"{word} is told to name none", "names no decoder" in browser.text("#who-says"))
        check(f"{word} hides none", len(rows_shown(browser)) == len(lines))
    browser.pick("who", "")
    same("an empty field is no fault", browser.text("#who-says"), "")


def run_text(program, text, halves):
    ran = subprocess.run([program, "run"], input=f"{text}{' '.join(halves)}\n".encode(), capture_output=True)
    return ran.stdout.decode() or ran.stderr.decode()


def states(browser, program):
    capture = encoded(program, random_lines(6000)) + some_noise(100)
    browser.paste(capture)
    halves = capture.split()
    last = browser.js("page.outcomes.length") - 1
    dice = random.Random(1)
    for who in WHO:
        browser.pick("who", who)
        fresh = browser.js(f"decoderText(decoderOf(page.dcc, {json.dumps(who)}))")
        wanted = {"b": f"board {who[1:]}"}.get(who[0], f"loco {who}")
        same(f"a new {who} has its address", fresh.splitlines()[1], wanted)
        # from the end to the front and back, so that kept states are used
        for i in [last, 0, dice.randrange(last), dice.randrange(last), 4096, 4095]:
            at, text = browser.js(f"[page.outcomes[{i}].at, decoderText(page.table.decoder.hearing.after({i} + 1))]")
            same(
                f"what {who} holds after outcome {i} is what dcc run writes",
                text,
                run_text(program, fresh, halves[:at]),
            )
    kept_states(browser, program)
    browser.pick("who", "")
    packets = ["speed128 r 45", "functions 0 17", "state 7 on", "cv write 3 9", "cv write 3 9", "cv write 29 6"]
    browser.paste(encoded(program, [f"loco s3 {it}" for it in packets]))
    check("at first no row is chosen", not browser.sees("#rows .detail"))
    browser.js("page.table.choose(5)")
    check("without a decoder one is told to name one", "Name a decoder" in browser.text("#rows .detail"))
    browser.pick("who", "s3")
    same(
        "what it holds stands below the row in words",
        browser.js("[...document.querySelector('#rows .state').children].map((it) => it.textContent)"),
        [
            "Speed",
            "step 44 of 126",
            "Direction",
            "reverse",
            "Functions that are on",
            "F0 F1",
            "Binary states that are on",
            "7",
            "CVs that differ from a new decoder",
            "CV3 9, was 0",
            "Pending CV write",
            "loco s3 cv write 29 6",
        ],
    )
    fresh = browser.js("decoderText(decoderOf(page.dcc, 's3'))")
    same("and as decoder text", browser.text("#rows pre"), run_text(program, fresh, browser.halves().split()))
    browser.js("page.table.choose(0)")
    check(
        "before that it held less",
        "step 44 of 126" in browser.text("#rows .state") and "F1" not in browser.text("#rows .state"),
    )
    same(
        "one row is chosen",
        browser.js("[...document.querySelectorAll('#rows [aria-selected=true]')].map((it) => it.dataset.row)"),
        ["0"],
    )
    browser.js("page.table.choose(3)")
    browser.pick("kind", "speed")
    same(
        "of a row that is hidden the last one before it is chosen",
        browser.text("#rows [aria-selected=true] .words"),
        "loco s3 speed128 r 45",
    )
    browser.pick("kind", "all")
    browser.pick("who", "b12")
    same("where nothing is for it nothing is chosen", browser.sees("#rows .detail"), 0)
    browser.pick("who", "")


def kept_states(browser, program):
    """A state is kept each 4,096 outcomes. Here only the packets on either side of these set anything."""
    idle, *set_something = encoded(
        program,
        [
            "idle",
            *(
                f"loco s3 {it}"
                for it in (
                    "speed28 f 9",
                    "functions 0 17",
                    "functions 5 3",
                    "state 7 on",
                    "functions 9 2",
                    "state 8 on",
                )
            ),
        ],
    ).splitlines()
    lines = [idle] * 8300
    for place, line in zip((4094, 4095, 4096, 8191, 8192, 8193), set_something):
        lines[place] = line
    browser.pick("who", "s3")
    browser.paste("\n".join(lines))
    halves = browser.halves().split()
    fresh = browser.js("decoderText(decoderOf(page.dcc, 's3'))")
    for n in (4095, 4096, 4097, 8191, 8192, 8193, 8194, 8300, 4096, 1):
        at, text = browser.js(f"[page.outcomes[{n} - 1].at, decoderText(page.table.decoder.hearing.after({n}))]")
        same(f"what it holds after {n} outcomes", text, run_text(program, fresh, halves[:at]))


def rows_of_same():
    """The rows of examples/rows/same.txt that have a verdict: the decoder, the two captures and the verdict."""
    texts = {}
    halves = lambda found: " ".join(map(str, body(bytes.fromhex(found[1]), 0))) + " "
    plain = {"/": "\n", "^": "\r", "~": "\t", "_": " "}
    for line in re.sub(
        r"(/?)\n +", lambda it: it[1] or " ", (TOP / "examples" / "rows" / "same.txt").read_text()
    ).splitlines():
        named = re.fullmatch(r"\{(\w+)\} = (.*)", line)
        if named:
            texts[named[1]] = named[2]
        columns = [it.strip() for it in line.split("|")]
        if line.startswith("#") or len(columns) != 6 or columns[5] not in "01":
            continue
        text = re.sub(r"\{(\w+)\}", lambda it: texts[it[1]], columns[2])
        text = re.sub(r"(\d+)\(([^()]*)\)", lambda it: int(it[1]) * it[2], text)
        text = re.sub(r"[/^~_]", lambda it: plain[it[0]], text)
        yield columns[1].split()[-1], re.sub(r"<([0-9a-f]+)>", halves, text), columns[3].strip("/")


def verdicts(browser, cases):
    """The page's verdicts on pairs of captures, each for a decoder."""
    return browser.js(
        """(%s).map(([who, first, second]) => {
        const bytes = (text) => new TextEncoder().encode(text);
        const outcomes = (it) => unpackOutcomes(page.dcc, page.dcc.outcomes(readBytes(bytes(it)).halves));
        const sides = [first, second].map(outcomes);
        return differenceOf(new Packets(page.dcc, decoderOf(page.dcc, who)), sides).verdict;
    })"""
        % json.dumps(cases)
    )


def random_pairs(program, count):
    """Pairs of captures of few packets: of a random list, and of the same a little changed."""
    dice = random.Random(20261126)
    few = {
        "s3": [
            "speed28 f 4",
            "speed28 r 28",
            "speed28 f 20",
            "speed128 f 3",
            "functions 0 17",
            "functions 0 1",
            "functions 5 3",
            "state 5 on",
            "state 0 off",
            "reset",
            "cv write 29 6",
            "cv write 29 4",
            "cv bitwrite 29 1 0",
            "cv verify 29 6",
        ],
        "b12": [
            "accessory 12 0 on",
            "accessory 12 1 on",
            "accessory 12 1 off",
            "accessory 511 1 on",
            "accessory 13 1 on",
            "signal 48 3",
            "signal 48 4",
            "signal 2047 4",
            "loco all reset",
        ],
    }
    few["s3"] = [f"loco {to} {it}" for it in few["s3"] for to in ("s3", "all")] + [
        "loco s4 speed28 f 4",
        "idle",
        "frame 03a0a3",
    ]
    few["none"] = few["s3"]
    words = sorted({*few["s3"], *few["b12"]})
    halves = dict(zip(words, encoded(program, words).splitlines()))
    for _ in range(count):
        who = dice.choice(["s3", "s3", "s3", "b12", "none"])
        some = dice.sample(few[who], dice.randrange(2, 6))
        first = [dice.choice(some) for _ in range(dice.randrange(10))]
        second = list(first)
        for _ in range(dice.randrange(4)):
            place = dice.randrange(len(second) + 1)
            change = dice.randrange(4)
            if change == 0:
                second.insert(place, dice.choice(some))
            elif change == 1 and place < len(second):
                second.insert(place, second[place])
            elif change == 2 and place < len(second):
                del second[place]
            elif place + 1 < len(second):
                second[place], second[place + 1] = second[place + 1], second[place]
        yield who, *("\n".join(halves[it] for it in them) for them in (first, second))


def same_says(program, who, first, second):
    ran = subprocess.run([program, "same", "--who", who], input=f"{first}\n---\n{second}".encode(), capture_output=True)
    return ran.stdout.decode().strip()


def comparison(browser, program):
    rows = list(rows_of_same())
    check("there are rows of verdicts", len(rows) > 40, len(rows))
    cut = browser.js("(%s).map((it) => cutAtDashes(it))" % json.dumps([text for _, text, _ in rows]))
    check("each is cut at its dashes", all(cut))
    told = verdicts(browser, [[who, *halves] for (who, _, _), halves in zip(rows, cut)])
    same("the rows of dcc same", told, [verdict for _, _, verdict in rows])
    # stops that differ by their lowest bit do so in 14 steps alone, where it is F0
    few = [
        f"loco s3 {it}"
        for it in ("speed28 f 0", "speed28 f 1", "speed28 f 3", "functions 0 16", "reset", "state 0 off", "state 5 on")
    ]
    turned = [["s3", *(encoded(program, them) for them in ((p, q), (q, p)))] for p, q in itertools.combinations(few, 2)]
    same("each two packets, either first", verdicts(browser, turned), [same_says(program, *it) for it in turned])
    pairs = list(random_pairs(program, 500))
    wanted = [same_says(program, *it) for it in pairs]
    same("random tracks: as dcc same says", verdicts(browser, pairs), wanted)
    check("all verdicts came", {re.sub(r" \d+", "", it) for it in wanted} == {"alike", "members", "order", "writes"})
    lines = random_lines(4000)
    large = [
        encoded(program, lines),
        encoded(program, [*lines[:3000], lines[3001], lines[3000], *lines[3002:], "loco s3 speed28 f 9"]),
    ]
    for who in WHO:
        same(f"two long tracks for {who}", verdicts(browser, [[who, *large]]), [same_says(program, who, *large)])
    distinct_packets(browser, program)


def distinct_packets(browser, program):
    """Captures of many packets, none like another: compared as soon as others."""
    verified = [f"loco s3 cv verify {cv} {value}" for value in range(4) for cv in range(1, 1001)]
    groups = {"0": 32, "5": 16, "9": 16, **{str(it): 256 for it in range(13, 69, 8)}}
    moving = [
        f"loco {who} {it}"
        for who in ("s3", "all")
        for it in (
            *(f"speed128 {to} {step}" for to in "fr" for step in range(128)),
            *(f"functions {it} {n}" for it, most in groups.items() for n in range(most)),
        )
    ]
    random.Random(5).shuffle(moving)
    one, other = [i for i, it in enumerate(moving) if "s3 functions 13 " in it][100:102]
    turned = [*moving[:one], moving[other], *moving[one + 1 : other], moving[one], *moving[other + 1 :]]
    cases = {
        "4,000 CVs verified": (verified, verified),
        "each speed and function": (moving, moving),
        "each twice": (moving + moving[:700], moving + moving[:699] + [moving[700]]),
        "two of them turned": (moving, turned),
    }
    browser.js("document.getElementById('comparison').open = true")
    browser.pick("who", "s3")
    for name, lines in cases.items():
        first, second = (encoded(program, it) for it in lines)
        browser.paste(first)
        _, before = peak_of(browser)
        browser.js("page.second.put(%s)" % json.dumps(second))
        took = peak_of(browser)[1] - before
        same(f"{name}: the verdict", browser.text("#verdict code"), same_says(program, "s3", first, second))
        print(f"{name}: {len(set(lines[0])):,} packets, read and compared in {took:.1f} s of a processor")
        check(f"{name}: within 10 seconds of a processor", took < 10, took)
    browser.js(
        """(() => {
        const { run } = page.work;
        window.begun = 0;
        page.work.run = (...words) => { window.begun += 1; return run.apply(page.work, words); };
    })()"""
    )
    browser.pick("zoom", 110)
    browser.pick("zoom", 100)
    same("zoom does not compare anew", browser.js("delete page.work.run && window.begun"), 0)
    told = {}
    for who in ("s4", "s3"):
        browser.pick("who", who)
        told[who] = browser.text("#verdict code")
        same(f"another decoder, {who}, does", told[who], same_says(program, who, first, second))
    check("their verdicts differ", told["s3"] != told["s4"], told)
    browser.pick("who", "")
    browser.js("page.second.put(''); document.getElementById('comparison').open = false")


def sides_chosen(browser, program):
    """In the drawings of both sides too a half-bit is chosen by keys and touch."""
    browser.paste(encoded(program, ["loco s3 speed28 f 4", "idle", "loco s3 speed28 r 9", "loco s3 speed28 f 4"]))
    browser.js(
        "page.second.put(%s)"
        % json.dumps(encoded(program, ["loco s3 functions 0 16", "loco s3 speed28 f 4"]).replace("58", "59"))
    )
    first, second = (f"#sides .side:nth-child({i})" for i in (1, 2))
    same(
        "each side is one stop of the keyboard",
        [browser.sees(f"{it} [tabindex='0']") for it in (first, second)],
        [1, 1],
    )
    check(
        "each side says how to go through it",
        all(
            "left and right" in it
            for it in browser.js("[...document.querySelectorAll('#sides table')].map((it) => it.ariaLabel)")
        ),
    )
    browser.js(f"document.querySelector({json.dumps(first)} + ' [tabindex=\"0\"]').focus()")
    words = "document.activeElement.querySelector('.words')?.textContent"
    seen = []
    for key in ("Enter", "ArrowDown", "End", "Home", "PageDown", "ArrowUp"):
        browser.press(key)
        seen.append(browser.js(words))
    f, r = "loco s3 speed28 f 4", "loco s3 speed28 r 9"
    same("up and down choose a packet of a side", seen, [f, r, f, f, f, r])
    half = f"{first} .half"
    browser.press("ArrowRight")
    # 84 of the packet before, 84 of an idle one, and a preamble of 28
    same("right begins at the start bit", browser.texts(half), ["half-bit 197: 100 µs, half of a zero"])
    browser.press("ArrowLeft")
    same("left goes to the half-bit before it", browser.texts(half), ["half-bit 196: 58 µs, half of a one"])
    same("it is marked", browser.sees("#sides .chosen"), 1)
    same("a reader is told", browser.js(f"document.querySelector({json.dumps(half)}).getAttribute('role')"), "status")
    browser.pick("zoom", 200)
    same("it stays chosen where the drawing is wider", browser.texts(half), ["half-bit 196: 58 µs, half of a one"])
    browser.pick("zoom", 100)
    browser.js(f"document.querySelector({json.dumps(first)} + ' [tabindex=\"0\"]').focus()")
    browser.press("ArrowUp")
    same("another packet has none yet", browser.sees("#sides .half") + browser.sees("#sides .chosen"), 0)
    browser.press("Tab")
    same("the next stop is the other side", browser.js("document.activeElement.closest('.side')?.ariaLabel"), "second")
    browser.press("ArrowRight")
    same(
        "a half-bit of the second capture is told as it is there",
        browser.texts(f"{second} .half"),
        ["half-bit 29: 100 µs, half of a zero"],
    )
    browser.press("ArrowLeft")
    same("to the microsecond", browser.texts(f"{second} .half"), ["half-bit 28: 59 µs, half of a one"])
    for width in (1280, 390):
        browser.look(width)
        browser.ask("Emulation.setTouchEmulationEnabled", enabled=True)
        place = touch_pulse(browser, f"{second} tr:nth-child(2) svg")
        browser.wait(f"document.querySelector({json.dumps(second)} + ' tr:nth-child(2) .half') !== null")
        us = browser.js(f"page.other.halves.us[{84 + place}]")
        told = browser.texts("#sides .side:nth-child(2) .half")
        check(
            f"{width} wide: a touch tells a half-bit of a side",
            len(told) == 1 and told[0].startswith(f"half-bit {85 + place}: {us} µs, "),
            [told, place],
        )
        browser.ask("Emulation.setTouchEmulationEnabled", enabled=False)
    browser.look()
    browser.js(f"document.querySelector({json.dumps(first)} + ' .track').scrollLeft = 0")
    browser.hover(f"{first} tr:nth-child(1) svg", 5, 24)
    same("a mouse is told it too", browser.texts(f"{first} .lit title"), ["half-bit 1: 58 µs, half of a one"])


def two_sides(browser, program):
    browser.paste((TOP / "examples" / "two_tracks.txt").read_text())
    was = browser.reads()
    browser.js("document.getElementById('cut').click()")
    browser.wait(f"Number(document.body.dataset.read) >= {was} + 2 && document.activeElement.id === 'second-who'")
    same("a text of two captures is cut into both", browser.fault(), "")
    check("a decoder has to be named", "Name a decoder" in browser.text("#verdict"))
    browser.pick("second-who", "s3")
    same("the example is alike", browser.text("#verdict code"), "alike")
    same("both fields have the name", browser.js("document.getElementById('who').value"), "s3")
    p, q, write = "loco s3 speed28 f 4", "loco s3 speed28 r 9", "loco s3 cv write 29 6"
    for first, second, verdict, marked, says in (
        ([p, q, p], [p], "members 0", [q], "only the first capture has “loco s3 speed28 r 9”"),
        ([p, p, q], [q, p], "order 0", [p, q], "alternate in different ways"),
        ([p, write, write, q], [p, write, write, p], "members 2", [q, p], "After write 2 to the decoder"),
        ([p, write], [p], "writes", [write], "the second has no further write"),
    ):
        browser.paste(encoded(program, first))
        browser.js("page.second.put(%s)" % json.dumps(encoded(program, second)))
        same(f"{verdict}: the verdict", browser.text("#verdict code"), verdict)
        same(
            f"{verdict}: as dcc same",
            same_says(program, "s3", encoded(program, first), encoded(program, second)),
            verdict,
        )
        same(f"{verdict}: what differs is marked", browser.texts("#sides .differs .words"), marked)
        check(
            f"{verdict}: it is drawn on both sides",
            browser.sees("#sides .side") == 2 and browser.sees("#sides .differs svg .pulse") > 0,
        )
        check(f"{verdict}: it is told", says in browser.text("#verdict"), browser.text("#verdict"))
    sides_chosen(browser, program)
    browser.js("page.second.put('58 x')")
    check(
        "a fault of the second capture is told at its place", "“x” is no duration" in browser.text("#second-fault-text")
    )
    check("what stands before it is compared", "ends at the error" in browser.text("#verdict"))
    browser.js("page.second.put(''); document.getElementById('comparison').open = false")
    browser.pick("who", "")


def zoom(browser):
    browser.paste(MAIN_TRACK.read_text())
    width = "Number(document.querySelector('#rows svg').getAttribute('width'))"
    before = browser.js(width)
    browser.pick("zoom", 200)
    check("the drawing is twice as wide", 1.9 * before < browser.js(width) < 2.1 * before)
    same("it is told", browser.text("#zoom-is"), "200 %")
    browser.pick("zoom", 50)
    check("or half", 0.4 * before < browser.js(width) < 0.6 * before)
    browser.pick("zoom", 100)


def dropped(browser, file, where):
    """Drops a file on an element as a reader does."""
    was = browser.reads()
    x, y = browser.js(
        "(() => { const it = document.querySelector(%s); it.scrollIntoView({ block: 'center' });"
        " const r = it.getBoundingClientRect(); return [r.x + r.width / 2, r.y + r.height / 2]; })()"
        % json.dumps(where)
    )
    data = {"items": [], "files": [str(file)], "dragOperationsMask": 1}
    for kind in ("dragEnter", "dragOver", "drop"):
        browser.ask("Input.dispatchDragEvent", type=kind, x=x, y=y, data=data)
    browser.wait(f"Number(document.body.dataset.read) > {was}")


def drops(browser, program):
    dropped(browser, TOP / "examples" / "analyser.csv", "h1")
    same("a dropped file is opened", browser.listing(), (TOP / "examples" / "analyser.words").read_text())
    with tempfile.TemporaryDirectory(prefix="dcc-web-") as room:
        session = pathlib.Path(room) / "track.sr"
        with zipfile.ZipFile(session, "w", zipfile.ZIP_DEFLATED) as it:
            it.writestr("version", "2")
            it.writestr("logic-1-1", bytes(10000))
        dropped(browser, session, "#text")
        told = browser.fault()
        check(
            "of a session of sigrok one is told how to export it",
            "export it as VCD or CSV, as by sigrok-cli -i track.sr -O vcd" in told,
            told,
        )
    dropped(browser, MAIN_TRACK, "#text")
    same("and then another file", browser.rows(), show(program, MAIN_TRACK.read_text())[0])
    browser.js("document.getElementById('comparison').open = true")
    dropped(browser, TOP / "examples" / "analyser.vcd", "#second-text")
    same(
        "one that is dropped on the second capture is that one's",
        browser.js("[page.outcomes.length, page.other.outcomes.length]"),
        [4, 6],
    )
    browser.js("page.second.put(''); document.getElementById('comparison').open = false")
    for field in ("file", "second-file"):
        accept = browser.js(f"document.getElementById('{field}').accept").split(",")
        check(f"{field} tells which files it takes", {".txt", ".csv", ".vcd", ".sr"} <= set(accept), accept)


def keys(browser):
    browser.paste(MAIN_TRACK.read_text())
    browser.js("document.querySelector('#rows [tabindex=\"0\"]').focus()")
    same(
        "the list is one stop of the keyboard",
        browser.js("document.querySelectorAll('#rows [tabindex=\"0\"]').length"),
        1,
    )
    at = "document.activeElement.querySelector('.at')?.textContent"
    seen = []
    for key in ("Enter", "ArrowDown", "ArrowDown", "ArrowUp", "End", "Home", "ArrowDown", "ArrowDown"):
        browser.press(key)
        seen.append(browser.js(at))
    same("up and down, first and last choose a row", seen, ["84", "168", "252", "168", "336", "84", "168", "252"])
    half = "document.querySelector('#rows .half').textContent"
    browser.press("ArrowRight")
    same("right begins where a refusal is marked", browser.js(half), "half-bit 235: 100 µs, half of a zero")
    browser.press("ArrowRight")
    browser.press("ArrowLeft")
    browser.press("ArrowLeft")
    same("left and right tell each half-bit", browser.js(half).split(":")[0], "half-bit 234")
    same("it is marked", browser.sees("#rows .chosen"), 1)
    same("a reader is told", browser.js("document.querySelector('#rows .half').getAttribute('role')"), "status")
    browser.press("Tab")
    same("the next stop is behind the list", browser.js("document.activeElement.tagName"), "SUMMARY")


def touch_pulse(browser, what):
    """Touches a pulse of a drawing, one of those in sight, and tells its place in it."""
    left, top, scrolled = browser.js(
        """((svg) => {
        svg.closest('tr').scrollIntoView({ block: 'center' });
        const { left, top } = svg.parentNode.getBoundingClientRect();
        return [left, top, svg.parentNode.scrollLeft];
    })(document.querySelector(%s))"""
        % json.dumps(what)
    )
    [pulses] = browser.pulses(what)
    place = next(i for i, it in enumerate(pulses) if it[0] > scrolled + 40)
    browser.touch(left - scrolled + sum(pulses[place][:2]) / 2, top + pulses[place][2] + 5)
    return place


def phone(browser):
    browser.look(390)
    packet = body([3, 0x62, 0x61])
    for halves in ([*packet[:50], 20], [*packet[:30], 100, 58], body([3, 0x62, 0x60]), body([3, 0x62])):
        browser.paste(" ".join(map(str, halves)))
        number, why, wide = browser.js(
            """['#rows .at', '#rows .why'].map((it) => {
            const { left, right, top, bottom } = document.querySelector(it).getBoundingClientRect();
            return [left, right, top, bottom];
        }).concat([document.documentElement.scrollWidth])"""
        )
        check(
            "the sentence of a refusal stands under its number, whole",
            why[2] >= number[3] - 1 and why[0] >= 0 and why[1] <= 390,
            [number, why],
        )
        rooms = browser.js(
            "(({ scrollWidth, clientWidth }) => [scrollWidth, clientWidth])(document.querySelector('#rows .what'))"
        )
        check("nothing of it is cut", rooms[0] <= rooms[1], rooms)
        check("it is no part of the drawing", not browser.sees("svg .why, svg .fault text"))
        check("the page is no wider than the telephone", wide <= 390, wide)
    browser.paste(MAIN_TRACK.read_text())
    browser.pick("who", "l10239")
    browser.unfold(True)
    browser.js("page.showTimings(); page.table.choose(0)")
    wide = browser.js("document.documentElement.scrollWidth")
    check("nor with all that is shut opened", wide <= 390, wide)
    browser.pick("who", "")
    browser.unfold(False)
    browser.ask("Emulation.setTouchEmulationEnabled", enabled=True)
    place = touch_pulse(browser, "#rows tr:nth-child(2) svg")
    browser.wait("document.querySelector('#rows .half') !== null")
    told = browser.text("#rows .half")
    check("a touch tells a half-bit", told.startswith(f"half-bit {85 + place}: "), [told, place])
    browser.ask("Emulation.setTouchEmulationEnabled", enabled=False)
    browser.look()


CONTRASTS = """(() => {
    const parts = (text) => { const [r, g, b, a = 1] = text.match(/[\\d.]+/g).map(Number); return { r, g, b, a }; };
    const mixed = (top, below, it) => top[it] * top.a + below[it] * (1 - top.a);
    const over = (top, below) => Object.fromEntries(['r', 'g', 'b'].map((it) => [it, mixed(top, below, it)]));
    const linear = (it) => (it <= 0.04045 ? it / 12.92 : ((it + 0.055) / 1.055) ** 2.4);
    const light = ({ r, g, b }) => [r, g, b].map((it) => linear(it / 255))
        .reduce((sum, it, i) => sum + it * [0.2126, 0.7152, 0.0722][i], 0);
    const inSvg = (it) => it instanceof SVGElement && it.tagName !== 'svg';
    const paint = (it) => getComputedStyle(it)[inSvg(it) ? 'fill' : 'backgroundColor'];
    const worst = { ratio: 21 };
    let texts = 0;
    for (const it of document.querySelectorAll('body *')) {
        const own = [...it.childNodes].some((child) => child.nodeType === 3 && child.textContent.trim());
        const isField = it.matches('textarea, input[type=text]');
        if ((!own && !isField) || it.disabled || !it.checkVisibility() || it.matches('title, option')) continue;
        const box = it.getBoundingClientRect();
        const [x, y] = [box.left + Math.min(box.width / 2, 20), box.top + box.height / 2];
        const stack = document.elementsFromPoint(x, y);
        if (!stack.length || !stack.some((below) => below === it || below.contains(it))) continue;
        // what lies below a text, the lowest first
        const isLayer = (below) => below !== it && paint(below) !== 'none' && below.tagName !== 'text';
        const layers = stack.filter(isLayer).map((below) => parts(paint(below)));
        const own_paint = inSvg(it) ? [] : [parts(paint(it))];
        const body = parts(paint(document.body));
        const ground = [...layers.reverse(), ...own_paint].reduce((below, top) => over(top, below), body);
        const ink = over(parts(inSvg(it) ? getComputedStyle(it).fill : getComputedStyle(it).color), ground);
        const [a, b] = [light(ink), light(ground)].sort((a, b) => b - a);
        const ratio = (a + 0.05) / (b + 0.05);
        texts += 1;
        const what = `${it.tagName}.${it.getAttribute('class')} ${it.textContent.slice(0, 30)}`;
        if (ratio < worst.ratio) Object.assign(worst, { ratio, what });
    }
    return { ...worst, texts };
})()"""


def schemes(browser, program):
    p, q = encoded(program, ["loco s3 speed28 f 4"]), encoded(program, ["loco s3 speed28 r 9"])
    for width, scheme in itertools.product((1280, 390), ("light", "dark")):
        browser.paste(MAIN_TRACK.read_text() + "58*19 5 70 20000 58*30 100*20 58*2\n" + p)
        browser.look(width, scheme)
        browser.unfold(True)
        browser.js("page.second.put(%s)" % json.dumps(q + " x"))
        browser.pick("who", "s3")
        browser.js("page.showTimings(); page.table.choose(2); page.table.chooseHalf(240)")
        browser.unfold(True)
        browser.look(width, scheme, browser.js("document.documentElement.scrollHeight") + 50)
        told = browser.js(CONTRASTS)
        check(
            f"{width} wide, {scheme}: each text has a contrast of 4.5",
            told["ratio"] >= 4.5 and told["texts"] > 100,
            told,
        )
        ground = browser.js("getComputedStyle(document.body).backgroundColor")
        same(
            f"{width} wide, {scheme}: the ground",
            ground,
            {"light": "rgb(255, 255, 255)", "dark": "rgb(18, 22, 27)"}[scheme],
        )
    browser.look()
    browser.pick("who", "")
    browser.js("page.second.put('')")
    browser.unfold(False)


def knows_timing(program):
    return subprocess.run([program, "timing"], input=b"58", capture_output=True).returncode == 0


def timings(browser, program):
    browser.paste(MAIN_TRACK.read_text())
    browser.js("document.getElementById('timing').open = true; page.showTimings()")
    text = "document.getElementById('timing-lines').value"
    told = browser.js(text)
    some = "(halves|time|packets|refused H5|lost|preamble|gap|ones c|ones m|differences mean|sums m)"
    same(
        "the figures of the example",
        [it for it in told.splitlines() if re.match(some, it)],
        [
            "halves 336",
            "time 27515",
            "packets 3",
            "refused H5 1",
            "lost 0",
            "preamble least 28",
            "gap most 13021",
            "ones count 198",
            "ones most 59",
            "ones mean 57.98",
            "differences mean 0.46",
            "sums most 2440",
            "sums mean 245.65",
        ],
    )
    cells = browser.js(
        "[...document.querySelectorAll('#figures tr')]"
        ".map((row) => [...row.children].slice(0, 5).map((it) => it.textContent))"
    )
    same(
        "the table has them",
        cells[1:3],
        [
            ["halves of a one", "198", "57", "59", "57.98"],
            ["the two halves of a one, their difference", "65", "0", "1", "0.46"],
        ],
    )
    same(
        "limits are drawn in",
        browser.texts(".band text"),
        ["station 55 to 61", "decoder 52 to 64", *2 * ["station 95 to 9900", "decoder 90 to 10000"]],
    )
    same(
        "each duration has its bar",
        browser.texts(".bar")[:3],
        ["57 µs: 30 half-bits", "58 µs: 140 half-bits", "59 µs: 28 half-bits"],
    )
    short = "#histogram .chart:nth-child(1)"
    browser.js(f"document.querySelector('{short} svg').focus()")
    seen = []
    for key in ("ArrowRight", "ArrowRight", "ArrowLeft", "End", "ArrowRight", "Home"):
        browser.press(key)
        seen.append(browser.text(f"{short} .half"))
    bars = browser.texts(f"{short} .bar")
    same(
        "arrow keys choose a bar, and it is told below", seen, [bars[0], bars[1], bars[0], bars[-1], bars[-1], bars[0]]
    )
    same("it is marked", browser.texts(".bar.told"), bars[:1])
    browser.look(390)
    browser.js("page.showTimings()")
    browser.ask("Emulation.setTouchEmulationEnabled", enabled=True)
    x, y = browser.js(
        "(() => { const it = document.querySelectorAll('%s .bar')[1]; it.scrollIntoView({ block: 'center' });"
        " const r = it.getBoundingClientRect(); return [r.x + r.width / 2, r.y - 10]; })()" % short
    )
    browser.touch(x, y)
    browser.wait(f"document.querySelector('{short} .half').textContent !== ''")
    same("a touch beside a bar tells it", browser.text(f"{short} .half"), bars[1])
    browser.ask("Emulation.setTouchEmulationEnabled", enabled=False)
    browser.look()
    browser.js("page.showTimings()")
    browser.paste("58*28 66 100*14 58*28 300 58*3 5")
    same(
        "a half-bit beyond the limits stands in its bar", browser.js("document.querySelectorAll('.bar.bad').length"), 2
    )
    station = {"ones": "55 to 61", "zeros": "95 to 9,900"}
    for halves, red in {
        "55*30 61*30 95*2 9900*2": [],
        "54*30": [station["ones"]],
        "62*30": [station["ones"]],
        "52*30 64*30": [station["ones"]],
        "94*4": [station["zeros"]],
        "100 9901": [station["zeros"]],
        "54*30 90*4 10000": [station["ones"], station["zeros"]],
    }.items():
        browser.paste(halves)
        same(f"limits that {halves} exceed are red", browser.texts("#figures .beyond"), red)
    browser.paste("1*2 39 40*2 41*3 129 58*28 131 65535 70000 9999999999")
    bars = browser.texts(".bar")
    same(
        "bars of what lies beyond the drawing are named so",
        [bars[0], bars[1], bars[-1]],
        ["40 µs or less: 5 half-bits", "41 µs: 3 half-bits", "57967 µs or more: 3 half-bits"],
    )
    others = {"58 µs: 28 half-bits", "129 µs: 1 half-bit", "130 to 147 µs: 1 half-bit"}
    check("others have their durations", others <= set(bars), bars)
    cases = {
        "none": "58",
        "noise": some_noise(1500),
        **{it.name: it.read_text() for it in sorted((TOP / "examples").glob("*.txt"))},
    }
    if not knows_timing(program):
        print("left out: the figures against `dcc timing`, which this program does not know")
        cases = {}
    for name, capture in cases.items():
        ran = subprocess.run([program, "timing"], input=capture.encode(), capture_output=True)
        browser.paste(capture)
        # of a capture with a fault the program tells nothing, the page what stands before it
        if ran.returncode == 0:
            same(f"{name}: the figures of dcc timing", browser.js(text), ran.stdout.decode())
    browser.js("document.getElementById('timing').open = false")


def peak_of(browser):
    """The most memory, in MB, and the processor seconds of the renderers of a browser."""
    most, seconds = 0, 0
    for folder in pathlib.Path("/proc").glob("[0-9]*"):
        try:
            words = (folder / "cmdline").read_text()
            if "--type=renderer" in words and browser.room in words:
                most = max(most, int(re.search(r"VmHWM:\s*(\d+)", (folder / "status").read_text())[1]) // 1024)
                spent = (folder / "stat").read_text().rsplit(")", 1)[1].split()
                seconds += (int(spent[11]) + int(spent[12])) / os.sysconf("SC_CLK_TCK")
        except (OSError, TypeError):
            pass
    return most, seconds


def largest():
    """As many half-bits as a capture may have, and none of them like the one before."""
    dice = random.Random(3)
    frames = [[3, 0x62, 0x61], [255, 0, 255], [3, 0x90, 0x93], [0xC3, 0xE8, 0x3F, 0x85, 0x91]]
    packets = [[us + dice.choice((-1, 0, 1)) for us in body(it)] for it in frames for _ in range(50)]
    with tempfile.TemporaryDirectory(prefix="dcc-web-") as room:
        file, count = pathlib.Path(room) / "largest.txt", 0
        lines = [(len(it), " ".join(map(str, it)) + "\n") for it in packets]
        with open(file, "w") as out:
            while count < LARGEST - 200:
                n, line = dice.choice(lines)
                out.write(line)
                count += n
            out.write("58 " * (LARGEST - count))
        browser = Browser()
        try:
            # a browser begins a second renderer after its first page, for a next page
            time.sleep(1)
            _, before = peak_of(browser)
            begin = time.monotonic()
            browser.open(file)
            took = time.monotonic() - begin
            most, spent = peak_of(browser)
            print(
                f"{LARGEST:,} half-bits, {file.stat().st_size:,} bytes, in {took:.1f} s, "
                f"{spent - before:.1f} s of a processor, {most} MB at most"
            )
            same("the largest capture is read", browser.js("page.halves.count"), LARGEST)
            check("within 10 seconds of a processor", spent - before < 10)
            check("within 400 MB", most < 400)
            open_all(browser)
            most, _ = peak_of(browser)
            print(f"with all of it opened {most} MB at most")
            check("within 360 MB with all of it opened", most < 360, most)
            same("no complaint at the largest capture", browser.complaints, [])
        finally:
            browser.close()


def open_all(browser):
    """Opens one after the other what the page has for a capture. The browser drops garbage between them, so the most
    memory is that of the page and not that of garbage."""
    browser.js("document.getElementById('timing').open = true; page.showTimings()")
    check("its durations are told", browser.sees(".bar") >= 6)
    browser.drop_garbage()
    browser.pick("who", "s3")
    browser.js("page.table.choose(page.table.rows.length - 1)")
    check("a state at its end is told", browser.sees("#rows .state") == 1)
    browser.drop_garbage()
    browser.js("document.getElementById('fold').click()")
    browser.pick("kind", "speed")
    browser.pick("kind", "all")
    browser.js("document.getElementById('end').click()")
    for _ in range(12):
        browser.js("document.getElementById('back').click(); document.body.offsetHeight")
    check("its list is gone through", browser.js("page.table.first") > 0 and browser.sees("#rows [data-row]") == 50)
    browser.drop_garbage()
    outcomes = browser.js("page.outcomes.length")
    check("its list is there as text", outcomes > 100000 and len(browser.listing().splitlines()) == outcomes)
    browser.drop_garbage()
    browser.js("document.getElementById('comparison').open = true")
    browser.js("page.second.put(%s)" % json.dumps(" ".join(map(str, body([3, 0x62, 0x61])))))
    browser.wait("document.querySelector('#sides .side') !== null")
    same("it is compared with a second capture", browser.text("#verdict code"), "members 0")


PARTS = [times, filters, states, comparison, two_sides, zoom, drops, keys, phone, schemes, timings]

"""Tests of the page with a sniffer: a serial port of the test's own plays what the sketch Sniffer wrote under simavr
(web/recordings/sniffer, which web/record makes), and the page must show what the program shows for the same bytes.
"""
import base64
import json
import os
import pathlib
import random
import re
import shutil
import subprocess
import threading
import time

import monitor
from harness import TOP, WEB, Browser, body, check, same, show

# a board at a serial port, which a test feeds. `letters` has what the page has sent
BOARD = """(() => {
    class Board {
        constructor() { Object.assign(this, { opened: [], letters: '', closed: 0, fails: null }); }
        async open(options) {
            if (this.fails) throw new DOMException(this.fails, 'NetworkError');
            this.opened.push(options);
            this.begin();
            const write = (bytes) => {
                this.letters += String.fromCharCode(...bytes);
                this.answer?.();
            };
            this.writable = new WritableStream({ write });
        }
        begin() { this.readable = new ReadableStream({ start: (it) => { this.stream = it; } }); }
        async close() {
            this.closed += 1;
            this.readable = this.writable = null;
        }
        feed(bytes, sizes = [bytes.length]) {
            for (let at = 0, i = 0; at < bytes.length; i += 1) {
                const end = at + sizes[i % sizes.length];
                this.stream.enqueue(bytes.slice(at, end));
                at = end;
            }
        }
        overflow() {
            const { stream } = this;
            this.begin();
            stream.error(new DOMException('Buffer overrun.', 'BufferOverrunError'));
        }
        unplug() {
            const { stream } = this;
            this.readable = this.writable = null;
            stream.error(new DOMException('The device has been lost.', 'NetworkError'));
        }
    }
    window.board = new Board();
    const requestPort = async () => {
        if (window.board === null) throw new DOMException('No port selected by the user.', 'NotFoundError');
        return window.board;
    };
    Object.defineProperty(navigator, 'serial', { value: { requestPort } });
})()"""
RECORDED = WEB / "recordings" / "sniffer"
LOOK = 0.4


def recorded():
    """The bytes of the sketch before the letter r, and after it. The empty line is part of the second."""
    before, after = RECORDED.read_bytes().split(b"\n\r\n")
    return before + b"\n", b"\r\n" + after


def fed(browser, data, sizes=None):
    """Feeds bytes to the page in pieces of these sizes, and waits until the page has taken them and looked at them."""
    words = json.dumps(base64.b64encode(data).decode()), json.dumps(sizes or [4096])
    browser.js("board.feed(decode(%s), %s)" % words)
    looked(browser)


def looked(browser):
    """Waits until the page has looked at all that was fed."""
    look = "page.timedAt = -Infinity; page.sniffer.drawn = 0; page.sniffer.look();"
    browser.js("new Promise((done) => setTimeout(done, 0)).then(() => { %s })" % look)


def connected(browser, data=b"", sizes=None):
    """Connects a board, which answers the first letter with these bytes."""
    browser.js("Object.assign(board, { letters: '', answer: null }); document.getElementById('connect').click()")
    browser.wait("board.letters !== ''")
    if data:
        fed(browser, data, sizes)


def left(browser):
    browser.js("document.getElementById('connect').click()")
    browser.wait("page.sniffer.port === null")


def pressed(browser, name):
    browser.js(f"document.getElementById('{name}').click()")


def ran(program, command, text):
    done = subprocess.run([program, *command], input=text, capture_output=True)
    return done.stdout.decode()


def shown_is(browser, program, name, runs):
    """The page has what the program has for these runs: half-bits, the list, lost packets, statistics and states."""
    lines, fault = show(program, runs.decode())
    same(f"{name}: the program reads the runs", fault, "")
    pressed(browser, "pause") if browser.js("page.table.isLive") else None
    same(f"{name}: the list", browser.listing(), lines)
    texts = "page.capture.items.filter((it) => it.lost).map((it) => `${it.at} ${told(page.dcc, it)}\\n`).join('')"
    same(f"{name}: the lost packets", browser.js(texts), ran(program, ["lost", "--words"], runs))
    durations = [us for us, n in words_of(runs) for _ in range(n)]
    same(f"{name}: the half-bits", browser.halves().split(), [str(it) for it in durations])
    ends, times = browser.js("[page.capture.items.map((it) => it.at), page.capture.items.map((it) => it.time)]")
    sums = [0]
    for it in durations:
        sums.append(sums[-1] + it)
    same(f"{name}: the times", times, [sums[it] for it in ends])
    if monitor.knows_timing(program):
        text = browser.js("timingText(page.sniffer.live.timings.told())")
        same(f"{name}: the statistics", text, ran(program, ["timing"], runs))
    else:
        print("left out: statistics and states, which this program does not know")
        return
    for who in ("s3", "l1000", "b12"):
        fresh, state, back, first = browser.js(
            """((fresh) => {
            const [one, other] = [1, 2].map(() => new Hearing(page.dcc, fresh, page.outcomes));
            return [fresh, one.after(page.outcomes.length), one.after(1), other.after(1)].map((it) => decoderText(it));
        })(decoderOf(page.dcc, %s))"""
            % json.dumps(who)
        )
        same(f"{name}: the first state of {who}", back, first)
        same(f"{name}: the state of {who}", state, ran(program, ["run"], fresh.encode() + runs))


def words_of(runs):
    """The runs of a text, each with its duration and its number."""
    for word in re.sub(rb"#[^\n]*", b"", runs).split():
        us, _, n = word.partition(b"*")
        yield min(int(us), 65535), int(n or 1)


def with_board(part):
    """Makes a part of the tests of a function that takes a browser with a board."""

    def run(program):
        browser = Browser(before=BOARD)
        try:
            part(browser, program)
            same(f"{part.__name__}: no complaint", browser.complaints, [])
            others = [it for it in browser.requests if not it.startswith(("file:", "data:,", "blob:"))]
            same(f"{part.__name__}: no request", others, [])
        finally:
            browser.close()

    run.__name__ = part.__name__
    return run


@with_board
def plays(browser, program):
    """The recorded bytes in pieces of 1 to 4,096 bytes, with a connect for each."""
    before, after = recorded()
    dice = random.Random(20261201)
    for name, sizes in {
        "single bytes": [1],
        "pieces of 7": [7],
        "pieces of 4,096": [4096],
        "pieces of all sizes": [dice.choice((1, 2, 3, 60, 500, dice.randrange(1, 4097))) for _ in range(200)],
    }.items():
        connected(browser, before + after, sizes)
        shown_is(browser, program, name, after)
        left(browser)
    same("each connect opens the port once", browser.js("[board.opened.length, board.closed]"), [4, 4])
    opened = browser.js("board.opened[0]")
    same("the port has the rate of the sketch", opened["baudRate"], 1000000)
    check("the port has room for a second", opened["bufferSize"] >= 100000, opened)
    same("the page has sent only letters r", set(browser.js("board.letters")), {"r"})


# the newest row, and the words of all rows
NEWEST = "document.querySelector('#rows [data-row]')"
ROWS = "[...document.querySelectorAll('#rows [data-row]')]"
WORDS = ROWS + ".map((it) => `${it.querySelector('.at').textContent} ${it.querySelector('.words').textContent}`)"


def items_of(program, runs):
    """The outcomes and lost packets in the order of their ends."""
    lines = [*show(program, runs.decode())[0].splitlines(), *ran(program, ["lost", "--words"], runs).splitlines()]
    return sorted(lines, key=lambda it: int(it.split(" ", 1)[0]))


@with_board
def follows(browser, program):
    """The list while packets come: the newest first, by the filter, paused, and followed again."""
    before, after = recorded()
    cut = after.index(b" ", 3000) + 1
    first = items_of(program, after[:cut])
    every = items_of(program, after + after[2:])
    connected(browser, before + after[:cut])
    same("the field of the capture is empty", browser.js("document.getElementById('text').value"), "")
    same("the newest rows come first", browser.js(WORDS), first[::-1][:8])
    browser.js(f"{NEWEST}.isOfTest = true")
    looked(browser)
    same("a row that stays is not drawn again", browser.js(f"{NEWEST}.isOfTest"), True)
    same("the list is one stop of the keyboard", browser.sees("#rows [tabindex='0']"), 1)
    browser.pick("zoom", 200)
    check("a drawing is scrolled to its packet", browser.js(f"{NEWEST}.querySelector('.track').scrollLeft") > 100)
    browser.pick("zoom", 100)
    browser.pick("who", "s3")
    own = [it for it in first if " refused " in it or " s3 " in it or " all " in it]
    same("the filter of a decoder", browser.js(WORDS), own[::-1][:8])
    speed = "document.querySelector('#rows .state dd').textContent"
    same("its state stands above the rows", browser.js("$('rows').firstChild.className"), "detail")
    at = first[-1].split(" ")[0]
    check("the state is that of the end", f"s3 after half-bit {at}," in browser.text("#rows .state-of"))
    browser.js("document.querySelector('#rows .detail .text').open = true")
    fed(browser, after[cut:] + after[2:])
    same("it stays one stop", browser.sees("#rows [tabindex='0']"), 1)
    same("a reader of the screen hears no numbers that go on", browser.js("$('sum').ariaLive"), "off")
    same("the rows that came", browser.js(WORDS), [it for it in every if " refused " in it or " s3 " in it][::-1][:8])
    bits = next(int(it.split()[-1]) for it in every[::-1] if " loco s3 speed28 f" in it and "refused" not in it)
    same("its state has changed", browser.js(speed), f"step {bits - 3} of 28")
    check("it has all packets", "F0" in browser.text("#rows .state"), browser.text("#rows .state"))
    same("the decoder text stays open", browser.js("document.querySelector('#rows .detail .text').open"), True)
    browser.pick("who", "")
    browser.pick("kind", "lost")
    same("the filter of a kind", browser.js(WORDS), [it for it in every if " lost " in it][::-1])
    browser.pick("kind", "all")
    browser.js("document.getElementById('comparison').open = true")
    browser.wait("document.getElementById('verdict').textContent.includes('Pause the list')")
    browser.js("document.getElementById('comparison').open = false")
    paused(browser, program, after, every)
    folded(browser)
    left(browser)


def paused(browser, program, after, every):
    """A pause, and the choice of a row while packets come."""
    pressed(browser, "pause")
    shown = browser.js(WORDS)
    same("a pause shows the last rows in their order", shown, every[len(every) // 50 * 50 :])
    check("there are some before them", 10 < len(shown) < len(every), len(shown))
    check("the page says so", "The list is paused." in browser.text("#live-text"), browser.text("#live-text"))
    last = "[...document.querySelectorAll('#rows [data-row]')].pop().getBoundingClientRect()"
    check("the last row is in sight", browser.js(f"{last}.top >= 0 && {last}.bottom <= innerHeight"))
    fed(browser, after[2:])
    same("a paused list stays", browser.js(WORDS), shown)
    same("a reader of the screen hears the sum again", browser.js("$('sum').ariaLive"), "polite")
    same("its capture stays", browser.js("page.capture.items.length"), len(every))
    same("its button follows again", browser.text("#pause"), "Follow")
    pressed(browser, "pause")
    whole = items_of(program, after + after[2:] * 2)
    same("then the newest rows are there", browser.js(WORDS), whole[::-1][:8])
    check("the newest row is in sight", browser.js(f"{NEWEST}.getBoundingClientRect().top >= 0"))
    packets = sum(" refused " not in it and " lost " not in it for it in whole)
    check("the summary has what came", f", {packets} packets, " in browser.text("#sum"), browser.text("#sum"))
    number, x, y = browser.js(
        """((row) => {
        row.scrollIntoView({ block: 'center' });
        const { x, y } = row.querySelector('.words').getBoundingClientRect();
        return [row.querySelector('.at').textContent, x + 5, y + 5];
    })(document.querySelectorAll('#rows [data-row]')[3])"""
    )
    for kind in ("mousePressed", "mouseReleased"):
        browser.ask("Input.dispatchMouseEvent", type=kind, x=x, y=y, button="left", clickCount=1)
    same("a click on a row pauses", browser.js("page.table.isLive"), False)
    same("the row is chosen", browser.text("#rows [aria-selected=true] .at"), number)
    chosen = "document.querySelector('#rows [aria-selected=true]').getBoundingClientRect()"
    check("it is in sight", browser.js(f"{chosen}.top >= 0 && {chosen}.bottom <= innerHeight"))
    browser.press("ArrowUp")
    ends = [it.split(" ", 1)[0] for it in whole]
    same("arrow keys go on from it", browser.text("#rows [aria-selected=true] .at"), ends[ends.index(number) - 1])
    pressed(browser, "pause")
    browser.js("document.querySelector('#rows [tabindex=\"0\"]').focus()")
    fed(browser, after[2:])
    same("a row with the focus pauses too", browser.js("page.table.isLive"), False)
    same("it keeps the focus", browser.js("document.activeElement.querySelector('.at')?.textContent"), ends[-1])
    pressed(browser, "pause")


def folded(browser):
    pressed(browser, "fold")
    idle = body([255, 0, 255])
    fed(browser, (" ".join(map(str, idle * 3)) + " ").encode())
    before = browser.js("page.rows.list.length")
    fed(browser, (" ".join(map(str, idle * 4)) + " ").encode())
    same("repeats that come are folded into their row", browser.js("page.rows.list.length"), before)
    check("the row has their number", browser.text("#rows .times").startswith("7 times"), browser.text("#rows .times"))
    fed(browser, ("# half-bits that did not fit: 9999\n" + " ".join(map(str, idle)) + " ").encode())
    same("a row begins where half-bits did not fit", browser.js("page.rows.list.length"), before + 1)
    same("rows that stay are no stops of the keyboard", browser.sees("#rows [tabindex='0']"), 1)
    pressed(browser, "fold")


@with_board
def told(browser, program):
    """The line of the sniffer, and the statistics while packets come."""
    before, after = recorded()
    browser.js("document.getElementById('timing').open = true")
    connected(browser, before + after)
    unfit = "488 half-bits did not fit into the memory of the board"
    same("half-bits that did not fit", browser.text("#live-lacks"), f"{unfit}.")
    rows = browser.js("page.capture.items.filter((it) => it.gaps).map((it) => [it.at, ...it.gaps.map(gapText)])")
    place = sum(n for _, n in words_of(after[: after.index(b"#")]))
    at = next(int(it.split(" ")[0]) for it in items_of(program, after) if int(it.split(" ")[0]) > place)
    same("their place is in the list", rows, [[at, f"{unfit} before this."]])
    preamble = re.search(r"Shortest preamble: (\d+)", browser.text("#live-text"))[1]
    if monitor.knows_timing(program):
        same("the shortest preamble", preamble, re.search(r"preamble least (\d+)", ran(program, ["timing"], after))[1])
    drawn, now = browser.js("[document.getElementById('timing-lines').value, timingText(page.capture.timings.told())]")
    same("the durations are drawn", drawn, now)
    bars = browser.sees(".bar")
    browser.js("document.querySelector('#histogram svg').focus()")
    browser.press("ArrowRight")
    chosen = browser.texts(".bar.told")
    fed(browser, b"72 " * 20)
    same("a drawing in use stays", [browser.sees(".bar"), browser.texts(".bar.told")], [bars, chosen])
    browser.js("document.activeElement.blur()")
    looked(browser)
    check("then it has what came", browser.sees(".bar") > bars and "72 µs: 20 half-bits" in browser.texts(".bar"))
    browser.js("document.getElementById('timing').open = false")
    # half-bits that did not fit at the very begin come before their comment
    left(browser)
    unfit = b"# half-bits that did not fit"
    connected(browser, b"\r\n65535*7 %s: 7\r\n58*5 %s: 9\r\n65535*2 " % (unfit, unfit))
    gaps = browser.js("page.sniffer.live.gaps.map(({ from, unfit }) => [from, unfit])")
    same("each place where half-bits did not fit", gaps, [[0, 7], [12, 2]])
    left(browser)
    packet = " ".join(map(str, body([255, 0, 255]))) + " "
    connected(browser, b"\r\n" + packet.encode())
    time.sleep(1.2)
    looked(browser)
    fed(browser, packet.encode() * 150)
    # a look and its result in one step, since the page looks again and again by its own clock
    look = "page.sniffer.drawn = 0, page.sniffer.look()"
    result = "[document.getElementById('live-text').textContent, page.sniffer.live.marks]"
    rate, [first, *_, last] = browser.js(f"({look}, {result})")
    # the time of the last look is on the clock of the page
    wanted = (151 - first["packets"]) / ((last["now"] - first["now"]) / 1000)
    found = re.search(r"([\d.]+) packets a second", rate)
    is_near = found and abs(float(found[1]) - wanted) <= 0.06 + wanted / 50
    check("packets a second", is_near, [rate, wanted])
    time.sleep(5.2)
    looked(browser)
    looked(browser)
    text = browser.text("#live-text")
    check("no packets a second after a silence", text.startswith("0.0 packets"), text)
    check("the silence has a sentence", "No half-bits come" in browser.fault(), browser.fault())
    fed(browser, packet.encode())
    same("it goes when half-bits come", browser.fault(), "")
    left(browser)
    same("the end has no sentence", browser.fault(), "")


@with_board
def saves(browser, program):
    """The half-bits as a capture, while they come and after the end."""
    before, after = recorded()
    cut = after.index(b" ", 4000) + 1
    connected(browser, before + after[:cut])
    saved = kept(browser)
    same("saved while packets come: the list", show(program, saved)[0], show(program, after[:cut].decode())[0])
    fed(browser, after[cut:])
    left(browser)
    saved = kept(browser)
    same("saved after the end: the half-bits", [*words_of(saved.encode())], merged(words_of(after)))
    check("its comments say where half-bits did not fit", "# 488 half-bits did not fit" in saved)
    check("its lines are short", max(map(len, saved.splitlines())) < 200)
    browser.paste(saved)
    same("the page reads it", browser.listing(), show(program, after.decode())[0])
    same("another capture hides the line of the sniffer", browser.is_seen("#live"), False)
    # another capture ends the reading
    connected(browser, before + after)
    browser.paste("58*28 100*14 58*4 100*4 58*4 100*6 58*2 100*6 58*4 100*8 58*4")
    browser.wait("page.sniffer.port === null")
    time.sleep(2 * LOOK)
    same("another capture stays", browser.js("page.outcomes.length"), 1)
    same("its field stays", browser.js("document.getElementById('text').value.length") > 20, True)


def merged(words):
    """Runs of which no two neighbours have one duration."""
    list_ = []
    for us, n in words:
        if list_ and list_[-1][0] == us:
            list_[-1] = us, list_[-1][1] + n
        else:
            list_.append((us, n))
    return list_


def kept(browser):
    file = pathlib.Path(browser.room) / "track.txt"
    file.unlink(missing_ok=True)
    browser.ask("Browser.setDownloadBehavior", behavior="allow", downloadPath=browser.room)
    pressed(browser, "keep")
    for _ in range(500):
        if file.exists() and file.stat().st_size:
            return file.read_text()
        browser.js("0")
        time.sleep(0.02)
    raise RuntimeError("no file was saved")


@with_board
def fails(browser, program):
    """A port that is not chosen or busy, a board that is unplugged, and bytes that are lost."""
    before, after = recorded()
    refused(browser)
    # a cut within a word: only the words before it count
    cut = after.index(b"*", 5000) + 2
    connected(browser, before + after[:cut])
    browser.js("board.unplug()")
    browser.wait("page.sniffer.port === null")
    check("an unplugged board has a sentence", "The device has been lost." in browser.fault(), browser.fault())
    whole = after[: max(after.rindex(it, 0, cut) for it in (b" ", b"\n"))]
    shown_is(browser, program, "a board that is unplugged", whole)
    same("its button connects again", browser.text("#connect"), "Connect a sniffer")
    check("its half-bits can be saved", browser.is_seen("#keep") and not browser.is_seen("#pause"))
    # the board goes on with its runs until it reads the letter
    connected(browser, after[after.index(b"#") - 300 : after.index(b" ", 5000) + 1] + after)
    same("a second connect has no sentence", browser.fault(), "")
    shown_is(browser, program, "a second connect", after)
    left(browser)
    # bytes that the browser lost: the word before and the word behind are cut
    one, other = after.index(b" 100", 2000) + 3, after.index(b" 58", 6000) + 2
    connected(browser, before + after[:one])
    browser.js("board.overflow()")
    fed(browser, after[other:])
    runs = after[: after.rindex(b" ", 0, one)] + b" 65535 " + after[after.index(b" ", other) :]
    shown_is(browser, program, "an overflow of the browser", runs)
    lacks = browser.text("#live-lacks")
    same("an overflow is told", lacks, "Half-bits are missing at 1 other place.")
    gaps = browser.js("page.capture.items.flatMap((it) => it.gaps ?? []).map(gapText)")
    same("its place is in the list", gaps, ["bytes of the port were lost before this."])
    left(browser)
    # bytes that were lost without a word of it
    connected(browser, b"\r\n58*28 100*2 585858 58*3 58**4 100 70000 ")
    halves = browser.halves().split()[30:]
    fed(browser, b"65535*3 ")
    browser.js("board.overflow()")
    fed(browser, b" 58 ")
    comment = "# bytes of the port were lost before this."
    check("a saved gap ends a run", kept(browser).endswith(f"65535*4\n{comment}\n65535 58\n"), kept(browser))
    same("a word that is too long is a gap", halves, ["65535", "58", "58", "58", "65535", "100", "65535"])
    left(browser)


def without_serial():
    """A browser that has no Web Serial."""
    browser = Browser(before="Object.defineProperty(navigator, 'serial', { value: undefined })")
    try:
        text = browser.text("#connect")
        same("without Web Serial the button says so", text, "Connect a sniffer: this browser has no Web Serial")
        same("and cannot be pressed", browser.js("document.getElementById('connect').disabled"), True)
        same("no complaint without Web Serial", browser.complaints, [])
    finally:
        browser.close()


def refused(browser):
    """A port that the user does not choose, or that cannot be opened."""
    was = browser.js("page.outcomes.length")
    browser.js("window.kept = board; window.board = null; document.getElementById('connect').click()")
    browser.js("new Promise((done) => setTimeout(done, 50))")
    browser.js("window.board = window.kept")
    same("without a port nothing changes", [browser.fault(), browser.js("page.outcomes.length")], ["", was])
    browser.js("board.fails = 'Failed to open serial port.'; document.getElementById('connect').click()")
    browser.wait("!document.getElementById('fault').hidden")
    check("a port that another program has", "Failed to open serial port." in browser.fault(), browser.fault())
    same("the list stays", browser.js("page.outcomes.length"), was)
    browser.js("window.board = null; document.getElementById('connect').click()")
    browser.js("new Promise((done) => setTimeout(done, 50))")
    browser.js("window.board = window.kept")
    same("the next attempt hides the sentence", browser.fault(), "")
    browser.js("board.fails = null")
    browser.js("for (const _ of [1, 2]) document.getElementById('connect').click()")
    browser.wait("page.sniffer.port !== null")
    same("two clicks open one port", browser.js("board.opened.length"), 1)
    left(browser)


@with_board
def began_anew(browser, program):
    """A board that is reset lists packets again, so the page sends the letter again."""
    before, after = recorded()
    cut = after.index(b" ", 3000) + 1
    connected(browser, before + after[:cut])
    browser.js("board.letters = ''")
    fed(browser, before)
    browser.wait("board.letters !== ''")
    fed(browser, after)
    number = before.split(b" ", 1)[0]
    shown_is(browser, program, "a board that began anew", after[:cut] + number + b" 65535 " + after)
    check("that is told", "1 other place" in browser.text("#live-lacks"), browser.text("#live-lacks"))
    left(browser)
    late = after.index(b" ", 6000) + 1
    connected(browser, before + after[:late] + b"\r\n" + after[2:])
    shown_is(browser, program, "a sketch that began anew", after[:late] + b"65535 " + after)
    unfit = browser.text("#live-lacks")
    check("half-bits that did not fit count anew", unfit.startswith(f"{2 * 488} half-bits did not fit"), unfit)
    left(browser)


@with_board
def strangers(browser, program):
    """Boards that send no runs: each has a sentence of its own within some seconds, and letters go on."""
    noise = random.Random(7).randbytes(3000)
    for name, (data, sentence) in {
        "a wrong rate": (noise, "no runs of half-bits"),
        "packets that stay packets": (recorded()[0], "no runs of half-bits"),
        "a board without the sketch": (b"", "sends nothing"),
        "a track without a signal": (b"\r\n", "measures no half-bits"),
    }.items():
        connected(browser)
        browser.js("board.answer = () => board.feed(decode(%s))" % json.dumps(base64.b64encode(data).decode()))
        browser.wait("!document.getElementById('fault').hidden")
        browser.wait("board.letters.length > 3")
        check(f"{name} has a sentence", sentence in browser.fault(), browser.fault())
        same(f"{name}: no half-bits", browser.js("page.halves.count"), 0)
        browser.js("board.answer = null")
        fed(browser, recorded()[1])
        same(f"{name}: the sentence goes when runs come", browser.fault(), "")
        check(f"{name}: then packets come", browser.js("page.outcomes.length") > 20)
        left(browser)


def rough(seed):
    """Half-bits of packets and of noise, the same in each run. Each fourth seed has only short preambles."""
    dice, halves = random.Random(seed), []
    while len(halves) < 9000:
        frame = [dice.choice((3, 255, 0)), *(dice.randrange(256) for _ in range(dice.randrange(1, 4)))]
        error = 0
        for it in frame:
            error ^= it
        own = body([*frame, error ^ (dice.random() < 0.1)], dice.choice((14, 14, 16, 8, 5, 4)[4 * (seed % 4 == 0) :]))
        if dice.random() < 0.3:
            own[dice.randrange(len(own))] = dice.choice((30, 51, 65, 76, 77, 89, 10001, 65535))
        halves += own[: dice.randrange(len(own)) if dice.random() < 0.1 else None]
    return halves


# what a capture that forgets has, and what a search of its half-bits finds
FORGETS = """(([halves, most]) => {
    const live = new Live(page.dcc, most);
    for (const us of halves) live.push(us, 1);
    live.search();
    const outcomes = unpackOutcomes(page.dcc, page.dcc.outcomes(live.halves));
    const lost = page.dcc.lost(live.halves).map((it) => ({ ...it, bytes: page.dcc.frameOf(it.bytes) }));
    const told = (items, timings) => [
        ...items.map(({ at, time, refusal, bytes, heard, lost }) => [at, time, refusal, bytes, heard, lost ?? null]),
        timingText(timings.told()),
    ];
    const wanted = new Timings().take(live.halves, outcomes, lost);
    const { forgotten } = live;
    return { is: told(live.items, live.timings), wanted: told(mergedItems(outcomes, lost), wanted), forgotten };
})(%s)"""


@with_board
def forgets(browser, program):
    """A capture that is as large as it may be forgets its oldest half-bits."""
    before, after = recorded()
    for most in (3000, 4000, 9000):
        browser.js(f"page.sniffer.most = {most}")
        connected(browser, before + after * 2, [500])
        pressed(browser, "pause")
        was = browser.halves()
        fed(browser, after[2:] * 2, [500])
        same(f"a paused list keeps its {most} half-bits", browser.halves(), was)
        pressed(browser, "pause")
        shown = browser.js("page.halves.count")
        check(f"at most {most} half-bits are kept", most / 2 < shown <= most, shown)
        saved = kept(browser).encode()
        # a gap before the cut has no comment
        shown_is(browser, program, f"the last {most} half-bits", saved)
        whole = [us for us, n in words_of(after * 2 + after[2:] * 2) for _ in range(n)]
        whole = whole[: sum(n for _, n in words_of(after))] + [65535] + whole[sum(n for _, n in words_of(after)) :]
        same(f"they are the last {most}", [int(it) for it in browser.halves().split()], whole[-shown:])
        lacks = browser.text("#live-lacks")
        check("that is told", f"forgotten the first {len(whole) - shown:,}" in lacks, lacks)
        left(browser)
    for seed in range(60):
        own = browser.js(FORGETS % json.dumps([rough(seed), (2000, 3000, 5000)[seed % 3]]))
        check(f"what is left of noise {seed} is what a new search finds", own["is"] == own["wanted"], own)
        check(f"noise {seed} is forgotten in part", own["forgotten"] > 1000, own["forgotten"])
    browser.js("page.sniffer.most = MOST_HALVES")
    largest = 16777216
    connected(browser, b"\r\n" + after[2:] + b"58*1000 " * (largest // 1000 + 10), [100000])
    browser.wait("page.sniffer.live.forgotten > 0")
    shown = browser.js("page.sniffer.live.halves.count")
    check("of the largest capture the last three quarters stay", largest * 0.7 < shown <= largest, shown)
    left(browser)


def spent(browser):
    """The processor seconds of all processes of a browser."""
    seconds = 0
    for folder in pathlib.Path("/proc").glob("[0-9]*"):
        try:
            if browser.room in (folder / "cmdline").read_text():
                words = (folder / "stat").read_text().rsplit(")", 1)[1].split()
                seconds += (int(words[11]) + int(words[12])) / os.sysconf("SC_CLK_TCK")
        except OSError:
            pass
    return seconds


class Slowness(threading.Thread):
    """Measures how much slower the processors are than at their best, for example since other programs share their
    cores. `factor` is the ratio of the mean time of an equal piece of work to its least time."""

    def __init__(self):
        super().__init__(daemon=True)
        self.times, self.has_ended = [], threading.Event()
        self.start()

    def run(self):
        while not self.has_ended.wait(0.1):
            begin = time.thread_time()
            sum(it * it for it in range(20000))
            self.times.append(time.thread_time() - begin)

    def factor(self):
        self.has_ended.set()
        self.join()
        return sum(self.times) / len(self.times) / min(self.times)


# the seconds of a full track in each gate. With SECONDS=60 the test plays a minute
SECONDS = int(os.environ.get("SECONDS", 30))


@with_board
def costs(browser, program):
    """A full track costs at most a tenth of a processor."""
    dice = random.Random(4)
    lines = monitor.random_lines(300)
    halves = [int(it) for it in monitor.encoded(program, lines).split()]
    runs, total = [], 0
    while total < 1000000 * SECONDS:
        for it in halves:
            us = it + dice.choice((-1, 0, 1))
            total += us
            runs.append(us)
    text = " ".join(map(str, runs)).encode() + b" "
    connected(browser, b"\r\n58 58 ")
    browser.js("document.getElementById('own').click(); document.getElementById('timing').open = true")
    browser.pick("who", "s3")
    browser.js("window.bytes = decode(%s)" % json.dumps(base64.b64encode(text).decode()))
    time.sleep(2)
    before, slowness = spent(browser), Slowness()
    browser.js(
        """new Promise((done) => {
        const [begin, seconds] = [performance.now(), %d];
        let at = 0;
        const timer = setInterval(() => {
            const part = Math.min(1, (performance.now() - begin) / 1000 / seconds);
            const end = Math.floor(part * bytes.length);
            board.feed(bytes.slice(at, end));
            at = end;
            if (at < bytes.length) return;
            clearInterval(timer);
            done();
        }, 50);
    })"""
        % SECONDS
    )
    took, slower = spent(browser) - before, slowness.factor()
    looked(browser)
    heard = browser.js("page.outcomes.length")
    told = f"{took:.2f} s of a processor, which other programs made {slower:.2f} times slower"
    print(f"{SECONDS} s of a full track, {len(runs):,} half-bits, {heard:,} packets: {told}")
    check("a full track costs a tenth of a processor", took <= SECONDS / 10 * slower, told)
    check("all its packets are there", heard >= len(runs) // len(halves) * len(lines) - 2, heard)
    browser.js("document.getElementById('timing').open = false")
    left(browser)


def recording(program):
    """The recording is what the sketch writes today."""
    core, simavr = "/usr/share/arduino/hardware/arduino/avr/boards.txt", "/usr/include/simavr/sim_avr.h"
    if not all(map(shutil.which, ("avr-gcc", "cc"))) or not all(map(os.path.exists, (core, simavr))):
        print("left out: whether the recording is what the sketch writes, since a tool for AVR is not here")
        return
    done = subprocess.run([WEB / "record", "--check", program], capture_output=True, text=True)
    check("the recording is what the sketch writes", done.returncode == 0, done.stdout + done.stderr)


PARTS = [plays, follows, told, saves, fails, began_anew, strangers, forgets, without_serial]

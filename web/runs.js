// The text of the sketch Sniffer (bindings/arduino): half-bits in runs after the letter r. Nothing here is proved.

/** The begin of a list of runs: the end of a line but not of a comment, and then two runs, with or without comments. A
 * list of packets has no two numbers at the begin of a line. */
const BEGIN = /(?<!: \d{1,10})\r\n(?=(?:(?:#[^\n]*\n)*\d{1,5}(?:\*\d{1,4})?[ \n]){2})/;

/** A comment, the empty line of a sketch that begins anew, a gap, or a run. */
const TOKEN = /#([^\n]*)\n|(\r\n)|[ \n]|(\d{1,5})(?:\*(\d{1,4}))?(?=[ \n])/y;

/** A token whose end has not come. */
const BEGUN_TOKEN = /^(?:#[^\n]{0,99}|\r|\d{1,5}(?:\*\d{0,4})?)$/;

/** The number of characters that are kept while no list of runs has begun. */
const KEPT = 200;

/** A reader of the text, which comes in pieces. It calls `push` of `live` with each run, `unfit` with the number of
 * half-bits that did not fit so far, and `lose` where half-bits are missing. */
class Runs {
  constructor(live) {
    Object.assign(this, { live, rest: '', isBegun: false, isCut: false });
  }

  take(text) {
    this.rest += text;
    if (!this.isBegun) this.seek();
    let at = 0;
    while (this.isBegun && at < this.rest.length) {
      const next = this.isCut ? this.skip(at) : this.takeToken(at);
      if (next === null) break;
      at = next;
    }
    this.rest = this.rest.slice(at);
  }

  /** Waits for a list of runs. */
  seek() {
    const begin = this.rest.match(BEGIN);
    this.isBegun = begin !== null;
    this.rest = begin ? this.rest.slice(begin.index + 2) : this.rest.slice(-KEPT);
  }

  /** Takes the token at a place. Returns the place after it, or null if its end has not come. */
  takeToken(at) {
    TOKEN.lastIndex = at;
    const token = TOKEN.exec(this.rest);
    if (!token) return BEGUN_TOKEN.test(this.rest.slice(at)) ? null : this.refuse(at);
    const [, comment, empty, us, n = 1] = token;
    const unfit = comment?.match(/did not fit: (\d+)/)?.[1];
    if (us !== undefined) this.live.push(Math.min(Number(us), LONGEST), Number(n));
    else if (unfit !== undefined) this.live.unfit(Number(unfit));
    else if (empty !== undefined) this.live.lose(ANEW);
    return TOKEN.lastIndex;
  }

  /** Takes a word that is no run. After a word with other characters than those of runs, the sketch lists packets. */
  refuse(at) {
    const [word] = this.rest.slice(at).match(/^[^ \n]*/);
    this.isBegun = /^[\d*]*$/.test(word);
    this.isCut = this.isBegun;
    this.live.lose(this.isBegun ? BYTES_LOST : ANEW);
    return at;
  }

  /** Goes on after bytes of the port were lost. The word that they cut does not count. */
  goOn() {
    if (!this.isBegun) return;
    Object.assign(this, { rest: '', isCut: true });
    this.live.lose(BYTES_LOST);
  }

  /** Returns the place after the word that is cut, or null if its end has not come. */
  skip(at) {
    const gap = this.rest.slice(at).search(/[ \n]/);
    if (gap < 0) return null;
    this.isCut = false;
    return at + gap;
  }
}

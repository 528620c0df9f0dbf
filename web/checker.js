// The check of a trace, by swd_check_* of the library: whether a target that conforms to the port model may show its
// items. `web/make` puts this behind captures.js.
const RULES = @RULES@;  // the names of swd_rule_name in include/swd.h

const STARTS = { made: 1, rest: 2, any: 3 };     // SWD_MADE and the others of include/swd.h
const FITS = 1, BREAKS = 2, CROWDED = 3;
const REFUSED_BITS = 13, GAP_BITS = 35;          // of WAIT and FAULT; stray bits that are a gap, as in swd_check
const ACKS = [1, 2, 4];                          // OK, WAIT and FAULT

// The fields of struct swd_check, in their order: those of a world first.
const CHECK_FIELDS = ("faults buffer_places buffer_word buffer_kind last_places last_word last_kind tar_first tar_more "
  + "tar_known reset sticky_error write_error read_ok debug system mem_ap bank0 increments pending awaits "
  + "id_places id_word id_kind began faults_before gaps broken crowded select count overfull opening clean has_began "
  + "in_gap stray rule is_crowded").split(" ");

// The library's checker over a struct in the module's memory.
function checker(lib, start, clean) {
  const { exports: x, bytes, words, inItem, itemAt: item, free } = lib, view = new DataView(bytes.buffer);
  x.swd_check_layout(BigInt(free));
  const end = layoutEnd(words, free), [worldSize, checkSize, size] = [32, 24, 16].map(it => words[end - it >> 2]);
  const checkAt = free + (worldSize + 7 & ~7), verdictAt = checkAt + (checkSize + 7 & ~7);
  const { count } = offsets(bytes.slice(checkAt, checkAt + checkSize), CHECK_FIELDS);
  const at = offsets(bytes.slice(verdictAt, verdictAt + size),
    ["place", "began", "faults", "gaps", "kind", "rule", "has_began"]);
  const check = BigInt(free), verdict = free + (checkSize + 15 & ~15);
  const number = field => Number(view.getBigUint64(field, true));
  let isAnswered = false;  // whether the target acknowledged a request that was checked, as in swd_check
  if (!x.swd_check_new(check, start, clean))
    throw Error("the library refused to check");
  return {
    // Takes an item of so many bits at a place.
    watch(fields, place) {
      bytes.fill(0, item, item + lib.itemSize);
      view.setBigUint64(item + inItem.count, BigInt(fields.count || 0), true);
      view.setBigUint64(item + inItem.bits, fields.bits || 0n, true);
      view.setUint32(item + inItem.word, fields.word || 0, true);
      for (const name of ["kind", "request", "ack", "parity_ok"])
        bytes[item + inItem[name]] = fields[name] || 0;
      if (!x.swd_check_watch(check, BigInt(item), BigInt(place)))
        throw Error(`the library refused to check the item at ${place}`);
      isAnswered ||= fields.kind === TRANSACTION && ACKS.includes(fields.ack) && bytes[free + count] > 0;
    },
    verdict() {
      if (!x.swd_check_verdict(check, BigInt(verdict)))
        throw Error("the library has no verdict");
      const field = name => number(verdict + at[name]), byte = name => bytes[verdict + at[name]];
      return { kind: byte("kind"), rule: byte("rule"), begun: byte("has_began"), place: field("place"),
        began: field("began"), faults: field("faults"), gaps: field("gaps"), isAnswered };
    },
  };
}

// Why a session leaves the model, in the words of swd_check's Leaving.
const OVERRUN = "overrun detection may have acted";
const SENT_ON = "data was sent behind a write that wasn't acknowledged";

// Where a session leaves the model by overrun detection, as swd_check's Overrun has it.
class Overrun {
  constructor(on, clean) { Object.assign(this, { on, clean, bank0: true, elsewhere: false }); }
  // Takes a transaction. Returns whether it leaves the model.
  leaves(head, answer, word) {
    const ack = answer & 7, isGood = answer === 1, leaves = this.on && (ack === 2 || ack === 4 || answer === 9);
    if (ack === 1 && (isGood || !this.clean))
      this.write(head, word, isGood);
    return leaves;
  }
  // A write of CTRL/STAT or of SELECT, which was stored or may have been.
  write(head, word, isStored) {
    if (head === 4) {
      if (this.bank0 && word & 1)
        this.on = true;
      else if (isStored && !this.elsewhere)
        this.on = false;
    } else if (head === 8) {
      const bank0 = (word & 15) === 0;
      this.bank0 = bank0 || !isStored && this.bank0;
      this.elsewhere = !bank0 || !isStored && this.elsewhere;
    }
  }
}

// Where data may have been sent behind a write that wasn't acknowledged, as swd_check's Recent has it.
class Unanswered {
  constructor(clean) { Object.assign(this, { clean, isLost: false, isSent: false }); }
  // Takes a record. Returns whether it is a line reset behind such a write and further bits.
  ends(kind, head, answer) {
    const ends = kind === RESET && this.isLost && this.isSent;
    if (kind === TRANSACTION)
      Object.assign(this, { isLost: !this.clean && !(head & 2) && !ANSWERS[answer], isSent: false });
    this.isLost = this.isLost && kind !== RESET;
    this.isSent = this.isSent || kind === JUNK || kind === SKIP;
    return ends;
  }
}

// The eight bits of a request: `head` is APnDP, RnW and the address.
function requestOf(head) {
  const parity = (head ^ head >> 1 ^ head >> 2 ^ head >> 3) & 1;
  return 0x81 | head << 1 | parity << 5;
}

// Whether a transaction belongs to a gap: a skip follows it, with nothing or idle cycles between.
function isInGap(items, record) {
  let next = record + 1;
  while (next < items.records && items.kind[next] === IDLE)
    next++;
  return next < items.records && items.kind[next] === SKIP;
}

// Gives the items of a record, as one of this kind, to a checker.
function watchRecord(check, items, record, kind) {
  const { capture } = items, place = items.from[record];
  const length = items.from[record + 1] - place, watch = (fields, behind = 0) => check.watch(fields, place + behind);
  if (kind === TRANSACTION) {
    const answer = items.answer[record], ack = answer & 7;
    watch({ kind, request: requestOf(items.head[record]), ack,
      ...ack === 1 && { word: items.word[record], parity_ok: answer === 1 } });
    if (length > REFUSED_BITS && ack !== 1)  // the data phase that overrun detection has behind WAIT and FAULT
      watch({ kind: IDLE, count: length - REFUSED_BITS }, REFUSED_BITS);
  } else if (kind === JUNK || kind === SKIP) {
    for (let i = 0; i < Math.min(length, GAP_BITS); i++)
      watch({ kind: JUNK, bits: BigInt(kind === JUNK && capture.bit(place + i)) }, i);
  } else if (kind === CUT) {
    watch({ kind, count: length, bits: BigInt("0b" + capture.slice(place, place + length).reverse().join("")) });
  } else {
    watch({ kind, count: kind === SWITCH ? 0 : length });
  }
}

// Returns the verdict on the items, {kind, place, line}, with the line of `swd check` up to the rule's name; null as
// soon as `stopped()`. Where the session leaves the model the check begins anew at the next line reset, as behind a
// gap.
async function judge(lib, items, { start, clean, overrun }, stopped) {
  const check = checker(lib, STARTS[start], Number(clean)), detection = new Overrun(overrun, clean);
  const unanswered = new Unanswered(clean);
  let outside = -1, why = "", isOutside = false, isHidden = false, until = performance.now() + 40;
  for (let record = 0; record < items.records; record++) {
    const place = items.from[record], is = items.kind[record];
    isHidden = is === TRANSACTION ? isInGap(items, record) : isHidden && is === IDLE;
    const kind = isHidden ? SKIP : is;
    const leaves = kind === TRANSACTION
      && detection.leaves(items.head[record], items.answer[record], items.word[record]);
    const ends = unanswered.ends(kind, items.head[record], items.answer[record]);
    isOutside = isOutside && kind !== RESET;
    if (ends || leaves && !isOutside) {
      isOutside = leaves;
      if (outside < 0)
        [outside, why] = [place, ends ? SENT_ON : OVERRUN];
      for (let i = 0; i < GAP_BITS; i++)
        check.watch({ kind: JUNK }, place);
    }
    if (!isOutside || kind !== TRANSACTION)
      watchRecord(check, items, record, kind);
    if (record % 64 === 0 && performance.now() > until) {
      await pause();
      if (stopped())
        return null;
      until = performance.now() + 40;
    }
  }
  const { kind, place, rule, begun, began, faults, gaps, isAnswered } = check.verdict(), isBroken = kind === BREAKS;
  const isChecked = begun && (isAnswered || outside >= 0);
  const crowded = kind === CROWDED ? place : isBroken || isChecked ? -1 : 0;
  if (isBroken)
    return { kind: "breaks", place, line: `breaks @${place} ${items.line(items.at(place))}: ${RULES[rule]}` };
  if (crowded >= 0 && (outside < 0 || crowded < outside))
    return { kind: "crowded", place: crowded, line: `crowded @${crowded}` };
  if (outside >= 0)
    return { kind: "outside", place: outside, line: `outside @${outside}: ${why}` };
  return { kind: "fits", place: -1, line: `fits ${items.size}${began ? ` from @${began}` : ""}`
    + `${faults ? ` faults ${faults}` : ""}${gaps ? ` gaps ${gaps}` : ""}` };
}

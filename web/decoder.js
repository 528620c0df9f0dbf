// The decoder of the page: the library's calls, the lengths and fields that it answers, and the items of a trace.
const MODULE = "@MODULE@";    // libswd_c.a as a wasm64 module, in base64; `web/make` puts it here
const PRINTER = "@PRINTER@";  // libswd_page.a, likewise

// Kinds of items, and the fields of a request, as include/swd.h has them. A skip is of the page alone.
const RESET = 1, SWITCH = 2, IDLE = 3, TRANSACTION = 4, JUNK = 5, CUT = 6, SKIP = 7;
const isAp = request => request >> 1 & 1;
const isRead = request => request >> 2 & 1;
const address = request => (request >> 3 & 3) << 2;

const ROOM = 32768;  // for structs in the module's memory

const base64 = text => Uint8Array.from(atob(text), c => c.charCodeAt(0));

// ---- the library -----------------------------------------------------------------------------------------------

// Returns the offset of each field in a struct that swd_layout filled: each field there has a number of its own, in
// the order of the header.
function offsets(bytes, names) {
  const first = new Map();
  bytes.forEach((number, at) => { if (number && !first.has(number)) first.set(number, at); });
  const numbers = [...first.keys()].sort((a, b) => a - b);
  if (numbers.length != names.length)
    throw Error(`the library's struct has ${numbers.length} fields, the page expects ${names.length}`);
  return Object.fromEntries(names.map((name, i) => [name, first.get(numbers[i])]));
}

// Returns where a layout ends: it has the sizes of its structs and its own at its end.
function layoutEnd(words, start) {
  let end = start;
  do
    end += 8;
  while (words[end - 8 >> 2] != end - start || words[end - 4 >> 2]);
  return end;
}

// Returns the decoder's exports over structs in the module's memory: `main` reads the trace, `probe` answers
// questions about single items. Both write their item to the same struct, which the getters read.
async function load() {
  const { instance } = await WebAssembly.instantiate(base64(MODULE), {}).catch(reason => {
    throw Error(`this browser doesn't run WebAssembly with 64-bit memory: ${reason.message}`);
  });
  const x = instance.exports, start = Number(x.__heap_base.value) + 15 & ~15;
  if (x.memory.buffer.byteLength < start + ROOM)
    x.memory.grow(BigInt(Math.ceil(ROOM / 65536)));
  const bytes = new Uint8Array(x.memory.buffer), words = new Uint32Array(x.memory.buffer);

  x.swd_layout(BigInt(start));
  const end = layoutEnd(words, start);
  const [engine, cue, access, decoderSize, itemSize] = [0, 1, 2, 3, 4].map(i => words[end - 64 + 8 * i >> 2]);
  const decoderAt = start + (engine + cue + access + 7 & ~7), itemAt = decoderAt + decoderSize;
  const inDecoder = offsets(bytes.slice(decoderAt, itemAt), ["fed", "run", "bits", "mode", "one", "len"]);
  const inItem = offsets(bytes.slice(itemAt, itemAt + itemSize),
    ["count", "bits", "word", "kind", "request", "ack", "parity_ok"]);

  const main = end + 15 & ~15, probe = main + decoderSize, item = probe + decoderSize;
  const word = at => at >> 2;
  const count = word(item + inItem.count), bits = word(item + inItem.bits), value = word(item + inItem.word);
  const kind = item + inItem.kind, request = item + inItem.request, ack = item + inItem.ack;
  const parity = item + inItem.parity_ok, fed = word(main + inDecoder.fed), to = BigInt(item);
  const decoder = at => ({
    renew: () => x.swd_decoder_new(at),
    take: (bits, count) => x.swd_decoder_take(at, bits, count),
    due: () => x.swd_decoder_due(at, to),
    last: () => x.swd_decoder_last(at, to),
  });
  return {
    main: decoder(BigInt(main)), probe: decoder(BigInt(probe)),
    fed: () => words[fed] + words[fed + 1] * 2 ** 32,
    kind: () => bytes[kind], request: () => bytes[request], ack: () => bytes[ack], parityOk: () => bytes[parity],
    word: () => words[value], count: () => words[count] + words[count + 1] * 2 ** 32, bit: () => words[bits],
    bits: () => words.slice(bits, bits + 2),
    item: () => ({ kind: bytes[kind], request: bytes[request], ack: bytes[ack], parityOk: bytes[parity],
      word: words[value] }),
    // for checker.js: the module's exports, memory and item, and where nothing is
    exports: x, bytes, words, itemAt: item, inItem, itemSize, free: item + itemSize + 15 & ~15,
  };
}

// Returns the items that `bits`, a list of 0 and 1, read as from the start of a trace: with `padded` the first item
// where zeros follow, else all items where the trace ends there; the first `decided` of them hold whatever follows.
function itemsOf(lib, bits, padded) {
  const items = [], probe = lib.probe;
  probe.renew();
  for (let i = 0; i < bits.length || padded && i < bits.length + 1000; i++) {
    probe.take(i < bits.length && bits[i] ? 1n : 0n, 1);
    while (probe.due()) {
      items.push(lib.item());
      if (padded)
        return items;
    }
  }
  items.decided = items.length;
  while (probe.last())
    items.push(lib.item());
  return items;
}

// ---- lengths and fields, asked of the library -------------------------------------------------------------------

// Returns the number of bits in a junk item: of a trace that is junk throughout, bits by items.
function junkLength(lib) {
  const bits = [1, ...Array(63).fill(0)], items = itemsOf(lib, bits);
  if (items.some(item => item.kind != JUNK))
    throw Error("the library reads no junk where the page expects it");
  return bits.length / items.length;
}

// Returns the length of the item at `from`: the least number of its bits that the library reads as that item, behind
// the item at `before`, where that is another.
function leastLength(lib, capture, before, from, same) {
  const place = before < from ? 1 : 0;
  for (let length = 1; from + length <= capture.count; length++) {
    const items = itemsOf(lib, capture.slice(before, from + length));
    if (items.length > place && same(items[place]))
      return length;
    if (items.decided > place)
      break;
  }
  throw Error(`the library doesn't read the bits from ${from} on as it did`);
}

// Returns the fields of a transaction as [{name, length}]: the page changes each bit in turn, and the library says
// what of the item changes with it. A bit that changes nothing is a turnaround.
function fieldsOf(lib, bits) {
  const read = (...places) => itemsOf(lib, bits.map((bit, i) => places.includes(i) ? 1 - bit : bit), true)[0];
  const base = read();
  const roles = bits.map((_, i) => {
    const item = read(i);
    return item.kind != TRANSACTION ? "request" : item.ack != base.ack ? "ACK" : item.word != base.word ? "Data"
      : item.parityOk != base.parityOk ? "Parity" : "Trn";
  });
  // One changed bit of a request makes it none. Two do so but where they change its parity back: which bits of the
  // request's number change then names them.
  const request = roles.flatMap((role, i) => role == "request" ? [i] : []);
  const parts = item => [["APnDP", isAp(item.request)], ["RnW", isRead(item.request)],
    ["A[2]", address(item.request) & 4], ["A[3]", address(item.request) & 8]];
  const named = new Map();
  for (const i of request) {
    for (const j of request.filter(j => j > i)) {
      const item = read(i, j);
      const changed = item.kind == TRANSACTION ? parts(item).filter(([, part], k) => part != parts(base)[k][1]) : [];
      if (changed.length == 1)
        named.set(changed[0][0], [...named.get(changed[0][0]) || [], i, j]);
    }
  }
  // The bits of these pairs that stand in each are the parity.
  const pairs = [...named.values()], parity = request.find(i => pairs.length && pairs.every(pair => pair.includes(i)));
  for (const [name, pair] of named)
    roles[pair.find(i => i != parity)] = name.startsWith("A[") ? "A[2:3]" : name;
  if (parity !== undefined)
    roles[parity] = "Parity";
  const rest = request.filter(i => roles[i] == "request"), fixed = ["Start", "Stop", "Park"];
  if (named.size != 4 || rest.length != fixed.length)
    throw Error("the page can't tell the fields of a request by the library's answers");
  rest.forEach((i, k) => { roles[i] = fixed[k]; });
  const fields = [];
  for (const name of roles) {
    const last = fields[fields.length - 1];
    if (last && last.name == name)
      last.length++;
    else
      fields.push({ name, length: 1 });
  }
  return fields;
}

// ---- the printer -------------------------------------------------------------------------------------------------

// Prints a whole trace file, in a worker: what `swd decode` prints by these options. The struct is SwdPage of
// crates/swd_page.
async function printer({ data: { module, text, reading, printed } }) {
  const { instance } = await WebAssembly.instantiate(module, {});
  const x = instance.exports, page = Number(x.__heap_base.value) + 15 & ~15, size = 2 ** 27, bytes = page + 17;
  const at = bytes + size + 15, pages = Math.ceil((at + text.length - x.memory.buffer.byteLength) / 65536);
  if (pages > 0)
    x.memory.grow(BigInt(pages));
  new Uint8Array(x.memory.buffer).set(text, at);
  x.swd_page_print(BigInt(page), BigInt(at), BigInt(text.length), reading, printed);
  const view = new DataView(x.memory.buffer), length = Number(view.getBigUint64(page, true));
  postMessage({ kind: view.getUint8(page + 16), number: Number(view.getBigUint64(page + 8, true)),
    printed: new Uint8Array(x.memory.buffer.slice(bytes, bytes + length)) });
}

// Returns what is printed of a trace file: `reading` and `form` are those of `swd_page_print`.
async function print(text, reading, form) {
  const url = URL.createObjectURL(new Blob([`onmessage = ${printer}`], { type: "text/javascript" }));
  const worker = new Worker(url);
  try {
    const { kind, printed } = await new Promise((resolve, reject) => {
      worker.onmessage = ({ data }) => resolve(data);
      worker.onerror = ({ message }) => reject(Error(message));
      worker.postMessage({ module: base64(PRINTER), text, reading, printed: form });
    });
    if (kind == 3)
      throw Error("the output is longer than 128 MiB");
    return printed;
  } finally {
    worker.terminate();
    URL.revokeObjectURL(url);
  }
}

// The lines of a printed text.
class Lines {
  constructor(bytes) {
    const ends = [];
    for (let end = bytes.indexOf(10); end >= 0; end = bytes.indexOf(10, end + 1))
      ends.push(end);
    Object.assign(this, { bytes, ends, size: ends.length });
  }
  line(i) {
    return String.fromCharCode(...this.bytes.subarray(i ? this.ends[i - 1] + 1 : 0, this.ends[i]));
  }
}

// ---- names -------------------------------------------------------------------------------------------------------

// The registers, by address, and the flags of their words, by bit: those of IHI 0031, as docs/PROTOCOL.md lists them.
const DP_READ = ["dpidr", , "resend", "rdbuff"], DP_WRITE = ["abort", , "select", "targetsel"];
const DP_4 = ["ctrl/stat", "dlcr", "targetid", "dlpidr", "eventstat"];
const AP = { 0: ["csw", "tar", "tar_high", "drw"], 1: ["bd0", "bd1", "bd2", "bd3"], 2: ["mbt"],
  15: ["base_high", "cfg", "base", "idr"] };
const FLAGS = {
  abort: { 0: "dapabort", 1: "stkcmpclr", 2: "stkerrclr", 3: "wderrclr", 4: "orunerrclr" },
  "ctrl/stat": { 0: "orun_detect", 1: "sticky_orun", 4: "sticky_cmp", 5: "sticky_err", 6: "read_ok", 7: "wdata_err",
    26: "cdbgrstreq", 27: "cdbgrstack", 28: "cdbgpwrupreq", 29: "cdbgpwrupack", 30: "csyspwrupreq",
    31: "csyspwrupack" },
  csw: { 6: "device_en", 7: "tr_in_prog", 23: "spiden", 31: "dbg_sw_enable" },
};

// Returns a register's name, what precedes it, and its flags. `select` is SELECT, or -1 where it isn't known.
function nameOf(head, select) {
  const ap = head & 1, read = head >> 1 & 1, place = head >> 2, address = (place << 2).toString(16);
  const bank = ap ? select >>> 4 & 15 : select & 15, port = ap ? select >>> 24 : 0;
  if (select < 0 && (ap || place == 1))
    return { name: address, before: "", flags: {} };
  const name = (ap ? (AP[bank] || [])[place] : place == 1 ? DP_4[bank] : (read ? DP_READ : DP_WRITE)[place]) || address;
  const banked = ap || place == 1;
  // A read of an access port returns the word of the read before it.
  return { name, before: (port ? `${port} ` : "") + (banked && bank ? `bank ${bank.toString(16)} ` : ""),
    flags: ap && read ? {} : FLAGS[name] || {} };
}

// ---- a trace and its items ---------------------------------------------------------------------------------------

const pause = () => new Promise(resume => setTimeout(resume));

// Reads the text of a trace, as bytes, in slices of some 40 ms. `packed` has the bits eight to a byte, the first in
// time least significant; `bad` is the offset of the first byte that is no part of a trace, or -1.
async function parse(text, stopped) {
  const packed = new Uint8Array((text.length >> 3) + 17);
  let count = 0, bad = -1, until = performance.now() + 40;
  for (let i = 0, slice = 0; i < text.length; i++) {
    const c = text[i];
    if (c === 48 || c === 49) {
      packed[count >> 3] |= (c & 1) << (count & 7);
      count++;
    } else if (c === 35) {
      while (i + 1 < text.length && text[i + 1] !== 10)
        i++;
    } else if (c !== 32 && c !== 9 && c !== 13 && c !== 10) {
      bad = i;
      break;
    }
    if (i >= slice) {
      slice = i + 1000000;
      if (performance.now() > until) {
        await pause();
        until = performance.now() + 40;
        if (stopped())
          return null;
      }
    }
  }
  const bit = i => packed[i >> 3] >> (i & 7) & 1;
  const slice = (from, to) => Array.from({ length: to - from }, (_, i) => bit(from + i));
  return { packed, count, bad, bit, slice };
}

// Why a text can't be read on, or has no bits, as `swd decode` says it; or "". The character is named in the first
// bytes.
function reasonOf(text, { bad, count }) {
  if (bad < 0)
    return count ? "" : "no bits found: a trace has a character 0 or 1 for each bit";
  const byte = text[bad];
  const named = bad >= 256 ? "" : byte > 32 && byte < 127 ? ` '${String.fromCharCode(byte)}'`
    : ` ${byte.toString(16).padStart(2, "0")}`;
  return `trace byte ${bad}: bad character${named}: a trace has 0, 1, blanks and comments`;
}

const headOf = request => isAp(request) | isRead(request) << 1 | address(request);
const ANSWERS = { 1: "ok", 9: "bad", 2: "wait", 4: "fault" };

// The items of a trace. Junk items in a row are one record, so that noise takes no memory: `first` has the number of a
// record's first item, `from` that of its first bit.
class Items {
  constructor(capture) {
    Object.assign(this, { capture, size: 0, records: 0, first: new Uint32Array(1024), from: new Uint32Array(1024),
      kind: new Uint8Array(1024), head: new Uint8Array(1024), answer: new Uint8Array(1024), word: new Uint32Array(1024),
      selects: [0], words: [-1] });
  }
  // Appends an item that begins at bit `from`. Of a transaction: `head` is APnDP, RnW and the address; `answer` is the
  // acknowledgement, plus 8 at wrong parity.
  add(kind, from, head = 0, answer = 0, word = 0) {
    const last = this.records - 1;
    if (kind === JUNK && last >= 0 && this.kind[last] === JUNK) {
      this.size++;
      return;
    }
    if (this.records + 2 > this.kind.length)
      for (const name of ["first", "from", "kind", "head", "answer", "word"]) {
        const more = new this[name].constructor(this[name].length * 2);
        more.set(this[name]);
        this[name] = more;
      }
    const record = this.records++;
    this.first[record] = this.size++;
    this.from[record] = from;
    this.kind[record] = kind;
    this.head[record] = head;
    this.answer[record] = answer;
    this.word[record] = word;
    this.note(record + 1, kind, head, answer, word);
  }
  // Keeps what is known of SELECT from this record on.
  note(record, kind, head, answer, word) {
    const now = this.words[this.words.length - 1];
    const next = kind !== TRANSACTION ? (kind === IDLE ? now : -1) : !ANSWERS[answer] || head === 8 && answer === 9 ? -1
      : head === 8 && answer === 1 ? word : now;
    if (next !== now) {
      this.selects.push(record);
      this.words.push(next);
    }
  }
  finish(total) {
    this.first[this.records] = this.size;
    this.from[this.records] = total;
    return this;
  }
  // Returns the last index below `count` at which `list`, which ascends, is at most `value`, or 0.
  static below(list, count, value) {
    let low = 0, high = count;
    while (high - low > 1) {
      const middle = low + high >>> 1;
      if (list(middle) <= value)
        low = middle;
      else
        high = middle;
    }
    return low;
  }
  record(i) { return Items.below(record => this.first[record], this.records, i); }
  begin(i) {
    if (i >= this.size)
      return this.from[this.records];
    const record = this.record(i);
    return this.from[record] + i - this.first[record];
  }
  kindOf(i) { return this.kind[this.record(i)]; }
  // Returns the item at a bit.
  at(bit) {
    const record = Items.below(at => this.from[at], this.records, bit);
    return this.first[record] + (this.kind[record] == JUNK ? Math.max(0, bit - this.from[record]) : 0);
  }
  transaction(record, named) {
    const head = this.head[record], answer = this.answer[record], word = this.word[record];
    const select = this.words[Items.below(at => this.selects[at], this.selects.length, record)];
    const { name, before, flags } = named ? nameOf(head, select)
      : { name: (head & 12).toString(16), before: "", flags: {} };
    const result = ANSWERS[answer] || `none ${answer}`, moved = answer == 1 || answer == 9;
    const set = Object.entries(answer == 1 ? flags : {}).flatMap(([bit, flag]) => word >>> bit & 1 ? ` ${flag}` : []);
    return `${head & 1 ? "ap" : "dp"} ${before}${name} ${head & 2 ? "read" : "write"} ${result}`
      + (moved ? ` ${word.toString(16).padStart(8, "0")}` : "") + set.join("");
  }
  line(i, named) {
    const record = this.record(i), kind = this.kind[record], from = this.from[record], to = this.from[record + 1];
    return kind === TRANSACTION ? this.transaction(record, named)
      : kind === JUNK ? `junk ${this.capture.bit(from + i - this.first[record])}`
      : kind === SWITCH ? "switch" : kind === CUT ? `cut ${this.capture.slice(from, to).join("")}`
      : `${{ [RESET]: "reset", [IDLE]: "idle", [SKIP]: "skip" }[kind]} ${to - from}`;
  }
}

const SHIFTS = [0n, 1n, 2n, 3n, 4n, 5n, 6n, 7n];

// Decodes a trace in slices of some 40 ms, so that the page stays responsive; null as soon as `stopped()`.
async function decode(lib, capture, stopped, progress) {
  const { main } = lib, { packed, count, bad } = capture, view = new DataView(packed.buffer), lengths = new Map();
  const items = new Items(capture);
  let from = 0, before = 0, fed = 0;
  if (junkLength(lib) != 1)
    throw Error("the library's junk items have more than a bit");
  const known = (key, make) => {
    if (!lengths.has(key))
      lengths.set(key, make());
    return lengths.get(key);
  };
  const add = () => {
    const kind = lib.kind();
    let length = 1;
    if (kind === TRANSACTION) {
      const request = lib.request(), ack = lib.ack();
      items.add(kind, from, headOf(request), ack | (ack == 1 && !lib.parityOk()) << 3, lib.word());
      length = known(request << 3 | ack, () => leastLength(lib, capture, from, from,
        item => item.kind == TRANSACTION && item.request == request && item.ack == ack));
    } else {
      items.add(kind, from);
      if (kind === SWITCH)  // of a long reset before it 64 ones are enough
        length = known("switch", () => leastLength(lib, capture, Math.max(before, from - 64), from,
          item => item.kind == SWITCH));
      else if (kind !== JUNK)
        length = lib.count();
    }
    before = from;
    from += length;
  };
  main.renew();
  while (fed < count) {
    const until = performance.now() + 40;
    do {
      for (let i = 0; i < 500 && fed < count; i++) {
        const shift = fed & 7, most = count - fed < 64 - shift ? count - fed : 64 - shift;
        const taken = main.take(view.getBigUint64(fed >>> 3, true) >> SHIFTS[shift], most);
        if (!taken)
          throw Error(`the library refused the bits from ${fed} on`);
        fed += taken;
        while (main.due())
          add();
      }
    } while (fed < count && performance.now() < until);
    progress(fed / count);
    await pause();
    if (stopped())
      return null;
  }
  if (bad < 0)
    while (main.last())
      add();
  if (bad < 0 ? from != lib.fed() : from > lib.fed())
    throw Error(`the items have ${from} bits, and the library took ${lib.fed()}`);
  return items.finish(from);
}

const KINDS = { reset: RESET, switch: SWITCH, idle: IDLE, junk: JUNK, cut: CUT, skip: SKIP };
const ENDS = { ok: 1, bad: 9, wait: 2, fault: 4 };

// Reads the printed lines of a capture, each with its place. `total` is the number of bits that they have.
async function itemsPrinted(capture, lines, total, stopped) {
  const items = new Items(capture);
  for (let i = 0, until = performance.now() + 40; i < lines.size; i++) {
    const [place, what, register, way, result, value] = lines.line(i).split(" "), from = Number(place.slice(1));
    if (what == "dp" || what == "ap") {
      const head = (what == "ap") | (way == "read") << 1 | parseInt(register, 16);
      items.add(TRANSACTION, from, head, ENDS[result] || Number(value), parseInt(value, 16) || 0);
    } else {
      items.add(KINDS[what], from);
    }
    if (i % 1000 == 0 && performance.now() > until) {
      await pause();
      if (stopped())
        return null;
      until = performance.now() + 40;
    }
  }
  return items.finish(total);
}

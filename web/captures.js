// Captures of logic analysers and simulators: separated values (CSV), value change dumps (VCD) and sessions of sigrok
// (.sr). Each is read as its channels; the levels of one at the rising edges of another are a trace, as of
// examples/captures/levels. `web/make` puts this behind decoder.js.

const MOST_CHANNELS = 32;  // a state has a bit for each
const ENOUGH = 30000;      // clocks by which a pair of channels is judged

// What form a file has, by its first bytes: "sr", "vcd", "csv", or "" for the text of a trace.
function formOf(bytes) {
  if (bytes.subarray(0, 4).join() === "80,75,3,4")
    return "sr";
  for (const line of latin1(bytes.subarray(startOf(bytes), 4096)).split("\n").map(line => line.trim())) {
    // (of sigrok-cli also its META lines)
    const text = line.startsWith("META ") ? "" : line.split("#")[0];
    if (text[0] === "$")
      return "vcd";
    if (text)
      return /[,;]/.test(text) || /\t/.test(text) && /[^01\s]/.test(text) ? "csv" : "";
  }
  return "";
}

const latin1 = bytes => Array.from(bytes, byte => String.fromCharCode(byte)).join("");
const utf8 = bytes => new TextDecoder().decode(bytes);
// Where a text begins, behind a byte order mark.
const startOf = bytes => bytes.subarray(0, 3).join() === "239,187,191" ? 3 : 0;

// The channels of a capture: their names, for each its bit in a state, and how often it rises. `states` are the
// successive levels of all, without those that are as the one before.
class Channels {
  constructor() {
    Object.assign(this, { states: new Uint32Array(4096), size: 0, rises: new Float64Array(MOST_CHANNELS) });
  }
  add(state) {
    const last = this.size ? this.states[this.size - 1] : -1;
    if (this.size && last === state >>> 0)
      return;
    for (let rose = state & ~last; rose; rose &= rose - 1)
      this.rises[31 - Math.clz32(rose & -rose)]++;
    if (this.size === this.states.length) {
      const more = new Uint32Array(2 * this.size);
      more.set(this.states);
      this.states = more;
    }
    this.states[this.size++] = state;
  }
  // Names the channels that are offered: [{name, bit}]. A name that occurs twice gets its bit's number.
  name(list) {
    const count = name => list.filter(it => it.name === name).length;
    this.list = list.map(({ name, bit }) => ({ name: count(name) > 1 ? `${name} (${bit + 1})` : name, bit,
      rises: this.rises[bit] }));
    if (this.list.length < 2)
      throw Error("the capture has no two channels of levels 0 and 1");
    return this;
  }
  // Returns the levels of one channel before each rising edge of another, as the text of a trace: the target changes
  // SWDIO after the edge.
  trace(clock, data, most = Infinity) {
    const text = new Uint8Array(Math.min(most, clock.rises));
    for (let i = 1, count = 0; count < text.length; i++) {
      const before = this.states[i - 1];
      if (~before & this.states[i] & 1 << clock.bit)
        text[count++] = 48 | before >>> data.bit & 1;
    }
    return text;
  }
}

// ---- which channels are SWCLK and SWDIO -------------------------------------------------------------------------

// Returns the channel whose name tells, as examples/captures/levels chooses it, or undefined.
function named(list, words) {
  for (const word of words) {
    const found = list.filter(({ name }) => name.toUpperCase().includes(word));
    if (found.length == 1)
      return found[0];
  }
  return undefined;
}

// Returns how many transactions that moved a word, with right parity, the levels are read as.
function wordsIn(lib, text) {
  const { probe } = lib;
  let found = 0;
  probe.renew();
  for (let at = 0; at < text.length;) {
    const count = Math.min(32, text.length - at);
    let bits = 0;
    for (let i = 0; i < count; i++)
      bits |= (text[at + i] & 1) << i;
    at += probe.take(BigInt(bits >>> 0), count);
    while (probe.due())
      found += lib.kind() === TRANSACTION && lib.ack() === 1 && lib.parityOk();
  }
  return found;
}

// Returns clock and data of a capture, and what tells: their names; else the pair that is read as most transactions;
// else the channels with most edges.
function chooseChannels(lib, channels) {
  const { list } = channels, byName = { clock: named(list, ["SWCLK", "CLK"]), data: named(list, ["SWDIO", "DIO"]) };
  if (byName.clock && byName.data && byName.clock != byName.data)
    return { ...byName, by: "their names" };
  const busy = list.filter(it => it.rises).sort((a, b) => b.rises - a.rises);
  const pairs = busy.slice(0, 8).flatMap(clock => list.map(data => ({ clock, data })))
    .filter(({ clock, data }) => clock != data && (!byName.clock || clock == byName.clock));
  const found = pairs.map(({ clock, data }) => wordsIn(lib, channels.trace(clock, data, ENOUGH)));
  const most = Math.max(0, ...found);
  if (most)
    return { ...pairs[found.indexOf(most)], by: "the transactions" };
  const clock = byName.clock || busy[0] || list[0];
  return { clock, data: busy.find(it => it != clock) || list.find(it => it != clock), by: "their edges" };
}

// ---- separated values -------------------------------------------------------------------------------------------

const NEWLINE = 10, QUOTE = 34;
const isBlank = byte => byte === 32 || byte === 13 || byte === 9;

// The numbers of a line of values at a time. Columns with another value than 0 and 1 are no channels.
class Values {
  constructor(bytes) {
    Object.assign(this, { bytes, others: 0, separator: 0, width: 0, state: 0, isNumber: false });
  }
  // Which byte separates the values of a line: a tab, else a semicolon, else a comma. Between quotes none does.
  separate(from, to) {
    const bare = latin1(this.bytes.subarray(from, to)).replace(/"[^"]*"/g, "").trim();
    this.separator = [..."\t;,"].find(it => bare.includes(it))?.charCodeAt(0) || 44;
  }
  // Calls `take(column, from, to)` with each value of a line, which may be between quotes.
  each(from, to, take) {
    const { bytes, separator } = this;
    let column = 0;
    for (let at = from; at <= to; at++, column++) {
      while (at < to && isBlank(bytes[at]) && bytes[at] !== separator)
        at++;
      let start = at, end;
      if (bytes[at] === QUOTE && at < to) {
        end = bytes.indexOf(QUOTE, ++start);
        end = end < 0 || end > to ? to : end;
        for (at = end; at < to && bytes[at] !== separator; at++);
      } else {
        while (at < to && bytes[at] !== separator)
          at++;
        for (end = at; end > start && isBlank(bytes[end - 1]); end--);
      }
      take(column, start, end);
    }
  }
  // The texts of a line.
  texts(from, to) {
    const found = [];
    this.each(from, to, (_, start, end) => found.push(utf8(this.bytes.subarray(start, end))));
    while (found.length && !found[found.length - 1])
      found.pop();
    return found;
  }
  // Reads a line: the levels, how many columns it has, and whether the last is a number.
  read(from, to) {
    this.width = this.state = 0;
    this.isNumber = false;
    this.each(from, to, (column, start, end) => {
      if (start === end)
        return;
      const byte = this.bytes[start], bit = column < MOST_CHANNELS ? 1 << column : 0;
      this.width = column + 1;
      this.isNumber = true;
      if (end - start === 1 && (byte === 48 || byte === 49)) {
        this.state |= byte & 1 ? bit : 0;
      } else if (!(this.others & bit) || end === to) {
        const number = Number(latin1(this.bytes.subarray(start, end)).replace(",", "."));
        this.isNumber = !Number.isNaN(number);
        if (number === 1)
          this.state |= bit;
        else if (number !== 0)
          this.odd |= bit;
      }
    });
  }
}

// The channels of separated values, as sigrok, PulseView and Saleae Logic export them: of samples, or of changes alone.
async function readCsv(bytes, pace) {
  const channels = new Channels(), values = new Values(bytes);
  let names = [], said = [], width = 0, line = 0;
  for (let from = startOf(bytes), to; from < bytes.length; from = to + 1) {
    to = bytes.indexOf(NEWLINE, from);
    to = to < 0 ? bytes.length : to;
    line++;
    const first = bytes[from], text = () => latin1(bytes.subarray(from, Math.min(to, from + 60))).trim();
    if (first === 59 || first === 35) {
      // (sigrok names its channels in a comment)
      said = /^; Channels \([^)]*\): (.*)/.exec(utf8(bytes.subarray(from, to)))?.[1].trim().split(/, */) || said;
      continue;
    }
    if (!width)
      values.separate(from, to);
    values.odd = 0;
    values.read(from, to);
    if (!values.width)
      continue;
    if (!values.isNumber) {
      if (width)
        throw Error(`line ${line} has no numbers: ${text()}`);
      names = values.texts(from, to);
      continue;
    }
    width = width || (names.length > 1 ? names.length : values.width);
    if (values.width > width)
      throw Error(`line ${line} has ${values.width} columns, and not ${width}: is it a decimal comma?`);
    values.others |= values.odd;
    for (let column = values.width; column < Math.min(width, MOST_CHANNELS); column++)
      values.others |= 1 << column;
    channels.add(values.state);
    if (line % 4096 === 0 && await pace(from / bytes.length))
      return null;
  }
  if (said.length === width && new Set(names).size < names.length || !names.length)
    names = said.length === width ? said : [];
  const columns = Array.from({ length: Math.min(width, MOST_CHANNELS) }, (_, bit) => ({ name: names[bit] ||
    `column ${bit + 1}`, bit }));
  return channels.name(columns.filter(({ bit }) => !(values.others >>> bit & 1)));
}

// ---- value change dumps -----------------------------------------------------------------------------------------

// The one-bit signals of a dump, by their codes: the name without the bit's number, and with the scopes around it.
function signalsOf(head) {
  const signals = new Map(), scopes = [];
  for (const [, word, text] of head.matchAll(/\$(scope|upscope|var)\b\s*([^$]*?)\s*\$end/g)) {
    const [, width, code, ...name] = text.split(/\s+/);
    if (word === "scope")
      scopes.push(text.split(/\s+/)[1]);
    else if (word === "upscope")
      scopes.pop();
    else if (width === "1" && !signals.has(code))
      signals.set(code, { name: name.join(" ").split("[")[0].trim(), path: [...scopes, name[0]].join("."),
        changes: 0 });
  }
  return signals;
}

// Calls `time()` at each time of a dump, and `change(code, level)` at each change of a bit. A level x or z is 1, as
// that of a line with a pull-up that nobody drives. Returns whether it was stopped.
async function eachChange(bytes, begin, pace, change, time) {
  let tokens = 0, at = begin;
  const next = () => {
    while (at < bytes.length && (isBlank(bytes[at]) || bytes[at] === NEWLINE))
      at++;
    const from = at;
    while (at < bytes.length && !isBlank(bytes[at]) && bytes[at] !== NEWLINE)
      at++;
    return from;
  };
  const text = from => String.fromCharCode(...bytes.subarray(from, at));
  for (let from = next(); from < at; from = next()) {
    const kind = String.fromCharCode(bytes[from]);
    if (kind === "#")
      time();
    else if ("01xXzZ".includes(kind))
      change(text(from + 1), kind === "0" ? 0 : 1);
    else if ("bBrR".includes(kind))
      next();
    else if (text(from) === "$comment")
      while (from < at && text(from) !== "$end")
        from = next();
    if (++tokens % 65536 === 0 && await pace(at / bytes.length))
      return true;
  }
  return false;
}

// The channels of a value change dump: of more signals than a state has bits those with SWCLK's and SWDIO's usual
// names, and those that change most.
async function readVcd(bytes, pace) {
  const mark = "$enddefinitions", step = 1 << 16;
  let head = "";
  for (let at = 0; at < bytes.length && !head.includes(mark); at += step)
    head += latin1(bytes.subarray(at, at + step));
  const begin = head.indexOf("$end", head.indexOf(mark) + mark.length), signals = signalsOf(head.slice(0, begin));
  if (!head.includes(mark))
    throw Error(`a value change dump has ${mark} behind its signals`);
  if (await eachChange(bytes, begin + 4, at => pace(at / 2), code => {
    const signal = signals.get(code);
    if (signal)
      signal.changes++;
  }, () => {}))
    return null;
  const usual = ({ name }) => /CLK|DIO|TCK|TMS/i.test(name) ? 1 : 0;
  const chosen = [...signals].filter(([, it]) => it.changes || usual(it))
    .sort(([, a], [, b]) => usual(b) - usual(a) || b.changes - a.changes).slice(0, MOST_CHANNELS);
  const bits = new Map(chosen.map(([code], bit) => [code, bit])), channels = new Channels();
  let state = -1 >>> 0;
  if (await eachChange(bytes, begin + 4, at => pace((1 + at) / 2), (code, level) => {
    const bit = bits.get(code);
    if (bit !== undefined)
      state = level ? state | 1 << bit : state & ~(1 << bit);
  }, () => channels.add(state >>> 0)))
    return null;
  channels.add(state >>> 0);
  const isTwice = name => chosen.filter(([, it]) => it.name === name).length > 1;
  return channels.name(chosen.map(([, { name, path }], bit) => ({ name: isTwice(name) ? path : name, bit })));
}

// ---- sessions of sigrok -----------------------------------------------------------------------------------------

// The files of a zip archive, by name.
function filesOf(bytes) {
  const view = new DataView(bytes.buffer, bytes.byteOffset, bytes.byteLength), files = new Map();
  const word = at => view.getUint32(at, true), half = at => view.getUint16(at, true);
  let end = bytes.length - 22;
  while (end > 0 && end > bytes.length - 66000 && word(end) !== 0x06054b50)
    end--;
  if (end <= 0 || word(end) !== 0x06054b50)
    throw RangeError();
  for (let i = 0, at = word(end + 16); i < half(end + 10); i++) {
    const local = word(at + 42), start = local + 30 + half(local + 26) + half(local + 28), length = half(at + 28);
    files.set(utf8(bytes.subarray(at + 46, at + 46 + length)),
      { method: half(at + 10), data: bytes.subarray(start, start + word(at + 20)) });
    at += 46 + length + half(at + 30) + half(at + 32);
  }
  return files;
}

// The content of such a file.
async function contentOf({ method, data }) {
  if (method === 0)
    return data;
  if (method !== 8)
    throw Error(`a file of the archive is packed by method ${method}, which the page doesn't know`);
  const stream = new Blob([data]).stream().pipeThrough(new DecompressionStream("deflate-raw"));
  return new Uint8Array(await new Response(stream).arrayBuffer());
}

// The channels of a session of sigrok or PulseView: a zip archive with samples of all channels, some bytes each.
async function readSr(bytes, pace) {
  let files;
  try {
    files = filesOf(bytes);
  } catch (reason) {
    throw Error("the archive is cut off or damaged");
  }
  if (!files.has("metadata"))
    throw Error("the archive is no session of sigrok: export the capture as CSV");
  const said = new Map(utf8(await contentOf(files.get("metadata"))).split("\n")
    .map(line => line.trim().match(/^([^=]*)=(.*)$/)).filter(Boolean).map(([, key, value]) => [key, value]));
  const unit = Number(said.get("unitsize")), of = said.get("capturefile");
  const parts = [...files.keys()].filter(name => name === of || name.startsWith(`${of}-`))
    .sort((a, b) => Number(a.slice(of.length + 1)) - Number(b.slice(of.length + 1)));
  if (!parts.length || !(unit >= 1 && unit <= 8))
    throw Error("the session has no logic channels");
  const channels = new Channels();
  for (const [i, name] of parts.entries()) {
    const samples = await contentOf(files.get(name));
    for (let at = 0, count = 0; at + unit <= samples.length; at += unit) {
      let state = 0;
      for (let k = 0; k < unit && k < 4; k++)
        state |= samples[at + k] << 8 * k;
      channels.add(state);
      if (++count % (1 << 20) === 0 && await pace((i + at / samples.length) / parts.length))
        return null;
    }
  }
  const probes = Array.from({ length: MOST_CHANNELS }, (_, bit) => ({ name: said.get(`probe${bit + 1}`), bit }));
  return channels.name(probes.filter(({ name }) => name));
}

const CAPTURES = { csv: readCsv, vcd: readVcd, sr: readSr };

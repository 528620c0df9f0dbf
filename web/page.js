// What the page shows: the list, the drawing, the search and the options. `web/make` puts it behind checker.js.
const EXAMPLE = "@EXAMPLE@";  // examples/session.trace, in base64

const ROW = 18, TALLEST = 8e6;  // height of a row, and of what browsers still scroll
const get = id => document.getElementById(id);
const list = get("list"), rows = get("rows"), spacer = get("spacer"), wave = get("wave");
const status = get("status"), save = get("save"), query = get("query"), verdict = get("verdict");
const layouts = new Map();  // the fields of a transaction, by its request and answer
const isOn = id => get(id).checked && !get(id).disabled;
// `file` has a name, its bytes, and of a capture its channels. `shown` has the items, the rows of the list, which are
// the items or the accesses, and the verdict of a check. `told` is what was said of them.
let lib, file = null, shown = null, told = null, selected = 0, job = 0, hunt = 0;

// The rows of items, and those of accesses, whose lines begin with their place.
const rowsOfItems = items => ({ size: items.size, line: i => items.line(i, isOn("names")), place: i => items.begin(i),
  item: i => i, printed: i => items.line(i, isOn("names")), row: bit => items.at(bit),
  shade: (i, line) => classOf(items.kindOf(i), line) });
const rowsOfAccesses = (items, lines) => {
  const place = i => Number(lines.line(i).split(" ")[0].slice(1));
  return { size: lines.size, line: i => lines.line(i).replace(/^\S+ /, ""), place, item: i => items.at(place(i)),
    printed: i => lines.line(i),
    row: bit => Items.below(place, lines.size, bit),
    shade: (i, line) => / not$|gap/.test(line) ? "bad" : / may$/.test(line) ? "wait" : "" };
};
// The class of an item's line, by its answer.
const classOf = (kind, line) => kind == JUNK || kind == CUT || kind == SKIP || / (fault|bad|none)\b/.test(line) ? "bad"
  : / wait$/.test(line) ? "wait" : "";
const inView = () => Math.max(1, Math.floor(list.clientHeight / ROW));

function say(text, error) {
  status.textContent = text;
  status.className = error ? "error" : "";
}

// Returns the row at the top of the list. A list that is taller than TALLEST scrolls faster than its rows.
function topRow() {
  const range = spacer.offsetHeight - list.clientHeight, most = Math.max(0, shown.rows.size - inView());
  return range > 0 ? Math.min(most, Math.round(list.scrollTop / range * most)) : 0;
}

// Draws the rows in view.
function drawList() {
  if (!shown)
    return;
  const first = topRow(), made = [], { size } = shown.rows, last = Math.min(size, first + inView() + 1);
  for (let i = first; i < last; i++) {
    const row = document.createElement("div"), place = document.createElement("i"), line = shown.rows.line(i);
    row.id = `row-${i}`;
    row.setAttribute("role", "option");
    row.setAttribute("aria-selected", i == selected);
    row.setAttribute("aria-posinset", i + 1);
    row.setAttribute("aria-setsize", size);
    row.className = shown.rows.shade(i, line) + (i == shown.broken ? " broken" : "");
    row.dataset.row = i;
    place.textContent = shown.rows.place(i);
    row.append(place, line);
    made.push(row);
  }
  rows.replaceChildren(...made);
  if (selected >= first && selected < last)
    list.setAttribute("aria-activedescendant", `row-${selected}`);
  else
    list.removeAttribute("aria-activedescendant");
}

function select(i) {
  if (!shown || !shown.rows.size)
    return;
  selected = Math.max(0, Math.min(shown.rows.size - 1, i));
  const first = topRow(), most = Math.max(1, shown.rows.size - inView());
  const goal = selected < first ? selected : selected >= first + inView() ? selected - inView() + 1 : first;
  if (goal != first)
    list.scrollTop = goal / most * (spacer.offsetHeight - list.clientHeight);
  drawList();
  drawWave();
}

// Returns the fields of the items from `i` to `next`, as [{name, value, length, shade}].
function fieldsToDraw(i, next) {
  const { items } = shown, { capture } = items, kind = items.kindOf(i);
  if (kind != TRANSACTION)
    return Array.from({ length: next - i }, (_, k) => ({ name: items.line(i + k).split(" ")[0],
      length: items.begin(i + k + 1) - items.begin(i + k), shade: classOf(kind, "") }));
  const line = items.line(i), [, reg, , answer, word] = line.split(" "), from = items.begin(i), to = items.begin(i + 1);
  const key = line.replace(/ (ok|bad) .*/, " data");
  if (!layouts.has(key)) {
    const { request, ack } = itemsOf(lib, capture.slice(from, to), true)[0];
    const length = leastLength(lib, capture, from, from,
      item => item.kind == TRANSACTION && item.request == request && item.ack == ack);
    layouts.set(key, fieldsOf(lib, capture.slice(from, from + length)));
  }
  const moves = answer == "ok" || answer == "bad";
  let dataSeen = false, at = from;
  const fields = layouts.get(key).map(({ name, length }) => {
    const moved = name == "Data" || name == "Parity" && dataSeen;
    dataSeen ||= name == "Data";
    at += length;
    return { name, length,
      value: name == "ACK" ? (moves ? "OK" : answer == "none" ? word : answer.toUpperCase())
        : name == "Data" ? word : name == "A[2:3]" ? reg : "",
      shade: name == "Trn" ? "turnaround" : name == "ACK" ? (moves ? "good" : answer == "wait" ? "wait" : "bad")
        : moved ? (answer == "bad" && name == "Parity" ? "bad" : "data") : "" };
  });
  // The data phase behind WAIT and FAULT, with overrun detection.
  return at < to ? [...fields, { name: "ignored", length: to - at, shade: "turnaround" }] : fields;
}

const CELL = 16, LEFT = 50;  // width of a clock, and of the names of the lines

// Draws one row: bits `from` to `to` of what begins at bit `start` of the trace, and the fields [{.., at}] over them.
// Returns the drawing and where it ends.
function drawRow(bit, start, from, to, fields, y) {
  const parts = fields.filter(f => f.at < to && f.at + f.length > from), x = clock => LEFT + (clock - from) * CELL;
  const tall = parts.some(f => f.length == 1) ? 44 : 32;
  const high = y + tall + 6, low = high + 13, one = low + 8, zero = one + 15;
  const out = [];
  for (const f of parts) {
    const left = x(Math.max(f.at, from)), width = x(Math.min(f.at + f.length, to)) - left, middle = left + width / 2;
    out.push(`<rect class="${f.shade}" x="${left}" y="${y}" width="${width}" height="${zero + 17 - y}"/>`);
    out.push(width < 2 * CELL
      ? `<text transform="translate(${middle + 4} ${y + tall - 2}) rotate(-90)">${f.name}</text>`
      : `<text class="${width < 3 * CELL ? "tight" : ""}" x="${middle}" y="${y + 13}" text-anchor="middle">`
        + `${f.name}</text>`
        + `<text x="${middle}" y="${y + 27}" text-anchor="middle">${f.value || ""}</text>`);
  }
  let clock = `M${LEFT} ${high}`, level = "";
  for (let i = from; i < to; i++) {
    const now = bit(start + i);
    clock += `V${low}h${CELL / 2}V${high}h${CELL / 2}`;
    level += `${i > from ? "V" : `M${LEFT} `}${now ? one : zero}h${CELL}`;
    out.push(`<text class="small" x="${x(i) + CELL / 2}" y="${zero + 12}" text-anchor="middle">${now}</text>`);
  }
  out.push(`<path class="clock" d="${clock}"/><path class="level" d="${level}"/>`,
    `<text x="0" y="${low}">SWCLK</text><text x="0" y="${zero}">SWDIO</text>`);
  return [out.join(""), zero + 24];
}

// Draws the selected item and those after it, or says why it can't.
function drawWave() {
  try {
    wave.innerHTML = shown && shown.rows.size ? drawItems() : "";
  } catch (reason) {
    wave.replaceChildren();
    say(`can't draw: ${reason.message}`, true);
  }
}

// Returns the drawing of the selected item and of those after it, as many as there is room for.
function drawItems() {
  const width = wave.clientWidth - 18, room = Math.max(wave.clientHeight, 300), { items } = shown;
  const per = Math.max(4, Math.floor((width - LEFT - 1) / CELL));
  const out = [];
  let y = 0;
  for (let i = shown.rows.item(selected), next; i < items.size && y < room; i = next) {
    const start = items.begin(i), isJunk = items.kindOf(i) == JUNK;
    for (next = i + 1; isJunk && next < items.size && items.kindOf(next) == JUNK && next - i < per;)
      next++;
    const fields = fieldsToDraw(i, next), all = items.begin(next) - start, most = Math.min(all, Math.max(2 * per, 64));
    fields.reduce((at, f) => (f.at = at) + f.length, 0);
    const line = next > i + 1 ? `junk, ${next - i} items` : items.line(i, isOn("names"));
    const clocks = all > 1 ? `clocks ${start} to ${start + all - 1}` : `clock ${start}`;
    const isBroken = shown.verdict && shown.verdict.place >= start && shown.verdict.place < start + all;
    const end = isBroken ? `: ${shown.verdict.line.replace(/^(\w+) @.*?(: |$)/, "$1$2")}` : "";
    out.push(`<text class="title${isBroken ? " broken" : ""}" x="0" y="${y + 13}">${line}${end}</text>`
      + `<text class="small" x="0" y="${y + 26}">${clocks}${most < all ? `, the first ${most} drawn` : ""}</text>`);
    y += 32;
    for (let from = 0; from < most; from += per) {
      const [drawn, bottom] = drawRow(items.capture.bit, start, from, Math.min(most, from + per), fields, y);
      out.push(drawn);
      y = bottom;
    }
    y += 8;
  }
  return `<svg width="${width}" height="${y}">${out.join("")}</svg>`;
}

// Returns the text of a trace in a file: its bytes, or the levels of the channels of a capture that are chosen; null as
// soon as `stopped()`.
async function textOf(file, stopped) {
  const form = formOf(file.bytes);
  if (!form)
    return file.bytes;
  const pace = async part => {
    say(`${file.name}: reading, ${Math.floor(part * 100)} %`);
    await pause();
    return stopped();
  };
  const channels = file.channels || await CAPTURES[form](file.bytes, pace);
  if (!channels)
    return null;
  if (!file.channels)
    Object.assign(file, { channels }, chooseChannels(lib, channels));
  const text = channels.trace(file.clock, file.data);
  if (!text.length)
    throw Error(`no rising edge of ${file.clock.name}: is the clock another channel?`);
  return text;
}

// Returns the items and the rows of a trace by the options, and the verdict; null as soon as `stopped()`.
async function read(text, capture, stopped, progress) {
  const resync = isOn("resync"), reading = resync ? 1 + isOn("overrun") : 0, start = get("check").value;
  const printed = form => print(text, reading, form).then(bytes => new Lines(bytes));
  const items = resync ? await itemsPrinted(capture, await printed(0), capture.count, stopped)
    : await decode(lib, capture, stopped, progress);
  if (!items || stopped())
    return null;
  const accesses = isOn("accesses") && await printed(1 + isOn("made"));
  const rows = accesses ? rowsOfAccesses(items, accesses) : rowsOfItems(items);
  const options = { start, clean: isOn("clean"), overrun: resync && isOn("overrun") };
  const verdict = start && capture.bad < 0 && await judge(lib, items, options, stopped);
  return verdict === null ? null
    : { items, rows, verdict, broken: verdict && verdict.place >= 0 ? rows.row(verdict.place) : -1 };
}

// Offers the channels of a capture, and says which are chosen.
function showChannels() {
  const { channels, clock, data } = file;
  get("channels").hidden = !channels;
  for (const [id, chosen] of [["clock", clock], ["data", data]])
    get(id).replaceChildren(...(channels ? channels.list : []).map(channel =>
      new Option(`${channel.name}, rises ${channel.rises} times`, channel.bit, false, channel == chosen)));
  get("chosen").textContent = file.by ? `chosen by ${file.by}` : "";
}

// Shows the verdict of a check.
function showVerdict() {
  const { kind, line } = shown && shown.verdict || {};
  verdict.hidden = !line;
  verdict.textContent = line ? `Check: ${line}` : "";
  verdict.className = kind == "breaks" ? "error" : "";
}

// Reads a file and shows it, from the row at bit `place` on.
async function show(given, place = 0) {
  const mine = ++job, started = performance.now(), stopped = () => mine != job, { name } = file = given;
  let error = "";
  try {
    lib = lib || await load();
    const text = await textOf(file, stopped), capture = text && !stopped() && await parse(text, stopped);
    const found = capture && await read(text, capture, stopped, part => say(`${name}: ${Math.floor(part * 100)} %`));
    if (!found || stopped())
      return;
    shown = found;
    error = reasonOf(text, capture);
  } catch (reason) {
    if (stopped())
      return;
    shown = null;
    error = reason.message;
  }
  const seconds = (performance.now() - started) / 1000, size = shown ? shown.rows.size : 0;
  save.hidden = get("link").hidden = !shown;
  showChannels();
  showVerdict();
  spacer.style.height = `${Math.min(size * ROW, TALLEST)}px`;
  list.scrollTop = 0;
  rows.replaceChildren();
  wave.replaceChildren();
  list.removeAttribute("aria-activedescendant");
  const { items } = shown || {}, accesses = isOn("accesses") ? `${size} accesses, ` : "";
  const counts = () => `${items.capture.count} clocks, ${items.size} items, ${accesses}${seconds.toFixed(2)} s`;
  told = [`${name}: ${error || counts()}`, error];
  say(...told);
  select(shown && place ? shown.rows.row(place) : 0);
  const fields = () => Array.from({ length: items.size }, (_, i) =>
    fieldsToDraw(i, i + 1).map(({ name, length, value }) => [name, length, value]));
  // For checks/web.
  globalThis.swd = { error, seconds, fields, size, job: mine, blob: listing, verdict: shown && shown.verdict,
    line: i => shown.rows.printed(i), place: i => shown.rows.place(i),
    get text() { return shown ? Array.from({ length: size }, (_, i) => shown.rows.printed(i) + "\n").join("") : ""; } };
}

// Returns the rows as text, in pieces, since a string has a limit.
function listing() {
  const pieces = [], { size, printed } = shown.rows;
  for (let i = 0; i < size; i += 10000) {
    const lines = Array.from({ length: Math.min(10000, size - i) }, (_, k) => printed(i + k) + "\n");
    pieces.push(new Blob([lines.join("")]));
  }
  return new Blob(pieces, { type: "text/plain" });
}

save.onclick = () => {
  const link = document.createElement("a");
  link.href = URL.createObjectURL(listing());
  link.download = file.name.replace(/\.[^.]*$/, "") + (isOn("accesses") ? ".accesses" : ".list");
  link.click();
  setTimeout(() => URL.revokeObjectURL(link.href), 1000);
};

// ---- search ------------------------------------------------------------------------------------------------------

// Selects the next row, or with `step` -1 the previous one, whose line has the text, in slices of some 40 ms. It goes
// round at the end. `@N` selects the row at clock N.
async function search(step) {
  const text = query.value.trim().toLowerCase(), mine = ++hunt, { size } = shown ? shown.rows : {}, of = job;
  if (!size || !text)
    return;
  if (/^@\d+$/.test(text)) {
    select(shown.rows.row(Number(text.slice(1))));
    return;
  }
  const inJunk = "junk 0".includes(text) || "junk 1".includes(text), { items } = shown, onItems = !isOn("accesses");
  for (let done = 0, i = selected, until = performance.now() + 40; done < size;) {
    let by = 1;
    if (onItems && !inJunk && items.kindOf(i) == JUNK) {  // a run of junk at once
      const record = items.record(i);
      by = step > 0 ? items.first[record + 1] - i : i - items.first[record] + 1;
    }
    i = (i + step * by + size) % size;
    done += by;
    if (shown.rows.line(i).toLowerCase().includes(text)) {
      say(...told);
      select(i);
      return;
    }
    if (performance.now() > until) {
      await pause();
      until = performance.now() + 40;
      if (mine != hunt || of != job)
        return;
    }
  }
  say(`no line has ${text}`, true);
}

query.onkeydown = event => {
  if (event.key == "Enter")
    search(event.shiftKey ? -1 : 1);
  else if (event.key == "Escape")
    list.focus();
};
get("next").onclick = () => search(1);
get("previous").onclick = () => search(-1);

// ---- links -------------------------------------------------------------------------------------------------------

const MOST_IN_LINK = 32768;  // clocks, some 5,500 characters
const CHECKED = ["names", "resync", "overrun", "accesses", "made", "clean"];

// The part of a link behind '#' that holds the trace, the options and the row: trace=COUNT.BITS, eight bits to a byte,
// in base64 for URLs.
function linkOf() {
  const { capture } = shown.items, bytes = capture.packed.subarray(0, capture.count + 7 >> 3);
  const bits = btoa(latin1(bytes)).replaceAll("+", "-").replaceAll("/", "_").replaceAll("=", "");
  const parts = { trace: `${capture.count}.${bits}`, on: CHECKED.filter(isOn).join(), check: get("check").value,
    at: shown.rows.size ? shown.rows.place(selected) : 0 };
  return Object.entries(parts).flatMap(([name, value]) => value ? `${name}=${value}` : []).join("&");
}

get("link").onclick = async () => {
  if (shown.items.capture.count > MOST_IN_LINK) {
    say(`a link holds ${MOST_IN_LINK} clocks, and the trace has ${shown.items.capture.count}`, true);
    return;
  }
  history.replaceState(null, "", `#${linkOf()}`);
  const copied = await navigator.clipboard?.writeText(location.href).then(() => true, () => false);
  say(`the address of the page holds the trace now${copied ? ", and was copied" : ""}`);
};

// Shows the trace of the page's address, if that holds one.
function openLink() {
  const parts = new URLSearchParams(location.hash.slice(1)), found = /^(\d+)\.([\w-]*)$/.exec(parts.get("trace"));
  if (!parts.has("trace"))
    return;
  const count = found ? Number(found[1]) : 0, bits = found ? found[2].replaceAll("-", "+").replaceAll("_", "/") : "";
  if (!count || count > MOST_IN_LINK || bits.length != Math.ceil((count + 7 >> 3) * 4 / 3) || bits.length % 4 == 1) {
    say("the link holds no trace: it may be cut off", true);
    return;
  }
  const bytes = base64(bits), on = (parts.get("on") || "").split(",");
  for (const id of CHECKED)
    get(id).checked = on.includes(id);
  get("check").value = parts.get("check") in STARTS ? parts.get("check") : "";
  enable();
  open({ name: "link.trace", bytes: Uint8Array.from({ length: count }, (_, i) => 48 | bytes[i >> 3] >> (i & 7) & 1) },
    Number(parts.get("at")) || 0);
}

// ---- files, options and keys -------------------------------------------------------------------------------------

// Shows a file, and leaves the keyboard at the list.
async function open(given, place) {
  await show(given, place);
  list.focus({ preventScroll: true });
}

// Enables the options that the others leave a meaning.
function enable() {
  get("overrun").disabled = !get("resync").checked;
  get("made").disabled = !get("accesses").checked;
  get("clean").disabled = !get("check").value;
}

const again = () => show(file, shown && shown.rows.size ? shown.rows.place(selected) : 0);
const openFile = async it => open({ name: it.name, bytes: new Uint8Array(await it.arrayBuffer()) });
get("file").onchange = () => { if (get("file").files[0]) openFile(get("file").files[0]); };
get("example").onclick = () => open({ name: "session.trace", bytes: base64(EXAMPLE) });
get("names").onchange = () => { drawList(); drawWave(); };
for (const id of ["resync", "overrun", "accesses", "made", "check", "clean"])
  get(id).onchange = () => {
    enable();
    if (file)
      again();
  };
for (const id of ["clock", "data"])
  get(id).onchange = () => {
    file[id] = file.channels.list.find(({ bit }) => bit == get(id).value);
    file.by = "you";
    again();
  };
verdict.onclick = () => {
  if (shown.broken >= 0)
    select(shown.broken);
  list.focus({ preventScroll: true });
};
document.ondragover = event => { event.preventDefault(); document.body.classList.add("over"); };
document.ondragleave = () => document.body.classList.remove("over");
document.ondrop = event => {
  event.preventDefault();
  document.body.classList.remove("over");
  if (event.dataTransfer.files[0])
    openFile(event.dataTransfer.files[0]);
};
list.onscroll = drawList;
list.onclick = event => {
  const row = event.target.closest("[data-row]");
  if (row)
    select(Number(row.dataset.row));
};
list.onkeydown = event => {
  const goal = { ArrowUp: selected - 1, ArrowDown: selected + 1, PageUp: selected - inView(),
    PageDown: selected + inView(), Home: 0, End: Infinity }[event.key];
  if (goal !== undefined)
    select(goal);
  else if (event.key == "/")
    query.focus();
  else
    return;
  event.preventDefault();
};
window.onresize = () => { drawList(); drawWave(); };
window.onhashchange = openLink;
openLink();

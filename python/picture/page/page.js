// SPDX-License-Identifier: MIT OR Apache-2.0
"use strict";

// How high a row of a line's text is and what is around it, and how many lines are kept in the page above and below those in sight.
const ROW = 18;
const AROUND = 4;
const SPARE = 6;

// What the registers of each call and answer hold, by name: pieces of a register each, as [register, lowest bit, bits], the
// lowest first; what an FFA_SUCCESS holds that answers a call; and which of a call's arguments may be left out.
const ARGUMENTS = {
  FFA_ERROR: { code: [[2, 0, 32]] },
  FFA_INTERRUPT: { partition: [[1, 16, 16]], context: [[1, 0, 16]] },
  FFA_VERSION: { major: [[1, 16, 15]], minor: [[1, 0, 16]] },
  FFA_FEATURES: { feature: [[1, 0, 32]] },
  FFA_RXTX_MAP: { tx: [[1, 0, 32]], rx: [[2, 0, 32]], pages: [[3, 0, 32]] },
  FFA_RXTX_UNMAP: { endpoint: [[1, 0, 32]] },
  FFA_PARTITION_INFO_GET: { uuid: [[1, 0, 32], [2, 0, 32], [3, 0, 32], [4, 0, 32]], count_only: [[5, 0, 1]] },
  FFA_MSG_WAIT: { partition: [[1, 16, 16]], context: [[1, 0, 16]], flags: [[2, 0, 32]] },
  FFA_YIELD: { partition: [[1, 16, 16]], context: [[1, 0, 16]] },
  FFA_RUN: { partition: [[1, 16, 16]], context: [[1, 0, 16]] },
  FFA_MSG_SEND_DIRECT_REQ: { sender: [[1, 16, 16]], receiver: [[1, 0, 16]], flags: [[2, 0, 32]], payload0: [[3, 0, 32]], payload1: [[4, 0, 32]], payload2: [[5, 0, 32]], payload3: [[6, 0, 32]], payload4: [[7, 0, 32]] },
  FFA_MSG_SEND_DIRECT_RESP: { sender: [[1, 16, 16]], receiver: [[1, 0, 16]], flags: [[2, 0, 32]], payload0: [[3, 0, 32]], payload1: [[4, 0, 32]], payload2: [[5, 0, 32]], payload3: [[6, 0, 32]], payload4: [[7, 0, 32]] },
  FFA_MEM_DONATE: { length: [[1, 0, 32]], fragment: [[2, 0, 32]], address: [[3, 0, 32]], pages: [[4, 0, 32]] },
  FFA_MEM_LEND: { length: [[1, 0, 32]], fragment: [[2, 0, 32]], address: [[3, 0, 32]], pages: [[4, 0, 32]] },
  FFA_MEM_SHARE: { length: [[1, 0, 32]], fragment: [[2, 0, 32]], address: [[3, 0, 32]], pages: [[4, 0, 32]] },
  FFA_MEM_RETRIEVE_REQ: { length: [[1, 0, 32]], fragment: [[2, 0, 32]], address: [[3, 0, 32]], pages: [[4, 0, 32]] },
  FFA_MEM_RETRIEVE_RESP: { length: [[1, 0, 32]], fragment: [[2, 0, 32]] },
  FFA_MEM_RECLAIM: { handle: [[1, 0, 32], [2, 0, 32]], flags: [[3, 0, 32]] },
  FFA_NOTIFICATION_BITMAP_CREATE: { endpoint: [[1, 0, 32]], contexts: [[2, 0, 32]] },
  FFA_NOTIFICATION_BITMAP_DESTROY: { endpoint: [[1, 0, 32]] },
  FFA_NOTIFICATION_BIND: { sender: [[1, 16, 16]], receiver: [[1, 0, 16]], flags: [[2, 0, 32]], bits: [[3, 0, 32], [4, 0, 32]] },
  FFA_NOTIFICATION_UNBIND: { sender: [[1, 16, 16]], receiver: [[1, 0, 16]], flags: [[2, 0, 32]], bits: [[3, 0, 32], [4, 0, 32]] },
  FFA_NOTIFICATION_SET: { sender: [[1, 16, 16]], receiver: [[1, 0, 16]], flags: [[2, 0, 32]], bits: [[3, 0, 32], [4, 0, 32]] },
  FFA_NOTIFICATION_GET: { receiver: [[1, 0, 16]], context: [[1, 16, 16]], flags: [[2, 0, 32]] },
};
const RESULTS = {
  FFA_FEATURES: { properties: [[2, 0, 32]] },
  FFA_PARTITION_INFO_GET: { count: [[2, 0, 32]], size: [[3, 0, 32]] },
  FFA_ID_GET: { endpoint: [[2, 0, 32]] },
  FFA_SPM_ID_GET: { endpoint: [[2, 0, 32]] },
  FFA_MEM_DONATE: { handle: [[2, 0, 32], [3, 0, 32]] },
  FFA_MEM_LEND: { handle: [[2, 0, 32], [3, 0, 32]] },
  FFA_MEM_SHARE: { handle: [[2, 0, 32], [3, 0, 32]] },
  FFA_NOTIFICATION_GET: { partitions: [[2, 0, 32], [3, 0, 32]], normal_world: [[4, 0, 32], [5, 0, 32]], manager: [[6, 0, 32]] },
  FFA_NOTIFICATION_INFO_GET: { more: [[2, 0, 1]], lists: [[2, 7, 5]], counts: [[2, 12, 20]], ids0: [[3, 0, 32]], ids1: [[4, 0, 32]], ids2: [[5, 0, 32]], ids3: [[6, 0, 32]], ids4: [[7, 0, 32]] },
};
const OPTIONAL = {
  FFA_INTERRUPT: ["context"],
  FFA_RXTX_UNMAP: ["endpoint"],
  FFA_PARTITION_INFO_GET: ["uuid", "count_only"],
  FFA_MSG_WAIT: ["partition", "context", "flags"],
  FFA_YIELD: ["partition", "context"],
  FFA_RUN: ["context"],
  FFA_MSG_SEND_DIRECT_REQ: ["flags", "payload0", "payload1", "payload2", "payload3", "payload4"],
  FFA_MSG_SEND_DIRECT_RESP: ["flags", "payload0", "payload1", "payload2", "payload3", "payload4"],
  FFA_MEM_DONATE: ["fragment", "address", "pages"],
  FFA_MEM_LEND: ["fragment", "address", "pages"],
  FFA_MEM_SHARE: ["fragment", "address", "pages"],
  FFA_MEM_RETRIEVE_REQ: ["fragment", "address", "pages"],
  FFA_MEM_RETRIEVE_RESP: ["fragment"],
  FFA_MEM_RECLAIM: ["flags"],
  FFA_NOTIFICATION_BIND: ["flags"],
  FFA_NOTIFICATION_UNBIND: ["flags"],
  FFA_NOTIFICATION_SET: ["flags"],
  FFA_NOTIFICATION_GET: ["context"],
};
const ENDPOINTS = ["sender", "receiver", "partition", "endpoint"];

const at = (id) => document.getElementById(id);
const data = JSON.parse(at("trace").textContent);
const places = new Map(data.endpoints.map((endpoint, place) => [endpoint, place]));

// An element with a class and a text, or with others inside. No text is ever read as HTML.
function make(tag, name, inside) {
  const element = document.createElement(tag);
  if (name) element.className = name;
  if (Array.isArray(inside)) element.append(...inside);
  else if (inside !== undefined) element.textContent = inside;
  return element;
}

// The name and the colour of an endpoint.
function who(endpoint) {
  const place = places.get(endpoint);
  return make("span", place === undefined ? "who" : `who e${place}`, endpoint);
}

// THE DATA
// Registers with the names of call and error, as the data have them.
function readRegisters(text) {
  const words = text.split(" ");
  const names = words.filter((word) => !word.includes("="));
  const [x, wide] = [Array(8).fill(0n), Array(8).fill(false)];
  for (const word of words.slice(names.length)) {
    x[word[1]] = BigInt(`0x${word.slice(3)}`);
    wide[word[1]] = word[0] === "x";
  }
  return { name: names[0], error: names[1], x, wide };
}

// What stands at the places of a table, by name, and the registers without it.
function takeApart({ x, wide }, table) {
  const rest = [...x];
  rest[0] >>= 32n;
  const held = Object.entries(table).map(([name, pieces]) => {
    let [value, at] = [0n, 0n];
    for (const [register, low, bits] of pieces) {
      const size = BigInt(bits === 32 && wide[register] ? 64 : bits);
      const piece = (x[register] >> BigInt(low)) & ((1n << size) - 1n);
      rest[register] &= ~(piece << BigInt(low));
      value |= piece << at;
      at += size;
    }
    return [name, value];
  });
  return { held, rest };
}

function digits(value, name) {
  const text = value.toString(16).toUpperCase();
  if (ENDPOINTS.includes(name)) return text.padStart(4, "0");
  // Of a UUID the first byte is the lowest here.
  if (name === "uuid") return text.padStart(32, "0").match(/../g).reverse().join("").toLowerCase();
  return name === "handle" ? text.padStart(16, "0") : text;
}

// A call or an answer, by the names of what it holds. What a table has no name for is told by its register.
function tell(registers, table, optional) {
  const { held, rest } = takeApart(registers, table);
  const named = held.filter(([name, value]) => value || !optional.includes(name)).map(([name, value]) => `${name}=${digits(value, name)}`);
  const other = rest.flatMap((value, index) => (value ? [`${registers.wide[index] ? "x" : "w"}${index}=${digits(value)}`] : []));
  return [registers.name, ...named, ...other].join(" ");
}

function tellCall(registers) {
  if (!registers.name.startsWith("FFA_")) return registers.raw;
  return tell(registers, ARGUMENTS[registers.name] ?? {}, OPTIONAL[registers.name] ?? []);
}

// An answer of the endpoint that called, or what another sees that runs next.
function tellAnswer(registers, call) {
  if (registers.error) return `${registers.name} ${registers.error}`;
  if (registers.name !== "FFA_SUCCESS") return tellCall(registers);
  return tell(registers, (call && RESULTS[call]) ?? {}, []);
}

// The text of a line as the trace prints it, as far as the data have it: nothing of a certificate or of who reaches what.
function readPrinted(answer, registers, runner, text) {
  if (!answer || text === "show" || text === "audit") return answer ? undefined : [];
  if (!registers) return [answer];
  return [["regs", runner, ...registers.x.map((value) => value.toString(16).toUpperCase().padStart(16, "0"))].join(" ")];
}

// The lines. Who acts in one is who runs behind the line before it.
function readLines() {
  let runner = data.runner;
  return data.lines.map((all, index) => {
    const [behind, text, answer = "", reason = ""] = all.split("\t");
    const isCall = /^(?:call|FFA_\w+)(?: [wx]\d=[0-9A-F]+)*$/.test(text);
    const [asked, given] = [text, answer].map((its) => (isCall ? { ...readRegisters(its), raw: its } : undefined));
    const line = {
      number: index + 1, actor: runner, runner: behind, reason, guards: [], call: asked,
      text: asked ? tellCall(asked) : text,
      answer: given ? tellAnswer(given, runner === behind && asked.name) : answer,
      named: given && [given.name, given.error].filter(Boolean).join(" "),
      printed: readPrinted(answer, given, behind, text),
    };
    runner = behind;
    return line;
  });
}

// A run of pages, as `audit` prints it, and behind it who may still retrieve it, where somebody may.
function readRun(text) {
  const [first, last, owner, handle, ...words] = text.split(" ");
  const [rights, offers] = [words.slice(0, data.endpoints.length), words.slice(data.endpoints.length)];
  return { first: parseInt(first, 16), last: parseInt(last, 16), addresses: [first, last], owner, handle, rights, offers };
}

// The changes: the runs that a line makes, and those that stood in their place. The first makes all of the beginning.
function readChanges() {
  const runs = new Set();
  return data.changes.map(([number, ...texts]) => {
    const made = texts.map(readRun);
    const gone = [...runs].filter((run) => made.some((its) => its.first <= run.last && run.first <= its.last));
    replaceRuns(runs, gone, made);
    return { number, made, gone };
  });
}

function replaceRuns(runs, gone, made) {
  for (const run of gone) runs.delete(run);
  for (const run of made) runs.add(run);
}

// The lines of each transaction: those that change what is in it, name it in the reason of a refusal, or reclaim it.
function readHandles() {
  const handles = new Map();
  const add = (handle, number) => handles.get(handle)?.add(number);
  for (const { made } of changes) for (const run of made) if (run.handle !== "-") handles.set(run.handle, new Set());
  for (const { number, made, gone } of changes) for (const run of [...gone, ...made]) add(run.handle, number);
  for (const { number, text, reason } of lines) {
    for (const [, handle] of reason.matchAll(/(?:handle|transaction) ([0-9A-F]{16})/g)) add(handle, number);
    add(/^FFA_MEM_RECLAIM handle=(\w+)/.exec(text)?.[1], number);
  }
  return handles;
}

// The places at which columns of the map begin: wherever some run begins.
function readColumns() {
  const firsts = new Set();
  for (const { made } of changes) for (const run of made) firsts.add(run.first);
  return [...firsts].sort((a, b) => a - b);
}

// GUARDS, which stand beside the line that they ask about

function isAlike(numbers, wanted, word) {
  const bare = (text) => text.replace(/^0+/, "");
  return wanted === word || (numbers && wanted !== "" && bare(wanted) === bare(word));
}

function fits(text, told) {
  const numbers = text.startsWith("regs ");
  const open = text.endsWith(" ..");
  const loose = open || text.startsWith("FFA_");
  const [wanted, words] = [(open ? text.slice(0, -3) : text).split(" "), told.split(" ")];
  const more = (word) => loose || (numbers && isAlike(true, "0", word));
  return wanted.length <= words.length
    && words.every((word, index) => (index < wanted.length ? isAlike(numbers, wanted[index], word) : more(word)));
}

// Whether a printed line meets the text of a guard.
function meets(line, printed, text) {
  const check = /^(?:FFA_\w+ )?check (\d+):/.exec(line.reason)?.[1];
  const named = line.named?.startsWith("FFA_") ? line.named : printed;
  if (text === printed) return true;
  if (text.startsWith("FFA_")) return fits(text, check ? `${named} check ${check}` : named);
  return fits(text, !text.startsWith("check ") ? printed : check ? `check ${check}` : named);
}

// Whether each guard is met, where that is known, and which line it stands beside.
function readGuards() {
  const hosts = new Map();
  let [asked, taken, host] = [undefined, 0, undefined];
  for (const line of lines) {
    const words = /^#([=@]) ?(.*)$/.exec(line.text);
    if (!words) {
      if (line.printed?.length !== 0) [asked, taken, host] = [line, 0, line];
      continue;
    }
    const [, kind, text] = words;
    const guard = { number: line.number, text: `${kind} ${text}`, met: kind === "@" ? text === line.actor : false };
    if (kind === "=" && asked?.printed === undefined) guard.met = asked && undefined;
    else if (kind === "=" && taken < asked.printed.length) guard.met = meets(asked, asked.printed[taken++], text);
    if (!asked) guard.met = kind === "@" && guard.met;
    (host ?? line).guards.push(guard);
    if (host) hosts.set(line.number, host.number);
  }
  return hosts;
}

const lines = readLines();
const hosts = readGuards();
const guards = lines.flatMap((line) => line.guards);
const changes = readChanges();
const changing = new Set(changes.slice(1).map((change) => change.number));
const handles = readHandles();
const columns = readColumns();
const columnOf = new Map(columns.map((address, index) => [address, index]));

// THE STATE, which is moved from line to line by the changes between them

const state = { runs: new Set(), done: 0, number: 0, shown: [], tops: [0], asked: "" };

function moveState(number) {
  while (state.done < changes.length && changes[state.done].number <= number) {
    const change = changes[state.done++];
    replaceRuns(state.runs, change.gone, change.made);
  }
  while (state.done > 0 && changes[state.done - 1].number > number) {
    const change = changes[--state.done];
    replaceRuns(state.runs, change.made, change.gone);
  }
}

// Whether an endpoint may still retrieve a run, which it doesn't reach before it does.
function mayRetrieve(run, place) {
  return (run.offers[place] ?? "---") !== "---";
}

// What an endpoint may do, as a band of its colour.
function band(run, place) {
  const right = run.rights[place];
  const owns = places.get(run.owner) === place;
  if (mayRetrieve(run, place)) return make("span", `offer e${place}`);
  if (right === "---") return make("span", owns ? `none mine e${place}` : "none");
  const names = ["band", `e${place}`];
  if (right[1] === "-") names.push("read");
  if (right[2] === "x") names.push("execute");
  if (!owns) names.push("other");
  return make("span", names.join(" "));
}

function showMap(runs, made) {
  at("map").style.height = `${12 * data.endpoints.length + 8}px`;
  at("map").replaceChildren(...runs.map((run, index) => {
    const left = columnOf.get(run.first);
    const right = index + 1 < runs.length ? columnOf.get(runs[index + 1].first) : columns.length;
    const cell = make("div", run.handle === "-" ? "run" : "run open");
    cell.style.left = `${(100 * left) / columns.length}%`;
    cell.style.width = `${(100 * (right - left)) / columns.length}%`;
    const place = places.get(run.owner);
    cell.classList.add(...(place === undefined ? ["manager"] : ["owned", `e${place}`]));
    if (made.has(run)) cell.classList.add("changed");
    for (const [its, right] of run.rights.entries()) {
      if (right === "---" && !mayRetrieve(run, its)) continue;
      const bar = band(run, its);
      bar.style.top = `${4 + 12 * its}px`;
      cell.append(bar);
    }
    const offered = data.endpoints.filter((_, its) => mayRetrieve(run, its)).map((its) => `; ${its} may retrieve ${run.offers[places.get(its)]}`);
    cell.title = `${run.addresses.join("-")}, owner ${run.owner}, transaction ${run.handle}, ${run.rights.join(" ")}${offered.join("")}`;
    return cell;
  }));
}

function showTable(runs, made) {
  at("state").replaceChildren(...runs.map((run) => make("tr", made.has(run) ? "changed" : "", [
    make("td", "first", run.addresses[0]),
    make("td", "last", run.addresses[1]),
    make("td", "pages", ((run.last - run.first + 1) / 4096).toString(16).toUpperCase().padStart(5, "0")),
    make("td", "owner", [who(run.owner)]),
    make("td", "handle", run.handle),
    ...run.rights.map((right, place) => makeRight(run, right, place)),
  ])));
  fitTable();
}

// What an endpoint may do, or may still retrieve, which ends in `?`.
function makeRight(run, right, place) {
  const may = mayRetrieve(run, place);
  const cell = make("td", may ? "right offered" : "right", [band(run, place), may ? `${run.offers[place]}?` : right]);
  if (may) cell.title = `${data.endpoints[place]} may still retrieve these pages, with ${run.offers[place]} at most`;
  return cell;
}

// Takes from the table's width until its last column is in sight.
function fitTable() {
  const table = at("state").parentElement;
  table.className = "";
  for (const step of ["narrow", "tight"]) {
    if (table.scrollWidth <= at("right").clientWidth - 24) return;
    table.classList.add(step);
  }
}

// The line that is chosen, with all that is said of it.
function showChosen(line) {
  const parts = [make("div", "", line ? [who(line.actor), `  ${line.text}`] : "before the first line")];
  if (line?.answer) parts.push(make("div", "answer", [line.answer]));
  if (line?.reason) parts.push(make("div", "answer", [`refused: ${line.reason}`]));
  parts.push(...(line?.guards ?? []).map((guard) => make("div", nameOf(guard), `guard of line ${guard.number}: ${guard.text}`)));
  at("chosen").className = line?.reason ? "refused" : "";
  at("chosen").replaceChildren(...parts);
}

// THE LIST, of which only the lines in sight are in the page

function nameOf(guard) {
  return guard.met === undefined ? "guard" : guard.met ? "guard met" : "guard unmet";
}

// How high a line stands: a row for what it says, one for its answer, one for its guards.
function heightOf(line) {
  return AROUND + ROW * (1 + Boolean(line.answer) + Boolean(line.guards.length));
}

function makeLine(number, index) {
  const line = lines[number - 1];
  const names = ["line", index % 2 ? "odd" : "", changing.has(number) ? "change" : "", line.reason ? "refused" : ""];
  const moved = line.runner === line.actor ? [] : ["  \u2192 ", who(line.runner)];
  const said = line.reason ? `${line.answer}: ${line.reason}` : line.answer;
  const row = make("div", names.filter(Boolean).join(" "), [
    make("span", "number", number),
    make("div", "", [who(line.actor), `  ${line.text}`, ...moved]),
    ...(said ? [make("div", "answer", said)] : []),
    ...(line.guards.length ? [make("div", "guards", line.guards.map((guard) => make("span", nameOf(guard), guard.text)))] : []),
  ]);
  row.id = `line-${number}`;
  row.style.top = `${state.tops[index]}px`;
  row.style.height = `${heightOf(line)}px`;
  row.setAttribute("role", "option");
  row.setAttribute("aria-selected", number === state.number);
  row.setAttribute("aria-posinset", index + 1);
  row.setAttribute("aria-setsize", state.shown.length);
  row.addEventListener("click", () => choose(number));
  return row;
}

function showList() {
  const list = at("list");
  const from = Math.max(0, firstFrom(state.tops, list.scrollTop) - SPARE);
  const to = firstFrom(state.tops, list.scrollTop + list.clientHeight) + SPARE;
  at("space").style.height = `${state.tops[state.shown.length]}px`;
  at("space").replaceChildren(...state.shown.slice(from, to).map((number, index) => makeLine(number, from + index)));
}

// The place of the first of numbers in order that isn't below this one.
function firstFrom(numbers, number) {
  let [low, high] = [0, numbers.length];
  while (low < high) {
    const middle = (low + high) >> 1;
    if (numbers[middle] < number) low = middle + 1;
    else high = middle;
  }
  return low;
}

// Where the first shown line stands that isn't before this one.
function placeOf(number) {
  return firstFrom(state.shown, number);
}

function scrollToChosen() {
  const list = at("list");
  const place = Math.min(placeOf(state.number), state.shown.length - 1);
  const [top, bottom] = [state.tops[Math.max(0, place)], state.tops[place + 1]];
  if (top < list.scrollTop) list.scrollTop = top;
  else if (bottom > list.scrollTop + list.clientHeight) list.scrollTop = bottom - list.clientHeight;
}

// All that is said of a line, for the search.
function saidOf(line) {
  return [line.actor, line.text, line.answer, line.reason, ...line.guards.map((guard) => guard.text)].join(" ").toUpperCase();
}

// A call as a trace has it, for the search: all its registers, without zeros in front.
function plainOf({ call }) {
  return call ? ["CALL", ...call.x.map((value) => digits(value))].join(" ") : "";
}

// Whether a line says a text, or its call has it among its registers.
function hasText(line, text) {
  line.said ??= saidOf(line);
  line.plain ??= plainOf(line);
  return line.said.includes(text) || line.plain.includes(text.replace(/\b0+(?=[0-9A-F])/g, ""));
}

function filterLines() {
  const [actor, handle, find] = [at("actor").value, handles.get(at("handle").value), at("find").value.trim().toUpperCase()];
  const [refused, changed, unmet] = ["refused", "changing", "unmet"].map((id) => at(id).checked);
  const passes = (line) => (!actor || (line.actor === actor && line.answer)) && (!handle || handle.has(line.number))
    && (!refused || line.reason) && (!changed || changing.has(line.number))
    && (!unmet || line.guards.some((guard) => guard.met === false)) && (!find || hasText(line, find));
  const passed = lines.filter((line) => !hosts.has(line.number) && passes(line));
  state.shown = passed.map((line) => line.number);
  state.tops = [0];
  for (const line of passed) state.tops.push(state.tops.at(-1) + heightOf(line));
  at("count").textContent = `${passed.length} of ${lines.length - hosts.size} lines`;
  scrollToChosen();
  showList();
  keepAddress();
}

// THE ADDRESS, which has the line that is chosen and the filters behind its `#`

const KEPT = ["actor", "handle", "find", "refused", "changing", "unmet"];

function address() {
  const words = new URLSearchParams({ line: state.number });
  for (const id of KEPT) {
    const value = at(id).type === "checkbox" ? at(id).checked && "1" : at(id).value;
    if (value) words.set(id, value);
  }
  return `#${words}`;
}

function keepAddress() {
  clearTimeout(keepAddress.later);
  keepAddress.later = setTimeout(() => history.replaceState(null, "", address()), 300);
}

function fromAddress() {
  const words = new URLSearchParams(location.hash.slice(1));
  for (const id of KEPT) {
    if (at(id).type === "checkbox") at(id).checked = words.has(id);
    else at(id).value = words.get(id) ?? "";
  }
  const asked = /^\d+$/.test(words.get("line") ?? "") ? Number(words.get("line")) : 0;
  state.number = asked;
  filterLines();
  choose(asked);
}

// CHOOSING
function choose(number) {
  const within = Math.min(Math.max(number, 0), lines.length);
  state.number = hosts.get(within) ?? within;
  moveState(state.number);
  const line = lines[state.number - 1];
  const made = new Set(changing.has(state.number) ? changes[state.done - 1].made : []);
  const runs = [...state.runs].sort((a, b) => a.first - b.first);
  at("where").textContent = line ? `line ${state.number} of ${lines.length}` : `the beginning, of ${lines.length} lines`;
  at("runs").replaceChildren(who(line ? line.runner : data.runner), " runs");
  at("slider").value = state.number;
  showMap(runs, made);
  showTable(runs, made);
  showChosen(line);
  scrollToChosen();
  showList();
  at("list").setAttribute("aria-activedescendant", `line-${state.number}`);
  keepAddress();
}

// Goes on by so many of the lines that are shown.
function step(count) {
  const place = placeOf(state.number);
  const chosen = state.shown[place] === state.number;
  const next = count < 0 || chosen ? place + count : place + count - 1;
  choose(next < 0 ? 0 : state.shown[Math.min(next, state.shown.length - 1)] ?? state.number);
}

// Chooses the first line that was found, or the next one where this text was asked for before, and behind the last the first.
function chooseFound() {
  const find = at("find").value;
  const place = placeOf(state.number);
  const next = state.asked === find && state.shown[place] === state.number ? (place + 1) % state.shown.length : 0;
  state.asked = find;
  if (state.shown.length) choose(state.shown[next]);
}

function stepChange(forward) {
  const next = changes[forward ? state.done : state.done - (changes[state.done - 1].number === state.number ? 2 : 1)];
  if (next) choose(next.number);
}

function onKey(event) {
  if (event.key === "Enter" && event.target === at("find") && !event.isComposing) chooseFound();
  if (event.ctrlKey || event.altKey || event.metaKey || event.target.tagName === "SELECT" || event.target === at("find")) return;
  const page = Math.max(1, Math.floor(at("list").clientHeight / (AROUND + 2 * ROW)) - 1);
  const actions = {
    ArrowLeft: () => step(-1), ArrowUp: () => step(-1), ArrowRight: () => step(1), ArrowDown: () => step(1),
    PageUp: () => step(-page), PageDown: () => step(page), Home: () => choose(0), End: () => step(lines.length),
    "[": () => stepChange(false), "]": () => stepChange(true), "/": () => at("find").focus(),
  };
  if (!Object.hasOwn(actions, event.key)) return;
  event.preventDefault();
  actions[event.key]();
}

// THE BEGINNING

function showLegend() {
  const sample = (text, site, band) => {
    return make("span", "sample", [make("i", site, band ? [make("span", `band e0 ${band}`)] : []), text]);
  };
  const offered = make("span", "sample", [make("i", "", [make("span", "offer e0")]), "may still be retrieved"]);
  at("legend").replaceChildren(
    ...data.endpoints.map(who),
    sample("r", "", "read"), sample("rw", "", "write"), sample("with x", "", "execute"), sample("not its owner", "", "other"),
    sample("its page, out of reach", "run owned e0"), sample("in a transaction", "run open"), sample("the manager's", "run manager"),
    ...(changes.some(({ made }) => made.some((run) => run.offers.length)) ? [offered] : []),
  );
}

function begin() {
  const heads = ["first", "last", "pages", "owner", "handle", ...data.endpoints.map((endpoint) => [who(endpoint)])];
  at("head").replaceChildren(...heads.map((head) => make("th", "", head)));
  at("actor").append(...data.endpoints.map((endpoint) => make("option", "", endpoint)));
  at("handle").append(...[...handles.keys()].sort().map((handle) => make("option", "", handle)));
  at("slider").max = lines.length;
  showLegend();
  at("slider").addEventListener("input", () => choose(Number(at("slider").value)));
  at("list").addEventListener("scroll", showList);
  for (const id of KEPT) at(id).addEventListener(id === "find" ? "input" : "change", filterLines);
  at("unmet").parentElement.hidden = !guards.length;
  addEventListener("keydown", onKey);
  addEventListener("hashchange", fromAddress);
  addEventListener("resize", () => {
    showList();
    fitTable();
  });
  fromAddress();
  document.documentElement.dataset.ready = Math.round(performance.now());
}

begin();

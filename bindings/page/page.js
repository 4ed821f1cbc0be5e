// The page: what the worker tells of a file, shown.
"use strict";

const ROW = 22;
/** The tallest that an element may be in every browser: a longer list is scrolled by its share. */
const TALLEST = 8_000_000;
const PER_PAGE = 200;
/** So many columns have their number above them. */
const RULED = 1030;

const by = (id) => document.getElementById(id);

/** An element with its content and properties. */
function made(tag, properties = {}, ...content) {
  const element = Object.assign(document.createElement(tag), properties);
  element.append(...content);
  return element;
}

const state = { name: "", lines: 0, layouts: {}, told: [], marks: new Map(), line: 0, field: 1, works: 0, group: 0 };

// ---- the worker

const SCRIPT = URL.createObjectURL(new Blob([WORKER], { type: "text/javascript" }));

/** The work on one file, in a worker of its own. Once it is ended, nothing that was asked of it is answered. */
class Work {
  constructor(module) {
    this.worker = new Worker(SCRIPT);
    this.waiting = new Map();
    this.asked = 0;
    this.worker.onmessage = ({ data: { id, answer, fault } }) => {
      const { done, fail } = this.waiting.get(id);
      this.waiting.delete(id);
      if (fault === undefined) done(answer);
      else fail(new Error(fault));
    };
    this.started = this.ask("start", { module });
    this.started.catch(() => {});
  }

  ask(what, given = {}) {
    this.asked += 1;
    const id = this.asked;
    return new Promise((done, fail) => {
      this.waiting.set(id, { done, fail });
      this.worker.postMessage({ id, ask: what, ...given });
    });
  }

  end() {
    // an answer that is on its way is dropped
    this.worker.onmessage = null;
    this.worker.terminate();
  }
}

let work = null;

function ask(what, given) {
  return work.ask(what, given);
}

const begun = { open: 0, go: 0, draw: 0, outline: 0, find: 0 };

/** Begins something. The answer says whether nothing of its kind was begun since, and no file: only then is its outcome shown. */
function begin(what) {
  begun[what] += 1;
  const [mine, file] = [begun[what], begun.open];
  return () => begun[what] === mine && begun.open === file;
}

// ---- a file

function tell(words, how) {
  const verdict = by("verdict");
  verdict.textContent = words;
  verdict.className = how;
}

/** What is said of a file that doesn't begin as one of the format, with the library's notes on it. */
function headless({ told }) {
  const [first] = told;
  if (!first?.fault || first.line > 0 || first.field > 1 || first.level !== "E") return "";
  return [WORDS.headless, ...first.notes.filter((it) => it.startsWith("note ")).map((it) => it.replace(/^note +/, ""))].join(" ");
}

function refusedWords(answer) {
  const { told, lines, isCutOff, isEarly } = answer;
  const faults = told.filter((it) => it.fault && !(isCutOff && it.line === lines - 1)).length;
  const refused = WORDS.refused(Math.max(faults, 1)) + (isEarly ? WORDS.early : "");
  return headless(answer) || (isCutOff ? WORDS.cutOff(lines) + (faults > 0 ? WORDS.besides(faults) : "") : refused);
}

function verdictWords(answer) {
  const { verdict, told, behind } = answer;
  const findings = told.filter((it) => !it.fault).length;
  const more = findings > 0 ? WORDS.withFindings(findings) : "";
  if (verdict.ending === 0) {
    const words = [WORDS.good(verdict) + more, ...(behind.length > 0 ? [WORDS.behindIt(behind)] : [])].join(" ");
    return [words, findings > 0 || behind.length > 0 ? "finding" : "good"];
  }
  if (verdict.ending === 2) return [WORDS.truncated + more, "bad"];
  if (verdict.ending === 1) return [refusedWords(answer) + more, "bad"];
  return [WORDS.noMemory, "bad"];
}

/** What is told where the page can't go on. */
function faultWords({ message }) {
  return { browser: WORDS.oldBrowser, room: WORDS.noMemory, unreadable: WORDS.unreadable }[message] ?? WORDS.failed(message);
}

/** Ends the work on a file. Nothing is shown but the name of the next one. */
function clear(name) {
  work?.end();
  work = null;
  Object.assign(state, { name, lines: 0, told: [], marks: new Map(), line: 0, field: 1, works: 0 });
  by("name").textContent = name;
  by("start").hidden = true;
  document.querySelector("main").hidden = true;
  by("files").hidden = true;
  by("saved").textContent = "";
  by("words").value = "";
  for (const id of ["faults", "works", "statuses", "hits", "rows", "fieldpart", "workpart"]) by(id).replaceChildren();
}

async function open(file) {
  const isLatest = begin("open");
  // a name is shown in one line
  clear(file.name.replace(/[\x00-\x1f\x7f]/g, "?"));
  tell(WORDS.reading, "");
  try {
    const module = await ready;
    if (!isLatest()) return;
    work = new Work(module);
    const answer = await ask("open", { file, name: state.name });
    if (answer.tooLarge) fail(WORDS.tooLarge(answer.most));
    else await show(answer);
  } catch (fault) {
    if (isLatest()) fail(faultWords(fault));
  }
}

/** No file is shown, and this is why. */
function fail(words) {
  clear(state.name);
  by("start").hidden = false;
  tell(words, "bad");
}

async function show(answer) {
  Object.assign(state, { lines: answer.lines, told: answer.told, works: answer.transactions });
  for (const it of answer.told) state.marks.set(it.line, [...(state.marks.get(it.line) ?? []), it]);
  tell(...verdictWords(answer));
  by("start").hidden = true;
  document.querySelector("main").hidden = false;
  by("files").hidden = false;
  by("data").disabled = answer.verdict.ending !== 0;
  by("why").hidden = answer.verdict.ending === 0;
  showFaults(answer);
  size();
  by("scroll").scrollTo(0, 0);
  const [first] = state.told;
  await Promise.all([showOutline(), go(first?.line ?? 0, first?.field ?? 1)]);
}

/** One file is opened. Several are listed, and one of them is opened once it is chosen. */
function take(files) {
  const list = files.length > 1 ? files : [];
  by("several").hidden = list.length === 0;
  by("several").replaceChildren(...list.map((file) => made("button", { textContent: file.name, onclick: () => open(file) })));
  if (list.length > 0) by("several").prepend(made("span", { textContent: WORDS.several(list.length) }));
  if (files.length === 1) open(files[0]);
}

// ---- lines

function tall() {
  return Math.min(state.lines * ROW, TALLEST);
}

function size() {
  by("rows").style.height = `${tall()}px`;
  by("scroll").setAttribute("aria-rowcount", state.lines);
  by("ruler").textContent = Array.from({ length: RULED / 10 }, (_, i) => String(i * 10 + 1).padEnd(10)).join("");
}

/** The first line that is seen, and how many are. */
function seen() {
  const area = by("scroll");
  const room = Math.ceil(area.clientHeight / ROW);
  const most = Math.max(tall() + ROW + 1 - area.clientHeight, 1);
  const first = state.lines * ROW <= TALLEST
    ? Math.floor(area.scrollTop / ROW)
    : Math.round((area.scrollTop / most) * (state.lines - room + 2));
  return [Math.max(0, Math.min(first, state.lines - 1)), room + 1];
}

/** The latest drawing: one that another was begun after ends with that. */
let drawn = null;

function draw() {
  drawn = drawLines(begin("draw"));
  return drawn;
}

async function drawLines(isLatest) {
  const mine = begun.draw;
  const [first, count] = seen();
  const from = Math.max(0, first - 5);
  const { texts } = await ask("lines", { from, count: count + 10 });
  if (!isLatest()) return begun.draw === mine ? undefined : drawn;
  const top = state.lines * ROW <= TALLEST ? from * ROW : by("scroll").scrollTop - (first - from) * ROW;
  // each line is as wide as all, so that its number and its kind stay in sight
  const longest = Math.max(RULED, ...texts.map((it) => it.text.length));
  by("rows").style.width = `calc(var(--number) + ${longest}ch + 10rem)`;
  by("rows").replaceChildren(...texts.map((it, i) => row(from + i, it, top + i * ROW)));
  if (by("chosen")) by("scroll").setAttribute("aria-activedescendant", "chosen");
  else by("scroll").removeAttribute("aria-activedescendant");
  return undefined;
}

/** The cells of a line: each field's, filled up with spaces, and what stands behind the last one. */
function cells(text) {
  const fields = state.layouts[text.slice(0, 3)];
  if (!fields) return [{ j: 1, text: text.slice(0, 3) || " ", kind: true }, { j: 2, text: text.slice(3) }].filter((cell) => cell.text !== "");
  const all = fields.map(({ name, start, width, derived }, i) => {
    return { j: i + 1, name, text: text.slice(start, start + width).padEnd(width), derived, kind: i === 0 };
  });
  const last = fields[fields.length - 1];
  const behind = text.slice(last.start + last.width);
  return behind === "" ? all : [...all, { j: fields.length + 1, name: WORDS.behind, text: behind }];
}

/** A text with a sign for each character that has none. */
function visible(text) {
  return text.replace(/[\x00-\x1f\x7f-\x9f]/g, "\u2423");
}

function row(at, { text, rest }, top) {
  const marks = state.marks.get(at) ?? [];
  const number = made("span", { className: "number", textContent: at + 1 });
  number.setAttribute("role", "rowheader");
  if (marks.some((it) => it.fault)) number.classList.add("at");
  else if (marks.length > 0) number.classList.add("noted");
  const parts = cells(text).map(({ j, name, text: shown, derived, kind }) => {
    const cell = made("span", { className: "cell", textContent: visible(shown) });
    cell.setAttribute("role", "gridcell");
    cell.setAttribute("aria-colindex", j + 1);
    cell.dataset.field = j;
    if (name) cell.setAttribute("aria-label", `${name}: ${shown.trimEnd() || WORDS.blank}`);
    if (kind) cell.classList.add("kind");
    else if (derived) cell.classList.add("derived");
    for (const it of marks) if (it.field === j) cell.classList.add(it.fault ? "at" : "noted");
    if (at === state.line && j === state.field) {
      cell.classList.add("chosen");
      cell.id = "chosen";
    }
    return cell;
  });
  if (rest > 0) parts.push(made("small", { textContent: WORDS.rest(rest) }));
  const line = made("div", { className: "line" }, number, ...parts);
  line.setAttribute("role", "row");
  line.setAttribute("aria-rowindex", at + 1);
  line.setAttribute("aria-selected", at === state.line);
  line.dataset.line = at;
  line.style.top = `${top}px`;
  return line;
}

/** Scrolls to where a line is seen. */
function bring(line) {
  const [first, count] = seen();
  if (line >= first + 1 && line <= first + count - 4) return;
  const area = by("scroll");
  const wanted = Math.max(0, line - 3);
  area.scrollTop = state.lines * ROW <= TALLEST
    ? wanted * ROW
    : (wanted / Math.max(state.lines - count + 3, 1)) * (tall() + ROW + 1 - area.clientHeight);
}

/** Goes to a line and a field of it, and tells of both. */
async function go(line, field, focus = true) {
  if (state.lines === 0) return;
  const isLatest = begin("go");
  state.line = Math.max(0, Math.min(line, state.lines - 1));
  state.field = field;
  bring(state.line);
  const place = await ask("place", { line: state.line });
  if (!isLatest()) return;
  const least = state.layouts[place.text.slice(0, 3)]?.length ?? 1;
  state.field = Math.min(field, Math.max(least, cells(place.text).length));
  await draw();
  if (!isLatest()) return;
  by("chosen")?.scrollIntoView({ block: "nearest", inline: "nearest" });
  if (focus) by("scroll").focus({ preventScroll: true });
  tellField(place.text);
  tellWork(place);
  for (const entry of document.querySelectorAll(".entry[data-line]")) {
    entry.setAttribute("aria-current", Number(entry.dataset.line) === state.line && (entry.dataset.field === undefined || Number(entry.dataset.field) === state.field));
  }
}

function tellField(text) {
  const kind = text.slice(0, 3);
  const field = state.layouts[kind]?.[state.field - 1];
  const part = [made("h2", { textContent: `${WORDS.line(state.line + 1)}, ${visible(kind)}${field ? `, ${field.name}` : ""}` })];
  if (!state.layouts[kind]) part.push(made("p", { className: "bad", textContent: WORDS.unknownKind }));
  if (field) {
    const held = text.slice(field.start, field.start + field.width).trimEnd();
    const may = field.codes.length > 0 ? WORDS.oneOf(field.codes) : WORDS.types[field.type];
    const list = made("dl");
    list.append(
      made("dt", { textContent: WORDS.value }), made("dd", { textContent: held === "" ? WORDS.blank : visible(held) }),
      made("dt", { textContent: WORDS.mayHold }), made("dd", { textContent: `${may} (${WORDS.bytes(field.start + 1, field.start + field.width)})` }),
    );
    if (field.derived && state.field > 1) list.append(made("dd", { textContent: WORDS.derived }));
    part.push(list);
  }
  for (const it of state.marks.get(state.line) ?? []) {
    part.push(made("p", { className: it.fault ? "bad" : "finding", textContent: `${it.words}: ${WORDS.levels[it.level]}` }));
    if (it.notes.length > 0) part.push(made("pre", { className: "note", textContent: it.notes.join("\n") }));
  }
  part.push(made("p", {}, made("small", { textContent: WORDS.keys })));
  by("fieldpart").replaceChildren(...part);
}

// ---- a work

const RIGHTS = ["pr", "mr", "sr"];
const share = (cells, right) => Number(cells[`${right} share`] || 0);
const percent = (hundredths) => (hundredths / 100).toLocaleString("en");

function person({ cells: held }) {
  return held["publisher name"] || [held["first name"], held["last name"]].filter(Boolean).join(" ") || held["interested party number"] || "";
}

/** A bar of the parties' shares of a right: whole where they add up to 100 %, or there are none. */
function bar(right, parties) {
  const sum = parties.reduce((total, it) => total + share(it.cells, right), 0);
  const words = WORDS.sum(WORDS.rights[right], percent(sum));
  const whole = sum === 0 || Math.abs(sum - 10000) <= 6;
  const strip = made("div", { className: whole ? "bar" : "bar wrong", role: "img", title: words });
  strip.setAttribute("aria-label", words);
  for (const it of parties) {
    const piece = made("span", { title: `${person(it)}: ${percent(share(it.cells, right))} %` });
    piece.style.width = `${Math.min(100, share(it.cells, right) / 100)}%`;
    strip.append(piece);
  }
  return made("div", { className: "party" }, made("small", { className: whole ? "" : "bad", textContent: words }), strip);
}

function names(title, parties) {
  if (parties.length === 0) return [];
  const items = parties.map((it) => made("li", { textContent: `${person(it)}: ${RIGHTS.map((right) => percent(share(it.cells, right))).join(" / ")} %` }));
  return [made("h2", { textContent: title }), made("ul", {}, ...items)];
}

function tellWork({ records, group }) {
  if (records.length === 0) return by("workpart").replaceChildren(made("p", { textContent: WORDS.noWork }));
  const [{ kind, cells: head }, ...others] = records;
  const publishers = others.filter((it) => it.kind === "SPU" || it.kind === "OPU");
  const writers = others.filter((it) => it.kind === "SWR" || it.kind === "OWR");
  const title = head.title || head["creation title"] || head["submitter agreement number"] || "";
  const ids = [head["submitter work number"] || head["submitter creation number"], head.iswc, head["transaction status"]].filter(Boolean).join(" · ");
  const part = [made("h2", { textContent: `${kind} ${title}` }), made("p", { textContent: [WORDS.group(group), ids].filter(Boolean).join(" · ") })];
  const parties = [...writers, ...publishers];
  const given = RIGHTS.filter((right) => parties.some((it) => share(it.cells, right) > 0));
  part.push(...given.map((right) => bar(right, parties)));
  if (parties.length > 0 && given.length === 0) part.push(made("p", { textContent: WORDS.noShares }));
  part.push(...names(WORDS.writers, writers), ...names(WORDS.publishers, publishers));
  const messages = others.filter((it) => it.kind === "MSG").map((it) => made("li", { textContent: `${it.cells["message level"]} ${it.cells["message text"]}` }));
  if (messages.length > 0) part.push(made("h2", { textContent: WORDS.messages }), made("ul", {}, ...messages));
  return by("workpart").replaceChildren(...part);
}

// ---- faults, outline, search

function entry(line, field, words, small, how = "") {
  const button = made("button", { className: "entry" }, made("span", { className: how, textContent: words }), made("small", { textContent: small }));
  button.dataset.line = line;
  if (field !== undefined) button.dataset.field = field;
  button.onclick = () => go(line, field ?? 1);
  return button;
}

/** A long list, a page at a time, with a button for more. */
function paged(list, into, draw) {
  const more = made("button", { textContent: "…" });
  const next = (from) => {
    more.remove();
    into.append(...list.slice(from, from + PER_PAGE).map(draw));
    if (from + PER_PAGE < list.length) {
      more.textContent = `… ${list.length - from - PER_PAGE}`;
      more.onclick = () => next(from + PER_PAGE);
      into.append(more);
    }
  };
  into.replaceChildren();
  next(0);
}

/** The record and the field of a fault, by their names. */
function placeWords({ line, kind, field }) {
  const fields = state.layouts[kind];
  const name = fields?.[field - 1]?.name ?? (fields ? WORDS.behind : "");
  return [WORDS.line(line + 1), fields ? kind : "", name].filter(Boolean).join(" · ");
}

function toldEntry(it) {
  return entry(it.line, it.field, it.words, `${placeWords(it)} · ${it.level}: ${WORDS.levels[it.level]}`, it.fault ? "bad" : "finding");
}

function showFaults(answer) {
  const panel = by("faults");
  if (state.told.length === 0) return panel.replaceChildren(made("p", { textContent: WORDS.noFaults }));
  if (state.told.length === 1 || !headless(answer)) return paged(state.told, panel, toldEntry);
  // of a file that doesn't begin as one the first fault says all, until the others are asked for
  const more = made("button", { textContent: WORDS.others(state.told.length - 1), onclick: () => paged(state.told, panel, toldEntry) });
  return panel.replaceChildren(toldEntry(state.told[0]), more);
}

async function showOutline() {
  const isLatest = begin("outline");
  const { counts } = await ask("statuses");
  if (!isLatest()) return;
  by("works").replaceChildren();
  state.group = 0;
  by("statuses").replaceChildren(...(Object.keys(counts).length === 0 ? [] : [
    made("h2", { textContent: WORDS.statuses }),
    made("p", { textContent: Object.entries(counts).map(([status, count]) => `${status} ${count}`).join(" · ") }),
  ]));
  await moreWorks(0, isLatest);
}

async function moreWorks(from, isLatest) {
  const into = by("works");
  const { works, total } = await ask("works", { from, count: PER_PAGE, only: by("faulty").checked });
  if (!isLatest()) return;
  for (const it of works) {
    if (it.group !== state.group) {
      state.group = it.group;
      into.append(made("h2", { textContent: WORDS.group(it.group) }));
    }
    const small = [it.number, it.status, it.parties.join(", ")].filter(Boolean).join(" · ");
    into.append(entry(it.line, undefined, `${it.kind} ${it.title}`, small, it.faulty ? "bad" : ""));
  }
  const next = from + works.length;
  if (next < total) {
    const more = made("button", { textContent: `… ${total - next}` });
    more.onclick = () => {
      more.remove();
      moreWorks(next, isLatest);
    };
    into.append(more);
  }
}

/** The search is begun once no key came for so many milliseconds. */
const PAUSE = 250;
let paused = 0;

function find() {
  const isLatest = begin("find");
  clearTimeout(paused);
  const words = by("words").value;
  by("hits").replaceChildren(...(words === "" ? [] : [made("p", { textContent: WORDS.finding })]));
  paused = setTimeout(() => showFound(words, isLatest), words === "" ? 0 : PAUSE);
}

async function showFound(words, isLatest) {
  if (!isLatest()) return;
  const { lines } = await ask("search", { words });
  if (!isLatest() || lines === null || words === "") return;
  const list = made("div");
  paged(lines, list, (it) => entry(it.line, undefined, it.text.slice(19).trim().slice(0, 60), `${WORDS.line(it.line + 1)} · ${it.text.slice(0, 3)}`));
  const head = lines.length === 0 ? WORDS.findNone : lines.length === 1000 ? WORDS.findMany : WORDS.findAll(lines.length);
  by("hits").replaceChildren(made("p", { textContent: head }), list);
}

function choose(tab) {
  for (const it of document.querySelectorAll("[role=tab]")) {
    const on = it === tab;
    it.setAttribute("aria-selected", on);
    it.tabIndex = on ? 0 : -1;
    by(it.getAttribute("aria-controls")).hidden = !on;
  }
}

// ---- files down

/** Saves what is made of the file, or says beside the verdict why it isn't made. */
async function down(what, ending) {
  const file = begun.open;
  const say = (words, how) => Object.assign(by("saved"), { textContent: words, className: how });
  say(WORDS.making, "");
  try {
    const { ending: how, line, made: bytes } = await ask("down", { what, name: state.name });
    if (begun.open !== file) return;
    if (how !== 0) return void say(notMended(line), "bad");
    const link = made("a", { href: URL.createObjectURL(new Blob([bytes])), download: state.name.replace(/(\.[^.]*)?$/, ending) });
    link.click();
    setTimeout(() => URL.revokeObjectURL(link.href), 60000);
    say(WORDS.saved(link.download), "");
  } catch (fault) {
    if (begun.open === file) say(faultWords(fault), "bad");
  }
}

/** Why no numbers are made, with the first fault of the line where that came. */
function notMended(line) {
  const fault = state.marks.get(line - 1)?.find((it) => it.fault);
  return WORDS.notMended(line) + (fault ? ` ${placeWords(fault)}: ${fault.words}.` : "");
}

// ---- what the person does

function nextFault(step) {
  const at = state.told.findIndex((it) => it.line > state.line || (it.line === state.line && it.field > state.field));
  const here = at < 0 ? state.told.length : at;
  const before = state.told.findLastIndex((it) => it.line < state.line || (it.line === state.line && it.field < state.field));
  const it = state.told[step > 0 ? here : before];
  if (it) go(it.line, it.field);
}

const KEYS = {
  ArrowDown: () => go(state.line + 1, state.field),
  ArrowUp: () => go(state.line - 1, state.field),
  PageDown: () => go(state.line + seen()[1] - 3, state.field),
  PageUp: () => go(state.line - seen()[1] + 3, state.field),
  Home: () => go(0, 1),
  End: () => go(state.lines - 1, 1),
  ArrowRight: () => go(state.line, state.field + 1),
  ArrowLeft: () => go(state.line, Math.max(state.field - 1, 1)),
};
const KEYS_OF_PAGE = {
  n: () => nextFault(1),
  p: () => nextFault(-1),
  "/": () => {
    choose(by("tab-find"));
    by("words").focus();
  },
};

/** Does what a key stands for, if anything. */
function press(event, keys) {
  const act = event.ctrlKey || event.metaKey || event.altKey ? undefined : keys[event.key.length === 1 ? event.key.toLowerCase() : event.key];
  if (!act) return;
  event.preventDefault();
  act();
}

by("scroll").onkeydown = (event) => press(event, KEYS);
by("scroll").onscroll = () => {
  // beside the kind stands a gap only where cells are hidden behind it
  by("scroll").classList.toggle("aside", by("scroll").scrollLeft > 0);
  if (state.lines > 0) draw();
};
by("scroll").onclick = (event) => {
  const line = event.target.closest(".line");
  if (line) go(Number(line.dataset.line), Number(event.target.closest(".cell")?.dataset.field ?? 1));
};
by("scroll").onmouseover = (event) => {
  const cell = event.target.closest(".cell");
  const field = cell && state.layouts[cell.closest(".line").querySelector(".kind").textContent]?.[cell.dataset.field - 1];
  if (field) cell.title = `${field.name}: ${field.codes.length > 0 ? WORDS.oneOf(field.codes) : WORDS.types[field.type]}`;
};
document.onkeydown = (event) => {
  if (state.lines > 0 && !event.target.closest("[type=search]")) press(event, KEYS_OF_PAGE);
};
by("words").onkeydown = (event) => press(event, { Escape: () => by("scroll").focus({ preventScroll: true }) });
for (const tab of document.querySelectorAll("[role=tab]")) {
  tab.onclick = () => choose(tab);
  tab.onkeydown = ({ key }) => {
    const tabs = [...document.querySelectorAll("[role=tab]")];
    const step = { ArrowRight: 1, ArrowLeft: -1 }[key];
    if (step === undefined) return;
    const other = tabs[(tabs.indexOf(tab) + step + tabs.length) % tabs.length];
    choose(other);
    other.focus();
  };
}
by("faulty").onchange = () => showOutline();
by("words").oninput = () => find();
by("mended").onclick = () => down("mended", "-numbered.V21");
by("data").onclick = () => down("data", ".jsonl");
by("table").onclick = () => down("table", ".csv");
by("pick").onchange = ({ target }) => {
  const files = [...target.files];
  // the name of the file that is shown stands beside it, and the same file may be chosen again
  target.value = "";
  if (files.length > 0) take(files);
};
document.ondragover = (event) => event.preventDefault();
document.ondrop = (event) => {
  event.preventDefault();
  const files = [...event.dataTransfer.files];
  if (files.length > 0) take(files);
};
addEventListener("resize", () => state.lines > 0 && draw());

for (const element of document.querySelectorAll("[data-word]")) element.textContent = WORDS[element.dataset.word];
for (const element of document.querySelectorAll("[data-label]")) element.setAttribute("aria-label", WORDS[element.dataset.label]);
document.title = WORDS.title;

/** The module of the library, once it is compiled and the layouts are known. */
const ready = (async () => {
  const module = await WebAssembly.compile(Uint8Array.from(atob(MODULE), (it) => it.charCodeAt(0)));
  const first = new Work(module);
  ({ layouts: state.layouts } = await first.started);
  first.end();
  document.body.dataset.ready = "yes";
  return module;
})().catch(() => {
  throw new Error("browser");
});
ready.catch((fault) => tell(faultWords(fault), "bad"));

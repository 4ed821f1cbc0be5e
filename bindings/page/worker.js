// What the page asks of a file, apart from the page: it is read, judged, cut into lines and searched here. A worker has one file.
"use strict";

const MOST_BYTES = 500_000_000;
/** So many characters of a line are shown: of a longer one it is counted how many more there are. */
const MOST_SHOWN = 2_000;
/** A search goes over so many bytes before another question is answered. */
const PART = 4_000_000;
const MOST_FOUND = 1_000;
const HEADERS = ["AGR", "NWR", "REV", "ACK"];
const OUTSIDE = ["HDR", "GRH", "GRT", "TRL"];
const LF = 10;

let library = null;
let layouts = {};
let bytes = new Uint8Array();
/** Where each line begins, and behind the last one the end. */
let starts = new Float64Array(1);
/** Of each transaction the lines of its records, and of each group the line of its header. */
let transactions = [];
let groups = [];
/** The transactions in which a fault or a finding is told. */
let faulty = new Set();

/** Bytes as characters of the same numbers. */
function characters(part) {
  let text = "";
  for (let at = 0; at < part.length; at += 8192) text += String.fromCharCode(...part.subarray(at, at + 8192));
  return text;
}

/** Where the text of a line ends: its line feed isn't of it, nor is a carriage return before that. */
function endOfLine(i) {
  let end = starts[i + 1];
  if (end > starts[i] && bytes[end - 1] === LF) end -= 1;
  if (end > starts[i] && bytes[end - 1] === 13) end -= 1;
  return end;
}

/** A line, as far as it is shown. */
function line(i) {
  return characters(bytes.subarray(starts[i], Math.min(endOfLine(i), starts[i] + MOST_SHOWN)));
}

/** How many more bytes a line has. */
function rest(i) {
  return Math.max(0, endOfLine(i) - starts[i] - MOST_SHOWN);
}

function cut(text) {
  const found = [];
  for (let at = 0; at < text.length; ) {
    found.push(at);
    const next = text.indexOf(LF, at);
    at = next < 0 ? text.length : next + 1;
  }
  found.push(text.length);
  return Float64Array.from(found);
}

function kindOf(i) {
  const at = starts[i];
  return String.fromCharCode(bytes[at], bytes[at + 1], bytes[at + 2]);
}

/** A record begins a transaction where its kind may and its own sequence is 0: a copy within an acknowledgement has another. */
function begins(i, kind) {
  if (!HEADERS.includes(kind)) return false;
  for (let at = starts[i] + 11; at < starts[i] + 19; at += 1) if (bytes[at] !== 48) return false;
  return true;
}

function outline() {
  groups = [];
  transactions = [];
  const lines = starts.length - 1;
  let open = null;
  for (let i = 0; i < lines; i += 1) {
    const kind = kindOf(i);
    const isBegun = begins(i, kind);
    if (!isBegun && !OUTSIDE.includes(kind)) continue;
    if (open) open.end = i;
    open = null;
    if (kind === "GRH") groups.push({ line: i, first: transactions.length });
    if (isBegun) {
      open = { line: i, end: lines, group: groups.length };
      transactions.push(open);
    }
  }
}

/** Which transaction has the line, or -1. */
function transactionOf(wanted) {
  let low = 0;
  let high = transactions.length;
  while (low < high) {
    const middle = (low + high) >> 1;
    if (transactions[middle].line <= wanted) low = middle + 1;
    else high = middle;
  }
  return low > 0 && wanted < transactions[low - 1].end ? low - 1 : -1;
}

/** What the outline says of a transaction. */
function outlined(i) {
  const it = transactions[i];
  const records = recordsOf(it);
  const [{ kind, cells }] = records;
  return {
    line: it.line,
    group: it.group,
    kind,
    title: cells.title || cells["creation title"] || cells["submitter agreement number"] || "",
    number: cells["submitter work number"] || cells["submitter creation number"] || "",
    status: cells["transaction status"] || "",
    parties: parties(records),
    faulty: faulty.has(i),
  };
}

/** The faults and the findings that a lint tells, and whether it says that the text ends too early. */
function read(report) {
  const told = [];
  let isAtEnd = false;
  let isEarly = false;
  for (const row of report.split("\n")) {
    if (row.startsWith("  ")) {
      if (!isAtEnd) told[told.length - 1]?.notes.push(row.slice(2));
      continue;
    }
    const fault = /^FAULT record (\d+) field (\d+) level (.) (.*)$/.exec(row);
    const finding = /^FINDING group (\d+) transaction (\d+) record (\d+) field (\d+) level (.) rule (V\d+)$/.exec(row);
    if (fault) told.push(place(fault[1] - 1, +fault[2], fault[3], fault[4], true));
    else if (finding) told.push(found(finding));
    else if (row !== "") isAtEnd = true;
    isEarly = isEarly || row.startsWith("TRUNCATED");
  }
  return { told, isEarly };
}

function place(at, field, level, words, fault) {
  return { line: at, field, level, words, fault, kind: at < starts.length - 1 ? kindOf(at) : "", notes: [] };
}

function found([, group, transaction, record, field, level, rule]) {
  const at = transactions[(groups[group - 1]?.first ?? 0) + Number(transaction)];
  return place((at?.line ?? 0) + Number(record), +field, level, rule, false);
}

/** Whether a fault is told in the last line, and that line has no end and isn't whole: so the file ends within it. */
function isCutOff(told) {
  const last = starts.length - 2;
  if (last < 0 || bytes[bytes.length - 1] === LF || !told.some((it) => it.fault && it.line === last)) return false;
  const fields = layouts[kindOf(last)];
  const whole = fields ? fields[fields.length - 1].start + fields[fields.length - 1].width : 3;
  return bytes.length - starts[last] < whole;
}

/** What an explanation says behind the verdict of what stands after a transmission. */
function saidBehind(report) {
  const rows = report.split("\n");
  return rows.slice(rows.findIndex((row) => row.startsWith("GOOD ")) + 1).filter((row) => row.startsWith("  ")).map((row) => row.replace(/^ +[a-z]+ +/, ""));
}

function judged(name) {
  const text = library.put(bytes);
  try {
    const { told: verdict, made } = library.report(REPORTS.explainedLint, text, name);
    const report = read(new TextDecoder().decode(made));
    const isFollowed = verdict.ending === 0 && starts.length - 1 > verdict.records;
    const behind = isFollowed ? saidBehind(new TextDecoder().decode(library.report(REPORTS.explain, text, name).made)) : [];
    return { verdict, ...report, isCutOff: isCutOff(report.told), behind };
  } finally {
    library.free(text[0]);
  }
}

function made(what, name) {
  const text = library.put(bytes);
  try {
    if (what === "mended") return library.write(text);
    return { ending: 0, made: library.report(REPORTS.json, text, name).made };
  } finally {
    library.free(text[0]);
  }
}

/** The texts of a transaction's records, by the names of their fields. */
function recordsOf({ line: first, end }) {
  const records = [];
  for (let i = first; i < end; i += 1) {
    const kind = kindOf(i);
    const text = line(i);
    const cells = {};
    for (const field of layouts[kind] ?? []) cells[field.name] = text.slice(field.start, field.start + field.width).trimEnd();
    records.push({ kind, line: i, cells });
  }
  return records;
}

/** Of each byte that of the small letter, as far as Latin-1 has one. */
const SMALL = Uint8Array.from({ length: 256 }, (_, byte) => {
  const small = String.fromCharCode(byte).toLowerCase();
  return small.length === 1 && small.charCodeAt(0) < 256 ? small.charCodeAt(0) : byte;
});
const oneOfEach = new TextDecoder("latin1");

/** A text of one character for each byte, in small letters: it is compared, and never shown. */
function inSmall(part) {
  const small = new Uint8Array(part.length);
  for (let at = 0; at < part.length; at += 1) small[at] = SMALL[part[at]];
  return oneOfEach.decode(small);
}

let searches = 0;

/** The first lines that have the words, in whatever letters; null where another search was begun meanwhile. */
async function search(words) {
  searches += 1;
  const mine = searches;
  const codes = Array.from(words, (it) => it.codePointAt(0));
  if (words === "" || codes.some((code) => code > 255)) return [];
  const wanted = inSmall(Uint8Array.from(codes));
  const lines = [];
  for (let i = 0; i < starts.length - 1 && lines.length < MOST_FOUND; ) {
    let to = i + 1;
    while (to < starts.length - 1 && starts[to + 1] - starts[i] <= PART) to += 1;
    const text = inSmall(bytes.subarray(starts[i], starts[to]));
    let here = i;
    for (let at = text.indexOf(wanted); at >= 0 && lines.length < MOST_FOUND; at = text.indexOf(wanted, starts[here + 1] - starts[i])) {
      while (starts[here + 1] - starts[i] <= at) here += 1;
      lines.push({ line: here, text: line(here).slice(0, 200) });
    }
    i = to;
    await new Promise((next) => setTimeout(next));
    if (mine !== searches) return null;
  }
  return lines;
}

/** RFC 4180: a row of cells. */
function row(cells) {
  return `${cells.map((cell) => (/[",\r\n]/.test(cell) ? `"${cell.replaceAll('"', '""')}"` : cell)).join(",")}\r\n`;
}

const PARTIES = ["SPU", "OPU", "SWR", "OWR", "IPA"];

/** What a party is called. */
function nameOf({ cells }) {
  const name = cells["publisher name"] || [cells["first name"], cells["last name"]].filter(Boolean).join(" ");
  return name || cells["interested party number"] || "";
}

/** The names of a transaction's parties, each once. */
function parties(records) {
  return [...new Set(records.filter(({ kind }) => PARTIES.includes(kind)).map(nameOf).filter(Boolean))];
}

/** The works as a table: a row for each writer and publisher. */
function table() {
  const rows = [row(["group", "transaction", "type", "work_number", "title", "iswc", "record", "name", "pr_share", "mr_share", "sr_share"])];
  for (const it of transactions) {
    const [header, ...others] = recordsOf(it);
    const work = [String(it.group), header.cells["transaction sequence"] ?? "", header.kind, header.cells["submitter work number"] ?? "", header.cells.title ?? "", header.cells.iswc ?? ""];
    const owners = others.filter(({ kind }) => PARTIES.slice(0, 4).includes(kind));
    for (const owner of owners) {
      const { kind, cells } = owner;
      rows.push(row([...work, kind, nameOf(owner), cells["pr share"] ?? "", cells["mr share"] ?? "", cells["sr share"] ?? ""]));
    }
    if (owners.length === 0) rows.push(row([...work, "", "", "", "", ""]));
  }
  return new TextEncoder().encode(rows.join(""));
}

const ANSWERS = {
  async start({ module }) {
    library = await Library.load(module);
    layouts = library.layouts();
    return { layouts };
  },
  async open({ file, name }) {
    if (file.size > MOST_BYTES) return { tooLarge: true, most: MOST_BYTES };
    bytes = new Uint8Array(await file.arrayBuffer());
    starts = cut(bytes);
    outline();
    const answer = judged(name);
    faulty = new Set(answer.told.map((it) => transactionOf(it.line)).filter((i) => i >= 0));
    return { lines: starts.length - 1, transactions: transactions.length, ...answer };
  },
  lines({ from, count }) {
    const texts = [];
    for (let i = from; i < Math.min(from + count, starts.length - 1); i += 1) texts.push({ text: line(i), rest: rest(i) });
    return { texts };
  },
  works({ from, count, only }) {
    const all = only ? [...faulty].sort((a, b) => a - b) : transactions;
    const works = all.slice(from, from + count).map((it, i) => outlined(only ? it : from + i));
    return { works, total: all.length };
  },
  /** A line, and the records of the transaction that it is of. */
  place({ line: wanted }) {
    const i = transactionOf(wanted);
    const text = wanted < starts.length - 1 ? line(wanted) : "";
    return i < 0 ? { text, records: [] } : { text, group: transactions[i].group, records: recordsOf(transactions[i]) };
  },
  async search({ words }) {
    return { lines: await search(words) };
  },
  statuses() {
    const counts = {};
    for (const { line: first } of transactions) {
      if (kindOf(first) !== "ACK") continue;
      const field = layouts.ACK.find((it) => it.name === "transaction status");
      const status = line(first).slice(field.start, field.start + field.width);
      counts[status] = (counts[status] ?? 0) + 1;
    }
    return { counts };
  },
  down({ what, name }) {
    if (what === "table") return { ending: 0, made: table() };
    return made(what, name);
  },
};

/** What a fault is called where the page has words for it. */
function named(fault) {
  if (fault instanceof NoRoom || fault instanceof RangeError) return "room";
  return ["NotFoundError", "NotReadableError"].includes(fault.name) ? "unreadable" : String(fault);
}

let started = null;

onmessage = async ({ data: { id, ask, ...given } }) => {
  try {
    // nothing is answered before the library is there
    if (ask === "start") started = ANSWERS.start(given);
    const answer = await started;
    postMessage({ id, answer: ask === "start" ? answer : await ANSWERS[ask](given) });
  } catch (fault) {
    postMessage({ id, fault: named(fault) });
  }
};

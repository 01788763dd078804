// Files that others made: what a file is, by its first lines; the design in a system and its steps; files of this page, and an archive of them.
import { decimal, Fraction } from "./model.mjs";

// The longest file that is read, in bytes: a log may be long, and all else is at most what the program takes.
export const LONGEST = { log: 64 << 20, other: 4 << 20 };

/** Why these first bytes are no text; or null. */
export function whyNoText(bytes) {
  const [a, b] = bytes;
  if ((a === 0xFF && b === 0xFE) || (a === 0xFE && b === 0xFF)) return "the file is UTF-16. Save it as UTF-8 (Excel: CSV UTF-8).";
  if ((a === 0x50 && b === 0x4B) || (a === 0xD0 && b === 0xCF)) return "the file is an Excel workbook or an archive. Save it as text (Excel: CSV UTF-8, comma delimited).";
  return bytes.includes(0) ? "the file is no text: it has bytes 0." : null;
}
/** What a text is: log, plan, system, steps, requests, design or list. */
export function kindOf(name, text) {
  const front = text.slice(0, 4096).replace(/^\ufeff/, ""), first = front.split(/\r?\n/).find(row => row.trim() && !row.startsWith("#")) ?? "";
  if (/^\s*\{/.test(front)) return "design";
  if (/^fttcan plan \d/.test(front)) return "plan";
  if (/^\s*\[(bus|plan|\[async\])/m.test(front)) return "system";
  if (/^(open|frame|submit|plan|look|delivered|end|request),/.test(first)) return "log";
  if (/^(add|and|remove|rm|change|cycle|look),/.test(first)) return "steps";
  if (/^\d+,\s*(0[xX][0-9a-fA-F]+|\d+),[0-9a-fA-F]*\s*$/.test(first)) return "requests";
  return "list";
}

/** The keys of a system file: those of [bus] and [plan], and the identifiers of asynchronous messages. */
export function systemOf(text) {
  const found = { bus: {}, plan: {}, async: [] };
  let table = null;
  text.split(/\r?\n/).forEach((row, at) => {
    const line = row.replace(/^\ufeff/, "").replace(/#.*/, "").trim();
    if (!line) return;
    const head = /^\[\[?(\w+)\]\]?$/.exec(line), pair = /^(\w+)\s*=\s*(?:"(\w*)"|'(\w*)'|([+\w]+))$/.exec(line);
    if (head) {
      table = head[1] === "async" ? {} : found[head[1]];
      if (head[1] === "async") found.async.push(table);
      if (!table) throw new Error(`line ${at + 1}: the table ${head[1]} is none of a system.`);
    } else if (pair && table) table[pair[1]] = pair[2] ?? pair[3] ?? Number(pair[4].replaceAll("_", ""));
    else throw new Error(`line ${at + 1}: ${line.slice(0, 60)} is no row of a system.`);
  });
  for (const key of ["cycle", "window", "nodes"]) if (!Number.isInteger(found.bus[key])) throw new Error(`the key ${key} of [bus] is missing.`);
  return found;
}
/** The design that a system and its steps begin with: the rows of messages and the numbers of the bus. Only what is asked for before the
 * first cycle is taken; later changes are told as left out. `names` is the text of a names file, or nothing. */
export function designOf(system, steps, names, kbits) {
  const { bus, plan } = systemOf(system), rate = Fraction.of(kbits), millis = cycles => decimal(Fraction.of(cycles * bus.cycle).over(rate), 9), left = [];
  const known = new Map((names ?? "").split(/\r?\n/).slice(1).map(row => row.split(",")).filter(row => row.length > 3).map(row => [row[0], row]));
  const rows = [];
  let isStarted = false, isFirst = false;
  steps.split(/\r?\n/).forEach((text, at) => {
    const fields = text.trim().split(",");
    if (!fields[0] || fields[0].startsWith("#")) return;
    if (fields[0] === "cycle") isStarted = true;
    if (fields[0] === "cycle" || fields[0] === "look") return;
    const isAnd = fields[0] === "and";
    if (!isAnd) isFirst = !isStarted && Number(fields[2]) === 0;
    const [word, ...numbers] = isAnd ? fields.slice(1) : [fields[0], ...fields.slice(3)];
    if (!isFirst || word !== "add" || numbers.length !== 7) {
      left.push(at + 1);
      return;
    }
    const [slot, node, length, phase, period, deadline, priority] = numbers.map(Number), own = known.get(String(slot));
    rows[slot] = {
      name: own?.[1] || `slot ${slot}`, sender: own?.[2] || `node ${node}`, length: String(length), period: millis(period), deadline: deadline === period ? "" : millis(deadline),
      offset: phase ? millis(phase) : "", id: `0x${(0x100 + slot).toString(16)}`, kind: "sync", priority: priority ? String(priority) : "",
    };
  });
  const list = rows.filter(Boolean);
  if (!list.length) throw new Error("the steps add no message before the first cycle.");
  return {
    rows: list, left,
    bus: { kbits, cycle: decimal(Fraction.of(bus.cycle * 1000).over(rate), 6), turnaround: String(bus.turnaround ?? 0), window: String(bus.window), slots: String(bus.slots ?? 40), policy: plan.policy ?? "rm", fill: plan.fill ?? "prefix", horizon: String(plan.horizon ?? 10000) },
  };
}

/** What a log tells: its cycles, the number of the first one, and sentences on the answers and the end. `nameOf` answers the name of a slot. */
export function logOf(text, nameOf) {
  const opened = [], told = [], rules = { 1: "it has no operation", 2: "it has more than 16 operations", 3: "its start is too late", 4: "there is no such slot", 5: "a slot stands twice", 6: "there is no such node", 7: "more than 8 bytes", 8: "a period of 0", 9: "a deadline of 0, or above the period", 10: "a slot is taken", 11: "a slot has no live entry" };
  let frames = 0;
  for (const row of text.split("\n")) {
    const [word, ...fields] = row.split(",");
    if (word === "open") opened.push(fields);
    else if (word === "frame") frames++;
    else if (word === "submit") {
      const [operator, from, kind, ...numbers] = fields, start = `Before cycle ${from} operator ${operator} asked for a change.`;
      const end = {
        accepted: `It was accepted: from cycle ${numbers[0]} on the plan repeats every ${numbers[1]} cycles.`, miss: `It was refused: ${nameOf(Number(numbers[0]))} (slot ${numbers[0]}) would be missed. Its instance of cycle ${numbers[1]} would not be sent by cycle ${numbers[2]}.`,
        horizon: `It was refused: no repeat of the plan within ${numbers[1]} cycles.`, passed: `It was refused: its start, cycle ${numbers[0]}, had passed.`, malformed: `It was refused: operation ${numbers[0]} breaks rule ${numbers[1]}, ${rules[numbers[1]] ?? "an unknown one"}.`,
      }[kind];
      told.push(`${start} ${end ?? kind}`);
    } else if (word === "end") told.push(`The run ends after ${fields[0]} cycles, with ${frames} frames.`);
  }
  return { first: Number(opened[0]?.[0] ?? 0), opened: opened.map(([, mask, window]) => ({ mask, window: Number(window) })), told };
}

/** The sum of bytes that archives have. */
function crcOf(bytes) {
  let crc = ~0;
  for (const byte of bytes) {
    crc ^= byte;
    for (let bit = 0; bit < 8; bit++) crc = crc >>> 1 ^ (crc & 1 ? 0xEDB88320 : 0);
  }
  return ~crc >>> 0;
}
/** An archive (.zip) of texts by their names, stored as they are. Its dates are those of 1980, so the same texts give the same bytes. */
export function archiveOf(files) {
  const encoder = new TextEncoder(), parts = [], heads = [];
  let at = 0;
  for (const [name, text] of Object.entries(files)) {
    const bytes = encoder.encode(text), title = encoder.encode(name), view = new DataView(new ArrayBuffer(26));
    [20, 0x0800, 0, 0, 0x21].forEach((number, place) => view.setUint16(2 * place, number, true));
    [crcOf(bytes), bytes.length, bytes.length].forEach((number, place) => view.setUint32(10 + 4 * place, number, true));
    view.setUint16(22, title.length, true);
    const common = new Uint8Array(view.buffer), head = new DataView(new ArrayBuffer(14));
    head.setUint32(10, at, true);
    parts.push(Uint8Array.of(0x50, 0x4B, 3, 4), common, title, bytes);
    heads.push(Uint8Array.of(0x50, 0x4B, 1, 2, 20, 0), common, new Uint8Array(head.buffer), title);
    at += 30 + title.length + bytes.length;
  }
  const size = heads.reduce((so, it) => so + it.length, 0), end = new DataView(new ArrayBuffer(22)), many = Object.keys(files).length;
  [0x4B50, 0x0605, 0, 0, many, many].forEach((number, place) => end.setUint16(2 * place, number, true));
  end.setUint32(12, size, true);
  end.setUint32(16, at, true);
  return new Blob([...parts, ...heads, new Uint8Array(end.buffer)], { type: "application/zip" });
}

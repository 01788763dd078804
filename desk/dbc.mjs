// Messages of a DBC file, by the attributes that are usual in it: as tools/fttmodel reads them, and docs/tools.md has the rules. It answers the
// rows of a list; tools/check-desk compares what becomes of them with the files of fttmodel.
import { Fraction, LIMITS, decimal } from "./model.mjs";

const NOBODY = "Vector__XXX", DIAGNOSIS = ["DiagRequest", "DiagResponse", "DiagState", "DiagUudResponse", "DiagUudtResponse"];
const TIMES = ["GenMsgCycleTime", "GenMsgCycleTimeFast", "GenMsgDelayTime", "GenMsgStartDelayTime", "GenSigCycleTime", "GenSigCycleTimeActive"];
const QUOTED = '"(?:\\\\.|[^"\\\\])*"', VALUE = `((?:${QUOTED}|[^";])*?)\\s*;`, NONE = Fraction.of("0");
const DEFINED = new RegExp(`^[ \\t]*BA_DEF_\\s+(?:(BO_|SG_|BU_|EV_)\\s+)?"([^"]+)"\\s+${VALUE}`, "gm");
const DEFAULT = new RegExp(`^[ \\t]*BA_DEF_DEF_\\s+"([^"]+)"\\s+${VALUE}`, "gm");
const OWN = new RegExp(`^[ \\t]*BA_\\s+"([^"]+)"\\s+(?:BO_\\s+([0-9]+)\\s+|SG_\\s+([0-9]+)\\s+(\\w+)\\s+|BU_\\s+(\\w+)\\s+|(EV_)\\s+\\w+\\s+)?${VALUE}`, "gm");
const SENDERS = /^[ \t]*BO_TX_BU_\s+([0-9]+)\s*:\s*([^;]*);/gm;

const unquoted = value => (value.length > 1 && value.startsWith('"') && value.endsWith('"') ? value.slice(1, -1).replace(/\\(.)/g, "$1") : value);
/** A time in digits, with a point and an exponent where it has them; or null. */
function timeOf(text) {
  const found = /^([0-9]{1,12})(?:\.([0-9]{0,12}))?(?:[eE]([+-]?[0-9]{1,2}))?$/.exec(text.trim());
  if (!found) return null;
  const part = found[2] ?? "", by = Number(found[3] ?? 0) - part.length, whole = BigInt(found[1] + part);
  return by < 0 ? new Fraction(whole, 10n ** BigInt(-by)) : new Fraction(whole * 10n ** BigInt(by));
}

/** The attributes of a file. An owner is the number of a message, a number and a signal in one text, a node's name, or nothing for the network. */
class Attributes {
  constructor(text, mistake) {
    this.mistake = mistake;
    this.enums = new Map();
    this.defaults = new Map();
    this.own = new Map();
    this.lines = new Map();
    this.ofMessages = new Set();
    this.senders = new Map([...text.matchAll(SENDERS)].map(([, number, names]) => [Number(number), names.match(/\w+/g) ?? []]));
    const ends = [...text.matchAll(/\n/g)].map(it => it.index), line = at => ends.filter(end => end < at).length + 1;
    for (const [, kind, name, what] of text.matchAll(DEFINED)) {
      if (what.startsWith("ENUM")) this.enums.set(name, (what.match(new RegExp(QUOTED, "g")) ?? []).map(unquoted));
      if (kind === "BO_") this.ofMessages.add(name);
    }
    for (const found of text.matchAll(DEFAULT)) this.defaults.set(found[1], this.taken(found[1], found[2], line(found.index)));
    for (const found of text.matchAll(OWN)) {
      const [, name, message, ofSignal, signal, node, event, value] = found;
      if (event !== undefined) continue;
      if (message) this.ofMessages.add(name);
      const owner = message ?? (ofSignal ? `${ofSignal} ${signal}` : node ?? ""), key = `${name}\n${Number(message) || owner}`, own = this.taken(name, value, line(found.index));
      if (this.own.has(key) && String(this.told(this.own.get(key))) !== String(this.told(own))) mistake(line(found.index), name, String(this.told(own)), `it stands in line ${this.lines.get(key)} too, with another value. Take one of them away.`);
      this.own.set(key, own);
      this.lines.set(key, line(found.index));
    }
  }
  told(value) {
    return value instanceof Fraction ? decimal(value, 12) : value;
  }
  taken(name, value, line) {
    const words = this.enums.get(name);
    let text = unquoted(value);
    if (words && /^[0-9]{1,6}$/.test(value)) {
      if (Number(value) < words.length) text = words[Number(value)];
      else this.mistake(line, name, value, `its ENUM has ${words.length} values, counted from 0. Take one of them.`);
    }
    if (!TIMES.includes(name)) return text;
    const time = timeOf(text);
    if (time === null) this.mistake(line, name, text, "this is no time. Write milliseconds in digits, with a point: 2.5.");
    return time ?? NONE;
  }
  isOwn(name, owner) {
    return this.own.has(`${name}\n${owner}`);
  }
  value(name, owner) {
    return this.own.get(`${name}\n${owner}`) ?? this.defaults.get(name) ?? null;
  }
  text(name, owner) {
    return this.own.get(`${name}\n${owner}`) || (typeof owner === "string" ? owner : null);
  }
  time(name, owner) {
    const value = this.value(name, owner);
    return value instanceof Fraction ? value : NONE;
  }
  isYes(name, owner) {
    return ["yes", "true", "1"].includes(String(this.value(name, owner)).toLowerCase());
  }
}

/** What the word of a send type says. One that is not known is taken for cyclic, which promises the most. */
function sendingOf(word) {
  const plain = word.toLowerCase().replace(/[^a-z]/g, ""), without = "(a|non|not)(cyclic|periodic)", isFast = /(?<!in)active|fast/.test(plain);
  const isEvent = new RegExp(`spont|trigger|event|write|change|request|demand|${without}`).test(plain), isCyclic = isFast || /cycl|period/.test(plain.replace(new RegExp(without, "g"), ""));
  if (!isCyclic && !isEvent && /^(none|no[a-z]*send|notused)/.test(plain)) return { isCyclic: false, isEvent: false, isFast: false };
  return { isCyclic: isCyclic || !isEvent, isEvent, isFast };
}
const isSilent = it => !it.isCyclic && !it.isEvent && !it.isFast;
/** The least time above 0 of some, or 0. */
const least = times => times.filter(it => it.above !== 0n).reduce((so, it) => (so === null || it.compare(so) < 0 ? it : so), null) ?? NONE;

/** The rows of a list, notes and warnings, and mistakes, of the text of a DBC file. */
export function listOfDbc(given) {
  const mistakes = [], notes = [], warnings = [], rows = [], byEvent = [], too = [], left = [];
  const mistake = (line, field, value, what) => mistakes.push({ line, field, text: `line ${line}: ${field} is '${value}': ${what}` });
  const text = given.replace(/^\ufeff/, "").replace(/\r\n/g, "\n").replace(new RegExp(QUOTED, "gs"), it => (it.includes("\n") ? `"${"\n".repeat(it.split("\n").length - 1)}"` : it));
  const known = new Attributes(text, mistake), heads = [];
  text.split("\n").forEach((row, at) => {
    const signal = /^\s*SG_\s+(\w+)/.exec(row);
    if (signal && heads.length) heads.at(-1).signals.push(signal[1]);
    if (!/^\s*BO_\s/.test(row)) return;
    const head = /^\s*BO_\s+([0-9]{1,10})\s+(\w+)\s*:\s*([0-9]{1,9})\s+(\w+)\s*$/.exec(row);
    if (!head) mistake(at + 1, "the row", row.trim(), "Write BO_ IDENTIFIER NAME: LENGTH SENDER.");
    else heads.push({ line: at + 1, number: Number(head[1]), name: head[2], length: Number(head[3]), sender: head[4], signals: [] });
  });
  for (const head of heads.filter(it => it.name !== "VECTOR__INDEPENDENT_SIG_MSG")) {
    const { number } = head, name = known.text("SystemMessageLongSymbol", number) || head.name, form = String(known.value("VFrameFormat", number) ?? "");
    const why = form.toUpperCase().includes("FD") || form === "14" || form === "15" ? `it is sent by CAN FD (VFrameFormat ${form})` : number >= 2 ** 31 ? `its identifier has 29 bits, 0x${(number % 2 ** 29).toString(16)}`
      : number > LIMITS.lastId ? `its identifier is 0x${number.toString(16)}, above 0x7ff` : head.length > LIMITS.length ? `it has ${head.length} bytes, and a frame at most ${LIMITS.length}` : null;
    if (why) {
      left.push(`line ${head.line}: ${name} is left out: ${why}.`);
      continue;
    }
    const word = known.value("GenMsgSendType", number), sending = word === null ? { isCyclic: true, isEvent: false, isFast: false } : sendingOf(word), all = { ...sending };
    for (const signal of head.signals) {
      const owner = `${number} ${signal}`, it = sendingOf(known.value("GenSigSendType", owner) || "none");
      // (a message that has a send type does not become cyclic by a default)
      if (!isSilent(sending) && !known.isOwn("GenSigSendType", owner)) it.isCyclic = false;
      for (const key of ["isCyclic", "isEvent", "isFast"]) all[key] ||= it[key];
    }
    const slow = least([known.time("GenMsgCycleTime", number), ...head.signals.map(it => known.time("GenSigCycleTime", `${number} ${it}`))]);
    const quick = least([known.time("GenMsgCycleTimeFast", number), ...head.signals.map(it => known.time("GenSigCycleTimeActive", `${number} ${it}`))]);
    if (!all.isFast && all.isCyclic && quick.above && (!slow.above || quick.compare(slow) < 0) && known.isOwn("GenMsgCycleTimeFast", number)) warnings.push(`line ${head.line}: ${head.name} has a GenMsgCycleTimeFast of ${decimal(quick)} ms, which its send type does not ask for: it is not taken.`);
    const cycle = all.isFast ? least([slow, quick]) : slow;
    const senders = [...new Set([head.sender, ...(known.senders.get(number) ?? [])].filter(it => it !== NOBODY))];
    if (senders.length > 1) warnings.push(`line ${head.line}: ${head.name} has the senders ${senders.join(", ")} (BO_TX_BU_). The model has ${senders[0]} alone.`);
    const diagnosis = DIAGNOSIS.find(it => known.isYes(it, number)), said = diagnosis ?? word ?? "no send type";
    let kind = "async", period = known.time("GenMsgDelayTime", number), offset = NONE;
    if (diagnosis || !all.isCyclic) {
      byEvent.push(`${name} (${said})`);
      if (cycle.above && (known.isOwn("GenMsgCycleTime", number) || head.signals.some(it => known.isOwn("GenSigCycleTime", `${number} ${it}`)))) warnings.push(`line ${head.line}: ${head.name} has a cycle time of ${decimal(cycle)} ms, and gets no slot: it is sent on events (${said}). Give it a cyclic send type for a slot.`);
    } else if (cycle.above) {
      kind = "sync";
      period = cycle;
      offset = known.time("GenMsgStartDelayTime", number);
      if (all.isEvent) too.push(`${name} (${said})`);
    }
    rows.push({
      line: head.line, name, sender: senders.length ? known.text("SystemNodeLongSymbol", senders[0]) : NOBODY, length: String(head.length), period: period.above ? decimal(period, 12) : "", deadline: "",
      offset: kind === "sync" && offset.above ? decimal(offset, 12) : "", id: `0x${number.toString(16)}`, kind, priority: "",
    });
  }
  if (byEvent.length) notes.push(`asynchronous by their send types: ${byEvent.join(", ")}`);
  if (too.length) warnings.push(`sent on events too, which wait for the next period here: ${too.join(", ")}.`);
  if (!rows.length && !mistakes.length) mistakes.push({ line: 1, field: "", text: left[0] ?? "line 1: the file has no message." });
  return { rows, notes, warnings: [...left, ...warnings], mistakes };
}

// fttcan for JavaScript: an FTT-CAN master with an online admission test, in WebAssembly.
//
//     import { add, load } from "./fttcan.mjs";
//     const fttcan = await load();
//     const master = new fttcan.Master({ window: 540, nodes: 5 });
//     console.log(String(master.submit(0, add({ slot: 5, node: 1, length: 8, period: 2, deadline: 1 }))));
//     console.log(master.open().slots);
//     master.close();
//
// `load` answers a `Library`: its classes Master, Standby, Table, Snapshot and Planned, the calls check, audit, run and
// asyncBound, and frames. Times of entries are in elementary cycles, counted from cycle 0 of the master. Lengths and times of the bus
// are in bit times, and payloads in bytes. All numbers are Numbers; where one is given, a BigInt may stand. A set of slots
// is given as any iterable of slots, and answered as an array of them, the least first.
//
// The library is proved, and this file is not: it only hands values over. docs/LIBRARY.md has more.

// Written by tools/print-layout from fttcan.h: the version, the statuses, and by struct its size and offsets in bytes.
// BEGIN layout
const VERSION = [0, 4, 0];
const STATUS = { OK: 0, MEMORY: 1, ARGUMENT: 2, TABLE: 3, STATE: 4, ROOM: 5, MISS: 6, CLOSED: 7, OPEN: 8, TEXT: 9, NO: 10, UNFINISHED: 11, FULL: 12 };
const VERDICT = { MALFORMED: 0, PASSED: 1, MISSED: 2, HORIZON: 3, ACCEPTED: 4 };
const LAYOUT = {
  size: 8,
  mask: { size: 16, low: 0, high: 8 },
  frame: { size: 12, id: 0, len: 2, bytes: 3 },
  trigger: { size: 32, flags: 0, cycle: 16, window: 24 },
  rules: { size: 16, horizon: 0, window: 8, nodes: 12, slots: 13, policy: 14, fill: 15 },
  entry: { size: 10, phase: 0, period: 2, deadline: 4, slot: 6, node: 7, length: 8, priority: 9 },
  placed: { size: 32, origin: 0, end: 8, entry: 16, ended: 26 },
  op: { size: 12, kind: 0, entry: 2 },
  state: { size: 24, cycle: 0, pending: 8 },
  verdict: { size: 24, first: 0, second: 8, kind: 16, op: 17, why: 18, slot: 19, known: 20 },
  plan: { size: 24, flags: 0, window: 16 },
  order: { size: 32, cycle: 0, flags: 8, window: 24, learned: 28 },
  breach: { size: 24, first: 0, second: 8, kind: 16, slot: 17 },
  follow: { size: 56, heard: 0, planned: 16, first: 32, second: 40, kind: 48 },
  layout: { size: 16, cycle: 0, turnaround: 4, window: 8, slots: 12 },
  stream: { size: 16, gap: 0, burst: 8, id: 12, bytes: 14 },
  owner: { size: 4, id: 0, node: 2 },
  settings: { size: 24, room: 0, entries: 8, number: 16, tolerance: 17, silent: 18 },
  offer: { size: 8, until: 0, id: 4 },
  ticket: { size: 24, cycle: 0, number: 8, id: 16 },
  loaded: { size: 40, ticket: 0, frame: 24, users: 36 },
  due: { size: 12, start: 0, last: 4, loaded: 8, users: 9 },
  told: { size: 16, start: 0, number: 8, count: 12, kind: 14 },
  collected: { size: 16, parts: 0, wanted: 4, last: 8, number: 12, begun: 13, whole: 14 },
  master: { size: 8 },
  standby: { size: 8 },
  snapshot: { size: 8 },
  planned: { size: 8 },
  node: { size: 8 },
};
// END layout

/** What a node hears in a frame. opened: the trigger is whole, and its cycle is open. noted: the first one of two frames, with 96 slots.
 * again: a trigger frame of the open cycle, which came before. notTaken: a trigger frame of no cycle that can be. other: no trigger frame. */
const HEARD = ["opened", "noted", "again", "notTaken", "other"];
const POLICIES = ["rm", "dm", "edf"], FILLS = ["prefix", "skip"], KINDS = ["add", "remove", "change"];
const MOST_SLOTS = 96, LOW_SLOTS = 40, MOST_ADDED = 16, MOST_FILES = 4;
// The first room of an output and of the lines on standard error, in bytes, and the greatest one. By status 5 the
// program says that its output has no room.
const OUTPUT = 2 ** 18, ERRORS = 2 ** 12, MOST_OUTPUT = 2 ** 30, UNWRITTEN = 5;

/** By the number of a rule: how a change breaks it. */
export const RULES = {
  1: "the change has no operation",
  2: "the change has more than 16 operations",
  3: "the start is 2^40 or more",
  4: "there is no such slot",
  5: "an earlier operation of the change has the slot",
  6: "there is no such node",
  7: "the length is above 8 bytes",
  8: "the period is 0",
  9: "the deadline is 0 or above the period",
  10: "the slot is taken",
  11: "no entry of the slot is live",
};

// Errors ---------------------------------------------------------------------------------------------------------------

/** The base of all errors of this module. */
export class FttcanError extends Error {
  constructor(said) {
    super(said);
    this.name = new.target.name;
  }
}
/** The module is of another version, lacks a function, or could not be read. */
export class LibraryUnfit extends FttcanError {}
/** Code of the module ended by a trap, as where the stack has no room. The library is not to be used any more. */
export class Broken extends FttcanError {}
/** Memory ran out, or more than 4,096 entries would be kept. Nothing changed, and the call may be made again. After
 * `Master.settle` the plan is closed, and the change is planned anew. */
export class MemoryRanOut extends FttcanError {}
/** An argument is out of its range. */
export class OutOfRange extends FttcanError {}
/** The entries are no table that a master can have. */
export class BadTable extends FttcanError {}
/** The state can't be planned from, or no cycle may be opened any more. */
export class BadState extends FttcanError {}
/** An instance would miss its deadline in the next cycle. The table was not admitted by these rules from this state. */
export class WouldMiss extends FttcanError {}
/** The object was closed, or was handed on: a snapshot to its plan, a plan to its master, a standby to its master. */
export class Closed extends FttcanError {}
/** A node was made for fewer entries, or a collector for shorter messages. */
export class Full extends FttcanError {}
/** No master accepts this change of this table: it breaks a rule. */
export class NotAccepted extends FttcanError {}
/** A text, bytes or frames are none of the form. `place` is that of the first fault, if it is known: a line of a plan
 * text counted from 1, a bit of a recorded line counted from 0; else null. */
export class BadText extends FttcanError {
  constructor(said, place = null) {
    super(said);
    this.place = place;
  }
}

/** A change is refused. Nothing changed. `row` is the verdict as logs have it. */
export class Refused extends FttcanError {}
/** A rule is broken. operation: the place of the operation that breaks it, from 0 on. rule: its number, 1 to 11, as
 * `RULES` has them. until: the cycle from which the slot is free, or in which its entry begins; null if there is none. */
export class Malformed extends Refused {
  constructor(operation, rule, until = null) {
    const more = rule !== 10 ? "" : until === null ? " by a live entry" : ` until cycle ${until}`;
    super(`operation ${operation}: ${RULES[rule] ?? `rule ${rule}`}${more}`);
    Object.assign(this, { operation, rule, until });
  }
  get row() {
    return ["malformed", this.operation, this.rule, ...(this.until === null ? [] : [this.until])].join(",");
  }
}
/** The change starts in cycle `start`, which was opened already; `next` is opened next. */
export class Passed extends Refused {
  constructor(start, next) {
    super(`the change starts in cycle ${start}, and cycle ${next} is opened next`);
    Object.assign(this, { start, next });
  }
  get row() {
    return `passed,${this.start},${this.next}`;
  }
}
/** With the change an instance would miss its deadline. slot: its slot. release: the cycle of its release. cycle: the
 * last one in which it may be sent. trail: what would be sent in each cycle up to that one, as sets of slots, if a
 * master answered; the last set is that of `cycle`. */
export class Miss extends Refused {
  constructor(slot, release, cycle, trail = []) {
    super(`slot ${slot} would miss its deadline: what is released in cycle ${release} is not sent up to cycle ${cycle}`);
    Object.assign(this, { slot, release, cycle, trail });
  }
  get row() {
    return `miss,${this.slot},${this.release},${this.cycle}`;
  }
}
/** No repeat of the plan was found within the horizon. start: the first cycle that was planned. walked: how many. */
export class Horizon extends Refused {
  constructor(start, walked) {
    super(`from cycle ${start} on no repeat of the plan was found within ${walked} cycles`);
    Object.assign(this, { start, walked });
  }
  get row() {
    return `horizon,${this.start},${this.walked}`;
  }
}

/** What a standby heard is not the trigger that it has planned. It is unchanged, and can go on. */
export class NotPlanned extends FttcanError {}
/** The frames are no trigger of `cycle`, the standby's next one. */
export class NoTrigger extends NotPlanned {
  constructor(cycle) {
    super(`this is no trigger of cycle ${cycle}`);
    this.cycle = cycle;
  }
}
/** The trigger flags other slots in `cycle`. heard and planned: sets of slots. */
export class OtherFlags extends NotPlanned {
  constructor(cycle, heard, planned) {
    super(`the trigger of cycle ${cycle} flags ${maskText(heard)}, and ${maskText(planned)} is planned`);
    Object.assign(this, { cycle, heard, planned });
  }
}
/** The trigger says another window than that of its slots. heard and needed: bit times. */
export class OtherWindow extends NotPlanned {
  constructor(heard, needed) {
    super(`the trigger says a window of ${heard} bit times, and its slots need ${needed}`);
    Object.assign(this, { heard, needed });
  }
}

// Values ---------------------------------------------------------------------------------------------------------------

/** A change is accepted: from cycle `first` on the plan repeats every `length` cycles, and no deadline is missed. */
export class Accepted {
  constructor(first, length) {
    Object.assign(this, { first, length });
  }
  /** The verdict as logs have it. */
  get row() {
    return `accepted,${this.first},${this.length}`;
  }
  toString() {
    return `accepted: from cycle ${this.first} on the plan repeats every ${this.length === 1 ? "cycle" : `${this.length} cycles`}`;
  }
}
/** How a plan does not keep a table: the first breach, as the command `check` has it. kind: badloop (slot), notreleased
 * (cycle, slot), toowide (cycle, width), missed (slot, release, cycle) or notclosed (slot). What a kind does not name is null. */
export class Breach {
  constructor(kind, { slot = null, cycle = null, release = null, width = null }) {
    Object.assign(this, { kind, slot, cycle, release, width });
  }
  /** The line that the command `check` writes. */
  get row() {
    const of = { notreleased: ["cycle", "slot"], toowide: ["cycle", "width"], missed: ["slot", "release", "cycle"] };
    return ["no", this.kind, ...(of[this.kind] ?? ["slot"]).map(name => this[name])].join(",");
  }
}
/** What an audit says of a log. verdict: yes; row, if a row can't stand; or unfinished, if all rows can stand and are not
 * all. row: the first row that can't stand, counted from 1; else null. */
export class Audit {
  constructor(verdict, row = null) {
    Object.assign(this, { verdict, row });
  }
  /** Whether the log is that of a whole run. */
  get isWhole() {
    return this.verdict === "yes";
  }
}
/** What a command answered: its exit status, 0 to 7, its output, and its lines on standard error, both as bytes. */
export class Answer {
  constructor(status, output, errors) {
    Object.assign(this, { status, output, errors });
  }
  /** The output as text. */
  get text() {
    return DECODER.decode(this.output);
  }
  /** The lines on standard error as text. */
  get said() {
    return DECODER.decode(this.errors);
  }
}

/** An operation of a change: puts an entry into a free slot, from the start of the change on. */
export const add = entry => ({ ...entry, kind: "add" });
/** An operation of a change: ends the entry of a slot at the start of the change, and puts another in its place. The
 * new one counts from start + deadline - 1, with the old entry's deadline. */
export const change = entry => ({ ...entry, kind: "change" });
/** An operation of a change: ends the entry of a slot at the start of the change. */
export const remove = slot => ({ kind: "remove", slot });

/** A set of slots as files and logs have it: ten hexadecimal digits, and 24 if a slot from 40 on is in it. */
export function maskText(slots) {
  let mask = 0n;
  for (const slot of slots) mask |= 1n << BigInt(slotOf(slot));
  return mask.toString(16).padStart(mask < 1n << BigInt(LOW_SLOTS) ? 10 : 24, "0");
}
/** The slots of such a text. OutOfRange if it is none. */
export function slotsOf(text) {
  if (!/^([0-9a-f]{10}|[0-9a-f]{24})$/.test(text)) throw new OutOfRange(`${text} is no set of slots`);
  const slots = [];
  for (let at = 0; at < 4 * text.length; at++) {
    if (parseInt(text[text.length - 1 - (at >> 2)], 16) >> (at & 3) & 1) slots.push(at);
  }
  return slots;
}

// Numbers and structs --------------------------------------------------------------------------------------------------

const ENCODER = new TextEncoder(), DECODER = new TextDecoder();

/** A whole number of so many bits. OutOfRange if it is none. */
function whole(name, value, bits) {
  if (typeof value === "bigint" ? value < 0n || value >> BigInt(bits) : !Number.isSafeInteger(value) || value < 0 || value >= 2 ** bits) {
    throw new OutOfRange(`${name} is ${value}: it has to be a whole number, 0 to 2^${bits} - 1`);
  }
  return Number(value);
}
/** The same as the 64 bits of a call. */
function wide(name, value) {
  whole(name, value, 64);
  return BigInt(value);
}
function slotOf(slot) {
  if (!Number.isInteger(slot) || slot < 0 || slot >= MOST_SLOTS) throw new OutOfRange(`slot ${slot}: it has to be 0 to ${MOST_SLOTS - 1}`);
  return slot;
}
/** Bytes that were given: a text, or anything that holds bytes. */
function bytesOf(given) {
  if (typeof given === "string") return ENCODER.encode(given);
  if (ArrayBuffer.isView(given)) return new Uint8Array(given.buffer, given.byteOffset, given.byteLength);
  if (given instanceof ArrayBuffer) return new Uint8Array(given);
  for (const byte of given) whole("a byte", byte, 8);
  return Uint8Array.from(given);
}
/** The place of a name in a list. OutOfRange if it is not there. */
function placeIn(what, names, name) {
  const at = names.indexOf(name);
  if (at < 0) throw new OutOfRange(`${what} is ${name}: it has to be one of ${names.join(", ")}`);
  return at;
}

/** What a status other than OK raises. */
function faultOf(status) {
  switch (status) {
    case STATUS.MEMORY: return new MemoryRanOut("memory ran out, or the table is full");
    case STATUS.ARGUMENT: return new OutOfRange("an argument is out of its range");
    case STATUS.TABLE: return new BadTable("the entries are no table that a master can have");
    case STATUS.STATE: return new BadState("the state can't be planned from, or no cycle may be opened any more");
    case STATUS.MISS: return new WouldMiss("an instance would miss its deadline in this cycle");
    case STATUS.CLOSED: return new Closed("the object is closed");
    case STATUS.TEXT: return new BadText("the text, the bytes or the frames are none of the form");
    case STATUS.FULL: return new Full("the node has room for no more");
    default: return new FttcanError(`the library answered status ${status}`);
  }
}
function must(status) {
  if (status !== STATUS.OK) throw faultOf(status);
}

/** The memory and the calls of an instance. */
class Core {
  constructor(instance) {
    this.exports = instance.exports;
    this.fault = null;
    this.data = new DataView(this.exports.memory.buffer);
    // A handle that holds nothing, and a room that each opening uses.
    this.nothing = this.take(LAYOUT.master.size);
    this.order = this.take(LAYOUT.order.size);
    this.zero(this.nothing, LAYOUT.master.size);
  }

  /** The memory as it stands now: it is another buffer after it has grown. */
  view() {
    return this.data.buffer === this.exports.memory.buffer ? this.data : (this.data = new DataView(this.exports.memory.buffer));
  }
  bytes(at, count) {
    return new Uint8Array(this.exports.memory.buffer, at, count);
  }
  zero(at, count) {
    this.bytes(at, count).fill(0);
  }
  /** A copy of bytes. */
  copy(at, count) {
    return this.bytes(at, count).slice();
  }
  number(at) {
    const view = this.view();
    return view.getUint32(at, true) + view.getUint32(at + 4, true) * 2 ** 32;
  }
  put64(at, name, value) {
    this.view().setBigUint64(at, wide(name, value), true);
  }

  /** A room of so many bytes. MemoryRanOut. */
  take(size) {
    if (this.fault) throw new Broken(`the library ended by a trap before: ${this.fault.message}`);
    const at = size > MOST_OUTPUT ? 0 : this.exports.fttcan_room_take(size) >>> 0;
    if (!at) throw faultOf(STATUS.MEMORY);
    return at;
  }
  give(at) {
    if (!this.fault) this.exports.fttcan_room_give(at);
  }
  /** Runs a call that is handed a function for rooms. These are given back after it. */
  within(call) {
    const taken = [];
    try {
      return call(size => {
        const at = this.take(size);
        taken.push(at);
        return at;
      });
    } finally {
      for (const at of taken) this.give(at);
    }
  }
  /** Makes a call of the library. After a trap the library is broken. */
  call(name, ...words) {
    const call = this.exports[`fttcan_${name}`];
    if (call === undefined) throw new LibraryUnfit(`this module has no fttcan_${name}`);
    if (this.fault) throw new Broken(`the library ended by a trap before: ${this.fault.message}`);
    try {
      return call(...words);
    } catch (fault) {
      this.fault = fault;
      throw new Broken(`fttcan_${name} ended by a trap: ${fault.message}`);
    }
  }

  // From values to structs
  bytesIn(room, given) {
    const bytes = bytesOf(given), at = room(bytes.length || 1);
    this.bytes(at, bytes.length).set(bytes);
    return [at, BigInt(bytes.length)];
  }
  maskIn(at, slots) {
    this.zero(at, LAYOUT.mask.size);
    const view = this.view();
    for (const slot of slots) {
      const byte = at + (slotOf(slot) >> 3);
      view.setUint8(byte, view.getUint8(byte) | 1 << (slot & 7));
    }
  }
  rulesIn(room, rules) {
    const { window, nodes, slots = 40, policy = "rm", fill = "prefix", horizon = 10000 } = rules, it = LAYOUT.rules;
    const at = room(it.size), view = this.view();
    this.put64(at + it.horizon, "horizon", horizon);
    view.setUint32(at + it.window, whole("window", window, 32), true);
    view.setUint8(at + it.nodes, whole("nodes", nodes, 8));
    view.setUint8(at + it.slots, whole("slots", slots, 8));
    view.setUint8(at + it.policy, placeIn("policy", POLICIES, policy));
    view.setUint8(at + it.fill, placeIn("fill", FILLS, fill));
    return at;
  }
  entryIn(at, { slot, node = 0, length = 0, period = 0, deadline = 0, phase = 0, priority = 0 }) {
    const view = this.view(), it = LAYOUT.entry;
    view.setUint16(at + it.phase, whole("phase", phase, 16), true);
    view.setUint16(at + it.period, whole("period", period, 16), true);
    view.setUint16(at + it.deadline, whole("deadline", deadline, 16), true);
    view.setUint8(at + it.slot, whole("slot", slot, 8));
    view.setUint8(at + it.node, whole("node", node, 8));
    view.setUint8(at + it.length, whole("length", length, 8));
    view.setUint8(at + it.priority, whole("priority", priority, 8));
  }
  changeIn(room, operations) {
    const list = Symbol.iterator in Object(operations) ? [...operations] : [operations], it = LAYOUT.op;
    const at = room((list.length || 1) * it.size);
    for (const [place, operation] of list.entries()) {
      const here = at + place * it.size;
      this.view().setUint8(here + it.kind, placeIn("the kind of an operation", KINDS, operation.kind));
      this.entryIn(here + it.entry, operation.kind === "remove" ? { slot: operation.slot } : operation);
    }
    return [at, BigInt(list.length)];
  }
  tableIn(room, table, more = 0) {
    const list = [...table], it = LAYOUT.placed, at = room((list.length + more || 1) * it.size);
    for (const [place, { entry, origin, end = null }] of list.entries()) {
      const here = at + place * it.size;
      this.put64(here + it.origin, "origin", origin);
      this.put64(here + it.end, "end", end ?? 0);
      this.entryIn(here + it.entry, entry);
      this.view().setUint8(here + it.ended, end === null ? 0 : 1);
    }
    return [at, BigInt(list.length)];
  }
  framesIn(room, frames) {
    const list = [...frames], it = LAYOUT.frame, at = room((list.length || 1) * it.size);
    for (const [place, { identifier, data = [] }] of list.entries()) {
      const here = at + place * it.size, bytes = bytesOf(data);
      if (bytes.length > 8) throw new OutOfRange(`${bytes.length} data bytes: a frame has at most 8`);
      this.zero(here, it.size);
      this.view().setUint16(here + it.id, whole("identifier", identifier, 16), true);
      this.view().setUint8(here + it.len, bytes.length);
      this.bytes(here + it.bytes, bytes.length).set(bytes);
    }
    return [at, BigInt(list.length)];
  }
  layoutIn(room, { cycle, turnaround, window, slots = 40 }) {
    const it = LAYOUT.layout, at = room(it.size), view = this.view();
    view.setUint32(at + it.cycle, whole("cycle", cycle, 32), true);
    view.setUint32(at + it.turnaround, whole("turnaround", turnaround, 32), true);
    view.setUint32(at + it.window, whole("window", window, 32), true);
    view.setUint8(at + it.slots, whole("slots", slots, 8));
    return at;
  }
  triggerIn(room, { cycle, slots, window }) {
    const it = LAYOUT.trigger, at = room(it.size);
    this.maskIn(at + it.flags, slots);
    this.put64(at + it.cycle, "cycle", cycle);
    this.view().setUint32(at + it.window, whole("window", window, 32), true);
    return at;
  }

  // From structs to values
  maskOut(at) {
    const view = this.view(), slots = [];
    for (let word = 0; word < 3; word++) {
      for (let bits = view.getUint32(at + 4 * word, true) | 0; bits; bits &= bits - 1) slots.push(32 * word + 31 - Math.clz32(bits & -bits));
    }
    return slots;
  }
  entryOut(at) {
    const view = this.view(), it = LAYOUT.entry;
    return {
      slot: view.getUint8(at + it.slot), node: view.getUint8(at + it.node), length: view.getUint8(at + it.length),
      period: view.getUint16(at + it.period, true), deadline: view.getUint16(at + it.deadline, true),
      phase: view.getUint16(at + it.phase, true), priority: view.getUint8(at + it.priority),
    };
  }
  tableOut(at, count) {
    const it = LAYOUT.placed;
    return Array.from({ length: count }, (_, place) => {
      const here = at + place * it.size, isEnded = this.view().getUint8(here + it.ended) !== 0;
      return { entry: this.entryOut(here + it.entry), origin: this.number(here + it.origin), end: isEnded ? this.number(here + it.end) : null };
    });
  }
  frameOut(at) {
    const view = this.view(), it = LAYOUT.frame;
    return { identifier: view.getUint16(at + it.id, true), data: this.copy(at + it.bytes, view.getUint8(at + it.len)) };
  }
  operationOut(at) {
    const it = LAYOUT.op, kind = KINDS[this.view().getUint8(at + it.kind)], entry = this.entryOut(at + it.entry);
    return kind === "remove" ? { kind, slot: entry.slot } : { ...entry, kind };
  }
  ticketIn(room, { identifier, cycle, number }) {
    const it = LAYOUT.ticket, at = room(it.size);
    this.put64(at + it.cycle, "cycle", cycle);
    this.put64(at + it.number, "number", number);
    this.view().setUint16(at + it.id, whole("identifier", identifier, 16), true);
    return at;
  }
  /** A verdict as a value. That of a miss gets the trail, which is asked for. */
  verdictOut(at, trail = () => []) {
    const view = this.view(), it = LAYOUT.verdict, first = this.number(at + it.first), second = this.number(at + it.second);
    switch (view.getUint8(at + it.kind)) {
      case VERDICT.ACCEPTED: return new Accepted(first, second);
      case VERDICT.HORIZON: return new Horizon(first, second);
      case VERDICT.MISSED: return new Miss(view.getUint8(at + it.slot), first, second, trail());
      case VERDICT.PASSED: return new Passed(first, second);
      default: return new Malformed(view.getUint8(at + it.op), view.getUint8(at + it.why), view.getUint8(at + it.known) ? first : null);
    }
  }
  /** What a call answers that is given a room, its size and a place for a count: where it stands, and the count. If the
   * room is too small the call is made again. */
  listed(room, size, guess, call) {
    const count = room(LAYOUT.size);
    for (let many = guess; ;) {
      const at = room(many * size || 1), status = call(at, BigInt(many), count);
      if (status !== STATUS.ROOM) {
        must(status);
        return [at, this.number(count)];
      }
      many = Math.max(this.number(count), many + 1);
    }
  }
  bytesFrom(guess, call) {
    return this.within(room => this.copy(...this.listed(room, 1, guess, call)));
  }
}

/** The verdict, if it accepts. Otherwise it is raised. */
function accepted(verdict) {
  if (verdict instanceof Refused) throw verdict;
  return verdict;
}

// Handles --------------------------------------------------------------------------------------------------------------

/** Frees what nobody has any more. */
const LEFT = new FinalizationRegistry(({ core, at, free }) => {
  if (core.fault) return;
  core.call(free, at);
  core.give(at);
});

/** Something of the library that has to be closed. It is also closed when nobody has it any more, at a time that the
 * engine chooses. */
class Handle {
  #core;
  #at;
  #free;

  constructor(core, free) {
    this.#core = core;
    this.#free = free;
    this.#at = core.take(LAYOUT.master.size);
    core.zero(this.#at, LAYOUT.master.size);
    LEFT.register(this, { core, at: this.#at, free }, this);
  }
  /** Gives back all memory. A second call does nothing. */
  close() {
    if (!this.#at) return;
    LEFT.unregister(this);
    const at = this.#at;
    this.#at = 0;
    if (this.#core.fault) return;
    this.#core.call(this.#free, at);
    this.#core.give(at);
  }
  /** Whether this was closed, or handed on. */
  get closed() {
    return !this.#at || this.#core.number(this.#at) === 0;
  }
  /** Closes a handle that was handed on, so that its own 8 bytes are given back too. */
  static handed(handle) {
    if (handle.closed) handle.close();
  }
  /** Where the handle stands; one that holds nothing if this was closed. */
  static at(handle) {
    return handle.#at || handle.#core.nothing;
  }
}
if (Symbol.dispose) Object.defineProperty(Handle.prototype, Symbol.dispose, { value: Handle.prototype.close });

/** Fills a new handle, which is closed again if that fails. */
function filled(handle, call) {
  try {
    call(Handle.at(handle));
    return handle;
  } catch (fault) {
    handle.close();
    throw fault;
  }
}

/** The classes of an instance. */
function classesOf(core) {
  /** A change that was planned apart from its master. `Snapshot.plan` makes it, and `Master.settle` takes it. */
  class Planned extends Handle {
    constructor() {
      super(core, "planned_free");
    }
    /** What was decided, as a value: Accepted, or the error that would be raised. */
    get verdict() {
      return core.within(room => {
        const verdict = room(LAYOUT.verdict.size);
        must(core.call("planned_verdict", Handle.at(this), verdict));
        return core.verdictOut(verdict);
      });
    }
  }

  /** What a change is planned from, apart from its master. `Master.snapshot` makes it. */
  class Snapshot extends Handle {
    constructor() {
      super(core, "snapshot_free");
    }
    /** Plans a change from cycle `start` on. The snapshot is closed then. A refusal is no error here: the verdict has it.
     * MemoryRanOut: the snapshot is as before. Closed. */
    plan(start, operations) {
      const planned = filled(new Planned(), at => core.within(room => {
        must(core.call("plan_apart", Handle.at(this), wide("start", start), ...core.changeIn(room, operations), at));
      }));
      Handle.handed(this);
      return planned;
    }
  }

  // A handle of a master is made in three ways.
  const OF = Symbol("of");

  /** A master that answers changes of its table and opens cycles, in memory that does not grow with their number.
   * OutOfRange: the rules are not those of a master. MemoryRanOut. */
  class Master extends Handle {
    constructor(rules, how) {
      super(core, "master_free");
      filled(this, at => (how === OF ? rules(at) : core.within(room => must(core.call("master_new", at, core.rulesIn(room, rules))))));
    }
    /** A master in the state that `save` has written, which may be that of another machine. The bytes are not trusted: of any
     * that are not refused a master is made that misses no deadline. BadText: no master has such a state. MemoryRanOut. */
    static restore(saved) {
      return new Master(at => core.within(room => must(core.call("master_restore", at, ...core.bytesIn(room, saved)))), OF);
    }
    static [OF](make) {
      return new Master(make, OF);
    }
    /** What it was made for. */
    get rules() {
      return core.within(room => {
        const it = LAYOUT.rules, at = room(it.size);
        must(core.call("master_rules", Handle.at(this), at));
        const view = core.view();
        return {
          window: view.getUint32(at + it.window, true), nodes: view.getUint8(at + it.nodes), slots: view.getUint8(at + it.slots),
          policy: POLICIES[view.getUint8(at + it.policy)], fill: FILLS[view.getUint8(at + it.fill)], horizon: core.number(at + it.horizon),
        };
      });
    }
    /** Answers a change from cycle `start` on, which `caller`, 1 to 8, asks for: one operation, or a list. All of it is done,
     * or nothing. Malformed, Passed, Miss, Horizon: the change is refused. MemoryRanOut, OutOfRange, Closed. */
    submit(start, operations, caller = 1) {
      return core.within(room => {
        const verdict = room(LAYOUT.verdict.size);
        must(core.call("master_submit", Handle.at(this), whole("caller", caller, 8), wide("start", start), ...core.changeIn(room, operations), verdict));
        return accepted(core.verdictOut(verdict, () => this.#trail()));
      });
    }
    /** What would be sent in each cycle up to the miss of the last answer. */
    #trail() {
      return core.within(room => {
        const size = LAYOUT.mask.size, [at, count] = core.listed(room, size, 64, (...out) => core.call("master_trail", Handle.at(this), ...out));
        return Array.from({ length: count }, (_, place) => core.maskOut(at + place * size));
      });
    }
    /** Opens the next cycle: its number, the slots that are sent in it, the bit times of its window, and whether the table has
     * changed since the last opening, so that the nodes have to be told. It takes no memory of the library. BadState: no
     * cycle may be opened any more. Closed. */
    open() {
      must(core.call("master_open", Handle.at(this), core.order));
      const at = core.order, it = LAYOUT.order, view = core.view();
      return { cycle: core.number(at + it.cycle), slots: core.maskOut(at + it.flags), window: view.getUint32(at + it.window, true), learned: view.getUint8(at + it.learned) !== 0 };
    }
    /** The next cycle, as an answer to `caller`, 1 to 8. */
    look(caller = 1) {
      return core.within(room => {
        const at = room(LAYOUT.size);
        must(core.call("master_look", Handle.at(this), whole("caller", caller, 8), at));
        return core.number(at);
      });
    }
    /** The cycle that is opened next. */
    get next() {
      return core.within(room => {
        const at = room(LAYOUT.size);
        must(core.call("master_next", Handle.at(this), at));
        return core.number(at);
      });
    }
    /** The slots that `open` would flag now. */
    planned() {
      return core.within(room => {
        const at = room(LAYOUT.mask.size);
        must(core.call("master_planned", Handle.at(this), at));
        return core.maskOut(at);
      });
    }
    /** The entries of the table, in the order of their placing. Ended ones are among them: when a change is accepted, those
     * are let go that are over and have a later entry in their slot. */
    table() {
      return core.within(room => core.tableOut(...core.listed(room, LAYOUT.placed.size, 128, (...out) => core.call("master_table", Handle.at(this), ...out))));
    }
    /** The plan text from the next cycle on, up to the end of its first repeat. `check` takes it with the table and the window
     * of the rules. MemoryRanOut, Closed. */
    certificate() {
      return DECODER.decode(core.bytesFrom(4096, (...out) => core.call("master_certificate", Handle.at(this), ...out)));
    }
    /** The state, for `restore`: the same bytes on every machine. */
    save() {
      return core.bytesFrom(4096, (...out) => core.call("master_save", Handle.at(this), ...out));
    }
    /** What a change is planned from, while this master goes on. */
    snapshot() {
      return filled(new Snapshot(), at => must(core.call("master_snapshot", Handle.at(this), at)));
    }
    /** Answers a change that was planned apart, which `caller`, 1 to 8, asks for. The plan is closed then. If a change was
     * accepted since the snapshot, it is planned anew. The errors are those of `submit`. After Closed and OutOfRange both
     * are as before. */
    settle(planned, caller = 1) {
      return core.within(room => {
        const verdict = room(LAYOUT.verdict.size);
        const status = core.call("master_settle", Handle.at(this), whole("caller", caller, 8), Handle.at(planned), verdict);
        Handle.handed(planned);
        must(status);
        return accepted(core.verdictOut(verdict, () => this.#trail()));
      });
    }
  }

  /** A second master that follows the first: it is told the accepted changes and hears the triggers.
   * OutOfRange: the rules are not those of a master. MemoryRanOut. */
  class Standby extends Handle {
    #rules;

    constructor(rules) {
      super(core, "standby_free");
      this.#rules = { slots: 40, policy: "rm", fill: "prefix", horizon: 10000, ...rules };
      filled(this, at => core.within(room => must(core.call("standby_new", at, core.rulesIn(room, rules)))));
    }
    /** What it was made for. */
    get rules() {
      return { ...this.#rules };
    }
    /** Follows a change that the first master has accepted, and answers what it would have answered itself. Malformed, Passed,
     * Miss, Horizon: its own table refuses the change, and it is as before. MemoryRanOut, OutOfRange, Closed. */
    change(start, operations, caller = 1) {
      return core.within(room => {
        const verdict = room(LAYOUT.verdict.size);
        const status = core.call("standby_change", Handle.at(this), whole("caller", caller, 8), wide("start", start), ...core.changeIn(room, operations), verdict);
        if (status !== STATUS.NO) must(status);
        return accepted(core.verdictOut(verdict));
      });
    }
    /** Follows the opening of a cycle by its trigger: one frame, or two with 96 slots. NoTrigger, OtherFlags, OtherWindow: this
     * is not the trigger that is planned, and it is as before. OutOfRange: a frame that is none. BadState, Closed. */
    trigger(...frames) {
      this.#hear(0, frames);
    }
    /** The same, where the window that the frames say is longer by a reserve, in bit times. */
    triggerReserved(reserve, ...frames) {
      this.#hear(reserve, frames);
    }
    #hear(reserve, frames) {
      core.within(room => {
        const it = LAYOUT.follow, at = room(it.size), given = core.framesIn(room, frames);
        const status = reserve ? core.call("standby_trigger_reserved", Handle.at(this), whole("reserve", reserve, 32), ...given, at) : core.call("standby_trigger", Handle.at(this), ...given, at);
        if (status !== STATUS.NO) return must(status);
        const kind = core.view().getUint8(at + it.kind), first = core.number(at + it.first);
        if (kind === 0) throw new NoTrigger(first);
        if (kind === 1) throw new OtherFlags(first, core.maskOut(at + it.heard), core.maskOut(at + it.planned));
        throw new OtherWindow(first, core.number(at + it.second));
      });
    }
    /** The cycle whose trigger it awaits. */
    get next() {
      return core.within(room => {
        const at = room(LAYOUT.size);
        must(core.call("standby_next", Handle.at(this), at));
        return core.number(at);
      });
    }
    /** The master that goes on when the first one is gone. The standby is closed then. */
    takeOver() {
      const master = Master[OF](at => must(core.call("standby_take_over", Handle.at(this), at)));
      Handle.handed(this);
      return master;
    }
  }

  /** A table and the state of its plan, in the memory of JavaScript: nothing of it has to be closed.
   * rules: as of a master. placed: the entries, in the order of their placing. cycle: the one that is opened next. pending:
   * the slots that are released and not sent before it. Nothing is judged here: `submit` and `open` do it. */
  class Table {
    #placed;
    #state;

    constructor(rules, placed = [], cycle = 0, pending = []) {
      this.rules = { ...rules };
      this.#placed = [...placed];
      whole("cycle", cycle, 64);
      this.#state = { cycle, pending: [...pending].map(slotOf).sort((one, other) => one - other) };
    }
    /** The entries, in the order of their placing. */
    get placed() {
      return this.#placed.map(it => ({ ...it, entry: { ...it.entry } }));
    }
    /** The cycle that is opened next. */
    get next() {
      return this.#state.cycle;
    }
    /** The slots that are released and not sent before the next cycle. */
    get pending() {
      return [...this.#state.pending];
    }
    /** Another table with the same entries and the same state. */
    copy() {
      return new Table(this.rules, this.placed, this.next, this.pending);
    }
    #stateIn(room) {
      const it = LAYOUT.state, at = room(it.size);
      core.put64(at + it.cycle, "cycle", this.#state.cycle);
      core.maskIn(at + it.pending, this.#state.pending);
      return at;
    }
    /** Decides a change from cycle `start` on, and makes it if it is accepted. Malformed, Passed, Miss, Horizon: the change is
     * refused, and nothing changed. BadTable, BadState, OutOfRange, MemoryRanOut. */
    submit(start, operations) {
      return core.within(room => {
        const many = this.#placed.length + MOST_ADDED, verdict = room(LAYOUT.verdict.size), made = room(many * LAYOUT.placed.size), count = room(LAYOUT.size);
        must(core.call("decide", core.rulesIn(room, this.rules), ...core.tableIn(room, this.#placed), this.#stateIn(room), wide("start", start),
          ...core.changeIn(room, operations), verdict, made, BigInt(many), count));
        const decided = accepted(core.verdictOut(verdict));
        this.#placed = core.tableOut(made, core.number(count));
        return decided;
      });
    }
    /** Opens the next cycle: its number, its slots and its window. WouldMiss: an instance would miss its deadline in it, which
     * can't be after an accepted change. BadTable, BadState, OutOfRange, MemoryRanOut: nothing changed. */
    open() {
      return core.within(room => {
        const it = LAYOUT.plan, plan = room(it.size), state = this.#stateIn(room), { cycle } = this.#state;
        must(core.call("open", core.rulesIn(room, this.rules), ...core.tableIn(room, this.#placed), state, plan));
        this.#state = { cycle: core.number(state + LAYOUT.state.cycle), pending: core.maskOut(state + LAYOUT.state.pending) };
        return { cycle, slots: core.maskOut(plan + it.flags), window: core.view().getUint32(plan + it.window, true), learned: false };
      });
    }
  }
  /** A node, which takes no trigger before its first `goTo`. `into` and all times are bit times from the start of the first trigger frame of
   * the open cycle, as the driver counts them. layout: its window is the largest one that a trigger says. number: 0 to 29. owners: by identifiers, 0x200
   * to 0x7EF, the numbers of their nodes, as an object or a Map; all nodes are given the same. room: how many requests may wait under each
   * identifier. entries: how many entries of its own it can know at once. tolerance: by how many cycles `passed` may be off, 0 to 127. silent:
   * whether a slot without fitting bytes is not sent; otherwise the number of its instance is. OutOfRange, MemoryRanOut. */
  class Node extends Handle {
    constructor(layout, { number, owners = {}, room: most = 8, entries = 96, tolerance = 1, silent = false }) {
      super(core, "node_free");
      const list = owners instanceof Map ? [...owners] : Object.entries(owners);
      filled(this, at => core.within(room => {
        const it = LAYOUT.settings, settings = room(it.size), own = LAYOUT.owner, owned = room((list.length || 1) * own.size), laidOut = core.layoutIn(room, layout);
        core.put64(settings + it.room, "room", most);
        core.put64(settings + it.entries, "entries", entries);
        core.view().setUint8(settings + it.number, whole("number", number, 8));
        core.view().setUint8(settings + it.tolerance, whole("tolerance", tolerance, 8));
        core.view().setUint8(settings + it.silent, silent ? 1 : 0);
        for (const [place, [identifier, node]] of list.entries()) {
          core.view().setUint16(owned + place * own.size + own.id, whole("identifier", Number(identifier), 16), true);
          core.view().setUint8(owned + place * own.size + own.node, whole("node", node, 8));
        }
        must(core.call("node_new", at, laidOut, settings, owned, BigInt(list.length)));
      }));
    }
    /** Makes a call; `read` answers its value. At FTTCAN_NO that is null. */
    #asked(call, read = () => true, none = null) {
      return core.within(room => {
        const status = call(room, Handle.at(this));
        if (status === STATUS.NO) return none;
        must(status);
        return read();
      });
    }
    /** A call that writes a struct of a kind, which `read` makes a value of. */
    #out(name, kind, words, read) {
      let at;
      return this.#asked((room, own) => core.call(name, own, ...words, at = room(LAYOUT[kind]?.size ?? LAYOUT.size)), () => read(at));
    }
    /** Replaces what the node knows by the entries of its number in a table. A change is learnt before its start. BadTable, MemoryRanOut. Full:
     * more entries of its number than it was made for; it is as before. */
    learn(table) {
      this.#asked((room, own) => core.call("node_learn", own, ...core.tableIn(room, table)));
    }
    /** Says that the next trigger which is taken is that of a cycle, or of a later one. The open cycle is closed. OutOfRange. */
    goTo(cycle) {
      this.#asked((_, own) => core.call("node_go_to", own, wide("cycle", cycle)));
    }
    /** Tells the node a frame that may be a trigger frame: opened, noted, again, notTaken or other. passed: how many cycles have gone by
     * without one, by a clock, since the last trigger that was taken. OutOfRange: the frame is none. */
    trigger(frame, passed = 0) {
      let heard;
      return this.#asked((room, own) => core.call("node_trigger", own, core.framesIn(room, [frame])[0], whole("passed", passed, 32), heard = room(1)), () => HEARD[core.view().getUint8(heard)]);
    }
    /** Sets the bytes that a slot sends from the next `load` on. They are sent if they are as many as its entry says. OutOfRange. */
    set(slot, data) {
      this.#asked((room, own) => core.call("node_set", own, whole("slot", slot, 8), ...core.bytesIn(room, data)));
    }
    /** Puts a request behind those of its identifier, and answers whether there was room. OutOfRange: the frame is none, or its identifier is none
     * of the node's own. */
    put(frame) {
      return core.within(room => {
        const status = core.call("node_put", Handle.at(this), core.framesIn(room, [frame])[0]);
        if (status === STATUS.FULL) return false;
        must(status);
        return true;
      });
    }
    /** Drops the oldest request that waits under an identifier, and answers whether one waited that is not in flight. OutOfRange. */
    drop(identifier) {
      return this.#asked((_, own) => core.call("node_drop", own, whole("identifier", identifier, 16)), () => true, false);
    }
    /** How many requests wait under an identifier, with the one in flight. OutOfRange. */
    waiting(identifier) {
      return this.#out("node_waiting", "size", [whole("identifier", identifier, 16)], at => core.number(at));
    }
    /** What the node offers at a time: the least identifier that waits, is not in flight, and still ends where it has to, and until when. Null: nothing. */
    offer(into) {
      const it = LAYOUT.offer;
      return this.#out("node_offer", "offer", [wide("into", into)], at => ({ identifier: core.view().getUint16(at + it.id, true), until: core.view().getUint32(at + it.until, true) }));
    }
    /** The first time after `into` at which the node offers something, as long as nothing is told it. Null: not in this cycle. */
    wake(into) {
      return this.#out("node_wake", "size", [wide("into", into)], at => core.number(at));
    }
    /** The frame of what the node offers at a time: a look. Null: it does not offer this identifier then. */
    frame(into, identifier) {
      return this.#out("node_frame", "frame", [wide("into", into), whole("identifier", identifier, 16)], at => core.frameOut(at));
    }
    /** Takes the frame of what the node offers at a time, for the controller: its ticket, the frame, and whether its bytes were put or set. It is in
     * flight then, until the ticket is told as sent or withdrawn. Null: it does not offer this identifier then. */
    load(into, identifier) {
      const it = LAYOUT.loaded, of = LAYOUT.ticket;
      return this.#out("node_load", "loaded", [wide("into", into), whole("identifier", identifier, 16)], at => {
        const ticket = at + it.ticket;
        return {
          ticket: { identifier: core.view().getUint16(ticket + of.id, true), cycle: core.number(ticket + of.cycle), number: core.number(ticket + of.number) },
          frame: core.frameOut(at + it.frame), users: core.view().getUint8(at + it.users) !== 0,
        };
      });
    }
    /** Tells the node that a frame was sent, and answers whether that counts: not if it was told already, or its cycle is over. */
    sent(ticket) {
      return this.#asked((room, own) => core.call("node_sent", own, core.ticketIn(room, ticket)), () => true, false);
    }
    /** Tells the node that a frame was not sent, and will not be. It is offered again. It answers whether it was in flight. */
    withdrawn(ticket) {
      return this.#asked((room, own) => core.call("node_withdrawn", own, core.ticketIn(room, ticket)), () => true, false);
    }
    /** The slots that the node owes in the open cycle. Just before the next trigger these were missed. */
    due() {
      return this.#out("node_due", "mask", [], at => core.maskOut(at));
    }
    /** When a slot that the node owes may start, first and last, whether it is in flight, and whether its bytes were set. Null: it does not owe it. */
    slotDue(slot) {
      const it = LAYOUT.due;
      return this.#out("node_slot_due", "due", [whole("slot", slot, 8)], at => ({
        start: core.view().getUint32(at + it.start, true), last: core.view().getUint32(at + it.last, true),
        loaded: core.view().getUint8(at + it.loaded) !== 0, users: core.view().getUint8(at + it.users) !== 0,
      }));
    }
    /** The frame of a slot that the node owes: a look. Null: it does not owe it. */
    slotFrame(slot) {
      return this.#out("node_slot_frame", "frame", [whole("slot", slot, 8)], at => core.frameOut(at));
    }
    /** The least cycle whose trigger the node can take. */
    get next() {
      return this.#out("node_next", "size", [], at => core.number(at));
    }
    /** The open cycle, its slots and its window. Null: no cycle is open, as between two trigger frames. */
    get opened() {
      const it = LAYOUT.trigger;
      return this.#out("node_opened", "trigger", [], at => ({ cycle: core.number(at + it.cycle), slots: core.maskOut(at + it.flags), window: core.view().getUint32(at + it.window, true) }));
    }
  }
  return { Master, Standby, Table, Node };
}

/** Frames of 11 bits: their lengths and bits on the wire, triggers, payloads, and what fits a cycle. Lengths are in bit
 * times, stuff bits and the three bits of intermission included. */
function framesOf(core) {
  const named = identifier => whole("identifier", identifier, 16);
  return {
    /** How many bit times a frame lasts. identifier: 0 to 0x7EF. data: 0 to 8 bytes. OutOfRange. */
    wireLength(identifier, data = []) {
      return core.within(room => {
        const bits = room(4);
        must(core.call("wire_length", named(identifier), ...core.bytesIn(room, data), bits));
        return core.view().getUint32(bits, true);
      });
    },
    /** The bits of a frame on the wire, one byte each, 0 or 1. OutOfRange, MemoryRanOut. */
    wireBits(identifier, data = []) {
      return core.within(room => {
        const given = core.bytesIn(room, data);
        return core.bytesFrom(160, (...out) => core.call("wire_bits", named(identifier), ...given, ...out));
      });
    },
    /** The frame that these bits are, one byte each. BadText: they are none; its place is that of the first fault, from 0 on, and
     * their number if they end early or have another CRC sequence. OutOfRange: a byte above 1. MemoryRanOut. */
    readWire(bits) {
      return core.within(room => {
        const frame = room(LAYOUT.frame.size), place = room(LAYOUT.size);
        const status = core.call("read_wire", ...core.bytesIn(room, bits), frame, place);
        if (status === STATUS.TEXT) throw new BadText(`the bits are no frame: the first fault is at place ${core.number(place)}`, core.number(place));
        must(status);
        return core.frameOut(frame);
      });
    },
    /** The frames of a trigger: one with 40 slots, two with 96. The window that they say is longer by the reserve, in bit times.
     * OutOfRange: a slot, the cycle, or window and reserve together are. */
    encode(trigger, slots = 40, reserve = 0) {
      return core.within(room => {
        const given = core.triggerIn(room, trigger), size = LAYOUT.frame.size;
        const [at, count] = core.listed(room, size, 2, (...out) => (reserve ? core.call("trigger_encode_reserved", whole("slots", slots, 8), given, whole("reserve", reserve, 32), ...out) : core.call("trigger_encode", whole("slots", slots, 8), given, ...out)));
        return Array.from({ length: count }, (_, place) => core.frameOut(at + place * size));
      });
    },
    /** What the frames of a trigger say, of the cycle its low eight bits. BadText: they are no trigger. OutOfRange. */
    decode(frames, slots = 40) {
      return core.within(room => {
        const it = LAYOUT.trigger, at = room(it.size);
        must(core.call("trigger_decode", whole("slots", slots, 8), ...core.framesIn(room, frames), at));
        return { cycle: core.number(at + it.cycle), slots: core.maskOut(at + it.flags), window: core.view().getUint32(at + it.window, true) };
      });
    },
    /** The data of an instance: the low `length` bytes, 0 to 8, of its number from 0 on, most significant first. */
    payload(number, length) {
      return core.within(room => {
        const at = room(8);
        if (whole("length", length, 8) > 8) throw new OutOfRange(`length is ${length}: it has to be 0 to 8`);
        must(core.call("payload", wide("number", number), at, BigInt(length)));
        return core.copy(at, length);
      });
    },
    /** Whether an asynchronous frame of `length` data bytes that starts at bit time `at`, counted from the start of cycle 0, ends
     * before the synchronous window. window: that of its cycle. OutOfRange. */
    fits(layout, at, length, window) {
      return core.within(room => {
        const out = room(1);
        must(core.call("fits", core.layoutIn(room, layout), wide("at", at), whole("length", length, 8), whole("window", window, 32), out));
        return core.view().getUint8(out) !== 0;
      });
    },
  };
}

/** What a master tells its nodes: changes that it accepted, and its table, in frames with an identifier of your choice, 0x200 to 0x7EF. Nothing of
 * this is proved. */
function changesOf(core) {
  const framesOut = (name, guess, words) => core.within(room => {
    const size = LAYOUT.frame.size, [at, count] = core.listed(room, size, guess, (...out) => core.call(name, ...words(room), ...out));
    return Array.from({ length: count }, (_, place) => core.frameOut(at + place * size));
  });
  /** Collects the frames of one identifier, in any order, some of them lost or doubled. entries: of a table with so many there is room. */
  class Collector {
    #collected;
    #room;

    constructor(entries = 96) {
      const longest = 11 + 22 * Math.max(9, whole("entries", entries, 16));
      this.#collected = new Uint8Array(LAYOUT.collected.size);
      this.#room = new Uint8Array(longest + Math.floor(longest / 40) + 1);
    }
    /** Takes a frame. If it makes a message whole, that is the answer: { kind: "change", number, start, operations } or { kind: "table", number,
     * table }. Null: not yet, or what was collected is none. Full: the message is longer than the room. OutOfRange: the frame is none. */
    hear(frame) {
      return core.within(room => {
        const it = LAYOUT.told, collected = room(this.#collected.length), text = room(this.#room.length), told = room(it.size), given = core.framesIn(room, [frame])[0];
        core.bytes(collected, this.#collected.length).set(this.#collected);
        core.bytes(text, this.#room.length).set(this.#room);
        const many = BigInt(this.#room.length), status = core.call("collect", collected, given, text, many, told);
        this.#collected = core.copy(collected, this.#collected.length);
        this.#room = core.copy(text, this.#room.length);
        if (status === STATUS.NO || status === STATUS.TEXT) return null;
        if (status === STATUS.ROOM) throw new Full("the message is longer than the room");
        must(status);
        const number = core.view().getUint32(told + it.number, true), start = core.number(told + it.start), count = core.view().getUint16(told + it.count, true);
        if (core.view().getUint8(told + it.kind) === 0) {
          const [at, found] = core.listed(room, LAYOUT.op.size, 16, (...out) => core.call("change_decode", text, many, told, ...out));
          return { kind: "change", number, start, operations: Array.from({ length: found }, (_, place) => core.operationOut(at + place * LAYOUT.op.size)) };
        }
        return { kind: "table", number, table: core.tableOut(...core.listed(room, LAYOUT.placed.size, count, (...out) => core.call("table_decode", text, many, told, ...out))) };
      });
    }
  }
  return {
    Collector,
    /** The frames that tell a change. number: how many changes the master has accepted, with this one, modulo 2^32. OutOfRange. */
    encodeChange(identifier, number, start, operations) {
      return framesOut("change_encode", 39, room => [whole("identifier", identifier, 16), whole("number", number, 32), wide("start", start), ...core.changeIn(room, operations)]);
    },
    /** The frames that tell a table, after the change of this number. OutOfRange. */
    encodeTable(identifier, number, table) {
      const list = [...table];
      return framesOut("table_encode", Math.floor((11 + 22 * list.length) / 5) + 1, room => [whole("identifier", identifier, 16), whole("number", number, 32), ...core.tableIn(room, list)]);
    },
  };
}

// The library ----------------------------------------------------------------------------------------------------------

/** The words with the names of files as numbers, and these files. The first word is the command, and no name. */
function named(words, files) {
  const list = [...words].map(String), has = name => Object.hasOwn(files, name);
  const names = [...new Set(list.slice(1).filter(has))];
  return [[...list.slice(0, 1), ...list.slice(1).map(word => (has(word) ? String(names.indexOf(word)) : word))], names.map(name => files[name])];
}

/** An instance of the library: its memory is its own, and is gone with it. */
export class Library {
  #core;

  constructor(instance) {
    const number = instance.exports.fttcan_version?.() ?? 0;
    /** The version of the library: major, minor and patch. */
    this.version = [number >>> 16, number >>> 8 & 255, number & 255];
    if (this.version[0] !== VERSION[0] || this.version[1] < VERSION[1]) {
      throw new LibraryUnfit(`the module has version ${this.version.join(".")}, and this file needs ${VERSION[0]}.${VERSION[1]} or a later ${VERSION[0]}`);
    }
    this.#core = new Core(instance);
    Object.assign(this, classesOf(this.#core));
    this.changes = changesOf(this.#core);
    this.frames = framesOf(this.#core);
  }

  /** Whether the module has `run` and `audit`. */
  get hasCommands() {
    return "fttcan_run" in this.#core.exports;
  }
  /** How many bytes are held: those of all that was not closed, and 64 of the library's own. */
  get held() {
    return this.#core.exports.fttcan_room_held();
  }
  /** Sets how many bytes may be held at most. What needs more raises MemoryRanOut. */
  limit(bytes) {
    this.#core.exports.fttcan_room_limit(whole("bytes", bytes, 32));
  }

  /** Whether the plan of a text keeps a table: null if it does, and otherwise the first Breach. window: the longest synchronous
   * window, in bit times. BadText: the text is no plan; its place is the first line that is wrong, from 1 on. BadState: a slot
   * that is said to be pending has no instance then, or a cycle is 2^42 or above. BadTable, OutOfRange, MemoryRanOut. */
  check(placed, window, text) {
    const core = this.#core;
    return core.within(room => {
      const it = LAYOUT.breach, at = room(it.size);
      const status = core.call("check", ...core.tableIn(room, placed), whole("window", window, 32), ...core.bytesIn(room, text), at);
      const first = core.number(at + it.first), second = core.number(at + it.second);
      if (status === STATUS.TEXT) throw new BadText(`the text is no plan: line ${first}`, first);
      if (status !== STATUS.NO) return must(status), null;
      const slot = core.view().getUint8(at + it.slot);
      switch (core.view().getUint8(at + it.kind)) {
        case 1: return new Breach("notreleased", { slot, cycle: first });
        case 2: return new Breach("toowide", { cycle: first, width: second });
        case 3: return new Breach("missed", { slot, release: first, cycle: second });
        case 4: return new Breach("notclosed", { slot });
        default: return new Breach("badloop", { slot });
      }
    });
  }

  /** Whether a log is that of a whole run of these files, as the command `audit` says it: an Audit. BadText: a file is refused;
   * `run(["audit", ..])` has the line that says why. MemoryRanOut. LibraryUnfit if the module lacks it. */
  audit(system, steps, log, requests = "") {
    const core = this.#core;
    return core.within(room => {
      const row = room(LAYOUT.size);
      const status = core.call("audit", ...[system, steps, log, requests].flatMap(file => core.bytesIn(room, file)), row);
      if (status === STATUS.NO) return new Audit("row", core.number(row));
      if (status === STATUS.UNFINISHED) return new Audit("unfinished");
      must(status);
      return new Audit("yes");
    });
  }

  /** Carries out the words of a call of the program over files in memory: every command but `live`. It answers an Answer.
   *
   * files: an object with each file that the words name, by its name; or a list of up to four files, which the words name 0, 1, 2
   * and 3. A file is a text or bytes. room: how many bytes the output may have. Without it the call is made again until all is
   * written. OutOfRange: more than four files, or a word with a byte 0. MemoryRanOut: there is no room for the files. */
  run(words, files = {}, room = null) {
    const [said, given] = Symbol.iterator in Object(files) ? [[...words].map(String), [...files]] : named(words, files);
    if (given.length > MOST_FILES || said.some(word => word.includes("\0"))) throw new OutOfRange(`at most ${MOST_FILES} files, and no word with a byte 0`);
    const core = this.#core, parts = [said.join("\0"), ...given, ...Array(MOST_FILES - given.length).fill("")];
    for (let size = room === null ? OUTPUT : whole("room", room, 30); ; size *= 8) {
      const answer = core.within(take => {
        const held = parts.flatMap(part => core.bytesIn(take, part)), out = take(size || 1), err = take(ERRORS), wrote = take(LAYOUT.size), told = take(LAYOUT.size);
        const status = core.call("run", ...held, out, BigInt(size), wrote, err, BigInt(ERRORS), told);
        return new Answer(status, core.copy(out, core.number(wrote)), core.copy(err, core.number(told)));
      });
      if (answer.status !== UNWRITTEN || room !== null || size >= MOST_OUTPUT) return answer;
    }
  }

  /** The table after a change that a master has accepted, without a plan. Entries that are over stay. NotAccepted: no master accepts the change, since
   * it breaks a rule even with 96 slots and 30 nodes. BadTable, MemoryRanOut. */
  apply(table, start, operations) {
    const core = this.#core, list = [...table];
    return core.within(room => {
      const given = core.tableIn(room, list), change_ = core.changeIn(room, operations);
      return core.tableOut(...core.listed(room, LAYOUT.placed.size, list.length + Number(change_[1]), (...out) => {
        const status = core.call("apply", ...given, wide("start", start), ...change_, ...out);
        if (status === STATUS.NO) throw new NotAccepted("no master accepts this change");
        return status;
      }));
    });
  }

  /** How much longer than its frames a window has to be for so many disturbances, in bit times, if no frame on the bus has more than `length` data
   * bytes. docs/LIBRARY.md has the conditions. OutOfRange. */
  reserve(errors, length = 8) {
    return this.#number32("reserve", whole("errors", errors, 16), whole("length", length, 8));
  }
  /** For how many disturbances a reserve of so many bit times is enough. OutOfRange. */
  errorsWithin(bits, length = 8) {
    return this.#number32("errors_within", whole("bits", bits, 32), whole("length", length, 8));
  }
  #number32(name, ...words) {
    const core = this.#core;
    return core.within(room => {
      const at = room(4);
      must(core.call(name, ...words, at));
      return core.view().getUint32(at, true);
    });
  }

  /** How late the frames of each stream are at most, in bit times after the arrival of their request: start and end, or null
   * for a stream of which no bound is known. docs/ASYNC.md has the conditions. OutOfRange: the layout or a stream is, or
   * these are more than 2,048. */
  asyncBound(layout, streams) {
    const core = this.#core, list = [...streams], it = LAYOUT.stream;
    return core.within(room => {
      const laidOut = core.layoutIn(room, layout), at = room((list.length || 1) * it.size), start = room(LAYOUT.size);
      for (const [place, { identifier, length, gap, burst = 1 }] of list.entries()) {
        const here = at + place * it.size;
        core.put64(here + it.gap, "gap", gap);
        core.view().setUint32(here + it.burst, whole("burst", burst, 32), true);
        core.view().setUint16(here + it.id, whole("identifier", identifier, 16), true);
        core.view().setUint8(here + it.bytes, whole("length", length, 8));
      }
      return list.map(({ length }, place) => {
        const status = core.call("async_bound", laidOut, at, BigInt(list.length), BigInt(place), start);
        if (status === STATUS.NO) return null;
        must(status);
        return { start: core.number(start), end: core.number(start) + 55 + 10 * length };
      });
    });
  }
}

/** Reads a module: compiled already, as bytes, as a response of the network, or by its address. */
async function compiled(source) {
  if (source instanceof WebAssembly.Module) return source;
  if (typeof source === "string" || source instanceof URL) {
    const url = new URL(source, import.meta.url);
    if (url.protocol === "file:" && typeof process !== "undefined") return compiled(await (await import("node:fs/promises")).readFile(url));
    return compiled(await fetch(url));
  }
  if (typeof Response !== "undefined" && source instanceof Response) {
    if (!source.ok) throw new LibraryUnfit(`${source.url}: status ${source.status}`);
    return WebAssembly.compile(await source.arrayBuffer());
  }
  return WebAssembly.compile(source);
}

/** Loads the library: `fttcan.wasm` beside this file, or the module that is given. `fttcan-run.wasm` has `run` and `audit` too.
 * LibraryUnfit: it is no module of the library, or one of another version. */
export async function load(source = "fttcan.wasm") {
  let module;
  try {
    module = await compiled(source);
  } catch (fault) {
    if (fault instanceof WebAssembly.CompileError) throw new LibraryUnfit(`this is no module: ${fault.message}`);
    throw fault;
  }
  return new Library(await WebAssembly.instantiate(module, {}));
}

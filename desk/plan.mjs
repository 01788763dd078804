// What the planner says of a design: the same in the page and in its worker. All is asked of the library in WebAssembly; what is worked
// out here are the times of frames, from what the library orders.
import { Horizon, Malformed, Miss, Passed, Refused } from "./fttcan.mjs";
import { TRIGGER, worst } from "./model.mjs";

const OPERATIONS = 16;

/** The rules of a model. */
export const rulesOf = ({ window, nodes, slots, policy, fill, horizon }) => ({ window, nodes, slots, policy, fill, horizon });
const operationOf = ({ slot, node, length, phase, period, deadline, priority }) => ({ kind: "add", slot, node, length, phase, period, deadline, priority });

/** A verdict as plain numbers and words, which may go from a worker to its page. */
export function verdictOf(call) {
  try {
    const { first, length, row } = call();
    return { kind: "accepted", first, length, row, said: length === 1 ? "the plan repeats every cycle" : `the plan repeats every ${length} cycles` };
  } catch (fault) {
    if (!(fault instanceof Refused)) throw fault;
    return refusalOf(fault);
  }
}
function refusalOf(fault) {
  const told = { row: fault.row, said: fault.message };
  if (fault instanceof Miss) return { ...told, kind: "miss", slot: fault.slot, release: fault.release, cycle: fault.cycle, trail: fault.trail };
  if (fault instanceof Horizon) return { ...told, kind: "horizon", first: fault.start, walked: fault.walked };
  if (fault instanceof Passed) return { ...told, kind: "passed", start: fault.start, next: fault.next };
  if (fault instanceof Malformed) return { ...told, kind: "malformed", operation: fault.operation, rule: fault.rule, until: fault.until };
  return { ...told, kind: "refused" };
}

/** Asks a new master for the entries of a model, sixteen in a change as the steps have them. It answers the master, the verdict of the
 * first change that is refused, or else of the last one, and the slots of the refused change. */
export function admitted(fttcan, model) {
  const master = new fttcan.Master(rulesOf(model));
  let verdict = { kind: "accepted", first: 0, length: 1, row: "", said: "there is nothing to plan" }, group = [];
  for (let at = 0; at < model.entries.length; at += OPERATIONS) {
    const entries = model.entries.slice(at, at + OPERATIONS);
    verdict = verdictOf(() => master.submit(0, entries.map(operationOf)));
    group = entries.map(it => it.slot);
    if (verdict.kind !== "accepted") break;
  }
  return { master, verdict, group: verdict.kind === "accepted" ? [] : group };
}

/** Only the verdict. */
export function judged(fttcan, model) {
  const { master, verdict } = admitted(fttcan, model);
  master.close();
  return verdict;
}

/** Cycles in lists of numbers: of each cycle three words of 32 bits, the set of its slots, and its window. */
export class Cycles {
  constructor(count) {
    this.count = count;
    this.masks = new Uint32Array(3 * count);
    this.windows = new Uint32Array(count);
  }
  put(cycle, slots, window) {
    for (const slot of slots) this.masks[3 * cycle + (slot >> 5)] |= 1 << (slot & 31);
    this.windows[cycle] = window;
  }
}
/** The slots of a cycle, the least first. */
export function slotsIn({ masks }, cycle) {
  const slots = [];
  for (let word = 0; word < 3; word++) for (let bits = masks[3 * cycle + word] | 0; bits; bits &= bits - 1) slots.push(32 * word + 31 - Math.clz32(bits & -bits));
  return slots;
}

/** By slot the frames of a cycle in bit times from its start: in the window, one after the other in the order of identifiers, each of its
 * worst length. The window ends with the cycle. */
export function framesIn(cycles, cycle, lengths, length) {
  let at = length - cycles.windows[cycle];
  return slotsIn(cycles, cycle).map(slot => {
    const from = at;
    at += worst(lengths[slot] ?? 0);
    return { slot, from, to: at };
  });
}

/** How late each slot is at most, over some cycles from 0 on: by slot the most bit times from a release to the end of its frame, without
 * the intermission, with the cycle of that release; the least distance to its deadline in cycles; and how many were sent. */
export function lateness(model, cycles) {
  const lengths = [], found = new Map(), next = new Map();
  for (const it of model.entries) {
    lengths[it.slot] = it.length;
    found.set(it.slot, { slot: it.slot, bits: 0, release: null, sent: null, spare: it.deadline, count: 0 });
    next.set(it.slot, it.phase);
  }
  const periods = new Map(model.entries.map(it => [it.slot, it]));
  for (let cycle = 0; cycle < cycles.count; cycle++) {
    for (const { slot, to } of framesIn(cycles, cycle, lengths, model.cycle)) {
      const release = next.get(slot), it = found.get(slot), { period, deadline } = periods.get(slot);
      next.set(slot, release + period);
      const bits = (cycle - release) * model.cycle + to - 3;
      it.count++;
      it.spare = Math.min(it.spare, deadline - 1 - (cycle - release));
      if (bits > it.bits) Object.assign(it, { bits, release, sent: cycle });
    }
  }
  return [...found.values()];
}

/** The plan of a model: its verdict, its cycles up to the end of the first repeat, or those that lead to a miss, the lateness of each
 * slot, and the bounds of asynchronous streams. */
export function planned(fttcan, model, most = 200000) {
  const started = now(), { master, verdict, group } = admitted(fttcan, model), lengths = [];
  for (const it of model.entries) lengths[it.slot] = it.length;
  let cycles;
  if (verdict.kind === "accepted") {
    cycles = new Cycles(Math.min(model.entries.length ? verdict.first + verdict.length : 0, most));
    for (let cycle = 0; cycle < cycles.count; cycle++) {
      const { slots, window } = master.open();
      cycles.put(cycle, slots, window);
    }
  } else {
    const trail = verdict.trail ?? [];
    cycles = new Cycles(trail.length);
    trail.forEach((slots, cycle) => cycles.put(cycle, slots, slots.reduce((so, slot) => so + worst(lengths[slot] ?? 0), 0)));
  }
  const certificate = verdict.kind === "accepted" && verdict.length <= 10000 && model.entries.length ? certificateOf(fttcan, model) : null;
  master.close();
  delete verdict.trail;
  const layout = { cycle: model.cycle, turnaround: model.turnaround, window: model.window, slots: model.slots };
  const bounds = fttcan.asyncBound(layout, model.streams.map(it => ({ identifier: it.id, length: it.bytes, gap: it.gap, burst: it.burst })));
  return { verdict, group, cycles, late: verdict.kind === "accepted" ? lateness(model, cycles) : [], bounds, certificate, seconds: (now() - started) / 1000 };
}
const now = () => performance.now();

/** The text of the plan from cycle 0 on, which the command `check` takes. */
function certificateOf(fttcan, model) {
  const { master } = admitted(fttcan, model), text = master.certificate();
  master.close();
  return text;
}

/** What would make a refused design fit, each tried with the planner: another policy or filling, the least window, and for the message
 * that is missed the least period. `told` is called before each try. */
export function remedies(fttcan, model, told = () => {}) {
  const found = [], isFit = other => judged(fttcan, other).kind === "accepted", policies = ["rm", "dm", "edf"], fills = ["prefix", "skip"];
  const verdict = judged(fttcan, model), needed = Math.max(55, ...model.entries.map(it => worst(it.length)));
  const leastWindow = other => {
    // Along the window plans are not ordered for certain: so what is found is looked at again, and told as found.
    let low = needed, high = other.room;
    if (!isFit({ ...other, window: high })) return null;
    while (low < high) {
      told();
      const middle = Math.floor((low + high) / 2);
      if (isFit({ ...other, window: middle })) high = middle;
      else low = middle + 1;
    }
    return high;
  };
  for (const policy of policies) {
    for (const fill of fills) {
      told();
      const other = { ...model, policy, fill };
      if (policy === model.policy && fill === model.fill) continue;
      if (isFit(other)) found.push({ what: "policy", policy, fill });
    }
  }
  for (const [policy, fill] of [[model.policy, model.fill], ...policies.map(it => [it, "prefix"])]) {
    const window = leastWindow({ ...model, policy, fill });
    if (window !== null && !found.some(it => it.what === "window" && it.policy === policy && it.fill === fill)) found.push({ what: "window", window, policy, fill });
  }
  if (verdict.kind === "miss") {
    const missed = model.entries.find(it => it.slot === verdict.slot);
    const tries = [...Array.from({ length: 24 }, (_, at) => missed.period + at + 1), ...[2, 3, 4, 5, 8, 10].map(by => missed.period * by)].filter(it => it <= 65535);
    for (const period of [...new Set(tries)].sort((one, two) => one - two)) {
      told();
      const entries = model.entries.map(it => (it === missed ? { ...it, period, deadline: it.deadline === it.period ? period : it.deadline } : it));
      if (isFit({ ...model, entries })) {
        found.push({ what: "period", slot: missed.slot, period });
        break;
      }
    }
    for (let phase = 0; phase < Math.min(missed.period, 60); phase++) {
      told();
      if (phase !== missed.phase && isFit({ ...model, entries: model.entries.map(it => (it === missed ? { ...it, phase } : it)) })) {
        found.push({ what: "offset", slot: missed.slot, phase });
        break;
      }
    }
  }
  return found;
}

/** A change while the machine runs. `change` has operations, the cycle before which it is asked for, and how many cycles ahead it begins.
 * It answers the verdict, and for each slot of the change the cycles of the last frame before and of the first frame after. */
export function switched(fttcan, model, { operations, at, ahead }, watched = 400) {
  const { master, verdict: base } = admitted(fttcan, model);
  if (base.kind !== "accepted") {
    master.close();
    return { base };
  }
  const cycles = [];
  for (let cycle = 0; cycle < at; cycle++) cycles.push(master.open());
  const start = at + ahead, verdict = verdictOf(() => master.submit(start, operations));
  const until = start + watched;
  for (let cycle = at; cycle < until; cycle++) cycles.push(master.open());
  master.close();
  delete verdict.trail;
  const gaps = operations.map(({ slot, kind }) => {
    const sent = cycles.filter(it => it.slots.includes(slot)).map(it => it.cycle), before = sent.filter(it => it < start).at(-1) ?? null;
    return { slot, kind, before, after: sent.find(it => it >= start) ?? null };
  });
  const shown = new Cycles(cycles.length);
  cycles.forEach((it, cycle) => shown.put(cycle, it.slots, it.window));
  return { base, verdict, start, gaps, cycles: shown };
}

/** The same change, asked for before each of some cycles: by its verdict the cycles. `told` is called with how many are done. */
export function swept(fttcan, model, { operations, ahead }, from, count, told = () => {}) {
  const { master, verdict: base } = admitted(fttcan, model);
  if (base.kind !== "accepted") {
    master.close();
    return { base };
  }
  const found = new Map();
  for (let cycle = 0; cycle < from; cycle++) master.open();
  for (let cycle = from; cycle < from + count; cycle++) {
    told(cycle - from);
    const snapshot = master.snapshot(), planned = snapshot.plan(cycle + ahead, operations), { verdict } = planned;
    planned.close();
    const isFit = !(verdict instanceof Refused), key = isFit ? "accepted" : reasonOf(verdict);
    if (!found.has(key)) found.set(key, { isFit, reason: key, cycles: [] });
    found.get(key).cycles.push(cycle);
    master.open();
  }
  master.close();
  return { base, from, count, found: [...found.values()] };
}
/** Why a change is refused, without the numbers of cycles. */
function reasonOf(fault) {
  if (fault instanceof Miss) return `miss ${fault.slot}`;
  if (fault instanceof Horizon) return "horizon";
  if (fault instanceof Malformed) return `malformed ${fault.operation} ${fault.rule}`;
  return "passed";
}

/** The parts of a cycle in bit times: the trigger, what is left for asynchronous frames, and the window. */
export function partsOf(model, window) {
  const trigger = TRIGGER[model.slots];
  return { trigger, turnaround: model.turnaround, free: model.cycle - trigger - model.turnaround - window, window };
}

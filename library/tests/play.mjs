// Plays what other programs worked out by the library in WebAssembly, and says where an answer differs. It needs nothing but
// the module fttcan.mjs, which is handed in, so it runs in node, in a worker and in browsers. tools/check-wasm calls it.

const LEAST_OFFSET = 40;

/** Whether two values are the same: numbers, texts, lists, bytes and plain objects of them. */
export function same(one, other) {
  if (Object.is(one, other)) return true;
  if (typeof one !== "object" || typeof other !== "object" || one === null || other === null) return false;
  const isList = it => Array.isArray(it) || ArrayBuffer.isView(it);
  if (isList(one) || isList(other)) {
    return isList(one) && isList(other) && one.length === other.length && one.every((it, at) => same(it, other[at]));
  }
  const names = it => Object.keys(it).sort();
  return same(names(one), names(other)) && names(one).every(name => same(one[name], other[name]));
}
const hex = bytes => Array.from(bytes, byte => byte.toString(16).padStart(2, "0")).join("");
const bytes = text => Uint8Array.from(text.match(/../g) ?? [], pair => parseInt(pair, 16));

/** A session of asked_sessions.py, as it is played. `wrong` takes a text for each difference. */
class Session {
  constructor(module, fttcan, { rules }, wrong) {
    Object.assign(this, { module, fttcan, rules, wrong, calls: 0, what: "new" });
    this.master = new fttcan.Master(rules);
    this.standby = new fttcan.Standby(rules);
    this.table = new fttcan.Table(rules);
    this.next = 0;
    this.snapshots = new Map();
    this.plans = new Map();
    // Masters that others took the place of.
    this.left = [];
  }

  is(found, wanted, more = "") {
    this.calls++;
    if (!same(found, wanted)) this.wrong(`${this.what} ${more}: ${JSON.stringify(found)}, wanted ${JSON.stringify(wanted)}`);
  }
  /** The row of a verdict, whether it is answered or raised, and the trail of a miss. */
  told(call) {
    try {
      return [call().row, []];
    } catch (fault) {
      if (!(fault instanceof this.module.Refused)) throw fault;
      return [fault.row, fault.trail ?? []];
    }
  }
  /** What a call raises. */
  raised(call) {
    try {
      return call();
    } catch (fault) {
      return fault;
    }
  }
  /** The others follow a change that the master was asked for. */
  follow(row, start, operations, isNow) {
    const isAccepted = row.startsWith("accepted"), size = isNow ? undefined : "accepted".length;
    if (this.standby && isAccepted) this.is(this.told(() => this.standby.change(start, operations))[0].slice(0, size), row.slice(0, size), "standby");
    if (isNow || isAccepted) this.is(this.told(() => this.table.submit(start, operations))[0].slice(0, size), row.slice(0, size), "table");
  }

  submit([start, operations, caller], [row, trail]) {
    this.is(this.told(() => this.master.submit(start, operations, caller)), [row, trail]);
    this.follow(row, start, operations, true);
  }
  open(_, [cycle, slots, window, learned, triggers]) {
    this.is(this.master.open(), { cycle, slots, window, learned });
    this.is(this.table.open(), { cycle, slots, window, learned: false }, "table");
    const frames = this.fttcan.frames.encode({ cycle, slots, window }, this.rules.slots);
    this.is(frames.map(it => hex(it.data)), triggers, "encode");
    this.is(this.fttcan.frames.decode(frames, this.rules.slots), { cycle: cycle % 256, slots, window }, "decode");
    if (this.standby) {
      this.standby.trigger(...frames);
      this.is(this.standby.next, cycle + 1, "standby");
    }
    this.next = cycle + 1;
  }
  planned(_, slots) {
    this.is(this.master.planned(), slots);
  }
  nextOf([caller], cycle) {
    this.is([this.master.next, this.master.look(caller)], [cycle, cycle]);
  }
  tableOf(_, [rows, needed, pending]) {
    const found = this.master.table(), text = it => JSON.stringify([it.origin, it.end, ...Object.entries(it.entry).sort().flat()]);
    const own = found.map(text), rest = rows.map(text);
    let at = 0;
    this.is(rest.filter((it, place) => needed[place] && !own.includes(it)), [], "needed");
    this.is(own.every(it => (at = rest.indexOf(it, at) + 1) > 0), true, "order");
    this.is(this.table.placed, rows, "pair");
    this.is(this.table.pending, pending, "pending");
  }
  certificate(given, [from, first, length, masks, breach]) {
    const text = this.master.certificate(), rows = text.split("\n").slice(0, -1), { maskText, slotsOf } = this.module;
    const found = rows.slice(5, -1).flatMap(row => Array(Number(row.split(" ")[1])).fill(slotsOf(row.split(" ")[0])));
    this.is([rows[1], rows[3], rows[4], found], [`from ${from}`, `first ${first}`, `length ${length}`, masks]);
    const { window } = this.rules, table = this.master.table();
    this.is(this.fttcan.check(table, window, text), null, "check");
    if (given) {
      // (equal cycles in a row stand in one line)
      const all = given.map(([slots]) => maskText(slots)), lines = [];
      for (const mask of all) {
        if (lines.at(-1)?.[0] === mask) lines.at(-1)[1]++;
        else lines.push([mask, 1]);
      }
      const other = [...rows.slice(0, 5), ...lines.map(it => it.join(" ")), "end"].map(row => `${row}\n`).join("");
      this.is(this.fttcan.check(table, window, other)?.row ?? "yes", breach, "breach");
    }
  }
  saved(isClosed) {
    const saved = this.master.save();
    this.is(this.raised(() => this.fttcan.Master.restore(saved.slice(0, -1))).name, "BadText", "no state");
    if (isClosed) this.master.close();
    else this.left.push(this.master);
    this.master = this.fttcan.Master.restore(saved);
    this.is(this.master.rules, this.rules, "rules");
    this.is(this.master.save(), saved);
  }
  takeOver() {
    const { standby } = this;
    this.standby = null;
    this.master.close();
    this.master = standby.takeOver();
    this.is(standby.closed, true);
  }
  snapshot(key) {
    this.snapshots.set(key, this.master.snapshot());
    this.is(this.snapshots.get(key).closed, false);
  }
  plan([key, start, operations], row) {
    const snapshot = this.snapshots.get(key), planned = snapshot.plan(start, operations);
    this.is(planned.verdict.row, row);
    this.is(snapshot.closed, true, "the snapshot is gone");
    this.plans.set(key, planned);
  }
  settle([key, start, operations, caller], [row, trail]) {
    const planned = this.plans.get(key);
    this.is(this.told(() => this.master.settle(planned, caller)), [row, trail]);
    this.is(planned.closed, true, "the plan is gone");
    this.follow(row, start, operations, false);
  }
  wrongTrigger(given, [name, ...numbers]) {
    const [cycle, slots, window] = given ?? [];
    const frames = given ? this.fttcan.frames.encode({ cycle, slots, window }, this.rules.slots) : [];
    const fault = this.raised(() => this.standby.trigger(...frames));
    const found = { NoTrigger: ["cycle"], OtherFlags: ["cycle", "heard", "planned"], OtherWindow: ["heard", "needed"] };
    this.is([fault?.name, ...(found[fault?.name] ?? []).map(it => fault[it])], [name, ...numbers]);
    this.is(this.standby.next, this.next, "it is as before");
  }
  copy() {
    this.table = this.table.copy();
    this.is(this.table.next, this.next);
  }
  frame([identifier, data, number, length], [bits, payload]) {
    const { frames } = this.fttcan, given = bytes(data);
    const wire = frames.wireBits(identifier, given);
    this.is([frames.wireLength(identifier, given), wire.length], [bits, bits]);
    this.is(frames.readWire(wire), { identifier, data: given });
    this.is(hex(frames.payload(number, length)), payload);
  }
  refusedCaller(caller) {
    this.is(this.raised(() => this.master.look(caller)).name, "OutOfRange");
  }
  end() {
    for (const it of [this.master, this.standby, ...this.left, ...this.snapshots.values(), ...this.plans.values()]) it?.close();
  }
}
const CALLS = {
  submit: "submit", open: "open", planned: "planned", next: "nextOf", table: "tableOf", certificate: "certificate", saved: "saved", "take over": "takeOver",
  snapshot: "snapshot", plan: "plan", settle: "settle", "wrong trigger": "wrongTrigger", copy: "copy", frame: "frame", "refused caller": "refusedCaller",
};

/** Plays sessions, a line of JSON each: how many there were, how many answers were compared, and what differs. `limit` is how many
 * differences are kept. At the end nothing may be held. */
export function sessions(module, fttcan, text, limit = 10) {
  const wrong = [], before = fttcan.held;
  let many = 0, calls = 0;
  for (const line of text.split("\n").filter(Boolean)) {
    const told = JSON.parse(line), session = new Session(module, fttcan, told, said => wrong.push(`session ${many}: ${said}`));
    for (const [word, given, wanted] of told.calls) {
      session.what = word;
      try {
        session[CALLS[word]](given, wanted);
      } catch (fault) {
        wrong.push(`session ${many}: ${word}: ${fault.stack ?? fault}`);
      }
      if (wrong.length > limit) return { many, calls, wrong };
    }
    session.end();
    calls += session.calls;
    many++;
  }
  if (fttcan.held !== before) wrong.push(`${fttcan.held - before} bytes are held at the end`);
  return { many, calls, wrong };
}

/** Plays commands: each has words, files by their names in hexadecimal, and the output and the status that it must have. */
export function commands(fttcan, list) {
  const wrong = [];
  for (const { name, words, files, output, status } of list) {
    const given = Object.fromEntries(Object.entries(files).map(([file, text]) => [file, bytes(text)]));
    const answer = fttcan.run(words, given), found = hex(answer.output);
    if (answer.status !== status || found !== output) wrong.push(`${name}: status ${answer.status}, ${found.length / 2} bytes for ${output.length / 2}; ${answer.said}`);
    if (output.length > 0) {
      const cut = fttcan.run(words, given, output.length / 2 - 1);
      if (cut.status !== 5 || !output.startsWith(hex(cut.output))) wrong.push(`${name}: with too little room the status is ${cut.status}`);
    }
    if (words[0] === "audit") {
      const [system, steps, log, requests = new Uint8Array(0)] = words.slice(1).map(word => given[word]);
      const audit = fttcan.audit(system, steps, log, requests), line = new TextDecoder().decode(bytes(output));
      const told = { yes: "yes\n", row: `no,row,${audit.row}\n`, unfinished: "no,unfinished\n" };
      if (line !== told[audit.verdict]) wrong.push(`${name}: the audit is ${audit.verdict} ${audit.row}, and not ${line}`);
    }
  }
  return { many: list.length, wrong };
}

/** Masters that another machine saved, each with the cycles that it opens from there on, and its bytes after them: restored
 * here, they do the same; and what is saved here after each cycle, in hexadecimal. */
export function states(fttcan, list) {
  const wrong = [];
  let cycles = 0;
  for (const [place, { saved, opened, after }] of list.entries()) {
    const master = fttcan.Master.restore(bytes(saved));
    for (const wanted of opened) {
      const { cycle, slots, window } = master.open();
      if (!same([cycle, slots, window], wanted)) wrong.push(`state ${place}: ${JSON.stringify([cycle, slots, window])}, wanted ${JSON.stringify(wanted)}`);
      cycles++;
    }
    if (hex(master.save()) !== after) wrong.push(`state ${place}: what is saved after ${opened.length} cycles differs`);
    master.close();
  }
  return { many: list.length, cycles, wrong };
}

/** Plays sessions up to their first saving, and saves: what another machine may restore. */
export function savedBy(fttcan, text, many) {
  return text.split("\n").filter(Boolean).slice(0, many).map(line => {
    const { rules, calls } = JSON.parse(line), master = new fttcan.Master(rules);
    for (const [word, given] of calls) {
      if (word === "open") master.open();
      if (word === "submit") {
        try {
          master.submit(...given);
        } catch { /* a refusal changes nothing */ }
      }
    }
    const saved = hex(master.save()), opened = [];
    for (let count = 0; count < LEAST_OFFSET; count++) {
      const { cycle, slots, window } = master.open();
      opened.push([cycle, slots, window]);
    }
    const after = hex(master.save());
    master.close();
    return { saved, opened, after };
  });
}

/** Calls that are refused, each with what it raises: by hand, as library/tests/calls_*.c have them. */
export function judged(module, fttcan) {
  const wrong = [], { add, change, remove } = module, rules = { window: 135, nodes: 1 };
  let many = 0;
  const entry = { slot: 5, node: 1, length: 8, period: 2, deadline: 1 }, full = slot => ({ entry: { slot, node: 0, length: 8, period: 1, deadline: 1 }, origin: 0 });
  const text = "fttcan plan 2\nfrom 0\npending 0000000000\nfirst 0\nlength 1\n0000000001 1\nend\n";
  const told = call => {
    try {
      const value = call();
      return value?.row ?? JSON.stringify(value);
    } catch (fault) {
      return `${fault.name}${fault.place !== undefined ? ` ${fault.place}` : ""}${fault.row ? `: ${fault.row}` : ""}`;
    }
  };
  const is = (name, call, wanted) => {
    many++;
    const found = told(call);
    if (found !== wanted) wrong.push(`${name}: ${found}, wanted ${wanted}`);
  };
  const { Master, Standby, Table, frames } = fttcan, layout = (cycle, turnaround, window, slots = 40) => ({ cycle, turnaround, window, slots });
  const frame = { identifier: 1, data: new Uint8Array(8) };
  // What is refused before the library is asked.
  is("a slot above a byte", () => new Table(rules).submit(0, remove(256)), "OutOfRange");
  is("a negative phase", () => new Table(rules).submit(0, add({ ...entry, phase: -1 })), "OutOfRange");
  is("a part of a cycle", () => new Table(rules).submit(0.5, add(entry)), "OutOfRange");
  is("a start of 2^53", () => new Table(rules).submit(2 ** 53, add(entry)), "OutOfRange");
  is("a start of 2^64", () => new Table(rules).submit(1n << 64n, add(entry)), "OutOfRange");
  is("a start of 2^40, as a BigInt", () => new Table(rules).submit(1n << 40n, add(entry)), "Malformed: malformed,0,3");
  is("a start of 2^64 - 1", () => new Table(rules).submit((1n << 64n) - 1n, add(entry)), "Malformed: malformed,0,3");
  is("a policy", () => new Master({ ...rules, policy: "fifo" }), "OutOfRange");
  is("no window", () => new Master({ nodes: 5 }), "OutOfRange");
  is("no kind", () => new Table(rules).submit(0, { ...entry }), "OutOfRange");
  is("slot 96 of a set", () => frames.encode({ cycle: 0, slots: [96], window: 0 }, 96), "OutOfRange");
  is("nine bytes of a frame", () => frames.decode([{ identifier: 0, data: new Uint8Array(9) }]), "OutOfRange");
  is("a byte of 256", () => frames.wireLength(0, [256]), "OutOfRange");
  is("nine bytes of a payload", () => frames.payload(0, 9), "OutOfRange");
  is("a set of slots", () => module.slotsOf(module.maskText([95, 0, 40])), "[0,40,95]");
  is("a set of low slots", () => module.maskText([39, 0]), '"8000000001"');
  is("a text that is no set", () => module.slotsOf("0000000g01"), "OutOfRange");
  // What the library refuses.
  is("a window of 54", () => new Master({ window: 54, nodes: 5 }), "OutOfRange");
  is("41 slots", () => new Standby({ window: 540, nodes: 5, slots: 41 }), "OutOfRange");
  is("no operation", () => new Table(rules).submit(0, []), "Malformed: malformed,0,1");
  is("17 operations", () => new Table(rules).submit(0, Array.from({ length: 17 }, (_, slot) => remove(slot))), "Malformed: malformed,16,2");
  is("no such entry", () => new Table(rules).submit(0, [change({ ...entry, node: 0 })]), "Malformed: malformed,0,11");
  is("two live entries of a slot", () => new Table(rules, [full(0), full(0)]).submit(0, remove(0)), "BadTable");
  is("a cycle that is none", () => new Table(rules, [], 1n << 50n).open(), "BadState");
  is("a pending slot without an instance", () => new Table(rules, [], 0, [5]).open(), "BadState");
  is("a table that misses", () => new Table(rules, [full(0), full(1)]).open(), "WouldMiss");
  is("a plan that keeps its table", () => fttcan.check([full(0)], 135, text), "null");
  is("a plan that misses", () => fttcan.check([full(0)], 135, text.replace("01 1", "00 1")), "no,missed,0,0,0");
  is("a plan with a strange slot", () => fttcan.check([full(0)], 135, text.replace("01 1", "03 1")), "no,notreleased,0,1");
  is("a plan that is too wide", () => fttcan.check([full(0)], 134, text), "no,toowide,0,135");
  is("a plan without its end", () => fttcan.check([full(0)], 135, text.slice(0, -4)), "BadText 7");
  is("a plan with a blank", () => fttcan.check([full(0)], 135, text.replace("length 1", "length 1 ")), "BadText 5");
  is("a plan of a table that is none", () => fttcan.check([full(0), full(0)], 135, text), "BadTable");
  is("six equal bits", () => frames.readWire(new Uint8Array(50)), "BadText 5");
  is("a bit that is none", () => frames.readWire([2]), "OutOfRange");
  is("an identifier of 0x7F0", () => frames.wireLength(0x7F0), "OutOfRange");
  is("a trigger without frames", () => frames.decode([]), "BadText null");
  is("a trigger of another frame", () => frames.decode([frame]), "BadText null");
  is("a trigger of 41 slots", () => frames.decode([frame], 41), "OutOfRange");
  is("a flag above 39", () => frames.encode({ cycle: 0, slots: [40], window: 0 }), "OutOfRange");
  is("a window of 16,384", () => frames.encode({ cycle: 0, slots: [], window: 16384 }), "OutOfRange");
  is("a cycle of 399", () => frames.fits(layout(399, 0, 55), 0, 0, 0), "OutOfRange");
  // 1,000 bit times, of which 135 are the trigger's, 30 the turnaround and 135 the window: a frame of 8 bytes takes 135.
  is("an asynchronous frame that fits", () => [164, 165, 730, 731].map(at => frames.fits(layout(1000, 30, 135), at, 8, 135)), "[false,true,true,false]");
  // Bounds, as library/tests/calls_bounds.c has them.
  const stream = (identifier, length, gap, burst) => ({ identifier, length, gap, burst });
  const three = [stream(0x200, 8, 3000), stream(0x201, 0, 3542), stream(0x202, 8, 1458)];
  is("the bound of one stream", () => fttcan.asyncBound(layout(1000, 30, 135), [stream(0x200, 8, 10000)]), '[{"start":569,"end":704}]');
  is("the bounds of three", () => fttcan.asyncBound(layout(1000, 30, 135), three), '[{"start":569,"end":704},{"start":704,"end":759},{"start":759,"end":894}]');
  is("the bounds in a narrow cycle", () => fttcan.asyncBound(layout(729, 30, 270), three), '[{"start":704,"end":839},{"start":839,"end":894},null]');
  is("the bound of a burst", () => fttcan.asyncBound(layout(1000, 30, 135), [stream(0x300, 8, 20000, 6)]), '[{"start":1678,"end":1813}]');
  is("no streams", () => fttcan.asyncBound(layout(1000, 30, 135), []), "[]");
  is("a synchronous identifier", () => fttcan.asyncBound(layout(1000, 30, 135), [stream(0x1FF, 8, 9)]), "OutOfRange");
  is("2,049 streams", () => fttcan.asyncBound(layout(1000, 30, 135), Array(2049).fill(three[0])), "OutOfRange");
  // What is closed.
  const before = fttcan.held, master = new Master({ window: 540, nodes: 5 }), standby = new Standby({ window: 540, nodes: 5 });
  const snapshot = master.snapshot(), used = master.snapshot(), planned = used.plan(0, remove(3)), other = new Master({ window: 540, nodes: 5 });
  is("a plan of a change that is malformed", () => planned.verdict, "malformed,0,11");
  is("a snapshot that is used", () => used.closed, "true");
  const plan = other.snapshot();
  const kept = plan.plan(4, add(entry));
  for (const it of [master, standby, snapshot, planned]) {
    it.close();
    it.close();
    is("closed twice", () => it.closed, "true");
  }
  const closed = {
    submit: () => master.submit(0, remove(0)), open: () => master.open(), look: () => master.look(), next: () => master.next, rules: () => master.rules,
    planned: () => master.planned(), table: () => master.table(), save: () => master.save(), certificate: () => master.certificate(),
    snapshot: () => master.snapshot(), settle: () => other.settle(planned), "settle by it": () => master.settle(kept), change: () => standby.change(0, remove(0)),
    trigger: () => standby.trigger(), "next of a standby": () => standby.next, "take over": () => standby.takeOver(),
    plan: () => snapshot.plan(0, remove(0)), "plan of one that is used": () => used.plan(0, remove(0)), verdict: () => planned.verdict,
  };
  for (const [name, call] of Object.entries(closed)) is(`${name} of what is closed`, call, "Closed");
  for (const caller of [0, 9]) is(`a plan that is settled for caller ${caller}`, () => other.settle(kept, caller), "OutOfRange");
  is("the plan stays", () => kept.closed, "false");
  is("it is settled by its master", () => other.settle(kept), "accepted,4,2");
  other.close();
  if (fttcan.hasCommands) {
    is("five files", () => fttcan.run(["gen"], ["", "", "", "", ""]), "OutOfRange");
    is("a word with a byte 0", () => fttcan.run(["ge\0n"]), "OutOfRange");
    is("words of no command", () => fttcan.run(["no-such-command"]).status, "2");
    is("an audit of nothing", () => fttcan.audit("", "", ""), "BadText null");
  } else {
    is("a module without commands", () => fttcan.run(["gen"]), "LibraryUnfit");
  }
  is("nothing is held at the end", () => fttcan.held - before, "0");
  return { many, wrong };
}

/** Memory refused: each call is made with as many bytes as are held, and then with 32 more each time, until it has enough.
 * It raises MemoryRanOut up to there, and nothing has changed; then it answers as with ample memory. */
export function refused(module, fttcan) {
  const wrong = [], { add, remove } = module, rules = { window: 540, nodes: 5 }, periods = [2, 3, 4, 5, 6, 8];
  const first = new fttcan.Master(rules), most = 2 ** 32 - 1;
  for (let slot = 0; slot < 12; slot++) first.submit(0, add({ slot, node: slot % 5, length: slot % 9, period: periods[slot % 6], deadline: periods[slot % 6], priority: slot }));
  const saved = first.save(), more = add({ slot: 20, node: 1, length: 8, period: 7, deadline: 7 }), late = add({ slot: 21, node: 1, length: 8, period: 2, deadline: 1 });
  const text = first.certificate(), table = first.table();
  const calls = {
    new: () => new fttcan.Master(rules).close(),
    restore: () => fttcan.Master.restore(saved).close(),
    submit: master => master.submit(0, more).row,
    "submit a miss": master => {
      try {
        return master.submit(0, Array.from({ length: 8 }, (_, at) => ({ ...late, slot: 22 + at }))).row;
      } catch (fault) {
        if (fault instanceof module.Refused) return fault.row;
        throw fault;
      }
    },
    remove: master => master.submit(0, remove(3)).row,
    open: master => master.open().slots.length,
    table: master => master.table().length,
    certificate: master => master.certificate(),
    save: master => master.save().length,
    snapshot: master => master.snapshot().close(),
    plan: master => {
      const snapshot = master.snapshot();
      try {
        const planned = snapshot.plan(0, more), { row } = planned.verdict;
        planned.close();
        return row;
      } finally {
        snapshot.close();
      }
    },
    check: () => fttcan.check(table, 540, text),
    decide: () => new fttcan.Table(rules, table).submit(0, more).row,
    wire: () => fttcan.frames.wireBits(0x123, [1, 2, 3]).length,
    bound: () => fttcan.asyncBound({ cycle: 2500, turnaround: 30, window: 540 }, [{ identifier: 0x200, length: 8, gap: 9000 }]),
  };
  let many = 0;
  for (const [name, call] of Object.entries(calls)) {
    fttcan.limit(most);
    let master = fttcan.Master.restore(saved);
    const wanted = JSON.stringify(call(master));
    master.close();
    for (let bytes = 0, isDone = false; !isDone; bytes += 32) {
      fttcan.limit(most);
      master = fttcan.Master.restore(saved);
      const before = fttcan.held;
      fttcan.limit(before + bytes);
      try {
        const found = JSON.stringify(call(master));
        isDone = true;
        if (found !== wanted) wrong.push(`${name}: ${found} with ${bytes} bytes, wanted ${wanted}`);
        if (bytes === 0 && name !== "open") wrong.push(`${name}: nothing was refused`);
      } catch (fault) {
        many++;
        fttcan.limit(most);
        if (fault.name !== "MemoryRanOut") wrong.push(`${name}: ${fault.name} with ${bytes} bytes: ${fault.message}`);
        if (fttcan.held !== before) wrong.push(`${name}: ${fttcan.held - before} bytes are left with ${bytes}`);
        if (!same(master.save(), saved)) wrong.push(`${name}: the master is another one with ${bytes} bytes`);
        if (wrong.length > 5 || bytes > 1 << 20) isDone = true;
      }
      fttcan.limit(most);
      master.close();
    }
  }
  first.close();
  return { many, wrong };
}

/** A node in a cycle of 2,500 bit times with a turnaround of 20, worked out by hand; and changes on the wire. */
export function nodes(module, fttcan) {
  const wrong = [], { add, remove } = module, before = fttcan.held, layout = { cycle: 2500, turnaround: 20, window: 540 };
  let many = 0;
  const is = (name, found, wanted) => {
    many++;
    if (!same(found, wanted)) wrong.push(`${name}: ${JSON.stringify(found)}, wanted ${JSON.stringify(wanted)}`);
  };
  const raised = call => {
    try {
      return call();
    } catch (fault) {
      return fault.name;
    }
  };
  const five = { slot: 5, node: 1, length: 8, period: 2, deadline: 1, phase: 0, priority: 0 };
  const master = new fttcan.Master({ window: 540, nodes: 5 });
  master.submit(0, [add(five), add({ slot: 7, node: 2, length: 0, period: 1, deadline: 1 })]);
  const node = new fttcan.Node(layout, { number: 1, owners: { 0x210: 1, 0x220: 2 }, room: 2, entries: 4 });
  is("a trigger before goTo", node.trigger({ identifier: 0, data: new Uint8Array(8) }), "notTaken");
  node.goTo(0);
  node.learn(master.table());
  is("a request of another node", raised(() => node.put({ identifier: 0x220 })), "OutOfRange");
  is("room for two requests", [[1], [2], [3]].map(data => node.put({ identifier: 0x210, data })), [true, true, false]);
  is("two wait", node.waiting(0x210), 2);
  const [trigger] = fttcan.frames.encode(master.open());
  is("the trigger", node.trigger(trigger), "opened");
  // Slot 5 takes 135 bit times, and slot 7 takes 55.
  is("the open cycle", node.opened, { cycle: 0, slots: [5, 7], window: 190 });
  is("what it owes", node.due(), [5]);
  is("the trigger again", node.trigger(trigger), "again");
  is("another frame", node.trigger({ identifier: 0x300 }), "other");
  is("the next cycle", node.next, 1);
  // Asynchronous frames start from 135 + 20 on, and end before 2500 - 190. One of a byte takes 65 at most.
  is("nothing is offered too early", [node.offer(154), node.wake(0)], [null, 155]);
  is("a request is offered", node.offer(155), { identifier: 0x210, until: 2500 - 190 - 65 });
  is("nothing is offered too late", node.offer(2500 - 190 - 64), null);
  const loaded = node.load(155, 0x210);
  is("it is loaded", [loaded.frame.identifier, [...loaded.frame.data], loaded.users, loaded.ticket.number], [0x210, [1], true, 0]);
  is("what is in flight is not offered", node.offer(200), null);
  is("it is sent once", [node.sent(loaded.ticket), node.sent(loaded.ticket), node.waiting(0x210)], [true, false, 1]);
  is("the other one is dropped", [node.drop(0x210), node.drop(0x210)], [true, false]);
  // The window begins at 2500 - 190.
  const due = node.slotDue(5);
  is("when slot 5 is due", [due.start, due.loaded, due.users], [2310, false, false]);
  is("a slot of another node", [node.slotDue(7), node.slotFrame(7)], [null, null]);
  node.set(5, [8, 7, 6, 5, 4, 3, 2, 1]);
  is("its bytes are set", [node.slotDue(5).users, [...node.slotFrame(5).data], [...node.frame(2310, 0x105).data]], [true, [8, 7, 6, 5, 4, 3, 2, 1], [8, 7, 6, 5, 4, 3, 2, 1]]);
  const first = node.load(2310, 0x105);
  is("it is withdrawn once", [node.withdrawn(first.ticket), node.withdrawn(first.ticket)], [true, false]);
  is("it is offered again, and sent", [node.sent(node.load(2311, 0x105).ticket), node.due()], [true, []]);
  is("number 30", raised(() => new fttcan.Node(layout, { number: 30 })), "OutOfRange");
  const small = new fttcan.Node(layout, { number: 1, entries: 0 });
  is("no room for an entry", raised(() => small.learn(master.table())), "Full");
  is("a table without a plan", fttcan.apply([], 0, add(five)), [{ entry: five, origin: 0, end: null }]);
  is("a change that breaks a rule", raised(() => fttcan.apply([], 3, remove(9))), "NotAccepted");
  const { changes } = fttcan, collector = new changes.Collector(8), operations = [add({ ...five, phase: 1, priority: 3 }), remove(7)];
  const heard = frames => frames.reduce((told, frame) => collector.hear(frame) ?? told, null);
  is("a change on the wire, in another order", heard(changes.encodeChange(0x300, 9, 1234567, operations).reverse()), { kind: "change", number: 9, start: 1234567, operations });
  is("a table on the wire", heard(changes.encodeTable(0x301, 9, master.table())), { kind: "table", number: 9, table: master.table() });
  is("a change that lost a frame", heard(changes.encodeChange(0x300, 10, 0, operations).slice(1)), null);
  is("a reserve", [fttcan.reserve(1), fttcan.reserve(2, 0), fttcan.errorsWithin(325)], [163, 166, 1]);
  for (const it of [node, small, master]) {
    it.close();
    it.close();
  }
  is("a node that is closed", raised(() => node.next), "Closed");
  is("nothing is held at the end", fttcan.held - before, 0);
  return { many, wrong };
}

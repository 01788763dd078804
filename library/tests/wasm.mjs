// The tests of the library in WebAssembly that node makes: wasm.mjs FOLDER PART [FILE]. It prints one value of JSON. tools/check-wasm
// calls it. FOLDER has fttcan.mjs and both modules, and FILE is what a part reads.
import fs from "node:fs";
import path from "node:path";
import { pathToFileURL } from "node:url";
import { Worker, isMainThread, parentPort, workerData } from "node:worker_threads";
import * as play from "./play.mjs";

const [folder, part, file] = isMainThread ? process.argv.slice(2) : workerData;
const module = await import(pathToFileURL(path.join(folder, "fttcan.mjs")));
const bytesOf = name => fs.readFileSync(path.join(folder, name));
const given = () => fs.readFileSync(file, "utf8");
const both = async call => Object.fromEntries(await Promise.all(["fttcan.wasm", "fttcan-run.wasm"].map(async name => [name, call(await module.load(bytesOf(name)), name)])));

/** The numbers of a module: the start of the stack pointer, the least address of data, and the exports. */
function read(bytes) {
  let at = 8, pointer = null, data = Infinity;
  const number = () => {
    let value = 0, by = 0, byte;
    do {
      byte = bytes[at++];
      value += (byte & 127) * 2 ** by;
      by += 7;
    } while (byte & 128);
    return value;
  };
  while (at < bytes.length) {
    const kind = bytes[at++], size = number(), end = at + size;
    if (kind === 6) {
      // globals: the first one is the stack pointer: i32, variable, i32.const
      number();
      if (bytes[at++] !== 0x7F || bytes[at++] !== 1 || bytes[at++] !== 0x41) throw new Error("the first global is no stack pointer");
      pointer = { at, value: number() };
      pointer.bytes = at - pointer.at;
    } else if (kind === 11) {
      for (let many = number(); many; many--) {
        if (number() !== 0 || bytes[at++] !== 0x41) throw new Error("a segment of another form");
        data = Math.min(data, number());
        if (bytes[at++] !== 0x0B) throw new Error("a segment of another form");
        const length = number();
        at += length;
      }
    }
    at = end;
  }
  return { pointer, data };
}

const PARTS = {
  /** The names of a module: what it needs, what it gives, its version, and whether the stack stands in front of all data. */
  names: () => both((fttcan, name) => {
    const made = new WebAssembly.Module(bytesOf(name)), { pointer, data } = read(bytesOf(name));
    return {
      imports: WebAssembly.Module.imports(made), exports: WebAssembly.Module.exports(made).map(it => it.name), version: fttcan.version.join("."),
      stack: pointer.value, data: data === Infinity ? null : data, bytes: bytesOf(name).length,
    };
  }),
  /** The names of fttcan.mjs: its exports, and the members of its classes and of what a library answers. */
  types: async () => {
    const fttcan = await module.load(bytesOf("fttcan-run.wasm")), found = {};
    const members = it => Object.getOwnPropertyNames(it).filter(name => !(typeof it === "function" ? ["length", "name", "prototype"] : ["constructor", "stack", "message", "name"]).includes(name));
    const rules = { window: 540, nodes: 5 }, master = new fttcan.Master(rules), snapshot = master.snapshot(), planned = master.snapshot().plan(0, module.remove(0));
    const instances = { Master: master, Standby: new fttcan.Standby(rules), Table: new fttcan.Table(rules), Snapshot: snapshot, Planned: planned };
    for (const [name, it] of Object.entries(instances)) {
      found[name] = [...members(Object.getPrototypeOf(it)), ...members(it)];
      if ("close" in it) found.Handle = members(Object.getPrototypeOf(Object.getPrototypeOf(it)));
      found[`static ${name}`] = members(it.constructor);
    }
    // (of a header without nodes there is no node to look at)
    found.Node = members(fttcan.Node.prototype);
    found["static Node"] = members(fttcan.Node);
    found.Changes = members(fttcan.changes);
    found.Collector = members(fttcan.changes.Collector.prototype);
    found["static Collector"] = members(fttcan.changes.Collector);
    found.Frames = members(fttcan.frames);
    found.Library = [...members(module.Library.prototype), ...members(fttcan)];
    const made = {
      BadText: new module.BadText("", 1), Malformed: new module.Malformed(1, 10, 7), Passed: new module.Passed(1, 2), Miss: new module.Miss(1, 2, 3, []),
      Horizon: new module.Horizon(5, 6), NoTrigger: new module.NoTrigger(7), OtherFlags: new module.OtherFlags(1, [2], [3]), OtherWindow: new module.OtherWindow(4, 5),
      Accepted: new module.Accepted(1, 2), Breach: new module.Breach("badloop", { slot: 1 }), Audit: new module.Audit("yes"),
      Answer: new module.Answer(0, new Uint8Array(0), new Uint8Array(0)),
    };
    for (const [name, it] of Object.entries(made)) found[name] = [...members(Object.getPrototypeOf(it)), ...members(it)];
    return { exports: Object.keys(module), members: found };
  },
  sessions: () => both(fttcan => play.sessions(module, fttcan, given())),
  commands: async () => ({ "fttcan-run.wasm": play.commands(await module.load(bytesOf("fttcan-run.wasm")), JSON.parse(given())) }),
  nodes: () => both(fttcan => play.nodes(module, fttcan)),
  judged: () => both(fttcan => play.judged(module, fttcan)),
  refused: () => both(fttcan => play.refused(module, fttcan)),
  states: () => both(fttcan => play.states(fttcan, JSON.parse(given()))),
  /** What masters here save: for another machine. */
  saved: async () => play.savedBy(await module.load(bytesOf("fttcan.wasm")), given(), 1000),
  /** The calls that all these parts make, by their names. */
  calls: async () => {
    const made = new Set(), { instance } = await WebAssembly.instantiate(bytesOf("fttcan-run.wasm"), {});
    const counted = Object.entries(instance.exports).map(([name, it]) => [name, typeof it !== "function" ? it : (...words) => {
      made.add(name);
      return it(...words);
    }]);
    const fttcan = new module.Library({ exports: Object.fromEntries(counted) });
    const { sessions, commands } = JSON.parse(given());
    const told = [play.sessions(module, fttcan, sessions), play.commands(fttcan, commands), play.judged(module, fttcan), ...("fttcan_node_new" in instance.exports ? [play.nodes(module, fttcan)] : [])];
    // (with a reserve of 0 other calls are made)
    if ("fttcan_trigger_encode_reserved" in instance.exports) {
      const standby = new fttcan.Standby({ window: 540, nodes: 5 });
      standby.triggerReserved(163, ...fttcan.frames.encode({ cycle: 0, slots: [], window: 0 }, 40, 163));
      if (standby.next !== 1) told.push({ wrong: ["a trigger with a reserve"] });
    }
    return { made: [...made], wrong: told.flatMap(it => it.wrong) };
  },
  /** With a stack that is too small a call traps, and the library says so in each later call. The bytes of the module are those that
   * are shipped, but for the start of the stack pointer. */
  overflow: async () => {
    const found = {};
    for (const name of ["fttcan.wasm", "fttcan-run.wasm"]) {
      const bytes = Uint8Array.from(bytesOf(name)), { pointer } = read(bytes);
      let value = 512;
      for (let place = 0; place < pointer.bytes; place++) {
        bytes[pointer.at + place] = value & 127 | (place < pointer.bytes - 1 ? 128 : 0);
        value >>= 7;
      }
      const fttcan = await module.load(bytes), raised = [];
      for (const call of [() => new fttcan.Master({ window: 540, nodes: 5 }).submit(0, module.add({ slot: 5, node: 1, length: 8, period: 2, deadline: 1 })),
        () => fttcan.frames.wireBits(1), () => new fttcan.Master({ window: 540, nodes: 5 })]) {
        try {
          call();
          raised.push("nothing");
        } catch (fault) {
          raised.push(fault.name);
        }
      }
      found[name] = raised;
    }
    return found;
  },
  /** The sessions by a worker. */
  worker: () => new Promise((done, failed) => {
    const worker = new Worker(new URL(import.meta.url), { workerData: [folder, "sessions", file] });
    worker.once("message", done);
    worker.once("error", failed);
  }),
  /** What is dropped and not closed is given back: `--expose-gc` has to be set. */
  dropped: async () => {
    const fttcan = await module.load(bytesOf("fttcan.wasm")), before = fttcan.held;
    for (let many = 0; many < 2000; many++) new fttcan.Master({ window: 540, nodes: 5 }).snapshot();
    const most = fttcan.held - before;
    for (let many = 0; many < 20 && fttcan.held > before; many++) {
      globalThis.gc();
      await new Promise(done => setTimeout(done, 20));
    }
    return { most, left: fttcan.held - before };
  },
  /** Modules that are none. */
  unfit: async () => {
    const raised = [];
    for (const source of [new Uint8Array([1, 2, 3]), new WebAssembly.Module(new Uint8Array([0, 0x61, 0x73, 0x6D, 1, 0, 0, 0])), new Uint8Array(0)]) {
      try {
        await module.load(source);
        raised.push("nothing");
      } catch (fault) {
        raised.push(fault.name);
      }
    }
    return raised;
  },
  /** Nanoseconds of an opening with 40 entries, and microseconds of a change. */
  times: async () => {
    const fttcan = await module.load(bytesOf("fttcan.wasm")), master = new fttcan.Master({ window: 3000, nodes: 30 }), periods = [2, 4, 5, 8, 10, 20, 40];
    for (let slot = 0; slot < 40; slot++) master.submit(0, module.add({ slot, node: slot % 30, length: slot % 9, period: periods[slot % 7], deadline: periods[slot % 7], phase: slot % periods[slot % 7], priority: slot }));
    for (let many = 0; many < 100000; many++) master.open();
    let from = performance.now();
    for (let many = 0; many < 200000; many++) master.open();
    const opening = (performance.now() - from) * 5;
    from = performance.now();
    for (let many = 0; many < 1000; many++) {
      master.submit(master.next, module.remove(7));
      for (let cycle = 0; cycle < 12; cycle++) master.open();
      master.submit(master.next, module.add({ slot: 7, node: 7, length: 7, period: 2, deadline: 2, priority: 7 }));
    }
    return { opening, change: (performance.now() - from) / 2 - 6 * opening / 1000 };
  },
};

const told = await PARTS[part]();
if (isMainThread) console.log(JSON.stringify(told));
else parentPort.postMessage(told);

// The worker of the page: it answers jobs by the library. A job is { number, what, .. }; the answer is { number, value } or { number, fault }, and
// before it { number, progress }. The module comes first.
import { Library } from "./fttcan.mjs";
import { planned, remedies, swept, switched } from "./plan.mjs";

// So many milliseconds lie between two tellings of progress.
const TELL = 80;

/** Answers messages of the page, in a worker. */
export function worker(scope) {
  let module = null, fttcan = null;
  /** The library, made anew after a trap or where memory has grown far. */
  const library = () => {
    if (fttcan === null || fttcan.held > 1 << 28) fttcan = new Library(new WebAssembly.Instance(module, {}));
    return fttcan;
  };
  const jobs = {
    plan: ({ model }) => planned(library(), model),
    fit: ({ model }, told) => remedies(library(), model, told),
    change: ({ model, change }) => switched(library(), model, change),
    sweep: ({ model, change, from, count }, told) => swept(library(), model, change, from, count, told),
    run: ({ words, files }) => {
      const { status, output, errors } = library().run(words, files), decoder = new TextDecoder();
      return { status, output: decoder.decode(output), errors: decoder.decode(errors) };
    },
  };
  scope.onmessage = ({ data }) => {
    if (data.module) {
      module = data.module;
      return;
    }
    let last = performance.now();
    const told = done => {
      const now = performance.now();
      if (now - last < TELL) return;
      last = now;
      scope.postMessage({ number: data.number, progress: done ?? null });
    };
    try {
      scope.postMessage({ number: data.number, value: jobs[data.what](data, told) });
    } catch (fault) {
      fttcan = null;
      scope.postMessage({ number: data.number, fault: `${fault.name}: ${fault.message}` });
    }
  };
}

// So many milliseconds what is under way may still take where a newer job of its lane waits: most plans are done until then.
const MOMENT = 400;

/** The page's side: asks workers, one for each lane. Of a lane the newest job counts: what waits is dropped for it, and what is under way too, if
 * it takes longer than a moment. A job that was dropped answers undefined. */
export class Asked {
  #make;
  #lanes = new Map();
  #number = 0;

  /** `make` answers a new worker that has its module. */
  constructor(make) {
    this.#make = make;
  }
  ask(name, job, progress = () => {}) {
    return new Promise((done, failed) => {
      const lane = this.#lanes.get(name) ?? { worker: null, busy: null, waiting: null, timer: 0 };
      this.#lanes.set(name, lane);
      lane.waiting?.done(undefined);
      lane.waiting = { job, progress, done, failed };
      if (!lane.busy) this.#start(lane);
      else {
        clearTimeout(lane.timer);
        lane.timer = setTimeout(() => lane.busy && lane.waiting && (this.#end(lane), this.#start(lane)), Math.max(0, MOMENT - (performance.now() - lane.busy.started)));
      }
    });
  }
  #start(lane) {
    const { job, progress, done, failed } = lane.waiting, number = ++this.#number;
    lane.waiting = null;
    lane.worker ??= this.#make();
    lane.busy = { number, done, started: performance.now() };
    const ended = answer => {
      lane.busy = null;
      clearTimeout(lane.timer);
      answer();
      if (lane.waiting) this.#start(lane);
    };
    lane.worker.onmessage = ({ data }) => {
      if (data.number !== lane.busy?.number) return;
      if ("progress" in data) progress(data.progress);
      else ended(() => ("fault" in data ? failed(new Error(data.fault)) : done(lane.waiting ? undefined : data.value)));
    };
    lane.worker.onerror = fault => {
      lane.worker = null;
      ended(() => failed(new Error(fault.message || "the worker could not be started")));
    };
    lane.worker.postMessage({ number, ...job });
  }
  /** Ends the worker of a lane, and what is under way there. */
  #end(lane) {
    lane.worker.terminate();
    lane.worker = null;
    lane.busy.done(undefined);
    lane.busy = null;
  }
  /** Drops what is under way on a lane, and what waits. */
  stop(name) {
    const lane = this.#lanes.get(name);
    if (!lane?.busy) return;
    clearTimeout(lane.timer);
    lane.waiting?.done(undefined);
    lane.waiting = null;
    this.#end(lane);
  }
}

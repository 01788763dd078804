// The page: a design that is typed, what the planner says of it, and files in and out.
import { add, change, remove, slotsOf } from "./fttcan.mjs";
import { FIELDS, Fraction, LIMITS, Mistake, TRIGGER, columnOf, commonPeriod, csvOf, decimal, filesOf, listOf, modelOf, rowsOf, separatorOf, timeText, worst } from "./model.mjs";
import { listOfDbc } from "./dbc.mjs";
import { Cycles, framesIn, slotsIn } from "./plan.mjs";
import { LONGEST, archiveOf, designOf, kindOf, logOf, whyNoText } from "./others.mjs";
import { Asked, worker } from "./work.mjs";

const $ = id => document.getElementById(id), SVG = "http://www.w3.org/2000/svg";
const BUS = [["kbits", "Bit rate, kbit/s"], ["cycle", "Cycle, µs"], ["turnaround", "Turnaround, bit times"], ["window", "Window, bit times"], ["policy", "Policy", ["rm", "dm", "edf"]], ["fill", "Filling", ["prefix", "skip"]], ["slots", "Slots", ["40", "96"]], ["horizon", "Horizon, cycles"]];
const WORDS = { rm: "rm: shortest period first", dm: "dm: shortest deadline first", edf: "edf: earliest deadline first", prefix: "prefix: ends at the first that does not fit", skip: "skip: passes over it" };
const HEADS = { name: "Name", sender: "Sender", length: "Bytes", period: "Period", deadline: "Deadline", offset: "Offset", id: "Identifier", kind: "Kind", priority: "Priority" };
const KINDS = ["sync", "polled", "async"], CHANGE_FIELDS = ["op", "name", "sender", "length", "period", "deadline", "offset", "priority"];
const NO_ROW = Object.fromEntries(FIELDS.map(name => [name, ""])), NO_CHANGE = { op: "add", name: "", sender: "", length: "8", period: "", deadline: "", offset: "", priority: "" };
const USUAL_BUS = { kbits: "500", cycle: "5000", turnaround: "0", window: "", policy: "dm", fill: "prefix", slots: "40", horizon: "10000" };
const EXAMPLE = "name,sender,length,period,deadline\nwheel-speed,front-axle,8,5,\nsteering-angle,steering,4,10,\nmotor-torque,motor,6,10,5\nbrake-request,pedal,2,7,\nbattery,battery,1,100,\n";
const MOST_UNDONE = 500, MOST_ROWS = 400;

/** An element with attributes and children. A function is a listener, and true and false are attributes that are there or not. */
function el(tag, given = {}, ...children) {
  const it = given.svg ? document.createElementNS(SVG, tag) : document.createElement(tag);
  for (const [name, value] of Object.entries(given)) {
    if (name === "svg") continue;
    if (typeof value === "function") it.addEventListener(name, value);
    else if (typeof value === "boolean") it.toggleAttribute(name, value);
    else if (name === "value") it.value = value;
    else it.setAttribute(name, value);
  }
  it.append(...children.filter(child => child !== null));
  return it;
}
const svg = (tag, given, ...children) => el(tag, { ...given, svg: true }, ...children);
const many = (number, word) => `${number.toLocaleString("en")} ${word}${number === 1 ? "" : "s"}`;

/** The page, as it is used. `bytes` are those of the module. */
export async function page(bytes, code) {
  const compiled = await WebAssembly.compile(bytes);
  const address = URL.createObjectURL(new Blob([code], { type: "text/javascript" }));
  const asked = new Asked(() => {
    const made = new Worker(address);
    made.postMessage({ module: compiled });
    return made;
  });
  let design = { rows: [], bus: { ...USUAL_BUS }, change: { at: "0", ahead: "2", operator: "1", rows: [] } };
  let undone = [], done = [], last = null, sort = null, model = null, plan = null, view = { from: 0, count: Math.max(6, Math.min(24, Math.floor(innerWidth / 45))), shown: null }, held = {}, mistakes = [], point = null;

  // The design, its earlier forms, and the address ---------------------------------------------------------------------
  const text = () => JSON.stringify(design);
  /** Takes another design. Edits of the same field, one after the other, are undone together. */
  function put(next, field = null) {
    const before = text();
    design = next;
    if (text() === before) return;
    if (field === null || field !== last) done.push(before);
    if (done.length > MOST_UNDONE) done.shift();
    last = field;
    undone = [];
    changed();
  }
  const withRows = rows => ({ ...design, rows });
  function back(from, to) {
    if (!from.length) return;
    to.push(text());
    design = JSON.parse(from.pop());
    last = null;
    tables();
    changed();
  }
  const isDesign = it => it && Array.isArray(it.rows) && it.rows.length <= MOST_ROWS && it.rows.every(row => row && FIELDS.every(name => typeof row[name] === "string")) && it.bus && BUS.every(([name]) => typeof it.bus[name] === "string");
  /** A design of a file or of the address: only what a design has is taken. */
  function taken(it) {
    if (!isDesign(it)) throw new Error("this is no design of the desk.");
    const pick = (names, from, usual) => Object.fromEntries(names.map(name => [name, typeof from?.[name] === "string" ? from[name] : usual[name]]));
    const rows = Array.isArray(it.change?.rows) ? it.change.rows.slice(0, 16).map(row => pick(CHANGE_FIELDS, row, NO_CHANGE)) : [];
    return { rows: it.rows.map(row => pick(FIELDS, row, NO_ROW)), bus: pick(BUS.map(([name]) => name), it.bus, USUAL_BUS), change: { ...pick(["at", "ahead", "operator"], it.change, { at: "0", ahead: "2", operator: "1" }), rows } };
  }
  const packed = () => `#${encodeURIComponent(text())}`;

  // Tables -------------------------------------------------------------------------------------------------------------
  function busFields() {
    $("bus").replaceChildren(...BUS.map(([name, label, choices]) => {
      const set = event => put({ ...design, bus: { ...design.bus, [name]: event.target.value } }, `bus ${name}`);
      const field = choices ? el("select", { id: `bus-${name}`, input: set }, ...choices.map(it => el("option", { value: it }, WORDS[it] ?? it))) : el("input", { id: `bus-${name}`, input: set, inputmode: "decimal", autocomplete: "off" });
      field.value = design.bus[name];
      return el("label", {}, label, field, el("small", { id: `told-${name}` }));
    }));
  }
  const order = () => {
    const places = design.rows.map((_, at) => at);
    if (!sort) return places;
    const key = at => (["name", "sender", "kind"].includes(sort.name) ? design.rows[at][sort.name] : design.rows[at][sort.name] === "" ? -1 : Number(timeText(design.rows[at][sort.name])));
    return places.sort((one, two) => (key(one) < key(two) ? -1 : key(one) > key(two) ? 1 : one - two) * (sort.isDown ? -1 : 1));
  };
  function messageTable() {
    const head = el("tr", {}, el("th", { scope: "col" }, "Slot"), ...FIELDS.map(name => el("th", { scope: "col", "aria-sort": sort?.name === name ? (sort.isDown ? "descending" : "ascending") : "none" }, el("button", {
      type: "button", id: `sort-${name}`, click: () => {
        sort = sort?.name !== name ? { name, isDown: false } : sort.isDown ? null : { name, isDown: true };
        messageTable();
        shown();
      },
    }, `${HEADS[name]}${sort?.name === name ? (sort.isDown ? " ▾" : " ▴") : ""}`))), el("th", { scope: "col" }, "At worst"), el("th"));
    $("messages").tHead.replaceChildren(head);
    $("messages").tBodies[0].replaceChildren(...order().map(at => {
      const row = design.rows[at];
      return el("tr", { "data-at": at }, el("td", { class: "slot" }), ...FIELDS.map(name => {
        const label = `${HEADS[name]} of message ${at + 1}`, set = event => put(withRows(design.rows.map((it, place) => (place === at ? { ...it, [name]: TIME_FIELDS.has(name) ? event.target.value.replace(",", ".") : event.target.value } : it))), `row ${at} ${name}`);
        const field = name === "kind" ? el("select", { "aria-label": label, input: set }, ...KINDS.map(it => el("option", { value: it }, it))) : el("input", { "aria-label": label, input: set, autocomplete: "off", spellcheck: "false" });
        field.value = name === "kind" ? row.kind || "sync" : row[name];
        field.dataset.field = name;
        return el("td", { class: name }, field);
      }), el("td", { class: "worst" }), el("td", {}, el("button", {
        type: "button", class: "remove", "aria-label": `Remove message ${at + 1}`, click: () => {
          put(withRows(design.rows.filter((_, place) => place !== at)));
          messageTable();
          shown();
        },
      }, "×")));
    }));
  }
  function changeTable() {
    const { rows } = design.change, set = (at, name) => event => put({ ...design, change: { ...design.change, rows: rows.map((it, place) => (place === at ? { ...design.change.rows[at], [name]: event.target.value } : design.change.rows[place])) } }, `change ${at} ${name}`);
    $("change").tHead.replaceChildren(el("tr", {}, ...[["op", "Operation"], ...Object.entries(HEADS).filter(([name]) => CHANGE_FIELDS.includes(name))].map(([, label]) => el("th", { scope: "col" }, label)), el("th")));
    $("change").tBodies[0].replaceChildren(...rows.map((row, at) => el("tr", {}, ...CHANGE_FIELDS.map(name => {
      const label = `${name === "op" ? "Operation" : HEADS[name]} of operation ${at + 1}`;
      const field = name === "op" ? el("select", { "aria-label": label, input: event => {
        set(at, name)(event);
        changeTable();
      } }, ...["add", "remove", "change"].map(it => el("option", { value: it }, it))) : el("input", { "aria-label": label, input: set(at, name), autocomplete: "off", disabled: row.op === "remove" && name !== "name" });
      field.value = row[name];
      field.dataset.field = name;
      return el("td", { class: name }, field);
    }), el("td", {}, el("button", {
      type: "button", class: "remove", "aria-label": `Remove operation ${at + 1}`, click: () => {
        put({ ...design, change: { ...design.change, rows: design.change.rows.filter((_, place) => place !== at) } });
        changeTable();
      },
    }, "×")))));
    for (const name of ["at", "ahead", "operator"]) $(name).value = design.change[name];
  }
  function tables() {
    busFields();
    messageTable();
    changeTable();
  }

  // What follows from an edit ------------------------------------------------------------------------------------------
  let turn = 0;
  async function changed() {
    const own = ++turn;
    // (a design with other rows has another table, before anything is marked in it)
    if ($("messages").tBodies[0].rows.length !== design.rows.length) messageTable();
    $("undo").disabled = !done.length;
    $("redo").disabled = !undone.length;
    clearTimeout(changed.later);
    changed.later = setTimeout(() => history.replaceState(null, "", packed().length < 60000 ? packed() : "#"), 300);
    $("remedies").replaceChildren();
    asked.stop("fit");
    asked.stop("sweep");
    mistakes = [];
    model = null;
    try {
      model = modelOf(design.rows.map((row, at) => ({ ...row, line: at + 1 })), design.bus);
    } catch (fault) {
      if (!(fault instanceof Mistake)) throw fault;
      mistakes = fault.lines;
    }
    shown();
    if (model === null) {
      plan = null;
      asked.stop("plan");
      working("plan", null);
      verdictShown();
      return;
    }
    const slow = setTimeout(() => working("plan", `Planning up to ${many(model?.horizon ?? 0, "cycle")} ..`), 150);
    try {
      const found = await asked.ask("plan", { what: "plan", model: plain(model) });
      if (own !== turn || found === undefined) return;
      plan = found;
    } catch (fault) {
      if (own !== turn) return;
      plan = null;
      $("verdict").textContent = `The planner ended: ${fault.message}`;
      return;
    } finally {
      clearTimeout(slow);
      if (own === turn) working("plan", null);
    }
    shownNow(null);
    verdictShown();
    changeAsked();
  }
  /** A model as it goes to the worker: numbers alone. */
  const plain = it => ({
    window: it.window, horizon: it.horizon, nodes: it.nodes.size, slots: it.slots, policy: it.policy, fill: it.fill, cycle: it.cycle, turnaround: it.turnaround, room: it.room,
    entries: it.entries.map(({ slot, node, length, phase, period, deadline, priority }) => ({ slot, node, length, phase, period, deadline, priority })),
    streams: it.streams.map(({ id, bytes: size, gap, burst }) => ({ id, bytes: size, gap, burst })),
  });
  const running = new Map();
  /** Tells what is worked at, and shows how it is stopped. */
  function working(lane, said) {
    // (what was stopped is told as stopped, also where its end comes later)
    if (said === null && !running.delete(lane)) return;
    if (said !== null) running.set(lane, said);
    $("stop").hidden = !running.size;
    $("progress").textContent = [...running.values()].join(" ");
  }
  const nameOf = slot => model?.entries.find(it => it.slot === slot)?.message.name ?? addedName(slot) ?? "no message";
  const addedName = slot => change_.names.get(slot);
  const entryAt = at => model?.entries.find(it => it.message.line === at + 1);
  const millis = bits => decimal(Fraction.of(Math.round(bits)).over(model.kbits));
  const ms = cycles => decimal(model.millis(cycles));

  /** The marks in the tables: slots, mistakes, rounding, and what is missed. */
  function shown() {
    const wrong = new Map();
    for (const it of mistakes) wrong.set(`${it.line} ${it.field}`, it.text);
    for (const tr of $("messages").tBodies[0].rows) {
      const at = Number(tr.dataset.at), entry = entryAt(at);
      tr.cells[0].textContent = entry ? entry.slot : design.rows[at].kind === "async" ? "–" : "";
      for (const field of tr.querySelectorAll("[data-field]")) {
        const fault = wrong.get(`${at + 1} ${field.dataset.field}`), round = model?.rounded[at + 1]?.[field.dataset.field];
        field.classList.toggle("wrong", !!fault);
        field.classList.toggle("rounded", !!round);
        field.title = fault ?? round ?? "";
        field.setAttribute("aria-invalid", fault ? "true" : "false");
      }
    }
    const names = { kbits: "bit rate", cycle: "cycle", turnaround: "turnaround", window: "window", horizon: "horizon" };
    for (const [name] of BUS) {
      $(`bus-${name}`).classList.toggle("wrong", mistakes.some(it => it.line === 0 && it.field === names[name]));
      $(`told-${name}`).textContent = model === null ? "" : name === "cycle" ? `${decimal(model.millis(1), 6)} ms, ${model.cycle} bit times` : name === "window" ? `${model.window} taken, of ${model.room}` : "";
    }
    $("mistakes").replaceChildren(...mistakes.slice(0, 30).map(it => el("li", {}, it.text)));
  }
  function verdictShown() {
    const { verdict } = plan ?? {}, isFit = verdict?.kind === "accepted";
    for (const tr of $("messages").tBodies[0].rows) {
      const entry = entryAt(Number(tr.dataset.at)), late = plan?.late.find(it => it.slot === entry?.slot);
      tr.classList.toggle("missed", verdict?.kind === "miss" && verdict.slot === entry?.slot);
      tr.querySelector(".worst").textContent = late?.count && entry.message.kind === "sync" ? `${millis(late.bits)} ms` : "";
    }
    $("verdict").className = isFit ? "good" : "bad";
    $("fit").disabled = !model || !verdict;
    if (!verdict) {
      $("verdict").textContent = design.rows.length ? "Not planned: the list has mistakes." : "Nothing is planned yet. Write a message, paste a list, or take the example.";
      $("why").textContent = "";
      for (const id of ["late", "shares", "commands"]) (id === "late" ? $(id).tBodies[0] : $(id)).replaceChildren();
      drawn();
      return;
    }
    if (isFit) {
      $("verdict").textContent = model.entries.length ? `Accepted: no deadline is ever missed. ${verdict.length === 1 ? "The plan repeats every cycle" : `The plan repeats every ${many(verdict.length, "cycle")}, ${ms(verdict.length)} ms`}${verdict.first ? `, from cycle ${verdict.first} on` : ""}.` : "There is no synchronous message.";
      $("why").textContent = `Planned in ${(plan.seconds * 1000).toFixed(1)} ms.`;
    } else if (verdict.kind === "miss") {
      const it = model.entries.find(entry => entry.slot === verdict.slot), rest = plan.group.filter(slot => slot !== verdict.slot);
      $("verdict").textContent = `Refused: ${it.message.name} (slot ${verdict.slot}) would be missed.`;
      const inWay = slotsIn(plan.cycles, plan.cycles.count - 1).map(nameOf);
      $("why").textContent = `Its instance that is released in cycle ${verdict.release} would not be sent by cycle ${verdict.cycle}, the last one in time. ${inWay.length ? `In that cycle ${inWay.join(", ")} ${inWay.length === 1 ? "goes" : "go"} first.` : "Nothing fits in that cycle."}`;
      if (rest.length && verdict.cycle >= view.count) view.from = Math.max(0, verdict.cycle - view.count + 3);
    } else if (verdict.kind === "horizon") {
      const common = commonPeriod(model.entries);
      $("verdict").textContent = `Refused: no repeat of the plan within ${many(verdict.walked, "cycle")}.`;
      $("why").textContent = `The common period of the messages is ${many(common, "cycle")}. Take a longer horizon, or periods with a smaller common multiple.`;
    } else {
      $("verdict").textContent = `Refused: ${verdict.said}.`;
      $("why").textContent = "";
    }
    lateShown();
    filesShown();
    drawn();
  }
  function lateShown() {
    const rows = model.entries.map(it => {
      const late = plan.late.find(one => one.slot === it.slot), { message } = it;
      if (message.kind === "polled") return [String(it.slot), message.name, ms(it.period + it.deadline), decimal(message.deadline), `polled every ${many(it.period, "cycle")}`];
      return [String(it.slot), message.name, late?.count ? millis(late.bits) : "", ms(it.deadline), late?.count ? `${late.release}, ${late.sent}` : ""];
    });
    model.streams.forEach((it, at) => {
      const bound = plan.bounds[at], end = bound && bound.end - 4;
      rows.push([`0x${it.id.toString(16)}`, it.message.name, bound && !it.isAny ? decimal(new Fraction(BigInt(Fraction.of(end * 1000).over(model.kbits).ceil), 1000n)) : "no bound", it.message.deadline === null ? "" : decimal(it.message.deadline), "asynchronous"]);
    });
    $("late").tBodies[0].replaceChildren(...rows.map(row => el("tr", { class: row[3] && Number(row[2]) > Number(row[3]) ? "missed" : "" }, ...row.map(cell => el("td", {}, cell)))));
    const need = model.entries.reduce((so, it) => so + worst(it.length) / it.period, 0), silent = model.streams.filter(it => it.isAny).length;
    const asynchronous = model.streams.filter(it => !it.isAny).reduce((so, it) => so + worst(it.bytes) / it.gap, 0), percent = part => `${(100 * part).toFixed(1)} %`;
    const fullest = plan.cycles.windows.reduce((so, it) => Math.max(so, it), 0);
    $("shares").replaceChildren(...[`Share of the bus: synchronous ${percent(need / model.cycle)}, triggers ${percent(TRIGGER[model.slots] / model.cycle)}${model.streams.length ? `, asynchronous ${percent(asynchronous)}${silent ? ` (${many(silent, "message")} without a period not counted)` : ""}` : ""}.`,
      plan.verdict.kind === "accepted" ? `The fullest window has ${fullest} of ${model.window} bit times; ${model.cycle - TRIGGER[model.slots] - model.turnaround - fullest} are left for asynchronous frames in that cycle.` : `The messages need ${need.toFixed(1)} bit times a cycle on average, and the window has ${model.window}.`,
      ...model.said.map(it => `Rounded: ${it}.`)].map(it => el("li", {}, it)));
  }

  // The timeline -------------------------------------------------------------------------------------------------------
  const ROW = 20, LEFT = 150, HEAD = 44;
  const source = () => view.shown?.cycles ?? plan?.cycles ?? null;
  const rowsOfTimeline = () => (model?.entries ?? []).concat(view.shown?.added ?? []);
  /** Shows other cycles than those of the plan, or these again: with messages that they add, and what they are. */
  function show(cycles, from = 0, added = [], what = "") {
    shownNow(cycles && { cycles, added }, what);
    view.from = from;
    drawn();
  }
  function shownNow(it, what = "") {
    view.shown = it;
    $("take").textContent = it ? "Show the plan" : "Show in the timeline";
    $("of").textContent = what;
  }
  function drawn() {
    const cycles = source(), box = $("timeline");
    if (!model || !cycles || !cycles.count) {
      box.replaceChildren();
      box.setAttribute("aria-label", "Timeline: no cycles");
      return;
    }
    view.from = Math.max(0, Math.min(view.from, cycles.count - 1));
    $("from").value = view.from;
    const to = Math.min(cycles.count, view.from + view.count), entries = rowsOfTimeline(), lengths = [], width = Math.max(300, box.clientWidth - 2), each = (width - LEFT) / view.count, height = HEAD + entries.length * ROW + 62;
    for (const it of entries) lengths[it.slot] = it.length;
    const x = (cycle, bits = 0) => LEFT + (cycle - view.from) * each + bits / model.cycle * each, parts = [], y = new Map(entries.map((it, row) => [it.slot, HEAD + row * ROW])), bottom = HEAD + entries.length * ROW;
    const put_ = (tag, given, ...more) => parts.push(svg(tag, given, ...more)), verdict = view.shown ? null : plan.verdict;
    entries.forEach((it, row) => put_("text", { x: 4, y: HEAD + row * ROW + 14 }, `${it.slot} ${it.message.name}`.slice(0, 22)));
    put_("text", { x: 4, y: 14 }, "cycle");
    put_("text", { x: 4, y: 34 }, "parts of it");
    put_("text", { x: 4, y: bottom + 30 }, "window's fill");
    put_("path", { class: "edge", d: Array.from({ length: to - view.from }, (_, at) => `M${x(view.from + at)} 18V${height}`).join("") });
    const step = Math.ceil(34 / each);
    for (let cycle = view.from; cycle < to; cycle++) {
      const window = cycles.windows[cycle], trigger = TRIGGER[model.slots] + model.turnaround;
      if ((cycle - view.from) % step === 0) put_("text", { x: x(cycle) + 2, y: 14 }, String(cycle));
      for (const [name, from, end] of [["trigger", 0, trigger], ["free", trigger, model.cycle - window], ["window", model.cycle - window, model.cycle]]) put_("rect", { class: name, x: x(cycle, from), y: 22, width: Math.max(0, x(cycle, end) - x(cycle, from)), height: 14 });
      for (const { slot, from, to: end } of framesIn(cycles, cycle, lengths, model.cycle)) {
        if (y.has(slot)) put_("rect", { class: "frame", "data-slot": slot, "data-cycle": cycle, x: x(cycle, from), y: y.get(slot) + 3, width: Math.max(1.5, x(cycle, end) - x(cycle, from)), height: ROW - 6 });
      }
      const full = 34 * Math.min(1, window / model.window);
      put_("rect", { class: "window", x: x(cycle) + 1, y: bottom + 44 - full, width: Math.max(1, each - 2), height: full });
    }
    // (two paths are drawn sooner than thousands of lines)
    let spans = "", releases = "";
    for (const it of entries) {
      if (it.isAdded) continue;
      for (let release = it.phase + Math.max(0, Math.floor((view.from - it.phase - it.deadline) / it.period)) * it.period; release < to; release += it.period) {
        if (release + it.deadline <= view.from || release < 0) continue;
        const left = Math.max(x(release), LEFT), right = Math.min(x(release + it.deadline), LEFT + view.count * each), middle = y.get(it.slot) + ROW / 2, isMissed = verdict?.kind === "miss" && verdict.slot === it.slot && verdict.release === release;
        if (isMissed) put_("rect", { class: "late", x: left, y: y.get(it.slot) + 1, width: Math.max(2, right - left), height: ROW - 2, "fill-opacity": 0.35 });
        spans += `M${left} ${middle}H${right}`;
        if (release >= view.from) releases += `M${x(release) + 0.5} ${y.get(it.slot) + 3}v${ROW - 6}`;
        if (release + it.deadline <= to) spans += `M${right} ${middle - 4}v8`;
      }
    }
    put_("path", { class: "span", d: spans });
    put_("path", { class: "release", d: releases });
    if (point !== null && point.cycle >= view.from && point.cycle < to) put_("rect", { class: "here", x: x(point.cycle), y: 20, width: each, height: height - 24 });
    box.replaceChildren(svg("svg", { width, height, viewBox: `0 0 ${width} ${height}`, xmlns: SVG }, ...parts));
    box.setAttribute("aria-label", `Timeline: cycles ${view.from} to ${to - 1} of ${cycles.count}`);
    view.each = each;
    view.to = to;
  }
  /** What is at a place, in words. */
  function pointed(cycle, row = null) {
    const cycles = source();
    if (!cycles || cycle < 0 || cycle >= cycles.count) return;
    point = { cycle, row };
    if (cycle < view.from || cycle >= view.from + view.count) view.from = Math.max(0, cycle - Math.floor(view.count / 2));
    const lengths = [], entries = rowsOfTimeline(), it = entries[row];
    for (const entry of entries) lengths[entry.slot] = entry.length;
    const frames = framesIn(cycles, cycle, lengths, model.cycle), own = it && frames.find(frame => frame.slot === it.slot);
    const told = [`Cycle ${cycle}, from ${ms(cycle)} ms on: window ${cycles.windows[cycle]} of ${model.window} bit times, ${frames.length ? `with ${frames.map(frame => nameOf(frame.slot)).join(", ")}` : "empty"}.`];
    if (it) {
      const release = cycle < it.phase ? null : cycle - (cycle - it.phase) % it.period;
      if (own) told.push(`${it.message.name}: at most from ${millis(cycle * model.cycle + own.from)} to ${millis(cycle * model.cycle + own.to)} ms.`);
      if (release !== null && !it.isAdded) told.push(`${it.message.name} was released in cycle ${release}; its last cycle is ${release + it.deadline - 1}.`);
    }
    $("said").textContent = told.join(" ");
    drawn();
  }

  // What would make it fit ---------------------------------------------------------------------------------------------
  const setBus = more => {
    put({ ...design, bus: { ...design.bus, ...more } });
    busFields();
    shown();
  };
  const setRow = (slot, more) => {
    const at = model.entries.find(it => it.slot === slot).message.line - 1;
    put(withRows(design.rows.map((it, place) => (place === at ? { ...it, ...more } : it))));
    messageTable();
    shown();
  };
  async function fit() {
    working("fit", "Trying ..");
    $("remedies").replaceChildren();
    let tries = 0;
    try {
      const found = await asked.ask("fit", { what: "fit", model: plain(model) }, () => working("fit", `Trying .. (${++tries})`));
      if (found === undefined) return;
      $("remedies").replaceChildren(...(found.length ? found : [null]).map(it => {
        if (it === null) return el("li", {}, "Nothing that was tried fits: take longer periods, fewer messages, or a longer cycle.");
        const click = { policy: () => setBus({ policy: it.policy, fill: it.fill }), window: () => setBus({ window: String(it.window), policy: it.policy, fill: it.fill }), period: () => setRow(it.slot, { period: decimal(model.millis(it.period), 9) }), offset: () => setRow(it.slot, { offset: decimal(model.millis(it.phase), 9) }) }[it.what];
        const label = { policy: `${it.policy}, ${it.fill}`, window: `window ${it.window} with ${it.policy}, ${it.fill}`, period: it.slot === undefined ? "" : `${nameOf(it.slot)} every ${it.period === undefined ? "" : ms(it.period)} ms`, offset: it.phase === undefined ? "" : `${nameOf(it.slot)} offset by ${ms(it.phase)} ms` }[it.what];
        return el("li", {}, el("button", { type: "button", "data-what": it.what, click }, label));
      }));
    } catch (fault) {
      $("remedies").replaceChildren(el("li", {}, `The planner ended: ${fault.message}`));
    } finally {
      working("fit", null);
    }
  }

  // A change while it runs ---------------------------------------------------------------------------------------------
  const change_ = { names: new Map(), added: [], operations: null, at: 0, ahead: 0 };
  /** The operations of the change for the library, as its rows say; or null, with what is wrong told. */
  function changeOf() {
    change_.names.clear();
    change_.added = [];
    const wrong = [], { rows } = design.change, number = (name, text, low, high) => {
      if (!/^\d{1,12}$/.test(text) || Number(text) < low || Number(text) > high) wrong.push(`${name} is '${text}': write a whole number from ${low} to ${high}.`);
      return Number(text);
    };
    const at = number("the cycle", design.change.at, 0, 1e6), ahead = number("so many cycles later", design.change.ahead, 0, 1e6);
    number("the operator", design.change.operator, 1, 8);
    const used = new Set(model.entries.map(it => it.slot)), slotBy = new Map(model.entries.map(it => [it.message.name, it]));
    const nodes = new Map(model.nodes), operations = rows.map((row, place) => {
      const own = slotBy.get(row.name), where = `operation ${place + 1}`;
      if (row.op !== "add" && !own) wrong.push(`${where}: there is no synchronous message named '${row.name}'.`);
      if (row.op === "remove") return remove(own?.slot ?? 0);
      let slot = own?.slot ?? 0;
      if (row.op === "add") {
        for (slot = 0; used.has(slot); slot++);
        used.add(slot);
        if (slot >= model.slots) wrong.push(`${where}: all ${model.slots} slots are taken.`);
      }
      const sender = row.sender || own?.message.sender || "";
      if (!sender) wrong.push(`${where}: sender is empty. Write the node that sends it.`);
      if (!nodes.has(sender)) wrong.push(`${where}: the network has no node ${sender}. Its nodes are ${[...nodes.keys()].join(", ")}.`);
      const cycles = (name, least) => {
        const given = timeText(row[name]);
        if (!/^[0-9]{1,9}(\.[0-9]{1,9})?$/.test(given)) {
          wrong.push(`${where}: ${name} is '${row[name]}': write milliseconds.`);
          return least;
        }
        const found = Fraction.of(given).times(model.kbits).over(Fraction.of(model.cycle)).floor;
        if (found < least || found > LIMITS.times) wrong.push(`${where}: ${name} is ${found} cycles: take ${least} to ${LIMITS.times}.`);
        return Math.min(Math.max(found, least), LIMITS.times);
      };
      const period = cycles("period", 1), entry = { slot, node: nodes.get(sender) ?? 0, length: number(`${where}: length`, row.length, 0, 8), period, deadline: row.deadline ? cycles("deadline", 1) : period, phase: row.offset ? cycles("offset", 0) : 0, priority: row.priority ? number(`${where}: priority`, row.priority, 0, 255) : 0 };
      if (row.op === "add") {
        change_.names.set(slot, row.name || `slot ${slot}`);
        change_.added.push({ ...entry, isAdded: true, message: { name: row.name || `slot ${slot}`, kind: "sync" } });
      }
      return row.op === "add" ? add(entry) : change(entry);
    });
    $("change-mistakes").replaceChildren(...wrong.map(it => el("li", {}, it)));
    return wrong.length || !operations.length ? null : { operations, at, ahead };
  }
  const changed_ = () => {
    for (const id of ["change-verdict", "gaps", "swept"]) $(id).replaceChildren();
    change_.operations = null;
    $("sweep").disabled = $("take").disabled = true;
  };
  async function changeAsked() {
    changed_();
    $("change-mistakes").replaceChildren();
    if (!model || plan?.verdict.kind !== "accepted" || !design.change.rows.length) {
      if (design.change.rows.length) $("change-verdict").textContent = "The design itself has to be accepted first.";
      return;
    }
    const given = changeOf(), own = turn;
    if (!given) return;
    const found = await asked.ask("change", { what: "change", model: plain(model), change: given }).catch(fault => ({ fault }));
    if (found === undefined || own !== turn) return;
    if (found.fault) {
      $("change-verdict").textContent = `The planner ended: ${found.fault.message}`;
      return;
    }
    const { verdict, start } = found, isFit = verdict.kind === "accepted";
    change_.operations = given;
    change_.cycles = found.cycles;
    $("sweep").disabled = $("take").disabled = false;
    $("change-verdict").className = isFit ? "good" : "bad";
    $("change-verdict").textContent = `Operator ${design.change.operator}, before cycle ${given.at}, from cycle ${start} on: ${isFit ? `accepted. No deadline is missed on the way; from cycle ${verdict.first} on the plan repeats every ${many(verdict.length, "cycle")}.` : refusalText(verdict)}`;
    if (isFit) $("gaps").replaceChildren(...found.gaps.map(({ slot, kind, before, after }) => el("li", {}, kind === "remove" ? `${nameOf(slot)} (slot ${slot}) ${before === null ? "was not sent" : `is sent in cycle ${before} for the last time`}.` : before === null ? `${nameOf(slot)} (slot ${slot}) is sent in cycle ${after} for the first time.` : `${nameOf(slot)} (slot ${slot}) is silent from cycle ${before + 1} to ${after - 1}: ${ms(after - before)} ms between two frames.`)));
  }
  const refusalText = verdict => verdict.kind === "miss" ? `refused. ${nameOf(verdict.slot)} (slot ${verdict.slot}) would be missed: its instance of cycle ${verdict.release} would not be sent by the end of cycle ${verdict.cycle}.` : `refused: ${verdict.said}.`;
  async function sweep() {
    const from = plan.verdict.first, count = plan.verdict.length;
    working("sweep", "Asking ..");
    try {
      const found = await asked.ask("sweep", { what: "sweep", model: plain(model), change: change_.operations, from, count }, at => working("sweep", `Asked before ${many(at, "cycle")} of ${count.toLocaleString("en")} ..`));
      if (found === undefined) return;
      const fit_ = found.found.find(it => it.isFit)?.cycles.length ?? 0, ranges = list => {
        const runs = [];
        for (const cycle of list) {
          if (runs.at(-1)?.[1] === cycle - 1) runs.at(-1)[1] = cycle;
          else runs.push([cycle, cycle]);
        }
        return runs.slice(0, 12).map(([one, other]) => (one === other ? String(one) : `${one} to ${other}`)).join(", ") + (runs.length > 12 ? ", .." : "");
      };
      const why = reason => {
        const [word, slot] = reason.split(" ");
        return { miss: `${nameOf(Number(slot))} (slot ${slot}) would be missed`, horizon: "no repeat within the horizon", malformed: "the change breaks a rule", passed: "the start has passed" }[word];
      };
      $("swept").replaceChildren(el("li", { class: fit_ === count ? "good" : "bad" }, `Accepted before ${fit_.toLocaleString("en")} of ${many(count, "cycle")} of the plan.`), ...found.found.filter(it => !it.isFit).map(it => el("li", {}, `Refused before ${ranges(it.cycles)}: ${why(it.reason)}.`)));
    } catch (fault) {
      $("swept").replaceChildren(el("li", {}, `The planner ended: ${fault.message}`));
    } finally {
      working("sweep", null);
    }
  }

  // Files --------------------------------------------------------------------------------------------------------------
  function said(words, isBad = false) {
    for (const id of ["audit", "notice"]) {
      $(id).textContent = words;
      $(id).className = isBad ? "bad" : "";
    }
    clearTimeout(said.later);
    said.later = setTimeout(() => $("notice").replaceChildren(), 6000);
  }
  /** Takes a list of messages, in place of those that are there. */
  function takeList(text_, read = listOf) {
    const found = read(text_);
    if (found.mistakes.length) {
      $("mistakes").replaceChildren(...found.mistakes.slice(0, 30).map(it => el("li", {}, it.text)));
      return said(found.mistakes[0].text, true);
    }
    if (found.rows.length > MOST_ROWS) return said(`The list has ${many(found.rows.length, "row")}, and the desk takes ${MOST_ROWS}.`, true);
    put(withRows(found.rows.map(({ line, ...row }) => row)));
    tables();
    shown();
    said([`${many(found.rows.length, "message")} taken.`, ...found.notes.map(it => (it.endsWith(".") ? it : `${it}.`)), ...(found.warnings ?? [])].join(" "));
  }
  let before = Promise.resolve();
  /** Takes files, one after the other, also where more come meanwhile. */
  function files(list) {
    before = before.then(() => each(list));
  }
  async function each(list) {
    for (const file of list) {
      try {
        const why = whyNoText(new Uint8Array(await file.slice(0, 4096).arrayBuffer()));
        if (why) throw new Error(why);
        const front = await file.slice(0, 4096).text(), kind = /\.dbc$/i.test(file.name) ? "dbc" : kindOf(file.name, front), most = kind === "log" ? LONGEST.log : LONGEST.other;
        if (file.size > most) throw new Error(`the file has ${many(file.size, "byte")}, and a file of this kind may have ${many(most, "byte")}.`);
        // (DBC files are not UTF-8)
        await took(kind, file.name, kind === "dbc" ? new TextDecoder("latin1").decode(await file.arrayBuffer()) : await file.text());
      } catch (fault) {
        said(`${file.name}: ${fault.message}`, true);
      }
    }
  }
  async function took(kind, name, text_) {
    if (kind === "list") return takeList(text_);
    if (kind === "dbc") return takeList(text_, listOfDbc);
    if (kind === "design") {
      let it;
      try {
        it = JSON.parse(text_);
      } catch (fault) {
        throw new Error(`this is no JSON: ${fault.message}`);
      }
      put(taken(it));
      tables();
      shown();
      return said("The design is taken.");
    }
    held = { ...held, [kind === "system" ? "system.toml" : kind === "steps" ? (/names/.test(name) ? "names.csv" : "steps.csv") : kind === "requests" ? "requests.csv" : kind === "log" ? "log" : "plan"]: text_ };
    $("held").replaceChildren(...Object.entries(held).map(([own, it]) => el("li", {}, `${own}: ${many(it.length, "letter")} `, el("button", { type: "button", click: () => {
      delete held[own];
      $("held").querySelectorAll("li").forEach(li => li.textContent.startsWith(`${own}:`) && li.remove());
    } }, "Drop it"))));
    const own = filesShown.texts ?? {}, system = held["system.toml"] ?? own["system.toml"], steps = held["steps.csv"] ?? own["steps.csv"];
    if (kind === "log" || (held.log && (kind === "system" || kind === "steps" || kind === "requests"))) return audited(system, steps);
    if (kind === "plan") return checked(system, steps);
    if (held["system.toml"] && held["steps.csv"]) {
      const found = designOf(held["system.toml"], held["steps.csv"], held["names.csv"], design.bus.kbits);
      put({ ...design, rows: found.rows, bus: found.bus });
      tables();
      shown();
      said(`The design is that of the files, at ${design.bus.kbits} kbit/s.${found.left.length ? ` Not taken: the steps of line ${found.left.slice(0, 8).join(", ")}${found.left.length > 8 ? ", .." : ""}.` : ""}`);
    } else said(`${kind === "system" ? "The system is held. Drop its steps too." : kind === "steps" ? "The steps are held. Drop their system too." : "The file is held."}`);
  }
  /** Asks a command of the program, and shows what it answers. */
  async function command(words, given) {
    working("run", `${words[0]} ..`);
    try {
      return await asked.ask("run", { what: "run", words, files: given });
    } finally {
      working("run", null);
    }
  }
  async function audited(system, steps) {
    if (!system || !steps) return said("The log is held. Drop the system and the steps of its run too.");
    const more = held["requests.csv"] ? ["requests.csv"] : [], answer = await command(["audit", "system.toml", "steps.csv", "log", ...more], { "system.toml": system, "steps.csv": steps, log: held.log, ...(more.length ? { "requests.csv": held["requests.csv"] } : {}) });
    if (answer === undefined) return;
    const [word, kind, row] = answer.output.trim().split(",");
    said(answer.status > 1 && answer.status !== 7 ? `The audit is refused: ${answer.errors.trim()}` : word === "yes" ? "The log is that of a whole run of these files." : kind === "row" ? `The log is not that of a run of these files: row ${row} can't stand.` : kind === "unfinished" ? "All rows of the log can stand, and they are not all rows of a whole run." : `The audit says: ${answer.output.trim()}.`, word !== "yes");
    const from = kind === "row" ? Math.max(0, Number(row) - 3) : 0, log = logOf(held.log, nameOf);
    if (model && log.first === 0 && log.opened.length && log.opened.length <= 200000) {
      const cycles = new Cycles(log.opened.length);
      try {
        log.opened.forEach(({ mask, window }, cycle) => cycles.put(cycle, slotsOf(mask), window));
        show(cycles, 0, [], "The cycles of the log.");
      } catch { /* rows of another form: the audit has told of them */ }
    }
    $("told").textContent = `${log.told.slice(0, 200).join("\n")}\n\n` + held.log.split("\n").slice(from, from + 60).map((it, at) => `${from + at + 1}  ${it}`).join("\n");
  }
  async function checked(system, steps) {
    if (!system || !steps) return said("The plan is held. Drop its system and its table too, or write the messages.");
    const answer = await command(["check", "system.toml", "steps.csv", "plan"], { "system.toml": system, "steps.csv": steps, plan: held.plan });
    if (answer === undefined) return;
    said(answer.status === 0 || answer.status === 1 || answer.output ? `The check says: ${answer.output.trim()}.` : `The check is refused: ${answer.errors.trim()}`, !answer.output.startsWith("yes"));
    $("told").textContent = held.plan.split("\n").slice(0, 60).join("\n");
  }
  const save = (name, it, type = "text/plain") => {
    const url = URL.createObjectURL(it instanceof Blob ? it : new Blob([it], { type }));
    el("a", { href: url, download: name }).click();
    setTimeout(() => URL.revokeObjectURL(url), 10000);
  };
  function lateCsv() {
    return ["slot_or_id,name,at_most_ms,allowed_ms,where", ...[...$("late").tBodies[0].rows].map(tr => [...tr.cells].map(td => (/[",]/.test(td.textContent) ? `"${td.textContent.replaceAll('"', '""')}"` : td.textContent)).join(","))].map(row => `${row}\n`).join("");
  }
  /** The timeline as a picture of its own: its colours are those of the page now. */
  function picture() {
    const it = $("timeline").firstChild?.cloneNode(true);
    if (!it) return "";
    const style = getComputedStyle(document.documentElement), of = name => style.getPropertyValue(`--${name}`).trim();
    it.prepend(svg("style", {}, `text{font:12px sans-serif;fill:${of("ink")}}${["trigger", "free", "window", "frame"].map(name => `.${name}{fill:${of(name)}}`).join("")}path{fill:none}.late{fill:${of("bad")}}.span{stroke:${of("span")}}.release{stroke:${of("ink")}}.edge{stroke:${of("line")}}.here{fill:none}`), svg("rect", { width: "100%", height: "100%", fill: of("paper") }));
    return new XMLSerializer().serializeToString(it);
  }
  function filesShown() {
    const texts = filesOf(model);
    filesShown.texts = texts;
    if (plan?.certificate) texts["plan.txt"] = plan.certificate;
    const rate = decimal(model.kbits), cycle = design.bus.cycle;
    $("commands").textContent = `tools/fttmodel ${rate} ${cycle} messages.csv mine --window ${model.window} --policy ${model.policy}${model.fill === "skip" ? " --fill skip" : ""}${model.slots === 96 ? " --slots 96" : ""}${model.horizon === 10000 ? "" : ` --horizon ${model.horizon}`}${model.turnaround ? ` --turnaround ${model.turnaround}` : ""}\n./fttcan admit mine/system.toml mine/steps.csv\n./fttcan replay mine/system.toml mine/steps.csv > mine/log`;
    const of = { ...texts, "messages.csv": csvOf(design.rows), "late.csv": lateCsv(), "design.json": `${JSON.stringify(design, null, 1)}\n` };
    $("exports").replaceChildren(...Object.entries(of).map(([name, it]) => el("button", { type: "button", "data-file": name, click: () => save(name, it) }, name)), el("button", { type: "button", "data-file": "timeline.svg", click: () => save("timeline.svg", picture(), "image/svg+xml") }, "timeline.svg"), el("button", { type: "button", "data-file": "fttcan.zip", click: () => save("fttcan.zip", archiveOf({ ...of, "timeline.svg": picture() })) }, "All as fttcan.zip"));
  }

  // Events -------------------------------------------------------------------------------------------------------------
  $("undo").onclick = () => back(done, undone);
  $("redo").onclick = () => back(undone, done);
  $("more").onclick = () => {
    if (design.rows.length >= MOST_ROWS) return;
    put(withRows([...design.rows, { ...NO_ROW, sender: design.rows.at(-1)?.sender ?? "", length: "8", kind: "sync" }]));
    messageTable();
    shown();
    $("messages").tBodies[0].querySelector(`tr[data-at="${design.rows.length - 1}"] input`).focus();
  };
  $("more-change").onclick = () => {
    if (design.change.rows.length >= LIMITS.operations) return;
    put({ ...design, change: { ...design.change, rows: [...design.change.rows, { ...NO_CHANGE, sender: design.rows[0]?.sender ?? "" }] } });
    changeTable();
    $("change").tBodies[0].lastElementChild.querySelector("input").focus();
  };
  for (const name of ["at", "ahead", "operator"]) $(name).oninput = event => put({ ...design, change: { ...design.change, [name]: event.target.value } }, `change ${name}`);
  $("example").onclick = () => {
    put({ ...design, bus: { ...USUAL_BUS, kbits: "250", window: "370" } });
    takeList(EXAMPLE);
  };
  $("empty").onclick = () => {
    put({ rows: [], bus: { ...USUAL_BUS }, change: { at: "0", ahead: "2", operator: "1", rows: [] } });
    held = {};
    $("held").replaceChildren();
    tables();
    shown();
  };
  $("print").onclick = () => globalThis.print();
  $("fit").onclick = fit;
  $("stop").onclick = () => {
    for (const lane of [...running.keys()]) {
      asked.stop(lane);
      working(lane, null);
    }
    $("progress").textContent = "Stopped.";
  };
  $("sweep").onclick = sweep;
  $("take").onclick = () => {
    if (view.shown) show(null);
    else show(change_.cycles, Math.max(0, change_.operations.at - 4), change_.added, "With the change.");
  };
  const go = from => {
    view.from = Math.max(0, from);
    drawn();
  }, zoom = by => {
    view.count = Math.max(4, Math.min(200, Math.round(view.count * by)));
    drawn();
  };
  $("first").onclick = () => go(0);
  $("back").onclick = () => go(view.from - Math.ceil(view.count / 2));
  $("on").onclick = () => go(view.from + Math.ceil(view.count / 2));
  $("in").onclick = () => zoom(0.6);
  $("out").onclick = () => zoom(1.6);
  $("from").onchange = event => go(Number(event.target.value) || 0);
  const placeOf = event => {
    const box = $("timeline").getBoundingClientRect(), x = event.clientX - box.left - LEFT;
    return x < 0 || !view.each ? null : [view.from + Math.floor(x / view.each), Math.floor((event.clientY - box.top - HEAD) / ROW)];
  };
  $("timeline").onpointermove = event => {
    const place = placeOf(event);
    if (place) pointed(...place);
  };
  $("timeline").addEventListener("wheel", event => {
    if (event.ctrlKey) zoom(event.deltaY > 0 ? 1.25 : 0.8);
    else if (event.shiftKey || Math.abs(event.deltaX) > Math.abs(event.deltaY)) go(view.from + Math.sign(event.deltaX || event.deltaY));
    else return;
    event.preventDefault();
  }, { passive: false });
  $("timeline").onkeydown = event => {
    const now = point ?? { cycle: view.from, row: 0 }, rows = rowsOfTimeline().length;
    const to = { ArrowLeft: [now.cycle - 1, now.row], ArrowRight: [now.cycle + 1, now.row], ArrowUp: [now.cycle, Math.max(0, now.row - 1)], ArrowDown: [now.cycle, Math.min(rows - 1, now.row + 1)], Home: [0, now.row], End: [(source()?.count ?? 1) - 1, now.row] }[event.key];
    if (event.key === "+") zoom(0.6);
    else if (event.key === "-") zoom(1.6);
    else if (to) pointed(...to);
    else return;
    event.preventDefault();
  };
  addEventListener("keydown", event => {
    if (!(event.ctrlKey || event.metaKey)) return;
    const key = event.key.toLowerCase();
    if (key === "z" && !event.shiftKey) back(done, undone);
    else if (key === "y" || (key === "z" && event.shiftKey)) back(undone, done);
    else return;
    event.preventDefault();
  });
  addEventListener("paste", event => {
    const given = event.clipboardData.getData("text/plain"), field = event.target.closest?.("#messages [data-field]");
    const isList = /[\t;,].*[\n]/.test(given) && rowsOf(given, separatorOf(given)).find(it => it.fields.some(Boolean))?.fields.filter(name => columnOf(name)[0]).length >= 2;
    if (!isList && !(field && /[\t\n]/.test(given.trim()))) return;
    event.preventDefault();
    if (isList) return takeList(given);
    // Cells are put where they were pasted, and rows are added as they are needed.
    const rows = design.rows.map(it => ({ ...it })), places = order(), top = places.indexOf(Number(field.closest("tr").dataset.at)), left = FIELDS.indexOf(field.dataset.field);
    rowsOf(given.replace(/\r?\n$/, ""), "\t").slice(0, MOST_ROWS).forEach(({ fields }, down) => {
      if (top + down >= places.length) {
        places.push(rows.length);
        rows.push({ ...NO_ROW, kind: "sync" });
      }
      fields.slice(0, FIELDS.length - left).forEach((value, right) => {
        const name = FIELDS[left + right];
        rows[places[top + down]][name] = TIME_FIELDS.has(name) ? timeText(value) : value.trim();
      });
    });
    if (rows.length > MOST_ROWS) return said(`The desk takes ${MOST_ROWS} messages.`, true);
    put(withRows(rows));
    messageTable();
    shown();
  });
  $("open").onclick = $("drop").onclick = () => $("file").click();
  $("drop").onkeydown = event => (event.key === "Enter" || event.key === " ") && (event.preventDefault(), $("file").click());
  $("file").onchange = event => {
    const list = [...event.target.files];
    event.target.value = "";
    files(list);
  };
  addEventListener("dragover", event => {
    event.preventDefault();
    document.body.classList.add("over");
  });
  addEventListener("dragleave", () => document.body.classList.remove("over"));
  addEventListener("drop", event => {
    event.preventDefault();
    document.body.classList.remove("over");
    files([...event.dataTransfer.files]);
  });
  addEventListener("resize", drawn);
  const fromAddress = () => {
    if (location.hash.length < 2) return;
    try {
      const it = taken(JSON.parse(decodeURIComponent(location.hash.slice(1))));
      if (JSON.stringify(it) === text()) return;
      put(it);
      tables();
      shown();
    } catch (fault) {
      said(`The address has no design: ${fault.message}`, true);
    }
  };
  addEventListener("hashchange", fromAddress);
  tables();
  changed_();
  fromAddress();
  await changed();
  document.documentElement.dataset.ready = "yes";
}
const TIME_FIELDS = new Set(["period", "deadline", "offset"]);

// In a worker this file answers jobs; in a page it is the page.
if (typeof document === "undefined") worker(self);
else {
  const packed = Uint8Array.from(atob(document.getElementById("module").textContent), letter => letter.charCodeAt(0));
  const code = document.getElementById("code").textContent;
  new Response(new Blob([packed]).stream().pipeThrough(new DecompressionStream("gzip"))).arrayBuffer().then(bytes => page(bytes, code)).catch(fault => {
    document.getElementById("verdict").textContent = `The desk could not start: ${fault.message}`;
  });
}

// From a list of messages in milliseconds to the files of the program: what tools/fttmodel does, for the page. The files that are made are
// the same byte for byte; tools/check-desk compares them. Times are exact fractions.

export const LIMITS = {
  length: 8, rate: 1000, cycle: [400, 100000], turnaround: [0, 1000], window: [55, 16383], nodes: [1, 30], horizon: [1, 100000], cycles: 20000,
  operations: 16, times: 65535, priority: 255, lastId: 0x7FF, asyncIds: [0x200, 0x7EF], gap: 2 ** 32 - 1, burst: 1024, rows: 5000, bytes: 4194304,
};
const COLUMNS = ["name", "sender", "length", "period", "deadline", "offset", "id", "kind", "priority"], NEEDED = COLUMNS.slice(0, 4);
const TIMES = ["period", "deadline", "offset"], SEPARATORS = [",", ";", "\t"];
const OTHER_NAMES = {
  "message": "name", "message name": "name", "signal": "name", "frame": "name", "node": "sender", "ecu": "sender", "transmitter": "sender", "source": "sender",
  "dlc": "length", "bytes": "length", "size": "length", "len": "length", "data bytes": "length", "cycle": "period", "cycle time": "period", "cycletime": "period",
  "interval": "period", "phase": "offset", "identifier": "id", "can id": "id", "type": "kind", "prio": "priority",
};
/** The worst length in bit times of a frame with so many data bytes, and the trigger part by the number of slots. */
export const worst = length => 55 + 10 * length;
export const TRIGGER = { 40: 135, 96: 270 };

/** A list of messages, or the numbers beside it, that can't be taken: a line for each mistake. */
export class Mistake extends Error {
  constructor(lines) {
    super(lines.map(it => it.text).join("\n"));
    this.lines = lines;
  }
}

// Fractions ------------------------------------------------------------------------------------------------------------

const gcdOf = (one, other) => {
  while (other) [one, other] = [other, one % other];
  return one < 0n ? -one : one;
};
/** An exact fraction. */
export class Fraction {
  constructor(above, below = 1n) {
    const by = gcdOf(above, below) || 1n;
    this.above = above / by;
    this.below = below / by;
  }
  /** A decimal number in digits with a point, or a whole Number. */
  static of(text) {
    const [whole, part = ""] = String(text).split(".");
    return new Fraction(BigInt(whole + part), 10n ** BigInt(part.length));
  }
  times(other) {
    return new Fraction(this.above * other.above, this.below * other.below);
  }
  over(other) {
    return new Fraction(this.above * other.below, this.below * other.above);
  }
  plus(other) {
    return new Fraction(this.above * other.below + other.above * this.below, this.below * other.below);
  }
  compare(other) {
    const by = this.above * other.below - other.above * this.below;
    return by < 0n ? -1 : by > 0n ? 1 : 0;
  }
  /** The greatest whole number that is not above it. All fractions here are 0 or more. */
  get floor() {
    return Number(this.above / this.below);
  }
  get ceil() {
    return Number((this.above + this.below - 1n) / this.below);
  }
  get number() {
    return Number(this.above) / Number(this.below);
  }
}
/** A fraction with at most so many decimal places, rounded half up. */
export function decimal(fraction, places = 3) {
  const by = 10n ** BigInt(places), scaled = (2n * fraction.above * by + fraction.below) / (2n * fraction.below);
  const text = `${scaled / by}.${String(scaled % by).padStart(places, "0")}`;
  return text.replace(/0+$/, "").replace(/\.$/, "");
}
const some = (number, word) => `${number} ${word}${Number(number) === 1 ? "" : "s"}`;
const hex3 = number => `0x${number.toString(16).padStart(3, "0")}`;

// Rows of a list -------------------------------------------------------------------------------------------------------

/** The rows of a text whose fields are separated so. A field in double quotes may have separators, quotes and line ends. Each row has its line. */
export function rowsOf(text, separator) {
  const rows = [];
  let fields = [], field = "", quoted = false, isStart = true, line = 1, first = 1;
  const end = () => {
    fields.push(field);
    rows.push({ line: first, fields: fields.length === 1 && field === "" && isStart ? [] : fields });
    fields = [];
    field = "";
    isStart = true;
  };
  for (let at = 0; at < text.length; at++) {
    const letter = text[at];
    if (quoted) {
      if (letter === '"' && text[at + 1] === '"') {
        field += '"';
        at++;
      } else if (letter === '"') quoted = false;
      else {
        field += letter;
        if (letter === "\n") line++;
      }
    } else if (letter === '"' && isStart) {
      quoted = true;
      isStart = false;
    } else if (letter === separator) {
      fields.push(field);
      field = "";
      isStart = true;
    } else if (letter === "\n" || letter === "\r") {
      if (letter === "\r" && text[at + 1] === "\n") at++;
      end();
      first = ++line;
    } else {
      field += letter;
      isStart = false;
    }
  }
  if (field !== "" || fields.length || quoted) end();
  return rows;
}

/** How near two words are: twice the letters in common, in order, by the letters of both. */
function near(one, other) {
  const row = Array(other.length + 1).fill(0);
  for (const letter of one) {
    for (let at = other.length - 1, old = row[at]; at >= 0; at--, old = row[at]) row[at + 1] = Math.max(row[at + 1], letter === other[at] ? old + 1 : 0);
    for (let at = 1; at <= other.length; at++) row[at] = Math.max(row[at], row[at - 1]);
  }
  return 2 * row[other.length] / (one.length + other.length || 1);
}
/** The column that a name in the header row means, and whether the name is its own, another one of it, near it, or of none. */
export function columnOf(name) {
  const word = name.trim().toLowerCase(), short = TIMES.some(it => word === `${it}_ms`) ? word.slice(0, -3) : word;
  if (COLUMNS.includes(short)) return [short, "own"];
  const plain = word.replaceAll("_", " ").replace(/[([].*|\bms$/g, "").replace(/[^a-z]+/g, " ").trim();
  if (Object.hasOwn(OTHER_NAMES, plain)) return [OTHER_NAMES[plain], "other"];
  const best = plain ? COLUMNS.map(it => [near(plain, it), it]).sort((one, two) => two[0] - one[0])[0] : [0];
  return best[0] >= 0.6 ? [best[1], "near"] : [null, "none"];
}
/** What stands between the fields of a text: that by which the first row names the most columns. */
export function separatorOf(text) {
  const first = text.split(/\r\n|\n|\r/).find(row => row.replace(/^[ ,;\t]+|[ ,;\t]+$/g, "") && !row.trimStart().startsWith("#")) ?? "";
  const count = it => (rowsOf(first, it)[0]?.fields ?? []).filter(name => columnOf(name)[0] !== null).length;
  return SEPARATORS.reduce((best, it) => (count(it) > count(best) ? it : best), SEPARATORS[0]);
}

/** A field as it is written: a time in a list with semicolons or tabs may have a decimal comma. */
export const timeText = text => text.trim().replace(",", ".");

/** The rows of a list, each a plain object with the texts of its columns and the line; notes; and mistakes. */
export function listOf(text) {
  const plain = text.replace(/^\ufeff/, ""), hint = /^sep=([,;\t])\r?\n/.exec(plain), separator = hint ? hint[1] : separatorOf(plain), mistakes = [], found = [];
  const add = (line, field, value, what) => mistakes.push({ line, field, text: `line ${line}: ${field} is '${value}': ${what}` });
  const extra = [], taken = [];
  let columns = null, width = 0;
  for (const { line, fields } of rowsOf(hint ? `#${plain}` : plain, separator)) {
    if (!fields.some(field => field.trim()) || fields[0].trimStart().startsWith("#")) continue;
    if (columns === null) {
      columns = new Map();
      const names = fields.map((name, place) => [name.trim(), place]).filter(([name]) => name && !name.startsWith("#")), meant = names.map(([name]) => columnOf(name));
      if (!meant.some(([column]) => column)) {
        add(line, "the first row", fields.join(","), `it names no column. Write a header row above the messages, such as ${NEEDED.join(",")}.`);
        break;
      }
      const own = new Set(meant.filter(([, how]) => how === "own").map(([column]) => column)), guessed = new Set();
      names.forEach(([name, place], at) => {
        const [column, how] = meant[at];
        if (how === "none" || (how === "other" && own.has(column))) extra.push(name);
        else if (how === "near") {
          guessed.add(column);
          add(line, "the column", name, `there is none of this name. Is it ${column}? A column that begins with # is left out.`);
        } else if (columns.has(column)) add(line, "the column", name, "it stands twice. Take one of them away.");
        else {
          columns.set(column, place);
          if (how === "other") taken.push(`${name} as ${column}`);
        }
      });
      for (const name of NEEDED) if (!columns.has(name) && !guessed.has(name)) mistakes.push({ line, field: name, text: `line ${line}: the column ${name} is missing. The first row names the columns, and needs ${NEEDED.join(", ")}.` });
      if (mistakes.length) break;
      width = fields.length;
      continue;
    }
    const far = fields.slice(width).find(field => field.trim());
    if (far !== undefined) {
      add(line, `field ${width + 1}`, far, `the header has ${width} columns. A value with a comma stands in double quotes.`);
      continue;
    }
    if (found.length >= LIMITS.rows) {
      mistakes.push({ line, field: "", text: `line ${line}: there are more than ${LIMITS.rows} messages.` });
      break;
    }
    const row = { line };
    for (const name of COLUMNS) {
      const value = (fields[columns.get(name)] ?? "").trim();
      row[name] = separator !== "," && TIMES.includes(name) ? value.replaceAll(",", ".") : value;
    }
    found.push(row);
  }
  if (columns === null && !mistakes.length) mistakes.push({ line: 1, field: "", text: `line 1: there is no header row. Name the columns in the first row: ${COLUMNS.join(", ")}.` });
  const notes = extra.length ? [`left out: the column${extra.length === 1 ? "" : "s"} ${extra.join(", ")}`] : [];
  if (taken.length) notes.push(`taken: ${taken.join(", ")}`);
  return { rows: found, notes, mistakes };
}

// Messages -------------------------------------------------------------------------------------------------------------

/** A message of a row of texts. Mistakes are told by `add(line, field, value, what)`. */
function messageOf(row, add) {
  const { line } = row, kind = row.kind.toLowerCase() || "sync";
  const time = (field, isNeeded) => {
    const text = row[field];
    if (!text) {
      if (isNeeded) add(line, field, text, "the message needs one. Write milliseconds.");
      return null;
    }
    if (!/^[0-9]{1,12}(\.[0-9]{1,12})?$/.test(text)) {
      add(line, field, text, "this is no time. Write milliseconds in digits, with a point: 2.5.");
      return null;
    }
    return Fraction.of(text);
  };
  const whole = (field, usual, most, remedy) => {
    const text = row[field];
    if (!text && usual !== null) return usual;
    if (!/^[0-9]{1,12}$/.test(text) || Number(text) > most) {
      add(line, field, text, `this is no number from 0 to ${most}. ${remedy}`);
      return 0;
    }
    return Number(text);
  };
  const id = text => {
    if (!text) return null;
    const isHex = /^0[xX][0-9a-fA-F]+$/.test(text);
    if (!isHex && !/^[0-9]{1,12}$/.test(text)) {
      add(line, "id", text, "this is no identifier. Write decimal digits, or 0x and hexadecimal ones.");
      return null;
    }
    if (Number(text) > LIMITS.lastId) {
      add(line, "id", text, "this is above 0x7ff. The model has 11-bit identifiers: leave the message out, or give it another.");
      return null;
    }
    return Number(text);
  };
  const isPolled = kind === "polled";
  if (!["sync", "async", "polled"].includes(kind)) add(line, "kind", row.kind, "Write sync, polled or async.");
  if (kind === "async" && row.offset) add(line, "offset", row.offset, "nothing keeps it for an asynchronous message. Leave it out, or write sync.");
  if (isPolled && !row.deadline) add(line, "deadline", "", "a polled message needs one: the time from a request to the end of its frame. Write milliseconds.");
  for (const [field, who] of [["name", "the message"], ["sender", "the node that sends the message"]]) {
    if (!row[field]) add(line, field, "", `Write the name of ${who}.`);
    else if (/\p{C}|\p{Zl}|\p{Zp}|[\p{Zs}--[ ]]/v.test(row[field])) add(line, field, row[field], "Write a name without control characters.");
  }
  return {
    line, kind, name: row.name, sender: row.sender,
    length: whole("length", null, isPolled ? LIMITS.length - 1 : LIMITS.length, isPolled ? "Its frame has one byte more." : "Part longer messages into frames of at most 8 bytes."),
    period: time("period", kind === "sync"), deadline: time("deadline", false), offset: time("offset", false) ?? Fraction.of("0"), id: id(row.id),
    priority: whole("priority", 0, LIMITS.priority, "The lower one goes first."),
  };
}

/** A number of the bus that is asked for as text. */
function ranged(name, text, [low, high], add) {
  if (!/^[0-9]+$/.test(text) || Number(text) < low || Number(text) > high) {
    add(0, name, text, `Write a whole number from ${low} to ${high}.`);
    return low;
  }
  return Number(text);
}

/** A design: the rows of a list, and the numbers of the bus as texts: kbits, cycle (in microseconds), turnaround, window (or nothing), policy,
 * fill, slots, horizon. It answers the model, and throws a Mistake if there is one. */
export function modelOf(rows, bus) {
  const mistakes = [], said = [], rounded = {};
  const add = (line, field, value, what) => mistakes.push({ line, field, text: line ? `line ${line}: ${field} is '${value}': ${what}` : `${field} is '${value}': ${what}` });
  const stop = () => {
    if (mistakes.length) throw new Mistake(mistakes);
  };
  const positive = (name, text) => {
    if (/^[0-9]{1,9}(\.[0-9]{1,6})?$/.test(text) && Number(text)) return Fraction.of(text);
    add(0, name, text, "Write a number above 0, such as 500 or 83.333.");
    return Fraction.of("1");
  };
  const kbits = positive("bit rate", bus.kbits), cycleUs = positive("cycle", bus.cycle);
  const turnaround = ranged("turnaround", bus.turnaround || "0", LIMITS.turnaround, add), horizon = ranged("horizon", bus.horizon || "10000", LIMITS.horizon, add);
  const slots = Number(bus.slots || 40), policy = bus.policy || "rm", fill = bus.fill || "prefix";
  if (kbits.compare(Fraction.of(LIMITS.rate)) > 0) add(0, "bit rate", decimal(kbits), `CAN ends at ${LIMITS.rate} kbit/s.`);
  stop();
  const exact = kbits.times(cycleUs).over(Fraction.of("1000")), cycle = exact.floor;
  if (exact.compare(Fraction.of(cycle)) !== 0) said.push(`a cycle of ${decimal(cycleUs)} us is ${decimal(exact)} bit times: ${cycle} are taken`);
  const [low, high] = LIMITS.cycle;
  if (cycle < low || cycle > high) {
    add(0, "cycle", decimal(cycleUs), `at ${decimal(kbits)} kbit/s it is ${cycle} bit times. Take ${decimal(Fraction.of(low * 1000).over(kbits))} to ${decimal(Fraction.of(high * 1000).over(kbits))} us.`);
    stop();
  }
  const millis = cycles => Fraction.of(cycles * cycle).over(kbits);
  const cyclesOf = (time, field, message, least) => {
    const parts = time.times(kbits).over(Fraction.of(cycle)), whole = parts.floor;
    if (whole < least) add(message.line, field, decimal(time), `it is ${decimal(parts)} cycles, which becomes 0. Take a shorter cycle, or a longer time.`);
    else if (whole > LIMITS.times) add(message.line, field, decimal(time), `it is ${whole} cycles, above ${LIMITS.times}. Take a longer cycle, or a shorter time.`);
    else if (parts.compare(Fraction.of(whole)) !== 0) {
      said.push(`line ${message.line}, ${field} of ${message.name}: ${decimal(time)} ms is ${decimal(parts)} cycles, ${whole} ${whole === 1 ? "is" : "are"} taken (${decimal(millis(whole))} ms)`);
      (rounded[message.line] ??= {})[field] = `${decimal(parts)} cycles: ${whole} ${whole === 1 ? "is" : "are"} taken, ${decimal(millis(whole))} ms`;
    }
    return Math.max(whole, least);
  };
  const messages = rows.map(row => messageOf(row, add));
  if (!messages.length && !mistakes.length) add(0, "the list", "", "there are no messages. Write a row for each.");
  for (const field of ["name", "id"]) {
    const seen = new Map();
    for (const message of messages) {
      const value = message[field];
      if (value === null || value === "") continue;
      if (seen.has(value)) add(message.line, field, field === "name" ? value : hex3(value), `it stands in line ${seen.get(value)} too. Give each message its own.`);
      else seen.set(value, message.line);
    }
  }
  const nodes = new Map();
  for (const message of messages) {
    if (!nodes.has(message.sender) && nodes.size === LIMITS.nodes[1]) add(message.line, "sender", message.sender, `this is a sender beyond the ${LIMITS.nodes[1]} nodes. Let some nodes share a name.`);
    if (!nodes.has(message.sender)) nodes.set(message.sender, nodes.size);
  }
  const byId = list => list.map((it, place) => [it, place]).sort(([one, a], [two, b]) => (one.id === null) - (two.id === null) || (one.id ?? 0) - (two.id ?? 0) || a - b).map(([it]) => it);
  let chosen = messages.filter(it => it.kind === "sync" || it.kind === "polled");
  for (const message of chosen.slice(slots)) add(message.line, "name", message.name, `this is a ${message.kind === "sync" ? "synchronous" : "polled"} message beyond the ${slots} slots. ${slots === 40 ? "Take 96 slots, make some asynchronous" : "Make some asynchronous"}, or leave some out.`);
  chosen = byId(chosen.slice(0, slots));
  const times = message => {
    if (message.kind === "polled") {
      if (message.deadline === null) return null;
      const parts = message.deadline.times(kbits).over(Fraction.of(cycle)), whole = Math.min(parts.floor, 2 * LIMITS.times);
      if (whole < 2) {
        add(message.line, "deadline", decimal(message.deadline), `it is ${decimal(parts)} cycles, and a polled slot needs 2, ${decimal(millis(2))} ms. Take a shorter cycle, or a longer time.`);
        return null;
      }
      let period = whole - Math.floor(whole / 2);
      if (message.period !== null) period = Math.min(period, cyclesOf(message.period, "period", message, 1));
      const phase = cyclesOf(message.offset, "offset", message, 0);
      if (phase >= period) {
        add(message.line, "offset", decimal(message.offset), `the first poll comes ${some(phase, "cycle")} after the start, and requests are polled every ${some(period, "cycle")}. Take less than ${decimal(millis(period))} ms.`);
        return null;
      }
      return { phase, period, deadline: Math.min(period, whole - period) };
    }
    if (message.period === null) return null;
    const period = cyclesOf(message.period, "period", message, 1);
    let deadline = period;
    if (message.deadline !== null) {
      if (message.deadline.compare(message.period) > 0) add(message.line, "deadline", decimal(message.deadline), `it is above the period of ${decimal(message.period)} ms. Take at most the period.`);
      else deadline = cyclesOf(message.deadline, "deadline", message, 1);
    }
    return { phase: cyclesOf(message.offset, "offset", message, 0), period, deadline };
  };
  const taken = new Map(), slotOf = new Map(chosen.map((message, slot) => [message, slot]));
  for (const message of [...chosen].sort((one, other) => one.line - other.line)) taken.set(message, times(message));
  const entries = chosen.filter(message => taken.get(message) !== null).map(message => ({
    message, slot: slotOf.get(message), node: nodes.get(message.sender), length: message.length + (message.kind === "polled" ? 1 : 0), ...taken.get(message), priority: message.priority,
  }));
  const owned = [];
  for (const message of byId(messages.filter(it => it.kind === "async"))) {
    const [least, most] = LIMITS.asyncIds;
    if (message.id === null || message.id < least || message.id > most) {
      add(message.line, "id", message.id === null ? "" : hex3(message.id), "an asynchronous message has 0x200 to 0x7ef. Give it another.");
    }
    owned.push({ message, id: message.id, node: nodes.get(message.sender) });
  }
  const bitsWithin = time => time.times(kbits).floor;
  for (const message of messages) {
    if (message.kind !== "async" || message.deadline === null) continue;
    const least = worst(message.length) - 3, isApart = message.period !== null && message.period.above !== 0n;
    if (!isApart) add(message.line, "deadline", decimal(message.deadline, 12), "an asynchronous message needs a period for it: the least distance of two requests. Write one, or write polled.");
    else if (bitsWithin(message.deadline) < least) add(message.line, "deadline", decimal(message.deadline, 12), `the frame alone takes ${least} bit times. Take at least ${decimal(new Fraction(BigInt(Fraction.of(least * 1000).over(kbits).ceil), 1000n))} ms.`);
  }
  stop();
  const streams = owned.map(({ message, id }) => {
    const isApart = message.period !== null && message.period.above !== 0n;
    return {
      id, bytes: message.length, gap: isApart ? Math.min(Math.max(bitsWithin(message.period), 1), LIMITS.gap) : 1, burst: isApart ? 1 : LIMITS.burst,
      deadline: message.deadline === null ? null : bitsWithin(message.deadline), isAny: !isApart, message,
    };
  });
  const longest = entries.length ? Math.max(...entries.map(it => worst(it.length))) : LIMITS.window[0], room = cycle - TRIGGER[slots] - turnaround;
  const spare = owned.length ? Math.max(...owned.map(it => worst(it.message.length))) : worst(LIMITS.length);
  if (longest > room) add(0, "cycle", decimal(cycleUs), `a cycle has ${cycle} bit times, and the trigger, the turnaround and the longest frame need ${cycle - room + longest}. Take a longer cycle.`);
  stop();
  const usual = Math.max(Math.min(room - spare, LIMITS.window[1]), longest), window = bus.window ? ranged("window", bus.window, LIMITS.window, add) : usual;
  stop();
  if (window < longest) add(0, "window", String(window), `the longest frame has ${longest} bit times and never fits. Take at least ${longest}.`);
  if (window > room) add(0, "window", String(window), `with the trigger's ${TRIGGER[slots]} and the turnaround's ${turnaround} it is above the cycle of ${cycle}. Take at most ${room}, or a longer cycle.`);
  stop();
  return { kbits, cycle, turnaround, horizon, slots, policy, fill, window, longest, room, usual, nodes, messages, entries, owned, streams, said, rounded, millis };
}

// Files ----------------------------------------------------------------------------------------------------------------

/** The least common multiple of the periods, in cycles. */
export function commonPeriod(entries) {
  return Number(entries.reduce((so, { period }) => so / gcdOf(so, BigInt(period)) * BigInt(period), 1n));
}
const quoted = field => (/[",\n\r]/.test(field) ? `"${field.replaceAll('"', '""')}"` : field);

/** The files of a model: their texts by their names. */
export function filesOf(model) {
  const { kbits, cycle, turnaround, window, nodes, slots, policy, horizon, fill, entries, owned, streams, millis } = model;
  let system = `# made by fttmodel: ${decimal(kbits)} kbit/s, cycles of ${decimal(millis(1), 6)} ms\n[bus]\ncycle = ${cycle}\nturnaround = ${turnaround}\nwindow = ${window}\nnodes = ${nodes.size}\n`;
  if (slots !== 40) system += `slots = ${slots}\n`;
  system += `\n[plan]\npolicy = "${policy}"\nhorizon = ${horizon}\n`;
  if (fill !== "prefix") system += `fill = "${fill}"\n`;
  for (const { message, id, node } of owned) system += `\n# ${message.name} of ${message.sender}\n[[async]]\nid = ${hex3(id)}\nnode = ${node}\n`;
  const cycles = Math.min(Math.max(0, ...entries.map(it => it.phase)) + commonPeriod(entries), LIMITS.cycles);
  let steps = "";
  for (const it of entries) {
    steps += `${it.slot % LIMITS.operations === 0 ? "add,1,0" : "and,add"},${it.slot},${it.node},${it.length},${it.phase},${it.period},${it.deadline},${it.priority}\n`;
  }
  steps += `cycle,${cycles}\n`;
  let names = "slot_or_id,name,sender,node,period_cycles,period_ms,real_id,kind,deadline_ms\n";
  for (const it of [...entries, ...owned]) {
    const { message } = it, isEntry = it.slot !== undefined, deadline = message.deadline === null && message.kind === "sync" ? message.period : message.deadline;
    names += [isEntry ? it.slot : hex3(it.id), quoted(message.name), quoted(message.sender), it.node, isEntry ? it.period : "", message.period === null ? "" : decimal(message.period),
      message.id === null ? "" : hex3(message.id), message.kind, deadline === null ? "" : decimal(deadline)].join(",") + "\n";
  }
  const files = { "system.toml": system, "steps.csv": steps, "names.csv": names };
  if (owned.length) files["async.csv"] = ["id,bytes,gap,burst,deadline", ...streams.map(it => `${hex3(it.id)},${it.bytes},${it.gap},${it.burst},${it.deadline ?? ""}`)].map(row => `${row}\n`).join("");
  return files;
}

/** A list as the text of a CSV file. */
export function csvOf(rows) {
  const used = COLUMNS.filter(name => NEEDED.includes(name) || rows.some(row => row[name]));
  return [used, ...rows.map(row => used.map(name => quoted(row[name])))].map(row => `${row.join(",")}\n`).join("");
}
export const FIELDS = COLUMNS;

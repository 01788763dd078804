// The types of fttcan.mjs. What each part does, its units, ranges and errors stand there and in docs/LIBRARY.md.

/** A whole number: a BigInt may stand where a number is given, and no call answers one. */
export type Whole = number | bigint;
/** Bytes, or a text, which is taken as UTF-8. */
export type Bytes = string | ArrayBuffer | ArrayBufferView | Iterable<number>;
export type Policy = "rm" | "dm" | "edf";
export type Fill = "prefix" | "skip";

export interface Rules {
  readonly window: number;
  readonly nodes: number;
  readonly slots: 40 | 96;
  readonly policy: Policy;
  readonly fill: Fill;
  readonly horizon: number;
}
/** Rules as they are given: 40 slots, rm, prefix and a horizon of 10,000 cycles where nothing is said. */
export type GivenRules = Pick<Rules, "window" | "nodes"> & Partial<Omit<Rules, "slots" | "horizon">> & { readonly slots?: number; readonly horizon?: Whole };

export interface Entry {
  readonly slot: number;
  readonly node: number;
  readonly length: number;
  readonly period: number;
  readonly deadline: number;
  readonly phase: number;
  readonly priority: number;
}
/** An entry as it is given: phase and priority are 0 where nothing is said. */
export type GivenEntry = Omit<Entry, "phase" | "priority"> & Partial<Pick<Entry, "phase" | "priority">>;
export type Add = GivenEntry & { readonly kind: "add" };
export type Change = GivenEntry & { readonly kind: "change" };
export interface Remove {
  readonly kind: "remove";
  readonly slot: number;
}
export type Operation = Add | Change | Remove;

export interface Placed {
  readonly entry: Entry;
  readonly origin: number;
  readonly end: number | null;
}
export interface GivenPlaced {
  readonly entry: GivenEntry;
  readonly origin: Whole;
  readonly end?: Whole | null;
}
export interface Order {
  readonly cycle: number;
  readonly slots: number[];
  readonly window: number;
  readonly learned: boolean;
}
export interface Trigger {
  readonly cycle: number;
  readonly slots: number[];
  readonly window: number;
}
export interface GivenTrigger {
  readonly cycle: Whole;
  readonly slots: Iterable<number>;
  readonly window: number;
}
export interface Frame {
  readonly identifier: number;
  readonly data: Uint8Array;
}
export interface GivenFrame {
  readonly identifier: number;
  readonly data?: Bytes;
}
export interface Layout {
  readonly cycle: number;
  readonly turnaround: number;
  readonly window: number;
  readonly slots?: number;
}
export interface Stream {
  readonly identifier: number;
  readonly length: number;
  readonly gap: Whole;
  readonly burst?: number;
}
export interface Bound {
  readonly start: number;
  readonly end: number;
}

export const RULES: Readonly<Record<number, string>>;

export class FttcanError extends Error {}
export class LibraryUnfit extends FttcanError {}
export class Broken extends FttcanError {}
export class MemoryRanOut extends FttcanError {}
export class OutOfRange extends FttcanError {}
export class BadTable extends FttcanError {}
export class BadState extends FttcanError {}
export class WouldMiss extends FttcanError {}
export class Closed extends FttcanError {}
export class Full extends FttcanError {}
export class NotAccepted extends FttcanError {}
export class BadText extends FttcanError {
  constructor(said: string, place?: number | null);
  readonly place: number | null;
}
export abstract class Refused extends FttcanError {
  abstract get row(): string;
}
export class Malformed extends Refused {
  constructor(operation: number, rule: number, until?: number | null);
  readonly operation: number;
  readonly rule: number;
  readonly until: number | null;
  get row(): string;
}
export class Passed extends Refused {
  constructor(start: number, next: number);
  readonly start: number;
  readonly next: number;
  get row(): string;
}
export class Miss extends Refused {
  constructor(slot: number, release: number, cycle: number, trail?: number[][]);
  readonly slot: number;
  readonly release: number;
  readonly cycle: number;
  readonly trail: number[][];
  get row(): string;
}
export class Horizon extends Refused {
  constructor(start: number, walked: number);
  readonly start: number;
  readonly walked: number;
  get row(): string;
}
export class NotPlanned extends FttcanError {}
export class NoTrigger extends NotPlanned {
  constructor(cycle: number);
  readonly cycle: number;
}
export class OtherFlags extends NotPlanned {
  constructor(cycle: number, heard: number[], planned: number[]);
  readonly cycle: number;
  readonly heard: number[];
  readonly planned: number[];
}
export class OtherWindow extends NotPlanned {
  constructor(heard: number, needed: number);
  readonly heard: number;
  readonly needed: number;
}

export class Accepted {
  constructor(first: number, length: number);
  readonly first: number;
  readonly length: number;
  get row(): string;
  toString(): string;
}
export class Breach {
  constructor(kind: Breach["kind"], numbers: { slot?: number; cycle?: number; release?: number; width?: number });
  readonly kind: "badloop" | "notreleased" | "toowide" | "missed" | "notclosed";
  readonly slot: number | null;
  readonly cycle: number | null;
  readonly release: number | null;
  readonly width: number | null;
  get row(): string;
}
export class Audit {
  constructor(verdict: Audit["verdict"], row?: number | null);
  readonly verdict: "yes" | "row" | "unfinished";
  readonly row: number | null;
  get isWhole(): boolean;
}
export class Answer {
  constructor(status: number, output: Uint8Array, errors: Uint8Array);
  readonly status: number;
  readonly output: Uint8Array;
  readonly errors: Uint8Array;
  get text(): string;
  get said(): string;
}

export function add(entry: GivenEntry): Add;
export function change(entry: GivenEntry): Change;
export function remove(slot: number): Remove;
export function maskText(slots: Iterable<number>): string;
export function slotsOf(text: string): number[];

/** What has to be closed. */
export interface Handle {
  close(): void;
  get closed(): boolean;
}
export interface Planned extends Handle {
  get verdict(): Accepted | Refused;
}
export interface Snapshot extends Handle {
  plan(start: Whole, operations: Operation | Iterable<Operation>): Planned;
}
export interface Master extends Handle {
  get rules(): Rules;
  submit(start: Whole, operations: Operation | Iterable<Operation>, caller?: number): Accepted;
  open(): Order;
  look(caller?: number): number;
  get next(): number;
  planned(): number[];
  table(): Placed[];
  certificate(): string;
  save(): Uint8Array;
  snapshot(): Snapshot;
  settle(planned: Planned, caller?: number): Accepted;
}
export interface Standby extends Handle {
  get rules(): Rules;
  change(start: Whole, operations: Operation | Iterable<Operation>, caller?: number): Accepted;
  trigger(...frames: GivenFrame[]): void;
  triggerReserved(reserve: number, ...frames: GivenFrame[]): void;
  get next(): number;
  takeOver(): Master;
}
export type Heard = "opened" | "noted" | "again" | "notTaken" | "other";
export interface Offer {
  readonly identifier: number;
  readonly until: number;
}
export interface Ticket {
  readonly identifier: number;
  readonly cycle: number;
  readonly number: number;
}
export interface Loaded {
  readonly ticket: Ticket;
  readonly frame: Frame;
  readonly users: boolean;
}
export interface Due {
  readonly start: number;
  readonly last: number;
  readonly loaded: boolean;
  readonly users: boolean;
}
export interface NodeSettings {
  readonly number: number;
  readonly owners?: Readonly<Record<number, number>> | Map<number, number>;
  readonly room?: Whole;
  readonly entries?: Whole;
  readonly tolerance?: number;
  readonly silent?: boolean;
}
export interface Node extends Handle {
  learn(table: Iterable<GivenPlaced>): void;
  goTo(cycle: Whole): void;
  trigger(frame: GivenFrame, passed?: number): Heard;
  set(slot: number, data: Bytes): void;
  put(frame: GivenFrame): boolean;
  drop(identifier: number): boolean;
  waiting(identifier: number): number;
  offer(into: Whole): Offer | null;
  wake(into: Whole): number | null;
  frame(into: Whole, identifier: number): Frame | null;
  load(into: Whole, identifier: number): Loaded | null;
  sent(ticket: Ticket): boolean;
  withdrawn(ticket: Ticket): boolean;
  due(): number[];
  slotDue(slot: number): Due | null;
  slotFrame(slot: number): Frame | null;
  get next(): number;
  get opened(): Trigger | null;
}
export interface ToldChange {
  readonly kind: "change";
  readonly number: number;
  readonly start: number;
  readonly operations: Operation[];
}
export interface ToldTable {
  readonly kind: "table";
  readonly number: number;
  readonly table: Placed[];
}
export interface Collector {
  hear(frame: GivenFrame): ToldChange | ToldTable | null;
}
export interface Changes {
  readonly Collector: { new (entries?: number): Collector };
  encodeChange(identifier: number, number: number, start: Whole, operations: Operation | Iterable<Operation>): Frame[];
  encodeTable(identifier: number, number: number, table: Iterable<GivenPlaced>): Frame[];
}
export interface Table {
  readonly rules: GivenRules;
  get placed(): Placed[];
  get next(): number;
  get pending(): number[];
  copy(): Table;
  submit(start: Whole, operations: Operation | Iterable<Operation>): Accepted;
  open(): Order;
}
export interface Frames {
  wireLength(identifier: number, data?: Bytes): number;
  wireBits(identifier: number, data?: Bytes): Uint8Array;
  readWire(bits: Bytes): Frame;
  encode(trigger: GivenTrigger, slots?: number, reserve?: number): Frame[];
  decode(frames: Iterable<GivenFrame>, slots?: number): Trigger;
  payload(number: Whole, length: number): Uint8Array;
  fits(layout: Layout, at: Whole, length: number, window: number): boolean;
}

export class Library {
  constructor(instance: WebAssembly.Instance);
  readonly version: readonly [number, number, number];
  readonly Master: { new (rules: GivenRules): Master; restore(saved: Bytes): Master };
  readonly Standby: { new (rules: GivenRules): Standby };
  readonly Table: { new (rules: GivenRules, placed?: Iterable<GivenPlaced>, cycle?: Whole, pending?: Iterable<number>): Table };
  readonly Node: { new (layout: Layout, settings: NodeSettings): Node };
  readonly frames: Frames;
  readonly changes: Changes;
  get hasCommands(): boolean;
  get held(): number;
  limit(bytes: number): void;
  check(placed: Iterable<GivenPlaced>, window: number, text: Bytes): Breach | null;
  audit(system: Bytes, steps: Bytes, log: Bytes, requests?: Bytes): Audit;
  run(words: Iterable<string>, files?: Readonly<Record<string, Bytes>> | Iterable<Bytes>, room?: number | null): Answer;
  apply(table: Iterable<GivenPlaced>, start: Whole, operations: Operation | Iterable<Operation>): Placed[];
  reserve(errors: number, length?: number): number;
  errorsWithin(bits: number, length?: number): number;
  asyncBound(layout: Layout, streams: Iterable<Stream>): (Bound | null)[];
}

export function load(source?: WebAssembly.Module | BufferSource | Response | URL | string): Promise<Library>;

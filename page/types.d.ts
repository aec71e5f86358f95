// What passes between the modules of the page. The modules have these types without an import, in
// comments; nothing of this file is in the packed page. Where a value may be null, it says so; tsc
// doesn't look for nulls.

// ---- What is read

/** A number of a table, exact: `digits` in units of 10^-decimals. */
interface Exact {
  digits: bigint;
  decimals: number;
}

/** What is put in: a name, and a text or the bytes of a file. */
interface Source {
  name: string;
  text?: string;
  bytes?: Uint8Array;
}

/** How tables are read. Null: as the cells, or the bytes, show. Heads: own ones by those wanted. */
interface Reading {
  decimal?: string | null;
  encoding?: string | null;
  heads?: Record<string, string>;
  fillDown?: string[];
}

/**
 * Whether supplies may stay, demands may be short, and ranges of costs are told. `penalty`: what
 * each missing unit costs at places that have no penalty of their own.
 */
interface Policy {
  unused?: boolean;
  short?: boolean;
  ranges?: boolean;
  penalty?: string;
}

/** All that is chosen for a run. `each`: who or what gets one each; null: what the table shows. */
interface Choices {
  reading: Reading;
  policy: Policy;
  each: 'who' | 'what' | null;
  maximise: boolean;
  crossing: 'check' | null;
  engine: string;
}

/** A plan that comes with the page: its tables, and what is chosen for it, as pack.py packs it. */
interface Example {
  name: string;
  kind: 'flow' | 'pairs';
  texts: string[];
  heads: string;
  unused: boolean;
  short: boolean;
  ranges: boolean;
  crossing: boolean;
  each: Choices['each'] | '';
}

/** A line of a table, with its number. */
interface Row {
  line: number;
  cells: string[];
}

/** Where a cell stands: its column by its head or by its number from 1; '' is the whole line. */
interface Where {
  table: string;
  line: number;
  column: string;
}

/** What is wrong with cells of one kind: the first in words, and some others with their lines. */
interface Fault {
  text: string;
  count: number;
  more: Map<string, number>;
}

/** The room of a route or of a place; a most of null is no limit. A is Exact while it is read. */
interface Step<A = bigint> {
  most: A | null;
  cost: A;
}

interface Bounds<A = bigint> extends Step<A> {
  least: A;
}

/**
 * A period: its name, the named period whose rows hold in it, and the head of the stock of which it
 * is, '' for a named period.
 */
interface Period {
  name: string;
  rows: string;
  stock: string;
}

/**
 * A place. `spot` is null where the table has no x and y, `bounds` where nothing bounds it, and
 * `penalty` where that of all places holds. `period` is '' where there are none; `isStock` says
 * that its supply is its stock before the first period or after the last.
 */
interface Place<A = bigint> extends Row {
  name: string;
  period: string;
  isStock: boolean;
  supply: A;
  spot: Spot | null;
  bounds: Bounds<A> | null;
  penalty: A | null;
}

/**
 * A route as it is read, with its ends by the numbers of places from 1. It has a step or more. Its
 * periods are '' where there are none; `isBack` says that it goes back on the route of its line.
 */
interface ReadRoute<A = Exact> extends Row {
  departs: string;
  arrives: string;
  isBack: boolean;
  tail: number;
  head: number;
  least: A;
  steps: Step<A>[];
  both: boolean;
}

/** A route in whole numbers, with what all its steps carry; null is no limit. */
interface Route extends ReadRoute<bigint> {
  most: bigint | null;
}

/** A pair that an answer names, and its row if the table is a list. */
interface ChosenPair {
  who: string;
  what: string;
  cost: bigint;
  cells?: string[];
}

/** One of those that compete, and how many it must or can have. */
interface Rival {
  name: string;
  number: bigint;
}

/** What counts of a group for one that has its members: the least of its range, or its most. */
interface RivalGroup extends Rival {
  group: string;
  isLeast: boolean;
}

/** Those that compete: who must, who can, pairs, which count one each, and groups. */
interface Rivals {
  side: SendOrTake;
  musts: Rival[];
  cans: Rival[];
  pairs: ChosenPair[];
  groups: RivalGroup[];
  must: bigint;
  can: bigint;
}

/** The cell of a number, and where it stands. */
interface NumberCell {
  table: import('./tables.js').Table;
  line: number;
  cell: string;
}

/** A table as an answer repeats it. */
interface AnsweredTable {
  headLine: number;
  titles: string[];
  rows: Row[];
}

/** The words in which the page and mcf_plan differ. */
interface Speech {
  found: string;
  none: string;
  encoding: string;
  choose: string;
  orChoose: string;
  chosen: string;
  own(head: string): string;
  named(head: string, own: string): string;
  names(head: string, own: string): string;
  merged(title: string): string;
  fills(column: string): string;
  unused: string;
  short: string;
  penalty(number: string): string;
  ofAll: string;
  each: string;
  both: string;
  groups: string;
  leaves: string;
  limits: string;
}

// ---- Networks and answers

/** An arc: its ends are nodes, which count from 1. A most of null is no limit. */
interface Arc extends Ends {
  least: bigint;
  most: bigint | null;
  cost?: bigint;
}

/** What joins places: a route, a store or a place by its number; -1 is a route's other way. */
interface Joint extends Arc {
  kind: 'route' | 'keep' | 'through' | 'stays' | 'missing';
  number: number;
  sign: number;
}

type SendOrTake = 'send' | 'take';

/** A set of nodes that must send, or take, more than it can; with the arcs that make it so. */
interface Bottleneck<A = Joint> {
  side: SendOrTake;
  nodes: number[];
  must: bigint;
  can: bigint;
  forcing: A[];
  limiting: A[];
}

/** What an accepted flow says: of each arc, and of each node. */
interface Plan {
  cost: bigint;
  flows: bigint[];
  prices: bigint[];
}

/**
 * What a plan says of a route, or of what passes through a place; `free` of null is no limit, and
 * `dearer` of null a full route.
 */
interface RouteResult {
  carries: bigint;
  cost: bigint;
  free: bigint | null;
  saves: bigint;
  isExact: boolean;
  dearer: bigint | null;
}

/** From what to what the cost of a route's first step may change; null is no limit. */
interface CostRange {
  low: bigint | null;
  high: bigint | null;
}

/** What a plan says of a place; `through` is null where nothing bounds it. */
interface PlaceResult {
  price: bigint;
  group: number;
  unmet: bigint;
  through: RouteResult | null;
}

type Status =
  | 'flow' | 'blocked' | 'refused'
  | 'memory' | 'room' | 'choice' | 'rejected' | 'failed' | 'stopped';

/** What the module made of a text. The first three statuses have an accepted answer, with times. */
interface Judged {
  status: Status;
  verdict?: string;
  answer?: Uint8Array;
  solving?: number;
  judging?: number;
  peak?: number;
  why?: string;
}

/** The answer to tables, as bytes. */
interface Planned extends Judged {
  answer: Uint8Array;
}

/** The same with the answer as a text, and as bytes. */
interface Result extends Omit<Judged, 'answer'> {
  answer?: string;
  bytes?: Uint8Array;
}

interface Verdict {
  accepted: boolean;
  line: string;
}

/** What is asked of the module for tables. */
interface TableOptions extends PlanOptions, PairOptions {}

/** What solves: the page's client of its worker, or the module itself in tests. */
interface Solver {
  plan(texts: Uint8Array[], options: TableOptions): Promise<Result>;
  solve(text: string | Uint8Array, engine: string): Promise<Result>;
  check(text: string | Uint8Array, answer: string): Promise<Verdict>;
}

/** The module's exports, as page/build.sh names them. Addresses are of 64 bits. */
interface Exports {
  memory: WebAssembly.Memory;
  page_alloc(size: bigint): bigint;
  page_peak(): bigint;
  mcf_solve(
    text: bigint, size: bigint, choice: bigint, at: bigint, room: bigint, used: bigint
  ): number;
  mcf_check(
    text: bigint, size: bigint, answer: bigint, answerSize: bigint, told: bigint
  ): number;
  mcf_plan_flow(
    places: bigint, placesSize: bigint, routes: bigint, routesSize: bigint, options: bigint,
    at: bigint, room: bigint, used: bigint
  ): number;
  mcf_plan_pairs(
    costs: bigint, costsSize: bigint, options: bigint, at: bigint, room: bigint, used: bigint
  ): number;
}

/** How a table of persons and things is read, and which choice is the best. */
interface PairOptions {
  decimal?: string;
  each?: string | null;
  maximise?: boolean;
  crossing?: string | null;
  fillDown?: string[];
}

/** How tables are read, and what plans may leave. */
interface PlanOptions {
  decimal?: string;
  unused?: boolean;
  short?: boolean;
  ranges?: boolean;
  penalty?: string;
  fillDown?: string[];
}

/** Bytes in the module's memory. */
interface Lent {
  at: bigint;
  size: number;
}

// ---- What is shown

/** A column of a sheet. `edit` is the head of the input that its cells change; `of` says of two. */
interface Column {
  head: string;
  meaning: string;
  number?: boolean;
  share?: boolean;
  edit?: string;
  of?: boolean;
}

interface SheetRow {
  kind: '' | 'full' | 'idle';
  cells: string[];
}

/** A table to look at. One with columns to edit says of which table and which field they are. */
interface Sheet {
  title: string;
  columns: Column[];
  count: number;
  row(k: number): SheetRow;
  hasIdle?: boolean;
  totals?: string[];
  from?: import('./tables.js').Table;
  field?: 'places' | 'routes';
  note?: string;
  views?: Views;
}

/** Sheets of which one is chosen, with their labels and what they are about. */
interface Views<Of = unknown> {
  columns: Of[];
  labels: string[];
  chosen: number;
  sheet(k: number): Sheet;
}

/**
 * Sums by a column: what is summed, the title of the column, whether its values are numbers, and for
 * each of them the number of lines, amounts, and a cost, which is null if a cost is beyond what
 * figures take.
 */
interface Sums {
  table: 'places' | 'routes' | 'pairs';
  by: string;
  isNumber?: boolean;
  rows: [value: string, numbers: bigint[]][];
}

/** What is written as CSV; `figures` are the columns that have numbers. */
interface Csv {
  like: { separator: string; mark: boolean };
  heads: string[];
  rows: (string | bigint)[][];
  figures: number[];
}

/** A table to save, written as another is. */
interface SavedTable extends Csv {
  name: string;
  like: import('./tables.js').Table;
}

interface Finding {
  figures: string[][];
  sentence: string;
  cure: string;
}

/** What stands above a plan and its picture, and the units of amounts and of costs, or ''. */
interface Caption {
  title: string;
  source: string;
  unit: string;
  currency: string;
}

/**
 * What is compared of a plan or of pairs: figures by their names, what each route carries or which
 * pairs there are, and what is delivered, as one text.
 */
interface Side {
  isFlow: boolean;
  mark: string | null;
  figures: [name: string, value: string][];
  parts: SidePart[];
  delivered: string;
}

/** A row of a text: its cells, its first line and the line after its last, from 0. */
interface TextRow {
  cells: string[];
  begin: number;
  end: number;
}

/** A route or a pair, and its amount. */
interface SidePart {
  key: string;
  ends: string[];
  amount: string;
}

/**
 * What is shown of an answer. `scenes` are what is drawn, `plan` is only there with routes. The lead
 * names columns without a use, so it changes with the column of the sums that are shown.
 */
interface Shown {
  isPlan: boolean;
  headline(caption: Caption): string;
  mark?: string;
  lead(): string[];
  facts: [value: string | number, what: string, isAmount?: boolean][];
  findings: Finding[];
  scenes?: (caption: Caption) => Scene[];
  sheets: Sheet[];
  side?(): Side;
  tables(): SavedTable[];
}

/** The same, with the answer; and with the plan of tables, or the instance that a text is. */
interface Run extends Shown {
  plan?: import('./plan.js').FlowPlan;
  result: Result;
  instance?: { name: string; text: Uint8Array };
}

/** The same, with what stands above it. */
interface CaptionedRun extends Run {
  caption: Caption;
}

/** A change that made a plan anew; `undo` is null where it is taken back. */
interface Change {
  what: string;
  undo: (() => void) | null;
}

/** What is drawn. Links have their ends by the numbers of nodes from 0, and so have groups. */
interface Scene {
  heading: string;
  nodes: SceneNode[];
  links: SceneLink[];
  groups: Set<number>[];
  notes: Partial<Record<SceneLink['kind'], string>>;
  caption?: Caption;
}

/** A place as it is drawn; `short` is its name, which may be cut. */
interface SceneNode {
  name: string;
  short: string;
  note: string;
  kind: 'sends' | 'takes' | 'passes';
  spot: Spot | null;
}

interface SceneLink extends Ends {
  width: number;
  kind: 'full' | 'flowing' | 'idle' | 'limits' | 'forces' | 'other';
  label: string;
  title: string;
}

// ---- Parts of pictures

type Spot = [x: number, y: number];

type Size = [wide: number, high: number];

type Edges = [left: number, top: number, right: number, bottom: number];

/** A box by its middle. */
interface Box {
  x: number;
  y: number;
  width: number;
  height: number;
}

/** A curve of cubic pieces: where it begins, and for each piece three spots more. */
type Curve = Spot[];

/** What joins two nodes, which count from 0. */
interface Ends {
  tail: number;
  head: number;
}

/** What is laid out: `spots` is null where not all nodes have one; `starts` are those that send. */
interface LayoutTask {
  sizes: Size[];
  spots: Spot[] | null;
  links: Ends[];
  starts: number[];
}

/** Where nodes and links stand, and where the label of each link may, the best first. */
interface Layout {
  boxes: Box[];
  curves: Curve[];
  labels: Spot[][];
}

/** Draws a kind of places, or what blocks, for the legend. */
type Swatch = (kind: SceneNode['kind'] | 'blocks', x: number) => string;

/** How wide a drawing is, the drawing by where it begins, and what it means. */
type LegendEntry = [wide: number, drawn: (x: number) => string, words: string];

/** Lines of texts, and how wide they are. */
type Legend = [lines: string[], wide: number];

// ---- What tsc's own library lacks

/** In browsers since 2023, and not yet in the library of tsc 4.8. */
declare class DecompressionStream {
  constructor(format: 'gzip' | 'deflate');
  readonly readable: ReadableStream<Uint8Array>;
  readonly writable: WritableStream<Uint8Array>;
}

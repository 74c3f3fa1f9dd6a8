// The as-of join as WebAssembly, for a page or for node. Nothing is fetched: the caller hands over the bytes of rowkeeper.wasm.
//
// Words are BigInt64Arrays. A struct of rowkeeper.h is its words, in the header's order. Each call copies what it is given into the
// module's memory and copies back what it may write, so no array of the caller is kept.

// The words of each struct, and where the parts that this module reads begin.
const WORDS = { options: 82, took: 123, ported: 126, turned: 125, ran: 126, written: 2, viewed: 3, cell: 2, shown: 3, planned: 4, taken: 3 };
const OPTION = { by: 0, strategy: 1, allowEqual: 2, tolerance: 3, check: 4, descending: 5, nullsLast: 9, carried: 13, ranks: 14, distance: 81 };
const [WROTE, WANTS_RIGHT, IDLE] = [0n, 1n, 2n];
const STRATEGIES = { backward: 0n, forward: 1n, nearest: 2n };
const CHECKS = { off: 0n, on: 1n, strict: 2n };

// Of each call the struct that it gives and its parameters: s a struct, r words that are read, w words that may be written, n a
// number, z a length.
const CALLS = {
  open: ['took', 's'], left: ['took', 'swrr'], right: ['took', 'srwr'], end_right: ['took', 'srr'], move: ['took', 'srrww'],
  ports: ['ported', 'srrnnn'], turn: ['turned', 'srrw'], run: ['ran', 'szrrw'], spans: ['written', 'rrnnw'], merge: ['written', 'srrw'],
  standing: ['written', 'srnw'], view_plain: ['viewed', 'nr'], view_distance: ['viewed', 'nr'], view_cell: ['cell', 'nnrnn'],
  read_plain: ['shown', 'nrnn'], read_distance: ['shown', 'nrnn'], plan: ['planned', 'srrrr'], cut: ['written', 'snrrw'],
  join_cut: ['written', 'srrrrrw'], takings_add: ['taken', 'srnrrw'], takings_join: ['taken', 'srnrnw'],
};

/** A call that the library refused, by its number in rowkeeper.h. */
export class Refused extends Error {
  constructor(number) {
    super(`refused by ${number} (rowkeeper.h has the condition)`);
    this.number = Number(number);
  }
}

/** One call of the module over words. */
function callOf(module, name, gives, kinds) {
  const { memory, __heap_base: base } = module;
  const start = (Number(base.value) + 15) & ~15;
  return (...given) => {
    if (given.length !== kinds.length) throw new TypeError(`${name} takes ${kinds.length} arguments`);
    let end = start + 8 * WORDS[gives];
    const places = [...kinds].map((kind, i) => (kind === 'n' || kind === 'z' ? 0 : (end += 8 * given[i].length) - 8 * given[i].length));
    if (end > memory.buffer.byteLength) memory.grow(Math.ceil((end - memory.buffer.byteLength) / 65536));
    const before = new BigInt64Array(memory.buffer);
    const words = [start];
    [...kinds].forEach((kind, i) => {
      if (kind === 'n') return words.push(BigInt.asIntN(64, BigInt(given[i])));
      if (kind === 'z') return words.push(Math.min(Number(given[i]), 0xffffffff) | 0);
      before.set(given[i], places[i] / 8);
      return kind === 's' ? words.push(places[i]) : words.push(places[i], given[i].length);
    });
    module[`rowkeeper_${name}`](...words);
    const after = new BigInt64Array(memory.buffer);
    [...kinds].forEach((kind, i) => {
      if (kind === 'w') given[i].set(after.subarray(places[i] / 8, places[i] / 8 + given[i].length));
    });
    return after.slice(start / 8, start / 8 + WORDS[gives]);
  };
}

/** The calls of the library over words, from the bytes of rowkeeper.wasm. */
export async function load(bytes) {
  const { instance } = await WebAssembly.instantiate(bytes, {});
  const calls = { version: () => instance.exports.rowkeeper_version() };
  for (const [name, [gives, kinds]] of Object.entries(CALLS)) calls[name] = callOf(instance.exports, name, gives, kinds);
  return calls;
}

/** The words of a frame or a table from columns of equal length; null and undefined are null cells. */
export function frame(...columns) {
  const rows = columns.length ? columns[0].length : 0;
  if (columns.some((column) => column.length !== rows)) throw new RangeError('columns of different lengths');
  const count = rows * columns.length;
  const words = new BigInt64Array(2 + 2 * count);
  words[0] = BigInt(rows);
  words[1] = BigInt(columns.length);
  columns.forEach((column, c) => {
    for (let r = 0; r < rows; r++) {
      const cell = column[r];
      if (cell === null || cell === undefined) continue;
      words[2 + r * columns.length + c] = BigInt(cell);
      words[2 + count + r * columns.length + c] = 1n;
    }
  });
  return words;
}

/** The rows of a frame's words: arrays of BigInt, null for a null cell. */
export function rows(words) {
  const [count, columns] = [Number(words[0]), Number(words[1])];
  const cell = (at) => (words[2 + count * columns + at] ? words[2 + at] : null);
  return Array.from({ length: count }, (_, r) => Array.from({ length: columns }, (_, c) => cell(r * columns + c)));
}

/** The words of options. */
export function options({ by = 0, strategy = 'backward', allowEqual = true, tolerance = -1, check = 'off', descending = [],
  nullsLast = [], carried = 0, ranks = null, distance = false } = {}) {
  if (!(strategy in STRATEGIES)) throw new RangeError(`strategy is backward, forward or nearest, not ${strategy}`);
  if (!(check in CHECKS)) throw new RangeError(`check is off, on or strict, not ${check}`);
  const words = new BigInt64Array(WORDS.options);
  words[OPTION.by] = BigInt(by);
  words[OPTION.strategy] = STRATEGIES[strategy];
  words[OPTION.allowEqual] = BigInt(allowEqual);
  words[OPTION.tolerance] = BigInt(tolerance);
  words[OPTION.check] = CHECKS[check];
  descending.slice(0, 4).forEach((flag, i) => { words[OPTION.descending + i] = BigInt(flag); });
  nullsLast.slice(0, 4).forEach((flag, i) => { words[OPTION.nullsLast + i] = BigInt(flag); });
  words[OPTION.carried] = BigInt(carried);
  if (ranks) words.set([1n, BigInt(ranks.column), BigInt(ranks.codes.length), ...ranks.codes.slice(0, 64).map(BigInt)], OPTION.ranks);
  words[OPTION.distance] = BigInt(distance);
  return words;
}

/** A join with its two areas, whose lengths are in words. */
export class Join {
  #calls; #words; #left; #right;

  constructor(calls, opened, { leftWords = 1 << 16, rightWords = 1 << 16 } = {}) {
    this.#calls = calls;
    this.#left = new BigInt64Array(leftWords);
    this.#right = new BigInt64Array(rightWords);
    this.#take(calls.open(opened instanceof BigInt64Array ? opened : options(opened)), 1);
  }

  /** Keeps the join that a call gives, which begins at a word; the call's first word is its refusal. */
  #take(given, at) {
    this.#words = given.slice(at);
    if (given[0]) throw new Refused(given[0]);
    return given;
  }

  /** Takes a left frame, which then waits. */
  left(words) { this.#take(this.#calls.left(this.#words, this.#left, this.#right, words), 1); }

  /** Takes a right frame, whose rows are then held. */
  right(words) { this.#take(this.#calls.right(this.#words, this.#left, this.#right, words), 1); }

  /** Ends the right side: no right frame comes any more. */
  endRight() { this.#take(this.#calls.end_right(this.#words, this.#left, this.#right), 1); }

  /** Moves the join to areas of other lengths. */
  grow(leftWords, rightWords) {
    const [left, right] = [new BigInt64Array(leftWords), new BigInt64Array(rightWords)];
    this.#take(this.#calls.move(this.#words, this.#left, this.#right, left, right), 1);
    [this.#left, this.#right] = [left, right];
  }

  /** The answer frame of the left frame that has waited longest; 'wants right' or 'idle' if there is none yet. */
  turn() {
    const waiting = Number(this.#words[95]);
    const out = new BigInt64Array(2 + 20 * Math.max(1, waiting));
    const given = this.#calls.turn(this.#words, this.#left, this.#right, out);
    this.#words = given.slice(3);
    if (given[0] === WROTE) return out.slice(0, 2 + 2 * Number(out[0]) * Number(out[1]));
    if (given[0] === WANTS_RIGHT) return 'wants right';
    if (given[0] === IDLE) return 'idle';
    throw new Refused(given[1]);
  }

  /** The words of the join and of both areas: all of its state. */
  state() { return { join: this.#words.slice(), left: this.#left.slice(), right: this.#right.slice() }; }

  /** A join that goes on from a state. */
  static from(calls, state) {
    const join = new Join(calls, {}, { leftWords: state.left.length, rightWords: state.right.length });
    join.#words = state.join.slice();
    join.#left = state.left.slice();
    join.#right = state.right.slice();
    return join;
  }
}

/** What a call over tables wrote: the words of its output. */
function written(given, out) {
  if (given[0]) throw new Refused(given[0]);
  return out.slice(0, 2 + 2 * Number(out[0]) * Number(out[1]));
}

/** The pairs of points and intervals in which the point lies between the bounds. */
export function spans(calls, points, intervals, { lower = true, upper = true, room = 1 << 16 } = {}) {
  const out = new BigInt64Array(room);
  return written(calls.spans(points, intervals, BigInt(lower), BigInt(upper), out), out);
}

/** Two sorted books of notices as one. */
export function merge(calls, opened, house, festival) {
  const out = new BigInt64Array(house.length + festival.length);
  return written(calls.merge(options(opened), house, festival, out), out);
}

/** Which notices of a sorted book stand; place is that of the withdrawal column among the carried ones. */
export function standing(calls, opened, book, place) {
  const out = new BigInt64Array(2 + 4 * Number(book[0]));
  return written(calls.standing(options(opened), book, BigInt(place), out), out);
}

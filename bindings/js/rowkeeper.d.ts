/** The calls of rowkeeper.h over words: structs and slices are BigInt64Arrays, numbers are bigint. */
export interface Calls {
  version(): bigint;
  [call: string]: (...words: (BigInt64Array | bigint | number)[]) => any;
}
export interface Options {
  by?: number;
  strategy?: 'backward' | 'forward' | 'nearest';
  allowEqual?: boolean;
  tolerance?: number | bigint;
  check?: 'off' | 'on' | 'strict';
  descending?: boolean[];
  nullsLast?: boolean[];
  carried?: number;
  ranks?: { column: number; codes: (number | bigint)[] } | null;
  distance?: boolean;
}
export interface State { join: BigInt64Array; left: BigInt64Array; right: BigInt64Array }
export type Cell = number | bigint | null | undefined;
export class Refused extends Error { number: number }
export function load(bytes: BufferSource): Promise<Calls>;
export function frame(...columns: ArrayLike<Cell>[]): BigInt64Array;
export function rows(words: BigInt64Array): (bigint | null)[][];
export function options(options?: Options): BigInt64Array;
export class Join {
  constructor(calls: Calls, options: Options | BigInt64Array, areas?: { leftWords?: number; rightWords?: number });
  left(words: BigInt64Array): void;
  right(words: BigInt64Array): void;
  endRight(): void;
  grow(leftWords: number, rightWords: number): void;
  turn(): BigInt64Array | 'wants right' | 'idle';
  state(): State;
  static from(calls: Calls, state: State): Join;
}
export function spans(calls: Calls, points: BigInt64Array, intervals: BigInt64Array,
  how?: { lower?: boolean; upper?: boolean; room?: number }): BigInt64Array;
export function merge(calls: Calls, options: Options, house: BigInt64Array, festival: BigInt64Array): BigInt64Array;
export function standing(calls: Calls, options: Options, book: BigInt64Array, place: number): BigInt64Array;

// The wrapper: frames, refusals, states, the calls over tables. node calls.mjs rowkeeper.wasm
import assert from 'node:assert/strict';
import { readFileSync } from 'node:fs';
import { Join, Refused, frame, load, merge, rows, spans, standing } from '../rowkeeper.mjs';

const bytes = readFileSync(process.argv[2]);
assert.deepEqual(WebAssembly.Module.imports(new WebAssembly.Module(bytes)), []);
const calls = await load(bytes);
assert.deepEqual([...frame([7, 7], [12, null])], [2n, 2n, 7n, 12n, 7n, 0n, 1n, 1n, 1n, 0n]);
assert.deepEqual(rows(frame([1], [null])), [[1n, null]]);
assert.throws(() => frame([1], []), RangeError);
assert.throws(() => new Join(calls, { by: 9 }), (error) => error instanceof Refused && error.number === 1);

const join = new Join(calls, { by: 1, carried: 1 }, { leftWords: 64, rightWords: 64 });
join.right(frame([1, 1], [10, 20], [900, 950]));
join.left(frame([1, 1], [15, 25]));
assert.equal(join.turn(), 'wants right');
const later = Join.from(calls, join.state());
for (const each of [join, later]) {
  each.grow(128, 256);
  each.endRight();
  assert.deepEqual(rows(each.turn()), [[0n, 900n], [1n, 950n]]);
  assert.equal(each.turn(), 'idle');
}
assert.deepEqual(rows(merge(calls, {}, frame([1, 3]), frame([2]))), [[1n], [2n], [3n]]);
assert.deepEqual(rows(spans(calls, frame([5, 15]), frame([0, 10], [7, 20]))), [[0n, 0n], [1n, 1n]]);
assert.equal(rows(standing(calls, { carried: 1 }, frame([1, 1], [0, 0]), 0)).length, 2);
console.log('frames, refusals, states, merge, spans and standing');

// Answers a call script of joins (oracle/README.md) on standard input: node drive.mjs rowkeeper.wasm
import { readFileSync } from 'node:fs';
import { load } from '../rowkeeper.mjs';

const calls = await load(readFileSync(process.argv[2]));
const answers = [];
let options = null, join = null, left = null, right = null;
const begun = (length, step, limit, less) => BigInt64Array.from({ length }, (_, i) => BigInt((step * i) % limit - less));

function opened(words, flags, ranks, carried, distance) {
  const made = new BigInt64Array(82);
  made.set(words.slice(0, 5));
  for (let i = 0; i < Number(words[0]) && i < 4; i++) [made[5 + i], made[9 + i]] = [flags[2 * i], flags[2 * i + 1]];
  made[13] = carried;
  made.set(ranks, 14);
  made[81] = distance;
  return made;
}

function open(made, leftWords, rightWords) {
  const given = calls.open(made);
  if (given[0]) {
    join = null;
    return `refused ${given[0]}`;
  }
  [join, left, right] = [given.slice(1), begun(leftWords, 7, 11, 5), begun(rightWords, 5, 13, 6)];
  return 'ok';
}

function took(given) {
  join = given.slice(1);
  return given[0] ? `refused ${given[0]}` : 'ok';
}

function turn(length) {
  const out = begun(length, 3, 7, 9);
  const given = calls.turn(join, left, right, out);
  join = given.slice(3);
  if (given[0] === 0n) return `wrote ${given[2]} ${out.slice(0, 2 + 2 * Number(out[0]) * Number(out[1])).join(' ')}`;
  return ['', 'wants', 'idle', `refused ${given[1]}`][Number(given[0])];
}

function ports(words) {
  const given = calls.ports(join, left, right, ...words);
  join = given.slice(4);
  return given[0] ? `refused ${given[0]}` : `ok ${given[1]} ${given[2]} ${given[3]} ${join[96]}`;
}

const ACTS = {
  open: (w) => open(opened(w, w.slice(5), [], 0n, 0n), Number(w[w.length - 2]), Number(w[w.length - 1])),
  options: (w) => {
    const codes = Math.min(Number(BigInt.asUintN(64, w[9])), 64);
    options = opened(w, w.slice(10 + codes), w.slice(7, 10 + codes), w[5], w[6]);
    return 'ok';
  },
  opens: (w) => open(options, Number(w[0]), Number(w[1])),
  left: (w) => took(calls.left(join, left, right, w)),
  right: (w) => took(calls.right(join, left, right, w)),
  end: () => took(calls.end_right(join, left, right)),
  ports,
  turn: (w) => turn(Number(w[0])),
};
for (const line of readFileSync(0, 'utf8').split('\n')) {
  const [name, ...words] = line.split('#')[0].trim().split(/\s+/);
  if (!name) continue;
  const needsJoin = !['open', 'options', 'opens'].includes(name);
  answers.push(needsJoin && !join ? 'no join' : ACTS[name](BigInt64Array.from(words, BigInt)));
}
process.stdout.write(answers.join('\n') + '\n');

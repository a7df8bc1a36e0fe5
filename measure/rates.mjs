// The rates of the module for JavaScript, for measure/rates.py: node measure/rates.mjs MODULE PAIRS
// ROUNDS. PAIRS has pictures and certificates, each pair behind their lengths. Prints how many
// checks, verdicts, and verdicts with certificates a second of processor time are made.
import {readFileSync} from 'node:fs';
import {load} from '../web/nonobench.mjs';
import {processorTime} from './figures.mjs';

const [module, name, rounds] = process.argv.slice(2);
const file = readFileSync(name), pairs = [];
for (let at = 0; at < file.length;) {
  const sizes = [file.readUInt32LE(at), file.readUInt32LE(at + 4)];
  at += 8;
  pairs.push(sizes.map((size) => file.subarray(at, at += size)));
}
const engine = await load(readFileSync(module));

// What a bench on a picture answers.
function said(picture, lines) {
  const bench = engine.open(picture);
  const text = bench.say(lines);
  bench.close();
  return text.startsWith('unique\n');
}

function rate(ask) {
  let best = 0;
  for (let round = 0; round < rounds; round += 1) {
    const begun = processorTime();
    for (const pair of pairs)
      if (!ask(...pair)) throw new Error('a pair is refused');
    best = Math.max(best, 1000 * pairs.length / (processorTime() - begun));
  }
  return best;
}

console.log([
  rate((picture, certificate) => engine.check(picture, certificate).accepted),
  rate((picture) => said(picture, 'verdict\n')),
  rate((picture) => said(picture, 'verdict\ncertify\n')),
].join(' '));

// How long the safe brush takes to ask about the cells of a picture: node measure/safe.mjs
// NONOBENCH.WASM [PICTURE.ppm ..]. Times are of the processor, all threads of node together.
// Pictures are those of measure/pictures that lines solve where none is named, and one of 20 by 20
// cells in four colours. Pictures of more than 900 cells are asked about near a pointer in their
// middle, as the page does. The status is 1 where a picture of up to 900 cells takes more than 300
// milliseconds, or a larger one more than a second.
import {readFileSync, readdirSync} from 'node:fs';
import {load} from '../web/nonobench.mjs';
import '../page/test/limits.mjs';
import {processorTime as now} from './figures.mjs';

const {answersTo} = await import('../page/engine/answers.js');
const {askMarks, goalOf} = await import('../page/engine/safety.js');

const [NEAR, MOST_ALL, ALL_MS, NEAR_MS] = [6, 900, 300, 1000];
const [wasm, ...named] = process.argv.slice(2);
const engine = await load(readFileSync(wasm));
const folder = new URL('pictures/', import.meta.url);

// A picture of blots in three colours, by chance.
function blots(side = 20) {
  let state = 5;
  const chance = (below) => (state = (state * 48271) % 2147483647) % below;
  const colours = ['255 255 255', '0 0 0', '200 40 40', '40 80 200'];
  const cells = Array(side * side).fill(0);
  for (let blot = 0; blot < 12; blot++) {
    const [row, col, high, wide] = [chance(16), chance(16), 2 + chance(4), 2 + chance(4)];
    for (let at = row; at < Math.min(side, row + high); at++)
      cells.fill(1 + blot % 3, at * side + col, at * side + Math.min(side, col + wide));
  }
  return `P3\n${side} ${side}\n255\n${cells.map((one) => colours[one]).join('\n')}\n`;
}

const pictures = named.length ? named.map((name) => [name, readFileSync(name, 'utf8')]) : [
  ['20 by 20, four colours', blots()],
  ...readdirSync(folder).map((name) => [name, readFileSync(new URL(name, folder), 'utf8')])
];
console.log('| picture | cells asked | unsafe | ms |\n|---|---|---|---|');
for (const [name, text] of pictures) {
  const bench = engine.open(text, {});
  const copy = {
    size: null,
    async say(...lines) {
      return answersTo(lines, bench.say(lines.map((line) => `${line}\n`).join('')), this.size);
    }
  };
  const [, report, verdict] = await copy.say('allow 100', 'report', 'verdict');
  const state = {...report, verdict};
  const {rows, columns} = state;
  copy.size = {rows, columns};
  const isAll = rows * columns <= MOST_ALL;
  const isNear = (place) => Math.max(
                                Math.abs(Math.floor(place / columns) - (rows >> 1)),
                                Math.abs(place % columns - (columns >> 1))
                            ) <= NEAR;
  const places = [...Array(rows * columns).keys()].filter((place) => isAll || isNear(place));
  if (goalOf(state) !== 'lines') continue;
  const begun = now();
  const counts = {safe: 0, breaks: 0, undecided: 0};
  await askMarks(copy, state, {places, letter: 'a', goal: 'lines'}, (some) => {
    for (const mark of some.values()) counts[mark]++;
  });
  const spent = now() - begun;
  if (spent > (isAll ? ALL_MS : NEAR_MS)) process.exitCode = 1;
  const asked = counts.safe + counts.breaks + counts.undecided;
  console.log(`| ${name} | ${asked} | ${counts.breaks} | ${spent.toFixed(0)} |`);
  bench.close();
}

// Whether hints lead to the end of each puzzle that lines solve: node measure/hints.mjs
// NONOBENCH.WASM FOLDER .. [--most N]. FOLDER has P3 pictures, as measure/icons.py makes them; the
// first N (200) count that lines solve. A solver who does only what hints tell marks colours alone,
// and then background, too. The status is 1 where one is not solved.
import {readFileSync, readdirSync} from 'node:fs';
import {join} from 'node:path';
import {parseArgs} from 'node:util';
import {load} from '../web/nonobench.mjs';
import '../page/test/limits.mjs';
import {median} from './figures.mjs';

const {followed, puzzleOf} = await import('../page/test/follower.mjs');

const {positionals: [wasm, ...folders], values} =
    parseArgs({allowPositionals: true, options: {most: {type: 'string', default: '200'}}});
const engine = await load(readFileSync(wasm));
const hints = new Map([[false, []], [true, []]]);
let [pictures, solved] = [0, 0];
const names = folders.flatMap(
    (folder) => readdirSync(folder).filter(
                                       (one) => one.endsWith('.ppm')
    ).sort().map((one) => join(folder, one))
);
for (const name of names) {
  if (pictures === Number(values.most)) break;
  const puzzle = puzzleOf(engine, readFileSync(name, 'utf8'));
  if (puzzle.state.open) continue;
  pictures++;
  let isSolved = true;
  for (const [marksBackground, counts] of hints) {
    const done = await followed(puzzle, marksBackground);
    counts.push(done.hints);
    if (!done.left.length) continue;
    isSolved = false;
    console.log(`${name}: ${done.left.length} cells are left after ${done.hints} hints`);
  }
  if (isSolved) solved++;
}
for (const [marksBackground, counts] of hints)
  console.log(`${marksBackground ? 'with background' : 'colours alone'}: ${
      median(counts)} hints in the median, at most ${Math.max(...counts)}`);
console.log(`${solved} of ${pictures} pictures that lines solve are solved by hints alone`);
process.exitCode = solved < pictures ? 1 : 0;

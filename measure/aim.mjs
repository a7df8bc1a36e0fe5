// How often a grade beside that of a picture is reached by at most four repainted cells or one
// given, and after which time. Times are of the processor, all threads of node together, so that
// other work beside it does not count. Usage: node measure/aim.mjs NONOBENCH.WASM FOLDER [--most N]
// [--seconds S] FOLDER has P3 pictures, as measure/icons.py makes them; the first N (200) count
// that line logic solves. The seconds (4) are of work, as the page counts it. Each proposal is
// painted into a picture of its own and judged and graded anew. The status is 1 where less than
// half reach a grade beside theirs, or one is wrong.
import {readFileSync, readdirSync} from 'node:fs';
import {join} from 'node:path';
import {parseArgs} from 'node:util';
import {load} from '../web/nonobench.mjs';
import '../page/test/limits.mjs';
import {fallsOf, grading} from '../page/engine/serve.js';
import {LINE_WORDS} from '../page/repair/aiming.js';
import {Board, cellsOf} from '../page/repair/board.js';
import {aim} from '../page/repair/repair.js';
import {median, processorTime as now} from './figures.mjs';

const {positionals: [wasm, folder], values} = parseArgs({
  allowPositionals: true,
  options: {most: {type: 'string', default: '200'}, seconds: {type: 'string', default: '4'}}
});
const engine = await load(readFileSync(wasm));

// What a session says of a picture: its colours and rows of letters, and its grade where line logic
// solves it, else null.
function reportOf(bench) {
  const lines = bench.say('allow 20000\nreport\n').split('\n').slice(1);
  const rows = Number(lines[0].split(' ')[1]);
  const at = lines.indexOf('picture');
  const picture = lines.slice(at + 1, at + 1 + rows);
  const board = new Board({rows, columns: picture[0].length, cells: cellsOf(picture)});
  return {board, word: grading(engine, board)(board.cells, []).word};
}

// The word of a proposal, anew.
function wordAnew({board}, {cells = [], given = []}) {
  const numbers = board.cells.slice();
  for (const {index, colour} of cells) numbers[index] = colour;
  return grading(engine, board)(numbers, given).word;
}

const rows = [];
let [pictures, wrong] = [0, 0];
for (const name of readdirSync(folder).filter((one) => one.endsWith('.ppm')).sort()) {
  if (pictures === Number(values.most)) break;
  const bench = engine.open(readFileSync(join(folder, name)));
  const report = reportOf(bench);
  if (report.word) {
    pictures++;
    const {board} = report;
    const own = LINE_WORDS.indexOf(report.word);
    for (const word of [LINE_WORDS[own - 1], LINE_WORDS[own + 1]].filter(Boolean)) {
      const [from, found] = [now(), []];
      const say = (lines) => bench.say(`${lines.join('\n')}\n`);
      await aim(
          {
            board,
            word,
            seconds: Number(values.seconds),
            say,
            path: () => fallsOf(say, board),
            grade: grading(engine, board)
          },
          {found: (one) => found.push({...one, ms: now() - from})}
      );
      wrong +=
          found
              .filter(
                  (one) => wordAnew(report, one) !== word || (one.cells ?? one.given).length > 4
              )
              .length;
      rows.push({
        name,
        change: `${report.word} to ${word}`,
        first: found[0]?.ms,
        least: Math.min(...found.filter(({cells}) => cells).map(({cells}) => cells.length)),
        given: found.some(({given}) => given)
      });
    }
  }
  bench.close();
}
console.log(
    '| from to | pictures | reached | 1 cell | 2 | 3 | 4 | 1 given | first ms, median | largest |\n|---|---|---|---|---|---|---|---|---|---|'
);
for (const change of [...new Set(rows.map((row) => row.change))].sort()) {
  const some = rows.filter((row) => row.change === change);
  const first = some.map((row) => row.first).filter((one) => one !== undefined);
  console.log(`| ${
          [change,
           some.length,
           first.length,
           ...[1, 2, 3, 4].map((size) => some.filter((row) => row.least === size).length),
           some.filter((row) => row.given).length,
           median(first)?.toFixed(0) ?? '',
           Math.max(0, ...first).toFixed(0)]
              .join(' | ')} |`);
}
const reached = new Set(rows.filter((row) => row.first !== undefined).map((row) => row.name)).size;
console.log(
    `\n${reached} of ${pictures} pictures reach a grade beside theirs; ${wrong} proposals are wrong`
);
process.exitCode = wrong > 0 || reached * 2 < pictures ? 1 : 0;

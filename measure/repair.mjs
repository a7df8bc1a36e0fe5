// How few cells repairs take, and how many milliseconds, over a folder of pictures, by how many
// cells are open. Times are of the processor, all threads of node together, so that other work
// beside it does not count. Usage: node measure/repair.mjs NONOBENCH.WASM FOLDER [--every N]
// [--seconds S] [--free] FOLDER has P3 pictures, as measure/icons.py makes them. The seconds (10)
// are of work, as the page counts it.
// --free drops the damage rule. Each best repair is painted into a picture of its own and judged
// anew, without a bound. The last lines say which goals are met; the status is 1 where one is
// missed.
import {readFileSync, readdirSync} from 'node:fs';
import {join} from 'node:path';
import {parseArgs} from 'node:util';
import {load} from '../web/nonobench.mjs';
import {Board, cellsOf} from '../page/repair/board.js';
import {repair} from '../page/repair/repair.js';
import {median, processorTime as now} from './figures.mjs';

const {positionals: [wasm, folder], values} = parseArgs({
  allowPositionals: true,
  options: {
    every: {type: 'string', default: '1'},
    seconds: {type: 'string', default: '10'},
    free: {type: 'boolean', default: false}
  },
});
const seconds = Number(values.seconds);
const engine = await load(readFileSync(wasm));

// What a session says of a file: its colours and rows of letters, how many cells are open, the
// verdict's word.
function reportOf(bench) {
  const lines = bench.say('allow 20000\nreport\n').split('\n').slice(1);
  const [, rows, columns] = lines[0].split(' ').map(Number);
  const at = lines.indexOf('picture');
  const colours = lines.slice(2, at).map((line) => line.slice(2));
  const open = Number(lines.find((line) => line.startsWith('open ')).slice(5));
  const word = lines.find((line) => line.startsWith('verdict ')).slice(8);
  return {rows, columns, colours, picture: lines.slice(at + 1, at + 1 + rows), open, word};
}

// The verdict's word and the open cells of changed cells, in a session of their own.
function judgedAnew({rows, columns, colours}, cells) {
  const bench = engine.open(
      `P3\n${columns} ${rows}\n255\n${[...cells].map((colour) => colours[colour]).join('\n')}\n`
  );
  const {open} = reportOf(bench);
  const word = bench.say('allow off\nverdict\n').split('\n')[1];
  bench.close();
  return {word, open};
}

const isWanted = ({word, open}, goal) =>
    (goal === 'lines' ? word === 'unique' && open > 0 : word !== 'unique');

// The pictures that a goal is for, or each so manieth of them.
function wantedNames(goal) {
  const names = readdirSync(folder).filter((name) => name.endsWith('.ppm')).sort();
  const wanted = names.filter((name) => {
    const bench = engine.open(readFileSync(join(folder, name)));
    const is = isWanted(reportOf(bench), goal);
    bench.close();
    return is;
  });
  return wanted.filter((_, at) => at % Number(values.every) === 0);
}

async function tried(name, goal) {
  const bench = engine.open(readFileSync(join(folder, name)));
  const report = reportOf(bench);
  const cells = cellsOf(report.picture);
  const board = new Board({rows: report.rows, columns: report.columns, cells, rule: !values.free});
  const say = (lines) => bench.say(`${lines.join('\n')}\n`);
  const from = now();
  const found = [];
  const result = await repair({board, goal, say, seconds}, {
    found: (one) => found.push({cells: one.cells, milliseconds: now() - from}),
  });
  bench.close();
  const best = found.reduce(
      (least, one) => (!least || one.cells.length < least.cells.length ? one : least), null
  );
  const row = {
    name,
    share: report.open / cells.length,
    size: best?.cells.length ?? Infinity,
    first: found[0]?.milliseconds ?? null,
    best: best?.milliseconds ?? null,
    proved: result.proved,
    isWrong: false
  };
  if (best) {
    for (const {index, colour} of best.cells) cells[index] = colour;
    const {word, open} = judgedAnew(report, cells);
    row.isWrong = word !== 'unique' || (goal === 'lines' && open > 0);
  }
  return row;
}

const within = (rows, size) => rows.filter((row) => row.size <= size).length;

function tableRow(name, rows) {
  const first = rows.filter((row) => row.first !== null).map((row) => row.first);
  const counts = [1, 2, 4, 8, 1e9].map((size) => within(rows, size));
  const times = first.length ? [median(first).toFixed(0), Math.max(...first).toFixed(0)] : ['', ''];
  console.log(`| ${
          [name,
           rows.length,
           ...counts,
           ...times,
           rows.filter((row) => row.proved >= row.size - 1).length]
              .join(' | ')} |`);
}

async function table(title, goal) {
  const rows = [];
  for (const name of wantedNames(goal)) rows.push(await tried(name, goal));
  console.log(`\n${
      title}\n\n| open cells | pictures | <= 1 | <= 2 | <= 4 | <= 8 | any | first ms, median | largest | proved least |\n|---|---|---|---|---|---|---|---|---|---|`
  );
  const bands =
      [['below 10 %', 0, 0.1], ['10 to 40 %', 0.1, 0.4], ['40 % and more', 0.4, 2], ['all', 0, 2]];
  for (const [name, from, to] of bands)
    tableRow(name, rows.filter(({share}) => share >= from && share < to));
  for (const row of rows.filter(({isWrong}) => isWrong)) console.log(`WRONG: ${row.name}`);
  for (const row of rows.filter(({size, best}) => size <= 2 && best > 500))
    console.log(`late: ${row.name}, ${row.size} cells after ${row.best.toFixed(0)} ms`);
  for (const row of rows.filter(({first}) => first > 2000))
    console.log(`late: ${row.name}, the first after ${row.first.toFixed(0)} ms`);
  return rows;
}

let missed = 0;
function goal(text, part, of, percent) {
  const isMet = of === 0 || part >= (percent / 100) * of;
  if (!isMet) missed++;
  console.log(`${isMet ? 'met' : 'MISSED'}: ${text}: ${part} of ${of} (${percent} %)`);
}

const unique = await table('Ambiguous pictures until they are unique', 'unique');
const lines =
    await table('Unique pictures that need a guess, until line logic solves them', 'lines');
const [few, some] = [
  unique.filter(({share}) => share < 0.1),
  unique.filter(({share}) => share >= 0.1 && share < 0.4)
];
console.log();
goal('below 10 % open, at most 4 cells', within(few, 4), few.length, 95);
goal('10 to 40 % open, at most 8 cells', within(some, 8), some.length, 90);
goal('any number of cells', within(unique, 1e9), unique.length, 90);
goal('solved by line logic with at most 8 cells', within(lines, 8), lines.length, 70);
goal(
    'the first proposal within 2 s',
    unique.filter(({first}) => first !== null && first <= 2000).length,
    within(unique, 1e9),
    100
);
goal(
    'the first proposal within 0.5 s',
    [...unique, ...lines].filter(({first}) => first !== null && first <= 500).length,
    within([...unique, ...lines], 1e9),
    90
);
const small = unique.filter(({size}) => size <= 2);
goal(
    'one or two cells within 0.5 s', small.filter(({best}) => best <= 500).length, small.length, 100
);
goal(
    'answers that were judged anew',
    [...unique, ...lines].filter(({isWrong, size}) => size < Infinity && !isWrong).length,
    within([...unique, ...lines], 1e9),
    100
);
process.exitCode = missed > 0 ? 1 : 0;

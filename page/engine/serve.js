// What a worker does: one engine and one bench. It gets {id, call, ...} and answers {id, ok}
// or {id, fault: {kind, text}}; before that a long call tells what it finds, {id, report}.

import {hintOf} from '../../web/nonobench.mjs';
import {Board} from '../repair/board.js';
import {aim, delay, give, mix, repair} from '../repair/repair.js';
import {answersTo} from './answers.js';

const BACKGROUND = '0,0,0';

// Cells of a board as a puzzle: their numbers are the samples of red.
const puzzleOf = (cells, {rows, columns}) =>
    `P3 ${columns} ${rows} 15\n${Array.from(cells, (colour) => `${colour} 0 0`).join('\n')}\n`;
const placesOf =
    (givens, {columns}
    ) => [...givens].map((index) => [Math.floor(index / columns) + 1, (index % columns) + 1]);

/**
 * What an engine says of cells of a board with givens: the cells that line logic leaves open, and
 * where it leaves none the grade.
 */
export const grading = (engine, size) => (cells, givens) => {
  const {open, grade} = engine.assess(
      puzzleOf(cells, size),
      {background: BACKGROUND, published: placesOf(givens, size), allowance: 0, format: 'ppm'}
  );
  return {...grade, open, word: open ? null : grade?.word};
};

/** The path that an engine tells of cells of a board with its givens. */
export const pathIn = (engine, board) => (cells) => {
  const bench = engine.open(puzzleOf(cells, board), {background: BACKGROUND, format: 'ppm'});
  const lines = [...placesOf(board.givens, board).map((place) => `pin ${place.join(' ')}`), 'path'];
  try {
    return answersTo(lines, bench.say(lines.map((line) => `${line}\n`).join('')), board).at(-1);
  } finally {
    bench.close();
  }
};

/** The places of the cells that fall in a session's picture, in that order. */
export const fallsOf = (say, size) => answersTo(
                                          ['path'], say(['path']), size
)[0].looks.flatMap(({falls}) => falls.map(({index}) => index));

// The calls that are answered, by name.
function callsOf(load) {
  let engine = null;
  let opened = null;
  const say = (lines) => opened.say(lines.map((line) => `${line}\n`).join(''));
  const onBoard = (fields) => ({...fields, board: new Board(fields.board), say});
  return {
    async load({module}) {
      engine = await load(module);
      return true;
    },
    open({file, history, background}) {
      opened?.close();
      opened = null;
      opened = engine.open(file, {history, background});
      return true;
    },
    say: ({lines}) => opened.say(lines),
    check({picture, certificate, background, published}) {
      const answer = engine.check(picture, certificate, {background, published});
      return {...answer, hint: hintOf(answer.text, certificate)};
    },
    prove: ({picture, ...options}) => engine.prove(picture, options),
    repair: (fields, report) => repair(onBoard(fields), {
      found: (found) => report({found}),
      nearer: (nearer) => report({nearer}),
      placed: (places, placed) => report({places, placed})
    }),
    give: (fields, report) => give(onBoard(fields), {found: (found) => report({found})}),
    mix: (fields, report) => mix(onBoard(fields), {found: (found) => report({found})}),
    aim: (fields, report) =>
        aim({
          ...onBoard(fields),
          path: () => fallsOf(say, fields.board),
          grade: grading(engine, fields.board)
        },
            {found: (found) => report({found})}),
    delay: (fields, report) => delay(
        {...onBoard(fields), path: pathIn(engine, fields.board)},
        {begun: (now) => report({now}), found: (found) => report({found})}
    ),
    assess: ({puzzle, options}) => engine.assess(puzzle, options),
  };
}

/**
 * Lets a worker's scope answer calls; `load` makes an engine of the module's bytes, as
 * web/nonobench.mjs has it.
 */
export function serve(scope, load) {
  const calls = callsOf(load);
  scope.onmessage = async ({data}) => {
    const {id, call, ...fields} = data;
    try {
      scope.postMessage(
          {id, ok: await calls[call](fields, (report) => scope.postMessage({id, report}))}
      );
    } catch (fault) {
      scope.postMessage({
        id,
        fault: {kind: fault.kind ?? 'ended', text: String(fault.text ?? fault.message ?? fault)}
      });
    }
  };
}

// Trials of what can turn in an ambiguous picture.
import assert from 'node:assert/strict';
import {isOpen} from './page_common.mjs';
import {ppmOf} from './page_trial.mjs';

// Two corners, each of which leans either way by itself: four pictures.
const APART =
    ['a.........', '.a........', ...Array(6).fill('.'.repeat(10)), '.......b..', '........b.'];
// One of them: row 1 and 2, columns 1 and 2.
const PAIR = ['a.....', '.a....', '......', '...aaa', '...aaa', '...aaa'];

const says = (page, wanted) =>
    page.until((text) => document.getElementById('turns-said').textContent === text, wanted);
const shown = (page) => page.run(
    () => bench.state.picture.map(
        (row, at) => [...row].map((_, col) => sheet.letterAt(at, col)).join('')
    )
);

/**
 * An ambiguous picture says which cells can turn, and of places that turn by themselves at least
 * how many pictures there are; each is shown turned, and back again; a unique one says nothing.
 */
export async function turningPoint(user) {
  const {page, trial} = user;
  await trial.open(ppmOf(PAIR), 'pair');
  await isOpen(page);
  assert.equal(await trial.judged(), 'ambiguous');
  await says(page, 'These 4 cells can turn.');
  assert.deepEqual(await page.run(() => sheet.turns), [[0, 1, 6, 7]]);

  await trial.open(ppmOf(APART), 'apart');
  assert.equal(await trial.judged(), 'ambiguous');
  await says(page, '2 places can turn, each by itself: at least 4 pictures.');
  await user.menu('check', 'turn');
  const first = await shown(page);
  await user.menu('check', 'turn');
  const second = await shown(page);
  const turned = [['.a........', 'a.........'], ['........b.', '.......b..']];
  const wanted = [[...turned[0], ...APART.slice(2)], [...APART.slice(0, 8), ...turned[1]]];
  assert.deepEqual(
      [first, second].sort(), wanted.sort(), 'each turns by itself: two more of the four pictures'
  );
  await user.menu('check', 'turn');
  assert.deepEqual(await shown(page), APART, 'and back again');
  if (await page.run(() => document.getElementById('verdict-open').checkVisibility()))
    await user.press('#verdict-open');
  await user.press('#turns-list button');
  assert.notDeepEqual(await shown(page), APART);
  assert.deepEqual(await trial.picture(), APART, 'it is only shown');
  await page.run(() => bench.stroke(['paint 1 2 a', 'paint 9 9 b']).then(() => true));
  assert.equal(await trial.judged(), 'unique');
  await says(page, '');
  assert.deepEqual(await page.run(() => sheet.turns), []);
}

// Trials of the panel Fix it beyond a list of repaints: symmetry, locks, proposals that repaint and
// give, partial credit; of the grade where it stands whole; of the path through a large picture;
// and of two fingers in Play.
import assert from 'node:assert/strict';
import {readFileSync} from 'node:fs';
import {MOST_WAIT, pause} from './page_browser.mjs';
import {cellNames, drop, examples, frames, fresh, isOpen} from './page_common.mjs';
import {SIZES, Trial, ppmOf} from './page_trial.mjs';

// Two single cells mend it: row 1, column 2 and row 2, column 1.
const PAIR = ['a.....', '.a....', '......', '...aaa', '...aaa', '...aaa'];
const TWO_COLOURS = ['a.....', '.a....', '......', '...bbb', '...bbb', '...bbb'];
// Left and right are the same. Eight single cells mend it, and nine pairs of opposite cells.
const MIRRORED = ['...aa...', 'aaa..aaa', '..a..a..', '........', 'a..aa..a', '........'];
// Two corners that may lean either way, and be exchanged. Where only the first may be painted, one
// of its cells and one given do.
const CORNERS = ['a......', '.a.....', '.......', '.......', '.......', '.....a.', '......a'];
// Ten corners in ten colours, each of which leans either way: ten cells.
const LOOSE = Array.from(
    {length: 30},
    (_, row) => Array
                    .from(
                        {length: 30},
                        (_, col) => {
                          const [part, other] = [Math.floor(row / 3), Math.floor(col / 3)];
                          return part === other && row % 3 < 2 && row % 3 === col % 3 ?
                              'abcdefghij'[part] :
                              '.';
                        }
                    )
                    .join('')
);
const COLOURS = Object.fromEntries([...'.abcdefghij'].map(
    (letter,
     at) => [letter, at === 0 ? '255 255 255' : `${at * 20} ${(at * 77) % 256} ${(at * 151) % 256}`]
));

const isNarrow = (page) =>
    page.run(() => document.getElementById('verdict-open').checkVisibility());
const isMoreOpen = (page) =>
    page.run(() => document.getElementById('panels').classList.contains('open'));
const more = async (user, is) => {
  if (await isNarrow(user.page) && await isMoreOpen(user.page) !== is)
    await user.press('#verdict-open');
};
// On a phone proposals stand where palette and rail do.
const aside = async (user) => {
  await more(user, false);
  if (await isNarrow(user.page)) await user.press('#fix-close');
};
const fixAgain = async (user) => {
  if (await isNarrow(user.page)) await user.press('#verdict-do [data-action="fix"]');
};
const listed = async (page) => {
  await page.until(() => document.querySelectorAll('#fix-list button').length > 0);
  await page.until(() => !searches.running);
  await pause(300);  // a press before that may be meant for what was listed before
};
const proposals = (page) => page.run(
    () => [...document.querySelectorAll('#fix-list button')].map((button) => button.ariaLabel)
);
const fixSaid = (page, wanted) => page.until(
    (text) => new RegExp(text).test(document.getElementById('fix-said').textContent), wanted
);
const differing =
    (one,
     two) => [...one.join('')].flatMap((letter, at) => (letter === two.join('')[at] ? [] : [at]));

// Finds repaints and takes the first; gives the places that it painted, and takes it back.
async function firstRepair(user, before) {
  const {page, trial} = user;
  await user.press('#fix-paint');
  await listed(page);
  await user.press('#fix-list button');
  await page.until((rows) => bench.state.picture.join() !== rows, before.join());
  assert.equal(await trial.judged(), 'unique');
  const after = await trial.picture();
  await user.undo();
  assert.deepEqual(await trial.picture(), before, 'one undo takes it back');
  return {places: differing(before, after), after};
}

async function fixOf(user, rows) {
  const {page, trial} = user;
  await trial.open(ppmOf(rows), 'limits');
  assert.equal(await trial.judged(), 'ambiguous');
  await more(user, true);
  await user.press('#verdict-do [data-action="fix"]');
  await page.until(() => document.getElementById('fix').checkVisibility());
}

const opened = async (user) => {
  if (!await user.page.run(() => document.getElementById('fix-more').open))
    await user.press('#fix-more summary');
};

/**
 * What a repair may change: both halves alike, nothing that the brush, the selection or the
 * palette has locked.
 */
export async function limitsPoint(user) {
  const {page, trial} = user;
  await fixOf(user, MIRRORED);
  const alike = await firstRepair(user, MIRRORED);
  assert.deepEqual(
      alike.after,
      alike.after.map((row) => [...row].reverse().join('')),
      'what is symmetric stays so, where that can be'
  );
  await opened(user);
  await user.choose('#fix-mirror', 'x');
  const mirrored = await firstRepair(user, MIRRORED);
  assert.equal(mirrored.places.length, 2);
  assert.deepEqual(
      mirrored.after.map((row) => [...row].reverse().join('')),
      mirrored.after,
      'left and right are the same'
  );

  await fixOf(user, PAIR);
  await opened(user);
  await user.choose('#fix-mirror', '');
  await aside(user);
  await user.tool('lock');
  await user.stroke([1, 1], [1, 2]);
  await page.until(() => [...bench.state.locks].sort((one, other) => one - other).join() === '0,1');
  await fixAgain(user);
  assert.match(await trial.text('#fix-locks'), /^Locked: 2 cells, 0 colours/);
  assert.deepEqual(
      (await firstRepair(user, PAIR)).places,
      [6],
      'the brush has locked the other cell that would do'
  );
  await opened(user);
  await user.press('#fix-unlock');
  await page.until(() => bench.state.locks.size === 0);

  await aside(user);
  await user.tool('select');
  await user.stroke([1, 1], [1, 3]);
  await fixAgain(user);
  await opened(user);
  await user.press('#fix-lock');
  await page.until(() => bench.state.locks.size === 33);
  assert.deepEqual((await firstRepair(user, PAIR)).places, [1], 'in the selection alone');

  await fixOf(user, TWO_COLOURS);
  await aside(user);
  await user.tool('pencil');
  await user.colour('a');
  await user.opens('#ink-locked');
  if (user.byKeys) {
    await user.tabTo('#ink-locked');
    await page.press(' ');
  } else
    await user.press('#ink-locked');
  await page.until(() => bench.state.inks[1]?.locked === true);
  await page.press('Escape');
  await fixAgain(user);
  await user.press('#fix-paint');
  await fixSaid(page, '^No repaint was found, and none of up to \\d cells exists\\.');
  assert.ok(
      (await proposals(page)).every((text) => /^Reveal/.test(text)),
      'nothing paints over a locked colour'
  );
}

// Two corners in different colours, each of which leans either way by itself.
const APART = [
  ...PAIR.slice(0, 2).map((row) => `${row}....`),
  ...Array(4).fill('.'.repeat(10)),
  '.......b..',
  '........b.'
];

/**
 * Places that have nothing to do with one another are marked, listed and mended one by one, or all
 * at once.
 */
export async function placesPoint(user) {
  const {page, trial} = user;
  const places = (count) =>
      page.until(
              (wanted) => sheet.places.length === wanted && !searches.running, count
      ).then(() => listed(page));
  const press = async (group) => {
    await page.run((at) => {
      for (const one of document.querySelectorAll('[data-chosen]')) delete one.dataset.chosen;
      document.querySelectorAll('#fix-list section')[at].querySelector('button').dataset.chosen = 1;
    }, group);
    const before = (await trial.picture()).join();
    await user.press('#fix-list [data-chosen]');
    await page.until((rows) => bench.state.picture.join() !== rows, before);
  };
  await fixOf(user, APART);
  await places(2);
  assert.deepEqual(await page.run(() => sheet.places.map((cells) => cells.length)), [4, 4]);
  assert.deepEqual(
      await page.run(
          () => [...document.querySelectorAll('#fix-list h3')].slice(
                                                                  0, 3
          ).map((one) => one.textContent)
      ),
      ['Both places at once', 'Place 1, from row 1, column 1', 'Place 2, from row 7, column 8']
  );
  const seen = await page.run(
      () => [...document.querySelectorAll('#fix-list button')]
                .filter(
                    (one) => one.getBoundingClientRect().bottom <=
                        Math.min(
                            innerHeight,
                            document.getElementById('fix').getBoundingClientRect().bottom
                        )
                )
                .length
  );
  assert.ok(seen >= 2, `${seen} proposals are in sight`);
  await press(2);
  await places(1);  // it looks again for what is left
  assert.equal((await trial.state()).open, 4);
  assert.ok(
      differing(APART, await trial.picture()).every((place) => place >= 60),
      'the other place is as it was'
  );
  await press(0);
  assert.equal(await trial.judged(), 'unique');
  assert.equal((await trial.state()).open, 0);
  await user.undo();
  await user.undo();
  assert.deepEqual(await trial.picture(), APART, 'an undo for each');
  await places(2);
  await press(0);
  assert.equal(await trial.judged(), 'unique', 'both at once');
}

// Presses the first proposal that comes to where another was, at once, and says so: `PRESSED` is
// its name, or stays empty.
const pressWhatMoves = () => {
  let before = new Map();
  window.PRESSED = '';
  const hears = new MutationObserver(() => {
    const buttons = [...document.querySelectorAll('#fix-list button')].map((one) => {
      const {left, top} = one.getBoundingClientRect();
      return [`${left} ${top}`, one];
    });
    const other = buttons.find(
        ([place, {ariaLabel}]) => before.has(place) && before.get(place) !== ariaLabel
    );
    before = new Map(buttons.map(([place, {ariaLabel}]) => [place, ariaLabel]));
    if (!other) return;
    hears.disconnect();
    other[1].dispatchEvent(new MouseEvent('click', {detail: 1, bubbles: true}));
    window.PRESSED = other[1].ariaLabel;
  });
  hears.observe(document.getElementById('fix-list'), {childList: true, subtree: true});
};

/**
 * A press takes what it is meant for: none that has just come to where another was, and none of a
 * picture that has changed since. A search may find all before the first is drawn: then it is begun
 * anew.
 */
export async function pressesAreMeant({trial, page}) {
  await page.run(() => setSeconds('30'));
  await trial.open(ppmOf(APART), 'apart');
  assert.equal(await trial.judged(), 'ambiguous');
  let pressed = '';
  for (let begun = 0; begun < 20 && !pressed; begun++) {
    if (begun) await page.run(() => document.getElementById('fix-close').click());
    await trial.action('fix');
    await page.run(pressWhatMoves);
    await listed(page);
    pressed = await page.run(() => window.PRESSED);
  }
  assert.ok(pressed, 'a proposal comes to where another was');
  assert.deepEqual(await trial.picture(), APART, 'it is not taken');
  const isThere = await page.run(() => {
    const [one] = document.querySelectorAll('#fix-list button');
    return new Promise((go) => {
      setTimeout(() => go(one.isConnected), 200);
    });
  });
  assert.ok(isThere, 'what was found is drawn once');
  await page.run(() => {
    for (const section of [...document.querySelectorAll('#fix-list section')].slice(1, 3))
      section.querySelector('button').click();
  });
  await trial.settled();
  assert.equal(
      (await trial.state()).strokes[0], 1, 'the second was for the picture before the first'
  );
}

/**
 * Where repaints alone do not reach the goal, what comes nearer is listed, and what few given
 * cells end; one undo takes both back.
 */
export async function mixedRepairs({trial, page}) {
  await trial.open(ppmOf(CORNERS), 'corners');
  assert.equal(await trial.judged(), 'ambiguous');
  await trial.action('fix');
  await page.run(
      () => bench
                .become((doc) => ({
                          ...doc,
                          locks:
                              new Set([...Array(49).keys()].filter((at) => at >= 14 || at % 7 >= 2))
                        }))
                .then(() => true)
  );
  await chosen(page, 'fix-goal', 'unique');  // it searches again
  await fixSaid(page, '^No repaint was found');
  const texts = await proposals(page);
  assert.match(
      texts[0], /Closer, but not enough: other solutions differ in 8 → 4 cells/, texts.join('\n')
  );
  const both = new RegExp(`Repaint 1 cell: .* and reveal 1 cell: ${cellNames([6, 7], [6, 7])}`);
  const mixed = texts.findIndex((text) => both.test(text));
  assert.ok(mixed > 0, texts.join('\n'));
  assert.match(texts.at(-1), /^Reveal 3 cells, the fewest/);
  const {strokes} = await trial.state();
  await page.run((at) => document.querySelectorAll('#fix-list button')[at].click(), mixed);
  await page.until(() => bench.state.givens.size === 1);
  assert.equal(await trial.judged(), 'unique');
  assert.equal(differing(CORNERS, await trial.picture()).length, 1);
  assert.equal((await trial.state()).strokes[0], strokes[0] + 1);
  await trial.check('after both');
  await trial.press('Control+z');
  assert.deepEqual(
      [await trial.picture(), (await trial.state()).givens],
      [CORNERS, []],
      'one undo takes both back'
  );
}

/** Proposals keep the symmetry of the pens where the picture has it, and say so by the goal. */
export async function pensSymmetryKept({trial, page}) {
  const kept = () => trial.text('#fix-symmetry');
  await trial.open(ppmOf(MIRRORED), 'symmetric');
  assert.equal(await trial.judged(), 'ambiguous');
  await trial.action('fix');
  assert.equal(await kept(), '');
  await page.press('m');
  await page.until(() => tools.symmetry === 'across');
  assert.equal(await kept(), 'Symmetry: left and right the same.');
  await page.click('#fix-paint');
  await fixSaid(page, 'found');
  const count = (await proposals(page)).filter((text) => /^\d+ cells?: /.test(text)).length;
  assert.ok(count > 0);
  for (let at = 0; at < count; at++) {
    await page.run((one) => document.querySelectorAll('#fix-list button')[one].click(), at);
    await page.until(() => bench.past.length === 1);
    const after = await trial.picture();
    assert.deepEqual(after, after.map((row) => [...row].reverse().join('')), `proposal ${at + 1}`);
    await trial.press('Control+z');
    await page.until(() => bench.past.length === 0);
    await page.until((most) => document.querySelectorAll('#fix-list button').length >= most, count);
  }
}

/**
 * Where each repair has more than eight cells, the page advises what fits the picture. What it
 * proposes is the same on a slow processor.
 */
export async function looseIsSaid({trial, page}) {
  await trial.open(ppmOf(LOOSE, COLOURS), 'loose');
  assert.equal(await trial.judged(), 'ambiguous');
  await trial.action('fix');
  await page.click('#fix-paint');
  await fixSaid(page, 'found');
  assert.match(
      await trial.text('#fix-said'),
      /All take more than 8 cells\. The picture is too sparse: more coloured cells, or larger areas/
  );
  const texts = await proposals(page);
  assert.match(texts[0], /^10 cells: /, texts.join('\n'));
  const isOffered = () => page.run(() => document.getElementById('fix-adjust').checkVisibility());
  assert.equal(await isOffered(), false, 'it was made of no image');
  await page.run(() => {
    actions.get('adjust').can = () => true;
    actions.get('adjust').run = () => {
      window.isAdjusted = true;
    };
  });
  await page.send('Emulation.setCPUThrottlingRate', {rate: 6});
  await page.click('#fix-paint');
  await fixSaid(page, 'found');
  assert.deepEqual(await proposals(page), texts, 'as many, in the same order');
  await page.send('Emulation.setCPUThrottlingRate', {rate: 1});
  assert.equal(await isOffered(), true);
  await page.click('#fix-adjust');
  assert.equal(await page.run(() => window.isAdjusted), true);
}

/** The grade's text stands whole, in each size. */
export async function gradeStandsWhole({browser, url, folder}) {
  for (const [name, size] of Object.entries(SIZES)) {
    const trial = await Trial.start(browser, url, folder, size);
    const {page} = trial;
    await trial.open(ppmOf(['.aa.', 'a..a', 'a..a']), 'guess');
    await trial.judged();
    if (await isNarrow(page)) await page.tap('#verdict-open');
    await page.until(
        () => document.getElementById('grade'
        ).textContent.startsWith('very hard (8 open cells, 1 guess, nested 1 deep;')
    );
    const cut = () => page.run(() => {
      const grade = document.getElementById('grade');
      grade.scrollIntoView({block: 'nearest'});
      const box = document.createRange();
      box.selectNodeContents(grade);
      const [text, room] = [box.getBoundingClientRect(), grade.getBoundingClientRect()];
      return {
        isCut: grade.scrollWidth > grade.clientWidth || text.right > room.right + 1 ||
            text.bottom > room.bottom + 1,
        isSeen: grade.checkVisibility() && text.left >= 0 && text.right <= innerWidth &&
            text.bottom <= innerHeight
      };
    });
    assert.deepEqual(await cut(), {isCut: false, isSeen: true}, name);
    await page.run(() => {
      document.getElementById('grade').textContent =
          'expert (14,400 open cells, 1,100 guesses, nested 113 deep; 12 rounds, 1,440 lines looked at, at most 188 lines until a cell is settled)';
    });
    const longest = await cut();
    assert.deepEqual(longest, {isCut: false, isSeen: true}, `${name}: the longest`);
    await page.shot(`${folder}/grade-${name}.png`);
    assert.deepEqual(page.faults, []);
    await page.close();
  }
}

/**
 * The path through 120 by 120 cells is shown in the next frame, and grows to its end while the page
 * is used.
 */
export async function walkOfALargePicture({trial, page}) {
  const rows = Array.from(
      {length: 120},
      (_, row) =>
          Array
              .from(
                  {length: 120},
                  (_, col) =>
                      '.aabbc'[((row >> 3) * 7 + (col >> 2) * 5 + (row >> 4) * (col >> 5)) % 6]
              )
              .join('')
  );
  await trial.open(ppmOf(rows), 'large');
  await trial.judged();
  await page.run(() => {
    runAction('walk');
  });
  await frames(page);
  assert.match(await trial.text('#play-said'), /^Step 0 of /, 'shown whatever the engine does');
  await page.until(
      () => /^Step 0 of [1-9][0-9,]*: the empty puzzle/.test(document.getElementById('play-said'
      ).textContent)
  );
  assert.equal(await page.run(() => document.getElementById('walk-hardest').disabled), false);
  await page.press('End');
  const [settled, open] = await page.run(
      () => [play.marks.flat().filter((mark) => mark !== '?').length, bench.state.open]
  );
  assert.equal(settled, 14400 - open, 'the path ends at the map');
  await page.press('Escape');
}

const exampleOf = (name) => readFileSync(new URL(name, examples));
const chosen = (page, id, value) => page.run((one, option) => {
  const choice = document.getElementById(one);
  choice.value = option;
  choice.dispatchEvent(new Event('change'));
}, id, value);

/**
 * The steps of docs/TUTORIAL.md on the page, as they are written there: the duck, and the icon
 * with three solutions.
 */
export async function tutorialSteps({browser, url, folder}) {
  const {page, trial} = await fresh(browser, url, folder, 'tutorial');
  await drop(page, folder, 'duck.png', exampleOf('duck.png'));
  await page.until(
      () => document.querySelector('#import-facts')?.textContent.includes('10 by 10 cells')
  );
  await page.until(
      () => document.querySelector('dialog button.main').textContent === 'Create the puzzle'
  );
  await page.click('dialog button.main');
  await isOpen(page);
  assert.equal(await trial.judged(), 'ambiguous');
  await page.click('[data-action="other"]');
  assert.equal(await page.run(() => sheet.other), true, 'the other picture');
  await page.click('[data-action="other"]');
  const duck = await trial.picture();
  await trial.action('fix');
  await listed(page);
  const tail = (await proposals(page)).findIndex((text) => /^1 cell: row 5, column 6:/.test(text));
  assert.ok(tail >= 0 && tail < 3, (await proposals(page)).join('\n'));
  assert.equal(
      await page.run(
          (at) => document.querySelectorAll('#fix-list button [data-where]')[at].innerText, tail
      ),
      'Row 5, column 6',
      'a card says its place'
  );
  await page.run((at) => document.querySelectorAll('#fix-list button')[at].focus(), tail);
  assert.deepEqual(
      await page.run(() => [sheet.overlay.size, sheet.framed]),
      [1, [45]],
      'it is seen first, in a frame'
  );
  await page.run((at) => document.querySelectorAll('#fix-list button')[at].click(), tail);
  await page.until(() => bench.state.picture[4][5] !== '.');
  assert.equal(await trial.judged(), 'unique');
  assert.deepEqual(await page.run(() => [sheet.overlay.size, sheet.framed]), [0, []]);
  await trial.press('Control+z');
  assert.deepEqual(await trial.picture(), duck);
  assert.equal(await trial.judged(), 'ambiguous');
  assert.ok((await proposals(page)).length > tail, 'the list is there again');
  await page.click('#fix-give');
  await page.until(() => bench.state.givens.size > 0).catch(async (fault) => {
    throw new Error(
        `${fault.message}: ${await trial.text('#fix-said')}; ${await trial.text('#task')}`
    );
  });
  assert.equal(await trial.judged(), 'unique');
  assert.deepEqual(await trial.picture(), duck, 'the picture is as it was');

  await drop(page, folder, 'computer.ppm', exampleOf('computer.ppm'));
  await page.until(() => bench.name === 'computer');
  assert.equal(await trial.judged(), 'ambiguous');
  await trial.action('fix');
  await listed(page);
  assert.match(await trial.text('#fix-said'), /No smaller one exists/);
  assert.equal(
      await page.run(
          () => document.querySelectorAll('#fix-list section')[1].querySelector('h3'
          ).textContent.split(',')[0]
      ),
      'Place 1'
  );
  // As docs/TUTORIAL.md tells it.
  assert.equal((await proposals(page))[0], '2 cells: row 2, column 5; row 2, column 12');
  assert.equal(await trial.text('#fix-list li [data-where]'), 'Row 2, column 5 …');
  await page.run(() => document.querySelector('#fix-list button').click());
  await page.until(() => bench.state.picture[1] === '....a......a....');
  assert.equal(await trial.judged(), 'unique');
  await page.until(() => document.getElementById('grade').textContent.startsWith('hard '));
  await trial.press('Control+z');
  assert.equal(await trial.judged(), 'ambiguous');
  await page.until(
      () => document.querySelector('#fix-list button')?.title.startsWith('2 cells: row 2, column 5')
  );
  for (const [section, corner, rest] of [
           [1, 'row 3, column 4', '...aaaaaaaaa....'],
           [0, 'row 3, column 13', '...aaaaaaaaaa...']]) {
    const selector =
        `#fix-list section:nth-child(${section + 1}) button[aria-label^="1 cell: ${corner}:"]`;
    await page.until(
        (wanted) => document.querySelector(wanted), selector
    );  // behind the first it looks again
    await page.run((wanted) => document.querySelector(wanted).click(), selector);
    await page.until((row) => bench.state.picture[2] === row, rest);
  }
  assert.equal(await trial.judged(), 'unique');
  assert.equal((await trial.state()).open, 0, 'nothing needs guessing');
  await page.until(() => /^(easy|medium|hard) /.test(document.getElementById('grade').textContent));
  await trial.action('walk');
  await page.until(
      () => /^Step 0 of [1-9][0-9]*: /.test(document.getElementById('play-said')?.textContent)
  );
  await page.press('End');
  assert.deepEqual(
      await page.run(() => play.marks.map((row) => row.join(''))),
      await trial.picture(),
      'solved step by step'
  );
  await page.press('Escape');

  await trial.press('Control+z', 'Control+z');
  await page.until(
      (row) => bench.state.picture[2] === row && bench.state.verdict.word === 'ambiguous',
      '....aaaaaaaa....'
  );
  const giving = '#fix-list button[title^="Reveal 2 cells"]';
  await page.until((wanted) => document.querySelector(wanted), giving);
  await listed(page);
  await page.run((wanted) => document.querySelector(wanted).click(), giving);
  await page.until(() => bench.state.givens.size > 0);
  assert.equal((await trial.state()).givens.length, 2, 'two cells are given');
  assert.equal(await trial.judged(), 'unique');
  assert.deepEqual(page.faults, []);
  await page.close();
}

/**
 * Two fingers that go apart have larger cells in Play, and together smaller ones; they move the
 * board, and mark nothing.
 */
export async function pinchInPlay({browser, url, folder}) {
  for (const [name, size] of Object.entries(SIZES)) {
    const trial = await Trial.start(browser, url, folder, {...size, touch: true});
    const {page} = trial;
    await page.run(() => localStorage.clear());  // no marks of the size before
    await trial.open(ppmOf(MIRRORED), 'fingers');
    await trial.judged();
    await page.run(() => {
      runAction('play');
    });
    await page.until(() => document.querySelector('#play-room')?.open);
    const side = () => page.run(() => play.side);
    const marks = () => page.run(() => play.marks.flat().filter((mark) => mark !== '?').length);
    const middle = () => page.run(() => {
      const [field, board] = ['play-field', 'play-board'].map(
          (id) => document.getElementById(id).getBoundingClientRect()
      );
      return [
        (Math.max(field.left, board.left) + Math.min(field.right, board.right)) / 2,
        (Math.max(field.top, board.top) + Math.min(field.bottom, board.bottom)) / 2
      ];
    });
    const pinch = async (from, to) => {
      const [x, y] = await middle();
      const track = (sign
      ) => [0, 0.2, 0.4, 0.6, 0.8, 1].map((part) => [x + sign * (from + (to - from) * part), y]);
      await page.touch(track(-1), track(1));
    };
    const first = await side();
    await pinch(80, 15);
    const smaller = await side();
    assert.ok(smaller < first, `${name}: ${first} to ${smaller}`);
    await pinch(12, 90);
    assert.ok(await side() > smaller, `${name}: larger again`);
    for (let turn = 0; turn < 4; turn++) await pinch(12, 90);
    assert.equal(await marks(), 0, `${name}: two fingers mark nothing`);
    await trial.page.press('Escape');
    await trial.open(ppmOf(Array(40).fill('a'.repeat(40))), 'large');
    await page.run(() => {
      runAction('play');
    });
    await page.until(() => document.querySelector('#play-room')?.open && play.state.rows === 40);
    const under = ([x, y]) => page.run((left, top) => {
      const box = document.getElementById('play-field').getBoundingClientRect();
      return [(left - box.left) / play.side, (top - box.top) / play.side];
    }, x, y);
    for (let turn = 0; turn < 3; turn++) await pinch(12, 90);
    const [centre, at] = [await middle(), await side()];
    const cell = await under(centre);
    await pinch(80, 40);
    assert.ok(await side() < at, `${name}: smaller again`);
    const [dx, dy] = (await under(centre)).map((one, axis) => Math.abs(one - cell[axis]));
    assert.ok(
        dx < 0.6 && dy < 0.6, `${name}: the cell between the fingers stays there: ${dx} ${dy}`
    );
    const scrolled = () => page.run(
        () => document.getElementById('play-board').scrollLeft +
            document.getElementById('play-board').scrollTop
    );
    if (size.touch) {
      const [x, y] = await middle();
      const along = (left) => [0, 1, 2, 3, 4, 5, 6].map((step) => [left - 10 * step, y - 6 * step]);
      const before = await scrolled();
      await page.touch(along(x - 70), along(x + 70));
      assert.ok(await scrolled() > before, `${name}: two fingers move the board`);
    }
    await page.touch([await middle()]);
    assert.equal(await marks(), 1, `${name}: one finger marks`);
    await page.shot(`${folder}/pinch-${name}.png`);
    assert.deepEqual(page.faults, []);
    await page.close();
  }
}

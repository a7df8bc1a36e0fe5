// Trials of the ways from a picture to a puzzle: repairs of several cells, the grade beside the
// verdict, the solving path, hints.
import assert from 'node:assert/strict';
import {pause} from './page_browser.mjs';
import {cellName, cellNames, fresh} from './page_common.mjs';
import {SIZES, ppmOf} from './page_trial.mjs';

const PAIR = ['a.....', '.a....', '......', '...aaa', '...aaa', '...aaa'];
const GUESS = ['.aa.', 'a..a', 'a..a'];  // one solution, eight cells to guess
const isNarrow = (page) =>
    page.run(() => document.getElementById('verdict-open').checkVisibility());
const isMoreOpen = (page) =>
    page.run(() => document.getElementById('panels').classList.contains('open'));
const moreOf = async (user) => {
  if (await isNarrow(user.page) && !(await isMoreOpen(user.page)))
    await user.press('#verdict-open');
};
const listed = async (page) => {
  await page.until(() => document.querySelectorAll('#fix-list button').length > 0);
  await page.until(() => !searches.running);
  await pause(300);  // a press before that may be meant for what was listed before
};
const said = (page, wanted) => page.until(
    (text) => new RegExp(text).test(document.getElementById('play-said').textContent), wanted
);
const differing =
    (one, two) => [...one.join('')].filter((letter, at) => letter !== two.join('')[at]).length;

/**
 * From two solutions to one, and from a guess to line logic: a proposal is taken by one press, and
 * back by one undo.
 */
export async function mendingPoint(user) {
  const {page, trial} = user;
  await trial.open(ppmOf(PAIR), 'pair');
  assert.equal(await trial.judged(), 'ambiguous');
  await moreOf(user);
  await user.press('#verdict-do [data-action="fix"]');
  assert.equal(
      await page.run(() => document.getElementById('fix-goal').value),
      'lines',
      'no guessing is looked for first'
  );
  await listed(page);
  assert.match(await trial.text('#fix-said'), /proposals? found/);
  await user.press('#fix-list button');
  await page.until((before) => bench.state.picture.join() !== before, PAIR.join());
  assert.equal(await trial.judged(), 'unique');
  await user.undo();
  assert.deepEqual(await trial.picture(), PAIR, 'one undo takes it back');
  await trial.open(ppmOf(GUESS), 'guess');
  assert.equal(await trial.judged(), 'unique');
  assert.equal((await trial.state()).open, 8);
  await moreOf(user);
  await user.press('#verdict-do [data-action="fix"]');
  await listed(page);
  await user.press('#fix-list button');
  await page.until((before) => bench.state.picture.join() !== before, GUESS.join());
  assert.equal(await trial.judged(), 'unique');
  assert.equal((await trial.state()).open, 0, 'no guessing');
}

/** Where no change reaches the grade that is wished for, it is said what may. */
export async function noGradeReached({trial, page}) {
  await trial.open(ppmOf(['aa', '.a']), 'tiny');
  assert.equal(await trial.judged(), 'unique');
  await page.until(() => actions.get('harder').can());
  await page.run(() => {
    runAction('harder');
  });
  await page.until(
      () =>
          /^Neither a change .* “medium”\. Fewer or more colours, another size or another background may/
              .test(document.getElementById('fix-said').textContent)
  );
}

/**
 * A grade is aimed for: what is proposed changes at most four cells or gives one, has the grade
 * once it is taken, and goes by one undo.
 */
export async function aimPoint(user) {
  const {page, trial} = user;
  await trial.example('flower');
  assert.equal(await trial.judged(), 'unique');
  const before = await trial.picture();
  await moreOf(user);
  await page.until(() => actions.get('harder').can());
  await user.press('#details-do [data-action="harder"]');
  for (const word of ['hard', 'easy']) {
    if (word === 'easy') await user.choose('#fix-goal', word);
    assert.equal(await page.run(() => document.getElementById('fix-goal').value), word);
    await page.until(() => /found\./.test(document.getElementById('fix-said').textContent));
    const texts = await page.run(
        () => [...document.querySelectorAll('#fix-list button')].map((button) => button.ariaLabel)
    );
    assert.ok(
        texts.every(
            (text) => text.endsWith(`; then the grade is “${word}”`) ||
                text.startsWith('Reveal 1 cell, the fewest: ')
        ),
        texts.join('\n')
    );
    await user.press('#fix-list button');
    await page.until((rows) => bench.state.picture.join() !== rows, before.join());
    assert.equal(await trial.judged(), 'unique');
    assert.equal((await trial.state()).open, 0);
    assert.ok(differing(before, await trial.picture()) <= 4);
    await page.until(
        (wanted) => document.getElementById('grade').textContent.startsWith(wanted), `${word} (`
    );
    assert.equal(
        await trial.text('#fix-said'), `The grade is “${word}” already. Choose another one.`
    );
    await user.undo();
    assert.deepEqual(await trial.picture(), before, 'one undo takes it back');
    assert.ok(
        await page.run(() => document.querySelectorAll('#fix-list button').length > 0),
        'the list is there again'
    );
  }
  await user.press('#fix-close');
  assert.equal(await page.run(() => document.getElementById('fix').hidden), true);
}

/** The solving path by its buttons, slider and keys; hints that tell more each time. */
export async function walkingPoint(user) {
  const {page, trial} = user;
  await trial.open(ppmOf(['.a.', 'aa.', '...']), 'small');
  assert.equal(await trial.judged(), 'unique');
  await user.menu('check', 'walk');
  await said(page, '^Step 0 of [1-9]');
  if (user.byKeys)
    await page.press('ArrowRight');
  else
    await user.press('#walk-on');
  await said(
      page,
      '^Step 1 of 6: Row 2: column 2 is black, by overlap: the black 2 covers it wherever it lies\\.$'
  );
  for (let step = 2; step <= 6; step++) await user.press('#walk-on');
  await said(page, '^Step 6 of 6: Row 2: column 1 is black, since column 3 is background\\.$');
  await user.press('#walk-hardest');  // the first that needs a cell
  await said(page, '^Step 3 of 6: Column 2: row 1 is black, since row 3 is background\\.$');
  await user.press('#walk-end');
  assert.equal(
      await page.run(() => play.marks.flat().every((mark) => mark === '?')),
      true,
      'the own marks stand again'
  );
  for (const wanted
           of ['^Row 2: more cells follow\\.$',
               '^Row 2: columns 1–2 are black\\.$',
               '^Row 2: columns 1–2 are black, since column 3 is background\\.$']) {
    await user.press('#play-hint');
    await said(page, wanted);
  }
  await page.run(() => {
    play.marks = ['???', 'a??', '???'].map((row) => [...row]);
  });
  for (const wanted
           of ['^Row 1: more cells follow\\.$',
               '^Row 1: column 2 is black\\.$',
               '^Row 1: column 2 is black, since columns 1, 3 are background\\.$']) {
    await user.press('#play-hint');
    await said(page, wanted);
  }
  await user.press('#play-do');
  await said(page, '^Row 1: column 2 is black\\.$');
  assert.deepEqual(
      await page.run(() => play.marks.map((row) => row.join(''))), ['?a?', 'a??', '???']
  );
  await user.press('#play-do');
  await said(page, '^Solved\\.$');
  if (user.byKeys)
    await page.press('Escape');
  else
    await user.press('#play-close');
  await page.until(() => !document.querySelector('#play-room'));
}

/** The first example is mended by one press behind Fix it. */
export async function firstPoint(user) {
  const {page, trial} = user;
  await user.press('#examples li:nth-child(1) button');
  await page.until(() => bench.state !== null);
  assert.equal(await trial.judged(), 'ambiguous');
  await moreOf(user);
  await user.press('#verdict-do [data-action="fix"]');
  await listed(page);
  await user.press('#fix-list button');
  await page.until(() => bench.past.length === 1);
  assert.equal(await trial.judged(), 'unique');
  assert.equal((await trial.state()).open, 0);
  for (const example of ['heart', 'mushroom', 'boat']) {
    await trial.example(example);
    assert.equal(await trial.judged(), 'unique', example);
  }
}

export async function repairsOfSeveralCells({trial, page}) {
  await trial.example('computer');  // no single cell mends it
  assert.equal(await trial.judged(), 'ambiguous');
  const before = await trial.picture();
  await trial.action('fix');
  await page.click('#fix-paint');
  await listed(page);
  const sizes = await page.run(
      () => [...document.querySelectorAll('#fix-list button')].map((button) => button.ariaLabel)
  );
  assert.match(sizes[0], /2 cells/);
  assert.ok(
      await page.run(
          () => document.querySelectorAll('#fix-list section:first-child button').length
      ) >= 2,
      'several repairs of both places'
  );
  assert.match(await trial.text('#fix-said'), /No smaller one exists/);
  assert.match(sizes.at(-1), /Reveal \d+ cells?, the fewest/, 'given cells stand beside');
  assert.equal(
      await page.run(() => document.querySelector('#fix-list canvas').width >= 80),
      true,
      'large enough to be seen'
  );
  assert.equal(
      await page.run(() => document.documentElement.scrollHeight - innerHeight),
      0,
      'the window itself has nothing to scroll'
  );
  await page.run(() => document.querySelector('#fix-list button').focus());
  assert.equal(await page.run(() => sheet.overlay.size), 2, 'it is seen on the sheet');
  await page.click('#fix-list button');
  assert.equal(await trial.judged(), 'unique');
  assert.equal(differing(before, await trial.picture()), 2);
  await trial.check('after a repair');
  await trial.press('Control+z');
  assert.deepEqual(await trial.picture(), before);
}

/** Two colours that are called white have names of their own in a proposal. */
export async function sameNamesToldApart({trial, page}) {
  await trial.open(ppmOf(PAIR, {'.': '255 255 255', a: '250 250 250'}), 'whites');
  assert.equal(await trial.judged(), 'ambiguous');
  await trial.action('fix');
  await listed(page);
  assert.match(
      await page.run(() => document.querySelector('#fix-list button').ariaLabel),
      new RegExp(`^1 cell: ${cellNames([1, 2], [1, 2])}: white to darker white`)
  );
}

export async function repairsHeedLocks({trial, page}) {
  await trial.open(ppmOf(PAIR), 'pair');
  assert.equal(await trial.judged(), 'ambiguous');
  await trial.action('fix');
  await page.run(() => bench.become((doc) => ({...doc, locks: new Set([0, 1])})).then(() => true));
  await page.click('#fix-paint');
  await listed(page);
  await page.click('#fix-list button');
  assert.equal(await trial.judged(), 'unique');
  const after = await trial.picture();
  assert.deepEqual(
      [after[0], after[1]],
      ['a.....', 'aa....'],
      'locked cells stay: of the two cells that would do, the other one is painted'
  );
}

// Of the cells of this picture only row 3, column 2 may change, and black there leaves one solution
// and 13 cells to guess. Found by trying pictures in turn.
const GUESSED = ['a.a...', 'a.a.aa', 'a....a', 'a..aa.', '.aa..a'];

/**
 * A proposal that comes to lie under a resting pointer is not shown until that moves; what is said
 * of one that was taken goes with its undo.
 */
export async function noPreviewAtRest({trial, page}) {
  const seen = () => page.run(() => [sheet.overlay.size, sheet.framed.length]);
  const isListed = () =>
      page.until(() => document.querySelector('#fix-list button') && !searches.running);
  await trial.open(ppmOf(PAIR), 'pair');
  await trial.judged();
  await trial.action('fix');
  await isListed();
  const [x, y] = await page.run(() => {
    const box = document.querySelector('#fix-list button').getBoundingClientRect();
    return [box.left + box.width / 2, box.top + 30];
  });
  await page.mouse('mouseMoved', x, y);
  assert.deepEqual(await seen(), [1, 1]);
  await page.run(() => document.getElementById('fix-paint').click());
  await isListed();
  assert.equal(
      await page.run(
          (left, top) => document.elementFromPoint(left, top).closest('#fix-list button') !== null,
          x,
          y
      ),
      true
  );
  assert.deepEqual(await seen(), [0, 0], 'the pointer rests');
  await page.mouse('mouseMoved', x + 1, y);
  assert.deepEqual(await seen(), [1, 1]);
  const said = await page.run(async () => {
    document.querySelector('#fix-list button').click();
    while (!/^1 cell repainted/.test(document.getElementById('said').textContent))
      await new Promise((done) => {
        setTimeout(done, 5);
      });
    const texts = [document.getElementById('said').textContent];
    await bench.undo();
    return [...texts, document.getElementById('said').textContent];
  });
  assert.deepEqual(said, ['1 cell repainted. One undo takes it back.', '']);
}

/**
 * Where no few cells leave nothing to guess, repairs that leave one solution are listed instead,
 * and that is said.
 */
export async function oneSolutionInstead({trial, page}) {
  await trial.open(ppmOf(GUESSED), 'guessed');
  assert.equal(await trial.judged(), 'ambiguous');
  await page.run(
      () => bench
                .become(
                    (doc) =>
                        ({...doc, locks: new Set([...Array(30).keys()].filter((at) => at !== 13))})
                )
                .then(() => true)
  );
  await trial.judged();
  await trial.action('fix');
  assert.equal(await page.run(() => document.getElementById('fix-goal').value), 'lines');
  await listed(page);
  await page.until(
      () => document.getElementById('fix-said').textContent ===
          'No small change was found after which line logic alone solves it. These leave one solution.'
  );
  assert.match(
      await page.run(() => document.querySelector('#fix-list button').ariaLabel),
      new RegExp(`^1 cell: ${cellName(3, 2)}: white to black; then 13 open cells$`)
  );
  await page.click('#fix-list button');
  assert.equal(await trial.judged(), 'unique');
  assert.equal((await trial.state()).open, 13);
  await trial.check('one solution');
}

export async function gradeBeside({trial, page}) {
  const graded = (wanted) =>
      page.until((text) => document.getElementById('grade').textContent.startsWith(text), wanted);
  await trial.open(ppmOf(['.a.', 'aa.', '...']), 'small');
  await trial.judged();
  await graded('easy (2 rounds, 8 lines looked at, at most 2 lines until a cell is settled)');
  assert.equal(await trial.text('#publish'), 'yes');
  await trial.open(ppmOf(['.a.', 'aa.', '...'], {'.': '255 255 255', a: '250 250 250'}), 'whites');
  await trial.judged();
  await page.until(
      () => document.getElementById('publish').textContent ===
          'no: the background and “darker white” (a) look alike'
  );
  await trial.open(ppmOf(GUESS), 'guess');
  await trial.judged();
  await graded('very hard (8 open cells, 1 guess, nested 1 deep;');
  await trial.open(ppmOf(PAIR), 'pair');
  assert.equal(await trial.judged(), 'ambiguous');
  assert.deepEqual(
      [await trial.text('#grade'), await trial.text('#publish')],
      ['–', 'no: not unique (“Fix it” repairs it)'],
      'no grade without one solution'
  );
  for (const [rows, background, flaw] of [
           [['..', '..'], '255,255,255', 'no: the picture is blank'],
           [['aa', 'aa'], '255,255,0', 'no: no cell is background']]) {
    await page.run(
        (text, ground) =>
            bench.open(
                     {text, format: 'ppm', background: ground, lines: []}, {name: 'flat'}
            ).then(() => true),
        ppmOf(rows),
        background
    );
    await page.until((text) => document.getElementById('publish').textContent === text, flaw);
  }
}

/**
 * What is wrong with a puzzle is read whole beside the verdict, and moves nothing; what is fit may
 * leave the page from there.
 */
export async function flawsAreWhole({browser, url, folder}) {
  for (const [name, size] of Object.entries(SIZES)) {
    const {page, trial} = await fresh(browser, url, folder, `flaws-${name}`, {size});
    const publish = (wanted) => page.until(
        (text) => new RegExp(text).test(document.getElementById('publish').textContent), wanted
    );
    const places = () => page.run(
        () => [...document.querySelectorAll('#stage, #details select')]
                  .map((one) => one.getBoundingClientRect())
                  .map(({left, top}) => `${left} ${top}`)
    );
    await trial.open(
        ppmOf(['.ab', 'ab.', '...'], {'.': '255 255 255', a: '120 40 40', b: '0 90 0'}), 'fit'
    );
    await trial.judged();
    await publish('^yes$');
    if (await isNarrow(page)) await page.click('#verdict-open');
    const before = await places();
    await page.shot(`${folder}/fit-${name}.png`);
    await page.run(() => bench.stroke(['colour set b 128 45 45', 'pin 1 2']).then(() => true));
    await publish(`^no: ${cellName(1, 2)} need not be given; .* look alike$`);
    await page.run(() => document.getElementById('publish').scrollIntoView({block: 'nearest'}));
    const cut = await page.run(() => {
      const one = document.getElementById('publish');
      return [one.scrollHeight - one.clientHeight, one.scrollWidth - one.clientWidth];
    });
    assert.ok(cut.every((by) => by <= 0), `${name}: ${cut}`);
    await page.shot(`${folder}/flaws-${name}.png`);
    await page.run(
        () => document.querySelectorAll('#panels, #details').forEach((one) => one.scrollTo(0, 0))
    );
    assert.deepEqual(await places(), before, name);
    await page.close();
  }
}

/**
 * A title changes no grade: the card of the library keeps it. What is entered about one picture
 * never goes to another.
 */
export async function titlesKeepGrades({trial, page}) {
  const card = (wanted) => page.until(
      async (text) =>
          (await keep.keeper.cards()).some(({name, grade}) => `${name} ${grade}` === text),
      wanted
  );
  const opened = (name) => page.run(
      (one, file) =>
          bench.open({text: one, format: 'ppm', background: '255,255,255', lines: []}, {name: file})
              .then(() => keep.begin())
              .then(() => true),
      ppmOf(['.a.', 'aa.', '...']),
      name
  );
  const titled = async (text) => {
    await page.press(...text);
    await page.click('dialog .main');
    await page.until(() => !document.querySelector('dialog[open]'));
  };
  await opened('one');
  await card('one easy');
  await page.run(() => runAction('about'));
  await titled('T');
  await page.until(() => bench.state.about.title === 'T');
  await page.run(() => keep.keeper.hurry());
  await card('T easy');
  await page.run(() => {
    runAction('about');
  });
  await opened('two');
  await titled('U');
  await page.until(
      () => document.getElementById('said').textContent.startsWith('Another picture was opened')
  );
  assert.deepEqual(
      await page.run(() => [bench.name, bench.state.about, bench.past.length]), ['two', {}, 0]
  );
}

/** A field that a dialog opens with is selected: what is typed replaces it. */
export async function fieldsAreReplaced({trial, page}) {
  await trial.open(ppmOf(['.a.', 'aa.', '...']), 'three');
  await trial.judged();
  await page.run(() => {
    runAction('resize');
  });
  await page.press('1', '2', 'Tab', '1', '7', 'Enter');
  await page.until(() => bench.state.rows === 17 && bench.state.columns === 12);
}

export async function walkOfAGuess({trial, page}) {
  await trial.open(ppmOf(GUESS), 'guess');
  await trial.judged();
  await page.run(() => {
    runAction('walk');
  });
  await said(page, '^Step 0 of [0-9]+: ');
  const texts = [];
  for (let step = 0; step < 40; step++) {
    await page.press('ArrowRight');
    texts.push(await trial.text('#play-said'));
  }
  const cell = cellNames([1, 2, 3], [1, 2, 3, 4]);
  const guess = new RegExp(
      `More than line logic: ${cell} is (black|background)\\. ` +
      'Any other colour there leads to a contradiction\\.'
  );
  assert.equal(texts.filter((text) => guess.test(text)).length, 1, texts.join('\n'));
  assert.deepEqual(
      await page.run(() => play.marks.map((row) => row.join(''))),
      GUESS,
      'the path ends at the picture'
  );
  await page.click('#walk-hardest');
  await said(page, ': More than line logic: ');
  await page.click('#walk-heat');
  assert.deepEqual(
      await page.run(() => [...play.heat].filter((round) => round < 0).length),
      8,
      'what needs a guess is told apart'
  );
  await page.press('Escape');
}

/**
 * The grade goes where it is asked for: onto the printed sheet, into the description, and beside
 * the picture in the library.
 */
export async function gradeGoesOut({trial, page}) {
  await trial.open(ppmOf(['.a.', 'aa.', '...']), 'small');
  await trial.judged();
  await page.until(() => document.getElementById('grade').textContent.startsWith('easy'));
  await page.run(() => {
    window.print = () => {
      window.isPrinted = true;
    };
    runAction('print');
  });
  await page.until(() => document.querySelector('#print-grade'));
  await page.click('#print-grade');
  await page.click('dialog button.main');
  await page.until(() => window.isPrinted);
  assert.match(
      await page.run(() => document.querySelectorAll('.printed text')[1].textContent),
      /3 by 3, easy/
  );
  await page.run(() => {
    runAction('about');
  });
  for (let twice = 0; twice < 2; twice++) await page.click('#about-grade');
  await page.click('dialog button.main');
  await page.until(() => bench.state.about.description);  // the dialog is heard after it has closed
  assert.equal(await page.run(() => bench.state.about.description), 'Grade: easy', 'once');
}

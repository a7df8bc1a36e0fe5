// Tests in the browser: drawing, searches that are stopped, what the verdict panel tells, Fix it,
// Play and Why.
import assert from 'node:assert/strict';
import {spawnSync} from 'node:child_process';
import {writeFileSync} from 'node:fs';
import {join} from 'node:path';
import {hard} from './page_common.mjs';
import {SIZES, SLACK, Trial, noise, ppmOf} from './page_trial.mjs';
import {pause} from './page_browser.mjs';

// Two cells that may change places, in a corner: another picture has its clues.
const AMBIGUOUS = ['a.....', '.a....', '......', '...aaa', '...aaa', '...aaa'];

export async function drawing({trial, page}) {
  await trial.open(ppmOf(noise(8, 9, '.')), 'blank');
  const shows = async (wanted, what) => {
    assert.deepEqual(await trial.picture(), wanted, what);
    await trial.check(what);
  };
  await page.run(() => bench.stroke(['colour add 0 0 0']).then(() => useColour('a')));
  await page.press('p');
  await trial.drag([[1, 1], [1, 4], [3, 4]]);
  const dragged = [
    'aaaa.....',
    '...a.....',
    '...a.....',
    '.........',
    '.........',
    '.........',
    '.........',
    '.........'
  ];
  await shows(dragged, 'a drag');
  await page.press('f');
  await trial.drag([[5, 2], [7, 5]]);
  const boxed = dragged.map((row, at) => (at >= 4 && at <= 6 ? '.aaaa....' : row));
  await shows(boxed, 'a filled rectangle');
  await page.press('r');
  await trial.drag([[1, 6], [4, 9]]);
  const outlined = boxed.map(
      (row, at) =>
          (at === 0 || at === 3 ? row.slice(0, 5) + 'aaaa' :
               at < 3           ? row.slice(0, 5) + 'a..a' :
                                  row)
  );
  await shows(outlined, 'an outline');
  await page.press('l');
  await trial.drag([[8, 1], [8, 9]]);
  const lined = outlined.map((row, at) => (at === 7 ? 'aaaaaaaaa' : row));
  await shows(lined, 'a line');
  for (const wanted of [outlined, boxed, dragged]) {
    await trial.press('Control+z');
    await shows(wanted, 'an undo takes back a stroke');
  }
  for (const wanted of [boxed, outlined, lined]) {
    await trial.press('Control+y');
    await shows(wanted, 'a redo makes it again');
  }
}

export async function stopping({trial, page}) {
  await trial.open(hard(), 'hard');
  await page.run(() => {
    document.getElementById('seconds').value = '';
    document.getElementById('seconds').dispatchEvent(new Event('change'));
  });
  await page.until(() => !document.getElementById('task').hidden);
  await pause(1200);
  assert.match(await trial.text('#task-time'), /^[1-9]/, 'the seconds are told');
  const began = await page.run(() => {
    const from = performance.now();
    document.getElementById('stop').click();
    return performance.now() - from;
  });
  assert.ok(began < 200 * SLACK, `Stop took ${began} ms`);
  assert.equal(
      await page.run(
          () => workers.filter((one) => !one.isEnded).length <= 1 &&
              document.getElementById('task').hidden
      ),
      true,
      'the second worker is ended'
  );
  assert.match(await trial.text('#verdict'), /Undecided/, 'it is undecided');
  // A certificate that does not come: it runs, a stroke ends it at once and is answered as ever.
  await page.run(() => {
    window.found = certificateText();
  });
  await page.until(() => !document.getElementById('task').hidden);
  await pause(500);
  const spent = await page.run(async () => {
    const from = performance.now();
    const {picture} = bench.state;
    const done = bench.stroke([`paint 1 1 ${picture[0][0] === 'a' ? '.' : 'a'}`]);
    const ended = searches.running === null ? performance.now() - from : Infinity;
    await done;
    return [ended, performance.now() - from, await window.found];
  });
  assert.ok(spent[0] < 200 * SLACK, 'a stroke ends the search at once');
  assert.ok(spent[1] < 250 * SLACK, `the stroke took ${spent[1]} ms`);
  assert.equal(spent[2], null);
  assert.match(await trial.text('#said'), /search for a certificate was stopped/);
  await page.run(() => {
    document.getElementById('seconds').value = '5';
    document.getElementById('seconds').dispatchEvent(new Event('change'));
    searches.stop();
  });
}

export async function hatching({trial, page}) {
  await trial.open(ppmOf(AMBIGUOUS), 'pair');
  assert.equal(await trial.judged(), 'ambiguous');
  assert.match(await trial.text('#verdict-why'), /differs in 4 cells/);
  assert.equal(
      await page.run(() => sheet.hatching), 'differing', 'the default where it is ambiguous'
  );
  assert.match(
      await trial.text('#legend'), /corners have the colours of the picture that is not shown/
  );
  await page.press('x');
  assert.equal(await page.run(() => sheet.other), true, 'the other picture in place');
  assert.match(
      await page.run(() => document.querySelector('#verdict-do [data-action="other"]').ariaLabel),
      /Back/
  );
  await page.press('x');
  for (const wanted of ['open', 'off', 'differing']) {
    await page.press('h');
    assert.equal(
        await page.run(() => document.getElementById('hatching').value),
        wanted,
        'the switch by its key'
    );
  }
  await trial.example('heart');
  assert.equal(await trial.judged(), 'unique');
  assert.equal(await page.run(() => sheet.hatching), 'off', 'light where it is unique');
  assert.match(await trial.text('#verdict-why'), /need more than line logic|Line logic alone/);
}

export async function fixing({trial, page}) {
  await trial.open(ppmOf(AMBIGUOUS), 'pair');
  assert.equal(await trial.judged(), 'ambiguous');
  const before = await trial.state();
  await trial.action('fix');
  await page.click('#fix-give');
  await page.until(() => bench.state.givens.size > 0);
  assert.equal(await trial.judged(), 'unique', 'the given cells make it unique');
  assert.equal((await trial.state()).givens.length, 1, 'one is enough');
  await trial.press('Control+z');
  assert.deepEqual((await trial.state()).givens, before.givens, 'one undo takes all back');
  assert.equal(await trial.judged(), 'ambiguous');
  await trial.action('fix');
  await page.click('#fix-paint');
  await page.until(() => document.querySelectorAll('#fix-list button').length > 0);
  await page.until(() => !searches.running);
  await pause(300);  // a press before that may be meant for what was listed before
  await page.click('#fix-list button');
  await trial.settled();
  assert.equal(await trial.judged(), 'unique', 'a repaint from the list makes it unique');
  await trial.check('after a repaint');
  const [one, two] = [before.picture.join(''), (await trial.picture()).join('')];
  assert.equal(
      [...one].filter((letter, at) => letter !== two[at]).length, 1, 'one cell is another'
  );
  await trial.press('Control+z');
  assert.deepEqual(await trial.picture(), before.picture);
}

export async function playing({trial, page}) {
  await trial.open(ppmOf(['aa.', '.bb', 'a.a']), 'small');
  await trial.judged();
  await page.run(() => document.activeElement?.blur());
  await trial.action('play');
  await page.until(() => document.querySelector('#play-room')?.open);
  const at = (row, col) => page.run((r, c) => {
    const box = document.getElementById('play-field').getBoundingClientRect();
    return [box.left + (c - 0.5) * play.side, box.top + (r - 0.5) * play.side];
  }, row, col);
  assert.deepEqual(
      await page.run(() => play.marks.map((row) => row.join(''))),
      ['???', '???', '???'],
      'it begins empty'
  );
  await page.drag([await at(1, 1), await at(1, 2)]);
  await page.drag([await at(2, 1)]);
  await page.click('#play-check');
  assert.match(await trial.text('#play-said'), /^1 cell is wrong\./);
  await page.press('Control+z');
  await page.click('#play-check');
  assert.match(await trial.text('#play-said'), /Nothing is wrong/);
  await page.drag([await at(3, 1)]);
  await page.drag([await at(3, 3)]);
  await page.run(() => document.getElementById('play-field').focus());
  await page.press('b');
  await page.drag([await at(2, 2), await at(2, 3)]);
  assert.match(await trial.text('#play-said'), /^Solved/);
  assert.deepEqual(await trial.picture(), ['aa.', '.bb', 'a.a'], 'the picture stays as it was');
  await page.press('Escape');
  await page.until(() => !document.querySelector('#play-room'));
  await trial.action('play');
  await page.until(() => document.querySelector('#play-room')?.open);
  assert.deepEqual(
      await page.run(() => play.marks.map((row) => row.join(''))),
      ['aa?', '?bb', 'a?a'],
      'the marks stand as they were left'
  );
  assert.match(await trial.text('#play-said'), /Your marks are as you left them/);
  await page.press('Control+z');
  assert.deepEqual(await page.run(() => play.marks[1].join('')), '???', 'and are undone');
  await page.press('Escape');
  await page.until(() => !document.querySelector('#play-room'));
  await trial.drag([[1, 3]]);
  await trial.judged();
  await page.run(() => {
    runAction('play');
  });
  await page.until(() => document.querySelector('#play-room')?.open);
  assert.deepEqual(
      await page.run(() => play.marks.map((row) => row.join(''))),
      ['???', '???', '???'],
      'another picture begins empty'
  );
  await page.click('#play-walk');
  await trial.open(ppmOf(['a.', '.a']), 'behind');
  await page.until(() => !document.querySelector('#play-room'));
}

/** Where there is another solution, what it has is not told to be wrong. */
export async function checkOfTwoSolutions({trial, page}) {
  await trial.open(ppmOf(['a.', '.a']), 'pair');
  assert.equal(await trial.judged(), 'ambiguous');
  await page.run(() => {
    runAction('play');
  });
  await page.until(() => document.querySelector('#play-room')?.open);
  await page.run(() => document.getElementById('play-field').focus());
  await page.press('ArrowRight', ' ');
  await page.click('#play-check');
  assert.match(await trial.text('#play-said'), /^1 cell differs from your picture\./);
  await page.press('Control+z');
  await page.click('#play-check');
  assert.match(await trial.text('#play-said'), /^Nothing differs from your picture so far\./);
  await page.press('Escape');
  await page.until(() => !document.querySelector('#play-room'));
}

export async function reasons({trial, page}) {
  await trial.example('heart');
  await trial.judged();
  await page.press('w');
  await page.drag([await trial.cell(1, 1)]);
  await page.until(() => document.querySelectorAll('#why button').length > 0);
  const texts = await page.run(
      () => [...document.querySelectorAll('#why button')].map((one) => one.textContent)
  );
  assert.equal(
      texts.length, (await trial.state()).colours.length - 1, 'a reason for each other colour'
  );
  for (const text of texts)
    assert.match(text, /is excluded by (row|column) \d+|is left here|is given/);
  await page.press('p');
}

export async function onAPhone({browser, url, folder}) {
  const trial = await Trial.start(browser, url, folder, SIZES.phone);
  const {page} = trial;
  await trial.open(ppmOf(AMBIGUOUS), 'pair');
  assert.equal(await trial.judged(), 'ambiguous');
  const box = await page.run(() => {
    const {top, height} = document.getElementById('verdict').getBoundingClientRect();
    return [top, height];
  });
  assert.ok(box[0] < 160 && box[1] < 60, `the verdict stands on top in one line: ${box}`);
  const before = await trial.picture();
  await page.touch([await trial.cell(6, 1)]);
  await trial.settled();
  assert.notDeepEqual(await trial.picture(), before, 'one finger paints');
  const small = await page.run(
      () => [...document.querySelectorAll('#tools button, #colours [role=radio]')]
                .filter(
                    (one) =>
                        one.checkVisibility() && (one.offsetWidth < 44 || one.offsetHeight < 44)
                )
                .map((one) => one.outerHTML.slice(0, 80))
  );
  assert.deepEqual(small, [], 'targets of 44 px');
  assert.ok(
      await page.run(() => document.documentElement.scrollWidth <= innerWidth),
      'nothing stands out to the side'
  );
  assert.deepEqual(page.faults, []);
  await page.close();
}

/**
 * A certificate that is found in the second worker is reported as the verdict, and the program
 * accepts it.
 */
export async function certificates({trial, page, folder}) {
  const text = ppmOf(['.aa..', 'abba.', 'abba.', '.aa.c', '....c']);
  await trial.open(text, 'certified');
  const cert = await page.run(() => certificateText());
  assert.match(cert, /^nono(cert 1|lemma 2)\n/);
  assert.equal((await trial.state()).verdict.word, 'unique');
  if (process.env.NONOBENCH) {
    writeFileSync(join(folder, 'certified.ppm'), text);
    writeFileSync(join(folder, 'certified.cert'), cert);
    const done = spawnSync(
        process.env.NONOBENCH,
        ['check', join(folder, 'certified.ppm'), join(folder, 'certified.cert')],
        {encoding: 'utf8'}
    );
    assert.equal(done.stdout, 'certificate accepted\n', done.stderr);
  }
  await trial.open(ppmOf(AMBIGUOUS), 'pair');
  await trial.judged();
  assert.equal(await page.run(() => certificateText()), null);
  assert.match(await trial.text('#said'), /second solution/);
}

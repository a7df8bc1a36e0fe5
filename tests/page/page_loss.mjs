// Tests in the browser that nothing is lost where a worker ends in the middle of a drag or the page
// is loaded again, and of the way in from the start screen by mouse, finger and keys.
import assert from 'node:assert/strict';
import {SIZES, Trial, ppmOf} from './page_trial.mjs';

const SMALL = ['.....', '.aaa.', '.aba.', '.aaa.', '.....'];

export async function beginning({browser, url, folder}) {
  for (const [name, size] of Object.entries(SIZES)) {
    const trial = await Trial.start(browser, url, folder, size);
    const {page} = trial;
    await page.shot(`${folder}/start-${name}.png`);
    assert.ok(
        await page.run(() => document.documentElement.scrollWidth <= innerWidth),
        `${name}: nothing stands out to the side`
    );
    if (size.touch)
      await page.tap('#new-go');
    else
      await page.click('#new-go');
    await page.until(() => bench.state !== null);
    const at = await trial.cell(3, 4);
    if (size.touch)
      await page.touch([at]);
    else
      await page.drag([at]);
    await trial.settled();
    assert.equal(
        (await trial.picture()).join('').replaceAll('.', ''),
        'a',
        `${name}: painted by the second click`
    );
    assert.deepEqual(
        await page.run(() => [bench.state.columns, bench.state.rows]),
        [20, 15],
        `${name}: the size that is proposed`
    );
    await page.shot(`${folder}/new-${name}.png`);
    assert.deepEqual(page.faults, []);
    await page.close();
  }
}

export async function beginningByKeys({trial, page}) {
  await page.run(() => document.getElementById('new-columns').focus());
  await page.press('Control+a', '7', 'Tab', 'Control+a', '6', 'Enter');
  await page.until(() => bench.state !== null);
  assert.deepEqual(await page.run(() => [bench.state.columns, bench.state.rows]), [7, 6]);
  await page.until(
      () => document.activeElement.matches('.cell')
  );  // the keyboard is at the picture
  await trial.press('ArrowRight', 'Enter', 'ArrowDown', 'Enter');
  assert.deepEqual((await trial.picture()).slice(0, 2), ['.a.....', '.a.....'], 'cells by keys');
  await page.hold('Shift', true);
  await trial.press('Shift+ArrowRight', 'Shift+ArrowRight');
  await page.hold('Shift', false);
  await trial.settled();
  assert.equal((await trial.picture())[1], '.aaa...', 'a drag by keys');
}

export async function endedWorker({trial, page}) {
  await trial.open(ppmOf(SMALL), 'ended');
  await trial.drag([[1, 1], [1, 3]]);
  const points = [await trial.cell(5, 1), await trial.cell(5, 2)];
  await page.drag(points, {release: false});
  await page.run(() => {
    const worker =
        workers.find((one) => !one.isEnded && one.onmessage && one !== searches.engine?.worker);
    worker.terminate();
    worker.onerror(new ErrorEvent('error', {message: 'ended by the test'}));
  });
  const last = await trial.cell(5, 5);
  await page.mouse('mouseMoved', ...last);
  await page.mouse('mouseReleased', ...last);
  await trial.settled();
  const picture = await trial.picture();
  assert.deepEqual(
      [picture[0], picture[4]], ['aaa..', 'aaaaa'], 'the drag and the stroke before it are there'
  );
  await trial.check('after the worker ended');
  await trial.press('Control+z', 'Control+z');
  assert.deepEqual(await trial.picture(), SMALL, 'strokes from before are taken back');
  page.faults.length = 0;
}

// Waits until what is shown is on the shelf.
const kept = (page) => page.until(() => keep.keeper && keep.keeper.isDone);

export async function reloading({trial, page}) {
  await page.run((text) => takeFile(new File([text], 'reloaded.ppm')), ppmOf(SMALL));
  await trial.drag([[1, 1], [1, 3]]);
  await trial.drag([[5, 1], [5, 5]]);
  await kept(page);
  await page.reload();
  await page.until(
      () => [...document.querySelectorAll('#start button.kept b')].some(
          (one) => one.textContent === 'reloaded'
      )
  );
  assert.ok(
      page.dialogs.includes('beforeunload'),
      'the browser asks before work that is in no file is left'
  );
  await page.run(
      () => [...document.querySelectorAll('#start button.kept')]
                .find((one) => one.querySelector('b').textContent === 'reloaded')
                .click()
  );
  await page.until(() => bench.state !== null);
  assert.deepEqual(
      (await trial.picture()).filter((_, at) => at % 4 === 0),
      ['aaa..', 'aaaaa'],
      'the picture is back'
  );
  await trial.press('Control+z', 'Control+z');
  assert.deepEqual(await trial.picture(), SMALL, 'its strokes too');
  await trial.press('Control+y');
  assert.equal((await trial.picture())[0], 'aaa..');
}

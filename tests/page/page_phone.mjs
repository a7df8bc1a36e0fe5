// Tests in the browser on phones, upright and lying: large pictures fit, the clue under a finger
// stands whole, and what is pressed is large enough. Each is a test of the runner
// tests/page/page_test.mjs.
import assert from 'node:assert/strict';
import {pause} from './page_browser.mjs';
import {fresh, hard} from './page_common.mjs';
import {User} from './page_inputs.mjs';
import {SIZES, Trial, noise, ppmOf} from './page_trial.mjs';

const UPRIGHT = [[390, 844], [360, 640]];
const LYING = [[844, 390], [640, 360]];
const start = (browser, url, folder, [width, height]) =>
    Trial.start(browser, url, folder, {width, height, touch: true});

const look = (page) => page.run(() => {
  const {geometry: at} = sheet;
  return {
    side: at.cell / at.scale,
    isFolded: at.isFolded,
    isWhole: at.x(at.columns) <= at.width && at.y(at.rows) <= at.height
  };
});

// A finger that comes down and stays there.
const down = (page, [x, y]) =>
    page.send('Input.dispatchTouchEvent', {type: 'touchStart', touchPoints: [{x, y, id: 0}]});
const up = (page) => page.send('Input.dispatchTouchEvent', {type: 'touchEnd', touchPoints: []});

// The clues that stand whole: their texts, whether they are in the window, and whether the finger
// is on them.
const wholes = (page, [x, y] = [0, 0]) => page.run(
    (a, b) => [...document.querySelectorAll('.whole')].filter(
                                                          (one) => one.checkVisibility()
    ).map((one) => {
      const {left, top, right, bottom} = one.getBoundingClientRect();
      return [
        one.textContent,
        left >= 0 && top >= 0 && right <= innerWidth && bottom <= innerHeight,
        a >= left && a <= right && b >= top && b <= bottom
      ];
    }),
    x,
    y
);
const clue = (page, axis, line) => page.run((name, at) => {
  const blocks = bench.state.clues[name][at - 1];
  return `${name === 'rows' ? 'Row' : 'Column'} ${at}${
      blocks.map((block) => block.length).join('') || '0'}`;
}, axis, line);

// A pinch at a point, from one distance of the fingers to another.
async function pinch(page, [x, y], from, to) {
  const track =
      (side) => [0, 0.25, 0.5, 0.75, 1].map((part) => [x + side * (from + (to - from) * part), y]);
  await page.touch(track(-1), track(1));
}

/**
 * Fit shows 120 by 120 whole: clues fold to edges. Larger cells have them back, and a pinch to
 * small ones is Fit.
 */
export async function foldedClues({browser, url, folder}) {
  for (const size of [...UPRIGHT, ...LYING]) {
    const where = size.join(' by ');
    const trial = await start(browser, url, folder, size);
    const {page} = trial;
    await trial.open(ppmOf(noise(120, 120, '...aabc')), 'large');
    await trial.settled();
    const first = await look(page);
    assert.ok(
        first.isWhole && first.isFolded && first.side >= (size[0] === 390 ? 3 : 2),
        `${where}: ${JSON.stringify(first)}`
    );
    await page.shot(`${folder}/phone-${size[0]}-fit.png`);
    const middle = await trial.cell(60, 60);
    await pinch(page, middle, 20, 100);
    await page.until(
        () => !sheet.geometry.isFolded && sheet.geometry.left > 30 * sheet.geometry.scale
    );
    await page.shot(`${folder}/phone-${size[0]}-near.png`);
    await pinch(page, middle, 120, 10);
    await page.until(() => sheet.geometry.isFolded);
    assert.deepEqual(await look(page), first, `${where}: Fit again`);
    assert.equal((await trial.state()).strokes[0], 0, `${where}: two fingers paint nothing`);
    await trial.example('heart');
    assert.equal((await look(page)).isFolded, false, `${where}: a small picture has its clues`);
    assert.deepEqual(page.faults, []);
    await page.close();
  }
}

/**
 * The clues of the cell under a finger stand whole beside it, and so does one whose edge is
 * tapped.
 */
export async function cluesUnderAFinger({browser, url, folder}) {
  for (const size of [...UPRIGHT, ...LYING]) {
    const where = size.join(' by ');
    const trial = await start(browser, url, folder, size);
    const {page} = trial;
    await trial.open(ppmOf(noise(120, 120, '...aabc')), 'large');
    await trial.settled();
    for (const [row, col] of [[20, 110], [110, 7]]) {
      const at = await trial.cell(row, col);
      await down(page, at);
      await page.until(() => document.querySelectorAll('.whole:not([hidden])').length === 2);
      assert.deepEqual(
          await wholes(page, at),
          [
            [await clue(page, 'rows', row), true, false],
            [await clue(page, 'columns', col), true, false]
          ],
          where
      );
      await page.shot(`${folder}/phone-${size[0]}-finger-${row}.png`);
      await up(page);
      await trial.settled();
      assert.deepEqual(await wholes(page), [], `${where}: the finger is lifted`);
    }
    const before = await trial.picture();
    const edge = await page.run(() => {
      const box = sheet.view.getBoundingClientRect();
      return [
        box.left + (sheet.geometry.originX / sheet.geometry.scale) - 6,
        box.top + (sheet.geometry.y(30) + 1) / sheet.geometry.scale
      ];
    });
    await page.touch([edge]);
    await page.until(() => document.querySelectorAll('.whole:not([hidden])').length === 1);
    assert.deepEqual(
        await wholes(page, edge),
        [[await clue(page, 'rows', 31), true, false]],
        `${where}: a tap on an edge`
    );
    assert.deepEqual(await trial.picture(), before, `${where}: a tap paints nothing`);
    assert.deepEqual(page.faults, []);
    await page.close();
  }
}

/**
 * Where not all clues have their numbers, a note says so; it stands whole in the room beside the
 * picture, also where More takes of its height.
 */
export async function numbersAreToldOf({browser, url, folder}) {
  const rows = Array.from(
      {length: 48},
      (_, row) => Array
                      .from(
                          {length: 48},
                          (_, col) => ((col < 24 ? row < 20 : row === 40 && col % 2) ? 'a' : '.')
                      )
                      .join('')
  );
  for (const [language, size] of [
           ['en', [768, 1024]],
           ['en', UPRIGHT[0]],
           ['de', UPRIGHT[0]],
           ['fr', UPRIGHT[1]],
           ['de', LYING[0]]]) {
    const where = `${language}, ${size.join(' by ')}`;
    const {page, trial} = await fresh(browser, url, folder, `numbers-${language}-${size[0]}`, {
      size: {width: size[0], height: size[1], touch: true},
      before: `try { localStorage.setItem('nonobench-language', '${language}'); } catch {}`
    });
    const note = () => page.run(
        () => new Promise(
            (go) => requestAnimationFrame(
                () => requestAnimationFrame(() => {
                  const [one, stage] = ['cut', 'stage'].map((id) => document.getElementById(id));
                  const [inner, outer] =
                      [one.getBoundingClientRect(), stage.getBoundingClientRect()];
                  const isWhole = inner.left >= outer.left && inner.top >= outer.top &&
                      one.scrollWidth <= one.clientWidth;
                  go({
                    isShown: !one.hidden,
                    isWhole,
                    side: sheet.geometry.cell / sheet.geometry.scale
                  });
                })
            )
        )
    );
    await trial.open(ppmOf(rows), 'wide');
    await trial.judged();
    const first = await note();
    assert.ok(first.side < 8, `${where}: ${first.side}`);
    assert.ok(first.isShown && first.isWhole, `${where}: ${JSON.stringify(first)}`);
    await trial.open(ppmOf(rows.slice(0, 24).map((row) => row.slice(12, 36))), 'small');
    await trial.judged();
    if (await page.run(() => document.getElementById('verdict-open').checkVisibility()))
      await page.tap('#verdict-open');
    const more = await note();
    await page.shot(`${folder}/numbers-${language}-${size[0]}.png`);
    assert.ok(!more.isShown || more.isWhole, `${where}: More: ${JSON.stringify(more)}`);
    assert.deepEqual(page.faults, []);
    await page.close();
  }
}

/**
 * On a tablet fingers get what phones have, 44 px, and the header with the name of the file is
 * within the window; the panel does not scroll sideways, and the first proposals are seen whole.
 */
export async function tabletForFingers({browser, url, folder}) {
  for (const [language, width, height] of [
           ['en', 768, 1024],
           ['de', 768, 1024],
           ['fr', 768, 1024],
           ['de', 1024, 768],
           ['fr', 1024, 768]]) {
    const where = `${language}, ${width} by ${height}`;
    const {page, trial} = await fresh(browser, url, folder, `tablet-${language}-${width}`, {
      size: {width, height, touch: true},
      before: `try { localStorage.setItem('nonobench-language', '${language}'); } catch {}`
    });
    const small = (within) => page.run(
        (wanted) => [...document.querySelectorAll(wanted)]
                        .filter(
                            (one) =>
                                one.checkVisibility() && one.getBoundingClientRect().height < 43.9
                        )
                        .map((one) => one.outerHTML.slice(0, 80)),
        within
    );
    const pressed =
        ':is(button, select, input:not([type=checkbox], [type=radio]), label:has(> [type=checkbox]), summary)';
    assert.deepEqual(await small(`#start ${pressed}`), [], `${where}: the start`);
    await trial.open(ppmOf(['a.....', '.a....', '......', '...aaa', '...aaa', '...aaa']), 'tablet');
    await trial.judged();
    await page.run(() => {
      say('', '', {name: 'Do', run: () => {}});
    });
    assert.deepEqual(
        await small(`#tools ${pressed}, header button, aside ${pressed}, #said button`), [], where
    );
    assert.equal(
        await page.run(() => {
          const panel = document.querySelector('aside');
          return panel.scrollWidth - panel.clientWidth;
        }),
        0,
        `${where}: the panel`
    );
    await page.run(() => {
      runAction('fix');
    });
    await page.until(() => document.querySelector('#fix-list button'));
    await page.shot(`${folder}/tablet-fix-${language}-${width}.png`);
    assert.deepEqual(await small(`#fix ${pressed}`), [], `${where}: proposals`);
    const seen = await page.run(
        () => document.getElementById('fix-list').getBoundingClientRect().bottom -
            document.querySelector('#fix-list button').getBoundingClientRect().bottom
    );
    assert.ok(seen >= 0, `${where}: ${- seen} px of the first proposal are below the panel`);
    await page.run(() => {
      document.getElementById('fix-close').click();
    });
    await page.tap('#menus > button');
    await page.until(() => document.querySelector('.menu:popover-open'));
    assert.deepEqual(await small('.menu:popover-open button'), [], where);
    await page.run(() => {
      document.querySelector('.menu:popover-open').hidePopover();
      runAction('print');
    });
    await page.until(() => document.querySelector('dialog[open] #print-show'));
    assert.deepEqual(await small(`dialog[open] ${pressed}`), [], where);
    await page.press('Escape');
    const [over, wide, title] = await page.run(() => {
      const {right, width} = document.getElementById('title').getBoundingClientRect();
      return [document.querySelector('header').scrollWidth - innerWidth, right - innerWidth, width];
    });
    assert.ok(over <= 0 && wide <= 0 && title > 40, `${where}: ${[over, wide, title]}`);
    await trial.example('heart');
    await trial.judged();
    await page.shot(`${folder}/tablet-${language}-${width}.png`);
    assert.deepEqual(page.faults, []);
    await page.close();
  }
}

/**
 * The header of phones is within the window. The verdict's line: what is told beside the verdict
 * is whole, and no button breaks, is cut or stands alone in a row.
 */
export async function verdictLineOnPhones({browser, url, folder}) {
  for (const language of ['en', 'de', 'fr']) {
    for (const size of [UPRIGHT[1], [320, 568], ...LYING]) {
      const where = `${language}, ${size.join(' by ')}`;
      const {page, trial} = await fresh(browser, url, folder, `line-${language}-${size[0]}`, {
        size: {width: size[0], height: size[1], touch: true},
        before: `try { localStorage.setItem('nonobench-language', '${language}'); } catch {}`
      });
      await trial.open(
          ppmOf(['a.........', '.a........', '..a.......', '...a......', '....a.....']), 'line'
      );
      assert.equal(await trial.judged(), 'ambiguous');
      const look = () => page.run(() => {
        const line = document.getElementById('audit').getBoundingClientRect();
        const [texts, buttons] = ['#verdict, #verdict-short', '#audit button'].map(
            (all) => [...document.querySelectorAll(all)].filter((one) => one.checkVisibility())
        );
        const edges = buttons.map((one) => one.getBoundingClientRect());
        const isCut = (one) => {
          const text = document.createRange();
          text.selectNodeContents(one);
          const {left, top, right, bottom} = text.getBoundingClientRect();
          return right > Math.min(line.right, innerWidth) || bottom > line.bottom + 0.5 ||
              edges.some(
                  (edge) => left < edge.right && right > edge.left && top < edge.bottom &&
                      bottom > edge.top
              );
        };
        return {
          texts: texts.map((one) => one.id),
          cut: texts.filter(isCut).map((one) => one.id),
          out: edges
                   .filter(
                       ({right, height}) =>
                           right > Math.min(line.right, innerWidth) + 0.5 || height > 50
                   )
                   .length
        };
      });
      const [over, least, high] = await page.run(
          () =>
              [document.querySelector('header').scrollWidth - innerWidth,
               Math.min(...[...document.querySelectorAll('header button')]
                            .filter((one) => one.checkVisibility())
                            .map((one) => one.offsetWidth)),
               document.getElementById('audit').offsetHeight]
      );
      assert.ok(
          over <= 0 && least >= (size[0] === 320 ? 36 : 44),
          `${where}: the header is ${over} px too wide, its least button ${least} px`
      );
      assert.ok(high <= (size[0] > 600 ? 132 : 72), `${where}: the line is ${high} px high`);
      await page.shot(`${folder}/line-${language}-${size[0]}.png`);
      assert.deepEqual(await look(), {texts: ['verdict', 'verdict-short'], cut: [], out: 0}, where);
      assert.deepEqual(page.faults, []);
      await page.close();
    }
  }
}

/**
 * A phone that lies has its tools, its palette and the verdict beside the picture, large enough
 * for fingers.
 */
export async function lyingPhone({browser, url, folder}) {
  for (const size of LYING) {
    const where = size.join(' by ');
    const trial = await start(browser, url, folder, size);
    const {page} = trial;
    await page.shot(`${folder}/phone-${size[0]}-start.png`);
    await trial.example('apple');
    await trial.judged();
    await page.shot(`${folder}/phone-${size[0]}.png`);
    const small = await page.run(
        () => [...document.querySelectorAll(
                   '#tools button, #palette button, #quick button, #menus > button, #audit button'
               )]
                  .filter(
                      (one) =>
                          one.checkVisibility() && Math.min(one.offsetWidth, one.offsetHeight) < 44
                  )
                  .map((one) => one.outerHTML.slice(0, 80))
    );
    assert.deepEqual(small, [], `${where}: targets of 44 px`);
    const [wide, stage, verdict, palette] = await page.run(
        () =>
            [document.documentElement.scrollWidth - innerWidth,
             document.getElementById('stage').offsetHeight / innerHeight,
             ...['verdict', 'palette'].map(
                 (id) => document.getElementById(id).getBoundingClientRect().bottom < innerHeight
             )]
    );
    assert.ok(
        wide <= 0 && stage > 0.8 && verdict && palette,
        `${where}: ${[wide, stage, verdict, palette]}`
    );
    const before = await trial.picture();
    await page.run(() => useColour('b'));
    await page.touch([await trial.cell(1, 1), await trial.cell(1, 3)]);
    await trial.settled();
    assert.notDeepEqual(await trial.picture(), before, `${where}: one finger paints`);
    assert.deepEqual(page.faults, []);
    await page.close();
  }
}

/**
 * All colours stand within their panel, on tablets and on phones that lie; there, what runs covers
 * neither the picture nor the panel's end.
 */
export async function withinThePanel({browser, url, folder}) {
  for (const size of [[768, 1024], [1000, 700], ...LYING]) {
    const where = size.join(' by ');
    const trial = await start(browser, url, folder, size);
    const {page} = trial;
    await trial.open(hard(), 'hard');
    await page.run(
        () => bench
                  .become((doc) => ({
                            ...doc,
                            colours: Array.from(
                                {length: 16}, (_, at) => [at * 15, 255 - at * 15, (at * 77) % 256]
                            )
                          }))
                  .then(() => true)
    );
    await page.run(() => setSeconds(''));
    await page.until(
        () => document.querySelectorAll('#palette button').length === 16 &&
            !document.getElementById('task').hidden
    );
    const out = await page.run(() => {
      const panel = document.querySelector('aside');
      const wide = panel.getBoundingClientRect().left + panel.clientWidth;
      return [
        panel.scrollWidth - panel.clientWidth,
        ...[...document.querySelectorAll('#palette button')].map(
            (one) => one.getBoundingClientRect().right - wide
        )
      ].filter((more) => more > 0);
    });
    assert.deepEqual(out, [], where);
    const [over, below] = await page.run(() => {
      const panel = document.querySelector('aside');
      panel.scrollTop = panel.scrollHeight;
      const [task, stage] =
          ['task', 'stage'].map((id) => document.getElementById(id).getBoundingClientRect());
      const ends = [...panel.querySelectorAll('button, input, select')]
                       .filter((one) => one.checkVisibility())
                       .map((one) => one.getBoundingClientRect())
                       .filter(({left}) => left < task.right)
                       .map(({bottom}) => bottom);
      return [stage.bottom > task.top && stage.right > task.left, Math.max(...ends) - task.top];
    });
    assert.ok(!over && below <= 0, `${where}: ${over}, ${below}`);
    await page.shot(`${folder}/panel-${size[0]}.png`);
    await page.run(() => {
      setSeconds('5');
      searches.stop();
    });
    assert.deepEqual(page.faults, []);
    await page.close();
  }
}

/**
 * A tap is a click behind a stroke too that was as quick as a flick: on the tools, the palette,
 * and in Play.
 */
export async function tapBehindAFlick({browser, url, folder}) {
  const trial = await start(browser, url, folder, UPRIGHT[0]);
  const {page} = trial;
  const flick = ([x, y], far) => page.touch([0, 1, 2, 3].map((step) => [x + (far * step) / 3, y]));
  await trial.open(ppmOf(['..aa...', '.aaba..', '..aaaa.', '...aa..', '.......']));
  for (const tool of ['pin', 'line', 'pencil']) {
    await flick(await trial.cell(5, 1), 150);
    await trial.settled();
    await page.middle(`[data-tool="${tool}"]`);
    await pause(120);
    await page.tap(`[data-tool="${tool}"]`);
    await page.until((wanted) => tools.name === wanted, tool);
  }
  await page.run(() => runAction('play'));
  await page.until(() => document.querySelector('#play-room')?.open);
  const [x, y] = await page.middle('#play-field');
  await flick([x - 60, y], 120);
  await page.tap('#play-palette [data-letter="b"]');
  await page.until(() => play.letter === 'b');
  assert.deepEqual(page.faults, []);
  await page.close();
}

// ---- a solver alone

const turned = async (page, [width, height]) => {
  await page.send(
      'Emulation.setDeviceMetricsOverride', {width, height, deviceScaleFactor: 2, mobile: true}
  );
  await page.until((wide) => innerWidth === wide, width);
  await page.run(
      () => new Promise((go) => requestAnimationFrame(() => requestAnimationFrame(() => go())))
  );
};

// The player: the side of cells, whether the grid stands whole, whether larger cells would have
// room, and where the field begins.
const field = (page) => page.run(() => {
  const [board, {left, top, right, bottom}] =
      ['play-board', 'play-field'].map((id) => document.getElementById(id).getBoundingClientRect());
  const isWhole =
      left >= board.left && top >= board.top && right <= board.right && bottom <= board.bottom;
  const [wide, high] = ['play-left', 'play-top'].map(
      (id, at
      ) => [document.getElementById(id).offsetWidth, document.getElementById(id).offsetHeight][at]
  );
  const room = Math.floor(
      Math.min((board.width - wide) / play.state.columns, (board.height - high) / play.state.rows)
  );
  return {side: play.side, isWhole, isLarge: play.side >= Math.min(64, room - 2), top};
});
const inPlayer = (page) => page.until(() => document.getElementById('play-room')?.open);

/**
 * The player's grid fits a phone that is turned and a window that grows; a size that was chosen by
 * hand stays as long as the width.
 */
export async function playerIsTurned({browser, url, folder}) {
  const trial = await start(browser, url, folder, UPRIGHT[0]);
  const {page: tab} = trial;
  await trial.example('apple');
  await tab.run(() => {
    runAction('play');
  });
  await inPlayer(tab);
  for (const size of [UPRIGHT[0], LYING[0], UPRIGHT[1], LYING[1], [1900, 1000], UPRIGHT[0]]) {
    await turned(tab, size);
    const now = await field(tab);
    assert.ok(
        now.isWhole && now.isLarge && now.side >= 14, `${size.join(' by ')}: ${JSON.stringify(now)}`
    );
    await tab.shot(`${folder}/player-${size[0]}.png`);
  }
  await turned(tab, LYING[0]);
  await tab.run(() => document.getElementById('play-walk').click());
  assert.ok((await field(tab)).isWhole, 'the bar of the path leaves it whole');
  await tab.run(() => document.getElementById('walk-end').click());
  await turned(tab, UPRIGHT[0]);
  const {side, top} = await field(tab);
  await tab.tap('#play-check');
  assert.equal((await field(tab)).top, top, 'a message moves nothing');
  await tab.run(() => {
    document.getElementById('play-said').textContent = '';
  });
  assert.equal((await field(tab)).top, top, 'nor does its end');
  await tab.tap('#play-larger');
  const chosen = (await field(tab)).side;
  assert.ok(chosen > side);
  await turned(tab, [390, 790]);
  assert.equal((await field(tab)).side, chosen);
  const cut = await tab.run(() => {
    const [palette, button] = ['#play-palette', '#play-palette [aria-checked="true"]'].map(
        (one) => document.querySelector(one).getBoundingClientRect()
    );
    return [button.left - palette.left, button.top - palette.top, palette.bottom - button.bottom];
  });
  assert.ok(Math.min(...cut) >= 5, `the ring of the colour: ${cut}`);
  assert.deepEqual(tab.faults, []);
  await tab.close();
}

/**
 * A stroke of the player stays in the row or the column along which it begins, by mouse and by
 * finger; one of the editor goes where it is led.
 */
export async function strokesKeepTheirLine({browser, url, folder}) {
  for (const input of ['mouse', 'touch']) {
    const page =
        await browser.page({width: 390, height: 844, touch: input === 'touch', downloads: folder});
    const trial = new Trial(page, url, folder);
    await trial.load();
    await trial.open(ppmOf(['.....', '.....', '.....', '....a']), 'line');
    await page.run(() => localStorage.clear());  // the marks of the other input
    const along = (points) => (input === 'mouse' ? page.drag(points) : page.touch(points));
    await page.run(() => {
      runAction('play');
    });
    await inPlayer(page);
    const mark = async (cells) => along(await page.run((places) => {
      const box = document.getElementById('play-field').getBoundingClientRect();
      return places.map(
          ([row, col]) => [box.left + (col - 0.5) * play.side, box.top + (row - 0.5) * play.side]
      );
    }, cells));
    const marks = () => page.run(() => play.marks.map((row) => row.join('')).join());
    await mark([[1, 1], [1, 2], [2, 3], [2, 5]]);
    assert.equal(await marks(), 'aaaaa,?????,?????,?????', `${input}: the row`);
    await mark([[2, 1], [3, 1], [4, 2], [4, 3]]);
    assert.equal(await marks(), 'aaaaa,a????,a????,a????', `${input}: the column`);
    await mark([[2, 3], [3, 4]]);
    assert.equal(await marks(), 'aaaaa,a?a??,a????,a????', `${input}: no direction yet`);
    await mark([[3, 3], [2, 2], [2, 5], [3, 3]]);
    assert.equal(
        await marks(), 'aaaaa,a?a??,a?aaa,a????', `${input}: told apart behind a diagonal step`
    );
    await page.run(() => document.getElementById('play-room').close());
    await page.run(() => useColour('a'));
    const spots = [];
    for (const [row, col] of [[1, 1], [1, 2], [2, 3]]) spots.push(await trial.cell(row, col));
    await along(spots);
    await trial.settled();
    assert.deepEqual(
        await trial.picture(), ['aa...', '..a..', '.....', '....a'], `${input}: the editor`
    );
    assert.deepEqual(page.faults, []);
    await page.close();
  }
}

/**
 * Who has a puzzle from others is asked once before the path shows its solution, in each language;
 * a designer is not.
 */
export async function solutionIsAskedFor({browser, url, folder}) {
  for (const [language, text] of [
           ['en', /shows the solution/],
           ['de', /zeigt die Lösung/],
           ['fr', /montre la solution/]]) {
    const {page, trial} = await fresh(browser, url, folder, `asks-${language}`, {
      size: SIZES.phone,
      before: `try { localStorage.setItem('nonobench-language', '${language}'); } catch {}`
    });
    await trial.open(ppmOf(['a.', '.b', 'bb']), 'asks');
    const asked = () => page.run(
        () => document.querySelector('#dialogs dialog:not(#play-room)')?.textContent ?? ''
    );
    await page.run(() => {
      runAction('play');
    });
    await inPlayer(page);
    await page.tap('#play-walk');
    await page.until(() => !document.getElementById('walk-bar').hidden);
    assert.equal(await asked(), '', 'the designer sees it');
    const link = await page.run(() => fragmentOf(bench.state, 'play'));
    await page.goto('about:blank');
    await page.goto(url + link);
    await inPlayer(page);
    for (const [answer, isHidden] of [['button:not(.main)', true], ['button.main', false]]) {
      await page.tap('#play-walk');
      await page.until(() => document.querySelector('#dialogs dialog:not(#play-room) button.main'));
      assert.match(await asked(), text);
      assert.equal(
          await page.run(() => document.getElementById('walk-bar').hidden),
          true,
          'nothing is shown yet'
      );
      await page.tap(`#dialogs dialog:not(#play-room) ${answer}`);
      await page.until(() => !document.querySelector('#dialogs dialog:not(#play-room)'));
      assert.equal(
          await page.run(() => document.getElementById('walk-bar').hidden), isHidden, answer
      );
    }
    await page.tap('#walk-end');
    await page.tap('#play-walk');
    await page.until(() => !document.getElementById('walk-bar').hidden);
    assert.equal(await asked(), '', 'once');
    assert.deepEqual(page.faults, []);
    await page.close();
  }
}

/**
 * The tour is five marks on the balloon, each within the window and beside what it is about, in
 * each language; it tells of no keys, and Escape ends it.
 */
export async function tourOfTheBalloon({browser, url, folder}) {
  for (const language of ['en', 'de', 'fr']) {
    for (const size of [SIZES.phone, SIZES.small]) {
      const where = `${language}, ${size.width}`;
      const {page, trial} = await fresh(browser, url, folder, `tour-${language}-${size.width}`, {
        size,
        before: `try { localStorage.setItem('nonobench-language', '${language}'); } catch {}`
      });
      await page.run(() => {
        runAction('tour');
      });
      await page.until(() => document.querySelector('#tour:popover-open'));
      assert.equal(await trial.judged(), 'ambiguous');
      const texts = new Set();
      for (let mark = 1; mark <= 5; mark++) {
        const [text, isIn, isMarked] = await page.run(() => {
          const {left, top, right, bottom} =
              document.getElementById('tour').getBoundingClientRect();
          return [
            document.getElementById('tour-text').textContent,
            left >= 0 && top >= 0 && right <= innerWidth && bottom <= innerHeight,
            document.querySelectorAll('.toured').length
          ];
        });
        assert.deepEqual([isIn, isMarked], [true, 1], `${where}: mark ${mark}`);
        assert.doesNotMatch(text, /\([a-z]\)|Ctrl|Strg/);
        texts.add(text);
        if (mark < 5) await page.press('Enter');
      }
      assert.equal(texts.size, 5, where);
      await page.shot(`${folder}/tour-${language}-${size.width}.png`);
      await page.press('Escape');
      assert.equal(await page.run(() => document.querySelector('#tour, .toured')), null, where);
      assert.deepEqual(page.faults, []);
      await page.close();
    }
  }
}

/**
 * What a solver has marked is there after a reload, and after Start over by Undo; what is solved
 * is kept no more.
 */
export async function marksStay({browser, url, folder}) {
  const trial = await start(browser, url, folder, UPRIGHT[0]);
  const {page} = trial;
  const rows = ['a.', '.b', 'bb'];  // column 2 has its bs in rows 2 and 3
  await trial.open(ppmOf(rows), 'little');
  const link = await page.run(() => fragmentOf(bench.state, 'play'));
  await page.goto('about:blank');
  await page.goto(url + link);
  await inPlayer(page);
  const marks = () => page.run(() => play.marks.map((row) => row.join('')).join());
  const user = new User(page, trial, 'touch');
  await user.mark('a', [[1, 1]]);
  await user.mark('.', [[1, 2]]);
  const seen = await page.run(() => {
    const pen = document.getElementById('play-field').getContext('2d');
    const side = play.side * devicePixelRatio;
    const dark = ([red]) => red < 100;
    return [[0.5, 0.5], [0.4, 0.4], [0.6, 0.4], [0.14, 0.5], [0.5, 0.86]].map(
        ([x, y]) => dark(pen.getImageData(
                                devicePixelRatio + side * (1 + x), devicePixelRatio + side * y, 1, 1
        ).data)
    );
  });
  assert.deepEqual(seen, [true, true, true, false, false], 'a cross and no frame');
  await page.reload();
  await inPlayer(page);
  assert.equal(await marks(), 'a.,??,??');
  assert.match(await trial.text('#play-said'), /^Your marks are as you left them\. One solution/);
  await user.press('#play-clear');
  assert.equal(await marks(), '??,??,??');
  assert.match(await trial.text('#play-said'), /Undo brings them back/);
  await user.press('#play-undo');
  assert.equal(await marks(), 'a.,??,??');
  await user.mark('a', [[2, 1]]);
  for (const [press, text] of [
           ['#play-check', '1 cell is wrong.'],
           ['#play-hint', '1 cell is wrong. Check shows which.']]) {
    await user.press(press);
    await page.until((wanted) => document.getElementById('play-said').textContent === wanted, text);
  }
  await user.press('#play-undo');
  await user.mark('b', [[2, 2], [3, 1], [3, 2]]);
  assert.match(await trial.text('#play-said'), /^Solved/);
  await page.reload();
  await inPlayer(page);
  assert.equal(await marks(), '??,??,??');
  assert.deepEqual(page.faults, []);
  await page.close();
}

// How many pixels of a cell of the player are dark; `inset` of its side is left out all around.
const darkIn = (page, row, col, inset) => page.run((r, c, part) => {
  const scale = devicePixelRatio;
  const [x, y, wide] =
      [c + part, r + part, 1 - 2 * part].map((one) => Math.round(one * play.side * scale));
  const {data} = document.getElementById('play-field'
  ).getContext('2d').getImageData(x + scale, y + scale, wide, wide);
  return data.filter((_, at) => at % 4 === 0 && data[at] < 100).length;
}, row - 1, col - 1, inset);

/**
 * A pale mark has an edge around its cell, not a square in it; help tells of it; and what is
 * solved is shown without edges and crosses.
 */
export async function solvedIsPlain({browser, url, folder}) {
  const trial = await start(browser, url, folder, UPRIGHT[0]);
  const {page} = trial;
  await trial.open(ppmOf(['a.', 'aa'], {'.': '255 255 255', a: '255 250 225'}), 'pale');
  await page.run(() => {
    runAction('play');
  });
  await inPlayer(page);
  const user = new User(page, trial, 'touch');
  await user.mark('a', [[1, 1]]);
  await user.mark('.', [[1, 2]]);
  assert.equal(await darkIn(page, 1, 1, 0.15), 0, 'no square in the cell');
  assert.ok(await darkIn(page, 1, 1, 0.02) > 0, 'but an edge');
  assert.ok(await darkIn(page, 1, 2, 0.15) > 0, 'a cross');
  await user.press('#play-help');
  await page.until(() => /gets an edge/.test(document.querySelector('dialog .help').textContent));
  await page.run(() => document.querySelector('dialog:has(.help)').close());
  await user.mark('a', [[2, 1], [2, 2]]);
  assert.match(await trial.text('#play-said'), /^Solved/);
  for (const [row, col] of [[1, 1], [1, 2], [2, 1], [2, 2]])
    assert.equal(await darkIn(page, row, col, 0.06), 0, `row ${row}, column ${col} is plain`);
  await page.shot(`${folder}/player-solved.png`);
  await user.press('#play-undo');
  assert.ok(await darkIn(page, 1, 2, 0.15) > 0, 'the cross is back');
  assert.deepEqual(page.faults, []);
  await page.close();
}

/** What a zip for a site is for is read where it is offered, by a finger too. */
export async function siteIsExplained({browser, url, folder}) {
  const trial = await start(browser, url, folder, UPRIGHT[0]);
  const {page} = trial;
  await trial.example('heart');
  await page.tap('[popovertarget="menu-file"]');
  await page.until(() => document.querySelector('#menu-file [data-action="export-site"]'));
  const text = await page.run(() => {
    const [item, note] = ['', ' small'].map(
        (one) => document.querySelector(`#menu-file [data-action="export-site"]${one}`)
    );
    if (!note?.checkVisibility()) return 'nothing';
    const [outer, inner] = [item, note].map((one) => one.getBoundingClientRect());
    return inner.left >= outer.left && inner.right <= outer.right && inner.bottom <= outer.bottom &&
        note.textContent;
  });
  assert.match(String(text), /^For a site that publishes your puzzle/);
  assert.deepEqual(page.faults, []);
  await page.close();
}

/**
 * On a phone all tools of the player are in the window, no two buttons have one name, and texts
 * and help tell what fingers do.
 */
export async function fingersAreTold({browser, url, folder}) {
  const trial = await start(browser, url, folder, UPRIGHT[0]);
  const {page} = trial;
  const texts = [await trial.text('#start [aria-labelledby="open-title"] p')];
  await trial.example('apple');
  const names = await page.run(
      () => [...document.querySelectorAll('button')].filter(
                                                        (one) => one.checkVisibility()
      ).map((one) => one.textContent.trim())
  );
  await page.run(() => {
    runAction('play');
  });
  await inPlayer(page);
  const beyond = () => page.run(
      () => [...document.querySelectorAll('#play-bar button, #walk-bar > *, #play-palette button')]
                .filter((one) => one.checkVisibility())
                .filter(
                    (one) => one.getBoundingClientRect().right > innerWidth ||
                        one.getBoundingClientRect().bottom > innerHeight
                )
                .map((one) => one.id || one.textContent)
  );
  const cut = await beyond();
  await page.run(() => document.getElementById('play-walk').click());
  cut.push(...await beyond());
  await page.run(() => document.getElementById('play-help').click());
  texts.push(await trial.text('dialog .help'));
  await page.run(() => {
    for (const one of document.querySelectorAll('dialog')) one.close();
    runAction('guide');
  });
  texts.push(await trial.text('dialog .help'));
  await page.run(() => {
    document.querySelector('dialog').close();
    const canvas = document.createElement('canvas');
    canvas.getContext('2d').fillRect(9, 9, 90, 90);
    canvas.toBlob((blob) => takeFile(new File([blob], 'image.png')));
  });
  await page.until(() => document.querySelector('.importing figcaption'));
  texts.push(await page.run(() => {
    const one = document.querySelector('.importing figcaption');
    return one.checkVisibility() ? one.textContent : '';
  }));
  assert.deepEqual(cut, [], 'beyond the window');
  assert.equal(names.filter((name) => name === 'Edit').length, 1);
  const wanted = [
    /^Tap “Choose files …”\.(?!.*Ctrl)/,
    /Two fingers move the picture/,
    /A certificate proves/,
    /Tap a colour to keep it/
  ];
  for (const [at, text] of wanted.entries()) assert.match(texts[at], text);
  assert.deepEqual(page.faults, []);
  await page.close();
}

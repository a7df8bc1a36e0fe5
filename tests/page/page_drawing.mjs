// Tests in the browser: the tools beside the pencil, the selection, turns and sizes, colours, undo
// by stroke, zoom and pan, the small map, fingers on a phone. Expected pictures were drawn by hand.
import assert from 'node:assert/strict';
import {SIZES, Trial, noise, ppmOf} from './page_trial.mjs';
import {pause} from './page_browser.mjs';

const DUCK = ['..aa...', '.aaba..', '..aaaa.', '...aa..', '.......'];

async function shows(trial, wanted, what) {
  assert.deepEqual(await trial.picture(), wanted, what);
  await trial.check(what);
}

export async function bucketAndRecolour({trial, page}) {
  await trial.open(ppmOf(DUCK));
  await page.press('2', 'b');
  await trial.drag([[1, 3]]);
  await shows(
      trial, DUCK.map((row) => row.replaceAll('a', 'b')), 'the bucket fills what hangs together'
  );
  await page.press('Control+z', '0', 'e');
  await trial.drag([[1, 3]]);
  await shows(
      trial, DUCK.map((row) => row.replaceAll('a', '.')), 'recolour takes each cell of a colour'
  );
  await trial.press('Control+z');
  await page.press('p');
  await trial.drag([[2, 4]], {button: 'right'});
  assert.equal(await page.run(() => tools.colour), 'b', 'the right button takes a colour');
  await trial.drag([[5, 1], [5, 1]], {keys: 1});
  assert.equal(await page.run(() => tools.colour), '.', 'Alt takes a colour');
  await shows(trial, DUCK, 'taking a colour paints nothing');
  assert.equal((await trial.state()).strokes[0], 0);
}

/** Shift and a click draw a line from the cell that was painted last. */
export async function shiftDrawsLine({trial, page}) {
  const blank = Array(5).fill('.......');
  await trial.open(ppmOf(['......a', ...blank.slice(1)]));
  await page.press('1', 'p');
  await trial.drag([[2, 2]]);
  await trial.drag([[2, 5]], {keys: 8});
  await shows(trial, ['......a', '.aaaa..', ...blank.slice(2)], 'along a row');
  await trial.drag([[5, 5]], {keys: 8});
  await shows(
      trial, ['......a', '.aaaa..', '....a..', '....a..', '....a..'], 'and on from its end'
  );
  assert.equal((await trial.state()).strokes[0], 3);
  await trial.open(ppmOf(['a..', '...']));
  await trial.drag([[2, 3]], {keys: 8});
  await shows(trial, ['a..', '..a'], 'in another picture there is no last cell');
}

export async function selecting({trial, page}) {
  await trial.open(ppmOf(DUCK));
  await page.press('s');
  await trial.drag([[1, 3], [2, 4]]);
  await trial.drag([[1, 3], [4, 6]]);
  await trial.press('Enter');
  await shows(
      trial,
      ['.......', '.a..a..', '..aaaa.', '...aaaa', '.....ab'],
      'what is dragged moves, and leaves background'
  );
  assert.equal((await trial.state()).strokes[0], 1, 'a move is one stroke');
  await trial.press('Control+z');
  await shows(trial, DUCK, 'an undo takes it back');
  await page.run(() => {
    selection.box = null;
    showSelection();
  });
  await trial.drag([[1, 3], [2, 4]]);
  const text = await page.run(() => {
    const data = new DataTransfer();
    dispatchEvent(new ClipboardEvent('copy', {clipboardData: data, bubbles: true, cancelable: true})
    );
    return data.getData('text/plain');
  });
  assert.equal(text, 'aa\nab\n', 'copied as text');
  await page.run(() => {
    const data = new DataTransfer();
    data.setData('text/plain', 'bb\nb\n');
    dispatchEvent(
        new ClipboardEvent('paste', {clipboardData: data, bubbles: true, cancelable: true})
    );
  });
  await trial.press('Alt+ArrowDown', 'Alt+ArrowDown', 'Alt+ArrowDown', 'Enter');
  await shows(
      trial,
      ['..aa...', '.aaba..', '..aaaa.', '..bba..', '..b....'],
      'text that is pasted floats where the selection is'
  );
  await trial.press('Delete');
  await shows(
      trial, ['..aa...', '.aaba..', '..aaaa.', '....a..', '.......'], 'a selection is cleared'
  );
  await trial.press('Control+z', 'Control+z');
  await shows(trial, DUCK, 'both are undone');
}

/**
 * What is selected lies in the picture behind a change of its size, and a line that is dragged
 * goes with what floats.
 */
export async function selectionStays({trial, page}) {
  await trial.open(ppmOf(DUCK));
  await page.press('s');
  await trial.drag([[1, 3], [2, 4]]);
  await trial.drag([[1, 3], [4, 6]]);
  const clue = (row) => page.run((at) => {
    const {geometry} = sheet;
    const box = sheet.view.getBoundingClientRect();
    return [
      box.left + geometry.originX / geometry.scale - 8,
      box.top + (geometry.y(at - 1) + geometry.cell / 2) / geometry.scale
    ];
  }, row);
  await page.drag([await clue(5), await clue(3), await clue(1)]);
  await trial.press('Enter');
  await shows(
      trial, ['.....ab', '.a..a..', '..aaaa.', '...aaaa', '.......'], 'moved, and rows exchanged'
  );
  await trial.press('Control+z', 'Control+z', 'Control+a');
  await page.run(() => runAction('delete-row'));
  await trial.settled();
  await trial.press('Delete');
  await shows(trial, Array(4).fill('.......'), 'all of it is cleared that is left');
  await trial.press('Control+z', 'Control+z');
  await shows(trial, DUCK, 'both are undone');
  await trial.open(ppmOf(['...', '...']), 'blank');
  await page.press('w');
  await trial.drag([[1, 1]]);
}

export async function turning({trial, page}) {
  await trial.open(ppmOf(DUCK));
  const act = async (id) => {
    await page.run((name) => runAction(name), id);
    await trial.settled();
  };
  await act('mirror-across');
  await shows(trial, ['...aa..', '..abaa.', '.aaaa..', '..aa...', '.......'], 'mirrored');
  await act('turn-right');
  await shows(
      trial, ['.....', '..a..', '.aaa.', '.aaba', '..aaa', '...a.', '.....'], 'turned to the right'
  );
  await act('shift-down');
  await act('shift-up');
  await act('turn-left');
  await act('mirror-across');
  await shows(trial, DUCK, 'back again');
  await page.run(() => bench.become((doc) => resized(doc, 6, 8, {down: 1, across: 0})));
  await shows(
      trial, ['........', ...DUCK.map((row) => `${row}.`)], 'larger, the picture below on the left'
  );
  for (let turn = 0; turn < 7; turn++) await trial.press('Control+z');
  await shows(trial, DUCK, 'all undone');
}

/**
 * A colour that was read with the usual name of its tone has that of the new tone once it is
 * changed; a name of its own stays.
 */
export async function coloursAndNames({trial, page}) {
  await trial.open(ppmOf(['ab'], {a: '139 69 19', b: '240 190 60'}));
  await page.run(
      () => bench.become(
                     (doc) => ({...doc, inks: [{}, {name: 'brown'}, {name: 'sail'}]})
      ).then(() => true)
  );
  for (const [key, value] of [['1', '#00a000'], ['2', '#0000a0']]) {
    await page.press(key);
    await page.run((one) => {
      const picker = document.getElementById('picker');
      picker.value = one;
      picker.dispatchEvent(new Event('change'));
    }, value);
    await trial.settled();
  }
  assert.deepEqual(
      await page.run(() => bench.state.colours.slice(1).map((triple) => triple.join())),
      ['0,160,0', '0,0,160']
  );
  assert.deepEqual(
      await page.run(() => bench.state.inks.map((ink) => ink.name ?? null)), [null, null, 'sail']
  );
}

export async function colours({trial, page}) {
  await trial.open(ppmOf(DUCK));
  const palette = async () => (await trial.state()).colours.map((triple) => triple.join());
  const pick = (value) => page.run((one) => {
    const picker = document.getElementById('picker');
    picker.value = one;
    picker.dispatchEvent(new Event('change'));
  }, value);
  await page.press('1');
  await pick('#0a141e');
  await trial.settled();
  assert.deepEqual(
      await palette(), ['255,255,255', '10,20,30', '200,40,40'], 'a colour is changed'
  );
  await trial.action('colour-later');
  await trial.settled();
  assert.deepEqual(
      [await palette(), await trial.picture()],
      [
        ['255,255,255', '200,40,40', '10,20,30'],
        DUCK.map((row) => row.replaceAll('a', 'x').replaceAll('b', 'a').replaceAll('x', 'b'))
      ],
      'colours in another order'
  );
  await trial.action('colour-delete');
  await trial.settled();
  assert.deepEqual(
      [await palette(), (await trial.picture())[1]],
      [['255,255,255', '200,40,40'], '...a...'],
      'a colour is removed'
  );
  await page.press('0');
  await pick('#eeeeff');
  await trial.settled();
  assert.equal((await palette())[0], '238,238,255', 'another background');
  for (let turn = 0; turn < 4; turn++) await trial.press('Control+z');
  await shows(trial, DUCK, 'all undone');
  assert.deepEqual(await palette(), ['255,255,255', '0,0,0', '200,40,40']);
}

export async function longUndo({trial, page}) {
  const blank = Array(30).fill('a'.padEnd(30, '.'));
  await trial.open(ppmOf(blank));
  const pictures = await page.run(async () => {
    const all = [bench.state.picture.join()];
    for (let turn = 0; turn < 200; turn++) {
      const lines = [];
      for (let one = 0; one < 9; one++) {
        const [row, col] = [(turn * 7 + one * 3) % 30, (turn * 11 + one * 5) % 30];
        lines.push(
            `paint ${row + 1} ${col + 1} ${bench.state.picture[row][col] === 'a' ? '.' : 'a'}`
        );
      }
      await bench.stroke(lines);
      all.push(bench.state.picture.join());
    }
    return all;
  });
  assert.equal(pictures.length, 201);
  assert.ok(pictures.every((one, at) => one !== pictures[at - 1]));
  const back = await page.run(async () => {
    const all = [bench.state.picture.join()];
    while (bench.past.length) {
      await bench.undo();
      all.push(bench.state.picture.join());
    }
    return all;
  });
  assert.deepEqual(back.reverse(), pictures);
}

export async function zooming({trial, page}) {
  await trial.open(ppmOf(noise(120, 120, '.ab')));
  const look = () => page.run(() => ({
                                cell: sheet.geometry.cell,
                                x: sheet.geometry.x(120),
                                y: sheet.geometry.y(120),
                                width: sheet.geometry.width,
                                height: sheet.geometry.height,
                                map: !document.getElementById('minimap').hidden
                              }));
  const fitted = await look();
  assert.ok(
      fitted.cell >= 3 && fitted.x <= fitted.width && fitted.y <= fitted.height && !fitted.map,
      JSON.stringify(fitted)
  );
  await page.run(() => {
    sheet.geometry.zoom(9);
    sheet.redrawAll();
  });
  const [x, y] = await trial.cell(60, 60);
  for (let turn = 0; turn < 6; turn++) await page.mouse('mouseWheel', x, y, {wheel: [0, -100]});
  await page.until(() => sheet.geometry.cell > 12 && !document.getElementById('minimap').hidden);
  const under = await page.run((a, b) => sheet.under({clientX: a, clientY: b}), x, y);
  assert.ok(
      Math.abs(under.row - 59) <= 1 && Math.abs(under.col - 59) <= 1,
      'the wheel zooms at the pointer'
  );
  const rolled = await page.run(() => sheet.geometry.cell);
  // None waits for the one before: what comes behind a rest would be a step.
  await Promise.all(Array.from({length: 12}, () => page.mouse('mouseWheel', x, y, {wheel: [0, -5]}))
  );
  await page.run(() => new Promise((go) => requestAnimationFrame(() => requestAnimationFrame(go))));
  const after = await page.run(() => sheet.geometry.cell);
  assert.ok(
      after >= rolled && after <= rolled * 1.5,
      `a pad that rolls a little zooms a little, not a step for each event: ${rolled}, ${after}`
  );
  const before = await page.run(() => sheet.geometry.panX);
  await page.hold(' ', true);
  await page.run(() => dispatchEvent(new Event('blur')));
  assert.equal(
      await page.run(() => sheet.view.classList.contains('may-pan')),
      false,
      'Space that is let go in another window does not pan for ever'
  );
  await page.hold(' ', false);
  await page.hold(' ', true);
  await page.drag([[x, y], [x - 50, y]]);
  await page.hold(' ', false);
  assert.equal(await page.run(() => sheet.geometry.panX), before + 50, 'Space and a drag pan');
  assert.equal((await trial.state()).strokes[0], 0, 'panning paints nothing');
  await page.run(() => new Promise((go) => requestAnimationFrame(go)));
  await page.mouse('mouseMoved', x + 3, y + 3);
  await page.until(
      () => [...document.querySelectorAll('.whole')].every(
          (one) => !one.hidden && /(Row|Column) \d+/.test(one.textContent)
      )
  );
  const down = await page.run(() => sheet.geometry.panY);
  await page.press('s');
  await page.drag([[x, y], [x, 200], [x, 60]]);
  await page.until((from) => sheet.geometry.panY < from, down);
  await page.press('Escape', 'z');
  await page.until(() => document.getElementById('minimap').hidden);
}

export async function letters({trial, page}) {
  await trial.open(ppmOf(DUCK));
  await trial.judged();
  await page.run(() => {
    sheet.hatching = 'off';
    sheet.drawAll();
  });
  // How many colours are seen within a cell: one without its letter, more with it.
  const count = (row, col) => page.run((r, c) => {
    const {geometry: at, cellCanvas} = sheet;
    const {data} = cellCanvas.getContext('2d'
    ).getImageData(at.x(c) + 4, at.y(r) + 4, at.cell - 8, at.cell - 8);
    return new Set(new Uint32Array(data.buffer)).size;
  }, row, col);
  assert.deepEqual([await count(0, 2), await count(0, 0)], [1, 1]);
  await page.press('Control+l');
  await page.until(
      () => sheet.geometry.letters && document.getElementById('row-clue').textContent.includes('a')
  );
  await page.run(() => new Promise((go) => requestAnimationFrame(() => requestAnimationFrame(go))));
  assert.deepEqual(
      [await count(0, 2) > 1, await count(1, 3) > 1, await count(0, 0)],
      [true, true, 1],
      'a letter in each cell with a colour'
  );
}

export async function nextCell({trial, page}) {
  const rows = [...Array(100)].map(() => '.'.repeat(100));
  rows[97] = 'a'.padStart(98, '.').padEnd(100, '.');
  rows[98] = 'a'.padStart(99, '.').padEnd(100, '.');
  await trial.open(ppmOf(rows));
  await trial.judged();
  await page.run(() => {
    sheet.geometry.zoom(24);
    sheet.geometry.pan(-1e6, -1e6);
    sheet.redrawAll();
  });
  await page.press('n');
  const at = await page.run(() => ({
                              ...cursor,
                              x: sheet.geometry.x(cursor.col),
                              y: sheet.geometry.y(cursor.row),
                              width: sheet.geometry.width,
                              height: sheet.geometry.height,
                              other: bench.state.verdict.other[cursor.row][cursor.col],
                              own: bench.state.picture[cursor.row][cursor.col]
                            }));
  assert.deepEqual([at.row, at.col], [97, 97]);
  assert.notEqual(at.other, at.own);
  assert.ok(at.x > 0 && at.x < at.width && at.y > 0 && at.y < at.height, 'it is scrolled there');
}

export async function fingers({browser, url, folder}) {
  const trial = await Trial.start(browser, url, folder, SIZES.phone);
  const {page} = trial;
  await trial.open(ppmOf(DUCK));
  const wide = await page.run(() => [document.documentElement.scrollWidth, innerWidth]);
  assert.equal(wide[0], wide[1], 'nothing is wider than the phone');
  const small = await page.run(
      () => [...document.querySelectorAll(
                 '#tools button, #palette button, #quick button, #menus > button'
             )].filter((one) => one.offsetParent)
                .map((one) => [one.textContent, Math.min(one.offsetWidth, one.offsetHeight)])
                .filter(([, side]) => side < 44)
  );
  assert.deepEqual(small, [], 'targets of 44 points');
  const at = async (row, col) => trial.cell(row, col);
  await page.run(() => {
    useColour('b');
  });
  await page.touch([await at(5, 1), await at(5, 4)]);
  await trial.settled();
  assert.equal((await trial.picture())[4], 'bbbb...', 'one finger paints');
  const [one, other] = [await at(2, 2), await at(4, 6)];
  const far = [other[0] + 60, other[1] + 60];
  const before = await page.run(() => sheet.geometry.cell);
  await page.touch([one, one], [other, [(other[0] + far[0]) / 2, (other[1] + far[1]) / 2], far]);
  await pause(100);
  assert.ok(await page.run(() => sheet.geometry.cell) > before, 'two fingers zoom');
  assert.equal((await trial.state()).strokes[0], 1, 'two fingers paint nothing');
  await page.shot(`${folder}/page-phone.png`);
  await page.close();
}

// Trials of what the page is for, point by point: each by mouse or fingers and by keys alone, in
// three sizes of the window. The runner tests/page/page_test.mjs prints them as a table.
import assert from 'node:assert/strict';
import {readFileSync} from 'node:fs';
import {fileURLToPath} from 'node:url';
import {bookPoint} from './page_books.mjs';
import {clean, downloaded, examples, fresh, hard, isKept, isOpen} from './page_common.mjs';
import {User} from './page_inputs.mjs';
import {choosingPoint, palettesPoint, slidingPoint, visionPoint} from './page_coming.mjs';
import {curvePoint, filmPoint, laterPoint} from './page_course.mjs';
import {frenchPoint, germanPoint, mirroredPoint} from './page_languages.mjs';
import {aimPoint, firstPoint, mendingPoint, walkingPoint} from './page_mending.mjs';
import {othersPoint, printPoint} from './page_out.mjs';
import {
  alikePoint,
  comingPoint,
  contactsPoint,
  pickingPoint,
  spritesPoint,
  tablePoint
} from './page_pictures.mjs';
import {outlinePoint, pensPoint, tracingPoint, wandPoint} from './page_pens.mjs';
import {stillPoint} from './page_lasting.mjs';
import {smallPoint, typingPoint} from './page_marks.mjs';
import {limitsPoint, placesPoint} from './page_repairs.mjs';
import {linkPoint, offlinePoint, playerPoint, severalPoint} from './page_sharing.mjs';
import {safePoint} from './page_safe.mjs';
import {SIZES, noise, ppmOf} from './page_trial.mjs';
import {segmentsPoint} from './page_two.mjs';
import {turningPoint} from './page_turning.mjs';
import {pause} from './page_browser.mjs';

const PAIR = ['a.....', '.a....', '......', '...aaa', '...aaa', '...aaa'];
const pathOf = (name) => fileURLToPath(new URL(name, examples));
const textOf = (name) => readFileSync(new URL(name, examples), 'utf8');
const goOn = (user) => user.press('#kept .kept').then(() => isOpen(user.page));
const isNarrow = (page) =>
    page.run(() => document.getElementById('verdict-open').checkVisibility());
const moreOf = async (user) => {
  if (await isNarrow(user.page)) await user.press('#verdict-open');
};

/** From the start screen: a new picture, the one of before, and a file. */
async function wayIn(user) {
  const {page, trial} = user;
  await user.fill('#new-columns', '9');
  await user.fill('#new-rows', '7');
  await user.press('#new-go');
  await isOpen(page);
  await user.stroke([2, 3]);
  assert.deepEqual(
      await trial.picture(), ['.........', '..a......', ...Array(5).fill('.........')]
  );
  await isKept(page);
  await trial.load();
  await goOn(user);
  assert.equal((await trial.picture())[1], '..a......');
  await user.menu('file', 'new');
  await user.chooseFile(() => user.press('#open-go'), pathOf('flower.ppm'));
  await page.until(() => bench.name === 'flower');
}

/** A PNG becomes a puzzle of the size and with the colours that are chosen. */
async function intoPuzzle(user) {
  const {page, trial} = user;
  const facts = (wanted) => page.until(
      (text) => document.querySelector('#import-facts')?.textContent.includes(text), wanted
  );
  await user.chooseFile(() => user.press('#open-go'), pathOf('duck.png'));
  await facts('10 by 10 cells, 4 colours');
  await user.fill('#import-columns', '20');
  await facts('20 by 20 cells, 4 colours');
  if (user.byKeys) {
    await user.tabTo('#import-colours');
    await page.press('ArrowLeft', 'ArrowLeft');
  } else {
    const [x, y] = await page.middle('#import-colours');
    const left = await page.run(
        () => document.querySelector('#import-colours').getBoundingClientRect().left
    );
    if (user.input === 'mouse')
      await page.drag([[left + 3, y]]);
    else
      await page.touch([[x, y], [left + 3, y], [left + 3, y]]);
  }
  await facts('20 by 20 cells, 2 colours');
  await user.press('#import-trim');
  await user.fill('#import-columns', '10');
  await facts('10 by 10 cells, 2 colours');
  await user.press('dialog button.main');
  await isOpen(page);
  const {rows, columns, colours} = await trial.state();
  assert.deepEqual([rows, columns, colours.length], [10, 10, 2]);
  await page.until(
      () => document.getElementById('said').textContent.includes('was made from the image')
  );
}

/** A reload loses nothing, strokes are taken back behind it, and the work goes to a file. */
async function neverLost(user, {own}) {
  const {page, trial} = user;
  await user.press('#new-go');
  await isOpen(page);
  await user.stroke([3, 4], [3, 7]);
  await user.stroke([5, 5]);
  await isKept(page);
  await trial.load();
  assert.ok(page.dialogs.includes('beforeunload'), 'the browser asks before it leaves');
  await goOn(user);
  const rows = await trial.picture();
  assert.deepEqual([rows[2], rows[4]], ['...aaaa.............', '....a...............']);
  await user.undo();
  await user.undo();
  assert.equal((await trial.picture()).join('').replaceAll('.', ''), '', 'taken back');
  if (user.byKeys)
    await page.press('Control+s');
  else
    await user.menu('file', 'save');
  assert.match((await downloaded(page, own, '.xml')).content.toString(), /<puzzleset>/);
}

/** A search that does not end is stopped, and a stroke ends one too. */
async function stoppable(user) {
  const {page, trial} = user;
  await trial.open(hard(), 'hard');
  await moreOf(user);
  await user.choose('#seconds', '');
  await page.until(
      () => !document.getElementById('task').hidden &&
          /^[1-9]/.test(document.getElementById('task-time').textContent)
  );
  if (user.byKeys)
    await page.press('.');
  else
    await user.press('#stop');
  await page.until(() => document.getElementById('task').hidden && searches.running === null);
  assert.match(await trial.text('#verdict'), /Undecided/);
  await user.press('#verdict-do [data-action="search"]');
  await page.until(() => searches.running !== null);
  if (await isNarrow(page)) await user.press('#verdict-open');
  const [before, version] = await page.run(() => [bench.state.picture.join(), searches.version]);
  await user.tool('pencil');
  await user.colour('a');
  await user.stroke([30, 30]);
  await user.colour('b');
  await user.stroke([30, 30]);
  assert.ok(await page.run((from) => searches.version > from, version), 'what ran is ended');
  assert.notEqual((await trial.picture()).join(), before);
  await page.run(() => {
    setSeconds('5');
    searches.stop();
  });
}

/** Tools, the selection, undo by stroke, the menu Picture. */
async function drawing(user) {
  const {page, trial} = user;
  const rows = [...Array(6).fill('.........'), '.......ab'];
  const shows = async (wanted, what) => assert.deepEqual(await trial.picture(), wanted, what);
  await trial.open(ppmOf(rows), 'tools');
  const at = (wanted) => rows.map((row, index) => wanted[index] ?? row);
  await user.tool('line');
  await user.colour('a');
  await user.stroke([1, 1], [1, 9]);
  await user.tool('rectangle');
  await user.colour('b');
  await user.stroke([3, 2], [5, 5]);
  await shows(
      at({0: 'aaaaaaaaa', 2: '.bbbb....', 3: '.b..b....', 4: '.bbbb....'}), 'line and outline'
  );
  await user.tool('bucket');
  await user.colour('a');
  await user.stroke([4, 3]);
  await user.tool('box');
  await user.stroke([3, 7], [4, 8]);
  await user.tool('pencil');
  await user.stroke([6, 1], [6, 3]);
  const drawn =
      at({0: 'aaaaaaaaa', 2: '.bbbb.aa.', 3: '.baab.aa.', 4: '.bbbb....', 5: 'aaa......'});
  await shows(drawn, 'bucket, filled rectangle, pencil');
  await user.tool('select');
  await user.stroke([3, 7], [4, 8]);
  if (user.byKeys)
    await page.press('Alt+ArrowDown', 'Enter');
  else {
    await user.stroke([3, 7], [4, 7]);
    await user.stroke([7, 1]);
  }
  await trial.settled();
  const moved =
      at({0: 'aaaaaaaaa', 2: '.bbbb....', 3: '.baab.aa.', 4: '.bbbb.aa.', 5: 'aaa......'});
  await shows(moved, 'moved');
  await user.menu('edit', 'select-none');
  await user.menu('picture', 'mirror-across');
  await trial.settled();
  await shows(moved.map((row) => [...row].reverse().join('')), 'mirrored');
  await user.menu('picture', 'turn-right');
  await trial.settled();
  assert.deepEqual((await trial.picture()).length, 9, 'turned');
  for (let turn = 0; turn < 8; turn++) await user.undo();
  await shows(rows, 'a stroke for each undo');
}

/** Fit, zoom, moving the view, and the way to the next cell. */
async function large(user) {
  const {page, trial} = user;
  await trial.open(ppmOf(noise(120, 120, '.ab')), 'large');
  await trial.settled();
  const look = () => page.run(() => ({
                                side: sheet.geometry.cell / sheet.geometry.scale,
                                x: sheet.geometry.panX,
                                y: sheet.geometry.panY,
                                whole: sheet.geometry.x(120) <= sheet.geometry.width &&
                                    sheet.geometry.y(120) <= sheet.geometry.height
                              }));
  const first = await look();
  assert.ok(first.side >= 3 && first.whole, JSON.stringify(first));
  const [x, y] = await trial.cell(60, 60);
  if (user.byKeys)
    await page.press(...Array(8).fill('+'));
  else if (user.input === 'mouse')
    for (let turn = 0; turn < 8; turn++) await page.mouse('mouseWheel', x, y, {wheel: [0, -100]});
  else
    await page.touch(
        [[x - 20, y], [x - 60, y], [x - 120, y]], [[x + 20, y], [x + 60, y], [x + 120, y]]
    );
  await page.until(
      (from) => sheet.geometry.cell / sheet.geometry.scale > from + 3 &&
          !document.getElementById('minimap').hidden,
      first.side
  );
  const zoomed = await look();
  if (user.byKeys)
    await user.goTo(110, 110);
  else if (user.input === 'mouse')
    await page.drag([[x, y], [x - 80, y - 40]], {button: 'middle'});
  else
    await page.touch(
        [[x - 20, y], [x - 60, y - 40], [x - 90, y - 60]],
        [[x + 20, y], [x - 20, y - 40], [x - 50, y - 60]]
    );
  await pause(60);
  const moved = await look();
  assert.ok(moved.x > zoomed.x && moved.y > zoomed.y, 'the view is moved');
  assert.equal((await trial.state()).strokes[0], 0, 'and nothing painted');
  const from = await page.run(() => `${cursor.row} ${cursor.col}`);
  if (user.byKeys)
    await page.press('n');
  else
    await user.menu('view', 'next');
  assert.ok(
      await page.run(
          (before) => `${cursor.row} ${cursor.col}` !== before &&
              bench.state.map[cursor.row][cursor.col] === '?',
          from
      ),
      'the next cell'
  );
  if (user.byKeys)
    await page.press('z');
  else
    await user.press('#zoom [data-action="fit"]');
  await page.until((side) => sheet.geometry.cell / sheet.geometry.scale === side, first.side);
}

/** Hatching, the other picture, Fix it, Play. */
async function meaning(user) {
  const {page, trial} = user;
  await trial.open(ppmOf(PAIR), 'pair');
  assert.equal(await trial.judged(), 'ambiguous');
  await moreOf(user);
  await user.choose('#hatching', 'off');
  assert.equal(await page.run(() => sheet.hatching), 'off');
  for (const wanted of [true, false]) {
    if (user.byKeys)
      await page.press('x');
    else
      await user.press('#verdict-do [data-action="other"]');
    assert.equal(await page.run(() => sheet.other), wanted, 'the other picture');
  }
  await user.press('#verdict-do [data-action="fix"]');
  await user.press('#fix-give');
  await page.until(() => bench.state.givens.size > 0);
  assert.equal(await trial.judged(), 'unique');
  await user.undo();
  assert.equal((await trial.state()).givens.length, 0, 'one undo takes it back');
  await trial.open(ppmOf(['aa.', '.bb', 'a.a']), 'small');
  await trial.judged();
  await moreOf(user);  // the proposals had closed it
  await user.press('#verdict-do [data-action="play"]');
  await page.until(() => document.querySelector('#play-room')?.open);
  await user.mark('b', [[2, 2], [2, 3]]);
  await user.mark('a', [[1, 1], [1, 2], [3, 1], [3, 3]]);
  assert.match(await trial.text('#play-said'), /^Solved/);
  if (user.byKeys)
    await page.press('Escape');
  else
    await user.press('#play-close');
  await page.until(() => !document.querySelector('#play-room'));
}

/** XML out and in again, pictures, the certificate, and the sheet. */
async function wayOut(user, {own}) {
  const {page, trial} = user;
  await trial.open(textOf('heart.ppm'), 'heart');
  assert.equal(await trial.judged(), 'unique');
  const before = await trial.state();
  for (const [id, ending] of [
           ['export-xml', '.xml'],
           ['export-empty', '-puzzle.png'],
           ['export-picture', '-picture.png'],
           ['certificate', '.cert'],
           ['export-ppm', '.ppm']]) {
    await user.menu('file', id);
    await downloaded(page, own, ending);
    assert.match(await trial.text('#said'), /saved/, `${id} is told`);
  }
  await user.chooseFile(() => user.menu('file', 'open'), `${own}/heart.xml`);
  await page.until(() => bench.state?.about.source === 'nonobench');  // only the file has that
  await page.until(() => bench.past.length === 0 && saving.form === 'xml');
  await trial.judged();
  const after = await trial.state();
  assert.deepEqual([after.picture, after.colours], [before.picture, before.colours]);
  await page.run(() => {
    window.print = () => {
      window.isPrinted = true;
    };
  });
  await user.menu('file', 'print');
  await page.until(() => document.querySelector('#print-show'));
  await user.choose('#print-show', 'letters');
  await user.press('dialog button.main');
  await page.until(() => window.isPrinted && document.querySelectorAll('.printed').length === 2);
  assert.ok(
      await page.run(
          () => [...document.querySelectorAll('.printed text')].some(
              (one) => /^\d+[a-o]$/.test(one.textContent)
          )
      ),
      'letters for colours'
  );
}

const POINTS = {
  'a way in': wayIn,
  'a picture into a puzzle': intoPuzzle,
  'palette while choosing': choosingPoint,
  'verdict while sliding': slidingPoint,
  'palette files': palettesPoint,
  'colours told apart': alikePoint,
  'a colour of the image': pickingPoint,
  'contact sheet': contactsPoint,
  'what comes in': comingPoint,
  sprites: spritesPoint,
  'table of files': tablePoint,
  'small things': smallPoint,
  'typing moves nothing': typingPoint,
  'never lost': neverLost,
  'a still canvas': stillPoint,
  'searches that stop': stoppable,
  drawing,
  'symmetric pens': pensPoint,
  'wand and recolour': wandPoint,
  'outline, shadow, nudging': outlinePoint,
  'tracing an image': tracingPoint,
  'large pictures': large,
  meaning,
  'colour-blind check': visionPoint,
  'the first example': firstPoint,
  mending: mendingPoint,
  'a grade aimed for': aimPoint,
  'place by place': placesPoint,
  'what a repair may change': limitsPoint,
  'the solving path': walkingPoint,
  'film strip': filmPoint,
  'difficulty curve': curvePoint,
  'known later': laterPoint,
  'what can turn': turningPoint,
  'out of the page': wayOut,
  'what others get': othersPoint,
  'print for books': printPoint,
  links: linkPoint,
  'two colours': segmentsPoint,
  'a book': bookPoint,
  'the safe brush': safePoint,
  'the player': playerPoint,
  'several files': severalPoint,
  offline: offlinePoint,
  German: germanPoint,
  French: frenchPoint,
  'right to left': mirroredPoint,
};
const INPUTS = {
  small: ['mouse', 'keys', 'touch'],
  large: ['mouse', 'keys', 'touch'],
  phone: ['touch', 'keys', 'mouse']
};
// A window that fingers use is one of a phone or tablet; a narrow one that a mouse uses is one of a
// desktop.
const windowOf = (size, input) =>
    ({...SIZES[size], touch: input === 'touch' || (input === 'keys' && SIZES[size].touch === true)}
    );
const columns = Object.entries(INPUTS).flatMap(
    ([size, inputs]) => inputs.map(
        (input) => ({size, input, name: `${SIZES[size].width} by ${SIZES[size].height}, ${input}`})
    )
);

/** All of them, by names such as 'drawing: 1280 by 800, keys'. */
export const tests = Object.fromEntries(Object.entries(POINTS).flatMap(
    ([point, act]) => columns.map(
        ({size, input, name}) =>
            [`${point}: ${name}`,
             async ({browser, url, folder}) => {
               const {page, trial, own} = await fresh(
                   browser, url, folder, `point-${size}-${input}`, {size: windowOf(size, input)}
               );
               try {
                 await clean(page);
                 await trial.load();
                 await act(new User(page, trial, input), {page, trial, own, folder});
                 assert.deepEqual(page.faults, []);
               } catch (fault) {
                 await page
                     .shot(`${folder}/failed-${point}-${size}-${input}.png`.replaceAll(' ', '-'))
                     .catch(() => {});
                 throw fault;
               } finally {
                 await page.close().catch(() => {});
               }
             }]
    )
));

/**
 * What came out, as a table: `passed` has the names of those that passed, `met` of those that were
 * tried.
 */
export function table(met, passed) {
  const shows = (name) => (passed.has(name) ? 'holds' : met.has(name) ? 'FAILED' : '');
  const rows = Object.keys(POINTS
  ).map((point) => [point, ...columns.map(({name}) => shows(`${point}: ${name}`))]);
  return [
    ['point', ...columns.map(({name}) => name)],
    ['---', ...columns.map(() => '---')],
    ...rows
  ].map((row) => `| ${row.join(' | ')} |`)
      .join('\n');
}

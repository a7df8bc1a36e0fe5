// Trials of what leaves the page by a link and of what comes as several files, in Chromium: links
// to edit, to play, in a frame; a table of a folder; a served page without its server. Each is a
// test of the runner tests/page/page_test.mjs.
import assert from 'node:assert/strict';
import {mkdirSync, readFileSync, rmSync, writeFileSync} from 'node:fs';
import {join} from 'node:path';
import {
  DUCK,
  clean,
  downloaded,
  examples,
  frames,
  fresh,
  hard,
  isKept,
  isOpen,
  menu,
  said,
  serve
} from './page_common.mjs';
import {SIZES, Trial, eightColours, ppmOf} from './page_trial.mjs';

const AMBIGUOUS = ['.a', 'a.'];  // its mirror has the same clues
const UNIQUE = [
  'a.',
  '.b',
  'bb'
];  // column 2 has its bs in rows 2 and 3, for row 1 has none; then each row has one place left
const linkShown = (page) => page.run(() => document.getElementById('share-link').value);
const choose = (page, selector, value) => page.run((one, wanted) => {
  document.querySelector(one).value = wanted;
  document.querySelector(one).dispatchEvent(new Event('change', {bubbles: true}));
}, selector, value);
const inPlay = (page) => page.until(() => document.getElementById('play-room')?.open);

// The fragment that the dialog offers, of a kind.
async function fragment(page, kind) {
  await menu(page, 'share');
  await page.until(() => document.getElementById('share-link'));
  await choose(page, '#share-kind', kind);
  const text = await linkShown(page);
  await page.press('Escape');
  await page.until(() => !document.querySelector('dialog[open]'));
  return text;
}

const opened = async (page, url) => {
  await page.goto('about:blank');
  await page.goto(url);
  await isOpen(page);
};

// The link of a kind, as the dialog offers and copies it.
async function linkOf(user, kind) {
  const {page} = user;
  await user.menu('file', 'share');
  await page.until(() => document.getElementById('share-link'));
  await user.choose('#share-kind', kind);
  const text = await linkShown(page);
  await user.press('dialog button.main');
  await page.until(() => !document.querySelector('dialog[open]'));
  assert.match(await said(page), /copied/);
  return text;
}

/**
 * A link to edit opens the whole document and is kept from its first stroke on; one of 30 by 30 in
 * 8 colours is short.
 */
export async function linkPoint(user, {page, trial}) {
  await trial.open(eightColours(), 'eight');
  const rows = await trial.picture();
  await page.run(
      () => bench.become((doc) => ({...doc, about: {title: 'Ente & Möwe'}, givens: new Set([3])}))
  );
  const link = await linkOf(user, 'edit');
  assert.match(link, /^file:.*#edit=[A-Za-z0-9_-]+$/);
  assert.ok(link.length < 2000, `${link.length} characters`);
  await opened(page, link);
  const {picture, givens} = await trial.state();
  assert.deepEqual(
      [picture, givens, await page.run(() => bench.state.about.title)], [rows, [3], 'Ente & Möwe']
  );
  await clean(page);
  await user.colour(rows[1][1] === 'a' ? 'b' : 'a');
  await user.stroke([2, 2]);
  assert.notEqual((await trial.picture())[1][1], rows[1][1]);
  await page.until(async () => (await keep.keeper.cards()).length === 1);
}

/**
 * A link to play shows the player alone: there is no way to the editor, and Escape does not close
 * it.
 */
export async function playerPoint(user, {page, trial}) {
  await trial.open(ppmOf(UNIQUE), 'little');
  await page.run(() => bench.become((doc) => ({...doc, about: {title: 'Goose', author: 'Jan'}})));
  await opened(page, await linkOf(user, 'play'));
  await inPlay(page);
  const titles = () =>
      page.run(() => [document.title, document.getElementById('play-credit').textContent]);
  assert.deepEqual(
      await titles(), ['Puzzle – nonobench', 'by Jan'], 'nothing gives the picture away'
  );
  await page.press('Escape', 'Escape');
  assert.ok(await page.run(() => document.getElementById('play-room')?.open));
  assert.equal(
      await page.run(() => document.getElementById('play-close').checkVisibility()), false
  );
  assert.equal(
      await page.run(
          () => document.getElementById('menus').checkVisibility({visibilityProperty: true})
      ),
      false
  );
  await user.mark('a', [[1, 1]]);
  await user.mark('b', [[2, 2], [3, 1], [3, 2]]);
  assert.match(await trial.text('#play-said'), /^Solved/);
  assert.deepEqual(await titles(), ['Goose – nonobench', 'Goose, by Jan']);
  assert.deepEqual(await page.run(() => [bench.state.picture, bench.past.length]), [UNIQUE, 0]);
}

/** The player, and the link that others play, offer only the colours that the puzzle has. */
export async function unusedStay({browser, url, folder}) {
  const {page, trial} = await fresh(browser, url, folder, 'unused');
  await trial.open(ppmOf(['.bb', 'b..'], {'.': '255 255 255', b: '200 40 40'}), 'unused');
  await page.run(() => bench.stroke(['colour add 0 0 0', 'colour add 40 80 200']));
  await trial.settled();
  assert.equal((await trial.state()).colours.length, 4);
  const offered = () => page.run(
      () => [...document.querySelectorAll('#play-palette button')].map(
          ({dataset}) => dataset.letter
      )
  );
  await page.run(() => runAction('play'));
  await inPlay(page);
  assert.deepEqual(await offered(), ['a', '.', '?']);
  await page.press('c');
  assert.equal(await page.run(() => play.letter), 'a');
  await page.press('Escape');
  const link = await fragment(page, 'play');
  const whole = await fragment(page, 'edit');
  await opened(page, whole);
  assert.equal((await trial.state()).colours.length, 4, 'who edits gets the palette');
  await page.goto('about:blank');
  await page.goto(link);
  await inPlay(page);
  assert.equal(await page.run(() => play.state.colours.length), 2);
  await page.close();
}

/** Another fragment in the same tab opens its puzzle; a damaged one says so and loses nothing. */
export async function linkInTheSameTab({browser, url, folder}) {
  const {page, trial} = await fresh(browser, url, folder, 'same-tab');
  await trial.open(ppmOf(DUCK), 'duck');
  const link = await fragment(page, 'edit');
  await trial.open(ppmOf(AMBIGUOUS), 'other');
  const play = await fragment(page, 'play');
  const follow = (to, end) => page.run((hash) => {
    location.hash = hash;
  }, to.slice(to.indexOf('#'), end));
  await follow(link);
  await page.until((rows) => bench.state.picture.join() === rows, DUCK.join());
  await follow(link, -6);
  await page.until(() => /damaged/.test(document.getElementById('said').textContent));
  assert.deepEqual(await trial.picture(), DUCK);
  const playsAlone = (rows) => page.until(
      (wanted) => document.querySelectorAll('#play-room[open]').length === 1 &&
          play.state.picture.join() === wanted,
      rows.join()
  );
  await page.run(() => runAction('walk'));
  await playsAlone(DUCK);
  await follow(play);
  await playsAlone(AMBIGUOUS);
  await trial.open(ppmOf(UNIQUE), 'behind');
  await playsAlone(UNIQUE);
  await page.run(() => document.getElementById('play-hint').click());
  await page.until(
      () => /^Row 3: more cells follow/.test(document.getElementById('play-said').textContent)
  );
  await page.close();
}

/**
 * A link asks before it closes a dialog in which something was done; where it is not opened, the
 * same link asks again.
 */
export async function linkOverDialog({browser, url, folder}) {
  const {page, trial} = await fresh(browser, url, folder, 'over-dialog');
  await trial.open(ppmOf(DUCK), 'duck');
  const link = (await fragment(page, 'edit')).replace(/^[^#]*/, '');
  await trial.open(ppmOf(AMBIGUOUS), 'two');
  const address = await page.run(() => location.href);
  await page.run((text) => {
    const dataTransfer = new DataTransfer();
    for (const name of ['a', 'b']) dataTransfer.items.add(new File([text], `${name}.ppm`));
    document.body.dispatchEvent(
        new DragEvent('drop', {dataTransfer, bubbles: true, cancelable: true})
    );
  }, ppmOf(UNIQUE));
  await page.until(() => document.querySelector('dialog[open] #several'));
  for (const button of ['Cancel', 'Open']) {
    await page.run((hash) => {
      location.hash = hash;
    }, link);
    await page.until(() => /The open dialog closes/.test([
      ...document.querySelectorAll('dialog[open]')
    ].at(-1)?.textContent));
    await page.run(
        (name) => [...document.querySelectorAll('dialog[open] button')]
                      .findLast((one) => one.textContent === name)
                      .click(),
        button
    );
    await page.until(
        (count) => document.querySelectorAll('dialog[open]').length === count,
        button === 'Cancel' ? 1 : 0
    );
    if (button === 'Cancel') await page.until((before) => location.href === before, address);
  }
  await page.until((rows) => bench.state.picture.join() === rows, DUCK.join());
  assert.ok(await page.run((hash) => location.hash === hash, link));
  await page.close();
}

/**
 * Where a link to play follows another one in the same tab, the player of the first is gone;
 * behind a damaged one it stays, alone.
 */
export async function playersInTheSameTab({browser, url, folder}) {
  const {page} = await fresh(browser, url, folder, 'players');
  const isAlone = () => page.run(
      () => document.getElementById('play-field').checkVisibility({visibilityProperty: true}) &&
          !document.getElementById('menus').checkVisibility({visibilityProperty: true})
  );
  for (const rows of [DUCK, AMBIGUOUS]) {
    await page.run(async (picture) => {
      const colours = [[255, 255, 255], [0, 0, 0], [200, 40, 40], [40, 80, 200]];
      location.hash = await fragmentOf(
          {
            rows: picture.length,
            columns: picture[0].length,
            maxval: 255,
            colours,
            picture,
            givens: new Set(),
            locks: new Set(),
            about: {},
            inks: [],
            extras: null
          },
          'play'
      );
    }, rows);
    await page.until(
        (count) => document.getElementById('play-room')?.open && play.state.rows === count,
        rows.length
    );
    assert.equal(await page.run(() => document.querySelectorAll('#play-room').length), 1);
    assert.equal(await isAlone(), true);
  }
  await page.run(() => {
    location.hash = location.hash.slice(0, -6);
  });
  await page.until(() => /damaged/.test(document.getElementById('play-said').textContent));
  assert.deepEqual(
      [
        await isAlone(),
        await page.run(() => document.getElementById('play-close').checkVisibility())
      ],
      [true, false],
      'no way to the solution'
  );
  await page.close();
}

/**
 * The dialog tells what a link does not: an ambiguous puzzle, a page from a file; and its HTML is
 * text.
 */
export async function linkNotes({browser, url, folder}) {
  const {page, trial} = await fresh(browser, url, folder, 'notes');
  await trial.open(ppmOf(AMBIGUOUS), 'two');
  await trial.judged();
  await page.run(() => bench.become((doc) => ({...doc, about: {title: '"><b>x'}})));
  await menu(page, 'share');
  await page.until(() => document.getElementById('share-link'));
  assert.match(
      await trial.text('#share-note'),
      /opened from a file.*contains the solution.*Another picture has the same clues/
  );
  await page.run(() => {
    const field = document.getElementById('share-address');
    field.value = 'https://example.org/p.html?a&b';
    field.dispatchEvent(new Event('input'));
  });
  assert.match(await linkShown(page), /^https:\/\/example\.org\/p\.html\?a&b#play=/);
  assert.doesNotMatch(await trial.text('#share-note'), /from a file/);
  await page.run(() => {
    const field = document.getElementById('share-address');
    field.value = 'example.org/p.html?a&b';
    field.dispatchEvent(new Event('input'));
  });
  await choose(page, '#share-kind', 'frame');
  assert.match(
      await trial.text('dialog[open] .rows'), /HTML.*The HTML shows the puzzle in a frame/s
  );
  assert.match(
      await linkShown(page),
      /^<iframe src="https:\/\/example\.org\/p\.html\?a&amp;b#play=[A-Za-z0-9_-]+" title="Puzzle" width="600" height="600"><\/iframe>$/
  );
  await page.close();
}

/**
 * Nothing that is typed or chosen moves the button that copies, what is typed is there the next
 * time, and what was said goes.
 */
export async function shareStays({browser, url, folder}) {
  for (const [name, size] of Object.entries(SIZES)) {
    const {page, trial} = await fresh(browser, url, folder, `share-${name}`, {size});
    await trial.open(ppmOf(AMBIGUOUS), 'two');
    await trial.judged();
    const address = async () => {
      await menu(page, 'share');
      await page.until(
          () => document.querySelector('dialog[open] #share-link')
      );  // not that of the dialog before, which goes a moment after it closes
      await page.run(() => document.getElementById('share-address').select());
      return page.run(() => document.getElementById('share-address').value);
    };
    const place = () =>
        page.run(() => document.querySelector('dialog button.main').getBoundingClientRect().top);
    assert.equal(await address(), '', name);
    const before = await place();
    for (const kind of ['edit', 'frame', 'play']) {
      await choose(page, '#share-kind', kind);
      assert.equal(await place(), before, `${name}: ${kind}`);
    }
    await page.press(...'http://a.org/p');
    assert.equal(await place(), before, `${name}: typed`);
    await page.press('Escape');
    await closedDialog(page);
    assert.equal(await address(), 'http://a.org/p', name);
    await page.press('Backspace');
    assert.equal(await place(), before, `${name}: cleared`);
    await page.run(() => {
      window.heard = [];
      new MutationObserver(
          () => window.heard.push(document.getElementById('said').textContent)
      ).observe(document.getElementById('said'), {childList: true});
    });
    await page.click('dialog button.main');
    await closedDialog(page);
    assert.equal(await address(), '', `${name}: no address any more`);
    await page.press('Escape');
    await page.until(
        () => window.heard.join('|') === 'The link was copied. It works only on this computer.|'
    );
    await page.close();
  }
}

/** What is no address is named, and nothing is copied: the dialog stays. */
export async function shareNoAddress({browser, url, folder}) {
  const {page, trial} = await fresh(browser, url, folder, 'share-none');
  await trial.open(ppmOf(AMBIGUOUS), 'two');
  await trial.judged();
  await page.run(() => {
    window.copies = [];
    navigator.clipboard.writeText = async (text) => {
      window.copies.push(text);
    };
    document.execCommand = () => window.copies.push('by the browser') > 0;
  });
  await menu(page, 'share');
  await page.until(() => document.getElementById('share-link'));
  const typed = (text) => page.run((value) => {
    const field = document.getElementById('share-address');
    field.value = value;
    field.dispatchEvent(new Event('input'));
  }, text);
  for (const text of ['foo bar', 'https://a.org/foo bar', 'https://', 'mailto:you']) {
    await typed(text);
    assert.equal(await linkShown(page), '', text);
    await page.click('dialog button.main');
    await page.until(
        (wanted) => document.querySelector('dialog[open] [role="alert"]').textContent === wanted,
        `“${text}” is not the address of a page: nothing can be copied.`
    );
  }
  assert.deepEqual(await page.run(() => window.copies), []);
  await typed('foo.org/p');
  assert.match(await linkShown(page), /^https:\/\/foo\.org\/p#play=/);
  await page.click('dialog button.main');
  await closedDialog(page);
  assert.equal(await said(page), 'The link was copied.');
  assert.equal((await page.run(() => window.copies)).length, 1);
  await page.close();
}

// Writes files to a folder; gives their paths.
function filesIn(own, files) {
  mkdirSync(join(own, 'in'), {recursive: true});
  return files.map(([name, content]) => {
    writeFileSync(join(own, 'in', name), content);
    return join(own, 'in', name);
  });
}

// Drops files by the mouse, or chooses them.
async function takeAll(user, paths) {
  const {page} = user;
  if (user.input === 'mouse') {
    const [x, y] = await page.run(() => [innerWidth / 2, innerHeight / 2]);
    const data = {items: [], files: paths, dragOperationsMask: 1};
    for (const type of ['dragEnter', 'dragOver', 'drop'])
      await page.send('Input.dispatchDragEvent', {type, x, y, data});
  } else
    await user.chooseFile(() => user.menu('file', 'open'), ...paths);
  await page.until(() => document.querySelector('#several'));
}

const closedDialog = (page) => page.until(() => !document.querySelector('dialog[open]'));

// A PNG of rows of letters, so many pixels a side each.
async function pngOf(page, rows, by) {
  const data = await page.run((lines, side) => {
    const canvas = Object.assign(
        document.createElement('canvas'),
        {width: lines[0].length * side, height: lines.length * side}
    );
    const pen = canvas.getContext('2d');
    lines.forEach((line, row) => [...line].forEach((letter, col) => {
      const step = 15 * (letter.charCodeAt(0) - 65);  // from A
      pen.fillStyle = {'.': '#fff', a: '#000', b: '#c82828'}[letter] ??
          `rgb(${step}, ${255 - step}, 100)`;
      pen.fillRect(col * side, row * side, side, side);
    }));
    return canvas.toDataURL().split(',')[1];
  }, rows, by);
  return Buffer.from(data, 'base64');
}

// A set of puzzles of two rows and columns by clues alone: those of the rows, which each have one
// block. Those of the columns are 1.
const setOf = (...puzzles) => `<puzzleset>${
    puzzles
        .map(
            (rows) => `<puzzle>${
                Object.entries({rows, columns: [1, 1]})
                    .map(
                        ([type, lines]) => `<clues type="${type}">${
                            lines.map(
                                     (length) => `<line><count>${length}</count></line>`
                            ).join('')}</clues>`
                    )
                    .join('')}</puzzle>`
        )
        .join('')}</puzzleset>`;

const rowsShown = (page) => page.run(
    () => [...document.querySelectorAll('#several tbody tr')].map(
        (row) => [...row.children].map((cell) => cell.textContent.trim())
    )
);

/**
 * Several files become a table with verdicts and grades, each picture with what lies beside it; a
 * row opens its picture, all go to the library, or out as one zip.
 */
export async function severalPoint(user, {page, trial, own}) {
  const paths = filesIn(own, [
    ['little.ppm', ppmOf(UNIQUE)],
    ['two.ppm', ppmOf(AMBIGUOUS)],
    ['heart.ppm', readFileSync(new URL('heart.ppm', examples))],
    ['notes.txt', 'nothing to read\n'],
    ['spot.ppm', ppmOf(AMBIGUOUS)],
    ['spot.ppm.givens', 'given 1 2\n'],
    ['spot.ppm.cert', 'nonocert 1\n'],
    ['night.ppm', ppmOf(AMBIGUOUS)],
    ['night.ppm.background', '0,0,0\n'],
    ['art.png', await pngOf(page, UNIQUE, 61)],
    ['odd.ppm', ppmOf(AMBIGUOUS)],
    ['odd.ppm.givens', 'given 3 1\n'],
    ['lost.background', 'white\n'],
    ['=1+1.ppm', ppmOf(AMBIGUOUS)],
    ['art17.png', await pngOf(page, ['ABCDEF', 'GHIJKL', 'MNOPQA'], 25)],
    ['"q".ppm.givens', ''],
    ['set.xml', setOf([1, 1], [2, 2], [1, 1])],
  ]);
  await takeAll(user, paths);
  await page.until(
      () => /^10 pictures of 10/.test(document.getElementById('several-count').textContent)
  );
  const rows = await rowsShown(page);
  assert.deepEqual(
      rows.map(([name, size, colours, verdict]) => [name, size, colours, verdict]).slice(0, 3),
      [
        ['little', '2 by 3', '3', 'unique'],
        ['two', '2 by 2', '2', 'ambiguous'],
        ['heart', rows[2][1], rows[2][2], 'unique']
      ]
  );
  assert.deepEqual(rows.slice(4, 7).map((row) => row.slice(0, 4)), [
    ['spot', '2 by 2, 1 cell given', '2', 'unique'],
    ['night', '2 by 2, background: black', '2', 'ambiguous'],
    ['art', '2 by 3', '3', 'unique']
  ]);
  assert.deepEqual(rows.slice(8, 13).map((row) => [row[0], row[3] ?? row[1]]), [
    ['=1+1', 'ambiguous'],
    ['art17', rows[9][3]],
    ['set', 'ambiguous'],
    ['set 2', 'no picture has these clues'],
    ['set 3', 'ambiguous']
  ]);
  const marked = await page.run(
      () => [...document.querySelectorAll('#several [data-verdict]')].map(
          (cell) => [cell.dataset.verdict, cell.querySelector('svg') !== null]
      )
  );
  assert.deepEqual(marked.slice(0, 2), [['unique', true], ['ambiguous', true]]);
  assert.match(rows[9][2], /^(\d|1[0-6]) of 17$/);
  assert.deepEqual([rows[7], rows[13]], [
    [
      'odd',
      '\u201codd.ppm.givens\u201d could not be read: row 3, column 1 is outside the picture.'
    ],
    [
      'lost.background',
      'no picture here goes with it: rename it to its picture’s name plus .background, such as heart.ppm.background'
    ]
  ]);
  assert.match(await trial.text('dialog[open]'), /Certificates are not checked here/);
  assert.match(rows[0][4], /^(easy|medium|hard|very hard|expert)$/);
  assert.equal(rows[1][4], '–');
  assert.deepEqual([rows[3].length, rows[3][0]], [2, 'notes']);
  await user.press('dialog[open] .buttons button:nth-of-type(2)');  // all as a zip
  const {content} = await downloaded(page, own, '.zip');
  const text = content.toString('latin1');
  for (const name of ['report.csv', 'little.xml', 'two.xml', 'heart.xml', 'spot.xml', 'art.xml'])
    assert.ok(text.includes(name), name);
  assert.ok(text.includes('"two","2 by 2","2","ambiguous"'));
  assert.ok(text.includes(`"'=1+1","2 by 2"`), 'no formula');
  assert.ok(text.includes('\n"""q"".ppm.givens","no picture'), 'quotes');
  assert.ok(text.includes('"spot","2 by 2, 1 cell given","2","unique"'));
  await closedDialog(page);
  await clean(page);
  await takeAll(user, paths.slice(0, 2));
  await user.press('dialog[open] button.main');  // to the library
  await page.until(async () => (await keep.keeper.cards()).length === 2);
  await closedDialog(page);
  await takeAll(user, paths.slice(0, 2));
  await user.press('#several [data-name="two"]');
  await isOpen(page);
  assert.deepEqual(await trial.picture(), AMBIGUOUS);
}

/**
 * An undecided picture is kept as such; pictures for which there is no room are not told as added.
 */
export async function severalUndecided({browser, url, folder}) {
  const {page} = await fresh(browser, url, folder, 'undecided');
  const paths = filesIn(folder, [['hard.ppm', hard()], ['two.ppm', ppmOf(AMBIGUOUS)]]);
  const add = async () => {
    await takeAll({page, input: 'mouse'}, paths);
    await page.until(
        () => /^2 pictures of 2/.test(document.getElementById('several-count').textContent)
    );
    await page.click('dialog[open] button.main');
    await closedDialog(page);
  };
  await clean(page);
  await page.run(async () => {
    (await keep.ready()).put = async () => {
      window.asked = (window.asked ?? 0) + 1;
      return null;
    };
  });
  await add();
  await page.until(() => window.asked);
  await frames(page);
  assert.doesNotMatch(await said(page), /added to the library/);
  await page.run(() => {
    delete keep.keeper.put;
  });
  await add();
  await page.until(
      () => /^2 pictures added to the library/.test(document.getElementById('said').textContent)
  );
  const cards = await page.run(
      async () => (await keep.keeper.cards()).map(({name, verdict}) => `${name} ${verdict}`)
  );
  assert.deepEqual(cards.sort(), ['hard undecided', 'two ambiguous']);
  await page.close();
}

/**
 * A folder that the browser does not read, as Chromium for a page from a file, is said; the
 * picture stays.
 */
export async function folderUnread({browser, url, folder}) {
  const {page, trial} = await fresh(browser, url, folder, 'unread');
  await trial.open(ppmOf(UNIQUE), 'little');
  filesIn(folder, [['two.ppm', ppmOf(AMBIGUOUS)]]);
  const data = {items: [], files: [join(folder, 'in')], dragOperationsMask: 1};
  for (const type of ['dragEnter', 'dragOver', 'drop'])
    await page.send('Input.dispatchDragEvent', {type, x: 400, y: 300, data});
  await page.until(() => /does not read folders/.test(document.getElementById('said').textContent));
  assert.deepEqual(await trial.picture(), UNIQUE);
  await page.close();
}

/**
 * A folder of a served page: a picture has what lies in its own folder, not what lies in another
 * one under the same name.
 */
export async function foldersApart({browser, folder}) {
  const {url, end} = await serve(folder);
  const page = await browser.page(SIZES.small);
  const trial = new Trial(page, url, folder);
  await trial.load();
  const set = join(folder, 'set');
  rmSync(set, {recursive: true, force: true});
  for (const [part, files] of Object.entries({
         one: {'spot.ppm': ppmOf(AMBIGUOUS)},
         two: {'spot.ppm': ppmOf(AMBIGUOUS), 'spot.ppm.givens': 'given 1 2\n'},
         three: {'spot.ppm.background': '0,0,0'}
       })) {
    mkdirSync(join(set, part), {recursive: true});
    for (const [name, text] of Object.entries(files)) writeFileSync(join(set, part, name), text);
  }
  const data = {items: [], files: [set], dragOperationsMask: 1};
  for (const type of ['dragEnter', 'dragOver', 'drop'])
    await page.send('Input.dispatchDragEvent', {type, x: 400, y: 300, data});
  await page.until(
      () => /^2 pictures of 2/.test(document.getElementById('several-count')?.textContent)
  );
  assert.deepEqual((await rowsShown(page)).map((row) => row.slice(0, 4)), [
    ['spot', '2 by 2', '2', 'ambiguous'],
    [
      'spot.ppm.background',
      'no picture here goes with it: rename it to its picture’s name plus .background, such as heart.ppm.background'
    ],
    ['spot', '2 by 2, 1 cell given', '2', 'unique']
  ]);
  // A table that is open gives way to that of another folder.
  for (const type of ['dragEnter', 'dragOver', 'drop'])
    await page.send(
        'Input.dispatchDragEvent',
        {type, x: 400, y: 300, data: {...data, files: [join(set, 'one')]}}
    );
  await page.until(
      () => /^1 picture of 1/.test(document.getElementById('several-count')?.textContent)
  );
  assert.equal(await page.run(() => document.querySelectorAll('dialog[open]').length), 1);
  await end();
  await page.close();
}

const isKeptOffline = (page) => page.until(() => navigator.serviceWorker.controller !== null);

/**
 * A served page asks for nothing but its own files, and a frame on a site tells that its puzzle is
 * solved.
 */
export async function servedPage({browser, folder}) {
  const {url, asked, end} = await serve(folder);
  const page = await browser.page(SIZES.small);
  const trial = new Trial(page, url, folder);
  await trial.load();
  await isKeptOffline(page);
  assert.deepEqual(
      [...new Set(asked)].filter(
          (path) => !['/',
                      '/manifest.webmanifest',
                      '/icon.svg',
                      '/icon.png',
                      '/offline.js',
                      '/favicon.ico']
                         .includes(path)
      ),
      []
  );
  await trial.open(ppmOf(['a.', '.a', 'aa']), 'little');
  const link = await fragment(page, 'play');
  await page.goto(`${url}frame`);
  await page.run((src) => {
    const frame = document.createElement('iframe');
    Object.assign(frame, {src, width: 600, height: 600, id: 'frame'});
    document.body.append(frame);
  }, link);
  await page.until(() => document.getElementById('frame').contentWindow.play?.state);
  await page.run(async () => {
    const {play} = document.getElementById('frame').contentWindow;
    const field = document.getElementById('frame').contentDocument.getElementById('play-field');
    const box = field.getBoundingClientRect();
    for (const [row, col] of [[0, 0], [1, 1], [2, 0], [2, 1]]) {
      const at = {
        pointerId: 1,
        clientX: box.left + (col + 0.5) * play.side,
        clientY: box.top + (row + 0.5) * play.side,
        bubbles: true,
        button: 0
      };
      field.setPointerCapture = () => {};
      field.dispatchEvent(new PointerEvent('pointerdown', at));
      field.dispatchEvent(new PointerEvent('pointerup', at));
    }
  });
  await page.until(() => document.getElementById('told').textContent === '{"nonobench":"solved"}');
  await end();
  await page.close();
}

/** Once it was visited, a served page opens without its server, with its library. */
export async function offlinePoint(user, {page, trial, folder}) {
  const {url, end} = await serve(folder);
  trial.url = url;
  await trial.load();
  await isKeptOffline(page);
  await end();
  await trial.load();  // the server is gone
  await user.press('#new-go');
  await isOpen(page);
  await user.stroke([2, 2], [2, 5]);
  assert.equal(await trial.judged(), 'unique');
  await isKept(page);
  await trial.load();
  await user.press('#kept .kept');
  await isOpen(page);
  assert.equal((await trial.picture())[1].slice(0, 6), '.aaaa.');
}

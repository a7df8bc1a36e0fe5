// Trials in Chromium of small things that a designer stumbles over: forced colours, help on phones,
// the order of the library, an archive that comes back, what is refused in the palette, tiles. Each
// is a test of the runner tests/page/page_test.mjs.
import assert from 'node:assert/strict';
import {clean, coloursAt, downloaded, drop, fresh, isKept, isOpen, said} from './page_common.mjs';
import {SIZES, noise, ppmOf} from './page_trial.mjs';

const THREE = ['aabb.', 'a..b.', 'cc...'];

// Colours of the window at points, as they are seen.
async function seenAt(page, points) {
  const [width, height] = await page.run(() => [innerWidth, innerHeight]);
  return coloursAt(page, points.map(([x, y]) => [x / width, y / height]));
}

/**
 * Where the system takes over all colours, swatches, cells and the chosen tool and colour are
 * still told apart.
 */
export async function forcedColours({trial, page}) {
  await trial.open(ppmOf(THREE), 'forced');
  await page.send(
      'Emulation.setEmulatedMedia', {features: [{name: 'forced-colors', value: 'active'}]}
  );
  assert.equal(await page.run(() => matchMedia('(forced-colors: active)').matches), true);
  await page.run(() => useColour('b'));
  const swatches =
      await page.run(() => [...document.querySelectorAll('#palette button')].map((one) => {
        const box = one.getBoundingClientRect();
        return [box.left + 5, box.top + 5];
      }));
  assert.deepEqual(
      await seenAt(page, swatches), ['255,255,255', '0,0,0', '200,40,40', '40,80,200'], 'swatches'
  );
  const cells = [];
  for (const [row, col] of [[1, 2], [1, 4], [3, 2]]) cells.push(await trial.cell(row, col));
  assert.deepEqual(await seenAt(page, cells), ['0,0,0', '200,40,40', '40,80,200'], 'cells');
  // The edge of the chosen colour, and the ground of the chosen tool, are other ones than those of
  // their neighbours.
  const rings = await page.run(() => ['a', 'b'].map((letter) => {
    const box =
        document.querySelector(`#palette [data-letter="${letter}"]`).getBoundingClientRect();
    return [box.left - 2.5, box.top + box.height / 2];
  }));
  const [plain, ring] = await seenAt(page, rings);
  assert.notEqual(ring, plain, 'the chosen colour has a ring');
  const grounds = await page.run(() => ['pencil', 'line'].map((tool) => {
    const box = document.querySelector(`[data-tool="${tool}"]`).getBoundingClientRect();
    return [box.left + 4, box.top + box.height - 5];
  }));
  const [chosen, other] = await seenAt(page, grounds);
  assert.notEqual(chosen, other, 'the chosen tool has a ground of its own');
  await page.send('Emulation.setEmulatedMedia', {features: []});
}

/**
 * On a phone, help is beside the verdict, and names version and commit; in Play it is for solvers.
 */
export async function helpOnPhones({browser, url, folder}) {
  const {page, trial} = await fresh(browser, url, folder, 'help', {size: SIZES.phone});
  await trial.open(ppmOf(THREE), 'help');
  await page.tap('#help-open');
  await page.until(() => document.querySelector('#menu-help:popover-open [data-action="keys"]'));
  await page.tap('#menu-help [data-action="guide"]');
  await page.until(() => document.querySelector('#version'));
  assert.match(await trial.text('#version'), /^nonobench [0-9.]+, commit [0-9a-f]{12}\. .*git IDs/);
  await page.press('Escape');
  await page.run(() => runAction('play'));
  await page.until(() => document.querySelector('#play-help'));
  const high = await page.run(
      () => ['play-bar', 'play-palette'].reduce(
          (sum, id) => sum + document.getElementById(id).getBoundingClientRect().height, 0
      )
  );
  assert.ok(high <= 160, `${high} px of 844 are for buttons`);
  await page.tap('#play-help');
  await page.until(() => document.querySelector('.help li'));
  const help = await trial.text('.help');
  for (const wanted of
           ['The cross', 'The eraser', 'right mouse button', '“Check”', '“Hint”', '“Start over”'])
    assert.ok(help.includes(wanted), wanted);
  assert.equal(await page.run(() => document.querySelector('#version')), null);
  await page.close();
}

/** What is found out about a picture later makes it no newer in the library; a stroke does. */
export async function lateVerdict({browser, url, folder}) {
  const {page, trial} = await fresh(browser, url, folder, 'late');
  await clean(page);
  for (const name of ['first', 'second']) {
    await trial.open(ppmOf(THREE), name);
    await page.run((title) => openDoc(bench.state, {name: title}), name);
    await trial.drag([[3, 5]]);
    await isKept(page);
  }
  const when = () => page.run(
      async () => (await keep.keeper.cards()).map((card) => [card.name, card.when, card.grade])
  );
  const before = await when();
  assert.equal(before[0][2], null);
  await page.until(async () => (await keep.keeper.cards())[0].grade);
  const after = await when();
  assert.deepEqual(after.map(([name, at]) => [name, at]), before.map(([name, at]) => [name, at]));
  await trial.drag([[2, 5]]);
  await isKept(page);
  assert.ok((await when())[0][1] > before[0][1]);
  await page.close();
}

/**
 * An archive that comes back adds nothing that is there, whatever its name; what has changed since
 * stands beside it.
 */
export async function archiveTwice({browser, url, folder}) {
  const {page, trial, own} = await fresh(browser, url, folder, 'twice');
  await clean(page);
  await page.run(
      (rows) => openDoc(
          {
            rows: 3,
            columns: 5,
            maxval: 255,
            colours: [[255, 255, 255], [0, 0, 0], [200, 40, 40], [40, 80, 200]],
            picture: rows,
            givens: new Set([0]),
            about: {title: 'Kept'}
          },
          {name: 'kept', isSaved: false}
      ),
      THREE
  );
  await isOpen(page);
  await trial.drag([[3, 5]]);
  await isKept(page);
  await page.run(() => runAction('new'));
  await page.until(() => document.querySelector('#library .kept'));
  await page.click('#library-export');
  const {content} = await downloaded(page, own, '.zip');
  const count = () => page.run(async () => (await keep.keeper.cards()).length);
  assert.equal(await count(), 1);
  await drop(page, own, 'back.zip', content);
  await page.until(() => document.getElementById('said').textContent.includes('there already'));
  assert.equal(await count(), 1, await said(page));
  await page.run(async () => {
    const [card] = await keep.keeper.cards();
    await keep.keeper.duplicate(card.id, 'other');
  });
  await drop(page, own, 'back.zip', content);
  await page.until(() => document.getElementById('said').textContent.includes('there already'));
  assert.equal(await count(), 2, 'whatever it is named');
  await page.click('#start-back');
  await isOpen(page);
  await trial.drag([[1, 5]]);
  await isKept(page);
  await page.run(async () => {
    const card = (await keep.keeper.cards()).find((one) => one.name === 'other');
    await keep.keeper.drop(card.id);
    runAction('new');
  });
  await drop(page, own, 'back.zip', content);
  await page.until(() => document.getElementById('said').textContent.includes('1 picture added'));
  assert.equal(await count(), 2);
  await page.close();
}

/**
 * The third press of Hint tells why, in each language: by what is known of the line, or by a block
 * that covers the cell wherever it lies.
 */
export async function hintsTellWhy({browser, url, folder}) {
  const WHY = {
    en: [
      'Row 2: columns 1–2 are black, since column 3 is background.',
      'Column 3: row 2 is red, by overlap: the red 2 covers it wherever it lies.',
      'Row 1: column 2 is black, since columns 1, 3 are background.'
    ],
    de: [
      'Zeile 2: Spalten 1–2 sind Schwarz, denn Spalte 3 ist Hintergrund.',
      'Spalte 3: Zeile 2 ist Rot, durch Überlappung: der Block 2 Rot bedeckt sie, wo immer er liegt.',
      'Zeile 1: Spalte 2 ist Schwarz, denn Spalten 1, 3 sind Hintergrund.'
    ],
    fr: [
      'Ligne 2 : colonnes 1–2 sont en noir, car colonne 3 est du fond.',
      'Colonne 3 : ligne 2 est en rouge, par recouvrement : le 2 rouge la couvre où qu’il soit.',
      'Ligne 1 : colonne 2 est en noir, car colonnes 1, 3 sont du fond.'
    ],
  };
  for (const [language, wanted] of Object.entries(WHY)) {
    const {page, trial} = await fresh(browser, url, folder, `why-${language}`, {
      before: `try { localStorage.setItem('nonobench-language', '${language}'); } catch {}`
    });
    const hints = [];
    for (const rows of [['.a.', 'aa.', '...'], ['ab.', '.ab', '..b'], ['.a.', '...', '.a.']]) {
      await trial.open(ppmOf(rows), 'why');
      await page.run(() => {
        runAction('play');
      });
      await page.until(() => document.getElementById('play-room')?.open);
      const texts = [];
      for (let press = 0; press < 4; press++) {
        await page.click('#play-hint');
        await page.until((at) => play.hint?.level === at, Math.min(press, 2));
        await page.run(() => new Promise((go) => setTimeout(go, 0)));
        texts.push(await trial.text('#play-said'));
      }
      assert.equal(new Set(texts).size, 3, texts.join(' '));
      assert.equal(texts[3], texts[2]);
      hints.push(texts[2]);
      await page.run(() => document.getElementById('play-room').close());
    }
    assert.deepEqual(hints, wanted);
    await page.close();
  }
}

/**
 * The palette says why a colour is not moved, and a refused name or sign does not stay in its
 * field.
 */
export async function refusedInPalette({trial, page}) {
  await trial.open(ppmOf(THREE), 'refused');
  for (const [letter, id, text] of [
           ['a', 'colour-earlier', /first one already/],
           ['c', 'colour-later', /last one already/],
           ['.', 'colour-later', /background always/]]) {
    await page.run((one, action) => {
      useColour(one);
      runAction(action);
    }, letter, id);
    assert.match(await said(page), text);
  }
  await page.run(() => useColour('a'));
  for (const [id, text, kept] of [['ink-name', 'red', ''], ['ink-sign', '?', '']]) {
    await page.click(`#${id}`);
    await page.press(...text, 'Enter');
    await page.until(() => document.getElementById('said').dataset.kind === 'alarm');
    assert.equal(await page.run((one) => document.getElementById(one).value, id), kept, id);
  }
}

/** Tiles of the examples are of one height. */
export async function equalTiles({page}) {
  const heights = await page.run(
      () => [...document.querySelectorAll('#examples .kept')].map(
          (one) => Math.round(one.getBoundingClientRect().height)
      )
  );
  assert.ok(heights.length >= 3);
  assert.equal(new Set(heights).size, 1, heights.join());
}

/**
 * A new picture is blank and not praised, a second has a name of its own, each colour tells how
 * many cells it has, and where undo ends is said.
 */
export async function smallPoint(user) {
  const {page, trial} = user;
  const verdict = () => page.run(
      () => ['verdict', 'verdict-why', 'verdict-heard'].map(
          (id) => document.getElementById(id).textContent
      )
  );
  await user.press('#new-go');
  await isOpen(page);
  assert.equal(await page.run(() => bench.name), 'picture');
  assert.equal(await trial.judged(), 'unique');
  assert.deepEqual(await verdict(), [
    'Blank',
    'Nothing is painted yet. These clues have one solution, the blank picture.',
    'Blank.'
  ]);
  await user.stroke([1, 1], [1, 3]);
  assert.equal(await trial.judged(), 'unique');
  assert.equal((await verdict())[0], 'Unique');
  await page.until(
      () => document.querySelector('#palette [data-letter="a"]').dataset.cells === '3'
  );
  assert.match(
      await page.run(() => document.querySelector('#palette [data-letter="."]').title),
      /: 297 cells \(key 0\)$/
  );
  await page.run(async () => {
    for (let at = 0; at < 400; at++)
      await bench.stroke([`paint 2 ${(at % 20) + 1} ${at % 40 < 20 ? 'a' : '.'}`]);
  });
  await page.run(async () => {
    for (let at = 0; at < 399; at++) await bench.undo();
  });
  await user.undo();
  await page.until(
      () => document.getElementById('said').textContent ===
          'Undo ends here: the page keeps the last 400 strokes.'
  );
  assert.deepEqual(
      (await trial.picture()).slice(0, 2),
      ['aaa.................', '.'.repeat(20)],
      'the first stroke stays'
  );
  await isKept(page);
  await user.menu('file', 'new');
  await user.press('#new-go');
  await page.until(() => bench.name === 'picture 2');
}

// The parts of the window that what is said lies over: what is in them is cut at their edges, or
// stands whole.
const partsBelowSaid = (page) => page.run(() => {
  const box = (one) => document.querySelector(one).getBoundingClientRect();
  const said = box('#said');
  return [
    'header',
    '#tools',
    '#stage',
    ...(box('#panels').width ? ['#panels'] : ['#audit', '#colours', '#fix'])
  ]
      .filter(
          (one) =>
              Math.min(box(one).bottom, said.bottom) - Math.max(box(one).top, said.top) > 0.5 &&
              Math.min(box(one).right, said.right) > Math.max(box(one).left, said.left)
      );
});

/**
 * What is said lies over nothing that is used; a text that is longer than its room lies over no
 * button that was scrolled into view. An alarm goes once painting goes on; one with a button stays.
 */
export async function messagesCoverNothing({browser, url, folder}) {
  const usual =
      'The image is shown where the picture is empty. It is not part of the picture, and is not saved.';
  const text =
      'a message that takes some lines, since it tells of everything that a file of this kind does not hold: names, signs, locks and texts';
  for (const [name, size] of Object.entries({
         ...SIZES,
         tablet: {width: 768, height: 1024},
         lying: {width: 844, height: 390, touch: true}
       })) {
    const {page, trial} = await fresh(browser, url, folder, `said-${name}`, {size});
    await trial.open(ppmOf(['a.....', '.a....', '......', '...aaa', '...aaa', '...aaa']), 'said');
    await trial.judged();
    await page.run(() => {
      if (document.getElementById('verdict-open').checkVisibility())
        document.getElementById('verdict-open').click();
      runAction('fix');
    });
    await page.until(() => document.querySelector('#fix-list button') && !searches.running);
    for (const kind of ['', 'alarm']) {
      await page.run((words, one) => {
        say(words, one);
      }, usual, kind);
      assert.deepEqual(await partsBelowSaid(page), [], name);
    }
    await page.run((words) => {
      say(words, 'alarm');
    }, text);
    const covered = await page.run(
        () => [...document.querySelectorAll('header button, #work button, #work select')]
                  .filter((one) => one.checkVisibility({
                    visibilityProperty: true
                  }) && !one.closest('#said'))
                  .filter((one) => {
                    one.scrollIntoView({block: 'nearest', inline: 'nearest'});
                    const {left, top, width, height} = one.getBoundingClientRect();
                    return document.getElementById('said'
                    ).contains(document.elementFromPoint(left + width / 2, top + height / 2));
                  })
                  .map((one) => one.outerHTML.slice(0, 80))
    );
    await page.shot(`${folder}/said-${name}.png`);
    assert.deepEqual(covered, [], name);
    assert.equal(await trial.text('#said'), text);
    const paint = () => page.run(() => {
      performance.now =
          ((now, late) => () => now() + late)(performance.now.bind(performance), 5000);
      return bench.stroke([bench.state.picture[2][5] === '.' ? 'paint 3 6 a' : 'paint 3 6 .']
      ).then(() => true);
    });  // read for 5 seconds
    await paint();
    assert.equal(await trial.text('#said'), '', `${name}: it was read`);
    await page.run((words) => {
      say(words, 'alarm', {name: 'Do', run: () => {}});
    }, text);
    await paint();
    assert.match(await trial.text('#said'), / Do$/, `${name}: it wants an answer`);
    assert.deepEqual(page.faults, []);
    await page.close();
  }
}

/** What is typed into a field of a colour moves nothing. */
export async function typingPoint(user) {
  const {page} = user;
  await user.press('#new-go');
  await isOpen(page);
  await user.opens('#ink-name');
  const spot = (id) => page.run(
      (one) => new Promise((go) => requestAnimationFrame(() => requestAnimationFrame(() => {
                                                           const {left, top} =
                                                               document.getElementById(one
                                                               ).getBoundingClientRect();
                                                           go([left, top]);
                                                         }))),
      id
  );
  for (const id of ['colour-named', 'ink-name', 'ink-sign']) {
    if (user.byKeys) await user.tabTo(`#${id}`);
    const before = await spot(id);
    const within = before.map((one) => one + 5);
    if (user.input === 'mouse')
      await page.drag([within]);
    else if (user.input === 'touch')
      await page.touch([within]);
    await page.until((one) => document.activeElement.id === one, id);
    for (const key of ['r', 'e', 'ArrowLeft', 'Backspace', 'Delete']) {
      await page.press(key);
      assert.deepEqual(await spot(id), before, `${id}: ${key}`);
    }
  }
}

/** While the button is held, neither a message nor a verdict moves the picture or the panels. */
export async function heldPointer({trial, page}) {
  await trial.open(ppmOf(THREE), 'held');
  await trial.judged();
  const places = () => page.run(() => {
    const {left, top} = sheet.view.getBoundingClientRect();
    return [
      left + sheet.geometry.x(0),
      top + sheet.geometry.y(0),
      sheet.geometry.cell,
      ...['tools', 'verdict', 'colours', 'cell', 'lines', 'hatching'].map(
          (id) => document.getElementById(id).getBoundingClientRect().top
      )
    ].join();
  });
  const before = await places();
  await page.drag([await trial.cell(3, 3), await trial.cell(3, 4)], {release: false});
  await page.run(() => {
    say('something to be read', 'alarm');
  });
  await page.run(() => bench.stroke(['paint 2 2 b', 'paint 2 3 a']).then(() => true));
  await trial.judged();
  assert.equal(await places(), before);
  await page.mouse('mouseReleased', ...page.at);
  await trial.settled();
  assert.equal(await places(), before);
}

/** Where a storage that was full has room again, that is told no more. */
export async function roomAgain({browser, url, folder}) {
  const {page, trial} = await fresh(browser, url, folder, 'room-again', {
    before: `const put = IDBObjectStore.prototype.put; window.isFull = false;
        IDBObjectStore.prototype.put = function (...words) { if (window.isFull) throw new DOMException('full', 'QuotaExceededError'); return put.apply(this, words); };`
  });
  await clean(page);
  await trial.open(ppmOf(THREE), 'room');
  await page.run(
      (rows) => openDoc(
          {
            rows: 3,
            columns: 5,
            maxval: 255,
            colours: [[255, 255, 255], [0, 0, 0], [200, 40, 40], [40, 80, 200]],
            picture: rows,
            givens: new Set()
          },
          {name: 'room'}
      ),
      THREE
  );
  await page.run(() => {
    window.isFull = true;
  });
  await trial.drag([[3, 5]]);
  await page.until(() => /storage is full/.test(document.getElementById('said').textContent));
  await page.run(() => {
    window.isFull = false;
  });
  await trial.drag([[3, 4]]);
  await isKept(page);
  await page.until(() => document.getElementById('said').textContent === '');
  await page.close();
}

/**
 * How high the smallest numbers are on paper is said where they are hard to read, and not where
 * they are not.
 */
export async function smallNumbersTold({trial, page}) {
  const noteOf = async (size, show) => {
    await trial.open(ppmOf(noise(size, size, 'aaaa.')), 'print');
    await page.run(() => {
      runAction('print');
    });
    await page.until(() => document.querySelector('#print-show'));
    await page.run((value) => {
      const choice = document.getElementById('print-show');
      choice.value = value;
      choice.dispatchEvent(new Event('change', {bubbles: true}));
    }, show);
    const text = await trial.text('#print-small');
    await page.press('Escape');
    await page.until(() => !document.querySelector('dialog[open]'));
    return text;
  };
  assert.equal(await noteOf(15, 'colours'), '');
  assert.match(await noteOf(50, 'symbols'), /^The smallest (numbers|cells) are [12]\.\d mm /);
}

/**
 * On the start screen the examples and what opens files stay where they are once they are seen,
 * also where the library comes between them.
 */
export async function examplesStay({browser, url, folder}) {
  const {page, trial} = await fresh(browser, url, folder, 'examples', {
    before: `window.places = new Set();
        window.files = new Set();
        const look = () => {
            for (const [id, all] of [['examples', window.places], ['open-go', window.files]]) {
                const shown = document.getElementById(id);
                if (shown?.checkVisibility()) { const { left, top } = shown.getBoundingClientRect(); all.add([left, top].join()); }
            }
            requestAnimationFrame(look);
        };
        requestAnimationFrame(look);`
  });
  await clean(page);
  for (const name of ['one', 'two']) {
    await page.run(
        (title, rows) => openDoc(
            {
              rows: 3,
              columns: 5,
              maxval: 255,
              colours: [[255, 255, 255], [0, 0, 0], [200, 40, 40], [40, 80, 200]],
              picture: rows,
              givens: new Set()
            },
            {name: title, isSaved: false}
        ),
        name,
        THREE
    );
    await isKept(page);
  }
  await trial.load();
  await page.until(
      () => document.querySelectorAll('#library .kept').length === 2 && window.places.size
  );
  await page.run(() => new Promise((go) => setTimeout(go, 600)));
  assert.deepEqual(
      await page.run(() => [window.places.size, [...window.files].length]), [1, 1], 'one place each'
  );
  await page.close();
}

/**
 * The guide begins at its beginning, and so does a dialog for a picture on a phone that lies, with
 * the preview in sight.
 */
export async function dialogsAtTheirTop({browser, url, folder}) {
  const shown = (page) =>
      page.run(() => [document.querySelector('dialog').scrollTop, document.activeElement.id]);
  const {page} =
      await fresh(browser, url, folder, 'top', {size: {width: 844, height: 390, touch: true}});
  await page.press('F1');
  await page.until(() => document.querySelector('#version'));
  assert.equal((await shown(page))[0], 0);
  await page.press('Escape');
  await page.run(async () => {
    const canvas = Object.assign(document.createElement('canvas'), {width: 401, height: 301});
    canvas.getContext('2d').fillRect(20, 20, 90, 90);
    takeFile(
        new File([await new Promise((go) => canvas.toBlob(go))], 'part.png', {type: 'image/png'})
    );
  });
  await page.until(() => document.querySelector('#import-facts')?.textContent);
  assert.deepEqual(await shown(page), [0, 'dialog-title']);
  const [source, preview, buttons] = await page.run(
      () => ['#import-source', '#import-preview', 'dialog .buttons'].map(
          (one) => document.querySelector(one).getBoundingClientRect().toJSON()
      )
  );
  assert.ok(
      source.top === preview.top && preview.bottom < buttons.top,
      `${preview.bottom} of ${buttons.top}`
  );
  await page.close();
}

/**
 * A new picture begins with the pencil and the first colour, and its panel at the top, where the
 * palette is in sight.
 */
export async function newBegins({trial, page}) {
  await trial.open(ppmOf(THREE), 'before');
  await page.press('b');
  await page.run(() => {
    useColour('b');
    document.getElementById('panels').scrollTop = 9999;
    runAction('new');
  });
  await page.click('#new-go');
  await page.until(
      () => bench.state.columns === 20 && document.body.classList.contains('starting') === false
  );
  await page.until(
      () => document.querySelector('#tool-row [aria-checked=true]').dataset.tool === 'pencil'
  );
  const [scrolled, colour, below] = await page.run(
      () =>
          [document.getElementById('panels').scrollTop,
           document.querySelector('#palette [aria-checked=true]').dataset.letter,
           document.getElementById('colour-add').getBoundingClientRect().bottom]
  );
  assert.deepEqual([scrolled, colour], [0, 'a']);
  assert.ok(below < 600, `the palette ends at ${below}`);
}

/** A menu tells the keys that the browser hears, and ticks the scheme that is chosen. */
export async function menusTell({trial, page}) {
  await trial.open(ppmOf(THREE), 'menus');
  const labelOf = (menu, id) => page.run(([place, one]) => {
    document.getElementById(`menu-${place}`).showPopover();
    const {textContent} = document.querySelector(`#menu-${place} [data-action="${one}"]`);
    const isTicked = document.querySelector(`#menu-${place} [data-action="${one}"] svg`);
    document.getElementById(`menu-${place}`).hidePopover();
    return `${textContent}${isTicked ? ', ticked' : ''}`;
  }, [menu, id]);
  assert.deepEqual(
      [await labelOf('edit', 'copy'), await labelOf('edit', 'cut')], ['CopyCtrl+C', 'CutCtrl+X']
  );
  assert.equal(await labelOf('view', 'scheme-system'), 'Light or dark, like the system, ticked');
  await page.run(() => runAction('scheme-dark'));
  assert.deepEqual(
      [await labelOf('view', 'scheme-dark'), await labelOf('view', 'scheme-light')],
      ['Dark, ticked', 'Light']
  );
}

// Tests of the sheets for print without a browser: what stands on each, where, in what order, and
// how heavy lines are. Expected values are counted by hand from the pictures. Run: node --test
// tests/page/page_sheets.mjs
import assert from 'node:assert/strict';
import {test} from 'node:test';
import {cluesOf} from '../../page/test/clues.mjs';
import '../../page/test/limits.mjs';
import {long} from '../waits.mjs';

const {entryOf, inOrder, legendOf, SHEET_TEXTS} = await import('../../page/export/entries.js');
const {inksOf} = await import('../../page/formats/webpbn.js');
const {namesOf} = await import('../../page/document/names.js');
const {alikeBoxes} = await import('../../page/draw/papers.js');
const {PAPERS, linesOf, makersOf, partsOf} = await import('../../page/export/sheets.js');
const {tintOf} = await import('../../page/document/colours.js');
const {sheetsInTurn} = await import('../../page/export/printing.js');

const docOf = (picture, colours, more = {}) => ({
  rows: picture.length,
  columns: picture[0].length,
  maxval: 255,
  colours,
  picture,
  givens: new Set(),
  about: {},
  inks: [],
  locks: new Set(),
  extras: null,
  ...more
});
const BLACK = [[255, 255, 255], [0, 0, 0]];
const CROSS = docOf(['.a.', 'aaa', '.a.'], BLACK);
const options = (more = {}) => ({
  paper: 'a4',
  isWide: false,
  margin: 12,
  perSheet: 1,
  show: 'colours',
  answers: false,
  hasGrade: true,
  head: 'titles',
  texts: SHEET_TEXTS,
  ...more
});
const sheetsWith = (puzzles, more = {}) =>
    makersOf(
        puzzles.map(
            (one, at) => entryOf({name: `puzzle ${at + 1}`, grade: 'easy', ...one}, options(more))
        ),
        options(more)
    ).map((make) => make());
const sheets = (docs, more = {}) => sheetsWith(
    docs.map((doc, at) => ({
               doc,
               clues: cluesOf(doc.picture),
               number: docs.length > 1 && more.head === 'numbers' ? at + 1 : null
             })),
    more
);

// The texts of a drawing with their places, and its rectangles.
const textsOf = ({svg}) => [...svg.matchAll(/<text ([^>]*)>([^<]*)<\/text>/g)].map(
    ([, words, text]) => ({text, ...wordsOf(words)})
);
const rectsOf =
    ({svg}) => [...svg.matchAll(/<rect ([^>]*)\/>/g)].map(([, words]) => wordsOf(words));
// Of many elements their numbers alone, which takes a fraction of the time.
const placesOf = ({svg}, kind, names) =>
    svg.split(`<${kind} `)
        .slice(1)
        .map(
            (words) =>
                names.map((name) => Number(` ${words}`.split(` ${name}="`, 2)[1].split('"', 1)[0]))
        );
const wordsOf = (words) => Object.fromEntries([...words.matchAll(/([\w-]+)="([^"]*)"/g)].map(
    ([, name, value]) => [name, Number.isNaN(Number(value)) ? value : Number(value)]
));
const digitsOf = (sheet) =>
    textsOf(sheet).filter(
                      ({text}) => /^\d+[a-o■●▲▼★]?$/.test(text)
    ).map(({text}) => text);

test(
    'sheets are made one after the other, as long as that goes on, and only what is wanted of them is held',
    async () => {
      const puzzles = Array.from(
          {length: 5},
          (_, at) => ({name: `${at}`, grade: null, doc: CROSS, clues: cluesOf(CROSS.picture)})
      );
      const made = [];
      const inTurn = (text) => sheetsInTurn(
          puzzles,
          options(),
          {
            goesOn: async (far) => {
              made.push(far);
              return far !== text;
            }
          },
          ({svg, cell}) => typeof svg === 'string' && cell
      );
      assert.deepEqual([await inTurn('2 of 5'), made], [null, ['0 of 5', '1 of 5', '2 of 5']]);
      const [first, ...others] = await inTurn('');
      assert.deepEqual(
          [first > 0, others.map((cell) => cell === first)], [true, [true, true, true, true]]
      );
    }
);

test('how many sheets there are is known of the pictures alone', () => {
  const [small, large] = [
    docOf(['a'], BLACK),
    docOf(Array(61).fill('a'.repeat(120)), BLACK)
  ];  // the large one on four
  const count = (docs, more) => makersOf(docs.map((doc) => ({doc})), options(more)).length;
  assert.deepEqual(
      [
        count([small, small, small]),
        count([small, small, small], {perSheet: 2}),
        count([small, large, small], {perSheet: 2}),
        count([large, large, small, small], {perSheet: 4})
      ],
      [3, 2, 6, 9]
  );
  assert.deepEqual(
      [1, 4, 5, 6, 7].map((all) => count(Array(all).fill(small), {perSheet: 6, answers: true})),
      [2, 2, 2, 2, 4]
  );
});

test('two colours: black digits on white, and no boxes', () => {
  const [sheet] = sheets([CROSS]);
  assert.deepEqual(digitsOf(sheet), ['1', '3', '1', '1', '3', '1'], 'rows, then columns');
  for (const {text, fill} of textsOf(sheet))
    if (/^\d+$/.test(text)) assert.equal(fill, '#000');
  // White paper, four lines down and four across: nothing else is filled.
  assert.equal(rectsOf(sheet).length, 1 + 4 + 4);
  assert.equal(rectsOf(sheet)[0].fill, '#fff');
  assert.match(sheet.svg, /viewBox="0 0 210 297" width="210mm" height="297mm"/);
  assert.deepEqual(textsOf(sheet).slice(0, 2).map(({text}) => text), ['puzzle 1', '3 by 3, easy']);
});

test('the clues of a sheet are those that are handed in, whatever the picture is', () => {
  const doc = docOf(
      ['b.a', '.b.'], [[255, 255, 255], [0, 0, 0], [200, 40, 40], [40, 80, 200]]
  );  // c is not used, and b comes first
  const block = (text) => ({length: Number(text.slice(0, -1)), letter: text.at(-1)});
  const clues = {
    rows: [['7c', '8a'], []].map((line) => line.map(block)),
    columns: [['9b'], [], ['6c', '5b']].map((line) => line.map(block))
  };
  // rows, then columns, each from its cells outward
  const wanted = ['8a', '7c', '0', '9b', '0', '5b', '6c'];
  assert.deepEqual(digitsOf(sheetsWith([{doc, clues}], {show: 'letters'})[0]), wanted);
  assert.deepEqual(
      digitsOf(sheetsWith([{doc, clues}], {show: 'signs'})[0]),
      ['8■', '7▲', '0', '9●', '0', '5●', '6▲']
  );
  assert.throws(() => sheetsWith([{doc}]), TypeError, 'without clues there is no sheet');
  // A large puzzle, over several sheets.
  const large = docOf(Array(61).fill('a'), BLACK);
  const all = sheetsWith([{
    doc: large,
    clues:
        {rows: Array(61).fill([{length: 4, letter: 'a'}]), columns: [[{length: 77, letter: 'a'}]]}
  }]);
  assert.deepEqual(
      all.map((sheet) => digitsOf(sheet).filter((text) => text === '77' || text === '4').length),
      [36, 26]
  );
});

test('each fifth line and the border are clearly heavier', () => {
  const picture = Array(10).fill('a.........');
  const [sheet] = sheets([docOf(picture, BLACK)]);
  const down = rectsOf(sheet).slice(1).filter(
                                          ({width, height}) => height > width
  ).sort((one, other) => one.x - other.x);
  assert.equal(down.length, 11);
  const [border, light, fifth] = [down[0].width, down[1].width, down[5].width];
  assert.ok(fifth >= 4 * light, `${fifth} and ${light}`);
  assert.ok(border >= fifth);
  for (let at = 0; at <= 10; at++)
    assert.equal(
        down[at].width,
        at === 0 || at === 10 ? border :
            at === 5          ? fifth :
                                light,
        `line ${at}`
    );
  for (const at of [1, 2, 3, 4, 6, 7, 8, 9]) assert.equal(down[at].fill, '#555');
});

test(
    'several colours: each block is a frame of its colour around a light tint, and its digits are black',
    () => {
      const doc = docOf(['ab'], [[255, 255, 255], [255, 220, 0], [0, 0, 120]]);
      const [sheet] = sheets([doc]);
      for (const {text, fill} of textsOf(sheet))
        if (/^\d$/.test(text)) assert.equal(fill, '#000');
      // In Oklab, the lightness of this blue is 0.259, and that of the yellow 0.897, so the
      // colour's share is 0.2 + 0.45 * 0.259 ** 4 = 0.202, and 0.2 + 0.45 * 0.897 ** 4 = 0.491. 255
      // - 255 * 0.202 = 203 (cb), 255 - 135 * 0.202 = 228 (e4); 255 - 35 * 0.491 = 238 (ee), 255 -
      // 255 * 0.491 = 130 (82). The yellow is pale: it has an edge around its frame.
      const blue = [['#cbcbe4', '#000078']];
      const yellow = [['#ffdc00', '#8a8a8a'], ['#ffee82', '#ffdc00']];
      const boxes = rectsOf(sheet).filter(({stroke, width}) => stroke !== undefined && width > 3);
      assert.deepEqual(
          boxes.map(({fill, stroke}) => [fill, stroke]),
          [...blue, ...yellow, ...yellow, ...blue],
          'the row from its cells outward, then the columns'
      );
      // Cells have 12 mm, blocks 10.56, frames 0.13 of that, 1.3728, and edges 0.3; a line lies
      // within its box, so the rectangle is smaller by it.
      assert.deepEqual(
          boxes.slice(
                   0, 3
          ).map(({width, height, 'stroke-width': weight}) => [width, height, weight]),
          [[9.19, 9.19, 1.37], [10.26, 10.26, 0.3], [8.59, 8.59, 1.37]]
      );
      // The yellow is one cell to the left of the blue. The middle of a frame is 0.6864 from the
      // side of its box, that of an edge 0.15, and of the frame within it 0.3 + 0.6864.
      const [one, outer, inner] = boxes.map(({x}) => x);
      assert.ok(
          Math.abs(outer + 12 - one - (0.15 - 0.6864)) < 0.02 &&
              Math.abs(inner + 12 - one - 0.3) < 0.02,
          `${one}, ${outer}, ${inner}`
      );
      // The legend has the colours themselves.
      assert.deepEqual(
          rectsOf(sheet).filter(({stroke}) => stroke === '#555').map(({fill}) => fill),
          ['#ffdc00', '#000078']
      );
    }
);

test(
    'a tint on paper: black is read on it at 7 to 1 whatever the colour is, and it is told from its frame',
    () => {
      const light = (triple) =>
          triple
              .map(
                  (sample) =>
                      (sample / 255 <= 0.03928 ? sample / 255 / 12.92 :
                                                 ((sample / 255 + 0.055) / 1.055) ** 2.4)
              )
              .reduce((sum, part, at) => sum + part * [0.2126, 0.7152, 0.0722][at], 0);
      const samples = Array.from({length: 16}, (_, at) => at * 17);
      let least = 21;
      for (const triple of samples.flatMap(
               (red) => samples.flatMap((green) => samples.map((blue) => [red, green, blue]))
           )) {
        const tint = tintOf(triple);
        least = Math.min(least, (light(tint) + 0.05) / 0.05);
        tint.forEach(
            (sample, at) => assert.ok(
                sample >= triple[at] && (sample > triple[at] || sample === 255), triple.join()
            )
        );
      }
      assert.ok(least >= 7, `${least}`);
    }
);

test('clues look alike on paper where frames and tints together do', () => {
  const inks = {
    salmon: [220, 110, 100],
    grey: [34, 34, 34],
    blue: [0, 0, 160],
    wine: [160, 0, 0],
    red: [200, 0, 0]
  };
  const pairOf = (picture, ...names) =>
      alikeBoxes(docOf([picture], [[255, 255, 255], ...names.map((name) => inks[name])]));
  assert.equal(pairOf('ab', 'salmon', 'grey'), null, 'strong frames');
  assert.equal(pairOf('abc', 'blue', 'wine', 'grey'), null, 'tints alike, frames not');
  assert.deepEqual(pairOf('abc', 'blue', 'wine', 'red'), ['b', 'c']);
  assert.equal(pairOf('ab', 'blue', 'wine', 'red'), null, 'a colour without a cell');
  assert.equal(pairOf('a', 'red'), null);
});

test('however small the cells are, each block of several colours has its colour', () => {
  const doc = docOf(Array(60).fill('ab'.repeat(30)), [[255, 255, 255], [0, 0, 120], [200, 0, 0]]);
  const [sheet] = sheets([doc], {paper: 'a5', perSheet: 6});
  const frames = rectsOf(sheet).filter(
      ({stroke, fill}) => ['#000078', '#c80000'].includes(stroke) && fill !== '#fff' &&
          fill !== stroke
  );
  assert.equal(frames.length, 60 * 60 + 60, 'of each row 60, of each column one');
  for (const {width, height, 'stroke-width': weight} of frames.slice(0, 5))
    assert.ok(width > 0 && height > 0 && weight > 0.05);
});

test('letters and signs for colours, in clues, solution and legend', () => {
  const doc = docOf(['aab', '.cc'], [[255, 255, 255], [200, 0, 0], [0, 0, 200], [0, 180, 0]]);
  const [letters, solved] = sheets([doc], {show: 'letters', answers: true});
  assert.deepEqual(
      digitsOf(letters),
      ['1b', '2a', '2c', '1a', '1c', '1a', '1c', '1b'],
      'rows, then columns, each from its cells outward'
  );
  assert.deepEqual(
      textsOf(letters).slice(-7, -1).map(({text}) => text), ['a', 'red', 'b', 'blue', 'c', 'green']
  );
  assert.deepEqual(
      textsOf(solved).filter(({text}) => /^[abc]$/.test(text)).map(({text}) => text),
      ['a', 'a', 'b', 'c', 'c']
  );
  assert.deepEqual(textsOf(solved)[0].text, 'puzzle 1: solution');
  const swatches = rectsOf(letters).filter(({stroke}) => stroke === '#555');
  assert.deepEqual(
      swatches.map(({fill}) => fill),
      ['#c80000', '#0000c8', '#00b400'],
      'a letter, its colour, its name'
  );
  for (const [at, {x, width}] of swatches.entries()) {
    const [letter, name] = textsOf(letters).slice(-7, -1).slice(2 * at, 2 * at + 2);
    assert.ok(letter.x < x && x + width < name.x, `swatch ${at}`);
  }
  assert.deepEqual(
      rectsOf(solved).filter(
                         ({fill}) => /^#(c80000|0000c8|00b400)$/.test(fill)
      ).map(({fill, width, height}) => [fill, width / height]),
      [['#c80000', 2], ['#0000c8', 1], ['#00b400', 2]],
      'the solution in colours'
  );
  assert.deepEqual(
      textsOf(solved).filter(({text}) => /^[abc]$/.test(text)).map(({fill}) => fill),
      ['#fff', '#fff', '#fff', '#000', '#000'],
      'letters are read on them'
  );
  const [signs] = sheets([doc], {show: 'signs'});
  assert.deepEqual(digitsOf(signs), ['1●', '2■', '2▲', '1■', '1▲', '1■', '1▲', '1●']);
  assert.deepEqual(
      textsOf(signs).slice(-6).map(({text}) => text), ['■', 'red', '●', 'blue', '▲', 'green']
  );
});

test('numbers without boxes stand apart, with one digit or three, a letter or a sign', () => {
  const letters = 'abcdefghijklmno';
  const lengths = [1, 12, 120, 10, 8, 11];
  // How wide they are in DejaVu Sans, by the size of the text: a digit, m, another letter at most,
  // and a sign at most.
  const wide = (text) => [...text].reduce(
      (sum, sign) => sum +
          (/\d/.test(sign)  ? 0.636 :
               sign === 'm' ? 0.974 :
               sign <= 'z'  ? 0.635 :
                              0.945),
      0
  );
  const sheetOf = (colours, picture, show) => {
    const clue = [...picture].flatMap((letter) => lengths.map((length) => ({length, letter})));
    const columns = [clue, ...Array(picture.length - 1).fill([])];
    return sheetsWith(
        [{doc: docOf([picture], colours), clues: {rows: [clue], columns}}], {show}
    )[0];
  };
  const many = Array.from({length: 16}, (_, at) => [255 - at, 255, 255]);
  for (const sheet
           of [sheetOf(BLACK, 'a', 'colours'),
               sheetOf(many, letters, 'letters'),
               sheetOf(many, letters, 'signs')]) {
    const blocks = textsOf(sheet).filter(({text}) => /^\d+[^\d ]?$/u.test(text) && text !== '0');
    const row = blocks.slice(0, blocks.length / 2);
    assert.ok(row.length >= lengths.length && row.every(({y}) => Math.abs(y - row[0].y) < 1));
    for (const [at, {text, x, 'font-size': size}] of row.slice(1).entries()) {
      const next = row[at];  // to its right
      const gap = next.x - x - (wide(text) * size + wide(next.text) * next['font-size']) / 2;
      assert.ok(
          gap > 0.25 * Math.max(size, next['font-size']),
          `${text} and ${next.text}, of ${size}, are ${gap} apart`
      );
    }
    for (const {text, 'font-size': size} of blocks)  // columns side by side
      assert.ok(sheet.cell - wide(text) * size > 0.25 * size, `${text} of ${size}`);
  }
});

test('names of colours in the legend differ', () => {
  const two = docOf(['abc'], [[255, 255, 255], [0, 0, 200], [40, 40, 220], [200, 0, 0]]);
  assert.deepEqual(namesOf(two), ['white', 'darker blue', 'lighter blue', 'red']);
  const three = docOf(['abc'], [[255, 255, 255], [0, 0, 210], [40, 40, 230], [10, 10, 200]]);
  assert.deepEqual(namesOf(three), ['white', 'blue 2', 'blue 1', 'blue 3']);
  assert.deepEqual(
      legendOf(three, 'letters').map(({sign, text}) => `${sign} ${text}`),
      ['a blue 2', 'b blue 1', 'c blue 3']
  );
  assert.deepEqual(
      namesOf({...three, inks: [{}, {name: 'sea'}]}),
      ['white', 'sea', 'lighter blue', 'darker blue']
  );
  const inXml = (doc, whole) => inksOf({...doc, inks: whole}).map(({name}) => name);
  for (const inks
           of [[],
               [{}, {name: 'sea'}],
               [{}, {}, {name: 'blue'}],
               [{}, {name: 'blue 1'}, {name: 'blue 1'}]])
    assert.deepEqual(inXml(three, inks), namesOf({...three, inks}), 'in XML as on paper');
  assert.deepEqual(
      namesOf({...two, inks: [{}, {}, {name: 'blue'}]}),
      ['white', 'blue (a)', 'blue', 'red'],
      'its own name stays'
  );
  assert.deepEqual(
      namesOf(docOf(['abc'], [[255, 255, 255], [0, 0, 0], [12, 12, 12], [250, 250, 250]])),
      ['white', 'black', 'lighter black', 'darker white'],
      'near white and near black'
  );
  assert.deepEqual(legendOf(CROSS, 'colours'), [], 'black on white needs none');
  assert.deepEqual(
      legendOf(docOf(['a.'], [[0, 0, 40], [200, 40, 40]]), 'colours').map(({text}) => text),
      ['red', 'background: very dark blue']
  );
});

test('one ink has plain numbers however colours are shown', () => {
  const given = docOf(['aa', '.a'], BLACK, {givens: new Set([0])});
  const shown = ['colours', 'letters', 'signs'].map(
      (show) => sheets([given], {show, answers: true}).map(({svg}) => svg)
  );
  assert.deepEqual(shown.slice(1), [shown[0], shown[0]]);
  // Where the ink and its background are alike, the cells of the solution have their letter, and
  // clues have none.
  const [puzzle, solution] = sheets(
      [docOf(['aa', '.a'], [[255, 255, 255], [250, 250, 250]])], {show: 'letters', answers: true}
  );
  assert.deepEqual(digitsOf(puzzle), ['2', '1', '1', '2']);
  assert.equal(textsOf(solution).filter(({text}) => text === 'a').length, 3);
});

test('beside letters numbers have one size, that of the longest, where it is read easily', () => {
  const doc = docOf(
      ['aaaa' +
       'b'.repeat(11)],
      [[255, 255, 255], [200, 0, 0], [0, 0, 200]]
  );
  const sizesOn = (more) => {
    const [sheet] = sheets([doc], more);
    const sizes = textsOf(sheet).filter(
                                    ({text}) => /^\d+[ab●▲■]$/.test(text)
    ).map(({'font-size': size}) => size);
    return {
      count: new Set(sizes).size,
      smallest: Math.min(...sizes),
      share: Math.min(...sizes) / sheet.cell
    };
  };
  for (const show of ['letters', 'signs']) {
    const {count, smallest} = sizesOn({show});
    assert.ok(count === 1 && smallest >= 2, `${show}: ${count} sizes, the least ${smallest} mm`);
  }
  const [small, large] =
      [sizesOn({show: 'letters', paper: 'a5', perSheet: 6}), sizesOn({show: 'letters'})];
  assert.ok(
      small.count === 2 && small.smallest < 2,
      'of a cell of 3 mm the short ones stay as large as they may be'
  );
  assert.ok(Math.abs(small.share - large.share) < 0.01);
});

test('numbers stand above puzzles, and titles only with the solutions', () => {
  const about = {title: 'A duck', author: 'A. B.'};
  const texts = (count) =>
      sheets(
          Array(count).fill({...CROSS, about}), {head: 'numbers', answers: true, perSheet: 2}
      ).map((sheet) => textsOf(sheet).map(({text}) => text));
  const [puzzles, solutions] = texts(2);
  assert.deepEqual(puzzles.filter((text) => /^Puzzle/.test(text)), ['Puzzle 1', 'Puzzle 2']);
  assert.doesNotMatch(puzzles.join(), /duck/);
  assert.deepEqual(
      solutions.filter((text) => /duck/.test(text)), ['Solution 1: A duck', 'Solution 2: A duck']
  );
  const [alone, solution] = texts(1);
  assert.ok(alone.includes('Puzzle'));
  assert.doesNotMatch(alone.join(), /duck/);
  assert.ok(solution.includes('A duck: solution'));
});

test('a book is ordered by grade, by name or by hand', () => {
  const book =
      [['10 dog', 'hard'], ['2 cat', 'easy'], ['fox', null], ['ant', 'very-hard'], ['bee', 'easy']]
          .map(([name, grade]) => ({name, grade}));
  const names = (order) => inOrder(book, order).map(({name, number}) => `${number} ${name}`);
  assert.deepEqual(names('grade'), ['1 2 cat', '2 bee', '3 10 dog', '4 ant', '5 fox']);
  assert.deepEqual(names('name'), ['1 2 cat', '2 10 dog', '3 ant', '4 bee', '5 fox']);
  assert.deepEqual(names('hand'), ['1 10 dog', '2 2 cat', '3 fox', '4 ant', '5 bee']);
  assert.equal(inOrder(book.slice(0, 1), 'name')[0].number, null);
});

test('several puzzles a sheet, and the solutions at the end', () => {
  const docs = Array.from({length: 5}, () => CROSS);
  const all = sheets(docs, {perSheet: 4, answers: true});
  assert.equal(all.length, 3);
  const titles = (sheet) =>
      textsOf(sheet).map(({text}) => text).filter((text) => text.startsWith('puzzle'));
  assert.deepEqual(all.map(titles), [
    ['puzzle 1', 'puzzle 2', 'puzzle 3', 'puzzle 4'],
    ['puzzle 5'],
    [1, 2, 3, 4, 5].map((at) => `puzzle ${at}: solution`)
  ]);
  const places = textsOf(all[0]).filter(
                                    ({text}) => text.startsWith('puzzle')
  ).map(({x, y}) => [x, Math.round(y)]);
  assert.deepEqual(
      places.map(([x]) => x), [12, 109, 12, 109], 'margins of 12 mm, and 8 mm between'
  );
  assert.ok(places[0][1] === places[1][1] && places[2][1] > 140);
  assert.deepEqual(all.map((sheet) => textsOf(sheet).at(-1).text), ['1 / 3', '2 / 3', '3 / 3']);
  // A solution has its cells filled: the row of three as one shape, and no clues.
  assert.equal(rectsOf(all[2]).filter(({fill}) => fill === '#000000').length, 15);
  assert.deepEqual(digitsOf(all[2]), []);
});

test('nothing stands outside the margins, on any paper, with any number of puzzles', () => {
  const wide = docOf(
      Array.from({length: 40}, (_, row) => 'a.b.'.repeat(15).slice(row % 4) + 'a'.repeat(row % 4)),
      [[255, 255, 255], [0, 0, 0], [230, 40, 40]],
      {
        about: {
          title: 'A title that is rather long for a sheet of a small book, with many words in it',
          author: 'Somebody'
        }
      }
  );
  for (const paper of Object.keys(PAPERS))
    for (const isWide of [false, true])
      for (const perSheet of [1, 2, 4, 6])
        for (const margin of long ? [isWide ? 20 : 5] : [5, 20]) {
          for (const sheet of sheets(
                   [wide, CROSS, wide],
                   {paper, isWide, perSheet, margin, show: 'letters', answers: true}
               )) {
            const [width, height] = isWide ? [...PAPERS[paper]].reverse() : PAPERS[paper];
            const where = `${paper} ${isWide} ${perSheet} ${margin}`;
            const isOut = ([x, y, w, h]) =>
                !(x >= margin - 0.2 && y >= margin - 0.2 && x + w <= width - margin + 0.2 &&
                  y + h <= height - margin + 0.2);
            assert.deepEqual(
                placesOf(sheet, 'rect', ['x', 'y', 'width', 'height']).slice(1).filter(isOut),
                [],
                where
            );
            const isTextOut = ([x, y]) =>
                !(x >= margin - 0.2 && y >= margin && x <= width - margin &&
                  y <= height - margin + 0.2);
            assert.deepEqual(placesOf(sheet, 'text', ['x', 'y']).filter(isTextOut), [], where);
          }
        }
});

test('above 60 lines a puzzle goes over several sheets, with a map of them', () => {
  assert.deepEqual(
      partsOf({rows: 60, columns: 61}),
      [{top: 0, bottom: 59, left: 0, right: 34}, {top: 0, bottom: 59, left: 35, right: 60}]
  );
  // A diagonal: each row and column has the clue 1, but for every fifth, which has 2.
  const rows = Array.from(
      {length: 120},
      (_, row) =>
          Array
              .from(
                  {length: 70},
                  (_, col) =>
                      (col === row % 70 ||
                               (row % 5 === 4 && col === (row % 70) - 1 + (row % 70 ? 0 : 2)) ?
                           'a' :
                           '.')
              )
              .join('')
  );
  const all = sheets([CROSS, docOf(rows, BLACK), CROSS], {perSheet: 2, answers: true});
  const heads = all.map(
      (sheet) =>
          textsOf(sheet).map(({text}) => text).find((text) => /^Sheet|solution/.test(text)) ??
          textsOf(sheet)[0].text
  );
  assert.deepEqual(heads, [
    'puzzle 1',
    'Sheet 1 of 4: rows 1 to 60, columns 1 to 35',
    'Sheet 2 of 4: rows 1 to 60, columns 36 to 70',
    'Sheet 3 of 4: rows 61 to 120, columns 1 to 35',
    'Sheet 4 of 4: rows 61 to 120, columns 36 to 70',
    'puzzle 3',
    'puzzle 1: solution'
  ]);
  const parts = all.slice(1, 5);
  // The first has clues of 60 rows and 35 columns; the second those of 35 columns, and so on.
  const clues = (sheet) =>
      textsOf(sheet).filter(({text, fill}) => fill === '#000' && /^\d+$/.test(text)).length;
  const count = (lines) =>
      lines.reduce((sum, line) => sum + (line.match(/a+/g) ?? ['0']).length, 0);
  const columns = Array.from({length: 70}, (_, col) => rows.map((row) => row[col]).join(''));
  assert.deepEqual(parts.map(clues), [
    count(rows.slice(0, 60)) + count(columns.slice(0, 35)),
    count(columns.slice(35)),
    count(rows.slice(60)),
    0
  ]);
  // Each has the map: four parts with their numbers, one of them filled.
  for (const [at, sheet] of parts.entries()) {
    const boxes = rectsOf(sheet).filter(({stroke}) => stroke === '#1a1a1a');
    assert.deepEqual(
        boxes.map(({fill}) => fill === '#ccc'),
        [0, 1, 2, 3].map((one) => one === at),
        `sheet ${at + 1}`
    );
  }
  // All parts have cells of one size, and lines of the others have their numbers.
  const steps = parts.map((sheet) => {
    const lines = rectsOf(sheet)
                      .filter(({width, height, stroke}) => height > 20 * width && !stroke)
                      .map(({x, width}) => x + width / 2)
                      .sort((one, other) => one - other);
    return ((lines.at(-1) - lines[0]) / (lines.length - 1)).toFixed(2);
  });
  assert.equal(new Set(steps).size, 1, steps.join());
  assert.ok(
      textsOf(parts[3]).some(({text, fill}) => text === '65' && fill === '#8a8a8a') &&
      textsOf(parts[3]).some(({text, fill}) => text === '40' && fill === '#8a8a8a')
  );
});

test('the smallest cell of a sheet is told', () => {
  const [alone, several] = [
    sheets([CROSS])[0].cell,
    sheets(
        [docOf(Array(60).fill('a'.repeat(60)), BLACK)], {paper: 'a5', perSheet: 6, answers: true}
    )
  ];
  assert.equal(alone, 12);
  assert.ok(
      several[0].cell > 0.7 && several[0].cell < 0.75, String(several[0].cell)
  );  // a third of 180 mm, less title and gaps, for 61 cells
  assert.equal(several[1].cell, null, 'of solutions it does not matter');
});

test('texts are text, and are broken into lines', () => {
  const doc = docOf(['a'], BLACK, {about: {title: '<b>&"A"</b>\u0001', author: 'B & C'}});
  const [sheet] = sheets([doc]);
  assert.match(sheet.svg, /&lt;b&gt;&amp;&quot;A&quot;&lt;\/b&gt; ?</);
  assert.doesNotMatch(sheet.svg, /<b>/);
  assert.deepEqual(linesOf('one two three', {width: 10, size: 2}), ['one two', 'three']);
  assert.deepEqual(
      linesOf('a b c d e f g h i j k l', {width: 4.5, size: 2, most: 2}), ['a b', 'c d…']
  );
});

test('given cells are marked, and the empty puzzle is white on any background', () => {
  const doc = docOf(['a.', '.a'], [[0, 0, 40], [200, 40, 40]], {givens: new Set([0, 1])});
  const [sheet, solved] = sheets([doc], {answers: true});
  assert.equal([...sheet.svg.matchAll(/<polygon/g)].length, 2);
  assert.ok(textsOf(sheet).some(({text}) => text === '×'));
  const big = (one) =>
      rectsOf(one).filter(
                      ({fill, width, stroke}) => fill === '#000028' && width > 4 && !stroke
      ).length;
  assert.deepEqual([big(sheet), big(solved) > 0], [0, true]);
});

test(
    'given cells have their letter or sign where clues have, and stand on the part that has them',
    () => {
      const doc = docOf(
          ['ab', 'ba'], [[255, 255, 255], [200, 0, 0], [0, 0, 200]], {givens: new Set([1, 2])}
      );
      for (const [show, wanted] of [['letters', 'bb'], ['signs', '●●']]) {
        const [sheet] = sheets([doc], {show});
        assert.equal(
            textsOf(sheet)
                .filter(({text,
                          'font-size': size}) => wanted.includes(text) && size > 0.6 * sheet.cell)
                .map(({text}) => text)
                .join(''),
            wanted
        );
        assert.equal(
            rectsOf(sheet)
                .filter(({width,
                          fill,
                          stroke}) => width > 0.9 * sheet.cell && fill === '#0000c8' && !stroke)
                .length,
            0,
            'no fill'
        );
      }
      const large = docOf(
          Array.from({length: 2}, () => 'a'.repeat(70)), BLACK, {givens: new Set([0, 69, 139])}
      );
      assert.deepEqual(sheets([large]).map(({svg}) => svg.match(/<polygon/g).length), [1, 2]);
    }
);

test('digits stay within the frames of their blocks', () => {
  const doc = docOf(['ab'.repeat(3)], [[255, 255, 255], [200, 0, 0], [0, 0, 200]]);
  const clues = {
    rows: [[1, 12, 120].map((length) => ({length, letter: 'a'}))],
    columns: Array(6).fill([])
  };
  const [sheet] = sheetsWith([{doc, clues}]);
  const blocks = textsOf(sheet).filter(({text}) => /^\d+$/.test(text) && text !== '0');
  assert.deepEqual(blocks.map(({text}) => text), ['120', '12', '1']);
  // Within a box of 0.88 of a cell, the frames leave 0.88 * (1 - 2 * 0.13) = 0.6512. A digit of
  // Liberation Sans is 0.556 of its size wide.
  for (const {text, 'font-size': size} of blocks)
    assert.ok(text.length * 0.556 * size < 0.6512 * sheet.cell, `${text} has a size of ${size}`);
});

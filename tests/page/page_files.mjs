// Tests of the files that the page reads and writes: PPM pictures, its notes in them, and Web
// Paint-by-Number's XML. The texts are made by hand after Netpbm's ppm page and
// webpbn.com/pbn_fmt.html. Run: node --test tests/page/page_files.mjs
import assert from 'node:assert/strict';
import {readFileSync} from 'node:fs';
import {test} from 'node:test';
import {cluesOf} from '../../page/test/clues.mjs';
import '../../page/test/limits.mjs';
import {
  ABOUT,
  docOf,
  emptyDoc,
  packedDoc,
  sameBenchPart,
  sameDoc,
  unpackedDoc
} from '../../page/document/document.js';
import {FileFault} from '../../page/document/limits.js';
import {readPpm} from '../../page/formats/ppm.js';
import {docOfNotes, ppmTextOf} from '../../page/formats/ppm_notes.js';
import {inksOf, leavesOut, webpbnText} from '../../page/formats/webpbn.js';
import {readWebpbn} from '../../page/formats/webpbn_reading.js';
import {readXml} from '../../page/formats/xml.js';
import {docOfImage, kindOfFile} from '../../page/import/images.js';

const bytes = (text) => Uint8Array.from(text, (sign) => sign.charCodeAt(0));
const plain = (value) => JSON.parse(JSON.stringify(value));
const pixels = (image) => Array.from(
    {length: image.width * image.height}, (_, at) => [...image.data.subarray(at * 4, at * 4 + 3)]
);
const withClues = (doc) => webpbnText(doc, cluesOf(doc.picture));
const refused = (f, wanted) =>
    assert.throws(f, (fault) => fault instanceof FileFault && wanted.test(fault.message));

test('a P3 picture with comments', () => {
  const image = readPpm(bytes('P3# c\n2#x\r 1\t255\n1 2 3 # in the raster\n04 5\f255'));
  assert.deepEqual([image.width, image.height], [2, 1]);
  assert.deepEqual(pixels(image), [[1, 2, 3], [4, 5, 255]]);
  assert.equal(image.data[3], 255);
});

test('samples of another maxval are scaled to 8 bits', () => {
  assert.deepEqual(pixels(readPpm(bytes('P3 1 1 1 1 0 1'))), [[255, 0, 255]]);
  assert.deepEqual(
      pixels(readPpm(bytes('P3 1 1 15 15 7 0'))), [[255, 119, 0]]
  );  // 7 * 255 / 15 = 119
  assert.deepEqual(
      pixels(readPpm(bytes('P3 1 1 65535 65535 25700 128'))), [[255, 100, 0]]
  );  // 25700 = 100 * 257
  assert.deepEqual(
      pixels(readPpm(bytes('P6 1 1 65535\n\u00ff\u00ff\u0064\u0064\u0000\u0080'))), [[255, 100, 0]]
  );
  assert.deepEqual(
      pixels(readPpm(bytes('P6 2 1 1\n\u0001\u0000\u0001\u0000\u0000\u0000'))),
      [[255, 0, 255], [0, 0, 0]]
  );
});

test('a raw picture whose samples look like text', () => {
  assert.deepEqual(pixels(readPpm(bytes('P6\n# c\n1 1\n255\n#\n '))), [[35, 10, 32]]);
});

test('PBM pictures are black and white, as text and in bits', () => {
  const [white, black] = [[255, 255, 255], [0, 0, 0]];
  const wanted = [black, white, black, white, black, black];
  const plain = readPpm(bytes('P1\n# c\n3 2\n1 01\n0 1#c\n1\n'));
  assert.deepEqual([plain.width, plain.height, plain.maxval], [3, 2, 255]);
  assert.deepEqual(pixels(plain), wanted);
  // 101 and 011 from the highest bit on; the others fill the byte
  assert.deepEqual(pixels(readPpm(bytes('P4 3 2\n\u00a0\u007f'))), wanted);
  // ten columns: two bytes a row
  const wide = pixels(readPpm(bytes('P4 10 1\n\u0001\u0040')));
  assert.deepEqual(wide, [...Array(7).fill(white), black, white, black]);
  assert.deepEqual(docOfImage(plain).picture, ['a.a', '.aa']);
  for (const text of ['P1 1 1 1', 'P1#c\n1 1 1', 'P4 1 1 \u0080'])
    assert.equal(kindOfFile(bytes(text)), 'ppm');
  assert.equal(kindOfFile(bytes('P1x 1 1')), 'non', 'a text of another kind');
  refused(() => readPpm(bytes('P1 2 1 1')), /ends before its samples/);
  refused(() => readPpm(bytes('P1 1 1 2')), /samples at byte 7 is not a number/);
  refused(() => readPpm(bytes('P1 1 1 1 0')), /more text after/);
  refused(() => readPpm(bytes('P4 9 1 \u0080')), /ends before its last sample/);
  refused(() => readPpm(bytes('P4 1 1#c\n\u0080')), /height at byte 6 is not a number/);
  refused(() => readPpm(bytes('P4 4097 1 ')), /4,096/);
});

test('pictures that are not read', () => {
  refused(() => readPpm(bytes('P3')), /ends before its width/);
  refused(() => readPpm(bytes('P3 2x 1 255')), /width at byte 3 is not a number/);
  refused(() => readPpm(bytes('P3 0 1 255')), /no pixels/);
  refused(() => readPpm(bytes('P3 4097 1 255')), /4,096/);
  refused(() => readPpm(bytes('P6 4096 99999999999999 255 ')), /4,096/);
  refused(() => readPpm(bytes('P3 1 1 0 0 0 0')), /maximum value/);
  refused(() => readPpm(bytes('P3 1 1 65536 0 0 0')), /maximum value/);
  refused(() => readPpm(bytes('P3 1 1 255 0 0')), /ends before its samples/);
  refused(() => readPpm(bytes('P3 1 1 255 0 256 0')), /above 255, the maximum value/);
  refused(() => readPpm(bytes('P3 1 1 255 0 0 0 0')), /more text after/);
  refused(() => readPpm(bytes('P6 1 1 255 ab')), /ends before its last sample/);
  refused(() => readPpm(bytes('P6 1 1 255#ab\nabc')), /at byte 10 is not a number/);
});

test('an image as a document', () => {
  const image = readPpm(bytes('P3 3 2 255 255 255 255 9 8 7 255 0 0  9 8 7 255 255 255 9 8 7'));
  assert.deepEqual(plain(docOfImage(image)), {
    rows: 2,
    columns: 3,
    maxval: 255,
    colours: [[255, 255, 255], [9, 8, 7], [255, 0, 0]],
    picture: ['.ab', 'a.a'],
    givens: {}
  });
  assert.deepEqual(docOfImage(image, [9, 8, 7]).picture, ['a.b', '.a.']);
  assert.equal(docOfImage(readPpm(bytes('P3 1 1 255 9 8 7'))), null);  // no background
  assert.equal(docOfImage(readPpm(bytes(`P3 121 1 255 ${'255 '.repeat(363)}`))), null);
  const many = Array.from({length: 16}, (_, at) => `${at} 0 0`).join(' ');
  assert.equal(docOfImage(readPpm(bytes(`P3 17 1 255 255 255 255 ${many}`))), null);  // 17 colours
  image.data[3] = 0;
  assert.equal(docOfImage(image), null);  // white beside what is transparent
  image.data.fill(3, 16, 19);
  assert.deepEqual(docOfImage(image).picture, ['.ab', 'aca']);
});

// The cases of tests/cases/backgrounds.txt, each as its keys and values.
const backgroundCases = () =>
    readFileSync(new URL('../cases/backgrounds.txt', import.meta.url), 'utf8')
        .replace(/^#.*\n/gm, '')
        .trim()
        .split('\n\n')
        .map((lines) => Object.fromEntries(lines.split('\n').map((line) => {
          const [key, ...words] = line.split(' ');
          return [key, words.join(' ')];
        })));

test('the background of an image, by the cases of nonobench-audit', () => {
  const pixelOf =
      {'-': [0, 0, 0, 0], w: [255, 255, 255, 255], k: [0, 0, 0, 255], r: [255, 0, 0, 255]};
  const cases = backgroundCases();
  for (const one of cases) {
    const rows = one.rows.split('/');
    const data = Uint8ClampedArray.from([...rows.join('')].flatMap((sign) => pixelOf[sign]));
    const doc = docOfImage(
        {width: rows[0].length, height: rows.length, data}, one.named?.split(',').map(Number)
    );
    const [triple, why] = one.background?.split(' ') ?? [];
    // The page asks its user where an audit takes the colour of the corners.
    if (one.refused || why === 'corners') {
      assert.equal(doc, null, one.case);
      continue;
    }
    assert.equal(doc.colours[0].join(), triple, one.case);
    const isGround = (sign) => sign === '-' || pixelOf[sign].slice(0, 3).join() === triple;
    assert.deepEqual(
        doc.picture.map((row) => row.replace(/[^.]/g, 'a')),
        rows.map((row) => [...row].map((sign) => (isGround(sign) ? '.' : 'a')).join('')),
        one.case
    );
  }
  assert.ok(cases.length > 10);
});

test('the notes of a P3 text bring back background, palette and givens', () => {
  const doc = {
    rows: 2,
    columns: 2,
    maxval: 255,
    colours: [[9, 9, 9], [1, 2, 3], [4, 5, 6], [255, 255, 255]],
    picture: ['b.', 'cb'],
    givens: new Set([0, 3])
  };
  const text = ppmTextOf(doc);
  assert.equal(
      text,
      'P3\n# nonobench colours 9,9,9 1,2,3 4,5,6 255,255,255\n# nonobench givens 1,1 2,2\n2 2\n255\n4 5 6\n9 9 9\n255 255 255\n4 5 6\n'
  );
  const read = (one) => docOfNotes(one, readPpm(bytes(one)));
  assert.deepEqual(packedDoc(read(text)), packedDoc(doc));
  assert.equal(read(text.replace('4,5,6', '4,5,7')), null);
  assert.equal(read(text.replace('4,5,6', '1,2,3')), null);
  for (const place of ['2,3', '1,4', '1,3', '0,4', '3,-1', '2,2,2', '0x2,2', '1,2.0'])
    assert.equal(read(text.replace('2,2', place)), null);
  assert.equal(read('P3 1 1 255 0 0 0\n'), null);
  const [magic, notes, rest] =
      [text.slice(0, 3), text.slice(3, text.indexOf('2 2\n')), text.slice(text.indexOf('2 2\n'))];
  for (const other
           of [magic + rest + notes,
               magic + rest.replace('255\n', `255\n${notes}`),
               magic + rest.replace('2 2\n', `2 2\n${notes}`)])
    assert.equal(read(other), null);  // comments elsewhere
  assert.deepEqual(
      packedDoc(
          read(magic + notes.replace('# nonobench givens', '# another\n# nonobench givens') + rest)
      ),
      packedDoc(doc)
  );
  const long = {...doc, about: {title: 'ж'.repeat(90000), note: 'ж'.repeat(90000)}};
  assert.deepEqual([...read(ppmTextOf(long)).givens], [0, 3]);
  const from = process.cpuUsage();
  assert.equal(read(magic + '# nonobench a\n'.repeat(500000) + rest), null);
  assert.ok(process.cpuUsage(from).user < 10e6, 'many notes');
});

test('the given cells of XML have the size of the picture', () => {
  const saved = (givens) => readWebpbn(
      '<puzzle><color name="white" char=".">fff</color><color name="black" char="X">000</color><solution><image>|X.X| |.X.|</image></solution>' +
      `<solution type="saved" id="givens"><image>${givens}</image></solution></puzzle>`
  );
  assert.deepEqual([...saved('|???| |.??|').doc.givens], [3]);
  for (const givens
           of ['|???|', '|??| |.?|', '|???| |.|', '|?| |.??|', '|????| |.???|', '|???| |.????|'])
    refused(() => saved(givens), /saved cells have a different size/);
});

test('what no bench would open', () => {
  const doc = packedDoc(emptyDoc(3, 2));
  assert.deepEqual(packedDoc(unpackedDoc(doc)), doc);
  for (const wrong
           of [{columns: 0},
               {rows: 121},
               {rows: 3},
               {colours: []},
               {colours: [[0, 0, 0], [0, 0, 0]]},
               {colours: [[0, 0, 256]]},
               {picture: ['..b', '...']},
               {picture: ['..', '..']},
               {givens: [6]},
               {maxval: 0}]) {
    assert.throws(() => unpackedDoc({...doc, ...wrong}), FileFault);
  }
  assert.throws(() => unpackedDoc(null), FileFault);
});

test('kinds of files', () => {
  const kinds = {
    P3: 'ppm',
    'P6 1': 'ppm',
    '\u0089PNG\r\n\u001a\n..': 'png',
    '\u00ff\u00d8\u00ff\u00e0': 'jpeg',
    GIF89a: 'gif',
    'RIFF....WEBPVP8 ': 'webp',
    '<?xml?>': 'xml',
    '\u00ef\u00bb\u00bf\n <puzzle>': 'xml',
    'width 3\nheight 2': 'non',
    'nonocert 1': 'cert',
    'nonolemma 1': 'cert',
    '\u00ef\u00bb\u00bfnonocert 1': 'cert',
    '\u00ff\u00fen\0o\0n\0o\0l\0e\0m\0m\0a\0': 'cert',
    '\0n\0o\0n\0o\0c\0e\0r\0t': 'cert',
    '\u0000\u0001': null,
    '': null
  };
  for (const [text, kind] of Object.entries(kinds))
    assert.equal(kindOfFile(bytes(text)), kind, text);
});

test('XML: elements, attributes, texts and signs', () => {
  const top = readXml(
      '\ufeff<?xml version="1.0"?>\n<!DOCTYPE pbn SYSTEM "x.dtd">\n<!-- <a> --><a b=\'1 &gt; "0"\'>x&amp;y&#65;&#x42;&copy;&nope;<c/><![CDATA[<d>&amp;]]></a>\n'
  );
  assert.equal(top.attributes.get('b'), '1 > "0"');
  assert.equal(top.text, 'x&yAB\u00a9&nope;<d>&amp;');
  assert.deepEqual(top.children.map((child) => child.name), ['c']);
});

test('XML that is not read', () => {
  // Line ends are line feeds, and within an attribute blanks; what numbers name stays.
  const lines = readXml('<a b=\'1\r\n2\t3&#10;4\r\'>x\r\ny\rz&#13;\t</a>\r\n');
  assert.deepEqual([lines.attributes.get('b'), lines.text], ['1 2 3\n4 ', 'x\ny\nz\r\t']);
  refused(() => readXml('<a>'), /not closed/);
  refused(() => readXml('<a></b>'), /closes nothing/);
  refused(() => readXml('<a/><b/>'), /not exactly one outermost/);
  refused(() => readXml('x<a/>'), /outside/);
  refused(() => readXml('<a b=1/>'), /no quotes/);
  refused(() => readXml('<a b="1>'), /no end/);
  refused(() => readXml('<!DOCTYPE a [<!ENTITY b "c">]><a/>'), /declarations/);
  for (const quote of ['"', '\''])
    refused(
        () => readXml(`<!DOCTYPE a SYSTEM ${quote}x><b/><!--${quote}><a/><!-- -->`), /declarations/
    );
  assert.equal(readXml('<a>&#00000000065;&#x000000042;</a>').text, 'AB');
  refused(() => readXml(`${'<a>'.repeat(40)}${'</a>'.repeat(40)}`), /too many/);
  refused(() => readXml(`<a>${'<b/>'.repeat(200001)}</a>`), /too many/);
  refused(() => readXml(''), /outermost/);
});

// A puzzle as webpbn.com shows its format: three colours, a goal.
const PUZZLE = `<?xml version="1.0"?>
<!DOCTYPE pbn SYSTEM "http://webpbn.com/pbn-0.3.dtd">
<puzzleset>
<source>webpbn.com</source>
<puzzle type="grid" defaultcolor="black">
<title>Tree &amp; &lt;b&gt;root&lt;/b&gt;</title>
<author>Jan</author>
<color name="white" char=".">fff</color>
<color name="black" char="X">000</color>
<color name="green" char="%">00B000</color>
<clues type="columns">
<line><count color="green">1</count></line>
<line><count color="green">1</count><count>1</count></line>
<line><count color="green">1</count></line>
</clues>
<clues type="rows">
<line><count color="green">3</count></line>
<line><count>1</count></line>
</clues>
<solution type="goal">
<image>
|%%%|
|.X.|
</image>
</solution>
</puzzle>
</puzzleset>
`;

test('a puzzle of webpbn.com', () => {
  const {doc} = readWebpbn(PUZZLE);
  assert.deepEqual(doc.picture, ['bbb', '.a.']);
  assert.deepEqual(doc.colours, [[255, 255, 255], [0, 0, 0], [0, 176, 0]]);
  assert.equal(doc.about.title, 'Tree & <b>root</b>');
  refused(
      () => readWebpbn(PUZZLE.replace('<count color="green">3', '<count color="green">2')),
      /clues of the rows/
  );
  refused(
      () => readWebpbn(PUZZLE.replace('<line><count>1</count></line>\n</clues>', '</clues>')),
      /clues of the rows/
  );
  refused(
      () => readWebpbn(PUZZLE.replace(
          '<count color="green">1</count><count>', '<count>1</count><count color="green">'
      )),
      /clues of the columns/
  );
  // A second colour that is declared as white is the nearest one that is another.
  const white = readWebpbn(
      '<puzzle><color name="white" char=".">fff</color><color name="snow" char="s">fff</color><solution><image>|.s|</image></solution></puzzle>'
  );
  assert.deepEqual(white.doc.colours.slice(0, 2), [[255, 255, 255], [255, 255, 254]]);
  refused(
      () => readWebpbn(
          '<puzzle><clues type="rows"></clues><solution><image>|..|</image></solution></puzzle>'
      ),
      /clues of the rows/
  );
  refused(() => readWebpbn(PUZZLE.replace('|.X.|', '|.Y.|')), /'Y'/);
  refused(() => readWebpbn(PUZZLE.replace('|.X.|', '|.X|')), /rows of the puzzle/);
  refused(() => readWebpbn(PUZZLE.replace('00B000', '00B00')), /hexadecimal/);
  refused(() => readWebpbn(PUZZLE.replace('"grid"', '"triddler"')), /no puzzle of rows/);
  refused(() => readWebpbn('<svg/>'), /no puzzle/);
});

test('white space of XML, and no other, stands around colours, clues and elements', () => {
  for (const [sign, isRead] of [
           [' ', true],
           ['\t', true],
           ['\n', true],
           ['\r\n', true],
           ['\u00a0', false],
           ['\ufeff', false],
           ['\u2003', false],
           ['\u0085', false]]) {
    for (const text
             of [PUZZLE.replace('00B000', `${sign}00B000${sign}`),
                 PUZZLE.replace('<count>1', `<count>${sign}1${sign}`),
                 `${PUZZLE}${sign}`]) {
      const read = () => readWebpbn(text).doc.picture.join();
      if (isRead)
        assert.equal(read(), 'bbb,.a.', JSON.stringify(sign));
      else
        refused(read, /hexadecimal|number|outside all/);
    }
  }
});

test(
    'an image, and all that a puzzle has beside its picture, is as long as nonobench-audit takes it',
    () => {
      const most = 64 * 120 * 120;
      const puzzle = (goal, more = '') =>
          `<puzzle><solution><image>|X|${' '.repeat(goal)}|.|</image></solution>${more}</puzzle>`;
      const saved = (length) =>
          `<solution type="saved"><image>${' '.repeat(length)}</image></solution>`;
      const note = `<note>${'n'.repeat(100000)}</note>`;
      assert.equal(readWebpbn(puzzle(most - 6)).doc.rows, 2);
      assert.equal(
          readWebpbn(puzzle(0, saved(most - 1000) + saved(10))).doc.extras.solutions.length, 2
      );
      for (const text
               of [puzzle(most - 5),
                   puzzle(0, saved(most + 1)),
                   puzzle(0, saved(most / 2) + saved(most / 2)),
                   puzzle(0, note.repeat(10)),
                   `<puzzleset>${note}${puzzle(0)}</puzzleset>`])
        refused(() => readWebpbn(text), /texts of the XML are too long/);
    }
);

test('clues without a solution: two colours alone', () => {
  const bare = PUZZLE.replace(/<solution[^]*<\/solution>/, '');
  refused(() => readWebpbn(bare), /several colours/);
  const black = bare.replaceAll(' color="green"', '');
  assert.equal(readWebpbn(black).non, 'width 3\nheight 2\nrows\n3\n1\ncolumns\n1\n1,1\n1\n');
  refused(
      () => readWebpbn(bare.replace(/<clues type="rows">[^]*<\/clues>/, '')), /neither a solution/
  );
});

test(
    'clues without a solution are refused for their colours, for cells that are given, and where there are none, as by nonobench-audit',
    () => {
      const axis = (name) => `<clues type="${name}"><line><count>1</count></line></clues>`;
      const [clues, blue] = [axis('rows') + axis('columns'), '<color name="blue">00f</color>'];
      const puzzle = (words, more = '') => `<puzzle ${words}>${more}${clues}</puzzle>`;
      for (const [words, more] of [
               ['', ''],
               ['backgroundcolor="blue"', blue],
               ['defaultcolor="blue"', blue],
               ['backgroundcolor="black" defaultcolor="white"', ''],
               ['', '<solution type="saved"><image>|X|</image></solution>']]) {
        assert.equal(
            readWebpbn(puzzle(words, more)).non, 'width 1\nheight 1\nrows\n1\ncolumns\n1\n'
        );
      }
      for (const words
               of ['defaultcolor="blue"',
                   'defaultcolor=""',
                   'backgroundcolor="black"',
                   'defaultcolor="white"',
                   'defaultcolor="__proto__"'])
        refused(
            () => readWebpbn(puzzle(words)),
            /colour of its background, or in one that it does not have/
        );
      refused(
          () => readWebpbn(puzzle('backgroundcolor="blue"')),
          /background of the puzzle is a colour that it does not have/
      );
      refused(() => readWebpbn(puzzle('', blue + blue)), /declared twice/);
      refused(
          () => readWebpbn(puzzle('', '<color name="blue">blue</color>')), /hexadecimal digits/
      );
      for (const id of ['givens', 'locks'])
        refused(
            () => readWebpbn(
                puzzle('', `<solution type="saved" id="${id}"><image>|X|</image></solution>`)
            ),
            /givens or locked cells, but no solution/
        );
      for (const name of ['rows', 'columns'])
        refused(
            () => readWebpbn(puzzle('').replace(axis(name), `<clues type="${name}"/>`)),
            /neither a solution/
        );
    }
);

test('two declared colours of one sign: which is meant is not known', () => {
  const text =
      '<puzzle><color name="red" char="r">f00</color><color name="rose" char="r">f08</color><solution><image>|X.|</image></solution></puzzle>';
  assert.deepEqual(readWebpbn(text).doc.picture[0].length, 2, 'no cell has it');
  refused(() => readWebpbn(text.replace('|X.|', '|r.|')), /a sign of the puzzle is declared twice/);
  assert.equal(
      readWebpbn(
          '<puzzle><color name="red" char="X">f00</color><solution><image>|X.|</image></solution></puzzle>'
      )
          .doc.colours[1]
          .join(),
      '255,0,0',
      'black is not declared'
  );
});

test(
    'more colours than a puzzle may have: those of the picture count, also where many are alike',
    () => {
      const colours =
          Array.from({length: 300}, (_, at) => [`c${at}`, String.fromCharCode(0x4e00 + at)]);
      const declared =
          colours.map(
                     ([name, sign]) => `<color name="${name}" char="${sign}">000</color>`
          ).join('');
      const puzzle = (used, rows) => `<puzzle>${declared}<solution><image>${
          Array
              .from(
                  {length: rows},
                  (_, row) => `|${
                      colours.slice(row * used, (row + 1) * used)
                          .map(([, sign]) => sign)
                          .join('')}|`
              )
              .join('')}</image></solution></puzzle>`;
      assert.equal(readWebpbn(puzzle(15, 1)).doc.colours.length, 16);
      for (const rows of [1, 3]) refused(() => readWebpbn(puzzle(100, rows)), /at most 16 colours/);
    }
);

test('signs in a solution: sets, backslashes, colours that are not declared', () => {
  const text =
      '<puzzle backgroundcolor="sky"><color name="sky" char="|">9cf</color><color name="x" char="[">123456</color><solution><image>|\\|\\[X| |[X]\\|.|</image></solution></puzzle>';
  const {doc} = readWebpbn(text);
  assert.deepEqual(doc.picture, ['.ac', 'c.b']);
  assert.deepEqual(doc.colours, [[153, 204, 255], [18, 52, 86], [255, 255, 255], [0, 0, 0]]);
  refused(() => readWebpbn(text.replace('[X]', '[X|]')), /'\?'/);
});

test('the XML that is written is read back, givens and all', () => {
  const doc = {
    rows: 2,
    columns: 4,
    maxval: 255,
    colours: [[40, 0, 0], [255, 255, 255], [0, 0, 0], [200, 100, 50]],
    picture: ['aab.', '.ccb'],
    givens: new Set([2, 7])
  };
  const clues = {
    rows: [
      [{length: 2, letter: 'a'}, {length: 1, letter: 'b'}],
      [{length: 2, letter: 'c'}, {length: 1, letter: 'b'}]
    ],
    columns: [
      [{length: 1, letter: 'a'}],
      [{length: 1, letter: 'a'}, {length: 1, letter: 'c'}],
      [{length: 1, letter: 'b'}, {length: 1, letter: 'c'}],
      [{length: 1, letter: 'b'}]
    ]
  };
  assert.deepEqual(cluesOf(doc.picture), clues);
  const text = webpbnText({...doc, about: {title: 'A < B & "C"'}}, clues);
  assert.match(text, /<title>A &lt; B &amp; &quot;C&quot;<\/title>/);
  assert.match(text, /<color name="very dark red" char="-">280000<\/color>/);
  assert.match(text, /<clues type="columns">\n<line><count color="white">1<\/count><\/line>/);
  assert.match(text, /\|\.\.X-\|\n\|-ccX\|/);
  const back = readWebpbn(text).doc;
  assert.ok(sameBenchPart(back, doc));
  assert.equal(back.about.title, 'A < B & "C"');
  assert.deepEqual(back.inks, [
    {name: 'very dark red', sign: '-'},
    {name: 'white', sign: '.'},
    {name: 'black', sign: 'X'},
    {name: 'brown', sign: 'c'}
  ]);
  assert.doesNotMatch(webpbnText({...doc, givens: new Set()}, clues), /saved/);
});

test('the clues of the XML are those that are handed in, and none are written without', () => {
  const doc = docOf({...emptyDoc(2, 1), picture: ['a.']});
  const clues = {rows: [[{length: 9, letter: 'a'}]], columns: [[{length: 8, letter: 'a'}], []]};
  const counts = (text) => [...text.matchAll(/<line>(.*)<\/line>/g)].map(
      ([, line]) => line.replace(/<[^>]*>/g, ' ').trim()
  );
  assert.deepEqual(counts(webpbnText(doc, clues)), ['8', '', '9'], 'columns, then rows');
  assert.doesNotMatch(webpbnText(doc), /<clues|<line|<count/);
  assert.doesNotMatch(webpbnText({...doc, clues}), /<clues|<line|<count/);
});

test('any picture goes out as XML and as P3, and comes back', () => {
  let seed = 5;
  const chance = (below) => (seed = (seed * 48271) % 2147483647) % below;
  for (let round = 0; round < 100; round++) {
    const [rows, columns, count] = [1 + chance(6), 1 + chance(6), 1 + chance(16)];
    const triples = new Set();
    while (triples.size < count)
      triples.add([chance(4) * 85, chance(4) * 85, chance(4) * 85].join());
    const colours = [...triples].map((text) => text.split(',').map(Number));
    const picture = Array.from(
        {length: rows},
        () => Array.from({length: columns}, () => '.abcdefghijklmno'[chance(count)]).join('')
    );
    const givens = new Set(Array.from({length: chance(4)}, () => chance(rows * columns)));
    const about = Object.fromEntries(ABOUT.filter(
                                              () => chance(2)
    ).map((name) => [name, `${name} <${chance(9)}> & "\u00e4\u{1f333}"`]));
    const inks = colours.map((_, at) => ({
                               name: `ink ${at} & "x"`,
                               sign: '.X-abc#%123|[]?'[(at + round) % 15],
                               ...(chance(3) ? {} : {locked: true})
                             }));
    const locks = new Set(Array.from({length: chance(4)}, () => chance(rows * columns)));
    const doc = docOf({rows, columns, maxval: 255, colours, picture, givens, about, inks, locks});
    const xml = readWebpbn(withClues(doc)).doc;
    assert.ok(sameBenchPart(xml, doc));
    assert.deepEqual(
        [xml.about, [...xml.locks].sort(), xml.inks.map((ink) => [ink.name, Boolean(ink.locked)])],
        [
          {source: 'nonobench', ...about},
          [...locks].sort(),
          inks.map((ink) => [ink.name, Boolean(ink.locked)])
        ]
    );
    assert.ok(sameDoc(readWebpbn(withClues(xml)).doc, xml), 'written again it is the same');
    assert.ok(sameDoc(readWebpbn(webpbnText(doc)).doc, xml), 'without clues, too');
    const text = ppmTextOf(doc);
    assert.match(text, /^[\n -~]*$/);
    assert.ok(sameDoc(docOfNotes(text, readPpm(bytes(text))), doc));
  }
});

// ---- each element of the format, written again as it was read

const WHOLE = `<?xml version="1.0" encoding="UTF-8"?>
<puzzleset>
<source>archive &amp; co</source>
<title>A set</title>
<author>Its author</author>
<authorid>set-7</authorid>
<copyright>&#169; of the set</copyright>
<puzzle type="grid" defaultcolor="leaf" backgroundcolor="sky blue">
<source>webpbn.com</source>
<id>#1234 (v.2)</id>
<title>Tree</title>
<author>Jan</author>
<authorid>jan99</authorid>
<copyright>2026 by Jan</copyright>
<description>A tree &lt;in&gt; the wind.</description>
<color name="sky blue" char="s">99CCFF</color>
<color name="leaf" char="L">00B000</color>
<color name="bark" char="%">604020</color>
<clues type="columns"><line><count>1</count></line><line><count>1</count><count color="bark">1</count></line><line><count>1</count></line></clues>
<clues type="rows"><line><count>3</count></line><line><count color="bark">1</count></line></clues>
<solution type="goal" id="g"><image>|LLL|
|s%s|</image><note>The tree itself.</note></solution>
<solution type="solution" id="other"><image>|LLL|
|%ss|</image><note>Not a solution, in truth.</note></solution>
<solution type="saved" id="half"><image>|L??|
|?[s%]s|</image><note>Begun on a train.</note></solution>
<note>First note.</note>
<note>Second note.</note>
</puzzle>
<note>A note of the set.</note>
</puzzleset>
`;
const ELEMENTS = {
  'source of the set': '<source>archive &amp; co</source>',
  'title of the set': '<title>A set</title>',
  'author of the set': '<author>Its author</author>',
  'authorid of the set': '<authorid>set-7</authorid>',
  'copyright of the set': '<copyright>\u00a9 of the set</copyright>',
  'default and background colour':
      '<puzzle type="grid" defaultcolor="leaf" backgroundcolor="sky blue">',
  source: '<source>webpbn.com</source>',
  id: '<id>#1234 (v.2)</id>',
  title: '<title>Tree</title>',
  author: '<author>Jan</author>',
  authorid: '<authorid>jan99</authorid>',
  copyright: '<copyright>2026 by Jan</copyright>',
  description: '<description>A tree &lt;in&gt; the wind.</description>',
  'a colour by name and sign':
      '<color name="sky blue" char="s">99ccff</color>\n<color name="leaf" char="L">00b000</color>\n<color name="bark" char="%">604020</color>',
  'clues by names': '<line><count color="leaf">1</count><count color="bark">1</count></line>',
  goal: '<solution type="goal" id="g">\n<image>\n|LLL|\n|s%s|\n</image>',
  'the note of the goal': '<note>The tree itself.</note>',
  'another solution':
      '<solution type="solution" id="other">\n<image>|LLL|\n|%ss|</image>\n<note>Not a solution, in truth.</note>',
  'a saved solution':
      '<solution type="saved" id="half">\n<image>|L??|\n|?[s%]s|</image>\n<note>Begun on a train.</note>',
  'notes of the puzzle': '<note>First note.</note>\n<note>Second note.</note>\n</puzzle>',
  'note of the set': '</puzzle>\n<note>A note of the set.</note>\n</puzzleset>',
};
for (const [what, text] of Object.entries(ELEMENTS)) {
  test(`XML is read and written again: ${what}`, () => {
    const written = withClues(readWebpbn(WHOLE).doc);
    assert.ok(written.includes(text), `${text} is not in ${written}`);
    assert.equal(withClues(readWebpbn(written).doc), written);
  });
}

test('solutions that do not fit the picture any more are left out, and that is known', () => {
  const {doc} = readWebpbn(WHOLE);
  assert.equal(leavesOut(doc), false);
  const larger = {...doc, rows: 3, picture: [...doc.picture, '...']};
  assert.equal(leavesOut(larger), true);
  assert.doesNotMatch(webpbnText(larger), /id="half"/);
});

test('further puzzles of a set', () => {
  const two = WHOLE.replace(
      '</puzzle>',
      '</puzzle><puzzle><title>Dot</title><solution><image>|X|</image></solution></puzzle><puzzle><solution><image>|Y|</image></solution></puzzle>'
  );
  assert.deepEqual(
      [readWebpbn(two).count, readWebpbn(two, 1).doc.about.title, readWebpbn(two, 1).doc.picture],
      [3, 'Dot', ['a']]
  );
  refused(() => readWebpbn(two, 2), /'Y'/);
});

test('names and signs of colours: its own, none twice', () => {
  const inks = (colours, own) =>
      inksOf({colours, inks: own}).map(({name, sign}) => `${name} ${sign}`);
  assert.deepEqual(
      inks([[255, 255, 255], [0, 0, 0], [210, 30, 30], [200, 30, 30]], []),
      ['white .', 'black X', 'lighter red b', 'darker red c']
  );
  assert.deepEqual(
      inks([[1, 2, 3], [255, 255, 255]], [{name: 'white', sign: '.'}]), ['white .', 'white (a) a']
  );
  assert.deepEqual(
      inks([[1, 2, 3], [4, 5, 6]], [{sign: '?'}, {name: 'background', sign: '-'}]),
      ['black .', 'background -']
  );
});

// Tests of several files at once: what lies beside a picture, of which folder it is, and what is
// made of images without the dialog. Pictures and what comes of them are worked by hand. Run: node
// --test tests/page/page_several.mjs
import assert from 'node:assert/strict';
import {readFileSync} from 'node:fs';
import {test} from 'node:test';
import {needsModule, workers} from '../../page/test/worker.mjs';
import {valueText} from '../../page/base/words.js';
import {FileFault} from '../../page/document/limits.js';
import {Client} from '../../page/engine/client.js';
import {Judge} from '../../page/engine/judging.js';
import {ppmTextOf} from '../../page/formats/ppm_notes.js';
import {readGivens, readGround} from '../../page/formats/published.js';
import {webpbnText} from '../../page/formats/webpbn.js';
import {writeZip, zipEntries} from '../../page/formats/zip.js';
import {readZip} from '../../page/test/zips.mjs';
import {readArchive} from '../../page/import/archives.js';
import {docsOfUnit, grouped, hasCertificate, puzzlesIn} from '../../page/import/beside.js';
import {Cutting, rowsOfSprites} from '../../page/import/cutting.js';
import {unitsIn} from '../../page/import/folders.js';
import {docOfNon} from '../../page/import/reading.js';
import {docByItself, proposalFor} from '../../page/import/proposing.js';
import {long, waits} from '../waits.mjs';

const bytesFrom = (base64) => new Uint8Array(Buffer.from(base64, 'base64'));
const read = (path) => readFileSync(new URL(`../../${path}`, import.meta.url));
const bytesOf = (text) => new TextEncoder().encode(text);
const fileOf = (name, text = '') => Object.assign(new Blob([text]), {name});
const filesOf = (files) => Object.entries(files).map(([name, text]) => fileOf(name, text));
const unitOf = (files) => grouped(filesOf(files))[0];
const docOf = async (files) => {
  const {docs} = await docsOfUnit(unitOf(files));
  assert.equal(docs.length, 1);
  return docs[0];
};
const givensOf = ({givens}) => [...givens].sort((one, other) => one - other);
const refused = (files, wanted) => assert.rejects(
    docsOfUnit(unitOf(files)), (fault) => fault instanceof FileFault && wanted.test(fault.message)
);

// Black above white, white above black: the other diagonal has the same clues.
const AMBIGUOUS = 'P3\n2 2\n255\n0 0 0 255 255 255\n255 255 255 0 0 0\n';

test('the texts of files beside pictures, which nonobench-audit reads alike', () => {
  let count = 0;
  for (const line of read('tests/cases/beside.txt')
           .toString()
           .split('\n')
           .filter((one) => one && !one.startsWith('#'))) {
    const [, kind, quoted, wanted] = /^(\w+) (".*") ([^"]+)$/.exec(line);
    const text = Buffer.from(JSON.parse(quoted)).toString('latin1');
    const answer = kind === 'givens' ? () => givensText(text) : () => groundText(text, wanted);
    if (['refused', 'outside'].includes(wanted))
      assert.throws(
          answer,
          (fault) => fault instanceof FileFault &&
              /outside/.test(fault.message) === (wanted === 'outside'),
          line
      );
    else
      assert.equal(answer(), wanted, line);
    count++;
  }
  assert.ok(count > 40);
});

const givensText = (text) => [...readGivens(text, {rows: 3, columns: 4})]
                                 .sort((one, other) => one - other)
                                 .map((place) => `${Math.floor(place / 4) + 1},${(place % 4) + 1}`)
                                 .join(' ') ||
    'none';

// What a background comes to for a first pixel of 9,8,7 with the largest samples that there are.
function groundText(text, wanted) {
  const ground = readGround(text);
  const names = {'255,255,255': 'white'};
  const triple = ground({data: Uint8ClampedArray.of(9, 8, 7, 255)}, 65535).join();
  if (wanted.includes(','))
    return triple === wanted.split(',').map((sample) => Math.round((sample * 255) / 65535)).join() ?
        wanted :
        triple;
  return names[triple];
}

test('lines of givens end with LF or CR LF, and the line that is wrong is named', () => {
  const size = {rows: 3, columns: 4};
  assert.deepEqual([...readGivens('given 3 4\ngiven 1 2', size)], [11, 1]);
  assert.throws(() => readGivens('given 1 2\ngiven 3\n', size), /^Error: line 2 is not/);
  assert.throws(() => readGivens('given 1 2\r\r\n', size), /line 1 is not/);
  assert.throws(
      () => readGivens('given 1 2\ngiven 2 2\ngiven 1 2\n', size),
      /^Error: line 3 names a cell for the second time/
  );
  for (const [line, wanted] of [
           ['3 5', /row 3, column 5 is outside/],
           ['0 1', /row 0, column 1 is outside/],
           ['999 1', /row 999, column 1 is outside/]])
    assert.throws(() => readGivens(`given 1 2\ngiven ${line}\n`, size), wanted);
});

test('a background is in the samples of its picture', () => {
  const white = {data: Uint8ClampedArray.of(9, 8, 7, 0)};
  assert.deepEqual(readGround('1,2,15')(white, 15), [17, 34, 255]);  // 255 / 15 = 17
  assert.throws(() => readGround('corner'), FileFault);
  assert.throws(() => readGround('0,0,16')(white, 15), /above 15/);
  for (const sign of ['\u00a0', '\u0085', '\u001c'])
    assert.throws(() => readGround(`white${sign}`), FileFault);  // no white space of ASCII
});

// The cases of a table of folders, each as its names and who gets what: `NAME: ENDING ..` for each
// picture that something goes with, and `stray NAME`.
const namesOf = () => read('tests/cases/names.txt')
                          .toString()
                          .split('\n')
                          .filter((line) => line && !line.startsWith('#'))
                          .join('\n')
                          .split(/^folder /m)
                          .slice(1)
                          .map((text) => text.trim().split('\n'));

test('what goes with a picture, by its name, as for nonobench-audit', () => {
  const cases = namesOf();
  for (const [names, ...wanted] of cases) {
    const lines = grouped(names.split(' ').map((name) => fileOf(name))).flatMap((unit) => {
      const {file: {name}, beside, fault} = unit;
      const got = ['cert', 'givens', 'background'].filter(
          (ending) => beside.some((one) => one.name === `${name}.${ending}`)
      );
      if (fault) return [`stray ${name}`];
      return got.length ? [`${name}: ${got.join(' ')}`] : [];
    });
    assert.deepEqual(lines.sort(), wanted.sort(), names);
  }
  assert.ok(cases.length > 10);
});

test('a file that goes with no picture says how to rename it', () => {
  const [unit] = grouped([fileOf('heart.givens')]);
  assert.equal(
      unit.fault,
      'no picture here goes with it: rename it to its picture’s name plus .givens, such as heart.ppm.givens'
  );
});

test('what the engine said of a picture is no file of its own beside it', () => {
  const names = (...files) => grouped(files.map((name) => fileOf(name))).map(({file}) => file.name);
  assert.deepEqual(names('a.ppm', 'a.ppm.txt'), ['a.ppm']);
  assert.deepEqual(names('a.ppm', 'a.txt', 'b.ppm.txt'), ['a.ppm', 'a.txt', 'b.ppm.txt']);
});

test('whether a certificate goes with a picture', () => {
  const has = (...files) => grouped(files.map((name) => fileOf(name))).map(hasCertificate);
  assert.deepEqual(has('a.png', 'a.png.cert'), [true]);
  assert.deepEqual(has('a.png', 'a.png.givens'), [false]);
});

test('files of one name out of several folders: what goes together is not known', async () => {
  const both = grouped([fileOf('a.png'), fileOf('a.png'), fileOf('a.png.givens')]);
  assert.equal(both.length, 2);
  for (const unit of both) await assert.rejects(docsOfUnit(unit), /several files have its name/);
  const lists = grouped([fileOf('a.png'), fileOf('a.png.givens'), fileOf('a.png.givens')]);
  assert.deepEqual(
      lists.map(({file, fault}) => [file.name, /several/.test(fault)]), [['a.png', true]]
  );
  assert.deepEqual(
      grouped([fileOf('a.png'), fileOf('a.png')]).map(({fault}) => fault), ['', '']
  );  // nothing goes with them
});

test('many files of two names are no work', () => {
  const from = process.cpuUsage();
  const units =
      grouped(Array.from({length: 20000}, (_, at) => fileOf(at % 2 ? 'a.ppm.givens' : 'a.ppm')));
  assert.ok(units.every(({fault}) => fault) && process.cpuUsage(from).user < 10e6);
});

test('givens and a background beside a picture', async () => {
  const doc = await docOf({'a.ppm': AMBIGUOUS, 'a.ppm.givens': 'given 1 1\n'});
  assert.deepEqual(
      [doc.colours, doc.picture, givensOf(doc)], [[[255, 255, 255], [0, 0, 0]], ['a.', '.a'], [0]]
  );
  const night = await docOf({'a.ppm': AMBIGUOUS, 'a.ppm.background': '0,0,0\n'});
  assert.deepEqual(
      [night.colours, night.picture, givensOf(night)],
      [[[0, 0, 0], [255, 255, 255]], ['.a', 'a.'], []]
  );
  const small = await docOf({'a.ppm': 'P3 2 1 15 15 0 0 0 0 15', 'a.ppm.background': '15,0,0'});
  assert.deepEqual([small.colours, small.picture], [[[255, 0, 0], [0, 0, 255]], ['.a']]);
  // Raw samples have the picture's own scale, too.
  const raw = await docOf({
    'a.ppm': new Uint8Array([...bytesOf('P6 2 1 15\n'), 15, 0, 0, 0, 0, 15]),
    'a.ppm.background': '15,0,0'
  });
  assert.deepEqual([raw.colours, raw.picture], [[[255, 0, 0], [0, 0, 255]], ['.a']]);
  // A background that no cell has.
  const other = await docOf({'a.ppm': AMBIGUOUS, 'a.ppm.background': '1,2,3'});
  assert.deepEqual(
      [other.colours, other.picture], [[[1, 2, 3], [0, 0, 0], [255, 255, 255]], ['ab', 'ba']]
  );
  const empty = await docOf({'a.ppm': AMBIGUOUS, 'a.ppm.givens': ''});
  assert.deepEqual([empty.picture, givensOf(empty)], [['a.', '.a'], []]);
  await refused(
      {'a.ppm': AMBIGUOUS, 'a.ppm.givens': 'given 1 1\ngiven 1\n'},
      /“a\.ppm\.givens” could not be read: line 2 is not/
  );
  await refused(
      {'a.ppm': AMBIGUOUS, 'a.ppm.givens': 'given 3 1\n'},
      /“a\.ppm\.givens” could not be read: row 3, column 1 is outside/
  );
  await refused(
      {'a.ppm': AMBIGUOUS, 'a.ppm.background': 'blue'},
      /“a\.ppm\.background” could not be read: it is neither/
  );
  await refused(
      {'a.ppm': AMBIGUOUS, 'a.ppm.background': ''},
      /“a\.ppm\.background” could not be read: it is neither/
  );
  await refused(
      {'a.ppm': AMBIGUOUS, 'a.ppm.background': '0,0,256'},
      /“a\.ppm\.background” could not be read: a number is above 255/
  );
  const unit = {file: fileOf('a.ppm', AMBIGUOUS), givens: {name: 'a.ppm.givens', size: 16777217}};
  await assert.rejects(
      docsOfUnit(unit), /“a\.ppm\.givens” could not be read: it has more than 16 MiB/
  );
  const most = {
    file: fileOf('a.ppm', AMBIGUOUS),
    givens: {name: 'a.ppm.givens', size: 16777216, arrayBuffer: async () => bytesOf('given 1 2')}
  };
  assert.deepEqual((await docsOfUnit(most)).docs.map(givensOf), [[1]]);
  await refused(
      {'a.ppm': AMBIGUOUS, 'a.ppm.givens': '\ufeffgiven 1 1\n'}, /line 1 is not/
  );  // as for nonobench-audit
});

test('what lies beside a picture of the page holds in place of its notes', async () => {
  const doc = {
    rows: 2,
    columns: 2,
    maxval: 255,
    colours: [[0, 0, 40], [255, 255, 255], [9, 9, 9]],
    picture: ['a.', '.a'],
    givens: new Set([3]),
    about: {title: 'Moon'},
    inks: [{}, {name: 'star'}],
    locks: new Set([1])
  };
  const text = ppmTextOf(doc);
  const as = async (files) => docOf({'a.ppm': text, ...files});
  const alone = await as ({});
  assert.deepEqual(
      [alone.colours, alone.picture, givensOf(alone), alone.about.title],
      [doc.colours, doc.picture, [3], 'Moon']
  );
  assert.deepEqual(givensOf(await as ({'a.ppm.givens': 'given 1 1\n'})), [0]);  // not those of both
  assert.deepEqual(givensOf(await as ({'a.ppm.givens': ''})), []);
  const same = await as ({'a.ppm.background': '0,0,40\n'});
  assert.deepEqual([same.colours, same.inks[1].name, givensOf(same)], [doc.colours, 'star', [3]]);
  const other = await as ({'a.ppm.background': '255,255,255'});
  assert.deepEqual(
      [other.colours, other.picture, givensOf(other), other.about.title, [...other.locks]],
      [[[255, 255, 255], [0, 0, 40]], ['.a', 'a.'], [3], 'Moon', [1]]
  );
});

test('givens beside XML hold in place of its own; another background is an error', async () => {
  const clues = {
    rows: [[{length: 1, letter: 'a'}], [{length: 1, letter: 'a'}]],
    columns: [[{length: 1, letter: 'a'}], [{length: 1, letter: 'a'}]]
  };
  const doc = {
    rows: 2,
    columns: 2,
    maxval: 255,
    colours: [[0, 0, 40], [255, 255, 255]],
    picture: ['a.', '.a'],
    givens: new Set([3]),
    about: {},
    inks: [],
    locks: new Set(),
    extras: null
  };
  const xml = webpbnText(doc, clues);
  assert.deepEqual(givensOf(await docOf({'a.xml': xml})), [3]);
  assert.deepEqual(
      givensOf(
          await docOf({'a.xml': xml, 'a.xml.givens': 'given 1 1\n', 'a.xml.background': '0,0,40'})
      ),
      [0]
  );
  assert.deepEqual(givensOf(await docOf({'a.xml': xml, 'a.xml.givens': ''})), []);
  await refused({'a.xml': xml, 'a.xml.background': 'white'}, /its own background is not the one/);
  // Which of two puzzles such a file is for is not known.
  const [puzzle] = /<puzzle[ >][^]*<\/puzzle>/.exec(xml);
  const set = xml.replace(puzzle, puzzle + puzzle);
  const {docs, left} = await docsOfUnit(
      unitOf({'a.xml': set, 'a.xml.givens': 'given 1 1\n', 'a.xml.background': 'white'})
  );
  assert.deepEqual(
      [docs.map(givensOf), left.map(({name}) => name)],
      [[[3], [3]], ['a.xml.givens', 'a.xml.background']]
  );
});

// Puzzles of Web Paint-by-Number, by the rows of their solutions. The first cells of a damaged one
// have a sign of no colour.
const puzzleOf = (rows) => {
  const image = rows.map((row) => `|${row}|`).join('');
  return `<puzzle><solution type="goal"><image>${image}</image></solution></puzzle>`;
};
const setOf = (...puzzles) => `<puzzleset>${puzzles.map(puzzleOf).join('')}</puzzleset>`;
const [SOUND, OTHER, DAMAGED] = [['X.', '.X'], ['XX', 'X.'], ['Y.', '.X']];

test('of a set, a damaged puzzle is told in its place, and the others are read', async () => {
  const shown = ({docs}) =>
      docs.map(({picture, fault}) => (fault ? /'Y'/.test(fault.message) : picture.join('/')));
  for (const [puzzles, wanted] of [
           [[SOUND, DAMAGED, OTHER], ['a./.a', true, 'aa/a.']],
           [[DAMAGED, SOUND], [true, 'a./.a']],
           [[SOUND, DAMAGED], ['a./.a', true]]]) {
    assert.deepEqual(shown(await docsOfUnit(unitOf({'a.xml': setOf(...puzzles)}))), wanted);
  }
  // That a puzzle is damaged does not tell for which one the givens are.
  const {docs, left} =
      await docsOfUnit(unitOf({'a.xml': setOf(SOUND, DAMAGED), 'a.xml.givens': 'given 1 1\n'}));
  assert.deepEqual([givensOf(docs[0]), left.map(({name}) => name)], [[], ['a.xml.givens']]);
  await refused({'a.xml': setOf(DAMAGED)}, /'Y'/);
  const {docs: kept, unread, why} = await readArchive(writeZip([
    {name: 'x/set.xml', bytes: bytesOf(setOf(DAMAGED, SOUND, OTHER))},
    {name: 'x/set.xml.givens', bytes: bytesOf('given 1 1\n')}
  ]));
  assert.deepEqual(
      [kept.map(({name, doc}) => [name, doc.picture.join('/'), givensOf(doc)]), unread],
      [[['set 2', 'a./.a', []], ['set 3', 'aa/a.', []]], ['x/set.xml', 'x/set.xml.givens']]
  );
  assert.match(why, /'Y'/);
});

test('a search for the picture of clues ends after its time, and its engine with it', async () => {
  let stop;
  const engine = {
    open: () => new Promise((resolve, reject) => {
      stop = reject;
    }),
    end: (text) => stop({text})
  };
  await assert.rejects(docOfNon('width 1', {}, engine, 1), {text: 'stopped'});
});

// Clues without a solution: one black cell.
const lineOf = (type) => `<clues type="${type}"><line><count>1</count></line></clues>`;
const CLUES = `<puzzle><color name="black" char="X">000</color>${lineOf('columns')}${
    lineOf('rows')}</puzzle>`;
const cluesOf = (count) => `<puzzleset>${CLUES.repeat(count)}</puzzleset>`;

/**
 * What comes of units while each engine that is begun answers that there is no picture: their
 * names with the faults, and the engines.
 */
async function searched(work) {
  const begun = [];
  globalThis.Worker = class {
    constructor() {
      begun.push(this);
    }
    postMessage({id, call}) {
      setImmediate(() => this.onmessage?.({
        data: call === 'load' ? {id, ok: true} :
                                {id, fault: {kind: 'picture', text: 'no picture has these clues'}}
      }));
    }
    terminate() {
      this.onmessage = null;
    }
  };
  try {
    return {found: await work(begun), begun};
  } finally {
    delete globalThis.Worker;
  }
}

// A user who stops once so many engines were begun.
const stopping = (begun, most) =>
    ({goesOn: async () => begun.length < most, held: (engine) => engine});

test(
    'where the user stops, no puzzle of the file or archive is searched for any more',
    async () => {
      const units = grouped([
        fileOf('a.xml', cluesOf(30)),
        fileOf('b.non', 'width 1\nheight 1\nrows\n1\ncolumns\n1\n')
      ]);
      const table = await searched(async (begun) => {
        const found = [];
        for await (const {name, fault} of puzzlesIn(units, stopping(begun, 3), async () => null))
          found.push([name, fault.text]);
        return found;
      });
      assert.deepEqual(
          [table.found.map(([name]) => name), table.begun.length], [['a', 'a 2', 'a 3'], 3]
      );
      assert.equal(table.found[0][1], 'no picture has these clues');
      const zip = writeZip(
          [{name: 'a.xml', bytes: bytesOf(cluesOf(30))}, {name: 'b.ppm', bytes: bytesOf(AMBIGUOUS)}]
      );
      const archive = await searched((begun) => readArchive(zip, stopping(begun, 4)));
      assert.deepEqual(
          [archive.found.docs, archive.found.unread, archive.begun.length], [[], ['a.xml'], 4]
      );
    }
);

test('2,000 pictures of clues are searched for at the most', {skip: long}, async () => {
  const most = {goesOn: async () => true, held: (engine) => engine};
  const files = [
    fileOf('a.xml', cluesOf(1500)),
    fileOf('b.ppm', AMBIGUOUS),
    fileOf('c.xml', cluesOf(600)),
    fileOf('d.ppm', AMBIGUOUS)
  ];
  const {found, begun} = await searched(async () => {
    const rows = [];
    for await (const {name, fault} of puzzlesIn(grouped(files), most, async () => null))
      rows.push([name, fault?.message]);
    return rows;
  });
  assert.deepEqual(
      [begun.length, found.length, found[1500], found[1501][0], found[1999][0]],
      [1999, 2002, ['b', undefined], 'c', 'c 499']
  );
  for (const [at, name] of [[2000, 'c'], [2001, 'd']])
    assert.deepEqual(found[at], [name, 'more than 2,000 puzzles: the others are left out']);
  // An archive, which may have more pictures than a table, is bounded by its searches alone.
  const zip = writeZip(
      [{name: 'a.xml', bytes: bytesOf(cluesOf(2001))}, {name: 'b.ppm', bytes: bytesOf(AMBIGUOUS)}]
  );
  const archive = await searched(() => readArchive(zip));
  assert.deepEqual(
      [archive.begun.length, archive.found.docs.map(({name}) => name), archive.found.unread],
      [2000, ['b'], ['a.xml']]
  );
});

test(
    'the examples, as they are published',
    {skip: needsModule.skip || waits('0.8.0')},
    async () => {
      const judge = new Judge({seconds: 20, start: () => new Client(workers()())});
      const verdict = async (...names) =>
          (await judge.judge(await docOf(
               Object.fromEntries(names.map((name) => [name, read(`examples/${name}`)]))
           ))).verdict;
      assert.equal(await verdict('given.ppm'), 'ambiguous');
      assert.equal(await verdict('given.ppm', 'given.ppm.givens', 'given.ppm.cert'), 'unique');
      judge.end();
    }
);

test(
    'a background that no cell has is a flaw, whatever tells it',
    {skip: needsModule.skip || waits('0.8.0')},
    async () => {
      const judge = new Judge({seconds: 20, start: () => new Client(workers()())});
      const flaws = async (files) =>
          (await judge.judge(await docOf(files))).flaws.map(({kind}) => kind);
      const [red, xml] = [
        'P3 2 1 255 200 0 0 200 0 0',
        '<puzzle><color name="red" char="r">c80000</color><solution><image>|rr|</image></solution></puzzle>'
      ];
      for (const [text, wanted] of [['255,255,255', ['background']], ['200,0,0', ['blank']]]) {
        assert.deepEqual(
            await flaws({'a.ppm': red, 'a.ppm.background': text, 'a.ppm.givens': ''}), wanted
        );
      }
      const white = 'P3 2 1 9 9 9 9 0 0 0';
      for (const [files, wanted] of [
               [{'a.ppm': white, 'a.ppm.background': '9,9,9'}, []],
               [{'a.ppm': white, 'a.ppm.background': 'white'}, []],
               [
                 {'a.ppm': ppmTextOf(await docOf({'a.xml': xml})), 'a.ppm.background': 'white'},
                 ['background']
               ],
               [{'a.xml': xml, 'a.xml.background': '255,255,255'}, ['background']]]) {
        assert.deepEqual(await flaws(files), wanted);
      }
      const image = {width: 1, height: 1, data: Uint8ClampedArray.of(200, 0, 0, 255)};
      const imageDocs =
          async (file, bytes, ground) => [docByItself(image, await ground(image, 255))];
      const {docs} =
          await docsOfUnit(unitOf({'a.png': '', 'a.png.background': '255,255,255'}), imageDocs);
      assert.deepEqual((await judge.judge(docs[0])).flaws, [{kind: 'background', place: []}]);
      judge.end();
    }
);

// An entry of a folder, as a browser has it: a text is a file, anything else a folder.
function entryOf(name, content) {
  if (typeof content === 'string')
    return {name, isFile: true, isDirectory: false, file: (take) => take(fileOf(name, content))};
  const entries = Object.entries(content).map(([one, inside]) => entryOf(one, inside));
  return {
    name,
    isFile: false,
    isDirectory: true,
    createReader: () => ({readEntries: (take) => take(entries.splice(0, 2))})
  };
}

test('folders: the files of one do not go with those of another', async () => {
  const tree = {
    b: {'a.ppm': AMBIGUOUS, 'a.ppm.givens': 'given 1 1\n', '.hidden.ppm': AMBIGUOUS},
    c: {'a.ppm': AMBIGUOUS},
    d: {'a.ppm.givens': 'given 2 2\n', 'b.cert': ''},
    '.git': {'x.ppm': AMBIGUOUS},
    'z.ppm': AMBIGUOUS
  };
  const units = await unitsIn(
      [
        entryOf('one', tree),
        null,
        entryOf('one', {'a.ppm': AMBIGUOUS, 'a.ppm.givens': 'given 1 2\n'}),
        null
      ],
      [null, fileOf('a.ppm', AMBIGUOUS), null, fileOf('.no.ppm')]
  );
  const shown = await Promise.all(units.map(
      async (unit
      ) => [unit.file.name, unit.fault ? 'alone' : givensOf((await docsOfUnit(unit)).docs[0])]
  ));
  assert.deepEqual(shown, [
    ['a.ppm', []],
    ['a.ppm', [0]],
    ['a.ppm', []],
    ['a.ppm.givens', 'alone'],
    ['b.cert', 'alone'],
    ['z.ppm', []],
    ['a.ppm', [1]]
  ]);
});

test('folders: their files in the order of names, each with the background beside it', async () => {
  const units = await unitsIn(
      [entryOf(
          'one',
          {'b.ppm': AMBIGUOUS, 'a.ppm.background': '0,0,0', 'c.ppm': AMBIGUOUS, 'a.ppm': AMBIGUOUS}
      )],
      [null]
  );
  const shown = await Promise.all(units.map(
      async (unit) => [unit.file.name, (await docsOfUnit(unit)).docs[0].colours[0].join()]
  ));
  assert.deepEqual(shown, [['a.ppm', '0,0,0'], ['b.ppm', '255,255,255'], ['c.ppm', '255,255,255']]);
});

test('a folder that is called as a file beside a picture is a folder like any other', async () => {
  const units = await unitsIn(
      [entryOf('one', {
        'a.ppm.givens': {'b.ppm': AMBIGUOUS},
        'a.ppm': AMBIGUOUS,
        'b.ppm': {'c.ppm': AMBIGUOUS},
        'b.ppm.cert': ''
      })],
      [null]
  );
  assert.deepEqual(units.map(({file, givens, fault}) => [file.name, givens, Boolean(fault)]), [
    ['a.ppm', undefined, false],
    ['b.ppm', undefined, false],
    ['c.ppm', undefined, false],
    ['b.ppm.cert', undefined, true]
  ]);
});

test('folders of many files: none is cut off from its picture', async () => {
  const many = Object.fromEntries(
      Array
          .from(
              {length: 2001},
              (_, at) => [[`${at}.ppm`, AMBIGUOUS], [`${at}.ppm.givens`, 'given 1 1\n']]
          )
          .flat()
  );
  const units = await unitsIn([entryOf('many', many)], [null]);
  assert.equal(units.length, 2000);
  assert.ok(units.every(({file, givens}) => givens.name === `${file.name}.givens`));
});

test(
    'a folder of 140,000 files, or with as many folders in it: 2,000 of them are looked at, and it can be stopped',
    {skip: long},
    async () => {
      let looked = 0;
      const folder = (name, entries) => ({
        name,
        isFile: false,
        isDirectory: true,
        createReader: () => ({
          readEntries: (take) => {
            looked++;
            take(entries.splice(0));
          }
        })
      });
      const several = (make) =>
          Array.from({length: 140000}, (_, at) => make(String(at).padStart(6, '0')));
      const files =
          await unitsIn([folder('files', several((at) => entryOf(`${at}.ppm`, '')))], [null]);
      assert.deepEqual([files.length, files[1999].file.name], [2000, '001999.ppm']);
      looked = 0;
      const folders = (most) => unitsIn(
          [
            folder('folders', several((at) => folder(at, at < most ? [entryOf('a.ppm', '')] : []))),
            folder('last', [entryOf('z.ppm', '')])
          ],
          [null]
      );
      assert.deepEqual(
          [(await folders(3)).map(({file}) => file.name), looked],
          [['a.ppm', 'a.ppm', 'a.ppm'], 2004]
      );  // what has files is asked twice
      looked = 0;
      let turns = 0;
      const texts = [];
      const stopped = await unitsIn(
          [folder('folders', several((at) => folder(at, [entryOf('a.ppm', '')])))],
          [null],
          {goesOn: async (text) => texts.push(text) && ++turns < 100}
      );
      assert.ok(
          stopped.length < 34 && looked < 100 && texts[90] === `${stopped.length - 3} files`,
          `${stopped.length} ${looked} ${texts[90]}`
      );
    }
);

test('the zip for a puzzle site, dropped again', async () => {
  const entry = (name, text) => ({name, bytes: bytesOf(text)});
  const pair = [
    entry('x/a.ppm', AMBIGUOUS),
    entry('x/a.ppm.cert', 'nonocert 1\n'),
    entry('x/a.ppm.txt', 'unique\n')
  ];
  const zipped = async (...files) => {
    const {docs, unread, why} = await readArchive(writeZip(files));
    return [docs.map(({name, doc}) => [name, givensOf(doc), doc.colours[0].join()]), unread, why];
  };
  assert.deepEqual(
      await zipped(
          ...pair,
          entry('x/a.ppm.givens', 'given 1 1\n'),
          entry('x/a.ppm.background', '0,0,0\n'),
          entry('y/a.ppm', AMBIGUOUS)
      ),
      [[['a', [0], '0,0,0'], ['a', [], '255,255,255']], [], '']
  );
  assert.deepEqual(await zipped(...pair, entry('y/a.ppm.givens', 'given 1 1\n')), [
    [['a', [], '255,255,255']],
    ['y/a.ppm.givens'],
    'no picture here goes with it: rename it to its picture’s name plus .givens, such as heart.ppm.givens'
  ]);
  assert.deepEqual(
      await zipped(...pair, entry('x/a.ppm.givens', '')), [[['a', [], '255,255,255']], [], '']
  );
  const [docs, unread, why] = await zipped(...pair, entry('x/a.ppm.givens', 'given 9 9\n'));
  assert.deepEqual([docs, unread], [[], ['x/a.ppm']]);
  assert.match(why, /“a\.ppm\.givens” could not be read: row 9, column 9 is outside/);
});

test('in an archive, what lies in another folder does not go with a picture', async () => {
  const entry = (name, text) => ({name, bytes: bytesOf(text)});
  const {docs, unread} = await readArchive(writeZip([
    entry('x/y/a.ppm', AMBIGUOUS),
    entry('x/z/a.ppm.givens', 'given 1 1\n'),
    entry('x/z/b.ppm', AMBIGUOUS)
  ]));
  assert.deepEqual(
      [docs.map(({name, doc}) => [name, givensOf(doc)]), unread],
      [[['a', []], ['b', []]], ['x/z/a.ppm.givens']]
  );
});

test('in an archive, names that are no UTF-8 stay apart', async () => {
  const zip = writeZip([
    {name: '~.ppm', bytes: bytesOf(AMBIGUOUS)},
    {name: '#.ppm.givens', bytes: bytesOf('given 1 1\n')}
  ]);
  const {docs, unread} =
      await readArchive(zip.map((byte) => ({0x7e: 0x84, 0x23: 0x94})[byte] ?? byte));
  assert.deepEqual([docs.map(({doc}) => givensOf(doc)), unread.length], [[[]], 1]);
});

test(
    'an archive that unpacks to more than 512 MiB is refused before anything is unpacked',
    async () => {
      const zip = writeZip(
          Array.from({length: 40}, (_, at) => ({name: `${at}.xml`, bytes: bytesOf('<puzzle/>')}))
      );
      const view = new DataView(zip.buffer, zip.byteOffset);
      for (let at = 0; at < zip.length - 4; at++)
        if (view.getUint32(at, true) === 0x02014b50) view.setUint32(at + 24, 2 ** 24, true);
      await assert.rejects(readArchive(zip), /too large/);
    }
);

test(
    'each file of an archive is unpacked by itself: one that is damaged leaves the others, and none is unpacked before its turn',
    async () => {
      const zip = writeZip(['a.ppm', 'b.ppm'].map((name) => ({name, bytes: bytesOf(AMBIGUOUS)})));
      zip[Buffer.from(zip).lastIndexOf('P3')] ^= 85;
      const {docs, unread, why} = await readArchive(zip);
      assert.deepEqual([docs.map(({name}) => name), unread], [['a'], ['b.ppm']]);
      assert.match(why, /damaged/);
      let turns = 0;
      const before = await readArchive(zip, {goesOn: async () => ++turns < 2});
      assert.deepEqual([before.docs.length, before.unread], [1, []]);
    }
);

test('a zip by another program: extra fields, flags, and what is not read', async () => {
  // By Info-ZIP 3.0: ä.ppm, deflated. Its extra field has 28 bytes before the content, and 24 in
  // the directory.
  const other =
      'UEsDBBQAAAAIANghfF15yLgBGgAAAC8AAAAGABwAw6QucHBtVVQJAAM4VQprOFUKa3V4CwABBAAAAAAEAAAAAAsw5jJSMOIyMjXlMlAAQSALhrmQ2GA5Ay4AUEsBAh4DFAAAAAgA2CF8XXnIuAEaAAAALwAAAAYAGAAAAAAAAQAAAKSBAAAAAMOkLnBwbVVUBQADOFUKa3V4CwABBAAAAAAEAAAAAFBLBQYAAAAAAQABAEwAAABaAAAAAAA=';
  assert.deepEqual(
      (await readArchive(bytesFrom(other))
      ).docs.map(({name, doc}) => [name, doc.picture.join('/')]),
      [['ä', 'a./.a']]
  );
  const own = writeZip([{name: 'ä.ppm', bytes: bytesOf(AMBIGUOUS)}]);
  const directory = Buffer.from(own).indexOf('PK\u0001\u0002');
  assert.deepEqual(
      [own[6] | own[7] << 8, own[directory + 8] | own[directory + 9] << 8],
      [0x800, 0x800],
      'names are UTF-8'
  );
  // What is encrypted, packed in another way, or above 16 MiB is there, but not read.
  for (const [at, value] of [[8, 1], [10, 12], [27, 1]]) {
    const changed = own.slice();
    changed[directory + at] = value;
    assert.deepEqual(
        (await readZip(changed)).map(({name, bytes}) => [name, bytes]), [['ä.ppm', null]], `${at}`
    );
  }
});

// An image of rows of signs, each `by` pixels a side; '-' is transparent.
const COLOURS = {
  w: [255, 255, 255],
  k: [0, 0, 0],
  r: [200, 30, 50],
  b: [40, 90, 200],
  ...Object.fromEntries(
      [...'ABCDEFGHIJKLMNOPQ'].map((sign, at) => [sign, [15 * at, 255 - 15 * at, 100]])
  )
};
function imageOf(rows, by = 1) {
  const [width, height] = [rows[0].length * by, rows.length * by];
  const data = new Uint8ClampedArray(width * height * 4);
  for (let at = 0; at < width * height; at++) {
    const sign = rows[Math.floor(at / width / by)][Math.floor((at % width) / by)];
    data.set(sign === '-' ? [0, 0, 0, 0] : [...COLOURS[sign], 255], at * 4);
  }
  return {width, height, data};
}
const made = (rows, by, background) => {
  const doc = docByItself(imageOf(rows, by), background);
  return doc && [doc.picture, doc.colours.map((triple) => triple.join(' '))];
};
const [WHITE, BLACK, CRIMSON, BLUE] = ['255 255 255', '0 0 0', '200 30 50', '40 90 200'];

test('an image without the dialog: pixel by pixel where that goes, else dot by dot', () => {
  const rows = ['kw', 'wk', 'rr'];
  const wanted = [['a.', '.a', 'bb'], [WHITE, BLACK, CRIMSON]];
  assert.deepEqual(made(rows, 1), wanted);
  assert.deepEqual(made(rows, 61), wanted);  // 122 by 183 pixels
  assert.deepEqual(
      [1, 61].map((by) => docByItself(imageOf(rows, by)).isMade ?? false),
      [false, true],
      'a file has the first one as it is'
  );
  assert.deepEqual(
      made(rows, 2), [['aa..', 'aa..', '..aa', '..aa', 'bbbb', 'bbbb'], wanted[1]]
  );  // it opens pixel by pixel
  assert.deepEqual(made(['-k', 'k-'], 100), [['.a', 'a.'], [WHITE, BLACK]]);
  assert.equal(made(rows.map((row) => row.repeat(61)), 1), null);  // 122 dots
  assert.equal(made(['k'], 200), null);                            // one dot
  const photo = imageOf(rows, 61);
  photo.data[0] = 1;
  assert.equal(docByItself(photo), null);
});

test('enlarged pixel art without white: as the dialog proposes it', () => {
  const rows = ['bbb', 'brb', 'bbb'];
  assert.deepEqual(
      made(rows, 50), [['...', '.a.', '...'], [BLUE, CRIMSON]]
  );  // what most of the border has is background
  assert.deepEqual(made(rows, 2), [['...', '.a.', '...'], [BLUE, CRIMSON]]);
  assert.equal(made(rows, 1), null);  // that is no enlarged one
  assert.deepEqual(made(rows, 50, [200, 30, 50]), [['aaa', 'a.a', 'aaa'], [CRIMSON, BLUE]]);
  assert.deepEqual(
      made(['-w', 'w-'], 100), [['.a', 'a.'], ['224 224 224', WHITE]]
  );  // white is a colour beside what is transparent
  assert.equal(made(['-w', 'wk'], 100, [255, 255, 255]), null);  // as for nonobench-audit
});

test(
    'enlarged pixel art of many colours has as many as the dialog proposes, and tells how many there were',
    () => {
      const rows = ['ABCDEF', 'GHIJKL', 'MNOPQA'];
      const image = imageOf(rows, 30);
      const doc = docByItself(image);
      assert.deepEqual([doc.rows, doc.columns, doc.all], [3, 6, 17]);
      assert.ok(doc.colours.length <= proposalFor(image).colours && doc.colours.length <= 16);
      assert.equal(docByItself(image, [255, 255, 255]), null);  // 18 colours with that background
      const few = imageOf(rows.map((row) => row.replace('Q', 'A')), 30);
      assert.deepEqual([docByItself(few).all, docByItself(few).colours.length], [16, 16]);
    }
);

// Elements as far as a dialog asks for them; answers all that are made.
function elements() {
  globalThis.ImageData = class {};
  const [made, pen] = [[], {putImageData() {}, drawImage() {}, strokeRect() {}}];
  const element = {
    append() {},
    replaceChildren() {},
    setAttribute(name, value) {
      this[name] = value;
    },
    addEventListener(name, hear) {
      this[name] = hear;
    },
    getContext: () => pen
  };
  globalThis.document = {createElement: () => made[made.push({...element}) - 1]};
  return made;
}

test(
    'while the grid of a sheet is typed its sprites are counted, and no pixel is read again',
    () => {
      const made = elements();
      const {width, height, data} = imageOf(['kk--', 'kk--', '--k-', '--k-'], 6);
      let reads = 0;
      const cutting = new Cutting(
          {
            width,
            height,
            get data() {
              reads++;
              return data;
            }
          },
          {}
      );
      const texts = [cutting.count.textContent];
      const before = reads;
      for (const [name, value] of
               [['columns', '1'], ['rows', '1'], ['columns', '4'], ['rows', '4']]) {
        Object.assign(made.find(({id}) => id === `cut-${name}`), {value}).input();
        texts.push(cutting.count.textContent);
      }
      assert.deepEqual([reads - before, texts], [
        0,
        [
          '2 sprites of 12 by 12 pixels',
          '2 sprites of 24 by 12 pixels',
          '1 sprite of 24 by 24 pixels',
          '3 sprites of 6 by 24 pixels',
          '6 sprites of 6 by 6 pixels'
        ]
      ]);
    }
);

test(
    'the sprites of a sheet are cut one after the other, and no more than a table has rows',
    async () => {
      elements();
      const texts = [];
      const rows = async (count, most = Infinity) => rowsOfSprites(
          imageOf(['wwkw']), Array(count).fill({x: 2, y: 0, width: 2, height: 1}), 'sheet', {
            goesOn: async (text) => texts.push(text) <= most
          }
      );
      const all = await rows(2001);
      assert.deepEqual(
          [all.length, all[1999].name, all[1999].doc.picture, all[2000].doc],
          [2001, 'sheet 2000', ['a.'], null]
      );
      assert.match(all[2000].fault, /2,000/);
      assert.deepEqual(
          [(await rows(2000)).at(-1).name, texts.length, texts[1]],
          ['sheet 2000', 4000, '1 of 2,000']
      );
      texts.length = 0;
      assert.equal((await rows(9, 3)).length, 3, 'stopped');
    }
);

test('no text of a table is a formula of a spreadsheet', () => {
  for (const text
           of ['=1',
               '+1',
               '-1',
               '@A1',
               '\uff1d1',
               '\uff0b1',
               '\uff0d1',
               '\uff20A1',
               '\ufe661',
               '\ufe621',
               ' =1',
               '\t=1',
               '\r=1',
               '\u3000\uff1d1']) {
    assert.equal(valueText(text), `"'${text}"`);
  }
  for (const text of ['', '1', 'a=1', '\'=1', '\u22121'])
    assert.equal(valueText(text), `"${text}"`);
  assert.equal(valueText('="'), `"'="""`);
  assert.equal(valueText('b;=1;2; -3; "=4'), `"b;'=1;2;' -3;' ""=4"`);
});

test('an archive whose files lie over one another is damaged', () => {
  const one = writeZip([{name: 'a.ppm', bytes: new Uint8Array(1000)}]);
  const [at, end] = [new DataView(one.buffer).getUint32(one.length - 6, true), one.slice(-22)];
  for (const place of [8, 10]) new DataView(end.buffer).setUint16(place, 3, true);
  const thrice = Uint8Array.from(
      [...one.slice(0, at), ...[1, 2, 3].flatMap(() => [...one.slice(at, -22)]), ...end]
  );
  assert.equal(zipEntries(one).length, 1);
  assert.throws(() => zipEntries(thrice), /damaged/);
});

// Tests of the library: shelves that are full or refuse, records that are damaged or of the first
// version, cards, archives, and what a second tab is told. Run: node --test
// tests/page/page_keep.mjs
import assert from 'node:assert/strict';
import {test} from 'node:test';
import {needsModule, saidLine, workers} from '../../page/test/worker.mjs';
import {say} from '../../page/base/elements.js';
import {gradeName, verdictTitle} from '../../page/base/names.js';
import {cleanName, freeName} from '../../page/base/words.js';
import {baseOf} from '../../page/document/cover.js';
import {docOf, emptyDoc, packedDoc, sameDoc, unpackedDoc} from '../../page/document/document.js';
import {FileFault} from '../../page/document/limits.js';
import {bench} from '../../page/engine/bench.js';
import {Client} from '../../page/engine/client.js';
import {fragmentOf} from '../../page/formats/link.js';
import {webpbnText} from '../../page/formats/webpbn.js';
import {crcOf, writeZip} from '../../page/formats/zip.js';
import {readZip} from '../../page/test/zips.mjs';
import {allRecords, archiveOf, exportAll, readArchive} from '../../page/import/archives.js';
import {Row} from '../../page/import/rows.js';
import {keepAll} from '../../page/import/several.js';
import {keep} from '../../page/library/keep.js';
import {Keeper} from '../../page/library/keeper.js';
import {openDoc, openRecord} from '../../page/library/open.js';
import {cardOf, readCard, readRecord, recordOf, recordOfDoc} from '../../page/library/records.js';
import {claim, localShelf, memoryShelf, openShelf} from '../../page/library/shelf.js';
import {startLinked} from '../../page/start/linked.js';

class Full extends Error {
  name = 'QuotaExceededError';
}
// A browser's localStorage that takes so many signs and no more.
function storageOf(room) {
  const kept = new Map();
  const used = () => [...kept].reduce((sum, [key, value]) => sum + key.length + value.length, 0);
  return {
    get length() {
      return kept.size;
    },
    key: (at) => [...kept.keys()][at] ?? null,
    getItem: (key) => kept.get(key) ?? null,
    setItem(key, value) {
      const before = kept.get(key);
      kept.set(key, value);
      if (used() <= room) return;
      if (before === undefined)
        kept.delete(key);
      else
        kept.set(key, before);
      throw new Full('full');
    },
    removeItem: (key) => kept.delete(key),
  };
}

// A bench with strokes, as far as a record asks for them: the documents before the open one, and
// those that can be made again.
function benchOf(doc, before = [], after = [], more = {}) {
  const docs = [...before, doc, ...after];
  const strokes = docs.slice(1).map((to, at) => ({before: docs[at], after: to}));
  return {
    name: 'tree',
    isSaved: false,
    state: doc,
    past: strokes.slice(0, before.length),
    future: strokes.slice(before.length).reverse(),
    ...more
  };
}
const painted = (doc, place, letter = 'a') => ({
  ...doc,
  picture: doc.picture.map(
      (row,
       at) => [...row].map((one, col) => (at * doc.columns + col === place ? letter : one)).join('')
  )
});
const record = (id, when, more = {}) => ({...recordOf(benchOf(emptyDoc(3, 2)), id, when), ...more});
const json = (value) => JSON.parse(JSON.stringify(value));
const pause = (ms) => new Promise((go) => {
  setTimeout(go, ms);
});

test('a record holds the document and those that strokes lead to, back and forth', () => {
  const [one, two, other] = [
    emptyDoc(4, 3),
    painted(emptyDoc(4, 3), 0),
    {...emptyDoc(2, 2), about: {title: 'T'}, givens: new Set([1])}
  ];
  const three = {...painted(two, 5), locks: new Set([2])};
  const back = readRecord(json(recordOf(benchOf(three, [one, two], [other, one]), 'x', 7)));
  assert.deepEqual(
      [back.name, back.when, back.isSaved, back.strokes.past.length, back.strokes.future.length],
      ['tree', 7, false, 2, 2]
  );
  for (const [found, wanted] of [
           [back.doc, three],
           [back.strokes.past[0], one],
           [back.strokes.past[1], two],
           [back.strokes.future[0], other],
           [back.strokes.future[1], one]]) {
    assert.ok(sameDoc(found, wanted));
  }
});

test('of strokes that take much room the last ones are kept', () => {
  const docs = Array.from(
      {length: 40},
      (_, at) =>
          ({...emptyDoc(100, 100), picture: Array(100).fill((at % 2 ? 'a' : '.').repeat(100))})
  );
  const back = readRecord(json(recordOf(benchOf(docs.at(-1), docs.slice(0, -1)), 'x')));
  assert.ok(
      back.strokes.past.length > 10 && back.strokes.past.length < 39, `${back.strokes.past.length}`
  );
  assert.ok(sameDoc(back.strokes.past.at(-1), docs.at(-2)));
});

test(
    'what an XML puzzle had besides is left out where it is damaged, and the document is there',
    () => {
      const doc = packedDoc(emptyDoc(2, 1));
      const kept = (extras) => {
        const read = readRecord({id: 'a', version: 2, name: 'a', doc: {...doc, extras}}).doc;
        assert.equal(webpbnText(read).includes('<image>'), true);
        return read.extras;
      };
      const solution = {type: 'saved', image: '|.X|'};
      for (const extras
               of [{notes: 7},
                   {notes: [7]},
                   {set: {notes: 3}},
                   {goal: {notes: {length: 1}}},
                   {solutions: 5},
                   {solutions: [null]},
                   {solutions: [{...solution, notes: 5}]},
                   7])
        assert.equal(kept(extras), null);
      for (const extras of [{}, {goal: null, set: null, notes: null, solutions: null}, {
             notes: ['a'],
             set: {title: 'b', notes: ['c']},
             goal: {id: 'd', notes: []},
             solutions: [{...solution, notes: ['e']}]
           }])
        assert.deepEqual(kept(extras), extras);
    }
);

test('damaged records are none, and damaged strokes leave the document', () => {
  const good = json(recordOf(benchOf(painted(emptyDoc(3, 2), 0), [emptyDoc(3, 2)]), 'x'));
  assert.equal(readRecord(good).strokes.past.length, 1);
  const odd =
      readCard({...cardOf(good), verdict: 'constructor', grade: 'constructor', when: -Infinity});
  assert.deepEqual(
      [odd.when, gradeName(odd.grade), typeof verdictTitle(odd.verdict)],
      [0, 'constructor', 'string'],
      'a card with other words and no time is shown'
  );
  for (const wrong
           of [null,
               'x',
               {},
               {...good, version: 3},
               {...good, doc: {...good.doc, picture: ['z..', '...']}},
               {...good, doc: null},
               {...good, id: 3}])
    assert.equal(readRecord(wrong), null);
  for (const name of ['givens', 'locks']) {
    for (const list of [7, '', '0', {}, true, {length: 1, 0: 0}]) {
      const doc = {...good.doc, [name]: list};
      assert.equal(readRecord({...good, doc}), null);
      assert.throws(() => unpackedDoc(doc), FileFault, 'no TypeError');
      assert.deepEqual(readRecord({...good, past: [{[name]: list}]}).strokes.past, []);
    }
  }
  for (const past
           of [null, 'x', [{rows: [[9, '...']]}], [{rows: [[0, 'zzz']]}], [{whole: {}}], [null]]) {
    const read = readRecord({...good, past});
    assert.deepEqual([read.doc.picture, read.strokes.past], [['a..', '...'], []]);
  }
});

test(
    'a name that a stranger chose is one of a file in records, cards and archives, and no two are one',
    () => {
      const bad = [
        '../../up/and/away',
        '..',
        'a\\b\u0000\n\u0085c',
        'x.. .',
        '\u202egpp',
        `${'y'.repeat(79)}\u{1f408}z`,
        '\t',
        null
      ];
      const good = [
        '.. .. up and away',
        'picture',
        'a b   c',
        'x',
        'gpp',
        'y'.repeat(79),
        'picture',
        'null'
      ];
      const old = bad.map((name, at) => ({...record(`${at}`, at), name}));
      for (const names
               of [old.map((one) => readRecord(one).name),
                   old.map((one) => cardOf(one).name),
                   old.map((one) => readCard({...cardOf(one), name: one.name}).name)])
        assert.deepEqual(names, good);
      assert.deepEqual(
          bad.slice(0, -1).map((title) => recordOfDoc(emptyDoc(3, 2), title, true).name),
          good.slice(0, -1),
          'as a set of puzzles names them'
      );
      const taken = new Map();
      const names = [
        ['../a', '.. a'],
        ['/../a', '.. a 2'],
        ['.. A', '.. A 3'],
        ['e\u0301', 'e\u0301'],
        ['\u00e9', '\u00e9 2'],
        ['b 2', 'b 2'],
        ['b', 'b'],
        ['B', 'B 3'],
        ['b 2', 'b 2 2'],
        ['b', 'b 4']
      ];
      assert.deepEqual(
          names.map(([name]) => freeName(cleanName(name), taken)), names.map(([, free]) => free)
      );
    }
);

test('a record of the first version brings its picture and its texts', () => {
  const old = {
    version: 1,
    id: 'x',
    name: 'old',
    when: 5,
    isSaved: false,
    about: {title: 'T', author: ''},
    base: {text: 'P3 ..', lines: []},
    strokes: {past: [['paint 1 1 a']], future: []},
    now: {
      rows: 1,
      columns: 2,
      maxval: 255,
      colours: [[255, 255, 255], [0, 0, 0]],
      picture: ['a.'],
      givens: [0]
    }
  };
  const read = readRecord(old);
  assert.deepEqual(
      [read.name, read.doc.picture, [...read.doc.givens], read.doc.about, read.strokes],
      ['old', ['a.'], [0], {title: 'T'}, {past: [], future: []}]
  );
  assert.deepEqual(cardOf(old).doc.picture, ['a.']);
});

test('of records that wait the last one counts', async () => {
  const puts = [];
  const shelf = {
    ...memoryShelf(),
    putAll: async ([[, value]]) => {
      puts.push(value.when);
      await new Promise((go) => setTimeout(go, 5));
    }
  };
  const keeper = new Keeper(shelf, () => {});
  for (let at = 1; at <= 5; at++) keeper.note(() => ({record: record('x', at)}));
  assert.equal(keeper.isDone, false);
  await keeper.writing;
  assert.deepEqual([puts, keeper.isDone], [[1, 5], true]);
});

test(
    'what may rest is made a moment later, with the next that may not, or before its document goes',
    async (t) => {
      const made = [];
      const shelf = memoryShelf();
      const keeper = new Keeper(shelf, () => {});
      const note = (when, mayRest) => keeper.note(() => {
        made.push(when);
        return {record: record('x', when)};
      }, mayRest);
      note(1, true);
      const rested = note(2, true);
      assert.deepEqual([made, keeper.isDone], [[], false], 'a stroke does not wait for it');
      await rested;
      assert.deepEqual(
          [made, keeper.isDone, (await shelf.get('work:x')).when],
          [[2], true, 2],
          'of quick strokes the last one counts'
      );
      t.mock.timers.enable({apis: ['setTimeout']});  // a rest does not end by itself
      note(3, true);
      await note(4);
      t.mock.timers.reset();
      assert.deepEqual(
          [made, keeper.isDone], [[2, 4], true], 'one that may not rest ends the rest'
      );
      const last = note(5, true);
      keeper.hurry();
      assert.deepEqual(made, [2, 4, 5], 'made at once');
      await last;
      assert.equal((await shelf.get('work:x')).when, 5);
      keeper.hurry();
      assert.deepEqual(made, [2, 4, 5], 'nothing rests');
    }
);

test(
    'what waits behind a write that goes on is made before its document goes, and is written before what comes then',
    async () => {
      const shelf = memoryShelf();
      const puts = [];
      const slow = {
        ...shelf,
        putAll: async (entries) => {
          await pause(20);
          puts.push(entries[0][1].name);
          return shelf.putAll(entries);
        }
      };
      const keeper = new Keeper(slow, () => {});
      let open = 'one';
      const note = (id, name) =>
          keeper.note(() => (open === id ? {record: record(id, 1, {name})} : null));
      note('one', 'written');
      await pause(5);
      note('one', 'waits');
      keeper.hurry();
      open = 'two';
      await note('two', 'next');
      assert.deepEqual([puts, keeper.isDone], [['written', 'waits', 'next'], true]);
    }
);

test('a hundred pictures stay, whether they are in a file or not', async () => {
  const said = [];
  const keeper = new Keeper({...memoryShelf(), lasts: true}, (one) => said.push(one.kind));
  for (let at = 0; at < 100; at++)
    await keeper.put(
        record(`r${at}`, at, {isSaved: at % 2 === 0}), {verdict: 'unique', grade: '3 of 5'}
    );
  const cards = await keeper.cards();
  assert.deepEqual(
      [cards.length, cards[0].id, cards[0].verdict, cards[0].grade, new Set(said).size],
      [100, 'r99', 'unique', '3 of 5', 1]
  );
});

test('a full storage: it is told, and nothing that is kept goes', async () => {
  const said = [];
  const size =
      JSON.stringify(record('a', 1)).length + JSON.stringify(cardOf(record('a', 1))).length + 40;
  const keeper = new Keeper(
      localShelf(storageOf(Math.round(size * 2.5))), ({kind, why}) => said.push([kind, why])
  );
  await keeper.put(record('a', 1, {isSaved: true}));
  await keeper.put(record('b', 2));
  await keeper.put(record('c', 3));
  assert.deepEqual(said, [['kept', ''], ['kept', ''], ['failed', 'full']]);
  assert.deepEqual((await keeper.cards()).map((one) => one.id), ['b', 'a']);
  assert.equal((await keeper.record('a')).name, 'tree');
  await keeper.put({...record('a', 4), name: 'x'.repeat(size * 2)});
  assert.equal(
      (await keeper.record('a')).when, 1, 'the record before stays where the new one is refused'
  );
});

test('a shelf that refuses, and one that does not last, are told', async () => {
  const said = [];
  await new Keeper(
      {
        ...memoryShelf(),
        lasts: true,
        putAll: async () => {
          throw new Error('no');
        }
      },
      (one) => said.push([one.kind, one.why])
  ).put(record('a', 1));
  await new Keeper(memoryShelf(), (one) => said.push([one.kind, one.why])).put(record('a', 1));
  assert.deepEqual(said, [['failed', 'refused'], ['failed', 'none']]);
});

test('pictures are renamed, copied, taken away and brought back', async () => {
  const keeper = new Keeper(memoryShelf(), () => {});
  await keeper.put(
      recordOf(benchOf(painted(emptyDoc(3, 2), 0), [emptyDoc(3, 2)]), 'a', 1), {verdict: 'unique'}
  );
  await keeper.rename('a', 'leaf');
  const copy = await keeper.duplicate('a', 'leaf copy');
  assert.deepEqual(
      (await keeper.cards()).map(({name, verdict, isSaved}) => [name, verdict, isSaved]),
      [['leaf copy', 'unique', false], ['leaf', 'unique', false]]
  );
  assert.deepEqual(
      [(await keeper.record(copy)).strokes.past.length, (await keeper.record('a')).name],
      [1, 'leaf']
  );
  const gone = await keeper.drop('a');
  assert.deepEqual(
      [(await keeper.cards()).map((card) => card.id), await keeper.record('a')], [[copy], null]
  );
  await keeper.restore(gone);
  assert.equal((await keeper.record('a')).doc.picture[0], 'a..');
  assert.equal((await keeper.cards()).length, 2);
});

test('a name takes no stroke back that is kept meanwhile', async () => {
  const later = (shelf) => ({
    ...shelf,
    get: (key) => shelf.get(key).then((value) => new Promise((go) => {
                                        setTimeout(go, 5, value);
                                      }))
  });
  for (const shelf of [memoryShelf(), localShelf(storageOf(9000))]) {
    const keeper = new Keeper(later(shelf), () => {});
    await keeper.put(recordOf(benchOf(emptyDoc(3, 2)), 'a', 1));
    const named = keeper.rename('a', 'leaf');
    await keeper.put(recordOf(benchOf(painted(emptyDoc(3, 2), 0), [], [], {name: 'leaf'}), 'a', 2));
    await named;
    assert.deepEqual(
        [(await keeper.record('a')).name, (await keeper.record('a')).doc.picture[0]],
        ['leaf', 'a..']
    );
    await keeper.rename('gone', 'x');
    assert.equal((await keeper.cards()).length, 1, 'what another tab took away stays away');
  }
});

test('a card that is missing or damaged is made of its record', async () => {
  const keeper = new Keeper(memoryShelf(), () => {});
  await keeper.put(record('a', 1), {verdict: 'unique'});
  await keeper.put(record('b', 2));
  await keeper.shelf.drop('card:a');
  await keeper.shelf.put('card:b', {id: 'b', doc: {rows: 1e9}});
  await keeper.shelf.put('work:bad', {version: 2, id: 'bad', doc: null});
  assert.deepEqual(
      (await keeper.cards()).map(({id, verdict}) => [id, verdict]), [['b', null], ['a', null]]
  );
});

test('an archive of all, and back', needsModule, async () => {
  saidLine();
  const zipOf = (records) => archiveOf(records, [], () => new Client(workers()()));
  assert.equal(
      crcOf(new TextEncoder().encode('123456789')), 0xcbf43926
  );  // the check value of CRC-32
  const docs = [
    {
      ...painted(emptyDoc(3, 2), 1),
      about: {title: 'Tr\u00e4um <1>'},
      givens: new Set([4]),
      locks: new Set([1])
    },
    emptyDoc(2, 5)
  ];
  const records = [
    {name: 'leaf', doc: docs[0]},
    {name: 'Leaf', doc: docs[1]},
    {name: 'a/b: "c"', doc: docs[1]}
  ];
  const bytes = await zipOf(records);
  assert.deepEqual(
      (await readZip(bytes)).map((file) => file.name), ['leaf.xml', 'Leaf 2.xml', 'a b   c.xml']
  );
  const {docs: back, unread} = await readArchive(bytes);
  assert.deepEqual([back.map((one) => one.name), unread], [['leaf', 'Leaf 2', 'a b   c'], []]);
  assert.deepEqual(
      [
        back[0].doc.picture,
        back[0].doc.about.title,
        [...back[0].doc.givens],
        [...back[0].doc.locks]
      ],
      [docs[0].picture, 'Tr\u00e4um <1>', [4], [1]]
  );
  assert.deepEqual(bytes, await zipOf(records));
});

test('archives of others: what is no puzzle is left, what is damaged is refused', async () => {
  const text = (one) => new TextEncoder().encode(one);
  const bytes = writeZip([
    {name: 'x/', bytes: text('')},
    {name: 'x/one.ppm', bytes: text('P3 2 1 255 255 255 255 0 0 0')},
    {name: 'notes.txt', bytes: text('hello')},
    {name: 'bad.xml', bytes: text('<puzzle>')}
  ]);
  const {docs, unread} = await readArchive(bytes);
  assert.deepEqual(
      [docs.map((one) => [one.name, one.doc.picture]), unread],
      [[['one', ['.a']]], ['notes.txt', 'bad.xml']]
  );
  const found = (sign) => Buffer.from(bytes).indexOf(sign, 1);
  for (const at
           of [found('P3 2'), found('PK\u0001\u0002'), found('PK\u0003\u0004'), bytes.length - 22])
    await assert.rejects(
        readZip(bytes.map((byte, one) => (one === at ? byte ^ 85 : byte))), /damaged/
    );
  await assert.rejects(readZip(text('PK')), /damaged/);
});

test(
    'of pictures that have the same cells each record is read once, and is one picture of an archive',
    async () => {
      const reads = [];
      const shelf = memoryShelf();
      const keeper = new Keeper(
          {
            ...shelf,
            get: (key) => {
              reads.push(key);
              return shelf.get(key);
            }
          },
          () => {}
      );
      const named = (title) => ({...emptyDoc(3, 2), about: {title}});
      const docs = Array.from({length: 20}, (_, at) => named(`${at >> 1}`));  // each twice
      for (const [at, doc] of docs.entries()) await keeper.put(recordOf(benchOf(doc), `${at}`, at));
      const take = keeper.takerOf(await keeper.cards(), webpbnText);
      reads.length = 0;
      const found = [];
      for (const doc of [named('x'), painted(docs[0], 1), ...docs, docs[3]])
        found.push((await take(doc))?.id ?? '');
      assert.deepEqual(
          found, ['', '', ...docs.map((_, at) => `${at ^ 1}`), ''], 'of two the newer one is first'
      );
      assert.equal(reads.length, 20);
    }
);

test('which shelf is opened', async () => {
  const throws = {
    get() {
      throw new Error('forbidden');
    }
  };
  assert.equal(
      (await openShelf(Object.defineProperties({}, {indexedDB: throws, localStorage: throws}))
      ).lasts,
      false
  );
  assert.equal(
      (await openShelf({indexedDB: undefined, localStorage: storageOf(1000)})).lasts, true
  );
  const refusing = {
    open() {
      const request = {};
      setTimeout(() => request.onerror(), 1);
      return request;
    }
  };
  assert.equal((await openShelf({indexedDB: refusing, localStorage: storageOf(1000)})).lasts, true);
});

// A browser's database that has some values, as far as a shelf asks for it: `requests` are those to
// open it. It `refuses` what is put.
function databaseOf(kept, {requests = [], refuses = false} = {}) {
  const transaction = (from) => {
    if (from.isClosed) throw new Error('The database connection is closing.');
    let waiting = 0;
    const one = {error: new Full('full'), objectStore: () => store};
    const ends = () => setTimeout(() => {
      if (!waiting) (refuses ? one.onabort : one.oncomplete)?.();
    }, 1);
    const answered = (act) => {
      const request = {};
      waiting++;
      setTimeout(() => {
        request.result = act();
        waiting--;
        request.onsuccess?.();
        ends();
      }, 1);
      return request;
    };
    const store = {
      get: (key) => answered(() => kept.get(key)),
      put: (value, key) => refuses || kept.set(key, value),
      delete: (key) => kept.delete(key),
      getAllKeys: () => answered(() => [...kept.keys()])
    };
    ends();
    return one;
  };
  const result = () => ({
    isClosed: false,
    close() {
      this.isClosed = true;
    },
    transaction() {
      return transaction(this);
    }
  });
  return {
    requests,
    open() {
      requests.push({result: result()});
      return requests.at(-1);
    }
  };
}
const opening = (database) => ({
  open() {
    const request = database.open();
    setTimeout(() => request.onsuccess(), 1);
    return request;
  }
});
const kept = async (keeper) =>
    (await keeper.cards()).map(({id, name, when, verdict}) => [id, name, when, verdict]);
const entries = (...records) =>
    new Map(records.flatMap((one) => [[`work:${one.id}`, one], [`card:${one.id}`, cardOf(one)]]));

test('what was kept while the database did not open is in it at the next start', async () => {
  const localStorage = storageOf(1e5);
  const first = new Keeper(await openShelf({localStorage}), () => {});
  for (const [id, when] of [['a', 3], ['b', 2], ['c', 5], ['d', 1]])
    await first.put(record(id, when, {name: 'local'}), {verdict: 'unique'});
  localStorage.setItem('nonobench:work:bad', '{');
  const database = entries(record('a', 1), record('b', 4), record('c', 5));
  const wanted = [
    ['c', 'tree', 5, null],
    ['b', 'tree', 4, null],
    ['a', 'local', 3, 'unique'],
    ['b-2', 'local', 2, 'unique'],
    ['d', 'local', 1, 'unique']
  ];
  const refusing = new Keeper(
      await openShelf({localStorage, indexedDB: opening(databaseOf(database, {refuses: true}))}),
      () => {}
  );
  assert.deepEqual(
      [await kept(refusing), localStorage.length],
      [wanted.filter(([, name]) => name === 'tree').concat([['a', 'tree', 1, null]]), 9],
      'all of it or nothing'
  );
  for (let start = 0; start < 2; start++) {
    const keeper = new Keeper(
        await openShelf({localStorage, indexedDB: opening(databaseOf(database))}), () => {}
    );
    assert.deepEqual(
        [await kept(keeper), (await keeper.record('b-2')).id, localStorage.length],
        [wanted, 'b-2', 1],
        'the newer one stays, and nothing is lost'
    );
  }
});

test(
    'a database that opens late takes over what was kept until then, also in memory alone',
    async () => {
      for (const localStorage of [storageOf(1e5), null]) {
        const [database, requests, said] = [entries(record('a', 1)), [], []];
        const indexedDB = databaseOf(database, {requests});
        let moved = () => {};
        const isMoved = new Promise((go) => {
          moved = go;
        });
        const shelf = openShelf({localStorage, indexedDB}, moved);
        requests[0].onblocked();
        const keeper = new Keeper(await shelf, ({kind}) => said.push(kind));
        await keeper.put(record('b', 2));
        assert.deepEqual([await kept(keeper), database.size], [[['b', 'tree', 2, null]], 2]);
        requests[0].onsuccess();
        await pause(1);
        await Promise.all([keeper.put(record('b', 3)), keeper.put(record('c', 4)), isMoved]);
        assert.deepEqual(
            [await kept(keeper), database.size, localStorage?.length ?? 0],
            [[['c', 'tree', 4, null], ['b', 'tree', 3, null], ['a', 'tree', 1, null]], 6, 0]
        );
        assert.deepEqual(
            [said, keeper.shelf.lasts], [[localStorage ? 'kept' : 'failed', 'kept', 'kept'], true]
        );
      }
    }
);

test(
    'a database that is closed under the page is opened again at the next need, also where that fails at first',
    async () => {
      const [database, requests, said] = [entries(record('a', 1)), [], []];
      const indexedDB = opening(databaseOf(database, {requests}));
      const keeper =
          new Keeper(await openShelf({localStorage: null, indexedDB}), ({kind}) => said.push(kind));
      const connection = () => requests.at(-1).result;
      connection().onversionchange();
      assert.equal(connection().isClosed, true, 'for who wants to delete it');
      await Promise.all([keeper.put(record('b', 2)), keeper.put(record('c', 3))]);
      assert.deepEqual(
          [requests.length, said, (await kept(keeper)).map(([id]) => id)],
          [2, ['kept', 'kept'], ['c', 'b', 'a']]
      );
      connection().close();  // by the browser
      connection().onclose();
      const {open} = indexedDB;
      indexedDB.open = () => {
        const request = {};
        setTimeout(() => request.onerror(), 1);
        return request;
      };
      await keeper.put(record('d', 4));
      assert.deepEqual(
          [requests.length, said.at(-1), database.has('work:d')], [2, 'failed', false]
      );
      indexedDB.open = open;
      await keeper.put(record('d', 4));
      assert.deepEqual(
          [requests.length, said.at(-1), (await kept(keeper))[0][0]], [3, 'kept', 'd']
      );
    }
);

test(
    'a database that does not open again in the time for it is told, nothing waits for it, and what is kept goes there once it does',
    async () => {
      const [requests, said, line, plain] = [[], [], saidLine(), globalThis.setTimeout];
      let moved = 0;
      const opened = openShelf(
          {localStorage: null, indexedDB: databaseOf(entries(record('a', 1)), {requests})},
          () => {
            moved++;
          }
      );
      requests[0].onsuccess();
      const keeper = new Keeper(await opened, ({kind, why}) => said.push([kind, why]));
      requests[0].result.onversionchange();
      globalThis.setTimeout = (f, ms) => plain(f, ms > 5000 ? 5 : ms);
      const put = keeper.put(record('b', 2));
      await put;
      globalThis.setTimeout = plain;
      assert.deepEqual(said, [['failed', 'late']]);
      await Promise.all(
          [keeper.put(record('b', 3)), assert.rejects(keeper.cards(), {name: 'TimeoutError'})]
      );
      keep.said({kind: 'failed', why: 'late', record: record('b', 3)});
      assert.match(
          line.text, /^The browser’s storage does not open: your work is only in this tab/
      );
      assert.deepEqual([requests.length, moved], [2, 0]);
      requests[1].onsuccess();
      await pause(1);
      await keeper.put(record('b', 4));
      assert.deepEqual(
          [requests.length, moved, said.at(-1), (await kept(keeper)).map(([id]) => id)],
          [2, 1, ['kept', ''], ['b', 'a']]
      );
    }
);

// The browser's locks, as far as a claim asks for them.
function locks() {
  const locked = new Set();
  return {
    request(name, options, use) {
      if (locked.has(name)) return Promise.resolve(use(null));
      locked.add(name);
      return Promise.resolve(use({name})).finally(() => locked.delete(name));
    }
  };
}

test('a name is one tab\'s alone, by locks', async () => {
  const home = {navigator: {locks: locks()}};
  const free = await claim('x', home);
  assert.equal(typeof free, 'function');
  assert.equal(await claim('x', home), null);
  free();
  await new Promise((go) => setTimeout(go, 1));
  assert.equal(typeof await claim('x', home), 'function');
});

// A channel that delivers at once.
const channels = new Set();
class Channel {
  constructor(name) {
    this.name = name;
    channels.add(this);
  }

  postMessage(data) {
    for (const other of [...channels])
      if (other !== this && other.name === this.name) other.onmessage?.({data});
  }

  close() {
    channels.delete(this);
  }
}

test('and by a channel where there are no locks', async () => {
  const home = {navigator: {}, BroadcastChannel: Channel};
  const free = await claim('y', home);
  assert.equal(typeof free, 'function');
  assert.equal(await claim('y', home), null);
  free();
  const again = await claim('y', home);
  assert.equal(typeof again, 'function');
  again();
});

// ---- the open picture

const loaded = {...keep};

// An element that takes all that is done to it. A dialog is closed as soon as it is shown: what it
// asks is answered by Cancel.
function element() {
  const heard = {};
  const asked = () => {
    element.asked++;
    heard.close();
  };
  return {
    dataset: {},
    append() {},
    replaceChildren() {},
    setAttribute() {},
    remove() {},
    addEventListener: (type, f) => {
      heard[type] = f;
    },
    showModal: asked
  };
}

// The page with a library of some pictures, and an engine that takes `ms` to open each; the locks
// are those of all tabs.
async function pageOf(names, {
  ms = 5,
  home =
  {
    localStorage: storageOf(1e6)
  }
} = {}) {
  const [elements, opened] = [{}, []];
  globalThis.document = {
    getElementById: (id) => (elements[id] ??= element()),
    createElement: element
  };
  globalThis.HTMLInputElement = class {};
  const tabs = {locks: locks()};
  Object.defineProperty(globalThis, 'navigator', {value: tabs, configurable: true, writable: true});
  element.asked = 0;
  keep.end();
  Object.assign(keep, loaded);
  Object.assign(bench, {state: null, term: {}, past: [], future: [], savedDoc: null});
  bench.open = async (base, {name, isSaved}) => {
    await pause(ms);
    const doc = {...emptyDoc(3, 2), about: {title: name}};
    opened.push(name);
    Object.assign(bench, {
      state: {...doc, verdict: {word: 'unique'}},
      name,
      past: [],
      future: [],
      term: {},
      savedDoc: isSaved ? doc : null
    });
  };
  keep.ready(home);
  for (const id of names) await (await keep.opening).put(record(id, 1, {name: id, isSaved: true}));
  return {elements, opened, tabs};
}

// What the shelf has: of each record its id, its name, and the title of its picture.
const shelved = async () =>
    Promise.all((await keep.keeper.cards()).map(({id}) => keep.keeper.record(id)));
const titles = async () =>
    (await shelved()).map(({id, name, doc}) => [id, name, doc.about.title ?? '']).sort();

test(
    'pictures that are opened at once are opened one after the other, and each stays what it is',
    async () => {
      const {opened, tabs} = await pageOf(['a', 'b']);
      assert.deepEqual(
          await Promise.all([openRecord('a'), openRecord('a'), openRecord('b'), openRecord('b')]),
          [true, true, true, true]
      );
      await keep.keeper.writing;
      assert.deepEqual(
          [opened, keep.id, bench.name], [['a', 'b'], 'b', 'b'], 'a second click opens nothing'
      );
      assert.deepEqual(await titles(), [['a', 'a', 'a'], ['b', 'b', 'b']]);
      assert.deepEqual(
          [typeof await claim('a', {navigator: tabs}), await claim('b', {navigator: tabs})],
          ['function', null],
          'a is given back'
      );
    }
);

test(
    'what is overtaken while its name is asked for is not begun, and its name is given back',
    async () => {
      const {tabs} = await pageOf(['a']);
      const {request} = tabs.locks;
      tabs.locks.request = async (...words) => {
        await pause(10);
        return request(...words);
      };
      await bench.open({}, {name: 'a', isSaved: true});
      const begun = keep.begin('a');
      await bench.open({}, {name: 'other', isSaved: true});
      await begun;
      await keep.keeper.writing;
      assert.deepEqual([keep.id, await titles()], [null, [['a', 'a', '']]]);
      await pause(1);
      assert.equal(typeof await claim('a', {navigator: tabs}), 'function');
    }
);

test(
    'what is open before the database is kept once that is open, and is not said to be kept before',
    async () => {
      const late = {
        open() {
          const request = {};
          setTimeout(() => request.onerror(), 60);
          return request;
        }
      };
      const {elements, opened} =
          await pageOf([], {home: {indexedDB: late, localStorage: storageOf(1e6)}});
      await openDoc(emptyDoc(3, 2), {name: 'a', isSaved: false});
      assert.deepEqual([keep.keeper, elements.title.textContent], [null, 'a \u00b7 not kept']);
      assert.equal(await openDoc(emptyDoc(3, 2), {name: 'b'}), false);
      assert.deepEqual([element.asked, opened], [1, ['a']], 'it would be lost');
      await keep.opening;
      await keep.keeper.writing;
      assert.deepEqual([keep.isKept, (await shelved()).map(({name}) => name)], [true, ['a']]);
      assert.deepEqual([await openDoc(emptyDoc(3, 2), {name: 'b'}), element.asked], [true, 1]);
    }
);

test(
    'what another picture meets says nothing of the one at hand, whose first record is waited for',
    async () => {
      const {opened} = await pageOf([]);
      await openDoc(emptyDoc(3, 2), {name: 'a', isSaved: false});
      await openDoc(emptyDoc(3, 2), {name: 'b', isSaved: false});
      assert.deepEqual([opened, element.asked], [['a', 'b'], 0]);
      const {shelf} = keep.keeper;
      const full = {
        ...shelf,
        putAll: async () => {
          throw new Full('full');
        }
      };
      for (const [own, other, is] of [[shelf, full, true], [full, shelf, false]]) {
        keep.keeper.shelf = own;
        await keep.now();
        keep.keeper.shelf = other;
        await keep.keeper.put(record('c', 1));
        assert.equal(keep.isKept, is);
      }
    }
);

test(
    'what was said of a picture does not stand beside another one, and what was said of the storage does',
    async () => {
      const {elements} = await pageOf([]);
      const line = elements.said = {
        ...element(),
        text: '',
        replaceChildren: (text) => {
          line.text = text;
        }
      };
      const open = async (name) => {
        assert.equal(await openDoc(emptyDoc(3, 2), {name}), true);
        await keep.keeper.writing;
      };
      for (const more of [[], ['alarm'], ['alarm', {name: 'Fix it', run() {}}]]) {
        say('It proves that this picture is the only solution.', ...more);
        await open('a');
        assert.equal(line.text, '', `${more[0]}`);
      }
      assert.equal(
          await openDoc(emptyDoc(3, 2), {name: 'b', leave: () => say('of a')}) && line.text,
          '',
          'said while another one comes'
      );
      keep.keeper.shelf = {
        ...keep.keeper.shelf,
        putAll: async () => {
          throw new Full('full');
        }
      };
      await open('c');
      const full = /^The browser.s storage is full/;
      assert.match(line.text, full);
      await open('d');
      assert.match(line.text, full, 'it is full beside each picture');
      say('gone', '', {name: 'Undo', run() {}}, true);
      await open('e');
      assert.equal(line.text, 'gone', 'of the library');
      say('');
    }
);

test('what was repaired in a table, or made of an enlarged image, is in no file', async () => {
  await pageOf([]);
  globalThis.ImageData = class {};
  globalThis.document.createElement = () =>
      ({...element(), getContext: () => ({putImageData() {}, drawImage() {}})});
  const [kept, mended, made] = [{}, {}, {isMade: true}].map(
      (more, at) => new Row(['kept', 'mended', 'made'][at], {...emptyDoc(3, 2), ...more})
  );
  mended.word = 'ambiguous';
  assert.equal(
      await mended.mend(
          {mend: async (doc) => ({doc: painted(doc, 1), cells: 1})}, {judge: async () => null}
      ),
      true
  );
  assert.equal(mended.facts.verdict, null, 'not known until it is judged');
  await keepAll([kept, mended, made]);
  assert.deepEqual(
      (await shelved()).map(({name, isSaved}) => [name, isSaved]).sort(),
      [['kept', true], ['made', false], ['mended', false]]
  );
});

test('behind a link that does not open, the tab of a player shows no solution', async () => {
  const {elements} = await pageOf([]);
  const classes = new Set(['player']);
  const classList = {
    contains: (name) => classes.has(name),
    toggle: (name, is) => (is ? classes.add(name) : classes.delete(name)),
    remove: (name) => classes.delete(name)
  };
  Object.assign(globalThis.document, {body: {classList, style: {}}, querySelectorAll: () => []});
  elements.said = {
    ...element(),
    replaceChildren: (text) => {
      elements.said.textContent = text;
    }
  };
  elements['play-room'] = {open: true};
  bench.open = async () => {
    throw new Error('out of memory');
  };
  for (const [hash, text] of [
           ['#play=AAAA', /damaged/],
           [await fragmentOf(emptyDoc(3, 2), 'play'), /memory/],
           [await fragmentOf(emptyDoc(3, 2), 'edit'), /memory/]]) {
    Object.assign(globalThis, {location: {hash}, addEventListener() {}});
    await startLinked();
    assert.deepEqual(
        [[...classes], globalThis.document.body.style.visibility], [['player'], ''], hash
    );
    assert.match(elements['play-said'].textContent, text);
  }
});

test(
    'an archive has the open picture as it is seen, also where it is not kept, and a library that is closed is told',
    async () => {
      const {elements} = await pageOf(['a', 'b']);
      await openRecord('a');
      await keep.keeper.writing;
      const pictures = async () =>
          (await allRecords()).map(({name, doc}) => [name, doc.picture[0]]).sort();
      const {shelf} = keep.keeper;
      keep.keeper.shelf = {
        ...shelf,
        putAll: async () => {
          throw new Full('full');
        }
      };
      bench.state = {...painted(docOf(bench.state), 1), verdict: {word: 'unique'}};
      assert.deepEqual(await pictures(), [['a', '.a.'], ['b', '...']]);
      bench.saved(docOf(bench.state));
      await openDoc(emptyDoc(3, 2), {name: 'c'});
      assert.deepEqual(
          await pictures(),
          [['a', '...'], ['b', '...'], ['c', '...']],
          'and where the library has none of it'
      );
      await openDoc(emptyDoc(3, 2), {name: 'd', isBlank: true});
      assert.deepEqual(
          await pictures(), [['a', '...'], ['b', '...']], 'of a blank one there is nothing yet'
      );
      keep.keeper.shelf = {
        ...shelf,
        keys: async () => {
          throw new Error('closed');
        }
      };
      elements.said = {
        ...element(),
        replaceChildren: (text) => {
          elements.said.text = text;
        }
      };
      await exportAll();
      assert.match(elements.said.text, /refuses to store it/);
    }
);

test(
    'what another tab has open is not taken away, and what is brought back takes no place of a newer one',
    async () => {
      const {tabs} = await pageOf(['a']);
      const free = await claim('a', {navigator: tabs});
      assert.deepEqual([await keep.drop('a'), (await titles()).length], [null, 1]);
      free();
      await pause(1);
      const gone = await keep.drop('a');
      assert.deepEqual(await titles(), []);
      assert.equal(
          typeof await claim('a', {navigator: tabs}), 'function', 'its name is free again'
      );
      await keep.keeper.put(record('a', 2, {name: 'newer'}));
      await keep.keeper.restore(gone);
      assert.deepEqual(await titles(), [['a', 'newer', '']]);
    }
);

test('what is done to a picture that is gone, or is refused, is told', async () => {
  await pageOf(['a']);
  const line = saidLine();
  const saidAfter = async (act) => {
    line.text = '';
    await keep.tried(act);
    return line.text;
  };
  const {keeper} = keep;
  assert.equal(
      await saidAfter(() => keeper.duplicate('b', 'copy')),
      'This picture of the library is damaged or gone.'
  );
  const gone = await keep.drop('b');
  assert.equal(
      await saidAfter(() => keeper.restore(gone)), 'This picture of the library is damaged or gone.'
  );
  for (const [fault, text] of [
           [new Full('x'), 'The browser\u2019s storage is full.'],
           [new Error('x'), 'The browser refuses to store it.']]) {
    keeper.shelf = {
      ...keeper.shelf,
      change: async () => {
        throw fault;
      },
      drop: async () => {
        throw fault;
      }
    };
    for (const act
             of [() => keep.drop('a'),
                () => keeper.duplicate('a', 'copy'),
                () => keep.rename('a', 'b')])
      assert.equal(await saidAfter(act), text);
  }
  assert.deepEqual(await titles(), [['a', 'a', '']]);
});

// Tests of flat art that comes in: icons are drawn here, and which colours they have on how much
// area is counted from their shapes. Run: node --test tests/page/page_flat.mjs
import assert from 'node:assert/strict';
import {test} from 'node:test';
import '../../page/test/limits.mjs';
import {nameOf} from '../../page/document/names.js';
import {mergedNumbers, nearPairs} from '../../page/document/near.js';
import {docsFor, sizesFor} from '../../page/import/contacts.js';
import {countFlat} from '../../page/import/flat.js';
import {Maker} from '../../page/import/making.js';
import {docApart, proposalFor} from '../../page/import/proposing.js';
import {ICONS, drawn} from './page_icons.mjs';

const LEAST = 0.02;  // of the area of an icon
const ASKED = 6;
const keys = (triples) => triples.map((triple) => triple.join());
const cellsOf = (doc, triple) =>
    doc.picture.join('').split('.abcdefghijklmno'[keys(doc.colours).indexOf(triple.join())]
    ).length -
    1;
const made = (image, columns, options) => new Maker().doc(
    {image, box: {x: 0, y: 0, width: image.width, height: image.height}},
    [columns, Math.round((columns * image.height) / image.width)],
    options
);

test('there are 20 icons, each with at most six colours of some area', () => {
  assert.equal(Object.keys(ICONS).length, 20);
  for (const name of Object.keys(ICONS)) {
    const {shares} = drawn(name, 200);
    const wide = [...shares.values()].filter((share) => share >= LEAST);
    assert.ok(wide.length >= 3 && wide.length <= ASKED, `${name}: ${wide.length}`);
    assert.ok(Math.abs([...shares.values()].reduce((sum, one) => sum + one, 0) - 1) < 1e-9, name);
  }
});

for (const [side, sizes] of [[64, [20, 32]], [200, [20, 40]]]) {
  for (const columns of sizes) {
    test(
        `icons of ${side} pixels at ${ASKED} colours and ${
            columns} columns keep every colour of at least 2 % of the area`,
        () => {
          for (const name of Object.keys(ICONS)) {
            const {image, shares} = drawn(name, side);
            const doc = made(image, columns, {colours: ASKED});
            assert.ok(doc.colours.length <= ASKED, name);
            for (const [colour, share] of shares) {
              if (share < LEAST) continue;
              const triple = colour === 'clear' ? doc.colours[0] : colour.split(',').map(Number);
              assert.ok(
                  keys(doc.colours).includes(triple.join()),
                  `${name}: ${colour} with ${(share * 100).toFixed(1)} % is lost: ${
                      doc.colours.join(' ')}`
              );
              const cells = cellsOf(doc, triple) / (doc.rows * doc.columns);
              assert.ok(
                  cells >= share / 2,
                  `${name}: ${colour} with ${(share * 100).toFixed(1)} % has ${
                      (cells * 100).toFixed(1)} % of the cells`
              );
            }
          }
        }
    );
  }
}

test('what is transparent is a light background at any number of colours', () => {
  for (const name of Object.keys(ICONS)) {
    const {image, shares} = drawn(name, 120);
    if (!shares.has('clear')) continue;
    for (let colours = 2; colours <= 16; colours++) {
      const doc = made(image, 24, {colours});
      assert.ok(
          doc.colours[0].every((sample) => sample >= 160),
          `${name} at ${colours}: ${doc.colours[0]}`
      );
      assert.equal(doc.picture[0][0], '.', name);
      assert.ok(
          doc.colours.slice(1).every((triple) => triple.join() !== doc.colours[0].join()), name
      );
      const empty = cellsOf(doc, doc.colours[0]) / (doc.rows * doc.columns);
      assert.ok(Math.abs(empty - shares.get('clear')) < 0.05, `${name} at ${colours}: ${empty}`);
    }
  }
});

test('no colour of an edge is invented, however many colours are asked', () => {
  for (const name of Object.keys(ICONS)) {
    const {image, shares} = drawn(name, 200);
    const doc = made(image, 30, {colours: 16});
    const own =
        new Set([...shares.keys(), ...(shares.has('clear') ? [doc.colours[0].join()] : [])]);
    for (const triple of doc.colours)
      assert.ok(
          own.has(triple.join()), `${name}: ${triple} is no colour of it (${[...own].join(' ')})`
      );
  }
});

test('how many colours an icon has is proposed', () => {
  for (const name of Object.keys(ICONS)) {
    const {image, shares} = drawn(name, 200);
    const solid = 1 - (shares.get('clear') ?? 0);
    const withMore =
        (least) => [...shares]
                       .filter(([colour, share]) => colour !== 'clear' && share >= solid * least)
                       .length;
    const [least, most] = [withMore(LEAST), withMore(0.005)];
    const count = countFlat(image);
    assert.ok(count >= least && count <= most, `${name}: ${count}, not ${least} to ${most}`);
  }
});

// Bars of colours, each 20 pixels wide and 60 high.
function barsOf(triples) {
  const [width, height] = [triples.length * 20, 60];
  const data = Uint8ClampedArray.from(
      {length: width * height * 4},
      (_, at) => [...triples[Math.floor(((at >> 2) % width) / 20)], 255][at % 4]
  );
  return {width, height, data};
}
const proposed = (image) => {
  const proposal = proposalFor(image);
  const docOf = (colours) => made(image, proposal.columns, {...proposal, colours});
  return docApart(proposal.colours, docOf).doc;
};

test('what is proposed has no two colours that look alike', () => {
  // 3 * 10 < 64 <= 3 * 30: of greys the distance is three times the step.
  const doc = proposed(barsOf([
    [255, 255, 255],
    [40, 40, 40],
    [50, 50, 50],
    [200, 0, 0],
    [210, 0, 0],
    [0, 0, 200],
    [80, 80, 80]
  ]));
  assert.deepEqual(nearPairs(doc), []);
  assert.equal(doc.colours.length, 5, doc.colours.join(' '));
  const has = (...triples) =>
      triples.filter((triple) => keys(doc.colours).includes(triple.join())).length;
  assert.deepEqual(
      [
        has([255, 255, 255]),
        has([40, 40, 40], [50, 50, 50]),
        has([200, 0, 0], [210, 0, 0]),
        has([0, 0, 200]),
        has([80, 80, 80])
      ],
      [1, 1, 1, 1, 1]
  );
  const sixteen =
      proposed(barsOf(Array.from({length: 16}, (_, at) => [at * 10, at * 10, at * 10])));
  assert.deepEqual(nearPairs(sixteen), []);
  assert.ok(sixteen.colours.length >= 4, String(sixteen.colours.length));
  for (const name of Object.keys(ICONS))
    assert.deepEqual(nearPairs(proposed(drawn(name, 200).image)), [], name);
});

test('a contact sheet has each picture once, with no two colours that look alike', () => {
  const {image} = drawn('cherry', 200);
  const docs =
      docsFor([20, 20], (size, colours) => made(image, size[0], {colours})).map(({doc}) => doc);
  assert.ok(docs.length >= 3 && docs.length <= 5, String(docs.length));
  assert.equal(
      new Set(docs.map(({picture, colours}) => [...picture, ...colours].join())).size, docs.length
  );
  for (const doc of docs) assert.deepEqual(nearPairs(doc), []);
  assert.deepEqual(
      sizesFor({width: 200, height: 100}, [40, 20]),
      [[15, 8], [20, 10], [25, 13], [30, 15], [40, 20]]
  );
});

test('a contact sheet has each number of colours and each picture of a size once', () => {
  const [white, red, blue, black] = [[255, 255, 255], [200, 0, 0], [0, 0, 200], [0, 0, 0]];
  const plain = (picture, ...colours) =>
      ({rows: 1, columns: 4, maxval: 255, picture: [picture], colours: [white, ...colours]});
  // With 3 colours and with 4 there are 3; with 6 the cells of the first again, and a colour that
  // none has; with 12 all.
  const made = {
    2: plain('.aa.', red),
    3: plain('.ab.', red, blue),
    4: plain('.aab', red, blue),
    6: plain('.bb.', black, blue, red),
    8: plain('.aa.', blue),
    12: plain('abc.', red, blue, black)
  };
  assert.deepEqual(
      docsFor([4, 1], (size, colours) => made[colours]).map(({colours}) => colours), [2, 3, 12]
  );
});

test('of colours that look alike that one stays which most cells have', () => {
  const doc = {
    rows: 2,
    columns: 6,
    maxval: 255,
    colours: [[250, 250, 250], [0, 0, 0], [12, 12, 12], [200, 0, 0], [255, 255, 255]],
    picture: ['.bba..', 'bbcdc.']
  };
  assert.deepEqual(mergedNumbers(doc), [0, 2, 2, 3, 0]);
  assert.deepEqual(
      mergedNumbers({...doc, isClear: true}), [0, 2, 2, 3, 4], 'nothing becomes transparent'
  );
  assert.deepEqual(mergedNumbers({...doc, picture: ['.aaa..', 'bbcdcd']}), [0, 1, 1, 3, 0]);
});

test('greys that can be told apart are not all of one name', () => {
  const names = Array.from({length: 12}, (_, at) => nameOf(Array(3).fill(at * 22), 255));
  for (const name of names)
    assert.ok(names.filter((one) => one === name).length <= 3, names.join());
  assert.ok(new Set(names).size >= 6, names.join());
  assert.deepEqual(
      [
        nameOf([0, 0, 0], 255),
        nameOf([255, 255, 255], 255),
        nameOf([128, 128, 128], 255),
        nameOf([45, 45, 45], 255)
      ],
      ['black', 'white', 'grey', 'very dark grey']
  );
});

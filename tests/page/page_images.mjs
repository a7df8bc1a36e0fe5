// Tests of how the page makes few colours and cells of an image. Pictures are made by hand. Run:
// node --test tests/page/page_images.mjs
import assert from 'node:assert/strict';
import {test} from 'node:test';
import '../../page/test/limits.mjs';
import {oklabOf} from '../../page/document/colours.js';
import {dotSize, kindOfFile, scaledTo, sizeOfImage} from '../../page/import/images.js';
import {drawnOf} from '../../page/import/drawn.js';
import {readXml} from '../../page/formats/xml.js';
import {hasDocument, sizeOfSvg} from '../../page/import/drawing.js';
import {withoutMargin} from '../../page/import/proposing.js';
import {withoutSpecks, dithered} from '../../page/import/cells.js';
import {flatPalette, isFlat} from '../../page/import/flat.js';
import {photoPalette} from '../../page/import/photo.js';
import {docOfCells, groundFor, paletteFor} from '../../page/import/quantise.js';
import {drawnCells, thresholdFor, toned} from '../../page/import/tone.js';

// An image of rows of signs; '-' is transparent.
function imageOf(rows, colours) {
  const [width, height] = [rows[0].length, rows.length];
  const data = new Uint8ClampedArray(width * height * 4);
  [...rows.join('')].forEach(
      (sign, at) => data.set(sign === '-' ? [0, 0, 0, 0] : [...colours[sign], 255], at * 4)
  );
  return {width, height, data};
}
const COLOURS = {
  w: [255, 255, 255],
  k: [0, 0, 0],
  r: [200, 30, 50],
  g: [20, 150, 60],
  y: [250, 220, 40]
};
const whole = (image) => ({x: 0, y: 0, width: image.width, height: image.height});
const pixel = (image, at) => [...image.data.subarray(at * 4, at * 4 + 4)];

test('an image at its own size stays as it is', () => {
  const image = imageOf(['wkr', 'gy-'], COLOURS);
  for (const sharp of [false, true])
    assert.deepEqual(scaledTo(image, whole(image), 3, 2, sharp), image);
});

test('the light of each sample gives that sample back', () => {
  const image = {
    width: 16,
    height: 16,
    data: Uint8ClampedArray.from({length: 1024}, (_, at) => (at % 4 === 3 ? 255 : at >> 2))
  };
  assert.deepEqual(scaledTo(image, whole(image), 16, 16), image);
});

test('a mean is a mean of light', () => {
  const image = imageOf(['wk', 'kw'], COLOURS);
  assert.deepEqual(
      pixel(scaledTo(image, whole(image), 1, 1), 0), [188, 188, 188, 255]
  );  // half the light of white
  const clear = imageOf(['r-', 'r-'], COLOURS);
  assert.deepEqual(
      pixel(scaledTo(clear, whole(clear), 1, 1), 0), [200, 30, 50, 128]
  );  // what is transparent has no colour
});

test('parts of pixels count by how much of them falls on a cell', () => {
  const image = imageOf(['wwk'], COLOURS);
  // 1.5 pixels a cell: white; and a third white
  const scaled = scaledTo(image, whole(image), 2, 1);
  assert.deepEqual(pixel(scaled, 0), [255, 255, 255, 255]);
  assert.deepEqual(pixel(scaled, 1), [156, 156, 156, 255]);  // light 1/3
  assert.deepEqual(
      pixel(scaledTo(image, {x: 1, y: 0, width: 2, height: 1}, 4, 1), 3), [0, 0, 0, 255]
  );
});

test('a part of an image, sharp', () => {
  const image = imageOf(['wkr', 'gyk', 'rgw'], COLOURS);
  assert.deepEqual(
      scaledTo(image, {x: 1, y: 1, width: 2, height: 2}, 2, 2, true), imageOf(['yk', 'gw'], COLOURS)
  );
  assert.deepEqual(
      scaledTo(image, {x: 0, y: 0, width: 3, height: 3}, 1, 1, true), imageOf(['y'], COLOURS)
  );
});

test('the dots of enlarged pixel pictures', () => {
  const large = (rows, by) =>
      rows.flatMap((row) => Array(by).fill([...row].map((sign) => sign.repeat(by)).join('')));
  const rows = ['wkr', 'gy-'];
  for (const by of [1, 2, 5]) assert.equal(dotSize(imageOf(large(rows, by), COLOURS)), by);
  assert.equal(dotSize(imageOf(['wwkk', 'wwkk', 'wwkk', 'wwkr'], COLOURS)), 1);
  assert.equal(dotSize(imageOf(['wwkk', 'kkww'], COLOURS)), 1);  // rows of one pixel
});

test('sizes in the heads of files', () => {
  const bytes = (...parts) => Uint8Array.from([
    ...parts.flatMap(
        (part) => (typeof part === 'string' ? [...part].map((sign) => sign.charCodeAt(0)) : part)
    ),
    ...Array(30).fill(0)
  ]);
  assert.deepEqual(
      sizeOfImage(
          bytes('\u0089PNG\r\n\u001a\n', [0, 0, 0, 13], 'IHDR', [0, 0, 3, 1, 0, 1, 0, 2]), 'png'
      ),
      [769, 65538]
  );
  const gif = (flags, ...rest) => bytes('GIF89a', [1, 2, 3, 0, flags, 0, 0], ...rest);
  assert.deepEqual(sizeOfImage(gif(0, ',', [0, 0, 0, 0, 1, 0, 1, 0]), 'gif'), [513, 3]);
  const extensions = [0x21, 0xf9, 4, 0, 0, 0, 0, 0, 0x21, 0xfe, 2, 44, 44, 1, 44, 0];
  assert.deepEqual(
      sizeOfImage(gif(0x80, Array(6).fill(44), extensions, ',', [3, 0, 4, 0, 255, 1, 0, 1]), 'gif'),
      [514, 260]
  );
  assert.equal(sizeOfImage(gif(0, extensions), 'gif'), null);
  assert.deepEqual(
      sizeOfImage(
          bytes([0xff, 0xd8, 0xff, 0xe0, 0, 4, 9, 9, 0xff, 0xff, 0xc2, 0, 17, 8, 1, 0, 2, 1]),
          'jpeg'
      ),
      [513, 256]
  );
  assert.equal(sizeOfImage(bytes([0xff, 0xd8, 0xff, 0xe0, 0, 4, 9, 9, 1]), 'jpeg'), null);
  assert.equal(
      sizeOfImage(
          bytes([0xff, 0xd8, 0xff, 0xd0, 0, 4, 9, 9, 0xff, 0xc0, 0, 17, 8, 1, 0, 2, 1]), 'jpeg'
      ),
      null
  );
  assert.deepEqual(
      sizeOfImage(
          bytes('RIFF', [0, 0, 0, 0], 'WEBPVP8X', [10, 0, 0, 0, 0, 0, 0, 0, 255, 1, 0, 7, 0, 0]),
          'webp'
      ),
      [512, 8]
  );
  assert.deepEqual(
      sizeOfImage(
          bytes('RIFF', [0, 0, 0, 0], 'WEBPVP8L', [9, 0, 0, 0, 0x2f, 0xff, 0xc1, 0x01, 0]), 'webp'
      ),
      [512, 8]
  );
  const bmp = (...size) => bytes('BM', Array(12).fill(0), [40, 0, 0, 0], ...size);
  assert.deepEqual(
      [
        sizeOfImage(bmp([3, 1, 0, 0], [2, 0, 0, 0]), 'bmp'),
        sizeOfImage(bmp([3, 0, 0, 0], [254, 255, 255, 255]), 'bmp')
      ],
      [[259, 2], [3, 2]]
  );
  assert.deepEqual(
      sizeOfImage(bytes('BM', Array(12).fill(0), [12, 0, 0, 0, 9, 1, 7, 0]), 'bmp'), [265, 7]
  );
  const ispe = (wide, high) => ['ispe', [0, 0, 0, 0, 0, 0, 0, wide, 0, 0, 0, high]];
  const avif = (length, ...before) => bytes(
      [0, 0, 0, 28],
      'ftypavif',
      Array(16).fill(0),
      ...before,
      [0, 0, 0, length],
      'meta',
      [0, 0, 0, 20],
      ...ispe(8, 4),
      [0, 0, 0, 20],
      ...ispe(90, 70)
  );
  assert.deepEqual(sizeOfImage(avif(48), 'avif'), [90, 70]);
  assert.deepEqual(
      sizeOfImage(avif(48, [0, 0, 0, 28], 'free', [0, 0, 0, 20], ...ispe(2, 2)), 'avif'), [90, 70]
  );
  assert.equal(sizeOfImage(avif(200), 'avif'), null);
  assert.equal(sizeOfImage(bytes([0, 0, 0, 28], 'ftypavif', Array(16).fill(0)), 'avif'), null);
  assert.equal(sizeOfImage(new Uint8Array(3), 'png'), null);
});

test('what a file is, by its bytes', () => {
  const kind = (text) => kindOfFile(Uint8Array.from(text, (sign) => sign.charCodeAt(0)));
  assert.deepEqual(
      [
        '<svg/>',
        '<?xml version="1.0"?>\n<!-- <puzzle> --><!DOCTYPE svg PUBLIC "-//W3C//DTD SVG 1.1//EN" "x" [<!ENTITY a "b">]>\n<svg:svg width="1">',
        '\u00ef\u00bb\u00bf <svg\nviewBox="0 0 1 1">'
      ].map(kind),
      ['svg', 'svg', 'svg']
  );
  assert.deepEqual(
      ['<puzzleset><svg/></puzzleset>', '<!-- <svg> --><puzzle>', '<svgs>'].map(kind),
      ['xml', 'xml', 'xml']
  );
  assert.equal(kind(`${'<!-- a -->'.repeat(800)}<puzzle>`), 'xml');
  assert.deepEqual(
      [
        '\u0000\u0000\u0000\u001cftypavif\u0000',
        '\u0000\u0000\u0000\u001cftypmif1\u0000\u0000\u0000\u0000avifmif1',
        '\u0000\u0000\u0000\u0018ftypheic\u0000',
        '\u0000\u0000\u0000\u0018ftypisom\u0000'
      ].map(kind),
      ['avif', 'avif', 'heic', null]
  );
  assert.deepEqual(
      ['II*\u0000\u0008', 'MM\u0000*\u0000', `BM${'\u0000'.repeat(12)}(\u0000\u0000\u0000`, 'BMW']
          .map(kind),
      ['tiff', 'tiff', 'bmp', 'non']
  );
});

test('the size of a drawing', () => {
  const size = (width, height, viewBox) => sizeOfSvg({width, height, viewBox});
  assert.deepEqual(
      [size('24', '12px'), size('1in', '25.4mm'), size('72pt', '6pc')],
      [[24, 12], [96, 96], [96, 96]]
  );
  assert.deepEqual(
      [
        size(null, null, '0 0 30 60'),
        size('100%', '100%', '0,0,16,8'),
        size('90', null, '0 0 30 60'),
        size(null, '30', '0 0 30 60')
      ],
      [[30, 60], [16, 8], [90, 180], [15, 30]]
  );
  assert.deepEqual(size(`1${' '.repeat(1e6)}!`, '5'), [5, 5], 'at once');
  assert.deepEqual(
      [size(null, null, null), size('100%', '50%', 'x'), size('0', '0', '0 0 0 5')],
      [[512, 512], [512, 512], [512, 512]]
  );
});

// An XML text as elements of a browser's document, as far as counting asks for them.
function elementOf({name, attributes, children, text}) {
  const [, localName] = /([^:]+)$/.exec(name);
  return {
    localName,
    id: attributes.get('id') ?? '',
    textContent: text,
    children: children.map(elementOf),
    getAttribute: (one) => attributes.get(one) ?? null,
    attributes: [...attributes].map(([one, value]) => ({localName: one.split(':').at(-1), value}))
  };
}
const drawn = (inside, more = '') => drawnOf(elementOf(readXml(`<svg ${more}>${inside}</svg>`)));

test('what a drawing comes to, as often as its parts are drawn', () => {
  assert.deepEqual(
      [
        drawn(''),
        drawn('<g><path/><path/></g>'),
        drawn('<defs><path id="a"/><g/></defs>'),
        drawn('<use href="#none"/><a href="#b"><g id="b"/></a>')
      ],
      [1, 4, 1, 4]
  );
  for (const href of ['href="#a"', 'xlink:href=" #a"', 'href="#%61"'])
    assert.equal(drawn(`<defs><g id="a"><path/></g></defs><use ${href}/><use ${href}/>`), 7);
  const tenfold = (count, line, first = '<path id="a0"/>') => drawn(`<defs>${first}${
      Array.from(
               {length: count}, (_, at) => line(`a${at + 1}`, `#a${at}`)
      ).join('')}</defs><use href="#a${count}"/>`);
  const uses = (id, of) => `<g id="${id}">${`<use href="${of}"/>`.repeat(10)}</g>`;
  assert.deepEqual(
      [tenfold(2, uses), tenfold(4, uses) > 20000, tenfold(400, uses)], [467, true, Infinity]
  );
  const pattern = '<pattern id="a0"><path/></pattern>';
  const paths = '<path/>'.repeat(10);
  for (const way
           of ['fill="url(#a)"',
               'stroke="url( \'#a\' ) red"',
               'style="x:1;fill:url(#a)"',
               'style="f\\69 ll:\\75rl(#a)"',
               'style="--x:url(#a)"',
               'marker-mid="url(#a)"',
               'class="b c"']) {
    const sheet = '<style>/*{*/.x,.c { fill:url(#a)} .d{} #e{fill:#a}</style>';
    assert.equal(
        drawn(`${sheet}<pattern id="a"><path/></pattern><g ${way}>${paths}</g>`), 34, way
    );  // what is in a group inherits it
    assert.ok(
        tenfold(
            5,
            (id, of) => `<pattern id="${id}"><g ${way.replace('#a', of)}>${paths}</g></pattern>`,
            pattern + sheet
        ) > 20000 ||
            way.startsWith('class'),
        way
    );
  }
  assert.ok(
      tenfold(
          6, (id, of) => `<g fill="url(${of})"><pattern id="${id}">${paths}</pattern></g>`, pattern
      ) > 20000,
      'around a pattern'
  );
  for (const way of ['clip-path', 'mask', 'filter'])
    assert.equal(
        drawn(`<mask id="a"><path/></mask><g ${way}="url(#a)">${paths}</g>`), 14, way
    );  // as a whole
  for (const rule
           of ['path{fill:url(#a)}', '@media all{path{}fill:url(#a)}', '.x{ .y{} fill:url(#a)}'])
    assert.ok(drawn(`<style>${rule}</style><clipPath id="a"/>${'<path/>'.repeat(10)}`) >= 21, rule);
  for (const round
           of ['<use id="a" href="#a"/>',
               '<g id="a"><use href="#b"/></g><g id="b"><use href="#a"/></g>',
               '<pattern id="a"><path fill="url(#a)"/></pattern><path fill="url(#a)"/>'])
    assert.equal(drawn(round), Infinity, round);
});

test('a drawing with more CSS than is looked at is not drawn, and is told soon', () => {
  const begun = process.cpuUsage().user;
  for (const css
           of ['/**/', '/*', 'a{}', '.a{}', ';', 'url(#a)', 'url\\28 #a)', 'x{fill:url(#a)}']) {
    assert.equal(
        drawn(`<style>${css.repeat(100)}</style><path style="${css.repeat(100)}"/>`), 2, css
    );
    for (const inside
             of [`<style>${css.repeat(500000)}</style>`,
                 `<path style="${css.repeat(500000)}"/>`,
                 `<path fill="${css.repeat(500000)}"/>`])
      assert.equal(drawn(inside), Infinity, css);
  }
  assert.ok(process.cpuUsage().user - begun < 10e6 * Number(process.env.SLACK ?? 3), 'seconds');
});

test('no product of two numbers of a drawing is worked out before it is bounded', () => {
  const urls = 'url(#x)'.repeat(19000);
  const begun = process.cpuUsage().user;
  drawn(`<style>.a{fill:${urls}}</style><rect class="${'a '.repeat(20000)}"/>`);
  drawn(`<style>${'.a'.repeat(20000)}{fill:${urls}}</style>`);
  drawn(`<style>${Array.from({length: 9000}, (_, at) => `.a${at}`).join('')}{fill:${
      urls}}</style><rect class="${Array.from({length: 9000}, (_, at) => `a${at}`).join(' ')}"/>`);
  drawn(`<rect style="fill:${urls}${':'.repeat(2000000)}"/>`);
  drawn(`<style>*{fill:url(#${'%41'.repeat(300000)})}</style>${'<rect/>'.repeat(15000)}`);
  assert.ok(process.cpuUsage().user - begun < 5e6 * Number(process.env.SLACK ?? 3), 'seconds');
});

test('what the browser builds and does not draw counts too', () => {
  const within = (inside) =>
      inside.map((uses, at) => `<g id="a${at + 1}"><defs>${uses}</defs></g>`).join('');
  assert.ok(
      drawn(`<defs>${
          within(Array.from({length: 6}, (_, at) => `<use href="#a${at}"/>`.repeat(10)))}</defs>`) >
      20000
  );
  assert.equal(drawn('<defs><path/><path/></defs>'), 1);
  for (const count of [10000, 10000000])
    assert.equal(drawn(`<path class="${'a'.repeat(count)}"/>`), count > 10000 ? Infinity : 2);
  for (const count of [100, 101])
    assert.equal(
        drawn(`<path ${Array.from({length: count}, (_, at) => `a${at}=""`).join(' ')}/>`),
        count > 100 ? Infinity : 2
    );
});

test('an address within a drawing is of pixels or a font', () => {
  for (const one
           of ['href="data:image/svg+xml,a"',
               'url(\'\\64 ata:image/svg+xml,a\')',
               'href="da&#xA;ta:image/svg+xml"',
               '"\\000064\nata:image/svg+xml"',
               '@import "data:text/css,a"',
               'href=" data:text/html,a"',
               'url(DATA:,a)'])
    assert.ok(hasDocument(one), one);
  for (const one
           of ['href="data:image/png;base64,a"',
               'href="data:image/jpeg,a"',
               'url(data:font/woff2;base64,a)',
               'url("data:application/x-font-woff;charset=utf-8;base64,a")',
               '<text>Map data: somebody</text>'])
    assert.ok(!hasDocument(one), one);
});

test('an image with few colours keeps them', () => {
  const image = imageOf(['wwwww', 'wkrgy', 'wwwww'], COLOURS);
  assert.deepEqual(
      paletteFor(image, 5).map(String).sort(), Object.values(COLOURS).map(String).sort()
  );
  const doc = docOfCells(image, {colours: 16});
  assert.deepEqual(doc.colours[0], [255, 255, 255]);
  assert.deepEqual(doc.picture, ['.....', '.abcd', '.....']);
});

test('groups of like colours become one each', () => {
  const near = (triple, by) => triple.map((sample) => Math.max(0, Math.min(255, sample + by)));
  const colours = {};
  const rows = [];
  for (const [sign, triple] of Object.entries(COLOURS)) {
    for (const by of [-2, -1, 0, 1, 2])
      colours[String.fromCharCode(200 + Object.keys(colours).length)] = near(triple, by);
    rows.push(Object.keys(colours).slice(-5).join(''));
    assert.ok(sign);
  }
  const doc = docOfCells(imageOf(rows, colours), {colours: 5});
  for (const row of doc.picture) assert.equal(new Set(row).size, 1, row);
  assert.equal(new Set(doc.picture).size, 5);
  for (const triple of doc.colours)
    assert.ok(
        Object.values(COLOURS
        ).some((one) => one.every((sample, at) => Math.abs(sample - triple[at]) <= 2)),
        String(triple)
    );
});

test('never more colours than wanted, and the background by the border', () => {
  let seed = 3;
  const chance = (below) => (seed = (seed * 48271) % 2147483647) % below;
  const noise = {
    width: 20,
    height: 20,
    data: Uint8ClampedArray.from({length: 1600}, (_, at) => (at % 4 === 3 ? 255 : chance(256)))
  };
  for (let colours = 2; colours <= 16; colours++) {
    const doc = docOfCells(noise, {colours});
    assert.equal(doc.colours.length, colours);
    assert.ok(new Set(doc.picture.join('')).size <= colours);
  }
  const framed = docOfCells(imageOf(['ggg', 'gwg', 'ggg'], COLOURS), {colours: 4});
  assert.deepEqual([framed.colours[0], framed.picture[1]], [COLOURS.g, '.a.']);
  const chosen = docOfCells(
      imageOf(['ggg', 'gwg', 'ggg'], COLOURS), {colours: 4, background: [255, 255, 255]}
  );
  assert.deepEqual([chosen.colours[0], chosen.picture], [COLOURS.w, ['aaa', 'a.a', 'aaa']]);
});

test('what is transparent is background, apart from all colours that are drawn', () => {
  const doc = docOfCells(imageOf(['-r-', 'rkr'], COLOURS), {colours: 8});
  assert.deepEqual(
      [doc.colours, doc.picture], [[[255, 255, 255], COLOURS.r, COLOURS.k], ['.a.', 'aba']]
  );
  const white = docOfCells(imageOf(['-w-', 'wkw'], COLOURS), {colours: 3});
  assert.equal(white.colours.length, 3);
  assert.deepEqual(
      [white.isClear, docOfCells(imageOf(['wr'], COLOURS), {colours: 3}).isClear], [true, false]
  );
  assert.deepEqual([white.picture, new Set(white.colours.map(String)).size], [['.a.', 'aba'], 3]);
  assert.notDeepEqual(white.colours[0], COLOURS.w);
  const nothing = docOfCells(imageOf(['--', '--'], COLOURS), {colours: 4});
  assert.deepEqual(nothing.picture, ['..', '..']);
});

test('the background stays light beside white and a pale colour', () => {
  const doc = docOfCells(imageOf(['-w-', 'cwr'], {...COLOURS, c: [232, 211, 168]}), {colours: 5});
  assert.ok(doc.colours[0].every((sample) => sample > 180), String(doc.colours[0]));
});

test('the margin of an image', () => {
  assert.deepEqual(
      withoutMargin(imageOf(['----', '-r--', '--w-', '----', '----'], COLOURS)),
      {x: 1, y: 1, width: 2, height: 2}
  );
  assert.deepEqual(
      withoutMargin(imageOf(['www', 'wkw', 'wwk'], COLOURS)), {x: 1, y: 1, width: 2, height: 2}
  );
  assert.deepEqual(
      withoutMargin(imageOf(['ww', 'ww'], COLOURS)), {x: 0, y: 0, width: 2, height: 2}
  );
});

test('a cell has the colour that most of its part has', () => {
  // A red square on white whose edges fall between cells: means would be pink, and green where half
  // of it is green.
  const fine = imageOf(['wwwwww', 'wwwwww', 'wwrrww', 'wrrrrw', 'wrrrrg', 'wrrrrg'], COLOURS);
  const image = scaledTo(fine, whole(fine), 3, 3);
  const doc = docOfCells(image, {colours: 3}, {fine, points: fine});
  assert.deepEqual(doc.colours.slice(0, 2), [COLOURS.w, COLOURS.r]);  // no pink
  assert.equal(doc.picture[0], '...');
  assert.deepEqual([doc.picture[1][1], doc.picture[2][1]], ['a', 'a']);
});

test('dark and light by a threshold', () => {
  const greys = {a: [10, 10, 10], b: [60, 60, 60], c: [200, 200, 200], d: [250, 250, 250]};
  const image = imageOf(['abcd', 'd-ab'], greys);
  const threshold = thresholdFor(image);
  const light = (triple) => 255 * oklabOf(...triple)[0];
  assert.ok(threshold > light(greys.b) && threshold <= light(greys.c), String(threshold));
  const doc = docOfCells(image, {threshold});
  assert.deepEqual([doc.colours, doc.picture], [[[255, 255, 255], [0, 0, 0]], ['aa..', '..aa']]);
  const turned = docOfCells(image, {threshold, inverted: true});
  assert.deepEqual(
      [turned.colours, turned.picture], [[[0, 0, 0], [255, 255, 255]], ['..aa', 'a...']]
  );
});

test('Oklab of known colours', () => {
  const close = (got, wanted) =>
      got.forEach((one, at) => assert.ok(Math.abs(one - wanted[at]) < 0.001, String(got)));
  close(oklabOf(255, 255, 255), [1, 0, 0]);
  close(oklabOf(255, 0, 0), [0.628, 0.2249, 0.1258]);
  close(oklabOf(0, 0, 255), [0.452, -0.0325, -0.3115]);
});

test('a drawing in flat colours keeps them as they are, and no colour of its edges', () => {
  const rows = Array.from(
      {length: 20},
      (_, row) => (row < 10 ? `${'r'.repeat(19)}e` : `${'y'.repeat(12)}f${'g'.repeat(7)}`)
  );
  const image = imageOf(
      rows, {...COLOURS, e: [203, 34, 54], f: [135, 185, 50]}
  );  // e looks like r, f lies between y and g
  assert.equal(isFlat(image), true);
  for (const most of [3, 5, 16])
    assert.deepEqual(flatPalette(image, most), [COLOURS.r, COLOURS.y, COLOURS.g]);
  assert.deepEqual(paletteFor(image, 4), [COLOURS.r, COLOURS.y, COLOURS.g]);
});

test(
    'of too many colours those become one that look alike, and a small one that stands apart stays',
    () => {
      // Two blues that are alike have 36 % each, a beak 4 %.
      const colours = {...COLOURS, b: [40, 90, 200], c: [60, 105, 205], o: [240, 120, 30]};
      const rows = Array.from(
          {length: 10},
          (_, row) =>
              (row < 4     ? 'b'.repeat(9) + 'w' :
                   row < 8 ? 'w' +
                       'c'.repeat(9) :
                   row === 8 ? 'oowwwwwwkk' :
                               'oowwwwwwkk')
      );
      const palette = flatPalette(imageOf(rows, colours), 4).map(String).sort();
      assert.deepEqual(palette, [colours.b, COLOURS.k, colours.o, COLOURS.w].map(String).sort());
    }
);

test('a photo is no flat art', () => {
  const data =
      Uint8ClampedArray.from({length: 40000}, (_, at) => (at % 4 === 3 ? 255 : (at * 48271) % 251));
  assert.equal(isFlat({width: 100, height: 100, data}), false);
});

test('of a photo a small part that stands apart is kept beside a wide sky', () => {
  const [skin, hair] = [[226, 176, 140], [62, 40, 26]];
  let seed = 9;
  const grain = () => ((seed = (seed * 48271) % 2147483647) % 13) - 6;
  const data = new Uint8ClampedArray(40000);
  for (let at = 0; at < 10000; at++) {
    const [x, y] = [at % 100, Math.floor(at / 100)];
    const isFace = x >= 40 && x < 60 && y >= 50 && y < 70;  // 4 % of the area; the hair has 2 %
    const triple = isFace                      ? skin :
        x >= 40 && x < 60 && y >= 40 && y < 50 ? hair :
                                                 [96 + y, 156 + y * 0.7, 230 + y * 0.2];
    data.set([...triple.map((sample) => sample + grain()), 255], at * 4);
  }
  const image = {width: 100, height: 100, data};
  assert.equal(isFlat(image), false);
  for (const most of [4, 5, 6]) {
    const labs = photoPalette(image, most).map((triple) => oklabOf(...triple));
    for (const triple of [skin, hair])
      assert.ok(
          labs.some(
              (lab) => Math.hypot(...lab.map((one, axis) => one - oklabOf(...triple)[axis])) < 0.05
          ),
          `${triple} at ${most}`
      );
  }
});

test('colours are locked, dropped and replaced', () => {
  const image = imageOf(['wwww', 'rgyk', 'rgyk', 'wwww'], COLOURS);
  const of = (options) => docOfCells(image, options);
  const has = (doc, triple) => doc.colours.map(String).includes(String(triple));
  for (const locked of [COLOURS.r, COLOURS.g, COLOURS.y, COLOURS.k])
    assert.ok(has(of({colours: 2, locked: [locked]}), locked), String(locked));
  const all = [COLOURS.r, COLOURS.y, COLOURS.k];
  for (const triple of all)
    assert.ok(
        has(of({colours: 2, locked: all}), triple),
        'what is locked stays, even where that is more than is asked for'
    );
  const many = Array.from({length: 20}, (_, at) => [at * 12, 255 - at * 12, 128]);
  const crowded = of({colours: 16, locked: many});
  assert.ok(
      crowded.colours.length <= 16 && crowded.picture.join('').match(/^[.a-o]+$/),
      String(crowded.colours.length)
  );
  const dropped = of({colours: 4, dropped: [COLOURS.y]});
  assert.ok(!has(dropped, COLOURS.y));
  for (const triple of [COLOURS.w, COLOURS.r, COLOURS.g, COLOURS.k])
    assert.ok(has(dropped, triple), String(triple));
  const replaced = of({colours: 5, replaced: [[COLOURS.r, [1, 2, 3]]]});
  assert.deepEqual(
      [replaced.colours[1], replaced.sources[1], replaced.picture],
      [[1, 2, 3], COLOURS.r, ['....', 'abcd', 'abcd', '....']]
  );
  const same = of({colours: 5, replaced: [[COLOURS.r, COLOURS.g]]});  // red is green from now on
  assert.deepEqual([same.colours.length, same.picture[1]], [4, 'aabc']);
  const noise = {
    width: 20,
    height: 20,
    data: Uint8ClampedArray.from(
        {length: 1600}, (_, at) => (at % 4 === 3 ? 255 : (at * at * 7919) % 256)
    )
  };
  for (const colours of [2, 5, 9])
    assert.ok(
        has(docOfCells(noise, {colours, locked: [[250, 1, 250]], background: [250, 1, 250]}),
            [250, 1, 250]),
        String(colours)
    );
});

test('one more colour that is locked, with room for one more, displaces none', () => {
  for (const [round, speed] of [[1, 3], [2, 5], [3, 7]].entries()) {
    const data = Uint8ClampedArray.from({length: 40 * 40 * 4}, (_, at) => {
      const [row, col] = [Math.floor(at / 160), Math.floor((at % 160) / 4)];
      return [row * 6, col * 6, ((row * speed[0] + col * speed[1]) * 3) % 256, 255][at % 4];
    });
    const image = {width: 40, height: 40, data};
    for (const most of [3, 6, 10]) {
      const before = paletteFor(image, most, {isExact: false});
      for (const triple of [[255, 0, 255], [0, 255, 255], [250, 240, 10]]) {
        const after = paletteFor(image, most + 1, {locked: [triple], isExact: false});
        for (const one of before)
          assert.ok(
              after.some((other) => String(other) === String(one)),
              `${round}: ${one} of ${most} beside ${triple}`
          );
        assert.ok(after.map(String).includes(String(triple)) && after.length === before.length + 1);
      }
    }
  }
});

test('colours of a palette alone', () => {
  const image = imageOf(['wwww', 'rgrk', 'rgrk', 'wwww'], COLOURS);
  const palette = [[250, 250, 250], [190, 40, 60], [10, 140, 70], [5, 5, 5], [0, 0, 250]];
  const doc = docOfCells(image, {colours: 16, palette});
  assert.deepEqual(
      [doc.colours, doc.picture],
      [[palette[0], palette[1], palette[2], palette[3]], ['....', 'abac', 'abac', '....']]
  );
  assert.equal(docOfCells(image, {colours: 3, palette}).colours.length, 3);
});

test('a background for what is transparent is light, whatever colours are drawn', () => {
  const greys = Array.from({length: 15}, (_, at) => [at * 18, at * 18, at * 18]);
  const pale = Array.from({length: 15}, (_, at) => [255 - at * 3, 250 - (at % 5) * 4, 240 + at]);
  for (const palette of [[], [[255, 255, 255]], greys, pale]) {
    const ground = groundFor(palette);
    assert.ok(ground.every((sample) => sample >= 160), String(ground));
    assert.ok(!palette.map(String).includes(String(ground)), String(ground));
  }
  assert.deepEqual(groundFor([[0, 0, 0]]), [255, 255, 255]);
});

test('brightness and contrast', () => {
  const grey = (sample) =>
      ({width: 1, height: 1, data: Uint8ClampedArray.from([sample, sample, sample, 200])});
  const after = (sample, options) => toned(grey(sample), options).data[0];
  for (const sample of [0, 100, 255])
    assert.equal(after(sample, {brightness: 0, contrast: 0}), sample);
  assert.deepEqual(
      [
        after(100, {brightness: 50}),
        after(100, {brightness: -50}),
        after(250, {brightness: 50}),
        after(5, {brightness: -100})
      ],
      [164, 36, 255, 0]
  );
  assert.ok(
      after(100, {contrast: 50}) < 100 && after(160, {contrast: 50}) > 160 &&
      after(100, {contrast: -50}) > 100
  );
  assert.deepEqual([after(120, {contrast: 100}), after(140, {contrast: 100})], [0, 255]);
  assert.equal(toned(grey(7), {brightness: 9}).data[3], 200, 'what is transparent stays so');
});

test('line art: a cell is drawn where enough of its area is dark', () => {
  // Cells of 4 by 4 pixels: a line one pixel wide, a dot of one pixel, nothing, all.
  const fine = imageOf(
      ['wkwwwwwwwwwwkkkk', 'wkwwwkwwwwwwkkkk', 'wkwwwwwwwwwwkkkk', 'wkwwwwwwwwwwkkkk'], COLOURS
  );
  const image = scaledTo(fine, whole(fine), 4, 1);
  const cells = (options) => [...drawnCells(image, {threshold: 128, ...options}, fine)];
  assert.deepEqual(cells({area: 25}), [1, 0, 0, 1]);
  assert.deepEqual(cells({area: 26}), [0, 0, 0, 1]);
  assert.deepEqual(cells({area: 5}), [1, 1, 0, 1]);
  assert.deepEqual(cells({area: 75, inverted: true}), [1, 1, 1, 0]);
  assert.deepEqual(cells({}), [0, 0, 0, 1], 'by its mean a thin line is lost');
});

test('specks are removed, the smallest first', () => {
  const numbers = (rows) =>
      Int8Array.from(rows.join(''), (sign) => (sign === '-' ? -1 : Number(sign)));
  const rows = ['00000', '01022', '00022', '33000'];
  assert.deepEqual([...withoutSpecks(numbers(rows), 5, 0)], [...numbers(rows)]);
  assert.deepEqual(
      [...withoutSpecks(numbers(rows), 5, 1)], [...numbers(['00000', '00022', '00022', '33000'])]
  );
  assert.deepEqual(
      [...withoutSpecks(numbers(rows), 5, 3)], [...numbers(['00000', '00022', '00022', '00000'])]
  );
  assert.deepEqual(
      [...withoutSpecks(numbers(['11', '11']), 2, 9)], [1, 1, 1, 1], 'all of it is no speck'
  );
  assert.deepEqual([...withoutSpecks(numbers(['---', '-1-']), 3, 1)], Array(6).fill(-1));
});

test('dithering keeps the mean lightness', () => {
  const side = 24;
  const light = (triple) => oklabOf(...triple)[0];
  for (const grey of [60, 128, 200]) {
    const data =
        Uint8ClampedArray.from({length: side * side * 4}, (_, at) => (at % 4 === 3 ? 255 : grey));
    const numbers = dithered({width: side, height: side, data}, [COLOURS.k, COLOURS.w]);
    const share = numbers.reduce((sum, one) => sum + one, 0) / numbers.length;
    assert.ok(Math.abs(share - light([grey, grey, grey])) < 0.03, `${grey}: ${share}`);
    assert.ok(new Set(numbers).size === 2);
  }
  assert.deepEqual(
      [...dithered(imageOf(['-w', 'k-'], COLOURS), [COLOURS.k, COLOURS.w])], [-1, 1, 0, -1]
  );
});

// Tests of the page's styles: sizes of type, weights, spaces, radii and colours stand in
// page/styles/tokens.css, and no other style sets one; each token is used, and each that is used is
// there. Browsers without light-dark() have the light colours. Run: node --test
// tests/page/page_styles.mjs
import assert from 'node:assert/strict';
import {readFileSync, readdirSync} from 'node:fs';
import {test} from 'node:test';

const folder = new URL('../../page/styles/', import.meta.url);
const read = (file) => readFileSync(new URL(file, folder), 'utf8').replace(/\/\*[^]*?\*\//g, '');
const TOKENS = 'tokens.css';
const files = readdirSync(folder).filter((file) => ![TOKENS, 'index.css'].includes(file));

/** Declarations of a style: their file, name and value. */
const declarationsOf =
    (file) => [...read(file).matchAll(/(?<=[{;]\s*)([\w-]+):\s*([^;{}]+);/g)].map(
        ([, name, value]) => ({file, name, value: value.replace(/\s+/g, ' ')})
    );
const others = files.flatMap(declarationsOf);
const textOf = ({file, name, value}) => `${file}: ${name}: ${value}`;
const wrong = (isWrong) => others.filter(isWrong).map(textOf);

test('no colour stands outside the tokens', () => {
  const colour =
      /#[\da-f]{3,8}\b|\b(rgba?|hsla?|hwb|lab|lch|oklab|oklch|color|light-dark)\(|\b(white|black|gr[ae]y|silver|red|green|blue|orange|yellow|navy|teal)\b/i;
  assert.deepEqual(wrong(({value}) => colour.test(value)), []);
});

test('type has the sizes and weights of the tokens', () => {
  const isType = ({name}) => /^(font|font-size|font-weight|font-family)$/.test(name);
  const usual = /^(inherit|0|var\(--(t|w|family|mono)[\w-]*\)(\/[\d.]+)?)$/;
  assert.deepEqual(
      wrong((one) => isType(one) && one.value.split(' ').some((part) => !usual.test(part))), []
  );
});

test('spaces and radii are those of the tokens', () => {
  const isSpace = ({name}) =>
      /^(margin|padding|scroll-padding|gap|row-gap|column-gap)/.test(name) ||
      /^border-.*radius$/.test(name);
  const length = /(?<![\w.-])-?\d*\.?\d+(px|rem|em|pt|ch)\b/;
  assert.deepEqual(wrong((one) => isSpace(one) && length.test(one.value)), []);
});

test('lengths are in pixels or parts of the window, never in parts of a text', () => {
  assert.deepEqual(wrong(({value}) => /\d(rem|em|ex|ch|pt)\b/.test(value)), []);
});

test('each token is used, and each that is used is there', () => {
  const has =
      new Set(declarationsOf(TOKENS).map(({name}) => name).filter((name) => /^--/.test(name)));
  const used =
      new Set([TOKENS, ...files].flatMap(
                                    (file) => [...read(file).matchAll(/var\((--[\w-]+)/g)]
      ).map(([, name]) => name));
  assert.deepEqual([...used].filter((name) => !has.has(name)), []);
  assert.deepEqual([...has].filter((name) => !used.has(name)), []);
  assert.deepEqual(wrong(({name}) => /^--/.test(name)), []);
});

test(
    'four sizes of type, three weights, six spaces, three radii, eight colours in light and dark',
    () => {
      const tokens = declarationsOf(TOKENS);
      const count = (pattern) =>
          new Set(tokens.map(({name}) => name).filter((name) => pattern.test(name))).size;
      assert.deepEqual([/^--t-/, /^--w/, /^--s\d/, /^--r(-[sl])?$/].map(count), [4, 3, 6, 3]);
      const dark = tokens.filter(({value}) => value.startsWith('light-dark('));
      assert.equal(dark.length, 8);
      for (const {name, value} of dark) {
        const [, light] = /^light-dark\((#\w+), #\w+\)$/.exec(value);
        assert.ok(
            tokens.some((one) => one.name === name && one.value === light),
            `${name} is not ${light} in browsers without light-dark()`
        );
      }
    }
);

// Tests of the page's texts: all in one table for each language, each used, with the same places
// and the right number of forms; and no other module has a text of its own. The last wants
// TypeScript's compiler to read the modules, and is left out where there is none. Run: node --test
// tests/page/page_texts.mjs
import assert from 'node:assert/strict';
import {existsSync, readFileSync, readdirSync} from 'node:fs';
import {createRequire} from 'node:module';
import {join} from 'node:path';
import {test} from 'node:test';
import {fileURLToPath} from 'node:url';
import '../../page/test/limits.mjs';

const {DE} = await import('../../page/texts/de.js');
const {EN} = await import('../../page/texts/en.js');
const {FR} = await import('../../page/texts/fr.js');
const {LANGUAGES, MIRRORED, languageOf} = await import('../../page/texts/language.js');
const {mirrored} = await import('../../page/texts/mirrored.js');
const {LANGUAGE, filled, phrase} = await import('../../page/texts/phrase.js');
const {verdictTitle} = await import('../../page/base/names.js');
const {capital, lineName, linesText, opening} = await import('../../page/base/words.js');
const {placeText} = await import('../../page/view/proposals.js');
const TABLES = {
  en: EN,
  de: DE,
  fr: FR
};
const page = fileURLToPath(new URL('../../page/', import.meta.url));
const modules = readdirSync(page, {recursive: true})
                    .filter((file) => file.endsWith('.js') && !/^(test|texts)\//.test(file))
                    .sort();
const read = (file) => readFileSync(join(page, file), 'utf8');
const sources = [...modules, 'texts/phrase.js'].map(read).join('\n');

test('each text of the table is used, and each that is asked for is there', () => {
  assert.deepEqual(Object.keys(EN).filter((name) => !sources.includes(`'${name}'`)), []);
  const asked = [...sources.matchAll(/\bphrase\(\s*'([^']+)'/g)].map(([, name]) => name);
  assert.ok(asked.length > 100);
  assert.deepEqual(asked.filter((name) => !(name in EN)), []);
});

// One word in English, two in other languages.
const HOMONYMS = ['play.playSteps', 'view.keyDelete'];

test('a name begins with its folder, and no text stands twice in a folder', () => {
  const folders =
      new Set(modules.map((file) => (file.includes('/') ? file.split('/')[0] : 'main')));
  for (const name of Object.keys(EN)) assert.ok(folders.has(name.split('.')[0]), name);
  const seen = new Map();
  for (const [name, text] of Object.entries(EN).filter(([one]) => !HOMONYMS.includes(one))) {
    const key = `${name.split('.')[0]} ${text}`;
    assert.ok(!seen.has(key), `${name} is ${seen.get(key)}`);
    seen.set(key, name);
  }
});

test('what goes with a number has a form for each that the language knows', () => {
  assert.deepEqual(Object.keys(TABLES), Object.keys(LANGUAGES));
  for (const [language, table] of Object.entries(TABLES)) {
    const count = new Intl.PluralRules(language).resolvedOptions().pluralCategories.length;
    for (const [name, text] of Object.entries(table)) {
      for (const [, inside] of text.matchAll(/\{([^}]*)\}/g)) {
        const [place, ...forms] = inside.split('|');
        assert.match(place, /^\w+$/, name);
        assert.ok(forms.length === 0 || forms.length === count, `${language} ${name}: ${inside}`);
      }
      assert.doesNotMatch(text.replace(/\{[^}]*\}/g, ''), /[{}]/, `${language} ${name}`);
    }
  }
});

// ---- other languages

const placesOf =
    (text) => [...new Set([...text.matchAll(/\{(\w+)/g)].map(([, place]) => place))].sort();

test('each language has the texts of English, in its order, with the same places', () => {
  for (const [language, table] of Object.entries(TABLES)) {
    assert.deepEqual(Object.keys(table), Object.keys(EN), language);
    for (const [name, text] of Object.entries(table)) {
      assert.ok(text.trim(), `${language} ${name} is empty`);
      assert.deepEqual(placesOf(text), placesOf(EN[name]), `${language} ${name}`);
      assert.equal(
          /\s$/.test(text), /\s$/.test(EN[name]), `${language} ${name}: what comes behind it`
      );
    }
  }
});

// Words that are the same in another language.
const SAME_FRENCH = [
  'export.webpbnXml',
  'base.expert',
  'base.unique',
  'view.commit',
  'view.guide',
  'view.keyCtrl',
  'view.rectangle',
  'play.pause',
  'import.gimpGpl',
  'import.jascPal',
  'import.verdict',
  'export.usLetter'
];
const SAME = [
  'export.webpbnXml',
  'view.name',
  'play.lineSays',
  'play.blockIn',
  'play.pause',
  'library.form',
  'import.dithering',
  'import.palette',
  'import.gimpGpl',
  'import.jascPal',
  'export.copyright',
  'export.usLetter',
  'export.linkField',
  'main.start'
];

test('no English is left in German', () => {
  assert.deepEqual(
      Object.keys(EN).filter((name) => DE[name] === EN[name]).sort(), [...SAME].sort()
  );
  for (const [name, text] of Object.entries(DE)) {
    const said = text.replace(/\{\w+\}|\{\w+\|/g, '').replace(/„nonobench [^“]*“/g, '');
    assert.doesNotMatch(
        said, /[”"]|(^|[^\w])(the|and|with|cells?|colours?|picture)($|[^\w])/, name
    );
    assert.equal(text.split('„').length, text.split('“').length, `${name}: quotes in pairs`);
  }
});

test('no English is left in French', () => {
  assert.deepEqual(
      Object.keys(EN).filter((name) => FR[name] === EN[name]).sort(), [...SAME_FRENCH].sort()
  );
  for (const [name, text] of Object.entries(FR)) {
    const said = text.replace(/\{\w+\}|\{\w+\|/g, '').replace(/«\u00a0nonobench [^»]*»/g, '');
    assert.doesNotMatch(
        said, /[“”"']|(^|[^\wà-ÿ])(the|and|with|cells?|colours?|picture)($|[^\wà-ÿ])/, name
    );
    assert.equal(
        text.split('«\u00a0').length, text.split('\u00a0»').length, `${name}: quotes in pairs`
    );
    assert.doesNotMatch(
        text, /[^\u00a0\d:#][:;?!»](\s|$)/, `${name}: a blank before a sign of two parts`
    );
  }
});

test('numbers and forms are those of the language', () => {
  assert.equal(filled(DE['view.cells'], {cells: 1}), '1 Feld');
  assert.equal(
      filled(DE['view.otherDiffers'], {cells: 3}), 'Ein anderes Bild weicht in 3 Feldern ab.'
  );
  assert.equal(filled(DE['view.andGivenCells'], {cells: 1}), ' und das vorgegebene Feld');
});

test(
    'the language is the chosen one, else the first of the browser that the page has, else English',
    () => {
      assert.equal(languageOf('de', ['en-GB']), 'de');
      assert.equal(languageOf(null, ['it-CH', 'de-CH', 'en']), 'de');
      assert.equal(languageOf(null, ['fr-CH', 'de-CH', 'en']), 'fr');
      assert.equal(languageOf('tlh', ['EN-us', 'de']), 'en');
      assert.equal(languageOf('toString', ['constructor']), 'en');
      assert.equal(languageOf(null, []), 'en');
      assert.equal(languageOf(MIRRORED, []), MIRRORED);
      assert.ok(!(MIRRORED in LANGUAGES));
    }
);

test('mirrored texts have the places of the English ones', () => {
  for (const text of Object.values(EN)) assert.deepEqual(placesOf(mirrored(text)), placesOf(text));
});

test(
    'places are filled: texts as they are, numbers as the language writes them, forms by number',
    () => {
      assert.equal(filled('{a}, {b}{a}', {a: '<x> {b}', b: 12345}), '<x> {b}, 12,345<x> {b}');
      const cells = '{cells|# cell differs|# cells differ}';
      assert.deepEqual(
          [0, 1, 2, 1000].map((count) => filled(cells, {cells: count})),
          ['0 cells differ', '1 cell differs', '2 cells differ', '1,000 cells differ']
      );
      assert.equal(filled('Take {cells|it|them} back.', {cells: 1}), 'Take it back.');
      assert.equal(phrase('base.by', {columns: 20, rows: 15}), '20 by 15');
    }
);

test('lines by their names and places, a verdict and what opens a dialog, in words', () => {
  assert.deepEqual(
      [linesText(false, [7, 2, 4, 3]), linesText(true, [5]), linesText(true, [])],
      ['columns 2–4, 7', 'row 5', '']
  );
  assert.deepEqual(
      [
        lineName(true, 0),
        capital(lineName(false, 11)),
        placeText({columns: 4}, 6),
        opening('Print')
      ],
      ['row 1', 'Column 12', 'row 2, column 3', 'Print …']
  );
  assert.deepEqual(
      ['unique', 'ambiguous', 'undecided'].map(verdictTitle), ['Unique', 'Ambiguous', 'Undecided']
  );
});

// ---- no text elsewhere

// Modules whose texts no user reads, or that are the same in all languages: commands of a session,
// what goes into files, names in them, the line of a grade (docs/SESSION.md), faults inside the
// page.
const INSIDE = [
  'base/names.js',
  'document/cover.js',
  'document/named.js',
  'draw/surface.js',
  'engine/answers.js',
  'engine/bench.js',
  'engine/client.js',
  'engine/opening.js',
  'engine/serve.js',
  'formats/palettes.js',
  'formats/ppm_notes.js',
  'formats/webpbn.js',
  'import/drawn.js',
  'library/keeper.js',
  'library/shelf.js',
  'repair/asker.js'
];
const KEYS =
    /^report\.csv$|^(Escape|Enter|Tab|Home|End|Page(Up|Down)|Arrow(Up|Down|Left|Right)|Backspace|Delete|Shift|Control|Ctrl|Alt|Meta|Space)(\+|$)|^(Ctrl|Alt)\+|^(Abort|QuotaExceeded)Error$|^(Undo|Redo)Empty$|^(Memory|NoChange|TwoColoursOnly|Files)$|^NS_|\.js$|\.zip$/;
const COMMAND =
    /^(paint|fill|pin|unpin|colour (add|set)|insert|delete|swap|recolour|write|why|allow) ?(\{|\d|off|row|column|non|ppm|$)/;
const STYLE =
    /px\b|%|rgb\(|hsl\(|sans-serif|prefers-|translate\(|^@page|:not\(|^<iframe |^nonobench|^(work|card|data|https?):|[a-z], [a-z]+, [a-z]+$|^width \{\}\n|– nonobench$|^row-clue|^(palette|spots|tone) \{\}|^\.\.aa/;
const TEXT = /[A-Z][a-z]+|[a-z]{2,} [a-z]+|[a-z]{2,}[.…!?]| [a-z]{2,}|[a-z]{2,} /;
const NAMES = new Set([
  'class',
  'id',
  'type',
  'role',
  'key',
  'place',
  'group',
  'icon',
  'd',
  'for',
  'list',
  'accept',
  'viewBox',
  'popover',
  'ending',
  'fill',
  'stroke'
]);
const TAKERS =
    /^(phrase|PaletteFault|on|tell|querySelector|querySelectorAll|matchMedia|getPropertyValue|includes|startsWith|endsWith|error|getElementById|\$|closest|matches|addEventListener|setAttribute|getAttribute|Error|test|claim)$/;

// The texts in a module, by the tree that TypeScript makes of it.
function textsOf(ts, file) {
  const tree =
      ts.createSourceFile(file, read(file), ts.ScriptTarget.ES2022, true, ts.ScriptKind.JS);
  const found = [];
  const isLiteral = (node) => ts.isStringLiteral(node) || ts.isNoSubstitutionTemplateLiteral(node);
  const shown = (node) =>
      (isLiteral(node) ?
           node.text :
           node.head.text + node.templateSpans.map((span) => `{}${span.literal.text}`).join(''));
  const isAsked = (node) => {
    for (let below = node, up = node.parent; up && !ts.isStatement(up);
         below = up, up = up.parent) {
      if (ts.isPropertyAssignment(up) && below === up.initializer && NAMES.has(up.name.text))
        return true;
      if ((ts.isCallExpression(up) || ts.isNewExpression(up)) && below !== up.expression)
        return TAKERS.test(up.expression.name?.text ?? up.expression.text ?? '');
    }
    return false;
  };
  const visit = (node) => {
    const up = node.parent;
    const isPlace = up &&
        (ts.isImportDeclaration(up) || ts.isExportDeclaration(up) ||
         ts.isElementAccessExpression(up) || ts.isCaseClause(up) ||
         (ts.isPropertyAssignment(up) && up.name === node) ||
         (ts.isBinaryExpression(up) && /^[!=]==$/.test(up.operatorToken.getText())));
    if ((isLiteral(node) || ts.isTemplateExpression(node)) && !isPlace && !isAsked(node)) {
      const text = shown(node);
      if (TEXT.test(text) && !KEYS.test(text) && !COMMAND.test(text) && !STYLE.test(text) &&
          !(text in EN))
        found.push(
            `${file}:${tree.getLineAndCharacterOfPosition(node.getStart()).line + 1}: ${text}`
        );
    }
    ts.forEachChild(node, visit);
  };
  visit(tree);
  return found;
}

const TYPESCRIPT = '/usr/share/nodejs/typescript';
test(
    'no module has a text of its own',
    {skip: existsSync(TYPESCRIPT) ? false : 'no TypeScript'},
    () => {
      const ts = createRequire(import.meta.url)(TYPESCRIPT);
      assert.deepEqual(
          modules.filter((file) => !INSIDE.includes(file)).flatMap((file) => textsOf(ts, file)), []
      );
    }
);

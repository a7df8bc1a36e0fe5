// Whether puzzles are fit to be published: the cases of tests/cases/fit.txt, which hosts in Python
// and C pass too, by the module, the page's judge, the program for node and the check of an upload.
// Run: node --test tests/page/fit_cases.mjs
import assert from 'node:assert/strict';
import {spawnSync} from 'node:child_process';
import {copyFileSync, mkdirSync, mkdtempSync, readFileSync, rmSync, writeFileSync} from 'node:fs';
import {tmpdir} from 'node:os';
import {join, resolve} from 'node:path';
import {test} from 'node:test';
import {fileURLToPath} from 'node:url';
import {engine, moduleFile, needsModule, workers} from '../../page/test/worker.mjs';
import {Client} from '../../page/engine/client.js';
import {Judge} from '../../page/engine/judging.js';
import {long, waits} from '../waits.mjs';

const wasm = resolve(moduleFile);
const root = fileURLToPath(new URL('../../', import.meta.url));
const skip = needsModule.skip || waits('0.8.0');
const LETTERS = '.abcdefghijklmno';
const WHITE = /^(\d+),\1,\1$/;
const linesOf = (text) => text.split('; ').map((line) => `${line}\n`).join('');

function caseOf(block) {
  const fields =
      Object.fromEntries(block.split('\n').filter(
                                              (line) => line && !line.startsWith('#')
      ).map((line) => [line.split(' ', 1)[0], line.slice(line.indexOf(' ') + 1)]));
  const {
    case: name,
    maxval = '255',
    colours,
    rows,
    background = null,
    givens = null,
    certificate = null,
    answer
  } = fields;
  const [picture, triples] = [rows.split('/'), colours.split(' ')];
  return {
    name,
    background,
    picture,
    maxval: Number(maxval),
    triples: triples.map((triple) => triple.split(',').map(Number)),
    text: `P3\n${picture[0].length} ${picture.length}\n${maxval}\n${
            [...picture.join('')]
                .map((letter) => triples[LETTERS.indexOf(letter)].replaceAll(',', ' '))
                .join('\n')}\n`,
    givens: givens?.split(' ').map((place) => place.split(',').map(Number)) ?? null,
    certificate: certificate && linesOf(certificate),
    refused: answer.startsWith('refused ') ? answer.slice(8) : null,
    answer: linesOf(answer),
    isFit: answer.endsWith('; fit'),
  };
}

const cases = readFileSync(join(root, 'tests', 'cases', 'fit.txt'), 'utf8')
                  .split(/\n\n+/)
                  .filter((block) => /^case /m.test(block))
                  .map(caseOf);

// Runs a script of node on files of a case, in a folder of their own: its status and what it
// prints.
function ran(folder, script, words, env = {}) {
  const {status, stdout, stderr} = spawnSync(
      process.execPath,
      [script, ...words],
      {cwd: folder, encoding: 'utf8', env: {...process.env, ...env}}
  );
  return {status, stdout, stderr};
}

function inFolder(run) {
  const folder = mkdtempSync(join(tmpdir(), 'nonobench-fit-'));
  try {
    run(folder);
  } finally {
    rmSync(folder, {recursive: true, force: true});
  }
}

// The names of a case's files, once they are written.
function written(folder, {name, text, givens, certificate}) {
  const put = (ending, content) =>
      (writeFileSync(join(folder, `${name}.${ending}`), content), `${name}.${ending}`);
  return {
    picture: put('ppm', text),
    givens: givens && put('givens', givens.map((place) => `given ${place.join(' ')}\n`).join('')),
    certificate: certificate && put('cert', certificate),
  };
}

test('the module', {skip}, async () => {
  const module = await engine();
  for (const {name, text, background, givens, certificate, answer, refused} of cases) {
    const options = {background, published: givens, certificate};
    if (refused)
      assert.throws(() => module.assess(text, options), {text: refused}, name);
    else
      assert.equal(module.assess(text, options).text, answer, name);
  }
  assert.ok(cases.length > 15);
});

test(
    'the page\'s judge, of what the page can have: no certificate, and a background that is named unless it is white',
    {skip},
    async () => {
      let count = 0;
      const judge = new Judge({seconds: 300, start: () => new Client(workers()())});
      for (const {
             name,
             picture,
             maxval,
             triples,
             background,
             givens,
             certificate,
             answer,
             refused
           } of cases) {
        if (certificate || refused || Boolean(background) === WHITE.test(triples[0].join()))
          continue;
        const places =
            (givens ?? []).map(([row, column]) => (row - 1) * picture[0].length + column - 1);
        const said = await judge.judge({
          rows: picture.length,
          columns: picture[0].length,
          maxval,
          colours: triples,
          picture,
          givens: new Set(places)
        });
        assert.equal(said.text, answer, name);
        count++;
      }
      judge.end();
      assert.ok(count > 8, `${count}`);
    }
);

test(
    'the program for node',
    {skip: skip || long},
    () => inFolder((folder) => {
      mkdirSync(join(folder, 'package'));
      for (const name of ['program', 'words', 'streams', 'ending', 'node'])
        copyFileSync(
            join(root, 'packages', 'npm', `${name}.mjs`), join(folder, 'package', `${name}.mjs`)
        );
      copyFileSync(join(root, 'web', 'nonobench.mjs'), join(folder, 'package', 'nonobench.mjs'));
      copyFileSync(wasm, join(folder, 'package', 'nonobench.wasm'));
      for (const one of cases) {
        const files = written(folder, one);
        const options =
            [
              ['--background', one.background],
              ['--givens', files.givens],
              ['--certificate', files.certificate]
            ].filter(([, value]) => value !== null)
                .flat();
        const wanted = {status: one.isFit ? 0 : 1, stdout: one.answer, stderr: ''};
        assert.deepEqual(
            ran(folder,
                join(folder, 'package', 'program.mjs'),
                ['assess', ...options, files.picture]),
            wanted,
            one.name
        );
      }
    })
);

test(
    'the check of an upload, of what has a certificate',
    {skip: skip || long},
    () => inFolder((folder) => {
      let count = 0;
      for (const one of cases.filter(({certificate}) => certificate)) {
        const files = written(folder, {...one, givens: one.givens ?? []});
        const words = [
          files.picture,
          files.certificate,
          files.givens,
          ...(one.background ? [one.background] : [])
        ];
        const script = join(root, 'examples', 'check_upload.mjs');
        const flaws = one.answer.split('\n').filter((line) => line.startsWith('flaw ')).join('; ');
        const stdout = one.isFit ? one.answer : `refused: ${one.refused ?? flaws}\n`;
        assert.deepEqual(
            ran(folder, script, words, {WASM: wasm}),
            {status: one.isFit ? 0 : 1, stdout, stderr: ''},
            one.name
        );
        if (!one.refused)
          assert.equal(
              ran(folder, script, ['--allow-flaw', 'any', ...words], {WASM: wasm}).stdout,
              one.answer,
              one.name
          );
        count++;
      }
      assert.ok(count > 3, `${count}`);
    })
);

// A certificate that comes in: checked against the open picture by the proved checker.

import {say} from '../base/elements.js';
import {on} from '../base/events.js';
import {columnOf, docOf, rowOf, sameDoc} from '../document/document.js';
import {plainOf} from '../engine/assessing.js';
import {bench} from '../engine/bench.js';
import {startEngine} from '../engine/client.js';
import {phrase} from '../texts/phrase.js';
import {withProgress} from '../view/progress.js';
import {asSeen} from '../view/tools.js';

// What an editor did to a certificate, by a word of what web/nonobench.mjs says of it.
const HINTS = [
  ['CR LF', phrase('import.linesEndCrLf')],
  ['UTF-16', phrase('import.isUtf16')],
  ['mark', phrase('import.hasByteOrderMark')]
];
/**
 * What the checker finds, by its name for it, in words.
 * @type {any[]}
 */
const FAULTS = [
  'import.faultNotCert',
  'import.faultBadLine',
  'import.faultPlace',
  'import.faultNotDead',
  'import.faultNotDone',
  'import.faultEnded',
  'import.faultTrailing'
];

function inWords(text) {
  const [, name, line] = /^certificate (\w+) at line (\d+)$/.exec(text) ?? [];
  const fault = FAULTS.find((one) => one === `import.fault${name}`);
  return fault ? phrase(fault, {line}) : '';
}

// What a check in an engine of its own says of a certificate and a document: a sentence, and
// whether it proves the puzzle.
async function checkedCertificate(certificate, doc, engine) {
  try {
    const published =
        [...doc.givens].map((place) => [rowOf(doc, place) + 1, columnOf(doc, place) + 1]);
    const {accepted, text, hint} = await engine.check(
        plainOf(doc).text, certificate, {background: doc.colours[0].join(','), published}
    );
    if (accepted)
      return {
        proves: true,
        text: phrase('import.provesPictureOnlySolution', {
          count: doc.givens.size ? phrase('import.givenCells') : ''
        })
      };
    if (text.includes('UnpublishedGiven'))
      return {proves: false, text: phrase('import.countsCellsPuzzleDoes')};
    const [, why] = HINTS.find(([word]) => hint.includes(word)) ?? [];
    return {
      proves: false,
      text: [
        phrase('import.doesNotProvePicture', {value: text.trim()}),
        why ?? inWords(text.trim())
      ].filter(Boolean
      ).join(' ')
    };
  } finally {
    engine.end();
  }
}

/**
 * Checks a certificate against the open picture, until the user stops it, and tells what came
 * of it for as long as that is open.
 */
export async function takeCertificate(certificate, name) {
  if (!bench.state) {
    say(phrase('import.certificateOpenPictureFirst', {name}), 'alarm');
    return false;
  }
  await asSeen();
  const doc = docOf(bench.state);
  const {proves, text} = await withProgress(
      phrase('import.checking', {name}),
      (progress) => checkedCertificate(certificate, doc, progress.held(startEngine()))
  );
  if (!bench.state || !sameDoc(doc, bench.state)) return false;
  const unsay = say(phrase('import.certificateSays', {name, text}), proves ? '' : 'alarm');
  const end = on('shown', (state) => {
    if (sameDoc(doc, state)) return;
    end();
    unsay();
  });
  return proves;
}

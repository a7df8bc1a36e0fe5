// What is done alike to the text of LLVM's module of a proved crate where it gets another target:
// by web/narrow.mjs for browsers, and by platforms/retarget.mjs for other systems. The module was
// made for Linux on x86-64; any other is refused.
import {readFileSync, writeFileSync} from 'node:fs';
import {basename} from 'node:path';

const WIDE_LAYOUT =
    'target datalayout = "e-m:e-p270:32:32-p271:32:32-p272:64:64-i64:64-i128:128-f80:128-n8:16:32:64-S128"';
const LABEL = /^(?:[\w.]+|"[^"]*"):(?: +;.*)?$/;

/** The number of the line that is rewritten. */
export let number = 0;

/** Ends the script at a line whose form it does not know. */
export function refuse(line) {
  console.error(`${basename(process.argv[1])}: line ${number} has a form that is not known: ${line}`
  );
  process.exit(1);
}

/** The lines that say for what clang compiled a file: its layout and triple. */
export const targetOf = (file) =>
    readFileSync(file, 'utf8').split('\n').filter((line) => line.startsWith('target '));

/**
 * What a line about the module's target becomes, null where it is none: these lines, and
 * attributes without those that are named.
 */
export function retargeted(line, target, ties) {
  if (line.startsWith('target datalayout')) return line === WIDE_LAYOUT ? target : refuse(line);
  if (line === 'target triple = "x86_64-unknown-linux-gnu"') return [];
  if (line.startsWith('target ')) return refuse(line);
  if (!line.startsWith('attributes #')) return null;
  return [line.replace(
                  new RegExp(` "(?:${ties.join('|')})"="[^"]*"`, 'g'), ''
  ).replace('{ }', '{ nounwind }')];
}

/**
 * Writes a module's lines to a file, as `instruction` gives those within functions and `outside`
 * the others: each a list of lines.
 */
export function rewrite(text, file, instruction, outside) {
  let isInside = false;
  const made = [];
  for (const line of text.split('\n')) {
    number += 1;
    if (isInside && line.startsWith('  '))
      made.push(...instruction(line.slice(2)).map((one) => `  ${one}`));
    else if (isInside && line !== '' && line !== '}' && !LABEL.test(line))
      refuse(line);
    else if (isInside)
      made.push(line);
    else
      made.push(...outside(line));
    if (line.startsWith('define')) isInside = true;
    if (line === '}') isInside = false;
  }
  writeFileSync(file, made.join('\n'));
}

// Checks a certificate by the package for npm, with the cells that are published: node ask.mjs
// PICTURE CERTIFICATE [ROW,COLUMN ..]. It prints what c/example.c prints, and has its exit
// statuses.
import {readFile} from 'node:fs/promises';
import {load} from 'nonobench';

const [picture, certificate, ...places] = process.argv.slice(2);
const engine = await load();
const published = places.map((place) => place.split(',').map(Number));
const {accepted, text} =
    engine.check(await readFile(picture), await readFile(certificate), {published});
console.log(accepted ? text.trimEnd() : `refused: ${text.trimEnd()}`);
process.exitCode = accepted ? 0 : 1;

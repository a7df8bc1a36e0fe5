// Takes the module out of the page and writes it: node page.mjs nonobench.html FILE. The page packs
// it as web/join.mjs says.
import {readFileSync, writeFileSync} from 'node:fs';
import {gunzipSync} from 'node:zlib';
import {bytesOfSigns} from '../../../page/engine/signs.js';

const [page, file] = process.argv.slice(2);
const [, built] =
    /<script type="application\/json" id="built">(.*?)<\/script>/s.exec(readFileSync(page, 'utf8'));
const {packed, size, worker} = JSON.parse(built);
writeFileSync(file, gunzipSync(bytesOfSigns(packed, size)).subarray(worker));

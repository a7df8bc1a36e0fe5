// The limits that the page keeps to, read from the crates' constants: limitsOf(ROOT).
import {readFileSync} from 'node:fs';
import {join} from 'node:path';

const PLACES = {
  side: ['picture', 'picture', 'MAX_SIDE'],        // rows and columns of a picture
  colours: ['picture', 'picture', 'MAX_COLOURS'],  // of a palette, with the background
  history: ['edits', 'studio', 'MAX_DEPTH'],       // edits that a bench can take back
};

/** The value of each limit, as a number. Throws where a crate has no such constant. */
export function limitsOf(root) {
  const limit = ([crate, file, name]) => {
    const text = readFileSync(join(root, 'crates', crate, 'src', `${file}.rt`), 'utf8');
    const found = new RegExp(`^pub const ${name}: \\w+ = ([0-9_]+);$`, 'm').exec(text);
    if (!found) throw new Error(`crates/${crate}/src/${file}.rt has no ${name}`);
    return Number(found[1].replaceAll('_', ''));
  };
  return Object.fromEntries(Object.entries(PLACES).map(([name, place]) => [name, limit(place)]));
}

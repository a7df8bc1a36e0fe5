// Which tests in node wait for a release: those of words that the engine, as conftest.py chose it,
// does not have yet. And which take long.

const numbers = (version) => version.split('.').map(Number);
const isLater = (one, other) => {
  const [a, b] = [numbers(one), numbers(other)];
  const at = a.findIndex((number, place) => number !== b[place]);
  return at >= 0 && a[at] > b[at];
};

/** The version of the release that is tried, where the engine has changed since; else undefined. */
export const TRIED = process.env.TRIED;

/** For `skip`: false, or why a test of what there is since a version waits. */
export const waits = (version) =>
    (TRIED !== undefined && isLater(version, TRIED) ?
         `it waits for the release ${version}, which has its words` :
         false);

/** For `skip`: false, or why a test that takes long is left out. */
export const long = process.env.SHORT || false;

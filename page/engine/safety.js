// Which cells may be painted so that a puzzle keeps what it has: asked of a session on a copy of
// the document, which paints a cell, hears the verdict, and paints it back.

const BATCH = 32;  // cells that are asked about in one text
const ALLOWED = {
  lines: 0,
  unique: 100
};  // splits of a search: by none, lines decide

/**
 * What is to be kept: 'lines' where line logic solves a puzzle, 'unique' where it has one solution,
 * and null where it has neither, or that is not known.
 */
export function goalOf({verdict, open}) {
  if (verdict.word !== 'unique') return null;
  return open === 0 ? 'lines' : 'unique';
}

// What a verdict says of a cell that was painted. Without a split, 'undecided' is that lines alone
// do not solve it any more.
function markOf({word}, goal) {
  if (word === 'unique') return 'safe';
  return word === 'undecided' && goal === 'unique' ? 'undecided' : 'breaks';
}

const placeText = (place, columns) => `${Math.floor(place / columns) + 1} ${place % columns + 1}`;
const letterAt = ({picture, columns}, place) =>
    picture[Math.floor(place / columns)][place % columns];

/**
 * Asks about places, each painted alone in a colour: `take` gets them in parts, as a Map of a
 * place to 'safe', 'breaks' or 'undecided'. `copy.say` answers lines on the document of `state`.
 */
export async function askMarks(copy, state, {places, letter, goal}, take) {
  const others = places.filter((place) => letterAt(state, place) !== letter);
  for (let from = 0; from < others.length; from += BATCH) {
    const some = others.slice(from, from + BATCH);
    const lines = some.flatMap((place) => {
      const text = placeText(place, state.columns);
      return [`paint ${text} ${letter}`, 'verdict', `paint ${text} ${letterAt(state, place)}`];
    });
    const answers = await copy.say(`allow ${ALLOWED[goal]}`, ...lines);
    take(new Map(some.map((place, at) => [place, markOf(answers[at * 3 + 2], goal)])));
  }
}

/**
 * The places, of some in their order, that may be painted in a colour one after the other: each is
 * safe after those before it. The copy is another picture then.
 */
export async function safePlaces(copy, state, {places, letter, goal}) {
  const safe = [];
  for (const place of places.filter((one) => letterAt(state, one) !== letter)) {
    const text = placeText(place, state.columns);
    const [, , verdict] =
        await copy.say(`allow ${ALLOWED[goal]}`, `paint ${text} ${letter}`, 'verdict');
    if (markOf(verdict, goal) === 'safe')
      safe.push(place);
    else
      await copy.say(`paint ${text} ${letterAt(state, place)}`);
  }
  return safe;
}

// What can turn in an ambiguous picture: the cells in which another picture with its clues differs,
// in groups that share no row and no column. Each group can turn by itself: every line then has its
// cells as one of the two pictures has them.

const linesOf = (place, columns) => [`r${Math.floor(place / columns)}`, `c${place % columns}`];

// The places that one is connected with by lines. The lines are taken out of `inLine`, which has
// the places of each.
function groupOf(first, inLine, linesIn) {
  const group = new Set([first]);
  for (const place of group) {  // it grows meanwhile
    for (const line of linesIn(place)) {
      for (const one of inLine.get(line) ?? []) group.add(one);
      inLine.delete(line);
    }
  }
  return group;
}

/**
 * Places in groups that share no line, each in ascending order. `linesIn` answers the lines of a
 * place.
 */
export function groupsByLines(places, linesIn) {
  const inLine = new Map();
  for (const place of places) {
    for (const line of linesIn(place)) {
      if (!inLine.has(line)) inLine.set(line, []);
      inLine.get(line).push(place);
    }
  }
  const [left, groups] = [new Set(places), []];
  for (const first of left) {
    const group = groupOf(first, inLine, linesIn);
    for (const place of group) left.delete(place);
    groups.push([...group].sort((one, other) => one - other));
  }
  return groups;
}

/** The groups of places in which two pictures differ. */
export function turningPlaces(picture, other) {
  const columns = picture[0].length;
  const others = other.join('');
  const differing =
      [...picture.join('')].flatMap((letter, place) => (letter === others[place] ? [] : [place]));
  return groupsByLines(differing, (place) => linesOf(place, columns));
}

/** All places of the lines that some places lie in. */
export function placesOfLines(places, {rows, columns}) {
  const lines = new Set(places.flatMap((place) => linesOf(place, columns)));
  return [...Array(rows * columns).keys()].filter(
      (place) => linesOf(place, columns).some((line) => lines.has(line))
  );
}

// What may help a picture of which few repaints make no puzzle: it follows from its colours and
// from how its cells lie together.

const MOST_LONE = 0.12;   // of the cells: more stand alone in a picture that was dithered
const LEAST_CELLS = 100;  // of such a picture
const LEAST_INKED = 0.3;  // of the cells of a picture in two colours
const LEAST_COLOURED = 0.15;
const MANY = 5;  // colours with the background

// Whether a cell has another colour than each of its neighbours.
function isLone(picture, row, col) {
  const own = picture[row][col];
  const beside = [[-1, 0], [1, 0], [0, -1], [0, 1]].map(
      ([down, across]) => picture[row + down]?.[col + across]
  );
  return !beside.includes(own);
}

/**
 * What to advise: 'dithered', many cells stand alone; 'thin', two colours, few cells; 'sparse',
 * more colours, few cells; 'colours', many of them; else 'areas', which could be larger.
 */
export function adviceOf({picture}) {
  const cells = picture.join('');
  const share = (count) => count / cells.length;
  const lone = picture.reduce(
      (sum, row, at) => sum + [...row].filter((_, col) => isLone(picture, at, col)).length, 0
  );
  const inked = share([...cells].filter((letter) => letter !== '.').length);
  const colours = new Set(cells).add('.').size;
  if (cells.length >= LEAST_CELLS && share(lone) > MOST_LONE) return 'dithered';
  if (colours <= 2) return inked < LEAST_INKED ? 'thin' : 'areas';
  if (inked < LEAST_COLOURED) return 'sparse';
  return colours >= MANY ? 'colours' : 'areas';
}

// Numbers that look drawn by chance, and are the same each time.

/** What gives a number from 0 to 1 at each call; `seed` is from 1 to 2147483646. */
export function chances(seed) {
  let state = seed;
  return () => (state = (state * 48271) % 2147483647) / 2147483647;
}

// Shares of a solving path.

/** The shares of the path that the film strip shows, in percent. */
export const SHARES = [10, 25, 50, 75, 90];

/** The number of steps that make a share of a walk, in percent. */
export const stepAt = (walk, share) => Math.round((share * walk.steps.length) / 100);

// How the program ends without its answer.

/**
 * Why the program ends: `status` is its exit status, and the message all that is said on standard
 * error.
 */
export class Ending extends Error {
  constructor(status, said) {
    super(said);
    this.name = 'Ending';
    this.status = status;
  }
}

/** An ending that is told in the program's name. */
export const ended = (status, text) => new Ending(status, `nonobench: ${text}\n`);

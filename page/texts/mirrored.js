// English from right to left, and longer by three tenths: texts for tests of the page. What was
// laid out for English alone breaks in it.

const [FROM_RIGHT, AS_BEFORE] = ['\u202e', '\u202c'];
const MORE = ' longer words';

/** A text, mirrored and longer. */
export const mirrored = (text) => `${FROM_RIGHT}${text}${
    MORE.repeat(text.length / 40 + 1).slice(0, Math.ceil(text.length * 0.3))}${AS_BEFORE}`;

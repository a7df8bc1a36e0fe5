// Bytes as signs that neither HTML nor JSON takes for its own: 13 bits are two of 91 signs, the
// printable ones of ASCII but ", < and \.

const SIGNS = Array.from(
                       {length: 94}, (_, at) => String.fromCharCode(33 + at)
).filter((sign) => !/["<\\]/.test(sign));
const VALUES = Object.fromEntries(SIGNS.map((sign, value) => [sign, value]));

/** The signs of bytes. */
export function signsOf(bytes) {
  let bits = 0, count = 0, signs = '';
  const put = (value) => {
    signs += SIGNS[Math.floor(value / 91)] + SIGNS[value % 91];
  };
  for (const byte of bytes) {
    bits = bits << 8 | byte;
    count += 8;
    if (count < 13) continue;
    count -= 13;
    put(bits >> count & 8191);
  }
  if (count) put(bits << 13 - count & 8191);
  return signs;
}

/** The bytes, so many of them, of their signs. */
export function bytesOfSigns(signs, size) {
  const bytes = new Uint8Array(size);
  let bits = 0, count = 0, to = 0;
  for (let at = 0; at < signs.length; at += 2) {
    bits = bits << 13 | VALUES[signs[at]] * 91 + VALUES[signs[at + 1]];
    for (count += 13; count > 7;) bytes[to++] = bits >> (count -= 8);
  }
  return bytes;
}

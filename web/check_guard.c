// The exports of nonobench-check.wasm, in front of the proved calls: where what a host names does
// not lie within the memory, the call is refused, and nothing is read or written there.
#include "within.h"

typedef unsigned short sample;

void nonocheck_version(byte *, u64);
unsigned nonocheck_check(
    const byte *, u64, const byte *, u64, const byte *, u64, const sample *, u64, byte *, u64
);
unsigned nonocheck_check_any_given(
    const byte *, u64, const byte *, u64, const sample *, u64, byte *, u64
);
unsigned nonocheck_flaws(const byte *, u64, const sample *, u64, _Bool *, _Bool *, byte *, u64);

// Exports a function of this file as the call of that name.
#define CALL(name) __attribute__((export_name("nonocheck_" #name)))

// Whether so many samples lie within the memory. No background has more than three.
static _Bool are_within(u64 at, u64 count) {
  return count <= 3 && at % sizeof(sample) == 0 && is_within(at, count * sizeof(sample));
}

CALL(version)
void version_within(u64 out, u64 room) {
  if (is_within(out, room)) nonocheck_version(here(out), room);
}

CALL(check_any_given)
unsigned check_any_given_within(
    u64 file, u64 size, u64 cert, u64 cert_size, u64 background, u64 count, u64 out, u64 room
) {
  if (!is_within(file, size) || !is_within(cert, cert_size) || !are_within(background, count) ||
      !is_within(out, room))
    return OPTIONS;
  return nonocheck_check_any_given(
      here(file), size, here(cert), cert_size, here(background), count, here(out), room
  );
}

CALL(check)
unsigned check_within(
    u64 file,
    u64 size,
    u64 cert,
    u64 cert_size,
    u64 givens,
    u64 givens_size,
    u64 background,
    u64 count,
    u64 out,
    u64 room
) {
  if (!is_within(file, size) || !is_within(cert, cert_size) || !is_within(givens, givens_size))
    return OPTIONS;
  if (!are_within(background, count) || !is_within(out, room)) return OPTIONS;
  return nonocheck_check(
      here(file),
      size,
      here(cert),
      cert_size,
      here(givens),
      givens_size,
      here(background),
      count,
      here(out),
      room
  );
}

CALL(flaws)
unsigned flaws_within(
    u64 file,
    u64 size,
    u64 background,
    u64 count,
    u64 is_blank,
    u64 lacks_background,
    u64 alike,
    u64 room
) {
  if (!is_within(file, size) || !are_within(background, count) || !is_within(alike, room))
    return OPTIONS;
  if (!is_within(is_blank, 1) || !is_within(lacks_background, 1)) return OPTIONS;
  return nonocheck_flaws(
      here(file),
      size,
      here(background),
      count,
      here(is_blank),
      here(lacks_background),
      here(alike),
      room
  );
}

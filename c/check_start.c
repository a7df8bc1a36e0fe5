/* The calls of libnonocheck on x86-64, in front of the proved ones, which run only if the processor
 * can run them. This is C and tested, not proved; c/proved.names has the names of the proved calls.
 */
#include "nonocheck.h"
#include "processor.h"

#include <string.h>

__typeof__(nonocheck_version) proved_check_version;
__typeof__(nonocheck_check) proved_check;
__typeof__(nonocheck_check_any_given) proved_check_any_given;
__typeof__(nonocheck_flaws) proved_flaws;

/* Puts no text. */
static uint32_t refuse(uint8_t *out, size_t room) {
  memset(out, 0, room);
  return NONOCHECK_PROCESSOR;
}

void nonocheck_version(uint8_t *out, size_t room) {
  if (has_processor())
    proved_check_version(out, room);
  else
    refuse(out, room);
}

uint32_t nonocheck_check(
    const uint8_t *picture,
    size_t picture_size,
    const uint8_t *certificate,
    size_t certificate_size,
    const uint8_t *published,
    size_t published_size,
    const uint16_t *background,
    size_t samples,
    uint8_t *out,
    size_t room
) {
  if (!has_processor()) return refuse(out, room);
  return proved_check(
      picture,
      picture_size,
      certificate,
      certificate_size,
      published,
      published_size,
      background,
      samples,
      out,
      room
  );
}

uint32_t nonocheck_check_any_given(
    const uint8_t *picture,
    size_t picture_size,
    const uint8_t *certificate,
    size_t certificate_size,
    const uint16_t *background,
    size_t samples,
    uint8_t *out,
    size_t room
) {
  if (!has_processor()) return refuse(out, room);
  return proved_check_any_given(
      picture, picture_size, certificate, certificate_size, background, samples, out, room
  );
}

uint32_t nonocheck_flaws(
    const uint8_t *picture,
    size_t picture_size,
    const uint16_t *background,
    size_t samples,
    bool *is_blank,
    bool *lacks_background,
    uint8_t *alike,
    size_t room
) {
  *is_blank = *lacks_background = false;
  if (!has_processor()) return refuse(alike, room);
  return proved_flaws(
      picture, picture_size, background, samples, is_blank, lacks_background, alike, room
  );
}

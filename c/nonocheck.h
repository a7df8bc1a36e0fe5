/* Checks certificates of nonograms in a program of your own: over libnonocheck, which is proved,
 * and has no search in it.
 *
 * Link with libnonocheck.a or libnonocheck.so (c/build). On x86-64 it needs a processor with SSE4.2
 * (x86-64-v2, 2009 and later), which a virtual machine may hide; what looks for it is C
 * (c/check_start.c) and tested. Each call is proved, from the bytes that it is passed to its status
 * and text: docs/THEOREMS.md says what that means. An accepted certificate proves that no other
 * picture of that size has the clues and the colours in its givens. Nothing checks that the caller
 * meets its obligations:
 *   - a pointer leads to as much as the length that goes with it says, and is not null, even with
 * the length 0;
 *   - what a call writes to does not overlap anything else that it is passed.
 * The library keeps nothing between calls, so threads may call it at once. It opens no file and
 * prints nothing.
 */
#ifndef NONOCHECK_H
#define NONOCHECK_H

#include <stdbool.h>
#include <stddef.h>
#include <stdint.h>

#ifdef __cplusplus
extern "C" {
#endif

/* The version of this header. nonocheck_version gives the version of the library. */
#define NONOCHECK_VERSION "0.8.0"

/* How much room the longest text needs, with a NUL behind it. */
#define NONOCHECK_ROOM ((size_t)96)

/* How many bytes of stack a call needs at the most: measured, not proved. */
#define NONOCHECK_STACK ((size_t)65536)

/* What a call answers. */
enum {
  NONOCHECK_DONE = 0,     /* the certificate is accepted */
  NONOCHECK_REFUSED = 1,  /* picture, givens or certificate is refused; the text is what the program
                             says after `nonobench: ` */
  NONOCHECK_MEMORY = 4,   /* out of memory; there is no text */
  NONOCHECK_OPTIONS = 6,  /* the background has neither no samples nor three; there is no text */
  NONOCHECK_PROCESSOR = 7 /* only on x86-64: the processor has no SSE4.2; there is no text */
};

/* Each call puts as much of its text as there is room for at `out`, and zeros behind it: with
 * NONOCHECK_ROOM, a text with a NUL. */

/* The version of the library, as `nonobench --version` prints it after the name; no text where the
 * other calls answer PROCESSOR. */
void nonocheck_version(uint8_t *out, size_t room);

/* Checks a certificate of a P3 picture, in any of its forms. `published` is the file of the givens
 * that are published, a line `given R C` each; if it is empty, none is. An accepted certificate
 * proves that no other picture has the clues and the colours in the published cells. If it names
 * another cell, the text is `certificate UnpublishedGiven at line N`; if the file of givens is
 * refused, `givens NAME at line N`. `background` is three samples, red, green and blue as the
 * picture has them, or none (samples 0) for white. */
uint32_t nonocheck_check(
    const uint8_t *picture,
    size_t picture_size,
    const uint8_t *certificate,
    size_t certificate_size,
    const uint8_t *published,
    size_t published_size,
    const uint16_t *background,
    size_t samples,
    uint8_t *out,
    size_t room
);

/* The same for a certificate that may name any givens, even all cells: the text says how many. It
 * is for whoever then publishes these. */
uint32_t nonocheck_check_any_given(
    const uint8_t *picture,
    size_t picture_size,
    const uint8_t *certificate,
    size_t certificate_size,
    const uint16_t *background,
    size_t samples,
    uint8_t *out,
    size_t room
);

/* How much room all pairs of colours need. */
#define NONOCHECK_PAIRS ((size_t)240)

/* Finds the flaws of a P3 picture that show without a search: whether it is blank, whether no cell
 * has the background, and the pairs of colours that look alike, among those that cells have and the
 * background. A pair is two bytes, the numbers of its colours,
 * 0 for the background; zeros come behind the last. Where the picture is REFUSED there are none,
 * and the text of nonocheck_check says why. */
uint32_t nonocheck_flaws(
    const uint8_t *picture,
    size_t picture_size,
    const uint16_t *background,
    size_t samples,
    bool *is_blank,
    bool *lacks_background,
    uint8_t *alike,
    size_t room
);

#ifdef __cplusplus
}
#endif

#endif

/* Checks certificates of nonograms, and judges pictures, in a program of your own: over
 * libnonobench, which is proved.
 *
 * Link with libnonobench.a or libnonobench.so (c/build). On x86-64 it needs a processor with SSE4.2
 * (x86-64-v2, 2009 and later), which a virtual machine may hide: elsewhere nothing is answered but
 * PROCESSOR. There are two layers. The proved calls work on a desk. The functions at the end of
 * this file each make a desk, ask one question and end the desk; they suit most programs.
 *
 * Each call of the library is proved, from the bytes that it is passed to its status and text:
 * docs/THEOREMS.md says what that means. An accepted certificate proves that no other picture of
 * that size has the clues and the colours in its givens. Nothing checks that the caller meets its
 * obligations:
 *   - a pointer leads to as many bytes as the length that goes with it says. In a call of the
 * library it is not null, even with the length 0; only nonobench_end accepts a null and does
 * nothing. The functions at the end of this file accept a null with the length 0, and refuse one
 * with a length above 0;
 *   - a desk's cell holds what nonobench_start put there until nonobench_end, and calls on one desk
 * come one after another;
 *   - what a call writes to does not overlap anything else that it is passed.
 * The functions at the end of this file are C (c/pair.c), and so is what looks at an x86-64
 * processor (c/start.c). They are tested, not proved.
 *
 * The library opens no file, prints nothing and keeps nothing outside its desks. So threads with a
 * desk each are independent. Do not call it in a child that was forked from a program with threads,
 * before the child has run exec: the heap may be locked.
 */
#ifndef NONOBENCH_H
#define NONOBENCH_H

#include <stdbool.h>
#include <stddef.h>
#include <stdint.h>

#ifdef __cplusplus
extern "C" {
#endif

/* The version of this header. nonobench_version gives the version of the library. */
#define NONOBENCH_VERSION "0.8.0"

/* How many bytes a picture, a certificate or a file of givens may have, as for the program. The
 * library itself accepts any length. */
#define NONOBENCH_MOST_BYTES ((size_t)16777216)

/* How many bytes of stack a call needs at the most, whatever it is passed: measured, not proved.
 * Half of that is too little for some calls, and then the system ends the process. Threads of
 * glibc, macOS and Windows have more by default. Those of musl (Alpine Linux) have 131072 bytes,
 * which is too little: start one that calls with pthread_attr_setstacksize. */
#define NONOBENCH_STACK ((size_t)196608)

/* What a call answers. */
enum {
  NONOBENCH_DONE = 0,    /* done; a certificate is accepted */
  NONOBENCH_REFUSED = 1, /* picture, puzzle, givens or certificate is refused; the text is what the
                            program says after `nonobench: ` */
  NONOBENCH_MEMORY =
      4, /* out of memory; of nonobench_say also: the lines have more than 4294963200 bytes */
  NONOBENCH_CLOSED = 5, /* no bench has the handle */
  /* background, history, allowance or format is of another form; of the functions at the end of
     this file, also: a null comes with a length above 0 */
  NONOBENCH_OPTIONS = 6,
  NONOBENCH_PROCESSOR = 7 /* only on x86-64: the processor has no SSE4.2 */
};

/* ---- the calls of the library */

/* Copies the library's version as far as there is room, as `nonobench --version` prints it after
 * the name, and answers how many bytes it has: 0 where nonobench_start answers PROCESSOR. No NUL is
 * added. It needs no desk. */
size_t nonobench_version(uint8_t *out, size_t room);

/* Benches (open pictures) under handles, and the text of the last call. Only nonobench_start makes
 * one. */
typedef struct nonobench_desk nonobench_desk;

/* Puts a new desk in the cell: DONE, MEMORY or PROCESSOR. The calls below take the address of this
 * cell. */
uint32_t nonobench_start(nonobench_desk **desk);

/* Ends a desk with all its benches. Does nothing for a null. */
void nonobench_end(nonobench_desk *desk);

/* Opens a bench on a P3 picture, or a .non text if `non` is true. `background` is a text such as
 * 255,0,0, or empty for white; `history` is 1 to 1000. Stores the bench's handle, or 0 if none is
 * opened. The text is the palette: a line `colour . 255 255 255` for each colour, with its letter,
 * and its red, green and blue on the scale of the picture, up to its maxval. The background comes
 * first, and the others as they first appear, row by row. */
uint32_t nonobench_open(
    nonobench_desk **desk,
    const uint8_t *file,
    size_t size,
    bool non,
    const uint8_t *background,
    size_t background_size,
    uint32_t history,
    uint32_t *handle
);

/* Answers lines of commands as a session does (docs/SESSION.md). The answers are the text. */
uint32_t nonobench_say(nonobench_desk **desk, uint32_t handle, const uint8_t *lines, size_t size);

/* Copies the text of the last call as far as there is room, and answers how many bytes it has. No
 * NUL is added. There is no text after the statuses MEMORY, CLOSED and OPTIONS; but after MEMORY
 * from nonobench_say it is the answers that found room. */
size_t nonobench_take(nonobench_desk **desk, uint8_t *out, size_t room);

/* Ends a bench. That takes the longer, the more benches are open on the desk. Where there are
 * thousands, give each a desk of its own, and end that. */
uint32_t nonobench_close(nonobench_desk **desk, uint32_t handle);

/* Checks a certificate of a P3 picture, in any of its forms. `published` is the file of the givens
 * that are published, a line `given R C` each; if it is empty, none is. An accepted certificate
 * proves that no other picture has the clues and the colours in the published cells. If it names
 * another cell, the text is `certificate UnpublishedGiven at line N`; if the file of givens is
 * refused, `givens NAME at line N`. Of one that is accepted the text is the line that the program
 * prints, and then a line `given R C` for each of its givens, in its order. */
uint32_t nonobench_check(
    nonobench_desk **desk,
    const uint8_t *picture,
    size_t picture_size,
    const uint8_t *certificate,
    size_t certificate_size,
    const uint8_t *published,
    size_t published_size,
    const uint8_t *background,
    size_t background_size
);

/* The same for a certificate that may name any givens, even all cells: for whoever then publishes
 * these. */
uint32_t nonobench_check_any_given(
    nonobench_desk **desk,
    const uint8_t *picture,
    size_t picture_size,
    const uint8_t *certificate,
    size_t certificate_size,
    const uint8_t *background,
    size_t background_size
);

/* Assesses a puzzle, a P3 text or (`non`) a .non text with a goal: whether it is fit to be
 * published. The text is what `nonobench assess` prints for it, which ends with `fit` or `unfit`,
 * and then the palette, as for nonobench_open; or why it is refused. The texts of a file of givens
 * and of a certificate count if `has_givens` and `has_certificate` say that they are passed. The
 * allowance is a word: 0 to 99999, `off`, or none, which stands for 10000. */
uint32_t nonobench_assess(
    nonobench_desk **desk,
    const uint8_t *puzzle,
    size_t puzzle_size,
    bool non,
    const uint8_t *background,
    size_t background_size,
    bool has_givens,
    const uint8_t *givens,
    size_t givens_size,
    bool has_certificate,
    const uint8_t *certificate,
    size_t certificate_size,
    const uint8_t *allowance,
    size_t allowance_size
);

/* Makes a certificate of a P3 picture, as `nonobench prove` does: the text. Its givens are exactly
 * those of the file `published`, which may be empty. It is the shortest that was found: one with
 * lemmas, in the form `nonolemma 1` or `nonolemma 2` that `format` names (1 or 2), or a tree. If
 * another picture with the clues and the colours in these givens was found, the text is `ambiguous`
 * with a line feed; if neither was found within the bounds of the search, `undecided`. A search
 * that is `complete` has no bounds. It may take minutes, and then any time. */
uint32_t nonobench_prove(
    nonobench_desk **desk,
    const uint8_t *picture,
    size_t picture_size,
    const uint8_t *published,
    size_t published_size,
    const uint8_t *background,
    size_t background_size,
    bool complete,
    uint32_t format
);

/* ---- one question each: C, tested and not proved */

/* Where a text is put. `size` becomes the bytes of the whole text. As much as fits is put at `at`,
 * followed by a NUL. */
typedef struct nonobench_text {
  char *at;
  size_t room; /* with the NUL; 0 if `at` is null */
  size_t size;
} nonobench_text;

/* A cell, its row and column counted from 1. */
typedef struct nonobench_place {
  uint32_t row, column;
} nonobench_place;

typedef enum nonobench_ruling {
  NONOBENCH_UNDECIDED,
  NONOBENCH_UNIQUE,
  NONOBENCH_AMBIGUOUS
} nonobench_ruling;

/* What goes with a picture and its certificate. If all of it is zero, the background is white and
 * no cell is published. */
typedef struct nonobench_options {
  const char *background; /* such as 255,0,0, or null for white */
  const nonobench_place
      *published; /* the cells that you publish with their colours, in any order, none twice */
  size_t published_count;
  bool any_given; /* accept any givens: for whoever then publishes these (nonobench_givens) */
} nonobench_options;

/* Checks a certificate of a P3 picture, in any of its forms: DONE if it is accepted. A puzzle is
 * unique WITH the givens that its certificate names, and these may be all cells. So one that names
 * a given which is not published is REFUSED, with the text `certificate UnpublishedGiven at line
 * N`. If the published cells cannot be those of the picture, it is REFUSED with the text `givens
 * NAME at line N`, where N counts them from 1. `options` and `text` may be null, and then no cell
 * is published. The text is as for nonobench_check. */
uint32_t nonobench_check_pair(
    const void *picture,
    size_t picture_size,
    const void *certificate,
    size_t certificate_size,
    const nonobench_options *options,
    nonobench_text *text
);

/* Deprecated: the old name of nonobench_check_pair. */
uint32_t nonobench_verify_pair(
    const void *picture,
    size_t picture_size,
    const void *certificate,
    size_t certificate_size,
    const nonobench_options *options,
    nonobench_text *text
);

/* Reads the places of the givens from the text of a check that accepted a certificate, or from a
 * certificate that was refused for one of them or accepted: as many as there is room for, and
 * answers how many there are. For other bytes the answer has no meaning, but nothing outside them
 * is read. */
size_t nonobench_givens(const void *certificate, size_t size, nonobench_place *places, size_t room);

/* The clues of a P3 picture, a line each, as the program prints them, and then its palette, as for
 * nonobench_open. `background` is such as 255,0,0, or null for white. */
uint32_t nonobench_clues(
    const void *picture, size_t size, const char *background, nonobench_text *text
);

/* Whether another picture has the clues of a P3 picture. `allowance`, 0 to 99999, is how many
 * splits the search of a part may make; below 0 there is no such bound, and a call may take very
 * long. The text is what a session answers to `verdict`, and then the palette, as for
 * nonobench_open; if the ruling is AMBIGUOUS, the rows are another picture. `ruling` and `text` may
 * be null. */
uint32_t nonobench_verdict(
    const void *picture,
    size_t size,
    const char *background,
    int32_t allowance,
    nonobench_ruling *ruling,
    nonobench_text *text
);

/* A ruling, and a certificate if it is UNIQUE. */
typedef struct nonobench_audited {
  nonobench_ruling ruling;
  char *certificate;       /* followed by a NUL, for nonobench_free; null if there is none */
  size_t certificate_size; /* without the NUL */
} nonobench_audited;

/* Frees a certificate that a call below returned; does nothing for a null. Nothing else may free
 * it: your program's free() may be that of another C library. */
void nonobench_free(void *certificate);

/* A certificate of a P3 picture, without givens. It has no bound, so it may take very long. If
 * another picture has the clues, the ruling is AMBIGUOUS and there is no certificate. The text is
 * `unique` or `ambiguous` with a line feed, or why the picture is refused; `text` may be null. */
uint32_t nonobench_certify(
    const void *picture,
    size_t size,
    const char *background,
    nonobench_audited *found,
    nonobench_text *text
);

/* A certificate of a P3 picture whose givens are exactly the published cells, by default none. It
 * is often shorter than that of nonobench_certify, and sometimes found when that takes too long.
 * The search has bounds unless it is `complete`, and may take minutes; if it reaches a bound, the
 * ruling is UNDECIDED. `format` is 2, or 1 for a certificate with lemmas that is `nonolemma 1`. The
 * text is `unique`, `ambiguous` or `undecided` with a line feed, or why the picture or the
 * published cells are refused. `options`, whose `any_given` must be false, and `text` may be null.
 */
uint32_t nonobench_prove_picture(
    const void *picture,
    size_t size,
    const nonobench_options *options,
    bool complete,
    uint32_t format,
    nonobench_audited *found,
    nonobench_text *text
);

/* Verdict and certificate of a P3 picture that is opened once. Allowance and text are as for
 * nonobench_verdict. There is a certificate if the ruling is UNIQUE; making it has no bound. */
uint32_t nonobench_audit(
    const void *picture,
    size_t size,
    const char *background,
    int32_t allowance,
    nonobench_audited *found,
    nonobench_text *text
);

/* The word of a grade. There is one if the ruling is UNIQUE; it is UNKNOWN if no certificate was
 * found within bounds. */
typedef enum nonobench_grade {
  NONOBENCH_NO_GRADE,
  NONOBENCH_UNKNOWN,
  NONOBENCH_EASY,
  NONOBENCH_MEDIUM,
  NONOBENCH_HARD,
  NONOBENCH_VERY_HARD,
  NONOBENCH_EXPERT
} nonobench_grade;

#define NONOBENCH_MOST_ALIKE 120

/* Whether a puzzle is fit to be published (docs/SESSION.md, nonobench assess). A later version may
 * have more fields behind these: `size`, which the caller sets to sizeof(nonobench_assessment),
 * says how many bytes are written. A cell that there is not has row 0. */
typedef struct nonobench_assessment {
  size_t size;
  nonobench_ruling ruling;
  bool is_fit;
  uint32_t rows, columns, colours, givens, open;
  nonobench_grade grade;
  uint64_t rounds, evaluations, wait, splits, depth; /* 0 if the grade has none */
  bool is_blank, lacks_background;                   /* flaws */
  nonobench_place given;                             /* a flaw: a given that is not needed */
  uint32_t alike_count; /* a flaw, if above 0: pairs of colours, by their letters */
  char alike[NONOBENCH_MOST_ALIKE][2];
} nonobench_assessment;

/* Assesses a puzzle, a P3 text or (`non`) a .non text with a goal. A certificate (not null) takes
 * the place of the search for another solution; `any_given` then publishes the givens that it names
 * (of a .non text, what is wrong with these is reported as `givens`). `allowance` is how many
 * splits the search of a part may make: 0 to 99999 as a text, `off` for no bound, or null for
 * 10000. The text is what the program prints for the puzzle, and then the palette, as for
 * nonobench_open; or why it is refused: then all of `found` is 0, but its size. `options` and
 * `text` may be null. */
uint32_t nonobench_assess_puzzle(
    const void *puzzle,
    size_t puzzle_size,
    bool non,
    const void *certificate,
    size_t certificate_size,
    const nonobench_options *options,
    const char *allowance,
    nonobench_assessment *found,
    nonobench_text *text
);

#ifdef __cplusplus
}
#endif

#endif

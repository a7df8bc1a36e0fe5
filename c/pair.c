/* One question each, over the calls of the proved library: c/build puts these functions into
 * libnonobench, and nonobench.h tells what they do. They are C and tested, not proved. */
#include "nonobench.h"
#include "processor.h"

#include <inttypes.h>
#include <stdio.h>
#include <stdlib.h>
#include <string.h>

#define MOST_ALLOWANCE 99999

/* Bytes as the library takes them: it takes no null. */
static const uint8_t *bytes_of(const void *bytes) {
  return bytes ? (const uint8_t *)bytes : (const uint8_t *)"";
}

static size_t length_of(const char *background) { return background ? strlen(background) : 0; }

/* Puts a text of our own. */
static void put(nonobench_text *text, const char *words) {
  if (!text) return;
  text->size = strlen(words);
  if (!text->at || text->room == 0) return;
  size_t front = text->size < text->room ? text->size : text->room - 1;
  memcpy(text->at, words, front);
  text->at[front] = 0;
}

/* Takes the text of the last call. */
static void take(nonobench_desk **desk, nonobench_text *text) {
  uint8_t none;
  if (!text) return;
  if (!text->at || text->room == 0) {
    text->size = nonobench_take(desk, &none, 0);
    return;
  }
  text->size = nonobench_take(desk, (uint8_t *)text->at, text->room - 1);
  text->at[text->size < text->room ? text->size : text->room - 1] = 0;
}

/* The bytes of the lines of a palette at the most: sixteen such as `colour a 65535 65535 65535`,
 * and a NUL. */
#define MOST_PALETTE 448

/* Takes the palette of a bench that was opened last. */
static void take_palette(nonobench_desk **desk, char *palette) {
  palette[nonobench_take(desk, (uint8_t *)palette, MOST_PALETTE - 1)] = 0;
}

/* Puts a palette below a text. */
static void add_palette(nonobench_text *text, const char *palette) {
  size_t size = strlen(palette);
  if (!text) return;
  if (text->at && text->size < text->room) {
    size_t left = text->room - 1 - text->size, front = size < left ? size : left;
    memcpy(text->at + text->size, palette, front);
    text->at[text->size + front] = 0;
  }
  text->size += size;
}

/* Whether bytes can be handed on: the status and the text where they cannot. */
static uint32_t look(const void *bytes, size_t size, nonobench_text *text) {
  if (!bytes && size > 0) {
    put(text, "a null beside a length");
    return NONOBENCH_OPTIONS;
  }
  if (size > NONOBENCH_MOST_BYTES) {
    put(text, "input too long");
    return NONOBENCH_REFUSED;
  }
  return NONOBENCH_DONE;
}

/* Puts what is said for a status, and answers it. */
static uint32_t tell(nonobench_desk **desk, uint32_t status, nonobench_text *text) {
  if (status == NONOBENCH_MEMORY) {
    put(text, "memory");
  } else if (status == NONOBENCH_OPTIONS) {
    put(text, "background must be R,G,B");
  } else {
    take(desk, text);
  }
  return status;
}

/* Starts a desk: DONE, or why there is none with its text. */
static uint32_t start(nonobench_desk **desk, nonobench_text *text) {
  uint32_t status = nonobench_start(desk);
  if (status == NONOBENCH_MEMORY) put(text, "memory");
  if (status == NONOBENCH_PROCESSOR) put(text, NO_PROCESSOR);
  return status;
}

/* Opens a bench on a picture and a desk of its own. Where that is refused, the desk is ended and
 * the text put. */
static uint32_t open_one(
    nonobench_desk **desk,
    uint32_t *handle,
    const void *picture,
    size_t size,
    const char *background,
    nonobench_text *text
) {
  uint32_t status = look(picture, size, text);
  if (status == NONOBENCH_DONE) status = start(desk, text);
  if (status != NONOBENCH_DONE) return status;
  status = nonobench_open(
      desk, bytes_of(picture), size, false, bytes_of(background), length_of(background), 1, handle
  );
  if (status != NONOBENCH_DONE) {
    tell(desk, status, text);
    nonobench_end(*desk);
  }
  return status;
}

/* Says one line, and takes the answer. Memory that is refused within a session is reported as
 * MEMORY.
 */
static uint32_t ask(
    nonobench_desk **desk, uint32_t handle, const char *line, nonobench_text *text
) {
  char front[9] = "";
  nonobench_text own = {front, sizeof front, 0};
  uint32_t status = nonobench_say(desk, handle, (const uint8_t *)line, strlen(line));
  if (status == NONOBENCH_DONE) {
    take(desk, &own);
    if (strcmp(front, "refused:") == 0) status = NONOBENCH_MEMORY;
  }
  return tell(desk, status, text);
}

/* The number at a place, which moves behind its digits. */
static uint32_t number_at(const uint8_t **at, const uint8_t *end) {
  uint32_t number = 0;
  while (*at < end && **at >= '0' && **at <= '9') number = number * 10 + (uint32_t)(*(*at)++ - '0');
  return number;
}

/* The place behind a line. */
static const uint8_t *behind_line(const uint8_t *at, const uint8_t *end) {
  while (at < end && *at++ != '\n') continue;
  return at;
}

/* Reads the given of a line, and moves behind it; false where the line is none. */
static bool next_given(const uint8_t **at, const uint8_t *end, nonobench_place *place) {
  if ((size_t)(end - *at) <= 6 || memcmp(*at, "given ", 6) != 0) return false;
  *at += 6;
  place->row = number_at(at, end);
  if (*at < end && **at == ' ') *at += 1;
  place->column = number_at(at, end);
  *at = behind_line(*at, end);
  return true;
}

size_t nonobench_givens(
    const void *certificate, size_t size, nonobench_place *places, size_t room
) {
  const uint8_t *end = bytes_of(certificate) + (certificate ? size : 0),
                *at = behind_line(bytes_of(certificate), end);
  nonobench_place place;
  size_t count = 0;
  for (; next_given(&at, end, &place); count++) {
    if (count < room) places[count] = place;
  }
  return count;
}

/* What goes with a picture where nothing is passed. */
static const nonobench_options NO_OPTIONS = {NULL, NULL, 0, false};

/* The bytes of a line `given R C` at the most. */
#define MOST_GIVEN 28

/* Room of our own: DONE, or MEMORY with its text. */
static uint32_t reserve(void **room, size_t size, nonobench_text *text) {
  *room = malloc(size);
  if (*room) return NONOBENCH_DONE;
  put(text, "memory");
  return NONOBENCH_MEMORY;
}

/* Puts the published cells into room of their own, as a file of givens has them: a line each, in
 * their order. */
static uint32_t write_givens(
    const nonobench_options *options, char **givens, size_t *size, nonobench_text *text
) {
  if (!options->published && options->published_count > 0) {
    put(text, "a null beside a length");
    return NONOBENCH_OPTIONS;
  }
  if (options->published_count > NONOBENCH_MOST_BYTES / MOST_GIVEN) {
    put(text, "input too long");
    return NONOBENCH_REFUSED;
  }
  if (reserve((void **)givens, options->published_count * MOST_GIVEN + 1, text) != NONOBENCH_DONE)
    return NONOBENCH_MEMORY;
  for (size_t at = 0; at < options->published_count; at++) {
    nonobench_place place = options->published[at];
    *size += (size_t
    )sprintf(*givens + *size, "given %" PRIu32 " %" PRIu32 "\n", place.row, place.column);
  }
  return NONOBENCH_DONE;
}

/* A call with options: a desk, and the published cells as the library takes them. */
typedef struct {
  nonobench_desk *desk;
  char *givens;
  size_t givens_size;
} call;

/* Begins a call. `end` ends it, unless the status is another than DONE. */
static uint32_t begin(call *begun, const nonobench_options *options, nonobench_text *text) {
  *begun = (call){NULL, NULL, 0};
  uint32_t status = write_givens(options, &begun->givens, &begun->givens_size, text);
  if (status != NONOBENCH_DONE) return status;
  status = start(&begun->desk, text);
  if (status != NONOBENCH_DONE) free(begun->givens);
  return status;
}

static void end(call *begun) {
  nonobench_end(begun->desk);
  free(begun->givens);
}

uint32_t nonobench_check_pair(
    const void *picture,
    size_t picture_size,
    const void *certificate,
    size_t certificate_size,
    const nonobench_options *options,
    nonobench_text *text
) {
  const nonobench_options *asked = options ? options : &NO_OPTIONS;
  const uint8_t *file = bytes_of(picture), *cert = bytes_of(certificate),
                *word = bytes_of(asked->background);
  size_t word_size = length_of(asked->background);
  call begun;
  uint32_t status = look(picture, picture_size, text);
  if (status == NONOBENCH_DONE) status = look(certificate, certificate_size, text);
  if (status == NONOBENCH_DONE) status = begin(&begun, asked, text);
  if (status != NONOBENCH_DONE) return status;
  status = asked->any_given
               ? nonobench_check_any_given(
                     &begun.desk, file, picture_size, cert, certificate_size, word, word_size
                 )
               : nonobench_check(
                     &begun.desk,
                     file,
                     picture_size,
                     cert,
                     certificate_size,
                     bytes_of(begun.givens),
                     begun.givens_size,
                     word,
                     word_size
                 );
  tell(&begun.desk, status, text);
  end(&begun);
  return status;
}

uint32_t nonobench_verify_pair(
    const void *picture,
    size_t picture_size,
    const void *certificate,
    size_t certificate_size,
    const nonobench_options *options,
    nonobench_text *text
) {
  return nonobench_check_pair(picture, picture_size, certificate, certificate_size, options, text);
}

uint32_t nonobench_clues(
    const void *picture, size_t size, const char *background, nonobench_text *text
) {
  nonobench_desk *desk;
  char palette[MOST_PALETTE];
  uint32_t handle, status = open_one(&desk, &handle, picture, size, background, text);
  if (status != NONOBENCH_DONE) return status;
  take_palette(&desk, palette);
  status = ask(&desk, handle, "clues\n", text);
  if (status == NONOBENCH_DONE) add_palette(text, palette);
  nonobench_end(desk);
  return status;
}

/* Whether an allowance is lawful: DONE, or OPTIONS with its text. */
static uint32_t look_allowance(int32_t allowance, nonobench_text *text) {
  if (allowance <= MOST_ALLOWANCE) return NONOBENCH_DONE;
  put(text, "allowance must be 0 to 99999");
  return NONOBENCH_OPTIONS;
}

/* Whether the allowance of an assessment is lawful: one to five digits, `off`, or none. */
static uint32_t look_bound(const char *allowance, nonobench_text *text) {
  size_t digits = allowance ? strspn(allowance, "0123456789") : 0;
  if (!allowance || strcmp(allowance, "off") == 0) return NONOBENCH_DONE;
  if (digits > 0 && digits <= 5 && allowance[digits] == 0) return NONOBENCH_DONE;
  put(text, "allowance must be 0 to 99999 or off");
  return NONOBENCH_OPTIONS;
}

/* The verdict of a bench that was opened last, under an allowance: `ruling` and `text` become what
 * is found. */
static uint32_t judge(
    nonobench_desk **desk,
    uint32_t handle,
    int32_t allowance,
    nonobench_ruling *ruling,
    nonobench_text *text
) {
  char line[32], word[10] = "", palette[MOST_PALETTE];
  nonobench_text own = {word, sizeof word, 0};
  uint32_t status = NONOBENCH_DONE;
  take_palette(desk, palette);
  if (allowance >= 0) {
    snprintf(line, sizeof line, "allow %d\n", (int)allowance);
    status = ask(desk, handle, line, text);
  }
  if (status == NONOBENCH_DONE) status = ask(desk, handle, "verdict\n", text);
  if (status != NONOBENCH_DONE) return status;
  take(desk, &own);
  add_palette(text, palette);
  *ruling = word[0] == 'a'                 ? NONOBENCH_AMBIGUOUS
            : strncmp(word, "uni", 3) == 0 ? NONOBENCH_UNIQUE
                                           : NONOBENCH_UNDECIDED;
  return status;
}

uint32_t nonobench_verdict(
    const void *picture,
    size_t size,
    const char *background,
    int32_t allowance,
    nonobench_ruling *ruling,
    nonobench_text *text
) {
  nonobench_desk *desk;
  nonobench_ruling own = NONOBENCH_UNDECIDED;
  uint32_t handle, status = look_allowance(allowance, text);
  if (status == NONOBENCH_DONE) status = open_one(&desk, &handle, picture, size, background, text);
  if (status != NONOBENCH_DONE) return status;
  status = judge(&desk, handle, allowance, &own, text);
  if (status == NONOBENCH_DONE && ruling) *ruling = own;
  nonobench_end(desk);
  return status;
}

/* Keeps the text of the last call: UNIQUE with the certificate that it is, in room of its own, or
 * the ruling that it tells. */
static uint32_t keep(
    nonobench_desk **desk, uint32_t status, nonobench_audited *found, nonobench_text *text
) {
  char front[10] = "";
  nonobench_text own = {front, sizeof front, 0};
  if (status != NONOBENCH_DONE) return tell(desk, status, text);
  take(desk, &own);
  found->ruling = front[0] == 'n'   ? NONOBENCH_UNIQUE
                  : front[0] == 'a' ? NONOBENCH_AMBIGUOUS
                                    : NONOBENCH_UNDECIDED;
  if (found->ruling != NONOBENCH_UNIQUE) return status;
  found->certificate = (char *)malloc(own.size + 1);
  if (!found->certificate) return tell(desk, NONOBENCH_MEMORY, text);
  nonobench_text whole = {found->certificate, own.size + 1, 0};
  take(desk, &whole);
  found->certificate_size = own.size;
  return status;
}

void nonobench_free(void *certificate) { free(certificate); }

/* Asks a bench for a certificate. */
static uint32_t certify(
    nonobench_desk **desk, uint32_t handle, nonobench_audited *found, nonobench_text *text
) {
  return keep(desk, ask(desk, handle, "certify\n", NULL), found, text);
}

uint32_t nonobench_certify(
    const void *picture,
    size_t size,
    const char *background,
    nonobench_audited *found,
    nonobench_text *text
) {
  nonobench_desk *desk;
  uint32_t handle, status;
  *found = (nonobench_audited){NONOBENCH_UNDECIDED, NULL, 0};
  status = open_one(&desk, &handle, picture, size, background, text);
  if (status != NONOBENCH_DONE) return status;
  status = certify(&desk, handle, found, text);
  nonobench_end(desk);
  if (status != NONOBENCH_DONE) found->ruling = NONOBENCH_UNDECIDED;
  if (status == NONOBENCH_DONE) put(text, found->certificate ? "unique\n" : "ambiguous\n");
  return status;
}

/* Whether a certificate can be made so: DONE, or OPTIONS with its text. */
static uint32_t look_proving(
    const nonobench_options *asked, uint32_t format, nonobench_text *text
) {
  if (!asked->any_given && (format == 1 || format == 2)) return NONOBENCH_DONE;
  put(text, asked->any_given ? "any_given goes with a certificate" : "format must be 1 or 2");
  return NONOBENCH_OPTIONS;
}

uint32_t nonobench_prove_picture(
    const void *picture,
    size_t size,
    const nonobench_options *options,
    bool complete,
    uint32_t format,
    nonobench_audited *found,
    nonobench_text *text
) {
  static const char *const RULINGS[] = {"undecided\n", "unique\n", "ambiguous\n"};
  const nonobench_options *asked = options ? options : &NO_OPTIONS;
  call begun;
  uint32_t status = look(picture, size, text);
  *found = (nonobench_audited){NONOBENCH_UNDECIDED, NULL, 0};
  if (status == NONOBENCH_DONE) status = look_proving(asked, format, text);
  if (status == NONOBENCH_DONE) status = begin(&begun, asked, text);
  if (status != NONOBENCH_DONE) return status;
  status = nonobench_prove(
      &begun.desk,
      bytes_of(picture),
      size,
      bytes_of(begun.givens),
      begun.givens_size,
      bytes_of(asked->background),
      length_of(asked->background),
      complete,
      format
  );
  status = keep(&begun.desk, status, found, text);
  end(&begun);
  if (status == NONOBENCH_DONE)
    put(text, RULINGS[found->ruling]);
  else
    found->ruling = NONOBENCH_UNDECIDED;
  return status;
}

uint32_t nonobench_audit(
    const void *picture,
    size_t size,
    const char *background,
    int32_t allowance,
    nonobench_audited *found,
    nonobench_text *text
) {
  nonobench_desk *desk;
  uint32_t handle, status = look_allowance(allowance, text);
  *found = (nonobench_audited){NONOBENCH_UNDECIDED, NULL, 0};
  if (status == NONOBENCH_DONE) status = open_one(&desk, &handle, picture, size, background, text);
  if (status != NONOBENCH_DONE) return status;
  status = judge(&desk, handle, allowance, &found->ruling, text);
  if (status == NONOBENCH_DONE && found->ruling == NONOBENCH_UNIQUE)
    status = certify(&desk, handle, found, text);
  nonobench_end(desk);
  if (status != NONOBENCH_DONE) found->ruling = NONOBENCH_UNDECIDED;
  return status;
}

/* Reads the numbers behind a word with which a line begins, as many as there are places for. A line
 * that begins otherwise leaves them. Nothing is allocated, as sscanf does on Windows. */
static void read_numbers(const char *line, const char *word, uint64_t *numbers, int count) {
  size_t length = strlen(word);
  if (strncmp(line, word, length) != 0) return;
  for (line += length; count > 0 && *line == ' '; count--) {
    uint64_t number = 0;
    for (line++; *line >= '0' && *line <= '9'; line++)
      number = 10 * number + (uint64_t)(*line - '0');
    *numbers++ = number;
  }
}

static void read_place(const char *line, const char *word, nonobench_place *place) {
  uint64_t numbers[] = {place->row, place->column};
  read_numbers(line, word, numbers, 2);
  *place = (nonobench_place){(uint32_t)numbers[0], (uint32_t)numbers[1]};
}

static void read_count(const char *line, const char *word, uint32_t *count) {
  uint64_t number = *count;
  read_numbers(line, word, &number, 1);
  *count = (uint32_t)number;
}

/* Reads the line of a grade. */
static void read_grade(const char *line, nonobench_assessment *found) {
  static const char *const WORDS[] = {
      "",
      "grade unknown",
      "grade easy",
      "grade medium",
      "grade hard",
      "grade very-hard",
      "grade expert"};
  uint64_t numbers[5] = {0};
  for (int grade = NONOBENCH_UNKNOWN; grade <= NONOBENCH_EXPERT; grade++) {
    size_t length = strlen(WORDS[grade]);
    if (strncmp(line, WORDS[grade], length) != 0 || (line[length] != ' ' && line[length] != 0))
      continue;
    found->grade = (nonobench_grade)grade;
    read_numbers(line, WORDS[grade], numbers, 5);
  }
  found->rounds = numbers[0];
  found->evaluations = numbers[1];
  found->wait = numbers[2];
  found->splits = numbers[3];
  found->depth = numbers[4];
}

/* Reads the line of a flaw. */
static void read_flaw(const char *line, nonobench_assessment *found) {
  static const char ALIKE[] = "flaw alike ";
  char *pair = found->alike[found->alike_count < NONOBENCH_MOST_ALIKE ? found->alike_count : 0];
  if (strcmp(line, "flaw blank") == 0) found->is_blank = true;
  if (strcmp(line, "flaw background") == 0) found->lacks_background = true;
  read_place(line, "flaw given", &found->given);
  if (strncmp(line, ALIKE, strlen(ALIKE)) == 0 && strlen(line) == strlen(ALIKE) + 3) {
    pair[0] = line[strlen(ALIKE)];
    pair[1] = line[strlen(ALIKE) + 2];
    found->alike_count++;
  }
}

/* Reads a line of an assessment. No row of a picture is like one. */
static void read_assessed(const char *line, nonobench_assessment *found) {
  static const char *const RULINGS[] = {"undecided", "unique", "ambiguous"};
  nonobench_place size = {found->rows, found->columns};
  for (int ruling = 0; ruling < 3; ruling++) {
    if (strcmp(line, RULINGS[ruling]) == 0) found->ruling = (nonobench_ruling)ruling;
  }
  read_place(line, "size", &size);
  found->rows = size.row;
  found->columns = size.column;
  read_count(line, "colours", &found->colours);
  read_count(line, "givens", &found->givens);
  read_count(line, "open", &found->open);
  if (strncmp(line, "grade ", 6) == 0) read_grade(line, found);
  if (strncmp(line, "flaw ", 5) == 0) read_flaw(line, found);
  if (strcmp(line, "fit") == 0) found->is_fit = true;
}

/* Lets an assessment be undecided, and not fit. */
static void clear(nonobench_assessment *found) {
  size_t size = found->size;
  memset(found, 0, size);
  if (size >= sizeof size) found->size = size;
}

/* Reads the text of the last call, an assessment, as far as there is room for its fields. */
static uint32_t keep_assessed(
    nonobench_desk **desk, nonobench_assessment *found, nonobench_text *text
) {
  nonobench_assessment own = {0};
  uint8_t none;
  size_t size = nonobench_take(desk, &none, 0);
  char *said, *line, *end;
  if (reserve((void **)&said, size + 1, text) != NONOBENCH_DONE) return NONOBENCH_MEMORY;
  nonobench_take(desk, (uint8_t *)said, size);
  said[size] = 0;
  for (line = said; (end = strchr(line, '\n')); line = end + 1) {
    *end = 0;
    read_assessed(line, &own);
  }
  free(said);
  own.size = found->size;
  memcpy(found, &own, own.size < sizeof own ? own.size : sizeof own);
  return NONOBENCH_DONE;
}

/* What is assessed, as the library takes it. */
typedef struct {
  const uint8_t *puzzle, *certificate, *background, *allowance;
  size_t puzzle_size, certificate_size, background_size, allowance_size;
  bool non, has_certificate;
} question;

/* Whether a puzzle can have its background: DONE, or OPTIONS with its text. */
static uint32_t look_background(const question *asked, nonobench_text *text) {
  if (!asked->non || asked->background_size == 0) return NONOBENCH_DONE;
  put(text, "background goes with ppm");
  return NONOBENCH_OPTIONS;
}

/* The givens that a certificate names, whichever they are, as those that are published; `places`
 * must be freed. Of a picture the certificate is checked first: what is wrong with it is reported
 * as its own fault. */
static uint32_t publish_named(
    nonobench_desk **desk,
    const question *asked,
    nonobench_options *options,
    nonobench_place **places,
    nonobench_text *text
) {
  uint32_t status = asked->non ? NONOBENCH_DONE
                               : nonobench_check_any_given(
                                     desk,
                                     asked->puzzle,
                                     asked->puzzle_size,
                                     asked->certificate,
                                     asked->certificate_size,
                                     asked->background,
                                     asked->background_size
                                 );
  if (status != NONOBENCH_DONE) return tell(desk, status, text);
  size_t count = nonobench_givens(asked->certificate, asked->certificate_size, NULL, 0);
  status = reserve((void **)places, (count + 1) * sizeof **places, text);
  if (status != NONOBENCH_DONE) return status;
  nonobench_givens(asked->certificate, asked->certificate_size, *places, count);
  options->published = *places;
  options->published_count = count;
  return status;
}

/* Assesses with the givens that options publish or, where they allow any, a certificate names. */
static uint32_t assess(
    nonobench_desk **desk, const question *asked, nonobench_options options, nonobench_text *text
) {
  nonobench_place *named = NULL;
  char *givens = NULL;
  size_t size = 0;
  uint32_t status = NONOBENCH_DONE;
  if (options.any_given && asked->has_certificate)
    status = publish_named(desk, asked, &options, &named, text);
  if (status == NONOBENCH_DONE) status = write_givens(&options, &givens, &size, text);
  if (status == NONOBENCH_DONE) {
    status = nonobench_assess(
        desk,
        asked->puzzle,
        asked->puzzle_size,
        asked->non,
        asked->background,
        asked->background_size,
        true,
        bytes_of(givens),
        size,
        asked->has_certificate,
        asked->certificate,
        asked->certificate_size,
        asked->allowance,
        asked->allowance_size
    );
    tell(desk, status, text);
  }
  free(givens);
  free(named);
  return status;
}

uint32_t nonobench_assess_puzzle(
    const void *puzzle,
    size_t puzzle_size,
    bool non,
    const void *certificate,
    size_t certificate_size,
    const nonobench_options *options,
    const char *allowance,
    nonobench_assessment *found,
    nonobench_text *text
) {
  const nonobench_options *given = options ? options : &NO_OPTIONS;
  const question asked = {
      .puzzle = bytes_of(puzzle),
      .puzzle_size = puzzle_size,
      .non = non,
      .background = bytes_of(given->background),
      .background_size = length_of(given->background),
      .has_certificate = certificate != NULL,
      .certificate = bytes_of(certificate),
      .certificate_size = certificate_size,
      .allowance = bytes_of(allowance),
      .allowance_size = length_of(allowance)};
  nonobench_desk *desk;
  uint32_t status = look_bound(allowance, text);
  clear(found);
  if (status == NONOBENCH_DONE) status = look(puzzle, puzzle_size, text);
  if (status == NONOBENCH_DONE) status = look(certificate, certificate_size, text);
  if (status == NONOBENCH_DONE) status = look_background(&asked, text);
  if (status == NONOBENCH_DONE) status = start(&desk, text);
  if (status != NONOBENCH_DONE) return status;
  status = assess(&desk, &asked, *given, text);
  if (status == NONOBENCH_DONE) status = keep_assessed(&desk, found, text);
  nonobench_end(desk);
  return status;
}

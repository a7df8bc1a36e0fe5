/* Says whether a picture is fit to be published, by its certificate and with the cells that are
 * published: example PICTURE CERTIFICATE [ROW,COLUMN ..]. Exits with status 0 if it is fit, 1 if it
 * is not or is refused, 2 for bad arguments, and 3 if a file cannot be read or the answer not be
 * written. */
#include "nonobench.h"
#include <errno.h>
#include <stdio.h>
#include <stdlib.h>
#include <string.h>

#define MOST_PUBLISHED 14400

typedef struct file {
  char *bytes;
  size_t size;
} file;

/* Says what is wrong with a file, and exits. */
static void leave(const char *name, const char *what) {
  fprintf(stderr, "example: %s: %s\n", name, what);
  exit(3);
}

/* Reads a whole file. Of one that is too long it reads a byte more than the library takes, so that
 * the library says so. */
static file read_file(const char *name) {
  FILE *stream = fopen(name, "rb");
  if (!stream) leave(name, strerror(errno));
  file whole = {malloc(NONOBENCH_MOST_BYTES + 1), 0};
  if (!whole.bytes) leave(name, "out of memory");
  whole.size = fread(whole.bytes, 1, NONOBENCH_MOST_BYTES + 1, stream);
  if (ferror(stream)) leave(name, strerror(errno));
  fclose(stream);
  return whole;
}

/* Reads a number of at most five digits, and moves behind it; 0 if there is none. */
static uint32_t read_number(const char **word) {
  size_t digits = strspn(*word, "0123456789");
  uint32_t number = digits <= 5 ? (uint32_t)strtoul(*word, NULL, 10) : 0;
  *word += digits;
  return digits ? number : 0;
}

/* Reads cells from arguments; false if one is not a cell. */
static bool read_places(char **words, size_t count, nonobench_place *places) {
  for (size_t at = 0; at < count; at++) {
    const char *word = words[at];
    places[at].row = read_number(&word);
    if (*word++ != ',') return false;
    places[at].column = read_number(&word);
    if (*word || !places[at].row || !places[at].column) return false;
  }
  return true;
}

int main(int count, char **names) {
  static nonobench_place published[MOST_PUBLISHED];
  static char said[4096];
  static nonobench_assessment found;
  nonobench_text text = {said, sizeof said, 0};
  if (count < 3 || count > 3 + MOST_PUBLISHED ||
      !read_places(names + 3, (size_t)count - 3, published)) {
    fprintf(stderr, "usage: example PICTURE CERTIFICATE [ROW,COLUMN ..]\n");
    return 2;
  }
  found.size = sizeof found;
  nonobench_options options = {NULL, published, (size_t)count - 3, false};
  file picture = read_file(names[1]), certificate = read_file(names[2]);
  uint32_t status = nonobench_assess_puzzle(
      picture.bytes,
      picture.size,
      false,
      certificate.bytes,
      certificate.size,
      &options,
      NULL,
      &found,
      &text
  );
  /* The palette, which follows, is not printed. */
  char *palette = strstr(said, "\ncolour ");
  if (palette) palette[1] = 0;
  printf(status == NONOBENCH_DONE ? "%s" : "refused: %s\n", said);
  free(picture.bytes);
  free(certificate.bytes);
  if (fclose(stdout)) leave("standard output", strerror(errno));
  return status == NONOBENCH_DONE && found.is_fit ? 0 : 1;
}

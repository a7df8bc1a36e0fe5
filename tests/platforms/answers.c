/* What the library answers to calls made by chance, a line for each: answers FIRST COUNT. Two
 * builds of the library must print alike. A line has the statuses, and the texts as one number. */
#include "nonobench.h"

#include <stdio.h>
#include <stdlib.h>
#include <string.h>

#define ROOM 65536

static uint32_t state;

static uint32_t chance(uint32_t n) {
  state = state * 1103515245u + 12345u;
  return (uint32_t)(((uint64_t)state * n) >> 32);
}

/* FNV-1a over all that is told of a case. */
static uint64_t digest;

static void tell(const char *text) {
  for (; *text; text++) digest = (digest ^ (unsigned char)*text) * 1099511628211u;
  digest = (digest ^ 10) * 1099511628211u;
}

/* A picture of up to 9 rows and columns in up to four colours. */
static void draw(char *out) {
  static const char *const COLOURS[] = {"9 9 9", "0 0 0", "9 0 0", "0 9 0"};
  uint32_t width = 1 + chance(9), height = 1 + chance(9), colours = 2 + chance(3),
           filled = 1 + chance(9);
  out += sprintf(out, "P3 %u %u 9\n", width, height);
  for (uint32_t cell = 0; cell < width * height; cell++) {
    uint32_t colour = chance(10) < filled ? 1 + chance(colours - 1) : 0;
    out += sprintf(out, "%s\n", COLOURS[colour]);
  }
}

/* Changes a byte, often to one that may stand in such a text. */
static void change(char *text) {
  static const char USED[] = "0123456789 \nabrc.lined";
  size_t size = strlen(text);
  if (size > 0)
    text[chance((uint32_t)size)] =
        chance(4) ? USED[chance(sizeof USED - 1)] : (char)(1 + chance(255));
}

static void run_case(char *picture, char *said) {
  static const nonobench_options ANY = {NULL, NULL, 0, true};
  nonobench_text text = {said, ROOM, 0};
  nonobench_audited found = {NONOBENCH_UNDECIDED, NULL, 0};
  nonobench_ruling ruling = NONOBENCH_UNDECIDED;
  nonobench_place places[4];
  uint32_t count = chance(5);
  for (uint32_t at = 0; at < count; at++)
    places[at] = (nonobench_place){1 + chance(9), 1 + chance(9)};
  nonobench_options some = {chance(8) ? NULL : "0,0,0", places, count, false};
  draw(picture);
  if (chance(3) == 0) change(picture);
  size_t size = strlen(picture);
  uint32_t status[6];
  status[0] = nonobench_clues(picture, size, some.background, &text), tell(said);
  status[1] =
      nonobench_verdict(picture, size, some.background, (int32_t)chance(20), &ruling, &text),
  tell(said);
  status[2] = chance(2) ? nonobench_prove_picture(picture, size, &some, false, 2, &found, &text)
                        : nonobench_certify(picture, size, some.background, &found, &text);
  tell(said);
  char *certificate = found.certificate
                          ? found.certificate
                          : strcpy(malloc(64), "nonocert 2\ngiven 1 1\nline r 1\ndone\n");
  tell(certificate);
  status[3] = nonobench_check_pair(picture, size, certificate, strlen(certificate), &some, &text),
  tell(said);
  change(certificate);
  status[4] = nonobench_check_pair(picture, size, certificate, strlen(certificate), &some, &text),
  tell(said);
  status[5] = nonobench_check_pair(picture, size, certificate, strlen(certificate), &ANY, &text),
  tell(said);
  found.certificate ? nonobench_free(certificate) : free(certificate);
  for (int at = 0; at < 6; at++) putchar('0' + (int)status[at]);
  printf(" %d %016llx\n", (int)ruling, (unsigned long long)digest);
}

int main(int count, char **words) {
  char *picture = malloc(ROOM), *said = malloc(ROOM);
  if (count != 3 || !picture || !said) return 2;
  for (uint32_t at = 0, first = (uint32_t)atoi(words[1]); at < (uint32_t)atoi(words[2]); at++) {
    state = (first + at) * 2654435761u + 1, digest = 14695981039346656037u, said[0] = 0;
    run_case(picture, said);
  }
  free(picture);
  free(said);
  return 0;
}

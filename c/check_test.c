/* Tests of libnonocheck: check_test FOLDER, with the folder that has certificates.case, lemmas.case
 * and published.case. */
#include "cases.h"
#include "nonocheck.h"

/* The version that the library must tell: that of the header, or of an older release that is tried.
 */
#ifndef TRIED
#define TRIED NONOCHECK_VERSION
#endif

static const uint16_t BLACK[3] = {0, 0, 0};

/* Checks beside a file of givens, or (null) beside whatever the certificate names; the room is full
 * of another sign before. */
static uint32_t check(
    const char *picture, const char *certificate, size_t size, const char *givens, char *said
) {
  size_t length = strlen(picture);
  const uint8_t *file = (const uint8_t *)picture, *cert = (const uint8_t *)certificate;
  uint8_t *out = memset(said, '#', NONOCHECK_ROOM);
  uint32_t status =
      givens ? nonocheck_check(
                   file,
                   length,
                   cert,
                   size,
                   (const uint8_t *)givens,
                   strlen(givens),
                   BLACK,
                   0,
                   out,
                   NONOCHECK_ROOM
               )
             : nonocheck_check_any_given(file, length, cert, size, BLACK, 0, out, NONOCHECK_ROOM);
  expect(
      strlen(said) < NONOCHECK_ROOM && said[NONOCHECK_ROOM - 1] == 0,
      "there is room for the text",
      said
  );
  return status;
}

/* The cells of a word of cases as a file of givens. */
static void givens_of(const char *word, char *out) {
  unsigned row, column;
  *out = 0;
  while (word && sscanf(word, "%u,%u", &row, &column) == 2) {
    out += sprintf(out, "given %u %u\n", row, column);
    word = strchr(word, ';');
    word = word ? word + 1 : NULL;
  }
}

/* `PICTURE TEXT => ANSWER`, or `PICTURE PUBLISHED TEXT => GIVENS ANSWER` */
static void run_case(char *line, const char *name) {
  char *answer = answer_of(line), *lines = strchr(line, ' '), *word = "any";
  char picture[MOST], certificate[MOST], givens[MOST], said[NONOCHECK_ROOM + 1] = "";
  *lines++ = 0;
  if (strcmp(name, "published") == 0) {
    word = lines;
    lines = strchr(lines, ' ');
    *lines++ = 0;
    answer = strchr(answer, ' ') + 1;
  }
  picture_of(line, strlen(line), picture);
  givens_of(word, givens);
  size_t size = unescape(lines, strlen(lines), certificate);
  uint32_t status =
      check(picture, certificate, size, strcmp(word, "any") == 0 ? NULL : givens, said);
  expect(is_answer(answer, status, said), lines, said);
}

/* By its background the first colour of this picture has a clue or none: where the left cell is
 * background, nothing tells the two pictures apart that the certificate is of. */
static void test_background(void) {
  static const char picture[] = "P3 2 1 255 0 0 0 9 9 9\n",
                    certificate[] = "nonocert 1\nline r 1\ndone\n";
  const uint8_t *file = (const uint8_t *)picture, *cert = (const uint8_t *)certificate;
  size_t size = strlen(picture), length = strlen(certificate);
  char said[NONOCHECK_ROOM];
  uint8_t *out = (uint8_t *)said;
  expect(
      nonocheck_check_any_given(file, size, cert, length, BLACK, 0, out, sizeof said) ==
          NONOCHECK_DONE,
      "on white",
      said
  );
  expect(strcmp(said, "certificate accepted\n") == 0, "it is told", said);
  expect(
      nonocheck_check_any_given(file, size, cert, length, BLACK, 3, out, sizeof said) ==
          NONOCHECK_REFUSED,
      "on black",
      said
  );
  expect(strcmp(said, "certificate NotDone at line 3") == 0, "it is told", said);
  memset(said, '#', sizeof said);
  expect(
      nonocheck_check_any_given(file, size, cert, length, BLACK, 2, out, 4) == NONOCHECK_OPTIONS,
      "two samples",
      said
  );
  expect(memcmp(said, "\0\0\0\0#", 5) == 0, "no text", said);
  expect(
      nonocheck_check(file, size, cert, length, file, 0, BLACK, 1, out, sizeof said) ==
          NONOCHECK_OPTIONS,
      "one sample",
      said
  );
}

/* A white background that is passed and that no cell has, and two colours that look alike. */
static void test_flaws(void) {
  static const char picture[] = "P3 2 1 255 255 0 0 254 0 0\n", blank[] = "P3 1 1 255 0 0 0\n";
  static const uint16_t white[3] = {255, 255, 255};
  bool is_blank = true, lacks = false;
  uint8_t alike[NONOCHECK_PAIRS];
  memset(alike, '#', sizeof alike);
  uint32_t status = nonocheck_flaws(
      (const uint8_t *)picture, strlen(picture), white, 3, &is_blank, &lacks, alike, sizeof alike
  );
  expect(status == NONOCHECK_DONE && !is_blank && lacks, "a background that no cell has", picture);
  expect(
      memcmp(alike, "\1\2\0\0", 4) == 0 && alike[sizeof alike - 1] == 0,
      "two colours alike",
      picture
  );
  status =
      nonocheck_flaws((const uint8_t *)blank, strlen(blank), BLACK, 3, &is_blank, &lacks, alike, 1);
  expect(status == NONOCHECK_DONE && is_blank && !lacks && alike[0] == 0, "a blank picture", blank);
  status =
      nonocheck_flaws((const uint8_t *)"P4", 2, white, 0, &is_blank, &lacks, alike, sizeof alike);
  expect(status == NONOCHECK_REFUSED && !is_blank && !lacks && alike[0] == 0, "no picture", "");
  expect(
      nonocheck_flaws(
          (const uint8_t *)blank, strlen(blank), white, 2, &is_blank, &lacks, alike, 0
      ) == NONOCHECK_OPTIONS,
      "two samples",
      ""
  );
}

/* Of a text as much is put as there is room for. */
static void test_room(void) {
  uint8_t out[NONOCHECK_ROOM];
  memset(out, '#', sizeof out);
  nonocheck_version(out, 0);
  expect(out[0] == '#', "no room", "");
  nonocheck_version(out, 3);
  expect(memcmp(out, TRIED, 3) == 0 && out[3] == '#', "the front of the version", "");
  nonocheck_version(out, sizeof out);
  expect(strcmp((char *)out, TRIED) == 0 && out[sizeof out - 1] == 0, "the version", (char *)out);
}

int main(int count, char **words) {
  if (count < 2) return 2;
  run_cases(words[1], "certificates", run_case);
  run_cases(words[1], "lemmas", run_case);
  run_cases(words[1], "published", run_case);
  test_background();
  test_flaws();
  test_room();
  printf("%d passed, %d failed\n", passed, failed);
  return failed > 0;
}

/* Tests of libnonobench: test FOLDER [TIMES], with the folder that has pictures.case,
 * certificates.case, lemmas.case and published.case. TIMES is how often what could grow is done.
 * Expected answers stand in those files, or follow from docs/SESSION.md by hand. */
#include "cases.h"
#include "nonobench.h"

#include <malloc.h>
#include <pthread.h>
#include <stdio.h>
#include <stdlib.h>
#include <string.h>
#include <unistd.h>

/* The version that the library must tell: that of the header, or of an older release that is tried.
 */
#ifndef TRIED
#define TRIED NONOBENCH_VERSION
#endif

#define THREADS 4

/* Two rows, black and white, white and black: another picture has the clues, and a given decides
 * it. */
static const char DIAGONAL[] = "P3 2 2 255 0 0 0 255 255 255 255 255 255 0 0 0\n";
static const char GIVEN[] = "nonocert 2\ngiven 1 1\nline r 1\nline c 1\nline r 2\ndone\n";

/* The options of a caller who publishes whatever givens a certificate names, and of one who
 * publishes the given. */
static const nonobench_place FIRST = {1, 1};
static const nonobench_options ANY = {NULL, NULL, 0, true}, ONE = {NULL, &FIRST, 1, false};

/* A picture without a certificate: its clues, below which is its palette. */
static void run_picture(char *line, const char *answer) {
  char file[MOST], said[MOST];
  nonobench_text text = {said, sizeof said, 0};
  size_t size = unescape(line, strlen(line), file);
  uint32_t status = nonobench_clues(file, size, NULL, &text);
  char *palette = strstr(said, "colour ");
  expect((palette != NULL) == (status == NONOBENCH_DONE), "a palette", said);
  if (palette) *palette = 0;
  expect(is_answer(answer, status, said), line, said);
}

/* Takes the lines of the givens off a text: they are those of the certificate. */
static void take_givens(char *said, const char *certificate, size_t size) {
  nonobench_place told[9], named[9];
  size_t count = nonobench_givens(said, strlen(said), told, 9);
  expect(nonobench_givens(certificate, size, named, 9) == count, "how many are told", said);
  expect(memcmp(told, named, count * sizeof *told) == 0, "which are told", said);
  char *end = strchr(said, '\n');
  if (end) end[1] = 0;
}

/* A picture and a certificate under options. */
static void run_check(
    char *rows, char *lines, const char *answer, const nonobench_options *options
) {
  char picture[MOST], certificate[MOST], said[MOST];
  nonobench_text text = {said, sizeof said, 0};
  picture_of(rows, strlen(rows), picture);
  size_t size = unescape(lines, strlen(lines), certificate);
  uint32_t status =
      nonobench_check_pair(picture, strlen(picture), certificate, size, options, &text);
  if (status == NONOBENCH_DONE) take_givens(said, certificate, size);
  expect(is_answer(answer, status, said), lines, said);
}

/* `PICTURE TEXT => ANSWER` */
static void run_certificate(char *line, const char *answer) {
  char *lines = strchr(line, ' ');
  *lines++ = 0;
  run_check(line, lines, answer, &ANY);
}

/* The cells of a word of cases, which may be - for none. */
static size_t places_of(const char *word, nonobench_place *places) {
  size_t count = 0;
  for (; word && *word != '-'; count++) {
    sscanf(word, "%u,%u", &places[count].row, &places[count].column);
    word = strchr(word, ';');
    word = word ? word + 1 : NULL;
  }
  return count;
}

/* `PICTURE PUBLISHED TEXT => GIVENS ANSWER` */
static void run_published(char *line, char *answer) {
  char *word = strchr(line, ' '), *lines = strchr(word + 1, ' '), *told = strchr(answer, ' '),
       certificate[MOST];
  nonobench_place published[9], wanted[9], givens[9];
  *word++ = *lines++ = *told++ = 0;
  bool any = strcmp(word, "any") == 0;
  nonobench_options options = {NULL, published, any ? 0 : places_of(word, published), any};
  run_check(line, lines, told, &options);
  /* Of a certificate that does not hold the givens mean nothing. */
  size_t count = places_of(answer, wanted), size = unescape(lines, strlen(lines), certificate);
  if (strncmp(told, "! ", 2) == 0 && !strstr(told, "UnpublishedGiven")) return;
  expect(nonobench_givens(certificate, size, givens, 9) == count, "how many givens", lines);
  expect(memcmp(givens, wanted, count * sizeof *givens) == 0, "which givens", lines);
}

/* Runs one line of a file of cases. */
static void run_case(char *line, const char *name) {
  char *answer = answer_of(line);
  if (!answer) return;
  if (strcmp(name, "pictures") == 0) {
    run_picture(line, answer);
  } else if (strcmp(name, "published") != 0) {
    run_certificate(line, answer);
  } else {
    run_published(line, answer);
  }
}

static void test_answers(void) {
  char said[MOST];
  nonobench_text text = {said, sizeof said, 0};
  nonobench_ruling ruling;
  nonobench_place place = {0, 0};
  size_t picture = strlen(DIAGONAL), cert = strlen(GIVEN);
  expect(
      nonobench_check_pair(DIAGONAL, picture, GIVEN, cert, &ONE, &text) == NONOBENCH_DONE,
      "a given",
      said
  );
  expect(strcmp(said, "certificate accepted, givens 1\ngiven 1 1\n") == 0, "one given", said);
  place.row = 0;
  expect(
      nonobench_givens(said, text.size, &place, 1) == 1 && place.row == 1 && place.column == 1,
      "the place that is told",
      said
  );
  expect(
      nonobench_check_pair(DIAGONAL, picture, GIVEN, cert, NULL, &text) == NONOBENCH_REFUSED,
      "one unpublished",
      said
  );
  expect(strcmp(said, "certificate UnpublishedGiven at line 2") == 0, "it is said", said);
  expect(
      nonobench_givens(GIVEN, cert, &place, 1) == 1 && place.row == 1 && place.column == 1,
      "its place",
      ""
  );
  expect(
      nonobench_givens(GIVEN, cert, NULL, 0) == 1 && nonobench_givens(NULL, 0, NULL, 0) == 0,
      "no room for it",
      ""
  );
  expect(
      nonobench_verdict(DIAGONAL, picture, NULL, -1, &ruling, &text) == NONOBENCH_DONE,
      "a verdict",
      said
  );
  expect(
      ruling == NONOBENCH_AMBIGUOUS &&
          strcmp(said, "ambiguous\n.a\na.\ncolour . 255 255 255\ncolour a 0 0 0\n") == 0,
      "the other picture, and the palette",
      said
  );
  expect(
      nonobench_verdict("P3 1 1 1 0 0 0", 14, NULL, 0, &ruling, &text) == NONOBENCH_DONE,
      "one cell",
      said
  );
  expect(
      ruling == NONOBENCH_UNIQUE && strcmp(said, "unique\ncolour . 1 1 1\ncolour a 0 0 0\n") == 0,
      "one cell is unique",
      said
  );
  expect(
      nonobench_verdict(DIAGONAL, picture, "1,2", 9, NULL, &text) == NONOBENCH_OPTIONS,
      "no colour",
      said
  );
  expect(strcmp(said, "background must be R,G,B") == 0, "it is said", said);
  expect(
      nonobench_verdict(DIAGONAL, picture, NULL, 100000, NULL, &text) == NONOBENCH_OPTIONS,
      "no allowance",
      said
  );
  expect(
      nonobench_clues("P3 1 1 1 0 0 0", 14, "0,0,0", &text) == NONOBENCH_DONE,
      "a black background",
      said
  );
  expect(strcmp(said, "r 1: 0\nc 1: 0\ncolour . 0 0 0\n") == 0, "no clue", said);
  memset(said, '#', sizeof said);
  expect(nonobench_version((uint8_t *)said, 3) == strlen(TRIED), "how long the version is", said);
  expect(memcmp(said, TRIED, 3) == 0 && said[3] == '#', "the front of the version", said);
  said[nonobench_version((uint8_t *)said, sizeof said)] = 0;
  expect(strcmp(said, TRIED) == 0, "the version", said);
}

/* Under an allowance of no split, the two pictures with the clues of the diagonal stay undecided:
 * no ruling says more than is found. */
static void test_undecided(void) {
  nonobench_ruling ruling = NONOBENCH_UNIQUE;
  nonobench_audited found;
  size_t size = strlen(DIAGONAL);
  expect(
      nonobench_verdict(DIAGONAL, size, NULL, 0, &ruling, NULL) == NONOBENCH_DONE,
      "a verdict of no split",
      ""
  );
  expect(ruling == NONOBENCH_UNDECIDED, "it is undecided", "");
  expect(
      nonobench_audit(DIAGONAL, size, NULL, 0, &found, NULL) == NONOBENCH_DONE,
      "an audit of no split",
      ""
  );
  expect(
      found.ruling == NONOBENCH_UNDECIDED && !found.certificate,
      "it is undecided, and has no certificate",
      ""
  );
}

/* A place outside of the picture, or one that is named twice, is told with its number; and the old
 * name answers as the new one. */
static void test_places(void) {
  static const nonobench_place outside[] = {{1, 1}, {1, 121}}, twice[] = {{2, 2}, {1, 1}, {2, 2}},
                               high[] = {{UINT32_MAX, UINT32_MAX}};
  static const struct {
    const nonobench_place *places;
    size_t count;
    const char *said;
  } asked[] = {
      {outside, 1, "certificate accepted, givens 1\ngiven 1 1\n"},
      {outside, 2, "givens Place at line 2"},
      {twice, 3, "givens Repeated at line 3"},
      {high, 1, "givens BadLine at line 1"},
      {high, 0, "certificate UnpublishedGiven at line 2"},
      {twice, NONOBENCH_MOST_BYTES, "input too long"}, /* of which nothing is read */
  };
  char said[64];
  nonobench_text text = {said, sizeof said, 0};
  size_t size = strlen(DIAGONAL), cert = strlen(GIVEN);
  for (size_t at = 0; at < sizeof asked / sizeof *asked; at++) {
    nonobench_options options = {NULL, asked[at].places, asked[at].count, false};
    uint32_t wanted = at == 0 ? NONOBENCH_DONE : NONOBENCH_REFUSED;
    expect(
        nonobench_check_pair(DIAGONAL, size, GIVEN, cert, &options, &text) == wanted,
        asked[at].said,
        said
    );
    expect(strcmp(said, asked[at].said) == 0, asked[at].said, said);
    expect(
        nonobench_verify_pair(DIAGONAL, size, GIVEN, cert, &options, &text) == wanted,
        "the old name",
        said
    );
    expect(strcmp(said, asked[at].said) == 0, "the old name", said);
  }
}

/* A black cell, the only picture with its clues. */
static const char TILE[] = "P3 1 1 1 0 0 0";
/* One solution, of which line logic leaves cells open: a proof is searched for. */
static const char OPEN[] = "P3 2 5 1 0 0 0 1 1 1 1 1 1 0 0 0 1 1 1 0 0 0 1 1 1 0 0 0 0 0 0 1 1 1";

/* Certificates that are made, and checked again. What both calls answer to pictures with and
 * without another one. */
static void test_certificates(void) {
  char said[MOST], rows[] = "ab/.b", picture[MOST];
  nonobench_text text = {said, sizeof said, 0};
  nonobench_audited found;
  expect(
      nonobench_certify(TILE, strlen(TILE), NULL, &found, &text) == NONOBENCH_DONE,
      "a certificate",
      said
  );
  expect(found.ruling == NONOBENCH_UNIQUE && strcmp(said, "unique\n") == 0, "it is told", said);
  expect(
      found.certificate && strlen(found.certificate) == found.certificate_size,
      "how long it is",
      said
  );
  expect(
      nonobench_check_pair(
          TILE, strlen(TILE), found.certificate, found.certificate_size, NULL, &text
      ) == NONOBENCH_DONE,
      "it holds",
      said
  );
  nonobench_free(found.certificate);
  picture_of(rows, strlen(rows), picture);
  expect(
      nonobench_audit(picture, strlen(picture), NULL, -1, &found, &text) == NONOBENCH_DONE,
      "an audit",
      said
  );
  expect(
      found.ruling == NONOBENCH_UNIQUE && found.certificate &&
          strcmp(said, "unique\ncolour . 255 255 255\ncolour a 0 0 0\ncolour b 255 0 0\n") == 0,
      "its ruling",
      said
  );
  expect(
      nonobench_check_pair(
          picture, strlen(picture), found.certificate, found.certificate_size, NULL, &text
      ) == NONOBENCH_DONE,
      "it holds",
      said
  );
  nonobench_free(found.certificate);
  expect(
      nonobench_audit(DIAGONAL, strlen(DIAGONAL), NULL, 5, &found, &text) == NONOBENCH_DONE,
      "another picture",
      said
  );
  expect(
      found.ruling == NONOBENCH_AMBIGUOUS && !found.certificate &&
          strcmp(said, "ambiguous\n.a\na.\ncolour . 255 255 255\ncolour a 0 0 0\n") == 0,
      "which",
      said
  );
  expect(
      nonobench_certify(DIAGONAL, strlen(DIAGONAL), NULL, &found, &text) == NONOBENCH_DONE,
      "no certificate",
      said
  );
  expect(
      found.ruling == NONOBENCH_AMBIGUOUS && !found.certificate && strcmp(said, "ambiguous\n") == 0,
      "it is told",
      said
  );
  expect(
      nonobench_certify("P4", 2, NULL, &found, &text) == NONOBENCH_REFUSED && !found.certificate,
      "no picture",
      said
  );
  expect(strcmp(said, "ppm NotP3 at byte 0") == 0, "it is said", said);
  expect(
      nonobench_audit(TILE, strlen(TILE), NULL, 100000, &found, NULL) == NONOBENCH_OPTIONS,
      "no allowance",
      ""
  );
  expect(
      nonobench_audit(TILE, strlen(TILE), "0,0", 0, &found, &text) == NONOBENCH_OPTIONS,
      "no background",
      said
  );
}

/* Certificates with lemmas that are made, and checked again; and one of a picture with another one,
 * which no line can prove. */
static void test_lemmas(void) {
  static const char wrong[] = "nonolemma 1\nline r 1\nline c 1\nline r 2\nline c 2\ndone\n";
  static const nonobench_options ODD = {"0,0", NULL, 0, false},
                                 ON_BLACK = {"0,0,0", NULL, 0, false};
  char said[MOST], rows[] = "a./.b", picture[MOST];
  nonobench_text text = {said, sizeof said, 0};
  nonobench_audited found;
  picture_of(rows, strlen(rows), picture);
  size_t size = strlen(picture);
  expect(
      nonobench_prove_picture(picture, size, NULL, false, 2, &found, &text) == NONOBENCH_DONE,
      "a certificate",
      said
  );
  expect(found.ruling == NONOBENCH_UNIQUE && strcmp(said, "unique\n") == 0, "it is told", said);
  expect(
      found.certificate && strlen(found.certificate) == found.certificate_size,
      "how long it is",
      said
  );
  expect(
      nonobench_check_pair(picture, size, found.certificate, found.certificate_size, NULL, &text) ==
          NONOBENCH_DONE,
      "it holds",
      said
  );
  expect(strcmp(said, "certificate accepted\n") == 0, "it is told", said);
  expect(strncmp(found.certificate, "nonolemma 2\n", 12) == 0, "its form", found.certificate);
  expect(
      nonobench_check_pair(
          DIAGONAL, strlen(DIAGONAL), found.certificate, found.certificate_size, NULL, &text
      ) == NONOBENCH_REFUSED,
      "of another",
      said
  );
  expect(
      nonobench_check_pair(
          picture, size, found.certificate, found.certificate_size - 1, NULL, &text
      ) == NONOBENCH_DONE,
      "no line feed",
      said
  );
  expect(
      nonobench_check_pair(
          picture, size, found.certificate, found.certificate_size - 2, NULL, &text
      ) == NONOBENCH_REFUSED,
      "cut",
      said
  );
  nonobench_free(found.certificate);
  expect(
      nonobench_prove_picture(DIAGONAL, strlen(DIAGONAL), NULL, false, 2, &found, &text) ==
          NONOBENCH_DONE,
      "no certificate",
      said
  );
  expect(
      found.ruling == NONOBENCH_AMBIGUOUS && !found.certificate && strcmp(said, "ambiguous\n") == 0,
      "it is told",
      said
  );
  expect(
      nonobench_check_pair(DIAGONAL, strlen(DIAGONAL), wrong, sizeof wrong - 1, &ANY, &text) ==
          NONOBENCH_REFUSED,
      "no certificate",
      said
  );
  expect(strcmp(said, "certificate NotDone at line 6") == 0, "it is said", said);
  expect(
      nonobench_prove_picture("P4", 2, NULL, false, 2, &found, &text) == NONOBENCH_REFUSED &&
          !found.certificate,
      "no picture",
      said
  );
  expect(strcmp(said, "ppm NotP3 at byte 0") == 0, "it is said", said);
  expect(
      nonobench_prove_picture(picture, size, &ODD, false, 2, &found, &text) == NONOBENCH_OPTIONS,
      "no background",
      said
  );
  /* Another picture has its clues on white, and none on black. */
  picture_of("..a/.a.", 7, picture);
  size = strlen(picture);
  expect(
      nonobench_prove_picture(picture, size, &ON_BLACK, false, 2, &found, NULL) == NONOBENCH_DONE &&
          found.certificate,
      "a background",
      ""
  );
  expect(
      nonobench_check_pair(picture, size, found.certificate, found.certificate_size, NULL, &text) ==
          NONOBENCH_REFUSED,
      "white again",
      said
  );
  nonobench_free(found.certificate);
}

/* A certificate is made with exactly the published cells, in the form that is asked for. The
 * diagonal has another picture, and none with the first cell. */
static void test_given_proofs(void) {
  static const nonobench_place outside = {3, 1};
  static const nonobench_options far = {NULL, &outside, 1, false}, some = {NULL, NULL, 1, false};
  char said[MOST];
  nonobench_text text = {said, sizeof said, 0};
  nonobench_place place = {0, 0};
  nonobench_audited found;
  size_t size = strlen(DIAGONAL);
  for (uint32_t format = 1; format <= 2; format++) {
    expect(
        nonobench_prove_picture(DIAGONAL, size, &ONE, format == 1, format, &found, &text) ==
                NONOBENCH_DONE &&
            found.ruling == NONOBENCH_UNIQUE,
        "a certificate with a given",
        said
    );
    expect(
        nonobench_givens(found.certificate, found.certificate_size, &place, 1) == 1 &&
            place.row == 1 && place.column == 1,
        "it names the given",
        found.certificate
    );
    expect(
        nonobench_check_pair(
            DIAGONAL, size, found.certificate, found.certificate_size, &ONE, NULL
        ) == NONOBENCH_DONE,
        "it is accepted",
        found.certificate
    );
    nonobench_free(found.certificate);
  }
  expect(
      nonobench_prove_picture(DIAGONAL, size, &far, false, 2, &found, &text) == NONOBENCH_REFUSED &&
          strcmp(said, "givens Place at line 1") == 0,
      "a given outside",
      said
  );
  expect(
      nonobench_prove_picture(DIAGONAL, size, &ANY, false, 2, &found, &text) == NONOBENCH_OPTIONS &&
          strcmp(said, "any_given goes with a certificate") == 0,
      "any given",
      said
  );
  expect(
      nonobench_prove_picture(DIAGONAL, size, &some, false, 2, &found, &text) ==
              NONOBENCH_OPTIONS &&
          strcmp(said, "a null beside a length") == 0,
      "a null for the cells",
      said
  );
  expect(
      nonobench_prove_picture(DIAGONAL, size, &ONE, false, 0, &found, &text) == NONOBENCH_OPTIONS &&
          strcmp(said, "format must be 1 or 2") == 0 && !found.certificate,
      "no such form",
      said
  );
}

/* Nothing at all, nulls, and lengths above what a file may have. */
static void test_bad_input(void) {
  char said[MOST];
  nonobench_text text = {said, sizeof said, 0}, none = {NULL, 0, 0};
  size_t size = strlen(DIAGONAL), most = NONOBENCH_MOST_BYTES;
  nonobench_desk *desk;
  char *big = (char *)malloc(most + 1);
  expect(
      nonobench_clues(NULL, 0, NULL, &text) == NONOBENCH_REFUSED &&
          !strcmp(said, "ppm NotP3 at byte 0"),
      "no picture",
      said
  );
  expect(nonobench_clues(NULL, 5, NULL, &text) == NONOBENCH_OPTIONS, "a null", said);
  expect(
      nonobench_check_pair(DIAGONAL, size, NULL, 0, NULL, &text) == NONOBENCH_REFUSED,
      "no certificate",
      said
  );
  expect(strcmp(said, "certificate NotCert at line 1") == 0, "it is said", said);
  expect(
      nonobench_check_pair(DIAGONAL, size, NULL, 1, NULL, NULL) == NONOBENCH_OPTIONS,
      "a null certificate",
      ""
  );
  nonobench_options empty = {"", &FIRST, 1, false}, broken = {NULL, NULL, 1, false};
  expect(
      nonobench_check_pair(DIAGONAL, size, GIVEN, strlen(GIVEN), &empty, &none) == NONOBENCH_DONE,
      "no room",
      ""
  );
  expect(none.size == 41, "how long it is", "");
  expect(
      nonobench_check_pair(DIAGONAL, size, GIVEN, strlen(GIVEN), &broken, &text) ==
          NONOBENCH_OPTIONS,
      "null places",
      said
  );
  if (!big) exit(2);
  memset(big, ' ', most + 1);
  memcpy(big, "P3", 2);
  expect(
      nonobench_clues(big, most, NULL, &text) == NONOBENCH_REFUSED &&
          !strcmp(said, "ppm Truncated at byte 16777216"),
      "most",
      said
  );
  expect(
      nonobench_clues(big, most + 1, NULL, &text) == NONOBENCH_REFUSED &&
          !strcmp(said, "input too long"),
      "too long",
      said
  );
  expect(
      nonobench_check_pair(DIAGONAL, size, big, most + 1, NULL, &text) == NONOBENCH_REFUSED,
      "too long a certificate",
      said
  );
  /* The library itself takes any length. */
  expect(nonobench_start(&desk) == NONOBENCH_DONE, "a desk", "");
  expect(
      nonobench_check_any_given(
          &desk, (uint8_t *)big, most + 1, (uint8_t *)big, most + 1, (uint8_t *)"", 0
      ) == NONOBENCH_REFUSED,
      "long",
      ""
  );
  expect(
      nonobench_take(&desk, (uint8_t *)said, sizeof said) == 30 &&
          !memcmp(said, "ppm Truncated at byte 16777217", 30),
      "long",
      said
  );
  nonobench_end(desk);
  free(big);
}

/* A null beside a length is refused by each function that asks one question, and at a null no desk
 * is ended. */
static void test_nulls(void) {
  nonobench_audited found;
  expect(
      nonobench_check_pair(NULL, 1, GIVEN, strlen(GIVEN), NULL, NULL) == NONOBENCH_OPTIONS,
      "a null picture",
      ""
  );
  expect(
      nonobench_verdict(NULL, 1, NULL, 0, NULL, NULL) == NONOBENCH_OPTIONS,
      "a null for a verdict",
      ""
  );
  expect(
      nonobench_audit(NULL, 1, NULL, 0, &found, NULL) == NONOBENCH_OPTIONS,
      "a null for an audit",
      ""
  );
  expect(
      nonobench_certify(NULL, 1, NULL, &found, NULL) == NONOBENCH_OPTIONS,
      "a null for a certificate",
      ""
  );
  expect(
      nonobench_prove_picture(NULL, 1, NULL, false, 2, &found, NULL) == NONOBENCH_OPTIONS,
      "a null for one with lemmas",
      ""
  );
  nonobench_end(NULL);
}

/* No text stands behind a handle or options that are refused. Clauses of the calls say so too. */
static void test_no_text(void) {
  const uint8_t *picture = (const uint8_t *)DIAGONAL;
  size_t size = strlen(DIAGONAL);
  nonobench_desk *desk;
  uint32_t handle;
  uint8_t none;
  expect(nonobench_start(&desk) == NONOBENCH_DONE, "a desk", "");
  for (int which = 0; which < 7; which++) {
    uint32_t status = nonobench_check_any_given(&desk, picture, size, picture, size, picture, 0);
    expect(
        status == NONOBENCH_REFUSED && nonobench_take(&desk, &none, 0) == 29,
        "a text stands there",
        ""
    );
    status = which == 0   ? nonobench_say(&desk, 1, picture, size)
             : which == 1 ? nonobench_close(&desk, 1)
             : which == 2 ? nonobench_open(&desk, picture, size, false, picture, 0, 0, &handle)
             : which == 3
                 ? nonobench_check_any_given(&desk, picture, size, picture, size, picture, size)
             : which == 4
                 ? nonobench_check(&desk, picture, size, picture, size, picture, 0, picture, size)
                 : nonobench_prove(
                       &desk,
                       picture,
                       size,
                       picture,
                       0,
                       picture,
                       which == 5 ? size : 0,
                       false,
                       which == 5 ? 2 : 3
                   );
    expect(status == (which < 2 ? NONOBENCH_CLOSED : NONOBENCH_OPTIONS), "it is refused", "");
    expect(nonobench_take(&desk, &none, 0) == 0, "no text stands there", "");
  }
  nonobench_end(desk);
}

/* Each room from none to more than enough, with bytes behind it that must stay. */
static void test_rooms(void) {
  char said[64], whole[] = "ambiguous\n.a\na.\ncolour . 255 255 255\ncolour a 0 0 0\n";
  bool holds = true;
  for (size_t room = 0; room < 60; room++) {
    size_t front = room == 0 ? 0 : room - 1 < 52 ? room - 1 : 52;
    nonobench_text text = {said, room, 0};
    memset(said, '#', sizeof said);
    holds =
        holds &&
        nonobench_verdict(DIAGONAL, strlen(DIAGONAL), NULL, -1, NULL, &text) == NONOBENCH_DONE &&
        text.size == 52;
    holds = holds && memcmp(said, whole, front) == 0 && (room == 0 || said[front] == 0);
    for (size_t at = room == 0 ? 0 : front + 1; at < sizeof said; at++)
      holds = holds && said[at] == '#';
  }
  expect(holds, "a text in each room", said);
}

static uint32_t next(uint32_t *state, uint32_t n) {
  *state = *state * 1103515245u + 12345u;
  return (uint32_t)(((uint64_t)*state * n) >> 32);
}

/* A text for the answers to some pairs made by chance: bytes, and pictures and certificates with a
 * byte changed. */
static void answer_some(uint32_t seed, int times, char *out, size_t room) {
  size_t used = 0;
  for (int i = 0; i < times; i++) {
    char picture[sizeof DIAGONAL], cert[sizeof GIVEN], noise[200], said[MOST];
    nonobench_text text = {said, sizeof said, 0};
    uint32_t size = next(&seed, sizeof noise), status[4];
    for (uint32_t at = 0; at < size; at++) noise[at] = (char)next(&seed, 256);
    memcpy(picture, DIAGONAL, sizeof picture);
    memcpy(cert, GIVEN, sizeof cert);
    if (next(&seed, 2)) picture[next(&seed, sizeof picture - 1)] = (char)(32 + next(&seed, 90));
    if (next(&seed, 2)) cert[next(&seed, sizeof cert - 1)] = (char)(10 + next(&seed, 100));
    status[0] =
        nonobench_check_pair(picture, sizeof picture - 1, cert, sizeof cert - 1, &ANY, &text);
    status[1] = nonobench_check_pair(noise, size, noise, size, NULL, NULL);
    status[2] = nonobench_check_pair(DIAGONAL, sizeof DIAGONAL - 1, noise, size, NULL, NULL);
    status[3] = nonobench_verdict(noise, size, NULL, 100, NULL, NULL);
    used += (size_t)snprintf(
        out + used, room - used, "%u%u%u%u %s\n", status[0], status[1], status[2], status[3], said
    );
    if (used + MOST > room) return;
  }
}

typedef struct job {
  uint32_t seed;
  int times;
  char *out;
} job;

#define ROOM 262144

static void *work(void *given) {
  job *mine = (job *)given;
  answer_some(mine->seed, mine->times, mine->out, ROOM);
  return NULL;
}

/* Four threads with desks of their own answer as one does. */
static void test_threads(int times) {
  pthread_t threads[THREADS];
  job jobs[THREADS];
  char *alone = (char *)malloc(ROOM);
  if (!alone) exit(2);
  for (int i = 0; i < THREADS; i++) {
    jobs[i].seed = (uint32_t)i + 7, jobs[i].times = times, jobs[i].out = (char *)malloc(ROOM);
    if (!jobs[i].out || pthread_create(&threads[i], NULL, work, &jobs[i]) != 0) exit(2);
  }
  for (int i = 0; i < THREADS; i++) pthread_join(threads[i], NULL);
  for (int i = 0; i < THREADS; i++) {
    answer_some(jobs[i].seed, times, alone, ROOM);
    expect(
        strlen(alone) > (size_t)times * 6 && strcmp(alone, jobs[i].out) == 0,
        "a thread answers as one alone",
        jobs[i].out
    );
    expect(
        strstr(alone, "0111 certificate accepted") != NULL,
        "some are accepted, and noise is not",
        alone
    );
    free(jobs[i].out);
  }
  free(alone);
}

/* A picture of the largest size with cells made by chance, and a text of so many lines behind a
 * first one. */
static char *largest(void) {
  char *text = (char *)malloc(200000), *end = text;
  uint32_t seed = 1;
  if (!text) exit(2);
  end += sprintf(end, "P3 120 120 1");
  for (int cell = 0; cell < 14400; cell++)
    end += sprintf(end, next(&seed, 10) < 6 ? " 0 0 0" : " 1 1 1");
  return text;
}

static char *lines_of(const char *first, const char *line, int count) {
  char *text = (char *)malloc(strlen(first) + (strlen(line) + 8) * (size_t)count + 1), *end = text;
  if (!text) exit(2);
  end += sprintf(end, "%s", first);
  for (int i = 0; i < count; i++) end += sprintf(end, line, i / 120 % 120 + 1, i % 120 + 1);
  return text;
}

/* Every cell of the largest picture. */
static const nonobench_place *every_place(void) {
  static nonobench_place places[14400];
  for (uint32_t cell = 0; cell < 14400; cell++)
    places[cell] = (nonobench_place){cell / 120 + 1, cell % 120 + 1};
  return places;
}

/* Each call, in a thread with no more stack than the header names: on the largest picture, with
 * deep trees, long lemmas and many givens. */
static void *call_each(void *given) {
  nonobench_audited found;
  char *picture = largest(), *texts[] = {
                                 lines_of("nonocert 1\n", "split %d %d\n", 14400),
                                 lines_of("nonolemma 1\n", "part %d %d a\n", 14400),
                                 lines_of("nonolemma 1\nlemma\n", "deny %d %d a\n", 1000)};
  const nonobench_options many = {NULL, every_place(), 14400, false};
  bool *holds = (bool *)given;
  size_t size = strlen(picture);
  *holds = nonobench_clues(picture, size, NULL, NULL) == NONOBENCH_DONE;
  *holds = *holds && nonobench_verdict(picture, size, NULL, 20, NULL, NULL) == NONOBENCH_DONE;
  for (int i = 0; i < 3; i++) {
    *holds =
        *holds && nonobench_check_pair(picture, size, texts[i], strlen(texts[i]), &ANY, NULL) ==
                      NONOBENCH_REFUSED;
    *holds =
        *holds && nonobench_check_pair(picture, size, texts[i], strlen(texts[i]), &many, NULL) ==
                      NONOBENCH_REFUSED;
    free(texts[i]);
  }
  *holds = *holds && nonobench_audit(picture, size, NULL, 20, &found, NULL) == NONOBENCH_DONE;
  nonobench_free(found.certificate);
  *holds = *holds && nonobench_certify(TILE, strlen(TILE), NULL, &found, NULL) == NONOBENCH_DONE &&
           found.certificate;
  nonobench_free(found.certificate);
  *holds =
      *holds &&
      nonobench_prove_picture(TILE, strlen(TILE), NULL, false, 2, &found, NULL) == NONOBENCH_DONE &&
      found.certificate;
  nonobench_free(found.certificate);
  *holds =
      *holds &&
      nonobench_prove_picture(OPEN, strlen(OPEN), NULL, false, 2, &found, NULL) == NONOBENCH_DONE &&
      found.certificate;
  nonobench_free(found.certificate);
  free(picture);
  return NULL;
}

static void test_stack(void) {
  pthread_t thread;
  pthread_attr_t words;
  bool holds = false;
#ifdef _WIN32
  long least = 0; /* Windows rounds up itself */
#else
  long least = sysconf(_SC_THREAD_STACK_MIN);
#endif
  size_t size = least > (long)NONOBENCH_STACK ? (size_t)least : NONOBENCH_STACK;
  if (pthread_attr_init(&words) != 0 || pthread_attr_setstacksize(&words, size) != 0) exit(2);
  if (pthread_create(&thread, &words, call_each, &holds) != 0) exit(2);
  pthread_join(thread, NULL);
  pthread_attr_destroy(&words);
  expect(holds, "each call with the stack that the header names", "");
}

#if defined(__GLIBC__) && (__GLIBC__ > 2 || __GLIBC_MINOR__ >= 33)
static size_t held(void) { return mallinfo2().uordblks; }
#else
static size_t held(void) { return 0; }
#endif

/* Calls until malloc keeps no more blocks for later ones: with the searches of proofs, some 3,000
   were seen. Under valgrind, where few calls are made, malloc is another one. */
enum { WARM = 4000, FEW = 200 };

/* Calls in a loop, on a desk that stays and on desks of their own: no memory stays taken. */
static void test_growth(int times) {
  nonobench_desk *desk;
  uint32_t handle;
  size_t before = 0;
  bool holds = true;
  int warm = times < 1000 ? FEW : WARM;
  expect(nonobench_start(&desk) == NONOBENCH_DONE, "a desk", "");
  for (int i = 0; i < warm + times; i++) {
    nonobench_audited found;
    /* What malloc keeps for the next call of a size counts as taken, so the first calls do not
     * count. */
    if (i == warm) before = held();
    holds = holds &&
            nonobench_check_pair(DIAGONAL, strlen(DIAGONAL), GIVEN, strlen(GIVEN), &ONE, NULL) ==
                NONOBENCH_DONE;
    holds = holds && nonobench_check_pair("P4", 2, "", 0, NULL, NULL) == NONOBENCH_REFUSED;
    holds = holds && nonobench_audit(TILE, strlen(TILE), NULL, 9, &found, NULL) == NONOBENCH_DONE &&
            found.certificate;
    nonobench_free(found.certificate);
    holds = holds &&
            nonobench_prove_picture(TILE, strlen(TILE), NULL, false, 2, &found, NULL) ==
                NONOBENCH_DONE &&
            found.certificate;
    holds = holds && nonobench_check_pair(
                         TILE, strlen(TILE), found.certificate, found.certificate_size, NULL, NULL
                     ) == NONOBENCH_DONE;
    nonobench_free(found.certificate);
    holds = holds && nonobench_open(
                         &desk,
                         (const uint8_t *)DIAGONAL,
                         strlen(DIAGONAL),
                         false,
                         (const uint8_t *)"",
                         0,
                         9,
                         &handle
                     ) == 0;
    holds =
        holds && nonobench_say(&desk, handle, (const uint8_t *)"pin 1 1\nverdict\nundo\n", 21) ==
                     NONOBENCH_DONE;
    holds = holds && nonobench_close(&desk, handle) == NONOBENCH_DONE &&
            nonobench_close(&desk, handle) == NONOBENCH_CLOSED;
  }
  expect(holds, "calls in a loop", "");
  /* What malloc keeps of freed blocks varies by some; a block that each call keeps would take 16
   * bytes or more of each. */
  expect(held() <= before + 1024, "no memory stays taken", "");
  nonobench_end(desk);
}

int main(int count, char **words) {
  int times = count > 2 ? atoi(words[2]) : 10000;
  if (count < 2) return 2;
  run_cases(words[1], "pictures", run_case);
  run_cases(words[1], "certificates", run_case);
  run_cases(words[1], "lemmas", run_case);
  run_cases(words[1], "published", run_case);
  test_answers();
  test_undecided();
  test_places();
  test_certificates();
  test_lemmas();
  test_given_proofs();
  test_bad_input();
  test_nulls();
  test_no_text();
  test_rooms();
  test_threads(times / 10 < 500 ? times / 10 : 500);
  test_stack();
  test_growth(times);
  printf("C: %d passed, %d failed\n", passed, failed);
  return failed == 0 ? 0 : 1;
}

/* Makes each call of both libraries that needs no desk, and counts those that are answered
 * otherwise than on a processor without SSE4.2. */
#include "nonobench.h"
#include "nonocheck.h"
#include <stdio.h>
#include <string.h>

#define WORDS "this processor has no SSE4.2, which nonobench needs"

static const char PICTURE[] = "P3 1 1 1 0 0 0", CERT[] = "nonocert 2\ndone\n";
static const size_t SIZE = sizeof PICTURE - 1, CERT_SIZE = sizeof CERT - 1;
static char said[100];
static nonobench_text text = {said, sizeof said, 0};
static int wrong;

/* A status, with which the text of the call must come. */
static void expect(uint32_t status, const char *words) {
  wrong += status != NONOBENCH_PROCESSOR || strcmp(said, words) != 0;
  memset(said, '?', sizeof said - 1);
}

static void ask_nonobench(void) {
  nonobench_audited found;
  nonobench_assessment assessed = {.size = sizeof assessed};
  nonobench_desk *desk = NULL;
  wrong += nonobench_version((uint8_t *)said, sizeof said) != 0;
  wrong += nonobench_start(&desk) != NONOBENCH_PROCESSOR || desk;
  nonobench_end(desk);
  nonobench_free(NULL);
  expect(nonobench_check_pair(PICTURE, SIZE, CERT, CERT_SIZE, NULL, &text), WORDS);
  expect(nonobench_clues(PICTURE, SIZE, NULL, &text), WORDS);
  expect(nonobench_verdict(PICTURE, SIZE, NULL, 9, NULL, &text), WORDS);
  expect(nonobench_certify(PICTURE, SIZE, NULL, &found, &text), WORDS);
  expect(nonobench_prove_picture(PICTURE, SIZE, NULL, false, 2, &found, &text), WORDS);
  expect(nonobench_audit(PICTURE, SIZE, NULL, 9, &found, &text), WORDS);
  expect(
      nonobench_assess_puzzle(PICTURE, SIZE, false, NULL, 0, NULL, NULL, &assessed, &text), WORDS
  );
}

static void ask_nonocheck(void) {
  const uint8_t *picture = (const uint8_t *)PICTURE, *cert = (const uint8_t *)CERT;
  uint8_t *out = (uint8_t *)said;
  const uint16_t white[3] = {1, 1, 1};
  bool is_blank, lacks_background;
  nonocheck_version(out, sizeof said);
  wrong += said[0] != 0;
  expect(nonocheck_check(picture, SIZE, cert, CERT_SIZE, cert, 0, white, 0, out, sizeof said), "");
  expect(nonocheck_check_any_given(picture, SIZE, cert, CERT_SIZE, white, 0, out, sizeof said), "");
  expect(
      nonocheck_flaws(picture, SIZE, white, 0, &is_blank, &lacks_background, out, sizeof said), ""
  );
}

int main(void) {
  ask_nonobench();
  ask_nonocheck();
  printf("%d wrong\n", wrong);
  return 0;
}

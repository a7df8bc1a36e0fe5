/* The rates of the library for C, for measure/rates.py: rates PAIRS ROUNDS. PAIRS has pictures and
 * certificates, each pair behind their lengths. Prints how many checks, verdicts, and verdicts with
 * certificates a second of processor time are made. */
#include "nonobench.h"
#include <stdio.h>
#include <stdlib.h>
#include <time.h>

typedef struct pair {
  const char *picture, *certificate;
  uint32_t sizes[2];
} pair;

typedef uint32_t question(const pair *asked);

static uint32_t check(const pair *asked) {
  return nonobench_check_pair(
      asked->picture, asked->sizes[0], asked->certificate, asked->sizes[1], NULL, NULL
  );
}

static uint32_t verdict(const pair *asked) {
  return nonobench_verdict(asked->picture, asked->sizes[0], NULL, -1, NULL, NULL);
}

static uint32_t audit(const pair *asked) {
  nonobench_audited found;
  uint32_t status = nonobench_audit(asked->picture, asked->sizes[0], NULL, -1, &found, NULL);
  free(found.certificate);
  return status;
}

static double rate(const pair *pairs, size_t count, int rounds, question *ask) {
  double best = 0;
  for (int round = 0; round < rounds; round++) {
    clock_t begun = clock();
    for (size_t at = 0; at < count; at++) {
      if (ask(&pairs[at]) != NONOBENCH_DONE) exit(1);
    }
    double found = (double)count * CLOCKS_PER_SEC / (double)(clock() - begun);
    best = found > best ? found : best;
  }
  return best;
}

int main(int count, char **words) {
  static pair pairs[100000];
  size_t most = 0;
  FILE *file = count == 3 ? fopen(words[1], "rb") : NULL;
  if (!file) return 2;
  for (; most < 100000 && fread(pairs[most].sizes, sizeof pairs[most].sizes, 1, file) == 1;
       most++) {
    size_t size = (size_t)pairs[most].sizes[0] + pairs[most].sizes[1];
    char *bytes = malloc(size);
    if (!bytes || fread(bytes, 1, size, file) != size) return 2;
    pairs[most].picture = bytes, pairs[most].certificate = bytes + pairs[most].sizes[0];
  }
  int rounds = atoi(words[2]);
  printf(
      "%f %f %f\n",
      rate(pairs, most, rounds, check),
      rate(pairs, most, rounds, verdict),
      rate(pairs, most, rounds, audit)
  );
  return 0;
}

/* Prints the fields of an assessment as the lines that docs/SESSION.md has, without the rows of
 * another picture, or why a file is refused: assess PUZZLE CERTIFICATE|- BACKGROUND|- [ROW,COLUMN
 * ..]. With BIG defined the caller knows a field more than the library. */
#include "nonobench.h"
#include <inttypes.h>
#include <stdio.h>
#include <string.h>

#define MOST 65536

static size_t read_file(const char *name, char *out) {
  FILE *file = fopen(name, "rb");
  size_t size = file ? fread(out, 1, MOST, file) : 0;
  if (file) fclose(file);
  return size;
}

static void print_place(const char *words, nonobench_place place) {
  if (place.row > 0) printf("%s %" PRIu32 " %" PRIu32 "\n", words, place.row, place.column);
}

static void print_grade(const nonobench_assessment *it) {
  static const char *const WORDS[] = {
      "", "unknown", "easy", "medium", "hard", "very-hard", "expert"};
  if (it->grade == NONOBENCH_NO_GRADE) return;
  printf(
      "grade %s %" PRIu64 " %" PRIu64 " %" PRIu64,
      WORDS[it->grade],
      it->rounds,
      it->evaluations,
      it->wait
  );
  if (it->grade != NONOBENCH_UNKNOWN) printf(" %" PRIu64 " %" PRIu64, it->splits, it->depth);
  printf("\n");
}

/* Whether the given of a certificate is published with the two rows that have another solution
 * without it, a .non text. */
static bool takes_any_given(void) {
  static const char PUZZLE[] = "width 2\nheight 2\nrows\n1\n1\ncolumns\n1\n1\ngoal 1001\n";
  static const char GIVEN[] = "nonocert 2\ngiven 1 1\nline r 1\nline c 1\nline r 2\ndone\n",
                    WRONG[] = "nonocert 2\ngiven 4294967297 1\ndone\n";
  const nonobench_options any = {NULL, NULL, 0, true};
  nonobench_assessment it = {.size = sizeof it};
  if (nonobench_assess_puzzle(
          PUZZLE, strlen(PUZZLE), true, GIVEN, strlen(GIVEN), &any, NULL, &it, NULL
      ) != NONOBENCH_DONE)
    return false;
  if (!it.is_fit || it.givens != 1) return false;
  return nonobench_assess_puzzle(
             PUZZLE, strlen(PUZZLE), true, WRONG, strlen(WRONG), &any, NULL, &it, NULL
         ) == NONOBENCH_REFUSED &&
         !it.is_fit;
}

int main(int count, char **words) {
  static char puzzle[MOST], certificate[MOST], said[MOST];
  static nonobench_place places[MOST];
  static const char *const RULINGS[] = {"undecided", "unique", "ambiguous"};
  struct {
    nonobench_assessment it;
    uint64_t later;
  } found;
  nonobench_text text = {said, sizeof said, 0};
  nonobench_options options = {NULL, places, 0, false};
  if (count < 4) return 2;
  for (int at = 4; at < count; at++, options.published_count++) {
    sscanf(words[at], "%" SCNu32 ",%" SCNu32, &places[at - 4].row, &places[at - 4].column);
  }
  if (strcmp(words[3], "-") != 0) options.background = words[3];
  bool is_by = strcmp(words[2], "-") != 0;
  size_t size = read_file(words[1], puzzle), held = is_by ? read_file(words[2], certificate) : 0;
  memset(&found, 0xff, sizeof found);
#ifdef BIG
  found.it.size = sizeof found;
#else
  found.it.size = sizeof found.it;
#endif
  uint32_t status = nonobench_assess_puzzle(
      puzzle, size, false, is_by ? certificate : NULL, held, &options, NULL, &found.it, &text
  );
  if (status != NONOBENCH_DONE) {
    if (found.it.ruling != NONOBENCH_UNDECIDED || found.it.is_fit || found.it.rows != 0 ||
        found.it.alike_count != 0)
      return 3;
    printf("refused %s\n", said);
    return 1;
  }
  if (!takes_any_given()) return 4;
#ifdef BIG
  if (found.later != 0 || found.it.size != sizeof found) return 3;
#else
  if (found.later != UINT64_MAX || found.it.size != sizeof found.it) return 3;
#endif
  const nonobench_assessment *it = &found.it;
  if (!strstr(said, it->is_fit ? "\nfit\ncolour . " : "\nunfit\ncolour . ")) return 5;
  printf(
      "%s\nsize %" PRIu32 " %" PRIu32 "\ncolours %" PRIu32 "\ngivens %" PRIu32 "\nopen %" PRIu32
      "\n",
      RULINGS[it->ruling],
      it->rows,
      it->columns,
      it->colours,
      it->givens,
      it->open
  );
  print_grade(it);
  if (it->is_blank) printf("flaw blank\n");
  if (it->lacks_background) printf("flaw background\n");
  print_place("flaw given", it->given);
  for (uint32_t at = 0; at < it->alike_count; at++)
    printf("flaw alike %c %c\n", it->alike[at][0], it->alike[at][1]);
  printf("%s\n", it->is_fit ? "fit" : "unfit");
  return 0;
}

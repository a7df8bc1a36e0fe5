/* What the tests of both libraries share: the files of tests/cases, line by line. */
#include <stdbool.h>
#include <stdint.h>
#include <stdio.h>
#include <stdlib.h>
#include <string.h>

#define MOST 4096

static int failed = 0, passed = 0;

static void expect(bool holds, const char *what, const char *got) {
  if (holds) {
    passed++;
  } else {
    failed++;
    printf("failed: %s\n  got: %.300s\n", what, got);
  }
}

/* The bytes of a text as printf reads it: \n, \t, \r, \v, \f, \a, \b, \e, \\, \xHH and octal
 * digits. */
static size_t unescape(const char *text, size_t size, char *out) {
  static const char names[] = "ntrvfabe\\", bytes[] = "\n\t\r\v\f\a\b\033\\";
  size_t count = 0;
  for (size_t at = 0; at < size; at++) {
    if (text[at] != '\\' || at + 1 == size) {
      out[count++] = text[at];
      continue;
    }
    const char *name = strchr(names, text[++at]);
    if (name) {
      out[count++] = bytes[name - names];
    } else {
      bool hex = text[at] == 'x';
      char digits[4] = "";
      size_t most = hex ? 2 : 3, found = 0;
      size_t from = hex ? at + 1 : at;
      while (found < most && from + found < size &&
             strchr(hex ? "0123456789abcdefABCDEF" : "01234567", text[from + found])) {
        digits[found] = text[from + found];
        found++;
      }
      out[count++] = (char)strtol(digits, NULL, hex ? 16 : 8);
      at = from + found - 1;
    }
  }
  return count;
}

/* A picture of white, black (a) and red (b) cells, its rows joined by /. */
static void picture_of(const char *rows, size_t size, char *out) {
  size_t height = 1, width = 0;
  for (size_t at = 0; at < size; at++) height += rows[at] == '/';
  while (width < size && rows[width] != '/') width++;
  out += sprintf(out, "P3\n%zu %zu\n255\n", width, height);
  for (size_t at = 0; at < size; at++) {
    const char *triple = rows[at] == '.'   ? "255 255 255\n"
                         : rows[at] == 'a' ? "0 0 0\n"
                                           : "255 0 0\n";
    if (rows[at] != '/') out += sprintf(out, "%s", triple);
  }
}

/* Whether a status and a text are those of a case's answer: `! TEXT` is refused, else the lines are
 * joined by ` | `. */
static bool is_answer(const char *answer, uint32_t status, const char *text) {
  char wanted[MOST] = "";
  if (strncmp(answer, "! ", 2) == 0) return status == 1 && strcmp(answer + 2, text) == 0;
  for (char *to = wanted;; answer += 3) {
    const char *cut = strstr(answer, " | ");
    size_t size = cut ? (size_t)(cut - answer) : strlen(answer);
    to += sprintf(to, "%.*s\n", (int)size, answer);
    answer += size;
    if (!cut) break;
  }
  return status == 0 && strcmp(wanted, text) == 0;
}

/* The answer of a line of cases, past the last ` => `, which becomes a NUL. */
static char *answer_of(char *line) {
  char *answer = NULL;
  for (char *at = line; (at = strstr(at, " => ")); at++) answer = at;
  if (!answer) return NULL;
  *answer = 0;
  return answer + 4;
}

/* Runs the lines of a file of cases. */
static void run_cases(
    const char *folder, const char *name, void (*run_case)(char *line, const char *name)
) {
  char path[MOST], line[MOST];
  int before = passed;
  snprintf(path, sizeof path, "%s/%s.case", folder, name);
  FILE *file = fopen(path, "r");
  expect(file != NULL, "a file of cases opens", path);
  while (file && fgets(line, sizeof line, file)) {
    line[strcspn(line, "\n")] = 0;
    if (line[0] && line[0] != '#') run_case(line, name);
  }
  if (file) fclose(file);
  expect(passed > before + 20, "there are cases", path);
}

// Where the program for Linux on x86-64 begins. It needs a processor with SSE4.2, and says so.
#include <unistd.h>

#include "processor.h"

// The program itself, whose main ./release calls by this name.
int nonobench_main(void);

int main(void) {
  static const char SAID[] = "nonobench: " NO_PROCESSOR "\n";
  if (has_processor()) return nonobench_main();
  (void)!write(STDERR_FILENO, SAID, sizeof SAID - 1);
  return 3;
}

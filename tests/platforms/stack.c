/* Calls the library on a stack that is nearly used up: stack FILE BYTES. FILE becomes 1 MiB of Z
 * bytes, in memory below the stack of a thread; on Linux the page that guards it lies between. When
 * so many bytes of the stack are left, the thread makes some calls. Either they are done, with
 * status 0, or the system ends the process. FILE has no other byte then, whatever happened. */
#include "nonobench.h"

#include <stdio.h>
#include <stdlib.h>
#include <string.h>
#ifdef _WIN32
#include <windows.h>
#else
#include <fcntl.h>
#include <pthread.h>
#include <sys/mman.h>
#include <sys/resource.h>
#include <unistd.h>
#endif

enum { BELOW = 1 << 20, GUARD = 4096, STACK = 1 << 18 };

static const char PICTURE[] =
    "P3 4 3 1 0 0 0 1 1 1 0 0 0 0 0 0 0 0 0 1 1 1 1 1 1 1 1 1 1 1 1 0 0 0 1 1 1 1 1 1\n";
static size_t left;
static bool holds;

/* Says why nothing was tried, with a status of its own. */
static void give_up(const char *why) {
  fprintf(stderr, "stack: %s\n", why);
  exit(9);
}

/* A search, and both checkers. */
__attribute__((noinline)) static void make_calls(void) {
  nonobench_audited found;
  nonobench_ruling ruling;
  holds = nonobench_clues(PICTURE, sizeof PICTURE - 1, NULL, NULL) == NONOBENCH_DONE;
  holds = holds &&
          nonobench_verdict(PICTURE, sizeof PICTURE - 1, NULL, 9, &ruling, NULL) == NONOBENCH_DONE;
  holds =
      holds && nonobench_prove_picture(PICTURE, sizeof PICTURE - 1, NULL, false, 2, &found, NULL) ==
                   NONOBENCH_DONE;
  if (holds && found.certificate)
    holds = nonobench_check_pair(
                PICTURE, sizeof PICTURE - 1, found.certificate, found.certificate_size, NULL, NULL
            ) == NONOBENCH_DONE;
  if (holds) nonobench_free(found.certificate);
  holds =
      holds && nonobench_certify(PICTURE, sizeof PICTURE - 1, NULL, &found, NULL) == NONOBENCH_DONE;
  if (holds) nonobench_free(found.certificate);
}

/* Uses up the stack down to what is to be left above its end, and calls. */
__attribute__((noinline)) static void call_above(char *end) {
  char here;
  size_t room = (size_t)(&here - end);
  if (room > left) {
    volatile char *used = __builtin_alloca(room - left);
    used[0] = 0;
    make_calls();
    used[0] = 1;
  } else {
    make_calls();
  }
}

#ifdef _WIN32
enum { TURNS = 100, MOST_SECONDS = 60, THREAD_ENDED = 8 };

static char *mapped[TURNS];
static volatile bool has_begun, has_ended;

/* Calls if some of the memory that was mapped ends where the stack does. */
static DWORD WINAPI run(void *given) {
  MEMORY_BASIC_INFORMATION about = {0};
  VirtualQuery(&about, &about, sizeof about);
  for (int at = 0; at < TURNS && !has_begun; at++) {
    if (!mapped[at] || mapped[at] + BELOW != about.AllocationBase) continue;
    has_begun = true;
    call_above(about.AllocationBase);
    has_ended = true;
  }
  return given != NULL;
}

/* Windows gives the lowest room that is large enough: once holes are filled, a stack comes to lie
 * above what was mapped. Where too little of it is left to handle its overflow, wine ends the
 * thread alone, and locks that it held stay held. */
static void try_in(const char *name) {
  HANDLE file =
      CreateFileA(name, GENERIC_READ | GENERIC_WRITE, FILE_SHARE_READ, 0, CREATE_ALWAYS, 0, 0);
  HANDLE mapping = CreateFileMappingA(file, 0, PAGE_READWRITE, 0, BELOW, 0);
  SetErrorMode(SEM_NOGPFAULTERRORBOX);
  for (int turn = 0; turn < TURNS && !has_begun; turn++) {
    mapped[turn] = MapViewOfFile(mapping, FILE_MAP_WRITE, 0, 0, BELOW);
    if (!mapped[turn]) give_up("the file is not mapped");
    memset(mapped[turn], 'Z', BELOW);
    HANDLE thread = CreateThread(0, STACK, run, 0, STACK_SIZE_PARAM_IS_A_RESERVATION, 0);
    if (!thread) give_up("there is no thread");
    if (WaitForSingleObject(thread, MOST_SECONDS * 1000) != WAIT_OBJECT_0)
      give_up("the thread does not end");
  }
  if (!has_begun) give_up("no stack lies above the file");
  if (!has_ended) TerminateProcess(GetCurrentProcess(), THREAD_ENDED);
}
#else
static void *run(void *end) {
  call_above(end);
  return NULL;
}

static void try_in(const char *name) {
  const struct rlimit none = {0, 0};
  pthread_t thread;
  pthread_attr_t words;
  int file = open(name, O_RDWR | O_CREAT | O_TRUNC, 0600);
  char *all =
      mmap(NULL, BELOW + GUARD + STACK, PROT_READ | PROT_WRITE, MAP_PRIVATE | MAP_ANONYMOUS, -1, 0);
  setrlimit(RLIMIT_CORE, &none);
  if (file < 0 || ftruncate(file, BELOW) != 0 || all == MAP_FAILED)
    give_up("there is no file or no memory");
  if (mmap(all, BELOW, PROT_READ | PROT_WRITE, MAP_SHARED | MAP_FIXED, file, 0) == MAP_FAILED)
    give_up("the file is not mapped");
  memset(all, 'Z', BELOW);
  mprotect(all + BELOW, GUARD, PROT_NONE);
  pthread_attr_init(&words);
  if (pthread_attr_setstack(&words, all + BELOW + GUARD, STACK) != 0) give_up("there is no stack");
  if (pthread_create(&thread, &words, run, all + BELOW + GUARD) != 0) give_up("there is no thread");
  pthread_join(thread, NULL);
}
#endif

int main(int count, char **words) {
  if (count != 3) return 2;
  left = (size_t)atoi(words[2]);
  try_in(words[1]);
  return holds ? 0 : 1;
}

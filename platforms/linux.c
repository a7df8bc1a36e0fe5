// The calls of the system that the program's module names, for Linux on arm64, and for macOS as an
// experiment: those of POSIX, and its arguments. docs/TRUST.md lists them. The toolchain has its
// own for Linux on x86-64. Errors keep the system's numbers: of those that the toolchain knows, the
// program tells only EINTR and ENOMEM from others, which are the same on both.
#define _POSIX_C_SOURCE 200809L
#include <errno.h>
#include <fcntl.h>
#include <signal.h>
#include <stdint.h>
#include <string.h>
#include <unistd.h>

// The program itself, as platforms/retarget.mjs names it.
int nonobench_main(void);

static int count;
static char **words;

// Copies an argument as far as there is room: its length, -1 where there is none, or -2 where it
// does not fit.
int64_t rattle_arg(int64_t at, char *to, int64_t room) {
  if (at < 0 || at >= count) return -1;
  int64_t size = (int64_t)strlen(words[at]);
  memcpy(to, words[at], (size_t)(size < room ? size : room));
  return size <= room ? size : -2;
}

// The program asks for no variable of the environment: one function of the toolchain reads both,
// and names these.
int64_t rattle_env(const char *name, char *to, int64_t room) {
  return (void)name, (void)to, (void)room, -1;
}
int64_t rattle_env_at(int64_t at, char *to, int64_t room) {
  return (void)at, (void)to, (void)room, -1;
}

int rattle_errno(void) { return errno; }
void rattle_set_errno(int number) { errno = number; }

// Files are opened to be read alone.
int system_open(const char *path, int flags, ...) {
  if ((flags & O_ACCMODE) == O_RDONLY) return open(path, O_RDONLY | O_NOCTTY | O_CLOEXEC);
  errno = EACCES;
  return -1;
}

int64_t system_read(int fd, void *to, int64_t room) { return read(fd, to, (size_t)room); }
int64_t system_write(int fd, const void *from, int64_t size) {
  return write(fd, from, (size_t)size);
}
int system_close(int fd) { return close(fd); }
int64_t system_lseek(int fd, int64_t by, int whence) { return lseek(fd, by, whence); }

// A pipe that nobody reads is an error of writing, as for the program on x86-64.
int main(int given, char **texts) {
  count = given, words = texts;
  signal(SIGPIPE, SIG_IGN);
  return nonobench_main();
}

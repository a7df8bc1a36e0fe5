// The calls of the system that the program's module names, for Windows: over its files, streams and
// words of UTF-16. docs/TRUST.md lists them. Errors have the numbers that they have on Linux, by
// which the toolchain knows them.
#include <windows.h>

#include <stdint.h>
#include <wchar.h>

#include "processor.h"

// The program itself, as platforms/retarget.mjs names it.
int nonobench_main(void);

// In words that the shell passes on, Windows' C library replaces * and ? by the names of files.
int _dowildcard = -1;

enum {
  NOT_THERE = 2,
  NOT_DONE = 5,
  NO_FILE = 9,
  NO_MEMORY = 12,
  NOT_ALLOWED = 13,
  TOO_MANY = 24,
  NO_PLACES = 29,
  NOBODY_READS = 32
};
enum { MOST_FILES = 16, MOST_UNITS = 32767, MOST_PATH = 4096, MOST_BYTES = 1 << 20, PREFIX = 8 };

static int count, fault;
static wchar_t **words;
static HANDLE files[MOST_FILES];

int rattle_errno(void) { return fault; }
void rattle_set_errno(int number) { fault = number; }

static int fails(int number) {
  fault = number;
  return -1;
}

// Fails with the number of the last error.
static int failed(void) {
  switch (GetLastError()) {
    case ERROR_FILE_NOT_FOUND:
    case ERROR_PATH_NOT_FOUND:
      return fails(NOT_THERE);
    case ERROR_ACCESS_DENIED:
    case ERROR_SHARING_VIOLATION:
    case ERROR_LOCK_VIOLATION:
      return fails(NOT_ALLOWED);
    case ERROR_INVALID_HANDLE:
      return fails(NO_FILE);
    case ERROR_NOT_ENOUGH_MEMORY:
    case ERROR_OUTOFMEMORY:
      return fails(NO_MEMORY);
    case ERROR_BROKEN_PIPE:
    case ERROR_NO_DATA:
      return fails(NOBODY_READS);
    default:
      return fails(NOT_DONE);
  }
}

// Puts a word's bytes of UTF-8, as far as there is room: their number, or -2 where they do not fit.
// Half of a pair that stands alone becomes the three bytes that it would have if it were a
// character: these are no UTF-8, and the program refuses them.
static int64_t put_utf8(const wchar_t *word, char *to, int64_t room) {
  int64_t size = 0;
  for (; *word; word++) {
    uint32_t code = *word;
    if (code >> 10 == 0x36 && word[1] >> 10 == 0x37)
      code = 0x10000 + ((code & 0x3ff) << 10) + (*++word & 0x3ff);
    int more = code < 0x80 ? 0 : code < 0x800 ? 1 : code < 0x10000 ? 2 : 3;
    uint32_t mark = more ? 0xff00 >> (more + 1) & 0xff : 0;
    for (int left = more; left >= 0; left--, size++) {
      if (size >= room) return -2;
      to[size] = (char)(left == more ? mark | code >> 6 * left : 0x80 | (code >> 6 * left & 0x3f));
    }
  }
  return size;
}

int64_t rattle_arg(int64_t at, char *to, int64_t room) {
  return at >= 0 && at < count ? put_utf8(words[at], to, room) : -1;
}

// The program asks for no variable of the environment: one function of the toolchain reads both,
// and names these.
int64_t rattle_env(const char *name, char *to, int64_t room) {
  return (void)name, (void)to, (void)room, -1;
}
int64_t rattle_env_at(int64_t at, char *to, int64_t room) {
  return (void)at, (void)to, (void)room, -1;
}

// A path as it can be opened: one that is long for Windows begins with \\?\, or, on a host's share,
// with \\?\UNC.
static const wchar_t *as_opened(const wchar_t *path) {
  static wchar_t whole[PREFIX + MOST_UNITS];
  wchar_t *from = whole + PREFIX;
  DWORD size = GetFullPathNameW(path, MOST_UNITS, from, 0);
  if (size < MAX_PATH || size >= MOST_UNITS || !wcsncmp(path, L"\\\\?\\", 4)) return path;
  int is_share = from[0] == L'\\' && from[1] == L'\\';
  int is_device = is_share && (from[2] == L'?' || from[2] == L'.') && from[3] == L'\\';
  if (is_device) {
    from[2] = L'?';
    return from;
  }
  from -= is_share ? 6 : 4;
  wmemcpy(from, is_share ? L"\\\\?\\UNC" : L"\\\\?\\", is_share ? 7 : 4);
  return from;
}

// Files are opened to be read alone, also where others have them open.
int system_open(const char *path, int flags, ...) {
  static wchar_t given[MOST_PATH];
  int at = 0;
  while (at < MOST_FILES && files[at]) at++;
  if (flags & 3) return fails(NOT_ALLOWED);
  if (at == MOST_FILES) return fails(TOO_MANY);
  if (!MultiByteToWideChar(CP_UTF8, MB_ERR_INVALID_CHARS, path, -1, given, MOST_PATH))
    return fails(NOT_THERE);
  HANDLE file = CreateFileW(
      as_opened(given),
      GENERIC_READ,
      FILE_SHARE_READ | FILE_SHARE_WRITE | FILE_SHARE_DELETE,
      0,
      OPEN_EXISTING,
      FILE_ATTRIBUTE_NORMAL,
      0
  );
  if (file == INVALID_HANDLE_VALUE) return failed();
  files[at] = file;
  return at + 3;
}

// The streams are 0, 1 and 2; a file has its place behind them.
static HANDLE handle_of(int fd) {
  static const DWORD streams[] = {STD_INPUT_HANDLE, STD_OUTPUT_HANDLE, STD_ERROR_HANDLE};
  HANDLE found = fd < 0 || fd >= MOST_FILES + 3 ? 0
                 : fd < 3                       ? GetStdHandle(streams[fd])
                                                : files[fd - 3];
  return found ? found : INVALID_HANDLE_VALUE;
}

// A pipe whose writer is gone has ended; one whose writer wrote no bytes goes on, and so does a
// console that Ctrl-C interrupts, where that does not end the process. Of a message that is longer
// than there is room, the rest comes next.
int64_t system_read(int fd, void *to, int64_t room) {
  HANDLE from = handle_of(fd);
  DWORD done = 0;
  do {
    SetLastError(0);
    if (!ReadFile(from, to, (DWORD)(room < MOST_BYTES ? room : MOST_BYTES), &done, 0) &&
        GetLastError() != ERROR_MORE_DATA)
      return GetLastError() == ERROR_BROKEN_PIPE ? 0 : failed();
  } while (!done && room &&
           (GetLastError() == ERROR_OPERATION_ABORTED || GetNamedPipeInfo(from, 0, 0, 0, 0)));
  return done;
}

int64_t system_write(int fd, const void *from, int64_t size) {
  DWORD done = 0;
  if (!WriteFile(handle_of(fd), from, (DWORD)(size < MOST_BYTES ? size : MOST_BYTES), &done, 0))
    return failed();
  return done;
}

int system_close(int fd) {
  if (fd < 3 || handle_of(fd) == INVALID_HANDLE_VALUE) return fails(NO_FILE);
  CloseHandle(files[fd - 3]);
  files[fd - 3] = 0;
  return 0;
}

// Only files on a disk have places.
int64_t system_lseek(int fd, int64_t by, int whence) {
  LARGE_INTEGER distance = {.QuadPart = by}, place;
  if (GetFileType(handle_of(fd)) != FILE_TYPE_DISK) return fails(NO_PLACES);
  return SetFilePointerEx(handle_of(fd), distance, &place, (DWORD)whence) ? place.QuadPart
                                                                          : failed();
}

// No box is shown where a drive is empty. The program needs a processor with SSE4.2, and says so.
int wmain(int given, wchar_t **texts) {
  static const char SAID[] = "nonobench: " NO_PROCESSOR "\n";
  count = given, words = texts;
  SetErrorMode(SEM_FAILCRITICALERRORS | SEM_NOOPENFILEERRORBOX);
  if (has_processor()) return nonobench_main();
  system_write(2, SAID, sizeof SAID - 1);
  return 3;
}

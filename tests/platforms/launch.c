/* Runs programs one after the other as a shell of Windows would, since wine itself takes long to
 * begin: launch LIST. LIST has six words of UTF-16 for each, with a NUL behind every word: the line
 * of the command as it is, which may have halves of pairs, the folder in which it runs, the files
 * for its three streams, and a file for its status. In place of a file, - is no stream at all, | a
 * pipe whose other end is closed, a name behind < a file that can only be read, and one behind ! a
 * file that nobody else may open meanwhile. */
#include <windows.h>

#include <stdio.h>
#include <stdlib.h>
#include <wchar.h>

enum { MOST_SECONDS = 300 };

static SECURITY_ATTRIBUTES passed_on = {sizeof passed_on, 0, TRUE};

static HANDLE opened(const wchar_t *name, int is_input) {
  HANDLE reader, writer;
  if (!wcscmp(name, L"-")) return 0;
  if (!wcscmp(name, L"|")) {
    CreatePipe(&reader, &writer, &passed_on, 0);
    CloseHandle(is_input ? writer : reader);
    return is_input ? reader : writer;
  }
  DWORD shared = *name == L'!' ? 0 : FILE_SHARE_READ;
  if (*name == L'<') is_input = 1;
  name += *name == L'<' || *name == L'!';
  return CreateFileW(
      name,
      is_input ? GENERIC_READ : GENERIC_WRITE,
      shared,
      &passed_on,
      is_input ? OPEN_EXISTING : CREATE_ALWAYS,
      0,
      0
  );
}

/* Runs a program: its status, -1 where it does not end, or why it did not begin, as a number below
 * that. */
static long run(wchar_t *line, const wchar_t *folder, const wchar_t *const *names) {
  STARTUPINFOW how = {.cb = sizeof how, .dwFlags = STARTF_USESTDHANDLES};
  PROCESS_INFORMATION begun;
  DWORD status = (DWORD)-1;
  HANDLE streams[3];
  for (int at = 0; at < 3; at++) streams[at] = opened(names[at], at == 0);
  how.hStdInput = streams[0], how.hStdOutput = streams[1], how.hStdError = streams[2];
  if (CreateProcessW(0, line, 0, 0, TRUE, 0, 0, folder, &how, &begun)) {
    if (WaitForSingleObject(begun.hProcess, MOST_SECONDS * 1000) == WAIT_OBJECT_0)
      GetExitCodeProcess(begun.hProcess, &status);
    TerminateProcess(begun.hProcess, 1);
    CloseHandle(begun.hProcess);
    CloseHandle(begun.hThread);
  } else {
    status = -1000 - GetLastError();
  }
  for (int at = 0; at < 3; at++)
    if (streams[at]) CloseHandle(streams[at]);
  return (long)status;
}

/* Writes a status into its file. */
static void note(const wchar_t *name, long status) {
  FILE *file = _wfopen(name, L"wb");
  if (!file) exit(3);
  fprintf(file, "%ld\n", status);
  fclose(file);
}

int main(int count, char **words) {
  FILE *list = count == 2 ? fopen(words[1], "rb") : 0;
  wchar_t *all = list ? calloc(1 << 24, 1) : 0, *at = all, *part[6];
  if (!all) return 2;
  size_t size = fread(all, sizeof *all, (1 << 23) - 1, list);
  while (at < all + size) {
    for (int which = 0; which < 6; which++) part[which] = at, at += wcslen(at) + 1;
    note(part[5], run(part[0], part[1], (const wchar_t *const *)part + 2));
  }
  return 0;
}

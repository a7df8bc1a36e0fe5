// What c/pair.c and platforms/linux.c name of the headers of macOS, which are not here:
// platforms/macos/build puts this in the place of each.
#ifndef DECLARED_H
#define DECLARED_H
#include <stddef.h>
#include <stdint.h>

// <errno.h>
int *__error(void);
#define errno (*__error())
#define EACCES 13

// <fcntl.h>
int open(const char *path, int flags, ...);
#define O_RDONLY 0
#define O_ACCMODE 3
#define O_NOCTTY 0x20000
#define O_CLOEXEC 0x1000000

// <inttypes.h>
#define PRIu32 "u"

// <signal.h>
void (*signal(int number, void (*then)(int)))(int);
#define SIGPIPE 13
#define SIG_IGN ((void (*)(int))1)

// <stdio.h>
int sprintf(char *to, const char *form, ...);
int snprintf(char *to, size_t room, const char *form, ...);

// <stdlib.h>
void *malloc(size_t size);
void free(void *block);

// <string.h>
void *memset(void *at, int byte, size_t size);
void *memcpy(void *to, const void *from, size_t size);
int memcmp(const void *one, const void *other, size_t size);
size_t strlen(const char *text);
int strcmp(const char *one, const char *other);
int strncmp(const char *one, const char *other, size_t size);
char *strchr(const char *text, int letter);
size_t strspn(const char *text, const char *letters);

// <unistd.h>
long read(int fd, void *to, size_t room);
long write(int fd, const void *from, size_t size);
int close(int fd);
int64_t lseek(int fd, int64_t by, int whence);
#endif

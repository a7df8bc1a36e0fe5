// What the guards of both modules share (guard.c, check_guard.c): addresses as a host passes them.
typedef unsigned long size_t;
typedef unsigned long long u64;
typedef unsigned char byte;

// What a refused call answers (status.rt).
enum { OPTIONS = 6 };

// Addresses come with 64 bits. Whether so many bytes from here on lie within the memory, with no
// null beside a length: the proved calls read no null.
static _Bool is_within(u64 at, u64 size) {
  u64 all = (u64)__builtin_wasm_memory_size(0) << 16;
  return size <= all && at <= all - size && (at || !size);
}

static void *here(u64 at) { return (void *)(size_t)at; }

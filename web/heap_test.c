// Tests of heap.c, by the machine's own compiler: cc -std=c11 -O1 web/heap_test.c -o heap_test &&
// ./heap_test. Its memory is an array, of which each growth gives some pages. Blocks of all sizes
// are made, resized and given back by chance, beside a list of those that are held; in between, the
// heap is walked from end to end.
#include <stdio.h>
#include <stdlib.h>
#include <string.h>

enum { PAGE = 65536, PAGES = 512, MOST = 20000 };
_Alignas(PAGE) unsigned char memory[PAGE * PAGES];
static size_t pages = 1, bound = 2;
__asm__(".globl __heap_base\n.set __heap_base, memory + 1000");

static size_t memory_grow(size_t more) {
  if (pages + more > bound) return (size_t)-1;
  pages += more;
  return pages - more;
}

#define __builtin_wasm_memory_size(n) (((size_t)memory >> 16) + pages)
#define __builtin_wasm_memory_grow(n, more) ((void)memory_grow(more))
#define malloc heap_malloc
#define free heap_free
#define memcpy heap_memcpy
#define memmove heap_memmove
#define memset heap_memset
#define memcmp heap_memcmp
#define bcmp heap_bcmp
#include "heap.c"
#undef malloc
#undef free
#undef memcpy
#undef memmove
#undef memset
#undef memcmp
#undef bcmp

static void must(int holds, const char *what, size_t number) {
  if (holds) return;
  printf("heap: %s: %zu\n", what, number);
  exit(1);
}

static unsigned long long state = 1;
static size_t chance(size_t n) {
  state = state * 6364136223846793005u + 1442695040888963407u;
  return (size_t)(state >> 33) % n;
}

// The blocks that are held: where, how long, and the byte that all of it has.
static struct {
  unsigned char *at;
  size_t size;
  unsigned char byte;
} blocks[MOST];
static size_t count;

static int is_whole(size_t which, size_t size) {
  for (size_t i = 0; i < size; i++)
    if (blocks[which].at[i] != blocks[which].byte) return 0;
  return 1;
}

// Walks the whole heap: its blocks fill the memory, no two free ones meet, each is in the list of
// its class, and the others are held. Answers the size of the largest that is free.
static u64 walk(void) {
  u64 used = 0, free_size = 0, largest = 0, listed = 0;
  size_t used_count = 0;
  struct block *block = (struct block *)(memory + 1008), *before = 0;
  if (!end) return 0;
  for (; block != end; before = block, block = behind(block, (long long)block->size)) {
    must(
        block->size >= LEAST && block->size % 16 == 0 && block->size <= (size_t)end - (size_t)block,
        "a size",
        block->size
    );
    must(
        block->before == (before && before->is_free ? before->size : 0),
        "the size before",
        block->before
    );
    must(!block->is_free || !before || !before->is_free, "free neighbours", block->size);
    if (block->is_free)
      free_size += block->size, largest = largest < block->size ? block->size : largest;
    else
      used += block->size, used_count++;
  }
  must(
      (size_t)end == (size_t)memory + pages * PAGE - HEAD && end->size == 0 && !end->is_free,
      "the end",
      0
  );
  must(
      end->before == (before && before->is_free ? before->size : 0),
      "the size before the end",
      end->before
  );
  must(used == nonobench_held() && used_count == count, "what is held", used_count);
  for (unsigned class = 0; class < 64; class ++) {
    must(!lists[class] == !(filled >> class & 1), "a class that is filled", class);
    for (struct block *at = lists[class], *last = 0; at; last = at, at = at->next) {
      must(at->is_free && at->last == last && class_of(at->size) == class, "a list", class);
      listed += at->size;
    }
  }
  must(listed == free_size, "what is listed", (size_t)listed);
  return largest;
}

// A size: most are small.
static size_t some_size(void) { return chance((size_t)1 << (1 + chance(18))); }

// What was answered for a block of some bytes: it lies within memory and is aligned, or there is no
// room.
static void look(const unsigned char *at, size_t size) {
  if (at) {
    must(
        (size_t)at % 16 == 0 && at >= memory + 1008 && at + size <= memory + pages * PAGE,
        "a place",
        size
    );
  } else {
    size_t most = (size_t)memory + bound * PAGE;
    must(
        walk() < size_for(size) && (size_t)end - end->before + size_for(size) + HEAD > most,
        "refused though there is room",
        size
    );
  }
}

static void make_one(size_t size) {
  unsigned char *at = (unsigned char *)(size_t)heap_malloc(size), byte = (unsigned char)chance(256);
  look(at, size);
  if (!at) return;
  memset(at, byte, size);
  blocks[count].at = at, blocks[count].size = size, blocks[count++].byte = byte;
}

static void resize_one(size_t which, size_t size) {
  struct tried tried;
  rattle_realloc(&tried, blocks[which].at, 0, size, 16);
  look((unsigned char *)(size_t)tried.block, size);
  must(tried.is_ok == (tried.block != 0), "whether it is there", size);
  if (!tried.is_ok) return;
  blocks[which].at = (unsigned char *)(size_t)tried.block;
  must(
      is_whole(which, size < blocks[which].size ? size : blocks[which].size),
      "a resized block",
      size
  );
  memset(blocks[which].at, blocks[which].byte, size);
  blocks[which].size = size;
}

static void free_one(size_t which) {
  must(is_whole(which, blocks[which].size), "a block that was held", blocks[which].size);
  rattle_dealloc(blocks[which].at);
  blocks[which] = blocks[--count];
}

static void free_all(void) {
  while (count > 0) free_one(chance(count));
  u64 all = end ? (u64)((size_t)end - (size_t)memory - 1008) : 0;
  must(walk() == all && held == 0, "one free block", (size_t)all);
}

// So many turns, within so many pages: first more is made than given back, and then less.
static void turns(size_t times, size_t most_pages) {
  bound = most_pages;
  for (size_t turn = 0; turn < times; turn++) {
    size_t part = turn * 8 / times % 2 ? 4 : 6, which = chance(10);
    if (which < part && count < MOST)
      make_one(some_size());
    else if (which < 8 && count > 0)
      free_one(chance(count));
    else if (count > 0)
      resize_one(chance(count), some_size());
    if (turn % 100 == 0) walk();
  }
  free_all();
}

// A growth that is to be refused is, and nothing has changed.
static void test_refusal(void) {
  make_one(100);
  u64 before = held;
  for (unsigned nth = 1; nth < 4; nth++) {
    struct tried tried;
    nonobench_refuse(nth);
    for (unsigned i = 1; i < nth; i++) make_one(10);
    rattle_alloc(&tried, 10, 16);
    must(!tried.is_ok && tried.block == 0, "a growth that is refused", nth);
    nonobench_refuse(1);
    rattle_realloc(&tried, blocks[0].at, 100, nth * 40, 16);
    must(!tried.is_ok && is_whole(0, 100), "a resize that is refused", nth);
    while (count > 1) free_one(1);
    must(held == before, "what is held after it", nth);
    walk();
  }
  free_all();
}

// Memory full of small blocks, which are given back in any order, is there for a large one.
static void test_joined(void) {
  bound = pages < 40 ? 40 : pages;
  for (size_t before = MOST + 1; before != count && count < MOST;)
    before = count, make_one(chance(2000));
  free_all();
  make_one((size_t)pages * PAGE / 2);
  must(count == 1, "a large block", pages);
  free_all();
}

// Blocks have sizes of 32, 48, 64, 96, 128 .. bytes with their heads. These fill the first page,
// and behind them there is no room for one that takes all of the next page, since the heap ends
// with a head of its own.
static void test_sizes(void) {
  static const size_t sizes[][2] = {
      {0, 32},
      {16, 32},
      {17, 48},
      {32, 48},
      {33, 64},
      {48, 64},
      {80, 96},
      {81, 128},
      {113, 192},
      {700, 768},
      {1009, 1536},
      {2000, 2048},
      {9000, 12288},
      {20000, 24576}};
  size_t all = 0, front = 65536 - 1008;
  for (size_t i = 0; i < sizeof sizes / sizeof *sizes; i++) {
    make_one(sizes[i][0]);
    all += sizes[i][1];
    must(held == all, "the size of a block", sizes[i][0]);
  }
  while (front - all > 64) make_one(10), all += 32;
  make_one(front - all - 16);
  must(held == front, "the first page", (size_t)held);
  size_t before = count;
  make_one(65520);
  must(count == before, "a block that takes all of the last page", count);
  bound = 3;
  make_one(65520);
  must(count == before + 1, "a block with room behind it", count);
  free_all();
  bound = 4;
  make_one(3 * PAGE - HEAD);
  must(count == 1, "a block of what is free and new memory", count);
  free_all();
}

int main(void) {
  memset(memory, 0xa5, sizeof memory);
  test_sizes();
  test_refusal();
  turns(20000, 20);
  test_joined();
  turns(40000, 100);
  turns(60000, PAGES);
  for (u64 size = 0; size < 70; size++) make_one((size_t)size);
  must(
      heap_malloc((u64)1 << 31) == 0 && heap_malloc(((u64)1 << 31) + 1) == 0 &&
          heap_malloc(~(u64)0) == 0,
      "too large",
      0
  );
  free_all();
  printf("heap: all passed, %zu pages\n", pages);
  return 0;
}

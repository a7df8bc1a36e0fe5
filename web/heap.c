// The memory of nonobench.wasm: a heap over linear memory up to the bound that the module was
// linked with. Free neighbours are always joined, and what is too large is split. What a block
// needs beyond the bound is refused, and so is one growth that a test asks to be refused. Sizes and
// addresses have 64 bits to the proved calls and to the host, and pointers 32 in here.
typedef unsigned long size_t;
typedef unsigned long long u64;
extern unsigned char __heap_base;

// A block: its head, and then what it holds. A free one has its neighbours in the list of its class
// there.
struct block {
  u64 size;                  // in bytes, with the head
  unsigned before, is_free;  // the size of the block before it where that is free, else 0; whether
                             // it is free itself
  struct block *next, *last;
};
enum { HEAD = 16, LEAST = 32 };

// The free blocks by class, the classes that have any, the block without size at the end of memory,
// the bytes that are held, and the growths until one is refused.
static struct block *lists[64], *end;
static u64 filled, held;
static unsigned refuse_at;

// The block that lies so many bytes behind one.
static struct block *behind(struct block *block, long long bytes) {
  return (struct block *)((unsigned char *)block + bytes);
}

// The class of blocks from a power of two on, or from one and a half of it on.
static unsigned class_of(u64 size) {
  unsigned log = 63 - (unsigned)__builtin_clzll(size);
  return 2 * (log - 5) + (size >> (log - 1) & 1);
}

// The least size of a class that has room for n bytes and a head.
static u64 size_for(u64 n) {
  u64 size = n + HEAD;
  if (size <= LEAST) return LEAST;
  u64 step = (u64)1 << (62 - __builtin_clzll(size));
  return (size + step - 1) & ~(step - 1);
}

// Lets the nth growth from now on be refused, and each after it pass; 0 for none.
void nonobench_refuse(unsigned n) { refuse_at = n; }

// How many bytes the blocks have that are not given back, for tests.
u64 nonobench_held(void) { return held; }

// Puts a free block into its list.
static void put(struct block *block) {
  unsigned class = class_of(block->size);
  block->is_free = 1;
  behind(block, (long long)block->size)->before = (unsigned)block->size;
  block->last = 0;
  block->next = lists[class];
  if (block->next) block->next->last = block;
  lists[class] = block;
  filled |= (u64)1 << class;
}

// Takes a free block out of its list.
static void take(struct block *block) {
  unsigned class = class_of(block->size);
  block->is_free = 0;
  behind(block, (long long)block->size)->before = 0;
  if (block->next) block->next->last = block->last;
  if (block->last)
    block->last->next = block->next;
  else if (!(lists[class] = block->next))
    filled &= ~((u64)1 << class);
}

// Frees a block, joined with its free neighbours.
static void join(struct block *block) {
  struct block *next = behind(block, (long long)block->size);
  if (next->is_free) take(next), block->size += next->size;
  if (block->before) {
    struct block *last = behind(block, -(long long)block->before);
    take(last), last->size += block->size;
    block = last;
  }
  put(block);
}

static u64 memory_size(void) { return (u64)__builtin_wasm_memory_size(0) << 16; }

// Whether memory reaches up to here, or grew to it: by 4 MiB where that is possible.
static int has_room(u64 need) {
  u64 have = memory_size();
  if (need <= have) return 1;
  size_t pages = (size_t)((need - have + 65535) >> 16);
  __builtin_wasm_memory_grow(0, pages < 64 ? 64 : pages);
  if (need > memory_size()) __builtin_wasm_memory_grow(0, pages);
  return need <= memory_size();
}

// Adds memory to what is free, until a block of this size is.
static int grow(u64 size) {
  u64 from = end ? (size_t)end : ((size_t)&__heap_base + 15) & ~(u64)15;
  if (!has_room(from - (end ? end->before : 0) + size + HEAD)) return 0;
  struct block *made = (struct block *)(size_t)from;
  if (!end) made->before = 0;
  end = (struct block *)(size_t)(memory_size() - HEAD);
  end->size = 0, end->is_free = 0;
  made->size = (size_t)end - from;
  join(made);
  return 1;
}

static void *make(u64 n) {
  if (refuse_at && !--refuse_at) return 0;
  if (n > (u64)1 << 31) return 0;
  u64 size = size_for(n);
  unsigned class = class_of(size);
  if (!(filled >> class) && !grow(size)) return 0;
  struct block *block = lists[class + (unsigned)__builtin_ctzll(filled >> class)];
  take(block);
  u64 rest = block->size - size;
  if (rest >= LEAST) {
    block->size = size;
    struct block *next = behind(block, (long long)size);
    next->size = rest, next->before = 0;
    put(next);
  }
  held += block->size;
  return behind(block, HEAD);
}

static void give_back(void *given) {
  if (!given) return;
  struct block *block = behind(given, -HEAD);
  held -= block->size;
  join(block);
}

static void *resize(void *given, u64 n) {
  u64 room = behind(given, -HEAD)->size - HEAD;
  if (n <= room) return refuse_at && !--refuse_at ? 0 : given;
  void *moved = make(n);
  if (!moved) return 0;
  __builtin_memcpy(moved, given, (size_t)room);
  give_back(given);
  return moved;
}

// What the toolchain's Global calls.
struct tried {
  u64 is_ok, block;
};

void rattle_alloc(struct tried *out, u64 n, u64 align) {
  (void)align;
  void *block = make(n);
  out->is_ok = block != 0;
  out->block = (size_t)block;
}

void rattle_realloc(struct tried *out, void *block, u64 kept, u64 n, u64 align) {
  (void)kept, (void)align;
  void *moved = block ? resize(block, n) : make(n);
  out->is_ok = moved != 0;
  out->block = (size_t)moved;
}

void rattle_dealloc(void *block) { give_back(block); }

// What a host calls for room.
u64 malloc(u64 n) { return (size_t)make(n); }
void free(u64 block) { give_back((void *)(size_t)block); }

// What clang calls for blocks of bytes, where it uses no instruction of its own.
void *memcpy(void *to, const void *from, size_t n) {
  unsigned char *x = to;
  const unsigned char *y = from;
  while (n--) *x++ = *y++;
  return to;
}

void *memmove(void *to, const void *from, size_t n) {
  unsigned char *x = to;
  const unsigned char *y = from;
  if (x < y)
    while (n--) *x++ = *y++;
  else
    while (n--) x[n] = y[n];
  return to;
}

void *memset(void *to, int byte, size_t n) {
  unsigned char *x = to;
  while (n--) *x++ = (unsigned char)byte;
  return to;
}

int memcmp(const void *a, const void *b, size_t n) {
  const unsigned char *x = a, *y = b;
  for (; n--; x++, y++)
    if (*x != *y) return *x - *y;
  return 0;
}

int bcmp(const void *a, const void *b, size_t n) { return memcmp(a, b, n); }

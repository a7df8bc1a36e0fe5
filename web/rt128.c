// Products and shifts of 128 bits, which clang calls for WebAssembly: the mask engine's words have
// 128 bits.
typedef unsigned long long u64;
struct w {
  u64 lo, hi;
};
void __multi3(struct w *o, u64 al, u64 ah, u64 bl, u64 bh) {
  u64 a0 = al & 0xffffffff, a1 = al >> 32, b0 = bl & 0xffffffff, b1 = bl >> 32;
  u64 p00 = a0 * b0, p01 = a0 * b1, p10 = a1 * b0, p11 = a1 * b1;
  u64 mid = (p00 >> 32) + (p01 & 0xffffffff) + (p10 & 0xffffffff);
  o->lo = (p00 & 0xffffffff) | (mid << 32);
  o->hi = p11 + (p01 >> 32) + (p10 >> 32) + (mid >> 32) + al * bh + ah * bl;
}
// Without a branch: a shift takes its distance modulo 64, and that by 64 is two. web/narrow.mjs
// puts most shifts in their callers.
void __lshrti3(struct w *o, u64 lo, u64 hi, int n) {
  u64 low = lo >> (n & 63) | hi << 1 << (~n & 63), high = hi >> (n & 63);
  o->lo = n & 64 ? high : low, o->hi = n & 64 ? 0 : high;
}
void __ashlti3(struct w *o, u64 lo, u64 hi, int n) {
  u64 high = hi << (n & 63) | lo >> 1 >> (~n & 63), low = lo << (n & 63);
  o->lo = n & 64 ? 0 : low, o->hi = n & 64 ? low : high;
}

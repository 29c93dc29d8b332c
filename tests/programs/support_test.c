/* sdk/c/support.c, with names of its own, beside this machine's functions and division. */
#define memcpy own_memcpy
#define memmove own_memmove
#define memset own_memset
#define memcmp own_memcmp
#define strlen own_strlen
#define __udivdi3 own_udivdi3
#define __umoddi3 own_umoddi3
#define __divdi3 own_divdi3
#define __moddi3 own_moddi3
#include "support.c"
#undef memcpy
#undef memmove
#undef memset
#undef memcmp
#undef strlen
#include <stdio.h>
#include <string.h>
static u64 state = 1;
static unsigned chance(void) { return (unsigned)((state = state * 6364136223846793005ull + 1) >> 33); }
static const u64 some[] = {0, 1, 2, 3, 10, 0x7fffffff, 0x80000000, 0xffffffff, 1ull << 32, ~0ull >> 1, 1ull << 63, ~0ull, ~0ull - 1, 0x123456789abcdefull};
static int sign(int n) { return (n > 0) - (n < 0); }
static unsigned divisions(void) {
  unsigned bad = own_udivdi3(7, 0) != ~0ull || own_umoddi3(7, 0) != 7;
  for (unsigned i = 0; i < sizeof some / sizeof *some; i++)
    for (unsigned j = 1; j < sizeof some / sizeof *some; j++) {
      u64 a = some[i], b = some[j];
      bad += own_udivdi3(a, b) != a / b || own_umoddi3(a, b) != a % b;
      if (a != 1ull << 63 || ~b) bad += own_divdi3((i64)a, (i64)b) != (i64)a / (i64)b || own_moddi3((i64)a, (i64)b) != (i64)a % (i64)b;
    }
  return bad;
}
static unsigned runs(void) {
  unsigned bad = 0;
  for (int turn = 0; turn < 20000; turn++) {
    char one[64], other[64];
    for (int i = 0; i < 64; i++) one[i] = other[i] = (char)chance();
    unsigned to = chance() % 30, from = chance() % 30, count = chance() % 34;
    memmove(one + to, one + from, count), own_memmove(other + to, other + from, count);
    bad += memcmp(one, other, 64) != 0;
    memset(one + from, turn, count), own_memset(other + from, turn, count);
    bad += memcmp(one, other, 64) != 0 || sign(own_memcmp(one, one + from, to)) != sign(memcmp(one, one + from, to));
    own_memcpy(other, one, 64);
    bad += memcmp(one, other, 64) != 0;
  }
  return bad + (own_strlen("") != 0) + (own_strlen("abc") != 3);
}
int main(void) { unsigned a = divisions(), b = runs(); printf("%u %u\n", a, b); return a || b; }

/* A mixed loop: arithmetic, loads, stores and branches. For recall, each turn makes as many rounds as its text says; with -DLINUX it is
   a program of Linux that makes ROUNDS of them. */
static unsigned table[1024];
static unsigned x = 123456789, sum;

static void work(unsigned rounds) {
  for (unsigned i = 0; i < rounds; i++) {
    x ^= x << 13;
    x ^= x >> 17;
    x ^= x << 5;
    unsigned k = x & 1023;
    if (x & 0x8000) table[k] += x;
    else sum += table[k] * 3;
  }
}

static void write_hex(char *to, unsigned number) {
  for (int i = 0; i < 8; i++) to[i] = "0123456789abcdef"[number >> (28 - 4 * i) & 15];
}

#ifdef LINUX
static void call(unsigned number, unsigned first, unsigned second, unsigned third) {
  register unsigned a0 __asm__("a0") = first;
  register unsigned a1 __asm__("a1") = second;
  register unsigned a2 __asm__("a2") = third;
  register unsigned a7 __asm__("a7") = number;
  __asm__ volatile("ecall" : "+r"(a0) : "r"(a1), "r"(a2), "r"(a7) : "memory");
}

void _start(void) {
  char text[9];
  work(ROUNDS);
  write_hex(text, sum);
  text[8] = '\n';
  call(64, 1, (unsigned)text, 9);
  call(93, 0, 0, 0);
  for (;;) {}
}
#else
#include "recall.h"

void handle(const char *text, unsigned length, int source, unsigned unit, unsigned home) {
  char line[8];
  unsigned rounds = 0;
  for (unsigned i = 0; i < length; i++) rounds = rounds * 10 + (unsigned)(text[i] - '0');
  work(rounds);
  write_hex(line, sum);
  recall_output(line, 8);
}
#endif

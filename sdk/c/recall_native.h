/* The part of recall.h that tests use: turns on this machine.

       cc -DNATIVE handler.c test.c && ./a.out

   A test calls `recall_check` for one turn after another, and ends with `return recall_result();`. A turn that the machine
   would end with a trap for what it puts out or sends ends likewise, with the same reason. Where it is refused or trapped, the
   variables that RECALL_STATE names are as before the turn; all others stay as the turn left them. */
#ifndef RECALL_NATIVE_H
#define RECALL_NATIVE_H

#include <setjmp.h>
#include <stdio.h>
#include <stdlib.h>
#include <string.h>

#define RECALL_TOLD ((RECALL_TEXT_BYTES + 16) * RECALL_TEXTS)
#define RECALL_PARTS 64

struct recall_part { void *at; size_t size; void *before; };

/* One for the whole program, though each file of it includes this page. */
struct recall_harness {
  jmp_buf end;                           /* where a turn that is refused goes on */
  unsigned texts;                        /* how many this turn has put out and sent */
  size_t told;                           /* how many bytes of `tale` are written */
  char tale[RECALL_TOLD + 1];            /* what this turn has put out and sent, a line each */
  struct recall_part parts[RECALL_PARTS]; /* what RECALL_STATE names */
  unsigned count;
  unsigned unit, home;                   /* whose turns these are: unit 0 of 1, unless the test says otherwise */
  unsigned passed, failed;
};
__attribute__((weak)) struct recall_harness recall_harness = {.home = 1};

static inline void recall_keep(void *at, size_t size) {
  struct recall_harness *h = &recall_harness;
  void *before = malloc(size);
  if (h->count == RECALL_PARTS || !before) {
    fprintf(stderr, "recall_native.h: at most %d variables are kept\n", RECALL_PARTS);
    exit(1);
  }
  h->parts[h->count++] = (struct recall_part){at, size, before};
}

/* Whether these bytes are UTF-8: no long forms, no surrogates, nothing above U+10FFFF. */
static inline int recall_is_utf8(const unsigned char *at, unsigned length) {
  static const unsigned least[] = {0, 0, 0x80, 0x800, 0x10000};
  for (unsigned i = 0; i < length;) {
    unsigned c = at[i], size = c < 0x80 ? 1 : c >> 5 == 6 ? 2 : c >> 4 == 14 ? 3 : c >> 3 == 30 ? 4 : 0;
    if (!size || size > length - i) return 0;
    unsigned point = size == 1 ? c : c & (0x7f >> size);
    for (unsigned k = 1; k < size; k++) {
      if (at[i + k] >> 6 != 2) return 0;
      point = point << 6 | (at[i + k] & 0x3f);
    }
    if (point < least[size] || point > 0x10ffff || point >> 11 == 27) return 0;
    i += size;
  }
  return 1;
}

static inline void recall_tell(const char *label, const char *text, unsigned length) {
  struct recall_harness *h = &recall_harness;
  h->told += (size_t)snprintf(h->tale + h->told, RECALL_TOLD - h->told, "%s%s", h->told ? "\n" : "", label);
  memcpy(h->tale + h->told, text, length);
  h->told += length;
  h->tale[h->told] = 0;
}

/* Ends the turn with this text alone. */
_Noreturn static inline void recall_end(const char *text, unsigned length) {
  struct recall_harness *h = &recall_harness;
  for (unsigned i = 0; i < h->count; i++) memcpy(h->parts[i].at, h->parts[i].before, h->parts[i].size);
  h->told = 0;
  recall_tell("out: ", text, length);
  longjmp(h->end, 1);
}

static inline void recall_trap(const char *reason) {
  char text[64];
  recall_end(text, (unsigned)snprintf(text, sizeof text, "trap: %s", reason));
}

static inline void recall_take(const char *label, const char *text, unsigned length) {
  if (recall_harness.texts++ == RECALL_TEXTS) recall_trap("too many texts");
  if (length > RECALL_TEXT_BYTES) recall_trap("text too long");
  if (!recall_is_utf8((const unsigned char *)text, length)) recall_trap("text not utf-8");
  recall_tell(label, text, length);
}

static inline void recall_output(const char *text, unsigned length) { recall_take("out: ", text, length); }

static inline void recall_send(unsigned unit, const char *text, unsigned length) {
  char label[16];
  if (recall_harness.texts == RECALL_TEXTS) recall_trap("too many texts");
  if (unit > 255) recall_trap("no such unit");
  snprintf(label, sizeof label, "to %u: ", unit);
  recall_take(label, text, length);
}

_Noreturn static inline void recall_refuse(const char *text, unsigned length) {
  if (length > RECALL_TEXT_BYTES) recall_trap("text too long");
  if (!recall_is_utf8((const unsigned char *)text, length)) recall_trap("text not utf-8");
  recall_end(text, length);
}

static inline void recall_work(const char *text, unsigned length, int source) {
  if (!setjmp(recall_harness.end)) handle(text, length, source, recall_harness.unit, recall_harness.home);
}

/* Works one turn. What it put out and sent is told in lines, `out: TEXT` and `to UNIT: TEXT`, in order. */
static inline const char *recall_turn(int source, const char *text) {
  struct recall_harness *h = &recall_harness;
  size_t length = strlen(text);
  char *copy = malloc(length + 1); /* of just this size, so that a tool for finding faults sees a read past its end */
  if (!copy) exit(1);
  memcpy(copy, text, length);
  h->texts = 0;
  h->told = 0;
  h->tale[0] = 0;
  for (unsigned i = 0; i < h->count; i++) memcpy(h->parts[i].before, h->parts[i].at, h->parts[i].size);
  recall_work(copy, (unsigned)length, source);
  free(copy);
  return h->tale;
}

/* Works one turn, which must put out and send just this: lines as `recall_turn` tells them, "" for nothing. */
#define recall_check(source, text, wanted) recall_compare(__FILE__, __LINE__, text, recall_turn(source, text), wanted)

static inline void recall_compare(const char *file, int line, const char *text, const char *got, const char *wanted) {
  int is_same = !strcmp(got, wanted);
  recall_harness.passed += (unsigned)is_same;
  recall_harness.failed += (unsigned)!is_same;
  if (!is_same) printf("%s:%d: upon \"%.60s\"\n  wanted: %s\n  got:    %s\n", file, line, text, wanted, got);
}

/* Says how many turns were as wanted. The status of the test. */
static inline int recall_result(void) {
  printf("%u passed, %u failed\n", recall_harness.passed, recall_harness.failed);
  return recall_harness.failed != 0 || recall_harness.passed == 0;
}

#endif

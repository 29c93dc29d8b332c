/* What a program in C needs to be a unit of recall: docs/PROGRAMS.md. Nothing else is there: no clock, no chance, no file.
   With -DNATIVE the same program is built for this machine, and its tests call `recall_check`. */
#ifndef RECALL_H
#define RECALL_H

#define RECALL_OUTSIDE (-1)     /* the source of a text that no unit sent */
#define RECALL_TEXT_BYTES 4096u /* bytes of a text that comes, is put out or is sent, at most */
#define RECALL_TEXTS 64u        /* texts that a turn puts out and sends, at most */

/* What the program does upon a text, which no zero byte ends. `source` is RECALL_OUTSIDE or the number of the unit that sent
   it, `unit` the program's own number, and `home` how many units there were when this one was made. Its static variables
   are its state: they stay from turn to turn. */
void handle(const char *text, unsigned length, int source, unsigned unit, unsigned home);

/* Puts out a text. What was put out can't be taken back once it has left. */
static inline void recall_output(const char *text, unsigned length);

/* Sends a text to a unit, 0 to 255. One to a unit that isn't there goes nowhere. */
static inline void recall_send(unsigned unit, const char *text, unsigned length);

/* Ends the turn: the state is as before it, nothing is sent, and this text is all that is put out. */
_Noreturn static inline void recall_refuse(const char *text, unsigned length);

/* Names a static variable that is part of the state. The machine keeps all of them unasked; built with -DNATIVE, those that
   are named go back where a turn is refused. */
#ifdef NATIVE
#define RECALL_STATE(variable) \
  __attribute__((constructor)) static void recall_keep_##variable(void) { recall_keep(&(variable), sizeof(variable)); } \
  _Static_assert(1, "")
#include "recall_native.h"
#else
#define RECALL_STATE(variable) _Static_assert(1, "")

static inline void recall_call(unsigned number, unsigned first, unsigned second, unsigned third) {
  register unsigned a0 __asm__("a0") = first;
  register unsigned a1 __asm__("a1") = second;
  register unsigned a2 __asm__("a2") = third;
  register unsigned a7 __asm__("a7") = number;
  __asm__ volatile("ecall" : : "r"(a0), "r"(a1), "r"(a2), "r"(a7) : "memory");
}

static inline void recall_output(const char *text, unsigned length) { recall_call(1, (unsigned)text, length, 0); }

static inline void recall_send(unsigned unit, const char *text, unsigned length) { recall_call(2, unit, (unsigned)text, length); }

_Noreturn static inline void recall_refuse(const char *text, unsigned length) {
  recall_call(3, (unsigned)text, length, 0);
  __builtin_unreachable();
}
#endif

#endif

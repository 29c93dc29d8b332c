/* Texts read and written by the examples. */
#ifndef TEXT_H
#define TEXT_H

#include "recall.h"

#define REFUSE(literal) recall_refuse(literal, sizeof literal - 1)

/* A piece of a text. */
struct piece { const char *at; unsigned length; };

#define PIECE(literal) ((struct piece){literal, sizeof literal - 1})

static inline int piece_is(struct piece one, struct piece other) {
  if (one.length != other.length) return 0;
  for (unsigned i = 0; i < one.length; i++)
    if (one.at[i] != other.at[i]) return 0;
  return 1;
}

/* Takes what stands before the first blank off `rest`, and the blank. Whether there is one. */
static inline int piece_split(struct piece *rest, struct piece *first) {
  for (unsigned i = 0; i < rest->length; i++)
    if (rest->at[i] == ' ') {
      *first = (struct piece){rest->at, i};
      *rest = (struct piece){rest->at + i + 1, rest->length - i - 1};
      return 1;
    }
  return 0;
}

/* A number of 64 bits in decimal digits, with a plus before them or none. Whether it is one. */
static inline int piece_number(struct piece digits, unsigned long long *number) {
  unsigned at = digits.length > 1 && digits.at[0] == '+';
  unsigned long long value = 0;
  if (digits.length == 0) return 0;
  for (; at < digits.length; at++) {
    unsigned digit = (unsigned char)digits.at[at] - '0';
    if (digit > 9 || __builtin_mul_overflow(value, 10ull, &value) || __builtin_add_overflow(value, digit, &value)) return 0;
  }
  *number = value;
  return 1;
}

/* A line that is being written. What doesn't fit is left out whole, and `is_full` says so. */
struct line { unsigned length; int is_full; char bytes[RECALL_TEXT_BYTES]; };

static inline void line_begin(struct line *line) {
  line->length = 0;
  line->is_full = 0;
}

static inline void line_add(struct line *line, struct piece piece) {
  if (piece.length > sizeof line->bytes - line->length) {
    line->is_full = 1;
    return;
  }
  for (unsigned i = 0; i < piece.length; i++) line->bytes[line->length++] = piece.at[i];
}

static inline void line_add_number(struct line *line, unsigned long long number) {
  char digits[20];
  unsigned at = sizeof digits;
  do {
    digits[--at] = (char)('0' + number % 10);
    number /= 10;
  } while (number);
  line_add(line, (struct piece){digits + at, sizeof digits - at});
}

/* Says that a text is none that the program takes. */
static inline void misunderstand(const char *text, unsigned length) {
  struct line line;
  line_begin(&line);
  line_add(&line, PIECE("not understood: "));
  line_add(&line, (struct piece){text, length});
  if (line.is_full) line_add(&line, PIECE("a long text"));
  recall_output(line.bytes, line.length);
}

#endif

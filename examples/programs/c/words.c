/* Counts words, with a C library: its memory from `malloc` stays from turn to turn, as all memory does. sdk/c/build-libc.sh builds it. */
#include <errno.h>
#include <stdio.h>
#include <stdlib.h>
#include <string.h>

#include "recall.h"

enum { MOST = 16, WORD_BYTES = 80 }; /* words that a turn tells of, and bytes of one */

struct word { struct word *next; unsigned long long times; char text[]; };

static struct word *words;

static struct word *word_of(const char *text) {
  for (struct word *it = words; it; it = it->next)
    if (!strcmp(it->text, text)) return it;
  if (strlen(text) > WORD_BYTES) recall_refuse("refused: a word is too long", 27);
  struct word *it = malloc(sizeof *it + strlen(text) + 1);
  if (!it) recall_refuse("refused: there is no room for another word", 42);
  it->next = words;
  it->times = 0;
  strcpy(it->text, text);
  return words = it;
}

static int is_too_great(const char *text) {
  errno = 0;
  strtoull(text, NULL, 10);
  return errno == ERANGE;
}

static void tell(const struct word *word) {
  char line[128];
  int length = snprintf(line, sizeof line, "%s: %llu%s", word->text, word->times, is_too_great(word->text) ? ", too great" : "");
  recall_output(line, (unsigned)length);
}

/* Adds a word to those of this turn, where it isn't among them. */
static void note(const struct word **told, unsigned *count, const struct word *word) {
  for (unsigned i = 0; i < *count; i++)
    if (told[i] == word) return;
  if (*count < MOST) told[(*count)++] = word;
}

void handle(const char *text, unsigned length, int source, unsigned unit, unsigned home) {
  const struct word *told[MOST];
  unsigned count = 0;
  char *copy = malloc(length + 1), *rest;
  if (!copy) recall_refuse("refused: there is no room for the text", 38);
  memcpy(copy, text, length);
  copy[length] = 0;
  for (char *it = strtok_r(copy, " ", &rest); it; it = strtok_r(NULL, " ", &rest)) {
    struct word *word = word_of(it);
    word->times++;
    note(told, &count, word);
  }
  free(copy);
  for (unsigned i = 0; i < count; i++) tell(told[i]);
}

/* A card: what a ledger decided is put out, and money moves. It takes letters alone, since a text from outside was decided by no
   ledger. It has no state. */
#include "text.h"

void handle(const char *text, unsigned length, int source, unsigned unit, unsigned home) {
  struct line line;
  if (source == RECALL_OUTSIDE) return misunderstand(text, length);
  line_begin(&line);
  line_add(&line, PIECE("card "));
  line_add(&line, (struct piece){text, length});
  recall_output(line.bytes, line.length);
}

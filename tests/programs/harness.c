/* The native harness with turns of each sort. The last check is wrong, and must be found so. */
#include "recall.h"
static struct { int turns; } kept; RECALL_STATE(kept);
static int others;
void handle(const char *text, unsigned length, int source, unsigned unit, unsigned home) {
  kept.turns++; others++;
  char line[64]; recall_output(line, (unsigned)snprintf(line, sizeof line, "%d %d from %d to %u of %u", kept.turns, others, source, unit, home));
  recall_send(2, text, length);
  char first = length ? text[0] : 0;
  if (first == 'r') recall_refuse("no", 2);
  if (first == 'l') recall_output(text, 4097);
  if (first == 'u') recall_output("\xed\xa0\x80", 3);
  if (first == 's') recall_send(256, text, 1);
  if (first == 'm') for (int i = 0; i < 63; i++) recall_output("", 0);
}
int main(void) {
  recall_check(RECALL_OUTSIDE, "a", "out: 1 1 from -1 to 0 of 1\nto 2: a");
  recall_check(3, "r", "out: no");
  recall_check(3, "l", "out: trap: text too long");
  recall_check(3, "u", "out: trap: text not utf-8");
  recall_check(3, "s", "out: trap: no such unit");
  recall_check(3, "m", "out: trap: too many texts");
  recall_check(3, "", "out: 2 7 from 3 to 0 of 1\nto 2: ");
  recall_check(3, "\xc3\xa4\xf0\x9f\x8e\xb2", "out: 3 8 from 3 to 0 of 1\nto 2: \xc3\xa4\xf0\x9f\x8e\xb2");
  recall_check(3, "wrong", "out: another");
  return recall_result();
}

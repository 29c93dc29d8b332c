/* cc -DNATIVE -I ../../../sdk/c card.c card_test.c && ./a.out */
#include "recall.h"

int main(void) {
  char text[RECALL_TEXT_BYTES + 1];
  recall_harness.unit = 1;
  recall_harness.home = 2;
  recall_check(0, "charge alice 500", "out: card charge alice 500");
  recall_check(0, "", "out: card ");
  recall_check(RECALL_OUTSIDE, "charge eve 9", "out: not understood: charge eve 9");
  memset(text, 'x', RECALL_TEXT_BYTES);
  text[RECALL_TEXT_BYTES] = 0;
  recall_check(RECALL_OUTSIDE, text, "out: not understood: a long text");
  return recall_result();
}

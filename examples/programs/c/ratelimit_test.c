/* cc -DNATIVE -I ../../../sdk/c ratelimit.c ratelimit_test.c && ./a.out */
#include "recall.h"

static void ask(const char *text, const char *wanted) { recall_check(RECALL_OUTSIDE, text, wanted); }

static void a_bucket_empties_and_fills(void) {
  ask("limit 2 3", "");
  ask("take a", "out: granted a 2");
  ask("take a", "out: granted a 1");
  ask("take a", "out: granted a 0");
  ask("take a", "out: denied a 500");
  ask("take b", "out: granted b 2"); /* each key has its own */
  ask("clock 499", "");
  ask("take a", "out: denied a 1");
  ask("clock 500", "");
  ask("take a", "out: granted a 0");
  ask("clock 1000000000000", "");
  ask("take a", "out: granted a 2");
}

static void nothing_is_rounded(void) {
  char text[32];
  ask("limit 3 1", "");
  ask("take a", "out: granted a 0");
  for (unsigned ms = 1; ms <= 333; ms++) { /* three thousandths each: 999 after the last */
    snprintf(text, sizeof text, "clock %llu", 1000000000000ull + ms);
    ask(text, "");
    recall_turn(RECALL_OUTSIDE, "take a");
  }
  ask("take a", "out: denied a 1");
  ask("clock 1000000000334", "");
  ask("take a", "out: granted a 0");
}

static void words_are_refused(void) {
  ask("clock 1", "out: refused: the clock is at 1000000000334");
  ask("limit 0 1", "out: refused: a limit is 1 to 1000000");
  ask("limit 1 1000001", "out: refused: a limit is 1 to 1000000");
  ask("limit 1", "out: not understood: limit 1");
  ask("clock now", "out: not understood: clock now");
  ask("clock", "out: not understood: clock");
  ask("give a", "out: not understood: give a");
  ask("take 12345678901234567890123456789012345678901234567890123456789012345", "out: refused: the key is too long");
}

static void keys_are_limited(void) {
  char text[32], wanted[32];
  ask("limit 1000000 1000000", "");
  for (int i = 0; i < 256; i++) {
    snprintf(text, sizeof text, "take %d", i);
    snprintf(wanted, sizeof wanted, "out: granted %d 999999", i);
    ask(text, wanted);
  }
  ask("take another", "out: refused: there is no room for another key");
  ask("take 255", "out: granted 255 999998");
}

int main(void) {
  ask("take a", "out: granted a 4"); /* what holds before the first limit */
  a_bucket_empties_and_fills();
  nothing_is_rounded();
  words_are_refused();
  keys_are_limited();
  return recall_result();
}

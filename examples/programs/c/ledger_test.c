/* cc -DNATIVE -I ../../../sdk/c ledger.c ledger_test.c && ./a.out */
#include "recall.h"

static void ask(const char *text, const char *wanted) { recall_check(RECALL_OUTSIDE, text, wanted); }

static void accounts_are_limited(void) {
  char text[32], wanted[32];
  for (int i = 0; i < 252; i++) {
    snprintf(text, sizeof text, "charge %d 1", i);
    snprintf(wanted, sizeof wanted, "to 1: charge %d 1", i);
    ask(text, wanted);
  }
  ask("charge other 1", "out: refused: there is no room for another account");
  ask("refund 251 1", "to 1: refund 251 1");
}

int main(void) {
  recall_harness.home = 2;
  ask("charge alice 500", "to 1: charge alice 500");
  ask("refund alice 200", "to 1: refund alice 200");
  ask("refund alice 400", "out: refused refund alice 400: the balance is 300");
  ask("refund alice 300", "to 1: refund alice 300");
  ask("refund alice 1", "out: refused refund alice 1: the balance is 0");
  ask("charge bob 18446744073709551615", "to 1: charge bob 18446744073709551615");
  ask("charge bob 1", "out: refused charge bob 1: the balance is 18446744073709551615");
  ask("charge bob 18446744073709551616", "out: not understood: charge bob 18446744073709551616");
  ask("charge  +07", "to 1: charge  7"); /* the account without a name */
  ask("charge bob", "out: not understood: charge bob");
  ask("charge bob ", "out: not understood: charge bob ");
  ask("charge bob +", "out: not understood: charge bob +");
  ask("charge bob 1 2", "out: not understood: charge bob 1 2");
  ask("pay bob 1", "out: not understood: pay bob 1");
  ask("", "out: not understood: ");
  /* Who is refused leaves no account behind: these two would take the last places. */
  ask("refund carl 1", "out: refused refund carl 1: the balance is 0");
  ask("refund dora 1", "out: refused refund dora 1: the balance is 0");
  ask("charge 1234567890123456789012345678901234567890123456789012345678901234 1",
      "to 1: charge 1234567890123456789012345678901234567890123456789012345678901234 1");
  ask("charge 1234567890123456789012345678901234567890123456789012345678901234x 1", "out: refused: the name is too long");
  ask("refund 1234567890123456789012345678901234567890123456789012345678901234 1",
      "to 1: refund 1234567890123456789012345678901234567890123456789012345678901234 1");
  accounts_are_limited();
  return recall_result();
}

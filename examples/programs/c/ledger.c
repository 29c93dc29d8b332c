/* A ledger: it keeps balances, and tells the card, unit 1, what to move. Upon `charge ACCOUNT CENTS` or `refund ACCOUNT CENTS` it
   sends that text on where the balance allows it, and says why not where it doesn't. */
#include "text.h"

enum { CARD_UNIT = 1, ACCOUNTS = 256, NAME_BYTES = 64 };

struct account { unsigned length; char name[NAME_BYTES]; unsigned long long cents; };

static struct { unsigned count; struct account accounts[ACCOUNTS]; } ledger;
RECALL_STATE(ledger);

struct request { int is_refund; struct piece movement, account; unsigned long long cents; };

static int read_request(struct piece text, struct request *request) {
  struct piece digits = text;
  if (!piece_split(&digits, &request->movement) || !piece_split(&digits, &request->account)) return 0;
  request->is_refund = piece_is(request->movement, PIECE("refund"));
  return (request->is_refund || piece_is(request->movement, PIECE("charge"))) && piece_number(digits, &request->cents);
}

static void add_request(struct line *line, const struct request *request) {
  line_add(line, request->movement);
  line_add(line, PIECE(" "));
  line_add(line, request->account);
  line_add(line, PIECE(" "));
  line_add_number(line, request->cents);
}

/* The account of this name, which is made where it is new. The turn is refused where there is no room for it. */
static struct account *account_of(struct piece name) {
  struct account *end = ledger.accounts + ledger.count;
  for (struct account *it = ledger.accounts; it < end; it++)
    if (piece_is((struct piece){it->name, it->length}, name)) return it;
  if (name.length > NAME_BYTES) REFUSE("refused: the name is too long");
  if (ledger.count == ACCOUNTS) REFUSE("refused: there is no room for another account");
  ledger.count++;
  end->length = name.length;
  for (unsigned i = 0; i < name.length; i++) end->name[i] = name.at[i];
  return end;
}

/* The balance after a request. Whether it may be carried out. */
static int balance_after(const struct request *request, unsigned long long *balance) {
  unsigned long long before = *balance;
  return request->is_refund ? !__builtin_sub_overflow(before, request->cents, balance)
                            : !__builtin_add_overflow(before, request->cents, balance);
}

_Noreturn static void refuse(const struct request *request, unsigned long long balance) {
  struct line line;
  line_begin(&line);
  line_add(&line, PIECE("refused "));
  add_request(&line, request);
  line_add(&line, PIECE(": the balance is "));
  line_add_number(&line, balance);
  recall_refuse(line.bytes, line.length);
}

void handle(const char *text, unsigned length, int source, unsigned unit, unsigned home) {
  struct request request;
  if (!read_request((struct piece){text, length}, &request)) return misunderstand(text, length);
  struct account *account = account_of(request.account);
  unsigned long long after = account->cents;
  if (!balance_after(&request, &after)) refuse(&request, account->cents);
  account->cents = after;
  struct line line;
  line_begin(&line);
  add_request(&line, &request);
  recall_send(CARD_UNIT, line.bytes, line.length);
}

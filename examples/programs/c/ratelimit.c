/* A token bucket for each key. A program has no clock, so the time comes in as a text.

       limit PER_SECOND BURST    from now on each key gets so many tokens a second, and has BURST of them at most; all begin full
       clock MILLISECONDS        it is that late; the clock never goes back
       take KEY                  takes a token: `granted KEY LEFT`, or `denied KEY MILLISECONDS` until there is one

   Tokens are counted in thousandths: a rate of one a second is one thousandth a millisecond, so that nothing is rounded. */
#include "text.h"

enum { KEYS = 256, KEY_BYTES = 64, TOKEN = 1000, MOST = 1000000 };

struct bucket { unsigned length; char key[KEY_BYTES]; unsigned thousandths; unsigned long long told_at; };

/* What holds before the first limit. Only this stands in the image: variables that begin as zeros take no room there. */
static struct { unsigned per_second, burst; } limit = {1, 5};
RECALL_STATE(limit);

static struct { unsigned count; unsigned long long now; struct bucket buckets[KEYS]; } limiter;
RECALL_STATE(limiter);

static void set_limit(struct piece rest, const char *text, unsigned length) {
  struct piece first;
  unsigned long long per_second, burst;
  if (!piece_split(&rest, &first) || !piece_number(first, &per_second) || !piece_number(rest, &burst)) return misunderstand(text, length);
  if (per_second < 1 || per_second > MOST || burst < 1 || burst > MOST) REFUSE("refused: a limit is 1 to 1000000");
  limit.per_second = (unsigned)per_second;
  limit.burst = (unsigned)burst;
  limiter.count = 0;
}

static void set_clock(struct piece digits, const char *text, unsigned length) {
  unsigned long long now;
  if (!piece_number(digits, &now)) return misunderstand(text, length);
  if (now < limiter.now) {
    struct line line;
    line_begin(&line);
    line_add(&line, PIECE("refused: the clock is at "));
    line_add_number(&line, limiter.now);
    recall_refuse(line.bytes, line.length);
  }
  limiter.now = now;
}

/* The bucket of a key, which begins full. */
static struct bucket *bucket_of(struct piece key) {
  struct bucket *end = limiter.buckets + limiter.count;
  for (struct bucket *it = limiter.buckets; it < end; it++)
    if (piece_is((struct piece){it->key, it->length}, key)) return it;
  if (key.length > KEY_BYTES) REFUSE("refused: the key is too long");
  if (limiter.count == KEYS) REFUSE("refused: there is no room for another key");
  limiter.count++;
  end->length = key.length;
  for (unsigned i = 0; i < key.length; i++) end->key[i] = key.at[i];
  end->thousandths = limit.burst * TOKEN;
  end->told_at = limiter.now;
  return end;
}

/* Puts in what the time since then has brought. */
static void fill(struct bucket *bucket) {
  unsigned long long passed = limiter.now - bucket->told_at;
  unsigned room = limit.burst * TOKEN - bucket->thousandths;
  bucket->told_at = limiter.now;
  if (passed > room / limit.per_second) bucket->thousandths += room;
  else bucket->thousandths += (unsigned)passed * limit.per_second;
}

static void take(struct piece key) {
  struct bucket *bucket = bucket_of(key);
  struct line line;
  line_begin(&line);
  fill(bucket);
  int is_granted = bucket->thousandths >= TOKEN;
  unsigned wanting = is_granted ? 0 : TOKEN - bucket->thousandths;
  if (is_granted) bucket->thousandths -= TOKEN;
  line_add(&line, is_granted ? PIECE("granted ") : PIECE("denied "));
  line_add(&line, key);
  line_add(&line, PIECE(" "));
  line_add_number(&line, is_granted ? bucket->thousandths / TOKEN : (wanting + limit.per_second - 1) / limit.per_second);
  recall_output(line.bytes, line.length);
}

void handle(const char *text, unsigned length, int source, unsigned unit, unsigned home) {
  struct piece rest = {text, length}, word;
  if (!piece_split(&rest, &word)) return misunderstand(text, length);
  if (piece_is(word, PIECE("take"))) return take(rest);
  if (piece_is(word, PIECE("clock"))) return set_clock(rest, text, length);
  if (piece_is(word, PIECE("limit"))) return set_limit(rest, text, length);
  misunderstand(text, length);
}

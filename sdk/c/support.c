/* What compilers take for granted and no library gives here: runs of bytes, and division of 64 bits. */
typedef unsigned char byte;
typedef unsigned __attribute__((may_alias)) word;
typedef __SIZE_TYPE__ size;
typedef unsigned long long u64;
typedef long long i64;

/* Four bytes at a time where both places allow it. */
void *memcpy(void *to, const void *from, size count) {
  size i = 0;
  if (((size)to | (size)from) % 4 == 0)
    for (; count - i >= 4; i += 4) *(word *)((byte *)to + i) = *(const word *)((const byte *)from + i);
  for (; i < count; i++) ((byte *)to)[i] = ((const byte *)from)[i];
  return to;
}

void *memmove(void *to, const void *from, size count) {
  if ((size)to - (size)from >= count) return memcpy(to, from, count);
  while (count--) ((byte *)to)[count] = ((const byte *)from)[count];
  return to;
}

void *memset(void *to, int value, size count) {
  size i = 0;
  if ((size)to % 4 == 0)
    for (; count - i >= 4; i += 4) *(word *)((byte *)to + i) = (byte)value * 0x01010101u;
  for (; i < count; i++) ((byte *)to)[i] = (byte)value;
  return to;
}

int memcmp(const void *one, const void *other, size count) {
  for (size i = 0; i < count; i++) {
    int difference = ((const byte *)one)[i] - ((const byte *)other)[i];
    if (difference) return difference;
  }
  return 0;
}

size strlen(const char *text) {
  size length = 0;
  while (text[length]) length++;
  return length;
}

/* The quotient, bit by bit, and what is left. By zero: all ones, and what was divided, as the machine's own division. Where both
   have 32 bits the machine divides. */
static u64 divide(u64 dividend, u64 divisor, u64 *left) {
  if (divisor && !((dividend | divisor) >> 32)) {
    *left = (unsigned)dividend % (unsigned)divisor;
    return (unsigned)dividend / (unsigned)divisor;
  }
  u64 quotient = 0, rest = 0;
  for (int bit = 63; bit >= 0; bit--) {
    u64 carry = rest >> 63;
    rest = rest << 1 | (dividend >> bit & 1);
    quotient <<= 1;
    if (carry || rest >= divisor) {
      rest -= divisor;
      quotient |= 1;
    }
  }
  *left = rest;
  return quotient;
}

u64 __udivdi3(u64 dividend, u64 divisor) {
  u64 left;
  return divide(dividend, divisor, &left);
}

u64 __umoddi3(u64 dividend, u64 divisor) {
  u64 left;
  divide(dividend, divisor, &left);
  return left;
}

static u64 size_of(i64 number) { return number < 0 ? -(u64)number : (u64)number; }

i64 __divdi3(i64 dividend, i64 divisor) {
  u64 quotient = __udivdi3(size_of(dividend), size_of(divisor));
  return (i64)((dividend < 0) != (divisor < 0) ? -quotient : quotient);
}

i64 __moddi3(i64 dividend, i64 divisor) {
  u64 left = __umoddi3(size_of(dividend), size_of(divisor));
  return (i64)(dividend < 0 ? -left : left);
}

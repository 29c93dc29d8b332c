/* A plain interpreter of recall's programs: plain IMAGE [SOURCE UNIT HOME]. Each line of standard input is the text of a turn; what
   the turn puts out and sends is told in lines, `out: TEXT` and `to UNIT: TEXT`, a blank line behind it. In texts, `\n` stands for
   a line feed and `\\` for a backslash. At the end standard error tells how many instructions there were.

   It was written from the manual and from docs/PROGRAMS.md, apart from the program that it is compared with. */
#include <stdint.h>
#include <stdio.h>
#include <stdlib.h>
#include <string.h>

typedef uint32_t u32;
typedef int32_t i32;

enum { MEMORY = 0x40000, TEXT_AT = 0x3f000, TEXT_BYTES = 4096, TEXTS = 64, BUDGET = 1000000 };
#define RETURN_AT 0xfffffff0u

enum shape { ILLEGAL, LUI, AUIPC, JAL, JALR, BRANCH, LOAD, STORE, OP_IMMEDIATE, OP, FENCE, ECALL, EBREAK };

struct instruction { enum shape shape; u32 rd, rs1, rs2, which, is_other, immediate; };

struct machine { u32 registers[32], counter; uint8_t memory[MEMORY]; };

struct told { int to; u32 length; uint8_t bytes[TEXT_BYTES]; };

static struct machine machine, before;
static struct told told[TEXTS];
static u32 texts;
static unsigned long long instructions;

static u32 bits(u32 word, int from, int count) { return word >> from & ((1u << count) - 1); }
static u32 extended(u32 n, int size) { return (u32)((i32)(n << (32 - size)) >> (32 - size)); }

/* ---- decode */

static u32 immediate_i(u32 w) { return extended(bits(w, 20, 12), 12); }
static u32 immediate_s(u32 w) { return extended(bits(w, 25, 7) << 5 | bits(w, 7, 5), 12); }
static u32 immediate_b(u32 w) { return extended(bits(w, 31, 1) << 12 | bits(w, 7, 1) << 11 | bits(w, 25, 6) << 5 | bits(w, 8, 4) << 1, 13); }
static u32 immediate_j(u32 w) { return extended(bits(w, 31, 1) << 20 | bits(w, 12, 8) << 12 | bits(w, 20, 1) << 11 | bits(w, 21, 10) << 1, 21); }

static enum shape shape_of_immediate(u32 which, u32 high) {
  if (which == 1) return high == 0 ? OP_IMMEDIATE : ILLEGAL;
  if (which == 5) return high == 0 || high == 0x20 ? OP_IMMEDIATE : ILLEGAL;
  return OP_IMMEDIATE;
}

static enum shape shape_of_operation(u32 which, u32 high) {
  if (high <= 1) return OP;
  return high == 0x20 && (which == 0 || which == 5) ? OP : ILLEGAL;
}

static struct instruction decode(u32 w) {
  u32 which = bits(w, 12, 3), high = bits(w, 25, 7);
  struct instruction it = {ILLEGAL, bits(w, 7, 5), bits(w, 15, 5), bits(w, 20, 5), which, high, 0};
  switch (bits(w, 0, 7)) {
  case 0x37: it.shape = LUI, it.immediate = w & 0xfffff000; break;
  case 0x17: it.shape = AUIPC, it.immediate = w & 0xfffff000; break;
  case 0x6f: it.shape = JAL, it.immediate = immediate_j(w); break;
  case 0x67: it.shape = which == 0 ? JALR : ILLEGAL, it.immediate = immediate_i(w); break;
  case 0x63: it.shape = which == 2 || which == 3 ? ILLEGAL : BRANCH, it.immediate = immediate_b(w); break;
  case 0x03: it.shape = which == 3 || which > 5 ? ILLEGAL : LOAD, it.immediate = immediate_i(w); break;
  case 0x23: it.shape = which > 2 ? ILLEGAL : STORE, it.immediate = immediate_s(w); break;
  case 0x13: it.shape = shape_of_immediate(which, high), it.immediate = immediate_i(w); break;
  case 0x33: it.shape = shape_of_operation(which, high); break;
  case 0x0f: it.shape = which == 0 ? FENCE : ILLEGAL; break;
  case 0x73: it.shape = w == 0x73 ? ECALL : w == 0x100073 ? EBREAK : ILLEGAL; break;
  }
  return it;
}

/* ---- execute */

static u32 operate(u32 which, int is_other, u32 a, u32 b) {
  switch (which) {
  case 0: return is_other ? a - b : a + b;
  case 1: return a << (b & 31);
  case 2: return (i32)a < (i32)b;
  case 3: return a < b;
  case 4: return a ^ b;
  case 5: return is_other ? (u32)((i32)a >> (b & 31)) : a >> (b & 31);
  case 6: return a | b;
  default: return a & b;
  }
}

static u32 multiply(u32 which, u32 a, u32 b) {
  switch (which) {
  case 0: return a * b;
  case 1: return (u32)((int64_t)(i32)a * (i32)b >> 32);
  case 2: return (u32)((int64_t)(i32)a * (int64_t)b >> 32);
  case 3: return (u32)((uint64_t)a * b >> 32);
  case 4: return b == 0 ? 0xffffffff : a == 0x80000000 && b == 0xffffffff ? a : (u32)((i32)a / (i32)b);
  case 5: return b == 0 ? 0xffffffff : a / b;
  case 6: return b == 0 ? a : a == 0x80000000 && b == 0xffffffff ? 0 : (u32)((i32)a % (i32)b);
  default: return b == 0 ? a : a % b;
  }
}

static int is_taken(u32 which, u32 a, u32 b) {
  int holds = which < 2 ? a == b : which < 6 ? (i32)a < (i32)b : a < b;
  return holds != (int)(which & 1);
}

static const char *go_to(u32 to, u32 rd, u32 link) {
  if (to % 4) return "instruction address misaligned";
  machine.registers[rd] = rd ? link : 0;
  machine.counter = to;
  return NULL;
}

static const char *set(u32 rd, u32 value) {
  if (rd) machine.registers[rd] = value;
  machine.counter += 4;
  return NULL;
}

static const char *load(struct instruction it, u32 at) {
  u32 size = 1u << (it.which & 3), value = 0;
  if (at % size) return "load address misaligned";
  if (at >= MEMORY) return "load access fault";
  memcpy(&value, machine.memory + at, size);
  return set(it.rd, it.which < 2 ? extended(value, (int)(8 * size)) : value);
}

static const char *store(struct instruction it, u32 at, u32 value) {
  u32 size = 1u << it.which;
  if (at % size) return "store address misaligned";
  if (at >= MEMORY) return "store access fault";
  memcpy(machine.memory + at, &value, size);
  machine.counter += 4;
  return NULL;
}

/* ---- calls */

static int is_utf8(const uint8_t *at, u32 length) {
  for (u32 i = 0; i < length;) {
    u32 c = at[i], size = c < 0x80 ? 1 : c >= 0xc2 && c < 0xe0 ? 2 : c >= 0xe0 && c < 0xf0 ? 3 : c >= 0xf0 && c < 0xf5 ? 4 : 0;
    if (!size || size > length - i) return 0;
    for (u32 k = 1; k < size; k++)
      if ((at[i + k] & 0xc0) != 0x80) return 0;
    u32 next = size > 1 ? at[i + 1] : 0;
    if ((c == 0xe0 && next < 0xa0) || (c == 0xed && next > 0x9f) || (c == 0xf0 && next < 0x90) || (c == 0xf4 && next > 0x8f)) return 0;
    i += size;
  }
  return 1;
}

/* Keeps a text as the n-th of this turn. */
static const char *keep(u32 n, int to, u32 at, u32 length) {
  if (length > TEXT_BYTES) return "text too long";
  if ((uint64_t)at + length > MEMORY) return "text out of range";
  if (!is_utf8(machine.memory + at, length)) return "text not utf-8";
  told[n].to = to;
  told[n].length = length;
  memcpy(told[n].bytes, machine.memory + at, length);
  texts = n + 1;
  return set(0, 0);
}

static const char refused[] = "refused";

static const char *call(void) {
  const u32 *r = machine.registers;
  if (r[17] == 3) {
    const char *wrong = keep(0, -1, r[10], r[11]);
    return wrong ? wrong : refused;
  }
  if (r[17] != 1 && r[17] != 2) return "unknown call";
  if (texts == TEXTS) return "too many texts";
  if (r[17] == 1) return keep(texts, -1, r[10], r[11]);
  return r[10] > 255 ? "no such unit" : keep(texts, (int)r[10], r[11], r[12]);
}

static const char *execute(struct instruction it) {
  u32 a = machine.registers[it.rs1], b = machine.registers[it.rs2], here = machine.counter;
  switch (it.shape) {
  case LUI: return set(it.rd, it.immediate);
  case AUIPC: return set(it.rd, here + it.immediate);
  case JAL: return go_to(here + it.immediate, it.rd, here + 4);
  case JALR: return go_to((a + it.immediate) & ~1u, it.rd, here + 4);
  case BRANCH: return is_taken(it.which, a, b) ? go_to(here + it.immediate, 0, 0) : set(0, 0);
  case LOAD: return load(it, a + it.immediate);
  case STORE: return store(it, a + it.immediate, b);
  case OP_IMMEDIATE: return set(it.rd, operate(it.which, it.which == 5 && it.is_other, a, it.immediate));
  case OP: return set(it.rd, it.is_other == 1 ? multiply(it.which, a, b) : operate(it.which, it.is_other != 0, a, b));
  case FENCE: return set(0, 0);
  case ECALL: return call();
  case EBREAK: return "breakpoint";
  default: return "illegal instruction";
  }
}

static const char *step(void) {
  u32 word;
  if (machine.counter >= MEMORY) return "instruction access fault";
  memcpy(&word, machine.memory + machine.counter, 4);
  return execute(decode(word));
}

/* ---- turns */

static void begin_turn(const uint8_t *text, u32 length, const u32 *seat) {
  memcpy(machine.memory + TEXT_AT, text, length);
  memset(machine.registers, 0, sizeof machine.registers);
  machine.registers[1] = RETURN_AT;
  machine.registers[2] = machine.registers[10] = TEXT_AT;
  machine.registers[11] = length;
  memcpy(machine.registers + 12, seat, 3 * sizeof *seat);
  machine.counter = 4;
  texts = 0;
}

static void turn(const uint8_t *text, u32 length, const u32 *seat) {
  const char *wrong = NULL;
  u32 count = 0;
  memcpy(&before, &machine, sizeof machine);
  begin_turn(text, length, seat);
  while (!wrong && machine.counter != RETURN_AT) wrong = count++ < BUDGET ? step() : "budget spent";
  instructions += count;
  if (!wrong) return;
  if (wrong != refused) {
    told[0].to = -1;
    told[0].length = (u32)snprintf((char *)told[0].bytes, TEXT_BYTES, "trap: %s at %x", wrong, machine.counter);
  }
  texts = 1;
  memcpy(&machine, &before, sizeof machine);
}

static void tell(void) {
  for (u32 n = 0; n < texts; n++) {
    if (told[n].to < 0) fputs("out: ", stdout);
    else printf("to %d: ", told[n].to);
    for (u32 i = 0; i < told[n].length; i++) {
      if (told[n].bytes[i] == '\n') fputs("\\n", stdout);
      else if (told[n].bytes[i] == '\\') fputs("\\\\", stdout);
      else putchar(told[n].bytes[i]);
    }
    putchar('\n');
  }
  putchar('\n');
}

/* The text that a line stands for, in its own place. */
static u32 unescape(char *line, size_t length) {
  u32 to = 0;
  for (size_t i = 0; i < length; i++) {
    int is_escape = line[i] == '\\' && i + 1 < length;
    char c = is_escape ? line[++i] : line[i];
    line[to++] = is_escape && c == 'n' ? '\n' : c;
  }
  return to;
}

int main(int count, char **words) {
  u32 seat[3] = {0xffffffff, 0, 1};
  FILE *file = count > 1 ? fopen(words[1], "rb") : NULL;
  if (!file || (count != 2 && count != 5)) return fputs("plain IMAGE [SOURCE UNIT HOME]\n", stderr), 2;
  size_t size = fread(machine.memory, 1, TEXT_AT + 1, file);
  if (size > TEXT_AT || size < 4 || memcmp(machine.memory, "RV1\1", 4)) return fputs("plain: no image\n", stderr), 1;
  for (int i = 0; count == 5 && i < 3; i++) seat[i] = (u32)strtoul(words[2 + i], NULL, 0);
  char *line = NULL;
  size_t room = 0;
  for (ssize_t length; (length = getline(&line, &room, stdin)) > 0;) {
    u32 bytes = unescape(line, (size_t)length - (line[length - 1] == '\n'));
    if (bytes > TEXT_BYTES) return fputs("plain: a text is too long\n", stderr), 1;
    turn((const uint8_t *)line, bytes, seat);
    tell();
  }
  fprintf(stderr, "%llu instructions\n", instructions);
  return 0;
}

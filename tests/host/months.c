/* Calls the month's functions from C: each buffer lent in every way of lent.h, each input
   at each of its lengths, every room up to some past the need. Then states that no month
   left behind: whatever the words of a state are, its calls touch nothing but what is
   lent, a refused file leaves every word as it was, and after an open the next month is
   like any other. And too short a state: it is refused, and nothing changes.

     months [COUNT]     COUNT states (10,000) */
#define PROGRAM "months"
#include "lent.h"

enum {
  WORDS = SURFBODKIN_MONTH_WORDS,
  MORE_WORDS = WORDS + 5,
  NAMESPACES = 256,
  TOTALS = 40, /* the bytes of the five totals, and of a namespace's line */
  LINE = 16,
  OUT = TOTALS + NAMESPACES * LINE + 30
};

static unsigned long calls_made;

/* SplitMix64. */
static uint64_t seed;
static uint64_t random_word(void) {
  uint64_t z = seed += 0x9e3779b97f4a7c15;
  z = (z ^ z >> 30) * 0xbf58476d1ce4e5b9;
  z = (z ^ z >> 27) * 0x94d049bb133111eb;
  return z ^ z >> 31;
}
static size_t below(size_t bound) { return (size_t)(random_word() >> 32) % bound; }

/* A way to lend; WAYS stands for any. */
static enum way some(enum way way) { return way < WAYS ? way : (enum way)below(WAYS); }

struct month {
  uint64_t state[MORE_WORDS];
  size_t words;
};

struct day {
  struct bytes file, published, own;
};

static uint8_t *bytes_of(uint64_t *words) { return (uint8_t *)(void *)words; }
static uint64_t *words_of(uint8_t *bytes) { return (uint64_t *)(void *)bytes; }

static void expect(uint64_t answer, uint64_t given) {
  char words[96];
  snprintf(words, sizeof words, "answered %016" PRIx64 " for %016" PRIx64, given, answer);
  if (given != answer) fail(words);
}

/* What is lent beyond the header's number of words stays; all of it if fewer are lent, or if
   the call is refused. */
static void judge(const struct month *m, const struct month *before, int is_refused) {
  for (size_t k = is_refused || m->words < WORDS ? 0 : WORDS; k < m->words; k++) {
    if (m->state[k] != before->state[k]) fail("changed words that are not the call's");
  }
}

static uint64_t open_month(struct month *m, enum way way) {
  struct month before = *m;
  snprintf(current, sizeof current, "open, %zu words", m->words);
  struct lent state = lend((struct bytes){bytes_of(m->state), 8 * m->words}, some(way), 1);
  uint64_t answer = surfbodkin_month_open(words_of(state.lent.at), m->words);
  calls_made++;
  take_back_changed(state, bytes_of(m->state), "the state");
  judge(m, &before, answer != 0);
  return answer;
}

static uint64_t add(struct month *m, struct day day, enum way way) {
  struct month before = *m;
  snprintf(current, sizeof current, "add, %zu words, file %zu, lists %zu and %zu, state %016" PRIx64 " ..",
           m->words, day.file.length, day.published.length, day.own.length, m->state[0]);
  struct lent state = lend((struct bytes){bytes_of(m->state), 8 * m->words}, some(way), 1);
  struct lent file = lend(day.file, some(way), 0);
  struct lent published = lend(day.published, some(way), 0), own = lend(day.own, some(way), 0);
  uint64_t answer = surfbodkin_month_add(words_of(state.lent.at), m->words, file.lent.at, file.lent.length,
                                         published.lent.at, published.lent.length, own.lent.at, own.lent.length);
  calls_made++;
  take_back_changed(state, bytes_of(m->state), "the state");
  take_back(file, day.file.at, "the file");
  take_back(published, day.published.at, "the published list");
  take_back(own, day.own.at, "the own list");
  judge(m, &before, answer != 0);
  return answer;
}

/* Reads into a room of that length, and copies what it holds then to `out`, if that is there.
   The state may not even be written. */
static uint64_t read_out(struct month *m, size_t room, uint8_t *out, enum way way) {
  static uint8_t content[OUT];
  uint8_t written[OUT];
  for (size_t k = 0; k < room; k++) content[k] = room_byte(k);
  snprintf(current, sizeof current, "read, %zu words, room %zu, state %016" PRIx64 " ..", m->words, room, m->state[0]);
  struct lent state = lend((struct bytes){bytes_of(m->state), 8 * m->words}, some(way), 0);
  struct lent lent = lend((struct bytes){content, room}, some(way), 1);
  uint64_t answer = surfbodkin_month_read(words_of(state.lent.at), m->words, lent.lent.at, room);
  calls_made++;
  take_back(state, bytes_of(m->state), "the state");
  take_back_changed(lent, written, "out");
  size_t reach = 0;
  if (surfbodkin_number(answer) == SURFBODKIN_ACCEPTED) {
    if (surfbodkin_low(answer) > NAMESPACES) fail("says more namespaces than there may be");
    reach = TOTALS + surfbodkin_low(answer) * (size_t)LINE;
    if (reach > room) fail("says that it wrote more than there was room for");
  }
  for (size_t k = reach; k < room; k++) {
    if (written[k] != room_byte(k)) fail("wrote to out what is not the answer");
  }
  if (out != NULL) memcpy(out, written, room);
  return answer;
}

/* What a month has to be, in every room. */
static void expect_month(struct month *m, const char *words, enum way way) {
  uint8_t out[OUT];
  struct bytes due = bytes(words);
  uint64_t namespaces = (due.length - TOTALS) / LINE;
  for (size_t room = 0; room <= due.length + 30; room++) {
    uint64_t answer = read_out(m, room, out, way);
    expect(room < due.length ? refused(SURFBODKIN_ROOM, due.length) : namespaces, answer);
    if (room >= due.length && memcmp(out, due.at, due.length) != 0) fail("read something else");
  }
  free(due.at);
}

static struct day day(const char *file, const char *published, const char *own) {
  return (struct day){bytes(file), bytes(published), bytes(own)};
}

static void free_day(struct day day) {
  free(day.file.at);
  free(day.published.at);
  free(day.own.at);
}

#define C "01 82 14 82 f6 84 1a00010000 22 00 81 83 33 2a 05"
#define NAMED "01 82 14 83 f6 83 6161 20 00 83 622161 20 00"
#define RELATIVE "01 82 14 82 f6 83 f6 20 00"
#define DAY_1 C NAMED " 0000 0012 01 00 0002 00000022"
#define DAY_2 C NAMED RELATIVE " 00000000 00000012 00000022 02 00 0003 0000002b"
#define NUMBER(digits) "00000000000000" digits " "
#define NO_MONTH NUMBER("00") NUMBER("00") NUMBER("00") NUMBER("00") NUMBER("00")

/* A fresh month with one file: the answer, and what is read then. Also the file and each list
   at each of its lengths, with whatever answer, the same in all ways. */
static void one_day(struct day d, uint64_t answer, const char *due) {
  for (int way = 0; way < WAYS; way++) {
    struct month m = {{0}, WORDS};
    expect(answer, add(&m, d, (enum way)way));
    expect_month(&m, due, (enum way)way);
  }
  struct bytes *const inputs[] = {&d.file, &d.published, &d.own};
  for (int k = 0; k < 3; k++) {
    size_t whole = inputs[k]->length;
    for (size_t length = 0; length < whole; length++) {
      inputs[k]->length = length;
      uint64_t first = 0;
      for (int way = 0; way < WAYS; way++) {
        struct month m = {{0}, WORDS};
        uint64_t given = add(&m, d, (enum way)way);
        if (way > 0 && given != first) fail("answers otherwise for other memory");
        first = given;
      }
    }
    inputs[k]->length = whole;
  }
  free_day(d);
}

static void some_days(void) {
  one_day(day("01 00 0000 00000000", ":", ":"), 0, NO_MONTH);
  one_day(day("02 00 0000 00000000", ":a=1\n", ":"), 0, NO_MONTH);
  one_day(day(DAY_1, ":", ":"), 0,
          NUMBER("02") NUMBER("22") NUMBER("1b") NUMBER("02") NUMBER("00")
          "ffffffffffffffec" NUMBER("01") "0000000000010000" NUMBER("01"));
  one_day(day(DAY_2, ":a=65536\n", ":!A=-21\n"), 0,
          NUMBER("03") NUMBER("2b") NUMBER("24") NUMBER("00") NUMBER("01")
          "ffffffffffffffeb" NUMBER("01") "ffffffffffffffec" NUMBER("01") "0000000000010000" NUMBER("02"));
  one_day(day(DAY_2 "00", ":a", ":a"), refused(SURFBODKIN_DAY_TRAILER, 0), NO_MONTH);
  one_day(day("01 01 00000000 00000000 02 00 0002 00000002", ":a", ":"), refused(SURFBODKIN_DAY_TABLE, 1), NO_MONTH);
  one_day(day("01 02 00000000 00000001 02 00 0002 00000002", ":a", ":"), refused(SURFBODKIN_DAY_MESSAGE, 1), NO_MONTH);
  one_day(day(DAY_2, ":a=1\n", ":!a"), refused(SURFBODKIN_NAMES, 4), NO_MONTH);
}

static void put(uint8_t *at, uint64_t number, size_t length) {
  for (size_t k = 0; k < length; k++) at[k] = (uint8_t)(number >> (8 * (length - 1 - k)));
}

/* A file with one message that has so many references, to the numbers from one on. */
static struct bytes file_to(uint64_t first, uint64_t count) {
  static const uint8_t start[] = {0x01, 0x82, 0x14, 0x82, 0xf6, 0x84, 0xf6, 0x20, 0x00, 0x99};
  size_t message = sizeof start + 2 + count * 10;
  struct bytes file = {malloc(message + 12), message + 12};
  if (file.at == NULL) fail("no memory");
  memcpy(file.at, start, sizeof start);
  put(file.at + sizeof start, count, 2);
  for (uint64_t k = 0; k < count; k++) {
    uint8_t *at = file.at + sizeof start + 2 + 10 * k;
    at[0] = 0x81;
    at[1] = 0x1b;
    put(at + 2, first + k, 8);
  }
  put(file.at + message, 0, 4);
  put(file.at + message + 4, 0x02000001, 4);
  put(file.at + message + 8, message, 4);
  return file;
}

/* As many namespaces as may be, in one file and in two, and one more. */
static void most_namespaces(void) {
  static const struct { uint64_t first, second; unsigned due[2]; } cases[] = {
    {256, 1, {0, 0}}, {257, 0, {25, 0}}, {255, 1, {0, 0}}, {255, 256, {0, 0}}, {255, 257, {0, 25}}, {256, 257, {0, 25}},
  };
  for (size_t k = 0; k < sizeof cases / sizeof *cases; k++) {
    for (int way = 0; way < WAYS; way++) {
      struct month m = {{0}, WORDS};
      struct day first = {file_to(1000, cases[k].first), {NULL, 0}, {NULL, 0}};
      struct day second = {file_to(1000, cases[k].second > 0 ? cases[k].second : 1), {NULL, 0}, {NULL, 0}};
      expect(refused(cases[k].due[0], 0), add(&m, first, (enum way)way));
      expect(refused(cases[k].due[1], 0), add(&m, second, (enum way)way));
      read_out(&m, OUT, NULL, (enum way)way);
      free(first.file.at);
      free(second.file.at);
    }
  }
}

/* Days with every answer of an add, but those of too many namespaces and of too great a total,
   for states of any contents. */
enum { DAYS = 9 };
static struct day days[DAYS];
static void make_days(void) {
  days[0] = day("01 00 0000 00000000", ":", ":");
  days[1] = day(DAY_1, ":", ":");
  days[2] = day(DAY_2, ":a=-20\n", ":!a=7\n");
  days[3] = day(DAY_2, ":a=-20\n", ":!a=\n");
  days[4] = day("01 02 00000000 00000001 02 00 0002 00000002", ":", ":");
  days[5] = day("02", ":", ":");
  days[6] = day("01 00000000 02 00 0001 00000001", ":", ":");
  days[7] = (struct day){file_to(0, 100), {NULL, 0}, {NULL, 0}};
  days[8] = (struct day){file_to((uint64_t)1 << 62, 256), {NULL, 0}, {NULL, 0}};
}

static uint64_t edge_word(void) {
  static const uint64_t edges[] = {0, 1, 2, 5, 255, 256, 257, 258, 512, 65535, 65536};
  switch (below(6)) {
    case 0: return edges[below(sizeof edges / sizeof *edges)];
    case 1: return ((uint64_t)1 << 63) - 3 + below(6);
    case 2: return ((uint64_t)1 << below(64)) - below(3);
    case 3: return UINT64_MAX - below(3);
    case 4: return below(300);
    default: return random_word();
  }
}

static void any_state(struct month *m) {
  m->words = below(4) > 0 ? WORDS : WORDS + below(MORE_WORDS - WORDS + 1);
  for (size_t k = 0; k < MORE_WORDS; k++) m->state[k] = random_word();
  size_t kind = below(8);
  switch (kind) {
    case 0: break;
    case 1:
      for (size_t k = 0; k < WORDS; k++) m->state[k] = below(300);
      break;
    case 2:
      for (size_t k = 0; k < WORDS; k++) m->state[k] = edge_word();
      break;
    case 3: memset(m->state, 0xff, 8 * WORDS); break;
    case 4:
      memset(m->state, 0, 8 * WORDS);
      m->state[below(WORDS)] = edge_word();
      break;
    default: /* one of some days, with a word or two damaged */
      memset(m->state, 0, 8 * WORDS);
      for (size_t k = below(4); k > 0; k--) add(m, days[below(DAYS)], WAYS);
      for (size_t k = below(3); k > 0; k--) {
        uint64_t *word = &m->state[below(below(2) == 0 ? WORDS : 8)];
        if (kind == 5) *word = edge_word();
        if (kind == 6) *word += below(2) == 0 ? 1 : UINT64_MAX;
      }
  }
}

/* After an open a month is like any other. */
static void reopen(struct month *m) {
  expect(0, open_month(m, WAYS));
  uint8_t out[OUT];
  expect(0, read_out(m, TOTALS, out, WAYS));
  for (size_t k = 0; k < TOTALS; k++) {
    if (out[k] != 0) fail("an open month has a total");
  }
  expect(0, add(m, days[1], WAYS));
  expect(0, add(m, days[2], WAYS));
  expect(3, read_out(m, OUT, out, WAYS));
  struct bytes due = bytes(NUMBER("05") NUMBER("4d") NUMBER("3f") NUMBER("02") NUMBER("01")
                           "ffffffffffffffec" NUMBER("03") NUMBER("07") NUMBER("01") "0000000000010000" NUMBER("02"));
  if (memcmp(out, due.at, due.length) != 0) fail("read something else");
  free(due.at);
}

/* Every state that is too short, whatever it holds and whatever else is given. */
static void too_short(struct month *m) {
  for (size_t words = 0; words < WORDS; words++) {
    any_state(m);
    m->words = words;
    uint64_t answer = refused(SURFBODKIN_ROOM, 8 * WORDS);
    expect(answer, open_month(m, WAYS));
    expect(answer, add(m, days[below(DAYS)], WAYS));
    expect(answer, read_out(m, below(OUT + 1), NULL, WAYS));
  }
}

int main(int count, char **words) {
  static struct month m;
  unsigned long states = count > 1 ? strtoul(words[1], NULL, 10) : 10000;
  signal(SIGSEGV, on_fault);
  signal(SIGBUS, on_fault);
  some_days();
  most_namespaces();
  make_days();
  too_short(&m);
  for (unsigned long k = 0; k < states; k++) {
    seed = k; /* so that each can be made again alone */
    any_state(&m);
    for (size_t calls = 1 + below(5); calls > 0; calls--) {
      if (below(3) > 0) {
        add(&m, days[below(DAYS)], WAYS);
      } else {
        read_out(&m, below(2) == 0 ? OUT : below(OUT + 1), NULL, WAYS);
      }
    }
    reopen(&m);
  }
  for (int k = 0; k < DAYS; k++) free_day(days[k]);
  printf("months: %lu states, %lu calls, nothing else was touched\n", states, calls_made);
  return 0;
}

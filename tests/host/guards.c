/* Calls every function of surfbodkin.h from C, with each buffer lent in every way of
   lent.h. After each call what was lent has to be as the header says. Functions that
   the archive lacks are named and left out. */
#define PROGRAM "guards"
#include "lent.h"

#pragma weak surfbodkin_check_single
#pragma weak surfbodkin_check_message
#pragma weak surfbodkin_list
#pragma weak surfbodkin_check_table
#pragma weak surfbodkin_release
#pragma weak surfbodkin_write_text
#pragma weak surfbodkin_read_text
#pragma weak surfbodkin_check_names
#pragma weak surfbodkin_stream_open
#pragma weak surfbodkin_stream_feed
#pragma weak surfbodkin_stream_close
#pragma weak surfbodkin_day_check
#pragma weak surfbodkin_day_find
#pragma weak surfbodkin_day_add
#pragma weak surfbodkin_day_search
#pragma weak surfbodkin_name_number
#pragma weak surfbodkin_why
#pragma weak surfbodkin_same
#pragma weak surfbodkin_day_upgrade

/* As the requests have them: the header may not say otherwise. */
uint64_t surfbodkin_compare(const uint8_t *first, size_t first_length, const uint8_t *second,
                            size_t second_length, uint8_t *out, size_t out_length);
#pragma weak surfbodkin_compare
uint64_t surfbodkin_strike(const uint8_t *message, size_t length, uint64_t number, uint8_t *out,
                           size_t out_length);
#pragma weak surfbodkin_strike

enum call {
  SINGLE, MESSAGE, LIST, TABLE, RELEASE, WRITE, READ, LISTS, STREAM,
  DAY_CHECK, DAY_FIND, DAY_ADD, DAY_SEARCH, NAME, WHY, SAME, DAY_UPGRADE, COMPARE, STRIKE, CALLS
};
static int there[CALLS];
static unsigned long calls_made;

struct arguments {
  enum call call;
  struct bytes input, table; /* of day_add the file and the message, of same the two ARIs, of compare the messages */
  uint64_t subscriber;       /* of a day's file the message's number or the namespace, of strike the target's number */
  size_t room;
  struct bytes published, own;
};

/* How much of the room an answer has written. */
static size_t written_by(enum call call, uint64_t answer) {
  if (call == WHY && surfbodkin_number(answer) == SURFBODKIN_HELD) {
    return surfbodkin_why_links(answer) * (size_t)SURFBODKIN_LINK;
  }
  if (surfbodkin_number(answer) != SURFBODKIN_ACCEPTED) return 0;
  switch (call) {
    case LIST: case STREAM: case DAY_SEARCH: case COMPARE: return surfbodkin_low(answer) * (size_t)SURFBODKIN_ENTRY;
    case WRITE: case READ: case DAY_ADD: case DAY_UPGRADE: case STRIKE: return surfbodkin_low(answer);
    default: return 0;
  }
}

/* Opens a stream, feeds the input in pieces, an empty one first, and closes it. A
   refusal that a feed answers has to be that of the close. */
static uint64_t stream(struct bytes input, enum way way, struct bytes out) {
  static uint8_t state[8 * SURFBODKIN_STREAM_WORDS], message[SURFBODKIN_BYTES];
  for (size_t k = 0; k < sizeof state; k++) state[k] = room_byte(k);
  for (size_t k = 0; k < sizeof message; k++) message[k] = room_byte(k);
  struct lent lent_state = lend((struct bytes){state, sizeof state}, way, 1);
  struct lent lent_message = lend((struct bytes){message, sizeof message}, way, 1);
  uint64_t *at = (uint64_t *)(void *)lent_state.lent.at, standing = 0;
  uint8_t *room = lent_message.lent.at;
  size_t words = SURFBODKIN_STREAM_WORDS;
  size_t piece = 1 + out.length % 7 + input.length / 32, put = 0, length = 0;
  if (surfbodkin_stream_open(at, words) != 0) fail("open did not answer 0");
  do {
    struct bytes fragment = {input.at + put, length};
    struct lent lent = lend(fragment, way, 0);
    uint64_t answer = surfbodkin_stream_feed(at, words, room, sizeof message, lent.lent.at, length);
    calls_made++;
    take_back(lent, fragment.at, "the fragment");
    if (standing != 0 && answer != standing) fail("a refusal did not stand");
    for (size_t k = put; standing == 0 && k < put + length && k < sizeof message; k++) {
      message[k] = input.at[k];
    }
    standing = answer;
    put += length;
    length = input.length - put < piece ? input.length - put : piece;
  } while (length > 0);
  uint64_t answer = surfbodkin_stream_close(at, words, room, sizeof message, out.at, out.length);
  if (standing != 0 && answer != standing) fail("a refusal did not stand");
  take_back_changed(lent_state, state, "the state");
  take_back(lent_message, message, "the message");
  return answer;
}

/* Makes a call in one way. `out` is what the front of the room has to hold after an
   acceptance; if it is NULL the answer's bytes are not judged. */
static uint64_t make(const struct arguments *a, enum way way, const uint8_t *out) {
  static uint8_t room[SURFBODKIN_TEXT_BYTES + 64];
  for (size_t k = 0; k < a->room; k++) room[k] = room_byte(k);
  struct bytes content = {room, a->room};
  struct lent input = lend(a->input, way, 0), table = lend(a->table, way, 0);
  struct lent published = lend(a->published, way, 0), own = lend(a->own, way, 0);
  struct lent answer_room = lend(content, way, 1);
  struct bytes in = input.lent, rows = table.lent, to = answer_room.lent;
  struct bytes first = published.lent, second = own.lent;
  const uint64_t unset = 0xa5a5a5a5a5a5a5a5;
  uint64_t answer = 0, compared = unset, number = unset, itself;
  switch (a->call) {
    case SINGLE: answer = surfbodkin_check_single(in.at, in.length); break;
    case MESSAGE: answer = surfbodkin_check_message(in.at, in.length); break;
    case LIST: answer = surfbodkin_list(in.at, in.length, to.at, to.length); break;
    case TABLE: answer = surfbodkin_check_table(rows.at, rows.length); break;
    case RELEASE:
      answer = surfbodkin_release(in.at, in.length, rows.at, rows.length, first.at, first.length,
                                  second.at, second.length, a->subscriber, &compared);
      if ((answer == 0 || surfbodkin_number(answer) == SURFBODKIN_HELD) == (compared == unset)) {
        fail("a count with a refusal, or none without");
      }
      break;
    case WRITE: answer = surfbodkin_write_text(in.at, in.length, to.at, to.length); break;
    case READ: answer = surfbodkin_read_text(in.at, in.length, to.at, to.length); break;
    case LISTS:
      answer = surfbodkin_check_names(first.at, first.length, second.at, second.length);
      break;
    case STREAM: answer = stream(a->input, way, to); break;
    case DAY_CHECK: answer = surfbodkin_day_check(in.at, in.length); break;
    case DAY_FIND: answer = surfbodkin_day_find(in.at, in.length, a->subscriber); break;
    case DAY_ADD:
      answer = surfbodkin_day_add(in.at, in.length, rows.at, rows.length, to.at, to.length);
      break;
    case DAY_SEARCH:
      answer = surfbodkin_day_search(in.at, in.length, first.at, first.length, second.at,
                                     second.length, a->subscriber, to.at, to.length);
      break;
    case NAME:
      answer = surfbodkin_name_number(first.at, first.length, second.at, second.length, in.at,
                                      in.length, &number);
      if (number != (answer == 1 ? a->subscriber : unset)) fail("another number than it stands for");
      break;
    case WHY:
      answer = surfbodkin_why(in.at, in.length, rows.at, rows.length, first.at, first.length,
                              second.at, second.length, a->subscriber, to.at, to.length);
      break;
    case SAME:
      answer = surfbodkin_same(in.at, in.length, rows.at, rows.length);
      /* What is only read may be lent twice. */
      itself = surfbodkin_same(in.at, in.length, in.at, in.length);
      if (itself != 1 && (surfbodkin_number(itself) == SURFBODKIN_ACCEPTED || itself != answer)) {
        fail("not the same as itself, or refused otherwise");
      }
      break;
    case DAY_UPGRADE:
      answer = surfbodkin_day_upgrade(in.at, in.length, to.at, to.length);
      break;
    case COMPARE:
      answer = surfbodkin_compare(in.at, in.length, rows.at, rows.length, to.at, to.length);
      /* One memory as both: no room, so that nothing is written, but what is refused is. */
      itself = surfbodkin_compare(in.at, in.length, in.at, in.length, NULL, 0);
      if (itself != 0 && surfbodkin_number(itself) != SURFBODKIN_ROOM && itself != answer) {
        fail("differs from itself, or refused otherwise");
      }
      break;
    case STRIKE:
      answer = surfbodkin_strike(in.at, in.length, a->subscriber, to.at, to.length);
      break;
    default: fail("no such call");
  }
  calls_made++;
  size_t written = written_by(a->call, answer);
  if (written > a->room) fail("says that it wrote more than there was room for");
  if (written > 0) memcpy(room, out != NULL ? out : to.at, written);
  take_back(input, a->input.at, "the input");
  take_back(table, a->table.at, "the table");
  take_back(published, a->published.at, "the published list");
  take_back(own, a->own.at, "the own list");
  take_back(answer_room, room, "the room");
  return answer;
}

static void name(const char *call, const char *input, size_t room) {
  snprintf(current, sizeof current, "%s %.160s, room %zu", call, input, room);
}

/* The same in all ways, with that answer. */
static void expect(struct arguments a, const char *call, const char *input, uint64_t answer,
                   const uint8_t *out) {
  name(call, input, a.room);
  for (int way = 0; way < WAYS; way++) {
    uint64_t given = make(&a, (enum way)way, out);
    if (given != answer) {
      char words[96];
      snprintf(words, sizeof words, "answered %016" PRIx64 " for %016" PRIx64, given, answer);
      fail(words);
    }
  }
}

/* Any answer, the same in all ways. */
static void attempt(struct arguments a, const char *call, const char *input) {
  name(call, input, a.room);
  uint64_t answer = make(&a, GUARDED, NULL);
  for (int way = 1; way < WAYS; way++) {
    if (make(&a, (enum way)way, NULL) != answer) fail("answers otherwise for other memory");
  }
}

static const char *const NAMES[CALLS] = {"check_single", "check_message", "list",
                                         "check_table",  "release",       "write_text",
                                         "read_text",    "check_names",   "stream_close",
                                         "day_check",    "day_find",      "day_add",
                                         "day_search",   "name_number",   "why",
                                         "same",         "day_upgrade",   "compare",
                                         "strike"};

/* A check, and each beginning of its input with whatever answer. */
static void check(enum call call, const char *input, uint64_t answer) {
  if (!there[call]) return;
  struct arguments a = {.call = call, .input = bytes(input)};
  expect(a, NAMES[call], input, answer, NULL);
  size_t whole = a.input.length;
  for (a.input.length = 0; a.input.length < whole && whole < 100; a.input.length++) {
    attempt(a, NAMES[call], input);
  }
  free(a.input.at);
}

/* A call that writes, with every room up to some past the need. `size` is the need as
   the answer counts it. */
static void write_out(enum call call, const char *input, uint32_t count, uint32_t size,
                      const char *out) {
  if (!there[call]) return;
  struct bytes written = bytes(out);
  struct arguments a = {.call = call, .input = bytes(input)};
  size_t most = written.length + 30;
  for (a.room = 0; a.room <= most; a.room += a.room < written.length && most > 400 ? 1 + most / 60 : 1) {
    uint64_t answer = a.room < written.length ? refused(SURFBODKIN_ROOM, size)
                                              : (uint64_t)count << 32 | size;
    expect(a, NAMES[call], input, answer, written.at);
  }
  size_t whole = a.input.length;
  a.room = most;
  for (a.input.length = 0; a.input.length < whole && whole < 100; a.input.length++) {
    attempt(a, NAMES[call], input);
  }
  free(a.input.at);
  free(written.at);
}

/* A refusal, in no room and in some. */
static void refuse_out(enum call call, const char *input, unsigned number, uint64_t place) {
  if (!there[call]) return;
  struct arguments a = {.call = call, .input = bytes(input)};
  for (a.room = 0; a.room <= 100; a.room += 50) {
    expect(a, NAMES[call], input, refused(number, place), NULL);
  }
  free(a.input.at);
}

static void with_table(enum call call, const char *input, const char *table, uint64_t subscriber,
                       uint64_t answer) {
  if (!there[call]) return;
  struct arguments a = {.call = call, .input = bytes(input), .table = bytes(table),
                        .subscriber = subscriber};
  expect(a, NAMES[call], call == TABLE ? table : input, answer, NULL);
  size_t whole = a.table.length;
  for (a.table.length = 0; a.table.length < whole; a.table.length++) {
    attempt(a, NAMES[call], table);
  }
  free(a.input.at);
  free(a.table.at);
}

/* With lists of names, each of them at each of its lengths too. */
static void with_lists(enum call call, const char *input, const char *table, const char *published,
                       const char *own, uint64_t answer) {
  if (!there[call]) return;
  struct arguments a = {.call = call, .input = bytes(input), .table = bytes(table),
                        .subscriber = 7, .published = bytes(published), .own = bytes(own)};
  expect(a, NAMES[call], published, answer, NULL);
  size_t whole = a.published.length;
  for (a.published.length = 0; a.published.length < whole; a.published.length++) {
    attempt(a, NAMES[call], published);
  }
  whole = a.own.length;
  for (a.own.length = 0; a.own.length < whole; a.own.length++) attempt(a, NAMES[call], own);
  free(a.input.at);
  free(a.table.at);
  free(a.published.at);
  free(a.own.at);
}

/* Two ARIs, either of them the first, and each at each of its lengths too. */
static void pair(const char *one, const char *two, uint64_t answer) {
  if (!there[SAME]) return;
  for (int turned = 0; turned < 2; turned++) {
    struct arguments a = {.call = SAME, .input = bytes(turned ? two : one),
                          .table = bytes(turned ? one : two)};
    expect(a, NAMES[SAME], turned ? two : one, answer, NULL);
    struct bytes *const inputs[] = {&a.input, &a.table};
    for (int k = 0; k < 2; k++) {
      size_t whole = inputs[k]->length;
      for (size_t length = 0; length < whole && whole < 100; length++) {
        inputs[k]->length = length;
        attempt(a, NAMES[SAME], turned ? two : one);
      }
      inputs[k]->length = whole;
    }
    for (int k = 0; k < 2; k++) free(inputs[k]->at);
  }
}

/* With a day file, another message or a number, and lists, or all that a release is given:
   in every room up to some past the need, and each input at each of its lengths. */
static void with_day(enum call call, const char *file, const char *message, uint64_t number,
                     const char *published, const char *own, uint64_t answer, const char *out) {
  if (!there[call]) return;
  struct bytes written = bytes(out);
  struct arguments a = {.call = call, .input = bytes(file), .table = bytes(message),
                        .subscriber = number, .published = bytes(published), .own = bytes(own)};
  uint64_t need = call == WHY ? written.length : surfbodkin_low(answer);
  for (a.room = 0; a.room <= written.length + 30; a.room++) {
    int short_of = a.room < written.length;
    expect(a, NAMES[call], file, short_of ? refused(SURFBODKIN_ROOM, need) : answer, written.at);
  }
  struct bytes *const inputs[] = {&a.input, &a.table, &a.published, &a.own};
  for (int k = 0; k < 4; k++) {
    size_t whole = inputs[k]->length;
    for (size_t length = 0; length < whole && whole < 100 && call != NAME; length++) {
      inputs[k]->length = length;
      attempt(a, NAMES[call], file);
    }
    inputs[k]->length = whole;
  }
  for (int k = 0; k < 4; k++) free(inputs[k]->at);
  free(written.at);
}

/* A long message, in rooms around the need. */
static void strike_long(const char *message, uint64_t number, uint64_t answer, const char *out) {
  if (!there[STRIKE]) return;
  struct bytes written = bytes(out);
  struct arguments a = {.call = STRIKE, .input = bytes(message), .subscriber = number};
  size_t need = written.length;
  const size_t rooms[] = {0, need > 0 ? need - 1 : 0, need, need + 1, need + 64};
  for (int k = 0; k < 5; k++) {
    a.room = rooms[k];
    uint64_t none = refused(SURFBODKIN_ROOM, need);
    expect(a, NAMES[STRIKE], "many", a.room < need ? none : answer, written.at);
  }
  free(a.input.at);
  free(written.at);
}

/* Long messages, in rooms around the need. */
static void compare_long(const char *first, const char *second, uint64_t answer, const char *out) {
  if (!there[COMPARE]) return;
  struct bytes written = bytes(out);
  struct arguments a = {.call = COMPARE, .input = bytes(first), .table = bytes(second)};
  const size_t rooms[] = {0, written.length - 1, written.length, written.length + 23};
  for (int k = 0; k < 4; k++) {
    a.room = rooms[k];
    uint64_t none = refused(SURFBODKIN_ROOM, surfbodkin_low(answer));
    expect(a, NAMES[COMPARE], "many", k < 2 ? none : answer, written.at);
  }
  free(a.input.at);
  free(a.table.at);
  free(written.at);
}

/* A text or hex with one part repeated, kept until the end. */
static const char *repeated(const char *before, const char *part, int times, const char *after) {
  char *words = malloc(strlen(before) + strlen(part) * (size_t)times + strlen(after) + 1);
  if (words == NULL) fail("no memory");
  strcpy(words, before);
  char *end = words + strlen(before);
  for (int k = 0; k < times; k++, end += strlen(part)) strcpy(end, part);
  strcpy(end, after);
  return words;
}

#define C "01 82 14 82 f6 84 1a00010000 22 00 81 83 33 2a 05"
#define ORDER "01 82 14 83 1904d2 83 1a00010000 22 12 83 1a00010000 21 182b"
#define NAMED "01 82 14 83 f6 83 6161 20 00 83 622161 20 00"
#define ROW_65536 "0000000000000007 0000000000010000 "
#define ROW_20 "0000000000000007 ffffffffffffffec "
#define OTHER_20 "0000000000000008 ffffffffffffffec "
#define EMPTY_DAY "01 00 0000 00000000"
#define DAY C NAMED " 0000 0012 01 00 0002 00000022"
#define EMPTY_DAY_2 "02 00 0000 00000000"
#define DAY_2 C NAMED " 00000000 00000012 02 00 0002 00000022"

/* The chain down to C's parameter, and to the first target of NAMED. */
#define LINK(first, after, meaning) first after " 00000000000000" meaning " ffffffffffffffff "
#define CHAIN_C \
  LINK("00000001", "00000012", "00") LINK("00000003", "00000012", "01") LINK("00000005", "00000012", "02") \
  LINK("0000000d", "00000012", "03") LINK("0000000e", "00000012", "04")
#define CHAIN_NAMED \
  LINK("00000001", "00000010", "00") LINK("00000003", "00000010", "01") LINK("00000005", "0000000a", "02")
#define KEYED "01 82 14 82 f6 84 00 20 00 a1 6161 83 01 20 00"
#define CHAIN_KEYED \
  LINK("00000001", "00000010", "00") LINK("00000003", "00000010", "01") LINK("00000005", "00000010", "02") \
  LINK("00000009", "00000010", "03") "0000000c 00000010 0000000000000005 000000000000000a"
#define ROW_0 "0000000000000007 0000000000000000 "

/* Entries of a comparison, with the numbers of the items. */
#define NO_ITEM " ffffffffffffffff"
#define ALIKE "0000000000000000" NO_ITEM NO_ITEM " "
#define CHANGED(one, two) "0000000000000001 00000000000000" one " 00000000000000" two " "
#define ONLY_FIRST "0000000000000002" NO_ITEM NO_ITEM " "
#define ONLY_SECOND "0000000000000003" NO_ITEM NO_ITEM " "

static uint64_t items(uint64_t count) { return count << 32; }

static uint64_t held(uint64_t reason, uint64_t links, uint64_t entry) {
  return (uint64_t)SURFBODKIN_HELD << 56 | reason << 48 | links << 32 | entry;
}

int main(void) {
  there[SINGLE] = surfbodkin_check_single != NULL;
  there[MESSAGE] = surfbodkin_check_message != NULL;
  there[LIST] = surfbodkin_list != NULL;
  there[TABLE] = surfbodkin_check_table != NULL;
  there[RELEASE] = surfbodkin_release != NULL;
  there[WRITE] = surfbodkin_write_text != NULL;
  there[READ] = surfbodkin_read_text != NULL;
  there[LISTS] = surfbodkin_check_names != NULL;
  there[STREAM] = surfbodkin_stream_open != NULL && surfbodkin_stream_feed != NULL &&
                  surfbodkin_stream_close != NULL;
  there[DAY_CHECK] = surfbodkin_day_check != NULL;
  there[DAY_FIND] = surfbodkin_day_find != NULL;
  there[DAY_ADD] = surfbodkin_day_add != NULL;
  there[DAY_SEARCH] = surfbodkin_day_search != NULL;
  there[NAME] = surfbodkin_name_number != NULL;
  there[WHY] = surfbodkin_why != NULL;
  there[SAME] = surfbodkin_same != NULL;
  there[DAY_UPGRADE] = surfbodkin_day_upgrade != NULL;
  there[COMPARE] = surfbodkin_compare != NULL;
  there[STRIKE] = surfbodkin_strike != NULL;
  const char *before = "guards: skipped, not in the archive:";
  for (int call = 0; call < CALLS; call++) {
    if (there[call]) continue;
    printf("%s surfbodkin_%s", before, NAMES[call]);
    before = ",";
  }
  if (*before == ',') printf("\n");
  fflush(stdout);
  signal(SIGSEGV, on_fault);
  signal(SIGBUS, on_fault);

  check(SINGLE, "f7", items(1));
  check(SINGLE, "3b8000000000000000", refused(7, 0));
  check(SINGLE, "8212a202000100", refused(11, 5));
  check(SINGLE, "8400200080", refused(12, 4));
  check(SINGLE, "82050a00", refused(13, 3));
  check(SINGLE, "fb3ff199999999999a", items(1));
  check(SINGLE, "6a c3bcf09f8c8aefbfbf41", items(1));
  check(SINGLE, "", refused(2, 0));
  check(SINGLE, repeated("59 3ffd", "ff", 16381, ""), items(1));
  check(SINGLE, repeated("59 3ffe", "ff", 16382, ""), refused(1, 0));
  check(SINGLE, repeated("82 11 99 0ffd", "00", 4093, ""), items(4096));
  check(SINGLE, repeated("82 11 99 0ffe", "00", 4094, ""), refused(5, 4098));
  check(SINGLE, repeated("", "82 11 81", 12, "00"), items(37));
  check(SINGLE, repeated("", "82 11 81", 12, "80"), refused(6, 36));
  check(MESSAGE, C, items(14));
  check(MESSAGE, ORDER, items(13));
  check(MESSAGE, "", refused(2, 0));
  check(MESSAGE, "01", items(1));
  check(MESSAGE, "02", refused(8, 0));
  check(MESSAGE, "01 82 14 81 9b 0000000000000001", refused(7, 4));
  check(MESSAGE, "01 82 14 81 5b 0000000000000001", refused(9, 4));
  check(MESSAGE, "1b 0000000000000001", items(1));
  check(MESSAGE, "01 82 14 81 5b ffffffffffffffff", refused(9, 4));

  for (int k = 0; k < 2; k++) {
    enum call call = k == 0 ? LIST : STREAM;
    write_out(call, C, 14, 2,
              "00000005 00000012 0000000000000000 0000000000010000"
              "0000000e 00000012 0000000000000000 ffffffffffffffec");
    write_out(call, ORDER, 13, 2,
              "00000007 0000000f 0000000000000000 0000000000010000"
              "0000000f 00000018 0000000000000000 0000000000010000");
    write_out(call, "01 82 14 83 f6 83 62 2161 20 00 83 f6 20 00", 13, 2,
              "00000005 0000000b 0000000000000001 0000000000000006"
              "0000000b 0000000f 0000000000000002 0000000000000000");
    write_out(call, "01", 1, 0, "");
    refuse_out(call, "02", 8, 0);
    refuse_out(call, "", 2, 0);
    refuse_out(call, "01 82 14 82 f6 83 00 20 20", 7, 8);
  }
  refuse_out(STREAM, repeated("01 82 14 81 59 3ffa", "00", 16378, ""), 1, 0);
  refuse_out(STREAM, repeated("01 82 14 81 59 3ff9", "00", 16377, "82"), 1, 0);
  refuse_out(STREAM, repeated("01 82 14 81 59 3ff8", "00", 16376, "83 00"), 7, 16383);
  refuse_out(STREAM, repeated("", "00", 20000, ""), 8, 0);

  with_table(TABLE, "", "", 0, 0);
  with_table(TABLE, "", ROW_65536 ROW_20 ROW_20, 0, 0);
  with_table(TABLE, "", ROW_20 ROW_65536 OTHER_20, 0, refused(18, 2));
  with_table(TABLE, "", ROW_20 ROW_65536 "00", 0, refused(18, 2));
  with_table(RELEASE, C, ROW_65536, 7, refused(SURFBODKIN_HELD, 1));
  with_table(RELEASE, C, ROW_65536 ROW_20, 7, 0);
  with_table(RELEASE, C, ROW_65536 OTHER_20, 7, refused(SURFBODKIN_HELD, 1));
  with_table(RELEASE, C, ROW_65536 ROW_20, 8, refused(SURFBODKIN_HELD, 0));
  with_table(RELEASE, C, ROW_65536 ROW_20 "00", 7, refused(18, 2));
  with_table(RELEASE, "02", ROW_65536 "00", 7, refused(8, 0));
  with_table(RELEASE, "01", "", 7, 0);
  with_table(RELEASE, "01", "00", 7, refused(18, 0));

  with_lists(LISTS, "", "", ":", ":", 0);
  with_lists(LISTS, "", "", ":a=1\n!a=2\n", ":a=-3\n", 0);
  with_lists(LISTS, "", "", ":a=1\nb=01\n", ":=\n", refused(19, 4));
  with_lists(LISTS, "", "", ":a=1\n", ":a=1\nb=2", refused(19, 8));
  with_lists(RELEASE, NAMED, ROW_65536 ROW_20, ":a=65536\na=1\n", ":!a=-20\n", 0);
  with_lists(RELEASE, NAMED, ROW_65536 ROW_20, ":a=65536\n", ":a=-20\n", refused(SURFBODKIN_HELD, 1));
  with_lists(RELEASE, NAMED, ROW_65536 OTHER_20, ":a=65536\n", ":!a=-20\n", refused(SURFBODKIN_HELD, 1));
  with_lists(RELEASE, NAMED, ROW_65536 "00", ":a=65536\n", ":!a=-20", refused(19, 8));
  with_lists(RELEASE, NAMED, ROW_65536 "00", ":a=65536\n", ":!a=-20\n", refused(18, 1));
  with_lists(RELEASE, "02", ROW_65536 "00", ":a", ":a", refused(8, 0));
  with_lists(RELEASE, "01", "", ":a", ":", refused(19, 0));

  write_out(WRITE, "82050a", 3, 12, ":ari:/UINT/10");
  write_out(WRITE, "83f621181e", 4, 7, ":./-2/30");
  write_out(WRITE, "84 1a00010000 22 00 81 83 33 2a 05", 9, 29, ":ari://65536/-3/0(//-20/-11/5)");
  write_out(WRITE, "82 12 a2 00 f6 62 c3bc 42 00ff", 7, 41,
            ":ari:/AM/(0=null,%22%C3%BC%22=h%2700ff%27)");
  write_out(WRITE, repeated("79 3ffd", "7f", 16381, ""), 1, 49153,
            repeated(":ari:%22", "%7F", 16381, "%22"));
  refuse_out(WRITE, "8214 81 f6", 14, 0);
  refuse_out(WRITE, "8209 f93c00", 14, 2);
  refuse_out(WRITE, "82050a00", 13, 3);
  refuse_out(WRITE, "", 2, 0);
  refuse_out(WRITE, repeated("59 3ffe", "ff", 16382, ""), 1, 0);

  write_out(READ, ":ari:/UINT/10", 3, 3, "82050a");
  write_out(READ, ":./-2/30", 4, 5, "83f621181e");
  write_out(READ, ":ari://65536/-3/0(//-20/-11/5)", 9, 13, "84 1a00010000 22 00 81 83 33 2a 05");
  write_out(READ, ":ari:/AM/(0=null,%22%C3%BC%22=h%2700ff%27)", 7, 11,
            "82 12 a2 00 f6 62 c3bc 42 00ff");
  refuse_out(READ, ":", 15, 0);
  refuse_out(READ, ":ari:/UINT/010", 15, 0);
  refuse_out(READ, ":ari:%22%", 15, 0);
  refuse_out(READ, ":ari:./-2/30", 15, 0);
  refuse_out(READ, repeated(":ari:", "/AC/(", 6000, ""), 15, 0);
  refuse_out(READ, repeated(":", "0", 131072, ""), 15, 0);
  refuse_out(READ, repeated(":", "0", 131073, ""), 1, 0);

  check(DAY_CHECK, EMPTY_DAY, 0);
  check(DAY_CHECK, DAY, 2);
  check(DAY_CHECK, "00 0000 00000000", refused(20, 0));
  check(DAY_CHECK, EMPTY_DAY_2, 0);
  check(DAY_CHECK, DAY_2, 2);
  check(DAY_CHECK, "03 00 0000 00000000", refused(20, 0));
  check(DAY_CHECK, C "0000 02 00 0001 00000012", refused(20, 0));
  check(DAY_CHECK, C "00000000 01 00 0001 00000012", refused(20, 0));
  check(DAY_CHECK, "01 01 00000000 00000000 02 00 0002 00000002", refused(21, 1));
  check(DAY_CHECK, "01 02 00000000 00000001 02 00 0002 00000002", refused(22, 1));
  check(DAY_CHECK, "01 01 0000 0000 01 00 0002 00000002", refused(21, 1));
  check(DAY_CHECK, "01 02 0000 0001 01 00 0002 00000002", refused(22, 1));
  check(DAY_CHECK, repeated("", "00", 65527, EMPTY_DAY), refused(20, 0));
  check(DAY_CHECK, repeated("", "00", 65528, EMPTY_DAY), refused(20, 0));
  check(DAY_CHECK, repeated("", "00", 1048568, EMPTY_DAY_2), refused(20, 0));
  check(DAY_CHECK, repeated("", "00", 1048569, EMPTY_DAY_2), refused(20, 0));
  /* A message past the limits of version 1, and one at those of version 2. */
  check(DAY_CHECK, repeated("01 82 14 81 59 0ffa", "00", 4090, "0000 01 00 0001 00001001"), refused(22, 0));
  check(DAY_CHECK, repeated("01 82 14 81 59 3ff9", "00", 16377, "00000000 02 00 0001 00004000"), 1);
  with_day(DAY_FIND, DAY, "", 0, ":", ":", items(18), "");
  with_day(DAY_FIND, DAY, "", 1, ":", ":", items(16) | 18, "");
  with_day(DAY_FIND, DAY, "", 2, ":", ":", refused(17, 2), "");
  with_day(DAY_FIND, EMPTY_DAY, "", UINT64_MAX, ":", ":", refused(17, 0), "");
  with_day(DAY_ADD, EMPTY_DAY, C, 0, ":", ":", items(1) | 28, C "0000 01 00 0001 00000012");
  with_day(DAY_ADD, C "0000 01 00 0001 00000012", NAMED, 0, ":", ":", items(2) | 46, DAY);
  with_day(DAY_FIND, DAY_2, "", 1, ":", ":", items(16) | 18, "");
  with_day(DAY_FIND, DAY_2, "", 2, ":", ":", refused(17, 2), "");
  with_day(DAY_ADD, EMPTY_DAY_2, C, 0, ":", ":", items(1) | 30, C "00000000 02 00 0001 00000012");
  with_day(DAY_ADD, C "00000000 02 00 0001 00000012", NAMED, 0, ":", ":", items(2) | 50, DAY_2);
  with_day(DAY_ADD, DAY_2, "02", 0, ":", ":", refused(8, 0), "");
  with_day(DAY_ADD, DAY, repeated("01 82 14 81 59 0ffa", "00", 4090, ""), 0, ":", ":", refused(1, 0), "");
  with_day(DAY_UPGRADE, EMPTY_DAY, "", 0, ":", ":", 8, EMPTY_DAY_2);
  with_day(DAY_UPGRADE, DAY, "", 0, ":", ":", items(2) | 50, DAY_2);
  with_day(DAY_UPGRADE, DAY_2, "", 0, ":", ":", refused(20, 0), "");
  with_day(DAY_UPGRADE, "01 01 0000 0000 01 00 0002 00000002", "", 0, ":", ":", refused(21, 1), "");
  with_day(DAY_UPGRADE, "01 02 0000 0001 01 00 0002 00000002", "", 0, ":", ":", refused(22, 1), "");
  with_day(DAY_ADD, DAY, "02", 0, ":", ":", refused(8, 0), "");
  with_day(DAY_ADD, DAY "00", "02", 0, ":", ":", refused(20, 0), "");
  with_day(DAY_SEARCH, DAY, "", 65536, ":a=65536\n", ":!a=-20\n", 2,
           "0000000000000000 0000000000000005 0000000000000012"
           "0000000000000001 0000000000000017 000000000000001c");
  with_day(DAY_SEARCH, DAY, "", (uint64_t)-20, ":a=65536\n", ":!a=-20\n", 2,
           "0000000000000000 000000000000000e 0000000000000012"
           "0000000000000001 000000000000001c 0000000000000022");
  with_day(DAY_SEARCH, DAY_2, "", 65536, ":a=65536\n", ":!a=-20\n", 2,
           "0000000000000000 0000000000000005 0000000000000012"
           "0000000000000001 0000000000000017 000000000000001c");
  with_day(DAY_SEARCH, DAY, "", 1, ":a=65536\n", ":", 0, "");
  with_day(DAY_SEARCH, DAY, "", 65536, ":a=65536\n", ":!a", refused(19, 8), "");
  with_day(DAY_SEARCH, "02", "", 65536, ":a", ":", refused(20, 0), "");
  with_day(NAME, ":a", "", 65536, ":b=1\na=x\na=65536\na=1\n", ":a=2\n", 1, "");
  with_day(NAME, ":!a", "", (uint64_t)-20, ":!a=1\n", ":!a=-20\n", 1, "");
  with_day(NAME, ":!b", "", 0, ":!b=1\n", ":!a=-20\n", 0, "");
  with_day(NAME, ":", "", 0, ":=1\n", ":", 0, "");
  with_day(NAME, ":A-z", "", 65536, ":a\rz=1\na-Z=65536\nA-z=1\n", ":a-z=2\n", 1, "");
  with_day(NAME, ":!B_", "", (uint64_t)-20, ":!B_=1\n", ":!b\x7f=1\n!b_=-20\n", 1, "");
  with_day(WHY, C, ROW_65536, 7, "", "", held(SURFBODKIN_NOT_GRANTED, 5, 1), CHAIN_C);
  with_day(WHY, C, ROW_65536 ROW_20, 7, "", "", 0, "");
  with_day(WHY, NAMED, "", 7, "", "", held(SURFBODKIN_NAME_UNKNOWN, 3, 0), CHAIN_NAMED);
  with_day(WHY, NAMED, "", 7, "61 3d 37 0a", "", held(SURFBODKIN_NOT_GRANTED, 3, 0), CHAIN_NAMED);
  with_day(WHY, KEYED, ROW_0, 7, "", "", held(SURFBODKIN_NOT_GRANTED, 5, 1), CHAIN_KEYED);
  with_day(WHY, "02", ROW_0, 7, "", "", refused(8, 0), "");
  const char *most_items = repeated("01 82 15 83 f6 00 99 0ff6 00 83 f6 20 00", "f7", 4084, "");
  check(MESSAGE, most_items, items(4096));
  write_out(LIST, most_items, 4096, 1, "0000000a 0000000e 0000000000000002 0000000000000000");
  with_table(RELEASE, most_items, "", 7, refused(SURFBODKIN_HELD, 0));
  const char *longest = repeated(most_items, "", 0, "00000000 02 00 0001 00001002");
  with_day(DAY_SEARCH, longest, "", 0, ":", ":", 0, "");
  with_day(WHY, most_items, "", 7, "", "", held(SURFBODKIN_NO_NAMESPACE, 4, 0),
           LINK("00000001", "00001002", "00") LINK("00000003", "00001002", "01")
           LINK("00000006", "00001002", "06") LINK("0000000a", "0000000e", "07"));
  with_day(WHY, C, "00", 7, "61", "", refused(19, 0), "");
  with_day(WHY, C, "00", 7, "", "", refused(18, 0), "");

  pair("00", "1b 0000000000000000", 1);
  pair("01", "21", 0);
  pair("6161", "6141", 0);
  pair("81 622161", "9801 7802 2141", 1);
  pair("81 622161", "81 6161", 0);
  pair("83 64 42756f79 64 4354524c 6178", "9803 7804 62756f79 64 6374726c 6158", 1);
  pair("84 6161 6162 6163 82 81 6164 82 0e 6165", "84 6141 6142 6143 82 81 6144 82 0e 6165", 1);
  pair("84 6161 6162 6163 82 81 6164 82 0e 6165", "84 6161 6162 6163 82 81 6164 82 0e 6145", 0);
  pair("82 12 a1 6161 00", "82 12 a1 6141 00", 0);
  pair("82 15 83 f6 00 83 00 83 6161 20 00 6162", "82 15 83 f6 00 83 00 83 6141 20 00 6162", 1);
  pair("82 15 83 f6 00 83 00 83 6161 20 00 6162", "82 15 83 f6 00 83 00 83 6161 20 00 6142", 0);
  pair("", "00", refused(2, 0));
  pair("82 05 0a 00", "82 05 0a", refused(13, 3));
  pair("8212a202000100", "00", refused(11, 5));
  pair("81 6140", "81 6141", refused(10, 1));
  with_table(SAME, "81 6140", "82 05 0a 00", 0, refused(10, 1));
  with_table(SAME, "82 05 0a 00", "81 6140", 0, refused(13, 3));
  pair(repeated("59 3ffd", "ff", 16381, ""), repeated("59 3ffd", "ff", 16381, ""), 1);
  pair(repeated("79 3ffd", "61", 16381, ""), repeated("79 3ffd", "61", 16380, "41"), 0);
  pair(repeated("59 3ffe", "ff", 16382, ""), "00", refused(1, 0));

  with_day(COMPARE, C, C, 0, "", "", 1, ALIKE);
  with_day(COMPARE, "01", "01 82 14 81 f6", 0, "", "", 0, "");
  with_day(COMPARE, C, "01", 0, "", "", (uint64_t)1 << 32 | 1, ONLY_FIRST);
  with_day(COMPARE, C, ORDER, 0, "", "", (uint64_t)2 << 32 | 2, CHANGED("05", "05") ONLY_SECOND);
  with_day(COMPARE, NAMED, "01 82 14 82 00 9803 6141 20 1800 82 14 82 f6 83 622141 20 00", 0, "", "", 2,
           ALIKE ALIKE);
  with_day(COMPARE, C, "01 82 14 81 f6 82 14 82 f6 84 1a00010000 22 00 81 83 33 2a 06", 0, "", "",
           (uint64_t)1 << 32 | 1, CHANGED("0d", "11"));
  with_day(COMPARE, "01 82 14 82 f6 84 f6 20 00 81 82 0e 6161", "01 82 14 82 f6 84 f6 20 00 81 82 0e 6141",
           0, "", "", (uint64_t)1 << 32 | 1, CHANGED("0c", "0c"));
  with_day(COMPARE, "01 82 15 83 f6 00 83 00 83 00 20 00 00", "01 82 14 82 f6 83 00 20 00", 0, "", "",
           (uint64_t)1 << 32 | 1, CHANGED("08", "07"));
  with_day(COMPARE, "02", "01 82", 0, "", "", refused(8, 0), "");
  with_day(COMPARE, "01 82", "02", 0, "", "", refused(2, 2), "");
  with_day(COMPARE, C, "01 82 14 80", 0, "", "", refused(7, 3), "");
  const char *most_targets = repeated("01 82 14 99 03ff f6", "83 f6 20 00", 1022, "");
  compare_long(most_targets, most_targets, 1022, repeated("", ALIKE, 1022, ""));
  compare_long(most_targets, C, (uint64_t)1022 << 32 | 1022,
               repeated(CHANGED("05", "05"), ONLY_FIRST, 1021, ""));
  compare_long(most_items, most_items, 1, ALIKE);
  compare_long("01", most_targets, (uint64_t)1022 << 32 | 1022, repeated("", ONLY_SECOND, 1022, ""));

  with_day(STRIKE, C, "", 0, "", "", items(5) | 5, "01 82 14 81 f6");
  with_day(STRIKE, C, "", 1, "", "", refused(27, 1), "");
  with_day(STRIKE, C, "", (uint64_t)1 << 32, "", "", refused(27, 1), "");
  with_day(STRIKE, C, "", UINT64_MAX, "", "", refused(27, 1), "");
  with_day(STRIKE, ORDER, "", 0, "", "", items(9) | 16, "01 82 14 82 1904d2 83 1a00010000 21 182b");
  with_day(STRIKE, ORDER, "", 1, "", "", items(9) | 15, "01 82 14 82 1904d2 83 1a00010000 22 12");
  with_day(STRIKE, "01 82 15 9803 f6 00 82 00 83 6161 20 00 8214 9b0000000000000002 1800 83 6162 20 00", "", 1,
           "", "", items(16) | 19, "01 82 15 9803 f6 00 82 00 83 6161 20 00 8214 81 1800");
  with_day(STRIKE, "01 82 15 9803 f6 00 82 00 83 6161 20 00 8214 9b0000000000000002 1800 83 6162 20 00", "", 0,
           "", "", items(14) | 24, "01 82 15 82 f6 00 8214 9b0000000000000002 1800 83 6162 20 00");
  with_day(STRIKE, repeated("01 82 14 9818 f6", "83 f6 20 00", 23, ""), "", 22, "", "", items(93) | 93,
           repeated("01 82 14 97 f6", "83 f6 20 00", 22, ""));
  with_day(STRIKE, "01", "", 0, "", "", refused(27, 0), "");
  with_day(STRIKE, "02", "", 0, "", "", refused(8, 0), "");
  with_day(STRIKE, "01 82 14 83 f6 83 f6 20 00 83 f6 20", "", 0, "", "", refused(2, 12), "");
  strike_long(most_targets, 0, items(4089) | 4091, repeated("01 82 14 99 03fe f6", "83 f6 20 00", 1021, ""));
  strike_long(most_targets, 1021, items(4089) | 4091, repeated("01 82 14 99 03fe f6", "83 f6 20 00", 1021, ""));
  strike_long(repeated("01 82 14 83 f6 83 f6 20 00 84 f6 20 00 81 59 3fef", "ff", 16367, ""), 0, items(11) | 16380,
              repeated("01 82 14 82 f6 84 f6 20 00 81 59 3fef", "ff", 16367, ""));
  strike_long(repeated("01 82 14 83 f6 83 f6 20 00 84 f6 20 00 81 59 3ff0", "ff", 16368, ""), 0, refused(1, 0), "");

  printf("guards: %lu calls, all as the header says\n", calls_made);
  return 0;
}

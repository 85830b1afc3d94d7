/* Calls the composer from C, with each buffer lent in every way of lent.h, the nonce and the
   texts at each of their lengths, in every room up to some past the need. After each call what
   was lent has to be as the header says. Linked with the composer's archive alone. */
#define PROGRAM "orders"
#include "lent.h"
#include "../../host/composer.h"

static unsigned long calls_made;

struct order {
  uint64_t kind, number;
  struct bytes nonce, texts;
};

enum { NOTHING = 0, NUMBER = 1, BYTES = 2, OUT = SURFBODKIN_BYTES + 64 };

/* Makes a call in one way. `out` is what the front of the room has to hold after an acceptance;
   if it is NULL the answer's bytes are not judged. */
static uint64_t make(const struct order *order, size_t room, enum way way, const uint8_t *out) {
  static uint8_t content[OUT];
  for (size_t k = 0; k < room; k++) content[k] = room_byte(k);
  struct lent nonce = lend(order->nonce, way, 0), texts = lend(order->texts, way, 0);
  struct lent answer_room = lend((struct bytes){content, room}, way, 1);
  uint64_t answer = composer_compose(order->kind, order->number, nonce.lent.at, nonce.lent.length,
                                     texts.lent.at, texts.lent.length, answer_room.lent.at, room);
  calls_made++;
  size_t written = surfbodkin_number(answer) == SURFBODKIN_ACCEPTED ? surfbodkin_low(answer) : 0;
  if (written > room) fail("says that it wrote more than there was room for");
  if (written > 0) memcpy(content, out != NULL ? out : answer_room.lent.at, written);
  take_back(nonce, order->nonce.at, "the nonce");
  take_back(texts, order->texts.at, "the texts");
  take_back(answer_room, content, "the room");
  return answer;
}

static void name(const struct order *order, const char *texts, size_t room) {
  snprintf(current, sizeof current, "nonce %" PRIu64 " %" PRIu64 " of %zu, texts %.120s, room %zu",
           order->kind, order->number, order->nonce.length, texts, room);
}

static void expect(const struct order *order, const char *texts, size_t room, uint64_t answer,
                   const uint8_t *out) {
  name(order, texts, room);
  for (int way = 0; way < WAYS; way++) {
    uint64_t given = make(order, room, (enum way)way, out);
    if (given != answer) {
      char words[96];
      snprintf(words, sizeof words, "answered %016" PRIx64 " for %016" PRIx64, given, answer);
      fail(words);
    }
  }
}

/* The nonce and the texts at each of their lengths, with whatever answer, the same in all ways. */
static void cut(struct order order, const char *texts) {
  struct bytes *const inputs[] = {&order.nonce, &order.texts};
  for (int k = 0; k < 2; k++) {
    size_t whole = inputs[k]->length;
    for (size_t length = 0; length < whole && whole < 200; length++) {
      inputs[k]->length = length;
      name(&order, texts, 100);
      uint64_t answer = make(&order, 100, GUARDED, NULL);
      for (int way = 1; way < WAYS; way++) {
        if (make(&order, 100, (enum way)way, NULL) != answer) fail("answers otherwise for other memory");
      }
    }
    inputs[k]->length = whole;
  }
}

static void compose(uint64_t kind, uint64_t number, const char *nonce, const char *texts,
                    uint64_t items, const char *message) {
  struct order order = {kind, number, bytes(nonce), bytes(texts)};
  struct bytes due = bytes(message);
  size_t most = due.length + 30;
  for (size_t room = 0; room <= most; room += room < due.length && most > 400 ? 1 + most / 60 : 1) {
    uint64_t answer = room < due.length ? refused(SURFBODKIN_ROOM, due.length) : items << 32 | due.length;
    expect(&order, texts, room, answer, due.at);
  }
  cut(order, texts);
  free(order.nonce.at);
  free(order.texts.at);
  free(due.at);
}

/* A refusal, in no room and in some. */
static void refuse(uint64_t kind, uint64_t number, const char *nonce, const char *texts,
                   unsigned test, uint64_t place) {
  struct order order = {kind, number, bytes(nonce), bytes(texts)};
  for (size_t room = 0; room <= 100; room += 50) {
    expect(&order, texts, room, refused(test, place), NULL);
  }
  cut(order, texts);
  free(order.nonce.at);
  free(order.texts.at);
}

/* A text or hex with one part repeated, kept until the end. */
static const char *repeated(const char *before, const char *part, int times, const char *after) {
  char *words = malloc(strlen(before) + strlen(part) * (size_t)times + strlen(after) + 1);
  if (words == NULL) fail("no memory");
  strcpy(words, before);
  char *end = words + strlen(before);
  for (int k = 0; k < times; k++, end += strlen(part)) strcpy(end, part);
  strcpy(end, after);
  return words;
}

int main(void) {
  signal(SIGSEGV, on_fault);
  signal(SIGBUS, on_fault);

  compose(NOTHING, 0, "", ":ari://65536/-3/0(//-20/-11/5)\n", 14, "01 82 14 82 f6 84 1a00010000 22 00 81 83 33 2a 05");
  compose(NUMBER, 1234, "", ":ari://65536/-3/18\nari://65536/-2/43\n", 13,
          "01 82 14 83 1904d2 83 1a00010000 22 12 83 1a00010000 21 182b");
  compose(NOTHING, UINT64_MAX, "ff", ":", 5, "01 82 14 81 f6");
  compose(NUMBER, INT64_MAX, "ff", ":", 5, "01 82 14 81 1b 7fffffffffffffff");
  compose(BYTES, UINT64_MAX, "", ":", 5, "01 82 14 81 40");
  compose(BYTES, 0, "00 f6 ff", ":./-2/30\nari://!a/B/c(1=/LABEL/d,%22%C3%BC%22=h%2700%27)\n", 20,
          "01 82 14 83 43 00f6ff 83 f6 21 181e 84 622161 6142 6163 a2 01 82 0e 6164 62c3bc 4100");
  compose(BYTES, 0, repeated("", "5a", 16377, ""), ":", 5, repeated("01 82 14 81 59 3ff9", "5a", 16377, ""));
  compose(NOTHING, 0, "", repeated(":", "./-1/0\n", 1021, "./-1/0(0,0)\n"), 4096,
          repeated("01 82 14 99 03ff f6", "83 f6 20 00", 1021, "84 f6 20 00 82 00 00"));
  compose(NOTHING, 0, "", repeated(repeated(":", "./-1/0(", 11, "0"), ")", 11, "\n"), 61,
          repeated("01 82 14 82 f6", "84 f6 20 00 81", 11, "00"));

  refuse(NUMBER, (uint64_t)INT64_MAX + 1, "", ":x", 7, 0);
  refuse(NUMBER, UINT64_MAX, "", ":", 7, 0);
  refuse(3, 0, "", ":", 7, 0);
  refuse(UINT64_MAX, 0, "", ":x", 7, 0);
  refuse(NOTHING, 0, "", ":\n", 24, 0);
  refuse(NOTHING, 0, "", ":./-1/0", 24, 0);
  refuse(NOTHING, 0, "", ":./-1/0\n./-1/0\r\n./-1/0\n", 24, 1);
  refuse(NOTHING, 0, "", ":./-1/0\nari://a/\nx", 24, 1);
  refuse(NOTHING, 0, "", ":./-1/0\n./-1/0\nari:./-1/0\n", 24, 2);
  refuse(NOTHING, 0, "", ":ari:/UINT/10\n", 24, 0);
  refuse(NOTHING, 0, "", repeated(":./-1/0\n", "0", 131072, "\n"), 24, 1);
  refuse(NOTHING, 0, "", repeated(":./-1/0\n", "0", 131073, "\n"), 24, 1);
  refuse(BYTES, 0, repeated("", "5a", 16378, ""), repeated(":", "./-1/0\n", 1023, "x"), 24, 1023);
  refuse(BYTES, 0, repeated("", "5a", 16378, ""), ":", 1, 0);
  refuse(BYTES, 0, repeated("", "5a", 16378, ""), repeated(":", "./-1/0\n", 1023, ""), 1, 0);
  refuse(BYTES, 0, repeated("", "5a", 100000, ""), ":./-1/0\n", 1, 0);
  refuse(NOTHING, 0, "", repeated(":", "./-1/0\n", 20000, ""), 1, 0);
  refuse(NOTHING, 0, "", repeated(":", "./-1/0\n", 1023, ""), 5, 0);
  refuse(NOTHING, 0, "", repeated(repeated(":", "./-1/0(", 11, "//a/"), ")", 11, "\n"), 6, 0);
  refuse(NOTHING, 0, "", repeated(repeated(":", "./-1/0(", 12, "//a/"), ")", 12, "\n"), 24, 0);

  printf("orders: %lu calls, all as the header says\n", calls_made);
  return 0;
}

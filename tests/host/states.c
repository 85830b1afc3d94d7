/* Gives the stream states that no stream left behind: whatever the words of a state
   and the bytes of the message's room are, its calls touch nothing but what is lent,
   and after an open the next message is answered as any other. And too short a state or
   room: each is refused, and nothing changes.

     states [COUNT]     COUNT states (10,000) */
#define PROGRAM "states"
#include "lent.h"

enum {
  WORDS = SURFBODKIN_STREAM_WORDS,
  BYTES = SURFBODKIN_BYTES,
  MORE_WORDS = WORDS + 5,
  MORE_BYTES = BYTES + 70,
  FRAGMENT = BYTES + 300,
  OUT = SURFBODKIN_ENTRIES * SURFBODKIN_ENTRY + 30
};

static unsigned long calls_made;

/* SplitMix64. */
static uint64_t seed;
static uint64_t random_word(void) {
  uint64_t z = seed += 0x9e3779b97f4a7c15;
  z = (z ^ z >> 30) * 0xbf58476d1ce4e5b9;
  z = (z ^ z >> 27) * 0x94d049bb133111eb;
  return z ^ z >> 31;
}
static size_t below(size_t bound) { return (size_t)(random_word() >> 32) % bound; }

static void random_bytes(uint8_t *at, size_t length) {
  for (size_t k = 0; k < length; k++) at[k] = (uint8_t)random_word();
}

/* Heads that open, go on or wait for more, so that a reading gets somewhere. */
static void random_heads(uint8_t *at, size_t length) {
  static const uint8_t heads[] = {0x00, 0x01, 0x11, 0x12, 0x14, 0x15, 0x18, 0x19, 0x1b, 0x20,
                                  0x38, 0x41, 0x58, 0x59, 0x5b, 0x61, 0x78, 0x7b, 0x80, 0x81,
                                  0x82, 0x83, 0x84, 0x9b, 0xa1, 0xa2, 0xbb, 0xf6, 0xf9, 0xfb};
  for (size_t k = 0; k < length; k++) at[k] = heads[below(sizeof heads)];
}

/* What a stream is lent. */
struct stream {
  uint64_t state[MORE_WORDS];
  size_t words;
  uint8_t message[MORE_BYTES];
  size_t room;
};

static uint8_t *bytes_of(uint64_t *words) { return (uint8_t *)(void *)words; }
static uint64_t *words_of(uint8_t *bytes) { return (uint64_t *)(void *)bytes; }

enum call { OPEN, FEED, CLOSE };
static const struct bytes NOTHING = {NULL, 0};

/* Makes a call with everything lent in some way; `other` is a feed's fragment or a
   close's out. Whatever the state, what is not the call's to write has to stay: the
   fragment; in a close the message, and of `out` what the answer doesn't reach; what is
   lent beyond the sizes of the header; and everything if less is lent. */
static uint64_t make(struct stream *s, enum call call, struct bytes other) {
  static const char *const names[] = {"open", "feed, fragment", "close, out"};
  static struct stream before;
  static uint8_t written[OUT];
  uint64_t answer = 0;
  snprintf(current, sizeof current, "%s %zu, %zu words, room %zu, state %016" PRIx64 " ..",
           names[call], other.length, s->words, s->room, s->state[0]);
  before = *s;
  struct lent state = lend((struct bytes){bytes_of(s->state), 8 * s->words}, below(WAYS), 1);
  struct lent message = lend((struct bytes){s->message, s->room}, below(WAYS), call == FEED);
  struct lent lent = lend(other, below(WAYS), call == CLOSE);
  uint64_t *words = words_of(state.lent.at);
  switch (call) {
    case OPEN: answer = surfbodkin_stream_open(words, s->words); break;
    case FEED:
      answer = surfbodkin_stream_feed(words, s->words, message.lent.at, s->room, lent.lent.at,
                                      other.length);
      break;
    case CLOSE:
      answer = surfbodkin_stream_close(words, s->words, message.lent.at, s->room, lent.lent.at,
                                       other.length);
      break;
  }
  calls_made++;
  take_back_changed(state, bytes_of(s->state), "the state");
  take_back_changed(message, s->message, "the message");
  if (call == CLOSE) {
    take_back_changed(lent, written, "out");
    size_t reach = surfbodkin_low(answer) * (size_t)SURFBODKIN_ENTRY;
    if (surfbodkin_number(answer) != SURFBODKIN_ACCEPTED) reach = 0;
    for (size_t k = reach; k < other.length; k++) {
      if (written[k] != other.at[k]) fail("wrote to out what is not the answer");
    }
  } else {
    take_back(lent, other.at, "the fragment");
  }
  int short_of = s->words < WORDS || (call != OPEN && s->room < BYTES);
  for (size_t k = short_of ? 0 : WORDS; k < s->words; k++) {
    if (s->state[k] != before.state[k]) fail("changed words that are not the call's");
  }
  for (size_t k = short_of || call != FEED ? 0 : BYTES; k < s->room; k++) {
    if (s->message[k] != before.message[k]) fail("changed bytes that are not the call's");
  }
  return answer;
}

static void expect(uint64_t answer, uint64_t given) {
  char words[96];
  snprintf(words, sizeof words, "answered %016" PRIx64 " for %016" PRIx64, given, answer);
  if (given != answer) fail(words);
}

/* Messages with all that a state may have to keep: references, parameters as a list and
   as a map, keys, strings that take long, as many containers as may be. */
static const char *const MESSAGES[] = {
    "01 82 14 82 f6 84 1a00010000 22 00 81 83 33 2a 05",
    "01 82 15 83 42 aabb 1a2b450625 85 00 84 f6 20 00 a3 00 f6 20 82 12 a1 61 61 f7 62 c3bc 42 "
    "00ff 78 1a 6162636465666768696a6b6c6d6e6f707172737475767778797a 82 11 82 81 05 fb "
    "3ff199999999999a 83 65 216f646d31 61 62 61 63",
    "01 82 14 82 f6 84 f6 20 00 81 82 11 81 82 11 81 82 11 81 82 11 81 82 11 81 82 11 81 82 11 81 "
    "82 11 81 82 11 81 82 11 81 00 82 14 81 58 40 00",
    "01 82 14 81 59 3ff9 00"};
enum { KINDS = sizeof MESSAGES / sizeof *MESSAGES };

/* A stream that is amid a message. */
static void begin(struct stream *s) {
  struct bytes message = bytes(MESSAGES[below(KINDS)]);
  struct bytes fragment = {message.at, below(message.length + 1)};
  memset(s->state, 0, 8 * WORDS);
  while (fragment.length > 0) {
    size_t piece = 1 + below(fragment.length);
    struct bytes part = {fragment.at, piece};
    expect(0, make(s, FEED, part));
    fragment.at += piece;
    fragment.length -= piece;
  }
  free(message.at);
}

static uint64_t edge_word(void) {
  static const uint64_t edges[] = {0,  1,   2,   11,   12,   13,  23,
                                   24, 25, 255, 256, 4095, 4096, 4097};
  switch (below(6)) {
    case 0: return edges[below(sizeof edges / sizeof *edges)];
    case 1: return BYTES - 2 + below(5);
    case 2: return ((uint64_t)1 << below(64)) - below(3);
    case 3: return UINT64_MAX - below(3);
    case 4: return below(100);
    default: return random_word();
  }
}

static void any_state(struct stream *s) {
  s->words = below(4) > 0 ? WORDS : WORDS + below(MORE_WORDS - WORDS + 1);
  s->room = below(4) > 0 ? BYTES : BYTES + below(MORE_BYTES - BYTES + 1);
  for (size_t k = 0; k < MORE_WORDS; k++) s->state[k] = random_word();
  (below(2) == 0 ? random_bytes : random_heads)(s->message, MORE_BYTES);
  size_t kind = below(8);
  switch (kind) {
    case 0: break;
    case 1:
      for (size_t k = 0; k < WORDS; k++) s->state[k] = below(100);
      break;
    case 2:
      for (size_t k = 0; k < WORDS; k++) s->state[k] = edge_word();
      break;
    case 3: memset(s->state, 0xff, 8 * WORDS); break;
    case 4:
      memset(s->state, 0, 8 * WORDS);
      s->state[below(WORDS)] = edge_word();
      break;
    default: /* one that was left amid a message, with a word or a byte damaged */
      begin(s);
      uint64_t *word = &s->state[below(below(2) == 0 ? WORDS : 8)];
      if (kind == 5) *word = edge_word();
      if (kind == 6) *word += below(2) == 0 ? 1 : UINT64_MAX;
      if (kind == 7) s->message[below(100)] ^= (uint8_t)(1 + below(255));
  }
}

/* What is fed: something short most often, now and then past the limit. */
static struct bytes any_fragment(unsigned long k) {
  static uint8_t content[FRAGMENT];
  size_t length = k % 8 == 0 ? below(FRAGMENT + 1) : k % 301;
  (below(2) == 0 ? random_bytes : random_heads)(content, length);
  return (struct bytes){content, length};
}

static struct bytes any_out(unsigned long k) {
  static uint8_t content[OUT];
  size_t length = k % 4 == 0 ? below(OUT + 1) : k % 101;
  for (size_t byte = 0; byte < length; byte++) content[byte] = room_byte(byte);
  return (struct bytes){content, length};
}

/* After an open a stream is like any other. */
static void reopen(struct stream *s) {
  uint8_t content[2 * SURFBODKIN_ENTRY] = {0};
  struct bytes message = bytes(MESSAGES[0]), out = {content, sizeof content};
  expect(0, make(s, OPEN, NOTHING));
  for (size_t k = 0; k < message.length; k += 6) {
    struct bytes fragment = {message.at + k, 6};
    expect(0, make(s, FEED, fragment));
  }
  if (memcmp(s->message, message.at, message.length) != 0) fail("the message is not there");
  expect((uint64_t)14 << 32 | 2, make(s, CLOSE, out));
  expect(refused(SURFBODKIN_CUT, 0), make(s, CLOSE, out));
  free(message.at);
}

/* Every state that is too short, and rooms of lengths up to the last but one, with
   whatever state and all else of any length. */
static void too_short(struct stream *s) {
  for (size_t k = 0; k < WORDS + BYTES; k += k < WORDS + 64 || k >= WORDS + BYTES - 64 ? 1 : 7) {
    any_state(s);
    struct bytes fragment = any_fragment(k), out = any_out(k);
    uint64_t need = k < WORDS ? 8 * WORDS : BYTES;
    if (k < WORDS) {
      s->words = k;
      if (below(2) == 0) s->room = below(BYTES);
      expect(refused(SURFBODKIN_ROOM, need), make(s, OPEN, NOTHING));
    } else {
      s->room = k - WORDS;
    }
    expect(refused(SURFBODKIN_ROOM, need), make(s, FEED, fragment));
    expect(refused(SURFBODKIN_ROOM, need), make(s, CLOSE, out));
  }
}

int main(int count, char **words) {
  static struct stream s;
  unsigned long states = count > 1 ? strtoul(words[1], NULL, 10) : 10000;
  signal(SIGSEGV, on_fault);
  signal(SIGBUS, on_fault);
  too_short(&s);
  for (unsigned long k = 0; k < states; k++) {
    seed = k; /* so that each can be made again alone */
    any_state(&s);
    for (size_t calls = 1 + below(5); calls > 0; calls--) {
      struct bytes fragment = any_fragment(k * 7 + calls), out = any_out(k * 7 + calls);
      if (below(3) > 0) {
        make(&s, FEED, fragment);
      } else {
        make(&s, CLOSE, out);
      }
    }
    reopen(&s);
  }
  printf("states: %lu states, %lu calls, nothing else was touched\n", states, calls_made);
  return 0;
}

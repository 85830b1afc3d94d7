/* The relay's host program, as an example: may this message go to this subscriber?

     relay TABLE SUBSCRIBER [MESSAGE [PUBLISHED [OWN [DAY]]]]

   TABLE is a file of grant rows, 16 bytes each: subscriber and namespace, both
   big-endian, 8 bytes. SUBSCRIBER is a number. MESSAGE is a file, a link's device or
   a pipe with one message; standard input if it is missing or `-`. PUBLISHED and OWN
   are files of names, a line `NAME=NUMBER` each: the published ones and the
   subscriber's own; a list that is missing is empty. The message is taken in the
   pieces that come, and refused as soon as nothing can mend it, without waiting for
   its end. The table, the lists and the message are checked, the message's references
   listed, and it is said whether they are all granted, and if not where the first that
   is not stands. DAY is a day file, to which what
   is released is added; a missing one is made. /dev/null serves as an empty list.

   A message is said to be released only when it stands in the day file: whoever reads
   `yes` sends it on, and what was sent has to be in the file, also if the power goes
   between the two. If it can't be added it is not released: 3. The other way round a
   message may stand in the file whose `yes` nobody has read; it was granted, and its
   sender asks again.

   Exit status: 0 released, 1 held back, 2 the table, a list or the message was
   refused, 3 anything else went wrong. */
#define _POSIX_C_SOURCE 200809L
#include <errno.h>
#include <fcntl.h>
#include <inttypes.h>
#include <stdarg.h>
#include <stdio.h>
#include <stdlib.h>
#include <string.h>
#include <unistd.h>

#include "day_file.h"
#include "surfbodkin.h"

enum { RELEASED, HELD_BACK, REFUSED, FAILED };

static void fail(const char *format, ...) {
  va_list arguments;
  va_start(arguments, format);
  fputs("relay: ", stderr);
  vfprintf(stderr, format, arguments);
  fputc('\n', stderr);
  va_end(arguments);
  exit(FAILED);
}

struct bytes {
  uint8_t *at;
  size_t length;
};

static struct bytes read_file(const char *name) {
  struct bytes bytes = {NULL, 0};
  size_t room = 0, got = 1;
  FILE *file = fopen(name, "rb");
  if (file == NULL) fail("cannot open %s: %s", name, strerror(errno));
  while (got > 0) {
    if (bytes.length == room) {
      room = room == 0 ? 256 * SURFBODKIN_ROW : 2 * room;
      bytes.at = realloc(bytes.at, room);
      if (bytes.at == NULL) fail("no memory for %s", name);
    }
    got = fread(bytes.at + bytes.length, 1, room - bytes.length, file);
    bytes.length += got;
  }
  if (ferror(file)) fail("cannot read %s: %s", name, strerror(errno));
  fclose(file);
  return bytes;
}

static int open_message(const char *name) {
  if (strcmp(name, "-") == 0) return STDIN_FILENO;
  int from = open(name, O_RDONLY);
  if (from < 0) fail("cannot open %s: %s", name, strerror(errno));
  return from;
}

/* The message that is coming: room for its bytes, and how many have come. */
static uint8_t message[SURFBODKIN_BYTES];
static size_t message_length;
static uint8_t listing[SURFBODKIN_ENTRIES * SURFBODKIN_ENTRY];

/* Feeds what each read gives, up to the message's end or the first refusal, and
   answers that or what the close says; an accepted message's references are then in
   `listing`. */
static uint64_t take_message(int from, const char *name) {
  static uint64_t state[SURFBODKIN_STREAM_WORDS]; /* all zeros: fresh */
  uint8_t fragment[512];
  for (;;) {
    ssize_t got = read(from, fragment, sizeof fragment);
    if (got < 0 && errno == EINTR) continue;
    if (got < 0) fail("cannot read %s: %s", name, strerror(errno));
    if (got == 0) break;
    uint64_t answer = surfbodkin_stream_feed(state, SURFBODKIN_STREAM_WORDS, message,
                                             sizeof message, fragment, (size_t)got);
    if (surfbodkin_number(answer) != SURFBODKIN_ACCEPTED) return answer;
    message_length += (size_t)got;
  }
  return surfbodkin_stream_close(state, SURFBODKIN_STREAM_WORDS, message, sizeof message,
                                 listing, sizeof listing);
}

static uint64_t subscriber_number(const char *word) {
  errno = 0;
  uint64_t number = strtoull(word, NULL, 10);
  if (*word == '\0' || word[strspn(word, "0123456789")] != '\0' || errno != 0) {
    fail("subscriber '%s' is no number from 0 to %" PRIu64, word, UINT64_MAX);
  }
  return number;
}

/* Why a message was refused. */
static const char *reason(unsigned number) {
  switch (number) {
    case SURFBODKIN_TOO_LONG: return "the message is too long";
    case SURFBODKIN_CUT: return "the message ends where an item is due";
    case SURFBODKIN_NOT_IN_USE: return "this kind of item is not in use";
    case SURFBODKIN_NOT_SHORTEST: return "the float is not in its shortest form";
    case SURFBODKIN_TOO_MANY_ITEMS: return "there are too many items";
    case SURFBODKIN_TOO_MANY_CONTAINERS: return "arrays and maps are nested too deep";
    case SURFBODKIN_NOT_ALLOWED: return "the item is not allowed here";
    case SURFBODKIN_VERSION: return "the version is not 1";
    case SURFBODKIN_SHORT_STRING: return "the string is cut short";
    case SURFBODKIN_SPELLING: return "the text or name is wrongly spelled";
    case SURFBODKIN_KEY_ORDER: return "the map's keys are out of order";
    case SURFBODKIN_EMPTY_PARAMETERS: return "the parameters are empty";
    default: return "for a reason that this program doesn't know";
  }
}

static int refuse_message(uint64_t answer) {
  unsigned number = surfbodkin_number(answer);
  printf("message: refused %u at byte %" PRIu64 ": %s\n", number,
         surfbodkin_place(answer), reason(number));
  return REFUSED;
}

static int refuse_table(uint64_t answer, size_t length) {
  printf("table: refused %u at row %" PRIu64 ": %s\n", surfbodkin_number(answer),
         surfbodkin_place(answer),
         length % SURFBODKIN_ROW != 0 ? "the row is cut short"
                                      : "the private namespace is another subscriber's");
  return REFUSED;
}

/* The file and the line of it that is wrong. */
static int refuse_names(uint64_t answer, struct bytes published, const char *const files[2],
                        struct bytes own) {
  uint64_t place = surfbodkin_place(answer);
  int second = place >= published.length;
  struct bytes list = second ? own : published;
  size_t first = second ? place - published.length : place, line = 1;
  for (size_t k = 0; k < first; k++) line += list.at[k] == '\n';
  printf("names: refused %u at byte %" PRIu64 ": %s: line %zu is not NAME=NUMBER and a line feed\n",
         surfbodkin_number(answer), place, files[second], line);
  return REFUSED;
}

static void print_entry(size_t k) {
  struct surfbodkin_entry entry = surfbodkin_get_entry(listing, k);
  printf("entry %zu: bytes %" PRIu32 " to %" PRIu32 ", ", k, entry.first, entry.after);
  if (entry.kind == SURFBODKIN_BY_NUMBER) {
    printf("namespace %" PRId64 "\n", entry.space);
  } else if (entry.kind == SURFBODKIN_BY_NAME) {
    size_t length;
    const uint8_t *name = surfbodkin_get_name(message, entry.space, &length);
    printf("namespace %.*s\n", (int)length, (const char *)name);
  } else {
    printf("relative\n");
  }
}

/* The chain that surfbodkin_why has put there. */
static uint8_t chain[SURFBODKIN_LINKS * SURFBODKIN_LINK];

static void print_why(uint64_t why) {
  static const char *const reasons[] = {"its namespace is not granted", "its name is in no list",
                                        "it is relative"};
  static const char *const meanings[] = {
      "set",    "typed value",   "target",      "parameters",       "parameter", "map value",
      "report", "report source", "report item", "collection member"};
  printf("reason: %s\n", reasons[surfbodkin_why_reason(why)]);
  for (unsigned k = 0; k < surfbodkin_why_links(why); k++) {
    struct surfbodkin_link link = surfbodkin_get_link(chain, k);
    printf("  in bytes %" PRIu32 " to %" PRIu32 ": %s", link.first, link.after,
           meanings[link.meaning]);
    if (link.meaning == SURFBODKIN_MAP_VALUE) printf(", key at byte %" PRIu64, link.key);
    printf("\n");
  }
}

/* Puts the released message into the day file. */
static void add_to_day(const char *day) {
  static char why[DAY_FILE_WHY];
  uint64_t answer;
  if (day_file_add(day, message, message_length, &answer, why) != 0) {
    fail("cannot add to the day file: %s", why);
  }
  switch (surfbodkin_number(answer)) {
    case SURFBODKIN_ACCEPTED: break;
    case SURFBODKIN_DAY_FULL:
      fail("cannot add to the day file: %s: it is full", day);
      break;
    case SURFBODKIN_TOO_LONG:
    case SURFBODKIN_TOO_MANY_ITEMS:
    case SURFBODKIN_TOO_MANY_CONTAINERS:
      /* It was accepted by itself: only version 1 keeps smaller limits. */
      fail("cannot add to the day file: %s: the message is too big for version 1", day);
      break;
    default:
      fail("cannot add to the day file: %s: it is refused, %u at %" PRIu64, day,
           surfbodkin_number(answer), surfbodkin_place(answer));
  }
  printf("day: added %" PRIu32 "\n", surfbodkin_count(answer) - 1);
}

static int relay(int count, char **words) {
  if (count < 3 || 7 < count) {
    fputs("usage: relay TABLE SUBSCRIBER [MESSAGE [PUBLISHED [OWN [DAY]]]]\n", stderr);
    return FAILED;
  }
  struct bytes table = read_file(words[1]), published = {NULL, 0}, own = {NULL, 0};
  uint64_t subscriber = subscriber_number(words[2]);
  const char *name = count > 3 ? words[3] : "-";
  const char *const files[2] = {count > 4 ? words[4] : "", count > 5 ? words[5] : ""};
  if (count > 4) published = read_file(words[4]);
  if (count > 5) own = read_file(words[5]);
  int from = open_message(name);

  /* Release itself doesn't ask whether the table passes its check: a table that
     doesn't must not be used at all. */
  uint64_t answer = surfbodkin_check_table(table.at, table.length);
  if (surfbodkin_number(answer) != SURFBODKIN_ACCEPTED) {
    return refuse_table(answer, table.length);
  }
  answer = surfbodkin_check_names(published.at, published.length, own.at, own.length);
  if (surfbodkin_number(answer) != SURFBODKIN_ACCEPTED) {
    return refuse_names(answer, published, files, own);
  }
  /* Nothing is printed before the message is there: if it can't be read, only that
     is said. */
  answer = take_message(from, name);
  printf("table: passes, rows %zu\n", table.length / SURFBODKIN_ROW);
  if (surfbodkin_number(answer) != SURFBODKIN_ACCEPTED) return refuse_message(answer);
  printf("message: accepted, items %" PRIu32 "\n", surfbodkin_count(answer));
  printf("listing: entries %" PRIu32 "\n", surfbodkin_low(answer));
  for (uint32_t k = 0; k < surfbodkin_low(answer); k++) print_entry(k);

  uint64_t compared = 0;
  answer = surfbodkin_release(message, message_length, table.at, table.length,
                              published.at, published.length, own.at, own.length,
                              subscriber, &compared);
  uint64_t why = 0;
  if (surfbodkin_number(answer) == SURFBODKIN_HELD) {
    why = surfbodkin_why(message, message_length, table.at, table.length, published.at,
                         published.length, own.at, own.length, subscriber, chain,
                         sizeof chain);
  }
  free(table.at);
  free(published.at);
  free(own.at);
  switch (surfbodkin_number(answer)) {
    case SURFBODKIN_ACCEPTED:
      if (count > 6) add_to_day(words[6]);
      printf("release to %" PRIu64 ": yes, rows compared %" PRIu64 "\n", subscriber,
             compared);
      return RELEASED;
    case SURFBODKIN_HELD:
      printf("release to %" PRIu64 ": no, entry %" PRIu64
             " is not granted, rows compared %" PRIu64 "\n",
             subscriber, surfbodkin_place(answer), compared);
      print_why(why);
      return HELD_BACK;
    default:
      return refuse_message(answer);
  }
}

int main(int count, char **words) {
  int status = relay(count, words);
  /* An answer that nobody can read is none. */
  if (fflush(stdout) != 0 || ferror(stdout)) fail("cannot write: %s", strerror(errno));
  return status;
}

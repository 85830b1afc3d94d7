/* `gate day`: one file of a day's released messages.

     day check FILE                                 passes MESSAGES
     day get FILE NUMBER                            that message's bytes
     day add FILE                                   added NUMBER
     day upgrade FILE                               upgraded MESSAGES
     day list FILE [PUBLISHED [OWN]]                a line for each reference
     day search FILE NAMESPACE [PUBLISHED [OWN]]    those lines of one namespace

   Each writes `refused NUMBER PLACE` instead if something is refused: surfbodkin.h says
   which numbers there are. `add` takes the message from standard input, and a missing
   FILE for one of version 2 without messages. `upgrade` rewrites a file of version 1 as
   version 2, which may grow longer and takes bigger messages. A line has the message's
   number, the reference's first byte in the file and the byte after its last, its
   namespace (a number, a name, or a full stop for a relative one), the number that this
   stands for by the lists of names, or `-`, and the reference's text, or `-` if it has
   none.

   Exit status: 0 done, 1 refused, 2 it could not do its work; then standard error has
   the reason. Nothing is written to standard output before all that can fail but the
   writing itself is done. */
#define _POSIX_C_SOURCE 200809L
#include <errno.h>
#include <fcntl.h>
#include <inttypes.h>
#include <signal.h>
#include <stdarg.h>
#include <stdio.h>
#include <stdlib.h>
#include <string.h>
#include <unistd.h>

#include "day_file.h"
#include "program.h"
#include "surfbodkin.h"

static const char USAGE[] =
    "usage: gate day check FILE\n"
    "       gate day get FILE NUMBER\n"
    "       gate day add FILE\n"
    "       gate day upgrade FILE\n"
    "       gate day list FILE [PUBLISHED [OWN]]\n"
    "       gate day search FILE NAMESPACE [PUBLISHED [OWN]]\n";

/* Digits alone, without a zero in front of others. */
static int plain(const char *digits) {
  return *digits != '\0' && digits[strspn(digits, "0123456789")] == '\0' &&
         (digits[0] != '0' || digits[1] == '\0');
}

static uint64_t message_number(const char *word) {
  errno = 0;
  uint64_t number = strtoull(word, NULL, 10);
  if (!plain(word) || errno != 0) {
    fail("message '%s' is no plain number from 0 to %" PRIu64, word, UINT64_MAX);
  }
  return number;
}

static int64_t namespace_number(const char *word) {
  int below = *word == '-';
  errno = 0;
  int64_t number = strtoll(word, NULL, 10);
  if (!plain(word + below) || (below && number == 0) || errno != 0) {
    fail("namespace '%s' is no plain number from %" PRId64 " to %" PRId64, word,
         INT64_MIN, INT64_MAX);
  }
  return number;
}

static int check(const char *name) {
  struct bytes day = read_day(name);
  uint64_t answer = surfbodkin_day_check(day.at, day.length);
  free(day.at);
  if (refused(answer)) return refuse(answer);
  say("passes %" PRIu32 "\n", surfbodkin_low(answer));
  return DONE;
}

static int get(const char *name, uint64_t number) {
  struct bytes day = read_day(name);
  uint64_t answer = surfbodkin_day_find(day.at, day.length, number);
  int status = DONE;
  if (refused(answer)) {
    status = refuse(answer);
  } else {
    say_bytes(day.at + surfbodkin_low(answer), surfbodkin_count(answer));
  }
  free(day.at);
  return status;
}

static int add(const char *name) {
  static uint8_t message[SURFBODKIN_BYTES + 1];
  static char why[DAY_FILE_WHY];
  size_t length;
  uint64_t answer;
  /* All of it before the file is touched: who else adds need not wait for a slow pipe. */
  if (day_file_read(STDIN_FILENO, message, sizeof message, &length) != 0) {
    fail("standard input: %s", strerror(errno));
  }
  if (day_file_add(name, message, length, &answer, why) != 0) fail("%s", why);
  if (refused(answer)) return refuse(answer);
  uint32_t number = surfbodkin_count(answer) - 1;
  snprintf(after_all, sizeof after_all, ": the message was added as number %" PRIu32,
           number);
  say("added %" PRIu32 "\n", number);
  return DONE;
}

static int upgrade(const char *name) {
  static char why[DAY_FILE_WHY];
  uint64_t answer;
  if (day_file_upgrade(name, &answer, why) != 0) fail("%s", why);
  if (refused(answer)) return refuse(answer);
  snprintf(after_all, sizeof after_all, ": the file was upgraded");
  say("upgraded %" PRIu32 "\n", surfbodkin_count(answer));
  return DONE;
}

/* The first byte of message k of a file that passes, or the table's. The archive's find
   would check the whole file again for every message. */
static size_t message_first(struct bytes day, uint32_t k, uint32_t messages) {
  const uint8_t *trailer = day.at + day.length - SURFBODKIN_DAY_TRAILER_BYTES;
  size_t table = surfbodkin_get_number(trailer + 4, 4), width = trailer[0] == 2 ? 4 : 2;
  return k == messages ? table : surfbodkin_get_number(day.at + table + width * k, width);
}

static void say_line(uint32_t number, size_t first, const uint8_t *message,
                     struct surfbodkin_entry entry, struct lists lists) {
  static uint8_t text[SURFBODKIN_TEXT_BYTES];
  say("%" PRIu32 " %zu %zu ", number, first + entry.first, first + entry.after);
  if (entry.kind == SURFBODKIN_BY_NUMBER) {
    say("%" PRId64 " %" PRId64 " ", entry.space, entry.space);
  } else if (entry.kind == SURFBODKIN_BY_NAME) {
    size_t length;
    const uint8_t *name = surfbodkin_get_name(message, entry.space, &length);
    uint64_t stands_for;
    say_bytes(name, length);
    if (surfbodkin_name_number(lists.published.at, lists.published.length, lists.own.at,
                               lists.own.length, name, length, &stands_for) == 1) {
      say(" %s%" PRIu64 " ", stands_for >> 63 ? "-" : "",
          stands_for >> 63 ? 0 - stands_for : stands_for);
    } else {
      say(" - ");
    }
  } else {
    say(". - ");
  }
  uint64_t answer = surfbodkin_write_text(message + entry.first,
                                          entry.after - entry.first, text, sizeof text);
  if (refused(answer)) {
    say("-\n");
  } else {
    say_bytes(text, surfbodkin_low(answer));
    say("\n");
  }
}

/* The lines of a file that passes, and if `found` is there only those that it names: it
   has them in the same order. */
static void say_lines(struct bytes day, struct lists lists, const struct bytes *found) {
  static uint8_t listing[SURFBODKIN_ENTRIES * SURFBODKIN_ENTRY];
  uint32_t messages = surfbodkin_low(surfbodkin_day_check(day.at, day.length));
  size_t next = 0;
  for (uint32_t number = 0; number < messages; number++) {
    size_t first = message_first(day, number, messages);
    const uint8_t *message = day.at + first;
    size_t length = message_first(day, number + 1, messages) - first;
    uint64_t answer = surfbodkin_list(message, length, listing, sizeof listing);
    uint32_t entries = surfbodkin_low(answer);
    for (uint32_t k = 0; k < entries; k++) {
      struct surfbodkin_entry entry = surfbodkin_get_entry(listing, k);
      if (found != NULL) {
        if (next * SURFBODKIN_ENTRY == found->length) return;
        if (surfbodkin_get_found(found->at, next).first != first + entry.first) continue;
        next++;
      }
      say_line(number, first, message, entry, lists);
    }
  }
}

static int list(const char *name, struct lists lists) {
  struct bytes day = read_day(name);
  int status = DONE;
  uint64_t answer = surfbodkin_day_check(day.at, day.length);
  if (!refused(answer)) {
    answer = surfbodkin_check_names(lists.published.at, lists.published.length,
                                    lists.own.at, lists.own.length);
  }
  if (refused(answer)) {
    status = refuse(answer);
  } else {
    say_lines(day, lists, NULL);
  }
  free(day.at);
  return status;
}

static uint64_t find_space(struct bytes day, struct lists lists, int64_t space,
                           struct bytes found) {
  return surfbodkin_day_search(day.at, day.length, lists.published.at,
                               lists.published.length, lists.own.at, lists.own.length,
                               (uint64_t)space, found.at, found.length);
}

static int search(const char *name, int64_t space, struct lists lists) {
  struct bytes day = read_day(name);
  int status = DONE;
  /* Enough for every file, so that nothing has to be counted first. */
  struct bytes found = {NULL, SURFBODKIN_DAY_ENTRIES * SURFBODKIN_ENTRY};
  found.at = malloc(found.length);
  if (found.at == NULL) fail("%s: %s", name, strerror(errno));
  uint64_t answer = find_space(day, lists, space, found);
  if (refused(answer)) {
    status = refuse(answer);
  } else {
    say_lines(day, lists, &found);
  }
  free(found.at);
  free(day.at);
  return status;
}

static int with_lists(int count, char **words) {
  struct lists lists;
  int status;
  if (strcmp(words[1], "list") == 0) {
    lists = read_lists(count - 3, words + 3);
    status = list(words[2], lists);
  } else {
    int64_t space = namespace_number(words[3]);
    lists = read_lists(count - 4, words + 4);
    status = search(words[2], space, lists);
  }
  free_lists(lists);
  return status;
}

static int run(int count, char **words) {
  const char *command = count > 1 ? words[1] : "";
  if (help(command) || (count == 3 && help(words[2]))) {
    say("%s", USAGE);
    return DONE;
  }
  if (strcmp(command, "check") == 0 && count == 3) return check(words[2]);
  if (strcmp(command, "get") == 0 && count == 4) {
    return get(words[2], message_number(words[3]));
  }
  if (strcmp(command, "add") == 0 && count == 3) return add(words[2]);
  if (strcmp(command, "upgrade") == 0 && count == 3) return upgrade(words[2]);
  if ((strcmp(command, "list") == 0 && 3 <= count && count <= 5) ||
      (strcmp(command, "search") == 0 && 4 <= count && count <= 6)) {
    return with_lists(count, words);
  }
  fputs(USAGE, stderr);
  return FAILED;
}

int main(int count, char **words) {
  return program("gate day", run, count, words);
}

#define _POSIX_C_SOURCE 200809L
#include "program.h"

#include <errno.h>
#include <fcntl.h>
#include <inttypes.h>
#include <signal.h>
#include <stdarg.h>
#include <stdio.h>
#include <stdlib.h>
#include <string.h>
#include <unistd.h>

#include "day_file.h"
#include "surfbodkin.h"

static const char *own_name = "gate";

void fail(const char *format, ...) {
  va_list arguments;
  va_start(arguments, format);
  fprintf(stderr, "%s: ", own_name);
  vfprintf(stderr, format, arguments);
  fputc('\n', stderr);
  va_end(arguments);
  /* What may still wait for standard output is not worth a try. */
  _exit(FAILED);
}

char after_all[80];

static void fail_to_say(void) {
  fail("standard output: %s%s", strerror(errno), after_all);
}

void say(const char *format, ...) {
  va_list arguments;
  va_start(arguments, format);
  if (vprintf(format, arguments) < 0) fail_to_say();
  va_end(arguments);
}

void say_bytes(const uint8_t *at, size_t length) {
  if (fwrite(at, 1, length, stdout) != length) fail_to_say();
}

int refuse(uint64_t answer) {
  say("refused %u %" PRIu64 "\n", surfbodkin_number(answer), surfbodkin_place(answer));
  return REFUSED;
}

int refused(uint64_t answer) {
  return surfbodkin_number(answer) != SURFBODKIN_ACCEPTED;
}

struct bytes read_file(const char *name, size_t most) {
  struct bytes bytes = {NULL, 0};
  size_t room = 0, got;
  int from = open(name, O_RDONLY | O_CLOEXEC);
  if (from < 0) fail("%s: %s", name, strerror(errno));
  do {
    room = room == 0 ? 65536 : 2 * room;
    if (room > most) room = most;
    uint8_t *at = realloc(bytes.at, room);
    if (at == NULL) fail("%s: %s", name, strerror(errno));
    bytes.at = at;
    if (day_file_read(from, bytes.at + bytes.length, room - bytes.length, &got) != 0) {
      fail("%s: %s", name, strerror(errno));
    }
    bytes.length += got;
  } while (bytes.length == room && room < most);
  close(from);
  return bytes;
}

/* One byte past the limit is enough to be refused. */
struct bytes read_day(const char *name) {
  return read_file(name, SURFBODKIN_DAY_BYTES + 1);
}

struct lists read_lists(int count, char **words) {
  struct lists lists = {{NULL, 0}, {NULL, 0}};
  if (count > 0) lists.published = read_file(words[0], SIZE_MAX);
  if (count > 1) lists.own = read_file(words[1], SIZE_MAX);
  return lists;
}

void free_lists(struct lists lists) {
  free(lists.published.at);
  free(lists.own.at);
}

int help(const char *word) {
  return strcmp(word, "-h") == 0 || strcmp(word, "--help") == 0;
}

int program(const char *name, int (*run)(int count, char **words), int count,
            char **words) {
  own_name = name;
  /* A reader that has gone is an error like others. */
  signal(SIGPIPE, SIG_IGN);
  int status = run(count, words);
  if (fflush(stdout) != 0) fail_to_say();
  return status;
}

/* `gate month`: a month's figures, for the bill.

   Standard input has a line for each day file, `FILE [PUBLISHED [OWN]]`, with the two
   lists of names that go with it. Standard output then has `messages N`, `bytes N`,
   `items N`, `unknown N`, `relative N`, and a line `NAMESPACE REFERENCES` for each
   namespace, in rising order. If a file is refused, `refused NUMBER PLACE` stands there
   alone, and the file's name on standard error: surfbodkin.h says which numbers there
   are. Names of files have no blanks.

   Exit status: 0 done, 1 refused, 2 it could not do its work; then standard error has
   the reason. Nothing is written to standard output before all files are counted. */
#define _POSIX_C_SOURCE 200809L
#include <errno.h>
#include <inttypes.h>
#include <stdio.h>
#include <stdlib.h>
#include <string.h>

#include "program.h"
#include "surfbodkin.h"

static const char USAGE[] = "usage: gate month < lines of FILE [PUBLISHED [OWN]]\n";

static uint64_t state[SURFBODKIN_MONTH_WORDS];

static uint64_t count_day(int count, char **words) {
  struct bytes day = read_day(words[0]);
  struct lists lists = read_lists(count - 1, words + 1);
  uint64_t answer = surfbodkin_month_add(
      state, SURFBODKIN_MONTH_WORDS, day.at, day.length, lists.published.at,
      lists.published.length, lists.own.at, lists.own.length);
  free_lists(lists);
  free(day.at);
  return answer;
}

/* The words of a line: one to three of them. */
static int take_words(char *line, unsigned long number, char *words[3]) {
  static const char BLANKS[] = " \t\r\n";
  int count = 0;
  char *rest;
  for (char *word = strtok_r(line, BLANKS, &rest); word != NULL;
       word = strtok_r(NULL, BLANKS, &rest)) {
    if (count == 3) fail("line %lu: more than FILE PUBLISHED OWN", number);
    words[count++] = word;
  }
  if (count == 0) fail("line %lu: no FILE", number);
  return count;
}

static void say_figures(void) {
  static uint8_t out[SURFBODKIN_MONTH_BYTES];
  static const char *const TOTALS[] = {"messages", "bytes", "items", "unknown",
                                       "relative"};
  uint64_t answer =
      surfbodkin_month_read(state, SURFBODKIN_MONTH_WORDS, out, sizeof out);
  uint32_t lines = surfbodkin_low(answer);
  for (int k = SURFBODKIN_MONTH_MESSAGES_TOTAL; k <= SURFBODKIN_MONTH_RELATIVE_TOTAL;
       k++) {
    say("%s %" PRIu64 "\n", TOTALS[k],
        surfbodkin_get_total(out, (enum surfbodkin_total)k));
  }
  for (uint32_t k = 0; k < lines; k++) {
    struct surfbodkin_line line = surfbodkin_get_line(out, k);
    say("%" PRId64 " %" PRIu64 "\n", line.space, line.references);
  }
}

static int run(int count, char **words) {
  if (count == 2 && help(words[1])) {
    say("%s", USAGE);
    return DONE;
  }
  if (count != 1) {
    fputs(USAGE, stderr);
    return FAILED;
  }
  char *line = NULL;
  size_t room = 0;
  ssize_t length;
  for (unsigned long number = 1; (length = getline(&line, &room, stdin)) != -1; number++) {
    char *file[3];
    if (strlen(line) != (size_t)length) fail("line %lu has a zero byte in it", number);
    uint64_t answer = count_day(take_words(line, number, file), file);
    if (refused(answer)) {
      fprintf(stderr, "gate month: %s\n", file[0]);
      return refuse(answer);
    }
  }
  if (ferror(stdin)) fail("standard input: %s", strerror(errno));
  free(line);
  say_figures();
  return DONE;
}

int main(int count, char **words) {
  return program("gate month", run, count, words);
}

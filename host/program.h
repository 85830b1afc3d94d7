/* What the C programs of the gate share: they read files and lists of names, write lines
   to standard output, and end with a status. */
#ifndef PROGRAM_H
#define PROGRAM_H

#include <stddef.h>
#include <stdint.h>

/* Exit statuses: done, refused, it could not do its work. */
enum { DONE, REFUSED, FAILED };

struct bytes {
  uint8_t *at;
  size_t length;
};

/* The lists of names that the words give; one that is missing is empty. */
struct lists {
  struct bytes published, own;
};

/* Runs a program under this name, which stands before its failures. */
int program(const char *name, int (*run)(int count, char **words), int count,
            char **words);

/* Ends with FAILED and the reason on standard error. */
void fail(const char *format, ...);

/* What is said behind a failure to write standard output, where there is more to say. */
extern char after_all[80];

void say(const char *format, ...);
void say_bytes(const uint8_t *at, size_t length);

/* Writes an answer's refusal, and is REFUSED. */
int refuse(uint64_t answer);
int refused(uint64_t answer);

/* A file's bytes, or so many of them; to be freed. */
struct bytes read_file(const char *name, size_t most);

/* A day file. */
struct bytes read_day(const char *name);

struct lists read_lists(int count, char **words);
void free_lists(struct lists lists);

/* Whether a word asks for the usage. */
int help(const char *word);

#endif

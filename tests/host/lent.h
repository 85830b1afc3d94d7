/* What the programs that test the archive from C have in common: memory that is lent
   to its functions, and how a failure is said. PROGRAM, the name to say it by, is
   defined before. */
#define _DEFAULT_SOURCE
#include <inttypes.h>
#include <signal.h>
#include <stdio.h>
#include <stdlib.h>
#include <string.h>
#include <sys/mman.h>
#include <unistd.h>

#include "../../host/surfbodkin.h"

/* What is being called, for messages. */
static char current[256];

static void fail(const char *words) {
  printf(PROGRAM ": %s: %s\n", current, words);
  exit(1);
}

static void on_fault(int signal) {
  static const char before[] = PROGRAM ": ", after[] = ": touched memory that it must not\n";
  /* printf is not safe here; whether the words came out doesn't matter any more. */
  if (write(1, before, sizeof before - 1) > 0 && write(1, current, strlen(current)) > 0 &&
      write(1, after, sizeof after - 1) > 0) {
    _exit(1);
  }
  _exit(signal);
}

struct bytes {
  uint8_t *at;
  size_t length;
};

/* Ways to lend: between guard bytes, right before and right after memory that may not
   be touched (what is lent to be read may not be written then), and as a heap block of
   that very length, which valgrind watches. */
enum way { GUARDED, BEFORE_FENCE, AFTER_FENCE, HEAP, WAYS };
enum { GUARD = 64 };

struct lent {
  enum way way;
  struct bytes lent;
  uint8_t *block; /* what the lent bytes are a part of */
  size_t block_length;
};

static struct lent lend(struct bytes content, enum way way, int writable) {
  struct lent lent = {way, content, NULL, 0};
  size_t length = content.length;
  size_t page = (size_t)sysconf(_SC_PAGESIZE);
  size_t inner = (length + page - 1) / page * page;
  switch (way) {
    case GUARDED:
      lent.block_length = length + 2 * GUARD;
      lent.block = malloc(lent.block_length);
      if (lent.block == NULL) fail("no memory");
      memset(lent.block, 0xa5, lent.block_length);
      lent.lent.at = lent.block + GUARD;
      break;
    case BEFORE_FENCE:
    case AFTER_FENCE:
      lent.block_length = inner + 2 * page;
      lent.block = mmap(NULL, lent.block_length, PROT_READ | PROT_WRITE,
                        MAP_PRIVATE | MAP_ANONYMOUS, -1, 0);
      if (lent.block == MAP_FAILED) fail("no memory");
      lent.lent.at = lent.block + page + (way == BEFORE_FENCE ? inner - length : 0);
      break;
    default: /* nothing at all for no bytes: NULL is lent */
      lent.block = length == 0 ? NULL : malloc(length);
      if (lent.block == NULL && length > 0) fail("no memory");
      lent.lent.at = lent.block;
  }
  if (length > 0) memcpy(lent.lent.at, content.at, length);
  if (way == BEFORE_FENCE || way == AFTER_FENCE) {
    mprotect(lent.block, page, PROT_NONE);
    mprotect(lent.block + page + inner, page, PROT_NONE);
    if (!writable) mprotect(lent.block + page, inner, PROT_READ);
  }
  return lent;
}

/* Takes memory back; what was lent has to hold the expected bytes. */
static void take_back(struct lent lent, const uint8_t *expected, const char *name) {
  char words[64];
  snprintf(words, sizeof words, "%s is not as it should be", name);
  if (lent.lent.length > 0 && memcmp(lent.lent.at, expected, lent.lent.length) != 0) fail(words);
  if (lent.way == GUARDED) {
    snprintf(words, sizeof words, "wrote around %s", name);
    for (size_t k = 0; k < GUARD; k++) {
      if (lent.block[k] != 0xa5 || lent.block[lent.block_length - 1 - k] != 0xa5) fail(words);
    }
  }
  if (lent.way == GUARDED || lent.way == HEAP) {
    free(lent.block);
  } else {
    munmap(lent.block, lent.block_length);
  }
}

/* Takes memory back that may have changed. */
static inline void take_back_changed(struct lent lent, uint8_t *content, const char *name) {
  if (lent.lent.length > 0) memcpy(content, lent.lent.at, lent.lent.length);
  take_back(lent, content, name);
}

static uint8_t room_byte(size_t k) { return (uint8_t)(k * 37 + 11); }

static int digit(char sign) { return sign <= '9' ? sign - '0' : sign - 'a' + 10; }

/* Hex digits with spaces, or, after a colon, a text; to be freed. */
static struct bytes bytes(const char *words) {
  struct bytes bytes = {malloc(strlen(words) + 1), 0};
  if (bytes.at == NULL) fail("no memory");
  if (*words == ':') {
    bytes.length = strlen(words + 1);
    memcpy(bytes.at, words + 1, bytes.length);
    return bytes;
  }
  while (*words != '\0') {
    if (*words == ' ') {
      words++;
      continue;
    }
    bytes.at[bytes.length++] = (uint8_t)(digit(words[0]) << 4 | digit(words[1]));
    words += 2;
  }
  return bytes;
}

static uint64_t refused(unsigned number, uint64_t place) {
  return (uint64_t)number << 56 | place;
}

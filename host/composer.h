/* The order composer: builds an EXECSET message from a nonce and a list of targets that
   are given as texts. It stands above the gate (surfbodkin.h): what it reads, judges and
   hands over goes by the gate's own promises, and a host needs nothing else of the gate.

   To use it, link with libcomposer.a (x86-64-v2), which host/prove staticlib composer builds
   as target/staticlib/libcomposer.a:

     cc -std=c11 -o order order.c libcomposer.a

   A whole program, order.c:

     #include <stdio.h>
     #include <string.h>
     #include "composer.h"

     int main(void) {
       static const char texts[] = "ari://1/-2/3\n./-2/30\n";
       uint8_t message[COMPOSER_BYTES];
       uint64_t answer = composer_compose(COMPOSER_NUMBER, 7, NULL, 0,
                                          (const uint8_t *)texts, strlen(texts),
                                          message, sizeof message);
       if (composer_number(answer) != COMPOSER_COMPOSED) {
         printf("refused %u %llu\n", composer_number(answer),
                (unsigned long long)composer_place(answer));
         return 1;
       }
       for (uint32_t k = 0; k < composer_length(answer); k++)
         printf("%02x", message[k]);
       printf("\n");
       return 0;
     }

   It prints 018214830783012103 83f621181e as one word: version 1, and an EXECSET
   with the nonce 7 and two targets. The rules are R218 to R226 of docs/RULES.md.

   WHAT HOLDS OF EVERY CALL

   - Memory is lent for the call only; nothing is kept, freed or allocated, and threads
     may call at the same time. A call takes less than 256 KB of stack.
   - Nothing is written but `out`, and only its front, as far as the message reaches. On
     a refusal it is as it was.
   - `out` must not overlap anything else that is lent to the same call. A pointer whose
     length is 0 is not followed, and may be NULL.
   - Every input has an answer; none has to be tested before.
   - A message that is composed is one that the gate accepts, with the items that the
     answer says. Its nonce is the one given, and its targets are the ARIs of the texts in
     their order, as the gate reads them. */
#ifndef COMPOSER_H
#define COMPOSER_H

#include <stddef.h>
#include <stdint.h>

#ifdef __cplusplus
extern "C" {
#endif

/* Limits, which are the gate's own. The list of texts may have any length. */
enum composer_size {
  COMPOSER_BYTES = 16384,      /* of a message; a room of so many always suffices */
  COMPOSER_ITEMS = 4096,       /* of a message */
  COMPOSER_CONTAINERS = 24,    /* arrays and maps open at once, the set's own two too */
  COMPOSER_TEXT_BYTES = 131072 /* of one text, without its line feed */
};

/* How a nonce is given. */
enum composer_nonce {
  COMPOSER_NULL = 0,   /* null */
  COMPOSER_NUMBER = 1, /* the number, from 0 to 2^63 - 1 */
  COMPOSER_STRING = 2  /* the byte string, of any length that the message has room for */
};

/* The number in an answer's top byte. The tests are tried in the order of
   composer_compose's refusals. */
enum composer_test {
  COMPOSER_COMPOSED = 0,
  COMPOSER_TOO_LONG = 1,            /* the message would have too many bytes; place 0 */
  COMPOSER_TOO_MANY_ITEMS = 5,      /* too many items; place 0 */
  COMPOSER_TOO_MANY_CONTAINERS = 6, /* too many containers open at once; place 0 */
  COMPOSER_NOT_A_NONCE = 7,         /* a number out of range, or another kind; place 0 */
  COMPOSER_ROOM = 16,               /* `out` is too short; place: the bytes needed */
  COMPOSER_NOT_A_TARGET = 24        /* a text; place: its number, counted from 0 */
};

/* Composes the message of a nonce and of targets.

   `nonce_kind` is an enum composer_nonce. Only what it names is looked at: the number
   for COMPOSER_NUMBER, the bytes for COMPOSER_STRING, neither for COMPOSER_NULL.

   `texts` holds the targets' texts one after the other, each ended by a line feed; no
   bytes are no targets. Each has to be the text of an object reference, with parameters
   or without, relative ones too, as "ari://1/-2/3" or "./-2/30", in the spelling that the
   gate writes (surfbodkin_write_text); a namespace reference is none.

     composed   count: the message's items; low: its bytes
     refused    7, the nonce
                24, place: the number of the first text that is longer than
                COMPOSER_TEXT_BYTES, is not ended, or is not the text of an object
                reference that the gate accepts as a single ARI
                1, 5, 6, the finished message would break that limit; 1 before 5 before 6
                16, place: the message's bytes */
uint64_t composer_compose(uint64_t nonce_kind, uint64_t nonce_number,
                          const uint8_t *nonce, size_t nonce_length,
                          const uint8_t *texts, size_t texts_length,
                          uint8_t *out, size_t out_length);

/* The parts of an answer: its number; the place or other number that goes with a
   refusal, 2^56 - 1 for what is greater; the items and the bytes of a composed
   message. */
static inline unsigned composer_number(uint64_t answer) {
  return (unsigned)(answer >> 56);
}

static inline uint64_t composer_place(uint64_t answer) {
  return answer & 0xffffffffffffff;
}

static inline uint32_t composer_count(uint64_t answer) {
  return (uint32_t)(answer >> 32) & 0xffffff;
}

static inline uint32_t composer_length(uint64_t answer) { return (uint32_t)answer; }

#ifdef __cplusplus
}
#endif

#endif

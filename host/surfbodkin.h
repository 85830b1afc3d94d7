/* Surfbodkin: a gate that reads AMP messages, whole or as a link delivers them, and
   ARIs, lists the references in a message, says whether a subscriber's grants cover
   them and why not, takes a target out of it, compares two messages, keeps the messages
   of a day in one file, and counts such files for a month's bill.

   To use it, link with libsurfbodkin.a (x86-64-v2), which host/prove staticlib surfbodkin
   builds as target/staticlib/libsurfbodkin.a:

     cc -std=c11 -o relay relay.c day_file.c libsurfbodkin.a

   relay.c is an example, and the script run beside it builds and runs that; day_file.c
   puts a message into a day file on the disk. The rules behind every answer are in
   docs/RULES.md: up to 18, test n below is its rule R(50 + n).

   WHAT HOLDS OF EVERY CALL

   - Memory is lent for the call only; nothing is kept, freed or allocated. What a
     stream or a month keeps from call to call is in the memory that the caller lends
     to each of its calls, and nowhere else: threads may call at the same time, each
     with streams and months of its own. A call takes less than 256 KB of stack.
   - Nothing is written but the answer buffer `out`, release's `compared`,
     name_number's `number`, a stream's `state` and `message`, and a month's `state`.
     On a refusal `out`, `compared` and a month's `state` are as they were; on an
     acceptance only the front of `out` is written, as far as the answer reaches.
   - What may be written must not overlap anything else that is lent to the same
     call. A pointer whose length is 0 is not followed, and may be NULL.
   - Every input has an answer; none has to be tested before.

   ANSWERS are one uint64_t. Its top byte tells which:

     0          accepted; released; the table passes; the stream goes on; counted
     1 to 27    refused, by the test of that number (see enum surfbodkin_test);
                the other 56 bits are the place, or another number, that goes with it
     255        held back (release's no); the other 56 bits are the entry. Why
                puts more beside it

   An acceptance has the number of items (CBOR heads) of the input in bits 32 to 55,
   and in bits 0 to 31 the size of what was written to `out`, 0 for a check; those of
   a day file, of a month, of compare and of name_number have there what is said with
   them, and 0 where nothing is said. The yes of a release, a table that passes, a stream
   that goes on and a file that a month has counted are plain 0. The functions
   surfbodkin_number, _place, _count and _low below take an answer apart. */
#ifndef SURFBODKIN_H
#define SURFBODKIN_H

#include <stddef.h>
#include <stdint.h>

#ifdef __cplusplus
extern "C" {
#endif

/* The second number rises with what is added, the first where a host has to change. */
#define SURFBODKIN_RELEASE "2.0"

/* Limits, beyond which an input is refused (tests 1, 5, 6 and 20), and sizes. A grant
   table and a list of names may have any length. */
enum surfbodkin_size {
  SURFBODKIN_BYTES = 16384,       /* of a message or a single ARI */
  SURFBODKIN_ITEMS = 4096,        /* of a message or a single ARI */
  SURFBODKIN_CONTAINERS = 24,     /* arrays and maps open at once */
  SURFBODKIN_TEXT_BYTES = 131072, /* of a text; every text that is written fits */
  SURFBODKIN_ROW = 16,            /* bytes of a row in a grant table */
  SURFBODKIN_ENTRY = 24,          /* bytes of an entry in a listing, a comparison or
                                     a search */
  SURFBODKIN_ENTRIES = 2048,      /* no listing has more: an entry takes two items */
  SURFBODKIN_POSITIONS = 1024,    /* no message has more targets and reports: each takes
                                     four items */
  SURFBODKIN_LINK = 24,           /* bytes of a link in the chain that why writes */
  SURFBODKIN_LINKS = 24,          /* no chain has more: each link is an open container */
  SURFBODKIN_STREAM_WORDS = 127,  /* of a stream's state, each a uint64_t */
  SURFBODKIN_DAY_BYTES = 1048576, /* of a day file */
  SURFBODKIN_DAY_BYTES_1 = 65535, /* of one of version 1 */
  SURFBODKIN_DAY_MESSAGES = 65535, /* of a day file */
  SURFBODKIN_DAY_TRAILER_BYTES = 8, /* of its trailer, and of a file without messages */
  SURFBODKIN_DAY_ENTRIES = 524288,  /* no search finds more: a reference takes two bytes */
  SURFBODKIN_MONTH_WORDS = 518,     /* of a month's state, each a uint64_t */
  SURFBODKIN_MONTH_LINES = 256,     /* namespaces of a month */
  SURFBODKIN_MONTH_TOTALS = 40,     /* bytes of its five totals */
  SURFBODKIN_MONTH_LINE = 16,       /* bytes of a namespace with its references */
  SURFBODKIN_MONTH_BYTES = 4136,    /* no month's figures have more */
  SURFBODKIN_BYTES_1 = 4096,        /* of a message in a day file of version 1, */
  SURFBODKIN_ITEMS_1 = 1024,        /* its items, */
  SURFBODKIN_CONTAINERS_1 = 12      /* and its arrays and maps open at once */
};

/* The number in an answer's top byte. Tests are tried in this order: 1, then 2 to 12
   at each head of the input from the front, then the others; where a day file is lent,
   20 to 22 come before all of these. The place is the byte, counted from 0, of the head
   that failed, unless another is named. */
enum surfbodkin_test {
  SURFBODKIN_ACCEPTED = 0,
  SURFBODKIN_TOO_LONG = 1,            /* more bytes than the limit; place 0 */
  SURFBODKIN_CUT = 2,                 /* ends where a head is due, or inside one */
  SURFBODKIN_NOT_IN_USE = 3,          /* a head that is not used here, as a tag */
  SURFBODKIN_NOT_SHORTEST = 4,        /* a shorter float would do, or another NaN;
                                         numbers and lengths may stand in longer heads,
                                         which earlier versions refused with this */
  SURFBODKIN_TOO_MANY_ITEMS = 5,
  SURFBODKIN_TOO_MANY_CONTAINERS = 6,
  SURFBODKIN_NOT_ALLOWED = 7,         /* kind, range or length not allowed here */
  SURFBODKIN_VERSION = 8,             /* the message's version is not 1 */
  SURFBODKIN_SHORT_STRING = 9,        /* fewer bytes left than the string has */
  SURFBODKIN_SPELLING = 10,           /* not UTF-8, or no name or identifier */
  SURFBODKIN_KEY_ORDER = 11,          /* map key not greater than the one before */
  SURFBODKIN_EMPTY_PARAMETERS = 12,
  SURFBODKIN_BYTES_AFTER = 13,        /* place: the first byte after the ARI */
  SURFBODKIN_NO_TEXT = 14,            /* a set (place 0), or a float, has no text */
  SURFBODKIN_NOT_TEXT = 15,           /* not the text of an accepted ARI; place 0 */
  SURFBODKIN_ROOM = 16,               /* lent room is too short; place: the need */
  SURFBODKIN_NO_SUCH = 17,            /* no message of that number; place: their count */
  SURFBODKIN_TABLE = 18,              /* grant table; place: a row */
  SURFBODKIN_NAMES = 19,              /* list of names; place: a line's first byte */
  SURFBODKIN_DAY_TRAILER = 20,        /* day file: its trailer or length; place 0 */
  SURFBODKIN_DAY_TABLE = 21,          /* day file; place: an entry of its table */
  SURFBODKIN_DAY_MESSAGE = 22,        /* day file; place: a message's number */
  SURFBODKIN_DAY_FULL = 23,           /* no room in a day file; place 0 */
  SURFBODKIN_MONTH_NAMESPACES = 25,   /* one namespace too many; place 0 */
  SURFBODKIN_MONTH_TOTAL = 26,        /* a total would pass 2^63 - 1; place 0 */
  SURFBODKIN_NO_TARGET = 27,          /* no target or report of that number; place:
                                         their count */
  SURFBODKIN_HELD = 255               /* not released; place: an entry */
};

/* Checks a single ARI in binary form.
     accepted   count: its items
     refused    1 to 7, 9 to 13 */
uint64_t surfbodkin_check_single(const uint8_t *input, size_t length);

/* Checks a message: the version 1, then any number of EXECSETs and RPTSETs.
     accepted   count: its items
     refused    1 to 12 */
uint64_t surfbodkin_check_message(const uint8_t *input, size_t length);

/* Lists a message's references, at any depth, in the order of their first bytes:
   SURFBODKIN_ENTRY bytes each, to be read with surfbodkin_get_entry.
     accepted   count: the message's items; low: the entries written
     refused    1 to 12 as check_message
                16, place: the number of references, if `out` holds fewer whole
                entries. SURFBODKIN_ENTRIES * SURFBODKIN_ENTRY bytes always suffice */
uint64_t surfbodkin_list(const uint8_t *message, size_t length,
                         uint8_t *out, size_t out_length);

/* A STREAM takes a message as the link delivers it, in pieces of any length. Its three
   calls are lent the same two things until the message is closed:

   - `state`, SURFBODKIN_STREAM_WORDS words, which say how far the message has been
     read. A state of all zeros is fresh: no bytes have come yet.
   - `message`, a room of SURFBODKIN_BYTES bytes. The bytes that were fed stand in it
     from byte 0 on, and after the close too, up to the next feed: a message that was
     accepted can be released from there. What lies behind them is left as it was.

   The calls change both; between them the host must not. Any contents are safe:
   nothing beyond what is lent is read or written. But the answers are as told here
   only for a state that began fresh and went through these calls alone, with the
   bytes left as they were put. If more is lent than these sizes, the rest is not used;
   if less, the call changes nothing and answers

     refused    16, place: the bytes needed, of `state` (8 * SURFBODKIN_STREAM_WORDS)
                if that is too short, else of `message` (SURFBODKIN_BYTES) */

/* Makes a state fresh, whatever it holds: what was fed before is dropped.
     0          it is fresh */
uint64_t surfbodkin_stream_open(uint64_t *state, size_t words);

/* Takes the next bytes of the message; there may be none. They are put behind those
   that came before, as far as SURFBODKIN_BYTES reaches.
     0          go on: feed more, or close
     refused    1, 3 to 8, 10 to 12: whatever may still come, the message is refused
                so. 1 is for more bytes than the limit, if the bytes up to it are not
                refused by another of these tests. 2 and 9 are left to the close:
                what is missing may come yet
   A refusal stands until the close: further bytes get the same answer and change
   nothing. */
uint64_t surfbodkin_stream_feed(uint64_t *state, size_t words,
                                uint8_t *message, size_t room,
                                const uint8_t *fragment, size_t length);

/* Ends the message. If no refusal stands, lists its references: the answer is that of
   surfbodkin_list on all bytes that were fed, however they were cut. `message` is not
   changed.
     accepted   count: the message's items; low: the entries written
     refused    the refusal that stands; else 2 or 9 as check_message
                16, place: the number of references, if `out` holds fewer whole entries
   A close that answers 16 closes nothing: all is as it was, and the host can close
   again with more room, or feed on. After any other answer the state is fresh, and
   the next feed begins another message. */
uint64_t surfbodkin_stream_close(uint64_t *state, size_t words,
                                 uint8_t *message, size_t room,
                                 uint8_t *out, size_t out_length);

/* Whether two single ARIs are the same: their items, one by one, are the same numbers,
   strings and containers. How long a head is does not matter, nor the case of letters
   in namespace names, object types and object ids; in strings, labels and map keys it
   does.
     accepted   low: 1 the same, 0 not
     refused    1 to 7, 9 to 13, of the first, or else of the second */
uint64_t surfbodkin_same(const uint8_t *first, size_t first_length,
                         const uint8_t *second, size_t second_length);

/* Compares two messages, target by target: the targets of EXECSETs and the reports of
   RPTSETs, counted together from 0 through each message. Writes an entry for each
   position that either has, SURFBODKIN_ENTRY bytes each, to be read with
   surfbodkin_get_difference. Two are the same as surfbodkin_same has it; a target and a
   report never are. Nonces, the times of sets, and where one set ends and the next
   begins are not compared.
     accepted   count: the entries that are not SURFBODKIN_SAME, 0 if nothing differs;
                low: the entries written
     refused    1 to 12 as check_message, of the first, or else of the second
                16, place: the number of entries, if `out` holds fewer whole ones.
                SURFBODKIN_POSITIONS * SURFBODKIN_ENTRY bytes always suffice */
uint64_t surfbodkin_compare(const uint8_t *first, size_t first_length,
                            const uint8_t *second, size_t second_length,
                            uint8_t *out, size_t out_length);

/* Checks two lists of names, the published one and a subscriber's own; either may be
   empty. Each is a run of lines: a namespace name, "=", a number in plain decimal from
   -2^63 to 2^63 - 1, and a line feed.
     0          each line is as it must be
     refused    19, place: the first byte of the first line that is not, the own
                list's bytes counted on from the end of the published one */
uint64_t surfbodkin_check_names(const uint8_t *published, size_t published_length,
                                const uint8_t *own, size_t own_length);

/* Checks a grant table: SURFBODKIN_ROW bytes a row, of any length, in any order, as
   surfbodkin_put_row writes them. Private (negative) namespaces have one subscriber
   each; equal rows are allowed.
     0          the table passes
     refused    18, place: the first row, counted from 0, whose private namespace a
                row before it grants to another subscriber; or, if table_length is no
                multiple of 16, the number of whole rows */
uint64_t surfbodkin_check_table(const uint8_t *table, size_t table_length);

/* Says whether a message may go to a subscriber: whether each listed reference has a
   namespace number, or a name that stands for one, and for each some row of the table
   grants that number to that subscriber. A name stands for the number of the first
   line that has it, its letters in whatever case: a name with "!" in the subscriber's own list,
   any other in the published one. Names without a line and relative references are
   never granted. The rows of others don't matter, nor whether the table passes its
   check. With both lists empty only numbers are granted.
   With a yes or a no `compared`, which must not be NULL, is set to the rows that were
   compared: for each entry up to and including the one that is answered (for a yes,
   every entry) all rows up to and including the first that grants it, or all rows if
   none does; none for a relative reference and for a name without a line. It is at
   most entries times rows, UINT64_MAX at the most, and may depend on the rows of
   others, on their order and on repeats.
     0          yes: release it
     255        no, place: the first entry of the listing, counted from 0, that is
                not granted
     refused    1 to 12 as check_message
                19 as check_names
                18, place: the number of whole rows, if table_length is no multiple
                of 16 */
uint64_t surfbodkin_release(const uint8_t *message, size_t length,
                            const uint8_t *table, size_t table_length,
                            const uint8_t *published, size_t published_length,
                            const uint8_t *own, size_t own_length,
                            uint64_t subscriber, uint64_t *compared);

/* Says why a message is not released: the entry that release names, the chain of
   containers from the outermost down to it, and the reason. Each container directly
   holds the next, and the last is the entry itself: SURFBODKIN_LINK bytes each, the
   outermost first, to be read with surfbodkin_get_link.
     0          it is released, and `out` is as it was
     255        held; surfbodkin_why_entry, _links and _reason take the answer apart:
                the entry as release gives it, the links written, the reason
     refused    1 to 12, 19, 18 as release
                16, place: the bytes of this chain, if `out` has fewer.
                SURFBODKIN_LINKS * SURFBODKIN_LINK bytes always suffice */
uint64_t surfbodkin_why(const uint8_t *message, size_t length,
                        const uint8_t *table, size_t table_length,
                        const uint8_t *published, size_t published_length,
                        const uint8_t *own, size_t own_length,
                        uint64_t subscriber, uint8_t *out, size_t out_length);

/* Writes a message without one of its targets or reports, which are numbered from 0
   through all its sets. The array that held it has one member fewer, and its head is the
   shortest for that; all other bytes stay as they are. The shorter message is accepted,
   and released for whomever the longer one was; with `out` as the next message, more
   can be struck.
     accepted   count: the shorter message's items; low: its bytes
     refused    1 to 12 as check_message
                27, place: the number of targets and reports, if there is no such one
                16, place: the bytes of the shorter message, if `out` has fewer.
                `length` bytes always suffice */
uint64_t surfbodkin_strike(const uint8_t *message, size_t length, uint64_t number,
                           uint8_t *out, size_t out_length);

/* A DAY FILE holds the messages that were released on one day: the messages back to
   back from byte 0, then a table with the first byte of each, then a trailer of 8
   bytes: the version, a zero byte, the number of messages (2 bytes) and the table's
   first byte (4 bytes), all big-endian. Messages are numbered from 0. There are two
   versions:

          an entry of the table   the whole file            its messages
     2    4 bytes                 SURFBODKIN_DAY_BYTES      SURFBODKIN_BYTES, _ITEMS and
                                                            _CONTAINERS, as elsewhere
     1    2 bytes                 SURFBODKIN_DAY_BYTES_1    SURFBODKIN_BYTES_1, _ITEMS_1
                                                            and _CONTAINERS_1

   A file without messages is its trailer alone: 02 00 00 00 00 00 00 00, or in version 1
   01 00 00 00 00 00 00 00. Every call takes files of either version, and a file stays in
   its version until day_upgrade rewrites it. Each day_ function first checks the whole
   file, and refuses it by

     20   place 0: shorter than 8 bytes or longer than its version allows, another
          version, a second byte of the trailer that is not 0, messages, table and
          trailer that do not add up to the length, or no messages and a table that
          does not start at 0
     21   place: the first entry of the table, counted from 0, that is the first one
          and not 0, or is not above the one before, or is not below the table's start
     22   place: the first message, counted from 0, that check_message refuses, or would
          by the limits of the file's version */

/* Checks a day file.
     accepted   low: its messages
     refused    20 to 22 */
uint64_t surfbodkin_day_check(const uint8_t *file, size_t length);

/* Finds a message by its number.
     accepted   count: the message's bytes; low: its first byte in the file
     refused    20 to 22
                17, place: the number of messages, if there is no such one */
uint64_t surfbodkin_day_find(const uint8_t *file, size_t length, uint64_t number);

/* Writes the file with one message more, behind the others, in the same version.
     accepted   count: its messages; low: its bytes
     refused    20 to 22
                1 to 12 as check_message, for the new message, by the limits of the
                file's version
                23, place 0: with the message and its entry in the table the file would
                be longer than its version allows, or it has SURFBODKIN_DAY_MESSAGES
                messages already, as only one of version 2 can
                16, place: the bytes of the new file, if `out` has fewer */
uint64_t surfbodkin_day_add(const uint8_t *file, size_t length,
                            const uint8_t *message, size_t message_length,
                            uint8_t *out, size_t out_length);

/* Rewrites a file of version 1 as one of version 2 with the same messages.
     accepted   count: its messages; low: its bytes
     refused    20 to 22; 20 also for a file of version 2
                16, place: the bytes of the new file, `length` and 2 for each message,
                if `out` has fewer */
uint64_t surfbodkin_day_upgrade(const uint8_t *file, size_t length,
                                uint8_t *out, size_t out_length);

/* Lists the references in all messages whose namespace is a number, given in two's
   complement, or a name that stands for it by the two lists as in release; in order,
   SURFBODKIN_ENTRY bytes each, to be read with surfbodkin_get_found.
     accepted   low: the entries written
     refused    20 to 22
                19 as check_names
                16, place: the number of entries, if `out` holds fewer whole ones.
                SURFBODKIN_DAY_ENTRIES * SURFBODKIN_ENTRY bytes always suffice, and
                save a walk through the file that counts them first */
uint64_t surfbodkin_day_search(const uint8_t *file, size_t length,
                               const uint8_t *published, size_t published_length,
                               const uint8_t *own, size_t own_length,
                               uint64_t space, uint8_t *out, size_t out_length);

/* A MONTH counts day files, given one after another, each with the two lists of names
   that go with it. Its three calls are lent the same `state`, SURFBODKIN_MONTH_WORDS
   words. A state of all zeros is fresh: nothing is counted yet. The calls change it;
   between them the host must not. Any contents are safe; but the answers are as told
   here only for a state that began fresh and went through these calls alone. If more
   words are lent the rest is not used; if fewer, the call changes nothing and answers

     refused    16, place: the bytes needed (8 * SURFBODKIN_MONTH_WORDS)

   The figures are sums over the messages of all files that were counted, whatever order
   these came in: the messages, their bytes, their items, the listed references whose
   name stands for no number, those that are relative, and for each namespace that
   occurs those to it. A name counts under the number that it stands for by the lists of
   its file, as in release. The namespaces' references with the two others are all that
   is listed. */

/* Makes a state fresh, whatever it holds: what was counted before is dropped.
     0          it is fresh */
uint64_t surfbodkin_month_open(uint64_t *state, size_t words);

/* Counts a day file. Each of its messages is read once; the count is made in a copy,
   which takes the state's place when the whole file was taken. A file that is refused
   leaves the state as it was, to the word.
     0          it is counted
     refused    20 to 22 as day_check
                19 as check_names
                25, place 0: with this file there would be more than
                SURFBODKIN_MONTH_LINES namespaces
                26, place 0: with it some total, or the references to some namespace,
                would pass 2^63 - 1 */
uint64_t surfbodkin_month_add(uint64_t *state, size_t words,
                              const uint8_t *file, size_t length,
                              const uint8_t *published, size_t published_length,
                              const uint8_t *own, size_t own_length);

/* Writes the figures, each number big-endian in 8 bytes: messages, bytes, items, names
   unknown, relative references; then for each namespace, in rising order of their
   numbers, its number in two's complement and its references. To be read with
   surfbodkin_get_total and surfbodkin_get_line. The state is not changed, and may be
   counted on.
     accepted   low: the namespaces
     refused    16 as above, or place: the bytes of the figures, if `out` has fewer.
                SURFBODKIN_MONTH_BYTES always suffice */
uint64_t surfbodkin_month_read(const uint64_t *state, size_t words,
                               uint8_t *out, size_t out_length);

/* The number that a name stands for by two lists, as release takes it. Lines that are
   not well-formed match no name; they are not refused here.
     accepted   low: 1, and `number`, which must not be NULL, is set to the number in
                two's complement; or 0 and `number` is as it was */
uint64_t surfbodkin_name_number(const uint8_t *published, size_t published_length,
                                const uint8_t *own, size_t own_length,
                                const uint8_t *name, size_t name_length,
                                uint64_t *number);

/* Writes the text of a single ARI in binary form, as "ari:/UINT/10", with no zero
   byte at its end.
     accepted   count: the ARI's items; low: the text's bytes
     refused    1 to 7, 9 to 13 as check_single
                14, place: 0 for an EXECSET or RPTSET, else the first float's head
                16, place: the text's bytes */
uint64_t surfbodkin_write_text(const uint8_t *ari, size_t length,
                               uint8_t *out, size_t out_length);

/* Writes the binary form of the ARI that a text spells. Exactly the texts that
   surfbodkin_write_text writes are read, no other spelling.
     accepted   count: the ARI's items; low: its bytes
     refused    1, the text is longer than SURFBODKIN_TEXT_BYTES
                15
                16, place: the ARI's bytes */
uint64_t surfbodkin_read_text(const uint8_t *text, size_t length,
                              uint8_t *out, size_t out_length);

/* An answer's top byte: 0, a test's number, or SURFBODKIN_HELD. */
static inline unsigned surfbodkin_number(uint64_t answer) {
  return (unsigned)(answer >> 56);
}

/* Of a refusal the place, or the number that goes with it; of a no the entry. */
static inline uint64_t surfbodkin_place(uint64_t answer) {
  return answer & 0x00ffffffffffffff;
}

/* Of an acceptance the number of items, or what a function says of its count. */
static inline uint32_t surfbodkin_count(uint64_t answer) {
  return (uint32_t)(answer >> 32 & 0x00ffffff);
}

/* Of an acceptance the entries or bytes written, or what a function says of its low. */
static inline uint32_t surfbodkin_low(uint64_t answer) {
  return (uint32_t)(answer & 0xffffffff);
}

static inline uint64_t surfbodkin_get_number(const uint8_t *bytes, size_t length) {
  uint64_t number = 0;
  for (size_t k = 0; k < length; k++) number = number << 8 | bytes[k];
  return number;
}

/* What stands as a reference's namespace. */
enum surfbodkin_kind {
  SURFBODKIN_BY_NUMBER = 0,
  SURFBODKIN_BY_NAME = 1,
  SURFBODKIN_RELATIVE = 2
};

/* An entry of a listing. */
struct surfbodkin_entry {
  uint32_t first; /* the reference's first byte in the message */
  uint32_t after; /* the byte after its last */
  uint64_t kind;  /* an enum surfbodkin_kind */
  int64_t space;  /* the namespace number; the place of the name's head; 0 */
};

/* Entry k, counted from 0, of the listing in `out`. */
static inline struct surfbodkin_entry surfbodkin_get_entry(const uint8_t *out,
                                                           size_t k) {
  const uint8_t *at = out + k * SURFBODKIN_ENTRY;
  struct surfbodkin_entry entry;
  uint64_t space = surfbodkin_get_number(at + 16, 8);
  entry.first = (uint32_t)surfbodkin_get_number(at, 4);
  entry.after = (uint32_t)surfbodkin_get_number(at + 4, 4);
  entry.kind = surfbodkin_get_number(at + 8, 8);
  entry.space = space >> 63 ? -1 - (int64_t)~space : (int64_t)space;
  return entry;
}

/* The bytes of a name in a listed message, whatever head it has: `place` is the entry's
   `space`. Not for a message that was refused. */
static inline const uint8_t *surfbodkin_get_name(const uint8_t *message, int64_t place,
                                                 size_t *length) {
  const uint8_t *head = message + place;
  unsigned info = head[0] & 31;
  size_t width = info < 24 ? 0 : (size_t)1 << (info - 24);
  *length = width == 0 ? info : (size_t)surfbodkin_get_number(head + 1, width);
  return head + 1 + width;
}

/* Why an entry is held. */
enum surfbodkin_reason {
  SURFBODKIN_NOT_GRANTED = 0,  /* a number, or a name that stands for one, in no row */
  SURFBODKIN_NAME_UNKNOWN = 1, /* a name that has no line in its list */
  SURFBODKIN_NO_NAMESPACE = 2  /* a relative reference */
};

/* Of a 255 that surfbodkin_why gives: the entry, the links, the reason. */
static inline uint32_t surfbodkin_why_entry(uint64_t answer) {
  return (uint32_t)(answer & 0xffffffff);
}
static inline unsigned surfbodkin_why_links(uint64_t answer) {
  return (unsigned)(answer >> 32 & 0xffff);
}
static inline unsigned surfbodkin_why_reason(uint64_t answer) {
  return (unsigned)(answer >> 48 & 0xff);
}

/* What a container is to the one around it. */
enum surfbodkin_meaning {
  SURFBODKIN_SET = 0,               /* an EXECSET or RPTSET of the message */
  SURFBODKIN_TYPED_VALUE = 1,       /* a typed literal's value, as a set's inner array */
  SURFBODKIN_TARGET = 2,            /* of an EXECSET */
  SURFBODKIN_PARAMETERS = 3,        /* a parameter list or map */
  SURFBODKIN_PARAMETER = 4,         /* in a parameter list */
  SURFBODKIN_MAP_VALUE = 5,         /* in any map, a parameter map too */
  SURFBODKIN_REPORT = 6,            /* of an RPTSET */
  SURFBODKIN_REPORT_SOURCE = 7,
  SURFBODKIN_REPORT_ITEM = 8,
  SURFBODKIN_COLLECTION_MEMBER = 9  /* in an AC */
};

/* A link of the chain. */
struct surfbodkin_link {
  uint32_t first;   /* the container's first byte in the message */
  uint32_t after;   /* the byte after its last */
  uint64_t meaning; /* an enum surfbodkin_meaning */
  uint64_t key;     /* of a map's value the place of its key's head, else UINT64_MAX */
};

/* Link k, counted from 0, of the chain in `out`. */
static inline struct surfbodkin_link surfbodkin_get_link(const uint8_t *out, size_t k) {
  const uint8_t *at = out + k * SURFBODKIN_LINK;
  struct surfbodkin_link link;
  link.first = (uint32_t)surfbodkin_get_number(at, 4);
  link.after = (uint32_t)surfbodkin_get_number(at + 4, 4);
  link.meaning = surfbodkin_get_number(at + 8, 8);
  link.key = surfbodkin_get_number(at + 16, 8);
  return link;
}

/* What an entry of a comparison says of a position. */
enum surfbodkin_what {
  SURFBODKIN_SAME = 0,
  SURFBODKIN_CHANGED = 1,
  SURFBODKIN_ONLY_FIRST = 2,  /* the second message has no target or report there */
  SURFBODKIN_ONLY_SECOND = 3
};

/* An entry that surfbodkin_compare writes. */
struct surfbodkin_difference {
  uint64_t what;   /* an enum surfbodkin_what */
  uint64_t first;  /* if it is changed, the number of the first item that differs, */
  uint64_t second; /* counted from 0 through each message; else UINT64_MAX */
};

/* Entry k, counted from 0, of what surfbodkin_compare has written to `out`. */
static inline struct surfbodkin_difference surfbodkin_get_difference(const uint8_t *out,
                                                                     size_t k) {
  const uint8_t *at = out + k * SURFBODKIN_ENTRY;
  struct surfbodkin_difference difference;
  difference.what = surfbodkin_get_number(at, 8);
  difference.first = surfbodkin_get_number(at + 8, 8);
  difference.second = surfbodkin_get_number(at + 16, 8);
  return difference;
}

/* An entry that surfbodkin_day_search writes. */
struct surfbodkin_found {
  uint64_t message; /* the message's number */
  uint64_t first;   /* the reference's first byte in the file */
  uint64_t after;   /* the byte after its last */
};

/* Entry k, counted from 0, of what surfbodkin_day_search has written to `out`. */
static inline struct surfbodkin_found surfbodkin_get_found(const uint8_t *out,
                                                           size_t k) {
  const uint8_t *at = out + k * SURFBODKIN_ENTRY;
  struct surfbodkin_found found;
  found.message = surfbodkin_get_number(at, 8);
  found.first = surfbodkin_get_number(at + 8, 8);
  found.after = surfbodkin_get_number(at + 16, 8);
  return found;
}

/* The totals of a month, in the order in which surfbodkin_month_read writes them. */
enum surfbodkin_total {
  SURFBODKIN_MONTH_MESSAGES_TOTAL = 0,
  SURFBODKIN_MONTH_BYTES_TOTAL = 1,
  SURFBODKIN_MONTH_ITEMS_TOTAL = 2,
  SURFBODKIN_MONTH_UNKNOWN_TOTAL = 3,  /* references by names that stand for no number */
  SURFBODKIN_MONTH_RELATIVE_TOTAL = 4  /* references without a namespace */
};

static inline uint64_t surfbodkin_get_total(const uint8_t *out,
                                            enum surfbodkin_total total) {
  return surfbodkin_get_number(out + 8 * (size_t)total, 8);
}

/* A namespace of a month. */
struct surfbodkin_line {
  int64_t space;       /* its number */
  uint64_t references; /* to it */
};

/* Namespace k, counted from 0, of the figures in `out`. */
static inline struct surfbodkin_line surfbodkin_get_line(const uint8_t *out, size_t k) {
  const uint8_t *at = out + SURFBODKIN_MONTH_TOTALS + k * SURFBODKIN_MONTH_LINE;
  struct surfbodkin_line line;
  uint64_t space = surfbodkin_get_number(at, 8);
  line.space = space >> 63 ? -1 - (int64_t)~space : (int64_t)space;
  line.references = surfbodkin_get_number(at + 8, 8);
  return line;
}

/* Writes a row of a grant table, SURFBODKIN_ROW bytes. */
static inline void surfbodkin_put_row(uint8_t *row, uint64_t subscriber,
                                      int64_t space) {
  for (int k = 0; k < 8; k++) {
    row[k] = (uint8_t)(subscriber >> (56 - 8 * k));
    row[8 + k] = (uint8_t)((uint64_t)space >> (56 - 8 * k));
  }
}

#ifdef __cplusplus
}
#endif

#endif

/* A day file on the disk: how a program puts a message into it, or rewrites it as
   version 2, without losing anything. What a day file is, and all that decides, is in
   surfbodkin.h. */
#ifndef DAY_FILE_H
#define DAY_FILE_H

#include <stddef.h>
#include <stdint.h>

#ifdef __cplusplus
extern "C" {
#endif

/* Room for the words of a failure: two names of files and what went wrong. */
enum { DAY_FILE_WHY = 9000 };

/* Puts a message behind those of the day file `name`; a missing file is taken for one
   of version 2 without messages.
     0     *answer is what surfbodkin_day_add says of it; if it accepts, the file is the
           new one, on the disk, and else it is as it was
     -1    the system failed, and `why` says where and how, `FILE: reason`. The file is
           as it was, unless `why` says that the message stands in it

   The new file is written beside the old one, as NAME.new, and then renamed: whatever
   happens, and if the program is killed at any moment, the file is the old or the new
   one, whole. NAME.new is made only if it isn't there, and before the old file is read:
   so of two programs at work at the same time one is told so, and none reads what the
   other is about to replace. One that was killed leaves NAME.new behind, which has to be
   removed by hand: nobody else can tell that it isn't at work any more.

   If `name` is a symbolic link, the file that it leads to is replaced, so that the link
   stays, and NAME.new stands beside that file: who comes by another link meets it too.
   Hard links keep the old file. Only one call at a time: it has its room for the two
   files to itself, and it holds back signals. */
int day_file_add(const char *name, const uint8_t *message, size_t length,
                 uint64_t *answer, char why[DAY_FILE_WHY]);

/* Rewrites the day file `name`, of version 1, as version 2, in the same way; a file that
   is missing is a failure.
     0     *answer is what surfbodkin_day_upgrade says of it; if it accepts, the file is
           the new one, on the disk, and else it is as it was
     -1    as day_file_add */
int day_file_upgrade(const char *name, uint64_t *answer, char why[DAY_FILE_WHY]);

/* Reads up to the end or until `room` bytes are there.
     0     *length is how many
     -1    errno says why not */
int day_file_read(int from, uint8_t *to, size_t room, size_t *length);

#ifdef __cplusplus
}
#endif

#endif

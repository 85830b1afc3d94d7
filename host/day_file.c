#define _XOPEN_SOURCE 700 /* realpath */
#include "day_file.h"

#include <errno.h>
#include <fcntl.h>
#include <signal.h>
#include <stdio.h>
#include <stdlib.h>
#include <string.h>
#include <sys/stat.h>
#include <unistd.h>

#include "surfbodkin.h"

/* A file without messages is its trailer alone. */
static const uint8_t EMPTY[SURFBODKIN_DAY_TRAILER_BYTES] = {2};

/* An add or an upgrade that is at work. */
struct work {
  char *file, *fresh, *folder; /* the file, NAME.new, and the folder of both */
  int folder_at, fresh_at;     /* open, or -1 */
  int made;                    /* NAME.new is there and is ours to remove */
  int upgrades;                /* it adds nothing */
  char *why;
};

static int say(struct work *work, const char *name, const char *reason) {
  snprintf(work->why, DAY_FILE_WHY, "%s: %s", name, reason);
  return -1;
}

/* With the system's reason, errno. */
static int fail(struct work *work, const char *name) {
  return say(work, name, strerror(errno));
}

int day_file_read(int from, uint8_t *to, size_t room, size_t *length) {
  *length = 0;
  while (*length < room) {
    ssize_t got = read(from, to + *length, room - *length);
    if (got < 0 && errno == EINTR) continue;
    if (got < 0) return -1;
    if (got == 0) break;
    *length += (size_t)got;
  }
  return 0;
}

static int write_all(int to, const uint8_t *from, size_t length) {
  while (length > 0) {
    ssize_t put = write(to, from, length);
    if (put < 0 && errno == EINTR) continue;
    if (put < 0) return -1;
    from += put;
    length -= (size_t)put;
  }
  return 0;
}

static int sync_to_disk(int file) {
  int status;
  do status = fsync(file);
  while (status != 0 && errno == EINTR);
  return status;
}

/* Finds the file behind a link, and the names that go with it. */
static int find_names(struct work *work, const char *name) {
  struct stat there;
  if (lstat(name, &there) == 0 && S_ISLNK(there.st_mode)) {
    work->file = realpath(name, NULL);
    /* The file could be made, but a day that begins anew because a disk is not in its
       place is more likely. */
    if (work->file == NULL && errno == ENOENT) {
      return say(work, name, "a link to a file that is not there");
    }
  } else {
    work->file = strdup(name);
  }
  if (work->file == NULL) return fail(work, name);
  size_t length = strlen(work->file);
  work->fresh = malloc(length + sizeof ".new");
  work->folder = malloc(length + sizeof ".");
  if (work->fresh == NULL || work->folder == NULL) return fail(work, name);
  strcat(strcpy(work->fresh, work->file), ".new");
  char *slash = strrchr(strcpy(work->folder, work->file), '/');
  if (slash == NULL) {
    strcpy(work->folder, ".");
  } else {
    slash[slash == work->folder] = '\0'; /* of "/day" the slash stays */
  }
  return 0;
}

/* Makes NAME.new, which is the lock as well. */
static int make_fresh(struct work *work) {
  struct stat old;
  mode_t mode = 0666; /* the umask is taken off by the system */
  if (stat(work->file, &old) == 0) {
    /* A device must not be opened, far less be replaced. */
    if (S_ISDIR(old.st_mode)) return say(work, work->file, strerror(EISDIR));
    if (!S_ISREG(old.st_mode)) return say(work, work->file, "not a regular file");
    mode = old.st_mode & 0777;
  } else if (errno != ENOENT || work->upgrades) {
    return fail(work, work->file);
  }
  /* Opened first: after the renaming nothing shall fail that could have before. */
  work->folder_at = open(work->folder, O_RDONLY | O_DIRECTORY | O_CLOEXEC);
  if (work->folder_at < 0) return fail(work, work->folder);
  work->fresh_at = open(work->fresh, O_WRONLY | O_CREAT | O_EXCL | O_CLOEXEC, mode);
  if (work->fresh_at < 0 && errno == EEXIST) {
    return say(work, work->fresh,
               "is there already: another add or upgrade is at work, or one was broken"
               " off; once none is at work, remove it and try again");
  }
  if (work->fresh_at < 0) return fail(work, work->fresh);
  work->made = 1;
  return 0;
}

/* Reads the old file, or what stands for a missing one, and gives its mode and owner to
   the new one. */
static int read_old(struct work *work, uint8_t *to, size_t room, size_t *length) {
  struct stat old, fresh;
  /* It is not written; but one that may not be written is not to be replaced either. */
  int from = open(work->file, O_RDWR | O_CLOEXEC);
  if (from < 0 && errno == ENOENT && !work->upgrades) {
    memcpy(to, EMPTY, sizeof EMPTY);
    *length = sizeof EMPTY;
    return 0;
  }
  if (from < 0) return fail(work, work->file);
  int status = day_file_read(from, to, room, length);
  if (status == 0) status = fstat(from, &old);
  if (status != 0) fail(work, work->file);
  close(from);
  if (status != 0) return status;
  if (fstat(work->fresh_at, &fresh) != 0) return fail(work, work->fresh);
  /* Where the owner may not be given, at least the group, and where neither, neither:
     who may write the file may add to it. The mode comes after, since another owner
     takes bits off. */
  if ((old.st_uid != fresh.st_uid || old.st_gid != fresh.st_gid) &&
      fchown(work->fresh_at, old.st_uid, old.st_gid) != 0 &&
      fchown(work->fresh_at, (uid_t)-1, old.st_gid) != 0 && errno != EPERM) {
    return fail(work, work->fresh);
  }
  if (fchmod(work->fresh_at, old.st_mode & 0777) != 0) {
    return fail(work, work->fresh);
  }
  return 0;
}

/* Writes the new file and puts it in the old one's place. */
static int put_new(struct work *work, const uint8_t *from, size_t length) {
  struct stat ours, there;
  if (write_all(work->fresh_at, from, length) != 0 || sync_to_disk(work->fresh_at) != 0 ||
      fstat(work->fresh_at, &ours) != 0) {
    return fail(work, work->fresh);
  }
  /* If it was removed after all, the one that is there is another's, not yet whole. */
  int gone = lstat(work->fresh, &there);
  if (gone != 0 && errno != ENOENT) return fail(work, work->fresh);
  if (gone != 0 || there.st_dev != ours.st_dev || there.st_ino != ours.st_ino) {
    work->made = 0;
    return say(work, work->fresh, "was removed while this was at work; try again");
  }
  int closed = close(work->fresh_at);
  work->fresh_at = -1;
  if (closed != 0 && errno != EINTR) return fail(work, work->fresh);
  if (rename(work->fresh, work->file) != 0) return fail(work, work->file);
  work->made = 0;
  /* Some file systems have no such call for a folder. */
  if (sync_to_disk(work->folder_at) != 0 && errno != EINVAL) {
    int error = errno;
    snprintf(work->why, DAY_FILE_WHY,
             "%s: %s: %s stands in %s, but may be lost with the power", work->folder,
             strerror(error), work->upgrades ? "version 2" : "the message", work->file);
    return -1;
  }
  return 0;
}

static int replace(struct work *work, const uint8_t *message, size_t length,
                   uint64_t *answer) {
  static uint8_t old[SURFBODKIN_DAY_BYTES + 1], fresh[SURFBODKIN_DAY_BYTES];
  size_t old_length;
  if (make_fresh(work) != 0) return -1;
  if (read_old(work, old, sizeof old, &old_length) != 0) return -1;
  *answer = work->upgrades
                ? surfbodkin_day_upgrade(old, old_length, fresh, sizeof fresh)
                : surfbodkin_day_add(old, old_length, message, length, fresh, sizeof fresh);
  if (surfbodkin_number(*answer) != SURFBODKIN_ACCEPTED) return 0;
  return put_new(work, fresh, surfbodkin_low(*answer));
}

static int safely(const char *name, int upgrades, const uint8_t *message, size_t length,
                  uint64_t *answer, char why[DAY_FILE_WHY]) {
  struct work work = {.folder_at = -1, .fresh_at = -1, .upgrades = upgrades, .why = why};
  int status = find_names(&work, name);
  if (status == 0) {
    /* Who breaks off by hand shall not leave NAME.new behind: signals wait so long. A
       limit on the size of files shall be an error and no signal. */
    sigset_t waiting, before;
    struct sigaction ignore = {.sa_handler = SIG_IGN}, size_before;
    sigemptyset(&waiting);
    sigaddset(&waiting, SIGHUP);
    sigaddset(&waiting, SIGINT);
    sigaddset(&waiting, SIGQUIT);
    sigaddset(&waiting, SIGTERM);
    sigprocmask(SIG_BLOCK, &waiting, &before);
    sigaction(SIGXFSZ, &ignore, &size_before);
    status = replace(&work, message, length, answer);
    if (work.fresh_at >= 0) close(work.fresh_at);
    if (work.folder_at >= 0) close(work.folder_at);
    if (work.made && unlink(work.fresh) != 0) {
      size_t said = status == 0 ? 0 : strlen(why);
      snprintf(why + said, DAY_FILE_WHY - said, "%s%s: %s; remove it",
               said == 0 ? "" : "; ", work.fresh, strerror(errno));
      status = -1;
    }
    sigaction(SIGXFSZ, &size_before, NULL);
    sigprocmask(SIG_SETMASK, &before, NULL);
  }
  free(work.file);
  free(work.fresh);
  free(work.folder);
  return status;
}

int day_file_add(const char *name, const uint8_t *message, size_t length,
                 uint64_t *answer, char why[DAY_FILE_WHY]) {
  return safely(name, 0, message, length, answer, why);
}

int day_file_upgrade(const char *name, uint64_t *answer, char why[DAY_FILE_WHY]) {
  return safely(name, 1, NULL, 0, answer, why);
}

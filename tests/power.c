/* A power failure, as a library that is preloaded. It counts the calls that write, cut, sync or rename
   files. At the call with the number FAIL_AT the power fails, before the call or after it: what was
   written since a file's last sync is kept, lost or torn, sector by sector, and the process is killed.
   A rename since the last sync of the folder may be undone. SEED decides what is lost. With ERROR_AT
   that call and each later one fails instead, and does nothing. If the process is not killed, the
   number of calls is written to the file with the name COUNT_TO. */
#define _GNU_SOURCE
#include <dlfcn.h>
#include <errno.h>
#include <fcntl.h>
#include <signal.h>
#include <stdio.h>
#include <stdlib.h>
#include <string.h>
#include <sys/stat.h>
#include <unistd.h>

enum { FILES = 64, SECTOR = 512 };
struct bytes { unsigned char *at; size_t len; };
/* What a sync has made durable of each open file that was written. */
static struct { int is_known, is_dirty; struct bytes durable; } files[FILES];
/* The file that a rename has replaced, until the folder is synced. */
static struct { char path[4096]; struct bytes before; int is_pending; } renamed;
static long calls;
static int is_over;
static unsigned long state;

#define NEXT(name) \
  static __typeof__(name) *next_##name; \
  if (next_##name == NULL) next_##name = dlsym(RTLD_NEXT, #name)

static unsigned long number_below(unsigned long most) {
  state = state * 6364136223846793005UL + 1442695040888963407UL;
  return (state >> 33) % most;
}

static struct bytes whole(int fd) {
  struct stat info;
  struct bytes all = {NULL, 0};
  if (fstat(fd, &info) != 0 || !S_ISREG(info.st_mode)) return all;
  char path[64];
  snprintf(path, sizeof path, "/proc/self/fd/%d", fd);
  int again = open(path, O_RDONLY);
  all.at = malloc(info.st_size + 1);
  while (all.len < (size_t)info.st_size) {
    ssize_t got = read(again, all.at + all.len, info.st_size - all.len);
    if (got <= 0) break;
    all.len += got;
  }
  close(again);
  return all;
}

static void put(const char *path, struct bytes bytes) {
  int fd = open(path, O_WRONLY | O_CREAT | O_TRUNC, 0666);
  for (size_t done = 0; done < bytes.len;) done += write(fd, bytes.at + done, bytes.len - done);
  close(fd);
}

/* What a power failure leaves of a file: of each sector the old bytes, the new ones, or others where
   they differ, and one of both lengths or one between. */
static struct bytes torn(struct bytes old, struct bytes new) {
  size_t most = old.len > new.len ? old.len : new.len, least = old.len + new.len - most;
  struct bytes left = {calloc(most + 1, 1), most};
  for (size_t at = 0; at < most; at += SECTOR) {
    unsigned long kind = number_below(4);
    size_t edge = at + number_below(SECTOR);
    for (size_t i = at; i < at + SECTOR && i < most; i++) {
      unsigned char was = i < old.len ? old.at[i] : 0, is = i < new.len ? new.at[i] : 0;
      int is_new = kind == 0 || (kind == 1 && i < edge);
      left.at[i] = was == is ? is : kind == 3 ? number_below(256) : is_new ? is : was;
    }
  }
  unsigned long choice = number_below(3);
  left.len = choice == 0 ? least : choice == 1 ? most : least + number_below(most - least + 1);
  return left;
}

static void fail(void) {
  for (int fd = 0; fd < FILES; fd++)
    if (files[fd].is_dirty) {
      char path[64];
      snprintf(path, sizeof path, "/proc/self/fd/%d", fd);
      put(path, torn(files[fd].durable, whole(fd)));
    }
  if (renamed.is_pending && number_below(2)) {
    unlink(renamed.path);
    put(renamed.path, renamed.before);
  }
  raise(SIGKILL);
}

static long number_in(const char *name) {
  const char *text = getenv(name);
  return text == NULL ? 0 : atol(text);
}

static int is_now(void) {
  if (++calls == 1) state = number_in("SEED") * 2654435761UL + 1;
  return calls == number_in("FAIL_AT");
}

static int is_refused(void) { return number_in("ERROR_AT") > 0 && calls >= number_in("ERROR_AT"); }

/* A call of the file at a descriptor. The power fails before it or after it. */
#define AROUND(result_of) do { \
    int fails = is_now(), before = fails && number_below(2); \
    if (is_refused()) { errno = EIO; return -1; } \
    if (before) fail(); \
    __typeof__(result_of) result = (result_of); \
    if (fails) fail(); \
    return result; \
  } while (0)

static void will_write(int fd) {
  if (fd < 3 || fd >= FILES) return;
  if (!files[fd].is_known) files[fd].durable = whole(fd);
  files[fd].is_known = files[fd].is_dirty = 1;
}

static int synced(int fd, int result) {
  struct stat info;
  if (fstat(fd, &info) == 0 && S_ISDIR(info.st_mode)) renamed.is_pending = 0;
  if (fd >= 3 && fd < FILES && S_ISREG(info.st_mode)) {
    free(files[fd].durable.at);
    files[fd].durable = whole(fd);
    files[fd].is_known = 1;
    files[fd].is_dirty = 0;
  }
  return result;
}

ssize_t pwrite64(int fd, const void *bytes, size_t count, off64_t at) {
  NEXT(pwrite64);
  will_write(fd);
  AROUND(next_pwrite64(fd, bytes, count, at));
}
ssize_t pwrite(int fd, const void *bytes, size_t count, off_t at) {
  return pwrite64(fd, bytes, count, at);
}
ssize_t write(int fd, const void *bytes, size_t count) {
  NEXT(write);
  if (fd < 3 || is_over) return next_write(fd, bytes, count);
  will_write(fd);
  AROUND(next_write(fd, bytes, count));
}
int ftruncate64(int fd, off64_t len) {
  NEXT(ftruncate64);
  will_write(fd);
  AROUND(next_ftruncate64(fd, len));
}
int ftruncate(int fd, off_t len) { return ftruncate64(fd, len); }
int fsync(int fd) {
  NEXT(fsync);
  AROUND(synced(fd, next_fsync(fd)));
}
int fdatasync(int fd) {
  NEXT(fdatasync);
  AROUND(synced(fd, next_fdatasync(fd)));
}
int rename(const char *from, const char *to) {
  NEXT(rename);
  int fd = open(to, O_RDONLY);
  snprintf(renamed.path, sizeof renamed.path, "%s", to);
  renamed.before = fd < 0 ? (struct bytes){NULL, 0} : whole(fd);
  renamed.is_pending = fd >= 0;
  close(fd);
  AROUND(next_rename(from, to));
}
int close(int fd) {
  NEXT(close);
  if (fd >= 3 && fd < FILES) files[fd].is_known = files[fd].is_dirty = 0;
  return next_close(fd);
}
__attribute__((destructor)) static void write_count(void) {
  const char *name = getenv("COUNT_TO");
  is_over = 1;
  int fd = name == NULL ? -1 : open(name, O_WRONLY | O_CREAT | O_TRUNC, 0666);
  if (fd >= 0) dprintf(fd, "%ld", calls);
}

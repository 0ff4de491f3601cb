// Stands between the program and the C library: counts its calls, records them, shortens them, lets them fail, or ends the process at one
// of them. To be loaded by LD_PRELOAD. Each variable of the environment that is set does one thing:
//
//   CALLS_FAIL=NAME:NUMBER:ERROR   the call NAME with this NUMBER, from 1 on, answers the error of this number; an error 0 is an answer of
//                                  no byte. With a `+` after NUMBER each call from there on does so. A refused request for memory is
//                                  `malloc:N:12` or `realloc:N:12`, or `memory:N:12`, where both are counted together.
//   CALLS_KILL=NAME:NUMBER:WHEN    the process is killed `before`, `half` through or `after` this call
//   CALLS_SHORT=N                  a read or a write passes at most N bytes
//   CALLS_INTERRUPT=1              each first, third, .. read, write, open and fsync is interrupted by a signal
//   CALLS_FULL=N                   the disk takes N more bytes
//   CALLS_COUNTS=FILE              a file of 64 numbers of 8 bytes, which is mapped: the calls of each kind, in the order of `names`, and
//                                  in the last one 1 plus what the first call that failed was about (below, `subject`)
//   CALLS_RECORD=FILE              what changes files is appended to this file, a line each, and so is what is written to standard output
#define _GNU_SOURCE
#include <errno.h>
#include <fcntl.h>
#include <signal.h>
#include <stdarg.h>
#include <stdint.h>
#include <stdio.h>
#include <stdlib.h>
#include <string.h>
#include <sys/mman.h>
#include <sys/stat.h>
#include <sys/syscall.h>
#include <sys/uio.h>
#include <unistd.h>

void *__libc_malloc(size_t);
void *__libc_calloc(size_t, size_t);
void *__libc_realloc(void *, size_t);

enum Kind { MALLOC, REALLOC, OPEN, READ, WRITE, LSEEK, FSYNC, RENAME, CLOSE, STATX, FTRUNCATE, MEMORY, KINDS };

static const char *const names[KINDS] = {"malloc", "realloc", "open", "read", "write", "lseek", "fsync", "rename", "close", "statx", "ftruncate", "memory"};

enum How { PASS, FAIL, BEFORE, HALF, AFTER };

// What a call is about: a standard stream by its number, or anything else.
enum { ELSEWHERE = 3 };

static uint64_t own[64];
static uint64_t *counts = own;
static int fail_kind = -1, kill_kind = -1, fail_error, is_from_there_on, is_interrupting, record = -1;
static uint64_t fail_number, kill_number;
static enum How kill_how;
static size_t most = SIZE_MAX;
static uint64_t room = UINT64_MAX;

static int kind_of(const char *name, size_t len) {
  for (int kind = 0; kind < KINDS; kind++)
    if (strlen(names[kind]) == len && !strncmp(names[kind], name, len)) return kind;
  return -1;
}

// NAME:NUMBER[+]: and what follows.
static const char *parse(const char *text, int *kind, uint64_t *number, int *is_plus) {
  const char *colon = strchr(text, ':');
  char *end;
  *kind = kind_of(text, colon - text);
  *number = strtoull(colon + 1, &end, 10);
  *is_plus = *end == '+';
  return end + *is_plus + 1;
}

// A file of our own under a number that the program doesn't get.
static int open_high(const char *path, int flags) {
  int low = syscall(SYS_openat, AT_FDCWD, path, flags, 0600);
  int high = fcntl(low, F_DUPFD_CLOEXEC, 200);
  syscall(SYS_close, low);
  return high;
}

__attribute__((constructor)) static void begin(void) {
  const char *text;
  int unused;
  if ((text = getenv("CALLS_COUNTS"))) {
    int file = open_high(text, O_RDWR);
    void *map = mmap(NULL, sizeof own, PROT_READ | PROT_WRITE, MAP_SHARED, file, 0);
    if (map != MAP_FAILED) counts = map;
    syscall(SYS_close, file);
  }
  if ((text = getenv("CALLS_RECORD"))) record = open_high(text, O_WRONLY | O_APPEND | O_CREAT);
  if ((text = getenv("CALLS_SHORT"))) most = strtoull(text, NULL, 10);
  if ((text = getenv("CALLS_FULL"))) room = strtoull(text, NULL, 10);
  if ((text = getenv("CALLS_INTERRUPT"))) is_interrupting = 1;
  if ((text = getenv("CALLS_KILL"))) {
    text = parse(text, &kill_kind, &kill_number, &unused);
    kill_how = !strcmp(text, "before") ? BEFORE : !strcmp(text, "half") ? HALF : AFTER;
  }
  if ((text = getenv("CALLS_FAIL"))) fail_error = atoi(parse(text, &fail_kind, &fail_number, &is_from_there_on));
  memset(counts, 0, sizeof own);
}

static void die(void) { syscall(SYS_kill, syscall(SYS_getpid), SIGKILL); }

// What happens at this call, the next one of its kind.
static enum How next_call(enum Kind kind, int about) {
  uint64_t number = ++counts[kind];
  if ((int)kind == kill_kind && number == kill_number) {
    if (kill_how == BEFORE) die();
    return kill_how;
  }
  if ((int)kind == fail_kind && (number == fail_number || (is_from_there_on && number > fail_number))) {
    if (!counts[63]) counts[63] = 1 + (about >= 0 && about < 3 ? about : ELSEWHERE);
    errno = fail_error;
    return FAIL;
  }
  if (is_interrupting && number % 2 && (kind == READ || kind == WRITE || kind == OPEN || kind == FSYNC)) {
    errno = EINTR;
    return FAIL;
  }
  return PASS;
}

static long failed(void) { return errno ? -1 : 0; }

// The answer of a call that was made, unless the process ends there.
static long after(enum How how, long answer) {
  if (how != PASS) die();
  return answer;
}

// A line of the record, as one write.
static void note(const char *format, ...) {
  char line[512];
  int saved = errno;
  if (record < 0) return;
  va_list rest;
  va_start(rest, format);
  int len = vsnprintf(line, sizeof line, format, rest);
  va_end(rest);
  syscall(SYS_write, record, line, len);
  errno = saved;
}

static void note_bytes(const unsigned char *bytes, size_t count) {
  char line[512];
  if (record < 0) return;
  for (size_t at = 0; at < count; at += 200) {
    int len = 0;
    for (size_t k = at; k < count && k < at + 200; k++) len += sprintf(line + len, "%02x", bytes[k]);
    syscall(SYS_write, record, line, len);
  }
  syscall(SYS_write, record, "\n", 1);
}

static int is_refused(enum Kind kind) {
  return next_call(kind, -1) == FAIL || next_call(MEMORY, -1) == FAIL;
}

void *malloc(size_t size) { return is_refused(MALLOC) ? NULL : __libc_malloc(size); }

void *calloc(size_t count, size_t size) { return is_refused(MALLOC) ? NULL : __libc_calloc(count, size); }

void *realloc(void *old, size_t size) { return is_refused(REALLOC) ? NULL : __libc_realloc(old, size); }

int openat(int folder, const char *path, int flags, ...) {
  va_list rest;
  va_start(rest, flags);
  mode_t mode = flags & O_CREAT ? va_arg(rest, mode_t) : 0;
  va_end(rest);
  enum How how = next_call(OPEN, -1);
  if (how == FAIL) return failed();
  int is_new = flags & O_CREAT && syscall(SYS_faccessat, folder, path, F_OK) != 0;
  int file = syscall(SYS_openat, folder, path, flags, mode);
  if (file >= 0) note("open %d %d %d %s\n", file, is_new, !!(flags & O_TRUNC), path);
  return after(how, file);
}

int open(const char *path, int flags, ...) {
  va_list rest;
  va_start(rest, flags);
  mode_t mode = flags & O_CREAT ? va_arg(rest, mode_t) : 0;
  va_end(rest);
  return openat(AT_FDCWD, path, flags, mode);
}

ssize_t read(int file, void *to, size_t count) {
  enum How how = next_call(READ, file);
  if (how == FAIL) return failed();
  return after(how, syscall(SYS_read, file, to, count > most ? most : count));
}

ssize_t write(int file, const void *from, size_t count) {
  enum How how = next_call(WRITE, file);
  if (how == FAIL) return failed();
  if (how == HALF) count /= 2;
  if (count > most) count = most;
  if (file > 2 && room != UINT64_MAX) {
    if (!room && count) {
      if (!counts[63]) counts[63] = 1 + ELSEWHERE;
      errno = ENOSPC;
      return -1;
    }
    if (count > room) count = room;
    room -= count;
  }
  long at = syscall(SYS_lseek, file, 0, SEEK_CUR);
  if (at < 0) errno = 0;
  long answer = syscall(SYS_write, file, from, count);
  if (answer > 0 && (file == 1 || file > 2) && record >= 0) {
    if (file == 1) note("reply ");
    else note("write %d %ld ", file, at);
    note_bytes(from, answer);
  }
  return after(how, answer);
}

ssize_t writev(int file, const struct iovec *parts, int count) {
  for (int k = 0; k < count; k++)
    if (parts[k].iov_len) return write(file, parts[k].iov_base, parts[k].iov_len);
  return 0;
}

off_t lseek(int file, off_t by, int whence) {
  enum How how = next_call(LSEEK, file);
  return how == FAIL ? failed() : after(how, syscall(SYS_lseek, file, by, whence));
}

static int sync_file(int file) {
  enum How how = next_call(FSYNC, file);
  if (how == FAIL) {
    note("unsynced %d\n", file);
    return failed();
  }
  // Nothing stops this machine, so nothing has to reach its disk.
  int answer = syscall(SYS_fcntl, file, F_GETFD) < 0 ? -1 : 0;
  note("fsync %d\n", file);
  return after(how, answer);
}

int fsync(int file) { return sync_file(file); }

int fdatasync(int file) { return sync_file(file); }

int rename(const char *from, const char *to) {
  enum How how = next_call(RENAME, -1);
  if (how == FAIL) return failed();
  int answer = syscall(SYS_rename, from, to);
  if (!answer) note("rename %s %s\n", from, to);
  return after(how, answer);
}

int close(int file) {
  enum How how = next_call(CLOSE, file);
  int answer = syscall(SYS_close, file);
  note("close %d\n", file);
  return how == FAIL ? failed() : after(how, answer);
}

int ftruncate(int file, off_t len) {
  enum How how = next_call(FTRUNCATE, file);
  if (how == FAIL) return failed();
  int answer = syscall(SYS_ftruncate, file, len);
  if (!answer) note("truncate %d %ld\n", file, (long)len);
  return after(how, answer);
}

int statx(int folder, const char *path, int flags, unsigned mask, struct statx *to) {
  enum How how = next_call(STATX, -1);
  return how == FAIL ? failed() : after(how, syscall(SYS_statx, folder, path, flags, mask, to));
}

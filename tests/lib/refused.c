/* Refuses calls of the program that is run with this library preloaded: of the kind in REFUSED_KIND (memory, input,
   output, receive, send, disk, log or database) the one whose number is in REFUSED_NUMBER, counted from 1. The last three
   are calls of all files of the disk, of logs (whose names end in -wal), and of all others: each one after that number
   is refused too. Writes how many of that kind there were to the file REFUSED_COUNT, if it is named. Reads and writes of
   the kinds before disk take at most PIECE bytes. If the folder REFUSED_SYNCED is named, it has what a machine without
   power would keep: the bytes that each file had when it was synced last. */
#define _GNU_SOURCE
#include <errno.h>
#include <fcntl.h>
#include <limits.h>
#include <stdio.h>
#include <stdlib.h>
#include <string.h>
#include <sys/socket.h>
#include <sys/stat.h>
#include <sys/syscall.h>
#include <unistd.h>

#define PIECE 7

extern void *__libc_malloc(size_t);
extern void *__libc_realloc(void *, size_t);

static const char *kind = NULL;
static long calls, refused;

static int is_counted(const char *name) {
  if (!kind) {
    const char *number = getenv("REFUSED_NUMBER");
    const char *chosen = getenv("REFUSED_KIND");
    refused = number ? atol(number) : 0;
    kind = chosen ? chosen : "";
  }
  return strcmp(kind, name) == 0;
}

static int is_for_good(void) { return is_counted("disk") || is_counted("log") || is_counted("database"); }

static int is_refused(const char *name, int fault) {
  if (!is_counted(name)) return 0;
  calls += 1;
  if (refused == 0 || (is_for_good() ? calls < refused : calls != refused)) return 0;
  errno = fault;
  return 1;
}

/* The path of an open file; the program ends if it has none. */
static void find_path(int file, char path[PATH_MAX]) {
  char link[64];
  snprintf(link, sizeof link, "/proc/self/fd/%d", file);
  ssize_t length = readlink(link, path, PATH_MAX - 1);
  if (length < 0) abort();
  path[length] = 0;
}

static int is_disk_refused(int file) {
  if (is_counted("disk")) return is_refused("disk", EIO);
  if (!is_for_good()) return 0;
  char path[PATH_MAX];
  find_path(file, path);
  size_t length = strlen(path);
  int is_log = length > 4 && strcmp(path + length - 4, "-wal") == 0;
  return is_refused(is_log ? "log" : "database", EIO);
}

/* Copies what a file has now, which was synced, to the folder of what is kept; the status of the call that synced it. */
static int keep_synced(int file, long status) {
  const char *folder = getenv("REFUSED_SYNCED");
  struct stat kind_of_file;
  if (status != 0 || !folder || fstat(file, &kind_of_file) != 0 || !S_ISREG(kind_of_file.st_mode)) return (int)status;
  char path[PATH_MAX], copy[2 * PATH_MAX], bytes[4096];
  find_path(file, path);
  snprintf(copy, sizeof copy, "%s%s", folder, strrchr(path, '/'));
  int kept = open(copy, O_WRONLY | O_CREAT | O_TRUNC, 0600);
  if (kept < 0) abort();
  ssize_t count;
  for (off_t at = 0; (count = syscall(SYS_pread64, file, bytes, sizeof bytes, at)) > 0; at += count)
    if (syscall(SYS_write, kept, bytes, count) != count) abort();
  close(kept);
  return 0;
}

static size_t piece(const char *name, size_t count) { return is_counted(name) && count > PIECE ? PIECE : count; }

void *malloc(size_t size) { return is_refused("memory", ENOMEM) ? NULL : __libc_malloc(size); }

void *realloc(void *block, size_t size) { return is_refused("memory", ENOMEM) ? NULL : __libc_realloc(block, size); }

ssize_t read(int file, void *bytes, size_t count) {
  if (file == 0 && is_refused("input", EIO)) return -1;
  return syscall(SYS_read, file, bytes, file == 0 ? piece("input", count) : count);
}

ssize_t write(int file, const void *bytes, size_t count) {
  if (file == 1 && is_refused("output", EIO)) return -1;
  return syscall(SYS_write, file, bytes, file == 1 ? piece("output", count) : count);
}

ssize_t __write(int file, const void *bytes, size_t count) { return write(file, bytes, count); }

ssize_t recv(int file, void *bytes, size_t count, int flags) {
  if (is_refused("receive", EIO)) return -1;
  return syscall(SYS_recvfrom, file, bytes, piece("receive", count), flags, NULL, NULL);
}

ssize_t send(int file, const void *bytes, size_t count, int flags) {
  if (is_refused("send", EIO)) return -1;
  return syscall(SYS_sendto, file, bytes, piece("send", count), flags, NULL, 0);
}

ssize_t pread(int file, void *bytes, size_t count, off_t at) {
  if (is_disk_refused(file)) return -1;
  return syscall(SYS_pread64, file, bytes, count, at);
}

ssize_t pwrite(int file, const void *bytes, size_t count, off_t at) {
  if (is_disk_refused(file)) return -1;
  return syscall(SYS_pwrite64, file, bytes, count, at);
}

int fsync(int file) { return is_disk_refused(file) ? -1 : keep_synced(file, syscall(SYS_fsync, file)); }

int fdatasync(int file) { return is_disk_refused(file) ? -1 : keep_synced(file, syscall(SYS_fdatasync, file)); }

int ftruncate(int file, off_t size) {
  return is_disk_refused(file) ? -1 : (int)syscall(SYS_ftruncate, file, size);
}

__attribute__((destructor)) static void tell(void) {
  const char *path = getenv("REFUSED_COUNT");
  long counted = calls;
  FILE *file = path ? fopen(path, "w") : NULL;
  if (file) {
    fprintf(file, "%ld\n", counted);
    fclose(file);
  }
}

/* Calls of the system that fail, are short or are interrupted. To be preloaded: bench/faults.py builds and uses it, and says what its words are.

   FAULT_CALL (fsync, pwrite, ftruncate, fadvise) and FAULT_NUMBER name the call that fails, counted from 1 among those of its kind; FAULT_HOW says how: `error` and
   `space` do nothing, `torn` writes half of the piece before. FAULT_SHORT makes each pread and pwrite one byte short, FAULT_BREAK interrupts every second call.
   FAULT_COUNT is the file that is told, at the end, how many calls of each kind there were.

   FAULT_DISK is a directory that stands for the disk: a file that is synced is copied there. After a sync that failed, as on Linux, the system takes the file for clean:
   it still gives the bytes that the disk has not, further syncs succeed and write nothing of them, and only POSIX_FADV_DONTNEED brings the disk's own bytes back. */
#define _GNU_SOURCE
#include <errno.h>
#include <fcntl.h>
#include <limits.h>
#include <stdio.h>
#include <stdlib.h>
#include <string.h>
#include <sys/stat.h>
#include <sys/syscall.h>
#include <unistd.h>

enum { FSYNC, PWRITE, FTRUNCATE, FADVISE, KINDS };

static const char *const NAMES[KINDS] = {"fsync", "pwrite", "ftruncate", "fadvise"};
static long counts[KINDS], calls;

static int is_due(int kind) {
  const char *name = getenv("FAULT_CALL"), *number = getenv("FAULT_NUMBER");
  counts[kind]++;
  return name && number && !strcmp(name, NAMES[kind]) && counts[kind] == atol(number);
}

static int is_broken(void) {
  return getenv("FAULT_BREAK") && ++calls % 2 == 1;
}

static int fault(int code) {
  errno = code;
  return -1;
}

/* The path of the file's copy on the disk, with an ending; 0 for what is no plain file, and where no disk is kept. */
static int on_disk(int fd, const char *ending, char *path) {
  char link[64], name[PATH_MAX];
  const char *disk = getenv("FAULT_DISK");
  struct stat about;
  if (!disk || fstat(fd, &about) || !S_ISREG(about.st_mode))
    return 0;
  snprintf(link, sizeof link, "/proc/self/fd/%d", fd);
  ssize_t length = readlink(link, name, sizeof name - 1);
  if (length < 0)
    return 0;
  name[length] = 0;
  snprintf(path, PATH_MAX, "%s/%s%s", disk, strrchr(name, '/') + 1, ending);
  return 1;
}

static void copy(int from, int to) {
  char bytes[65536];
  long place = 0, count;
  while ((count = syscall(SYS_pread64, from, bytes, sizeof bytes, place)) > 0) {
    syscall(SYS_pwrite64, to, bytes, count, place);
    place += count;
  }
  syscall(SYS_ftruncate, to, place);
}

int fsync(int fd) {
  char path[PATH_MAX], lost[PATH_MAX];
  int is_kept = on_disk(fd, "", path) && on_disk(fd, ".lost", lost);
  if (is_broken())
    return fault(EINTR);
  if (is_due(FSYNC)) {
    if (is_kept)
      close(syscall(SYS_open, lost, O_CREAT | O_WRONLY, 0644));
    return fault(EIO);
  }
  if (is_kept && access(lost, F_OK)) {
    int to = syscall(SYS_open, path, O_CREAT | O_RDWR, 0644);
    copy(fd, to);
    close(to);
  }
  return syscall(SYS_fsync, fd);
}

int fdatasync(int fd) { return fsync(fd); }

int posix_fadvise(int fd, off_t at, off_t count, int advice) {
  char path[PATH_MAX], lost[PATH_MAX];
  if (is_due(FADVISE))
    return EIO;
  if (advice == POSIX_FADV_DONTNEED && on_disk(fd, "", path) && on_disk(fd, ".lost", lost) && !access(lost, F_OK)) {
    int from = syscall(SYS_open, path, O_CREAT | O_RDONLY, 0644);
    copy(from, fd);
    close(from);
    unlink(lost);
  }
  return 0;
}

ssize_t pwrite64(int fd, const void *piece, size_t count, off_t at) {
  const char *how = getenv("FAULT_HOW");
  if (is_broken())
    return fault(EINTR);
  if (is_due(PWRITE)) {
    if (how && !strcmp(how, "torn"))
      syscall(SYS_pwrite64, fd, piece, count / 2, at);
    return fault(how && !strcmp(how, "space") ? ENOSPC : EIO);
  }
  return syscall(SYS_pwrite64, fd, piece, count - (getenv("FAULT_SHORT") && count > 1), at);
}

ssize_t pwrite(int fd, const void *piece, size_t count, off_t at) { return pwrite64(fd, piece, count, at); }

ssize_t pread64(int fd, void *room, size_t count, off_t at) {
  if (is_broken())
    return fault(EINTR);
  return syscall(SYS_pread64, fd, room, count - (getenv("FAULT_SHORT") && count > 1), at);
}

ssize_t pread(int fd, void *room, size_t count, off_t at) { return pread64(fd, room, count, at); }

int ftruncate64(int fd, off_t length) {
  if (is_broken())
    return fault(EINTR);
  return is_due(FTRUNCATE) ? fault(EIO) : (int)syscall(SYS_ftruncate, fd, length);
}

int ftruncate(int fd, off_t length) { return ftruncate64(fd, length); }

__attribute__((destructor)) static void tell(void) {
  const char *name = getenv("FAULT_COUNT");
  FILE *file = name ? fopen(name, "w") : NULL;
  if (file) {
    for (int kind = 0; kind < KINDS; kind++)
      fprintf(file, "%s %ld\n", NAMES[kind], counts[kind]);
    fclose(file);
  }
}

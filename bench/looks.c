/* What the calls of a local transaction of one write cost a log file, with and without looks at the file's name: `looks DIR TRANSACTIONS`. Each
   transaction is a write of 40 bytes, a sync, a write of one byte and a sync. Prints the processor time of a transaction, and its time on the clock,
   with no look, with a look before each sync, with one before each write too, as `co_files` has it, and with the transcript told as well: one write
   for each of its three lines. */
#define _GNU_SOURCE
#include <fcntl.h>
#include <stdio.h>
#include <stdlib.h>
#include <sys/resource.h>
#include <sys/stat.h>
#include <time.h>
#include <unistd.h>

enum { BATCH = 40, FIRST = 5, LINES = 3, ITEM = 24 };

enum looks { NONE, BEFORE_SYNCS, BEFORE_ALL, AND_TOLD };

static double spent(void) {
  struct rusage all;
  getrusage(RUSAGE_SELF, &all);
  return all.ru_utime.tv_sec + all.ru_stime.tv_sec + (all.ru_utime.tv_usec + all.ru_stime.tv_usec) * 1e-6;
}

static double now(void) {
  struct timespec at;
  clock_gettime(CLOCK_MONOTONIC, &at);
  return at.tv_sec + at.tv_nsec * 1e-9;
}

static void look(const char *name) {
  struct statx found;
  if (statx(AT_FDCWD, name, AT_SYMLINK_NOFOLLOW, STATX_BASIC_STATS, &found)) {
    perror(name);
    exit(1);
  }
}

static void force(int file, const char *name, enum looks looks, const char *bytes, size_t count, long place) {
  if (looks >= BEFORE_ALL)
    look(name);
  if (pwrite(file, bytes, count, place) != (ssize_t)count)
    exit(1);
  if (looks != NONE)
    look(name);
  if (fsync(file))
    exit(1);
}

int main(int argc, char **argv) {
  if (argc != 3)
    return 2;
  static const char *const said[] = {"no look", "a look before each sync", "one before each write too", "and the lines told"};
  char name[4096], told[4096], bytes[BATCH] = {0};
  snprintf(name, sizeof name, "%s/m1.a", argv[1]);
  snprintf(told, sizeof told, "%s/transcript", argv[1]);
  long transactions = atol(argv[2]);
  for (enum looks looks = NONE; looks <= AND_TOLD; looks++) {
    int file = open(name, O_RDWR | O_CREAT | O_TRUNC, 0644);
    int out = open(told, O_WRONLY | O_CREAT | O_TRUNC, 0644);
    if (file < 0 || out < 0)
      return 1;
    double start = spent(), clock = now();
    for (long n = 0; n < transactions; n++) {
      force(file, name, looks, bytes, BATCH, FIRST + n * BATCH);
      force(file, name, looks, bytes, 1, FIRST + n * BATCH - 1);
      for (int line = 0; looks == AND_TOLD && line < LINES; line++)
        if (write(out, bytes, ITEM) != ITEM)
          exit(1);
    }
    printf("%s: %.2f microseconds a transaction, %.2f on the clock\n", said[looks], (spent() - start) / transactions * 1e6, (now() - clock) / transactions * 1e6);
    close(file);
    close(out);
  }
  unlink(name);
  unlink(told);
  return 0;
}

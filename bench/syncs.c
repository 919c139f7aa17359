/* Makes the calls of a list again, one after another: `syncs LIST DIR`. A line of the list is `write FILE PLACE COUNT`, `cut FILE COUNT` or `sync FILE`;
   FILE is a number, or `d` for the directory itself. Prints how many calls there were, and the seconds that they took. */
#define _GNU_SOURCE
#include <fcntl.h>
#include <stdio.h>
#include <stdlib.h>
#include <string.h>
#include <time.h>
#include <unistd.h>

enum { FILES = 64, ROOM = 1 << 24 };

struct call {
  char kind;
  int file;
  long place, count;
};

static double now(void) {
  struct timespec at;
  clock_gettime(CLOCK_MONOTONIC, &at);
  return at.tv_sec + at.tv_nsec * 1e-9;
}

int main(int argc, char **argv) {
  if (argc != 3)
    return 2;
  FILE *list = fopen(argv[1], "r");
  if (!list || chdir(argv[2]))
    return 1;
  size_t most = 1024, many = 0;
  struct call *calls = malloc(most * sizeof *calls);
  char word[16], name[16];
  while (fscanf(list, "%15s %15s", word, name) == 2) {
    struct call next = {word[0], name[0] == 'd' ? FILES : atoi(name), 0, 0};
    if (next.kind == 'w' && fscanf(list, "%ld %ld", &next.place, &next.count) != 2)
      return 1;
    if (next.kind == 'c' && fscanf(list, "%ld", &next.count) != 1)
      return 1;
    if (many == most)
      calls = realloc(calls, (most *= 2) * sizeof *calls);
    calls[many++] = next;
  }
  int files[FILES + 1];
  memset(files, -1, sizeof files);
  files[FILES] = open(".", O_RDONLY | O_DIRECTORY);
  for (size_t n = 0; n < many; n++)
    if (files[calls[n].file] < 0) {
      snprintf(name, sizeof name, "f%d", calls[n].file);
      files[calls[n].file] = open(name, O_RDWR | O_CREAT, 0644);
    }
  char *bytes = calloc(1, ROOM);
  double start = now();
  for (size_t n = 0; n < many; n++) {
    int file = files[calls[n].file];
    long done = calls[n].kind == 'w'   ? pwrite(file, bytes, calls[n].count, calls[n].place) - calls[n].count
                : calls[n].kind == 'c' ? ftruncate(file, calls[n].count)
                                       : fsync(file);
    if (done) {
      perror("call");
      return 1;
    }
  }
  printf("%zu calls, %.3f s\n", many, now() - start);
  return 0;
}

/* A disk whose sync takes longer: with `LD_PRELOAD` each fsync waits for SYNC_MICROSECONDS first. */
#define _GNU_SOURCE
#include <dlfcn.h>
#include <stdlib.h>
#include <unistd.h>

int fsync(int file) {
  static int (*real)(int);
  static long wait = -1;
  if (wait < 0) {
    const char *told = getenv("SYNC_MICROSECONDS");
    wait = told ? atol(told) : 0;
    real = (int (*)(int))dlsym(RTLD_NEXT, "fsync");
  }
  usleep(wait);
  return real(file);
}

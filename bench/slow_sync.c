// Lengthens each sync by the milliseconds that SYNC_MS gives, as a disk takes that has no protected cache. Preloaded by LD_PRELOAD.
#include <stdlib.h>
#include <sys/syscall.h>
#include <time.h>
#include <unistd.h>

static void lengthen(void) {
  const char *text = getenv("SYNC_MS");
  long long nanoseconds = text ? (long long)(atof(text) * 1e6) : 0;
  struct timespec left = {nanoseconds / 1000000000, nanoseconds % 1000000000};
  while (nanoseconds > 0 && nanosleep(&left, &left) != 0) {}
}

int fdatasync(int file) {
  lengthen();
  return syscall(SYS_fdatasync, file);
}

int fsync(int file) {
  lengthen();
  return syscall(SYS_fsync, file);
}

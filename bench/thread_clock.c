/* Writes to the file that THREAD_CLOCK names how many milliseconds passed from the first thread that the program
 * starts, or would start, to its end. Where THREADS_REFUSED is set no thread is started, so that the caller does all
 * the work. It is loaded before the C library (LD_PRELOAD) by bench/threads.sh. It takes no memory, since what one
 * thread takes and another frees would slow down what it measures. */
#define _GNU_SOURCE
#include <dlfcn.h>
#include <errno.h>
#include <pthread.h>
#include <stdio.h>
#include <stdlib.h>
#include <sys/syscall.h>
#include <time.h>
#include <unistd.h>

static double first = -1;

static double now(void) {
  struct timespec at;
  clock_gettime(CLOCK_MONOTONIC, &at);
  return at.tv_sec * 1e3 + at.tv_nsec / 1e6;
}

int pthread_create(pthread_t *thread, const pthread_attr_t *attributes, void *(*work)(void *), void *with) {
  static int (*start)(pthread_t *, const pthread_attr_t *, void *(*)(void *), void *);
  if (!start)
    start = (int (*)(pthread_t *, const pthread_attr_t *, void *(*)(void *), void *))dlsym(RTLD_NEXT, "pthread_create");
  if (first < 0)
    first = now();
  return getenv("THREADS_REFUSED") ? EAGAIN : start(thread, attributes, work, with);
}

void _exit(int status) {
  const char *name = getenv("THREAD_CLOCK");
  FILE *file = name && first >= 0 ? fopen(name, "w") : NULL;
  if (file) {
    fprintf(file, "%.3f\n", now() - first);
    fclose(file);
  }
  syscall(SYS_exit_group, status);
  __builtin_unreachable();
}

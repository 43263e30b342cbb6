/* Loaded before the C library: the call of malloc or realloc whose number is in REFUSED answers NULL,
   and the call of a device (one of those that are listed by DEVICE below) whose number is in FAILED
   answers EIO. A call of pthread_create answers EAGAIN where its number is at least THREADS_FROM and
   at most THREADS_TO. At the end the numbers of calls of the three kinds are written to the file
   descriptor 3, where it is open. */
#define _GNU_SOURCE
#include <dlfcn.h>
#include <errno.h>
#include <pthread.h>
#include <stdatomic.h>
#include <stdio.h>
#include <stdlib.h>
#include <sys/socket.h>
#include <unistd.h>

static atomic_long calls, device_calls, thread_calls;

static long number_in(const char *name) {
  const char *said = getenv(name);
  return said ? atol(said) : 0;
}

static int is_number(atomic_long *count, long *number, const char *name) {
  if (*number < 0) *number = number_in(name);
  return atomic_fetch_add(count, 1) + 1 == *number;
}

static int is_refused(void) {
  static long refused = -1;
  return is_number(&calls, &refused, "REFUSED");
}

static int fails(void) {
  static long failed = -1;
  if (!is_number(&device_calls, &failed, "FAILED")) return 0;
  errno = EIO;
  return 1;
}

void *malloc(size_t size) {
  static void *(*real)(size_t);
  if (!real) real = (void *(*)(size_t))dlsym(RTLD_NEXT, "malloc");
  return is_refused() ? NULL : real(size);
}

void *realloc(void *old, size_t size) {
  static void *(*real)(void *, size_t);
  if (!real) real = (void *(*)(void *, size_t))dlsym(RTLD_NEXT, "realloc");
  return is_refused() ? NULL : real(old, size);
}

int pthread_create(pthread_t *thread, const pthread_attr_t *how, void *(*run)(void *), void *with) {
  static int (*real)(pthread_t *, const pthread_attr_t *, void *(*)(void *), void *);
  if (!real) real = (int (*)(pthread_t *, const pthread_attr_t *, void *(*)(void *), void *))dlsym(RTLD_NEXT, "pthread_create");
  long number = atomic_fetch_add(&thread_calls, 1) + 1;
  if (number_in("THREADS_FROM") <= number && number <= number_in("THREADS_TO")) return EAGAIN;
  return real(thread, how, run, with);
}

#define DEVICE(type, name, parameters, arguments) \
  type name parameters { \
    static type(*real) parameters; \
    if (!real) real = (type(*) parameters)dlsym(RTLD_NEXT, #name); \
    return fails() ? -1 : real arguments; \
  }

DEVICE(ssize_t, read, (int from, void *into, size_t size), (from, into, size))
DEVICE(ssize_t, write, (int to, const void *bytes, size_t size), (to, bytes, size))
DEVICE(ssize_t, send, (int to, const void *bytes, size_t size, int flags), (to, bytes, size, flags))
DEVICE(ssize_t, recv, (int from, void *into, size_t size, int flags), (from, into, size, flags))
DEVICE(int, socket, (int domain, int type, int protocol), (domain, type, protocol))
DEVICE(int, bind, (int at, const struct sockaddr *name, socklen_t size), (at, name, size))
DEVICE(int, listen, (int at, int waiting), (at, waiting))
DEVICE(int, connect, (int at, const struct sockaddr *name, socklen_t size), (at, name, size))
DEVICE(int, accept, (int at, struct sockaddr *name, socklen_t *size), (at, name, size))
DEVICE(int, accept4, (int at, struct sockaddr *name, socklen_t *size, int flags), (at, name, size, flags))
DEVICE(int, getsockname, (int at, struct sockaddr *name, socklen_t *size), (at, name, size))

void _exit(int status) {
  static void (*real)(int);
  if (!real) real = (void (*)(int))dlsym(RTLD_NEXT, "_exit");
  dprintf(3, "%ld %ld %ld\n", atomic_load(&calls), atomic_load(&device_calls), atomic_load(&thread_calls));
  real(status);
  __builtin_unreachable();
}

/* Loaded before the C library, for edges.py and strangers.py. What is not named in the environment
   is as ever.

   BROKEN_OFF=N      each N-th call of read, write, send, recv, accept4 and poll, of each for itself,
                     does nothing and answers EINTR, as if a signal had come.
   CONNECT_AFTER=M   a stream connects M milliseconds after it was told to.
   LOST=P            of the packets to a listener that open a connection, the SYN and the ACK, P in a
                     hundred are lost, by a filter of the system's.
   LOW_SOCKETS=FILE  a write to a socket with one of the numbers 0 to 2 makes this file. */
#define _GNU_SOURCE
#include <dlfcn.h>
#include <errno.h>
#include <fcntl.h>
#include <linux/filter.h>
#include <poll.h>
#include <stdatomic.h>
#include <stdlib.h>
#include <sys/socket.h>
#include <sys/stat.h>
#include <time.h>
#include <unistd.h>

static long number_in(const char *name) {
  const char *said = getenv(name);
  return said ? atol(said) : 0;
}

static int is_broken_off(atomic_long *calls) {
  long every = number_in("BROKEN_OFF");
  if (every == 0 || (atomic_fetch_add(calls, 1) + 1) % every != 0) return 0;
  errno = EINTR;
  return 1;
}

static void see_low(int to) {
  const char *file = getenv("LOW_SOCKETS");
  struct stat what;
  if (file && to <= 2 && fstat(to, &what) == 0 && S_ISSOCK(what.st_mode)) close(open(file, O_CREAT | O_WRONLY, 0600));
}

#define BREAKABLE(type, name, parameters, arguments, before) \
  type name parameters { \
    static atomic_long calls; \
    static type(*real) parameters; \
    if (!real) real = (type(*) parameters)dlsym(RTLD_NEXT, #name); \
    before; \
    return is_broken_off(&calls) ? -1 : real arguments; \
  }

BREAKABLE(ssize_t, read, (int from, void *into, size_t size), (from, into, size), )
BREAKABLE(ssize_t, write, (int to, const void *bytes, size_t size), (to, bytes, size), see_low(to))
BREAKABLE(ssize_t, send, (int to, const void *bytes, size_t size, int flags), (to, bytes, size, flags), )
BREAKABLE(ssize_t, recv, (int from, void *into, size_t size, int flags), (from, into, size, flags), )
BREAKABLE(int, accept4, (int at, struct sockaddr *name, socklen_t *size, int flags), (at, name, size, flags), )
BREAKABLE(int, poll, (struct pollfd *what, nfds_t count, int limit), (what, count, limit), )

int connect(int at, const struct sockaddr *name, socklen_t size) {
  static int (*real)(int, const struct sockaddr *, socklen_t);
  if (!real) real = (int (*)(int, const struct sockaddr *, socklen_t))dlsym(RTLD_NEXT, "connect");
  int type = 0;
  socklen_t length = sizeof type;
  long after = number_in("CONNECT_AFTER");
  if (after && getsockopt(at, SOL_SOCKET, SO_TYPE, &type, &length) == 0 && type == SOCK_STREAM) {
    struct timespec pause = {after / 1000, after % 1000 * 1000000};
    nanosleep(&pause, NULL);
  }
  return real(at, name, size);
}

/* A filter sees a packet from the head of TCP on; its flags are the byte 13. */
int listen(int at, int waiting) {
  static int (*real)(int, int);
  if (!real) real = (int (*)(int, int))dlsym(RTLD_NEXT, "listen");
  long lost = number_in("LOST");
  struct sock_filter code[] = {
    BPF_STMT(BPF_LD | BPF_B | BPF_ABS, 13),
    BPF_JUMP(BPF_JMP | BPF_JEQ | BPF_K, 0x02, 1, 0), /* SYN */
    BPF_JUMP(BPF_JMP | BPF_JEQ | BPF_K, 0x10, 0, 4), /* ACK */
    BPF_STMT(BPF_LD | BPF_W | BPF_ABS, SKF_AD_OFF + SKF_AD_RANDOM),
    BPF_STMT(BPF_ALU | BPF_MOD | BPF_K, 100),
    BPF_JUMP(BPF_JMP | BPF_JGE | BPF_K, lost, 1, 0),
    BPF_STMT(BPF_RET | BPF_K, 0),
    BPF_STMT(BPF_RET | BPF_K, 0xffffffff),
  };
  struct sock_fprog filter = {sizeof code / sizeof *code, code};
  if (lost) setsockopt(at, SOL_SOCKET, SO_ATTACH_FILTER, &filter, sizeof filter);
  return real(at, waiting);
}

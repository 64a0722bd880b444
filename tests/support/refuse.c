/* Refuses memory to the program that it is loaded before: of what is asked for, so much as the check says.

   cc -O2 -shared -fPIC -o refuse.so refuse.c
   LD_PRELOAD=refuse.so REFUSE=FILE healthd ..

   FILE has three numbers of 8 bytes, which the check shares and changes while the program runs: the number of the request that
   is refused first, counted from 0; how many are refused from there on, or 0 for none, where nothing is counted either; and how
   many there were. A block that grows is a request. Those of the C library for itself go the same way. */
#include <errno.h>
#include <fcntl.h>
#include <stdatomic.h>
#include <stdbool.h>
#include <stdlib.h>
#include <sys/mman.h>
#include <unistd.h>

struct order {
  atomic_long first, count, asked;
};

static struct order *order;

void *__libc_malloc(size_t size);
void *__libc_realloc(void *block, size_t size);

__attribute__((constructor)) static void open_order(void) {
  const char *path = getenv("REFUSE");
  int file = path ? open(path, O_RDWR | O_CLOEXEC) : -1;
  if (file < 0)
    return;
  void *shared = mmap(NULL, sizeof *order, PROT_READ | PROT_WRITE, MAP_SHARED, file, 0);
  close(file);
  if (shared != MAP_FAILED)
    order = shared;
}

static bool is_refused(void) {
  if (order == NULL || atomic_load(&order->count) == 0)
    return false;
  long behind = atomic_fetch_add(&order->asked, 1) - atomic_load(&order->first);
  if (behind < 0 || behind >= atomic_load(&order->count))
    return false;
  errno = ENOMEM;
  return true;
}

void *malloc(size_t size) {
  return is_refused() ? NULL : __libc_malloc(size);
}

void *realloc(void *block, size_t size) {
  return is_refused() ? NULL : __libc_realloc(block, size);
}

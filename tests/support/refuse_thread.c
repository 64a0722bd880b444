/* Refuses a thread to the program that it is loaded before: the one that has the number THREAD, counted from 1.

   cc -O2 -shared -fPIC -o refuse_thread.so refuse_thread.c
   LD_PRELOAD=refuse_thread.so THREAD=NUMBER healthd .. */
#define _GNU_SOURCE
#include <dlfcn.h>
#include <errno.h>
#include <pthread.h>
#include <stdatomic.h>
#include <stdlib.h>

typedef int create(pthread_t *, const pthread_attr_t *, void *(*)(void *), void *);

int pthread_create(pthread_t *thread, const pthread_attr_t *attributes, void *(*start)(void *), void *argument) {
  static atomic_long wanted;
  const char *refused = getenv("THREAD");
  if (refused != NULL && atomic_fetch_add(&wanted, 1) + 1 == atol(refused))
    return EAGAIN;
  return ((create *)dlsym(RTLD_NEXT, "pthread_create"))(thread, attributes, start, argument);
}

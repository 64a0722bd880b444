/* Has the program that it is loaded before find the addresses of the host `named` in a file: those that stand there when it asks, one in a line.

   cc -O2 -shared -fPIC -o named_addresses.so named_addresses.c
   LD_PRELOAD=named_addresses.so ADDRESSES=FILE healthd observe .. */
#define _GNU_SOURCE
#include <dlfcn.h>
#include <netdb.h>
#include <stdio.h>
#include <stdlib.h>
#include <string.h>

typedef int find(const char *, const char *, const struct addrinfo *, struct addrinfo **);

int getaddrinfo(const char *name, const char *service, const struct addrinfo *wanted, struct addrinfo **found) {
  find *next = (find *)dlsym(RTLD_NEXT, "getaddrinfo");
  if (name == NULL || strcmp(name, "named") != 0)
    return next(name, service, wanted, found);
  char address[64];
  struct addrinfo **end = found;
  FILE *file = fopen(getenv("ADDRESSES"), "r");
  if (file == NULL)
    return EAI_FAIL;
  *end = NULL;
  while (fscanf(file, "%63s", address) == 1 && next(address, service, wanted, end) == 0)
    while (*end != NULL)
      end = &(*end)->ai_next;
  fclose(file);
  return *found == NULL ? EAI_NONAME : 0;
}

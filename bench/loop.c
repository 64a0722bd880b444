/* A server of fixed bytes, which bench/measure.py compares with: `loop THREADS` prints its port, answers the first bytes of
   each connection, and closes it. Its threads wait at one listening socket, and one of them is woken for a connection. */
#define _GNU_SOURCE
#include <arpa/inet.h>
#include <pthread.h>
#include <stdbool.h>
#include <stdio.h>
#include <stdlib.h>
#include <sys/epoll.h>
#include <sys/socket.h>
#include <unistd.h>

/* The answer to a Check of what is SERVING. */
static const char answer[] = "HTTP/1.1 200 OK\r\nconnection: close\r\ncontent-type: application/grpc-web+proto\r\ncontent-length: 27\r\n\r\n"
                             "\0\0\0\0\2\10\1\200\0\0\0\17grpc-status:0\r\n";
static int listener;

/* Whether its request has come; then it is answered and closed. */
static bool is_answered(int client) {
  char bytes[8192];
  ssize_t count = recv(client, bytes, sizeof bytes, 0);
  if (count < 0)
    return false;
  if (count > 0 && send(client, answer, sizeof answer - 1, MSG_NOSIGNAL) > 0)
    /* If unread bytes followed the request, closing would reset the connection. */
    recv(client, bytes, sizeof bytes, 0);
  close(client);
  return true;
}

static void add(int poll, int socket, uint32_t events) {
  struct epoll_event event = {.events = events, .data.fd = socket};
  epoll_ctl(poll, EPOLL_CTL_ADD, socket, &event);
}

static void accept_all(int poll) {
  int client;
  while ((client = accept4(listener, NULL, NULL, SOCK_NONBLOCK)) >= 0)
    if (!is_answered(client))
      add(poll, client, EPOLLIN);
}

static void *serve(void *unused) {
  struct epoll_event events[64];
  int poll = epoll_create1(0);
  add(poll, listener, EPOLLIN | EPOLLEXCLUSIVE);
  for (;;) {
    int count = epoll_wait(poll, events, 64, -1);
    for (int place = 0; place < count; place++)
      if (events[place].data.fd == listener)
        accept_all(poll);
      else
        is_answered(events[place].data.fd);
  }
  return unused;
}

int main(int count, char **words) {
  struct sockaddr_in address = {.sin_family = AF_INET, .sin_addr.s_addr = htonl(INADDR_LOOPBACK)};
  socklen_t length = sizeof address;
  pthread_t thread;
  listener = socket(AF_INET, SOCK_STREAM | SOCK_NONBLOCK, 0);
  if (count != 2 || bind(listener, (struct sockaddr *)&address, length) || listen(listener, 4096)
      || getsockname(listener, (struct sockaddr *)&address, &length))
    return 1;
  printf("%d\n", ntohs(address.sin_port));
  fflush(stdout);
  for (int left = atoi(words[1]); left > 0; left--)
    if (pthread_create(&thread, NULL, serve, NULL))
      return 1;
  pthread_join(thread, NULL);
}

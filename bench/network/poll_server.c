/* An echo server over poll, for comparison: serves three connections and ends: poll_server PORT */
#include <arpa/inet.h>
#include <netinet/tcp.h>
#include <poll.h>
#include <stdlib.h>
#include <sys/socket.h>
#include <unistd.h>

int main(int argc, char **argv) {
  if (argc != 2)
    return 2;
  struct sockaddr_in at = {.sin_family = AF_INET, .sin_port = htons((unsigned short)atoi(argv[1]))};
  at.sin_addr.s_addr = htonl(INADDR_LOOPBACK);
  int one = 1, listener = socket(AF_INET, SOCK_STREAM, 0);
  setsockopt(listener, SOL_SOCKET, SO_REUSEADDR, &one, sizeof one);
  if (bind(listener, (struct sockaddr *)&at, sizeof at) != 0 || listen(listener, 16) != 0)
    return 1;
  struct pollfd fds[8] = {{.fd = listener, .events = POLLIN}};
  int open = 1, served = 0;
  char bytes[4096];
  while (served < 3) {
    poll(fds, (nfds_t)open, -1);
    if (fds[0].revents & POLLIN && open < 8) {
      int s = accept(listener, 0, 0);
      setsockopt(s, IPPROTO_TCP, TCP_NODELAY, &one, sizeof one);
      fds[open++] = (struct pollfd){.fd = s, .events = POLLIN};
    }
    for (int k = 1; k < open; k++)
      if (fds[k].revents) {
        ssize_t n = read(fds[k].fd, bytes, sizeof bytes);
        if (n <= 0 || write(fds[k].fd, bytes, (size_t)n) != n) {
          close(fds[k].fd);
          fds[k--] = fds[--open];
          served++;
        }
      }
  }
  return 0;
}

/* Sends 64 bytes over one connection and waits until they come back, so often as is said, and prints how many trips a
 * second that were: client PORT TRIPS */
#include <arpa/inet.h>
#include <netinet/tcp.h>
#include <stdio.h>
#include <stdlib.h>
#include <sys/socket.h>
#include <time.h>
#include <unistd.h>

int main(int argc, char **argv) {
  if (argc != 3)
    return 2;
  struct sockaddr_in at = {.sin_family = AF_INET, .sin_port = htons((unsigned short)atoi(argv[1]))};
  at.sin_addr.s_addr = htonl(INADDR_LOOPBACK);
  long trips = atol(argv[2]);
  int one = 1, s = -1;
  for (int tries = 0; tries < 1000; tries++) {
    s = socket(AF_INET, SOCK_STREAM, 0);
    if (connect(s, (struct sockaddr *)&at, sizeof at) == 0)
      break;
    close(s);
    s = -1;
    usleep(20000);
  }
  if (s < 0)
    return 1;
  setsockopt(s, IPPROTO_TCP, TCP_NODELAY, &one, sizeof one);
  char bytes[64] = "sixty-four bytes on their way to the other side and back again";
  struct timespec from, to;
  clock_gettime(CLOCK_MONOTONIC, &from);
  for (long k = 0; k < trips; k++) {
    if (write(s, bytes, sizeof bytes) != sizeof bytes)
      return 1;
    for (size_t got = 0; got < sizeof bytes;) {
      ssize_t n = read(s, bytes, sizeof bytes - got);
      if (n <= 0)
        return 1;
      got += (size_t)n;
    }
  }
  clock_gettime(CLOCK_MONOTONIC, &to);
  double seconds = (double)(to.tv_sec - from.tv_sec) + (double)(to.tv_nsec - from.tv_nsec) / 1e9;
  printf("%.0f\n", (double)trips / seconds);
  close(s);
  return 0;
}

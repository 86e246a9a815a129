/* Serves connections at 127.0.0.1:PORT without an end, one after the other: what comes in goes back, until the other side ends.
 * The port is the compiler's: try.sh makes three of it, with -DPORT=7101 and so on.
 */
#include "lunatic.h"

#ifndef PORT
#define PORT 7101
#endif

static void serve(uint64_t stream) {
  static char bytes[512]; /* a read costs its whole area in traffic */
  uint32_t count = 0;
  while (lunatic_tcp_read(stream, bytes, sizeof bytes, &count) == LUNATIC_OK && count != 0)
    if (lunatic_write_all(stream, bytes, count) != LUNATIC_OK)
      break;
  lunatic_drop_tcp_stream(stream);
}

LUNATIC_START void start(void) {
  uint64_t listener = 0, stream = 0;
  if (lunatic_tcp_bind(LUNATIC_LOOPBACK, PORT, &listener) != LUNATIC_OK)
    __builtin_trap();
  while (lunatic_tcp_accept(listener, &stream) == LUNATIC_OK)
    serve(stream);
}

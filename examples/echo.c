/* Serves three connections at 127.0.0.1:7070, one after the other: what comes in goes back, until the other side ends.
 *
 *     ./tickmonel run examples/echo.wasm
 *
 * and in another terminal, three times, for example
 *
 *     echo hello | nc -N 127.0.0.1 7070
 *
 * After the third connection it prints
 *
 *     process 1 done ..
 *     total processes 1 messages 0 streams 3
 *
 * Where the port is taken, it traps, and where nobody comes for 100,000 tries of a millisecond, the run is idle.
 */
#include "lunatic.h"

static void serve(uint64_t stream) {
  static char bytes[512]; /* a read costs its whole area in traffic */
  uint32_t count = 0;
  while (lunatic_tcp_read(stream, bytes, sizeof bytes, &count) == LUNATIC_OK && count != 0)
    if (lunatic_write_all(stream, bytes, count) != LUNATIC_OK)
      break;
  lunatic_drop_tcp_stream(stream);
}

LUNATIC_START void start(void) {
  uint64_t listener = 0;
  if (lunatic_tcp_bind(LUNATIC_LOOPBACK, 7070, &listener) != LUNATIC_OK)
    __builtin_trap();
  for (int served = 0; served < 3; served++) {
    uint64_t stream = 0;
    if (lunatic_tcp_accept(listener, &stream) != LUNATIC_OK)
      __builtin_trap();
    serve(stream);
  }
  lunatic_drop_tcp_listener(listener);
}

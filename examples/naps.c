/* Sleeps, and waits in vain for a message.
 *
 *     ./tickmonel run examples/naps.wasm
 *
 * takes some 70 milliseconds and prints
 *
 *     slept
 *     timed out
 *     process 1 done ..
 *     total processes 1 messages 0 streams 0
 */
#include "lunatic.h"

LUNATIC_START void start(void) {
  lunatic_sleep_ms(20);
  lunatic_print("slept\n", 6);
  if (lunatic_receive(0, 0, 50) == LUNATIC_TIMED_OUT)
    lunatic_print("timed out\n", 10);
}

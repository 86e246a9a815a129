/* Prints a line.
 *
 *     ./tickmonel run examples/hello.wasm
 *
 * prints
 *
 *     hello, world
 *     process 1 done ..
 *     total processes 1 messages 0 streams 0
 */
#include "lunatic.h"

LUNATIC_START void start(void) {
  static const char line[] = "hello, world\n";
  lunatic_print(line, sizeof line - 1);
}

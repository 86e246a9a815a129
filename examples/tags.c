/* Sends itself three messages, and receives them by tag: first the one with tag 7, then the others as they came.
 *
 *     ./tickmonel run examples/tags.wasm
 *
 * prints
 *
 *     7 seven
 *     5 five
 *     6 six
 *     nothing more
 *     process 1 done ..
 *     total processes 1 messages 3 streams 0
 */
#include "lunatic.h"

static uint32_t length_of(const char *text) {
  uint32_t len = 0;
  while (text[len] != 0)
    len++;
  return len;
}

static void print(const char *text) { lunatic_print(text, length_of(text)); }

static void send_to_self(int64_t tag, const char *text) {
  lunatic_create_data(tag, length_of(text));
  lunatic_write_data(text, length_of(text));
  if (lunatic_send(lunatic_process_id()) != LUNATIC_SENT)
    __builtin_trap();
}

static void tell_message(void) {
  char bytes[16];
  char digit = (char)('0' + lunatic_get_tag());
  lunatic_print(&digit, 1);
  print(" ");
  lunatic_print(bytes, lunatic_read_data(bytes, sizeof bytes));
  print("\n");
}

LUNATIC_START void start(void) {
  send_to_self(5, "five");
  send_to_self(7, "seven");
  send_to_self(6, "six");

  const int64_t seven = 7;
  if (lunatic_receive(&seven, 1, LUNATIC_FOREVER) == LUNATIC_MESSAGE)
    tell_message();
  while (lunatic_receive(0, 0, 0) == LUNATIC_MESSAGE)
    tell_message();
  print("nothing more\n");
}

/* Sends itself 100,000 messages of 16 bytes, one after another, and receives each by its tag. */
#include "lunatic.h"

enum { ROUNDS = 100000 };

LUNATIC_START void start(void) {
  uint64_t own = lunatic_process_id();
  uint64_t bytes[2] = {0, 0};
  for (int64_t round = 0; round < ROUNDS; round++) {
    lunatic_create_data(round, sizeof bytes);
    lunatic_write_data(bytes, sizeof bytes);
    if (lunatic_send(own) != LUNATIC_SENT)
      __builtin_trap();
    if (lunatic_receive(&round, 1, LUNATIC_FOREVER) != LUNATIC_MESSAGE)
      __builtin_trap();
    lunatic_read_data(bytes, sizeof bytes);
    bytes[0]++;
  }
  if (bytes[0] != ROUNDS)
    __builtin_trap();
}

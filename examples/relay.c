/* A process that hands each message on to itself until it has seen three. */

#define HOST(module, name) __attribute__((import_module(module), import_name(name)))

HOST("lunatic::message", "create_data") void create_data(long long tag, long long size);
HOST("lunatic::message", "send") int send(long long pid);
HOST("lunatic::message", "receive") int receive(const long long *tags, int count, long long ms);
HOST("lunatic::process", "process_id") long long process_id(void);

__attribute__((export_name("_start"))) void start(void) {
  long long own = process_id();
  for (long long tag = 1; tag <= 3; tag++) {
    create_data(tag, 0);
    if (send(own) != 0)
      __builtin_trap();
    receive(&tag, 1, -1);
  }
}

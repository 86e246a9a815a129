/* The host calls of Tickmonel that are served today, for guests in C.
 *
 * Each call, its answers and its faults are described in docs/WORLD.md. A fault ends the process: its end line then reads
 * `host FAULT`. Behind the calls stand small helpers that are made of them. Compile with clang for wasm32 (Debian's
 * clang-14 and lld-14), for example by
 *
 *     make -f sdk/c/guest.mk guest.wasm
 *
 * and export the entry function with LUNATIC_START. Modules have integers alone: no float and no double.
 */
#ifndef LUNATIC_H
#define LUNATIC_H

#include <stdint.h>

#define LUNATIC_IMPORT(module, name) __attribute__((import_module(module), import_name(name)))

/* Before the definition of the entry function: LUNATIC_START void start(void) { .. } */
#define LUNATIC_START __attribute__((export_name("_start")))

/* The same for a function that is entered by another name, as with `--entry NAME`. */
#define LUNATIC_ENTRY(name) __attribute__((export_name(name)))

/* What `lunatic_receive` answers. */
enum {
  LUNATIC_MESSAGE = 0,      /* a message is in the scratch area, to be read from its first byte */
  LUNATIC_SIGNAL = 1,       /* the signal of a link is, as an empty message with the link's tag */
  LUNATIC_TIMED_OUT = 9027, /* nothing that was wanted came in time; the scratch area is as it was */
};

/* What `lunatic_send` answers. After all but LUNATIC_SENT the message stays in the scratch area. */
enum {
  LUNATIC_SENT = 0,
  LUNATIC_NOBODY = 1, /* no live process has the number */
  LUNATIC_FULL = 2,   /* its mailbox holds 1,024 messages */
  LUNATIC_NO_MEMORY = 12,
};

/* What `lunatic_tcp_bind`, `lunatic_tcp_accept` and `lunatic_tcp_connect` answer; `lunatic_tcp_read` and
 * `lunatic_tcp_write` answer one of the first two. */
enum {
  LUNATIC_OK = 0,
  LUNATIC_FAILED = 1,   /* the machine refused */
  LUNATIC_TOO_MANY = 2, /* 16 listeners, or 256 streams, are the process's already */
};

/* Wait without end. */
#define LUNATIC_FOREVER INT64_C(-1)

/* Makes a new message, without bytes, in the scratch area. `size` is only a hint. */
LUNATIC_IMPORT("lunatic::message", "create_data")
void lunatic_create_data(int64_t tag, uint64_t size);

/* Appends bytes to the scratch message, and answers how many: it holds 1,048,576 at most. */
LUNATIC_IMPORT("lunatic::message", "write_data")
uint32_t lunatic_write_data(const void *bytes, uint32_t len);

/* Copies bytes of the scratch message from the read place on, moves the read place, and answers how many. */
LUNATIC_IMPORT("lunatic::message", "read_data")
uint32_t lunatic_read_data(void *into, uint32_t len);

/* Sets the read place; past the size of the message is a fault. */
LUNATIC_IMPORT("lunatic::message", "seek_data")
void lunatic_seek_data(uint64_t place);

/* How many bytes the scratch message has. */
LUNATIC_IMPORT("lunatic::message", "data_size")
uint64_t lunatic_data_size(void);

/* The tag of the scratch message. */
LUNATIC_IMPORT("lunatic::message", "get_tag")
int64_t lunatic_get_tag(void);

/* Moves a stream of this process into the next place of the scratch message, and answers the place, from 0. A message
 * takes 64. */
LUNATIC_IMPORT("lunatic::message", "push_tcp_stream")
uint64_t lunatic_push_tcp_stream(uint64_t stream);

/* Moves the stream at this place of the scratch message to this process, and answers its number. */
LUNATIC_IMPORT("lunatic::message", "take_tcp_stream")
uint64_t lunatic_take_tcp_stream(uint64_t place);

/* Sends the scratch message to a process, with the streams in it. */
LUNATIC_IMPORT("lunatic::message", "send")
uint32_t lunatic_send(uint64_t pid);

/* Waits up to `ms` milliseconds (0: not at all; negative: without end) for a message whose tag is one of `count` tags, or
 * for any where `count` is 0. */
LUNATIC_IMPORT("lunatic::message", "receive")
uint32_t lunatic_receive(const int64_t *tags, uint32_t count, int64_t ms);

/* The number of this process. */
LUNATIC_IMPORT("lunatic::process", "process_id")
uint64_t lunatic_process_id(void);

/* Sleeps so many milliseconds; not at all where `ms` is 0 or negative. */
LUNATIC_IMPORT("lunatic::process", "sleep_ms")
void lunatic_sleep_ms(int64_t ms);

/* Listens at a port of an IPv4 address, whose highest byte is the first octet; at port 0 the machine chooses one. With
 * the answer LUNATIC_OK the number of the listener is in `listener`. */
LUNATIC_IMPORT("lunatic::networking", "tcp_bind")
uint32_t lunatic_tcp_bind(uint32_t ip, uint32_t port, uint64_t *listener);

/* The port of a listener. */
LUNATIC_IMPORT("lunatic::networking", "tcp_local_port")
uint32_t lunatic_tcp_local_port(uint64_t listener);

/* Waits until somebody connects. With the answer LUNATIC_OK the number of the stream is in `stream`. */
LUNATIC_IMPORT("lunatic::networking", "tcp_accept")
uint32_t lunatic_tcp_accept(uint64_t listener, uint64_t *stream);

/* Connects to a port of an IPv4 address. With the answer LUNATIC_OK the number of the stream is in `stream`. */
LUNATIC_IMPORT("lunatic::networking", "tcp_connect")
uint32_t lunatic_tcp_connect(uint32_t ip, uint32_t port, uint64_t *stream);

/* Waits for bytes, and reads as many as have come, up to `len` and to 65,536. With the answer LUNATIC_OK their count is in
 * `count`; 0 of a positive `len` is the end of the stream. */
LUNATIC_IMPORT("lunatic::networking", "tcp_read")
uint32_t lunatic_tcp_read(uint64_t stream, void *into, uint32_t len, uint32_t *count);

/* Waits until bytes can be written, and writes the first of them, at most 65,536. With the answer LUNATIC_OK their count is
 * in `count`. */
LUNATIC_IMPORT("lunatic::networking", "tcp_write")
uint32_t lunatic_tcp_write(uint64_t stream, const void *bytes, uint32_t len, uint32_t *count);

/* Closes a stream. */
LUNATIC_IMPORT("lunatic::networking", "drop_tcp_stream")
void lunatic_drop_tcp_stream(uint64_t stream);

/* Closes a listener. */
LUNATIC_IMPORT("lunatic::networking", "drop_tcp_listener")
void lunatic_drop_tcp_listener(uint64_t listener);

/* The address 127.0.0.1. */
#define LUNATIC_LOOPBACK UINT32_C(0x7f000001)

/* Puts bytes into the output of the run. */
LUNATIC_IMPORT("profile", "print")
void lunatic_print(const void *bytes, uint32_t len);

/* HELPERS, made of the calls above. */

/* How many bytes a text has before its final 0. */
static inline uint32_t lunatic_length(const char *text) {
  uint32_t len = 0;
  while (text[len] != 0)
    len++;
  return len;
}

/* Puts a text into the output of the run. */
static inline void lunatic_print_text(const char *text) { lunatic_print(text, lunatic_length(text)); }

/* Puts a number into the output of the run, in decimal digits. */
static inline void lunatic_print_number(uint64_t number) {
  char digits[20]; /* 2^64 - 1 has twenty */
  uint32_t at = sizeof digits;
  do {
    digits[--at] = (char)('0' + number % 10);
    number /= 10;
  } while (number != 0);
  lunatic_print(digits + at, (uint32_t)sizeof digits - at);
}

/* Sends bytes as one message, and answers as `lunatic_send` does. A message takes 1,048,576 bytes: of more, the first are
 * sent. The streams of an earlier scratch message are closed. */
static inline uint32_t lunatic_send_bytes(uint64_t pid, int64_t tag, const void *bytes, uint32_t len) {
  lunatic_create_data(tag, len);
  lunatic_write_data(bytes, len);
  return lunatic_send(pid);
}

/* Waits up to `ms` milliseconds for a message, or for one with this tag; answers as `lunatic_receive` does. */
static inline uint32_t lunatic_receive_any(int64_t ms) { return lunatic_receive(0, 0, ms); }

static inline uint32_t lunatic_receive_tag(int64_t tag, int64_t ms) { return lunatic_receive(&tag, 1, ms); }

/* Copies the bytes of the scratch message from its first on, up to `len`, and answers how many. */
static inline uint32_t lunatic_message_bytes(void *into, uint32_t len) {
  lunatic_seek_data(0);
  return lunatic_read_data(into, len);
}

/* Reads until `len` bytes are there or the stream is at its end. With the answer LUNATIC_OK their count is in `count`: less
 * than `len` at the end of the stream. */
static inline uint32_t lunatic_read_all(uint64_t stream, void *into, uint32_t len, uint32_t *count) {
  *count = 0;
  while (*count < len) {
    uint32_t more = 0;
    if (lunatic_tcp_read(stream, (char *)into + *count, len - *count, &more) != LUNATIC_OK)
      return LUNATIC_FAILED;
    if (more == 0)
      break;
    *count += more;
  }
  return LUNATIC_OK;
}

/* Writes all of the bytes, however few go at once. LUNATIC_FAILED where the stream failed or took none of them. */
static inline uint32_t lunatic_write_all(uint64_t stream, const void *bytes, uint32_t len) {
  for (uint32_t at = 0, count = 0; at < len; at += count)
    if (lunatic_tcp_write(stream, (const char *)bytes + at, len - at, &count) != LUNATIC_OK || count == 0)
      return LUNATIC_FAILED;
  return LUNATIC_OK;
}

#endif

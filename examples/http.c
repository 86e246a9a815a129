/* A small HTTP/1.1 server of static answers at 127.0.0.1:8080, one connection after the other.
 *
 *     ./tickmonel run examples/http.wasm
 *
 * and in another terminal
 *
 *     curl http://127.0.0.1:8080/
 *     curl http://127.0.0.1:8080/stop
 *
 * `/` answers a greeting, `/stop` ends the server after its answer, any other path is 404. What is no request is 400, another
 * method than GET 405, and a head of more than 2,048 bytes 431; a peer that says nothing, ends early or resets is let go. After
 * each answer the connection is closed. For each answer it prints a line, as `200 /`.
 *
 * A connection that stays open and silent keeps the others waiting, up to the idle limit of the run: one process serves one
 * connection at a time.
 */
#include "lunatic.h"

enum { HEAD = 2048 };

static char head[HEAD];

/* The length of the head with its empty line, or 0 where it has not come whole. */
static uint32_t head_length(uint32_t len) {
  for (uint32_t at = 0; at + 4 <= len; at++)
    if (head[at] == '\r' && head[at + 1] == '\n' && head[at + 2] == '\r' && head[at + 3] == '\n')
      return at + 4;
  return 0;
}

/* Whether the bytes at a place of the head begin with this text. */
static int begins(uint32_t at, const char *text) {
  uint32_t len = lunatic_length(text);
  if (at + len > HEAD)
    return 0;
  for (uint32_t k = 0; k < len; k++)
    if (head[at + k] != text[k])
      return 0;
  return 1;
}

/* The end of the word that begins at this place of a head of so many bytes. */
static uint32_t word_end(uint32_t at, uint32_t len) {
  while (at < len && head[at] != ' ' && head[at] != '\r' && head[at] != '\n')
    at++;
  return at;
}

static void write_text(uint64_t stream, const char *text) {
  lunatic_write_all(stream, text, lunatic_length(text));
}

/* Answers with this status and this body, and prints the status with the path from `at` to `end`. */
static void answer(uint64_t stream, const char *status, const char *body, uint32_t at, uint32_t end) {
  char digits[10];
  uint32_t len = lunatic_length(body);
  uint32_t digit = sizeof digits;
  do {
    digits[--digit] = (char)('0' + len % 10);
    len /= 10;
  } while (len != 0);
  write_text(stream, "HTTP/1.1 ");
  write_text(stream, status);
  write_text(stream, "\r\nContent-Type: text/plain\r\nConnection: close\r\nContent-Length: ");
  lunatic_write_all(stream, digits + digit, (uint32_t)sizeof digits - digit);
  write_text(stream, "\r\n\r\n");
  write_text(stream, body);
  lunatic_print(status, 3);
  lunatic_print(" ", 1);
  lunatic_print(head + at, end - at);
  lunatic_print("\n", 1);
}

/* Answers one request. Whether the server goes on. */
static int serve(uint64_t stream) {
  uint32_t len = 0;
  uint32_t whole = 0;
  while (whole == 0) {
    uint32_t count = 0;
    if (len == HEAD) {
      answer(stream, "431 Request Header Fields Too Large", "the head is too long\n", 0, 0);
      return 1;
    }
    if (lunatic_tcp_read(stream, head + len, HEAD - len, &count) != LUNATIC_OK || count == 0)
      return 1;
    len += count;
    whole = head_length(len);
  }
  uint32_t method = word_end(0, whole);
  uint32_t path = method + 1;
  uint32_t end = word_end(path, whole);
  if (method == 0 || head[method] != ' ' || end >= whole || head[end] != ' ' || !begins(end + 1, "HTTP/1.") ||
      head[path] != '/') {
    answer(stream, "400 Bad Request", "this is no request\n", 0, 0);
    return 1;
  }
  if (method != 3 || !begins(0, "GET")) {
    answer(stream, "405 Method Not Allowed", "only GET is answered\n", path, end);
    return 1;
  }
  if (end - path == 1) {
    answer(stream, "200 OK", "hello from a WebAssembly process\n", path, end);
    return 1;
  }
  if (end - path == 5 && begins(path, "/stop")) {
    answer(stream, "200 OK", "bye\n", path, end);
    return 0;
  }
  answer(stream, "404 Not Found", "nothing is here\n", path, end);
  return 1;
}

/* Serves at this port until `/stop` is asked for. */
static void serve_at(uint32_t port) {
  uint64_t listener = 0;
  if (lunatic_tcp_bind(LUNATIC_LOOPBACK, port, &listener) != LUNATIC_OK) {
    lunatic_print_text("the port is taken\n");
    __builtin_trap();
  }
  for (int goes_on = 1; goes_on;) {
    uint64_t stream = 0;
    if (lunatic_tcp_accept(listener, &stream) != LUNATIC_OK)
      continue;
    goes_on = serve(stream);
    lunatic_drop_tcp_stream(stream);
  }
  lunatic_drop_tcp_listener(listener);
}

LUNATIC_START void start(void) { serve_at(8080); }

/* Entries for more servers beside the first, as behind a balancer. */
LUNATIC_ENTRY("at_8081") void at_8081(void) { serve_at(8081); }

LUNATIC_ENTRY("at_8082") void at_8082(void) { serve_at(8082); }

LUNATIC_ENTRY("at_8083") void at_8083(void) { serve_at(8083); }

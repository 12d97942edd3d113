/* check KEYS AADHEX [strict] < INPUT > PASSED: what cose-gate does, by the library. The status is that of the library. Build and run:
 * `bash scripts/c-library.sh c`. */
#include "cose_gate.h"

#include <stdio.h>
#include <stdlib.h>
#include <string.h>

/* Bytes with their length. The pointer is never NULL, unless they could not be had. */
typedef struct bytes {
  uint8_t *at;
  size_t length;
} bytes;

/* A buffer of so many bytes. */
static bytes room_of(size_t length) {
  bytes room = {malloc(length == 0 ? 1 : length), length};
  return room;
}

/* The whole of a stream; NULL if it can't be read, or memory ran out. */
static bytes read_all(FILE *from) {
  bytes all = {malloc(1), 0};
  size_t room = 1;
  while (all.at != NULL) {
    all.length += fread(all.at + all.length, 1, room - all.length, from);
    if (all.length < room) {
      break;
    }
    room *= 2;
    uint8_t *more = realloc(all.at, room);
    if (more == NULL) {
      free(all.at);
    }
    all.at = more;
  }
  if (ferror(from)) {
    free(all.at);
    all.at = NULL;
  }
  return all;
}

static int digit_of(char digit) {
  if (digit >= '0' && digit <= '9') {
    return digit - '0';
  }
  if (digit >= 'a' && digit <= 'f') {
    return digit - 'a' + 10;
  }
  if (digit >= 'A' && digit <= 'F') {
    return digit - 'A' + 10;
  }
  return -1;
}

/* The bytes that hex digits stand for; NULL if they are not hex. */
static bytes of_hex(const char *text) {
  size_t digits = strlen(text);
  bytes all = room_of(digits / 2);
  bool is_hex = digits % 2 == 0;
  for (size_t i = 0; is_hex && all.at != NULL && i < digits / 2; i++) {
    int high = digit_of(text[2 * i]), low = digit_of(text[2 * i + 1]);
    is_hex = high >= 0 && low >= 0;
    all.at[i] = (uint8_t)(high * 16 + low);
  }
  if (!is_hex) {
    free(all.at);
    all.at = NULL;
  }
  return all;
}

/* One call. */
static cose_gate_answer check(bytes keys, bytes aad, bytes input, bool strict, bytes out, bytes lines) {
  return cose_gate_check(keys.at, keys.length, aad.at, aad.length, input.at, input.length, out.at, out.length, lines.at, lines.length,
                         COSE_GATE_NESTING, COSE_GATE_LAYERS, strict);
}

int main(int count, char **words) {
  if (count < 3 || count > 4) {
    fprintf(stderr, "usage: check KEYS AADHEX [strict] < INPUT > PASSED\n");
    return 2;
  }
  FILE *file = fopen(words[1], "rb");
  if (file == NULL) {
    fprintf(stderr, "keys: cannot be read\n");
    return 3;
  }
  bytes keys = read_all(file);
  fclose(file);
  bytes aad = of_hex(words[2]);
  if (aad.at == NULL) {
    fprintf(stderr, "aad: not hex\n");
    return 2;
  }
  bytes input = read_all(stdin), out = room_of(input.length), lines = room_of(4096);
  int status = COSE_GATE_STOPPED;
  while (keys.at != NULL && input.at != NULL && out.at != NULL && lines.at != NULL) {
    cose_gate_answer answer = check(keys, aad, input, count == 4, out, lines);
    /* What passes may be longer in canonical encoding than as it came. Both buffers are then made as long as is needed. */
    if (answer.status == COSE_GATE_NO_ROOM) {
      free(out.at);
      out = room_of(answer.length);
    }
    if (answer.lines > lines.length) {
      free(lines.at);
      lines = room_of(answer.lines);
      continue;
    }
    if (answer.status != COSE_GATE_NO_ROOM) {
      bool is_written = fwrite(out.at, 1, answer.length, stdout) == answer.length && fflush(stdout) == 0;
      fwrite(lines.at, 1, answer.lines, stderr);
      status = is_written ? (int)answer.status : COSE_GATE_STOPPED;
      break;
    }
  }
  free(keys.at);
  free(aad.at);
  free(input.at);
  free(out.at);
  free(lines.at);
  return status;
}

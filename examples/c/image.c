/* image KEYS IMAGE..: whether each file is a COSE_Mac0 whose tag is good under one of the keys, and no more, and which of its bytes are its
 * payload. What is checked is a sealed copy of the file (sealed.h): a caller uses the payload from there, and not from the file. The
 * status is the highest of the library's; 1 also if bytes follow the message. Build and run: `bash scripts/c-library.sh image`. */
#define _GNU_SOURCE
#include "cose_gate.h"
#include "sealed.h"

#include <stdio.h>

static const char *const faults[] = {"", "not tagged", "other tag", "shape", "detached", "unsized", "decode", "memory"};

/* Says what becomes of one file. */
static uint32_t check(bytes keys, const char *path) {
  bytes image = sealed_copy(path);
  if (image.at == NULL) {
    fprintf(stderr, "%s: cannot be read\n", path);
    return COSE_GATE_STOPPED;
  }
  cose_gate_stream_answer answer = cose_gate_stream_check(keys.at, keys.length, image.at, 0, image.at, image.length, COSE_GATE_NESTING,
                                                          COSE_GATE_LAYERS);
  uint32_t status = answer.status;
  switch (answer.status) {
    case COSE_GATE_ALL_PASSED:
      /* The library doesn't read what follows the message, and no tag covers it. */
      if (answer.length == image.length) {
        printf("%s: genuine, payload of %zu at %zu\n", path, answer.payload_length, answer.payload);
      } else {
        printf("%s: extraneous data after %zu bytes\n", path, answer.length);
        status = COSE_GATE_SOME_REFUSED;
      }
      break;
    case COSE_GATE_SOME_REFUSED:
      printf("%s: no MAC that is good\n", path);
      break;
    case COSE_GATE_KEYS:
      printf("%s: no key set\n", path);
      break;
    default:
      printf("%s: %s\n", path, faults[answer.fault]);
  }
  release(image);
  return status;
}

int main(int count, char **words) {
  if (count < 3) {
    fprintf(stderr, "usage: image KEYS IMAGE..\n");
    return COSE_GATE_LIMITS;
  }
  bytes keys = sealed_copy(words[1]);
  if (keys.at == NULL) {
    fprintf(stderr, "keys: cannot be read\n");
    return COSE_GATE_KEYS;
  }
  uint32_t status = COSE_GATE_ALL_PASSED;
  for (int i = 2; i < count; i++) {
    uint32_t found = check(keys, words[i]);
    status = found > status ? found : status;
  }
  return (int)status;
}

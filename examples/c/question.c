/* question IMAGE: the record of the question about the COSE_Sign1 or COSE_Mac0 that a file is, as cose_gate_ask writes it, on standard
 * output, and on standard error what its parts are. The payload goes out from a sealed copy of the file (sealed.h): a caller puts a hash or
 * a signature check of his own in the place of the writes, and uses that payload. The status is that of the library; 1 if bytes follow the
 * message. Build and run: `bash scripts/c-library.sh image`. */
#define _GNU_SOURCE
#include "cose_gate.h"
#include "sealed.h"

#include <stdio.h>
#include <stdlib.h>

static cose_gate_stream_question ask(bytes image, uint8_t *question, size_t room) {
  return cose_gate_stream_ask(image.at, 0, image.at, image.length, question, room, COSE_GATE_NESTING, COSE_GATE_LAYERS);
}

/* Writes the record, if the question was asked and is about all bytes of the image. */
static uint32_t write_record(bytes image, const uint8_t *question, cose_gate_stream_question answer) {
  cose_gate_question parts;
  if (!cose_gate_stream_parts(question, &answer, &parts)) {
    fprintf(stderr, "fault %d\n", (int)answer.fault);
    return answer.status;
  }
  /* The library doesn't read what follows the message, and no signature covers it. */
  if (answer.length != image.length) {
    fprintf(stderr, "extraneous data after %zu bytes\n", answer.length);
    return COSE_GATE_SOME_REFUSED;
  }
  fprintf(stderr, "tag %d, covered %zu and payload of %zu at %zu, signature of %zu\n", (int)parts.kind, parts.covered.length,
          answer.payload_length, answer.payload, parts.signature.length);
  fwrite(question, 1, answer.head, stdout);
  fwrite(image.at + answer.payload, 1, answer.payload_length, stdout);
  fwrite(question + answer.head, 1, answer.question_length - answer.head, stdout);
  return fflush(stdout) == 0 && !ferror(stdout) ? answer.status : COSE_GATE_STOPPED;
}

int main(int count, char **words) {
  if (count != 2) {
    fprintf(stderr, "usage: question IMAGE > RECORD\n");
    return COSE_GATE_LIMITS;
  }
  bytes image = sealed_copy(words[1]);
  if (image.at == NULL) {
    fprintf(stderr, "%s: cannot be read\n", words[1]);
    return COSE_GATE_STOPPED;
  }
  uint8_t first[256], *question = first;
  cose_gate_stream_question answer = ask(image, question, sizeof first);
  if (answer.status == COSE_GATE_NO_ROOM) {
    question = malloc(answer.question_length);
    if (question == NULL) {
      release(image);
      return COSE_GATE_STOPPED;
    }
    answer = ask(image, question, answer.question_length);
  }
  uint32_t status = write_record(image, question, answer);
  if (question != first) {
    free(question);
  }
  release(image);
  return (int)status;
}

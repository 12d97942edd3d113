/* c-stack.c: KEYS NESTING LAYERS FILE..: the stack that each call of the library takes over each file, in a thread whose stack is filled with a
 * pattern before; a thread's start is among it. A line for each file: its bytes for cose_gate_check, for cose_gate_ask, cose_gate_ask_ruled or
 * cose_gate_ask_tokens, for cose_gate_pass with the records that cose_gate_ask gave or cose_gate_pass_digests, and for cose_gate_stream_check or
 * cose_gate_stream_ask, whichever takes more; and what the program would say of its first message. */
#define _GNU_SOURCE
#include "cose_gate.h"

#include <assert.h>
#include <pthread.h>
#include <stdio.h>
#include <stdlib.h>
#include <string.h>

enum { MOST = 1 << 24, STACK = 1 << 24 };

typedef struct bytes {
  uint8_t at[MOST];
  size_t length;
} bytes;

static bytes keys, input, records, output, lines;
static size_t nesting, layers;
static int which;

static void read_file(const char *path, bytes *to) {
  FILE *file = fopen(path, "rb");
  assert(file != NULL);
  to->length = fread(to->at, 1, MOST, file);
  fclose(file);
}

static void *on_stack(void *unused) {
  (void)unused;
  if (which == 3) {
    cose_gate_stream_answer streamed = cose_gate_stream_check(keys.at, keys.length, keys.at, 0, input.at, input.length, nesting, layers);
    assert(streamed.status != COSE_GATE_LIMITS && streamed.status != COSE_GATE_KEYS && streamed.fault != COSE_GATE_MEMORY);
    return NULL;
  }
  if (which == 4) {
    cose_gate_stream_question asked = cose_gate_stream_ask(keys.at, 0, input.at, input.length, output.at, MOST, nesting, layers);
    assert(asked.status != COSE_GATE_LIMITS && asked.status != COSE_GATE_NO_ROOM && asked.fault != COSE_GATE_MEMORY);
    return NULL;
  }
  cose_gate_answer answer;
  bytes *to = which == 1 ? &records : &output;
  switch (which) {
    case 0:
      answer = cose_gate_check(keys.at, keys.length, keys.at, 0, input.at, input.length, to->at, MOST, lines.at, MOST, nesting, layers, false);
      break;
    case 1:
      answer = cose_gate_ask(keys.at, 0, input.at, input.length, to->at, MOST, lines.at, MOST, nesting, layers, false);
      break;
    case 5:
      answer = cose_gate_ask_ruled(keys.at, keys.length, keys.at, 0, input.at, input.length, to->at, MOST, lines.at, MOST, nesting, layers,
                                   false);
      break;
    case 7: {
      cose_gate_token_terms token = cose_gate_token_terms_at(0, 0);
      answer = cose_gate_ask_tokens(keys.at, keys.length, &token, keys.at, 0, input.at, input.length, to->at, MOST, lines.at, MOST, nesting,
                                    layers, false);
      break;
    }
    case 6: /* any digests */
      answer = cose_gate_pass_digests(records.at, records.length / COSE_GATE_DIGEST * COSE_GATE_DIGEST, keys.at, 0, input.at, input.length,
                                      to->at, MOST, lines.at, MOST, nesting, layers, false);
      break;
    default:
      answer = cose_gate_pass(records.at, records.length, keys.at, 0, input.at, input.length, to->at, MOST, lines.at, MOST, nesting, layers,
                              false);
  }
  assert(answer.status <= COSE_GATE_SOME_REFUSED && answer.lines <= MOST);
  to->length = answer.length;
  lines.length = answer.lines;
  return NULL;
}

static size_t stack_of(int call) {
  uint8_t *stack = aligned_alloc(4096, STACK);
  assert(stack != NULL);
  memset(stack, 0xa5, STACK);
  which = call;
  pthread_attr_t how;
  pthread_t thread;
  pthread_attr_init(&how);
  assert(pthread_attr_setstack(&how, stack, STACK) == 0);
  assert(pthread_create(&thread, &how, on_stack, NULL) == 0);
  pthread_join(thread, NULL);
  size_t left = 0;
  while (left < STACK && stack[left] == 0xa5) left++;
  assert(left > 0);
  free(stack);
  return STACK - left;
}

static size_t larger(size_t a, size_t b) { return a > b ? a : b; }

int main(int count, char **words) {
  assert(count > 4);
  read_file(words[1], &keys);
  nesting = strtoul(words[2], NULL, 10);
  layers = strtoul(words[3], NULL, 10);
  for (int i = 4; i < count; i++) {
    read_file(words[i], &input);
    size_t check = stack_of(0);
    char line[64] = {0};
    size_t length = strcspn((char *)lines.at, "\n");
    memcpy(line, lines.at, length < 63 ? length : 63);
    size_t ask = larger(larger(stack_of(1), stack_of(5)), stack_of(7)), pass = larger(stack_of(2), stack_of(6));
    printf("%zu %zu %zu %zu %s\n", check, ask, pass, larger(stack_of(3), stack_of(4)), line);
  }
  return 0;
}

/* c-memory.c: KEYS FILE..: the library under tools that watch memory, over each file: output buffers from none to more than is needed, with bytes
 * after them that must stay as they are; the questions, all of which are then accepted; those that the rules allow, likewise; and the message at its front in place, which the gate
 * has to judge the same, and whose question has to be the same. With -DREFUSE each malloc and realloc is refused in turn, over the first file,
 * no block may be left, and the last line, or the fault, has to say it, after whole lines of the run. */
#define _GNU_SOURCE
#include "cose_gate.h"

#include <assert.h>
#include <stdio.h>
#include <stdlib.h>
#include <string.h>

#ifdef REFUSE
static long live, calls, refused = -1;
void *__real_malloc(size_t n);
void *__real_realloc(void *p, size_t n);
void __real_free(void *p);
static int is_watched;
void *__wrap_malloc(size_t n) {
  if (is_watched && calls++ == refused) return NULL;
  void *p = __real_malloc(n);
  if (is_watched && p != NULL) live++;
  return p;
}
void *__wrap_realloc(void *p, size_t n) {
  if (is_watched && calls++ == refused) return NULL;
  void *q = __real_realloc(p, n);
  if (is_watched && p == NULL && q != NULL) live++;
  return q;
}
void __wrap_free(void *p) {
  if (is_watched && p != NULL) live--;
  __real_free(p);
}
#endif

typedef struct bytes {
  uint8_t *at;
  size_t length;
} bytes;

enum { MOST = 1 << 20 };

/* A file, in a block of just its length. */
static bytes read_file(const char *path) {
  static uint8_t all[MOST];
  FILE *file = fopen(path, "rb");
  assert(file != NULL);
  bytes read = {NULL, fread(all, 1, MOST, file)};
  fclose(file);
  read.at = malloc(read.length == 0 ? 1 : read.length);
  memcpy(read.at, all, read.length);
  return read;
}

static const uint8_t aad[1] = {1};
static bytes keys;

/* One of the calls, by its number, over what it is handed. */
static cose_gate_answer call(int which, bytes given, bytes input, bytes out, bytes lines) {
  switch (which) {
    case 0:
      return cose_gate_check(given.at, given.length, aad, 1, input.at, input.length, out.at, out.length, lines.at, lines.length,
                             COSE_GATE_NESTING, COSE_GATE_LAYERS, false);
    case 1:
      return cose_gate_ask(aad, 1, input.at, input.length, out.at, out.length, lines.at, lines.length, COSE_GATE_NESTING,
                           COSE_GATE_LAYERS, false);
    case 2:
      return cose_gate_pass(given.at, given.length, aad, 1, input.at, input.length, out.at, out.length, lines.at, lines.length,
                            COSE_GATE_NESTING, COSE_GATE_LAYERS, false);
    case 3:
      return cose_gate_ask_ruled(given.at, given.length, aad, 1, input.at, input.length, out.at, out.length, lines.at, lines.length,
                                 COSE_GATE_NESTING, COSE_GATE_LAYERS, false);
    case 4:
      return cose_gate_pass_digests(given.at, given.length, aad, 1, input.at, input.length, out.at, out.length, lines.at, lines.length,
                                    COSE_GATE_NESTING, COSE_GATE_LAYERS, false);
    case 5: {
      cose_gate_token_terms terms = cose_gate_token_terms_at(1443944944, 60);
      static const int64_t needed[] = {4, 6};
      static const cose_gate_text named[] = {{(const uint8_t *)"scope", 5}};
      terms.needed = needed;
      terms.needed_length = 2;
      terms.named = named;
      terms.named_length = 1;
      return cose_gate_ask_tokens(given.at, given.length, &terms, aad, 1, input.at, input.length, out.at, out.length, lines.at, lines.length,
                                  COSE_GATE_NESTING, COSE_GATE_LAYERS, false);
    }
    default:
      return cose_gate_key_parts(given.at, given.length, out.at, out.length);
  }
}

static bytes room_of(size_t length) {
  bytes room = {malloc(length == 0 ? 1 : length), length};
  assert(room.at != NULL);
  return room;
}

/* A call with just the buffers that it needs: blocks of just that length, so that a tool sees each byte that is read or written beside them. */
static bytes exactly(int which, bytes given, bytes input, bytes *lines, uint32_t *status) {
  bytes none = room_of(0);
  cose_gate_answer needed = call(which, given, input, none, none);
  free(none.at);
  bytes out = room_of(needed.length);
  *lines = room_of(needed.lines);
  cose_gate_answer answer = call(which, given, input, out, *lines);
  assert(answer.length == needed.length && answer.lines == needed.lines && answer.status != COSE_GATE_NO_ROOM);
  assert(needed.status == (needed.length == 0 ? answer.status : COSE_GATE_NO_ROOM));
  *status = answer.status;
  return out;
}

/* A call with a buffer of this length, whether or not it is what is needed. */
static void with_room(int which, bytes given, bytes input, size_t length, bytes whole, bytes lines, uint32_t status) {
  bytes out = room_of(length), some = room_of(length);
  memset(out.at, 0xaa, length);
  cose_gate_answer answer = call(which, given, input, out, some);
  assert(answer.length == whole.length && answer.lines == lines.length);
  assert(answer.status == (length < whole.length ? COSE_GATE_NO_ROOM : status));
  size_t written = length < whole.length ? 0 : whole.length;
  assert(memcmp(out.at, whole.at, written) == 0);
  for (size_t i = written; i < length; i++) assert(out.at[i] == 0xaa);
  assert(memcmp(some.at, lines.at, length < lines.length ? length : lines.length) == 0);
  free(out.at);
  free(some.at);
}

static bytes each_room(int which, bytes given, bytes input, bool all) {
  bytes lines;
  uint32_t status;
  bytes whole = exactly(which, given, input, &lines, &status);
  for (size_t room = all ? 0 : (whole.length == 0 ? 0 : whole.length - 1); room <= whole.length + 2; room++) {
    with_room(which, given, input, room, whole, lines, status);
  }
  free(lines.at);
  return whole;
}

/* How many questions records show; each byte string in them lies within. */
static size_t count_of(bytes records) {
  size_t count = 0, read = 0;
  cose_gate_text rest = {records.at, records.length};
  cose_gate_question question;
  while (cose_gate_next(&rest, &question)) {
    assert(question.signature.at + question.signature.length == question.record.at + question.record.length);
    read += question.record.length;
    count++;
  }
  assert(rest.length == 0 && read == records.length);
  return count;
}

/* The digests of all questions that blocks show. The blocks go over the items in order, without a gap; each question has a key. */
static bytes digests_of(bytes blocks) {
  bytes digests = room_of(blocks.length);
  cose_gate_text rest = {blocks.at, blocks.length};
  cose_gate_item item;
  uint64_t number = 0, end = 0;
  digests.length = 0;
  while (cose_gate_next_item(&rest, &item)) {
    cose_gate_signature one;
    assert(item.number == ++number && item.offset == end && item.end > end);
    end = item.end;
    bool is_allowed = item.verdict.length == 6 && memcmp(item.verdict.at, "passed", 6) == 0;
    for (uint64_t asked = 0; cose_gate_next_signature(&item, &one); asked++) {
      uint64_t place;
      cose_gate_text places = one.keys;
      assert(is_allowed && asked < item.asked && one.covered[0].length + one.covered[1].length + one.covered[2].length > 0);
      assert(cose_gate_next_number(&places, &place));
      memcpy(digests.at + digests.length, one.digest, COSE_GATE_DIGEST);
      digests.length += COSE_GATE_DIGEST;
    }
    assert(item.signatures.length == 0 && (is_allowed || item.base.length == 0));
  }
  assert(rest.length == 0);
  return digests;
}

/* All calls over one input. How many questions it has. */
static size_t each_call(bytes input, bool all) {
  bytes passed = each_room(0, keys, input, all), records = each_room(1, keys, input, all);
  bytes accepted = each_room(2, records, input, all), nothing = {passed.at, 0};
  bytes none = each_room(2, nothing, input, all);
  assert(accepted.length >= passed.length && none.length == 0);
  size_t count = count_of(records);
  bytes blocks = each_room(3, keys, input, all), digests = digests_of(blocks), ruled = each_room(4, digests, input, all);
  assert(ruled.length <= accepted.length && (digests.length == 0) == (ruled.length == 0));
  bytes tokens = each_room(5, keys, input, all), none_passes = digests_of(tokens);
  assert(none_passes.length == 0 && (tokens.length == 0) == (blocks.length == 0));
  free(tokens.at);
  free(none_passes.at);
  free(blocks.at);
  free(digests.at);
  free(ruled.at);
  free(passed.at);
  free(records.at);
  free(accepted.at);
  free(none.at);
  return count;
}

static cose_gate_stream_answer stream(bytes input) {
  return cose_gate_stream_check(keys.at, keys.length, aad, 1, input.at, input.length, COSE_GATE_NESTING, COSE_GATE_LAYERS);
}

static cose_gate_stream_question ask_stream(bytes input, bytes question) {
  return cose_gate_stream_ask(aad, 1, input.at, input.length, question.at, question.length, COSE_GATE_NESTING, COSE_GATE_LAYERS);
}

/* The question about a message in place, in buffers from none to more than is needed: with the payload it is the record that cose_gate_ask
 * gives of this message. */
static void asked_in_place(bytes one, cose_gate_stream_answer answer, bool all) {
  bytes lines, none = room_of(0);
  uint32_t status;
  bytes record = exactly(1, keys, one, &lines, &status);
  cose_gate_stream_question needed = ask_stream(one, none);
  size_t whole = needed.question_length, behind = whole - needed.head;
  assert(needed.status == COSE_GATE_NO_ROOM && whole + answer.payload_length == record.length && needed.head < whole);
  assert(needed.length == answer.length && needed.payload == answer.payload && needed.payload_length == answer.payload_length);
  for (size_t room = all ? 0 : whole - 1; room <= whole + 2; room++) {
    bytes question = room_of(room);
    memset(question.at, 0xaa, room);
    cose_gate_stream_question asked = ask_stream(one, question);
    bool fits = whole <= room;
    for (size_t i = fits ? whole : 0; i < room; i++) assert(question.at[i] == 0xaa);
    needed.status = fits ? COSE_GATE_ASKED : COSE_GATE_NO_ROOM;
    assert(memcmp(&asked, &needed, sizeof asked) == 0);
    cose_gate_question parts = {0}, gathered = {0};
    cose_gate_text rest = {record.at, record.length};
    bool is_gathered = cose_gate_next(&rest, &gathered), is_shown = cose_gate_stream_parts(question.at, &asked, &parts);
    assert(is_gathered && is_shown == fits);
    if (is_gathered && is_shown) {
      assert(memcmp(question.at, record.at, asked.head) == 0);
      assert(memcmp(one.at + asked.payload, record.at + asked.head, asked.payload_length) == 0);
      assert(memcmp(question.at + asked.head, record.at + asked.head + asked.payload_length, behind) == 0);
      assert(parts.kind == gathered.kind && parts.covered.length + asked.payload_length == gathered.covered.length);
      assert(parts.recipients.at - question.at == gathered.recipients.at - record.at);
      assert(parts.recipients.length == gathered.recipients.length && parts.signature.length == gathered.signature.length);
      assert(parts.signature.at + parts.signature.length == question.at + whole);
    }
    free(question.at);
  }
  free(none.at);
  free(lines.at);
  free(record.at);
}

/* The message at the front, with what comes after it and alone, in a block of just its length; what the gate says of it; and cut, at every place
 * or at some. */
static void in_place(bytes input, bool all) {
  cose_gate_stream_answer answer = stream(input);
  bool is_judged = answer.status <= COSE_GATE_SOME_REFUSED;
  assert(is_judged || answer.status == COSE_GATE_STOPPED);
  assert(is_judged == (answer.fault == COSE_GATE_NO_FAULT) && is_judged == (answer.length > 0) && answer.fault < COSE_GATE_MEMORY);
  assert(is_judged == (answer.payload > 0) && answer.payload + answer.payload_length <= answer.length && answer.length <= input.length);
  bytes none = room_of(0);
  cose_gate_stream_question asked = ask_stream(input, none);
  assert(asked.fault == answer.fault && asked.status == (is_judged ? COSE_GATE_NO_ROOM : COSE_GATE_STOPPED));
  if (!is_judged) {
    assert(asked.length == 0 && asked.payload == 0 && asked.payload_length == 0 && asked.head == 0 && asked.question_length == 0);
    free(none.at);
    return;
  }
  bytes one = room_of(answer.length), out = room_of(answer.length);
  memcpy(one.at, input.at, one.length);
  cose_gate_stream_answer alone = stream(one);
  assert(memcmp(&alone, &answer, sizeof alone) == 0);
  cose_gate_answer gated = call(0, keys, one, out, none);
  assert((gated.length > 0) == (answer.status == COSE_GATE_ALL_PASSED));
  asked_in_place(one, answer, all);
  for (size_t length = 0; length < one.length; length += all ? 1 : 29) {
    bytes cut = room_of(length);
    memcpy(cut.at, one.at, length);
    alone = stream(cut);
    assert(alone.status == COSE_GATE_STOPPED && alone.fault == COSE_GATE_DECODE && alone.length == 0);
    free(cut.at);
  }
  free(one.at);
  free(out.at);
  free(none.at);
}

#ifdef REFUSE
static void each_refused_in_place(bytes input) {
  is_watched = 1;
  calls = 0;
  refused = -1;
  cose_gate_stream_answer answer = stream(input);
  long all = calls;
  assert(live == 0 && answer.status == COSE_GATE_ALL_PASSED);
  for (refused = 0; refused < all; refused++) {
    calls = 0;
    answer = stream(input);
    assert(live == 0 && answer.status == COSE_GATE_STOPPED && answer.fault == COSE_GATE_MEMORY && answer.length == 0 && answer.payload == 0);
  }
  refused = -1;
  is_watched = 0;
  printf("c-memory: cose_gate_stream_check: %ld mallocs, each refused in turn: %ld times stopped, as the fault says, no block left\n", all, all);
}

static void each_refused_asked(bytes input) {
  static uint8_t room[65536], same[65536];
  bytes question = {room, sizeof room};
  memset(same, 0xaa, sizeof same);
  is_watched = 1;
  calls = 0;
  refused = -1;
  cose_gate_stream_question asked = ask_stream(input, question);
  long all = calls;
  assert(live == 0 && asked.status == COSE_GATE_ASKED);
  for (refused = 0; refused < all; refused++) {
    calls = 0;
    memset(room, 0xaa, sizeof room);
    asked = ask_stream(input, question);
    assert(live == 0 && asked.status == COSE_GATE_STOPPED && asked.fault == COSE_GATE_MEMORY && asked.length == 0);
    assert(memcmp(room, same, sizeof room) == 0);
  }
  refused = -1;
  is_watched = 0;
  printf("c-memory: cose_gate_stream_ask: %ld mallocs, each refused in turn: %ld times stopped, as the fault says, no block left\n", all, all);
}

static void each_refused(int which, bytes given, bytes input) {
  static uint8_t room[65536], text[4096], whole[4096];
  static const char *const names[] = {"cose_gate_check", "cose_gate_ask", "cose_gate_pass", "cose_gate_ask_ruled",
                                      "cose_gate_pass_digests", "cose_gate_ask_tokens"}, said[] = "stopped: memory\n";
  bytes out = {room, sizeof room}, lines = {text, sizeof text};
  is_watched = 1;
  calls = 0;
  refused = -1;
  cose_gate_answer answer = call(which, given, input, out, lines);
  uint32_t status = answer.status;
  size_t length = answer.lines;
  assert(length <= sizeof whole);
  memcpy(whole, text, length);
  long all = calls, memory = 0, same = 0;
  assert(live == 0);
  for (refused = 0; refused < all; refused++) {
    calls = 0;
    answer = call(which, given, input, out, lines);
    assert(live == 0);
    assert(answer.status == COSE_GATE_STOPPED || answer.status == status);
    size_t last = sizeof said - 1;
    bool is_said = answer.lines >= last && memcmp(text + answer.lines - last, said, last) == 0;
    assert(is_said == (answer.status == COSE_GATE_STOPPED));
    size_t before = is_said ? answer.lines - last : answer.lines;
    assert(before <= length && memcmp(text, whole, before) == 0 && (before == 0 || text[before - 1] == '\n'));
    if (answer.status == COSE_GATE_STOPPED) memory++; else same++;
  }
  refused = -1;
  is_watched = 0;
  printf("c-memory: %s: %ld mallocs, each refused in turn: %ld times stopped, as the last line says, %ld times all the same (a key that "
         "isn't prepared), no block left\n", names[which], all, memory, same);
}
#endif

int main(int count, char **words) {
  assert(count >= 3);
  keys = read_file(words[1]);
  size_t questions = 0;
  bytes nothing = {keys.at, 0}, parts = each_room(6, keys, nothing, true);
  cose_gate_key key;
  cose_gate_text all = {parts.at, parts.length};
  assert(cose_gate_key_at(all, 0, &key) && key.n_or_k.length == 32 && key.x_or_e.length == 0 && key.y.length == 0);
  assert(key.type == 4 && key.algorithm == 5 && key.curve == 0);
  assert(cose_gate_key_at(all, 1, &key) && key.n_or_k.length == 1 && key.algorithm == 0 && !cose_gate_key_at(all, 2, &key));
  free(parts.at);
  for (int i = 2; i < count; i++) {
    bytes input = read_file(words[i]);
    questions += each_call(input, i == 2);
    in_place(input, i == 2);
    free(input.at);
  }
  printf("c-memory: %d inputs with %zu questions, room from none to more than is needed: as it should be\n", count - 2, questions);
#ifdef REFUSE
  bytes input = read_file(words[2]), lines;
  uint32_t status;
  bytes records = exactly(1, keys, input, &lines, &status);
  each_refused(0, keys, input);
  each_refused(1, keys, input);
  each_refused(2, records, input);
  free(lines.at);
  bytes blocks = exactly(3, keys, input, &lines, &status), digests = digests_of(blocks);
  each_refused(3, keys, input);
  each_refused(4, digests, input);
  each_refused(5, keys, input);
  free(blocks.at);
  free(digests.at);
  each_refused_in_place(input);
  each_refused_asked(input);
  free(input.at);
  free(lines.at);
  free(records.at);
#endif
  free(keys.at);
  return 0;
}

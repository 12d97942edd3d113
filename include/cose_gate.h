/* cose_gate.h: the gate of COSE messages over memory (RFC 9052, RFC 8949). The library is out/libcose_gate_c.a of crates/cose_gate_c,
 * linked together with the kit's liblibc_c.a, which calls malloc, realloc and free. docs/LIBRARY.md.
 *
 * Buffers: all belong to the caller. A pointer is never NULL, not even with the length 0 (COSE_GATE_NOTHING). `out`, `question`, `questions`,
 *   `blocks`, `parts` and `lines` overlap nothing else that is passed in the same call; inputs may overlap. No length is above PTRDIFF_MAX.
 *   Nothing is kept after a call.
 * Others: nobody else writes to an input while a call reads it, or to a message as long as what an answer tells of it, as its payload, is
 *   used. A mapped file is no copy, not even with MAP_PRIVATE: what others write to the file later shows in it, and if they shorten it a
 *   signal ends the process. So read the file into memory of your own, or into a sealed memfd (examples/c/sealed.h).
 * Memory: a call takes memory by malloc, realloc and free, and has given all of it back when it returns. If it runs out of memory, the last
 *   line is `stopped: memory`, in place of the one that the run ended with. A call holds one item, which a sender can make large, at many
 *   times its bytes (docs/TIMES.md, "Memory").
 *   cose_gate_stream_check and cose_gate_stream_ask hold no payload (the second as much of what is covered as `question` has bytes); they
 *   have no lines, and the fault is COSE_GATE_MEMORY.
 *   If you replace malloc, replace realloc and free too; align to 16 bytes, or below that to the largest power of two that divides the size.
 * Stack: with 256 levels and 16 layers each call was seen to take up to 179 KiB, on the worst messages of each shape that we could make; with
 *   the widest limits, 4,096 and 64, up to 6,160 KiB. What Rattle's own compiler builds takes up to 3,530 KiB and more (docs/TIMES.md, "Stack").
 *   Under a limit of the address space, the first thread has to use that much once before any call (docs/LIBRARY.md).
 * Threads: any number of threads may call at once, each with buffers of its own. The library has no state, and starts no thread.
 * Signals and fork: not from a signal handler, and not in the forked child of a process with threads, as malloc isn't safe there.
 */
#ifndef COSE_GATE_H
#define COSE_GATE_H

#include <limits.h>
#include <stdbool.h>
#include <stddef.h>
#include <stdint.h>

/* The release, as in CHANGELOG.md. */
#define COSE_GATE_VERSION "0.8"

/* No bytes: a pointer and a length, for two arguments. */
#define COSE_GATE_NOTHING ((const uint8_t *)""), ((size_t)0)

#ifdef __cplusplus
extern "C" {
#endif

/* The statuses: those of the program cose-gate, and one more. */
enum cose_gate_status {
  COSE_GATE_ALL_PASSED = 0,   /* no item was refused */
  COSE_GATE_SOME_REFUSED = 1, /* some were; what passed is written */
  COSE_GATE_LIMITS = 2,       /* `nesting` or `layers` is out of range, or a string of `token` isn't UTF-8; nothing was read */
  COSE_GATE_KEYS = 3,         /* the bytes are not a key set, or neither records nor digests; nothing was read */
  COSE_GATE_STOPPED = 4,      /* an item can't be read, or memory ran out. What passed before is written; nothing if memory ran out for the
                                 output, the keys or the records */
  COSE_GATE_NO_ROOM = 5       /* the output is longer than its buffer, which stays as it was */
};

/* The limits of the program. */
#define COSE_GATE_NESTING 256
#define COSE_GATE_LAYERS 16

typedef struct cose_gate_answer {
  uint32_t status; /* one of the above */
  size_t length;   /* bytes of output; with COSE_GATE_NO_ROOM the size that the buffer needs */
  size_t lines;    /* bytes of the report's lines, also of those that didn't fit into `lines` */
} cose_gate_answer;

#if defined(__cplusplus)
#define COSE_GATE_ASSERT(holds, text) static_assert(holds, text)
#else
#define COSE_GATE_ASSERT(holds, text) _Static_assert(holds, text)
#endif
COSE_GATE_ASSERT(CHAR_BIT == 8 && sizeof(size_t) == 8, "x86_64 alone");
COSE_GATE_ASSERT(sizeof(bool) == 1, "a bool is one byte");
COSE_GATE_ASSERT(offsetof(cose_gate_answer, status) == 0, "status");
COSE_GATE_ASSERT(offsetof(cose_gate_answer, length) == 8, "length");
COSE_GATE_ASSERT(offsetof(cose_gate_answer, lines) == 16, "lines");
COSE_GATE_ASSERT(sizeof(cose_gate_answer) == 24, "cose_gate_answer");

/* Bytes in a buffer. */
typedef struct cose_gate_text {
  const uint8_t *at;
  size_t length;
} cose_gate_text;

/* Runs cose-gate over memory. `keys` is an encoded COSE_KeySet (RFC 9052, section 7), `aad` the external_aad, and `input` a CBOR sequence.
 * The messages that pass are written to the front of `out`, one after another, each in canonical encoding: shortest heads, definite lengths,
 * header fields in a fixed order. Payloads and protected headers keep their bytes. `lines` takes what the program writes on standard error, as
 * far as it fits. `nesting` is 2 to 4096 and `layers` 1 to 64; if `strict` is true, only messages that are already in canonical encoding pass.
 * The output may be longer than the input: `c2450100000000`, say, is written as `1b0000000100000000`. A buffer of the input's length mostly
 * serves, and with COSE_GATE_NO_ROOM a second call with a buffer of `length` bytes does. */
cose_gate_answer cose_gate_check(const uint8_t *keys, size_t keys_length,
                                 const uint8_t *aad, size_t aad_length,
                                 const uint8_t *input, size_t input_length,
                                 uint8_t *out, size_t out_length,
                                 uint8_t *lines, size_t lines_length,
                                 size_t nesting, size_t layers, bool strict);

/* The two calls for signatures that the caller checks himself.
 *
 * cose_gate_ask tells the questions of the input: a record in `questions` for each signature or MAC over a message that is well formed, one
 * after another, in order. `lines` are those of a run in which every signature is good. With the statuses 0 and 1 all are there. With
 * COSE_GATE_STOPPED those before the place where the run stopped are there (if memory ran out at a message, perhaps some of its own too), and
 * none if memory ran out for the records.
 *
 * A record is its length in eight bytes, the lowest first, and then that many bytes, its key: eight bytes with the message's tag, and seven
 * byte strings, each after its length in eight bytes. cose_gate_next reads one. No signature covers the unprotected headers and the recipients,
 * but a caller finds his key by them. So they are part of the key, and a record that was accepted doesn't count for a message with others.
 *
 * A protected header that was received as an encoded empty map, the one byte `a0`, is shown and covered as `a0`. (RFC 9052, section 4.4, asks
 * for an empty string there; a signature over that is over other bytes.)
 *
 * cose_gate_pass takes the records that the caller accepts, copied as they are, one after another, and writes the messages all of whose
 * questions are among them. `aad`, the limits and `strict` are those of the call before. The records are sorted once, so each question is
 * found in as many steps as the logarithm of their number. COSE_GATE_KEYS: these are not records. */
cose_gate_answer cose_gate_ask(const uint8_t *aad, size_t aad_length,
                               const uint8_t *input, size_t input_length,
                               uint8_t *questions, size_t questions_length,
                               uint8_t *lines, size_t lines_length,
                               size_t nesting, size_t layers, bool strict);

cose_gate_answer cose_gate_pass(const uint8_t *accepted, size_t accepted_length,
                                const uint8_t *aad, size_t aad_length,
                                const uint8_t *input, size_t input_length,
                                uint8_t *out, size_t out_length,
                                uint8_t *lines, size_t lines_length,
                                size_t nesting, size_t layers, bool strict);

/* The same by the rules for headers and keys (docs/TOKENS.md, "The rules"), so that a caller only verifies signatures.
 *
 * cose_gate_ask_ruled does what `cose-ask --keys` does (docs/cose-ask.1): it writes a block for each item, which says whether the rules allow
 * its signatures to be checked, or in words why not; and of each signature the algorithm, the keys of `keys` that fit, by their places, and
 * the covered bytes. cose_gate_next_item reads a block, and cose_gate_next_signature a question of it. `lines` are those of a run in which
 * every signature is good that the rules allow. The statuses are those of cose_gate_check; with COSE_GATE_STOPPED the blocks are those of the
 * items before the place where the run stopped, and none if memory ran out for the blocks. They are linear in the input.
 *
 * cose_gate_ask_tokens does the same of items that have to be tokens (CWT, RFC 8392), as `cose-ask --keys --cwt` does: an item whose claims
 * don't pass by `token` has no signatures to verify, its verdict is `refused: Claims`, and `why` has the first reason. Statuses and `lines`
 * don't go by the claims; cose_gate_pass_digests passes no item that has no digest.
 *
 * cose_gate_key_parts writes the parts of all keys of a set: cose_gate_key_at shows those of the key at a place. Of each key it writes the
 * length of what follows, in eight bytes, the lowest first; the numbers of its type, its algorithm and its curve in eight bytes each, in two's
 * complement, 0 for none and for a name; and three byte strings, each after its length in eight bytes, empty if there is none: n of an RSA key
 * or k of a symmetric one; x of an OKP or EC2 key or e of an RSA key; and y of an EC2 key. Keys of other types fit no algorithm here, and have
 * none. A later release may add bytes after these. No private part of a key pair is shown, but k is, which is secret: clear the buffer after
 * use. COSE_GATE_ALL_PASSED: they are written. COSE_GATE_KEYS: the bytes are not a key set. COSE_GATE_STOPPED: memory ran out.
 * COSE_GATE_NO_ROOM: as above.
 *
 * cose_gate_pass_digests takes the digests of the questions whose signatures are good, COSE_GATE_DIGEST bytes each, one after another, in any
 * order, and writes the messages all of whose questions are among them. `aad`, the limits and `strict` are those of the call before. That two
 * questions never have one digest is the usual assumption of SHA-256. COSE_GATE_KEYS: the length isn't a multiple of COSE_GATE_DIGEST. */
enum { COSE_GATE_DIGEST = 32 };

cose_gate_answer cose_gate_ask_ruled(const uint8_t *keys, size_t keys_length,
                                     const uint8_t *aad, size_t aad_length,
                                     const uint8_t *input, size_t input_length,
                                     uint8_t *blocks, size_t blocks_length,
                                     uint8_t *lines, size_t lines_length,
                                     size_t nesting, size_t layers, bool strict);

/* Which tokens pass. cose_gate_token_terms_at has the times, and asks for nothing else: then a token with an aud is refused. The pointers are
 * never NULL, and what is a cose_gate_text is UTF-8. */
typedef struct cose_gate_token_terms {
  int64_t earliest;            /* the earliest second since 1970 that it may be: now, less the leeway of clocks. exp has to be after it */
  int64_t latest;              /* the latest: now, and the leeway. nbf must not be after it */
  cose_gate_text issuer;       /* what iss has to be, if `has_issuer` */
  cose_gate_text audience;     /* what aud has to be or to have, if `has_audience` */
  const int64_t *needed;       /* the claims that have to be there, by their numbers: 4 is exp */
  size_t needed_length;
  const cose_gate_text *named; /* and those that have names */
  size_t named_length;
  bool has_issuer;
  bool has_audience;
  bool any_audience;           /* if not `has_audience`: aud isn't looked at. Else a token with an aud is refused */
} cose_gate_token_terms;

COSE_GATE_ASSERT(offsetof(cose_gate_token_terms, earliest) == 0, "earliest");
COSE_GATE_ASSERT(offsetof(cose_gate_token_terms, latest) == 8, "latest");
COSE_GATE_ASSERT(offsetof(cose_gate_token_terms, issuer) == 16, "issuer");
COSE_GATE_ASSERT(offsetof(cose_gate_token_terms, audience) == 32, "audience");
COSE_GATE_ASSERT(offsetof(cose_gate_token_terms, needed) == 48, "needed");
COSE_GATE_ASSERT(offsetof(cose_gate_token_terms, named) == 64, "named");
COSE_GATE_ASSERT(offsetof(cose_gate_token_terms, has_issuer) == 80, "has_issuer");
COSE_GATE_ASSERT(offsetof(cose_gate_token_terms, has_audience) == 81, "has_audience");
COSE_GATE_ASSERT(offsetof(cose_gate_token_terms, any_audience) == 82, "any_audience");
COSE_GATE_ASSERT(sizeof(cose_gate_token_terms) == 88, "cose_gate_token_terms");

cose_gate_answer cose_gate_ask_tokens(const uint8_t *keys, size_t keys_length,
                                      const cose_gate_token_terms *token,
                                      const uint8_t *aad, size_t aad_length,
                                      const uint8_t *input, size_t input_length,
                                      uint8_t *blocks, size_t blocks_length,
                                      uint8_t *lines, size_t lines_length,
                                      size_t nesting, size_t layers, bool strict);

/* The terms at a second since 1970, if clocks may differ by so many seconds: `time(NULL)` and 60, say. */
static inline cose_gate_token_terms cose_gate_token_terms_at(int64_t now, int64_t leeway) {
  static const int64_t none = 0;
  static const cose_gate_text no_text = {(const uint8_t *)"", 0};
  cose_gate_token_terms terms;
  terms.earliest = now - leeway;
  terms.latest = now + leeway;
  terms.issuer = terms.audience = no_text;
  terms.needed = &none;
  terms.named = &no_text;
  terms.needed_length = terms.named_length = 0;
  terms.has_issuer = terms.has_audience = terms.any_audience = false;
  return terms;
}

cose_gate_answer cose_gate_pass_digests(const uint8_t *accepted, size_t accepted_length,
                                        const uint8_t *aad, size_t aad_length,
                                        const uint8_t *input, size_t input_length,
                                        uint8_t *out, size_t out_length,
                                        uint8_t *lines, size_t lines_length,
                                        size_t nesting, size_t layers, bool strict);

cose_gate_answer cose_gate_key_parts(const uint8_t *keys, size_t keys_length, uint8_t *parts, size_t parts_length);

/* One message that is checked in place: a firmware image in memory that nobody else writes, say ("Others" above).
 *
 * cose_gate_stream_check checks the message at the front of `message`: a COSE_Mac0 with its tag, 17, whose payload is a byte string that states
 * its length in front (RFC 9052, section 6.2). It decides as cose_gate_check does: by HMAC with SHA-256 under the first key of `keys` that fits.
 * The payload is hashed 4 KiB at a time, and never copied as a whole. The message is read once, to its end, before it is judged. What
 * comes after it is not read, and its tag doesn't cover that: all of an image is good only if `length` is also `message_length`.
 *
 * COSE_GATE_ALL_PASSED: the tag is good. COSE_GATE_SOME_REFUSED: it isn't, no key fits, or the message is a COSE_Sign1, which is read but has
 * no MAC. With both `length` is how many bytes of `message` the message takes, and the payload is the `payload_length` bytes at
 * `message + payload`. COSE_GATE_LIMITS, COSE_GATE_KEYS: as above. COSE_GATE_STOPPED: no such message is at the front, or memory ran out;
 * `fault` says why. */
enum cose_gate_fault {
  COSE_GATE_NO_FAULT = 0,
  COSE_GATE_NOT_TAGGED = 1, /* the bytes don't begin with a tag */
  COSE_GATE_OTHER_TAG = 2,  /* they begin with another tag than 17 and 18 */
  COSE_GATE_SHAPE = 3,      /* no message of its tag: other than four elements, one of a wrong type, a header that is wrong or too deep */
  COSE_GATE_DETACHED = 4,   /* the message doesn't carry its payload */
  COSE_GATE_UNSIZED = 5,    /* the payload is a byte string in chunks */
  COSE_GATE_DECODE = 6,     /* the bytes are cut short or damaged, or nest too deep */
  COSE_GATE_MEMORY = 7      /* memory ran out */
};

typedef struct cose_gate_stream_answer {
  uint32_t status;       /* COSE_GATE_ALL_PASSED to COSE_GATE_STOPPED */
  uint32_t fault;        /* why, with COSE_GATE_STOPPED; else COSE_GATE_NO_FAULT */
  size_t length;         /* bytes of the message if it was judged; else 0 */
  size_t payload;        /* how many of them are before its payload; else 0 */
  size_t payload_length; /* bytes of the payload; else 0 */
} cose_gate_stream_answer;

COSE_GATE_ASSERT(offsetof(cose_gate_stream_answer, status) == 0, "status");
COSE_GATE_ASSERT(offsetof(cose_gate_stream_answer, fault) == 4, "fault");
COSE_GATE_ASSERT(offsetof(cose_gate_stream_answer, length) == 8, "length");
COSE_GATE_ASSERT(offsetof(cose_gate_stream_answer, payload) == 16, "payload");
COSE_GATE_ASSERT(offsetof(cose_gate_stream_answer, payload_length) == 24, "payload_length");
COSE_GATE_ASSERT(sizeof(cose_gate_stream_answer) == 32, "cose_gate_stream_answer");

cose_gate_stream_answer cose_gate_stream_check(const uint8_t *keys, size_t keys_length,
                                               const uint8_t *aad, size_t aad_length,
                                               const uint8_t *message, size_t message_length,
                                               size_t nesting, size_t layers);

/* cose_gate_stream_ask tells the question about the message at the front of `message`, so that a hash or signature check of the caller's own
 * goes over the payload in place: a COSE_Mac0 as above, or a COSE_Sign1 with its tag, 18 (RFC 9052, section 4.2). It judges nothing. What
 * comes after the message is not read, and no signature covers it: look at `length`.
 *
 * `question` takes the record that cose_gate_ask writes for this message, without the payload: the first `head` bytes of `question`, the
 * payload, and the rest of `question` are that record. The lengths in it count the payload. What the signature or MAC covers ends with the
 * payload (sections 4.4 and 6.3), and after it comes the signature. cose_gate_stream_parts takes `question` apart.
 *
 * COSE_GATE_ASKED: the question is written. COSE_GATE_NO_ROOM: it needs a buffer of `question_length` bytes, and the rest of the answer is
 * there. COSE_GATE_LIMITS: as above. COSE_GATE_STOPPED: no such message is at the front, or memory ran out; `fault` says why. With these
 * three `question` stays as it was. A buffer of some hundred bytes mostly serves; with COSE_GATE_NO_ROOM a second call does. */
enum { COSE_GATE_ASKED = 0 };

typedef struct cose_gate_stream_question {
  uint32_t status;        /* COSE_GATE_ASKED, COSE_GATE_LIMITS, COSE_GATE_STOPPED or COSE_GATE_NO_ROOM */
  uint32_t fault;         /* why, with COSE_GATE_STOPPED; else COSE_GATE_NO_FAULT */
  size_t length;          /* bytes of the message; with COSE_GATE_LIMITS and COSE_GATE_STOPPED this and the following are 0 */
  size_t payload;         /* how many of them are before its payload */
  size_t payload_length;  /* bytes of the payload */
  size_t head;            /* bytes of the record before the payload */
  size_t question_length; /* bytes of the record without the payload; with COSE_GATE_NO_ROOM the size that the buffer needs */
} cose_gate_stream_question;

COSE_GATE_ASSERT(offsetof(cose_gate_stream_question, status) == 0, "status");
COSE_GATE_ASSERT(offsetof(cose_gate_stream_question, fault) == 4, "fault");
COSE_GATE_ASSERT(offsetof(cose_gate_stream_question, length) == 8, "length");
COSE_GATE_ASSERT(offsetof(cose_gate_stream_question, payload) == 16, "payload");
COSE_GATE_ASSERT(offsetof(cose_gate_stream_question, payload_length) == 24, "payload_length");
COSE_GATE_ASSERT(offsetof(cose_gate_stream_question, head) == 32, "head");
COSE_GATE_ASSERT(offsetof(cose_gate_stream_question, question_length) == 40, "question_length");
COSE_GATE_ASSERT(sizeof(cose_gate_stream_question) == 48, "cose_gate_stream_question");

cose_gate_stream_question cose_gate_stream_ask(const uint8_t *aad, size_t aad_length,
                                               const uint8_t *message, size_t message_length,
                                               uint8_t *question, size_t question_length,
                                               size_t nesting, size_t layers);

/* The kinds of messages that are asked about, by their tags (RFC 9052, section 2). */
enum cose_gate_kind { COSE_GATE_MAC0 = 17, COSE_GATE_SIGN1 = 18, COSE_GATE_MAC = 97, COSE_GATE_SIGN = 98 };

/* A status, and a fault, in words for a log. */
static inline const char *cose_gate_status_text(uint32_t status) {
  static const char *const texts[] = {"all passed", "some refused", "limits out of range", "no key set, records or digests", "stopped", "no room"};
  return status < sizeof texts / sizeof texts[0] ? texts[status] : "unknown status";
}

static inline const char *cose_gate_fault_text(uint32_t fault) {
  static const char *const texts[] = {"no fault", "not tagged", "other tag", "shape", "detached", "unsized", "decode", "memory"};
  return fault < sizeof texts / sizeof texts[0] ? texts[fault] : "unknown fault";
}

/* A question, as its record shows it. `record` is what is copied to accept it. */
typedef struct cose_gate_question {
  cose_gate_text record;
  uint64_t kind;                     /* the message's tag */
  cose_gate_text protected_header;   /* as it was received: an encoded map (`a0` stays `a0`), or nothing */
  cose_gate_text unprotected_header; /* an encoded map */
  cose_gate_text signer_protected;   /* of a COSE_Sign; else empty */
  cose_gate_text signer_unprotected; /* of a COSE_Sign an encoded map; else empty */
  cose_gate_text recipients;         /* an encoded array: of a COSE_Mac its recipients, of the other kinds the empty one, `80` */
  cose_gate_text covered;            /* what the signature or MAC covers (sections 4.4 and 6.3) */
  cose_gate_text signature;          /* the signature or MAC */
} cose_gate_question;

static inline uint64_t cose_gate_number(const uint8_t *at) {
  uint64_t number = 0;
  for (int i = 7; i >= 0; i--) {
    number = number << 8 | at[i];
  }
  return number;
}

/* Takes a byte string with its length off the front of `*rest`. */
static inline bool cose_gate_next_text(cose_gate_text *rest, cose_gate_text *text) {
  if (rest->length < 8) {
    return false;
  }
  uint64_t length = cose_gate_number(rest->at);
  if (length > rest->length - 8) {
    return false;
  }
  text->at = rest->at + 8;
  text->length = (size_t)length;
  rest->at += 8 + length;
  rest->length -= 8 + (size_t)length;
  return true;
}

/* Takes the next record off the front of `*rest`; false if there is none. */
static inline bool cose_gate_next(cose_gate_text *rest, cose_gate_question *question) {
  cose_gate_text key;
  question->record.at = rest->at;
  if (!cose_gate_next_text(rest, &key) || key.length < 8) {
    return false;
  }
  question->record.length = 8 + key.length;
  question->kind = cose_gate_number(key.at);
  key.at += 8;
  key.length -= 8;
  return cose_gate_next_text(&key, &question->protected_header) && cose_gate_next_text(&key, &question->unprotected_header) &&
         cose_gate_next_text(&key, &question->signer_protected) && cose_gate_next_text(&key, &question->signer_unprotected) &&
         cose_gate_next_text(&key, &question->recipients) && cose_gate_next_text(&key, &question->covered) &&
         cose_gate_next_text(&key, &question->signature) && key.length == 0;
}

/* Shows a question that cose_gate_stream_ask wrote: `record` and `covered` are without the payload, which comes after this `covered`. False
 * if `question` and `answer` are not of one call. */
static inline bool cose_gate_stream_parts(const uint8_t *question, const cose_gate_stream_question *answer, cose_gate_question *parts) {
  if (answer->status != COSE_GATE_ASKED || answer->head < 16 || answer->question_length < answer->head) {
    return false;
  }
  cose_gate_text head = {question + 16, answer->head - 16}, behind = {question + answer->head, answer->question_length - answer->head};
  parts->record.at = question;
  parts->record.length = answer->question_length;
  parts->kind = cose_gate_number(question + 8);
  if (!cose_gate_next_text(&head, &parts->protected_header) || !cose_gate_next_text(&head, &parts->unprotected_header) ||
      !cose_gate_next_text(&head, &parts->signer_protected) || !cose_gate_next_text(&head, &parts->signer_unprotected) ||
      !cose_gate_next_text(&head, &parts->recipients) || head.length < 8) {
    return false;
  }
  parts->covered.at = head.at + 8;
  parts->covered.length = head.length - 8;
  return cose_gate_next_text(&behind, &parts->signature) && behind.length == 0;
}

/* What a block says of an item. */
typedef struct cose_gate_item {
  uint64_t number;        /* which item it is, from 1 on */
  uint64_t offset;        /* the offset of its first byte */
  uint64_t end;           /* the offset after its last byte */
  uint64_t asked;         /* how many of its signatures were asked about */
  cose_gate_text verdict; /* in words: `passed` if the rules allow each signature to be checked, else `refused: ` and the reason */
  cose_gate_text why;     /* in words: why the rules refuse a signature, or what is wrong with the message; may be empty */
  cose_gate_text base;    /* the covered bytes of its first question */
  cose_gate_text signatures; /* what cose_gate_next_signature takes; nothing if the item is refused */
} cose_gate_item;

/* A signature or MAC to verify: good if it is good under one of these keys. */
typedef struct cose_gate_signature {
  uint64_t kind;             /* the message's tag, COSE_GATE_MAC0, COSE_GATE_SIGN1 or COSE_GATE_SIGN */
  int64_t algorithm;         /* as COSE numbers it (RFC 9053): -7 is ES256 */
  cose_gate_text keys;       /* the places in KEYS of the keys that fit: what cose_gate_next_number takes */
  cose_gate_text covered[3]; /* the signature or MAC covers these, one after another (RFC 9052, sections 4.4 and 6.3) */
  cose_gate_text signature;  /* the signature or MAC */
  const uint8_t *digest;     /* COSE_GATE_DIGEST bytes, for cose_gate_pass_digests if it is good */
} cose_gate_signature;

/* The parts of a key: numbers of IANA's registries for COSE, 0 for none and for a name, and big-endian byte strings, empty if the key has none.
 * A y that is only a sign isn't shown. */
typedef struct cose_gate_key {
  int64_t type;          /* kty: 1 is OKP, 2 EC2, 3 RSA, 4 symmetric */
  int64_t algorithm;     /* alg, which the key is for alone */
  int64_t curve;         /* crv of a key on a curve: 1 is P-256, 6 Ed25519 */
  cose_gate_text n_or_k; /* n of an RSA key, k of a symmetric one */
  cose_gate_text x_or_e; /* x of a key on a curve, e of an RSA key */
  cose_gate_text y;      /* y of a key on a curve of two coordinates (EC2) */
} cose_gate_key;

/* Takes a number off the front of `*rest`. */
static inline bool cose_gate_next_number(cose_gate_text *rest, uint64_t *number) {
  if (rest->length < 8) {
    return false;
  }
  *number = cose_gate_number(rest->at);
  rest->at += 8;
  rest->length -= 8;
  return true;
}

/* Takes a number in two's complement off the front of `*rest`. */
static inline bool cose_gate_next_integer(cose_gate_text *rest, int64_t *integer) {
  uint64_t number;
  if (!cose_gate_next_number(rest, &number)) {
    return false;
  }
  *integer = (int64_t)number;
  return true;
}

/* Takes the next block off the front of `*rest`, of what cose_gate_ask_ruled wrote; false if there is none. */
static inline bool cose_gate_next_item(cose_gate_text *rest, cose_gate_item *item) {
  return cose_gate_next_text(rest, &item->signatures) && cose_gate_next_number(&item->signatures, &item->number) &&
         cose_gate_next_number(&item->signatures, &item->offset) && cose_gate_next_number(&item->signatures, &item->end) &&
         cose_gate_next_number(&item->signatures, &item->asked) && cose_gate_next_text(&item->signatures, &item->verdict) &&
         cose_gate_next_text(&item->signatures, &item->why) && cose_gate_next_text(&item->signatures, &item->base);
}

/* Takes the next question off an item; false if there is none. */
static inline bool cose_gate_next_signature(cose_gate_item *item, cose_gate_signature *one) {
  cose_gate_text rest;
  uint64_t front, back;
  if (!cose_gate_next_text(&item->signatures, &rest) || !cose_gate_next_number(&rest, &one->kind) || !cose_gate_next_integer(&rest, &one->algorithm) ||
      !cose_gate_next_text(&rest, &one->keys) || !cose_gate_next_number(&rest, &front) || !cose_gate_next_number(&rest, &back) ||
      !cose_gate_next_text(&rest, &one->covered[1]) || !cose_gate_next_text(&rest, &one->signature) || rest.length != COSE_GATE_DIGEST ||
      front > item->base.length || back > item->base.length) {
    return false;
  }
  one->covered[0].at = item->base.at;
  one->covered[0].length = (size_t)front;
  one->covered[2].at = item->base.at + back;
  one->covered[2].length = item->base.length - (size_t)back;
  one->digest = rest.at;
  return true;
}

/* Takes the parts of the next key off the front of `*rest`, of what cose_gate_key_parts wrote; false if there is none. */
static inline bool cose_gate_next_key(cose_gate_text *rest, cose_gate_key *key) {
  cose_gate_text parts;
  return cose_gate_next_text(rest, &parts) && cose_gate_next_integer(&parts, &key->type) && cose_gate_next_integer(&parts, &key->algorithm) &&
         cose_gate_next_integer(&parts, &key->curve) && cose_gate_next_text(&parts, &key->n_or_k) &&
         cose_gate_next_text(&parts, &key->x_or_e) && cose_gate_next_text(&parts, &key->y);
}

/* The key at this place in KEYS; false if there is none. */
static inline bool cose_gate_key_at(cose_gate_text parts, uint64_t place, cose_gate_key *key) {
  do {
    if (!cose_gate_next_key(&parts, key)) {
      return false;
    }
  } while (place-- > 0);
  return true;
}

#ifdef __cplusplus
}
#endif
#endif

/* es256 [--cwt SECONDS [AUD]] KEYS INPUT > PASSED: the messages of INPUT whose signatures are good with ES256 under a key of KEYS, a COSE_KeySet.
 * The library finds the key and the covered bytes, and refuses what the rules for headers and keys refuse; OpenSSL's libcrypto verifies. With
 * --cwt only tokens whose claims pass at this second since 1970, if they name an audience for AUD. Both files are sealed copies (sealed.h). The
 * status is that of the library. Build and run: `bash scripts/c-library.sh es256`. */
#define _GNU_SOURCE
#include "cose_gate.h"
#include "sealed.h"

#include <openssl/ecdsa.h>
#include <openssl/evp.h>
#include <openssl/param_build.h>
#include <stdio.h>
#include <stdlib.h>
#include <string.h>

enum { ES256 = -7, EC2 = 2, P256 = 1, HALF = 32 };

/* The public key on P-256 of these parts; NULL if there is none. */
static EVP_PKEY *p256(const cose_gate_key *it) {
  uint8_t point[1 + 2 * HALF] = {4};
  if (it->type != EC2 || it->curve != P256 || it->x_or_e.length != HALF || it->y.length != HALF) {
    return NULL;
  }
  memcpy(point + 1, it->x_or_e.at, HALF);
  memcpy(point + 1 + HALF, it->y.at, HALF);
  char curve[] = "P-256";
  OSSL_PARAM parts[] = {OSSL_PARAM_construct_utf8_string("group", curve, 0), OSSL_PARAM_construct_octet_string("pub", point, sizeof point),
                        OSSL_PARAM_construct_end()};
  EVP_PKEY *key = NULL;
  EVP_PKEY_CTX *context = EVP_PKEY_CTX_new_from_name(NULL, "EC", NULL);
  if (context != NULL && EVP_PKEY_fromdata_init(context) == 1) {
    EVP_PKEY_fromdata(context, &key, EVP_PKEY_PUBLIC_KEY, parts);
  }
  EVP_PKEY_CTX_free(context);
  return key;
}

/* A signature, r and s in 32 bytes each (RFC 9053, section 2.1), as libcrypto takes it: how many bytes, which are to be freed. */
static int der_of(cose_gate_text signature, uint8_t **der) {
  if (signature.length != 2 * HALF) {
    return 0;
  }
  int length = 0;
  ECDSA_SIG *both = ECDSA_SIG_new();
  BIGNUM *r = BN_bin2bn(signature.at, HALF, NULL), *s = BN_bin2bn(signature.at + HALF, HALF, NULL);
  if (both != NULL && r != NULL && s != NULL && ECDSA_SIG_set0(both, r, s) == 1) {
    length = i2d_ECDSA_SIG(both, der);
  } else {
    BN_free(r);
    BN_free(s);
  }
  ECDSA_SIG_free(both);
  return length;
}

/* Whether it is good under this key. */
static bool verify(const cose_gate_signature *one, const cose_gate_key *parts) {
  uint8_t *der = NULL;
  int length = der_of(one->signature, &der);
  EVP_PKEY *key = p256(parts);
  EVP_MD_CTX *context = EVP_MD_CTX_new();
  bool is_good = length > 0 && key != NULL && context != NULL && EVP_DigestVerifyInit(context, NULL, EVP_sha256(), NULL, key) == 1;
  for (int i = 0; is_good && i < 3; i++) {
    is_good = one->covered[i].length == 0 || EVP_DigestVerifyUpdate(context, one->covered[i].at, one->covered[i].length) == 1;
  }
  is_good = is_good && EVP_DigestVerifyFinal(context, der, (size_t)length) == 1;
  EVP_MD_CTX_free(context);
  EVP_PKEY_free(key);
  OPENSSL_free(der);
  return is_good;
}

/* Whether it is good under one of the keys that fit. */
static bool is_good(const cose_gate_signature *one, cose_gate_text parts) {
  cose_gate_text places = one->keys;
  cose_gate_key key;
  uint64_t place;
  while (one->algorithm == ES256 && cose_gate_next_number(&places, &place)) {
    if (cose_gate_key_at(parts, place, &key) && verify(one, &key)) {
      return true;
    }
  }
  return false;
}

/* The digests of the good ones, to the front of a buffer; how many bytes these are. */
static size_t accept(cose_gate_text blocks, cose_gate_text parts, uint8_t *digests) {
  cose_gate_item item;
  cose_gate_signature one;
  size_t length = 0;
  while (cose_gate_next_item(&blocks, &item)) {
    while (cose_gate_next_signature(&item, &one)) {
      if (is_good(&one, parts)) {
        memmove(digests + length, one.digest, COSE_GATE_DIGEST);
        length += COSE_GATE_DIGEST;
      }
    }
  }
  return length;
}

/* What a call writes. `room` grows to what it needs, `at` is NULL if memory ran out. */
typedef struct output {
  uint8_t *at;
  cose_gate_answer answer;
} output;

enum call { KEY_PARTS, ASK, PASS };

static uint8_t lines[1 << 16];

/* Which tokens pass; NULL if the messages may be others. */
static const cose_gate_token_terms *token;

static cose_gate_answer call(enum call which, bytes keys, bytes input, uint8_t *out, size_t room) {
  switch (which) {
    case KEY_PARTS:
      return cose_gate_key_parts(keys.at, keys.length, out, room);
    case ASK:
      if (token != NULL) {
        return cose_gate_ask_tokens(keys.at, keys.length, token, COSE_GATE_NOTHING, input.at, input.length, out, room, lines, sizeof lines,
                                    COSE_GATE_NESTING, COSE_GATE_LAYERS, false);
      }
      return cose_gate_ask_ruled(keys.at, keys.length, COSE_GATE_NOTHING, input.at, input.length, out, room, lines, sizeof lines,
                                 COSE_GATE_NESTING, COSE_GATE_LAYERS, false);
    default:
      return cose_gate_pass_digests(keys.at, keys.length, COSE_GATE_NOTHING, input.at, input.length, out, room, lines, sizeof lines,
                                    COSE_GATE_NESTING, COSE_GATE_LAYERS, false);
  }
}

/* A call with a buffer as long as it has to be. */
static output run(enum call which, bytes keys, bytes input) {
  size_t room = input.length + 1;
  for (;;) {
    output made = {malloc(room), {COSE_GATE_STOPPED, 0, 0}};
    if (made.at == NULL) {
      return made;
    }
    made.answer = call(which, keys, input, made.at, room);
    if (made.answer.status != COSE_GATE_NO_ROOM) {
      return made;
    }
    room = made.answer.length;
    free(made.at);
  }
}

static cose_gate_text written(output made) {
  cose_gate_text text = {made.at, made.answer.length};
  return text;
}

int main(int count, char **words) {
  cose_gate_token_terms terms;
  if (count > 4 && strcmp(words[1], "--cwt") == 0) {
    terms = cose_gate_token_terms_at(strtoll(words[2], NULL, 10), 0);
    token = &terms;
    count -= 2;
    words += 2;
    if (count == 4) {
      terms.audience.at = (const uint8_t *)words[1];
      terms.audience.length = strlen(words[1]);
      terms.has_audience = true;
      count--;
      words++;
    }
  }
  if (count != 3) {
    fprintf(stderr, "usage: es256 [--cwt SECONDS [AUD]] KEYS INPUT > PASSED\n");
    return COSE_GATE_LIMITS;
  }
  bytes keys = sealed_copy(words[1]), input = sealed_copy(words[2]);
  if (keys.at == NULL || input.at == NULL) {
    fprintf(stderr, "a file cannot be read\n");
    return COSE_GATE_KEYS;
  }
  output parts = run(KEY_PARTS, keys, input), blocks = run(ASK, keys, input);
  int status = (int)blocks.answer.status;
  if (parts.answer.status == COSE_GATE_ALL_PASSED && blocks.at != NULL && status != COSE_GATE_KEYS) {
    /* The digests are part of the blocks, and shorter. */
    uint8_t *digests = malloc(blocks.answer.length + 1);
    if (digests != NULL) {
      bytes accepted = {digests, accept(written(blocks), written(parts), digests)};
      output passed = run(PASS, accepted, input);
      status = (int)passed.answer.status;
      if (passed.at != NULL && (fwrite(passed.at, 1, passed.answer.length, stdout) != passed.answer.length || fflush(stdout) != 0)) {
        status = COSE_GATE_STOPPED;
      }
      fwrite(lines, 1, passed.answer.lines < sizeof lines ? passed.answer.lines : sizeof lines, stderr);
      free(passed.at);
      free(digests);
    }
  } else {
    fprintf(stderr, "%s\n", cose_gate_status_text((uint32_t)status));
  }
  free(parts.at);
  free(blocks.at);
  release(keys);
  release(input);
  return status;
}

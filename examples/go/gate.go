// Package cosegate lets through the COSE messages of a CBOR sequence that are good, by the library for C (include/cose_gate.h), which pkg-config
// finds where `scripts/install.sh --library` put it. Check checks MACs. PassSigned is for signatures: the library goes by the rules for headers
// and keys, and the caller says whether a signature is good under a key. PassTokens is that for tokens. Nobody may write to a slice during a
// call.
package cosegate

// #cgo pkg-config: cose_gate
// #include <stdlib.h>
// #include "cose_gate.h"
import "C"

import (
	"bytes"
	"encoding/binary"
	"errors"
	"unsafe"
)

// Why the gate didn't go through an input.
var (
	// ErrLimits: the limits are out of range, or a string of Terms isn't UTF-8.
	ErrLimits = errors.New("the limits are out of range, or a string isn't UTF-8")
	// ErrKeys: the bytes are no key set, or neither records nor digests.
	ErrKeys = errors.New("the bytes are no key set, or neither records nor digests")
	// ErrStopped: the input is no CBOR from some place on, or memory ran out. What was written before is returned beside it.
	ErrStopped = errors.New("the input is no CBOR, or out of memory")
)

// Refused says why a message is not good.
type Refused string

func (why Refused) Error() string { return "refused: " + string(why) }

// Checked is what the gate says of an input.
type Checked struct {
	SomeRefused bool
	Passed      []byte
	Lines       []byte
}

// Question is a question, as its record shows it. Record is what Pass takes to accept it.
type Question struct {
	Record            []byte
	Kind              uint64 // the message's tag: 18, 17, 98 or 97
	Protected         []byte
	Unprotected       []byte
	SignerProtected   []byte
	SignerUnprotected []byte
	Recipients        []byte
	Covered           []byte
	Signature         []byte
}

// Signature is a signature or MAC to verify: good if it is good under one of the keys. Digest is what PassDigests takes to accept it.
type Signature struct {
	Kind      uint64   // the message's tag: 18, 17 or 98
	Algorithm int64    // as COSE numbers it: -7 is ES256
	Keys      []uint64 // the places of the keys that fit in the key set
	Covered   []byte
	Signature []byte
	Digest    []byte
}

// Item is what to verify of an item: all its signatures if the rules allow them, or Why none.
type Item struct {
	Number, Offset, End, Asked uint64
	Verdict, Why               string
	Signatures                 []Signature
}

// Key is the parts of a key: numbers of IANA's registries for COSE, 0 for none, and byte strings, empty if it has none.
type Key struct {
	Type      int64 // 1 is OKP, 2 EC2, 3 RSA, 4 symmetric
	Algorithm int64
	Curve     int64 // 1 is P-256, 6 Ed25519
	NOrK      []byte
	XOrE      []byte
	Y         []byte
}

// Terms says which tokens pass (RFC 8392).
type Terms struct {
	Now, Leeway int64    // seconds since 1970, and by how many clocks may differ
	Issuer      *string  // what iss has to be, if not nil
	Audience    *string  // what aud has to be or to have; if nil, a token with an aud is refused
	AnyAudience bool     // aud isn't looked at, if Audience is nil
	Needed      []int64  // claims that have to be there, by their numbers
	Named       []string // and by their names
}

// first is a pointer to the first byte, and never nil.
func first(bytes []byte) *C.uint8_t {
	if len(bytes) == 0 {
		bytes = make([]byte, 1)
	}
	return (*C.uint8_t)(unsafe.Pointer(&bytes[0]))
}

func size(bytes []byte) C.size_t { return C.size_t(len(bytes)) }

// longer is the larger of the two.
func longer(a int, b C.size_t) int {
	if a < int(b) {
		return int(b)
	}
	return a
}

// run is a call with buffers as long as they have to be.
func run(room int, call func(out, lines []byte) C.cose_gate_answer) (Checked, error) {
	out, lines := make([]byte, room), make([]byte, 4096)
	answer := call(out, lines)
	if answer.status == C.COSE_GATE_NO_ROOM || int(answer.lines) > len(lines) {
		// What is written is longer than was thought: the answer says how long.
		out, lines = make([]byte, longer(len(out), answer.length)), make([]byte, longer(len(lines), answer.lines))
		answer = call(out, lines)
	}
	checked := Checked{answer.status == C.COSE_GATE_SOME_REFUSED, out[:answer.length], lines[:answer.lines]}
	return checked, errorOf(answer.status)
}

func errorOf(status C.uint32_t) error {
	switch status {
	case C.COSE_GATE_ALL_PASSED, C.COSE_GATE_SOME_REFUSED:
		return nil
	case C.COSE_GATE_LIMITS:
		return ErrLimits
	case C.COSE_GATE_KEYS:
		return ErrKeys
	default:
		return ErrStopped
	}
}

// Check checks the MACs of a sequence of messages. With ErrKeys and ErrStopped there are lines too.
func Check(keys, aad, input []byte, strict bool) (Checked, error) {
	return run(len(input), func(out, lines []byte) C.cose_gate_answer {
		return C.cose_gate_check(first(keys), size(keys), first(aad), size(aad), first(input), size(input), first(out), size(out), first(lines),
			size(lines), C.COSE_GATE_NESTING, C.COSE_GATE_LAYERS, C.bool(strict))
	})
}

// Ask tells the questions of a sequence of messages. With ErrStopped those are there that come before.
func Ask(aad, input []byte, strict bool) ([]Question, error) {
	told, err := run(len(input), func(out, lines []byte) C.cose_gate_answer {
		return C.cose_gate_ask(first(aad), size(aad), first(input), size(input), first(out), size(out), first(lines), size(lines),
			C.COSE_GATE_NESTING, C.COSE_GATE_LAYERS, C.bool(strict))
	})
	return questions(told.Passed), err
}

// Pass passes the messages all of whose questions are accepted: some that Ask returned, with the same data and strictness.
func Pass(accepted []Question, aad, input []byte, strict bool) (Checked, error) {
	var records []byte
	for _, one := range accepted {
		records = append(records, one.Record...)
	}
	return run(len(input), func(out, lines []byte) C.cose_gate_answer {
		return C.cose_gate_pass(first(records), size(records), first(aad), size(aad), first(input), size(input), first(out), size(out),
			first(lines), size(lines), C.COSE_GATE_NESTING, C.COSE_GATE_LAYERS, C.bool(strict))
	})
}

// AskRuled tells what to verify of each item of a sequence, by the rules for headers and keys. With ErrStopped the items are there that come
// before.
func AskRuled(keys, aad, input []byte, strict bool) ([]Item, error) {
	told, err := run(len(input), func(out, lines []byte) C.cose_gate_answer {
		return C.cose_gate_ask_ruled(first(keys), size(keys), first(aad), size(aad), first(input), size(input), first(out), size(out),
			first(lines), size(lines), C.COSE_GATE_NESTING, C.COSE_GATE_LAYERS, C.bool(strict))
	})
	return items(told.Passed), err
}

// AskTokens tells what to verify of each token of a sequence whose claims pass, and of another item why it has nothing to verify.
func AskTokens(keys []byte, terms Terms, aad, input []byte, strict bool) ([]Item, error) {
	token, release := termsOf(terms)
	defer release()
	told, err := run(len(input), func(out, lines []byte) C.cose_gate_answer {
		return C.cose_gate_ask_tokens(first(keys), size(keys), token, first(aad), size(aad), first(input), size(input), first(out), size(out),
			first(lines), size(lines), C.COSE_GATE_NESTING, C.COSE_GATE_LAYERS, C.bool(strict))
	})
	return items(told.Passed), err
}

// PassDigests passes the messages all of whose questions have their digests among these.
func PassDigests(digests [][]byte, aad, input []byte, strict bool) (Checked, error) {
	accepted := bytes.Join(digests, nil)
	return run(len(input), func(out, lines []byte) C.cose_gate_answer {
		return C.cose_gate_pass_digests(first(accepted), size(accepted), first(aad), size(aad), first(input), size(input), first(out), size(out),
			first(lines), size(lines), C.COSE_GATE_NESTING, C.COSE_GATE_LAYERS, C.bool(strict))
	})
}

// PassSigned passes the messages of a sequence all of whose signatures and MACs the rules allow, and good says to be good under one of the keys
// that fit.
func PassSigned(keys, aad, input []byte, strict bool, good func(Signature, Key) bool) (Checked, error) {
	items, err := AskRuled(keys, aad, input, strict)
	return passGood(items, err, keys, aad, input, strict, good)
}

// PassTokens does the same of tokens whose claims pass.
func PassTokens(keys []byte, terms Terms, aad, input []byte, strict bool, good func(Signature, Key) bool) (Checked, error) {
	items, err := AskTokens(keys, terms, aad, input, strict)
	return passGood(items, err, keys, aad, input, strict, good)
}

// passGood passes the messages all of whose questions are among those of the items, and good. With ErrStopped the items are those that come
// before; if the input ends there, the last call says so too.
func passGood(items []Item, stopped error, keys, aad, input []byte, strict bool, good func(Signature, Key) bool) (Checked, error) {
	if stopped != nil && stopped != ErrStopped {
		return Checked{}, stopped
	}
	parts, err := KeyParts(keys)
	if err != nil {
		return Checked{}, err
	}
	var digests [][]byte
	for _, item := range items {
		for _, one := range item.Signatures {
			for _, place := range one.Keys {
				if good(one, parts[place]) {
					digests = append(digests, one.Digest)
					break
				}
			}
		}
	}
	checked, err := PassDigests(digests, aad, input, strict)
	if err == nil {
		err = stopped // memory ran out for the blocks
	}
	return checked, err
}

// KeyParts gives the parts of each key of a set.
func KeyParts(keys []byte) ([]Key, error) {
	told, err := run(len(keys), func(out, _ []byte) C.cose_gate_answer {
		return C.cose_gate_key_parts(first(keys), size(keys), first(out), size(out))
	})
	var all []Key
	for rest := told.Passed; len(rest) > 0; {
		parts := framed(&rest)
		key := Key{Type: int64(number(&parts)), Algorithm: int64(number(&parts)), Curve: int64(number(&parts))}
		key.NOrK, key.XOrE, key.Y = framed(&parts), framed(&parts), framed(&parts)
		all = append(all, key)
	}
	return all, err
}

var faults = []string{"", "NotTagged", "OtherTag", "Shape", "Detached", "Unsized", "Decode", "Memory"}

// StreamCheck gives the payload of the COSE_Mac0 that the bytes are, which lies in them, if its MAC is good; else the error is Refused, ErrKeys or
// ErrStopped.
func StreamCheck(keys, aad, message []byte) ([]byte, error) {
	answer := C.cose_gate_stream_check(first(keys), size(keys), first(aad), size(aad), first(message), size(message), C.COSE_GATE_NESTING,
		C.COSE_GATE_LAYERS)
	switch {
	case answer.fault != C.COSE_GATE_NO_FAULT && answer.fault != C.COSE_GATE_MEMORY:
		return nil, Refused(faults[answer.fault])
	case answer.status > C.COSE_GATE_SOME_REFUSED:
		return nil, errorOf(answer.status)
	case answer.status == C.COSE_GATE_SOME_REFUSED:
		return nil, Refused("Judged")
	case int(answer.length) != len(message):
		return nil, Refused("ExtraneousData")
	}
	return message[answer.payload : answer.payload+answer.payload_length], nil
}

// number takes a number off the front.
func number(rest *[]byte) uint64 {
	found := binary.LittleEndian.Uint64(*rest)
	*rest = (*rest)[8:]
	return found
}

// framed takes a byte string, which comes after its length, off the front.
func framed(rest *[]byte) []byte {
	length := number(rest)
	found := (*rest)[:length:length]
	*rest = (*rest)[length:]
	return found
}

// questions are those that records show.
func questions(records []byte) []Question {
	var all []Question
	for len(records) > 0 {
		record := records
		key := framed(&records)
		one := Question{Record: record[:8+len(key)]}
		one.Kind = number(&key)
		for _, part := range []*[]byte{&one.Protected, &one.Unprotected, &one.SignerProtected, &one.SignerUnprotected, &one.Recipients,
			&one.Covered, &one.Signature} {
			*part = framed(&key)
		}
		all = append(all, one)
	}
	return all
}

// items are those that blocks show. docs/cose-ask.1 says what a block is.
func items(blocks []byte) []Item {
	var all []Item
	for len(blocks) > 0 {
		block := framed(&blocks)
		item := Item{Number: number(&block), Offset: number(&block), End: number(&block), Asked: number(&block)}
		item.Verdict, item.Why = string(framed(&block)), string(framed(&block))
		base := framed(&block)
		for len(block) > 0 {
			item.Signatures = append(item.Signatures, signature(framed(&block), base))
		}
		all = append(all, item)
	}
	return all
}

// signature is the question that is this text in a block; base is what the first one covers.
func signature(rest, base []byte) Signature {
	one := Signature{Kind: number(&rest), Algorithm: int64(number(&rest))}
	for places := framed(&rest); len(places) > 0; {
		one.Keys = append(one.Keys, number(&places))
	}
	front, back := number(&rest), number(&rest)
	one.Covered = bytes.Join([][]byte{base[:front], framed(&rest), base[back:]}, nil)
	one.Signature = framed(&rest)
	one.Digest = rest
	return one
}

// termsOf is the terms in memory of C, and what frees it.
func termsOf(terms Terms) (*C.cose_gate_token_terms, func()) {
	var all []unsafe.Pointer
	kept := func(at unsafe.Pointer) unsafe.Pointer {
		all = append(all, at)
		return at
	}
	textOf := func(text string) C.cose_gate_text {
		return C.cose_gate_text{at: (*C.uint8_t)(kept(unsafe.Pointer(C.CString(text)))), length: C.size_t(len(text))}
	}
	token := (*C.cose_gate_token_terms)(kept(C.malloc(C.sizeof_cose_gate_token_terms)))
	*token = C.cose_gate_token_terms_at(C.int64_t(terms.Now), C.int64_t(terms.Leeway))
	if token.has_issuer = terms.Issuer != nil; terms.Issuer != nil {
		token.issuer = textOf(*terms.Issuer)
	}
	if token.has_audience = terms.Audience != nil; terms.Audience != nil {
		token.audience = textOf(*terms.Audience)
	}
	token.any_audience = C.bool(terms.AnyAudience)
	if len(terms.Needed) > 0 {
		token.needed = (*C.int64_t)(kept(C.CBytes(unsafe.Slice((*byte)(unsafe.Pointer(&terms.Needed[0])), 8*len(terms.Needed)))))
		token.needed_length = C.size_t(len(terms.Needed))
	}
	if len(terms.Named) > 0 {
		token.named = (*C.cose_gate_text)(kept(C.malloc(C.size_t(len(terms.Named)) * C.sizeof_cose_gate_text)))
		token.named_length = C.size_t(len(terms.Named))
		for i, name := range terms.Named {
			unsafe.Slice(token.named, len(terms.Named))[i] = textOf(name)
		}
	}
	return token, func() {
		for _, at := range all {
			C.free(at)
		}
	}
}

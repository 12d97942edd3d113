package cosegate_test

import (
	"bytes"
	"crypto/hmac"
	"crypto/sha256"
	"errors"
	"fmt"
	"os"
	"testing"

	"cosegate"
)

// read is a file of examples/.
func read(name string) []byte {
	content, err := os.ReadFile("../" + name)
	if err != nil {
		panic(err)
	}
	return content
}

// isGood verifies HMAC 256/256.
func isGood(one cosegate.Signature, key cosegate.Key) bool {
	mac := hmac.New(sha256.New, key.NOrK)
	mac.Write(one.Covered)
	return one.Algorithm == 5 && hmac.Equal(mac.Sum(nil), one.Signature)
}

func ExampleCheck() {
	checked, err := cosegate.Check(read("keys.cbor"), []byte{1}, read("mixed.cbor"), false)
	lines := bytes.Split(checked.Lines, []byte("\n"))
	fmt.Println(string(lines[len(lines)-2]), checked.SomeRefused, err)
	// Output: passed 4, refused 5 true <nil>
}

func ExamplePassSigned() {
	checked, err := cosegate.PassSigned(read("keys.cbor"), []byte{1}, read("mixed.cbor"), false, isGood)
	fmt.Println(len(checked.Passed), checked.SomeRefused, err)
	// Output: 190 true <nil>
}

func ExampleAskRuled() {
	items, err := cosegate.AskRuled(read("keys.cbor"), []byte{1}, read("mixed.cbor"), false)
	for _, item := range items[:2] {
		fmt.Println(item.Number, item.Verdict, len(item.Signatures))
	}
	fmt.Println(err)
	// Output:
	// 1 passed 1
	// 2 refused: NotTagged 0
	// <nil>
}

func ExampleAskTokens() {
	items, err := cosegate.AskTokens(read("keys.cbor"), cosegate.Terms{Now: 0, Named: []string{"scope"}}, []byte{1}, read("one.cbor"), false)
	fmt.Println(items[0].Verdict+":", items[0].Why, err)
	_, err = cosegate.AskTokens(read("keys.cbor"), cosegate.Terms{Named: []string{"\xff"}}, []byte{1}, read("one.cbor"), false)
	fmt.Println(err)
	// Output:
	// refused: Claims: the payload is not a map <nil>
	// the limits are out of range, or a string isn't UTF-8
}

func ExamplePassTokens() {
	audience := "door"
	terms := cosegate.Terms{Now: 1443944944, Leeway: 60, Audience: &audience, Needed: []int64{4}}
	checked, err := cosegate.PassTokens(read("keys.cbor"), terms, []byte{1}, read("mixed.cbor"), false, isGood)
	fmt.Println(len(checked.Passed), checked.SomeRefused, err)
	// Output: 0 true <nil>
}

func ExampleStreamCheck() {
	payload, err := cosegate.StreamCheck(read("keys.cbor"), []byte{1}, read("one.cbor"))
	fmt.Println(string(payload), err)
	_, err = cosegate.StreamCheck(read("keys.cbor"), nil, read("one.cbor"))
	fmt.Println(err)
	// Output:
	// hi <nil>
	// refused: Judged
}

// What is asked and accepted passes; another message doesn't.
func TestPass(t *testing.T) {
	aad, mixed := []byte{1}, read("mixed.cbor")
	questions, err := cosegate.Ask(aad, mixed, false)
	if err != nil || len(questions) != 6 {
		t.Fatal(len(questions), err)
	}
	checked, err := cosegate.Pass(questions[:1], aad, mixed, false)
	if err != nil || !bytes.HasPrefix(checked.Passed, read("one.cbor")) || !checked.SomeRefused {
		t.Fatal(checked, err)
	}
	if checked, err = cosegate.Pass(nil, aad, mixed, false); err != nil || len(checked.Passed) != 0 {
		t.Fatal(checked, err)
	}
}

// Check and PassSigned pass the same, as do empty and cut inputs.
func TestSame(t *testing.T) {
	keys, aad := read("keys.cbor"), []byte{1}
	for _, input := range [][]byte{nil, read("one.cbor"), read("mixed.cbor"), read("cut.cbor")} {
		one, firstErr := cosegate.Check(keys, aad, input, false)
		other, secondErr := cosegate.PassSigned(keys, aad, input, false, isGood)
		if !bytes.Equal(one.Passed, other.Passed) || firstErr != secondErr {
			t.Fatal(one, firstErr, other, secondErr)
		}
	}
	if _, err := cosegate.Check([]byte("x"), aad, nil, false); !errors.Is(err, cosegate.ErrKeys) {
		t.Fatal(err)
	}
}

func TestKeyParts(t *testing.T) {
	keys, err := cosegate.KeyParts(read("keys.cbor"))
	if err != nil || len(keys) != 2 || keys[0].Type != 4 || keys[0].Algorithm != 5 || keys[0].Curve != 0 || len(keys[0].NOrK) != 32 {
		t.Fatal(keys, err)
	}
}

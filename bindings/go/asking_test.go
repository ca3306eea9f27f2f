package esdk

// What is expected comes from docs/FORMAT.md, of the messages in vectors/.

import (
	"fmt"
	"strings"
	"testing"
)

// The listing of ciphertexts/two-keys.
var twoKeys = strings.Join([]string{
	"version: 2",
	"suite: 0478",
	"message-id: ab21ae9181382711186563d2a944a8d9ec4d9ca649c9911590b521ff54da934f",
	`context: {"purpose":"test"}`,
	"data-keys: 2",
	"data-key 1: provider=6573646b2d766563746f7273 info=6669727374000000800000000c6258ce87b4e2cd4de9046544 " +
		"ciphertext=1cd7501ff9d2b31ea825099aebee180baf6f4d4bb0eb79b3776b878ff4e20e0691bffeaca8e42eb350bbc178db426b02",
	"data-key 2: provider=6573646b2d766563746f7273 info=7365636f6e64000000800000000c88f0baa1bbf9093eb1ac52b3 " +
		"ciphertext=14d7d72e683bc1e16b0db77a1eb98b7ee42805db6e8a8b243c2359620c8342a37e605b3f8939f9e0ea9511da31ce2557",
	"content: framed",
	"frame-length: 4096",
	"commitment: f854fa6c3c6e0b5299fa86c8a210514b4413f29fc0ae863c61b0e6e392e5c14f",
	"tag: b0b2ac20492c3fe5b9c992bfe816091b",
	"",
}, "\n")

func TestAHeaderIsListedWithoutAKey(t *testing.T) {
	two := named(t, "ciphertexts/two-keys")
	for _, message := range [][]byte{two, two[:292]} {
		if listed, err := ListHeader(message, false); err != nil || listed != twoKeys {
			t.Errorf("%v: %s", err, listed)
		}
	}
	old := []byte("\x01\x80\x01\x78")
	for _, each := range []struct {
		message     []byte
		uncommitted bool
		code        int
		line        string
	}{
		{two[:291], false, 1010, "M10 Truncated"},
		{nil, false, 1010, "M10 Truncated"},
		{[]byte("x"), false, 1001, "M1 BadVersion"},
		{old, false, 1023, "M23 Uncommitted"},
		{old, true, 1010, "M10 Truncated"},
	} {
		_, err := ListHeader(each.message, each.uncommitted)
		wantLine(t, "a listing", err, each.code, each.line)
	}
	value := strings.Repeat("x", 60000)
	long, err := Sealing{Context: map[string]string{"a": value}}.All(ringOf(t, "first", 0), nil)
	if err != nil {
		t.Fatal(err)
	}
	if listed, err := ListHeader(long, false); err != nil || !strings.Contains(listed, "\ncontext: {\"a\":\""+value+"\"}\n") {
		t.Error(err)
	}
}

func TestTheLeavesThatOpenAMessage(t *testing.T) {
	ring, two := ringOf(t, "first", 0), named(t, "ciphertexts/two-keys")
	sealing := Sealing{Context: map[string]string{"tenant": "acme"}, Required: []string{"tenant"}}
	required, err := sealing.All(ring, nil)
	if err != nil {
		t.Fatal(err)
	}
	for _, each := range []struct {
		ring    *Keyring
		message []byte
		context map[string]string
		leaves  string
	}{
		{ring, two, nil, "[1]"},
		{ringOf(t, "second", 128), two, nil, "[1]"},
		{ringOf(t, "second", 0), two, nil, "[]"},
		{ring, named(t, "ciphertexts/altered-header-tag"), nil, "[]"},
		{ring, named(t, "ciphertexts/altered-content"), nil, "[1]"},
		{ring, required, nil, "[]"},
		{ring, required, sealing.Context, "[1]"},
	} {
		if leaves, err := each.ring.Openers(each.message, each.context); err != nil || fmt.Sprint(leaves) != each.leaves {
			t.Errorf("%v: %v, and %s is wanted", err, leaves, each.leaves)
		}
	}
	_, err = ring.Openers(two, map[string]string{"purpose": "x"})
	wantLine(t, "another value", err, 1012, "M12 ContextMismatch")
	_, err = ring.Openers(two[:50], nil)
	wantLine(t, "a cut header", err, 1010, "M10 Truncated")
}

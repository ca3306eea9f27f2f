package esdk

// What is expected are parts of the texts of vectors/.

import (
	"bytes"
	"testing"
)

func TestRangesOfMessages(t *testing.T) {
	ring := ringOf(t, "first", 0)
	for name, plain := range map[string]string{
		"one-byte": "1", "full-frame": "4096", "frame-and-a-byte": "4097", "many-frames": "1000", "frames-of-one-byte": "9",
		"long-frame": "10000", "many-pairs": "5000", "single-block": "5000",
	} {
		message, text := named(t, "ciphertexts/"+name), named(t, "plaintexts/"+plain)
		for _, at := range []int{0, 1, 4095, 4096} {
			for _, count := range []int{0, 1, 4096, 8192, 1 << 40} {
				if at >= len(text) {
					continue
				}
				end := len(text)
				if count < end-at {
					end = at + count
				}
				came, err := Opening{}.Range(ring, bytes.NewReader(message), uint64(at), uint64(count))
				if err != nil || !bytes.Equal(came, text[at:end]) {
					t.Errorf("%s %d %d: %v", name, at, count, err)
				}
			}
		}
	}
}

func TestWhatARangeIsRefusedFor(t *testing.T) {
	ring, text := ringOf(t, "first", 0), make([]byte, 100)
	sealing := Sealing{Context: map[string]string{"set": "a"}, FrameLength: 10}
	message, err := sealing.All(ring, text)
	if err != nil {
		t.Fatal(err)
	}
	header := len(message) - 10*42 - 8
	wanted := Span{uint64(header), 10, uint64(header + 126), 92}
	if found, err := FindSpan(message, 35, 10, false); err != nil || found != wanted {
		t.Errorf("%v: %v", err, found)
	}
	_, err = FindSpan(message[:header-1], 0, 1, false)
	wantLine(t, "a cut header", err, 1010, "M10 Truncated")
	_, err = FindSpan(message, 0, 0, false)
	wantLine(t, "no bytes", err, 2009, "no message has such a range")
	altered := append([]byte(nil), message...)
	altered[header+126+20] ^= 1
	for _, each := range []struct {
		opening Opening
		message []byte
		code    int
		line    string
	}{
		{Opening{}, altered, 1020, "M20 UnitTag"},
		{Opening{}, message[:header+126+41], 1010, "M10 Truncated"},
		{Opening{Context: map[string]string{"set": "b"}}, message, 1012, "M12 ContextMismatch"},
		{Opening{Required: []string{"set"}}, message, 1013, "M13 MissingRequired"},
	} {
		_, err := each.opening.Range(ring, bytes.NewReader(each.message), 30, 10)
		wantLine(t, "a range", err, each.code, each.line)
	}
	if came, err := (Opening{}).Range(ring, bytes.NewReader(altered), 20, 10); err != nil || !bytes.Equal(came, text[20:30]) {
		t.Error(err)
	}
}

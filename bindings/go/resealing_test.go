package esdk

// What is expected are the texts of vectors/, and which field of a message was altered.

import (
	"bytes"
	"fmt"
	"io"
	"strings"
	"testing"
)

const newFrame = 1000

// The new key alone opens it, to this text and the old message's context.
func wantMoved(t *testing.T, what string, moved, message, text []byte) {
	t.Helper()
	from, to := ringOf(t, "first", 0), ringOf(t, "new", 64)
	_, context, err := Opening{}.All(from, message)
	if err != nil {
		t.Fatal(err)
	}
	back, whole, err := Opening{}.All(to, moved)
	if err != nil || !bytes.Equal(back, text) || fmt.Sprint(whole) != fmt.Sprint(context) {
		t.Errorf("%s: %v, %v", what, err, whole)
	}
	_, _, err = Opening{}.All(from, moved)
	wantLine(t, what, err, 1015, "M15 NoKeyOpens")
	if listed, err := ListHeader(moved, false); err != nil || !strings.Contains(listed, "\nframe-length: 1000\n") {
		t.Errorf("%s: %v: %s", what, err, listed)
	}
	if bytes.Equal(moved[3:35], message[3:35]) {
		t.Errorf("%s: the old message id", what)
	}
}

func TestVectorsGoToNewKeys(t *testing.T) {
	from, to, resealing := ringOf(t, "first", 0), ringOf(t, "new", 64), Resealing{FrameLength: newFrame}
	for name, length := range whole {
		message, text := named(t, "ciphertexts/"+name), named(t, "plaintexts/"+length)
		moved, context, err := resealing.All(from, to, message)
		if err != nil {
			t.Fatal(err)
		}
		wantMoved(t, name, moved, message, text)
		if _, old, _ := (Opening{}).All(from, message); fmt.Sprint(context) != fmt.Sprint(old) {
			t.Errorf("%s: %v", name, context)
		}
		for _, size := range []int{1, 15, 4096, 65536} {
			reader, err := resealing.Reader(from, to, pieces{bytes.NewReader(message), size})
			if err != nil {
				t.Fatal(err)
			}
			came, err := byRooms(reader, size)
			if err != nil {
				t.Errorf("%s by %d: %v", name, size, err)
			}
			wantMoved(t, name, came, message, text)
			reader.Close()
			var sink bytes.Buffer
			writer, err := resealing.Writer(from, to, &sink)
			if err != nil {
				t.Fatal(err)
			}
			_, err = io.CopyBuffer(struct{ io.Writer }{writer}, pieces{bytes.NewReader(message), size}, nil)
			if finished := writer.Finish(); err != nil || finished != nil || writer.Close() != nil {
				t.Errorf("%s written by %d: %v, %v", name, size, err, finished)
			}
			wantMoved(t, name, sink.Bytes(), message, text)
		}
	}
}

// The length of the new header of a message that is whole.
func newHeaderOf(t *testing.T, name string) int {
	t.Helper()
	from, to := ringOf(t, "first", 0), ringOf(t, "new", 64)
	moved, _, err := Resealing{FrameLength: newFrame}.All(from, to, named(t, "ciphertexts/"+name))
	if err != nil {
		t.Fatal(err)
	}
	text, _, err := Opening{}.All(to, moved)
	if err != nil {
		t.Fatal(err)
	}
	return len(moved) - len(text) - (len(text)+newFrame-1)/newFrame*32 - 8
}

func TestOfAMessageWithAFaultNoWholeOneComes(t *testing.T) {
	from, to, resealing := ringOf(t, "first", 0), ringOf(t, "new", 64), Resealing{FrameLength: newFrame}
	// So many frames come behind the new header of the whole message of this name; without a name nothing comes.
	fronts := map[string]struct {
		whole  string
		frames int
	}{
		"altered-message-id": {}, "altered-pair": {}, "altered-header-tag": {},
		"altered-content": {"full-frame", 0}, "altered-tag": {"two-keys", 4}, "cut": {"two-keys", 4},
	}
	for name, front := range fronts {
		message, want, length := named(t, "ciphertexts/"+name), refused[name], 0
		if front.whole != "" {
			length = newHeaderOf(t, front.whole) + front.frames*(newFrame+32)
		}
		reader, err := resealing.Reader(from, to, bytes.NewReader(message))
		if err != nil {
			t.Fatal(err)
		}
		came, err := byRooms(reader, 700)
		wantLine(t, name, err, want.code, want.line)
		if _, _, err := (Opening{}).All(to, came); err == nil || len(came) != length {
			t.Errorf("%s: %d bytes before the fault, and %d are wanted", name, len(came), length)
		}
		var sink bytes.Buffer
		writer, err := resealing.Writer(from, to, &sink)
		if err != nil {
			t.Fatal(err)
		}
		if _, err = writer.Write(message); err == nil {
			err = writer.Finish()
		}
		wantLine(t, name, err, want.code, want.line)
		if sink.Len() != length || writer.Close() != ErrNotFinished {
			t.Errorf("%s: a writer", name)
		}
	}
}

func TestWhatIsOnlyAuthenticatedStaysSo(t *testing.T) {
	from, to := ringOf(t, "first", 0), ringOf(t, "new", 64)
	both, given := map[string]string{"set": "a", "tenant": "acme"}, map[string]string{"tenant": "acme"}
	message, err := Sealing{Context: both, Required: []string{"tenant"}}.All(from, []byte("hello"))
	if err != nil {
		t.Fatal(err)
	}
	_, _, err = Resealing{}.All(from, to, message)
	wantLine(t, "without the pair", err, 1015, "M15 NoKeyOpens")
	moved, context, err := Resealing{Opening: Opening{Context: given}}.All(from, to, message)
	if err != nil || bytes.Contains(moved, []byte("acme")) || fmt.Sprint(context) != fmt.Sprint(both) {
		t.Fatal(err, context)
	}
	text, context, err := Opening{Context: given}.All(to, moved)
	if err != nil || string(text) != "hello" || fmt.Sprint(context) != fmt.Sprint(both) {
		t.Error(err, context)
	}
	_, _, err = Opening{}.All(to, moved)
	wantLine(t, "the new one without the pair", err, 1015, "M15 NoKeyOpens")
	_, _, err = Resealing{Opening: Opening{Context: given, Required: []string{"set"}}}.All(from, to, message)
	wantLine(t, "a required key", err, 1013, `M13 MissingRequired "set"`)
}

func TestWhatIsNotResealed(t *testing.T) {
	from, to, two := ringOf(t, "first", 0), ringOf(t, "new", 64), named(t, "ciphertexts/two-keys")
	retired, err := NewKeyring([]byte(`{"version":2,"ring":{"raw":{"namespace":"a","name":"b",` +
		`"key":"AAECAwQFBgcICQoLDA0ODxAREhMUFRYXGBkaGxwdHh8=","retired":true}}}`))
	if err != nil {
		t.Fatal(err)
	}
	old := []byte("\x01\x80\x01\x78")
	for _, each := range []struct {
		opening Opening
		to      *Keyring
		message []byte
		code    int
		line    string
	}{
		{Opening{MaxKeys: 1}, to, two, 1005, "M5 TooManyDataKeys 2"},
		{Opening{MaxUnit: 4095}, to, two, 1009, "M9 UnitTooLong 4096"},
		{Opening{}, to, old, 1023, "M23 Uncommitted 0178"},
		{Opening{AllowUncommitted: true}, to, old, 1010, "M10 Truncated"},
		{Opening{}, retired, two, 6005, "Q5 NoGenerator"},
	} {
		_, _, err := Resealing{Opening: each.opening}.All(from, each.to, each.message)
		wantLine(t, "it isn't resealed", err, each.code, each.line)
	}
}

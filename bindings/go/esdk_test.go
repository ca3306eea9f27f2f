package esdk

// What is expected comes from vectors/ of the checkout.

import (
	"bytes"
	"errors"
	"fmt"
	"io"
	"os"
	"runtime"
	"sync"
	"testing"
	"testing/iotest"
)

func named(t *testing.T, name string) []byte {
	t.Helper()
	file, err := os.ReadFile("../../vectors/" + name)
	if err != nil {
		t.Fatal(err)
	}
	return file
}

func ringOf(t *testing.T, name string, first int) *Keyring {
	t.Helper()
	line := "esdk-vectors " + name + " "
	for at := 0; at < 32; at++ {
		line += fmt.Sprintf("%02x", first+at)
	}
	ring, err := NewKeyring([]byte(line))
	if err != nil {
		t.Fatal(err)
	}
	return ring
}

// Gives so many bytes at a time.
type pieces struct {
	rest io.Reader
	size int
}

func (p pieces) Read(room []byte) (int, error) {
	if len(room) > p.size {
		room = room[:p.size]
	}
	return p.rest.Read(room)
}

// All that a reader gives, by rooms of a size.
func byRooms(reader io.Reader, size int) ([]byte, error) {
	var all []byte
	room := make([]byte, size)
	for {
		count, err := reader.Read(room)
		all = append(all, room[:count]...)
		if err == io.EOF {
			return all, nil
		}
		if err != nil {
			return all, err
		}
	}
}

func wantLine(t *testing.T, what string, err error, code int, line string) {
	t.Helper()
	var refused *Error
	if !errors.As(err, &refused) || refused.Code != code || refused.Line != line {
		t.Errorf("%s: %v, and %s is wanted", what, err, line)
	}
}

var whole = map[string]string{
	"empty": "0", "one-byte": "1", "full-frame": "4096", "frame-and-a-byte": "4097", "many-frames": "1000",
	"frames-of-one-byte": "9", "long-frame": "10000", "many-pairs": "5000", "single-block": "5000",
	"empty-single-block": "0",
}

// Which field was altered says the fault, by docs/FORMAT.md; and so many bytes come before it.
var refused = map[string]struct {
	code  int
	line  string
	front int
}{
	"altered-message-id": {1016, "M16 Commitment", 0},
	"altered-pair":       {1015, "M15 NoKeyOpens", 0},
	"altered-header-tag": {1017, "M17 HeaderTag", 0},
	"altered-content":    {1020, "M20 UnitTag 1", 0},
	"altered-tag":        {1020, "M20 UnitTag 2", 4096},
	"altered-block":      {1020, "M20 UnitTag 1", 0},
	"cut":                {1010, "M10 Truncated", 4096},
}

func TestVectorsAreOpened(t *testing.T) {
	ring := ringOf(t, "first", 0)
	for name, length := range whole {
		message, text := named(t, "ciphertexts/"+name), named(t, "plaintexts/"+length)
		for _, size := range []int{1, 15, 4095, 4096, 65536} {
			for _, source := range []io.Reader{
				pieces{bytes.NewReader(message), size},
				iotest.DataErrReader(pieces{bytes.NewReader(message), size}),
			} {
				reader, err := Opening{}.Reader(ring, source)
				if err != nil {
					t.Fatal(err)
				}
				if came, err := byRooms(reader, size); err != nil || !bytes.Equal(came, text) {
					t.Errorf("%s by %d: %v", name, size, err)
				}
				reader.Close()
			}
			var sink bytes.Buffer
			writer, err := Opening{}.Writer(ring, &sink)
			if err != nil {
				t.Fatal(err)
			}
			_, err = io.CopyBuffer(struct{ io.Writer }{writer}, pieces{bytes.NewReader(message), size}, nil)
			if finished := writer.Finish(); err != nil || finished != nil || !bytes.Equal(sink.Bytes(), text) {
				t.Errorf("%s written by %d: %v, %v", name, size, err, finished)
			}
			if writer.Finish() == nil || writer.Close() != nil {
				t.Errorf("%s: it is finished once", name)
			}
		}
	}
}

func TestAlteredVectorsAreRefused(t *testing.T) {
	ring, text := ringOf(t, "first", 0), named(t, "plaintexts/5000")
	for name, want := range refused {
		message := named(t, "ciphertexts/"+name)
		reader, err := Opening{}.Reader(ring, bytes.NewReader(message))
		if err != nil {
			t.Fatal(err)
		}
		came, err := byRooms(reader, 1000)
		wantLine(t, name, err, want.code, want.line)
		if !bytes.Equal(came, text[:want.front]) {
			t.Errorf("%s: %d bytes before the fault", name, len(came))
		}
		_, err = reader.Read(make([]byte, 1))
		wantLine(t, name, err, want.code, want.line)
		var sink bytes.Buffer
		writer, err := Opening{}.Writer(ring, &sink)
		if err != nil {
			t.Fatal(err)
		}
		if _, err = writer.Write(message); err == nil {
			err = writer.Finish()
		}
		wantLine(t, name, err, want.code, want.line)
		if !bytes.Equal(sink.Bytes(), text[:want.front]) || writer.Close() != ErrNotFinished {
			t.Errorf("%s: a writer", name)
		}
	}
}

func TestAMessageComesBack(t *testing.T) {
	ring := ringOf(t, "first", 0)
	text := bytes.Repeat([]byte("some text "), 20000)
	given := map[string]string{"tenant": "acme"}
	sealing := Sealing{
		Context: map[string]string{"set": "photos", "tenant": "acme"}, Required: []string{"tenant"}, FrameLength: 1000,
	}
	message, err := sealing.All(ring, text)
	if err != nil || bytes.Contains(message, []byte("acme")) {
		t.Fatal(err)
	}
	var sink bytes.Buffer
	writer, err := sealing.Writer(ring, &sink)
	if err != nil {
		t.Fatal(err)
	}
	if _, err := writer.Write(text); err != nil || writer.Finish() != nil {
		t.Fatal(err)
	}
	for _, one := range [][]byte{message, sink.Bytes()} {
		back, context, err := Opening{Context: given}.All(ring, one)
		if err != nil || !bytes.Equal(back, text) || fmt.Sprint(context) != "map[set:photos tenant:acme]" {
			t.Error(err, context)
		}
		_, _, err = Opening{}.All(ring, one)
		wantLine(t, "without the pair", err, 1015, "M15 NoKeyOpens")
	}
}

func TestWhatIsRefused(t *testing.T) {
	ring, two := ringOf(t, "first", 0), named(t, "ciphertexts/two-keys")
	_, err := NewKeyring([]byte("a b"))
	wantLine(t, "a keyring", err, 3002, "K2 BadShape 1")
	four := uint64(4)
	_, err = Sealing{Length: &four}.All(ring, []byte("12345"))
	wantLine(t, "a length", err, 6010, "Q10 OverDeclared 4")
	_, err = Sealing{Required: []string{"a"}}.All(ring, nil)
	wantLine(t, "a required key", err, 6004, `Q4 RequiredAbsent "a"`)
	_, _, err = Opening{MaxKeys: 1}.All(ring, two)
	wantLine(t, "a limit of keys", err, 1005, "M5 TooManyDataKeys 2")
	_, _, err = Opening{MaxUnit: 4095}.All(ring, two)
	wantLine(t, "a limit of frames", err, 1009, "M9 UnitTooLong 4096")
	if _, _, err = (Opening{}).All(ringOf(t, "second", 128), two); err != nil {
		t.Error(err)
	}
	_, err = Sealing{Context: map[string]string{"a": "\xff"}}.All(ring, nil)
	wantLine(t, "no text", err, 2004, "code 2004")
	if shown := fmt.Sprintf("%v %+v %#v %s", ring, ring, ring, ring); bytes.Contains([]byte(shown), []byte("0001")) {
		t.Error("a keyring shows its key")
	}
}

func TestASourceThatFails(t *testing.T) {
	reader, err := Sealing{}.Reader(ringOf(t, "first", 0), iotest.TimeoutReader(pieces{bytes.NewReader(make([]byte, 9)), 5}))
	if err != nil {
		t.Fatal(err)
	}
	for range [2]int{} {
		if _, err := byRooms(reader, 1000); err != iotest.ErrTimeout {
			t.Errorf("%v", err)
		}
	}
	reader.Close()
	if _, err := reader.Read(make([]byte, 1)); err != ErrClosed {
		t.Errorf("%v", err)
	}
}

// Takes so many bytes at a time, and gives no error; or it panics.
type shortSink struct {
	most   int
	panics bool
}

func (s *shortSink) Write(piece []byte) (int, error) {
	if s.panics {
		s.panics = false
		panic("a bad day")
	}
	if len(piece) > s.most {
		return s.most, nil
	}
	return len(piece), nil
}

func TestASinkThatTakesLess(t *testing.T) {
	writer, err := Sealing{}.Writer(ringOf(t, "first", 0), &shortSink{most: 100})
	if err != nil {
		t.Fatal(err)
	}
	_, err = writer.Write(make([]byte, 9000))
	if err != io.ErrShortWrite || writer.Finish() != io.ErrShortWrite || writer.Close() != ErrNotFinished {
		t.Error(err)
	}
}

// Whether a call panics.
func panics(call func()) (did bool) {
	defer func() { did = recover() != nil }()
	call()
	return false
}

type panickingSource struct{ reads int }

func (s *panickingSource) Read(room []byte) (int, error) {
	s.reads++
	switch s.reads {
	case 1:
		return len(room), nil
	case 2:
		panic("a bad day")
	}
	return 0, io.EOF
}

func TestWhoGoesOnBehindAPanicGetsNoWholeMessage(t *testing.T) {
	ring := ringOf(t, "first", 0)
	writer, err := Sealing{}.Writer(ring, &shortSink{most: pieceSize, panics: true})
	if err != nil {
		t.Fatal(err)
	}
	if !panics(func() { _, _ = writer.Write(make([]byte, 9000)) }) || writer.Finish() == nil || writer.Close() == nil {
		t.Error("a writer")
	}
	reader, err := Sealing{}.Reader(ring, &panickingSource{})
	if err != nil {
		t.Fatal(err)
	}
	if !panics(func() { _, _ = io.ReadAll(reader) }) {
		t.Error("a source that panics")
	}
	if _, err := io.ReadAll(reader); err == nil {
		t.Error("a reader")
	}
	reader.Close()
}

func TestManyAtOnce(t *testing.T) {
	ring := ringOf(t, "first", 0)
	var all sync.WaitGroup
	for at := 0; at < 8; at++ {
		all.Add(1)
		go func(seed byte) {
			defer all.Done()
			text := bytes.Repeat([]byte{seed}, 300000)
			message, err := Sealing{}.All(ring, text)
			if err != nil {
				t.Error(err)
				return
			}
			if back, _, err := (Opening{}).All(ring, message); err != nil || !bytes.Equal(back, text) {
				t.Error(err)
			}
		}(byte(at))
	}
	all.Wait()
}

func TestReadersThatAreDropped(t *testing.T) {
	ring := ringOf(t, "first", 0)
	for at := 0; at < 2000; at++ {
		if _, err := (Sealing{}).Reader(ring, bytes.NewReader(nil)); err != nil {
			t.Fatal(err)
		}
	}
	runtime.GC()
}

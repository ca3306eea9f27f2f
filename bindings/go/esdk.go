// Package esdk seals, opens and reseals messages of the AWS Encryption SDK's format, by libesdk, whose sessions are proved.
//
// Of a context, compare what comes back with what you expect: a message of another context under the same key opens as
// well. What stands in this package isn't proved.
package esdk

import (
	"bytes"
	"io"
	"math"
	"os"
)

// Keyring has the bytes of a keyring file, which was found right: a key line, or JSON.
type Keyring struct{ file []byte }

// NewKeyring judges the bytes of a keyring file.
func NewKeyring(file []byte) (*Keyring, error) {
	s, err := newSession(file)
	if err != nil {
		return nil, err
	}
	s.close()
	return &Keyring{append([]byte(nil), file...)}, nil
}

// ReadKeyring reads a keyring file, and judges it.
func ReadKeyring(path string) (*Keyring, error) {
	file, err := os.ReadFile(path)
	if err != nil {
		return nil, err
	}
	return NewKeyring(file)
}

// Openers has the numbers of the leaves that open a message, each by itself, when these pairs are given.
//
// A leaf is a raw key of the file. They are numbered from 1, a generator before the children, as the program's audit does it;
// retired ones open, too. Of the message only its header is read, as by ListHeader; one of format 1.0 is 1023.
func (k *Keyring) Openers(message []byte, context map[string]string) ([]int, error) {
	s, err := newSession(k.file)
	if err != nil {
		return nil, err
	}
	defer s.close()
	if err := s.context(context, nil); err != nil {
		return nil, err
	}
	return s.openers(message)
}

// ListHeader is the listing of the header that a message begins with: the lines that the program's list prints.
//
// It wants no key, and so nothing of it is authenticated; its texts may hold characters that steer a terminal. What stands behind
// the header isn't judged, and needn't be there: the first 65,536 bytes of a message mostly have it; where they don't, that is
// 1010. With uncommitted headers of format 1.0 are listed, too.
func ListHeader(message []byte, uncommitted bool) (string, error) {
	return listing(message, uncommitted)
}

// String shows no key.
func (*Keyring) String() string { return "esdk.Keyring" }

// GoString shows no key.
func (*Keyring) GoString() string { return "esdk.Keyring" }

// Sealing says how a message is sealed.
type Sealing struct {
	// The encryption context. The header stores it for anyone to read, but for the pairs of the required keys: whoever opens
	// the message has to give these.
	Context  map[string]string
	Required []string
	// The bytes of a frame; 0 stands for 4,096.
	FrameLength uint32
	// No longer text is taken; nil is no limit.
	Length *uint64
	// No more encrypted data keys are written; 0 is no limit.
	MaxKeys uint16
}

func (s Sealing) session(ring *Keyring) (*session, error) {
	frame, length := s.FrameLength, uint64(math.MaxUint64)
	if frame == 0 {
		frame = 4096
	}
	if s.Length != nil {
		length = *s.Length
	}
	made, err := newSession(ring.file)
	if err != nil {
		return nil, err
	}
	if err = made.context(s.Context, s.Required); err == nil {
		err = made.seal(frame, length, s.MaxKeys)
	}
	if err != nil {
		made.close()
		return nil, err
	}
	return made, nil
}

// Reader reads the message of a text.
func (s Sealing) Reader(ring *Keyring, text io.Reader) (*Reader, error) {
	made, err := s.session(ring)
	if err != nil {
		return nil, err
	}
	return &Reader{session: made, source: text, piece: make([]byte, pieceSize)}, nil
}

// Writer writes the message of what is written to it.
func (s Sealing) Writer(ring *Keyring, message io.Writer) (*Writer, error) {
	made, err := s.session(ring)
	if err != nil {
		return nil, err
	}
	return &Writer{session: made, sink: message, room: make([]byte, pieceSize)}, nil
}

// All is the message of a text.
func (s Sealing) All(ring *Keyring, text []byte) ([]byte, error) {
	reader, err := s.Reader(ring, bytes.NewReader(text))
	if err != nil {
		return nil, err
	}
	defer reader.Close()
	message, err := io.ReadAll(reader)
	if err != nil {
		return nil, err
	}
	return message, nil
}

// Opening says how a message is opened.
type Opening struct {
	// Pairs that are given: where the message stores one, its value has to be this. A required key has to be among them.
	Context  map[string]string
	Required []string
	// The most encrypted data keys, and the most bytes of a frame or a single block, for which memory is taken; 0 is no limit.
	MaxKeys uint16
	MaxUnit uint64
	// Opens messages of format 1.0, too, which don't commit to their data key.
	AllowUncommitted bool
}

func (o Opening) session(ring *Keyring) (*session, error) {
	made, err := newSession(ring.file)
	if err != nil {
		return nil, err
	}
	if err = made.context(o.Context, o.Required); err == nil {
		err = made.open(o.MaxKeys, o.MaxUnit, o.AllowUncommitted)
	}
	if err != nil {
		made.close()
		return nil, err
	}
	return made, nil
}

// Reader reads the text of a message. It counts once Read gave io.EOF.
func (o Opening) Reader(ring *Keyring, message io.Reader) (*Reader, error) {
	made, err := o.session(ring)
	if err != nil {
		return nil, err
	}
	return &Reader{session: made, source: message, piece: make([]byte, pieceSize)}, nil
}

// Writer writes the text of the message that is written to it. It counts once Finish gave no error.
func (o Opening) Writer(ring *Keyring, text io.Writer) (*Writer, error) {
	made, err := o.session(ring)
	if err != nil {
		return nil, err
	}
	return &Writer{session: made, sink: text, room: make([]byte, pieceSize)}, nil
}

// All is the whole text of a message, and its whole context.
func (o Opening) All(ring *Keyring, message []byte) ([]byte, map[string]string, error) {
	reader, err := o.Reader(ring, bytes.NewReader(message))
	if err != nil {
		return nil, nil, err
	}
	defer reader.Close()
	text, err := io.ReadAll(reader)
	if err != nil {
		return nil, nil, err
	}
	return text, reader.Context(), nil
}

package esdk

import (
	"bytes"
	"io"
)

// Resealing says how a message goes to new keys: it is opened under one keyring, and its text is sealed anew under another.
//
// The new message has the text of the old one and its whole context: pairs that it stores are stored, and those that are only
// authenticated stay so. Message id, data key and frames are new. What is read or written of it counts only once the end was
// reached without an error, as of every message.
type Resealing struct {
	// How the old message is opened: pairs that are given, required keys, and limits.
	Opening Opening
	// The bytes of a frame of the new message; 0 stands for 4,096.
	FrameLength uint32
}

func (r Resealing) session(from, to *Keyring) (*session, error) {
	o, frame := r.Opening, r.FrameLength
	if frame == 0 {
		frame = 4096
	}
	made, err := newSession(from.file)
	if err != nil {
		return nil, err
	}
	if err = made.context(o.Context, o.Required); err == nil {
		err = made.reseal(to.file, frame, o.MaxKeys, o.MaxUnit, o.AllowUncommitted)
	}
	if err != nil {
		made.close()
		return nil, err
	}
	return made, nil
}

// Reader reads the new message of an old one. Its Context is the whole context of both.
func (r Resealing) Reader(from, to *Keyring, message io.Reader) (*Reader, error) {
	made, err := r.session(from, to)
	if err != nil {
		return nil, err
	}
	return &Reader{session: made, source: message, piece: make([]byte, pieceSize)}, nil
}

// Writer writes the new message of the old one that is written to it.
func (r Resealing) Writer(from, to *Keyring, message io.Writer) (*Writer, error) {
	made, err := r.session(from, to)
	if err != nil {
		return nil, err
	}
	return &Writer{session: made, sink: message, room: make([]byte, pieceSize)}, nil
}

// All is the new message of an old one, and the whole context of both.
func (r Resealing) All(from, to *Keyring, message []byte) ([]byte, map[string]string, error) {
	reader, err := r.Reader(from, to, bytes.NewReader(message))
	if err != nil {
		return nil, nil, err
	}
	defer reader.Close()
	moved, err := io.ReadAll(reader)
	if err != nil {
		return nil, nil, err
	}
	return moved, reader.Context(), nil
}

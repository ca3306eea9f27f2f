package esdk

import (
	"errors"
	"io"
)

const (
	pieceSize = 65536
	mostReads = 100
)

// It stays where a source or a sink panics: what it gave, or was to take, is lost.
var errPanicked = errors.New("esdk: the source or the sink panicked")

// Reader reads a message that is sealed or resealed, or a text that is opened, of what is read from a source.
//
// What is read of a text counts only once Read gave io.EOF, which says that the message was whole. Each part of the text was
// found right before it is handed out. At a fault the text of the frames before it is handed out, and then each call gives
// the error. What the source answers ends the stream, too, and so does its panic. One goroutine uses it at a time.
type Reader struct {
	session *session
	source  io.Reader
	piece   []byte
	stop    error
}

// Context is the whole context of a message that is opened or resealed, once its header was read; nil before, and of one that is
// sealed.
func (r *Reader) Context() map[string]string { return r.session.told() }

// Close frees what the library holds. It says nothing of what was read, and doesn't close the source.
func (r *Reader) Close() error {
	r.session.close()
	r.stop = ErrClosed
	return nil
}

func (r *Reader) Read(room []byte) (int, error) {
	if len(room) == 0 {
		return 0, nil
	}
	for {
		if r.session.waits > 0 {
			return r.session.take(room)
		}
		if r.stop != nil {
			return 0, r.stop
		}
		r.step()
	}
}

// One or two calls of the library, with the next piece and, where it comes, with the end.
func (r *Reader) step() {
	r.stop = errPanicked
	count, err := 0, error(nil)
	for reads := 0; count == 0 && err == nil; reads++ {
		if reads == mostReads {
			err = io.ErrNoProgress
			break
		}
		count, err = r.source.Read(r.piece)
	}
	if count > 0 {
		if refused := r.session.feed(r.piece[:count]); refused != nil {
			r.stop = refused
			return
		}
	}
	if err == io.EOF {
		if refused := r.session.finish(); refused != nil {
			err = refused
		}
	}
	r.stop = err
}

// Writer writes into a sink the message of what is written to it, or the text, or the new message, of the message that is.
//
// What is in the sink counts only once Finish gave no error. After an error, or a panic of the sink, each call gives an error. One
// goroutine uses it at a time.
type Writer struct {
	session  *session
	sink     io.Writer
	room     []byte
	stop     error
	finished bool
}

// Context is as that of a Reader.
func (w *Writer) Context() map[string]string { return w.session.told() }

func (w *Writer) Write(text []byte) (int, error) {
	done := 0
	for done < len(text) {
		if w.stop != nil {
			return done, w.stop
		}
		size := len(text) - done
		if size > pieceSize {
			size = pieceSize
		}
		if err := w.put(w.session.feed(text[done : done+size])); err != nil {
			return done, err
		}
		done += size
	}
	return done, w.stop
}

// Finish says that nothing follows. It doesn't close the sink.
func (w *Writer) Finish() error {
	if w.stop != nil {
		return w.stop
	}
	if err := w.put(w.session.finish()); err != nil {
		return err
	}
	w.finished = true
	w.stop = ErrFinished
	return nil
}

// Close frees what the library holds. Where the message wasn't finished it stays so, and this answers ErrNotFinished.
func (w *Writer) Close() error {
	w.session.close()
	w.stop = ErrClosed
	if !w.finished {
		return ErrNotFinished
	}
	return nil
}

// Puts what waits into the sink, and then answers what the library did.
func (w *Writer) put(done error) error {
	w.stop = errPanicked
	for w.session.waits > 0 {
		count, err := w.session.take(w.room)
		if err == nil {
			err = writeAll(w.sink, w.room[:count])
		}
		if err != nil {
			w.stop = err
			return err
		}
	}
	w.stop = done
	return done
}

// A sink that takes less and gives no error loses the rest.
func writeAll(sink io.Writer, piece []byte) error {
	count, err := sink.Write(piece)
	if err == nil && count != len(piece) {
		err = io.ErrShortWrite
	}
	return err
}

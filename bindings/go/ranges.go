package esdk

import (
	"errors"
	"io"
	"math"
)

const (
	// The header of a message is mostly in so many bytes.
	frontSize = 65536
	truncated = 1010
	// No message has so much text, and so many bytes more in frames of one byte can be counted.
	mostText = 1 << 57
)

// Span says which bytes of a message hold a range of its text, by its header.
type Span struct {
	// How many bytes the header has, with its tag.
	HeaderLength uint64
	// How many bytes of text a frame has; 0 for a single block.
	FrameLength uint32
	// Where the first byte stands that is wanted, and how many are, or as many as the message has.
	Offset, Size uint64
}

// FindSpan says which bytes of a message hold count bytes of its text from byte at on, by the header that it begins with.
//
// It wants no key, and so nothing of it is authenticated. Only the header is read, as by ListHeader. Range calls it, and reads
// these bytes.
func FindSpan(message []byte, at, count uint64, uncommitted bool) (Span, error) {
	return span(message, uncommitted, at, count)
}

// Range is count bytes of a message's text from byte at on, as far as there are any. The header is read and the frames that hold
// the range.
//
// Each of these is opened after its tag was found right; of the others nothing is said, nor whether the message is whole. A range
// that begins at the end of the text or behind it is empty, or 1010 or 1018. The limits of this opening don't count.
func (o Opening) Range(ring *Keyring, message io.ReaderAt, at, count uint64) ([]byte, error) {
	wanted := max(count, 1)
	if wanted > mostText {
		wanted = mostText
	}
	front, found, err := frontOf(message, at, wanted, o.AllowUncommitted)
	if err != nil {
		return nil, err
	}
	part, err := readAt(message, found.Offset, found.Size)
	if err != nil {
		return nil, err
	}
	// The part has no more bytes of the text than of the message.
	if most := uint64(len(part)); count > most && count > 1 {
		count = max(most, 1)
	}
	made, err := newSession(ring.file)
	if err != nil {
		return nil, err
	}
	defer made.close()
	if err := made.context(o.Context, o.Required); err != nil {
		return nil, err
	}
	ends := uint64(len(part)) < found.Size
	return made.textRange(parts{front, found.Offset, part, ends}, o.AllowUncommitted, at, int(count))
}

func max(a, b uint64) uint64 {
	if a > b {
		return a
	}
	return b
}

// Bytes that a message begins with and that have its header, and where the range stands.
func frontOf(message io.ReaderAt, at, count uint64, uncommitted bool) ([]byte, Span, error) {
	for size := uint64(frontSize); ; size *= 4 {
		front, err := readAt(message, 0, size)
		if err != nil {
			return nil, Span{}, err
		}
		found, err := span(front, uncommitted, at, count)
		var refused *Error
		// There may be more of the header, and it ends.
		if errors.As(err, &refused) && refused.Code == truncated && uint64(len(front)) == size {
			continue
		}
		return front, found, err
	}
}

// So many bytes from an offset on, or as many as there are.
func readAt(message io.ReaderAt, offset, size uint64) ([]byte, error) {
	if offset > math.MaxInt64 {
		return nil, nil
	}
	if most := uint64(math.MaxInt64) - offset; size > most {
		size = most
	}
	return io.ReadAll(io.NewSectionReader(message, int64(offset), int64(size)))
}

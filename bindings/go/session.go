package esdk

// #cgo LDFLAGS: -lesdk
// #include <stdlib.h>
// #include "esdk.h"
import "C"

import (
	"runtime"
	"sync"
	"unsafe"
)

const (
	mostOfText = 65536
	// A keyring file's tree has no more leaves.
	mostLeaves = 64
)

// An address for a slice of no bytes, which may have none of its own.
var nothing [1]byte

func lent(bytes []byte) (*C.uint8_t, C.size_t) {
	if len(bytes) == 0 {
		return (*C.uint8_t)(&nothing[0]), 0
	}
	return (*C.uint8_t)(&bytes[0]), C.size_t(len(bytes))
}

// One handle of the library. It is in C's memory, which Go doesn't move. Two goroutines wait for each other.
type session struct {
	lock   sync.Mutex
	handle *C.esdk_handle
	waits  int
}

// The session holds its lock for a call, and isn't collected meanwhile.
func (s *session) with(call func(*C.esdk_handle) C.int32_t) error {
	s.lock.Lock()
	defer s.lock.Unlock()
	defer runtime.KeepAlive(s)
	if s.handle == nil {
		return ErrClosed
	}
	code := call(s.handle)
	if code != C.ESDK_OK {
		return errorOf(int(code), s.line())
	}
	return nil
}

func (s *session) line() string {
	room := make([]byte, 256)
	for {
		at, size := lent(room)
		count := int(C.esdk_error(s.handle, at, size))
		if count <= len(room) {
			return string(room[:count])
		}
		room = make([]byte, count)
	}
}

func newSession(file []byte) (*session, error) {
	if code := C.esdk_check(); code != C.ESDK_OK {
		return nil, errorOf(int(code), "")
	}
	s := &session{handle: (*C.esdk_handle)(C.calloc(1, C.sizeof_esdk_handle))}
	runtime.SetFinalizer(s, (*session).close)
	err := s.with(func(handle *C.esdk_handle) C.int32_t {
		at, size := lent(file)
		return C.esdk_new(handle, at, size)
	})
	if err != nil {
		s.close()
		return nil, err
	}
	return s, nil
}

// Frees what the library holds. It may be called again.
func (s *session) close() {
	s.lock.Lock()
	defer s.lock.Unlock()
	if s.handle != nil {
		C.esdk_close(s.handle)
		C.free(unsafe.Pointer(s.handle))
		s.handle = nil
		s.waits = 0
	}
	runtime.SetFinalizer(s, nil)
}

func (s *session) context(pairs map[string]string, required []string) error {
	for key, value := range pairs {
		err := s.with(func(handle *C.esdk_handle) C.int32_t {
			one, oneSize := lent([]byte(key))
			other, otherSize := lent([]byte(value))
			return C.esdk_pair(handle, one, oneSize, other, otherSize)
		})
		if err != nil {
			return err
		}
	}
	for _, key := range required {
		err := s.with(func(handle *C.esdk_handle) C.int32_t {
			at, size := lent([]byte(key))
			return C.esdk_require(handle, at, size)
		})
		if err != nil {
			return err
		}
	}
	return nil
}

func (s *session) seal(frame uint32, length uint64, maxKeys uint16) error {
	return s.with(func(handle *C.esdk_handle) C.int32_t {
		code := C.esdk_seal(handle, C.uint32_t(frame), C.uint64_t(length), C.uint16_t(maxKeys))
		if code == C.ESDK_OK {
			// What the message begins with waits, and this says how much.
			at, size := lent(nil)
			var written, waits C.size_t
			code = C.esdk_take(handle, at, size, &written, &waits)
			s.waits = int(waits)
		}
		return code
	})
}

func (s *session) open(maxKeys uint16, maxUnit uint64, uncommitted bool) error {
	return s.with(func(handle *C.esdk_handle) C.int32_t {
		return C.esdk_open(handle, C.uint16_t(maxKeys), C.uint64_t(maxUnit), C.bool(uncommitted))
	})
}

// What is fed is a message, and what it gives a new one under the keys of this file.
func (s *session) reseal(file []byte, frame uint32, maxKeys uint16, maxUnit uint64, uncommitted bool) error {
	return s.with(func(handle *C.esdk_handle) C.int32_t {
		at, size := lent(file)
		return C.esdk_reseal(handle, at, size, C.uint32_t(frame), C.uint16_t(maxKeys), C.uint64_t(maxUnit), C.bool(uncommitted))
	})
}

// Takes the whole piece. What it gives waits: so a piece and a room are never given to one call.
func (s *session) feed(piece []byte) error {
	return s.with(func(handle *C.esdk_handle) C.int32_t {
		at, size := lent(piece)
		room, none := lent(nil)
		var written, waits C.size_t
		code := C.esdk_feed(handle, at, size, room, none, &written, &waits)
		s.waits = int(waits)
		return code
	})
}

// Says that no byte follows. What that gives waits.
func (s *session) finish() error {
	return s.with(func(handle *C.esdk_handle) C.int32_t {
		room, none := lent(nil)
		var written, waits C.size_t
		code := C.esdk_finish(handle, room, none, &written, &waits)
		s.waits = int(waits)
		return code
	})
}

// Hands out of what waits.
func (s *session) take(room []byte) (int, error) {
	var written, waits C.size_t
	err := s.with(func(handle *C.esdk_handle) C.int32_t {
		at, size := lent(room)
		code := C.esdk_take(handle, at, size, &written, &waits)
		s.waits = int(waits)
		return code
	})
	return int(written), err
}

// The whole context of a message that is opened, once its header was unlocked; else nil.
func (s *session) told() map[string]string {
	s.lock.Lock()
	defer s.lock.Unlock()
	defer runtime.KeepAlive(s)
	if s.handle == nil {
		return nil
	}
	count := int(C.esdk_pairs(s.handle))
	if count < 0 {
		return nil
	}
	pairs := make(map[string]string, count)
	room := make([]byte, mostOfText)
	at, size := lent(room)
	for index := 0; index < count; index++ {
		length := C.esdk_pair_key(s.handle, C.size_t(index), at, size)
		key := string(room[:length])
		length = C.esdk_pair_value(s.handle, C.size_t(index), at, size)
		pairs[key] = string(room[:length])
	}
	return pairs
}

// The leaves that open a message, each by itself, with the pairs that were put. The session stays set up.
func (s *session) openers(message []byte) ([]int, error) {
	var numbers [mostLeaves]C.uint32_t
	var whole C.size_t
	err := s.with(func(handle *C.esdk_handle) C.int32_t {
		at, size := lent(message)
		return C.esdk_openers(handle, at, size, &numbers[0], mostLeaves, &whole)
	})
	if err != nil {
		return nil, err
	}
	leaves := make([]int, int(whole))
	for at := range leaves {
		leaves[at] = int(numbers[at])
	}
	return leaves, nil
}

// What a message begins with, and what it has at an offset; whether it ends behind that.
type parts struct {
	front  []byte
	offset uint64
	part   []byte
	ends   bool
}

// So many bytes of a message's text from one on, as far as there are any. The session stays set up.
func (s *session) textRange(p parts, uncommitted bool, at uint64, count int) ([]byte, error) {
	room := make([]byte, count)
	var written C.size_t
	err := s.with(func(handle *C.esdk_handle) C.int32_t {
		front, frontSize := lent(p.front)
		part, partSize := lent(p.part)
		to, most := lent(room)
		return C.esdk_range(handle, front, frontSize, C.uint64_t(p.offset), part, partSize, C.bool(p.ends), C.bool(uncommitted),
			C.uint64_t(at), to, most, &written)
	})
	if err != nil {
		return nil, err
	}
	return room[:int(written)], nil
}

// Which bytes hold so many of the text from one on, of a message that begins so.
func span(message []byte, uncommitted bool, at, count uint64) (Span, error) {
	if code := C.esdk_check(); code != C.ESDK_OK {
		return Span{}, errorOf(int(code), "")
	}
	first, length := lent(message)
	var header, offset, size C.uint64_t
	var frame C.uint32_t
	code := C.esdk_span(first, length, C.bool(uncommitted), C.uint64_t(at), C.uint64_t(count), &header, &frame, &offset, &size)
	if code != C.ESDK_OK {
		return Span{}, errorOf(int(code), "")
	}
	return Span{uint64(header), uint32(frame), uint64(offset), uint64(size)}, nil
}

// The listing of the header that a message begins with.
func listing(message []byte, uncommitted bool) (string, error) {
	if code := C.esdk_check(); code != C.ESDK_OK {
		return "", errorOf(int(code), "")
	}
	at, size := lent(message)
	room := make([]byte, 4096)
	for {
		to, most := lent(room)
		var whole C.size_t
		if code := C.esdk_list(at, size, C.bool(uncommitted), to, most, &whole); code != C.ESDK_OK {
			return "", errorOf(int(code), "")
		}
		if whole <= most {
			return string(room[:int(whole)]), nil
		}
		room = make([]byte, int(whole))
	}
}

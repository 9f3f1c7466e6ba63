package main

/*
#cgo LDFLAGS: -lrilqamyn
#include <rilqamyn.h>
*/
import "C"

import (
	"fmt"
	"sync"
	"unsafe"
)

// Refused is the code of a call that was refused; include/rilqamyn.h names them.
type Refused uint32

func (code Refused) Error() string {
	return fmt.Sprintf("refused with code %d", uint32(code))
}

// Terminal keeps the screen that an application's output leads to. Goroutines may share it.
type Terminal struct {
	lock   sync.Mutex
	handle C.struct_rilqamyn_terminal
}

// done returns what a code says.
func done(code C.uint32_t) error {
	if code == C.RILQAMYN_DONE {
		return nil
	}
	return Refused(code)
}

// NewTerminal opens a terminal of some columns and rows; Close frees it.
func NewTerminal(width, height int) (*Terminal, error) {
	t := new(Terminal)
	if width < 0 || height < 0 {
		return nil, Refused(C.RILQAMYN_SIZE)
	}
	code := C.rilqamyn_new(&t.handle, C.size_t(width), C.size_t(height), C.RILQAMYN_PLAIN)
	return t, done(code)
}

// Close frees the terminal. Later calls are refused.
func (t *Terminal) Close() {
	t.lock.Lock()
	defer t.lock.Unlock()
	C.rilqamyn_free(&t.handle)
}

// Write feeds bytes that the application wrote; they may end anywhere.
func (t *Terminal) Write(bytes []byte) (int, error) {
	t.lock.Lock()
	defer t.lock.Unlock()
	if len(bytes) == 0 {
		return 0, nil
	}
	at := (*C.uint8_t)(unsafe.Pointer(&bytes[0]))
	if err := done(C.rilqamyn_feed(&t.handle, at, C.size_t(len(bytes)))); err != nil {
		return 0, err
	}
	return len(bytes), nil
}

// ScreenText returns the rows, each with a line feed after it; what was fed shows in full.
func (t *Terminal) ScreenText() ([]byte, error) {
	t.lock.Lock()
	defer t.lock.Unlock()
	if err := done(C.rilqamyn_settle(&t.handle)); err != nil {
		return nil, err
	}
	var out C.struct_rilqamyn_bytes
	if err := done(C.rilqamyn_screen_text(&t.handle, &out)); err != nil {
		return nil, err
	}
	return C.GoBytes(unsafe.Pointer(out.at), C.int(out.len)), nil
}

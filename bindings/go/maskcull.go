// SPDX-License-Identifier: MIT OR Apache-2.0

// Package maskcull tells, before a picture is drawn, what is hidden in it: the calls of maskcull_frame.h, by cgo. Any
// goroutines may use one frame: tests run side by side, and what draws or clears waits for them.
//
// CGO_CFLAGS and CGO_LDFLAGS name the folders of the headers and of libmaskcull.so.
package maskcull

// #cgo LDFLAGS: -lmaskcull
// #include <maskcull_frame.h>
import "C"

import (
	"errors"
	"runtime"
	"sync"
	"unsafe"
)

// A Verdict is what a test says. Visible: not hidden, or not known to be. Outside: beside the screen or behind the eye.
type Verdict uint8

const (
	Visible  Verdict = C.MASKCULL_VISIBLE
	Occluded Verdict = C.MASKCULL_OCCLUDED
	Outside  Verdict = C.MASKCULL_OUTSIDE
)

// A Winding says which occluder triangles aren't drawn, by how they run on the screen.
type Winding uint32

const (
	KeepsBoth             Winding = C.MASKCULL_KEEPS_BOTH
	DropsClockwise        Winding = C.MASKCULL_DROPS_CLOCKWISE
	DropsCounterclockwise Winding = C.MASKCULL_DROPS_COUNTERCLOCKWISE
	OwnWinding            Winding = C.MASKCULL_OWN_WINDING // that of the frame's options
)

var (
	ErrWinding  = errors.New("maskcull: there is no such winding")
	ErrBadIndex = errors.New("maskcull: a triangle names a vertex that isn't there")
	ErrMemory   = errors.New("maskcull: out of memory")
	ErrClosed   = errors.New("maskcull: the frame is closed")
)

// Options say how a frame is to be. Without any, both windings are drawn, in the wide grade and a view in perspective;
// matrices lie column by column, and y / w is 1 at the upper edge.
type Options struct {
	Winding      Winding
	ByRows       bool
	YIsDown      bool
	Narrow       bool
	Orthographic bool    // then the near distance isn't read, but these
	AtNear       float32 // z / w at the near plane
	AtFar        float32 // and at the far one
	Exact        bool    // refused in this version, as the two below
	Reach        uint32
	Share        uint32
}

// A Frame is a screen: what was drawn since it was cleared, against which boxes and meshes are tested. New makes one,
// and a copy is the same frame.
type Frame struct{ *screen }

type screen struct {
	lock          sync.RWMutex
	frame         *C.maskcull_frame
	width, height uint32
}

func flag(it bool) C.uint32_t {
	if it {
		return 1
	}
	return 0
}

// New makes an empty frame for a window of any width and height from 1 to 2048.
func New(width, height uint32, nearDistance float32, options Options) (Frame, error) {
	var reason C.uint32_t
	chosen := C.maskcull_frame_options{
		size: C.sizeof_maskcull_frame_options, exact: flag(options.Exact), reach: C.uint32_t(options.Reach),
		share: C.uint32_t(options.Share), winding: C.uint32_t(options.Winding), by_rows: flag(options.ByRows),
		y_is_down: flag(options.YIsDown), narrow: flag(options.Narrow), orthographic: flag(options.Orthographic),
		at_near: C.float(options.AtNear), at_far: C.float(options.AtFar),
	}
	made := C.maskcull_frame_make(C.uint32_t(width), C.uint32_t(height), C.float(nearDistance), &chosen, &reason)
	if made == nil && reason == C.MASKCULL_FRAME_NO_MEMORY {
		return Frame{}, ErrMemory
	}
	if made == nil {
		return Frame{}, errors.New("maskcull: " + C.GoString(C.maskcull_frame_text(reason)))
	}
	frame := &screen{frame: made, width: width, height: height}
	runtime.SetFinalizer(frame, (*screen).Close)
	return Frame{frame}, nil
}

// Close frees the frame's memory. Without it that is done when nothing refers to the frame.
func (f *screen) Close() {
	f.lock.Lock()
	defer f.lock.Unlock()
	C.maskcull_frame_free(f.frame)
	f.frame = nil
}

// Clear empties the frame.
func (f *screen) Clear() {
	f.lock.Lock()
	defer f.lock.Unlock()
	C.maskcull_frame_clear(f.frame)
}

// An Index is the number of a vertex.
type Index interface{ uint16 | uint32 }

// A Matrix takes x, y, z, 1 to clip space.
type Matrix = [16]float32

// A Point is a vertex' position.
type Point = [3]float32

// A Box is its low corner and its high one.
type Box = [6]float32

// Draw draws a mesh: three numbers of vertices for each triangle. On an error nothing was drawn.
func Draw[I Index](f Frame, toClip *Matrix, points []Point, triangles [][3]I, winding Winding) error {
	if winding > OwnWinding {
		return ErrWinding
	}
	f.lock.Lock()
	defer f.lock.Unlock()
	if f.frame == nil {
		return ErrClosed
	}
	switch C.maskcull_frame_draw(f.frame, (*C.float)(&toClip[0]), first(points), C.size_t(unsafe.Sizeof(Point{})),
		C.size_t(len(points)), first(triangles), C.size_t(unsafe.Sizeof(I(0))), C.size_t(3*len(triangles)),
		C.uint32_t(winding)) {
	case C.MASKCULL_DONE:
		return nil
	case C.MASKCULL_BAD_INDEX:
		return ErrBadIndex
	}
	return ErrMemory
}

// TestMesh tests a mesh: Visible too where a triangle names a vertex that isn't there, or the frame is closed.
func TestMesh[I Index](f Frame, toClip *Matrix, points []Point, triangles [][3]I) Verdict {
	f.lock.RLock()
	defer f.lock.RUnlock()
	return Verdict(C.maskcull_frame_test_mesh(f.frame, (*C.float)(&toClip[0]), first(points),
		C.size_t(unsafe.Sizeof(Point{})), C.size_t(len(points)), first(triangles), C.size_t(unsafe.Sizeof(I(0))),
		C.size_t(3*len(triangles))))
}

// TestBoxes tests boxes. All are Visible where the frame is closed.
func (f *screen) TestBoxes(toClip *Matrix, boxes []Box) []Verdict {
	verdicts := make([]Verdict, len(boxes))
	f.lock.RLock()
	defer f.lock.RUnlock()
	C.maskcull_frame_test_boxes(f.frame, (*C.float)(&toClip[0]), (*C.float)(first(boxes)), C.size_t(len(boxes)),
		(*C.uint8_t)(first(verdicts)))
	return verdicts
}

// Picture tells how near each pixel is at least, row by row from above.
func (f *screen) Picture() ([]uint16, error) {
	picture := make([]uint16, uint64(f.width)*uint64(f.height))
	f.lock.RLock()
	defer f.lock.RUnlock()
	if f.frame == nil {
		return nil, ErrClosed
	}
	if C.maskcull_frame_nearness(f.frame, (*C.uint16_t)(first(picture)), C.size_t(len(picture)),
		C.size_t(f.width)) != C.MASKCULL_DONE {
		return nil, ErrMemory
	}
	return picture, nil
}

// The place of a slice's elements, and any place where it has none: C doesn't look there.
func first[T any](elements []T) unsafe.Pointer {
	if len(elements) == 0 {
		return unsafe.Pointer(&nothing)
	}
	return unsafe.Pointer(&elements[0])
}

var nothing uint64

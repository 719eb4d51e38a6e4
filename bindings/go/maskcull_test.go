package maskcull

import (
	"errors"
	"math"
	"os"
	"os/exec"
	"path/filepath"
	"strings"
	"sync"
	"testing"
)

var (
	clip = Matrix{1, 0, 0, 0, 0, 1, 0, 0, 0, 0, -1, -1, 0, 0, -0.25, 0}
	wall = []Point{{-9, 9, -4}, {9, 9, -4}, {9, -9, -4}, {-9, -9, -4}}
	quad = [][3]uint16{{0, 1, 2}, {0, 2, 3}}
	box  = []Box{{-1, -1, -9, 1, 1, -8}}
)

func frameFor(t *testing.T) Frame {
	frame, err := New(61, 31, 0.1, Options{})
	if err != nil {
		t.Fatal(err)
	}
	return frame
}

func isVerdict(t *testing.T, frame Frame, wanted Verdict) {
	t.Helper()
	if found := frame.TestBoxes(&clip, box)[0]; found != wanted {
		t.Fatalf("the box is %d, not %d", found, wanted)
	}
}

func TestARefusalSaysWhy(t *testing.T) {
	cases := []struct {
		width   uint32
		near    float32
		options Options
		word    string
	}{
		{0, 0.1, Options{}, "is 0"},
		{2049, 0.1, Options{}, "2048"},
		{64, float32(math.NaN()), Options{}, "near distance"},
		{64, 0.1, Options{Winding: 3}, "winding"},
		{64, 0.1, Options{Exact: true}, "exact"},
		{64, 0.1, Options{Reach: 8}, "reach"},
		{64, 0.1, Options{Orthographic: true, AtNear: 1, AtFar: 1}, "depths"},
	}
	for _, it := range cases {
		if _, err := New(it.width, 32, it.near, it.options); err == nil || !strings.Contains(err.Error(), it.word) {
			t.Errorf("%v: %v", it, err)
		}
	}
}

func TestAnIndexPastTheEndDrawsNothing(t *testing.T) {
	frame := frameFor(t)
	errs := []error{
		Draw(frame, &clip, wall, [][3]uint16{{0, 1, 4}}, OwnWinding),
		Draw(frame, &clip, wall, [][3]uint32{{0, 1, math.MaxUint32}}, OwnWinding),
		Draw(frame, &clip, nil, quad, OwnWinding),
	}
	for k, err := range errs {
		if !errors.Is(err, ErrBadIndex) {
			t.Errorf("draw %d: %v", k, err)
		}
	}
	if err := Draw(frame, &clip, wall, quad, 4); !errors.Is(err, ErrWinding) {
		t.Error(err)
	}
	if err := Draw[uint32](frame, &clip, nil, nil, OwnWinding); err != nil {
		t.Error(err)
	}
	if TestMesh(frame, &clip, wall, [][3]uint16{{0, 1, 4}}) != Visible || len(frame.TestBoxes(&clip, nil)) != 0 {
		t.Error("a test of what isn't there")
	}
	isVerdict(t, frame, Visible)
}

func TestAWallHidesABoxByItsWinding(t *testing.T) {
	frame := frameFor(t)
	if err := Draw(frame, &clip, wall, quad, DropsClockwise); err != nil {
		t.Fatal(err)
	}
	isVerdict(t, frame, Visible)
	if err := Draw(frame, &clip, wall, quad, DropsCounterclockwise); err != nil {
		t.Fatal(err)
	}
	isVerdict(t, frame, Occluded)
	picture, err := frame.Picture()
	if err != nil || len(picture) != 61*31 {
		t.Errorf("%d pixels, %v", len(picture), err)
	}
	var some sync.WaitGroup
	for k := 0; k < 4; k++ {
		some.Add(1)
		go func() {
			defer some.Done()
			if err := Draw(frame, &clip, wall, quad, KeepsBoth); err != nil {
				t.Error(err)
			}
			frame.TestBoxes(&clip, box)
		}()
	}
	some.Wait()
	frame.Clear()
	isVerdict(t, frame, Visible)
}

func TestAClosedFrameHidesNothing(t *testing.T) {
	frame := frameFor(t)
	other := frame
	other.Close()
	frame.Close()
	frame.Clear()
	if err := Draw(frame, &clip, wall, quad, OwnWinding); !errors.Is(err, ErrClosed) {
		t.Error(err)
	}
	if _, err := frame.Picture(); !errors.Is(err, ErrClosed) {
		t.Error(err)
	}
	isVerdict(t, frame, Visible)
}

// A length or a kind of number that isn't allowed doesn't compile.
func TestWrongKindsDontCompile(t *testing.T) {
	for _, line := range []string{
		"frame.TestBoxes(&[15]float32{}, nil)",
		"frame.TestBoxes(&[16]float64{}, nil)",
		"frame.TestBoxes(&matrix, [][5]float32{})",
		"maskcull.Draw(frame, &matrix, [][2]float32{}, [][3]uint16{}, 0)",
		"maskcull.Draw(frame, &matrix, nil, [][3]int32{}, 0)",
		"maskcull.Draw(frame, &matrix, nil, [][2]uint16{}, 0)",
	} {
		text := "package main\n\nimport \"maskcull\"\n\nfunc main() {\n\tvar frame maskcull.Frame\n" +
			"\tvar matrix maskcull.Matrix\n\tframe.TestBoxes(&matrix, nil)\n\t" + line + "\n}\n"
		folder, err := os.MkdirTemp(".", "wrong")
		if err != nil {
			t.Fatal(err)
		}
		defer os.RemoveAll(folder)
		if err := os.WriteFile(filepath.Join(folder, "main.go"), []byte(text), 0o644); err != nil {
			t.Fatal(err)
		}
		out, err := exec.Command("go", "vet", "./"+folder).CombinedOutput()
		if err == nil || !strings.Contains(string(out), "main.go:9:") {
			t.Errorf("%s: %v %s", line, err, out)
		}
	}
}

// The program of bindings/c/yard.c.
package main

import (
	"fmt"
	"log"

	"maskcull"
)

var state uint32 = 1

func below(bound uint32) float32 {
	state = (state*1103515245 + 12345) & 0x7fffffff
	return float32((state >> 16) % bound)
}

func main() {
	toClip := maskcull.Matrix{1, 0, 0, 0, 0, 1.75, 0, 0, 0, 0, -1, -1, 0, 0, -0.25, 0}
	frame, err := maskcull.New(1280, 720, 0.125, maskcull.Options{})
	if err != nil {
		log.Fatal(err)
	}
	defer frame.Close()
	frame.Clear()
	for k := 0; k < 40; k++ {
		x, z, half, top := below(64)-32, -4-below(60), 1+below(4), below(8)
		wall := []maskcull.Point{{x - half, top, z}, {x + half, top, z}, {x + half, -4, z}, {x - half, -4, z}}
		if err := maskcull.Draw(frame, &toClip, wall, [][3]uint16{{0, 1, 2}, {0, 2, 3}}, maskcull.OwnWinding); err != nil {
			log.Fatal(err)
		}
	}
	boxes := make([]maskcull.Box, 1000)
	for k := range boxes {
		x, y, z := below(128)-64, below(8)-4, 2-below(128)
		boxes[k] = maskcull.Box{x, y, z - 1, x + 1, y + 1, z}
	}
	counts := map[maskcull.Verdict]int{}
	for _, verdict := range frame.TestBoxes(&toClip, boxes) {
		counts[verdict]++
	}
	picture, err := frame.Picture()
	if err != nil {
		log.Fatal(err)
	}
	sum := uint64(0)
	for k, near := range picture {
		sum += uint64(k+1) * uint64(near)
	}
	fmt.Printf("visible %d occluded %d outside %d\n", counts[maskcull.Visible], counts[maskcull.Occluded],
		counts[maskcull.Outside])
	fmt.Printf("picture %d\n", sum)
}

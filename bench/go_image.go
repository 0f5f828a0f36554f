// go_image DECODINGS < FILE: decodes a JPEG file so many times from memory by Go's image/jpeg, and
// prints the least and the median processor time of a decoding. What the package leaves as planes
// is drawn to pixels, as other decoders give them.
package main

import (
	"bytes"
	"fmt"
	"image"
	"image/draw"
	"image/jpeg"
	"io"
	"os"
	"sort"
	"strconv"
	"syscall"
	"unsafe"
)

const processClock = 2 // CLOCK_PROCESS_CPUTIME_ID

func processMs() float64 {
	var time syscall.Timespec
	syscall.Syscall(syscall.SYS_CLOCK_GETTIME, processClock, uintptr(unsafe.Pointer(&time)), 0)
	return float64(time.Nano()) / 1e6
}

func decode(file []byte) error {
	picture, err := jpeg.Decode(bytes.NewReader(file))
	if planes, ok := picture.(*image.YCbCr); ok {
		pixels := image.NewRGBA(planes.Rect)
		draw.Draw(pixels, pixels.Rect, planes, planes.Rect.Min, draw.Src)
	}
	return err
}

func times(file []byte, decodings int) ([]float64, error) {
	var taken []float64
	for i := 0; i < decodings; i++ {
		start := processMs()
		if err := decode(file); err != nil {
			return nil, err
		}
		taken = append(taken, processMs()-start)
	}
	sort.Float64s(taken)
	return taken, nil
}

func main() {
	decodings, err := strconv.Atoi(os.Args[1])
	if err != nil || decodings < 1 {
		fmt.Fprintln(os.Stderr, "usage: go_image DECODINGS < FILE")
		os.Exit(2)
	}
	file, err := io.ReadAll(os.Stdin)
	if err == nil {
		var taken []float64
		if taken, err = times(file, decodings); err == nil {
			fmt.Fprintf(os.Stderr, "process time: best %.6f ms, median %.6f ms\n",
				taken[len(taken)/100], taken[len(taken)/2])
			return
		}
	}
	fmt.Fprintln(os.Stderr, "go_image:", err)
	os.Exit(1)
}

package suite

import (
	"image"
	"image/jpeg"
	"os"
)

// Picture has samples of one kind after the other: grey, or red, green and blue, or four inks.
type Picture struct {
	width, height, depth, most int
	samples                    []int
}

// decode returns the picture of a file, or nil for a refusal.
func decode(path string) *Picture {
	file, err := os.Open(path)
	if err != nil {
		return nil
	}
	defer file.Close()
	decoded, err := jpeg.Decode(file)
	if err != nil {
		return nil
	}
	bounds := decoded.Bounds()
	found := &Picture{width: bounds.Dx(), height: bounds.Dy(), depth: 3, most: 255}
	switch decoded.(type) {
	case *image.Gray:
		found.depth = 1
	case *image.CMYK:
		found.depth = 4
	}
	for y := bounds.Min.Y; y < bounds.Max.Y; y++ {
		for x := bounds.Min.X; x < bounds.Max.X; x++ {
			found.add(decoded, x, y)
		}
	}
	return found
}

func (p *Picture) add(decoded image.Image, x, y int) {
	switch it := decoded.(type) {
	case *image.Gray:
		p.samples = append(p.samples, int(it.GrayAt(x, y).Y))
	case *image.CMYK:
		c := it.CMYKAt(x, y)
		p.samples = append(p.samples, int(c.C), int(c.M), int(c.Y), int(c.K))
	default:
		r, g, b, _ := it.At(x, y).RGBA()
		p.samples = append(p.samples, int(r>>8), int(g>>8), int(b>>8))
	}
}

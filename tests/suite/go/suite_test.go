// Package suite runs a decoder on the conformance suite.
package suite

import (
	"bufio"
	"bytes"
	"encoding/json"
	"flag"
	"fmt"
	"os"
	"path/filepath"
	"strings"
	"testing"
)

var (
	folder  = flag.String("suite", "..", "the suite's folder")
	asRGB   = flag.Bool("cmyk-as-rgb", false, "the decoder shows four components in RGB")
	results = flag.String("results", "", "a file to which a line of JSON of each case is added")
	without = flag.String("without", "", "processes that the decoder doesn't have")
)

// near is how far samples of the same colours may be apart: what a difference of 2 in each
// component makes of blue.
const near = 6

type right struct {
	Low, High string
	Tolerance int
}

type testCase struct {
	Name, Class, Section, Why, Process, Stream, Expected string
	Refusal, Any                                         bool
	Settings                                             [][]string
	Pictures                                             []right
	CompleteRows                                         int `json:"complete_rows"`
}

// readCases returns the cases of a class.
func readCases(t *testing.T, class string) []testCase {
	file, err := os.Open(filepath.Join(*folder, "cases.jsonl"))
	if err != nil {
		t.Fatal(err)
	}
	defer file.Close()
	var found []testCase
	lines := bufio.NewScanner(file)
	lines.Buffer(nil, 1<<20)
	for lines.Scan() {
		var it testCase
		if err := json.Unmarshal(lines.Bytes(), &it); err != nil {
			t.Fatal(err)
		}
		if it.Class == class {
			found = append(found, it)
		}
	}
	return found
}

// readPAM returns a picture of the suite.
func readPAM(t *testing.T, path string) *Picture {
	data, err := os.ReadFile(filepath.Join(*folder, path))
	if err != nil {
		t.Fatal(err)
	}
	end := bytes.Index(data, []byte("ENDHDR\n"))
	found := &Picture{}
	fields := map[string]*int{"WIDTH": &found.width, "HEIGHT": &found.height,
		"DEPTH": &found.depth, "MAXVAL": &found.most}
	for _, line := range strings.Split(string(data[:end]), "\n") {
		var name string
		var number int
		if _, err := fmt.Sscan(line, &name, &number); err == nil && fields[name] != nil {
			*fields[name] = number
		}
	}
	data = data[end+len("ENDHDR\n"):]
	for at := 0; at < len(data); at++ {
		value := int(data[at])
		if found.most > 255 {
			at++
			value = value<<8 | int(data[at])
		}
		found.samples = append(found.samples, value)
	}
	return found
}

// withDepth returns a grey picture as red, green and blue, or the other way where nothing is lost.
func (p *Picture) withDepth(depth int) *Picture {
	if p.depth == depth {
		return p
	}
	found := &Picture{p.width, p.height, depth, p.most, nil}
	for at := 0; at < len(p.samples); at += p.depth {
		value := p.samples[at]
		switch {
		case p.depth == 1 && depth == 3:
			found.samples = append(found.samples, value, value, value)
		case p.depth == 3 && depth == 1 && p.samples[at+1] == value && p.samples[at+2] == value:
			found.samples = append(found.samples, value)
		default:
			return nil
		}
	}
	return found
}

// asInks returns what cyan, magenta, yellow and black are in red, green and blue, and more.
func (p *Picture) asInks(more int) *Picture {
	found := &Picture{p.width, p.height, 3, p.most, nil}
	for at := 0; at < len(p.samples); at += 4 {
		for _, ink := range p.samples[at : at+3] {
			found.samples = append(found.samples, (255-ink)*(255-p.samples[at+3])/255+more)
		}
	}
	return found
}

// distance returns how far two pictures are apart, or -1 where they can't be compared.
func distance(shown, wanted *Picture) int {
	shown = shown.withDepth(wanted.depth)
	if shown == nil || shown.width != wanted.width || shown.height != wanted.height {
		return -1
	}
	furthest := 0
	for at, value := range shown.samples {
		apart := value - wanted.samples[at]
		if apart < 0 {
			apart = -apart
		}
		if apart > furthest {
			furthest = apart
		}
	}
	return furthest
}

// isRight returns whether the first rows of a picture, or all for 0, lie between the least and the
// greatest samples of one that is right.
func isRight(t *testing.T, shown *Picture, it right, rows int) bool {
	low, high := readPAM(t, it.Low), readPAM(t, it.High)
	if *asRGB && low.depth == 4 && shown.depth != 4 {
		low, high = high.asInks(-1), low.asInks(1)
	}
	shown = shown.withDepth(low.depth)
	if shown == nil || shown.width != low.width || shown.height != low.height {
		return false
	}
	if rows == 0 {
		rows = low.height
	}
	for at := 0; at < rows*low.width*low.depth; at++ {
		value := shown.samples[at]
		if value < low.samples[at]-it.Tolerance || value > high.samples[at]+it.Tolerance {
			return false
		}
	}
	return true
}

// outcome returns whether an answer is right, how, and how far it is from the suite's.
func outcome(t *testing.T, it testCase, shown *Picture) (bool, string, int) {
	if shown == nil {
		return it.Refusal, "refused", -1
	}
	apart := -1
	if strings.HasSuffix(it.Expected, ".pam") {
		apart = distance(shown, readPAM(t, it.Expected))
	}
	if apart == 0 {
		return true, "exact", 0
	}
	good := it.Any
	for _, one := range it.Pictures {
		good = good || isRight(t, shown, one, it.CompleteRows)
	}
	if good && apart > 0 && apart <= near {
		return true, "near", apart
	}
	return good, "other", apart
}

// keep adds what became of a case to the file of results.
func keep(t *testing.T, name string, good bool, how string) {
	if *results == "" {
		return
	}
	file, err := os.OpenFile(*results, os.O_APPEND|os.O_CREATE|os.O_WRONLY, 0o644)
	if err != nil {
		t.Fatal(err)
	}
	defer file.Close()
	fmt.Fprintf(file, "{\"name\": %q, \"is_right\": %t, \"how\": %q}\n", name, good, how)
}

// runClass runs the decoder on each case of a class.
func runClass(t *testing.T, class string) {
	counts, furthest := map[string]int{}, 0
	for _, it := range readCases(t, class) {
		it := it
		t.Run(it.Name, func(t *testing.T) {
			if it.Process != "" && strings.Contains(","+*without+",", ","+it.Process+",") {
				t.Skip("a process that the decoder lacks")
			}
			if class == "own" && len(it.Settings) > 0 {
				t.Skip("a setting of another decoder")
			}
			good, how, apart := outcome(t, it, decode(filepath.Join(*folder, it.Stream)))
			keep(t, it.Name, good, how)
			if how == "near" && apart > furthest {
				furthest = apart
			}
			if !good && class != "own" {
				how = "wrongly " + how
				t.Errorf("%s (%s: %s)", how, it.Section, it.Why)
			}
			counts[how]++
		})
	}
	t.Logf("%s: %v; near is within %d", class, counts, furthest)
}

func TestMust(t *testing.T) { runClass(t, "must") }
func TestMay(t *testing.T)  { runClass(t, "may") }
func TestOwn(t *testing.T)  { runClass(t, "own") }

// check KEYS AADHEX [strict] < INPUT > PASSED: what cose-gate does, by the library. Build and run: `bash scripts/c-library.sh go`.
package main

import (
	"encoding/hex"
	"errors"
	"fmt"
	"io"
	"os"

	"cosegate"
)

// status is that of the program.
func status(checked cosegate.Checked, err error) int {
	switch {
	case errors.Is(err, cosegate.ErrLimits):
		return 2
	case errors.Is(err, cosegate.ErrKeys):
		return 3
	case err != nil:
		return 4
	case checked.SomeRefused:
		return 1
	default:
		return 0
	}
}

func main() {
	words := os.Args
	if len(words) < 3 || len(words) > 4 {
		fmt.Fprintln(os.Stderr, "usage: check KEYS AADHEX [strict] < INPUT > PASSED")
		os.Exit(2)
	}
	keys, err := os.ReadFile(words[1])
	if err != nil {
		fmt.Fprintln(os.Stderr, "keys: cannot be read")
		os.Exit(3)
	}
	aad, err := hex.DecodeString(words[2])
	if err != nil {
		fmt.Fprintln(os.Stderr, "aad: not hex")
		os.Exit(2)
	}
	input, err := io.ReadAll(os.Stdin)
	if err != nil {
		os.Exit(4)
	}
	checked, err := cosegate.Check(keys, aad, input, len(words) == 4)
	os.Stderr.Write(checked.Lines)
	if _, err := os.Stdout.Write(checked.Passed); err != nil {
		os.Exit(4)
	}
	os.Exit(status(checked, err))
}

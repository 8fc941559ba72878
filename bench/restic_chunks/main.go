// Cuts the random bytes of the kernel chunk of the program cases by restic's chunker library, five times, and prints
// the least time in milliseconds and the digest of the lengths, which is that of the kernel.
package main

import (
	"bytes"
	"crypto/sha256"
	"encoding/binary"
	"fmt"
	"io"
	"os"
	"strconv"
	"time"

	"github.com/restic/chunker"
)

const polynomial = chunker.Pol(0x3DA3358B4DC173)

func randomBytes(size int) []byte {
	data := make([]byte, 0, size)
	state := uint64(1)
	for i := 0; i < size/4; i++ {
		state = state*6364136223846793005 + 1442695040888963407
		data = binary.BigEndian.AppendUint32(data, uint32(state>>32))
	}
	return data
}

func lengthsOf(data, buffer []byte) []byte {
	var lengths []byte
	cutter := chunker.New(bytes.NewReader(data), polynomial)
	for {
		chunk, err := cutter.Next(buffer)
		if err == io.EOF {
			return lengths
		}
		if err != nil {
			panic(err)
		}
		lengths = binary.BigEndian.AppendUint64(lengths, uint64(chunk.Length))
	}
}

func main() {
	size, err := strconv.Atoi(os.Args[1])
	if err != nil {
		panic(err)
	}
	data := randomBytes(size)
	buffer := make([]byte, chunker.MaxSize)
	best := time.Hour
	var lengths []byte
	for run := 0; run < 5; run++ {
		start := time.Now()
		lengths = lengthsOf(data, buffer)
		if took := time.Since(start); took < best {
			best = took
		}
	}
	fmt.Printf("%d ms, lengths %x\n", best.Milliseconds(), sha256.Sum256(lengths))
}

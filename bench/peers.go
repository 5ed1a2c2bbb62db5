// The program hashes by this module, or by golang.org/x/crypto, for bench/times.py: peers WAY KIB PASSES LANES. For each
// line of input it prints the tag and the milliseconds that this hash took.
package main

import (
	"bufio"
	"fmt"
	"os"
	"strconv"
	"time"

	theirs "golang.org/x/crypto/argon2"

	ours "vemkuorl.example/proved-argon2/argon2"
)

func main() {
	var cost [3]uint64
	for i := range cost {
		number, err := strconv.ParseUint(os.Args[2+i], 10, 32)
		if err != nil {
			panic(err)
		}
		cost[i] = number
	}
	idKey := theirs.IDKey
	if os.Args[1] == "ours" {
		idKey = ours.IDKey
	}
	password, salt := []byte("password"), []byte("somesaltsomesalt")
	for lines := bufio.NewScanner(os.Stdin); lines.Scan(); {
		begun := time.Now()
		tag := idKey(password, salt, uint32(cost[1]), uint32(cost[0]), uint8(cost[2]), 32)
		fmt.Printf("%x %f\n", tag, float64(time.Since(begun))/float64(time.Millisecond))
	}
}

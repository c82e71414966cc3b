// Checks that a leaf is in a tree of 2^62 leaves, by Go's golang.org/x/mod/sumdb/tlog, this many times; or makes only
// the hashes of as many such checks. Prints how often the leaf was accepted, or the hashes led to one value.
//
// bench/run builds it with Debian's golang-go and golang-golang-x-mod-dev, and calls it by `walk N` and `hashes N`.
// 2^62 is the largest size of tlog's: above it, maxpow2 does not end, since 1<<63 is not an int64 above zero. So a path has
// 62 hashes.
package main

import (
	"fmt"
	"log"
	"os"
	"strconv"

	"golang.org/x/mod/sumdb/tlog"
)

const (
	hashes = 62
	size   = int64(1) << hashes
	index  = int64(0x1555_5555_5555_5555) // its bits alternate
)

// madeUp returns the hash of a leaf, and as many hashes as its path has.
func madeUp() (leaf tlog.Hash, proof tlog.RecordProof) {
	for place := 0; place < hashes; place++ {
		proof = append(proof, tlog.RecordHash([]byte{byte(place)}))
	}
	return tlog.RecordHash([]byte("leaf")), proof
}

// root returns the root to which the path leads.
func root(leaf tlog.Hash, proof tlog.RecordProof) tlog.Hash {
	for place, hash := range proof {
		if index>>place&1 == 0 {
			leaf = tlog.NodeHash(leaf, hash)
		} else {
			leaf = tlog.NodeHash(hash, leaf)
		}
	}
	return leaf
}

// walked returns how often CheckRecord accepts the path.
func walked(times int) (accepted int) {
	leaf, proof := madeUp()
	wanted := root(leaf, proof)
	for ; times > 0; times-- {
		if tlog.CheckRecord(proof, size, wanted, index, leaf) == nil {
			accepted++
		}
	}
	return accepted
}

// top returns the hash to which the path's hashes lead, as though each were that of a right child.
func top(leaf tlog.Hash, proof tlog.RecordProof) tlog.Hash {
	for _, hash := range proof {
		leaf = tlog.NodeHash(leaf, hash)
	}
	return leaf
}

// hashed returns how often the path's hashes lead to one value.
func hashed(times int) (equal int) {
	leaf, proof := madeUp()
	wanted := top(leaf, proof)
	for ; times > 0; times-- {
		if top(leaf, proof) == wanted {
			equal++
		}
	}
	return equal
}

func main() {
	if len(os.Args) != 3 {
		log.Fatal("usage: walks walk|hashes N")
	}
	times, err := strconv.Atoi(os.Args[2])
	if err != nil {
		log.Fatal(err)
	}
	switch os.Args[1] {
	case "walk":
		fmt.Println(walked(times))
	case "hashes":
		fmt.Println(hashed(times))
	default:
		log.Fatal("no such word")
	}
}

// Gives the consistency proofs of base_cases to Go's golang.org/x/mod/sumdb/tlog, and compares what it says with the table.
//
// Run by hand, with Debian's golang-go and golang-golang-x-mod-dev:
//
//	GO111MODULE=off GOPATH=/usr/share/gocode go run bench/peers/tlog/main.go crates/base_cases >bench/peers/tlog/output
//
// For each row `sweep OLD NEW`, ProveTree has to make the proof whose hash the table has, and CheckTree has to accept it and
// those of its changes that have the letter k, and no other. For each row `verify_consistency`, CheckTree has to accept where
// the table says ok, and nowhere else; tlog has no answer to rows of the empty tree, and of sizes above 2^63 - 1.
package main

import (
	"bufio"
	"crypto/sha256"
	"encoding/hex"
	"fmt"
	"log"
	"os"
	"path/filepath"
	"strconv"
	"strings"

	"golang.org/x/mod/sumdb/tlog"
)

// lines returns the lines of a file.
func lines(name string) []string {
	file, err := os.Open(name)
	if err != nil {
		log.Fatal(err)
	}
	defer file.Close()
	scanner := bufio.NewScanner(file)
	scanner.Buffer(nil, 1<<24)
	var found []string
	for scanner.Scan() {
		found = append(found, scanner.Text())
	}
	return found
}

// stored returns the hashes that tlog stores for the log of the entries `entry 0`, `entry 1` and so on.
func stored(count int64) tlog.HashReaderFunc {
	var all []tlog.Hash
	reader := tlog.HashReaderFunc(func(indexes []int64) ([]tlog.Hash, error) {
		found := make([]tlog.Hash, len(indexes))
		for i, index := range indexes {
			found[i] = all[index]
		}
		return found, nil
	})
	for n := int64(0); n < count; n++ {
		more, err := tlog.StoredHashes(n, []byte(fmt.Sprintf("entry %d", n)), reader)
		if err != nil {
			log.Fatal(err)
		}
		all = append(all, more...)
	}
	return reader
}

func root(count int64, reader tlog.HashReader) tlog.Hash {
	found, err := tlog.TreeHash(count, reader)
	if err != nil {
		log.Fatal(err)
	}
	return found
}

// changes returns the proof with each hash changed, dropped and doubled, in the table's order.
func changes(proof tlog.TreeProof) []tlog.TreeProof {
	var found []tlog.TreeProof
	for i, hash := range proof {
		flipped := hash
		flipped[0] ^= 1
		for _, others := range [][]tlog.Hash{{flipped}, {}, {hash, hash}} {
			changed := append(tlog.TreeProof{}, proof[:i]...)
			changed = append(changed, others...)
			found = append(found, append(changed, proof[i+1:]...))
		}
	}
	return found
}

// letters returns a letter for each check of a sweep: k where it accepts.
func letters(proof tlog.TreeProof, old, new int64, oldRoot, newRoot tlog.Hash) string {
	var found strings.Builder
	check := func(proof tlog.TreeProof, old, new int64) {
		if tlog.CheckTree(proof, new, newRoot, old, oldRoot) == nil {
			found.WriteByte('k')
		} else {
			found.WriteByte('-')
		}
	}
	check(proof, old, new)
	for _, changed := range changes(proof) {
		check(changed, old, new)
	}
	check(proof, old-1, new)
	check(proof, old+1, new)
	check(proof, old, new-1)
	check(proof, old, new+1)
	return found.String()
}

// accepted keeps only the letters k.
func accepted(letters string) string {
	return strings.Map(func(letter rune) rune {
		if letter == 'k' {
			return letter
		}
		return '-'
	}, letters)
}

func sweep(call, result []string) bool {
	old, _ := strconv.ParseInt(call[1], 10, 64)
	new, _ := strconv.ParseInt(call[2], 10, 64)
	reader := stored(new)
	proof, err := tlog.ProveTree(new, old, reader)
	if err != nil {
		log.Fatal(err)
	}
	digest := sha256.New()
	for _, hash := range proof {
		digest.Write(hash[:])
	}
	made := hex.EncodeToString(digest.Sum(nil))
	return made == result[1] && letters(proof, old, new, root(old, reader), root(new, reader)) == accepted(result[2])
}

func hashOf(digits string) (hash tlog.Hash) {
	if _, err := hex.Decode(hash[:], []byte(digits)); err != nil {
		log.Fatal(err)
	}
	return hash
}

func verify(call, result []string) (agrees, known bool) {
	old, errOld := strconv.ParseInt(call[1], 10, 64)
	new, errNew := strconv.ParseInt(call[2], 10, 64)
	if errOld != nil || errNew != nil || old == 0 {
		return false, false
	}
	var proof tlog.TreeProof
	if call[3] != "-" {
		for _, digits := range strings.Split(call[3], ",") {
			proof = append(proof, hashOf(digits))
		}
	}
	err := tlog.CheckTree(proof, new, hashOf(call[5]), old, hashOf(call[4]))
	return (err == nil) == (result[0] == "ok"), true
}

func main() {
	calls, results := lines(filepath.Join(os.Args[1], "stdin")), lines(filepath.Join(os.Args[1], "stdout"))
	sweeps, rows, passed, disagreements := 0, 0, 0, 0
	for i, line := range calls {
		call, result := strings.Fields(line), strings.Fields(results[i])
		agrees := true
		switch call[0] {
		case "sweep":
			sweeps++
			agrees = sweep(call, result)
		case "verify_consistency":
			known := false
			if agrees, known = verify(call, result); known {
				rows++
			} else {
				passed, agrees = passed+1, true
			}
		}
		if !agrees {
			disagreements++
			fmt.Printf("differs: %.80s\n", line)
		}
	}
	fmt.Printf("pairs of trees: %d; rows: %d; rows that tlog has no answer to: %d; differences: %d\n", sweeps, rows, passed, disagreements)
}

// Verifies the bundle of an artifact: go run ./example TRUSTED_ROOT BUNDLE ARTIFACT IDENTITY ISSUER NOW
package main

import (
	"crypto/sha256"
	"encoding/json"
	"fmt"
	"os"

	"sigverify"
)

func main() {
	status, text, err := verified(os.Args[1:])
	if err != nil {
		fmt.Fprintln(os.Stderr, err)
		os.Exit(3)
	}
	fmt.Print(string(text))
	os.Exit(int(status))
}

func verified(words []string) (sigverify.Status, []byte, error) {
	if len(words) != 6 {
		return 0, nil, fmt.Errorf("example TRUSTED_ROOT BUNDLE ARTIFACT IDENTITY ISSUER NOW")
	}
	var files [3][]byte
	for place := range files {
		content, err := os.ReadFile(words[place])
		if err != nil {
			return 0, nil, err
		}
		files[place] = content
	}
	policy := map[string]any{"all": []any{map[string]string{"identity": words[3], "issuer": words[4]}}}
	request, err := json.Marshal(map[string]any{
		"trustedRoot": string(files[0]), "bundle": string(files[1]), "now": json.Number(words[5]),
		"digest": fmt.Sprintf("sha256:%x", sha256.Sum256(files[2])), "policy": policy,
	})
	if err != nil {
		return 0, nil, err
	}
	return sigverify.Checked(sigverify.Verify, request, sigverify.IsGenuineECDSA)
}

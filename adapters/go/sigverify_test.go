package sigverify

import (
	"crypto/sha256"
	"encoding/json"
	"fmt"
	"os"
	"os/exec"
	"path/filepath"
	"strings"
	"sync"
	"testing"
)

var commands = map[string]Command{"log": Log, "verify": Verify, "consistency": Consistency, "audit": Audit, "witness": Witness, "gate": Gate}

// expected reads the reply and the status of a file, whose last line says the status.
func expected(t *testing.T, path string) string {
	content, err := os.ReadFile(path)
	if err != nil {
		t.Error(err)
	}
	return string(content)
}

func said(t *testing.T, command Command, request []byte) string {
	status, text, err := Reply(command, request)
	if err != nil {
		t.Error(err)
	}
	return fmt.Sprintf("%sstatus %d\n", text, status)
}

// checkExamples compares the replies to each request of examples/, and its questions where those are there.
func checkExamples(t *testing.T) {
	paths, err := filepath.Glob("../../examples/*.json")
	if err != nil || len(paths) == 0 {
		t.Error("no examples", err)
	}
	for _, path := range paths {
		name := strings.TrimSuffix(filepath.Base(path), ".json")
		command := commands[strings.SplitN(name, "-", 2)[0]]
		request := []byte(expected(t, path))
		if found, wanted := said(t, command, request), expected(t, "../../examples/"+name+".expected"); found != wanted {
			t.Errorf("%s: %q, and not %q", name, found, wanted)
		}
		questions := "../../examples/questions-" + name + ".expected"
		if _, err := os.Stat(questions); err != nil {
			continue
		}
		if found, wanted := said(t, command.Questions(), request), expected(t, questions); found != wanted {
			t.Errorf("questions of %s: %q, and not %q", name, found, wanted)
		}
	}
}

func TestExamples(t *testing.T) { checkExamples(t) }

func TestGoroutines(t *testing.T) {
	var all sync.WaitGroup
	for range [16]int{} {
		all.Add(1)
		go func() {
			defer all.Done()
			checkExamples(t)
		}()
	}
	all.Wait()
}

func TestNoReply(t *testing.T) {
	for _, command := range []Command{0, 7, 255, 263} {
		if _, text, err := Reply(command, []byte("{}")); err != ErrNoCommand || text != nil {
			t.Errorf("command %d: %q, %v", command, text, err)
		}
	}
	if found := said(t, Verify, nil); found != "refused request\nstatus 2\n" {
		t.Errorf("no request: %q", found)
	}
}

const (
	files    = "../openssl/example/"
	identity = "https://example.com/workflow"
	issuer   = "https://issuer.example"
	now      = 1702512000 // 2023-12-14T00:00:00Z
)

// example runs the example over the signed bundle, and says the line and how it ended.
func example(identity string) string {
	words := []string{"run", "./example", files + "trusted_root.json", files + "bundle.json", files + "artifact", identity, issuer}
	text, err := exec.Command("go", append(words, fmt.Sprint(now))...).Output()
	return fmt.Sprintf("%s%v", text, err)
}

func TestExample(t *testing.T) {
	if found := example(identity); found != "verified 2 5\n<nil>" {
		t.Errorf("the example: %q", found)
	}
	if found := example("somebody else"); found != "refused policy\nexit status 1" {
		t.Errorf("somebody else: %q", found)
	}
}

// signed is the request of the signed bundle.
func signed(t *testing.T) []byte {
	policy := map[string]any{"all": []any{map[string]string{"identity": identity, "issuer": issuer}}}
	request, err := json.Marshal(map[string]any{
		"trustedRoot": expected(t, files+"trusted_root.json"), "bundle": expected(t, files+"bundle.json"), "now": now,
		"digest": fmt.Sprintf("sha256:%x", sha256.Sum256([]byte(expected(t, files+"artifact")))), "policy": policy,
	})
	if err != nil {
		t.Fatal(err)
	}
	return request
}

// TestSignatures has the rows of the bundle with one byte changed in one part: none is genuine, and as none is accepted
// that is not, each link that asks for one is refused.
func TestSignatures(t *testing.T) {
	_, listed, err := Reply(Verify.Questions(), signed(t))
	var rows []Row
	if err != nil || json.Unmarshal(listed, &rows) != nil || len(rows) != 5 {
		t.Fatal(string(listed), err)
	}
	for _, row := range rows {
		if !IsGenuineECDSA(row) {
			t.Errorf("not genuine: %v", row)
		}
		for _, part := range []*[]byte{&row.Key, &row.Message, &row.Signature} {
			kept := *part
			*part = append([]byte{}, kept...)
			(*part)[len(kept)-1] ^= 1
			if IsGenuineECDSA(row) {
				t.Errorf("genuine: %v", row)
			}
			*part = kept
		}
	}
	refused := map[string]string{"certificate": "issuer", "point": "sct", "message": "signature"}
	for operation, link := range refused {
		_, text, err := Checked(Verify, signed(t), func(row Row) bool { return row.Operation != operation && IsGenuineECDSA(row) })
		if err != nil || string(text) != "refused "+link+"\n" {
			t.Errorf("without %s: %q, %v", operation, text, err)
		}
	}
}

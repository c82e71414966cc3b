// Package sigverify gives the replies of sigverify's commands, by the library that adapters/c/build.py makes.
//
// It is proved of the library that a reply is the program's, as adapters/c/sigverify.h says. It is not proved that this
// package gives it the request. Several goroutines may make calls at once.
package sigverify

/*
#cgo CFLAGS: -I${SRCDIR}/../c
#cgo LDFLAGS: -L${SRCDIR}/../c/out -lsigverify -Wl,-rpath,${SRCDIR}/../c/out
#include "sigverify.h"
*/
import "C"

import (
	"bytes"
	"encoding/json"
	"errors"
	"fmt"
)

// A Command is what to reply to a request.
type Command uint32

const (
	Log         Command = C.SIGVERIFY_LOG
	Verify      Command = C.SIGVERIFY_VERIFY
	Consistency Command = C.SIGVERIFY_CONSISTENCY
	Audit       Command = C.SIGVERIFY_AUDIT
	Witness     Command = C.SIGVERIFY_WITNESS
	Gate        Command = C.SIGVERIFY_GATE
)

// Questions is the command that lists the signatures on which the reply of c can rest.
func (c Command) Questions() Command { return c | C.SIGVERIFY_QUESTIONS }

// Explain is the command whose reply is that of c, and after it one line, a JSON object that says why.
func (c Command) Explain() Command { return c | C.SIGVERIFY_EXPLAIN }

// A Status says what a reply is.
type Status int

const (
	Holds     Status = C.SIGVERIFY_HOLDS      // every link of the command holds, or the list of questions is there
	Refused   Status = C.SIGVERIFY_REFUSED    // the reply names the first link that does not hold, or some update or artifact is refused
	NoRequest Status = C.SIGVERIFY_NO_REQUEST // the request is not one of the command's, or too long
)

// Reasons for no reply.
var (
	ErrNoCommand = errors.New("sigverify: no command has this number")
	ErrNoMemory  = errors.New("sigverify: out of memory")
)

const firstRoom = 1 << 12 // for a reply; a list of questions and an explanation can be longer

// Reply returns what a command says to a request, with its status. Where err is not nil there is no reply.
func Reply(command Command, request []byte) (Status, []byte, error) {
	given := append(request[:len(request):len(request)], 0) // for its address, which is not nil
	for room := firstRoom; ; {
		text, written := make([]byte, room), C.size_t(0)
		status := C.sigverify_reply(C.uint32_t(command), (*C.uint8_t)(&given[0]), C.size_t(len(request)),
			(*C.uint8_t)(&text[0]), C.size_t(room), &written)
		switch {
		case status <= C.SIGVERIFY_NO_REQUEST:
			return Status(status), text[:written], nil
		case status == C.SIGVERIFY_NO_COMMAND:
			return 0, nil, ErrNoCommand
		case status == C.SIGVERIFY_NO_MEMORY:
			return 0, nil, ErrNoMemory
		case status != C.SIGVERIFY_NO_ROOM || int(written) <= room:
			return 0, nil, fmt.Errorf("sigverify: the library returned %d", status)
		}
		room = int(written)
	}
}

// A Row is a signature on which a reply can rest: docs/REQUESTS.md, "accepted".
type Row struct {
	Operation string `json:"operation"`
	Scheme    string `json:"scheme"`
	Key       []byte `json:"key"`
	Message   []byte `json:"message"`
	Signature []byte `json:"signature"`
}

// Checked returns what a command says to a request whose genuine signatures are accepted. An `accepted` in the request
// itself does not count, since of equal members the last one counts.
func Checked(command Command, request []byte, genuine func(Row) bool) (Status, []byte, error) {
	status, listed, err := Reply(command.Questions(), request)
	if err != nil || status != Holds {
		return status, listed, err
	}
	var rows []json.RawMessage
	if err := json.Unmarshal(listed, &rows); err != nil {
		return 0, nil, err
	}
	var accepted [][]byte
	for _, each := range rows {
		var row Row
		if json.Unmarshal(each, &row) == nil && genuine(row) {
			accepted = append(accepted, each)
		}
	}
	end := bytes.LastIndexByte(request, '}')
	answered := append([]byte{}, request[:end]...)
	if !bytes.HasSuffix(bytes.TrimRight(answered, " \t\r\n"), []byte("{")) {
		answered = append(answered, ',') // after the members that there are
	}
	answered = append(append(answered, `"accepted":[`...), bytes.Join(accepted, []byte(","))...)
	answered = append(append(answered, ']'), request[end:]...)
	return Reply(command, answered)
}

package door

import (
	"encoding/json"
	"io"
	"sync"
	"time"

	"pibroulez.example/pibroulez"
)

// How many refusals of one user are written at once at most, and one more after each second.
const mostAtOnce = 20

// How many users are remembered until all are forgotten, and how many bytes of each text are written.
const (
	mostUsers = 1024
	mostBytes = 256
)

// The log of refusals. A user that floods it has a few of its refusals in it, and how many more there were.
type refusals struct {
	mutex sync.Mutex
	to    io.Writer
	users map[uint32]*allowance
}

// How many refusals of a user may be written, as of a moment, and how many weren't.
type allowance struct {
	left   float64
	at     time.Time
	unsaid uint64
}

// A refusal as it is written.
type refusal struct {
	Time    string `json:"time"`
	Refused string `json:"refused"`
	User    uint32 `json:"user"`
	Group   uint32 `json:"group"`
	Process int32  `json:"process"`
	Do      string `json:"do,omitempty"`
	// Namespace and Key are those of the line, where it has them as texts.
	Namespace string `json:"ns,omitempty"`
	Key       string `json:"key,omitempty"`
	// Unsaid is how many refusals of this user before it aren't written.
	Unsaid uint64 `json:"unsaid,omitempty"`
}

// Writes a refusal. The error is that of the write; one that isn't to be written has none.
func (r *refusals) tell(now time.Time, peer Peer, name pibroulez.Reason, line pibroulez.Line) error {
	r.mutex.Lock()
	defer r.mutex.Unlock()
	a := r.of(peer.User, now)
	if a.left < 1 {
		a.unsaid++
		return nil
	}
	a.left--
	it := refusal{
		Time: now.UTC().Format(time.RFC3339Nano), Refused: string(name), User: peer.User, Group: peer.Group, Process: peer.Process,
		Do: cut(line.Do), Namespace: textOf(line.Members["ns"]), Key: textOf(line.Members["key"]), Unsaid: a.unsaid,
	}
	text, err := json.Marshal(it)
	if err != nil {
		return err
	}
	if _, err := r.to.Write(append(text, '\n')); err != nil {
		a.unsaid++
		return err
	}
	a.unsaid = 0
	return nil
}

// What a user may have written at a moment.
func (r *refusals) of(user uint32, now time.Time) *allowance {
	a := r.users[user]
	if a == nil {
		if len(r.users) >= mostUsers {
			r.users = map[uint32]*allowance{}
		}
		a = &allowance{left: mostAtOnce, at: now}
		r.users[user] = a
	}
	if passed := now.Sub(a.at).Seconds(); passed > 0 {
		a.left, a.at = a.left+passed, now
	}
	if a.left > mostAtOnce {
		a.left = mostAtOnce
	}
	return a
}

func textOf(value json.RawMessage) string {
	var text string
	if !isText(value) || json.Unmarshal(value, &text) != nil {
		return ""
	}
	return cut(text)
}

// The beginning of a text. A character that is cut is written as one that is none.
func cut(text string) string {
	if len(text) > mostBytes {
		return text[:mostBytes]
	}
	return text
}

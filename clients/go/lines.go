package pibroulez

import (
	"bytes"
	"context"
	"encoding/json"
	"fmt"
	"unicode/utf8"
)

// A Line is the line of a command without an id, as docs/SCRIPT.md has it: its word, and its other members with their
// texts in JSON. It is for who hands on the lines of others.
type Line struct {
	Do      string
	Members map[string]json.RawMessage
}

// IsQuestion says whether the line changes nothing and makes no entry. A word that isn't known makes one.
func (l Line) IsQuestion() bool {
	flags := fields{}
	for _, name := range []string{"try", "quiet", "chain"} {
		flags[name] = string(l.Members[name]) == "true"
	}
	return makesNoEntry(l.Do, flags)
}

// A Sent is a line on its way.
type Sent struct {
	store *Store
	call  *call
}

// Send sends a line, and doesn't wait for its answer. Those that one goroutine sends are carried out in this order, each
// where its place is; so one that is ErrJournalFull isn't made once more, whatever RollWhenFull says.
//
// The error is ErrReserved where a member is `do` or `id`, ErrNotText where a text is not UTF-8, that of json.Marshal where
// a member is no JSON, syscall.ENOSPC or syscall.EDQUOT where the log has no room, the context's where it ends before the
// line is sent, ErrDied or ErrClosed. Nothing is sent then.
func (s *Store) Send(ctx context.Context, line Line) (*Sent, error) {
	c, err := line.call()
	if err == nil {
		err = s.post(ctx, c)
	}
	if err != nil {
		return nil, fmt.Errorf("%s: %w", line.Do, err)
	}
	return &Sent{s, c}, nil
}

// Answer waits for the answer, and tells its text, without its id: that of a refusal or of a fault too. The error is the
// context's where it ends before, ErrDied or ErrClosed. It is called once.
func (s *Sent) Answer(ctx context.Context) ([]byte, error) {
	text, err := s.store.wait(ctx, s.call)
	return bytes.TrimSuffix(text, []byte("\n")), err
}

// IsAnswered says whether Answer need not wait.
func (s *Sent) IsAnswered() bool { return len(s.call.answer) > 0 }

func (l Line) call() (*call, error) {
	members := map[string]any{"do": l.Do}
	for name, text := range l.Members {
		if name == "do" || name == "id" {
			return nil, fmt.Errorf("%w: %s", ErrReserved, name)
		}
		if !utf8.ValidString(name) || !utf8.Valid(text) {
			return nil, ErrNotText
		}
		members[name] = text
	}
	if !utf8.ValidString(l.Do) {
		return nil, ErrNotText
	}
	// Without the escapes for HTML, so that a line becomes no longer. It ends with its line feed.
	var line bytes.Buffer
	encoder := json.NewEncoder(&line)
	encoder.SetEscapeHTML(false)
	if err := encoder.Encode(members); err != nil {
		return nil, err
	}
	return &call{do: l.Do, line: line.Bytes(), isLookup: l.IsQuestion()}, nil
}

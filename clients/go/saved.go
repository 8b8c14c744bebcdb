package pibroulez

import (
	"bufio"
	"bytes"
	"context"
	"encoding/json"
	"fmt"
	"io"
	"unicode/utf8"
)

// SavedPage is a page of the lines of a saved store.
type SavedPage struct {
	// Lines are the lines in order, each without its line feed.
	Lines []json.RawMessage `json:"lines"`
	// Next is the number after which the next page comes, or 0 where this is the last one.
	Next uint64 `json:"next"`
}

// Save tells a page of the lines of the saved store: those after a number, and of these the first max, 1 to 1024, or 1024
// where it is 0. After 0 the store is saved as it is. A page after the Next of another is of the store as it was then,
// whatever calls came between. It makes no entry.
//
// It is ErrBadArgument where no page comes after this number. A store has the lines of the last Save after 0 alone, so this
// is also what another caller's leaves of the pages before it. After 0 it is ErrJournalFull or ErrNumbersSpent where Roll to
// as many entries would be: the lines couldn't be restored.
func (s *Store) Save(ctx context.Context, after uint64, max int) (SavedPage, error) {
	given := fields{"after": after}
	if max != 0 {
		given["max"] = max
	}
	var page SavedPage
	err := s.call(ctx, "save", given, nil, &page)
	return page, err
}

// SaveAll saves the store as it is, and calls a function with each line, in order, page by page. Each is a text without its
// line feed, which Restore takes. It ends at the function's first error, and hands it on; the function may make calls. Where
// it has an error, the lines so far are no saved store: Restore tells that the last one is missing.
func (s *Store) SaveAll(ctx context.Context, visit func(line json.RawMessage) error) error {
	for after := uint64(0); ; {
		page, err := s.Save(ctx, after, 0)
		if err != nil {
			return err
		}
		for _, line := range page.Lines {
			if err := visit(line); err != nil {
				return err
			}
		}
		if after = page.Next; after == 0 {
			return nil
		}
	}
}

// How many lines of a saved store are sent before the first is answered, and how many bytes one of them has at most. The
// program takes no longer one.
const (
	mostRestoring  = 512
	mostSavedBytes = 16 << 20
)

// Restore starts the process, and has it make the store that lines tell, as SaveAll gives them: each is a line of the
// reader, where empty ones don't count. Where path isn't empty it is that of a log, in which the store goes on. The log may
// have no store yet; it may have lines of one that was restored without success.
//
// The error is a *Refusal, ErrBadRestore, with the reason in Why, ErrNotSaved or ErrNotText, each after the number of the
// line that isn't taken; io.ErrUnexpectedEOF where the last line is missing; the reader's; and those of New. A log may have
// the lines so far then, which Open refuses as a *BadLog, and Restore begins anew. Only where the last line was refused no
// store can be made in it any more, so it is to be removed. Where something stands behind the last line, the error is that of
// its line, a *Fault or ErrNotSaved, and a log has the store.
func Restore(ctx context.Context, program, path string, lines io.Reader) (*Store, error) {
	return Config{Program: program, Log: path}.begin(ctx, func(store *Store, has bool) error {
		if has {
			return isThere(path)
		}
		if first := store.log.firstLine(); len(first) > 0 {
			if _, err := savedLineIn(first); err != nil {
				return store.log.checkNoLines()
			}
		}
		if err := store.restore(ctx, lines); err != nil {
			return fmt.Errorf("restore: %w", err)
		}
		return nil
	})
}

// A line of a saved store on its way.
type restoring struct {
	number int
	sent   *Sent
}

// Waits until it is taken.
func (l restoring) take(ctx context.Context) error {
	text, err := l.sent.Answer(ctx)
	if err == nil {
		err = refused(text)
	}
	if err != nil {
		return fmt.Errorf("line %d: %w", l.number, err)
	}
	return nil
}

// Sends the lines, and waits until the store is there that they make.
func (s *Store) restore(ctx context.Context, lines io.Reader) error {
	input := bufio.NewScanner(lines)
	input.Buffer(nil, mostSavedBytes)
	var waiting []restoring
	var unsent error
	for number := 1; unsent == nil && input.Scan(); number++ {
		if len(bytes.TrimSpace(input.Bytes())) == 0 {
			continue
		}
		sent, err := s.sendSaved(ctx, input.Bytes())
		if err != nil {
			unsent = fmt.Errorf("line %d: %w", number, err)
		} else if waiting = append(waiting, restoring{number, sent}); len(waiting) == mostRestoring {
			if err := waiting[0].take(ctx); err != nil {
				return err
			}
			waiting = waiting[1:]
		}
	}
	// A line that isn't taken comes before one that wasn't sent, or read.
	for _, it := range waiting {
		if err := it.take(ctx); err != nil {
			return err
		}
	}
	if unsent == nil {
		unsent = input.Err()
	}
	if unsent != nil {
		return unsent
	}
	has, err := s.isOpen(ctx)
	if err == nil && !has {
		err = io.ErrUnexpectedEOF
	}
	return err
}

func (s *Store) sendSaved(ctx context.Context, text []byte) (*Sent, error) {
	line, err := savedLineIn(text)
	if err != nil {
		return nil, err
	}
	c, err := line.call()
	if err != nil {
		return nil, err
	}
	return &Sent{s, c}, s.post(ctx, c)
}

// The line of a saved store that a text is. The error is ErrNotText or ErrNotSaved.
func savedLineIn(text []byte) (Line, error) {
	if !utf8.Valid(text) {
		return Line{}, ErrNotText
	}
	var line Line
	if err := json.Unmarshal(text, &line.Members); err != nil {
		return Line{}, fmt.Errorf("%w: %v", ErrNotSaved, err)
	}
	if json.Unmarshal(line.Members["do"], &line.Do) != nil || line.Do != "restore" {
		return Line{}, ErrNotSaved
	}
	delete(line.Members, "do")
	return line, nil
}

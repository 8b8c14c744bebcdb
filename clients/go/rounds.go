package pibroulez

import (
	"context"
	"errors"
	"fmt"
	"sync/atomic"
)

// The rounds of the journal that a client begins.
type rounds struct {
	// Whether a call that is ErrJournalFull begins one, and of how many entries.
	whenFull atomic.Bool
	journal  atomic.Uint64
	// How many may have begun.
	begun atomic.Uint64
	// Has an element while one is begun.
	turn chan struct{}
}

// RollWhenFull lets each call from now on that is ErrJournalFull roll the journal, as Roll does with this number of
// entries, and be made once more. Any number of calls that find one round full roll it once.
//
// The entries of the round are gone then, and so are its sessions: a call in another session than 0 is ErrNoSession
// until Session has opened it anew. Where the roll is refused, the call is still ErrJournalFull, and tells that refusal.
func (s *Store) RollWhenFull(journal uint64) {
	s.rounds.journal.Store(journal)
	s.rounds.whenFull.Store(true)
}

// Begins a round by `reopen` or `roll`.
func (s *Store) begin(ctx context.Context, do string, journal uint64) error {
	return s.inTurn(ctx, func() error { return s.beginInTurn(ctx, do, journal) })
}

// Rolls the journal for a call that found it full, where no round has begun since. Whether one is rolled.
func (s *Store) rollAfter(ctx context.Context, begun uint64) (rolled bool, err error) {
	err = s.inTurn(ctx, func() error {
		if rolled = s.rounds.begun.Load() == begun; !rolled {
			return nil
		}
		return s.beginInTurn(ctx, "roll", s.rounds.journal.Load())
	})
	return rolled, err
}

func (s *Store) inTurn(ctx context.Context, begin func() error) error {
	select {
	case s.rounds.turn <- struct{}{}:
		defer func() { <-s.rounds.turn }()
		return begin()
	case <-ctx.Done():
		return ctx.Err()
	}
}

func (s *Store) beginInTurn(ctx context.Context, do string, journal uint64) error {
	given := fields{}
	if journal != 0 {
		given["journal"] = journal
	}
	err := s.call(ctx, do, given, nil, nil)
	// Where the context has ended, one may have begun: who finds the journal full then asks once more before a roll.
	if refusal := new(Refusal); !errors.As(err, &refusal) {
		s.rounds.begun.Add(1)
	}
	return err
}

// The answer to a call. Where the journal is full for it and is to be rolled then, it is made once more after that, and so is
// one that the log couldn't keep and may keep now.
func (s *Store) answerTo(ctx context.Context, c call) ([]byte, error) {
	for rolled, again := false, false; ; {
		begun := s.rounds.begun.Load()
		text, err := s.exchange(ctx, c)
		if err == nil {
			err = refused(text)
		}
		if !again && errors.Is(err, ErrNotKept) && s.log.mayKeepNext(c) {
			again = true
			continue
		}
		if rolled || !errors.Is(err, ErrJournalFull) || !s.rounds.whenFull.Load() || isOfNextRound[c.do] {
			return text, err
		}
		var failed error
		rolled, failed = s.rollAfter(ctx, begun)
		if refusal := new(Refusal); errors.As(failed, &refusal) {
			return nil, fmt.Errorf("%w: %v", err, failed)
		} else if failed != nil {
			return nil, failed
		}
	}
}

// Commands that don't find a round full: for these it is the next one that lacks an entry.
var isOfNextRound = map[string]bool{"open": true, "reopen": true, "roll": true, "save": true}

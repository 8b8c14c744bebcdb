package pibroulez

import (
	"context"
	"fmt"
	"os"
	"strings"
	"sync"
	"testing"
)

// A store with a log, whose journal of this many entries is full: a snapshot is active, whose discard keeps the last
// one.
func fullStore(t *testing.T, entries uint64) (*Store, string) {
	t.Helper()
	config := loggedConfig(logPath(t))
	config.Journal = entries
	store := newStoreOf(t, config)
	must[Prepared](t)(store.Prepare(ctx, "a", "k", ""))
	for entry := uint64(3); entry < entries; entry++ {
		must[uint64](t)(store.Session(ctx))
	}
	_, err := store.Session(ctx)
	isError(t, err, ErrJournalFull)
	return store, config.Log
}

func rolls(t *testing.T, path string) int {
	t.Helper()
	lines, err := os.ReadFile(path)
	granted(t, err)
	return strings.Count(string(lines), `{"do":"roll"`)
}

// Of calls that find the journal full at once all are made, after one roll, and so is a commit that it has sealed.
func TestRollWhenFull(t *testing.T) {
	store, path := fullStore(t, 4)
	store.RollWhenFull(0)
	var group sync.WaitGroup
	for n := 0; n < 32; n++ {
		key := fmt.Sprint(n)
		group.Add(1)
		go func() {
			defer group.Done()
			if _, err := store.Prepare(ctx, "a", key, ""); err != nil {
				t.Error(err)
			}
		}()
	}
	group.Wait()
	equal(t, rolls(t, path), 1)
	equal(t, must[Report](t)(store.Report(ctx)).Open, 33)
	_, err := store.Stat(ctx, "a", "k", WithEntry(), WithSession(1))
	isError(t, err, ErrNoSession)
	granted(t, store.Close())
	equal(t, must[Report](t)(reopen(t, path).Report(ctx)).Open, 33)

	// Beside its first entry a round of three has room for the commit, or for the prepare and the discard that it keeps.
	store, path = fullStore(t, 3)
	store.RollWhenFull(3)
	for n := 0; n < 10; n++ {
		must[Committed](t)(store.Commit(ctx, "a", "k", fmt.Sprint(n)))
		must[Prepared](t)(store.Prepare(ctx, "a", "k", ""))
	}
	equal(t, rolls(t, path), 20)
}

// A roll is refused where the new journal has no entry for the end of what is active, and isn't made for who doesn't
// wait for it.
func TestNoRoll(t *testing.T) {
	store, path := fullStore(t, 3)
	_, err := store.Session(ctx)
	isError(t, err, ErrJournalFull)
	store.RollWhenFull(1)
	_, err = store.Session(ctx)
	isError(t, err, ErrJournalFull)
	if !strings.Contains(err.Error(), "roll: JournalFull") {
		t.Errorf("%v: it doesn't tell of the roll", err)
	}
	store.rounds.turn <- struct{}{}
	ended, cancel := context.WithCancel(ctx)
	go cancel()
	isError(t, store.Roll(ended, 0), context.Canceled)
	<-store.rounds.turn
	equal(t, rolls(t, path), 1)
	equal(t, must[Report](t)(store.Report(ctx)).Open, 1)
}

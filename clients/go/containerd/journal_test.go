package containerd

import (
	"context"
	"errors"
	"fmt"
	"os"
	"path/filepath"
	"strings"
	"testing"

	"github.com/containerd/containerd/snapshots"

	"pibroulez.example/pibroulez"
)

// How many entries a round of these tests has, and how many calls of each kind they make.
const (
	fewEntries = 40
	manyCalls  = 10_000
)

// A root in memory, where there is such a file system: the calls of these tests are many, and each is synced.
func rootInMemory(t *testing.T) string {
	t.Helper()
	root, err := os.MkdirTemp("/dev/shm", "pibroulez-")
	if err != nil {
		return t.TempDir()
	}
	t.Cleanup(func() { os.RemoveAll(root) })
	return root
}

// A snapshotter whose rounds have few entries.
func newWithFewEntries(t *testing.T, root string) *Snapshotter {
	t.Helper()
	s, err := New(ctx, Config{Program: program(), Root: root, journal: fewEntries})
	granted(t, err)
	t.Cleanup(func() { s.Close() })
	return s
}

// With rounds of 40 entries, and a snapshot active all the time, no number of calls is too much. Questions make no entry.
func TestManyCallsInFewEntries(t *testing.T) {
	t.Parallel()
	root := rootInMemory(t)
	s := newWithFewEntries(t, root)
	commit(t, s, "base", "")
	_, err := s.Prepare(ctx, "active", "base")
	granted(t, err)
	before, err := s.store.Report(ctx)
	granted(t, err)
	for n := 0; n < manyCalls; n++ {
		askEach(t, s, "active")
	}
	after, err := s.store.Report(ctx)
	granted(t, err)
	if after.Entries != before.Entries {
		t.Errorf("%d entries after questions, and %d before", after.Entries, before.Entries)
	}
	for n := 0; n < manyCalls; n++ {
		changeEach(t, s, n)
	}
	if mounts, err := s.Mounts(ctx, "active"); err != nil || len(mounts) != 1 {
		t.Errorf("%v, %v: mounts of what was active all the time", mounts, err)
	}
}

// Asks for a snapshot in each way.
func askEach(t *testing.T, s *Snapshotter, key string) {
	t.Helper()
	_, err := s.Stat(ctx, key)
	granted(t, err)
	_, err = s.Usage(ctx, key)
	granted(t, err)
	_, err = s.Mounts(ctx, key)
	granted(t, err)
	granted(t, s.Walk(ctx, func(context.Context, snapshots.Info) error { return nil }))
}

// Makes each call that changes something.
func changeEach(t *testing.T, s *Snapshotter, n int) {
	t.Helper()
	key, name := fmt.Sprint("key-", n), fmt.Sprint("name-", n)
	_, err := s.Prepare(ctx, key, "base")
	granted(t, err)
	_, err = s.Update(ctx, snapshots.Info{Name: key, Labels: map[string]string{"x": "1"}})
	granted(t, err)
	granted(t, s.Commit(ctx, name, key))
	_, err = s.View(ctx, key, name)
	granted(t, err)
	granted(t, s.Remove(ctx, key))
	granted(t, s.Remove(ctx, name))
}

// Where a snapshotter was ended with a full journal, it is made again, asks, and changes what it is to.
func TestRestartWithAFullJournal(t *testing.T) {
	root := rootInMemory(t)
	s := newWithFewEntries(t, root)
	commit(t, s, "base", "")
	_, err := s.Prepare(ctx, "active", "base")
	granted(t, err)
	granted(t, s.Close())
	onStore(t, root, func(store *pibroulez.Store) {
		for err == nil {
			_, err = store.Stat(ctx, Namespace, "active", pibroulez.WithEntry())
		}
		if !errors.Is(err, pibroulez.ErrJournalFull) {
			t.Fatalf("%v, not a full journal", err)
		}
	})

	s = newWithFewEntries(t, root)
	askEach(t, s, "active")
	for n := 0; n < fewEntries; n++ {
		changeEach(t, s, n)
	}
	granted(t, s.Remove(ctx, "active"))
	granted(t, s.Remove(ctx, "base"))
}

// Makes calls of the store of a root, as one that has no snapshotter.
func onStore(t *testing.T, root string, do func(store *pibroulez.Store)) {
	t.Helper()
	store, err := pibroulez.Open(ctx, program(), filepath.Join(root, "calls.jsonl"))
	granted(t, err)
	do(store)
	granted(t, store.Close())
}

// A snapshotter's log is made short, also where it has no `format` and a crash has left the beginning of a checkpoint.
func TestShortLog(t *testing.T) {
	root := t.TempDir()
	path := filepath.Join(root, LogFile)
	config := Config{Program: program(), Root: root, Checkpoint: 1}
	s, err := New(ctx, config)
	granted(t, err)
	commit(t, s, "base", "")
	_, err = s.Prepare(ctx, "k", "base")
	granted(t, err)
	label := map[string]string{"x": strings.Repeat("x", 4000)}
	for n := 0; pibroulez.CountingLog(path) == path; n++ {
		_, err := s.Update(ctx, snapshots.Info{Name: "k", Labels: label})
		granted(t, err)
		if n == 1000 {
			t.Fatal("the log isn't made short")
		}
	}
	info, err := s.Stat(ctx, "k")
	granted(t, err)
	granted(t, s.Close())
	file, err := os.OpenFile(path, os.O_WRONLY, 0)
	granted(t, err)
	_, err = file.WriteAt([]byte{0}, 0)
	granted(t, err)
	granted(t, file.Close())
	granted(t, os.Remove(filepath.Join(root, formatFile)))
	s, err = New(ctx, config)
	granted(t, err)
	defer s.Close()
	found, err := s.Stat(ctx, "k")
	granted(t, err)
	if found.Labels["x"] != label["x"] || !found.Created.Equal(info.Created) {
		t.Errorf("%+v, not %+v", found, info)
	}
	granted(t, s.Commit(ctx, "top", "k"))
}

package containerd

import (
	"context"
	"errors"
	"fmt"
	"os"
	"os/exec"
	"path/filepath"
	"strings"
	"testing"

	"github.com/containerd/containerd/errdefs"
	"github.com/containerd/containerd/snapshots"

	"pibroulez.example/pibroulez"
)

// Makes a root with a committed snapshot `base` of id 1, on it the active ones `b` and `c` of ids 2 and 3 and a view of
// id 4, and in each directory a file with the key of its snapshot.
func rootWithFour(t *testing.T) string {
	t.Helper()
	root := t.TempDir()
	s := newSnapshotter(t, root)
	_, err := s.Prepare(ctx, "a", "")
	granted(t, err)
	granted(t, s.Commit(ctx, "base", "a"))
	for _, key := range []string{"b", "c"} {
		_, err := s.Prepare(ctx, key, "base")
		granted(t, err)
	}
	_, err = s.View(ctx, "view", "base")
	granted(t, err)
	for id, key := range map[int]string{1: "base", 2: "b", 3: "c", 4: "view"} {
		granted(t, os.WriteFile(inRoot(root, id, "fs", "own"), []byte(key), 0o600))
	}
	granted(t, s.Close())
	return root
}

func inRoot(root string, id any, below ...string) string {
	return filepath.Join(append([]string{root, "snapshots", fmt.Sprint(id)}, below...)...)
}

// Expects that the snapshotter isn't made, for the reason that the directories aren't the store's, that the error has
// these words, and that each of these files is as it was.
func expectMismatch(t *testing.T, root string, words []string, kept map[string]string) {
	t.Helper()
	s, err := New(ctx, Config{Program: program(), Root: root})
	if err == nil {
		s.Close()
		t.Fatal("it is served")
	}
	if !errors.Is(err, ErrMismatch) {
		t.Fatalf("%v, no mismatch", err)
	}
	for _, it := range words {
		if !strings.Contains(err.Error(), it) {
			t.Errorf("%v, without %q", err, it)
		}
	}
	for path, text := range kept {
		if found, err := os.ReadFile(path); err != nil || string(found) != text {
			t.Errorf("%q, %v: %s", found, err, path)
		}
	}
}

// The files of rootWithFour.
func ownFiles(root string) map[string]string {
	return map[string]string{
		inRoot(root, 1, "fs", "own"): "base", inRoot(root, 2, "fs", "own"): "b",
		inRoot(root, 3, "fs", "own"): "c", inRoot(root, 4, "fs", "own"): "view",
	}
}

// Each directory has its snapshot's key beside `fs`, and that of a committed one its name too.
func TestKeysOfDirectories(t *testing.T) {
	root := rootWithFour(t)
	for id, wanted := range map[int]string{
		1: `{"id":1,"key":"a","name":"base"}`, 2: `{"id":2,"key":"b"}`, 4: `{"id":4,"key":"view"}`,
	} {
		text, err := os.ReadFile(inRoot(root, id, "key"))
		granted(t, err)
		if string(text) != wanted+"\n" {
			t.Errorf("%q, not %s", text, wanted)
		}
	}
}

// Where a directory has another snapshot's key, or none, or isn't there though its snapshot is committed, or has a key
// and no snapshot, nothing is served and nothing removed, and the error names both.
func TestMismatches(t *testing.T) {
	for name, it := range map[string]struct {
		change func(root string) error
		words  []string
		gone   int
	}{
		"swapped": {func(root string) error {
			aside := filepath.Join(root, "aside")
			return first(os.Rename(inRoot(root, 2, "key"), aside),
				os.Rename(inRoot(root, 3, "key"), inRoot(root, 2, "key")), os.Rename(aside, inRoot(root, 3, "key")))
		}, []string{"snapshots/2", "snapshots/3", `"b"`, `"c"`}, 0},
		"no key": {func(root string) error { return os.Remove(inRoot(root, 3, "key")) },
			[]string{"snapshots/3", "no key", `"c"`}, 0},
		"zeros": {func(root string) error { return os.WriteFile(inRoot(root, 4, "key"), make([]byte, 4096), 0o600) },
			[]string{"snapshots/4", "no key", `"view"`}, 0},
		"another name": {func(root string) error {
			return os.WriteFile(inRoot(root, 1, "key"), []byte(`{"id":1,"key":"base","name":"other"}`), 0o600)
		}, []string{"snapshots/1", `"base"`, `"other"`}, 0},
		"another id": {func(root string) error {
			return os.WriteFile(inRoot(root, 2, "key"), []byte(`{"id":3,"key":"b"}`), 0o600)
		}, []string{"snapshots/2", "id 3"}, 0},
		"committed and missing": {func(root string) error { return os.RemoveAll(inRoot(root, 1)) },
			[]string{"snapshots/1", "missing", `"base"`}, 1},
		"no fs": {func(root string) error { return os.RemoveAll(inRoot(root, 4, "fs")) },
			[]string{"snapshots/4", "no fs", `"view"`}, 4},
		"a file": {func(root string) error {
			return first(os.RemoveAll(inRoot(root, 2)), os.WriteFile(inRoot(root, 2), nil, 0o600))
		}, []string{"snapshots/2", `"b"`}, 2},
		"no snapshot": {func(root string) error {
			return first(os.Mkdir(inRoot(root, 9), 0o700),
				os.WriteFile(inRoot(root, 9, "key"), []byte(`{"id":9,"key":"lost"}`), 0o600))
		}, []string{"snapshots/9", `"lost"`}, 0},
		"no log": {func(root string) error { return os.Remove(filepath.Join(root, "calls.jsonl")) },
			[]string{"snapshots/1", "snapshots/2", "snapshots/3", "snapshots/4", `"b"`}, 0},
	} {
		t.Run(name, func(t *testing.T) {
			root := rootWithFour(t)
			granted(t, it.change(root))
			kept := ownFiles(root)
			delete(kept, inRoot(root, it.gone, "fs", "own"))
			expectMismatch(t, root, it.words, kept)
			if it.gone != 0 {
				if has, err := exists(inRoot(root, it.gone, "fs")); has || err != nil {
					t.Errorf("%v, %v: a missing directory", has, err)
				}
			}
		})
	}
}

// What a crash leaves between any two steps of a call is neither refused nor served from another directory.
func TestCrashBetweenSteps(t *testing.T) {
	commitIn := func(store *pibroulez.Store) {
		_, err := store.Commit(ctx, Namespace, "b", "new")
		granted(t, err)
	}
	discardIn := func(store *pibroulez.Store) {
		_, err := store.Discard(ctx, Namespace, "b")
		granted(t, err)
	}
	none := func(*pibroulez.Store) {}
	named := func(root string) error { return record{ID: 2, Key: "b", Name: "new"}.write(inRoot(root, 2)) }
	marked := func(root string) error { return markRemoving(inRoot(root, 2)) }
	for name, it := range map[string]struct {
		change func(root string) error
		calls  func(store *pibroulez.Store)
		// What directory 2 is then: the key that its snapshot has, or empty for none.
		key string
	}{
		"commit a record begun": {func(root string) error {
			return os.WriteFile(inRoot(root, 2, "key.new"), []byte(`{"id":2,"ke`), 0o600)
		}, none, "b"},
		"commit named":  {named, none, "b"},
		"commit made":   {named, commitIn, "new"},
		"remove marked": {marked, none, "b"},
		"remove made":   {marked, discardIn, ""},
		"remove taken its name away": {func(root string) error {
			return first(marked(root), os.Rename(inRoot(root, 2), inRoot(root, "removed-2")))
		}, discardIn, ""},
	} {
		t.Run(name, func(t *testing.T) {
			root := rootWithFour(t)
			granted(t, it.change(root))
			onStore(t, root, it.calls)
			s := newSnapshotter(t, root)
			expectOwn(t, s, root)
			found := infos(t, s)
			if it.key == "" {
				if len(found) != 3 {
					t.Errorf("%v after a removal", found)
				}
				granted(t, s.Cleanup(ctx))
				expectNames(t, root, "1", "3", "4")
				return
			}
			if _, err := s.Stat(ctx, it.key); err != nil || len(found) != 4 {
				t.Errorf("%v: %v in %v", err, it.key, found)
			}
			expectNames(t, root, "1", "2", "3", "4")
			granted(t, s.Remove(ctx, it.key))
		})
	}
}

// Expects that each directory of a snapshot has the file of rootWithFour with the key of it.
func expectOwn(t *testing.T, s *Snapshotter, root string) {
	t.Helper()
	nodes, err := s.store.Tree(ctx, Namespace)
	granted(t, err)
	for _, node := range nodes {
		text, err := os.ReadFile(inRoot(root, node.ID, "fs", "own"))
		granted(t, err)
		if key := string(text); key != node.Key && !(key == "b" && node.Key == "new") {
			t.Errorf("%q is served from the directory of %q", node.Key, key)
		}
	}
}

// Expects these names of directories, and no other.
func expectNames(t *testing.T, root string, wanted ...string) {
	t.Helper()
	entries, err := os.ReadDir(filepath.Join(root, "snapshots"))
	granted(t, err)
	var names []string
	for _, entry := range entries {
		names = append(names, entry.Name())
	}
	if fmt.Sprint(names) != fmt.Sprint(wanted) {
		t.Errorf("directories %v, not %v", names, wanted)
	}
}

// A crash after the store has made a snapshot and before its directory is there, which then is made, with its key; and
// what is left of one that was being made goes.
func TestCrashOfPrepare(t *testing.T) {
	root := rootWithFour(t)
	onStore(t, root, func(store *pibroulez.Store) {
		_, err := store.Prepare(ctx, Namespace, "d", "base")
		granted(t, err)
	})
	granted(t, os.MkdirAll(inRoot(root, "new-123", "fs"), 0o700))
	s := newSnapshotter(t, root)
	granted(t, s.Cleanup(ctx))
	expectNames(t, root, "1", "2", "3", "4", "5")
	r, found, _, err := readRecord(inRoot(root, 5))
	if err != nil || !found || r != (record{ID: 5, Key: "d"}) {
		t.Errorf("%v, %v, %v", r, found, err)
	}
	granted(t, s.Commit(ctx, "on base", "d"))
}

// A commit that is refused leaves the key alone.
func TestKeyAfterARefusedCommit(t *testing.T) {
	root := rootWithFour(t)
	s := newSnapshotter(t, root)
	if err := s.Commit(ctx, "base", "b"); !errdefs.IsAlreadyExists(err) {
		t.Errorf("%v, not taken", err)
	}
	if r, _, _, err := readRecord(inRoot(root, 2)); err != nil || r != (record{ID: 2, Key: "b"}) {
		t.Errorf("%v, %v", r, err)
	}
	if err := s.Remove(ctx, "base"); !errdefs.IsFailedPrecondition(err) {
		t.Errorf("%v, no children", err)
	}
	if _, found, isRemoving, err := readRecord(inRoot(root, 1)); err != nil || !found || isRemoving {
		t.Errorf("%v, %v, %v: a snapshot that stays", found, isRemoving, err)
	}
}

// A log with one flipped bit is told. Where it is taken as it is, also such that a refused call is granted, no snapshot is
// served from the directory of another, and no directory goes.
func TestFlippedBits(t *testing.T) {
	t.Parallel()
	root := t.TempDir()
	s := newSnapshotter(t, root)
	_, err := s.Prepare(ctx, "a", "")
	granted(t, err)
	granted(t, s.Commit(ctx, "base", "a"))
	if _, err := s.Prepare(ctx, "s-a", "bare"); !errdefs.IsNotFound(err) {
		t.Fatalf("%v, not refused", err)
	}
	own := map[string]string{"1": "base", "2": "s-b", "3": "s-c"}
	for _, key := range []string{"s-b", "s-c"} {
		_, err := s.Prepare(ctx, key, "base")
		granted(t, err)
	}
	for id, key := range own {
		granted(t, os.WriteFile(inRoot(root, id, "fs", "own"), []byte(key), 0o600))
	}
	granted(t, s.Close())
	path := filepath.Join(root, "calls.jsonl")
	text, err := os.ReadFile(path)
	granted(t, err)
	flip := func(at int, bit byte) {
		changed := append([]byte{}, text...)
		changed[at] ^= bit
		granted(t, os.WriteFile(path, changed, 0o600))
	}
	// What has no lines that can be read is refused still.
	rebase := func() error {
		return exec.Command(program(), "serve", "--log", path, "--rebase", "--checkpoint", "0").Run()
	}
	// The parent `bare` becomes `base`.
	flip(strings.Index(string(text), "bare")+2, 1)
	if _, err := New(ctx, Config{Program: program(), Root: root}); !errors.As(err, new(*pibroulez.BadLog)) {
		t.Errorf("%v, not told", err)
	}
	granted(t, rebase())
	expectMismatch(t, root, []string{"snapshots/2", `"s-a"`, `"s-b"`, "snapshots/3", `"s-c"`}, nil)
	tried, refused := 0, 0
	for at := strings.IndexByte(string(text), '\n'); at < len(text); at += 3 {
		flip(at, 1<<(at%8))
		tried++
		_ = rebase()
		if !isServedRight(t, root, own) {
			refused++
		}
	}
	// Two bytes of three are of marks, whatever they are then.
	if refused < tried/8 {
		t.Errorf("of %d logs with a flipped bit %d are refused", tried, refused)
	}
}

// Whether a snapshotter is made of a root whose log may be damaged. Where it is, each snapshot has its own directory or
// an empty one; each directory is there anyway.
func isServedRight(t *testing.T, root string, own map[string]string) bool {
	t.Helper()
	s, err := New(ctx, Config{Program: program(), Root: root})
	if err == nil {
		granted(t, s.Walk(ctx, func(_ context.Context, info snapshots.Info) error {
			node, err := s.store.Stat(ctx, Namespace, info.Name)
			granted(t, err)
			key, isOwn := own[fmt.Sprint(node.ID)]
			if isOwn && key != info.Name {
				t.Errorf("%q is served from the directory of %q", info.Name, key)
			}
			return nil
		}))
		granted(t, s.Close())
	}
	for id, key := range own {
		if found, err := os.ReadFile(inRoot(root, id, "fs", "own")); err != nil || string(found) != key {
			t.Fatalf("%q, %v: the directory of %q", found, err, key)
		}
	}
	return err == nil
}

// The directories of a root of version 0.1.0 have no keys. They are taken as they are, once, and have keys from then on.
func TestRootOfVersion010(t *testing.T) {
	root := rootWithFour(t)
	for id := 1; id <= 4; id++ {
		granted(t, os.Remove(inRoot(root, id, "key")))
	}
	granted(t, os.Remove(filepath.Join(root, "format")))
	s := newSnapshotter(t, root)
	expectOwn(t, s, root)
	granted(t, s.Close())
	for id := 1; id <= 4; id++ {
		_, found, _, err := readRecord(inRoot(root, id))
		if err != nil || !found {
			t.Errorf("directory %d has no key: %v", id, err)
		}
	}
	granted(t, os.Remove(inRoot(root, 2, "key")))
	expectMismatch(t, root, []string{"snapshots/2", `"b"`}, ownFiles(root))

	granted(t, os.WriteFile(filepath.Join(root, "format"), []byte("3\n"), 0o600))
	if _, err := New(ctx, Config{Program: program(), Root: root}); err == nil || !strings.Contains(err.Error(), "format") {
		t.Errorf("%v: a root of a later version", err)
	}
}

// The removal of a directory takes its name at once, and goes on beside the calls. Cleanup and Close wait for it, and
// what a crash leaves of it goes when the snapshotter is made again.
func TestRemovalBesideTheCalls(t *testing.T) {
	root := rootWithFour(t)
	s := newSnapshotter(t, root)
	for n := 0; n < mostRemovals; n++ {
		s.directories.removals.turns <- struct{}{}
	}
	granted(t, s.Remove(ctx, "b"))
	expectNames(t, root, "1", "3", "4", "removed-2")
	done := make(chan error)
	go func() { done <- s.Cleanup(ctx) }()
	for n := 0; n < mostRemovals; n++ {
		<-s.directories.removals.turns
	}
	granted(t, <-done)
	expectNames(t, root, "1", "3", "4")
	granted(t, s.Remove(ctx, "c"))
	granted(t, s.Close())
	expectNames(t, root, "1", "4")
	granted(t, os.MkdirAll(inRoot(root, "removed-3", "fs", "d"), 0o700))
	granted(t, newSnapshotter(t, root).Cleanup(ctx))
	expectNames(t, root, "1", "4")
}

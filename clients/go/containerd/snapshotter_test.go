package containerd

import (
	"context"
	"errors"
	"fmt"
	"os"
	"path/filepath"
	"strings"
	"syscall"
	"testing"

	"github.com/containerd/containerd/errdefs"
	"github.com/containerd/containerd/mount"
	"github.com/containerd/containerd/pkg/testutil"
	"github.com/containerd/containerd/snapshots"
	"github.com/containerd/containerd/snapshots/testsuite"
	"github.com/containerd/continuity/fs/fstest"

	"pibroulez.example/pibroulez"
)

var ctx = context.Background()

func TestMain(m *testing.M) {
	if os.Getenv(relays) != "" {
		relay()
	}
	if root := os.Getenv(killedRoot); root != "" {
		callUntilKilled(root)
	}
	os.Exit(m.Run())
}

func program() string {
	if named := os.Getenv("PIBROULEZ_PROGRAM"); named != "" {
		return named
	}
	return "../../../crates/snap_replay/out/snap_replay"
}

func requiresRoot(t *testing.T) {
	if os.Getuid() != 0 {
		t.Skip("mounts are root's alone")
	}
}

func newSnapshotter(t *testing.T, root string) *Snapshotter {
	t.Helper()
	s, err := New(ctx, Config{Program: program(), Root: root})
	granted(t, err)
	t.Cleanup(func() { s.Close() })
	return s
}

func granted(t *testing.T, err error) {
	t.Helper()
	if err != nil {
		t.Fatal(err)
	}
}

func commit(t *testing.T, s snapshots.Snapshotter, name, parent string, opts ...snapshots.Opt) {
	t.Helper()
	_, err := s.Prepare(ctx, "new", parent)
	granted(t, err)
	granted(t, s.Commit(ctx, name, "new", opts...))
}

func infos(t *testing.T, s snapshots.Snapshotter) []snapshots.Info {
	t.Helper()
	var found []snapshots.Info
	granted(t, s.Walk(ctx, func(_ context.Context, info snapshots.Info) error {
		found = append(found, info)
		return nil
	}))
	return found
}

// containerd's own suite, with real mounts.
func TestSuite(t *testing.T) {
	requiresRoot(t)
	testsuite.SnapshotterSuite(t, "Pibroulez", func(ctx context.Context, root string) (snapshots.Snapshotter, func() error, error) {
		s, err := New(ctx, Config{Program: program(), Root: root})
		if err != nil {
			return nil, nil, err
		}
		return s, s.Close, nil
	})
}

// A chain of 500 committed snapshots is mounted with an active one on it, and as a view. It shows each layer's file, and
// the last one's where all have the same. The 501st ancestor is refused.
func TestMostAncestors(t *testing.T) {
	requiresRoot(t)
	t.Parallel()
	s := newSnapshotter(t, t.TempDir())
	flat := t.TempDir()
	parent := ""
	for n := 1; n <= mostAncestors+1; n++ {
		layer := fstest.Apply(
			fstest.CreateFile("/same", []byte(fmt.Sprint(n)), 0o644),
			fstest.CreateFile(fmt.Sprintf("/own-%d", n), nil, 0o644),
		)
		key := fmt.Sprintf("active-%d", n)
		mounts, err := s.Prepare(ctx, key, parent)
		granted(t, err)
		inMount(t, mounts, func(target string) { granted(t, layer.Apply(target)) })
		granted(t, layer.Apply(flat))
		parent = fmt.Sprint(n)
		granted(t, s.Commit(ctx, parent, key))
	}
	_, err := s.Prepare(ctx, "deep", parent)
	if !errdefs.IsFailedPrecondition(err) || !errors.Is(err, pibroulez.ErrTooDeep) {
		t.Errorf("%v, not too deep", err)
	}
	granted(t, fstest.Apply(fstest.RemoveAll("/own-501"), fstest.CreateFile("/same", []byte("500"), 0o644)).Apply(flat))
	for kind, make := range map[string]func(context.Context, string, string, ...snapshots.Opt) ([]mount.Mount, error){
		"view": s.View, "active": s.Prepare,
	} {
		mounts, err := make(ctx, kind, "500")
		granted(t, err)
		inMount(t, mounts, func(target string) { granted(t, fstest.CheckDirectoryEqual(target, flat)) })
	}
}

func inMount(t *testing.T, mounts []mount.Mount, do func(target string)) {
	t.Helper()
	target := t.TempDir()
	granted(t, mount.All(mounts, target))
	defer testutil.Unmount(t, target)
	do(target)
}

// A store that was opened with a number of its own has that: a root of version 0.1.0 has 64.
func TestAncestorsOfALog(t *testing.T) {
	root := t.TempDir()
	config := Config{Program: program(), Root: root}.ofStore(root, filepath.Join(root, LogFile))
	config.Ancestors = 2
	store, err := pibroulez.New(ctx, config)
	granted(t, err)
	granted(t, store.Close())
	s := newSnapshotter(t, root)
	for n, parent := range []string{"", "1", "2"} {
		commit(t, s, fmt.Sprint(n+1), parent)
	}
	for _, make := range []func(context.Context, string, string, ...snapshots.Opt) ([]mount.Mount, error){s.Prepare, s.View} {
		if _, err := make(ctx, "deep", "3"); !errdefs.IsFailedPrecondition(err) || !errors.Is(err, pibroulez.ErrTooDeep) {
			t.Errorf("%v, not too deep", err)
		}
	}
	_, err = s.Prepare(ctx, "active", "2")
	granted(t, err)
}

// A snapshotter that is made again has the same snapshots, with their times, and the same directories.
func TestMadeAgain(t *testing.T) {
	root := t.TempDir()
	s := newSnapshotter(t, root)
	commit(t, s, "base", "", snapshots.WithLabels(map[string]string{"x": "1"}))
	_, err := s.Prepare(ctx, "active", "base")
	granted(t, err)
	_, err = s.View(ctx, "view", "base")
	granted(t, err)
	_, err = s.Update(ctx, snapshots.Info{Name: "view", Labels: map[string]string{"y": "2"}})
	granted(t, err)
	before := infos(t, s)
	file := filepath.Join(root, "snapshots", "2", "fs", "file")
	granted(t, os.WriteFile(file, []byte("kept"), 0o600))
	granted(t, os.Chmod(filepath.Dir(file), 0o700))
	granted(t, os.RemoveAll(filepath.Join(root, "snapshots", "3")))
	granted(t, os.MkdirAll(filepath.Join(root, "snapshots", "7", "fs"), 0o700))
	granted(t, s.Close())

	s = newSnapshotter(t, root)
	after := infos(t, s)
	if fmt.Sprint(after) != fmt.Sprint(before) || len(after) != 3 {
		t.Errorf("%v, not %v", after, before)
	}
	kept, err := os.ReadFile(file)
	granted(t, err)
	if string(kept) != "kept" {
		t.Errorf("%q in an active snapshot", kept)
	}
	for path, mode := range map[string]os.FileMode{"1/fs": 0o755, "2/fs": 0o700, "2/work": 0o711, "3/fs": 0o755} {
		status, err := os.Stat(filepath.Join(root, "snapshots", path))
		granted(t, err)
		if status.Mode().Perm() != mode {
			t.Errorf("%s has mode %o, not %o", path, status.Mode().Perm(), mode)
		}
	}
	if _, err := os.Stat(filepath.Join(root, "snapshots", "7")); !os.IsNotExist(err) {
		t.Errorf("a directory without a snapshot: %v", err)
	}
	if _, err := New(ctx, Config{Program: program(), Root: root}); !errors.Is(err, syscall.EWOULDBLOCK) {
		t.Errorf("%v: two snapshotters of one root", err)
	}
}

// A program that takes no question without an entry is found out before anything is served.
func TestProgramOfVersion010(t *testing.T) {
	named, err := filepath.Abs(program())
	granted(t, err)
	path := filepath.Join(t.TempDir(), "old")
	script := fmt.Sprintf("#!/bin/sh\nsed -u 's/\"quiet\"/\"quite\"/' | %s \"$@\"\n", named)
	granted(t, os.WriteFile(path, []byte(script), 0o700))
	_, err = New(ctx, Config{Program: path, Root: t.TempDir()})
	if fault := new(pibroulez.Fault); !errors.As(err, &fault) || !strings.Contains(fault.Words, "quite") {
		t.Errorf("%v of a program without quiet questions", err)
	}
}

// A snapshot's root has the mode of its parent's.
func TestModeOfTheRoot(t *testing.T) {
	root := t.TempDir()
	s := newSnapshotter(t, root)
	_, err := s.Prepare(ctx, "k", "")
	granted(t, err)
	granted(t, os.Chmod(filepath.Join(root, "snapshots", "1", "fs"), os.ModeSticky|0o777))
	granted(t, s.Commit(ctx, "base", "k"))
	_, err = s.Prepare(ctx, "k", "base")
	granted(t, err)
	status, err := os.Stat(filepath.Join(root, "snapshots", "2", "fs"))
	granted(t, err)
	if status.Mode() != os.ModeDir|os.ModeSticky|0o777 {
		t.Errorf("the root has mode %v", status.Mode())
	}
}

// A removed snapshot has no directory, and 130 snapshots are three pages.
func TestRemoveAndPages(t *testing.T) {
	root := t.TempDir()
	s := newSnapshotter(t, root)
	for n := 0; n < 130; n++ {
		_, err := s.View(ctx, fmt.Sprintf("%03d", n), "")
		granted(t, err)
	}
	if found := infos(t, s); len(found) != 130 || found[129].Name != "129" {
		t.Errorf("%d snapshots", len(found))
	}
	granted(t, s.Remove(ctx, "000"))
	if _, err := os.Stat(filepath.Join(root, "snapshots", "1")); !os.IsNotExist(err) {
		t.Errorf("the directory of a removed snapshot: %v", err)
	}
}

// A root alone is a block and an inode, and what the kernel writes into the directory is counted when that is asked for.
func TestUsage(t *testing.T) {
	root := t.TempDir()
	s := newSnapshotter(t, root)
	_, err := s.Prepare(ctx, "k", "")
	granted(t, err)
	usage, err := s.Usage(ctx, "k")
	granted(t, err)
	if usage != (snapshots.Usage{Inodes: 1, Size: 4096}) {
		t.Errorf("%v", usage)
	}
	granted(t, os.WriteFile(filepath.Join(root, "snapshots", "1", "fs", "file"), make([]byte, 10_000), 0o600))
	usage, err = s.Usage(ctx, "k")
	granted(t, err)
	if usage != (snapshots.Usage{Inodes: 2, Size: 4096 + 3*4096}) {
		t.Errorf("%v", usage)
	}
	granted(t, s.Commit(ctx, "base", "k"))
	usage, err = s.Usage(ctx, "base")
	granted(t, err)
	if usage != (snapshots.Usage{Inodes: 2, Size: 4096 + 3*4096}) {
		t.Errorf("%v", usage)
	}
}

// A commit has the labels that it gives, those with an empty value left out, and not those of the prepare. One that is
// refused changes nothing, and the snapshot can be committed under another name.
func TestLabelsOfACommit(t *testing.T) {
	s := newSnapshotter(t, t.TempDir())
	commit(t, s, "base", "")
	_, err := s.Prepare(ctx, "k", "", snapshots.WithLabels(map[string]string{"of": "prepare", "empty": ""}))
	granted(t, err)
	labels := snapshots.WithLabels(map[string]string{"by": "commit", "empty": ""})
	if err := s.Commit(ctx, "base", "k", labels); !errdefs.IsAlreadyExists(err) {
		t.Errorf("%v, not taken", err)
	}
	info, err := s.Stat(ctx, "k")
	granted(t, err)
	if fmt.Sprint(info.Labels) != "map[of:prepare]" {
		t.Errorf("%v after a refused commit", info.Labels)
	}
	granted(t, s.Commit(ctx, "other", "k", labels))
	info, err = s.Stat(ctx, "other")
	granted(t, err)
	if fmt.Sprint(info.Labels) != "map[by:commit]" || info.Created != info.Updated {
		t.Errorf("%v after a commit", info)
	}
}

func TestErrors(t *testing.T) {
	s := newSnapshotter(t, t.TempDir())
	commit(t, s, "base", "")
	_, err := s.Prepare(ctx, "k", "base")
	granted(t, err)
	prepare := func(key, parent string) error {
		_, err := s.Prepare(ctx, key, parent)
		return err
	}
	_, none := s.Stat(ctx, "none")
	_, mounts := s.Mounts(ctx, "base")
	_, update := s.Update(ctx, snapshots.Info{Name: "base"}, "parent")
	ended, cancel := context.WithCancel(ctx)
	cancel()
	_, late := s.Stat(ended, "base")
	for name, it := range map[string]struct {
		err error
		is  func(error) bool
	}{
		"stat of none":         {none, errdefs.IsNotFound},
		"mounts of committed":  {mounts, errdefs.IsFailedPrecondition},
		"update of the parent": {update, errdefs.IsInvalidArgument},
		"no key":               {prepare("", ""), errdefs.IsInvalidArgument},
		"taken key":            {prepare("base", ""), errdefs.IsAlreadyExists},
		"no parent":            {prepare("x", "none"), errdefs.IsNotFound},
		"active parent":        {prepare("x", "k"), errdefs.IsInvalidArgument},
		"commit of committed":  {s.Commit(ctx, "x", "base"), errdefs.IsFailedPrecondition},
		"commit of none":       {s.Commit(ctx, "x", "none"), errdefs.IsNotFound},
		"remove with a child":  {s.Remove(ctx, "base"), errdefs.IsFailedPrecondition},
		"remove of none":       {s.Remove(ctx, "none"), errdefs.IsNotFound},
		"filter":               {s.Walk(ctx, nil, "name=="), errdefs.IsInvalidArgument},
		"ended context":        {late, errdefs.IsCanceled},
	} {
		if !it.is(it.err) {
			t.Errorf("%s: %v", name, it.err)
		}
	}
	granted(t, s.Close())
	granted(t, s.Close())
	if err := s.Remove(ctx, "k"); !errdefs.IsUnavailable(err) {
		t.Errorf("%v after a close", err)
	}
}

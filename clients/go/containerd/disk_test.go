package containerd

import (
	"errors"
	"fmt"
	"os"
	"path/filepath"
	"strings"
	"syscall"
	"testing"
	"time"

	"github.com/containerd/containerd/errdefs"
	"github.com/containerd/containerd/snapshots"
	"github.com/containerd/containerd/snapshots/overlay"

	"pibroulez.example/pibroulez"
)

// A root on a disk of its own, and what fills that and empties it again.
func rootOnSmallDisk(t *testing.T) (root string, fill, empty func()) {
	t.Helper()
	requiresRoot(t)
	disk := t.TempDir()
	if err := syscall.Mount("tmpfs", disk, "tmpfs", 0, "size=16m"); err != nil {
		t.Skip("mount: ", err)
	}
	t.Cleanup(func() { syscall.Unmount(disk, syscall.MNT_DETACH) })
	rest := filepath.Join(disk, "rest")
	return filepath.Join(disk, "root"), func() {
			t.Helper()
			if err := os.WriteFile(rest, make([]byte, 16<<20), 0o600); !errors.Is(err, syscall.ENOSPC) {
				t.Fatalf("%v, not a full disk", err)
			}
		}, func() {
			t.Helper()
			granted(t, os.Remove(rest))
		}
}

// On a full disk what asks and what removes is done, also after the store was killed and the snapshotter made again there.
// What adds is refused, and leaves all as it was, until there is room again.
func TestFullDisk(t *testing.T) {
	root, fill, empty := rootOnSmallDisk(t)
	s := newSnapshotter(t, root)
	commit(t, s, "base", "")
	for n := 0; n < 6; n++ {
		_, err := s.Prepare(ctx, fmt.Sprint("k", n), "base")
		granted(t, err)
	}
	fill()
	for round := 0; round < 3; round++ {
		askEach(t, s, "k0")
		if _, err := s.Prepare(ctx, "new", "base"); !isFull(err) {
			t.Errorf("%v: a prepare on a full disk", err)
		}
		if _, err := s.Stat(ctx, "new"); !errdefs.IsNotFound(err) {
			t.Errorf("%v: what a full disk didn't take", err)
		}
		if err := s.Commit(ctx, "committed", "k0"); !isFull(err) {
			t.Errorf("%v: a commit on a full disk", err)
		}
		granted(t, s.Remove(ctx, fmt.Sprint("k", round+1)))
		granted(t, s.Cleanup(ctx))
		fill()
		granted(t, s.Err())
		process, err := os.FindProcess(s.store.PID())
		granted(t, err)
		granted(t, process.Kill())
		<-s.Ended()
		s.Close()
		s = newSnapshotter(t, root)
	}
	empty()
	granted(t, s.Commit(ctx, "committed", "k0"))
	_, err := s.Prepare(ctx, "new", "committed")
	granted(t, err)
	for _, key := range []string{"new", "committed", "k4", "k5", "base"} {
		granted(t, s.Remove(ctx, key))
	}
	granted(t, s.Cleanup(ctx))
	expectNames(t, root)
}

// A snapshot whose directory a full disk didn't take has it once there is room.
func TestDirectoryAfterAFullDisk(t *testing.T) {
	root, fill, empty := rootOnSmallDisk(t)
	granted(t, newSnapshotter(t, root).Close())
	onStore(t, root, func(store *pibroulez.Store) {
		_, err := store.Prepare(ctx, Namespace, "k", "")
		granted(t, err)
	})
	fill()
	s := newSnapshotter(t, root)
	if _, err := s.Mounts(ctx, "k"); !isFull(err) {
		t.Errorf("%v: mounts of what has no directory", err)
	}
	if err := s.Commit(ctx, "base", "k"); err == nil {
		t.Error("a commit of what has no directory")
	}
	empty()
	mounts, err := s.Mounts(ctx, "k")
	granted(t, err)
	if _, err := os.Stat(mounts[0].Source); err != nil {
		t.Error(err)
	}
	granted(t, s.Commit(ctx, "base", "k"))
}

// A file of times may be lost. Garbage in it, as a crash leaves it, costs the times before it and after it none.
func TestGarbageInTimes(t *testing.T) {
	root := t.TempDir()
	s := newSnapshotter(t, root)
	commit(t, s, "first", "")
	commit(t, s, "second", "")
	first, err := s.Stat(ctx, "first")
	granted(t, err)
	granted(t, s.Close())
	path := filepath.Join(root, "times")
	lines, err := os.ReadFile(path)
	granted(t, err)
	for name, text := range map[string]string{
		"zeros":         strings.Repeat("\x00", 64<<10),
		"zeros before":  strings.Repeat("\x00", 64<<10) + "\n" + string(lines),
		"zeros behind":  string(lines) + strings.Repeat("\x00", 64<<10),
		"torn":          string(lines[:len(lines)-7]),
		"no directory!": "",
	} {
		granted(t, os.RemoveAll(path))
		if name == "no directory!" {
			granted(t, os.Mkdir(path, 0o700))
		} else {
			granted(t, os.WriteFile(path, []byte(text), 0o600))
		}
		s := newSnapshotter(t, root)
		found, err := s.Stat(ctx, "first")
		granted(t, err)
		if isKept := name != "zeros" && name != "no directory!"; isKept != found.Created.Equal(first.Created) {
			t.Errorf("%s: made at %v, and not %v", name, found.Created, first.Created)
		}
		if time.Since(found.Created) > time.Hour {
			t.Errorf("%s: made at %v", name, found.Created)
		}
		granted(t, s.Close())
	}
}

// Overlay mounts have the options beside the directories that those of containerd's own snapshotter have here.
func TestOptionsOfOverlayMounts(t *testing.T) {
	requiresRoot(t)
	own, err := overlay.NewSnapshotter(t.TempDir())
	granted(t, err)
	defer own.Close()
	wanted := map[string]string{}
	for name, s := range map[string]snapshots.Snapshotter{"own": own, "pibroulez": newSnapshotter(t, t.TempDir())} {
		commit(t, s, "base", "")
		commit(t, s, "upper", "base")
		active, err := s.Prepare(ctx, "active", "base")
		granted(t, err)
		view, err := s.View(ctx, "view", "upper")
		granted(t, err)
		var options []string
		for _, option := range append(active[0].Options, view[0].Options...) {
			if !strings.Contains(option, "dir=") {
				options = append(options, option)
			}
		}
		wanted[name] = fmt.Sprint(active[0].Type, view[0].Type, options)
	}
	if wanted["own"] != wanted["pibroulez"] {
		t.Errorf("%v", wanted)
	}
}

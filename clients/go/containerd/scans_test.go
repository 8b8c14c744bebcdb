package containerd

import (
	"bytes"
	"context"
	"errors"
	"fmt"
	"io/fs"
	"math/rand"
	"os"
	"path/filepath"
	"strings"
	"sync"
	"testing"
	"time"

	"github.com/containerd/containerd/errdefs"
	"github.com/containerd/containerd/snapshots"

	"pibroulez.example/pibroulez"
)

func blocksOf(n int) []byte { return make([]byte, n*blockSize) }

func write(t *testing.T, s *Snapshotter, key, name string, blocks int) {
	t.Helper()
	granted(t, os.WriteFile(filepath.Join(upperOf(t, s, key), name), blocksOf(blocks), 0o600))
}

func expectUsage(t *testing.T, s *Snapshotter, key string, told, charged pibroulez.Usage) {
	t.Helper()
	if got := usageOf(t, s, key); got != told {
		t.Errorf("%s: told %v, not %v", key, got, told)
	}
	got, err := s.store.Usage(ctx, s.namespaceOf(key), key)
	granted(t, err)
	if got != charged {
		t.Errorf("%s: charged %v, not %v", key, got, charged)
	}
}

// How many bytes the log has.
func logSize(t *testing.T, root string) int64 {
	t.Helper()
	it, err := os.Stat(filepath.Join(root, LogFile))
	granted(t, err)
	return it.Size()
}

func labelOf(t *testing.T, s *Snapshotter, key string) string {
	t.Helper()
	info, err := s.Stat(ctx, key)
	granted(t, err)
	return info.Labels[OverLabel]
}

// A snapshotter with a tenant of this limit.
func newWithTenant(t *testing.T, root string, limit pibroulez.Usage) *Snapshotter {
	t.Helper()
	s, err := New(ctx, Config{Program: program(), Root: root, Tenants: map[string]pibroulez.Usage{"a": limit}})
	granted(t, err)
	t.Cleanup(func() { s.Close() })
	return s
}

// What an active snapshot's directory has is charged when its usage is asked for: more, and less, but no less than it reserves.
// Where nothing has changed the log doesn't grow, and a commit charges what the directory has alone.
func TestUsageOfActives(t *testing.T) {
	root := t.TempDir()
	s := newSnapshotter(t, root)
	_, err := s.Prepare(ctx, "k", "")
	granted(t, err)
	_, err = s.Prepare(ctx, "reserved", "", snapshots.WithLabels(map[string]string{ReserveLabel: "50/2"}))
	granted(t, err)
	usage := func(blocks, inodes uint64) pibroulez.Usage { return pibroulez.Usage{Blocks: blocks, Inodes: inodes} }
	for _, it := range []struct {
		blocks           int
		want, ofReserved pibroulez.Usage
	}{
		{3, usage(4, 2), usage(50, 2)}, {100, usage(101, 2), usage(101, 2)}, {0, usage(1, 2), usage(50, 2)}, {7, usage(8, 2), usage(50, 2)},
	} {
		for key, want := range map[string]pibroulez.Usage{"k": it.want, "reserved": it.ofReserved} {
			write(t, s, key, "f", it.blocks)
			expectUsage(t, s, key, want, want)
		}
	}
	before := logSize(t, root)
	for n := 0; n < 200; n++ {
		expectUsage(t, s, "k", usage(8, 2), usage(8, 2))
		expectUsage(t, s, "reserved", usage(50, 2), usage(50, 2))
	}
	if after := logSize(t, root); after != before {
		t.Errorf("the log has %d bytes, and had %d", after, before)
	}
	write(t, s, "reserved", "g", 1)
	granted(t, s.Commit(ctx, "base", "reserved"))
	expectUsage(t, s, "base", usage(9, 3), usage(9, 3))
	if told := s.Scans(); told.Number < 400 || len(told.Over) != 0 {
		t.Errorf("%+v", told)
	}
}

// What the limit doesn't cover is told, by the label and by Scans, also by a snapshotter that is made anew. What it covers is
// charged. Such a snapshot isn't committed, and once there is room or it has less it is like any other one.
func TestOver(t *testing.T) {
	root := t.TempDir()
	limit := pibroulez.Usage{Blocks: 100, Inodes: 20}
	s := newWithTenant(t, root, limit)
	for _, key := range []string{"a/1/k", "a/2/other", "b/1/k"} {
		_, err := s.Prepare(ctx, key, "")
		granted(t, err)
		write(t, s, key, "f", 59)
	}
	usage := func(blocks, inodes uint64) pibroulez.Usage { return pibroulez.Usage{Blocks: blocks, Inodes: inodes} }
	expectOver := func(s *Snapshotter, label string, want map[string]Over) {
		t.Helper()
		if got := labelOf(t, s, "a/2/other"); got != label {
			t.Errorf("label %q, not %q", got, label)
		}
		if got := s.Scans().Over; fmt.Sprint(got) != fmt.Sprint(want) {
			t.Errorf("%v, not %v", got, want)
		}
	}
	expectUsage(t, s, "a/1/k", usage(60, 2), usage(60, 2))
	expectUsage(t, s, "a/2/other", usage(60, 2), usage(40, 2))
	expectUsage(t, s, "b/1/k", usage(60, 2), usage(60, 2))
	over := map[string]Over{"a": {1, usage(20, 0)}}
	expectOver(s, "20/0", over)
	before := logSize(t, root)
	for n := 0; n < 100; n++ {
		expectUsage(t, s, "a/2/other", usage(60, 2), usage(40, 2))
	}
	if after := logSize(t, root); after != before {
		t.Errorf("the log has %d bytes, and had %d", after, before)
	}
	if err := s.Commit(ctx, "a/3/base", "a/2/other"); !errdefs.IsUnavailable(err) || !errors.Is(err, pibroulez.ErrOverLimit) {
		t.Errorf("%v", err)
	}
	granted(t, s.Close())
	s = newWithTenant(t, root, usage(0, 0))
	expectOver(s, "20/0", over)
	// It has more, and less.
	write(t, s, "a/2/other", "f", 69)
	expectUsage(t, s, "a/2/other", usage(70, 2), usage(40, 2))
	expectOver(s, "30/0", map[string]Over{"a": {1, usage(30, 0)}})
	write(t, s, "a/2/other", "f", 39)
	expectUsage(t, s, "a/2/other", usage(40, 2), usage(40, 2))
	expectOver(s, "", map[string]Over{})
	// Inodes alone.
	for n := 0; n < 30; n++ {
		write(t, s, "a/2/other", fmt.Sprint("e", n), 0)
	}
	expectUsage(t, s, "a/2/other", usage(40, 32), usage(40, 18))
	expectOver(s, "0/14", map[string]Over{"a": {1, usage(0, 14)}})
	// Others go.
	granted(t, s.store.Limit(ctx, "a", usage(100, 40)))
	granted(t, s.Remove(ctx, "a/1/k"))
	expectUsage(t, s, "a/2/other", usage(40, 32), usage(40, 32))
	expectOver(s, "", map[string]Over{})
	granted(t, s.Commit(ctx, "a/3/base", "a/2/other"))
	expectUsage(t, s, "a/3/base", usage(40, 32), usage(40, 32))
}

// A snapshot that is over and goes isn't told any more, whichever way it goes.
func TestOverThatGoes(t *testing.T) {
	s := newWithTenant(t, t.TempDir(), pibroulez.Usage{Blocks: 10, Inodes: 10})
	for n, key := range []string{"a/1/k", "a/2/k"} {
		_, err := s.Prepare(ctx, key, "")
		granted(t, err)
		write(t, s, key, "f", 20)
		usageOf(t, s, key)
		if told := s.Scans().Over["a"]; told.Snapshots != 1 {
			t.Errorf("%d: %+v", n, told)
		}
		if n == 0 {
			granted(t, s.Remove(ctx, key))
		}
	}
	granted(t, s.store.Limit(ctx, "a", pibroulez.Usage{Blocks: 100, Inodes: 100}))
	granted(t, s.Commit(ctx, "a/3/base", "a/2/k"))
	if told := s.Scans().Over; len(told) != 0 || labelOf(t, s, "a/3/base") != "" {
		t.Errorf("%+v", told)
	}
}

// What a crash leaves between any two effects of a question is made right by the next one: a trim without a charge, a charge
// without the label, a label without a reason.
func TestUsageAfterPart(t *testing.T) {
	usage := func(blocks, inodes uint64) pibroulez.Usage { return pibroulez.Usage{Blocks: blocks, Inodes: inodes} }
	for n, part := range []func(s *Snapshotter) error{
		func(s *Snapshotter) error { _, err := s.store.Trim(ctx, "a", "a/1/k"); return err },
		func(s *Snapshotter) error { _, err := s.store.Charge(ctx, "a", "a/1/k", usage(9, 2)); return err },
		func(s *Snapshotter) error {
			_, err := s.store.Update(ctx, "a", "a/1/k", map[string]string{OverLabel: "5/5"}, []string{"labels." + OverLabel})
			return err
		},
		func(s *Snapshotter) error {
			_, err := s.store.Update(ctx, "a", "a/1/k", map[string]string{OverLabel: "no usage"}, []string{"labels." + OverLabel})
			return err
		},
	} {
		root := t.TempDir()
		s := newWithTenant(t, root, usage(10, 10))
		_, err := s.Prepare(ctx, "a/1/k", "")
		granted(t, err)
		write(t, s, "a/1/k", "f", 5)
		usageOf(t, s, "a/1/k")
		granted(t, part(s))
		granted(t, s.Close())
		s = newWithTenant(t, root, usage(10, 10))
		expectUsage(t, s, "a/1/k", usage(6, 2), usage(6, 2))
		if told := s.Scans().Over; len(told) != 0 || labelOf(t, s, "a/1/k") != "" {
			t.Errorf("%d: %+v", n, told)
		}
	}
}

// What an unfinished commit has left in a layer stays charged, and is trimmed once.
func TestUsageAfterPartOfCommit(t *testing.T) {
	root := t.TempDir()
	s := newSnapshotter(t, root)
	_, err := s.Prepare(ctx, "k", "")
	granted(t, err)
	write(t, s, "k", "f", 10)
	commitInPart(t, s, "k", 1)
	write(t, s, "k", "f", 2)
	usage := func(blocks, inodes uint64) pibroulez.Usage { return pibroulez.Usage{Blocks: blocks, Inodes: inodes} }
	expectUsage(t, s, "k", usage(11, 2), usage(11, 2))
	before := logSize(t, root)
	expectUsage(t, s, "k", usage(11, 2), usage(11, 2))
	if after := logSize(t, root); after != before {
		t.Errorf("the log has %d bytes, and had %d", after, before)
	}
	granted(t, s.Commit(ctx, "base", "k"))
	expectUsage(t, s, "base", usage(3, 2), usage(3, 2))
}

// Callers share a reading that hasn't begun, and see what was written before they came; one whose context ends waits no longer.
func TestSharedScans(t *testing.T) {
	s := newSnapshotter(t, t.TempDir())
	for n := 0; n < 2; n++ {
		_, err := s.Prepare(ctx, fmt.Sprint("k", n), "")
		granted(t, err)
	}
	// No directory is read as long as all turns are taken.
	for n := 0; n < mostScans; n++ {
		s.scans.turns <- struct{}{}
	}
	write(t, s, "k0", "f", 1)
	var all sync.WaitGroup
	ask := func(want int64) {
		all.Add(1)
		go func() {
			defer all.Done()
			it, err := s.Usage(ctx, "k0")
			if err != nil || it.Size != want*blockSize {
				t.Errorf("%v, %v, not %d blocks", it, err, want)
			}
		}()
	}
	waitUntil := func(is func(it *scans) bool) {
		t.Helper()
		for end := time.Now().Add(time.Minute); ; time.Sleep(time.Millisecond) {
			s.scans.mutex.Lock()
			holds := is(s.scans)
			s.scans.mutex.Unlock()
			if holds {
				return
			}
			if time.Now().After(end) {
				t.Fatal("not within a minute")
			}
		}
	}
	for n := 0; n < 10; n++ {
		ask(2)
	}
	waitUntil(func(it *scans) bool { return it.told.Shared == 9 })
	ended, cancel := context.WithCancel(ctx)
	cancel()
	if _, err := s.Usage(ended, "k1"); !errors.Is(err, context.Canceled) {
		t.Error(err)
	}
	// Those that come while the snapshot is settled have the next reading.
	_, end, err := s.change(ctx, "k0")
	granted(t, err)
	for n := 0; n < mostScans; n++ {
		<-s.scans.turns
	}
	info, err := s.store.Stat(ctx, Namespace, "k0")
	granted(t, err)
	waitUntil(func(it *scans) bool { return it.of[info.ID].now.hasBegun && len(it.turns) == 0 })
	write(t, s, "k0", "f", 5)
	for n := 0; n < 10; n++ {
		ask(6)
	}
	waitUntil(func(it *scans) bool { return it.told.Shared == 18 })
	end()
	all.Wait()
	s.scans.wait()
	if told := s.Scans(); told.Number > 3 || len(s.scans.of) != 0 {
		t.Errorf("%+v, %d", told, len(s.scans.of))
	}
}

// A snapshotter that is closed ends scans that wait for their turn.
func TestCloseWithScans(t *testing.T) {
	s := newSnapshotter(t, t.TempDir())
	_, err := s.Prepare(ctx, "k", "")
	granted(t, err)
	for n := 0; n < mostScans; n++ {
		s.scans.turns <- struct{}{}
	}
	failed := make(chan error)
	go func() {
		_, err := s.Usage(ctx, "k")
		failed <- err
	}()
	for isAsked := false; !isAsked; time.Sleep(time.Millisecond) {
		s.scans.mutex.Lock()
		isAsked = s.scans.running == 1
		s.scans.mutex.Unlock()
	}
	granted(t, s.Close())
	if err := <-failed; !errors.Is(err, pibroulez.ErrClosed) || !errdefs.IsUnavailable(err) {
		t.Error(err)
	}
	if _, err := s.Usage(ctx, "k"); !errors.Is(err, pibroulez.ErrClosed) {
		t.Error(err)
	}
}

// Questions beside commits, removals and writes have an answer or are told that there is no such snapshot, and nothing stays
// behind.
func TestUsageBesideChanges(t *testing.T) {
	s := newSnapshotter(t, rootInMemory(t))
	ended := make(chan struct{})
	var all sync.WaitGroup
	for n := 0; n < 8; n++ {
		all.Add(1)
		go func() {
			defer all.Done()
			for {
				select {
				case <-ended:
					return
				default:
				}
				if _, err := s.Usage(ctx, "k"); err != nil && !errdefs.IsNotFound(err) {
					t.Error(err)
					return
				}
			}
		}()
	}
	for n := 0; n < 100; n++ {
		mounts, err := s.Prepare(ctx, "k", "")
		granted(t, err)
		for f := 0; f < 20; f++ {
			granted(t, os.WriteFile(filepath.Join(mounts[0].Source, fmt.Sprint("f", f)), blocksOf(f%3), 0o600))
		}
		if n%2 == 0 {
			granted(t, s.Commit(ctx, "base", "k"))
			if got := usageOf(t, s, "base"); got != (pibroulez.Usage{Blocks: 20, Inodes: 21}) {
				t.Errorf("%v", got)
			}
			granted(t, s.Remove(ctx, "base"))
		} else {
			granted(t, s.Remove(ctx, "k"))
		}
	}
	close(ended)
	all.Wait()
	s.scans.wait()
	if len(s.scans.of)+len(s.scans.over)+len(s.scans.trimmed)+len(s.scans.failing) != 0 {
		t.Errorf("%+v", s.scans)
	}
	quota, err := s.store.Quota(ctx, Namespace)
	granted(t, err)
	if quota.Charged != (pibroulez.Usage{}) {
		t.Errorf("%+v", quota)
	}
}

// On a full disk a usage is told, and charged once there is room.
func TestUsageOnFullDisk(t *testing.T) {
	root, fill, empty := rootOnSmallDisk(t)
	s := newSnapshotter(t, root)
	_, err := s.Prepare(ctx, "k", "")
	granted(t, err)
	write(t, s, "k", "f", 10)
	fill()
	for n := 0; n < 3; n++ {
		if got := usageOf(t, s, "k"); got != (pibroulez.Usage{Blocks: 11, Inodes: 2}) {
			t.Errorf("%v", got)
		}
	}
	empty()
	expectUsage(t, s, "k", pibroulez.Usage{Blocks: 11, Inodes: 2}, pibroulez.Usage{Blocks: 11, Inodes: 2})
}

// With snapshots that nobody changes, any number of questions leaves the log, the memory's maps and the goroutines as they are.
func TestPolledSnapshots(t *testing.T) {
	root := rootInMemory(t)
	s := newSnapshotter(t, root)
	var keys []string
	for n := 0; n < 30; n++ {
		keys = append(keys, fmt.Sprint("k", n))
		_, err := s.Prepare(ctx, keys[n], "")
		granted(t, err)
		write(t, s, keys[n], "f", n)
		usageOf(t, s, keys[n])
	}
	text, err := os.ReadFile(filepath.Join(root, LogFile))
	granted(t, err)
	for n := 0; n < 20; n++ {
		for at, key := range keys {
			if got := usageOf(t, s, key); got.Blocks != uint64(at+1) {
				t.Errorf("%s: %v", key, got)
			}
		}
	}
	after, err := os.ReadFile(filepath.Join(root, LogFile))
	granted(t, err)
	s.scans.wait()
	if !bytes.Equal(text, after) || len(s.scans.of) != 0 {
		t.Errorf("%d bytes of the log, and %d before; %d scans", len(after), len(text), len(s.scans.of))
	}
}

// A directory that isn't there any more is no error of a usage, and one that is no directory is.
func TestUsageWithoutDirectory(t *testing.T) {
	s := newSnapshotter(t, t.TempDir())
	_, err := s.Prepare(ctx, "k", "")
	granted(t, err)
	path := upperOf(t, s, "k")
	granted(t, os.Remove(path))
	expectUsage(t, s, "k", root, root)
	granted(t, os.Symlink("/", path))
	if _, err := s.Usage(ctx, "k"); err == nil || errors.Is(err, fs.ErrNotExist) || !strings.Contains(err.Error(), path) {
		t.Error(err)
	}
}

// Writes something into the directory of a snapshot, if there is one, while nobody removes or commits it.
func writeAny(s *Snapshotter, key string, random *rand.Rand) {
	ctx, end, err := s.change(ctx, key)
	if err != nil {
		return
	}
	defer end()
	info, err := s.store.Stat(ctx, s.namespaceOf(key), key)
	if err != nil || info.Kind != pibroulez.KindActive {
		return
	}
	path := filepath.Join(s.directories.upperOf(info.ID), fmt.Sprint("f", random.Intn(5)))
	_ = os.WriteFile(path, blocksOf(random.Intn(4)), 0o600)
}

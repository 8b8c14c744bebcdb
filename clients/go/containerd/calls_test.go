package containerd

import (
	"bufio"
	"context"
	"fmt"
	"math/rand"
	"os"
	"path/filepath"
	"strings"
	"sync"
	"sync/atomic"
	"testing"
	"time"

	"github.com/containerd/containerd/errdefs"
	"github.com/containerd/containerd/snapshots"
)

// By this variable a process of the tests is the relay of a slow program.
const relays = "PIBROULEZ_RELAYS"

// A program that hands each line on after some milliseconds.
func slowProgram(t *testing.T) string {
	t.Helper()
	named, err := filepath.Abs(program())
	granted(t, err)
	path := filepath.Join(t.TempDir(), "slow")
	script := fmt.Sprintf("#!/bin/sh\n%s=1 '%s' | '%s' \"$@\"\n", relays, os.Args[0], named)
	granted(t, os.WriteFile(path, []byte(script), 0o700))
	return path
}

// Hands each line of its input on after some milliseconds, in a process of its own.
func relay() {
	input := bufio.NewReader(os.Stdin)
	for {
		line, err := input.ReadBytes('\n')
		if err != nil {
			os.Exit(0)
		}
		time.Sleep(5 * time.Millisecond)
		if _, err := os.Stdout.Write(line); err != nil {
			os.Exit(0)
		}
	}
}

// Of calls whose contexts end at random moments each is made, with all that belongs to it, or not at all, and its error
// says which.
func TestContextsThatEnd(t *testing.T) {
	for name, it := range map[string]struct {
		program string
		longest time.Duration
	}{"fast": {program(), 4 * time.Millisecond}, "slow": {slowProgram(t), 40 * time.Millisecond}} {
		it := it
		t.Run(name, func(t *testing.T) {
			t.Parallel()
			root := t.TempDir()
			s, err := New(ctx, Config{Program: it.program, Root: root})
			granted(t, err)
			defer s.Close()
			prepared := map[string]bool{}
			each(400, 8, func(n int) bool {
				ending, cancel := context.WithTimeout(ctx, time.Duration(rand.Int63n(int64(it.longest))))
				defer cancel()
				_, err := s.Prepare(ending, fmt.Sprint("k", n), "", snapshots.WithLabels(map[string]string{"of": "prepare"}))
				return err == nil
			}, prepared, "k")
			expectEach(t, s, root, prepared, 400)
			committed := map[string]bool{}
			each(48, 8, func(n int) bool {
				ending, cancel := context.WithTimeout(ctx, time.Duration(rand.Int63n(int64(it.longest))))
				defer cancel()
				key := fmt.Sprint("k", n)
				if !prepared[key] {
					_, err := s.Prepare(ctx, key, "", snapshots.WithLabels(map[string]string{"of": "prepare"}))
					granted(t, err)
				}
				return s.Commit(ending, "c"+key, key, snapshots.WithLabels(map[string]string{"of": "commit"})) == nil
			}, committed, "ck")
			expectCommits(t, s, committed)
		})
	}
}

// Makes this many calls from this many goroutines, and notes the answer of each.
func each(calls, goroutines int, do func(n int) bool, answers map[string]bool, prefix string) {
	var next atomic.Int64
	var mutex sync.Mutex
	var all sync.WaitGroup
	for n := 0; n < goroutines; n++ {
		all.Add(1)
		go func() {
			defer all.Done()
			for {
				n := int(next.Add(1)) - 1
				if n >= calls {
					return
				}
				answer := do(n)
				mutex.Lock()
				answers[fmt.Sprint(prefix, n)] = answer
				mutex.Unlock()
			}
		}()
	}
	all.Wait()
}

// Expects that exactly what was granted is there, each with its directory.
func expectEach(t *testing.T, s *Snapshotter, root string, granted map[string]bool, calls int) {
	t.Helper()
	made := 0
	for n := 0; n < calls; n++ {
		key := fmt.Sprint("k", n)
		info, err := s.store.Stat(ctx, Namespace, key)
		if (err == nil) != granted[key] {
			t.Errorf("%s: answered %v, and then %v", key, granted[key], err)
		}
		if err != nil {
			continue
		}
		made++
		if _, err := os.Stat(inRoot(root, info.ID, "fs")); err != nil {
			t.Errorf("%s: %v", key, err)
		}
	}
	t.Logf("%d of %d were made", made, calls)
}

// Expects that what was committed has the commit's labels, and that others are as they were prepared.
func expectCommits(t *testing.T, s *Snapshotter, committed map[string]bool) {
	t.Helper()
	for name, answer := range committed {
		key, labels := strings.TrimPrefix(name, "c"), "map[of:prepare]"
		if answer {
			key, labels = name, "map[of:commit]"
		}
		info, err := s.Stat(ctx, key)
		if err != nil || fmt.Sprint(info.Labels) != labels {
			t.Errorf("%s: %v, %v, not %v", key, info.Labels, err, labels)
		}
		if _, err := s.Stat(ctx, strings.TrimPrefix(name, "c")); answer != errdefs.IsNotFound(err) {
			t.Errorf("%s: committed %v, and its key %v", name, answer, err)
		}
	}
}

// Goroutines that make all calls on the same keys get answers and refusals, and no other error; in the end each snapshot
// has its directory, and each directory its snapshot.
func TestTwelveOnTwelveKeys(t *testing.T) {
	t.Parallel()
	root := rootInMemory(t)
	s := newSnapshotter(t, root)
	commit(t, s, "base", "")
	var all sync.WaitGroup
	for n := 0; n < 12; n++ {
		all.Add(1)
		go func(seed int64) {
			defer all.Done()
			random := rand.New(rand.NewSource(seed))
			for n := 0; n < 1000; n++ {
				if err := anyCall(s, random); err != nil && !isRefusal(err) {
					t.Error(err)
				}
			}
		}(int64(n))
	}
	all.Wait()
	granted(t, s.Cleanup(ctx))
	expectWhole(t, s)
}

func anyCall(s *Snapshotter, random *rand.Rand) error {
	key, other := fmt.Sprint("k", random.Intn(12)), fmt.Sprint("k", random.Intn(12))
	var err error
	switch random.Intn(9) {
	case 0, 1:
		_, err = s.Prepare(ctx, key, []string{"", "base", other}[random.Intn(3)])
	case 2:
		_, err = s.View(ctx, key, other)
	case 3:
		err = s.Commit(ctx, other, key)
	case 4:
		_, err = s.Mounts(ctx, key)
	case 5:
		err = s.Remove(ctx, key)
	case 6:
		_, err = s.Stat(ctx, key)
	case 7:
		_, err = s.Usage(ctx, key)
	case 8:
		writeAny(s, key, random)
	}
	return err
}

// Whether an error is a refusal of the store, which a caller expects where others use the same keys.
func isRefusal(err error) bool {
	return errdefs.IsNotFound(err) || errdefs.IsAlreadyExists(err) || errdefs.IsFailedPrecondition(err) ||
		errdefs.IsInvalidArgument(err)
}

// A prepare that fails late drops what it has made itself, and nothing that another caller has prepared under the same key
// and was answered.
func TestPrepareThatFailsLate(t *testing.T) {
	t.Parallel()
	root := rootInMemory(t)
	s := newSnapshotter(t, root)
	commit(t, s, "broken", "")
	granted(t, os.Remove(inRoot(root, 1, "fs")))
	var prepared, removed atomic.Int64
	var all sync.WaitGroup
	for _, do := range []func(){
		func() {
			if _, err := s.Prepare(ctx, "k", "broken"); err == nil {
				t.Error("a directory like one that is missing")
			}
		},
		func() {
			if _, err := s.Prepare(ctx, "k", ""); err == nil {
				prepared.Add(1)
			}
		},
		func() {
			if err := s.Remove(ctx, "k"); err == nil {
				removed.Add(1)
			}
		},
	} {
		all.Add(1)
		go func(do func()) {
			defer all.Done()
			for n := 0; n < 300; n++ {
				do()
			}
		}(do)
	}
	all.Wait()
	stays := int64(0)
	if _, err := s.Stat(ctx, "k"); err == nil {
		stays = 1
	}
	if prepared.Load() != removed.Load()+stays {
		t.Errorf("%d prepared, %d removed, %d there", prepared.Load(), removed.Load(), stays)
	}
}

// Who drops what it has made names the snapshot by its id.
func TestDropOfAnotherId(t *testing.T) {
	s := newSnapshotter(t, t.TempDir())
	_, err := s.Prepare(ctx, "k", "")
	granted(t, err)
	s.dropOwn(ctx, "k", 7)
	_, err = s.Stat(ctx, "k")
	granted(t, err)
}

// Locks of several keys are taken in one order, given back where the context ends, and forgotten when nobody has them.
func TestLocks(t *testing.T) {
	l := locks{held: map[string]*lock{}}
	release, err := l.take(ctx, "b", "a", "b")
	granted(t, err)
	ending, cancel := context.WithTimeout(ctx, time.Millisecond)
	defer cancel()
	if _, err := l.take(ending, "c", "b"); err != context.DeadlineExceeded {
		t.Errorf("%v while another has the lock", err)
	}
	release()
	if len(l.held) != 0 {
		t.Errorf("%d locks that nobody has", len(l.held))
	}
}

// A snapshotter whose store is killed says so, and its calls are of the class `unavailable`.
func TestStoreThatEnds(t *testing.T) {
	s := newSnapshotter(t, t.TempDir())
	if err := s.Err(); err != nil {
		t.Errorf("%v of a store that runs", err)
	}
	process, err := os.FindProcess(s.store.PID())
	granted(t, err)
	granted(t, process.Kill())
	select {
	case <-s.Ended():
	case <-time.After(time.Minute):
		t.Fatal("it hasn't ended")
	}
	if err := s.Err(); err == nil || !strings.Contains(err.Error(), "killed") {
		t.Errorf("%v of a store that was killed", err)
	}
	if _, err := s.Stat(ctx, "k"); !errdefs.IsUnavailable(err) {
		t.Errorf("%v of a store that has ended", err)
	}
}

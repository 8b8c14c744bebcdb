package containerd

import (
	"context"
	"errors"
	"fmt"
	"io"
	"math/rand"
	"os"
	"os/exec"
	"strconv"
	"syscall"
	"testing"
	"time"

	"github.com/containerd/containerd/snapshots"

	"pibroulez.example/pibroulez/containerd/upper"
)

// The root of a process of this test that is there to be killed.
const killedRoot = "PIBROULEZ_KILLED_ROOT"

// What such a process says once its snapshotter is made. What else it says is an error.
const isMade = "made"

// How many processes are killed.
func kills() int {
	if count, err := strconv.Atoi(os.Getenv("PIBROULEZ_KILLS")); err == nil {
		return count
	}
	return 20
}

// Makes calls on twelve keys by as many goroutines.
func callUntilKilled(root string) {
	s, err := New(ctx, Config{Program: program(), Root: root, journal: fewEntries * 10})
	if err != nil {
		fmt.Println(err)
		os.Exit(1)
	}
	fmt.Println(isMade)
	for n := 0; n < 12; n++ {
		go func(seed int64) {
			random := rand.New(rand.NewSource(seed))
			for {
				if err := anyCall(s, random); err != nil && !isRefusal(err) {
					fmt.Println(err)
					os.Exit(1)
				}
			}
		}(rand.Int63())
	}
	select {}
}

// A process with a snapshotter that is killed at any moment leaves a root of which another one is made, with each
// snapshot's own directory and no other.
func TestKillsAtAnyMoment(t *testing.T) {
	t.Parallel()
	root := t.TempDir()
	most := 0
	for n := 0; n < kills(); n++ {
		if said := killedOnce(t, root, n%2 == 0); said != "" && said != isMade+"\n" {
			t.Fatal(said)
		}
		s, err := newOnceFree(root)
		granted(t, err)
		granted(t, s.Cleanup(ctx))
		if found := expectWhole(t, s); found > most {
			most = found
		}
		granted(t, s.Close())
	}
	if most == 0 {
		t.Error("no snapshot was there at any time")
	}
}

// Starts a process and kills it after a while, of which its snapshotter is made where it is to be. What it said.
func killedOnce(t *testing.T, root string, made bool) string {
	t.Helper()
	process := exec.Command(os.Args[0])
	process.Env = append(os.Environ(), killedRoot+"="+root)
	output, err := process.StdoutPipe()
	granted(t, err)
	granted(t, process.Start())
	said := make([]byte, len(isMade)+1)
	size := 0
	if made {
		size, err = io.ReadFull(output, said)
		granted(t, err)
	}
	time.Sleep(time.Duration(rand.Int63n(int64(300 * time.Millisecond))))
	granted(t, process.Process.Kill())
	rest, err := io.ReadAll(output)
	granted(t, err)
	process.Wait()
	return string(said[:size]) + string(rest)
}

// A snapshotter of a root, once the log of a process that was killed is free.
func newOnceFree(root string) (*Snapshotter, error) {
	for end := time.Now().Add(time.Minute); ; time.Sleep(time.Millisecond) {
		s, err := New(ctx, Config{Program: program(), Root: root})
		if err == nil || time.Now().After(end) || !errors.Is(err, syscall.EWOULDBLOCK) {
			return s, err
		}
	}
}

// Expects each snapshot's directory to be there, with the snapshot's record, and no other. How many there are.
func expectWhole(t *testing.T, s *Snapshotter) int {
	t.Helper()
	nodes, err := s.store.Tree(ctx, Namespace)
	granted(t, err)
	if _, err := s.directories.compare(nodes, false); err != nil {
		t.Error(err)
	}
	entries, err := os.ReadDir(s.directories.path)
	granted(t, err)
	if len(entries) != len(nodes) {
		t.Errorf("%d directories of %d snapshots", len(entries), len(nodes))
	}
	granted(t, s.Walk(ctx, func(_ context.Context, info snapshots.Info) error {
		if info.Kind == snapshots.KindCommitted {
			expectLedger(t, s, info.Name)
			return nil
		}
		_, err := s.Mounts(ctx, info.Name)
		return err
	}))
	return len(nodes)
}

// Expects a committed snapshot to be charged what its directory has.
func expectLedger(t *testing.T, s *Snapshotter, key string) {
	t.Helper()
	found, err := upper.Count(ctx, upperOf(t, s, key))
	granted(t, err)
	if got := usageOf(t, s, key); got != found {
		t.Errorf("%s: %v, and %v in its directory", key, got, found)
	}
}

package containerd

import (
	"context"
	"fmt"
	"net"
	"os"
	"path/filepath"
	"runtime/debug"
	"sort"
	"strconv"
	"strings"
	"sync"
	"testing"
	"time"

	snapshotsapi "github.com/containerd/containerd/api/services/snapshots/v1"
	"github.com/containerd/containerd/namespaces"
	"github.com/containerd/containerd/snapshots"
	"github.com/containerd/containerd/snapshots/overlay"
	"github.com/containerd/containerd/snapshots/proxy"
	"google.golang.org/grpc"

	"pibroulez.example/pibroulez/containerd/service"
)

// How many snapshots are asked for, how many files each has, and how many rounds of questions there are, two of each snapshot: of
// 300 snapshots where PIBROULEZ_POLLS says how many, as CRI asks them every 10 seconds. 16,667 are 10 million questions.
func polls() (snapshots, files, rounds int) {
	count, err := strconv.Atoi(os.Getenv("PIBROULEZ_POLLS"))
	switch {
	case err != nil:
		return 20, 20, 10
	case count > mostTimed:
		return 300, 10, count
	}
	return 300, 100, count
}

const (
	// How many rounds are asked of overlayfs too, one question after another: up to the former all, of more the latter.
	mostTimed, someTimed = 100, 20
	// After how many parts of the further rounds memory and log are looked at.
	parts = 20
	// By how many callers at once further ones are asked here.
	mostCallers = 4
	// By how many bytes this process may grow.
	mostGrowth = 64 << 20
)

// A snapshotter as containerd has one behind a proxy.
func behindProxy(t *testing.T, s snapshots.Snapshotter) snapshots.Snapshotter {
	t.Helper()
	path := filepath.Join(t.TempDir(), "socket")
	listener, err := net.Listen("unix", path)
	granted(t, err)
	it := service.New(s, nil)
	go it.Serve(listener)
	t.Cleanup(it.End)
	connection, err := grpc.Dial("unix://"+path, grpc.WithInsecure())
	granted(t, err)
	t.Cleanup(func() { connection.Close() })
	return proxy.NewSnapshotter(snapshotsapi.NewSnapshotsClient(connection), "any")
}

// The resident size of a process.
func residentSize(t *testing.T, pid int) int64 {
	t.Helper()
	text, err := os.ReadFile(fmt.Sprintf("/proc/%d/statm", pid))
	granted(t, err)
	pages, err := strconv.ParseInt(strings.Fields(string(text))[1], 10, 64)
	granted(t, err)
	return pages * int64(os.Getpagesize())
}

func median(all []time.Duration) time.Duration {
	sort.Slice(all, func(i, j int) bool { return all[i] < all[j] })
	return all[len(all)/2]
}

// CRI's questions leave the log and the memory as they are. How long they take beside those of containerd's snapshotter behind a
// proxy is told, and depends on what else the machine does.
func TestPolling(t *testing.T) {
	requiresRoot(t)
	count, files, rounds := polls()
	timed := rounds
	if timed > mostTimed {
		timed = someTimed
	}
	root := rootInMemory(t)
	own := newSnapshotter(t, root)
	theirs, err := overlay.NewSnapshotter(rootInMemory(t))
	granted(t, err)
	t.Cleanup(func() { theirs.Close() })
	called := namespaces.WithNamespace(ctx, "test")
	both := map[string]snapshots.Snapshotter{"here": behindProxy(t, own), "overlayfs": behindProxy(t, theirs)}
	var keys []string
	for n := 0; n < count; n++ {
		keys = append(keys, fmt.Sprint("k", n))
		for _, it := range both {
			mounts, err := it.Prepare(called, keys[n], "")
			granted(t, err)
			for f := 0; f < files; f++ {
				granted(t, os.WriteFile(filepath.Join(mounts[0].Source, fmt.Sprint("f", f)), make([]byte, f%20*1000), 0o600))
			}
		}
	}
	took := map[string][]time.Duration{}
	ask := func(name, key string) {
		began := time.Now()
		it, err := both[name].Usage(called, key)
		granted(t, err)
		_, err = both[name].Stat(called, key)
		granted(t, err)
		if took[name] = append(took[name], time.Since(began)); it.Inodes != int64(1+files) {
			t.Errorf("%s of %s: %v", key, name, it)
		}
	}
	for _, key := range keys {
		ask("here", key)
		ask("overlayfs", key)
	}
	took = map[string][]time.Duration{"here": make([]time.Duration, 0, count*timed), "overlayfs": make([]time.Duration, 0, count*timed)}
	debug.FreeOSMemory()
	log, store, here := logSize(t, root), residentSize(t, own.store.PID()), residentSize(t, os.Getpid())
	stays := func(when string) {
		t.Helper()
		debug.FreeOSMemory()
		sizes := [3]int64{logSize(t, root), residentSize(t, own.store.PID()), residentSize(t, os.Getpid())}
		t.Logf("%s: the log has %d bytes, the store %d KiB, this process %d KiB", when, sizes[0], sizes[1]>>10, sizes[2]>>10)
		if sizes[0] != log || sizes[1] > store+1<<20 || sizes[2] > here+mostGrowth {
			t.Errorf("%s: %v, and %v at the begin", when, sizes, [3]int64{log, store, here})
		}
	}
	stays("at the begin")
	for n := 0; n < timed; n++ {
		for _, key := range keys {
			ask("here", key)
			ask("overlayfs", key)
		}
	}
	stays(fmt.Sprintf("after %d questions", 2*count*timed))
	for part, asked := 1, timed; part <= parts && rounds > timed; part++ {
		until := timed + (rounds-timed)*part/parts
		askMany(t, both["here"], called, keys, 1+files, until-asked)
		asked = until
		stays(fmt.Sprintf("after %d questions", 2*count*asked))
	}
	ours, other := median(took["here"]), median(took["overlayfs"])
	part := func(name string, hundredths int) time.Duration { return took[name][len(took[name])*hundredths/100] }
	t.Logf("%d questions of %d snapshots: a usage and a status take %v here and %v of overlayfs in the middle; 10 of 100 within %v and %v, 99 within %v and %v",
		2*count*rounds, count, ours, other, part("here", 10), part("overlayfs", 10), part("here", 99), part("overlayfs", 99))
}

// Asks for a usage and a status of each of these snapshots in this many rounds, by some callers at once.
func askMany(t *testing.T, s snapshots.Snapshotter, called context.Context, keys []string, inodes, rounds int) {
	t.Helper()
	var callers sync.WaitGroup
	for caller := 0; caller < mostCallers; caller++ {
		caller := caller
		callers.Add(1)
		go func() {
			defer callers.Done()
			for n := caller; n < rounds*len(keys); n += mostCallers {
				key := keys[n%len(keys)]
				it, err := s.Usage(called, key)
				if err == nil {
					_, err = s.Stat(called, key)
				}
				if err != nil || it.Inodes != int64(inodes) {
					t.Errorf("%s: %v, %v", key, it, err)
					return
				}
			}
		}()
	}
	callers.Wait()
}

package main

import (
	"bytes"
	"encoding/json"
	"errors"
	"fmt"
	"math"
	"math/rand"
	"os"
	"os/exec"
	"path/filepath"
	"regexp"
	"strings"
	"sync"
	"syscall"
	"testing"
	"time"
	"unsafe"

	"github.com/containerd/containerd/namespaces"

	"pibroulez.example/pibroulez"
	"pibroulez.example/pibroulez/containerd"
)

// A script that does this before it becomes the program.
func (p place) programAfter(t *testing.T, begin string) string {
	t.Helper()
	path := p.path("program")
	granted(t, os.WriteFile(path, []byte(fmt.Sprintf("#!/bin/sh\n%s\nexec %q \"$@\"\n", begin, program())), 0o700))
	return path
}

// How many bytes the files of a process may have.
func limitFiles(t *testing.T, pid int, bytes uint64) {
	t.Helper()
	limit := syscall.Rlimit{Cur: bytes, Max: math.MaxUint64}
	if _, _, errno := syscall.RawSyscall6(syscall.SYS_PRLIMIT64, uintptr(pid), syscall.RLIMIT_FSIZE, uintptr(unsafe.Pointer(&limit)), 0, 0, 0); errno != 0 {
		t.Fatal(errno)
	}
}

func isReason(t *testing.T, err error, want pibroulez.Reason, from string) {
	t.Helper()
	if refusal := new(pibroulez.Refusal); !errors.As(err, &refusal) || refusal.Reason != want || refusal.From != from {
		t.Errorf("%v, not %s from %s", err, want, from)
	}
}

// Expects that it ends with this status, and one line of an error that has these words.
func (it *process) expectEnd(t *testing.T, status int, words string) {
	t.Helper()
	equal(t, it.status(t), status)
	var errs []string
	for _, line := range strings.Split(it.said.String(), "\n") {
		if strings.Contains(line, "level=error") {
			errs = append(errs, line)
		}
	}
	if len(errs) != 1 || !strings.Contains(errs[0], words) {
		t.Errorf("%q, not one line with %s", errs, words)
	}
}

// What the log can't keep is refused and changes nothing, and the door stays open. A daemon begins over such a log too.
func TestNotKept(t *testing.T) {
	p := newPlace(t)
	rest := p.lines() + roles("operator") + tenant("a", 100, 100)
	p.configureOver(t, p.programAfter(t, `trap "" XFSZ`), rest)
	it := p.start(t)
	store := p.connect(t)
	_, err := store.Prepare(ctx, "a", "first", "")
	granted(t, err)
	before, err := store.Tree(ctx, "a")
	granted(t, err)
	status, err := os.Stat(p.path("root/calls.jsonl"))
	granted(t, err)
	limitFiles(t, childOf(t, it.Process.Pid), uint64(status.Size()))
	for i := 0; i < 2; i++ {
		_, err = store.Prepare(ctx, "a", "k", "")
		isReason(t, err, pibroulez.ErrNotKept, "log")
		_, err = store.Discard(ctx, "a", "first")
		isReason(t, err, pibroulez.ErrNotKept, "log")
		tree, err := p.connect(t).Tree(ctx, "a")
		granted(t, err)
		equal(t, tree, before)
	}
	limitFiles(t, childOf(t, it.Process.Pid), math.MaxUint64)
	_, err = store.Prepare(ctx, "a", "k", "")
	granted(t, err)
	it.end(t)

	p.configureOver(t, p.programAfter(t, "trap \"\" XFSZ\nulimit -S -f 0"), rest)
	it = p.start(t)
	store = p.connect(t)
	_, err = store.Prepare(ctx, "a", "l", "")
	isReason(t, err, pibroulez.ErrNotKept, "log")
	_, err = store.Stat(ctx, "a", "k")
	granted(t, err)
	it.end(t)
}

// A daemon whose log fails ends with a status and a line that say so, and one that is started anew goes on.
func TestFailedSync(t *testing.T) {
	if _, err := exec.LookPath("cc"); err != nil {
		t.Skip(err)
	}
	p := newPlace(t)
	shim := p.path("syncs.so")
	if said, err := exec.Command("cc", "-shared", "-fPIC", "-O1", "-nostdlib", "../../../.ci/syncs.c", "-o", shim).CombinedOutput(); err != nil {
		t.Fatalf("%v: %s", err, said)
	}
	p.configureOver(t, p.programAfter(t, fmt.Sprintf("export SYNCS=%q LD_PRELOAD=%q", p.folder, shim)), p.lines()+roles("operator")+tenant("a", 9, 9))
	it := p.start(t)
	granted(t, os.WriteFile(p.path("fail"), nil, 0o600))
	_, err := p.connect(t).Prepare(ctx, "a", "k", "")
	isError(t, err, pibroulez.ErrDied)
	it.expectEnd(t, failedLog, "a sync of the log failed")
	granted(t, os.Remove(p.path("fail")))
	it = p.start(t)
	_, err = p.connect(t).Report(ctx)
	granted(t, err)
	it.end(t)
}

// A file that is no log isn't served, and stays as it was.
func TestBadLog(t *testing.T) {
	p := newPlace(t)
	p.configure(t, tenant("a", 1, 1))
	granted(t, os.Mkdir(p.path("root"), 0o700))
	const text = "no log\n"
	granted(t, os.WriteFile(p.path("root/calls.jsonl"), []byte(text), 0o600))
	it := p.command("--config", p.path("pibroulezd.toml"))
	it.begin(t)
	it.expectEnd(t, badLog, "the file is no log")
	found, err := os.ReadFile(p.path("root/calls.jsonl"))
	granted(t, err)
	equal(t, string(found), text)
}

// The log of another process isn't served, and that of a daemon that was killed is, once its process has ended.
func TestLogOfAnother(t *testing.T) {
	p := newPlace(t)
	p.configure(t, tenant("a", 1, 1))
	it := p.start(t)
	other := p.command("--config", p.path("pibroulezd.toml"))
	other.begin(t)
	other.expectEnd(t, busyLog, "calls.jsonl: resource temporarily unavailable")
	granted(t, it.Process.Kill())
	p.start(t).end(t)
}

// A daemon goes on in a log in which its store was restored: ids stay, and so directories are those of their snapshots.
func TestRestoredLog(t *testing.T) {
	p := newPlace(t)
	called := namespaces.WithNamespace(ctx, "test")
	p.configure(t, p.lines()+p.containerd()+roles("operator")+tenant("a", 9, 9))
	it := p.start(t)
	s := p.snapshotter(t)
	_, err := s.Prepare(called, "k", "")
	granted(t, err)
	granted(t, s.Commit(called, "base", "k"))
	mounts, err := s.Prepare(called, "k", "base")
	granted(t, err)
	store := p.connect(t)
	granted(t, store.Limit(ctx, "a", pibroulez.Usage{Blocks: 5, Inodes: 5}))
	var saved bytes.Buffer
	granted(t, store.SaveAll(ctx, func(line json.RawMessage) error {
		_, err := fmt.Fprintf(&saved, "%s\n", line)
		return err
	}))
	it.end(t)
	log := p.path("root/calls.jsonl")
	for _, name := range []string{log, log + "-wal"} {
		granted(t, os.Remove(name))
	}
	restored, err := pibroulez.Restore(ctx, program(), log, &saved)
	granted(t, err)
	granted(t, restored.Close())
	it = p.start(t)
	s = p.snapshotter(t)
	found, err := s.Mounts(called, "k")
	granted(t, err)
	equal(t, found, mounts)
	granted(t, s.Commit(called, "top", "k"))
	quota, err := p.connect(t).Quota(ctx, "a")
	granted(t, err)
	equal(t, quota.Limit, pibroulez.Usage{Blocks: 5, Inodes: 5})
	it.end(t)
}

// A proxy's root of an earlier version is served where there is the door for containerd, and its log stays under another
// name. Without that door it is no log.
func TestRootOfAProxy(t *testing.T) {
	p := newPlace(t)
	called := namespaces.WithNamespace(ctx, "test")
	s, err := containerd.New(ctx, containerd.Config{Program: program(), Root: p.path("root")})
	granted(t, err)
	_, err = s.Prepare(called, "k", "")
	granted(t, err)
	granted(t, s.Commit(called, "base", "k"))
	granted(t, s.Close())
	log := p.path("root/" + containerd.LogFile)
	text, err := os.ReadFile(log)
	granted(t, err)
	lines, _, _ := strings.Cut(string(text), "\n ")
	calls := regexp.MustCompile(`(?m)^{"do":"report","lines":.*\n`).ReplaceAllString(lines+"\n", "")
	old := regexp.MustCompile(`(?m),"id":[0-9]+}$`).ReplaceAllString(calls, "}")
	for _, name := range []string{log, log + "-wal"} {
		granted(t, os.Remove(name))
	}
	granted(t, os.WriteFile(log, []byte(old), 0o600))
	granted(t, os.WriteFile(p.path("root/format"), []byte("1\n"), 0o600))

	p.configure(t, "[tenants.containerd]\nblocks = 1\ninodes = 1\n")
	it := p.command("--config", p.path("pibroulezd.toml"))
	it.begin(t)
	it.expectEnd(t, badLog, "calls.jsonl: the log is damaged")
	for n := 0; n < 2; n++ {
		p.configure(t, p.containerd())
		it = p.start(t)
		info, err := p.snapshotter(t).Stat(called, "base")
		granted(t, err)
		equal(t, info.Name, "base")
		it.end(t)
		found, err := filepath.Glob(p.path("root/calls*"))
		granted(t, err)
		equal(t, found, []string{p.path("root/calls-0.1.0.jsonl"), log, log + "-wal"})
		kept, err := os.ReadFile(found[0])
		granted(t, err)
		equal(t, string(kept), old)
	}
}

// A daemon's log is made short while four clients change the store, and the daemon is killed at random moments after
// another file has come to count. What was answered is there, and the files stay within a bound.
func TestShortLog(t *testing.T) {
	p := newPlace(t)
	p.configure(t, "checkpoint = 2\n"+p.lines()+roles("operator")+tenant("a", 1<<20, 1<<20))
	log := p.path("root/calls.jsonl")
	random := rand.New(rand.NewSource(1))
	var mutex sync.Mutex
	answered := map[string]bool{}
	for kill := 0; kill < 6; kill++ {
		it := p.start(t)
		began := pibroulez.CountingLog(log)
		var group sync.WaitGroup
		for n := 0; n < 4; n++ {
			store, name := p.connect(t), fmt.Sprintf("%d-%d", kill, n)
			group.Add(1)
			go func() {
				defer group.Done()
				for n := 0; ; n++ {
					if err := commitLong(store, fmt.Sprintf("%s-%d", name, n)); err != nil {
						isError(t, err, pibroulez.ErrDied)
						return
					}
					mutex.Lock()
					answered[fmt.Sprintf("%s-%d", name, n)] = true
					mutex.Unlock()
				}
			}()
		}
		deadline := time.Now().Add(time.Minute)
		for pibroulez.CountingLog(log) == began {
			if time.Now().After(deadline) {
				t.Fatalf("%s has counted alone for a minute", began)
			}
			time.Sleep(time.Millisecond)
		}
		time.Sleep(time.Duration(random.Intn(300)) * time.Millisecond)
		granted(t, it.Process.Kill())
		<-it.ended
		group.Wait()
	}
	it := p.start(t)
	tree, err := p.connect(t).Tree(ctx, "a")
	granted(t, err)
	for _, node := range tree {
		delete(answered, node.Key)
	}
	if len(answered) > 0 {
		t.Errorf("answered, and not there: %v", answered)
	}
	// Twice what it has behind a checkpoint: the saved store, with the files of snapshots that are active, and what came meanwhile.
	saved := int64(0)
	granted(t, p.connect(t).SaveAll(ctx, func(line json.RawMessage) error { saved += int64(len(line)) + 1; return nil }))
	bound := 2*saved + 4<<20
	for _, name := range []string{log, log + "-wal"} {
		status, err := os.Stat(name)
		granted(t, err)
		if status.Size() > bound {
			t.Errorf("%s has %d bytes, above %d", name, status.Size(), bound)
		}
	}
	it.end(t)
}

// Commits a snapshot with an empty file, into which much was written.
func commitLong(store *pibroulez.Store, name string) error {
	key := name + "-key"
	_, err := store.Prepare(ctx, "a", key, "")
	if err == nil {
		_, err = store.Create(ctx, "a", key, "/f")
	}
	for n := 0; err == nil && n < 5; n++ {
		_, err = store.WriteText(ctx, "a", key, "/f", 0, strings.Repeat("x", 60_000))
	}
	if err == nil {
		_, err = store.Truncate(ctx, "a", key, "/f", 0)
	}
	if err == nil {
		_, err = store.Commit(ctx, "a", key, name)
	}
	return err
}

package door

import (
	"context"
	"encoding/json"
	"errors"
	"fmt"
	"net"
	"os"
	"os/exec"
	"path/filepath"
	"strings"
	"sync"
	"syscall"
	"testing"
	"time"

	"pibroulez.example/pibroulez"
)

// The test's own program asks a door for a report where it is started so.
func TestMain(m *testing.M) {
	socket := os.Getenv("PIBROULEZ_TEST_DOOR")
	if socket == "" {
		os.Exit(m.Run())
	}
	connection, err := net.Dial("unix", socket)
	if err == nil {
		fmt.Fprintln(connection, `{"do":"report"}`)
		text := make([]byte, 1000)
		var size int
		size, err = connection.Read(text)
		fmt.Print(string(text[:size]))
	}
	if err != nil {
		fmt.Println(err)
		os.Exit(1)
	}
}

func caller(path, socket string) *exec.Cmd {
	process := exec.Command(path)
	process.Env = append(os.Environ(), "PIBROULEZ_TEST_DOOR="+socket)
	return process
}

// A store behind the door, as the client for Go has it.
func (h *house) client(t *testing.T) *pibroulez.Store {
	t.Helper()
	store, err := pibroulez.New(ctx, pibroulez.Config{Socket: h.path})
	granted(t, err)
	t.Cleanup(func() { store.Close() })
	return store
}

// The client for Go makes the calls of the first script of README, has refusals and faults as such, and ends its
// connection alone.
func TestGoClient(t *testing.T) {
	h := newHouse(t, nil)
	store := h.client(t)
	equal(t, store.PID(), os.Getpid())
	_, err := store.Prepare(ctx, "a", "k", "")
	granted(t, err)
	_, err = store.Mkdir(ctx, "a", "k", "/etc")
	granted(t, err)
	_, err = store.Create(ctx, "a", "k", "/etc/x")
	granted(t, err)
	changed, err := store.WriteFill(ctx, "a", "k", "/etc/x", 0, 120, 5000)
	granted(t, err)
	four := pibroulez.Usage{Blocks: 4, Inodes: 3}
	equal(t, changed, pibroulez.Changed{Count: four, Share: four})
	committed, err := store.Commit(ctx, "a", "k", "base")
	granted(t, err)
	equal(t, committed, pibroulez.Committed{ID: 1, Usage: four})
	if _, err := store.Stat(ctx, "a", "k"); !errors.Is(err, pibroulez.ErrNotFound) {
		t.Error(err)
	}
	var fault *pibroulez.Fault
	if err := store.Request(ctx, "stat", map[string]any{"ns": 5}, nil); !errors.As(err, &fault) || fault.Line != 7 {
		t.Error(err)
	}
	if err := store.Request(ctx, "write", map[string]any{"text": strings.Repeat("x", 2<<20)}, nil); !errors.As(err, &fault) || fault.Words != "too long" {
		t.Error(err)
	}
	h.allow(Rights{IsQuota: true})
	var refusal *pibroulez.Refusal
	if _, err := store.Session(ctx); !errors.Is(err, pibroulez.ErrNotAllowed) || !errors.As(err, &refusal) || refusal.From != "door" {
		t.Error(err)
	}
	granted(t, store.Close())
	if _, err := store.Report(ctx); !errors.Is(err, pibroulez.ErrClosed) {
		t.Error(err)
	}
	_, err = h.client(t).Report(ctx)
	granted(t, err)
	log := h.path + ".log"
	for field, config := range map[string]pibroulez.Config{
		"Program": {Program: program()}, "Root": {Root: "/r"}, "Namespaces": {Namespaces: map[string]pibroulez.Usage{}}, "Journal": {Journal: 1},
		"Slots": {Slots: 1}, "LayerInodes": {LayerInodes: 1}, "Ancestors": {Ancestors: 1}, "Log": {Log: log},
	} {
		config.Socket = h.path
		for _, open := range []func(context.Context, pibroulez.Config) (*pibroulez.Store, error){pibroulez.New, pibroulez.OpenOrNew} {
			if _, err := open(ctx, config); !errors.Is(err, pibroulez.ErrNotOfSocket) || !strings.HasSuffix(err.Error(), ": "+field) {
				t.Errorf("%v: %s beside a socket", err, field)
			}
		}
	}
	if _, err := os.Lstat(log); !errors.Is(err, os.ErrNotExist) {
		t.Errorf("%v: a log beside a socket", err)
	}
	if _, err := pibroulez.New(ctx, pibroulez.Config{Socket: h.path + "x"}); !errors.Is(err, os.ErrNotExist) {
		t.Error(err)
	}
}

// An operator saves the store page by page, and a quota service doesn't. Another one's save ends the pages of the first.
func TestSave(t *testing.T) {
	h := newHouse(t, nil)
	store, other := h.client(t), h.client(t)
	_, err := store.Prepare(ctx, "a", "k", "")
	granted(t, err)
	var lines []string
	granted(t, store.SaveAll(ctx, func(line json.RawMessage) error { lines = append(lines, string(line)); return nil }))
	// A store, two namespaces, a snapshot and an end.
	equal(t, len(lines), 5)
	page, err := store.Save(ctx, 0, 1)
	granted(t, err)
	_, err = other.Prepare(ctx, "a", "k2", "")
	granted(t, err)
	rest, err := store.Save(ctx, page.Next, 0)
	granted(t, err)
	equal(t, len(rest.Lines), 4)
	page, err = store.Save(ctx, 0, 1)
	granted(t, err)
	_, err = other.Save(ctx, 0, 1)
	granted(t, err)
	if _, err := store.Save(ctx, page.Next, 0); !errors.Is(err, pibroulez.ErrBadArgument) {
		t.Error(err)
	}
	restored, err := pibroulez.Restore(ctx, program(), "", strings.NewReader(strings.Join(lines, "\n")))
	granted(t, err)
	defer restored.Close()
	report, err := restored.Report(ctx)
	granted(t, err)
	equal(t, report.Records, 1)
	h.allow(Rights{IsQuota: true})
	if _, err := store.Save(ctx, 0, 1); !errors.Is(err, pibroulez.ErrNotAllowed) {
		t.Error(err)
	}
}

// Calls whose contexts end as they wait leave the answers of others in their places, on the same connection too.
func TestContextsEnd(t *testing.T) {
	h := newHouse(t, nil)
	store := h.client(t)
	var done sync.WaitGroup
	for number := 0; number < 32; number++ {
		number := number
		done.Add(1)
		go func() {
			defer done.Done()
			key := fmt.Sprint("k", number)
			for round := 0; round < 20; round++ {
				ended, cancel := context.WithCancel(ctx)
				if round%2 == 0 {
					go cancel()
				}
				_, err := store.Prepare(ended, "a", key, "")
				if err == nil || errors.Is(err, context.Canceled) {
					_, err = store.Discard(ctx, "a", key)
				}
				if err != nil && !errors.Is(err, pibroulez.ErrNotFound) {
					t.Error(err)
				}
				cancel()
			}
		}()
	}
	done.Wait()
	report, err := store.Report(ctx)
	granted(t, err)
	equal(t, report.Records, 0)
}

// A client whose daemon ends has an error that says so, in each call that waits and each later one.
func TestDaemonEnds(t *testing.T) {
	h := newHouse(t, nil)
	store := h.client(t)
	_, err := store.Report(ctx)
	granted(t, err)
	h.end(t)
	<-store.Ended()
	if _, err := store.Report(ctx); !errors.Is(err, pibroulez.ErrDied) || !strings.Contains(err.Error(), "the daemon has ended the connection") {
		t.Error(err)
	}
}

// A log without room refuses what adds, by the system's error too, and takes what frees.
func TestFullDisk(t *testing.T) {
	disk := t.TempDir()
	if err := syscall.Mount("tmpfs", disk, "tmpfs", 0, "size=2m"); err != nil {
		t.Skip("mount: ", err)
	}
	t.Cleanup(func() { syscall.Unmount(disk, syscall.MNT_DETACH) })
	h := newHouseIn(t, disk, nil)
	store := h.client(t)
	_, err := store.Prepare(ctx, "a", "k", "")
	granted(t, err)
	if err := os.WriteFile(filepath.Join(disk, "rest"), make([]byte, 4<<20), 0o600); !errors.Is(err, syscall.ENOSPC) {
		t.Fatal(err)
	}
	// What the log holds beyond its end is used up first.
	for name := 0; err == nil; name++ {
		_, err = store.Put(ctx, "a", "k", fmt.Sprintf("/%d%s", name, strings.Repeat("n", 200)), 0)
	}
	if !errors.Is(err, syscall.ENOSPC) || !errors.Is(err, pibroulez.ErrNoSpace) {
		t.Fatal(err)
	}
	k := h.talk(t)
	equal(t, k.ask(`{"do":"mkdir","ns":"a","key":"k","path":"/`+strings.Repeat("d", 250)+`","id":1}`), `{"answer":{"error":"NoSpace","from":"door"},"id":1}`)
	equal(t, k.ask(`{"do":"quota","ns":"x"}`), `{"error":"NoNamespace","from":"book","of":"ns"}`)
	_, err = store.Discard(ctx, "a", "k")
	granted(t, err)
	granted(t, os.Remove(filepath.Join(disk, "rest")))
	_, err = store.Prepare(ctx, "a", "k", "")
	granted(t, err)
}

// Rounds begin before one is full, so that no line of a long script finds it so, and each is carried out in its place.
func TestRounds(t *testing.T) {
	h := newHouse(t, func(c *Config) { c.Journal = 4096 })
	granted(t, h.store.Roll(ctx, 4096))
	const snapshots = 4096
	k := h.talk(t)
	granted(t, k.SetDeadline(time.Now().Add(5*time.Minute)))
	var answers []string
	read := make(chan struct{})
	go func() {
		defer close(read)
		for len(answers) < 3*snapshots {
			line, err := k.input.ReadString('\n')
			if err != nil {
				t.Error(err)
				return
			}
			answers = append(answers, line)
		}
	}()
	for number := 0; number < snapshots; number++ {
		k.send(fmt.Sprintf(`{"do":"prepare","ns":"a","key":"%d","parent":""}`+"\n"+`{"do":"mkdir","ns":"a","key":"%d","path":"/d"}`+"\n"+
			`{"do":"discard","ns":"a","key":"%d"}`+"\n", number, number, number))
	}
	<-read
	for _, it := range answers {
		if strings.Contains(it, "error") {
			t.Fatal(it)
		}
	}
	report, err := h.store.Report(ctx)
	granted(t, err)
	if report.Entries >= 4096 {
		t.Errorf("%d entries", report.Entries)
	}
	equal(t, h.warned.String(), "")
}

// The client for Python has a store behind the door.
func TestPythonClient(t *testing.T) {
	if _, err := exec.LookPath("python3"); err != nil {
		t.Skip(err)
	}
	h := newHouse(t, nil)
	process := exec.Command("python3", "-B", "-c", `
import pibroulez, sys
with pibroulez.Store.connect(sys.argv[1]) as store:
    store.prepare("a", "k", "")
    store.mkdir("a", "k", "/etc")
    print(store.commit("a", "k", "base").usage, store.pid)
    try:
        store.prepare("a", "base", "")
    except pibroulez.AlreadyExists as error:
        print(error)
`, h.path)
	process.Dir = "../../../python"
	output, err := process.CombinedOutput()
	if want := fmt.Sprintf("Usage(blocks=2, inodes=2) %d\nAlreadyExists (from book)\n", os.Getpid()); err != nil || string(output) != want {
		t.Errorf("%v: %s, not %s", err, output, want)
	}
	_, err = h.store.Stat(ctx, "a", "base")
	granted(t, err)
}

// 200 connections that all call at once are each answered.
func TestManyConnections(t *testing.T) {
	h := newHouse(t, nil)
	var done sync.WaitGroup
	for number := 0; number < 200; number++ {
		store, key := h.client(t), fmt.Sprint("k", number)
		done.Add(1)
		go func() {
			defer done.Done()
			for round := 0; round < 3; round++ {
				if _, err := store.Prepare(ctx, "b", key, ""); err != nil {
					t.Error(err)
				}
				if _, err := store.Tree(ctx, "b"); err != nil {
					t.Error(err)
				}
				if _, err := store.Discard(ctx, "b", key); err != nil {
					t.Error(err)
				}
			}
		}()
	}
	done.Wait()
}

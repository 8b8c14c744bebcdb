package pibroulez

import (
	"bufio"
	"bytes"
	"context"
	"encoding/json"
	"errors"
	"fmt"
	"io/fs"
	"math"
	"math/rand"
	"os"
	"os/exec"
	"path/filepath"
	"strconv"
	"strings"
	"sync"
	"syscall"
	"testing"
	"time"
	"unsafe"
)

func logPath(t *testing.T) string { return filepath.Join(t.TempDir(), "log") }

func loggedConfig(path string) Config {
	limits := map[string]Usage{"a": {1 << 40, 1 << 40}}
	return Config{Program: program(), Root: "/r", Namespaces: limits, Log: path}
}

func reopen(t *testing.T, path string) *Store {
	t.Helper()
	store, err := openOnceFree(path)
	if err != nil {
		t.Fatal(err)
	}
	t.Cleanup(func() { store.Close() })
	return store
}

// The store of a log, once its process of before has ended.
func openOnceFree(path string) (*Store, error) {
	for end := time.Now().Add(time.Minute); ; time.Sleep(time.Millisecond) {
		store, err := Open(ctx, program(), path)
		if err == nil || time.Now().After(end) || !errors.Is(err, syscall.EWOULDBLOCK) {
			return store, err
		}
	}
}

// The lines of a log that count. What stands behind them is none.
func linesOf(t *testing.T, path string) (lines []string) {
	t.Helper()
	text, err := os.ReadFile(path)
	granted(t, err)
	for len(text) > 0 && text[0] == '{' {
		line, rest, isWhole := bytes.Cut(text, []byte("\n"))
		if !isWhole {
			break
		}
		lines, text = append(lines, string(line)+"\n"), rest
	}
	return lines
}

// A script that does this before it becomes the program.
func programAfter(t *testing.T, begin string) string {
	t.Helper()
	named, err := filepath.Abs(program())
	granted(t, err)
	path := filepath.Join(t.TempDir(), "program")
	granted(t, os.WriteFile(path, []byte(fmt.Sprintf("#!/bin/sh\n%s\nexec %q \"$@\"\n", begin, named)), 0o700))
	return path
}

// The program with .ci/syncs.c below it, and the folder as the one that this is told of.
func watchedProgram(t *testing.T, folder string) string {
	t.Helper()
	if _, err := exec.LookPath("cc"); err != nil {
		t.Skip(err)
	}
	shim := filepath.Join(t.TempDir(), "syncs.so")
	if said, err := exec.Command("cc", "-shared", "-fPIC", "-O1", "-nostdlib", "../../.ci/syncs.c", "-o", shim).CombinedOutput(); err != nil {
		t.Fatalf("%v: %s", err, said)
	}
	return programAfter(t, fmt.Sprintf("export SYNCS=%q LD_PRELOAD=%q", folder, shim))
}

// A few snapshots, refusals and questions. The last line of the log is the last prepare.
func fill(t *testing.T, store *Store) {
	t.Helper()
	must[Prepared](t)(store.Prepare(ctx, "a", "k", "", WithLabels(map[string]string{"x": "1"})))
	must[Changed](t)(store.Create(ctx, "a", "k", "/f"))
	must[Seen](t)(store.Look(ctx, "a", "k", "/f"))
	must[Info](t)(store.Stat(ctx, "a", "k"))
	must[Info](t)(store.Stat(ctx, "a", "k", WithEntry()))
	_, err := store.Remove(ctx, "a", "none")
	isError(t, err, ErrNotFound)
	var fault *Fault
	if err := store.Request(ctx, "zap", nil, nil); !errors.As(err, &fault) {
		t.Errorf("%v, not a fault", err)
	}
	must[Committed](t)(store.Commit(ctx, "a", "k", "base"))
	must[Prepared](t)(store.Prepare(ctx, "a", "sealed", "base"))
	_, err = store.Commit(ctx, "a", "sealed", "base")
	isError(t, err, ErrAlreadyExists)
	must[Report](t)(store.Report(ctx))
	must[Prepared](t)(store.Prepare(ctx, "a", "last", "base"))
}

// All is as it was, and goes on from there: numbers of entries, ids, and that a snapshot is sealed.
func TestReopened(t *testing.T) {
	path := logPath(t)
	store := newStoreOf(t, loggedConfig(path))
	fill(t, store)
	report, tree := must[Report](t)(store.Report(ctx)), must[[]Node](t)(store.Tree(ctx, "a"))
	journal := must[[]Entry](t)(store.Journal(ctx, "a", 0, 0))
	infos := must[[]Info](t)(store.Walk(ctx, "a", "", 0, Filter{}))
	granted(t, store.Close())
	store = reopen(t, path)
	equal(t, must[Report](t)(store.Report(ctx)), report)
	equal(t, must[[]Node](t)(store.Tree(ctx, "a")), tree)
	equal(t, must[[]Entry](t)(store.Journal(ctx, "a", 0, 0))[:len(journal)], journal)
	equal(t, must[[]Info](t)(store.Walk(ctx, "a", "", 0, Filter{})), infos)
	_, err := store.Create(ctx, "a", "sealed", "/g")
	isError(t, err, ErrNoHand)
	equal(t, must[Prepared](t)(store.Prepare(ctx, "a", "next", "base")).ID, uint64(4))
}

// The lines of the log are commands of a script: of the calls, without lookups and what made no entry, each with a mark,
// which is a question.
func TestLogIsAScript(t *testing.T) {
	path := logPath(t)
	store := newStoreOf(t, loggedConfig(path))
	fill(t, store)
	granted(t, store.Close())
	var words []string
	for _, line := range linesOf(t, path) {
		var command struct{ Do string }
		granted(t, json.Unmarshal([]byte(line), &command))
		words = append(words, command.Do)
	}
	calls := "open prepare create stat remove commit prepare commit prepare"
	equal(t, strings.Join(words, " "), strings.ReplaceAll(calls, " ", " report ")+" report")
	run := exec.Command(program(), "run")
	run.Stdin, _ = os.Open(path)
	answers, err := run.Output()
	granted(t, err)
	equal(t, bytes.Count(answers, []byte("\n")), len(words))
}

// Behind the lines stands a blank in the place of a brace. However much of the last line a crash leaves behind it, the
// store is the one before its call, and the log goes on.
func TestWhatACrashLeaves(t *testing.T) {
	path := logPath(t)
	store := newStoreOf(t, loggedConfig(path))
	fill(t, store)
	granted(t, store.Close())
	lines := linesOf(t, path)
	// The line of a call, and the mark behind it.
	before, last := strings.Join(lines[:len(lines)-2], ""), strings.Join(lines[len(lines)-2:], "")
	for _, rest := range []int{0, 1, len(last) / 2, len(last) - 2, len(last) - 1} {
		granted(t, os.WriteFile(path, []byte(before+" "+last[1:1+rest]), 0o600))
		store := reopen(t, path)
		equal(t, must[Report](t)(store.Report(ctx)).Records, 2)
		must[Prepared](t)(store.Prepare(ctx, "a", "last", "base"))
		granted(t, store.Close())
		found := linesOf(t, path)
		equal(t, strings.Join(found[:len(found)-2], ""), before)
		equal(t, len(found), len(lines))
	}
}

// A log that was cut is told, wherever it was, and stays as it was.
func TestCutLog(t *testing.T) {
	path := logPath(t)
	store := newStoreOf(t, loggedConfig(path))
	fill(t, store)
	granted(t, store.Close())
	lines := linesOf(t, path)
	whole, last := strings.Join(lines, ""), len(strings.Join(lines[len(lines)-2:], ""))
	for _, rest := range []int{0, 1, last / 2, last - 1, last} {
		granted(t, os.WriteFile(path, []byte(whole[:len(whole)-rest]), 0o600))
		_, err := Open(ctx, program(), path)
		if bad := new(BadLog); !errors.As(err, &bad) || bad.Line != 0 || !strings.Contains(bad.Words, "damaged at byte") {
			t.Errorf("%v, not damaged", err)
		}
		isFile(t, path, whole[:len(whole)-rest])
	}
}

func TestBadLogs(t *testing.T) {
	path := logPath(t)
	_, err := Open(ctx, program(), path)
	isError(t, err, fs.ErrNotExist)
	_, err = os.Lstat(path)
	isError(t, err, fs.ErrNotExist)
	for _, lines := range []string{"", "\x00"} {
		granted(t, os.WriteFile(path, []byte(lines), 0o600))
		_, err := Open(ctx, program(), path)
		isError(t, err, fs.ErrNotExist)
	}
	opening := `{"do":"open","root":"/r","namespaces":[]}` + "\n"
	// The mark of no line that changes something.
	none := strings.Repeat("0", 64)
	mark := `{"do":"report","lines":"` + none + `","answers":"` + none + `"}` + "\n"
	for _, it := range []struct {
		lines string
		line  uint64
	}{
		{`{"do":"report"}` + "\n" + mark + " ", 1},
		{`{"do":"open","root":"r","namespaces":[]}` + "\n" + `{"do":"report"}` + "\n" + mark + " ", 1},
		{strings.Replace(opening, "open", "opeN", 1) + mark + " ", 1},
		{opening + " ", 0},
		{opening + mark + " ", 0},
		{`{"do":`, 0},
		{"a text", 0},
		{strings.Repeat("x", 10_000) + "\na text\nwithout its line feed", 0},
		{opening + "\x00\x00\n" + `{"do":"report"}` + "\n", 0},
	} {
		granted(t, os.WriteFile(path, []byte(it.lines), 0o600))
		for name, begin := range map[string]func() (*Store, error){
			"New":       func() (*Store, error) { return New(ctx, loggedConfig(path)) },
			"Open":      func() (*Store, error) { return Open(ctx, program(), path) },
			"OpenOrNew": func() (*Store, error) { return OpenOrNew(ctx, loggedConfig(path)) },
		} {
			_, err := begin()
			if bad := new(BadLog); !errors.As(err, &bad) || bad.Line != it.line || bad.Path != path || errors.Is(err, ErrDied) {
				t.Errorf("%s: %v, not a bad line %d", name, err, it.line)
			}
			isFile(t, path, it.lines)
		}
	}
	_, err = New(ctx, loggedConfig("/dev/null"))
	if bad := new(BadLog); !errors.As(err, &bad) || bad.Line != 0 {
		t.Errorf("%v, not a file that isn't regular", err)
	}
}

func isFile(t *testing.T, path, want string) {
	t.Helper()
	text, err := os.ReadFile(path)
	granted(t, err)
	if string(text) != want {
		t.Errorf("%.100q, not %.100q", text, want)
	}
}

// A new store takes a log without a line, which a refused one leaves. Its file is its owner's alone.
func TestNewLogs(t *testing.T) {
	path := logPath(t)
	for _, prepare := range []func() error{
		func() error { return nil },
		func() error { return os.WriteFile(path, nil, 0o600) },
		func() error { return os.WriteFile(path, []byte{0}, 0o600) },
	} {
		os.Remove(path)
		granted(t, prepare())
		config := loggedConfig(path)
		config.Root = "r"
		for n := 0; n < 2; n++ {
			_, err := New(ctx, config)
			isError(t, err, ErrBadArgument)
			equal(t, len(linesOf(t, path)), 0)
			_, err = Open(ctx, program(), path)
			isError(t, err, fs.ErrNotExist)
		}
		granted(t, newStoreOf(t, loggedConfig(path)).Close())
		granted(t, reopen(t, path).Close())
		status, err := os.Stat(path)
		granted(t, err)
		equal(t, status.Mode().Perm(), fs.FileMode(0o600))
	}
	config := loggedConfig(logPath(t))
	config.Program = "/none"
	_, err := New(ctx, config)
	isError(t, err, fs.ErrNotExist)
	_, err = New(ctx, loggedConfig(path+"\xff"))
	isError(t, err, ErrNotText)
	_, err = New(ctx, loggedConfig(filepath.Join(path, "log")))
	isError(t, err, syscall.ENOTDIR)
}

// The store of a log that is there is opened again, also where the program isn't; else there is a new one.
func TestOpenOrNew(t *testing.T) {
	config := loggedConfig(logPath(t))
	for records := 0; records < 2; records++ {
		store, err := OpenOrNew(ctx, config)
		granted(t, err)
		equal(t, must[Report](t)(store.Report(ctx)).Records, records)
		must[Prepared](t)(store.Prepare(ctx, "a", fmt.Sprint(records), ""))
		granted(t, store.Close())
	}
	config.Program = "/none"
	_, err := OpenOrNew(ctx, config)
	isError(t, err, fs.ErrNotExist)
}

func TestOneStoreAtATime(t *testing.T) {
	path := logPath(t)
	store := newStoreOf(t, loggedConfig(path))
	for n := 0; n < 2; n++ {
		_, err := Open(ctx, program(), path)
		isError(t, err, syscall.EWOULDBLOCK)
		if errors.Is(err, ErrDied) {
			t.Errorf("%v: no store has ended", err)
		}
	}
	granted(t, store.Close())
	_, err := New(ctx, loggedConfig(path))
	isError(t, err, fs.ErrExist)
	equal(t, must[Report](t)(reopen(t, path).Report(ctx)).Entries, uint64(1))
}

// Where its context ends, a store isn't opened again, and its log is free.
func TestContextOfAnOpen(t *testing.T) {
	path := logPath(t)
	granted(t, newStoreOf(t, loggedConfig(path)).Close())
	ending, cancel := context.WithTimeout(ctx, 20*time.Millisecond)
	defer cancel()
	_, err := Open(ending, programAfter(t, "sleep 0.5"), path)
	isError(t, err, context.DeadlineExceeded)
	equal(t, must[Report](t)(reopen(t, path).Report(ctx)).Entries, uint64(1))
}

// How many bytes the files of a process may have.
func limitFiles(t *testing.T, pid int, bytes uint64) {
	t.Helper()
	limit := syscall.Rlimit{Cur: bytes, Max: math.MaxUint64}
	_, _, errno := syscall.RawSyscall6(syscall.SYS_PRLIMIT64, uintptr(pid), syscall.RLIMIT_FSIZE, uintptr(unsafe.Pointer(&limit)), 0, 0, 0)
	if errno != 0 {
		t.Fatal(errno)
	}
}

// What the process can't keep is refused, and changes nothing; what changes nothing is answered. The store goes on.
func TestNotKept(t *testing.T) {
	path := logPath(t)
	config := loggedConfig(path)
	config.Program = programAfter(t, `trap "" XFSZ`)
	store := newStoreOf(t, config)
	must[Prepared](t)(store.Prepare(ctx, "a", "first", ""))
	before, lines := must[[]Node](t)(store.Tree(ctx, "a")), linesOf(t, path)
	status, err := os.Stat(path)
	granted(t, err)
	limitFiles(t, store.PID(), uint64(status.Size()))
	for i := 0; i < 2; i++ {
		must[Info](t)(store.Stat(ctx, "a", "first"))
		must[[]Mount](t)(store.Mounts(ctx, "a", "first"))
		must[Seen](t)(store.Look(ctx, "a", "first", "/"))
		if fault := new(Fault); !errors.As(store.Request(ctx, "zap", nil, nil), &fault) {
			t.Error("no fault")
		}
		_, err := store.Prepare(ctx, "a", "k", "")
		isError(t, err, ErrNotKept)
		if refusal := new(Refusal); !errors.As(err, &refusal) || refusal.From != "log" {
			t.Errorf("%v, not of the log", err)
		}
		_, err = store.Discard(ctx, "a", "first")
		isError(t, err, ErrNotKept)
	}
	equal(t, must[[]Node](t)(store.Tree(ctx, "a")), before)
	equal(t, linesOf(t, path), lines)
	granted(t, store.Err())
	limitFiles(t, store.PID(), math.MaxUint64)
	equal(t, must[Prepared](t)(store.Prepare(ctx, "a", "k", "")).ID, uint64(2))
	granted(t, store.Close())
	equal(t, must[Report](t)(reopen(t, path).Report(ctx)).Records, 2)
}

// Where a sync fails, the calls that wait and each later one are told, and the log is opened again.
func TestFailedSync(t *testing.T) {
	path := logPath(t)
	config := loggedConfig(path)
	config.Program = watchedProgram(t, filepath.Dir(path))
	store := newStoreOf(t, config)
	must[Prepared](t)(store.Prepare(ctx, "a", "first", ""))
	granted(t, os.WriteFile(filepath.Join(filepath.Dir(path), "fail"), nil, 0o600))
	must[Info](t)(store.Stat(ctx, "a", "first"))
	for i := 0; i < 2; i++ {
		_, err := store.Prepare(ctx, "a", "k", "")
		isError(t, err, ErrDied)
		isError(t, err, ErrLogFailed)
		if exit := new(exec.ExitError); !errors.As(err, &exit) || exit.ExitCode() != 8 {
			t.Errorf("%v, not of status 8", err)
		}
	}
	if records := must[Report](t)(reopen(t, path).Report(ctx)).Records; records != 1 && records != 2 {
		t.Errorf("%d snapshots", records)
	}
}

// Calls that are in flight together share their syncs, and each is in the log when it is answered.
func TestSyncedTogether(t *testing.T) {
	path := logPath(t)
	folder := filepath.Dir(path)
	config := loggedConfig(path)
	config.Program, config.Slots = watchedProgram(t, folder), 160
	store := newStoreOf(t, config)
	granted(t, os.WriteFile(filepath.Join(folder, "slow"), nil, 0o600))
	syncs := func() int64 {
		status, err := os.Stat(filepath.Join(folder, "count"))
		granted(t, err)
		return status.Size()
	}
	before := syncs()
	var group sync.WaitGroup
	for n := 0; n < 16; n++ {
		n := n
		group.Add(1)
		go func() {
			defer group.Done()
			for i := 0; i < 10; i++ {
				key := fmt.Sprintf("%d-%d", n, i)
				if _, err := store.Prepare(ctx, "a", key, ""); err != nil {
					t.Error(err)
				}
				if lines := strings.Join(linesOf(t, path), ""); !strings.Contains(lines, fmt.Sprintf(`"key":"%s"`, key)) {
					t.Errorf("%s is answered, and isn't in the log", key)
				}
			}
		}()
	}
	group.Wait()
	if count := syncs() - before; count > 160 {
		t.Errorf("%d syncs of 160 calls", count)
	}
}

// A folder on a disk of its own, and what fills and empties it.
func smallDisk(t *testing.T) (folder string, fill, empty func()) {
	t.Helper()
	return diskOf(t, "1m")
}

func diskOf(t *testing.T, size string) (folder string, fill, empty func()) {
	t.Helper()
	folder = t.TempDir()
	if err := syscall.Mount("tmpfs", folder, "tmpfs", 0, "size="+size); err != nil {
		t.Skip("mount: ", err)
	}
	t.Cleanup(func() { syscall.Unmount(folder, 0) })
	rest := filepath.Join(folder, "rest")
	return folder, func() {
			isError(t, os.WriteFile(rest, make([]byte, 1<<20), 0o600), syscall.ENOSPC)
		}, func() {
			granted(t, os.Remove(rest))
		}
}

// On a full disk what asks and what frees is done, also when the store is opened again there. Other calls are refused, and
// nothing is made, until there is room again.
func TestFullDisk(t *testing.T) {
	folder, fill, empty := smallDisk(t)
	config := loggedConfig(filepath.Join(folder, "log"))
	store := newStoreOf(t, config)
	for _, key := range []string{"k", "l", "m"} {
		must[Prepared](t)(store.Prepare(ctx, "a", key, ""))
	}
	must[Changed](t)(store.Create(ctx, "a", "m", "/f"))
	fill()
	write := func() error {
		_, err := store.WriteText(ctx, "a", "m", "/f", 0, strings.Repeat("x", 100_000))
		return err
	}
	for err := write(); !errors.Is(err, syscall.ENOSPC); err = write() {
		granted(t, err)
	}
	for opened := 0; ; opened++ {
		must[Info](t)(store.Stat(ctx, "a", "m"))
		must[Seen](t)(store.Look(ctx, "a", "m", "/"))
		granted(t, store.Roll(ctx, 0))
		must[Usage](t)(store.Discard(ctx, "a", []string{"k", "l"}[opened]))
		isError(t, write(), syscall.ENOSPC)
		granted(t, store.Err())
		if opened == 1 {
			break
		}
		granted(t, store.Close())
		store = reopen(t, config.Log)
	}
	empty()
	must[Prepared](t)(store.Prepare(ctx, "a", "n", ""))
	granted(t, store.Close())
	equal(t, must[Report](t)(reopen(t, config.Log).Report(ctx)).Open, 2)
}

func kills() int {
	if count, err := strconv.Atoi(os.Getenv("PIBROULEZ_KILLS")); err == nil {
		return count
	}
	return 20
}

// The snapshots of this kill are those that were answered, and at most this many more. What was prepared may have been
// committed since. All active snapshots are discarded then, and the log is left.
func checkAnswered(t *testing.T, path string, kill int, answered map[string]Kind, more int) {
	t.Helper()
	store, err := openOnceFree(path)
	granted(t, err)
	defer store.Close()
	found := map[string]Node{}
	for _, node := range must[[]Node](t)(store.Tree(ctx, "a")) {
		if node.Kind == KindActive {
			must[Usage](t)(store.Discard(ctx, "a", node.Key))
		}
		if strings.HasPrefix(node.Key, fmt.Sprintf("%d-", kill)) {
			found[node.Key] = node
		}
	}
	for key, kind := range answered {
		if _, is := found[key]; kind == KindActive && !is {
			key, kind = strings.TrimSuffix(key, "-key"), KindCommitted
		}
		if node := found[key]; node.Kind != kind || kind == KindCommitted && node.Usage != (Usage{1, 2}) {
			t.Errorf("kill %d: %s is %+v, not %s", kill, key, node, kind)
		}
	}
	if len(found) > len(answered)+more {
		t.Errorf("kill %d: %d snapshots, and %d were answered", kill, len(found), len(answered))
	}
}

// Four goroutines make snapshots as the process is killed. Their last calls, which weren't answered, may have been made.
func TestKilledProcess(t *testing.T) {
	path := logPath(t)
	granted(t, newStoreOf(t, loggedConfig(path)).Close())
	random := rand.New(rand.NewSource(int64(kills())))
	for kill := 0; kill < kills(); kill++ {
		store := reopen(t, path)
		var mutex sync.Mutex
		answered := map[string]Kind{}
		var group sync.WaitGroup
		for goroutine := 0; goroutine < 4; goroutine++ {
			goroutine := goroutine
			group.Add(1)
			go func() {
				defer group.Done()
				for n := 0; ; n++ {
					key := fmt.Sprintf("%d-%d-%d-key", kill, goroutine, n)
					err := makeSnapshot(store, key, strings.TrimSuffix(key, "-key"), func(gone, come string, kind Kind) {
						mutex.Lock()
						defer mutex.Unlock()
						delete(answered, gone)
						answered[come] = kind
					})
					if err != nil {
						isError(t, err, ErrDied)
						return
					}
				}
			}()
		}
		time.Sleep(time.Duration(random.Intn(100)) * time.Millisecond)
		syscall.Kill(store.PID(), syscall.SIGKILL)
		group.Wait()
		checkAnswered(t, path, kill, answered, 4)
	}
}

func makeSnapshot(store *Store, key, name string, answered func(gone, come string, kind Kind)) error {
	if _, err := store.Prepare(ctx, "a", key, ""); err != nil {
		return err
	}
	answered("", key, KindActive)
	if _, err := store.Create(ctx, "a", key, "/file"); err != nil {
		return err
	}
	if _, err := store.Commit(ctx, "a", key, name); err != nil {
		return err
	}
	answered(key, name, KindCommitted)
	return nil
}

const committerLog = "PIBROULEZ_COMMITTER_LOG"

// Where the environment names a log, this is the client that TestKilledClient kills.
func TestMain(m *testing.M) {
	if path, kill, found := strings.Cut(os.Getenv(committerLog), "\n"); found {
		fmt.Fprintln(os.Stderr, commitOn(path, kill))
		os.Exit(1)
	}
	os.Exit(m.Run())
}

// Commits snapshots, and prints each name once the commit was answered.
func commitOn(path, kill string) error {
	store, err := openOnceFree(path)
	for n := 0; err == nil; n++ {
		err = makeSnapshot(store, "key", fmt.Sprintf("%s-%d", kill, n), func(_, come string, kind Kind) {
			if kind == KindCommitted {
				fmt.Println(come)
			}
		})
	}
	return err
}

// A client is killed, and its program ends. The one call that wasn't answered may have been made.
func TestKilledClient(t *testing.T) {
	path := logPath(t)
	granted(t, newStoreOf(t, loggedConfig(path)).Close())
	random := rand.New(rand.NewSource(int64(kills())))
	for kill := 0; kill < kills()/4; kill++ {
		client := exec.Command(os.Args[0])
		client.Env = append(os.Environ(), fmt.Sprintf("%s=%s\n%d", committerLog, path, kill))
		output, err := client.StdoutPipe()
		granted(t, err)
		granted(t, client.Start())
		names := bufio.NewReader(output)
		answered := map[string]Kind{}
		for line, err := names.ReadString('\n'); err == nil; line, err = names.ReadString('\n') {
			if len(answered) == 0 {
				time.AfterFunc(time.Duration(random.Intn(100))*time.Millisecond, func() { client.Process.Kill() })
			}
			answered[strings.TrimSpace(line)] = KindCommitted
		}
		client.Wait()
		checkAnswered(t, path, kill, answered, 1)
	}
}

// One append for each call that changes the store and is waited for, with however long a line, and none for a question. What
// an append has left that didn't come to its end is none.
func TestLogAppends(t *testing.T) {
	path := logPath(t)
	store := newStoreOf(t, loggedConfig(path))
	told := func(store *Store, want uint64) {
		t.Helper()
		equal(t, must[uint64](t)(store.LogAppends()), want)
	}
	told(store, 1)
	for number := uint64(2); number < 5; number++ {
		key := fmt.Sprint(number)
		must[Prepared](t)(store.Prepare(ctx, "a", key, ""))
		must[Info](t)(store.Stat(ctx, "a", key))
		told(store, number)
	}
	must[Changed](t)(store.Symlink(ctx, "a", "2", "/s", strings.Repeat("t", 4095)))
	told(store, 5)
	granted(t, store.Close())
	told(reopen(t, path), 5)

	text, err := os.ReadFile(path)
	granted(t, err)
	left := bytes.TrimRight(text, " \x00")
	granted(t, os.WriteFile(path+"-left", append(append([]byte{}, left...), ` "do":"session"}`+"\n"+string(markHead)+"\n"...), 0o600))
	file, err := os.Open(path + "-left")
	granted(t, err)
	defer file.Close()
	appends, bytes, err := new(marks).count(func() *part { return &part{file: file} })
	granted(t, err)
	equal(t, []uint64{appends, uint64(bytes)}, []uint64{5, uint64(len(left))})
}

package pibroulez

import (
	"bytes"
	"encoding/json"
	"errors"
	"fmt"
	"io/fs"
	"math/rand"
	"os"
	"path/filepath"
	"strings"
	"sync"
	"syscall"
	"testing"
	"time"
)

// A store whose log is made short as often as can be: where it has 1 MiB.
func shortConfig(path string) Config {
	config := loggedConfig(path)
	config.Checkpoint = 1
	return config
}

// A call with a long line, which makes the store no greater.
func writeLong(store *Store) error {
	_, err := store.WriteText(ctx, "a", "long", "/f", 0, strings.Repeat("x", 100_000))
	return err
}

// A store with a file in an active snapshot.
func newShortStore(t *testing.T, config Config) *Store {
	t.Helper()
	store := newStoreOf(t, config)
	must[Prepared](t)(store.Prepare(ctx, "a", "long", ""))
	must[Changed](t)(store.Create(ctx, "a", "long", "/f"))
	return store
}

// Has the log made short, which the next calls do, and counts the calls.
func makeShort(t *testing.T, store *Store, path string) (calls uint64) {
	t.Helper()
	for before := CountingLog(path); CountingLog(path) == before; calls++ {
		granted(t, writeLong(store))
		if calls == 1000 {
			t.Fatal("the log isn't made short")
		}
	}
	return calls
}

// Over checkpoints the store has all that it had. Bytes of the log stay within a bound, appends are never fewer, and the
// reserve is behind the file that counts.
func TestCheckpoints(t *testing.T) {
	path := logPath(t)
	store := newShortStore(t, shortConfig(path))
	last := must[uint64](t)(store.LogAppends())
	for n := 0; n < 60; n++ {
		before := CountingLog(path)
		granted(t, writeLong(store))
		appends := must[uint64](t)(store.LogAppends())
		if appends <= last {
			t.Fatalf("%d appends, and %d before the last call", appends, last)
		}
		last = appends
		if size := store.LogBytes(); size > 3<<19 {
			t.Fatalf("%d bytes of the log", size)
		}
		if CountingLog(path) == before {
			hasReserve(t, store, before)
		}
	}
	granted(t, store.Close())
	store, err := OpenOrNew(ctx, shortConfig(path))
	granted(t, err)
	defer store.Close()
	equal(t, must[Seen](t)(store.Look(ctx, "a", "long", "/f")).Size, uint64(100_000))
	makeShort(t, store, path)
	status, err := os.Stat(path + "-wal")
	granted(t, err)
	equal(t, status.Mode().Perm(), fs.FileMode(0o600))
}

// Each append is counted once, however many checkpoints were since the last question. A checkpoint makes two: the line by
// which its round begins, and a mark.
func TestAppendsOverCheckpoints(t *testing.T) {
	path := logPath(t)
	store := newShortStore(t, shortConfig(path))
	appends := must[uint64](t)(store.LogAppends())
	equal(t, appends, uint64(3))
	for checkpoints := uint64(1); checkpoints < 5; checkpoints++ {
		for n := uint64(0); n < checkpoints; n++ {
			appends += makeShort(t, store, path) + 2
		}
		equal(t, must[uint64](t)(store.LogAppends()), appends)
		for n := uint64(0); n < checkpoints; n++ {
			granted(t, writeLong(store))
			appends++
			equal(t, must[uint64](t)(store.LogAppends()), appends)
		}
	}
}

// A file holds at least the reserve beyond its end.
func hasReserve(t *testing.T, store *Store, path string) {
	t.Helper()
	if store.log.isNone {
		t.Log("no reserve on this file system")
		return
	}
	status, err := os.Stat(path)
	granted(t, err)
	if held := status.Sys().(*syscall.Stat_t).Blocks*512 - status.Size(); held < reserveSize {
		t.Errorf("%d bytes are held beyond the end", held)
	}
}

// A round that begins by itself ends sessions and takes entries. The lines of a saved store are those of its first page.
func TestRoundOfACheckpoint(t *testing.T) {
	path := logPath(t)
	store := newShortStore(t, shortConfig(path))
	session := must[uint64](t)(store.Session(ctx))
	must[Info](t)(store.Stat(ctx, "a", "long", WithSession(session), WithEntry()))
	entries := must[Report](t)(store.Report(ctx)).Entries
	var whole, paged []json.RawMessage
	granted(t, store.SaveAll(ctx, func(line json.RawMessage) error {
		whole = append(whole, line)
		return nil
	}))
	page := must[SavedPage](t)(store.Save(ctx, 0, 1))
	makeShort(t, store, path)
	for ; ; page = must[SavedPage](t)(store.Save(ctx, page.Next, 1)) {
		if paged = append(paged, page.Lines...); page.Next == 0 {
			break
		}
	}
	equal(t, fmt.Sprintf("%s", paged), fmt.Sprintf("%s", whole))
	_, err := store.Stat(ctx, "a", "long", WithSession(session), WithEntry())
	isError(t, err, ErrNoSession)
	if found := must[Report](t)(store.Report(ctx)).Entries; found > entries {
		t.Errorf("%d entries of the round, and %d of the one before", found, entries)
	}
	equal(t, must[uint64](t)(store.Session(ctx)), uint64(1))
}

// Without a number for it no log is made short, whatever it has.
func TestNoCheckpoint(t *testing.T) {
	path := logPath(t)
	store := newShortStore(t, loggedConfig(path))
	for n := 0; n < 15; n++ {
		granted(t, writeLong(store))
	}
	if bytes := store.LogBytes(); bytes < 1_500_000 {
		t.Errorf("%d bytes of the log", bytes)
	}
	status, err := os.Stat(path + "-wal")
	granted(t, err)
	if status.Size() > 1 {
		t.Errorf("%d bytes of the other file", status.Size())
	}
	// Nor is one that was, and is opened so. All is read of the file that counts.
	granted(t, store.Close())
	store, err = OpenOrNew(ctx, shortConfig(path))
	granted(t, err)
	makeShort(t, store, path)
	granted(t, store.Close())
	_, err = New(ctx, loggedConfig(path))
	isError(t, err, fs.ErrExist)
	store = reopen(t, path)
	appends := must[uint64](t)(store.LogAppends())
	for n := 0; n < 15; n++ {
		granted(t, writeLong(store))
	}
	equal(t, CountingLog(path), path+"-wal")
	equal(t, must[uint64](t)(store.LogAppends()), appends+15)
}

// Waits until another file than this one counts of the log.
func awaitOther(t *testing.T, path, began string) {
	t.Helper()
	for end := time.Now().Add(time.Minute); CountingLog(path) == began; time.Sleep(time.Millisecond) {
		if time.Now().After(end) {
			t.Fatalf("%s has counted alone for a minute", began)
		}
	}
}

// The process is killed at random moments, some of them soon after a checkpoint, while four callers make snapshots with
// long lines. What was answered is there.
func TestKilledInACheckpoint(t *testing.T) {
	path := logPath(t)
	config := shortConfig(path)
	granted(t, newShortStore(t, config).Close())
	random := rand.New(rand.NewSource(int64(kills())))
	for kill := 0; kill < kills(); kill++ {
		began := CountingLog(path)
		store, err := OnceFree(ctx, func() (*Store, error) { return OpenOrNew(ctx, config) })
		granted(t, err)
		var mutex sync.Mutex
		answered := map[string]Kind{}
		var group sync.WaitGroup
		for goroutine := 0; goroutine < 4; goroutine++ {
			goroutine := goroutine
			group.Add(1)
			go func() {
				defer group.Done()
				for n := 0; ; n++ {
					key := fmt.Sprintf("%d-%d-%d-key", kill, goroutine, n)
					err := makeSnapshot(store, key, strings.TrimSuffix(key, "-key"), func(gone, come string, kind Kind) {
						mutex.Lock()
						defer mutex.Unlock()
						delete(answered, gone)
						answered[come] = kind
					})
					if err == nil {
						err = writeLong(store)
					}
					// The snapshot of the long lines goes with the first check.
					if err != nil && !errors.Is(err, ErrNotFound) {
						isError(t, err, ErrDied)
						return
					}
				}
			}()
		}
		if kill%4 == 3 {
			awaitOther(t, path, began)
		}
		time.Sleep(time.Duration(random.Intn(150)) * time.Millisecond)
		syscall.Kill(store.PID(), syscall.SIGKILL)
		group.Wait()
		store.Close()
		checkAnswered(t, path, kill, answered, 4)
		store = reopen(t, path)
		must[Prepared](t)(store.Prepare(ctx, "a", "long", ""))
		must[Changed](t)(store.Create(ctx, "a", "long", "/f"))
		granted(t, store.Close())
	}
}

// A disk is full before, while and after the lines of a checkpoint are written, which take all there is. Calls that free
// something are made at each moment, and others at none.
func TestCheckpointOnAFullDisk(t *testing.T) {
	folder, _, _ := diskOf(t, "16m")
	path, rest := filepath.Join(folder, "log"), filepath.Join(folder, "rest")
	store := newShortStore(t, shortConfig(path))
	for n := 0; n < 60; n++ {
		must[Prepared](t)(store.Prepare(ctx, "a", fmt.Sprint("k", n), ""))
	}
	for store.LogBytes() < 900_000 {
		granted(t, writeLong(store))
	}
	free := fillDisk(t, rest, 16<<20)
	for err := writeLong(store); !errors.Is(err, syscall.ENOSPC); err = writeLong(store) {
		granted(t, err)
	}
	if bytes := store.LogBytes(); bytes < 1<<20 {
		t.Fatalf("%d bytes of the log are too few for a checkpoint", bytes)
	}
	freed := 0
	discard := func() {
		t.Helper()
		must[Usage](t)(store.Discard(ctx, "a", fmt.Sprint("k", freed)))
		freed++
	}
	pages := 0
	for ; CountingLog(path) == path; pages++ {
		if pages == 200 {
			t.Fatal("the log isn't made short")
		}
		// One page more of the disk, which the lines of the checkpoint take.
		free -= 4096
		granted(t, os.Truncate(rest, free))
		for n := 0; n < 2; n++ {
			must[Usage](t)(store.Trim(ctx, "a", "long"))
			must[Seen](t)(store.Look(ctx, "a", "long", "/f"))
		}
	}
	if pages < 10 {
		t.Errorf("the log was made short with %d pages more", pages)
	}
	fillDisk(t, filepath.Join(folder, "more"), 1<<20)
	for freed < 60 {
		isError(t, writeLong(store), syscall.ENOSPC)
		discard()
	}
	granted(t, store.Err())
	granted(t, store.Close())
	store = reopen(t, path)
	equal(t, must[Report](t)(store.Report(ctx)).Records, 1)
	for _, name := range []string{"rest", "more"} {
		granted(t, os.Remove(filepath.Join(folder, name)))
	}
	granted(t, writeLong(store))
}

// Fills the disk by a file, and tells how many bytes that got.
func fillDisk(t *testing.T, path string, most int) int64 {
	t.Helper()
	if err := os.WriteFile(path, bytes.Repeat([]byte{1}, most), 0o600); !errors.Is(err, syscall.ENOSPC) {
		t.Fatalf("%v, not a full disk", err)
	}
	status, err := os.Stat(path)
	granted(t, err)
	return status.Size()
}

// Of calls that are under way as the lines of a checkpoint fill the disk, those that free something are made, also where they
// come to the file that counts then, which has no room.
func TestCallsBesideACheckpointOnAFullDisk(t *testing.T) {
	// How many pages it takes depends on how many calls the process reads together.
	for pages, made := int64(70), 0; made < 4; pages += 3 {
		if isMadeShort(t, pages) {
			made++
		}
		if pages > 300 {
			t.Fatal("no log is made short")
		}
	}
}

// Makes calls while so many pages of the disk are free for a checkpoint, and tells whether that took place.
func isMadeShort(t *testing.T, pages int64) bool {
	t.Helper()
	folder, _, _ := diskOf(t, "4m")
	path, rest := filepath.Join(folder, "log"), filepath.Join(folder, "rest")
	store := newShortStore(t, shortConfig(path))
	key := strings.Repeat("k", 1000)
	must[Prepared](t)(store.Prepare(ctx, "a", key, ""))
	for store.LogBytes() < 900_000 {
		granted(t, writeLong(store))
	}
	free := fillDisk(t, rest, 4<<20)
	for err := writeLong(store); !errors.Is(err, syscall.ENOSPC); err = writeLong(store) {
		granted(t, err)
	}
	granted(t, syscall.Kill(store.PID(), syscall.SIGSTOP))
	const calls = 215
	var group sync.WaitGroup
	for n := 0; n < calls; n++ {
		group.Add(1)
		go func() {
			defer group.Done()
			if _, err := store.Trim(ctx, "a", key); err != nil {
				t.Errorf("%d pages: %v", pages, err)
			}
		}()
	}
	areSent := func() bool {
		store.log.mutex.Lock()
		defer store.log.mutex.Unlock()
		return store.log.coming >= calls*int64(len(key))
	}
	for !areSent() {
		time.Sleep(time.Millisecond)
	}
	granted(t, os.Truncate(rest, free-pages*4096))
	granted(t, syscall.Kill(store.PID(), syscall.SIGCONT))
	group.Wait()
	granted(t, store.Close())
	return CountingLog(path) != path
}

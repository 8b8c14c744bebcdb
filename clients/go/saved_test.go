package pibroulez

import (
	"bytes"
	"context"
	"encoding/json"
	"errors"
	"fmt"
	"io"
	"io/fs"
	"os"
	"strings"
	"testing"
	"testing/iotest"
)

// A store with an open snapshot that has a file with the bytes `hi`, by the forms of its lines.
var savedLines = []string{
	`{"do":"restore","piece":"store","root":"/r","slots":3,"journal":100,"first_id":1,"layer_inodes":65536,"ancestors":64,"entries":12,"next_id":6}`,
	`{"do":"restore","piece":"namespace","name":"a","blocks":100,"inodes":100}`,
	`{"do":"restore","piece":"snapshot","ns":"a","key":"k","parent":"","snapshot_id":3,"created":6,"updated":6,"kind":"Active",` +
		`"slot":1,"blocks":4,"inodes":4,"sealed":false,"mode":493,"opaque":false,"next":2,"most":65536}`,
	`{"do":"restore","piece":"file","number":1,"mode":420}`,
	`{"do":"restore","piece":"bytes","bytes":"6869"}`,
	`{"do":"restore","piece":"name","path":"/f"}`,
	`{"do":"restore","piece":"end","lines":7}`,
}

func joinedLines(lines []string) io.Reader {
	return strings.NewReader(strings.Join(lines, "\n") + "\n")
}

func restored(t *testing.T, path string, lines io.Reader) *Store {
	t.Helper()
	store := must[*Store](t)(Restore(ctx, program(), path, lines))
	t.Cleanup(func() { store.Close() })
	return store
}

// The store that the lines make: its ids, slots and numbers of entries go on.
func isSaved(t *testing.T, store *Store) {
	t.Helper()
	equal(t, must[Report](t)(store.Report(ctx)), Report{1, 1, 1, map[string]Usage{"a": {4, 4}}})
	equal(t, must[[]Entry](t)(store.Journal(ctx, "", 0, 0)), []Entry{{Number: 13, Call: "session"}})
	equal(t, must[Info](t)(store.Stat(ctx, "a", "k")), Info{Name: "k", Kind: KindActive, Labels: map[string]string{}, ID: 3, Created: 6, Updated: 6})
	equal(t, must[Content](t)(store.Read(ctx, "a", "k", "/f")), Content{Head: Bytes("hi"), Size: 2})
}

// The members of a line, whatever their order.
func membersOf(t *testing.T, line string) (members map[string]any) {
	t.Helper()
	granted(t, json.Unmarshal([]byte(line), &members))
	return members
}

func TestRestore(t *testing.T) {
	store := restored(t, "", joinedLines(savedLines))
	isSaved(t, store)
	equal(t, must[Prepared](t)(store.Prepare(ctx, "a", "n", "")), Prepared{[]uint64{}, 6, 0})
	// A store that is there takes no line of another one, nor goes by it.
	var fault *Fault
	for _, line := range savedLines {
		given := membersOf(t, line)
		delete(given, "do")
		if err := store.Request(ctx, "restore", given, nil); !errors.As(err, &fault) || fault.Words != "open twice" {
			t.Errorf("%v: not open twice", err)
		}
	}
	equal(t, must[Report](t)(store.Report(ctx)).Records, 2)
	// Empty lines and fields that a line doesn't have are passed over, and the last line feed may be left out.
	text := strings.Join(savedLines, "\r\n \n\n")
	isSaved(t, restored(t, "", strings.NewReader(strings.Replace(text, `"piece":"end"`, `"piece":"end","why":"the last"`, 1))))
}

// Pages of one state, whatever is called between, which make no entry and aren't in the log.
func TestSave(t *testing.T) {
	store := restored(t, logPath(t), joinedLines(savedLines))
	bytes, appends := store.LogBytes(), must[uint64](t)(store.LogAppends())
	page := func(after uint64, max int) SavedPage { return must[SavedPage](t)(store.Save(ctx, after, max)) }
	first := page(0, 2)
	equal(t, []uint64{uint64(len(first.Lines)), first.Next}, []uint64{2, 2})
	equal(t, must[Report](t)(store.Report(ctx)).Entries, uint64(1))
	equal(t, []uint64{store.LogBytes(), must[uint64](t)(store.LogAppends())}, []uint64{bytes, appends})
	must[Usage](t)(store.Discard(ctx, "a", "k"))
	second := page(2, 1)
	equal(t, second.Next, uint64(3))
	last := page(3, 1024)
	equal(t, last.Next, uint64(0))
	lines := append(append(first.Lines, second.Lines...), last.Lines...)
	equal(t, len(lines), len(savedLines))
	for n := 1; n < len(lines); n++ {
		equal(t, membersOf(t, string(lines[n])), membersOf(t, savedLines[n]))
	}
	// Session 0 is the entry after the twelfth.
	head := membersOf(t, savedLines[0])
	head["entries"] = 13.0
	equal(t, membersOf(t, string(lines[0])), head)

	// It needs no room in a log, which a line of a saved store does.
	equal(t, []bool{Line{Do: "save"}.IsQuestion(), Line{Do: "restore"}.IsQuestion()}, []bool{true, false})

	// Nothing is left of that one; the lines of the next are counted on, and end the pages of the one before.
	of := func(err error) string {
		t.Helper()
		isError(t, err, ErrBadArgument)
		refusal := new(Refusal)
		errors.As(err, &refusal)
		return refusal.Of
	}
	_, err := store.Save(ctx, 7, 0)
	equal(t, of(err), "after")
	equal(t, page(0, 1).Next, uint64(8))
	equal(t, page(0, 1).Next, uint64(9))
	_, err = store.Save(ctx, 8, 0)
	equal(t, of(err), "after")
	_, err = store.Save(ctx, 9, 1025)
	equal(t, of(err), "max")
	// A store, a namespace and an end are left.
	equal(t, len(page(9, 0).Lines), 2)
}

// A store of more lines than a page has, saved and restored: as after a roll.
func TestSaveAll(t *testing.T) {
	store := newStore(t, Usage{1 << 40, 1 << 40})
	const files = 1000
	var made []Operation
	for n := 0; n < files; n++ {
		made = append(made, CreateOf(fmt.Sprintf("/%04d", n), 0o600))
	}
	must[Prepared](t)(store.Prepare(ctx, "a", "k", "", WithLabels(map[string]string{"x": "<é>\u2028"})))
	must[Batched](t)(store.Batch(ctx, "a", "k", Usage{1, files + 1}, made))
	must[Changed](t)(store.WriteText(ctx, "a", "k", "/0000", 0, "<é>"))
	must[Committed](t)(store.Commit(ctx, "a", "k", "base"))
	must[Viewed](t)(store.View(ctx, "a", "v", "base"))
	granted(t, store.LeaseCreate(ctx, "a", "l", WithUntil(1<<64-1)))
	granted(t, store.LeaseAdd(ctx, "a", "l", "base"))
	save := func(store *Store) *bytes.Buffer {
		t.Helper()
		text := new(bytes.Buffer)
		granted(t, store.SaveAll(ctx, func(line json.RawMessage) error {
			_, err := fmt.Fprintf(text, "%s\n", line)
			return err
		}))
		return text
	}
	saved := save(store)
	granted(t, store.Roll(ctx, 0))
	told := func(store *Store) []any {
		t.Helper()
		all := []any{must[Report](t)(store.Report(ctx)), must[[]Entry](t)(store.Journal(ctx, "", 0, 0))}
		all = append(all, must[map[string]Quota](t)(store.Quotas(ctx)), must[[]Node](t)(store.Tree(ctx, "a")), must[[]Lease](t)(store.Leases(ctx, "a")))
		for _, key := range []string{"base", "v"} {
			all = append(all, must[Info](t)(store.Stat(ctx, "a", key)), must[[]string](t)(store.List(ctx, "a", key, "/", WithPeek())))
		}
		return append(all, must[Content](t)(store.Read(ctx, "a", "v", "/0000")))
	}
	// A store, a namespace, a snapshot, its label, files with their names and the bytes of one, a view, a lease, what it names, an end.
	equal(t, strings.Count(saved.String(), "\n"), 4+2*files+1+1+2+1)
	other := restored(t, "", bytes.NewReader(saved.Bytes()))
	equal(t, told(other), told(store))
	equal(t, save(other).String(), save(store).String())
}

// What ends the pages: the visit's error, another save, and the end of the process. The lines so far restore nothing.
func TestEndOfSave(t *testing.T) {
	store := newStore(t, Usage{1 << 40, 1 << 40})
	must[Prepared](t)(store.Prepare(ctx, "a", "k", ""))
	var made []Operation
	for n := 0; n < 1024; n++ {
		made = append(made, CreateOf(fmt.Sprintf("/%d", n), 0o600))
	}
	must[Batched](t)(store.Batch(ctx, "a", "k", Usage{1, 1025}, made))
	enough := errors.New("enough")
	var lines []string
	save := func(at func() error) error {
		lines = nil
		return store.SaveAll(ctx, func(line json.RawMessage) error {
			if lines = append(lines, string(line)); len(lines) == 1 {
				return at()
			}
			return nil
		})
	}
	isError(t, save(func() error { return enough }), enough)
	equal(t, len(lines), 1)
	isError(t, save(func() error { _, err := store.Save(ctx, 0, 1); return err }), ErrBadArgument)
	equal(t, len(lines), 1024)
	isError(t, save(func() error { store.peer.kill(); <-store.Ended(); return nil }), ErrDied)
	equal(t, len(lines), 1024)
	_, err := Restore(ctx, program(), "", joinedLines(lines))
	isError(t, err, io.ErrUnexpectedEOF)
}

// To save isn't refused in a full round, and where the next one couldn't begin it isn't rolled.
func TestSaveWithoutRoom(t *testing.T) {
	store, path := fullStore(t, 3)
	store.RollWhenFull(100)
	must[SavedPage](t)(store.Save(ctx, 0, 0))
	must[Usage](t)(store.Discard(ctx, "a", "k"))
	// A round of no entries has none for session 0.
	isError(t, store.Request(ctx, "reopen", map[string]any{"journal": 0}, nil), ErrJournalFull)
	_, err := store.Save(ctx, 0, 0)
	isError(t, err, ErrJournalFull)
	equal(t, rolls(t, path), 0)
}

// The lines with one of them in place of the line of this number.
func withLine(number int, line string) []string {
	lines := append([]string{}, savedLines...)
	lines[number-1] = line
	return lines
}

func TestRefusedRestore(t *testing.T) {
	for _, it := range []struct {
		lines []string
		line  int
		why   string
		// Whether the store was refused, so that no other one is made in its log.
		isLast bool
	}{
		{savedLines[1:], 1, "not in its place", false},
		{withLine(1, strings.Replace(savedLines[0], `"root":"/r"`, `"root":3`, 1)), 1, "bad field root", false},
		{withLine(5, `{"do":"restore","piece":"bytes","bytes":"6"}`), 5, "bad field bytes", false},
		{withLine(7, `{"do":"restore","piece":"end","lines":8}`), 7, "a line is missing", false},
		{withLine(1, strings.Replace(savedLines[0], `"slots":3`, `"slots":0`, 1)), 7, "malformed slots", true},
		{withLine(3, strings.Replace(savedLines[2], `"parent":""`, `"parent":"x"`, 1)), 7, "snapshot 0: NotFound", true},
		{withLine(6, `{"do":"restore","piece":"end","lines":6}`), 6, "snapshot 0, file 0: NoNames", false},
	} {
		path := logPath(t)
		for _, path := range []string{"", path} {
			_, err := Restore(ctx, program(), path, joinedLines(it.lines))
			isError(t, err, ErrBadRestore)
			refusal := new(Refusal)
			errors.As(err, &refusal)
			equal(t, *refusal, Refusal{Reason: ErrBadRestore, From: "restore", Why: it.why})
			equal(t, err.Error(), fmt.Sprintf("restore: line %d: BadRestore (from restore): %s", it.line, it.why))
		}
		// There is no store, and a new one isn't made among these lines.
		for _, begin := range []func() (*Store, error){
			func() (*Store, error) { return New(ctx, loggedConfig(path)) }, func() (*Store, error) { return Open(ctx, program(), path) },
		} {
			_, err := begin()
			if bad := new(BadLog); !errors.As(err, &bad) || bad.Words != "it opens no store" {
				t.Errorf("%v: not a log without a store", err)
			}
		}
		store, err := Restore(ctx, program(), path, joinedLines(savedLines))
		if it.isLast {
			isError(t, err, ErrBadRestore)
			continue
		}
		granted(t, err)
		isSaved(t, store)
		granted(t, store.Close())
		isSaved(t, reopen(t, path))
	}
}

// What isn't restored, though each line that was sent is taken.
func TestLinesOfNoStore(t *testing.T) {
	broken := errors.New("broken")
	for _, it := range []struct {
		lines io.Reader
		err   error
		words string
	}{
		{strings.NewReader(""), io.ErrUnexpectedEOF, ""},
		{strings.NewReader("\n"), io.ErrUnexpectedEOF, ""},
		{joinedLines(savedLines[:6]), io.ErrUnexpectedEOF, ""},
		{io.MultiReader(joinedLines(savedLines[:6]), iotest.ErrReader(broken)), broken, ""},
		{joinedLines(withLine(2, `{"do":"open","root":"/r","namespaces":[]}`)), ErrNotSaved, "line 2: "},
		{joinedLines(withLine(7, `{"do":"restore","piece":"end","lines":7`)), ErrNotSaved, "line 7: "},
		{joinedLines(withLine(3, `["restore"]`)), ErrNotSaved, "line 3: "},
		{joinedLines(withLine(3, `null`)), ErrNotSaved, "line 3: "},
		{joinedLines(withLine(3, `{"do":null}`)), ErrNotSaved, "line 3: "},
		{joinedLines(withLine(3, "{\"do\":\"restore\",\"\xff\":1}")), ErrNotText, "line 3: "},
		{joinedLines(withLine(3, `{"do":"restore","id":1}`)), ErrReserved, "line 3: "},
		// The line that isn't taken is told, and not a later one that isn't sent.
		{joinedLines(append(withLine(2, savedLines[3]), "none")), ErrBadRestore, "line 2: "},
		{joinedLines(append(savedLines[:7:7], "none")), ErrNotSaved, "line 8: "},
	} {
		_, err := Restore(ctx, program(), "", it.lines)
		isError(t, err, it.err)
		if !strings.HasPrefix(err.Error(), "restore: "+it.words) {
			t.Errorf("%v: not %s", err, it.words)
		}
	}
	var fault *Fault
	if _, err := Restore(ctx, program(), "", joinedLines(append(savedLines[:7:7], savedLines[0]))); !errors.As(err, &fault) || fault.Words != "open twice" {
		t.Errorf("%v: not open twice", err)
	}
	ended, cancel := context.WithCancel(ctx)
	cancel()
	_, err := Restore(ended, program(), "", joinedLines(savedLines))
	isError(t, err, context.Canceled)
}

// A log that has a store, and one that is none, stay as they are.
func TestRestoreOverALog(t *testing.T) {
	path := logPath(t)
	granted(t, newStoreOf(t, loggedConfig(path)).Close())
	before := linesOf(t, path)
	_, err := Restore(ctx, program(), path, joinedLines(savedLines))
	isError(t, err, fs.ErrExist)
	equal(t, linesOf(t, path), before)
	equal(t, must[Report](t)(reopen(t, path).Report(ctx)).Records, 0)
	none := strings.Repeat("0", 64)
	for _, text := range []string{"a text", `{"do":"report"}` + "\n" + `{"do":"report","lines":"` + none + `","answers":"` + none + `"}` + "\n "} {
		path := logPath(t)
		granted(t, os.WriteFile(path, []byte(text), 0o600))
		_, err := Restore(ctx, program(), path, joinedLines(savedLines))
		if bad := new(BadLog); !errors.As(err, &bad) {
			t.Errorf("%v: not a bad log", err)
		}
		isFile(t, path, text)
	}
	// What stands behind the last line is told, and the store is there.
	path = logPath(t)
	_, err = Restore(ctx, program(), path, joinedLines(append(savedLines[:7:7], savedLines[0])))
	if fault := new(Fault); !errors.As(err, &fault) {
		t.Errorf("%v: not a fault", err)
	}
	isSaved(t, reopen(t, path))
	// Lines whose last one hasn't come: a store is begun anew.
	path = logPath(t)
	_, err = Restore(ctx, program(), path, joinedLines(savedLines[:4]))
	isError(t, err, io.ErrUnexpectedEOF)
	isSaved(t, restored(t, path, joinedLines(savedLines)))
}

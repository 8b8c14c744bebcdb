package main

import (
	"context"
	"encoding/json"
	"errors"
	"fmt"
	"os"
	"path/filepath"
	"strings"
	"testing"

	"pibroulez.example/pibroulez"
)

// A log whose store has, of the tenant `a`, a committed snapshot with an empty file (1/2), an active one (1/1), a view and a
// lease, and what more makes of it.
func logWith(t *testing.T, more func(*pibroulez.Store)) string {
	t.Helper()
	path := filepath.Join(t.TempDir(), "log")
	store, err := pibroulez.New(ctx, pibroulez.Config{
		Program: program(), Root: "/r", Log: path,
		Namespaces: map[string]pibroulez.Usage{"a": usage(100, 50), "b": usage(10, 10)},
	})
	granted(t, err)
	_, err = store.Prepare(ctx, "a", "k0", "")
	granted(t, err)
	_, err = store.Create(ctx, "a", "k0", "/file")
	granted(t, err)
	_, err = store.Commit(ctx, "a", "k0", "base")
	granted(t, err)
	_, err = store.Prepare(ctx, "a", "k1", "base")
	granted(t, err)
	_, err = store.View(ctx, "a", "v", "base")
	granted(t, err)
	granted(t, store.LeaseCreate(ctx, "a", "l", pibroulez.WithUntil(7)))
	granted(t, store.LeaseAdd(ctx, "a", "l", "base"))
	if more != nil {
		more(store)
	}
	granted(t, store.Close())
	return path
}

func runLogs(args ...string) (out, errs string, status int) {
	var printed, said strings.Builder
	status = run(ctx, append(args, "--program", program()), &printed, &said)
	return trimmed(printed.String()), said.String(), status
}

// What a log's store has is told, also while another process has the log, and the log stays as it is.
func TestLogCheck(t *testing.T) {
	path := logWith(t, nil)
	before, err := os.ReadFile(path)
	granted(t, err)
	store, err := pibroulez.Open(ctx, program(), path)
	granted(t, err)
	defer store.Close()
	out, errs, status := runLogs("log-check", path)
	equal(t, out, `TENANT  BLOCKS  LIMIT  INODES  LIMIT  COMMITTED  ACTIVE  VIEWS  LEASES
a            2    100       3     50          1       1      1       1
b            0     10       0     10          0       0      0       0
the log is whole: 8 entries of its last round, 2 tenants, 3 snapshots, 0 faults
`)
	equal(t, errs, "")
	equal(t, status, 0)
	out, _, status = runLogs("--json", "log-check", path)
	equal(t, out, `{"entries":8,"faults":[],"snapshots":3,"tenants":{"a":{"charged":[2,3],"limit":[100,50],"committed":1,"active":1,"views":1,"leases":1},`+
		`"b":{"charged":[0,0],"limit":[10,10],"committed":0,"active":0,"views":0,"leases":0}}}`+"\n")
	equal(t, status, 0)
	granted(t, store.Close())
	after, err := os.ReadFile(path)
	granted(t, err)
	if !strings.HasPrefix(string(after), string(before)) {
		t.Error("the log is another one")
	}
}

// A file that is no whole log is told by its own name, and nothing is made.
func TestNoLog(t *testing.T) {
	folder := t.TempDir()
	whole, err := os.ReadFile(logWith(t, nil))
	granted(t, err)
	write := func(name, text string) string {
		path := filepath.Join(folder, name)
		granted(t, os.WriteFile(path, []byte(text), 0o600))
		return path
	}
	for path, want := range map[string]string{
		filepath.Join(folder, "missing"): "no such file",
		folder:                           "no regular file",
		write("empty", ""):               "file does not exist",
		write("text", "text\n"):          "log",
		write("changed", strings.Replace(string(whole), `"k1"`, `"k2"`, 1)): "aren't those that were written",
		write("cut", cutMark(string(whole))):                                "no mark stands behind",
	} {
		out, errs, status := runLogs("log-check", path)
		if status != failed || out != "" || !strings.Contains(errs, want) || !strings.Contains(errs, path) {
			t.Errorf("%s: %d, %q, %q", path, status, errs, out)
		}
	}
	left, err := os.ReadDir(folder)
	granted(t, err)
	equal(t, len(left), 4)
}

// A log without its last line, the mark.
func cutMark(text string) string {
	lines := strings.Split(text[:strings.LastIndex(text, "}\n")+2], "\n")
	return strings.Join(lines[:len(lines)-2], "\n") + "\n "
}

// A log that is no longer wanted is not copied to its end, and nothing of the copy stays.
func TestNoLongerWanted(t *testing.T) {
	path := logWith(t, nil)
	folder := t.TempDir()
	t.Setenv("TMPDIR", folder)
	ended, end := context.WithCancel(ctx)
	end()
	var printed, said strings.Builder
	status := run(ended, []string{"log-check", path, "--program", program()}, &printed, &said)
	equal(t, printed.String(), "")
	if !strings.Contains(said.String(), "context canceled") {
		t.Errorf("says %q", said.String())
	}
	equal(t, status, 1)
	left, err := os.ReadDir(folder)
	granted(t, err)
	equal(t, len(left), 0)
	if err := copyFile(ended, path, filepath.Join(folder, "copy")); !errors.Is(err, context.Canceled) {
		t.Errorf("a copy that is not wanted ends with %v", err)
	}
}

// A log that takes more than one step to copy is copied to its last byte.
func TestCopyOfMoreThanOneStep(t *testing.T) {
	for _, size := range []int64{0, mostCopied, mostCopied + 1} {
		from, to := filepath.Join(t.TempDir(), "from"), filepath.Join(t.TempDir(), "to")
		granted(t, os.WriteFile(from, nil, 0o600))
		granted(t, os.Truncate(from, size))
		granted(t, copyFile(ctx, from, to))
		info, err := os.Stat(to)
		granted(t, err)
		equal(t, info.Size(), size)
	}
}

// What two logs' stores tell differently is told of each, and status 1 says that there is something.
func TestLogDiff(t *testing.T) {
	first, same := logWith(t, nil), logWith(t, nil)
	out, errs, status := runLogs("log-diff", first, same)
	equal(t, fmt.Sprint(out, errs, status), "0")
	other := logWith(t, func(store *pibroulez.Store) {
		granted(t, store.Limit(ctx, "b", usage(5, 5)))
		_, err := store.Discard(ctx, "a", "k1")
		granted(t, err)
		_, err = store.Update(ctx, "a", "base", map[string]string{"x": "1"}, nil)
		granted(t, err)
		granted(t, store.LeaseDrop(ctx, "a", "l", "base"))
		granted(t, store.NamespaceCreate(ctx, "c", usage(1, 1)))
	})
	out, errs, status = runLogs("log-diff", first, other)
	// The session, the prepare and the charge of the file come before the commit, and before the update a limit and a discard.
	equal(t, out, `TENANT  WHAT      NAME  FIRST                                     SECOND
a       snapshot  base  Committed 1, 1/2, made 4, changed 4       Committed 1, 1/2, made 4, changed 11, x=1
a       snapshot  k1    Active 2, 1/1 on base, made 5, changed 5  -
a       lease     l     base until 7                              until 7
b       limit           10/10                                     5/5
c       limit           -                                         1/1
`)
	equal(t, errs, "pibroulez: the stores differ\n")
	equal(t, status, failed)
	out, _, status = runLogs("--json", "log-diff", other, first)
	var found []unlike
	granted(t, json.Unmarshal([]byte(out), &found))
	equal(t, len(found), 5)
	equal(t, found[4], unlike{"c", "limit", "", []any{1.0, 1.0}, nil})
	equal(t, status, failed)
}

// Of a log that was made short the file that counts is read.
func TestShortLog(t *testing.T) {
	path := logWith(t, nil)
	store, err := pibroulez.OpenOrNew(ctx, pibroulez.Config{Program: program(), Log: path, Checkpoint: 1})
	granted(t, err)
	defer store.Close()
	_, err = store.Create(ctx, "a", "k1", "/f")
	granted(t, err)
	for n := 0; pibroulez.CountingLog(path) == path; n++ {
		_, err := store.WriteText(ctx, "a", "k1", "/f", 0, strings.Repeat("x", 100_000))
		granted(t, err)
		if n == 100 {
			t.Fatal("the log isn't made short")
		}
	}
	_, err = store.Discard(ctx, "a", "k1")
	granted(t, err)
	out, errs, status := runLogs("log-check", path)
	if status != 0 || !strings.Contains(out, "the log is whole") || !strings.Contains(out, " 2 snapshots,") {
		t.Errorf("status %d, %s%s", status, out, errs)
	}
}

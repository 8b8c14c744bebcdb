package containerd

import (
	"bytes"
	"errors"
	"fmt"
	"io/fs"
	"os"
	"path/filepath"
	"regexp"
	"sort"
	"strings"
	"sync"
	"syscall"
	"testing"

	"github.com/containerd/containerd/snapshots"

	"pibroulez.example/pibroulez"
)

// The end that a line of version 0.1.0 doesn't have.
var lineID = regexp.MustCompile(`,"id":[0-9]+}$`)

// The mark behind a call, which a version before didn't make.
var markHead = []byte(`{"do":"report","lines":`)

// Has a root as a version before has left it: its log has lines alone and no blank behind them, and `format` says so. A
// root of version 0.1.0 has neither that nor records.
func toOldForm(t *testing.T, root string, age rootAge) (log string) {
	t.Helper()
	text, err := os.ReadFile(filepath.Join(root, LogFile))
	granted(t, err)
	for len(text) > 0 && text[0] == '{' {
		line, rest, _ := bytes.Cut(text, []byte("\n"))
		if !bytes.HasPrefix(line, markHead) {
			log += string(lineID.ReplaceAll(line, []byte("}"))) + "\n"
		}
		text = rest
	}
	for _, name := range []string{LogFile, LogFile + "-wal", oldLogFile, formatFile} {
		os.Remove(filepath.Join(root, name))
	}
	granted(t, os.WriteFile(filepath.Join(root, LogFile), []byte(log), 0o600))
	if age == hadOldLog {
		granted(t, os.WriteFile(filepath.Join(root, formatFile), []byte(formatBefore), 0o600))
		return log
	}
	for id := 1; id <= 4; id++ {
		granted(t, os.Remove(inRoot(root, id, keyFile)))
	}
	return log
}

// The files of a root with their text, and the folders of logs that are being made.
func filesOf(t *testing.T, root string) map[string]string {
	t.Helper()
	entries, err := os.ReadDir(root)
	granted(t, err)
	files := map[string]string{}
	for _, entry := range entries {
		if entry.Type().IsRegular() {
			text, err := os.ReadFile(filepath.Join(root, entry.Name()))
			granted(t, err)
			files[entry.Name()] = string(text)
		} else if entry.Name() != "snapshots" {
			files[entry.Name()] = "a folder"
		}
	}
	return files
}

func namesOf(files map[string]string) (names []string) {
	for name := range files {
		names = append(names, name)
	}
	sort.Strings(names)
	return names
}

// Expects of a root of rootWithFour that its log is taken over, also where that is begun anew, and that the old one is
// there under its other name.
func expectTakenOver(t *testing.T, root, old string) {
	t.Helper()
	for n := 0; n < 2; n++ {
		s := newSnapshotter(t, root)
		expectOwn(t, s, root)
		if found := infos(t, s); len(found) != 4 {
			t.Errorf("%d snapshots, not 4", len(found))
		}
		if n == 1 {
			_, err := s.Prepare(ctx, "e", "base")
			granted(t, err)
			info, err := s.store.Stat(ctx, Namespace, "e")
			granted(t, err)
			if info.ID != 5 {
				t.Errorf("the next id is %d, not 5", info.ID)
			}
		}
		granted(t, s.Close())
	}
	files := filesOf(t, root)
	if names := fmt.Sprint(namesOf(files)); names != fmt.Sprint([]string{oldLogFile, LogFile, LogFile + "-wal", formatFile, "times"}) {
		t.Errorf("the root has %v", names)
	}
	if files[oldLogFile] != old || files[formatFile] != format {
		t.Errorf("format %q, and the log of before is %.200q", files[formatFile], files[oldLogFile])
	}
	expectNames(t, root, "1", "2", "3", "4", "5")
}

// What a crash leaves between any two steps of a take-over is a root whose log is taken over, once.
func TestCrashBetweenStepsOfATakeOver(t *testing.T) {
	steps := len((&takeover{}).steps(ctx))
	for name, age := range map[string]rootAge{"records": hadOldLog, "no records": lacksRecords} {
		for n := 0; n <= steps; n++ {
			for left, half := range map[string]string{"nothing": "", "a part": `{"do":"open","root":"/r"`} {
				name, age, n, left, half := name, age, n, left, half
				t.Run(fmt.Sprintf("%s %d steps %s left", name, n, left), func(t *testing.T) {
					t.Parallel()
					root := rootWithFour(t)
					old := toOldForm(t, root, age)
					if half != "" {
						folder := filepath.Join(root, newLogPrefix+"123")
						granted(t, first(os.Mkdir(folder, 0o700), os.WriteFile(filepath.Join(folder, "log"), []byte(half), 0o600)))
					}
					it, err := newTakeover(program(), root)
					granted(t, err)
					for _, step := range it.steps(ctx)[:n] {
						granted(t, step())
					}
					it.close()
					expectTakenOver(t, root, old)
				})
			}
		}
	}
}

// A last line without its end wasn't answered, and isn't taken over.
func TestTakeOverOfATornLog(t *testing.T) {
	for _, torn := range []string{`{"do":"discard","ns":"containerd","key":"b"}`, `{"d`, "\x00\x00\x00"} {
		root := rootWithFour(t)
		old := toOldForm(t, root, hadOldLog) + torn
		granted(t, os.WriteFile(filepath.Join(root, LogFile), []byte(old), 0o600))
		expectTakenOver(t, root, old)
	}
	root := t.TempDir()
	granted(t, os.WriteFile(filepath.Join(root, LogFile), []byte(`{"do":"open",`), 0o600))
	commit(t, newSnapshotter(t, root), "base", "")
}

// A log that isn't taken over is an error by its name, and the root is as it was.
func TestTakeOverThatIsRefused(t *testing.T) {
	program := func(script string) func(*testing.T, string) string {
		return func(t *testing.T, _ string) string {
			named, err := filepath.Abs(program())
			granted(t, err)
			path := filepath.Join(t.TempDir(), "program")
			granted(t, os.WriteFile(path, []byte(fmt.Sprintf("#!/bin/sh\nprogram=%q\n%s\n", named, script)), 0o700))
			return path
		}
	}
	change := func(do func(path string, text string) error) func(*testing.T, string) string {
		return func(t *testing.T, root string) string {
			text, err := os.ReadFile(filepath.Join(root, LogFile))
			granted(t, err)
			granted(t, do(filepath.Join(root, LogFile), string(text)))
			return ""
		}
	}
	isBad := func(line uint64) func(error) bool {
		return func(err error) bool {
			bad := new(pibroulez.BadLog)
			return errors.As(err, &bad) && bad.Line == line
		}
	}
	is := func(wanted error) func(error) bool { return func(err error) bool { return errors.Is(err, wanted) } }
	const onNew = `case "$*" in *calls-new-*) `
	for name, it := range map[string]struct {
		// Has the root so, and names another program where it is to be one.
		begin func(t *testing.T, root string) string
		is    func(error) bool
	}{
		"a damaged line": {change(func(path, text string) error {
			return os.WriteFile(path, []byte(strings.Replace(text, `"key":"b"`, `"kez":"b"`, 1)), 0o600)
		}), isBad(5)},
		"a damaged first line": {change(func(path, text string) error {
			return os.WriteFile(path, []byte("\x00"+text[1:]), 0o600)
		}), isBad(1)},
		"another one under the name": {change(func(path, text string) error {
			return os.WriteFile(filepath.Join(filepath.Dir(path), oldLogFile), []byte(text), 0o600)
		}), is(fs.ErrExist)},
		"in use": {func(t *testing.T, root string) string {
			file, err := os.Open(filepath.Join(root, LogFile))
			granted(t, err)
			granted(t, syscall.Flock(int(file.Fd()), syscall.LOCK_EX))
			t.Cleanup(func() { file.Close() })
			return ""
		}, is(syscall.EWOULDBLOCK)},
		"another answer":  {program(onNew + `"$program" "$@" | sed "4s/1/2/";; *) exec "$program" "$@";; esac`), isBad(4)},
		"a process ends":  {program(onNew + `head -n 3 | "$program" "$@"; exit 4;; *) exec "$program" "$@";; esac`), func(err error) bool { return strings.Contains(err.Error(), "exit status 4") }},
		"another store":   {program(onNew + `read line; { echo "$line"; cat; } | "$program" "$@" | case $line in *report*) sed s/1/2/;; *) cat;; esac;; *) exec "$program" "$@";; esac`), isBad(0)},
		"room for a part": {program(onNew + `trap "" XFSZ; ulimit -S -f 1;; esac; exec "$program" "$@"`), is(pibroulez.ErrNotKept)},
	} {
		it := it
		t.Run(name, func(t *testing.T) {
			t.Parallel()
			root := rootWithFour(t)
			toOldForm(t, root, hadOldLog)
			named := it.begin(t, root)
			if named == "" {
				named = os.Getenv("PIBROULEZ_PROGRAM")
			}
			if named == "" {
				named = "../../../crates/snap_replay/out/snap_replay"
			}
			granted(t, os.WriteFile(filepath.Join(root, LogFile+"-wal"), nil, 0o600))
			before := filesOf(t, root)
			s, err := New(ctx, Config{Program: named, Root: root})
			if err == nil {
				s.Close()
				t.Fatal("it is served")
			}
			if !it.is(err) {
				t.Errorf("%v", err)
			}
			if found := filesOf(t, root); fmt.Sprint(found) != fmt.Sprint(before) {
				t.Errorf("%v, not %v", found, before)
			}
			for path, text := range ownFiles(root) {
				if found, err := os.ReadFile(path); err != nil || string(found) != text {
					t.Errorf("%q, %v: %s", found, err, path)
				}
			}
		})
	}
}

// On a full disk a log isn't taken over, and it is once there is room.
func TestTakeOverOnAFullDisk(t *testing.T) {
	root, fill, empty := rootOnSmallDisk(t)
	s := newSnapshotter(t, root)
	commit(t, s, "base", "")
	granted(t, s.Close())
	old := toOldForm(t, root, hadOldLog)
	fill()
	if s, err := New(ctx, Config{Program: program(), Root: root}); err == nil {
		s.Close()
		t.Error("it is taken over on a full disk")
	}
	if found := filesOf(t, root); found[LogFile] != old || len(found) != 4 {
		t.Errorf("%v", found)
	}
	empty()
	s = newSnapshotter(t, root)
	_, err := s.Prepare(ctx, "k", "base")
	granted(t, err)
}

// Of several that begin on one root one takes its log over, and the others are told that it is another's.
func TestTakeOverByOneOfMany(t *testing.T) {
	root := rootWithFour(t)
	old := toOldForm(t, root, hadOldLog)
	var all sync.WaitGroup
	made := make(chan *Snapshotter, 8)
	for n := 0; n < 8; n++ {
		all.Add(1)
		go func() {
			defer all.Done()
			s, err := New(ctx, Config{Program: program(), Root: root})
			if err == nil {
				made <- s
			} else if !errors.Is(err, syscall.EWOULDBLOCK) {
				t.Error(err)
			}
		}()
	}
	all.Wait()
	if len(made) != 1 {
		t.Fatalf("%d of 8 are made", len(made))
	}
	granted(t, (<-made).Close())
	expectTakenOver(t, root, old)
}

// A process that is killed as it takes a log over leaves a root whose log is taken over, with all of its snapshots.
func TestKillsOfATakeOver(t *testing.T) {
	t.Parallel()
	root := t.TempDir()
	s := newSnapshotter(t, root)
	for n := 0; n < 200; n++ {
		commit(t, s, fmt.Sprint("name-", n), "", snapshots.WithLabels(map[string]string{"x": strings.Repeat("y", 1000)}))
	}
	granted(t, s.Close())
	for n := 0; n < kills()/2; n++ {
		toOldForm(t, root, hadOldLog)
		if said := killedOnce(t, root, false); said != "" && said != isMade+"\n" {
			t.Fatal(said)
		}
		s, err := newOnceFree(root)
		granted(t, err)
		granted(t, s.Cleanup(ctx))
		if found := expectWhole(t, s); found < 200 {
			t.Errorf("%d snapshots", found)
		}
		granted(t, s.Close())
	}
}

package containerd

import (
	"bytes"
	"encoding/json"
	"errors"
	"fmt"
	"io/fs"
	"os"
	"path/filepath"
	"strings"
	"testing"

	"github.com/containerd/containerd/errdefs"
	"github.com/containerd/containerd/snapshots"
	continuity "github.com/containerd/continuity/fs"
	"golang.org/x/sys/unix"

	"pibroulez.example/pibroulez"
	"pibroulez.example/pibroulez/containerd/upper"
)

func usageOf(t *testing.T, s *Snapshotter, key string) pibroulez.Usage {
	t.Helper()
	it, err := s.Usage(ctx, key)
	granted(t, err)
	return pibroulez.Usage{Blocks: uint64(it.Size) / blockSize, Inodes: uint64(it.Inodes)}
}

// Makes an active snapshot, has the kernel change it by a mount, and commits it.
func committed(t *testing.T, s *Snapshotter, name, parent string, change func(target string)) {
	t.Helper()
	mounts, err := s.Prepare(ctx, "new", parent)
	granted(t, err)
	inMount(t, mounts, change)
	granted(t, s.Commit(ctx, name, "new"))
}

// The directory of the upper layer of a snapshot.
func upperOf(t *testing.T, s *Snapshotter, key string) string {
	t.Helper()
	info, err := s.store.Stat(ctx, s.namespaceOf(key), key)
	granted(t, err)
	return s.directories.upperOf(info.ID)
}

func sized(t *testing.T, path string, size int64) {
	t.Helper()
	file, err := os.Create(path)
	granted(t, err)
	granted(t, file.Truncate(size))
	granted(t, file.Close())
}

// Each kind of node. By docs/RULES.md: the root and four directories 5/5, files of 0, 1, 4096, 4097 and 2^30 bytes 0 + 1 + 1 + 2
// + 262144 blocks and 5 inodes, further names nothing, two symlinks, a device, a pipe and a socket 0/5, and two files with
// names that are no UTF-8 0/2.
func makeAll(t *testing.T, root string) {
	at := func(path string) string { return filepath.Join(root, path) }
	for _, it := range []string{"d", "d/e", "d/e/f", "gone"} {
		granted(t, os.Mkdir(at(it), 0o751))
	}
	for path, size := range map[string]int64{"empty": 0, "d/one": 1, "d/e/page": 4096, "d/e/f/more": 4097, "gone/sparse": 1 << 30} {
		sized(t, at(path), size)
	}
	granted(t, os.Chmod(at("d/one"), 0o4755|fs.ModeSetuid))
	granted(t, os.Link(at("d/one"), at("another")))
	granted(t, os.Link(at("d/one"), at("d/e/third")))
	granted(t, os.Symlink("one", at("d/symlink")))
	granted(t, os.Symlink("to \xff nowhere", at("d/e/wild")))
	granted(t, unix.Mknod(at("null"), unix.S_IFCHR|0o666, int(unix.Mkdev(1, 3))))
	granted(t, unix.Mkfifo(at("pipe"), 0o600))
	granted(t, unix.Mknod(at("socket"), unix.S_IFSOCK|0o600, 0))
	granted(t, os.WriteFile(at("d/\xffname"), nil, 0o600))
	granted(t, os.WriteFile(at("d/%FFname"), nil, 0o600))
}

var all = pibroulez.Usage{Blocks: 5 + 4 + 1<<18, Inodes: 5 + 5 + 5 + 2}

// What is in a tree: of each path its type, and of a file its size.
func shown(t *testing.T, root string) map[string]string {
	t.Helper()
	found := map[string]string{}
	granted(t, filepath.WalkDir(root, func(path string, it fs.DirEntry, err error) error {
		granted(t, err)
		if path == root {
			return nil
		}
		info, err := it.Info()
		granted(t, err)
		switch {
		case it.IsDir():
			found[path[len(root):]] = "dir"
		case it.Type()&fs.ModeSymlink != 0:
			found[path[len(root):]] = "symlink"
		case it.Type().IsRegular():
			found[path[len(root):]] = fmt.Sprint(info.Size())
		default:
			found[path[len(root):]] = "0"
		}
		return nil
	}))
	return found
}

// What the store has in a snapshot, in the same form.
func modelled(t *testing.T, s *Snapshotter, key string) map[string]string {
	t.Helper()
	found := map[string]string{}
	var walk func(path string)
	walk = func(path string) {
		names, err := s.store.List(ctx, s.namespaceOf(key), key, path, pibroulez.WithPeek())
		granted(t, err)
		for _, name := range names {
			at := strings.TrimSuffix(path, "/") + "/" + name
			seen, err := s.store.Look(ctx, s.namespaceOf(key), key, at, pibroulez.WithPeek())
			granted(t, err)
			switch seen.Type {
			case pibroulez.Directory:
				found[at] = "dir"
				walk(at)
			case pibroulez.Symlink:
				found[at] = "symlink"
			default:
				found[at] = fmt.Sprint(seen.Size)
			}
		}
	}
	walk("/")
	return found
}

func sameTrees(t *testing.T, got, want map[string]string) {
	t.Helper()
	for path, it := range want {
		if got[path] != it {
			t.Errorf("%q: %q, not %q", path, got[path], it)
		}
	}
	for path, it := range got {
		if want[path] == "" {
			t.Errorf("%q: %q, not there", path, it)
		}
	}
}

// A commit charges what the directory has: inodes as containerd's overlayfs counts them, blocks by the files' sizes. What
// the store then has at each path is what the kernel shows there.
func TestLedgerOfCommits(t *testing.T) {
	requiresRoot(t)
	s := newSnapshotter(t, t.TempDir())
	committed(t, s, "base", "", func(root string) { makeAll(t, root) })
	if got := usageOf(t, s, "base"); got != all {
		t.Errorf("%v, not %v", got, all)
	}
	counted, err := continuity.DiskUsage(ctx, upperOf(t, s, "base"))
	granted(t, err)
	if uint64(counted.Inodes) != all.Inodes {
		t.Errorf("%d inodes by containerd, not %d", counted.Inodes, all.Inodes)
	}
	at := filepath.Join
	committed(t, s, "changed", "base", func(root string) {
		// A whiteout, a directory of whose files one goes, and one that goes as a whole.
		granted(t, os.Remove(at(root, "empty")))
		granted(t, os.Remove(at(root, "d/e/page")))
		granted(t, os.RemoveAll(at(root, "gone")))
		// Over a whiteout: an opaque directory, a file in place of a directory, and a directory in place of a file.
		granted(t, os.RemoveAll(at(root, "d/e/f")))
		granted(t, os.Mkdir(at(root, "d/e/f"), 0o700))
		granted(t, os.WriteFile(at(root, "d/e/f/more"), []byte("less"), 0o600))
		granted(t, os.WriteFile(at(root, "gone"), make([]byte, 5000), 0o600))
		granted(t, os.Remove(at(root, "pipe")))
		granted(t, os.Mkdir(at(root, "pipe"), 0o700))
		granted(t, os.WriteFile(at(root, "pipe/in"), nil, 0o600))
		// A copy-up of a file with several names, and a rename.
		granted(t, os.Chmod(at(root, "another"), 0o600))
		granted(t, os.Rename(at(root, "null"), at(root, "d/null")))
	})
	// By hand: the root, d, d/e, d/e/f and pipe 5/5; d/e/f/more 1/1, gone 2/1, pipe/in 0/1, another 1/1, d/null 0/1; and whiteouts
	// of empty, d/e/page and null 0/3.
	if got, want := usageOf(t, s, "changed"), (pibroulez.Usage{Blocks: 5 + 4, Inodes: 5 + 5 + 3}); got != want {
		t.Errorf("%v, not %v", got, want)
	}
	mounts, err := s.View(ctx, "view", "changed")
	granted(t, err)
	inMount(t, mounts, func(root string) {
		want := shown(t, root)
		want["/d/%25"] = want["/d/\xffname"]
		delete(want, "/d/\xffname")
		delete(want, "/d/%25")
		got := modelled(t, s, "changed")
		for path := range got {
			if strings.HasPrefix(path, "/d/%") && path != "/d/%FFname" {
				delete(got, path)
			}
		}
		sameTrees(t, got, want)
	})
}

// What these mounts don't make is refused by its path, and nothing is committed.
func TestNotOverlay(t *testing.T) {
	requiresRoot(t)
	s := newSnapshotter(t, t.TempDir())
	for mark, path := range map[string]string{"redirect": "d", "metacopy": "d/f"} {
		_, err := s.Prepare(ctx, mark, "")
		granted(t, err)
		root := upperOf(t, s, mark)
		granted(t, os.Mkdir(filepath.Join(root, "d"), 0o700))
		granted(t, os.WriteFile(filepath.Join(root, "d/f"), nil, 0o600))
		granted(t, unix.Setxattr(filepath.Join(root, path), "trusted.overlay."+mark, []byte("x"), 0))
		err = s.Commit(ctx, "c"+mark, mark)
		if !errors.Is(err, ErrNotOverlay) || !errdefs.IsFailedPrecondition(err) || !strings.Contains(err.Error(), "/"+path+" has trusted.overlay."+mark) {
			t.Errorf("%v", err)
		}
		info, err := s.Stat(ctx, mark)
		granted(t, err)
		if info.Kind != snapshots.KindActive {
			t.Errorf("%v", info.Kind)
		}
	}
	_, err := s.Prepare(ctx, "deep", "")
	granted(t, err)
	path := upperOf(t, s, "deep")
	here, err := os.Getwd()
	granted(t, err)
	granted(t, os.MkdirAll(filepath.Join(path, strings.Repeat("/"+strings.Repeat("x", 199), 15)), 0o700))
	granted(t, os.Chdir(filepath.Join(path, strings.Repeat("/"+strings.Repeat("x", 199), 15))))
	defer os.Chdir(here)
	granted(t, os.MkdirAll(strings.Repeat(strings.Repeat("y", 199)+"/", 6), 0o700))
	if err := s.Commit(ctx, "too deep", "deep"); !errors.Is(err, ErrTooLongPath) || !errdefs.IsFailedPrecondition(err) {
		t.Errorf("%v", err)
	}
}

// A whiteout below which nothing is takes its inode, as the file system has it.
func TestLoneWhiteouts(t *testing.T) {
	requiresRoot(t)
	s := newSnapshotter(t, t.TempDir())
	_, err := s.Prepare(ctx, "k", "")
	granted(t, err)
	granted(t, unix.Mknod(filepath.Join(upperOf(t, s, "k"), "w"), unix.S_IFCHR, 0))
	granted(t, s.Commit(ctx, "base", "k"))
	if got := usageOf(t, s, "base"); got != (pibroulez.Usage{Blocks: 1, Inodes: 2}) {
		t.Errorf("%v", got)
	}
}

// Above the limit nothing is committed or charged, and the error says whose limit it is, what is free and what is wanted.
func TestCommitOverLimit(t *testing.T) {
	root := t.TempDir()
	s, err := New(ctx, Config{Program: program(), Root: root, Tenants: map[string]pibroulez.Usage{"a": {Blocks: 10, Inodes: 10}}})
	granted(t, err)
	defer s.Close()
	_, err = s.Prepare(ctx, "a/1/k", "")
	granted(t, err)
	granted(t, os.WriteFile(filepath.Join(upperOf(t, s, "a/1/k"), "f"), make([]byte, 10*4096), 0o600))
	before, err := s.store.Quota(ctx, "a")
	granted(t, err)
	err = s.Commit(ctx, "a/2/base", "a/1/k")
	const want = `over limit: free 9 blocks, 9 inodes of tenant "a", and snapshot "a/1/k" wants 10 blocks, 1 inodes more`
	if !errdefs.IsUnavailable(err) || !errors.Is(err, pibroulez.ErrOverLimit) || err.Error() != want {
		t.Errorf("%v", err)
	}
	after, err := s.store.Quota(ctx, "a")
	granted(t, err)
	if after != before {
		t.Errorf("%+v, not %+v", after, before)
	}
	info, err := s.Stat(ctx, "a/1/k")
	granted(t, err)
	if r, _, _, err := readRecord(s.directories.of(1)); err != nil || info.Kind != snapshots.KindActive || r != (record{ID: 1, Key: "a/1/k"}) {
		t.Errorf("%v, %v, %v", info.Kind, r, err)
	}
	granted(t, s.store.Limit(ctx, "a", pibroulez.Usage{Blocks: 11, Inodes: 10}))
	granted(t, s.Commit(ctx, "a/2/base", "a/1/k"))
	if got := usageOf(t, s, "a/2/base"); got != (pibroulez.Usage{Blocks: 11, Inodes: 2}) {
		t.Errorf("%v", got)
	}
}

// Leaves a commit unfinished after this many operations, in batches of two.
func commitInPart(t *testing.T, s *Snapshotter, key string, most int) (done int) {
	t.Helper()
	info, err := s.store.Stat(ctx, s.namespaceOf(key), key)
	granted(t, err)
	found, err := upper.Read(s.directories.upperOf(info.ID))
	granted(t, err)
	granted(t, s.chargeFor(ctx, key, found.Count))
	left, err := s.leftOver(ctx, info)
	granted(t, err)
	w := s.writer(ctx, key, left)
	var all []pibroulez.Operation
	w.batch = func(operations []pibroulez.Operation) (pibroulez.Batched, error) {
		all = append(all, operations...)
		return pibroulez.Batched{}, nil
	}
	granted(t, w.write(found.Items, true))
	for _, it := range all {
		if done == most {
			break
		}
		_, err := s.store.Batch(ctx, s.namespaceOf(key), key, pibroulez.Usage{}, []pibroulez.Operation{it})
		granted(t, err)
		done++
	}
	return done
}

// What an unfinished commit has left of a directory is made right by the next one, whatever has changed meanwhile:
// after each of its operations, also where the next one is left unfinished too.
func TestCommitAfterPart(t *testing.T) {
	requiresRoot(t)
	s := newSnapshotter(t, rootInMemory(t))
	committed(t, s, "base", "", func(root string) { makeAll(t, root) })
	at := filepath.Join
	first := func(root string) {
		granted(t, os.RemoveAll(at(root, "gone")))
		granted(t, os.Remove(at(root, "d/e/page")))
		granted(t, os.Chmod(at(root, "d/one"), 0o600))
		granted(t, os.Mkdir(at(root, "made"), 0o700))
		granted(t, os.WriteFile(at(root, "made/x"), make([]byte, 5000), 0o600))
		granted(t, os.Link(at(root, "made/x"), at(root, "made/y")))
		granted(t, os.RemoveAll(at(root, "d/e/f")))
		granted(t, os.Mkdir(at(root, "d/e/f"), 0o700))
		granted(t, os.WriteFile(at(root, "d/e/f/own"), make([]byte, 1<<20), 0o600))
	}
	then := []func(root string){
		func(string) {},
		func(root string) {
			granted(t, os.WriteFile(at(root, "made/x"), nil, 0o600))
			granted(t, os.WriteFile(at(root, "gone"), nil, 0o600))
			granted(t, os.WriteFile(at(root, "null2"), nil, 0o600))
		},
		// What the first one may have recorded isn't there any more.
		func(root string) {
			granted(t, os.RemoveAll(at(root, "made")))
			granted(t, os.Remove(at(root, "d/e/f/own")))
			granted(t, os.Mkdir(at(root, "gone"), 0o700))
			granted(t, os.Remove(at(root, "d/one")))
		},
		// A directory of which a part was recorded goes as a whole, and comes back as another thing.
		func(root string) {
			granted(t, os.RemoveAll(at(root, "d")))
			granted(t, os.WriteFile(at(root, "d"), []byte("a file"), 0o600))
			granted(t, os.Remove(at(root, "made/x")))
			granted(t, os.Mkdir(at(root, "made/x"), 0o700))
		},
		func(root string) {
			granted(t, os.RemoveAll(at(root, "d")))
			granted(t, os.MkdirAll(at(root, "d/e/f"), 0o700))
			granted(t, os.RemoveAll(at(root, "made")))
			granted(t, os.WriteFile(at(root, "made"), nil, 0o600))
		},
	}
	number := 0
	for change := range then {
		for part := 0; ; part++ {
			number++
			key, name := fmt.Sprint("k", number), fmt.Sprint("n", number)
			mounts, err := s.Prepare(ctx, key, "base")
			granted(t, err)
			inMount(t, mounts, first)
			done := commitInPart(t, s, key, part)
			inMount(t, mounts, then[change])
			if part%3 == 2 {
				commitInPart(t, s, key, part/2)
			}
			granted(t, s.Commit(ctx, name, key))
			expectShown(t, s, name)
			granted(t, s.Remove(ctx, name))
			if done < part {
				break
			}
		}
	}
	if number < 60 {
		t.Errorf("%d commits", number)
	}
}

// Expects the store to have what the kernel shows of a committed snapshot, but for names that are no UTF-8.
func expectShown(t *testing.T, s *Snapshotter, name string) {
	t.Helper()
	mounts, err := s.View(ctx, "view", name)
	granted(t, err)
	inMount(t, mounts, func(root string) {
		want, got := shown(t, root), modelled(t, s, name)
		for _, it := range []map[string]string{want, got} {
			for path := range it {
				if strings.HasPrefix(path, "/d/%") || strings.HasPrefix(path, "/d/\xff") {
					delete(it, path)
				}
			}
		}
		sameTrees(t, got, want)
	})
	granted(t, s.Remove(ctx, "view"))
}

// A whiteout that a commit before has left below nothing is made anew.
func TestLoneWhiteoutsAfterPart(t *testing.T) {
	requiresRoot(t)
	s := newSnapshotter(t, t.TempDir())
	_, err := s.Prepare(ctx, "k", "")
	granted(t, err)
	granted(t, unix.Mknod(filepath.Join(upperOf(t, s, "k"), "w"), unix.S_IFCHR, 0))
	commitInPart(t, s, "k", 1)
	granted(t, s.Commit(ctx, "base", "k"))
	if got := usageOf(t, s, "base"); got != (pibroulez.Usage{Blocks: 1, Inodes: 2}) {
		t.Errorf("%v", got)
	}
}

// A layer that a commit before has left takes no more on the way to another one than the greater of both.
func TestCommitAfterPartAtTheLimit(t *testing.T) {
	root := t.TempDir()
	s, err := New(ctx, Config{Program: program(), Root: root, Tenants: map[string]pibroulez.Usage{"a": {Blocks: 11, Inodes: 11}}})
	granted(t, err)
	defer s.Close()
	_, err = s.Prepare(ctx, "a/1/k", "")
	granted(t, err)
	path := upperOf(t, s, "a/1/k")
	granted(t, os.WriteFile(filepath.Join(path, "z"), make([]byte, 10*4096), 0o600))
	commitInPart(t, s, "a/1/k", 1)
	granted(t, os.Remove(filepath.Join(path, "z")))
	for n := 0; n < 10; n++ {
		granted(t, os.WriteFile(filepath.Join(path, fmt.Sprint("f", n)), make([]byte, 4096), 0o600))
	}
	granted(t, s.Commit(ctx, "a/2/base", "a/1/k"))
	if got := usageOf(t, s, "a/2/base"); got != (pibroulez.Usage{Blocks: 11, Inodes: 11}) {
		t.Errorf("%v", got)
	}
}

// A layer of many files is a few batches, each with a line below the program's bound, and all in order.
func TestManyFilesInFewBatches(t *testing.T) {
	items, most := []upper.Item{}, strings.Repeat("\x01", 255)
	for n := 0; n < 20_000; n++ {
		items = append(items, upper.Item{Kind: upper.File, Path: fmt.Sprint("/f", n), Mode: 0o600})
	}
	for n := 0; n < 300; n++ {
		items = append(items, upper.Item{Kind: upper.Symlink, Path: fmt.Sprint(strings.Repeat("/"+most, 15), n), Text: strings.Repeat(most, 16)})
	}
	batches, next := 0, 0
	w := (&Snapshotter{}).writer(ctx, "k", nil)
	w.batch = func(operations []pibroulez.Operation) (pibroulez.Batched, error) {
		batches++
		for _, it := range operations {
			if it.Fields["path"] != items[next].Path {
				t.Fatalf("operation %d is %v", next, it)
			}
			next++
		}
		line, err := json.Marshal(operations)
		granted(t, err)
		if len(line) > 16<<20-1<<17 {
			t.Errorf("a line of %d bytes", len(line))
		}
		return pibroulez.Batched{}, nil
	}
	granted(t, w.write(items, false))
	if next != len(items) || batches > 8 {
		t.Errorf("%d of %d operations, %d batches", next, len(items), batches)
	}
}

// A commit of many files is a few lines of the log.
func TestManyFilesInFewLines(t *testing.T) {
	root := rootInMemory(t)
	s := newSnapshotter(t, root)
	_, err := s.Prepare(ctx, "k", "")
	granted(t, err)
	for n := 0; n < 500; n++ {
		granted(t, os.WriteFile(filepath.Join(upperOf(t, s, "k"), fmt.Sprint("f", n)), nil, 0o600))
	}
	lines := func() int {
		text, err := os.ReadFile(filepath.Join(root, LogFile))
		granted(t, err)
		return bytes.Count(text, []byte("\n")) - bytes.Count(text, markHead)
	}
	before := lines()
	granted(t, s.Commit(ctx, "base", "k"))
	if got := usageOf(t, s, "base"); got != (pibroulez.Usage{Blocks: 1, Inodes: 501}) {
		t.Errorf("%v", got)
	}
	if more := lines() - before; more != 2 {
		t.Errorf("%d lines, and a batch and a commit are two", more)
	}
}

// Where the layer has something that the directory doesn't show, nothing is committed, and the error says what differs.
func TestLedgerMismatch(t *testing.T) {
	requiresRoot(t)
	s := newSnapshotter(t, t.TempDir())
	committed(t, s, "base", "", func(root string) { granted(t, os.WriteFile(filepath.Join(root, "f"), nil, 0o600)) })
	_, err := s.Prepare(ctx, "k", "base")
	granted(t, err)
	info, err := s.store.Stat(ctx, Namespace, "k")
	granted(t, err)
	_, err = s.store.Whiteout(ctx, Namespace, "k", "/f")
	granted(t, err)
	err = s.Commit(ctx, "next", "k")
	if !errors.Is(err, ErrLedger) || !errdefs.IsFailedPrecondition(err) || !strings.Contains(err.Error(), `"k" has 1/2 there, and 1/1 in its directory`) {
		t.Errorf("%v", err)
	}
	granted(t, s.Remove(ctx, "k"))
	if _, err := os.Lstat(s.directories.of(info.ID)); !errors.Is(err, fs.ErrNotExist) {
		t.Error(err)
	}
}

// Each tenant's snapshots are in its namespace of the store and charged to it, all others in that of none; a walk has all in
// the order of their keys, and so has a snapshotter that is made anew.
func TestTenants(t *testing.T) {
	root := t.TempDir()
	config := Config{Program: program(), Root: root, Tenants: map[string]pibroulez.Usage{"a": {Blocks: 3, Inodes: 3}, "m": {Blocks: 200, Inodes: 200}}}
	s, err := New(ctx, config)
	granted(t, err)
	keys := []string{"a/1/x", "a/2/x", "b/1/x", "m/1/x", "mm/1/x", "plain", "z/1/a/b"}
	for n := 10; n < 100; n++ {
		keys = append(keys, fmt.Sprintf("m/9/%d", n))
	}
	for _, key := range keys {
		_, err := s.Prepare(ctx, key, "")
		granted(t, err)
	}
	_, err = s.Prepare(ctx, "a/3/x", "")
	granted(t, err)
	if _, err := s.Prepare(ctx, "a/4/x", ""); !errors.Is(err, pibroulez.ErrOverLimit) {
		t.Error(err)
	}
	granted(t, s.Remove(ctx, "a/3/x"))
	granted(t, s.Commit(ctx, "a/5/base", "a/2/x"))
	if err := s.Commit(ctx, "b/5/base", "a/1/x"); !errdefs.IsInvalidArgument(err) {
		t.Error(err)
	}
	seen := func() {
		t.Helper()
		var got []string
		for _, it := range infos(t, s) {
			got = append(got, it.Name)
		}
		if len(got) != len(keys) || got[0] != "a/1/x" || got[1] != "a/5/base" || got[2] != "b/1/x" || got[3] != "m/1/x" || got[4] != "m/9/10" ||
			strings.Join(got[len(got)-3:], " ") != "mm/1/x plain z/1/a/b" {
			t.Errorf("%q", got)
		}
		for namespace, number := range map[string]int{"a": 2, "m": 91, Namespace: 4} {
			nodes, err := s.store.Tree(ctx, namespace)
			granted(t, err)
			if len(nodes) != number {
				t.Errorf("%s: %d, not %d", namespace, len(nodes), number)
			}
		}
	}
	seen()
	granted(t, s.Close())
	s, err = New(ctx, config)
	granted(t, err)
	seen()
	_, err = s.Mounts(ctx, "a/1/x")
	granted(t, err)
	granted(t, s.Close())
	for _, tenants := range []map[string]pibroulez.Usage{{"none": {}}, {"a": {}, "b": {}}, {Namespace: {}}} {
		if _, err := New(ctx, Config{Program: program(), Root: root, Tenants: tenants}); !errdefs.IsFailedPrecondition(err) {
			t.Errorf("%v: %v", tenants, err)
		}
	}
}

// Snapshots that were made before their namespace was a tenant keep a snapshotter from being made.
func TestTenantsOfBefore(t *testing.T) {
	root := t.TempDir()
	tenants := map[string]pibroulez.Usage{"a": {Blocks: 3, Inodes: 3}}
	store, err := pibroulez.New(ctx, Config{Program: program(), Tenants: tenants}.ofStore(root, filepath.Join(root, "log")))
	granted(t, err)
	defer store.Close()
	s, err := New(ctx, Config{Root: root, Store: store})
	granted(t, err)
	_, err = s.Prepare(ctx, "a/1/x", "")
	granted(t, err)
	granted(t, s.Close())
	_, err = New(ctx, Config{Root: root, Store: store, Tenants: tenants})
	if !errdefs.IsFailedPrecondition(err) || !strings.Contains(err.Error(), `snapshot "a/1/x" was made before "a" was a tenant`) {
		t.Errorf("%v", err)
	}
}

// A reserve is charged as the snapshot is made. Without room there is no snapshot and no directory.
func TestReserve(t *testing.T) {
	root := t.TempDir()
	s, err := New(ctx, Config{Program: program(), Root: root, Tenants: map[string]pibroulez.Usage{"a": {Blocks: 100, Inodes: 50}}})
	granted(t, err)
	defer s.Close()
	prepare := func(key, reserve string) error {
		_, err := s.Prepare(ctx, key, "", snapshots.WithLabels(map[string]string{ReserveLabel: reserve}))
		return err
	}
	granted(t, prepare("a/1/k", "60/20"))
	if got := usageOf(t, s, "a/1/k"); got != (pibroulez.Usage{Blocks: 60, Inodes: 20}) {
		t.Errorf("%v", got)
	}
	before, err := s.store.Quota(ctx, "a")
	granted(t, err)
	err = prepare("a/2/k", "41/1")
	const want = `over limit: free 39 blocks, 29 inodes of tenant "a", and snapshot "a/2/k" wants 40 blocks, 0 inodes more`
	if !errdefs.IsUnavailable(err) || err.Error() != want {
		t.Errorf("%v", err)
	}
	after, err := s.store.Quota(ctx, "a")
	granted(t, err)
	if _, err := s.Stat(ctx, "a/2/k"); !errdefs.IsNotFound(err) || after != before {
		t.Errorf("%v, %+v", err, after)
	}
	s.directories.removals.wait()
	entries, err := os.ReadDir(filepath.Join(root, "snapshots"))
	granted(t, err)
	if len(entries) != 1 {
		t.Errorf("%v", entries)
	}
	// Of less than the root takes nothing more is charged, and a view has no reserve.
	granted(t, prepare("a/3/k", "0/0"))
	if got := usageOf(t, s, "a/3/k"); got != (pibroulez.Usage{Blocks: 1, Inodes: 1}) {
		t.Errorf("%v", got)
	}
	_, err = s.View(ctx, "a/4/v", "", snapshots.WithLabels(map[string]string{ReserveLabel: "99/9"}))
	granted(t, err)
	// What is committed is charged alone.
	granted(t, s.Commit(ctx, "a/5/base", "a/1/k"))
	if got := usageOf(t, s, "a/5/base"); got != (pibroulez.Usage{Blocks: 1, Inodes: 1}) {
		t.Errorf("%v", got)
	}
	for _, text := range []string{"1", "/", "1/", "/1", "-1/1", "1/-1", "1/1/1", " 1/1", "1/1 ", "a/1", "0x1/1", "1.5/1", "1099511627777/1", "1/99999999999999999999"} {
		err := prepare("a/6/k", text)
		if !errdefs.IsInvalidArgument(err) || !strings.Contains(err.Error(), ReserveLabel+fmt.Sprintf(": %q is no BLOCKS/INODES", text)) {
			t.Errorf("%q: %v", text, err)
		}
	}
	if _, err := s.Stat(ctx, "a/6/k"); !errdefs.IsNotFound(err) {
		t.Error(err)
	}
}

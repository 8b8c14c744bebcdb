package upper

import (
	"context"
	"errors"
	"os"
	"path/filepath"
	"strings"
	"syscall"
	"testing"

	"golang.org/x/sys/unix"

	"pibroulez.example/pibroulez"
)

func granted(t *testing.T, err error) {
	t.Helper()
	if err != nil {
		t.Fatal(err)
	}
}

// Names that are no UTF-8 have stand-ins, each one its own.
func TestStandIns(t *testing.T) {
	root := t.TempDir()
	long := strings.Repeat("\xfe", 255)
	for _, name := range []string{"\xff", "%FF", "ä", "\xc3", long, "a%"} {
		granted(t, os.WriteFile(filepath.Join(root, name), nil, 0o600))
	}
	it, err := Read(root)
	granted(t, err)
	names := map[string]bool{}
	for _, it := range it.Items {
		names[it.Path] = true
	}
	for _, want := range []string{"/%FF", "/ä", "/%C3", "/a%"} {
		if !names[want] {
			t.Errorf("no %q in %v", want, names)
		}
	}
	if len(names) != 6 || it.StandIns != 3 || it.Count != (pibroulez.Usage{Blocks: 1, Inodes: 7}) {
		t.Errorf("%v, %d, %v", names, it.StandIns, it.Count)
	}
}

// A target that is no UTF-8 has a stand-in of at most 4095 bytes.
func TestTargets(t *testing.T) {
	root := t.TempDir()
	for name, target := range map[string]string{"a": "x\xffy", "b": strings.Repeat("\xff", 1365), "c": strings.Repeat("\xff", 1366), "d": "ä"} {
		granted(t, os.Symlink(target, filepath.Join(root, name)))
	}
	it, err := Read(root)
	granted(t, err)
	if it.Items[0].Text != "x%FFy" || it.Items[1].Text != strings.Repeat("%FF", 1365) || len(it.Items[2].Text) != 65 || it.Items[3].Text != "ä" {
		t.Errorf("%+v", it.Items)
	}
}

// A symlink in place of a directory isn't followed.
func TestSymlinkInPlace(t *testing.T) {
	root := t.TempDir()
	granted(t, os.Symlink("/", filepath.Join(root, "d")))
	it, err := Read(root)
	granted(t, err)
	if len(it.Items) != 1 || it.Items[0].Kind != Symlink {
		t.Errorf("%+v", it.Items)
	}
	if _, err := Read(filepath.Join(root, "d")); !errors.Is(err, syscall.ENOTDIR) && !errors.Is(err, syscall.ELOOP) {
		t.Errorf("%v", err)
	}
}

// What the file system holds is each inode once: further names hold nothing, and whiteouts that are one inode one.
func TestHeld(t *testing.T) {
	if os.Getuid() != 0 {
		t.Skip("only root makes a whiteout")
	}
	root := t.TempDir()
	granted(t, os.WriteFile(filepath.Join(root, "a"), make([]byte, 10000), 0o600))
	granted(t, os.Link(filepath.Join(root, "a"), filepath.Join(root, "b")))
	granted(t, unix.Mknod(filepath.Join(root, "w1"), unix.S_IFCHR, 0))
	granted(t, os.Link(filepath.Join(root, "w1"), filepath.Join(root, "w2")))
	it, err := Read(root)
	granted(t, err)
	var status unix.Stat_t
	granted(t, unix.Stat(root, &status))
	bytes := uint64(status.Blocks) * 512
	granted(t, unix.Stat(filepath.Join(root, "a"), &status))
	if it.Held != (Held{bytes + uint64(status.Blocks)*512, 3}) || it.Count != (pibroulez.Usage{Blocks: 1 + 3, Inodes: 1 + 1 + 2}) {
		t.Errorf("%+v, %v", it.Held, it.Count)
	}
	if it.Items[1].Kind != Link || it.Items[1].Text != "/a" || it.Items[3].Kind != Whiteout || it.Items[3].Held.Inodes != 0 {
		t.Errorf("%+v", it.Items)
	}
}

// Count counts as Read does, whatever is there.
func TestCount(t *testing.T) {
	if os.Getuid() != 0 {
		t.Skip("only root makes a whiteout")
	}
	root := t.TempDir()
	at := func(path string) string { return filepath.Join(root, path) }
	granted(t, os.MkdirAll(at("d/e"), 0o700))
	// More than is read of a directory at a time.
	for n := 0; n < 3072; n++ {
		granted(t, os.WriteFile(at("d/"+strings.Repeat("x", 1+n%100)+string(rune('a'+n/100))), make([]byte, n), 0o600))
	}
	granted(t, os.Link(at("d/xa"), at("d/e/link")))
	granted(t, os.Symlink("there", at("s")))
	granted(t, os.Link(at("s"), at("d/s")))
	granted(t, unix.Mknod(at("c"), unix.S_IFCHR, int(unix.Mkdev(1, 3))))
	granted(t, os.Link(at("c"), at("d/c")))
	granted(t, unix.Mknod(at("w"), unix.S_IFCHR, 0))
	granted(t, os.Link(at("w"), at("d/w")))
	granted(t, unix.Mkfifo(at("p"), 0o600))
	granted(t, os.WriteFile(at("\xff"), make([]byte, 4097), 0o600))
	read, err := Read(root)
	granted(t, err)
	count, err := Count(context.Background(), root)
	granted(t, err)
	if count != read.Count || count.Inodes < 3000 {
		t.Errorf("%v, not %v", count, read.Count)
	}
	ended, cancel := context.WithCancel(context.Background())
	cancel()
	if _, err := Count(ended, root); !errors.Is(err, context.Canceled) {
		t.Error(err)
	}
	if _, err := Count(context.Background(), at("s")); !errors.Is(err, syscall.ENOTDIR) && !errors.Is(err, syscall.ELOOP) {
		t.Error(err)
	}
}

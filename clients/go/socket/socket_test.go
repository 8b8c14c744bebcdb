package socket

import (
	"io/fs"
	"os"
	"path/filepath"
	"strings"
	"testing"
)

func granted(t *testing.T, err error) {
	t.Helper()
	if err != nil {
		t.Fatal(err)
	}
}

// The socket has its mode and its folder's, and takes the place of one that nobody listens at.
func TestSocket(t *testing.T) {
	folder := filepath.Join(t.TempDir(), "run", "pibroulez")
	path := filepath.Join(folder, "socket")
	listener, err := Listen(path, 0o660, 0o700)
	granted(t, err)
	for path, mode := range map[string]fs.FileMode{path: fs.ModeSocket | 0o660, folder: fs.ModeDir | 0o700} {
		status, err := os.Lstat(path)
		granted(t, err)
		if status.Mode() != mode {
			t.Errorf("%s has mode %v, not %v", path, status.Mode(), mode)
		}
	}
	if _, err := Listen(path, 0o660, 0o700); err == nil || !strings.Contains(err.Error(), "another process") {
		t.Errorf("%v: a socket that another one listens at", err)
	}
	listener.SetUnlinkOnClose(false)
	granted(t, listener.Close())
	listener, err = Listen(path, 0o660, 0o700)
	granted(t, err)
	granted(t, listener.Close())
}

// A file in the place of the socket that is none stays as it is.
func TestFileInPlaceOfSocket(t *testing.T) {
	folder := t.TempDir()
	file, link := filepath.Join(folder, "file"), filepath.Join(folder, "link")
	granted(t, os.WriteFile(file, []byte("kept"), 0o600))
	granted(t, os.Symlink(file, link))
	for _, path := range []string{file, link, folder} {
		if _, err := Listen(path, 0o660, 0o700); err == nil || !strings.Contains(err.Error(), "is no socket") {
			t.Errorf("%v: %s in place of a socket", err, path)
		}
	}
	if text, err := os.ReadFile(file); err != nil || string(text) != "kept" {
		t.Errorf("%q, %v: what was in the place of a socket", text, err)
	}
}

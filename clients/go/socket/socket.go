// Package socket listens at Unix sockets, as daemons do that are ended and started again.
package socket

import (
	"errors"
	"fmt"
	"io/fs"
	"net"
	"os"
	"path/filepath"
	"syscall"
	"time"
)

// Listen listens at a path, by a socket of this mode. Its folder, where it is made, has folderMode. A socket there that
// nobody listens at any more is replaced; a file that isn't one stays, and so does the socket of another process. The
// process's umask is another one for a moment.
func Listen(path string, mode, folderMode fs.FileMode) (*net.UnixListener, error) {
	if err := os.MkdirAll(filepath.Dir(path), folderMode); err != nil {
		return nil, err
	}
	if err := clear(path); err != nil {
		return nil, err
	}
	// The socket has its mode from the beginning, so that nobody else connects before that.
	mask := syscall.Umask(0o777 &^ int(mode))
	defer syscall.Umask(mask)
	return net.ListenUnix("unix", &net.UnixAddr{Name: path, Net: "unix"})
}

// Removes a socket that a killed proxy has left.
func clear(path string) error {
	status, err := os.Lstat(path)
	if errors.Is(err, fs.ErrNotExist) {
		return nil
	}
	if err != nil {
		return err
	}
	if status.Mode().Type() != fs.ModeSocket {
		return fmt.Errorf("%s is no socket", path)
	}
	connection, err := net.DialTimeout("unix", path, time.Second)
	if err == nil {
		connection.Close()
		return fmt.Errorf("another process listens at %s", path)
	}
	if !errors.Is(err, syscall.ECONNREFUSED) {
		return err
	}
	return os.Remove(path)
}

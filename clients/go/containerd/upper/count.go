package upper

import (
	"context"
	"errors"
	"io/fs"
	"sync"

	"golang.org/x/sys/unix"

	"pibroulez.example/pibroulez"
)

// How many bytes of a directory's names are read at a time.
const namesBytes = 32 << 10

// Room for them, which a count gives back.
var rooms = sync.Pool{New: func() any { return new([namesBytes]byte) }}

// Count is the Count of Read, without its items: a status of each entry is all that is read, and in memory are the inodes with
// several names. Marks and paths of other mounts are no error here. The error is the context's where it ends before, or the
// system's.
func Count(ctx context.Context, path string) (pibroulez.Usage, error) {
	root, err := unix.Open(path, unix.O_RDONLY|unix.O_DIRECTORY|unix.O_NOFOLLOW|unix.O_CLOEXEC, 0)
	if err != nil {
		return pibroulez.Usage{}, &fs.PathError{Op: "scan", Path: path, Err: err}
	}
	room := rooms.Get().(*[namesBytes]byte)
	defer rooms.Put(room)
	c := &counter{ctx: ctx, Usage: pibroulez.Usage{Blocks: 1, Inodes: 1}, seen: map[inode]bool{}, room: room[:]}
	if err := c.directory(root, path); err != nil {
		return pibroulez.Usage{}, err
	}
	return c.Usage, nil
}

// A counter counts what is in an upper directory.
type counter struct {
	ctx context.Context
	pibroulez.Usage
	// The inodes with several names.
	seen map[inode]bool
	room []byte
}

// Counts what is in a directory, and closes it.
func (c *counter) directory(at int, path string) error {
	defer unix.Close(at)
	var names []string
	for {
		if err := c.ctx.Err(); err != nil {
			return err
		}
		size, err := unix.ReadDirent(at, c.room)
		if errors.Is(err, unix.EINTR) {
			continue
		}
		if err != nil {
			return &fs.PathError{Op: "scan", Path: path, Err: err}
		}
		if size == 0 {
			return nil
		}
		// Copies of the names, so that what is below has the room.
		_, _, names = unix.ParseDirent(c.room[:size], -1, names[:0])
		for _, name := range names {
			if err := c.entry(at, path, name); err != nil && !errors.Is(err, fs.ErrNotExist) {
				return err
			}
		}
	}
}

func (c *counter) entry(at int, path, name string) error {
	fail := func(err error) error { return &fs.PathError{Op: "scan", Path: path + "/" + name, Err: err} }
	var status unix.Stat_t
	if err := unix.Fstatat(at, name, &status, unix.AT_SYMLINK_NOFOLLOW); err != nil {
		return fail(err)
	}
	kind := status.Mode & unix.S_IFMT
	if kind == unix.S_IFDIR {
		below, err := unix.Openat(at, name, unix.O_RDONLY|unix.O_DIRECTORY|unix.O_NOFOLLOW|unix.O_CLOEXEC, 0)
		if errors.Is(err, unix.ENOTDIR) || errors.Is(err, unix.ELOOP) {
			// It has gone meanwhile, and something else has come.
			return nil
		}
		if err != nil {
			return fail(err)
		}
		c.Blocks++
		c.Inodes++
		return c.directory(below, path+"/"+name)
	}
	isWhiteout := kind == unix.S_IFCHR && status.Rdev == 0
	if status.Nlink > 1 && !isWhiteout {
		key := inode{uint64(status.Dev), status.Ino}
		if c.seen[key] {
			return nil
		}
		c.seen[key] = true
	}
	c.Inodes++
	if kind == unix.S_IFREG {
		c.Blocks += (uint64(status.Size) + blockSize - 1) / blockSize
	}
	return nil
}

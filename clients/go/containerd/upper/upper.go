// Package upper reads the directory of an upper layer of an overlay mount, as the kernel has left it, and counts what a layer
// of the store with all that takes.
package upper

import (
	"bytes"
	"crypto/sha256"
	"errors"
	"fmt"
	"io/fs"
	"os"
	"sort"
	"strings"
	"syscall"
	"unicode/utf8"

	"golang.org/x/sys/unix"

	"pibroulez.example/pibroulez"
)

// ErrNotOverlay is of an upper directory that has what the mounts of this snapshotter don't make: a redirected directory, or
// a file whose content is in a layer below (Documentation/filesystems/overlayfs.rst). The error names the path.
var ErrNotOverlay = errors.New("not an upper directory of these mounts")

// ErrTooLongPath is of an upper directory with a path that no layer of the store may have: of more than 4095 bytes.
var ErrTooLongPath = errors.New("a path of more than 4095 bytes")

// Limits of docs/RULES.md.
const (
	mostPathBytes = 4095
	mostNameBytes = 255
)

// A Kind is what is found at a path.
type Kind int

// The kinds. A whiteout is a character device of number 0/0, a special file a device, a pipe or a socket, and a link a further
// name of what has one that stands before it.
const (
	Directory Kind = iota
	File
	Symlink
	Whiteout
	Special
	Link
)

// An Item is what is at a path.
type Item struct {
	// Path has a stand-in for each name that is no UTF-8.
	Path string
	Kind Kind
	Mode uint32
	// Size is that of a file, in bytes.
	Size uint64
	// Text is the target of a symlink, the first name of a link, and what a special file is.
	Text string
	// IsOpaque says that a directory hides what the layers below have in it.
	IsOpaque bool
	// Held is what the file system holds for it: nothing for an inode that stands before it.
	Held Held
}

// Held is bytes and inodes of a file system.
type Held struct{ Bytes, Inodes uint64 }

// A Layer is an upper directory that was read once.
type Layer struct {
	// Items has each directory before what is in it, names in byte order. The root is none.
	Items []Item
	// Count is what a layer of the store with all that takes, with its root (docs/RULES.md, "Counts").
	Count pibroulez.Usage
	// Held is what the file system holds, each inode once, as containerd's overlayfs counts.
	Held Held
	// StandIns is how many names and targets are no UTF-8.
	StandIns int
}

// What identifies an inode.
type inode struct{ device, number uint64 }

// A scanner reads an upper directory. It follows no symlink, so that it stays there whatever is renamed meanwhile.
type scanner struct {
	Layer
	// The first path of each inode that has several names.
	first map[inode]string
	seen  map[inode]bool
}

// Read reads an upper directory, in time and memory of its entries. What goes away meanwhile is left out. The error is
// ErrNotOverlay or ErrTooLongPath with the path, or the system's.
func Read(path string) (*Layer, error) {
	root, err := unix.Open(path, unix.O_RDONLY|unix.O_DIRECTORY|unix.O_NOFOLLOW|unix.O_CLOEXEC, 0)
	if err != nil {
		return nil, &fs.PathError{Op: "scan", Path: path, Err: err}
	}
	s := &scanner{Layer: Layer{Count: pibroulez.Usage{Blocks: 1, Inodes: 1}}, first: map[inode]string{}, seen: map[inode]bool{}}
	var status unix.Stat_t
	if err := unix.Fstat(root, &status); err != nil {
		unix.Close(root)
		return nil, &fs.PathError{Op: "scan", Path: path, Err: err}
	}
	s.hold(&status)
	if err := s.directory(root, ""); err != nil {
		return nil, err
	}
	return &s.Layer, nil
}

// Reads a directory, and closes it.
func (s *scanner) directory(at int, path string) error {
	folder := os.NewFile(uintptr(at), path)
	defer folder.Close()
	names, err := folder.Readdirnames(-1)
	if err != nil {
		return &fs.PathError{Op: "scan", Path: path, Err: errors.Unwrap(err)}
	}
	sort.Strings(names)
	isThere := map[string]bool{}
	for _, name := range names {
		isThere[name] = true
	}
	self := fmt.Sprintf("/proc/self/fd/%d/", at)
	for _, name := range names {
		told := standIn(name, isThere)
		if told != name {
			s.StandIns++
		}
		if err := s.entry(at, self, name, path+"/"+told); err != nil && !errors.Is(err, fs.ErrNotExist) {
			return err
		}
	}
	return nil
}

// Reads what a directory has under a name. self is what the path of its names begins with.
func (s *scanner) entry(at int, self, name, path string) error {
	if len(path) > mostPathBytes {
		return fmt.Errorf("%w: %s", ErrTooLongPath, path)
	}
	fail := func(err error) error { return &fs.PathError{Op: "scan", Path: path, Err: err} }
	var status unix.Stat_t
	if err := unix.Fstatat(at, name, &status, unix.AT_SYMLINK_NOFOLLOW); err != nil {
		return fail(err)
	}
	it := Item{Path: path, Mode: status.Mode & 0o7777, Held: s.hold(&status)}
	if status.Mode&unix.S_IFMT == unix.S_IFDIR {
		below, err := unix.Openat(at, name, unix.O_RDONLY|unix.O_DIRECTORY|unix.O_NOFOLLOW|unix.O_CLOEXEC, 0)
		if err != nil {
			return fail(err)
		}
		if it.IsOpaque, err = marksOf(below, path); err != nil {
			unix.Close(below)
			return err
		}
		s.add(it)
		return s.directory(below, path)
	}
	if err := it.read(at, self, name, &status); err != nil {
		return err
	}
	if !utf8.ValidString(it.Text) {
		it.Text = bounded(escaped(it.Text), mostPathBytes)
		s.StandIns++
	}
	if status.Nlink > 1 && it.Kind != Whiteout {
		key := inode{uint64(status.Dev), status.Ino}
		if first, isThere := s.first[key]; isThere {
			it = Item{Path: path, Kind: Link, Text: first}
		} else {
			s.first[key] = path
		}
	}
	s.add(it)
	return nil
}

// What the unit of a status's blocks is, in bytes (stat(2)).
const statusBlock = 512

// Takes note of what the file system holds for an inode: nothing for one that was seen before.
func (s *scanner) hold(status *unix.Stat_t) Held {
	key := inode{uint64(status.Dev), status.Ino}
	if s.seen[key] {
		return Held{}
	}
	if status.Nlink > 1 {
		s.seen[key] = true
	}
	held := Held{uint64(status.Blocks) * statusBlock, 1}
	s.Held.Bytes += held.Bytes
	s.Held.Inodes++
	return held
}

func (s *scanner) add(it Item) {
	s.Items = append(s.Items, it)
	count := it.Count()
	s.Count.Blocks += count.Blocks
	s.Count.Inodes += count.Inodes
}

// What a block of a usage is, in bytes.
const blockSize = 4096

// Count is what the store counts for it (docs/RULES.md, "Counts").
func (it *Item) Count() pibroulez.Usage {
	switch it.Kind {
	case Directory:
		return pibroulez.Usage{Blocks: 1, Inodes: 1}
	case File:
		return pibroulez.Usage{Blocks: (it.Size + blockSize - 1) / blockSize, Inodes: 1}
	case Symlink, Whiteout, Special:
		return pibroulez.Usage{Inodes: 1}
	case Link:
	}
	return pibroulez.Usage{}
}

// Reads what is at a name that is no directory.
func (it *Item) read(at int, self, name string, status *unix.Stat_t) error {
	device := func(kind string) {
		it.Kind, it.Text = Special, fmt.Sprintf("special:%s:%d:%d", kind, unix.Major(uint64(status.Rdev)), unix.Minor(uint64(status.Rdev)))
	}
	switch status.Mode & unix.S_IFMT {
	case unix.S_IFREG:
		it.Kind, it.Size = File, uint64(status.Size)
		if mayHaveMark(unix.Llistxattr, self+name) {
			return noMark(self+name, it.Path, "metacopy")
		}
		return nil
	case unix.S_IFLNK:
		target := make([]byte, mostPathBytes+1)
		size, err := unix.Readlinkat(at, name, target)
		if err != nil {
			return &fs.PathError{Op: "scan", Path: it.Path, Err: err}
		}
		it.Kind, it.Text = Symlink, string(target[:size])
	case unix.S_IFCHR:
		if it.Kind = Whiteout; status.Rdev != 0 {
			device("c")
		}
	case unix.S_IFBLK:
		device("b")
	case unix.S_IFIFO:
		it.Kind, it.Text = Special, "special:p"
	default:
		it.Kind, it.Text = Special, "special:s"
	}
	return nil
}

// Where overlay mounts keep their marks, by whether they are root's.
var markPrefixes = []string{"trusted.overlay.", "user.overlay."}

// Whether a directory hides what is below it. One that was renamed without being copied up is an error.
func marksOf(at int, path string) (isOpaque bool, err error) {
	self := fmt.Sprintf("/proc/self/fd/%d", at)
	if !mayHaveMark(unix.Listxattr, self) {
		return false, nil
	}
	if err := noMark(self, path, "redirect"); err != nil {
		return false, err
	}
	for _, prefix := range markPrefixes {
		value := make([]byte, 1)
		size, err := unix.Getxattr(self, prefix+"opaque", value)
		isOpaque = isOpaque || err == nil && size == 1 && value[0] == 'y'
	}
	return isOpaque, nil
}

// Whether a path may have one of the marks, by the names of all its attributes. So most paths take one call.
func mayHaveMark(list func(string, []byte) (int, error), path string) bool {
	var names [256]byte
	size, err := list(path, names[:])
	return err != nil && !errors.Is(err, unix.ENOTSUP) || err == nil && bytes.Contains(names[:size], []byte(".overlay."))
}

func noMark(self, path, mark string) error {
	read := unix.Lgetxattr
	if mark == "redirect" {
		// The last part is the descriptor itself.
		read = unix.Getxattr
	}
	for _, prefix := range markPrefixes {
		if _, err := read(self, prefix+mark, nil); err == nil {
			return fmt.Errorf("%w: %s has %s%s", ErrNotOverlay, path, prefix, mark)
		} else if errors.Is(err, syscall.ENOENT) {
			return &fs.PathError{Op: "scan", Path: path, Err: err}
		}
	}
	return nil
}

// A name of the store for a name: itself where it is UTF-8, else one that no other name of its directory has.
func standIn(name string, isThere map[string]bool) string {
	if utf8.ValidString(name) {
		return name
	}
	told := bounded(escaped(name), mostNameBytes)
	for isThere[told] {
		told = fmt.Sprintf("%%%x", sha256.Sum256([]byte(told)))
	}
	isThere[told] = true
	return told
}

// A text, or its sum where it has more bytes than it may.
func bounded(text string, most int) string {
	if len(text) <= most {
		return text
	}
	return fmt.Sprintf("%%%x", sha256.Sum256([]byte(text)))
}

// A text with percent signs in place of bytes that are no UTF-8, as in a URL (RFC 3986, 2.1).
func escaped(text string) string {
	var all strings.Builder
	for len(text) > 0 {
		it, size := utf8.DecodeRuneInString(text)
		if it == utf8.RuneError && size == 1 {
			fmt.Fprintf(&all, "%%%02X", text[0])
		} else {
			all.WriteString(text[:size])
		}
		text = text[size:]
	}
	return all.String()
}

// Package layer tells by which operations the archive of an image's layer is made over what lower layers show (OCI image
// specification, "Image Layer Filesystem Changeset").
package layer

import (
	"archive/tar"
	"errors"
	"fmt"
	"io"
)

// An Operation is the object of an operation, as docs/SCRIPT.md has it in a batch.
type Operation map[string]any

// A Node is what is seen at a path: a directory with its mode, a symlink with its target, or a file with its mode and its
// size in bytes.
type Node struct {
	IsDirectory, IsSymlink bool
	Mode                   uint32
	Size                   uint64
	Target                 string
}

// Seen is what lower layers show.
type Seen interface {
	// List tells the names in a directory.
	List(path string) ([]string, error)
	// Look tells what is at a path, where something is.
	Look(path string) (Node, error)
}

// A Layer is what an archive is made by.
type Layer struct {
	Operations []Operation
	// Blocks and Inodes are what the layer takes then.
	Blocks, Inodes uint64
	// LeftOut counts what can't be kept, by what it is.
	LeftOut map[string]int
}

// ErrUnreadable says that an archive can't be read, or that it has more than the bounds.
var ErrUnreadable = errors.New("the archive is unreadable")

// The most symlinks above an entry (containerd's package fs, RootPath).
const mostLinks = 255

// Bounds are how much of an archive is read. Zero stands for the number that Defaults has.
type Bounds struct {
	// Bytes are those of files, with the holes of sparse ones.
	Bytes int
	// Entries are those of the archive, and directories without one of their own.
	Entries int
	// TextBytes are those of the paths and targets of entries.
	TextBytes int
	// WayNames are the names on the ways to entries, in their paths and in the targets of symlinks.
	WayNames int
}

// Defaults are the bounds that Read takes for zero.
var Defaults = Bounds{Bytes: 1 << 35, Entries: 1 << 21, TextBytes: 1 << 28, WayNames: 1 << 23}

func (b Bounds) orDefaults() *Bounds {
	for _, each := range []struct {
		is *int
		or int
	}{{&b.Bytes, Defaults.Bytes}, {&b.Entries, Defaults.Entries}, {&b.TextBytes, Defaults.TextBytes}, {&b.WayNames, Defaults.WayNames}} {
		if *each.is == 0 {
			*each.is = each.or
		}
	}
	return &b
}

// Uses this much of a bound.
func (b *Bounds) take(of *int, number int) error {
	if *of -= number; *of < 0 {
		return fmt.Errorf("%w: it has more than its bounds", ErrUnreadable)
	}
	return nil
}

// What kind of thing can't be kept.
type leftOut string

func (l leftOut) Error() string { return string(l) }

// Read reads a layer's archive to its end, and tells by which operations it is made over what lower layers show: its
// whiteouts (`.wh.NAME`) and opaque marks (`.wh..wh..opq`) first, since they hide what lower layers show and nothing of its
// own, then the other entries, each in place of what is seen at its path unless both are directories. Directories that have
// no entry of their own get the mode octal 755. What can't be kept is left out and counted. Seen is asked what it shows as
// far as it matters.
//
// The error is ErrUnreadable, or one of Seen.
func Read(archive io.Reader, seen Seen, bounds Bounds) (*Layer, error) {
	within := bounds.orDefaults()
	made := &Layer{LeftOut: map[string]int{}}
	marks, entries, err := read(tar.NewReader(archive), within, made.LeftOut)
	if err != nil {
		return nil, err
	}
	t := newTree(seen, within)
	if len(marks) > 0 {
		w, err := newWays(t, marks, entries)
		if err != nil {
			return nil, err
		}
		for _, mark := range marks {
			if err := made.kept(t.mark(w, mark)); err != nil {
				return nil, err
			}
		}
	}
	for _, each := range entries {
		if err := made.kept(t.apply(each)); err != nil {
			return nil, err
		}
	}
	made.Operations, made.Blocks, made.Inodes = t.operations, t.blocks, t.inodes
	return made, nil
}

// Counts what can't be kept.
func (l *Layer) kept(err error) error {
	var why leftOut
	if errors.As(err, &why) {
		l.LeftOut[string(why)]++
		return nil
	}
	return err
}

// Makes a mark, at the end of its way.
func (t *tree) mark(w *ways, mark string) error {
	above, name := split(mark)
	d, isThere, err := w.directoryAt(above)
	if err != nil {
		return err
	}
	if !isThere {
		return leftOut("whiteouts of nothing")
	}
	return t.hide(d, name)
}

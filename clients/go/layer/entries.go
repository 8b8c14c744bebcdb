package layer

import (
	"archive/tar"
	"crypto/sha256"
	"encoding/hex"
	"fmt"
	"io"
	"path"
	"strings"
	"unicode/utf8"
)

const (
	whiteoutMark = ".wh."
	opaqueMark   = ".wh..wh..opq"
	modeBits     = 0o7777
)

type kind int

const (
	aFile kind = iota
	hardLink
	aSymlink
	aDirectory
)

// An entry, by its path from the root. The text is a file's digest, a symlink's target, or the path of the file of a hard
// link.
type entry struct {
	kind kind
	path string
	mode uint32
	size uint64
	text string
}

// A file or symlink whose name can't be kept. The first name of it that can be kept takes its place.
type lost struct {
	entry entry
	name  string
}

// The file under another of its names, which is a hard link of the archive.
func (l *lost) named(other entry) entry {
	if l.name != "" {
		other.text = l.name
		return other
	}
	it := l.entry
	it.path, it.mode = other.path, other.mode
	return it
}

// The paths of the marks, and all other entries that can be kept. The root has no entry.
func read(archive *tar.Reader, bounds *Bounds, out map[string]int) (marks []string, entries []entry, err error) {
	missing := map[string]*lost{}
	for {
		header, err := archive.Next()
		if err == io.EOF {
			return marks, entries, nil
		}
		if err != nil {
			return nil, nil, fmt.Errorf("%w: %v", ErrUnreadable, err)
		}
		it, isKept, err := entryOf(header, archive, bounds, out)
		if err != nil {
			return nil, nil, err
		}
		if strings.Contains(it.path, "/"+whiteoutMark) {
			above, name := split(it.path)
			if why := nameReason(above + "/" + strings.TrimPrefix(name, whiteoutMark)); why != "" {
				out[why]++
			} else {
				marks = append(marks, it.path)
			}
			continue
		}
		if !isKept {
			delete(missing, it.path)
			continue
		}
		var file *lost
		if it.kind == hardLink {
			file = missing[clean(it.text)]
		}
		if file != nil {
			it = file.named(it)
		}
		switch why := it.reason(); {
		case why != "":
			out[why]++
			if it.kind == aDirectory {
				delete(missing, it.path)
			} else if file != nil {
				missing[it.path] = file
			} else {
				missing[it.path] = &lost{entry: it}
			}
		case it.path != "/":
			entries = append(entries, it)
			if file != nil && file.name == "" {
				file.name = it.path
			}
		}
	}
}

// An entry, and whether the store has things of its kind. Those that it doesn't have are counted.
func entryOf(header *tar.Header, archive io.Reader, bounds *Bounds, out map[string]int) (entry, bool, error) {
	it := entry{path: clean(header.Name), mode: uint32(header.Mode) & modeBits, text: header.Linkname}
	if err := bounds.take(&bounds.Entries, 1); err != nil {
		return it, false, err
	}
	if err := bounds.take(&bounds.TextBytes, len(it.path)+len(it.text)); err != nil {
		return it, false, err
	}
	if header.Uid != 0 || header.Gid != 0 {
		out["owners"]++
	}
	for name := range header.PAXRecords {
		if strings.HasPrefix(name, "SCHILY.xattr.") {
			out["extended attributes"]++
		}
	}
	switch header.Typeflag {
	case tar.TypeReg, tar.TypeCont, tar.TypeGNUSparse:
		digest, err := digestOf(header, archive, bounds)
		it.kind, it.size, it.text = aFile, uint64(header.Size), digest
		return it, true, err
	case tar.TypeLink:
		it.kind = hardLink
	case tar.TypeSymlink:
		it.kind = aSymlink
	case tar.TypeDir:
		it.kind = aDirectory
	default:
		if !strings.Contains(it.path, "/"+whiteoutMark) && header.Typeflag != tar.TypeXGlobalHeader {
			out[otherKinds(header.Typeflag)]++
		}
		return it, false, nil
	}
	return it, true, nil
}

func otherKinds(flag byte) string {
	switch flag {
	case tar.TypeChar, tar.TypeBlock:
		return "device files"
	case tar.TypeFifo:
		return "pipes"
	}
	return "entries of another kind"
}

func digestOf(header *tar.Header, archive io.Reader, bounds *Bounds) (string, error) {
	if header.Size < 0 || header.Size > int64(bounds.Bytes) {
		return "", bounds.take(&bounds.Bytes, bounds.Bytes+1)
	}
	if err := bounds.take(&bounds.Bytes, int(header.Size)); err != nil {
		return "", err
	}
	found := sha256.New()
	if _, err := io.Copy(found, archive); err != nil {
		return "", fmt.Errorf("%w: %v", ErrUnreadable, err)
	}
	return "sha256:" + hex.EncodeToString(found.Sum(nil)), nil
}

// The path from the root, as path/filepath's Clean writes it.
func clean(name string) string { return path.Clean("/" + name) }

// Why the store can't keep an entry, whatever stands elsewhere, or empty.
func (e entry) reason() string {
	if why := nameReason(e.path); why != "" {
		return why
	}
	switch {
	case e.kind == aFile && e.size > mostFileBytes:
		return "files above 2^40 bytes"
	case e.kind == aSymlink && !utf8.ValidString(e.text):
		return "targets that are no UTF-8"
	case e.kind == aSymlink && (e.text == "" || len(e.text) > mostPathBytes):
		return "targets that are empty or too long"
	}
	return ""
}

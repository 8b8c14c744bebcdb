package layer

import (
	"archive/tar"
	"bytes"
	"errors"
	"fmt"
	"reflect"
	"strings"
	"testing"
)

// Expected operations follow the rules of examples/README.md ("Why the scripts of images"), and counts those of
// docs/RULES.md.

// A path that ends with a slash is a directory, and one that begins so in what is behind it a symlink (`->`) or a hard link
// (`=`); any other is a file with these bytes.
type row struct{ path, what string }

func archive(t *testing.T, rows ...row) *bytes.Buffer {
	t.Helper()
	made := new(bytes.Buffer)
	w := tar.NewWriter(made)
	for _, it := range rows {
		h := &tar.Header{Name: strings.TrimRight(it.path, "/"), Typeflag: tar.TypeReg, Mode: 0o644, Size: int64(len(it.what))}
		switch {
		case strings.HasSuffix(it.path, "/"):
			h.Typeflag, h.Mode, h.Size = tar.TypeDir, 0o755, 0
		case strings.HasPrefix(it.what, "->"):
			h.Typeflag, h.Linkname, h.Size = tar.TypeSymlink, it.what[2:], 0
		case strings.HasPrefix(it.what, "="):
			h.Typeflag, h.Linkname, h.Size = tar.TypeLink, it.what[1:], 0
		}
		if err := w.WriteHeader(h); err != nil {
			t.Fatal(err)
		}
		if h.Size > 0 {
			fmt.Fprint(w, it.what)
		}
	}
	if err := w.Close(); err != nil {
		t.Fatal(err)
	}
	return made
}

// What lower layers show, by paths. The names are sorted.
type shown map[string]Node

func (s shown) List(path string) ([]string, error) {
	names := []string{}
	for each := range s {
		if above, name := split(each); above == strings.TrimRight(path, "/") {
			names = append(names, name)
		}
	}
	return names, nil
}

func (s shown) Look(path string) (Node, error) { return s[path], nil }

var lower = shown{
	"/d": {IsDirectory: true, Mode: 0o755}, "/d/f": {Mode: 0o644, Size: 5000}, "/d/gone": {Mode: 0o644},
	"/etc": {IsDirectory: true, Mode: 0o755}, "/etc/x": {Mode: 0o644, Size: 3}, "/etc/y": {Mode: 0o644, Size: 3},
	"/usr": {IsDirectory: true, Mode: 0o755}, "/usr/bin": {IsDirectory: true, Mode: 0o755},
	"/usr/bin/l": {IsSymlink: true, Target: "../../etc/x"}, "/sbin": {IsSymlink: true, Target: "usr/bin"},
}

// Each operation in short.
func (l *Layer) short() []string {
	said := []string{}
	for _, it := range l.Operations {
		words := fmt.Sprint(it["do"])
		for _, name := range []string{"from", "to", "path", "target", "size"} {
			if value, has := it[name]; has {
				words += fmt.Sprint(" ", value)
			}
		}
		said = append(said, words)
	}
	return said
}

func TestRead(t *testing.T) {
	for name, it := range map[string]struct {
		seen           Seen
		rows           []row
		wanted         string
		blocks, inodes uint64
		out            map[string]int
	}{
		"nothing": {shown{}, nil, "", 1, 1, nil},
		// The root and four directories 5/5, a file of two blocks 2/1, an empty one 0/1, one of two names 1/1, and two
		// symlinks 0/2.
		"a first layer": {shown{}, []row{
			{"d/", ""}, {"d/f", strings.Repeat("x", 5000)}, {"d/gone", ""}, {"etc/", ""}, {"etc/x", "abc"}, {"etc/y", "=etc/x"},
			{"usr/bin/l", "->../../etc/x"}, {"sbin", "->usr/bin"},
		}, "mkdir /d, put /d/f 5000, put /d/gone 0, mkdir /etc, put /etc/x 3, link /etc/x /etc/y, mkdir /usr, mkdir /usr/bin, " +
			"symlink /usr/bin/l ../../etc/x, symlink /sbin usr/bin", 8, 10, nil},
		// The root, /d, /etc, /usr and /usr/bin 5/5, /d/f 1/1, a whiteout 0/1, an empty file 0/1, and the lower file under two
		// names 1/1.
		"marks, symlinks and lower files": {lower, []row{
			{"d/f", "abc"}, {"d/.wh..wh..opq", ""}, {"etc/.wh.x", ""}, {"etc/.wh.nothing", ""}, {"sbin/m", ""}, {"etc/l", "=etc/y"},
			{"usr/", ""},
		}, "opaque /d, whiteout /etc/x, put /d/f 3, put /usr/bin/m 0, link /etc/y /etc/l", 7, 9, map[string]int{"whiteouts of nothing": 1}},
		// The root 1/1, a file and a directory in place of whiteouts 2/2, and whiteouts of /etc and /usr.
		"a mark of the root": {lower, []row{{".wh..wh..opq", ""}, {"d", "abc"}, {"sbin/", ""}},
			"whiteout /d, whiteout /etc, whiteout /sbin, whiteout /usr, put /d 3, mkdir /sbin", 3, 5, nil},
		"what takes a place": {lower, []row{{"d", "->etc"}, {"d/m", ""}, {"usr", "abc"}},
			"whiteout /d, symlink /d etc, put /etc/m 0, whiteout /usr, put /usr 3", 3, 5, nil},
		"modes": {lower, []row{{"d/", ""}, {"etc/y", "=etc/x"}}, "setmode /d, unlink /etc/y, link /etc/x /etc/y", 4, 4, nil},
		// The hard link of a name that can't be kept is the file.
		"names that can't be kept": {shown{}, []row{{"a\xff", "abc"}, {"b", "=a\xff"}, {"c", "=a\xff"}}, "put /b 3, link /b /c", 2, 2,
			map[string]int{"names that are no UTF-8": 1}},
		"what leads nowhere": {lower, []row{{"etc/x/f", ""}, {"g", "=no/f"}, {"d", "=d/f"}, {".wh..wh.a", ""}, {"loop", "->loop"}, {"loop/f", ""}},
			"symlink /loop loop", 1, 2, map[string]int{
				"entries below what is no directory": 2, "hard links to no file": 1, "hard links to what they replace": 1, "whiteouts of no name": 1,
			}},
	} {
		t.Run(name, func(t *testing.T) {
			made, err := Read(archive(t, it.rows...), it.seen, Bounds{})
			if err != nil {
				t.Fatal(err)
			}
			if got := strings.Join(made.short(), ", "); got != it.wanted {
				t.Errorf("%s, not %s", got, it.wanted)
			}
			if made.Blocks != it.blocks || made.Inodes != it.inodes {
				t.Errorf("%d/%d, not %d/%d", made.Blocks, made.Inodes, it.blocks, it.inodes)
			}
			if len(made.LeftOut)+len(it.out) > 0 && !reflect.DeepEqual(made.LeftOut, it.out) {
				t.Errorf("%v, not %v", made.LeftOut, it.out)
			}
		})
	}
}

func TestDigests(t *testing.T) {
	made, err := Read(archive(t, row{"f", "abc"}), shown{}, Bounds{})
	if err != nil {
		t.Fatal(err)
	}
	if got := made.Operations[0]["digest"]; got != "sha256:ba7816bf8f01cfea414140de5dae2223b00361a396177a9cb410ff61f20015ad" {
		t.Error(got)
	}
}

func TestUnreadable(t *testing.T) {
	whole := archive(t, row{"d/", ""}, row{"d/f", "abc"}).Bytes()
	for name, it := range map[string]struct {
		text   []byte
		bounds Bounds
	}{
		"cut":     {whole[:700], Bounds{}},
		"no tar":  {bytes.Repeat([]byte("x"), 512), Bounds{}},
		"bytes":   {whole, Bounds{Bytes: 2}},
		"entries": {whole, Bounds{Entries: 1}},
		"texts":   {whole, Bounds{TextBytes: 5}},
		"ways":    {whole, Bounds{WayNames: 1}},
	} {
		if _, err := Read(bytes.NewReader(it.text), shown{}, it.bounds); !errors.Is(err, ErrUnreadable) {
			t.Errorf("%s: %v", name, err)
		}
	}
}

type failing struct{ shown }

var errSeen = errors.New("no answer")

func (failing) List(string) ([]string, error) { return nil, errSeen }

func TestSeenFails(t *testing.T) {
	for _, name := range []string{"f", ".wh.f", ".wh..wh..opq"} {
		if _, err := Read(archive(t, row{name, ""}), failing{}, Bounds{}); !errors.Is(err, errSeen) {
			t.Errorf("%s: %v", name, err)
		}
	}
}

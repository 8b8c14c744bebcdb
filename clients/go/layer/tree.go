package layer

import (
	"math"
	"sort"
	"strings"
	"unicode/utf8"
)

const (
	blockSize     = 4096
	mostNameBytes = 255
	mostPathBytes = 4095
	mostFileBytes = 1 << 40
	directoryMode = 0o755
)

// A directory that is seen. The layer has it where isOwn says so. What the layer has in it covers what lower layers show:
// at the names in covering by what stands there, and at those in whiteouts by whiteouts.
type directory struct {
	parent    *directory
	name      string
	mode      uint32
	isOwn     bool
	names     names
	covering  map[string]bool
	whiteouts map[string]bool
}

// A file or symlink that is seen, and how many names it has in the layer, if that has it.
type file struct {
	blocks    uint64
	isSymlink bool
	target    string
	mode      uint32
	isOwn     bool
	links     int
}

// A node is a *directory or a *file.
type node any

// The path, without a closing slash, so empty for the root.
func (d *directory) path() string {
	if d.parent == nil {
		return ""
	}
	return d.parent.path() + "/" + d.name
}

// What the layers show, what the layer counts that is made, and its operations. Counts are of blocks and inodes.
type tree struct {
	root           *directory
	bounds         *Bounds
	blocks, inodes uint64
	operations     []Operation
	near           *near
}

// Where the last entry's directory was, by its path in the archive.
type near struct {
	above string
	at    *directory
	path  string
}

// The layer has its root alone.
func newTree(seen Seen, bounds *Bounds) *tree {
	t := &tree{bounds: bounds}
	t.root = t.seenDirectory(seen, nil, "", directoryMode)
	t.take(t.root)
	t.blocks, t.inodes = 1, 1
	return t
}

func (t *tree) say(operation Operation) { t.operations = append(t.operations, operation) }

// The layer has the directory.
func (t *tree) take(d *directory) {
	d.isOwn, d.covering, d.whiteouts = true, map[string]bool{}, map[string]bool{}
}

// The layer gets the directory, and all above it.
func (t *tree) copyUp(d *directory) {
	if d.isOwn {
		return
	}
	t.copyUp(d.parent)
	t.take(d)
	d.parent.covering[d.name] = true
	t.blocks++
	t.inodes++
}

// The layer gets the file. Its other names in lower layers stay names of the lower file.
func (t *tree) copyFileUp(d *directory, name string, lower *file) *file {
	t.copyUp(d)
	if lower.isOwn {
		return lower
	}
	own := &file{blocks: lower.blocks, isSymlink: lower.isSymlink, target: lower.target, mode: lower.mode}
	d.covering[name] = true
	t.putFile(d, name, own)
	return own
}

// A name where nothing is seen, or for a copy of what is seen. A whiteout there goes.
func (t *tree) put(d *directory, name string, it node) {
	t.copyUp(d)
	if d.whiteouts[name] {
		delete(d.whiteouts, name)
		d.covering[name] = true
		t.inodes--
	}
	d.names.set(name, it)
}

func (t *tree) putFile(d *directory, name string, f *file) {
	t.put(d, name, f)
	if !f.isOwn {
		f.isOwn = true
		t.blocks += f.blocks
		t.inodes++
	}
	f.links++
}

func (t *tree) makeDirectory(above *directory, path, name string, mode uint32) *directory {
	made := &directory{parent: above, name: name, mode: mode, names: names{known: map[string]node{}}}
	t.put(above, name, made)
	t.take(made)
	t.blocks++
	t.inodes++
	t.say(Operation{"do": "mkdir", "path": path, "mode": mode})
	return made
}

// Takes a name with all in it. A whiteout stands where a lower layer shows something.
func (t *tree) drop(d *directory, name string, it node) {
	t.copyUp(d)
	d.names.remove(name)
	isLower := !isOwn(it) || d.covering[name]
	t.uncount(it)
	if isLower {
		delete(d.covering, name)
		d.whiteouts[name] = true
		t.inodes++
	}
	t.near = nil
}

func isOwn(it node) bool {
	switch it := it.(type) {
	case *directory:
		return it.isOwn
	case *file:
		return it.isOwn
	}
	return false
}

// The layer no longer has the node, and what it has in it.
func (t *tree) uncount(it node) {
	if !isOwn(it) {
		return
	}
	switch it := it.(type) {
	case *directory:
		t.blocks--
		t.inodes -= 1 + uint64(len(it.whiteouts))
		for _, each := range it.names.known {
			t.uncount(each)
		}
	case *file:
		if it.links--; it.links == 0 {
			t.blocks -= it.blocks
			t.inodes--
		}
	}
}

// Where a path leads, symlinks followed within the root: a directory, and what is missing below it.
func (t *tree) walk(path string) (*directory, []string, error) {
	here, missing, links := t.root, []string(nil), 0
	left := reversed(strings.Split(path, "/"))
	if err := t.bounds.take(&t.bounds.WayNames, len(left)); err != nil {
		return nil, nil, err
	}
	for len(left) > 0 {
		name := left[len(left)-1]
		left = left[:len(left)-1]
		switch {
		case name == "" || name == ".":
			continue
		case name == ".." && len(missing) > 0:
			missing = missing[:len(missing)-1]
			continue
		case name == "..":
			if here.parent != nil {
				here = here.parent
			}
			continue
		case len(missing) > 0:
			missing = append(missing, name)
			continue
		}
		it, err := here.names.get(name)
		if err != nil {
			return nil, nil, err
		}
		switch it := it.(type) {
		case *directory:
			here = it
		case *file:
			if !it.isSymlink || links == mostLinks {
				return nil, nil, leftOut("entries below what is no directory")
			}
			links++
			if strings.HasPrefix(it.target, "/") {
				here = t.root
			}
			names := strings.Split(it.target, "/")
			if err := t.bounds.take(&t.bounds.WayNames, len(names)); err != nil {
				return nil, nil, err
			}
			left = append(left, reversed(names)...)
		default:
			missing = append(missing, name)
		}
	}
	return here, missing, nil
}

// The directory of an entry, the entry's path there, and its name. Missing directories are made.
func (t *tree) place(path string) (*directory, string, string, error) {
	above, name := split(path)
	if t.near == nil || t.near.above != above {
		d, missing, err := t.walk(above)
		if err != nil {
			return nil, "", "", err
		}
		at := d.path()
		if len(strings.Join(append([]string{at}, append(missing, name)...), "/")) > mostPathBytes {
			return nil, "", "", leftOut("paths that are too long")
		}
		if err := t.bounds.take(&t.bounds.Entries, len(missing)); err != nil {
			return nil, "", "", err
		}
		for _, each := range missing {
			at += "/" + each
			if err := t.bounds.take(&t.bounds.TextBytes, len(at)); err != nil {
				return nil, "", "", err
			}
			d = t.makeDirectory(d, at, each, directoryMode)
		}
		t.near = &near{above, d, at}
	}
	path = t.near.path + "/" + name
	if len(path) > mostPathBytes {
		return nil, "", "", leftOut("paths that are too long")
	}
	return t.near.at, path, name, nil
}

// Makes a mark of this name: a whiteout or an opaque mark. It hides what lower layers show in the directory, which is none
// where the layer alone has one there.
func (t *tree) hide(d *directory, name string) error {
	switch {
	case name == opaqueMark:
		if d == nil {
			return nil
		}
		return t.opaque(d)
	case strings.HasPrefix(name, whiteoutMark+whiteoutMark), name == whiteoutMark, name == whiteoutMark+".", name == whiteoutMark+"..":
		return leftOut("whiteouts of no name")
	case d == nil || !strings.HasPrefix(name, whiteoutMark):
		return leftOut("whiteouts of nothing")
	}
	return t.whiteout(d, strings.TrimPrefix(name, whiteoutMark))
}

func (t *tree) whiteout(d *directory, name string) error {
	it, err := d.names.get(name)
	if err != nil {
		return err
	}
	if it == nil {
		return leftOut("whiteouts of nothing")
	}
	t.say(Operation{"do": "whiteout", "path": d.path() + "/" + name})
	t.drop(d, name, it)
	return nil
}

// Hides what is in the directory. Where the layer itself has something in it, which would stay, another directory takes its
// place. Linux doesn't look at a mark of the root: each name in it goes.
func (t *tree) opaque(d *directory) error {
	switch {
	case d.parent == nil:
		all, err := d.names.all()
		for _, name := range all {
			if err == nil {
				err = t.whiteout(d, name)
			}
		}
		return err
	case d.isOwn && len(d.covering)+len(d.whiteouts) > 0:
		path := d.path()
		if err := t.whiteout(d.parent, d.name); err != nil {
			return err
		}
		t.makeDirectory(d.parent, path, d.name, d.mode)
		return nil
	}
	t.say(Operation{"do": "opaque", "path": d.path()})
	t.copyUp(d)
	d.names.clear()
	t.near = nil
	return nil
}

// Makes an entry, in place of what is seen there unless both are directories.
func (t *tree) apply(e entry) error {
	if e.kind == hardLink {
		return t.link(e)
	}
	d, path, name, err := t.place(e.path)
	if err != nil {
		return err
	}
	if e.kind == aDirectory {
		return t.directory(d, path, name, e.mode)
	}
	if err := t.remove(d, path, name); err != nil {
		return err
	}
	if e.kind == aSymlink {
		t.putFile(d, name, &file{isSymlink: true, target: e.text})
		t.say(Operation{"do": "symlink", "path": path, "target": e.text})
		return nil
	}
	t.putFile(d, name, &file{blocks: (e.size + blockSize - 1) / blockSize, mode: e.mode})
	t.say(Operation{"do": "put", "path": path, "mode": e.mode, "size": e.size, "digest": e.text})
	return nil
}

// What stands at the path goes, to make room.
func (t *tree) remove(d *directory, path, name string) error {
	it, err := d.names.get(name)
	if err != nil || it == nil {
		return err
	}
	do := "unlink"
	if _, isDirectory := it.(*directory); isDirectory {
		do = "whiteout"
	}
	t.say(Operation{"do": do, "path": path})
	t.drop(d, name, it)
	return nil
}

func (t *tree) directory(above *directory, path, name string, mode uint32) error {
	it, err := above.names.get(name)
	if err != nil {
		return err
	}
	found, isDirectory := it.(*directory)
	switch {
	case !isDirectory:
		if err := t.remove(above, path, name); err != nil {
			return err
		}
		t.makeDirectory(above, path, name, mode)
	case !found.isOwn || found.mode != mode:
		t.copyUp(found)
		found.mode = mode
		t.say(Operation{"do": "setmode", "path": path, "mode": mode})
	}
	return nil
}

// A hard link, which has the mode of its entry (containerd's package archive).
func (t *tree) link(e entry) error {
	above, sourceName := split(strings.TrimRight(e.text, "/"))
	source, missing, err := t.walk(above)
	if err != nil {
		return err
	}
	if len(missing) > 0 {
		return leftOut("hard links to no file")
	}
	it, err := source.names.get(sourceName)
	if err != nil {
		return err
	}
	lower, isFile := it.(*file)
	if !isFile {
		return leftOut("hard links to no file")
	}
	d, path, name, err := t.place(e.path)
	if err != nil {
		return err
	}
	there, err := d.names.get(name)
	if err != nil {
		return err
	}
	for here := source; here != nil; here = here.parent {
		if there == node(here) {
			return leftOut("hard links to what they replace")
		}
	}
	if d == source && name == sourceName {
		return leftOut("hard links to what they replace")
	}
	if err := t.remove(d, path, name); err != nil {
		return err
	}
	own := t.copyFileUp(source, sourceName, lower)
	t.putFile(d, name, own)
	t.say(Operation{"do": "link", "from": source.path() + "/" + sourceName, "to": path})
	if !own.isSymlink && own.mode != e.mode {
		own.mode = e.mode
		t.say(Operation{"do": "setmode", "path": path, "mode": e.mode})
	}
	return nil
}

// The names in a directory, with what they are of. Of one that a store shows they are listed once one is asked for, and
// looked at once each is.
type names struct {
	known  map[string]node
	left   map[string]bool
	list   func() ([]string, error)
	lookup func(name string) (node, error)
}

func (n *names) unseen() (map[string]bool, error) {
	if n.list == nil {
		return n.left, nil
	}
	found, err := n.list()
	if err != nil {
		return nil, err
	}
	n.list, n.left = nil, map[string]bool{}
	for _, name := range found {
		if _, isKnown := n.known[name]; !isKnown {
			n.left[name] = true
		}
	}
	return n.left, nil
}

// What the name is of, or nil.
func (n *names) get(name string) (node, error) {
	if it, isKnown := n.known[name]; isKnown {
		return it, nil
	}
	unseen, err := n.unseen()
	if err != nil || !unseen[name] {
		return nil, err
	}
	it, err := n.lookup(name)
	if err != nil {
		return nil, err
	}
	n.set(name, it)
	return it, nil
}

func (n *names) set(name string, it node) {
	delete(n.left, name)
	n.known[name] = it
}

// Takes a name that was asked for.
func (n *names) remove(name string) { delete(n.known, name) }

func (n *names) clear() { n.known, n.left, n.list = map[string]node{}, nil, nil }

func (n *names) all() ([]string, error) {
	unseen, err := n.unseen()
	if err != nil {
		return nil, err
	}
	var all []string
	for name := range n.known {
		all = append(all, name)
	}
	for name := range unseen {
		all = append(all, name)
	}
	sort.Strings(all)
	return all, nil
}

func (t *tree) seenDirectory(seen Seen, parent *directory, name string, mode uint32) *directory {
	d := &directory{parent: parent, name: name, mode: mode}
	path := d.path()
	d.names = names{
		known: map[string]node{},
		list: func() ([]string, error) {
			if path == "" {
				return seen.List("/")
			}
			return seen.List(path)
		},
		lookup: func(name string) (node, error) {
			it, err := seen.Look(path + "/" + name)
			switch {
			case err != nil:
				return nil, err
			case it.IsDirectory:
				return t.seenDirectory(seen, d, name, it.Mode), nil
			case it.IsSymlink:
				return &file{isSymlink: true, target: it.Target}, nil
			}
			return &file{blocks: blocksOf(it.Size), mode: it.Mode}, nil
		},
	}
	return d
}

func blocksOf(size uint64) uint64 {
	if size > math.MaxUint64-blockSize {
		return math.MaxUint64 / blockSize
	}
	return (size + blockSize - 1) / blockSize
}

func reversed(names []string) []string {
	all := make([]string, 0, len(names))
	for i := len(names) - 1; i >= 0; i-- {
		all = append(all, names[i])
	}
	return all
}

// The text before the last slash of a path, and the one behind.
func split(path string) (string, string) {
	at := strings.LastIndex(path, "/")
	if at < 0 {
		return "", path
	}
	return path[:at], path[at+1:]
}

// Why no name of the path can be kept, or empty.
func nameReason(path string) string {
	switch {
	case !utf8.ValidString(path):
		return "names that are no UTF-8"
	case len(path) > mostPathBytes:
		return "paths that are too long"
	}
	for _, name := range strings.Split(path, "/") {
		if len(name) > mostNameBytes {
			return "names that are too long"
		}
	}
	return ""
}

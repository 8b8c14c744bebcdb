package layer

import (
	"errors"
	"strings"
)

const belowNoDirectory = leftOut("entries below what is no directory")

// What a layer's own entries leave at a place.
type ownKind int

const (
	ownNothing ownKind = iota
	ownDirectory
	ownFile
	ownSymlink
)

// A place, and what a layer's own entries leave there and in it.
type own struct {
	kind   ownKind
	target string
	names  map[string]*own
}

// A place, and whether a layer's marks hide what lower layers show there, or all in it; and what they do in it.
type marked struct {
	isHidden, isEmptied bool
	names               map[string]*marked
}

// A place on a way: its name, and what is told of it by the layer's entries, its marks, and lower layers.
type place struct {
	name   string
	own    *own
	marked *marked
	lower  *directory
}

// What is found at a place: a directory that lower layers show or the layer alone has, a file, a symlink, or nothing.
type found struct {
	kind   ownKind
	target string
	lower  *directory
}

// The ways of a layer's marks, over what lower layers show, as the layer's own entries leave them: a directory in place of a
// lower symlink is that directory, wherever its mark stands in the archive. So a mark hides what lower layers show at its own
// place, and nothing elsewhere (OCI image specification, "Whiteouts").
type ways struct {
	bounds *Bounds
	root   *place
}

func newWays(t *tree, marks []string, entries []entry) (*ways, error) {
	w := &ways{t.bounds, &place{own: &own{names: map[string]*own{}}, marked: &marked{names: map[string]*marked{}}, lower: t.root}}
	for _, mark := range marks {
		w.mark(mark)
	}
	for _, it := range entries {
		var why leftOut
		if err := w.add(it); err != nil && !errors.As(err, &why) {
			return nil, err
		}
	}
	return w, nil
}

// Notes what a mark hides, by the text of its way.
func (w *ways) mark(mark string) {
	names := strings.Split(mark, "/")[1:]
	at := w.root.marked
	for _, name := range names[:len(names)-1] {
		at = at.at(name)
	}
	if name := names[len(names)-1]; name == opaqueMark {
		at.isEmptied = true
	} else {
		at.at(strings.TrimPrefix(name, whiteoutMark)).isHidden = true
	}
}

func (m *marked) at(name string) *marked {
	if m.names[name] == nil {
		m.names[name] = &marked{names: map[string]*marked{}}
	}
	return m.names[name]
}

func (o *own) at(name string) *own {
	if o.names[name] == nil {
		o.names[name] = &own{names: map[string]*own{}}
	}
	return o.names[name]
}

// Where a way leads: the directory that lower layers show there, if they show one, and whether there is a directory at all.
// It is left out where something else is on the way.
func (w *ways) directoryAt(way string) (*directory, bool, error) {
	places, err := w.walk(way)
	if err != nil {
		return nil, false, err
	}
	last := places[len(places)-1]
	return last.lower, last.lower != nil || last.own != nil && last.own.kind == ownDirectory, nil
}

// The places from the root to the end of a way.
func (w *ways) walk(way string) ([]*place, error) {
	places, links := []*place{w.root}, 0
	left := reversed(strings.Split(way, "/"))
	if err := w.bounds.take(&w.bounds.WayNames, len(left)); err != nil {
		return nil, err
	}
	for len(left) > 0 {
		name := left[len(left)-1]
		left = left[:len(left)-1]
		switch name {
		case "", ".":
			continue
		case "..":
			if len(places) > 1 {
				places = places[:len(places)-1]
			}
			continue
		}
		it, next, err := step(places[len(places)-1], name)
		if err != nil {
			return nil, err
		}
		switch it.kind {
		case ownSymlink:
			if links == mostLinks {
				return nil, belowNoDirectory
			}
			links++
			names := strings.Split(it.target, "/")
			if err := w.bounds.take(&w.bounds.WayNames, len(names)); err != nil {
				return nil, err
			}
			left = append(left, reversed(names)...)
			if strings.HasPrefix(it.target, "/") {
				places = []*place{w.root}
			}
		case ownFile:
			return nil, belowNoDirectory
		default:
			places = append(places, next)
		}
	}
	return places, nil
}

// What is found by a name, and its place.
func step(above *place, name string) (found, *place, error) {
	next := &place{name: name}
	if above.own != nil {
		next.own = above.own.names[name]
	}
	if above.marked != nil {
		next.marked = above.marked.names[name]
	}
	var it node
	isHidden := above.marked != nil && above.marked.isEmptied || next.marked != nil && next.marked.isHidden
	if above.lower != nil && !isHidden {
		var err error
		if it, err = above.lower.names.get(name); err != nil {
			return found{}, nil, err
		}
	}
	next.lower, _ = it.(*directory)
	what := found{}
	if next.own != nil {
		what = found{kind: next.own.kind, target: next.own.target}
	}
	if what.kind == ownNothing || what.kind == ownDirectory && next.lower != nil {
		what = lowerFound(it)
	}
	return what, next, nil
}

func lowerFound(it node) found {
	switch it := it.(type) {
	case *directory:
		return found{kind: ownDirectory, lower: it}
	case *file:
		if it.isSymlink {
			return found{kind: ownSymlink, target: it.target}
		}
		return found{kind: ownFile}
	}
	return found{}
}

// What an entry leaves at its place, if it can be made.
func (w *ways) add(e entry) error {
	above, name := split(e.path)
	places, err := w.walk(above)
	if err != nil {
		return err
	}
	for number, it := range places[1:] {
		if it.own == nil {
			it.own = places[number].own.at(it.name)
		}
		if it.lower == nil && it.own.kind == ownNothing {
			it.own.kind = ownDirectory
		}
	}
	last := places[len(places)-1]
	kind, target, err := w.kindOf(e, places, name)
	if err != nil {
		return err
	}
	what, _, err := step(last, name)
	if err != nil || kind == ownDirectory && what.kind == ownDirectory {
		return err
	}
	it := last.own.at(name)
	it.kind, it.target = kind, target
	if kind != ownDirectory {
		it.names = map[string]*own{}
	}
	return nil
}

// What an entry in a directory is. It is left out for a hard link of no file, or of what it would take the place of.
func (w *ways) kindOf(e entry, places []*place, name string) (ownKind, string, error) {
	switch e.kind {
	case aFile:
		return ownFile, "", nil
	case aDirectory:
		return ownDirectory, "", nil
	case aSymlink:
		return ownSymlink, e.text, nil
	}
	above, sourceName := split(strings.TrimRight(e.text, "/"))
	source, err := w.walk(above)
	if err != nil {
		return ownNothing, "", err
	}
	it, _, err := step(source[len(source)-1], sourceName)
	if err != nil {
		return ownNothing, "", err
	}
	if it.kind != ownFile && it.kind != ownSymlink || strings.HasPrefix(wayOf(source, sourceName)+"/", wayOf(places, name)+"/") {
		return ownNothing, "", leftOut("hard links to no file")
	}
	return it.kind, it.target, nil
}

func wayOf(places []*place, name string) string {
	way := ""
	for _, it := range places[1:] {
		way += "/" + it.name
	}
	return way + "/" + name
}

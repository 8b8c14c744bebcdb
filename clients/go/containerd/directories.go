package containerd

import (
	"errors"
	"io/fs"
	"os"
	"path/filepath"
	"strconv"
	"sync"
	"syscall"

	"github.com/containerd/containerd/log"

	"pibroulez.example/pibroulez"
)

// What the names begin with of directories that are being made and removed. Those of snapshots are their ids.
const (
	newPrefix     = "new-"
	removedPrefix = "removed-"
)

// The folder of the snapshots' directories.
type directories struct {
	path string
	// Whoever makes a directory reads, and whoever lists those without a snapshot writes.
	making   sync.RWMutex
	removals removals
}

func newDirectories(path string) *directories {
	d := &directories{path: path}
	d.removals.ended = sync.NewCond(&d.removals.mutex)
	d.removals.turns = make(chan struct{}, mostRemovals)
	return d
}

func (d *directories) of(id uint64) string { return filepath.Join(d.path, strconv.FormatUint(id, 10)) }

// The directory of the upper layer of a snapshot.
func (d *directories) upperOf(id uint64) string { return filepath.Join(d.of(id), "fs") }

// The id that a name is, where it is one.
func idOf(name string) (uint64, bool) {
	id, err := strconv.ParseUint(name, 10, 64)
	return id, err == nil && strconv.FormatUint(id, 10) == name
}

// Whether there is a file of any kind at a path.
func exists(path string) (bool, error) {
	_, err := os.Lstat(path)
	if errors.Is(err, fs.ErrNotExist) || errors.Is(err, syscall.ENOTDIR) {
		return false, nil
	}
	return err == nil, err
}

// Makes the directory of a new snapshot with its record. Its root has the owner and the mode of its parent's; 0 is no
// parent.
func (d *directories) make(r record, parent uint64, kind pibroulez.Kind) error {
	d.making.RLock()
	defer d.making.RUnlock()
	made, err := os.MkdirTemp(d.path, newPrefix)
	if err != nil {
		return err
	}
	err = d.fill(made, parent, kind)
	if err == nil {
		err = r.writeFirst(made)
	}
	if err == nil {
		err = os.Rename(made, d.of(r.ID))
	}
	if err != nil {
		os.RemoveAll(made)
	}
	return err
}

func (d *directories) fill(made string, parent uint64, kind pibroulez.Kind) error {
	root := filepath.Join(made, "fs")
	if err := os.Mkdir(root, 0o755); err != nil {
		return err
	}
	mode := fs.FileMode(0o755)
	if parent != 0 {
		status, err := os.Stat(filepath.Join(d.of(parent), "fs"))
		if err != nil {
			return err
		}
		owner := status.Sys().(*syscall.Stat_t)
		if err := os.Lchown(root, int(owner.Uid), int(owner.Gid)); err != nil {
			return err
		}
		mode = status.Mode()
	}
	if err := os.Chmod(root, mode); err != nil {
		return err
	}
	if kind != pibroulez.KindActive {
		return nil
	}
	return os.Mkdir(filepath.Join(made, "work"), 0o711)
}

// Has the directory of an active snapshot say that it may soon be committed under a name, or, where the name is empty,
// that it may not. The directory's own name is on the disk too then.
func (d *directories) nameIn(id uint64, key, name string) error {
	if err := (record{ID: id, Key: key, Name: name}).write(d.of(id)); err != nil {
		return err
	}
	return syncFolder(d.path)
}

// Takes a directory's name away, and removes the directory beside that. What stays is left to clean.
func (d *directories) remove(id uint64) {
	path := filepath.Join(d.path, removedPrefix+strconv.FormatUint(id, 10))
	if err := os.Rename(d.of(id), path); errors.Is(err, fs.ErrNotExist) {
		return
	} else if err != nil {
		path = d.of(id)
	}
	d.removals.begin(func() { removeAll(path) })
}

// Removes what has no snapshot, beside the calls: what a crash has left of a directory that was being made or removed,
// and directories of ids that the store doesn't have. nodes is called once no directory is being made.
//
// A directory without a snapshot whose record says that there is one stays: nobody has asked for its removal.
func (d *directories) clean(nodes func() ([]pibroulez.Node, error)) error {
	names, err := d.withoutSnapshot(nodes)
	for _, name := range names {
		if id, is := idOf(name); is {
			d.remove(id)
			continue
		}
		path := filepath.Join(d.path, name)
		d.removals.begin(func() { removeAll(path) })
	}
	return err
}

func (d *directories) withoutSnapshot(nodes func() ([]pibroulez.Node, error)) (names []string, err error) {
	d.making.Lock()
	defer d.making.Unlock()
	// What is removed after this has a directory in the list, and what is made after this has none.
	entries, err := os.ReadDir(d.path)
	if err != nil {
		return nil, err
	}
	found, err := nodes()
	if err != nil {
		return nil, err
	}
	ids := map[uint64]bool{}
	for _, node := range found {
		ids[node.ID] = true
	}
	for _, entry := range entries {
		id, is := idOf(entry.Name())
		if is && (ids[id] || !d.mayGo(id)) {
			continue
		}
		names = append(names, entry.Name())
	}
	return names, nil
}

// Whether the directory of an id that the store doesn't have is one that was to go, or never was a snapshot's.
func (d *directories) mayGo(id uint64) bool {
	_, said, isRemoving, err := readRecord(d.of(id))
	stays := err != nil || said && !isRemoving
	if stays {
		log.L.WithError(err).WithField("path", d.of(id)).Warn("directory stays: it has a key, and the store no snapshot")
	}
	return !stays
}

func removeAll(path string) {
	if err := os.RemoveAll(path); err != nil {
		log.L.WithError(err).WithField("path", path).Warn("failed to remove directory")
	}
}

// Removals that run beside the calls, some at a time.
type removals struct {
	mutex   sync.Mutex
	ended   *sync.Cond
	running int
	// Has an element for each that isn't waiting for others.
	turns chan struct{}
}

// How many directories are removed at one time.
const mostRemovals = 4

func (r *removals) begin(do func()) {
	r.mutex.Lock()
	r.running++
	r.mutex.Unlock()
	go func() {
		r.turns <- struct{}{}
		do()
		<-r.turns
		r.mutex.Lock()
		defer r.mutex.Unlock()
		if r.running--; r.running == 0 {
			r.ended.Broadcast()
		}
	}()
}

// Waits until none runs.
func (r *removals) wait() {
	r.mutex.Lock()
	defer r.mutex.Unlock()
	for r.running > 0 {
		r.ended.Wait()
	}
}

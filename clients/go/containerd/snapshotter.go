// Package containerd makes a store a snapshotter of containerd 1.6.
//
// The store keeps the snapshots with their labels and mounts; the directories that the mounts name are made and
// removed here, and the kernel writes into them. The store sees none of that: see the README of clients.
//
// A call that changes something runs to its end once it has begun to, also where its context ends. Those of one key come
// one after another, each with its directory.
package containerd

import (
	"context"
	"errors"
	"io/fs"
	"os"
	"path/filepath"
	"sync"
	"time"

	"github.com/containerd/containerd/snapshots"

	"pibroulez.example/pibroulez"
)

// Namespace is the one of the store in which the snapshots are that no tenant has.
const Namespace = "containerd"

// What a block of a usage is, in bytes.
const blockSize = 4096

// How many snapshots may be active at one time: as many as a store can have slots.
const mostActive = 4096

// How many inodes a layer may have: as many as a store's may.
const mostLayerInodes = 1 << 24

// How many committed ancestors a snapshot may have: as many as a store allows, and as many lower layers as the kernel's
// overlay takes.
const mostAncestors = 500

// How many snapshots a page of a walk has.
const pageSize = 64

// Config says where a snapshotter keeps its snapshots.
type Config struct {
	// Program is the path of snap_replay.
	Program string
	// Root is a directory for this snapshotter alone.
	Root string
	// Store is a store that others use too, or nil for one of the snapshotter's own. It has Namespace and this Root, and
	// whoever has opened it closes it and begins its rounds. Program has no meaning then.
	Store *pibroulez.Store
	// Tenants are the namespaces of containerd that are namespaces of the store too: each has the snapshots whose keys begin
	// with its name and a slash, as containerd makes them. Their limits are those of a store of the snapshotter's own that
	// is new; any other store has to have them already. None of them is removed.
	Tenants map[string]pibroulez.Usage
	// Each is the limit of each other namespace of containerd, which is made one of the store with its first snapshot and
	// removed with its last, or nil where all of these share Namespace. It isn't for a store of a cluster.
	Each *pibroulez.Usage
	// Others are namespaces of the store with which containerd has nothing to do: its own of these names share Namespace.
	Others []string
	// Charge makes a call that charges a namespace of the store this much more, as one that first gets a limit of a
	// cluster for it, or is nil where the call is made as it is. The call may be made again where it was
	// pibroulez.ErrOverLimit.
	Charge func(ctx context.Context, namespace string, more pibroulez.Usage, call func(context.Context) error) error
	// Checkpoint is that of pibroulez.Config, of a store of the snapshotter's own.
	Checkpoint uint64
	// The most entries of each round of the journal, or the store's default where it is 0.
	journal uint64
}

// A Snapshotter is one of containerd. Any number of goroutines may call it.
type Snapshotter struct {
	store *pibroulez.Store
	// Whether others use the store too.
	isShared    bool
	tenants     *tenants
	directories *directories
	times       *times
	locks       locks
	// What overlay mounts need beside the store's options.
	options []string
	// Makes a call that charges, and whether that first asks others.
	charge     func(ctx context.Context, namespace string, more pibroulez.Usage, call func(context.Context) error) error
	hasCluster bool
	scans      *scans
	// Calls that change something read, and Close writes.
	running sync.RWMutex
}

var (
	_ snapshots.Snapshotter = (*Snapshotter)(nil)
	_ snapshots.Cleaner     = (*Snapshotter)(nil)
)

// New makes a snapshotter over a store of its own, or over the one that Root has. No two processes have one at once.
//
// With Config.Store it is over that one, and nobody else may change snapshots of Namespace there.
//
// The log of a root of an earlier version is taken over once, and stays under another name. The error is ErrMismatch where
// the directories aren't those of the store's snapshots, and syscall.EWOULDBLOCK where another process has the root; others
// are those of pibroulez.OpenOrNew.
func New(ctx context.Context, config Config) (*Snapshotter, error) {
	root, err := filepath.Abs(config.Root)
	if err != nil {
		return nil, err
	}
	directories := newDirectories(filepath.Join(root, "snapshots"))
	if err := os.MkdirAll(directories.path, 0o700); err != nil {
		return nil, err
	}
	store, age, err := openStore(ctx, config, directories, root)
	if err != nil {
		return nil, subject{}.classified(err)
	}
	s := &Snapshotter{
		store:       store,
		isShared:    config.Store != nil,
		tenants:     newTenants(config),
		directories: directories,
		locks:       locks{held: map[string]*lock{}},
		options:     overlayOptions(root),
		charge:      config.Charge,
		hasCluster:  config.Charge != nil,
		scans:       newScans(),
	}
	if s.charge == nil {
		s.charge = func(ctx context.Context, _ string, _ pibroulez.Usage, call func(context.Context) error) error {
			return call(ctx)
		}
	}
	if !s.isShared {
		store.RollWhenFull(config.journal)
	}
	if err := s.begin(ctx, config, root, age); err != nil {
		s.Close()
		return nil, subject{}.classified(err)
	}
	return s, nil
}

// The store of a root, and what the root had of an earlier version before. A log of such a version is taken over.
func openStore(ctx context.Context, config Config, directories *directories, root string) (*pibroulez.Store, rootAge, error) {
	age, err := ageOf(root)
	if err != nil {
		return nil, age, err
	}
	if config.Store != nil {
		age, err = ageOfShared(ctx, config.Store, directories, root, age)
		return config.Store, age, err
	}
	path := filepath.Join(root, LogFile)
	if _, err := os.Lstat(path); errors.Is(err, fs.ErrNotExist) {
		// Without a log there is no snapshot, and a directory that has one's key lacks its log.
		if _, err := directories.compare(nil, false); err != nil {
			return nil, age, err
		}
		if err := writeFormat(root); err != nil {
			return nil, age, err
		}
		age = ofThisVersion
	}
	store, err := openAged(ctx, config.Program, root, age, func() (*pibroulez.Store, error) {
		return pibroulez.OpenOrNew(ctx, config.ofStore(root, path))
	})
	return store, age, err
}

// OpenStore opens a store whose log is LogFile in a root, by a function as pibroulez.OpenOrNew, for Config.Store. The log of
// a root of an earlier version is taken over once, and stays under another name. The errors are the function's, and those of
// New for a log of such a version.
func OpenStore(ctx context.Context, program, root string, open func() (*pibroulez.Store, error)) (*pibroulez.Store, error) {
	age, err := ageOf(root)
	if err != nil {
		return nil, err
	}
	return openAged(ctx, program, root, age, open)
}

// Opens the store of a root that had this of an earlier version. A log of such a version is taken over.
func openAged(ctx context.Context, program, root string, age rootAge, open func() (*pibroulez.Store, error)) (*pibroulez.Store, error) {
	if path := filepath.Join(root, LogFile); age != ofThisVersion && isZeroed(path) {
		return nil, &pibroulez.BadLog{Path: path, Line: 1, Words: "it begins with a zero"}
	}
	store, err := open()
	if bad := new(pibroulez.BadLog); age != ofThisVersion && errors.As(err, &bad) {
		if err = takeOver(ctx, program, root); err == nil {
			store, err = open()
		}
	}
	return store, err
}

// Whether a log that a client may have kept has lost its beginning. The process would take it for a new one.
func isZeroed(path string) bool {
	if pibroulez.CountingLog(path) != path {
		return false
	}
	file, err := os.Open(path)
	if err != nil {
		return false
	}
	defer file.Close()
	var begin [2]byte
	size, _ := file.ReadAt(begin[:], 0)
	return size == len(begin) && begin[0] == 0
}

func (c Config) ofStore(root, log string) pibroulez.Config {
	namespaces := map[string]pibroulez.Usage{Namespace: {Blocks: 1 << 40, Inodes: 1 << 40}}
	for name, limit := range c.Tenants {
		namespaces[name] = limit
	}
	return pibroulez.Config{
		Program:     c.Program,
		Root:        root,
		Namespaces:  namespaces,
		Slots:       mostActive,
		LayerInodes: mostLayerInodes,
		Ancestors:   mostAncestors,
		Journal:     c.journal,
		Log:         log,
		Checkpoint:  c.Checkpoint,
	}
}

// What the root of a store that others use too had of an earlier version. One without snapshots needs no records.
func ageOfShared(ctx context.Context, store *pibroulez.Store, directories *directories, root string, age rootAge) (rootAge, error) {
	nodes, err := store.Tree(ctx, Namespace)
	if err != nil || age != lacksRecords || len(nodes) > 0 {
		return age, err
	}
	if _, err := directories.compare(nil, false); err != nil {
		return age, err
	}
	return ofThisVersion, writeFormat(root)
}

// Compares the directories with the store, and then has each snapshot's there and no other, and begins a new round of the
// journal. On a full disk it does of this what needs no room.
func (s *Snapshotter) begin(ctx context.Context, config Config, root string, age rootAge) error {
	if err := s.findTenants(ctx); err != nil {
		return err
	}
	// A program of version 0.1.0 takes no question without an entry: it is a fault, and nothing is changed.
	if _, err := s.store.Walk(ctx, Namespace, "", 1, pibroulez.Filter{}); err != nil {
		return err
	}
	nodes, err := s.tree(ctx)
	if err != nil {
		return err
	}
	states, err := s.directories.compare(nodes, age == lacksRecords)
	if err != nil {
		return err
	}
	isWhole, err := s.directories.mend(nodes, states)
	if err != nil {
		return err
	}
	if age == hadOldLog || age == lacksRecords && isWhole {
		err := (&takeover{root: root}).clear()
		if err == nil {
			err = writeFormat(root)
		}
		if err != nil && !isFull(err) {
			return err
		}
	}
	if !s.isShared {
		if err := s.store.Roll(ctx, config.journal); err != nil && !errors.Is(err, pibroulez.ErrNotKept) {
			return err
		}
	}
	ids := map[uint64]bool{}
	for _, node := range nodes {
		ids[node.ID] = true
	}
	s.times = openTimes(filepath.Join(root, "times"), ids)
	if err := s.findOver(ctx); err != nil {
		return err
	}
	return s.clean(ctx)
}

// Cleanup removes the directories that no snapshot has, and waits until they and those of removed snapshots are gone.
func (s *Snapshotter) Cleanup(ctx context.Context) error {
	err := s.clean(ctx)
	s.directories.removals.wait()
	return err
}

func (s *Snapshotter) clean(ctx context.Context) error {
	return s.directories.clean(func() ([]pibroulez.Node, error) {
		nodes, err := s.tree(ctx)
		return nodes, subject{}.classified(err)
	})
}

// Ended is closed once the store's process has ended. Each later call is an error then, so that whoever has started this
// process should end it; Err says what ended.
func (s *Snapshotter) Ended() <-chan struct{} { return s.store.Ended() }

// Err says how the store's process has ended. It is nil while it runs, and pibroulez.ErrClosed after Close.
func (s *Snapshotter) Err() error { return s.store.Err() }

// How long Close waits for the calls that run, before it ends the process below them.
const patience = 10 * time.Second

// Close ends the store's process, once the calls that run have ended and scans have been given up, and waits for the removals of directories. The
// snapshots stay. A process that answers nothing is killed after a while, as pibroulez.Store.Close says. A store that
// others use too isn't ended; close it before where calls may wait for it.
func (s *Snapshotter) Close() error {
	s.scans.end()
	alone := make(chan struct{})
	go func() {
		s.scans.wait()
		s.running.Lock()
		close(alone)
	}()
	select {
	case <-alone:
	case <-time.After(patience):
	}
	var err error
	if !s.isShared {
		err = s.store.Close()
	}
	<-alone
	defer s.running.Unlock()
	s.directories.removals.wait()
	s.times.close()
	return err
}

package containerd

import (
	"context"
	"encoding/json"
	"errors"
	"fmt"
	"sort"
	"strings"

	"pibroulez.example/pibroulez"
	"pibroulez.example/pibroulez/containerd/upper"
)

// ErrNotOverlay and ErrTooLongPath are of a commit whose directory is none of these mounts. The error names the path.
var (
	ErrNotOverlay  = upper.ErrNotOverlay
	ErrTooLongPath = upper.ErrTooLongPath
)

// ErrLedger is of a commit for which the store has counted something else than the directory has. Nothing is committed.
var ErrLedger = errors.New("the ledger is not what the directory has")

// What an active snapshot is charged from the first: its root.
var root = pibroulez.Usage{Blocks: 1, Inodes: 1}

// What a batch of file commands has at most. A line of the program has at most 16,777,216 bytes.
const (
	mostOperations = 8192
	mostBatchBytes = 8 << 20
)

// The most bytes that one of a text becomes in a line, and that an operation has beside its texts.
const (
	mostEscape    = 6
	operationMore = 128
)

// How many questions are under way at a time.
const mostAhead = 512

// A whiteout below which no layer has anything: the file system has it, and no file command makes one.
const loneWhiteout = "special:whiteout"

// Charges an active snapshot what its upper directory takes, and has its layer of the store made of what is there. Over the
// limit, or where the directory can't be read, the layer is as it was.
func (s *Snapshotter) record(ctx context.Context, info pibroulez.Info) error {
	it, err := upper.Read(s.directories.upperOf(info.ID))
	if err != nil {
		return err
	}
	changes, err := s.leftOver(ctx, info)
	if err != nil {
		return err
	}
	w := s.writer(ctx, info.Name, changes)
	if it.Count != root {
		w.need = it.Count
	}
	if err := w.write(it.Items, info.Parent != "" || w.isLeft); err != nil {
		return err
	}
	if w.need != (pibroulez.Usage{}) {
		if err := s.chargeFor(ctx, info.Name, w.need); err != nil {
			return err
		}
	}
	if w.count != it.Count {
		return fmt.Errorf("%w: snapshot %q has %v there, and %v in its directory", ErrLedger, info.Name, w.count, it.Count)
	}
	return nil
}

// Charges an active snapshot at least this much in all.
func (s *Snapshotter) chargeFor(ctx context.Context, key string, need pibroulez.Usage) error {
	return s.chargeBy(ctx, key, need, func(ctx context.Context) error {
		_, err := s.store.Charge(ctx, s.namespaceOf(key), key, need)
		return err
	})
}

// Makes a call that charges an active snapshot at least this much in all.
func (s *Snapshotter) chargeBy(ctx context.Context, key string, need pibroulez.Usage, call func(context.Context) error) error {
	s.scans.change()
	namespace := s.namespaceOf(key)
	charged, err := s.store.Usage(ctx, namespace, key)
	if err != nil {
		return err
	}
	more := pibroulez.Usage{Blocks: above(need.Blocks, charged.Blocks), Inodes: above(need.Inodes, charged.Inodes)}
	return s.wanting(s.charge(ctx, namespace, more, call), key, more)
}

// What one quantity is above another one.
func above(a, b uint64) uint64 {
	if a < b {
		return 0
	}
	return a - b
}

// A charge that is refused for a tenant's limit, with what the snapshot wants beyond what is charged.
type wants struct {
	error
	key, tenant string
	more        pibroulez.Usage
}

func (w *wants) Unwrap() error { return w.error }

// The error of a call that charges a snapshot this much more.
func (s *Snapshotter) wanting(err error, key string, more pibroulez.Usage) error {
	if errors.Is(err, pibroulez.ErrOverLimit) {
		return &wants{err, key, s.namespaceOf(key), more}
	}
	return err
}

// Error says what the tenant has free, or in a cluster why it got nothing.
func (w *wants) Error() string {
	words := w.error.Error()
	if refusal := new(pibroulez.Refusal); errors.As(w.error, &refusal) && refusal.Words == "" {
		words = fmt.Sprintf("over limit: free %d blocks, %d inodes of tenant %q", refusal.Free.Blocks, refusal.Free.Inodes, w.tenant)
	}
	return fmt.Sprintf("%s, and snapshot %q wants %d blocks, %d inodes more", words, w.key, w.more.Blocks, w.more.Inodes)
}

// What an unfinished commit has left in a snapshot's layer: each path, and how it changes what is below. Without a
// parent the root is itself a change.
func (s *Snapshotter) leftOver(ctx context.Context, info pibroulez.Info) (map[string]string, error) {
	changes := map[string]string{}
	err := s.store.DiffAll(ctx, s.namespaceOf(info.Name), info.Name, func(it pibroulez.Change) error {
		if it.Path != "/" {
			changes[it.Path] = it.Change
		}
		return nil
	})
	return changes, err
}

// A writer makes file commands for what is in a directory, and sends them in batches.
type writer struct {
	ctx            context.Context
	store          *pibroulez.Store
	namespace, key string
	// How a commit before has changed paths, and whether it has changed any.
	left   map[string]string
	isLeft bool
	// Carries out a batch.
	batch func([]pibroulez.Operation) (pibroulez.Batched, error)
	// What isn't sent yet, and how many bytes of a line it takes at most.
	operations []pibroulez.Operation
	bytes      int
	// What the layer takes after the last batch.
	count pibroulez.Usage
	// What the first batch is to charge, or nothing.
	need pibroulez.Usage
}

func (s *Snapshotter) writer(ctx context.Context, key string, left map[string]string) *writer {
	w := &writer{ctx: ctx, store: s.store, namespace: s.namespaceOf(key), key: key, left: left, isLeft: len(left) > 0, count: root}
	w.batch = func(operations []pibroulez.Operation) (pibroulez.Batched, error) {
		if w.need == (pibroulez.Usage{}) {
			return w.store.Batch(ctx, w.namespace, key, w.need, operations)
		}
		return s.firstBatch(w, operations)
	}
	return w
}

// Carries out the first batch of a writer, which charges what all of them need. Where that is refused nothing is done.
func (s *Snapshotter) firstBatch(w *writer, operations []pibroulez.Operation) (done pibroulez.Batched, err error) {
	var refused *pibroulez.OperationRefused
	err = s.chargeBy(w.ctx, w.key, w.need, func(ctx context.Context) error {
		var err error
		done, err = w.store.Batch(ctx, w.namespace, w.key, w.need, operations)
		if errors.As(err, &refused) {
			// Some operations are done, so it isn't made again.
			return nil
		}
		return err
	})
	if w.need = (pibroulez.Usage{}); err == nil && refused != nil {
		err = refused
	}
	return done, err
}

// Has the layer be what the items are. isOverSome says that something may be seen at their paths.
//
// All that is in the way goes first, so that the layer takes at no time more than it was left with or has at the end.
func (w *writer) write(items []upper.Item, isOverSome bool) error {
	seen := make([]string, len(items))
	if isOverSome {
		if err := w.look(items, seen); err != nil {
			return err
		}
	}
	if err := w.removeStale(items); err != nil {
		return err
	}
	for i := range items {
		if seen[i] != "" && !w.stays(&items[i], seen[i]) {
			if err := w.add(pibroulez.WhiteoutOf(items[i].Path)); err != nil {
				return err
			}
		}
	}
	for i := range items {
		if err := w.make(&items[i], seen[i]); err != nil {
			return err
		}
	}
	if err := w.flush(); err != nil || !w.isLeft {
		return err
	}
	// What the layer takes with what no item has any more, also where there was nothing to do.
	done, err := w.batch([]pibroulez.Operation{})
	w.count = done.Count
	return err
}

// Whether what is seen at an item's path isn't to go before the item is made: a directory. An opaque one in which something
// may be left of the snapshot's own is made anew.
func (w *writer) stays(it *upper.Item, seen string) bool {
	return it.Kind == upper.Directory && seen == string(pibroulez.Directory) && !(it.IsOpaque && w.isLeft)
}

// Asks what is seen at the path of each item, a type or nothing, before any of them is made. Of what is in a directory in
// which nothing of that is seen later, nothing is asked, so it goes level by level; what was left there is gone then too.
func (w *writer) look(items []upper.Item, seen []string) error {
	var levels [][]int
	for i := range items {
		level := strings.Count(items[i].Path, "/") - 1
		for len(levels) <= level {
			levels = append(levels, nil)
		}
		levels[level] = append(levels[level], i)
	}
	open := map[string]bool{"": true}
	for _, level := range levels {
		var asked []int
		for _, i := range level {
			if path := items[i].Path; open[path[:strings.LastIndexByte(path, '/')]] {
				asked = append(asked, i)
			} else {
				delete(w.left, path)
			}
		}
		if err := w.ask(items, asked, seen); err != nil {
			return err
		}
		open = map[string]bool{}
		for _, i := range asked {
			if it := &items[i]; w.stays(it, seen[i]) && !it.IsOpaque {
				open[it.Path] = true
			}
		}
	}
	return nil
}

// Asks for these items, many at a time.
func (w *writer) ask(items []upper.Item, asked []int, seen []string) error {
	sent := make([]*pibroulez.Sent, len(asked))
	for n := 0; n < len(asked)+mostAhead; n++ {
		if n < len(asked) {
			line, err := lineOf("look", map[string]any{"ns": w.namespace, "key": w.key, "path": items[asked[n]].Path})
			if err == nil {
				sent[n], err = w.store.Send(w.ctx, line)
			}
			if err != nil {
				return err
			}
		}
		if last := n - mostAhead; last >= 0 && last < len(asked) {
			var answer struct{ Seen pibroulez.Seen }
			if err := sent[last].Take(w.ctx, &answer); err != nil {
				return fmt.Errorf("%s: %w", items[asked[last]].Path, err)
			}
			seen[asked[last]], sent[last] = string(answer.Seen.Type), nil
		}
	}
	return nil
}

// Takes away what was left and the directory doesn't have any more. What is in something that goes, goes with it.
func (w *writer) removeStale(items []upper.Item) error {
	if !w.isLeft {
		return nil
	}
	isThere := map[string]bool{}
	for i := range items {
		isThere[items[i].Path] = true
	}
	paths := make([]string, 0, len(w.left))
	for path, change := range w.left {
		if !isThere[path] && change != "removed" {
			paths = append(paths, path)
		}
	}
	// A directory before what is in it.
	sort.Strings(paths)
	stale := map[string]bool{}
	for _, path := range paths {
		if stale[path] = true; isBelow(path, stale) {
			continue
		}
		if err := w.add(pibroulez.WhiteoutOf(path)); err != nil {
			return err
		}
	}
	return nil
}

// Whether one of the directories above a path is among these.
func isBelow(path string, these map[string]bool) bool {
	for at := strings.LastIndexByte(path, '/'); at > 0; at = strings.LastIndexByte(path[:at], '/') {
		if these[path[:at]] {
			return true
		}
	}
	return false
}

// Makes an item, where what was in its way is gone. seen is what was there.
func (w *writer) make(it *upper.Item, seen string) error {
	switch it.Kind {
	case upper.Directory:
		if !w.stays(it, seen) {
			return w.add(pibroulez.MkdirOf(it.Path, it.Mode))
		}
		err := w.add(pibroulez.SetmodeOf(it.Path, it.Mode))
		if err == nil && it.IsOpaque {
			err = w.add(pibroulez.OpaqueOf(it.Path))
		}
		return err
	case upper.File:
		return w.add(pibroulez.PutOf(it.Path, it.Mode, it.Size, ""))
	case upper.Symlink:
		return w.add(pibroulez.SymlinkOf(it.Path, it.Text))
	case upper.Special:
		return w.add(pibroulez.PutOf(it.Path, it.Mode, 0, it.Text))
	case upper.Whiteout:
		// Where something was below, the whiteout is made by now.
		if change := w.left[it.Path]; seen == "" && change != "removed" || change == "added" {
			return w.add(pibroulez.PutOf(it.Path, 0, 0, loneWhiteout))
		}
	case upper.Link:
		return w.add(pibroulez.LinkOf(it.Text, it.Path))
	}
	return nil
}

// Has an operation sent with the next batch.
func (w *writer) add(it pibroulez.Operation) error {
	bytes := operationMore
	for _, value := range it.Fields {
		if text, isText := value.(string); isText {
			bytes += mostEscape * len(text)
		}
	}
	if len(w.operations) == mostOperations || w.bytes+bytes > mostBatchBytes {
		if err := w.flush(); err != nil {
			return err
		}
	}
	w.operations, w.bytes = append(w.operations, it), w.bytes+bytes
	return nil
}

// Sends what isn't sent yet, and waits for the answer. The error names the path whose operation was refused.
func (w *writer) flush() error {
	if len(w.operations) == 0 {
		return nil
	}
	done, err := w.batch(w.operations)
	if refused := new(pibroulez.OperationRefused); errors.As(err, &refused) {
		given := w.operations[refused.Number-1].Fields
		path, isPath := given["path"]
		if !isPath {
			path = given["to"]
		}
		return fmt.Errorf("%s: %w", path, refused.Why)
	} else if err != nil {
		return err
	}
	w.count, w.operations, w.bytes = done.Count, w.operations[:0], 0
	return nil
}

// The line of a command.
func lineOf(do string, fields map[string]any) (pibroulez.Line, error) {
	members := make(map[string]json.RawMessage, len(fields))
	for name, value := range fields {
		text, err := json.Marshal(value)
		if err != nil {
			return pibroulez.Line{}, err
		}
		members[name] = text
	}
	return pibroulez.Line{Do: do, Members: members}, nil
}

package containerd

import (
	"context"
	"errors"
	"fmt"
	"io/fs"
	"sync"
	"time"

	"github.com/containerd/containerd/log"

	"pibroulez.example/pibroulez"
	"pibroulez.example/pibroulez/containerd/upper"
)

// OverLabel is the label of an active snapshot whose directory has more than could be charged: BLOCKS/INODES of it that its
// tenant's limit doesn't cover. Usage sets it and takes it away. As long as they aren't covered the snapshot isn't committed.
const OverLabel = "pibroulez/over"

// How many directories are read at one time.
const mostScans = 4

// How often a part of what is wanted is charged anew where others have taken of the room.
const mostParts = 3

// Scans is what Usage has read and found since a Snapshotter was made.
type Scans struct {
	// Number is how many directories were read, and Took how long that took together, without the waits for a turn.
	Number uint64
	Took   time.Duration
	// Shared is how many questions had the answer that another one had asked for.
	Shared uint64
	// Over has the namespaces of the store of which snapshots are over.
	Over map[string]Over
}

// Over is how many snapshots of a namespace are over, and what of theirs is charged to nobody.
type Over struct {
	Snapshots int
	Above     pibroulez.Usage
}

// Scans of directories, one at a time of each snapshot.
type scans struct {
	// Ends with the snapshotter.
	ctx  context.Context
	stop context.CancelFunc
	// Has an element for each directory that is being read.
	turns chan struct{}

	mutex   sync.Mutex
	ended   *sync.Cond
	running int
	// How often a charge may have changed by what this snapshotter does to active snapshots.
	changes uint64
	of      map[uint64]*pair
	over    map[uint64]overOf
	// What a snapshot was charged after it was trimmed, where that is more than its root.
	trimmed map[uint64]pibroulez.Usage
	// The snapshots whose last charge has failed.
	failing map[uint64]bool
	// The ids of active snapshots that were read, by their keys, so that a directory is read beside the next question.
	ids  map[string]uint64
	keys map[uint64]string
	told Scans
}

// A snapshot's scans: the one that runs, and the one that is to run after it, or nil.
type pair struct{ now, next *scan }

type scan struct {
	// Whether the directory is being read. Who comes before that may have the answer too.
	hasBegun bool
	// Is closed once there is an answer.
	done  chan struct{}
	usage pibroulez.Usage
	err   error
	// What was so before.
	before *question
}

// What the store had of an active snapshot, and how many changes there were before it was asked.
type before struct {
	info    pibroulez.Info
	charged pibroulez.Usage
	changes uint64
}

// A question for that on its way.
type question struct {
	// Is closed once there is an answer.
	done chan struct{}
	was  before
	err  error
}

// Waits for the answer.
func (q *question) answer(ctx context.Context) (before, error) {
	select {
	case <-q.done:
		return q.was, q.err
	case <-ctx.Done():
		return q.was, ctx.Err()
	}
}

type overOf struct {
	namespace string
	above     pibroulez.Usage
}

func newScans() *scans {
	s := &scans{
		turns: make(chan struct{}, mostScans), of: map[uint64]*pair{}, over: map[uint64]overOf{}, trimmed: map[uint64]pibroulez.Usage{}, failing: map[uint64]bool{},
		ids: map[string]uint64{}, keys: map[uint64]string{},
	}
	s.ended = sync.NewCond(&s.mutex)
	s.ctx, s.stop = context.WithCancel(context.Background())
	return s
}

// The scan of a snapshot that hasn't begun: a new one, or one that others wait for. It is carried out by read, between turns
// of all scans, and then by use.
func (s *scans) ask(id uint64, was *question, read, use func(*scan)) (*scan, error) {
	s.mutex.Lock()
	defer s.mutex.Unlock()
	if s.ctx.Err() != nil {
		return nil, pibroulez.ErrClosed
	}
	both := s.of[id]
	switch {
	case both == nil:
		both = &pair{now: &scan{done: make(chan struct{}), before: was}}
		s.of[id] = both
		s.running++
		go s.run(id, both, read, use)
		return both.now, nil
	case !both.now.hasBegun:
		s.told.Shared++
		return both.now, nil
	case both.next == nil:
		both.next = &scan{done: make(chan struct{}), before: was}
	default:
		s.told.Shared++
	}
	return both.next, nil
}

// Carries out a snapshot's scans until nobody has asked for another one.
func (s *scans) run(id uint64, both *pair, read, use func(*scan)) {
	for {
		it := both.now
		if took, isRead := s.readInTurn(it, read); isRead {
			use(it)
			s.mutex.Lock()
			s.told.Number++
			s.told.Took += took
		} else {
			it.err = pibroulez.ErrClosed
			s.mutex.Lock()
		}
		close(it.done)
		if both.next == nil {
			delete(s.of, id)
			if s.running--; s.running == 0 {
				s.ended.Broadcast()
			}
			s.mutex.Unlock()
			return
		}
		both.now, both.next = both.next, nil
		s.mutex.Unlock()
	}
}

// Reads a directory once it may be read, and tells how long that took, and whether it was before the end.
func (s *scans) readInTurn(it *scan, read func(*scan)) (time.Duration, bool) {
	select {
	case s.turns <- struct{}{}:
	case <-s.ctx.Done():
		return 0, false
	}
	defer func() { <-s.turns }()
	s.mutex.Lock()
	it.hasBegun = true
	s.mutex.Unlock()
	began := time.Now()
	read(it)
	return time.Since(began), true
}

// Has no scan begin any more, and those that run come to an end.
func (s *scans) end() { s.stop() }

// Waits until no scan runs.
func (s *scans) wait() {
	s.mutex.Lock()
	defer s.mutex.Unlock()
	for s.running > 0 {
		s.ended.Wait()
	}
}

// Takes note that charges may change from now on.
func (s *scans) change() {
	s.mutex.Lock()
	defer s.mutex.Unlock()
	s.changes++
}

func (s *scans) changed() uint64 {
	s.mutex.Lock()
	defer s.mutex.Unlock()
	return s.changes
}

// Forgets a snapshot that isn't active any more.
func (s *scans) forget(id uint64) {
	s.mutex.Lock()
	defer s.mutex.Unlock()
	delete(s.over, id)
	delete(s.trimmed, id)
	delete(s.failing, id)
	s.unknowAlone(id)
}

// Forgets the key of a snapshot that isn't active.
func (s *scans) unknow(id uint64) {
	s.mutex.Lock()
	defer s.mutex.Unlock()
	s.unknowAlone(id)
}

// Does so with the mutex held.
func (s *scans) unknowAlone(id uint64) {
	if key, isKnown := s.keys[id]; isKnown && s.ids[key] == id {
		delete(s.ids, key)
	}
	delete(s.keys, id)
}

// The id that a key had when its directory was read last.
func (s *scans) idOf(key string) (uint64, bool) {
	s.mutex.Lock()
	defer s.mutex.Unlock()
	id, isKnown := s.ids[key]
	return id, isKnown
}

// Takes note of the id of an active snapshot.
func (s *scans) know(key string, id uint64) {
	s.mutex.Lock()
	defer s.mutex.Unlock()
	s.ids[key], s.keys[id] = id, key
}

// Takes note of whether a snapshot's charge has failed. Whether it is the first that has.
func (s *scans) fail(id uint64, hasFailed bool) (isNew bool) {
	s.mutex.Lock()
	defer s.mutex.Unlock()
	isNew = hasFailed && !s.failing[id]
	if delete(s.failing, id); hasFailed {
		s.failing[id] = true
	}
	return isNew
}

// Takes note of what of a snapshot isn't covered. Whether anything was before.
func (s *scans) note(id uint64, it overOf) (wasOver bool) {
	s.mutex.Lock()
	defer s.mutex.Unlock()
	if _, wasOver = s.over[id]; it.above == (pibroulez.Usage{}) {
		delete(s.over, id)
	} else {
		s.over[id] = it
	}
	return wasOver
}

// Scans tells what was read and found.
func (s *Snapshotter) Scans() Scans {
	s.scans.mutex.Lock()
	defer s.scans.mutex.Unlock()
	told := s.scans.told
	told.Over = map[string]Over{}
	for _, it := range s.scans.over {
		sum := told.Over[it.namespace]
		told.Over[it.namespace] = Over{sum.Snapshots + 1, pibroulez.Usage{
			Blocks: sum.Above.Blocks + it.above.Blocks, Inodes: sum.Above.Inodes + it.above.Inodes,
		}}
	}
	return told
}

// The error of a scan whose snapshot isn't active any more.
var errNotActive = errors.New("not active any more")

// Asks what the store has of a snapshot and charges for it, by two lines at once.
func (s *Snapshotter) askCharged(ctx context.Context, key string) (*question, error) {
	q := &question{done: make(chan struct{}), was: before{changes: s.scans.changed()}}
	var sent [2]*pibroulez.Sent
	for n, do := range []string{"stat", "usage"} {
		line, err := lineOf(do, map[string]any{"ns": s.namespaceOf(key), "key": key, "quiet": true})
		if err == nil {
			sent[n], err = s.store.Send(ctx, line)
		}
		if err != nil {
			return nil, err
		}
	}
	go func() {
		var info struct{ Info pibroulez.Info }
		var usage struct{ Usage pibroulez.Usage }
		if q.err = sent[0].Take(s.scans.ctx, &info); q.err == nil {
			q.err = sent[1].Take(s.scans.ctx, &usage)
		}
		if q.err != nil && s.scans.ctx.Err() != nil {
			q.err = pibroulez.ErrClosed
		}
		q.was.info, q.was.charged = info.Info, usage.Usage
		close(q.done)
	}()
	return q, nil
}

// What an active snapshot has by its directory, or what is charged where that is more. What is charged for another one.
func (s *Snapshotter) usageOf(ctx context.Context, key string) (pibroulez.Usage, error) {
	q, err := s.askCharged(ctx, key)
	if err != nil {
		return pibroulez.Usage{}, err
	}
	var reading *scan
	id, isKnown := s.scans.idOf(key)
	if isKnown {
		// It is mostly the same still, so its directory is read beside the question.
		if reading, err = s.scanned(id, q); err != nil {
			return pibroulez.Usage{}, err
		}
	}
	was, err := q.answer(ctx)
	if err != nil || was.info.Kind != pibroulez.KindActive {
		return was.charged, err
	}
	if !isKnown || was.info.ID != id {
		s.scans.know(key, was.info.ID)
		if reading, err = s.scanned(was.info.ID, q); err != nil {
			return pibroulez.Usage{}, err
		}
	}
	select {
	case <-reading.done:
		return reading.usage, reading.err
	case <-ctx.Done():
		return pibroulez.Usage{}, ctx.Err()
	}
}

// Has the directory of a snapshot read, after the call has begun, and, where the snapshot is active by a question's answer,
// charged what it has. Any number of callers share one reading.
func (s *Snapshotter) scanned(id uint64, q *question) (*scan, error) {
	read := func(it *scan) {
		it.usage, it.err = upper.Count(s.scans.ctx, s.directories.upperOf(id))
		if errors.Is(it.err, fs.ErrNotExist) {
			// A full disk has not taken its directory, or it goes.
			it.usage, it.err = root, nil
		}
	}
	use := func(it *scan) {
		was, err := it.before.answer(s.scans.ctx)
		if err == nil && (was.info.ID != id || was.info.Kind != pibroulez.KindActive) {
			err = errNotActive
		}
		if it.err == nil {
			it.err = err
		}
		if it.err == nil {
			it.usage, it.err = s.settle(s.scans.ctx, was, it.usage)
		}
		if errors.Is(it.err, errNotActive) {
			s.scans.unknow(id)
		}
		if s.scans.ctx.Err() != nil && it.err != nil {
			it.err = pibroulez.ErrClosed
		}
	}
	return s.scans.ask(id, q, read, use)
}

// Has an active snapshot charged what was found in its directory, or what it reserves where that is more, as far as its
// tenant's limit goes, and tells what isn't covered. What is charged or found. What the log can't keep is made up for later.
func (s *Snapshotter) settle(ctx context.Context, was before, found pibroulez.Usage) (pibroulez.Usage, error) {
	info := was.info
	if s.isSettled(was, wantedBy(info, found)) {
		return was.charged, nil
	}
	ctx, end, err := s.change(ctx, info.Name)
	if err != nil {
		return found, err
	}
	defer end()
	s.scans.change()
	now, err := s.store.Stat(ctx, s.namespaceOf(info.Name), info.Name)
	if errors.Is(err, pibroulez.ErrNotFound) || err == nil && (now.ID != info.ID || now.Kind != pibroulez.KindActive) {
		return found, errNotActive
	}
	if err != nil {
		return found, err
	}
	wanted := wantedBy(now, found)
	charged, err := s.chargeExactly(ctx, now, wanted)
	if mayBeMade(err) {
		return found, err
	}
	if err == nil {
		err = s.tell(ctx, now, beyond(wanted, charged))
	}
	if mayBeMade(err) {
		return found, err
	}
	if isNew := s.scans.fail(info.ID, err != nil); isNew {
		log.G(ctx).WithError(err).WithField("key", info.Name).Warn("failed to charge what a directory has")
	}
	return most(wanted, charged), nil
}

// What an active snapshot is to be charged: what was found, or what it reserves, and its root at least.
func wantedBy(info pibroulez.Info, found pibroulez.Usage) pibroulez.Usage {
	reserve, err := reserveOf(info.Labels)
	if err != nil {
		// It is one that was set later, so nothing was charged for it.
		reserve = pibroulez.Usage{}
	}
	return most(most(found, reserve), root)
}

// Whether a snapshot was charged what it is to be, and nothing was over, and no charge has changed since.
func (s *Snapshotter) isSettled(was before, wanted pibroulez.Usage) bool {
	s.scans.mutex.Lock()
	defer s.scans.mutex.Unlock()
	_, isOver := s.scans.over[was.info.ID]
	return s.scans.changes == was.changes && was.charged == most(wanted, s.scans.trimmed[was.info.ID]) && was.info.Labels[OverLabel] == "" && !isOver &&
		!s.scans.failing[was.info.ID]
}

// Has an active snapshot charged this much, as far as the limit goes, and no more. What is charged then.
func (s *Snapshotter) chargeExactly(ctx context.Context, info pibroulez.Info, wanted pibroulez.Usage) (pibroulez.Usage, error) {
	namespace := s.namespaceOf(info.Name)
	charged, err := s.store.Usage(ctx, namespace, info.Name)
	if err != nil {
		return charged, err
	}
	// What an unfinished commit has left in the layer is charged as long as it is there.
	s.scans.mutex.Lock()
	kept := s.scans.trimmed[info.ID]
	s.scans.mutex.Unlock()
	if beyond(charged, most(wanted, kept)) != (pibroulez.Usage{}) {
		share, err := s.store.Trim(ctx, namespace, info.Name)
		if err != nil {
			return charged, sealed(err)
		}
		charged = share
		s.scans.mutex.Lock()
		if delete(s.scans.trimmed, info.ID); share != root {
			s.scans.trimmed[info.ID] = share
		}
		s.scans.mutex.Unlock()
	}
	return s.raise(ctx, info.Name, charged, wanted)
}

// Charges an active snapshot this much, or as much of it as its tenant has free. What is charged then. Where nothing is
// free it makes no call that the log would keep.
func (s *Snapshotter) raise(ctx context.Context, key string, charged, wanted pibroulez.Usage) (pibroulez.Usage, error) {
	namespace, none := s.namespaceOf(key), pibroulez.Usage{}
	lacks := beyond(wanted, charged)
	if lacks == none {
		return charged, nil
	}
	if s.hasCluster {
		err := s.charge(ctx, namespace, lacks, func(ctx context.Context) error {
			_, err := s.store.Charge(ctx, namespace, key, most(wanted, charged))
			return err
		})
		if err == nil {
			return most(wanted, charged), nil
		} else if !errors.Is(err, pibroulez.ErrOverLimit) {
			return charged, sealed(err)
		}
	}
	for n := 0; n < mostParts; n++ {
		quota, err := s.store.Quota(ctx, namespace)
		if err != nil {
			return charged, err
		}
		part := least(lacks, quota.Free)
		if part == none {
			break
		}
		share, err := s.store.Charge(ctx, namespace, key, pibroulez.Usage{Blocks: charged.Blocks + part.Blocks, Inodes: charged.Inodes + part.Inodes})
		if err == nil {
			return share, nil
		} else if !errors.Is(err, pibroulez.ErrOverLimit) {
			return charged, sealed(err)
		}
	}
	return charged, nil
}

// The error of a charge, or none where the snapshot is sealed, which nothing is charged for any more.
func sealed(err error) error {
	if errors.Is(err, pibroulez.ErrNoHand) {
		return nil
	}
	return err
}

// Tells what of an active snapshot isn't covered, by its label and the log, where that has changed.
func (s *Snapshotter) tell(ctx context.Context, info pibroulez.Info, above pibroulez.Usage) error {
	namespace, isOver := s.namespaceOf(info.Name), above != (pibroulez.Usage{})
	wasOver := s.scans.note(info.ID, overOf{namespace, above})
	if entry := log.G(ctx).WithField("key", info.Name).WithField("tenant", namespace); isOver && !wasOver {
		entry.WithField("over", above.String()).Warn("a snapshot has more than its tenant's limit covers")
	} else if wasOver && !isOver {
		entry.Info("a snapshot has no more than its tenant's limit covers")
	}
	labels, label := map[string]string{}, ""
	if isOver {
		label = above.String()
		labels[OverLabel] = label
	}
	if info.Labels[OverLabel] == label {
		return nil
	}
	_, err := s.store.Update(ctx, namespace, info.Name, labels, []string{"labels." + OverLabel})
	return err
}

// Takes note of the snapshots that are over, as their labels say.
func (s *Snapshotter) findOver(ctx context.Context) error {
	filter := pibroulez.Filter{Kind: pibroulez.KindActive, Labels: map[string]*string{OverLabel: nil}}
	for _, namespace := range s.namespaces() {
		err := s.store.WalkAll(ctx, namespace, filter, func(info pibroulez.Info) error {
			var above pibroulez.Usage
			_, err := fmt.Sscanf(info.Labels[OverLabel], "%d/%d", &above.Blocks, &above.Inodes)
			if err == nil && s.namespaceOf(info.Name) == namespace {
				s.scans.note(info.ID, overOf{namespace, above})
			}
			return nil
		})
		if err != nil && !isGone(err, namespace) {
			return err
		}
	}
	return nil
}

// The greater and the lesser of each quantity, and what one is above another one.
func most(a, b pibroulez.Usage) pibroulez.Usage {
	return pibroulez.Usage{Blocks: b.Blocks + above(a.Blocks, b.Blocks), Inodes: b.Inodes + above(a.Inodes, b.Inodes)}
}

func least(a, b pibroulez.Usage) pibroulez.Usage {
	return pibroulez.Usage{Blocks: a.Blocks - above(a.Blocks, b.Blocks), Inodes: a.Inodes - above(a.Inodes, b.Inodes)}
}

func beyond(a, b pibroulez.Usage) pibroulez.Usage {
	return pibroulez.Usage{Blocks: above(a.Blocks, b.Blocks), Inodes: above(a.Inodes, b.Inodes)}
}

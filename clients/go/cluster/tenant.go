package cluster

import (
	"context"
	"errors"
	"math/rand"
	"sync"
	"sync/atomic"
	"time"

	"pibroulez.example/pibroulez"
)

// A tenant on this node. Who has its turn may change the store's own limit and its grant: so there is at most one
// transaction whose answer is waited for. Those whose answer never came are voided by the next write of the grant.
type tenant struct {
	name string
	turn chan struct{}

	// Of who has the turn.

	known known
	// The grant that etcd has answered to be written, where the store's own limit wasn't lowered since, and no other
	// transaction was sent.
	written Usage
	// Whether the grant may be another than the store's own limit, as where an answer never came.
	isDirty bool
	// Whether a settle has been answered since the agent began, and whether this process has written the grant.
	isSettled, isWriter bool
	// The number of the last transaction.
	number uint64
	// That etcd was away when a charge last asked for more, and when it had found out.
	away   error
	missed time.Time

	// How long a transaction of it takes, about.
	trip time.Duration

	// The last revision of the tenant's record that the watch has told.
	seen atomic.Int64
	// When a charge was last made, in nanoseconds since 1970.
	charged atomic.Int64
	// Whether the store joined only now, so that nothing was granted before.
	isNew atomic.Bool
	// Wakes who keeps the tenant.
	work chan struct{}
	// How many other stores wait for room.
	others atomic.Int64

	mutex sync.Mutex
	// What the watch has told of its shards.
	told told
	// What charges that have got their room are about to take, and how many wait for room.
	reserved Usage
	waits    int
	granted  Usage
	// Is closed and made anew where the tenant's record has changed.
	moved chan struct{}
}

func newTenant(name string) *tenant {
	return &tenant{
		name: name, turn: make(chan struct{}, 1), isDirty: true, work: make(chan struct{}, 1), moved: make(chan struct{}),
	}
}

// Takes the turn, or ends with the context.
func (t *tenant) take(ctx context.Context) error {
	select {
	case t.turn <- struct{}{}:
		return nil
	case <-ctx.Done():
		return ctx.Err()
	}
}

func (t *tenant) leave() { <-t.turn }

func (t *tenant) wake() {
	select {
	case t.work <- struct{}{}:
	default:
	}
}

// Has all that wait for room look again.
func (t *tenant) wakeWaiting() {
	t.mutex.Lock()
	close(t.moved)
	t.moved = make(chan struct{})
	t.mutex.Unlock()
}

func (t *tenant) changes() <-chan struct{} {
	t.mutex.Lock()
	defer t.mutex.Unlock()
	return t.moved
}

func (t *tenant) reserve(more Usage) {
	t.mutex.Lock()
	defer t.mutex.Unlock()
	t.reserved = plus(t.reserved, more)
}

func (t *tenant) release(less Usage) {
	t.mutex.Lock()
	defer t.mutex.Unlock()
	t.reserved = minus(t.reserved, less)
}

func (t *tenant) reservation() Usage {
	t.mutex.Lock()
	defer t.mutex.Unlock()
	return t.reserved
}

func (t *tenant) setGranted(to Usage) {
	t.mutex.Lock()
	defer t.mutex.Unlock()
	t.granted = to
}

// How often a step is tried again for what others do meanwhile.
const tries = 8

var (
	// The pool and what this store could give back don't cover what is needed.
	errShort = errors.New("the cluster has no room now")
	// The store's own limit would be raised above what etcd has answered to be written. It never comes.
	errNotWritten = errors.New("the grant isn't written")
	// A grant would be written that may not be. It never comes either.
	errNotGranted = errors.New("the grant may not be written")
)

// Has room for a call that was refused, and makes it again, as long as patience lasts. Room that was found is reserved
// until the call has ended.
func (a *Agent) obtain(ctx context.Context, t *tenant, need Usage, call func(context.Context) error) error {
	deadline := time.Now().Add(a.config.Patience)
	for try := 0; ; try++ {
		if err := a.raise(ctx, t, need, deadline); err != nil {
			return a.refused(ctx, t, need, err)
		}
		err := a.callReserved(ctx, t, need, call)
		if !errors.Is(err, pibroulez.ErrOverLimit) {
			return err
		}
		// Another caller took it who didn't ask the agent, or the call needs more than it says.
		if try == tries {
			return a.refused(ctx, t, need, errShort)
		}
	}
}

func (a *Agent) callReserved(ctx context.Context, t *tenant, need Usage, call func(context.Context) error) error {
	defer t.release(need)
	t.charged.Store(time.Now().UnixNano())
	return call(ctx)
}

// Raises the store's own limit so that `need` is free beside what is reserved, and reserves it.
func (a *Agent) raise(ctx context.Context, t *tenant, need Usage, deadline time.Time) error {
	moved, begin := t.changes(), time.Now()
	err := a.raiseOnce(ctx, t, need, begin)
	if err != errShort || a.config.Patience < 0 {
		return err
	}
	withdraw := a.wait(ctx, t, need)
	defer withdraw()
	patience := time.NewTimer(time.Until(deadline))
	defer patience.Stop()
	for isLast := false; ; {
		if err = a.raiseOnce(ctx, t, need, begin); err != errShort || isLast {
			return err
		}
		select {
		case <-moved:
			moved = t.changes()
		case <-patience.C:
			isLast = true
		case <-a.ended:
			return a.end
		case <-a.ctx.Done():
			return ErrClosed
		case <-ctx.Done():
			return ctx.Err()
		}
	}
}

// Does that once, for a charge that has begun then.
func (a *Agent) raiseOnce(ctx context.Context, t *tenant, need Usage, begin time.Time) (err error) {
	if err := t.take(ctx); err != nil {
		return err
	}
	defer t.leave()
	defer func() {
		if errors.Is(err, EtcdAway) {
			t.away, t.missed = err, time.Now()
		}
	}()
	for losses, isLatest := 0, false; ; losses++ {
		a.backOff(t, losses)
		if losses > 0 && time.Since(begin) > a.config.Patience+a.config.Timeout {
			return ErrBusy
		}
		quota, err := a.config.Store.Quota(ctx, t.name)
		if err != nil {
			return err
		}
		lacks := minus(plus(need, t.reservation()), quota.Free)
		if lacks == (Usage{}) {
			// Another charge's batch was enough.
			t.reserve(need)
			return nil
		}
		if a.isDrained.Load() {
			return ErrDrained
		}
		if t.missed.After(begin) {
			// Another charge has found out meanwhile.
			return t.away
		}
		if err := a.awaitJoined(ctx); err != nil {
			return err
		}
		isRead, err := a.know(ctx, t, quota.Limit)
		if err != nil {
			return err
		}
		isLatest = isLatest || isRead
		to, err := a.next(t, quota, lacks)
		if err == errShort && !isLatest {
			// The watch may tell late of room. A refusal is by what etcd has answered since the charge began.
			t.known.isFresh = false
			continue
		}
		if err == errShort {
			// Nobody gets anything where each waits with what it doesn't use in hand.
			if e := a.lower(ctx, t, Usage{}); e != nil {
				return e
			}
		}
		if err != nil {
			return err
		}
		err = a.grantAndSet(ctx, t, to, quota.Limit)
		if err == nil {
			t.reserve(need)
		}
		if err != errLost {
			return err
		}
		isLatest = true
		if losses >= lossesToDivide {
			if err := a.divide(ctx, t, lacks); err != nil {
				return err
			}
		}
	}
}

// How many compares a raise loses before the pool is divided further.
const lossesToDivide = 2

// Divides a pool among twice as many shards, for stores that hinder each other at those that there are: no more than there
// are stores, and where each of them covers then what is lacking. Where another one has changed it meanwhile, it is left.
func (a *Agent) divide(ctx context.Context, t *tenant, lacks Usage) error {
	shards := least(2*len(t.known.shards), least(int(a.stores.Load()), MostShards))
	free := t.known.free()
	each := Usage{Blocks: free.Blocks / uint64(shards), Inodes: free.Inodes / uint64(shards)}
	if a.config.isUndivided || shards <= len(t.known.shards) || !covers(each, lacks) {
		return nil
	}
	of := a.generation.Load()
	err := a.ask(ctx, func(ctx context.Context) error {
		return a.transactions.divide(ctx, of, a.store, t.name, &t.known, shards)
	})
	switch {
	case err == nil:
		a.count(func(m *Metrics) { m.Divisions++ })
	case err != errLost:
		return a.look(of, err)
	}
	return nil
}

// The grant to ask for.
func (a *Agent) next(t *tenant, quota pibroulez.Quota, lacks Usage) (Usage, error) {
	extra := a.config.Batch
	if local, isThere := a.config.Local[t.name]; isThere {
		room := minus(local, quota.Limit)
		if !covers(room, lacks) {
			return Usage{}, ErrLocalLimit
		}
		extra = smaller(extra, minus(room, lacks))
	}
	share := a.config.Share
	if share == 0 {
		share = 2 * uint64(a.stores.Load())
	}
	home, shards := t.home(a), uint64(len(t.known.shards))
	all, blocks, inodes := viewsOf(&t.known, t.known.free(), quota.Limit).next(lacks, extra, share)
	if !blocks || !inodes {
		return Usage{}, errShort
	}
	// Where the store's own shard has enough, it takes from that alone.
	if a.config.Share == 0 {
		share = shareOfShard(share, shards)
	}
	own, blocks, inodes := viewsOf(&t.known, t.known.shards[home].free, quota.Limit).next(lacks, extra, share)
	if blocks {
		all.Blocks = own.Blocks
	}
	if inodes {
		all.Inodes = own.Inodes
	}
	return all, nil
}

// The share of one of this number of shards, which 1/shards of the stores take from first.
func shareOfShard(share, shards uint64) uint64 {
	if share = (share + shards - 1) / shards; share < 2 {
		return 2
	}
	return share
}

// The store's own shard: they are shared out among the stores in order.
func (t *tenant) home(a *Agent) int { return int(a.place.Load()) % len(t.known.shards) }

// Has etcd grant `to`, always by a write, and then raises the store's own limit to that. The caller has the turn.
func (a *Agent) grantAndSet(ctx context.Context, t *tenant, to, bound Usage) error {
	if a.config.isUnwritten && covers(t.known.grant.Grant, to) {
		t.written = t.known.grant.Grant
	} else if err := a.write(ctx, t, to, bound); err != nil {
		return err
	}
	t.isDirty = true
	if !mayRaise(t.written, to) {
		return errNotWritten
	}
	if err := a.setBound(ctx, t, to); err != nil {
		return err
	}
	t.isDirty = t.known.grant.Grant != to
	a.count(func(m *Metrics) { m.Raises++ })
	return nil
}

// Sets the store's own limit. Its log has it once that is answered.
func (a *Agent) setBound(ctx context.Context, t *tenant, to Usage) error {
	a.config.note(event{Kind: limiting, Tenant: t.name, To: to})
	err := a.config.Store.Limit(ctx, t.name, to)
	if err == nil || errors.Is(err, pibroulez.ErrBelowCharge) {
		a.config.note(event{Kind: limited, Tenant: t.name, To: to})
	}
	return err
}

// Knows the tenant's record, its shards and the store's grant: shards as the watch has told them, and all by a read where
// that has told of a later record, or an answer didn't come. It ends where the store's own limit is above its grant, or
// another process has written that. Whether it has read.
func (a *Agent) know(ctx context.Context, t *tenant, bound Usage) (isRead bool, err error) {
	of := a.generation.Load()
	if !t.known.isFresh || t.seen.Load() > t.known.tenantRev || !a.hear(t, of) {
		a.count(func(m *Metrics) { m.Reads++ })
		err := a.ask(ctx, func(ctx context.Context) error { return a.read(ctx, of, a.store, t.name, &t.known) })
		if err != nil {
			return true, a.look(of, err)
		}
		isRead = true
	}
	return isRead, a.compare(t, bound)
}

// Takes what the watch has told of shards. Whether that is all. An etcd that answers an earlier revision afterwards was
// restored.
func (a *Agent) hear(t *tenant, of *generation) bool {
	t.mutex.Lock()
	defer t.mutex.Unlock()
	latest, isAll := t.known.hear(&t.told, of)
	a.see(latest, 0)
	return isAll
}

func (a *Agent) compare(t *tenant, bound Usage) error {
	k := &t.known
	t.setGranted(k.grant.Grant)
	if t.isWriter && k.grantRev != 0 && k.grant.By != a.process {
		return a.finish(&StateError{State: Copied, Tenant: t.name})
	}
	if !viewsOf(k, Usage{}, bound).isSound() {
		return a.finish(&StateError{State: LimitAboveGrant, Tenant: t.name, Limit: bound, Grant: k.grant.Grant})
	}
	return nil
}

// Writes the grant, of a store with this limit of its own. Where it is errLost, what is known is as it is now.
func (a *Agent) write(ctx context.Context, t *tenant, to, bound Usage) error {
	if !viewsOf(&t.known, t.known.free(), bound).mayGrant(to) {
		return errNotGranted
	}
	t.number++
	t.written = Usage{}
	of, home := a.generation.Load(), t.home(a)
	record := grantRecord{to, a.process, t.number, of.Number}
	a.config.note(event{Kind: sending, Tenant: t.name, To: to, Number: t.number})
	begin := time.Now()
	err := a.ask(ctx, func(ctx context.Context) error {
		return a.grant(ctx, of, a.store, t.name, home, &t.known, record)
	})
	t.took(time.Since(begin))
	switch {
	case err == nil:
		a.config.note(event{Kind: answered, Tenant: t.name, To: to, Number: t.number})
		t.isWriter, t.written = true, to
		t.setGranted(to)
		return nil
	case err == errLost:
		a.count(func(m *Metrics) { m.LostCompares++ })
		return err
	case !isAnswer(err):
		// It may have been written, or may still be.
		t.isDirty = true
		a.count(func(m *Metrics) { m.Unanswered++ })
	}
	return a.look(of, err)
}

// Gives back what is neither charged, nor reserved, nor to be kept: the store's own limit first. The caller has the
// turn.
func (a *Agent) lower(ctx context.Context, t *tenant, keep Usage) error {
	for try := 0; try < tries; try++ {
		quota, err := a.config.Store.Quota(ctx, t.name)
		if err != nil {
			return err
		}
		to := lowered(quota.Limit, quota.Charged, plus(keep, t.reservation()))
		if to == quota.Limit {
			if t.isDirty {
				return a.settle(ctx, t)
			}
			return nil
		}
		// From now on no limit is raised without a write.
		t.written, t.isDirty = Usage{}, true
		err = a.setBound(ctx, t, to)
		if errors.Is(err, pibroulez.ErrBelowCharge) {
			continue
		}
		if err != nil {
			return err
		}
		a.count(func(m *Metrics) { m.Lowerings++ })
		return a.settle(ctx, t)
	}
	return nil
}

// Sets the grant to the store's own limit. The caller has the turn.
func (a *Agent) settle(ctx context.Context, t *tenant) error {
	for losses := 0; ; losses++ {
		a.backOff(t, losses)
		quota, err := a.config.Store.Quota(ctx, t.name)
		if err != nil {
			return err
		}
		if _, err := a.know(ctx, t, quota.Limit); err != nil {
			if errors.Is(err, ErrNoTenant) && quota.Limit == (Usage{}) {
				a.settledOne(t)
			}
			return err
		}
		isNothing := t.isNew.Load() && t.known.grantRev == 0 && quota.Limit == (Usage{})
		if isNothing {
			a.settledOne(t)
			return nil
		}
		err = a.write(ctx, t, viewsOf(&t.known, Usage{}, quota.Limit).settled(), quota.Limit)
		if err == nil {
			a.count(func(m *Metrics) { m.Settles++ })
			a.settledOne(t)
		}
		if err != errLost {
			return err
		}
		if err := a.compare(t, quota.Limit); err != nil {
			return err
		}
	}
}

func (a *Agent) settledOne(t *tenant) {
	t.isDirty = false
	if t.isSettled {
		return
	}
	t.isSettled = true
	if a.unsettled.Add(-1) == 0 {
		close(a.settled)
		a.tell()
	}
}

// How long is waited after a lost compare, at most, also where etcd is slow.
const mostBackOff = 400 * time.Millisecond

// Waits a moment where compares were lost, and the longer the more: at random within as many transactions as there may be
// stores that want the same shard. What the watch tells meanwhile is known then.
func (a *Agent) backOff(t *tenant, losses int) {
	if losses == 0 {
		return
	}
	others := least(1<<least(losses, 6), int(a.stores.Load()))
	window := t.trip * time.Duration(others)
	if window > mostBackOff {
		window = mostBackOff
	}
	a.sleep(time.Duration(rand.Int63n(int64(window) + 1)))
}

// How long a transaction of the tenant takes, about: by each that was answered the last one's weight is halved in some five
// more.
func (t *tenant) took(it time.Duration) {
	if t.trip == 0 {
		t.trip = it
	}
	t.trip += (it - t.trip) / 8
}

// Keeps a tenant: settles it, and gives back what isn't used.
func (a *Agent) keep(t *tenant) {
	timer := time.NewTicker(a.config.tick)
	defer timer.Stop()
	var rested time.Time
	for a.isAlive() {
		select {
		case <-timer.C:
		case <-t.work:
		case <-a.ctx.Done():
			return
		case <-a.ended:
			return
		}
		if !a.isJoined() || t.take(a.ctx) != nil {
			continue
		}
		rested = a.tend(t, rested)
		t.leave()
	}
}

// One round of that. Where it fails the next one does it. rested is when the store, as an idle one, last gave back what it
// doesn't use.
func (a *Agent) tend(t *tenant, rested time.Time) time.Time {
	t.mutex.Lock()
	waits := t.waits
	t.mutex.Unlock()
	isIdle := func(since time.Time) bool { return a.config.Idle > 0 && time.Since(since) > a.config.Idle }
	switch {
	case a.isDrained.Load() || t.others.Load() > 0 && a.config.Patience >= 0:
		a.lower(a.ctx, t, Usage{})
	case t.isDirty:
		a.settle(a.ctx, t)
	case waits == 0 && isIdle(time.Unix(0, t.charged.Load())) && isIdle(rested):
		a.lower(a.ctx, t, a.config.Batch)
		return time.Now()
	}
	return rested
}

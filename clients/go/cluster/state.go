package cluster

import (
	"context"
	"errors"
	"sync"
	"time"
)

// Makes one request to etcd. Where it has no answer, and neither the caller nor the agent has ended, etcd is away.
func (a *Agent) ask(ctx context.Context, request func(context.Context) error) error {
	select {
	case <-a.ended:
		return a.end
	default:
	}
	bounded, cancel := context.WithTimeout(ctx, a.config.Timeout)
	defer cancel()
	done := make(chan struct{})
	defer close(done)
	go func() {
		select {
		case <-a.ctx.Done():
			cancel()
		case <-done:
		}
	}()
	err := request(bounded)
	switch {
	case err == nil || isAnswer(err):
		a.heard()
		return err
	case ctx.Err() != nil:
		return ctx.Err()
	case a.ctx.Err() != nil:
		return ErrClosed
	}
	away := &StateError{State: EtcdAway, Store: a.store, Cause: err}
	a.mutex.Lock()
	a.away = away
	a.mutex.Unlock()
	a.tell()
	return away
}

// Whether etcd has answered.
func isAnswer(err error) bool {
	var bad *BadRecord
	return errors.Is(err, errLost) || errors.Is(err, errNotJoined) || errors.Is(err, errGeneration) || errors.Is(err, ErrNoTenant) || errors.Is(err, Forgotten) ||
		errors.As(err, &bad)
}

func (a *Agent) heard() {
	a.mutex.Lock()
	a.answered = time.Now()
	wasAway := a.away != nil
	a.away = nil
	a.mutex.Unlock()
	if wasAway {
		a.tell()
	}
}

// Finds the state that the agent is in.
func (a *Agent) tell() {
	defer a.told.renew()
	a.mutex.Lock()
	defer a.mutex.Unlock()
	now := Status{State: Serving, Since: time.Now()}
	isSettled := a.unsettled.Load() == 0
	switch {
	case a.end != nil:
		now.State, now.Err = a.end.State, a.end
	case !a.isJoined():
		err := a.notJoined()
		if a.away != nil {
			err.Cause = a.away
		}
		now.State, now.Err = err.State, err
	case a.away != nil:
		now.State, now.Err = EtcdAway, a.away
	case !isSettled:
		now.State, now.Err = Settling, &StateError{State: Settling, Store: a.store}
	}
	if now.State == a.status.State {
		now.Since = a.status.Since
	}
	a.status = now
}

// Comes to an end: nothing is written any more, and no store's limit stays above what is charged.
func (a *Agent) finish(end *StateError) error {
	end.Store = a.store
	a.mutex.Lock()
	isFirst := a.end == nil && !a.isClosed
	if isFirst {
		a.end = end
		a.group.Add(1)
	}
	a.mutex.Unlock()
	if !isFirst {
		return end
	}
	close(a.ended)
	a.tell()
	go func() {
		defer a.group.Done()
		for _, t := range a.tenants {
			if t.take(a.ctx) == nil {
				a.lowerToCharge(t)
				t.leave()
			}
		}
	}()
	return end
}

func (a *Agent) lowerToCharge(t *tenant) {
	for try := 0; try < tries; try++ {
		quota, err := a.config.Store.Quota(a.ctx, t.name)
		if err != nil || quota.Limit == quota.Charged || a.setBound(a.ctx, t, quota.Charged) == nil {
			return
		}
	}
}

// Sleeps, unless the agent ends first.
func (a *Agent) sleep(how time.Duration) {
	timer := time.NewTimer(how)
	defer timer.Stop()
	select {
	case <-timer.C:
	case <-a.ctx.Done():
	case <-a.ended:
	}
}

// Whether the agent works on.
func (a *Agent) isAlive() bool {
	select {
	case <-a.ended:
		return false
	case <-a.ctx.Done():
		return false
	default:
		return true
	}
}

// How long after a failed request the next one is made.
const pause = 200 * time.Millisecond

// Has the store joined, at the beginning and where its record is found to be gone, and has it registered where etcd was
// restored.
func (a *Agent) keepJoined() {
	for a.isAlive() {
		select {
		case <-a.join:
		case <-a.ctx.Done():
			return
		case <-a.ended:
			return
		}
		for a.isAlive() && !a.joinOnce() {
			select {
			case <-a.join:
			default:
				a.sleep(pause)
			}
		}
	}
}

// Joins, or registers. Whether there is nothing more to do until it is woken.
func (a *Agent) joinOnce() bool {
	var of *generation
	var isIn, isNew bool
	err := a.ask(a.ctx, func(ctx context.Context) (err error) {
		if of, err = a.transactions.current(ctx, a.seen.Load()); err != nil {
			return err
		}
		if last := a.seen.Swap(of.Number); last != of.Number && last != 0 {
			a.renewal.renew()
		}
		if of.Phase != isOpen {
			isIn, err = a.transactions.isRegistered(ctx, of, a.store)
			return err
		}
		var joined uint64
		isNew, joined, err = a.transactions.join(ctx, of, a.store, a.config.Node)
		isIn = joined == of.Number
		return err
	})
	if err == nil && of.Phase == isClosed && !isIn {
		a.closed()
		err = a.register(of)
	}
	var other *BadRecord
	errors.As(err, &other)
	a.other.Store(other)
	switch {
	case errors.Is(err, Forgotten):
		a.finish(&StateError{State: Forgotten})
		return true
	case other != nil:
		a.generation.Store(noGeneration)
		a.tell()
		a.await(a.join, a.config.Report)
		return false
	case err != nil:
		return false
	case of.Phase == isOpen && isIn:
		a.joined(of, isNew)
		return true
	}
	// The watch tells when it is open. Where that is late, it is found out by asking.
	a.closed()
	a.await(a.join, a.config.Report)
	return false
}

// Nothing is granted until an operator has reopened the cluster.
func (a *Agent) closed() {
	a.isRestored.Store(true)
	a.generation.Store(noGeneration)
	a.tell()
}

// Waits for a signal, at most this long.
func (a *Agent) await(signal <-chan struct{}, how time.Duration) {
	timer := time.NewTimer(how)
	defer timer.Stop()
	select {
	case <-signal:
	case <-timer.C:
	case <-a.ctx.Done():
	case <-a.ended:
	}
}

// Waits as long as one request until the store has joined. It doesn't wait where etcd is away, or was restored.
func (a *Agent) awaitJoined(ctx context.Context) error {
	patience := time.NewTimer(a.config.Timeout)
	defer patience.Stop()
	for {
		told := a.told.now()
		if a.isJoined() {
			return nil
		}
		status := a.Status()
		var why *StateError
		if errors.As(status.Err, &why) && (why.State != NotJoined || why.Cause != nil) {
			return status.Err
		}
		select {
		case <-told:
		case <-patience.C:
			return a.notJoined()
		case <-a.ended:
			return a.end
		case <-a.ctx.Done():
			return ErrClosed
		case <-ctx.Done():
			return ctx.Err()
		}
	}
}

// A store that has joined only now has sent nothing before: where it has no limit of its own either, it has nothing to
// settle.
func (a *Agent) joined(of *generation, isNew bool) {
	for _, t := range a.tenants {
		if isNew {
			t.isNew.Store(true)
		}
		t.wake()
	}
	a.isRestored.Store(false)
	a.generation.Store(of)
	a.tell()
}

// Registers the store's own limits as its grants, while none of them is changed.
func (a *Agent) register(of *generation) error {
	names := sorted(a.tenants)
	for _, name := range names {
		t := a.tenants[name]
		if err := t.take(a.ctx); err != nil {
			return err
		}
		defer t.leave()
	}
	quotas, err := a.config.Store.Quotas(a.ctx)
	if err != nil {
		return err
	}
	grants := map[string]grantRecord{}
	for _, name := range names {
		t := a.tenants[name]
		t.number++
		t.written, t.isDirty, t.known.isFresh = Usage{}, true, false
		t.isNew.Store(false)
		grants[name] = grantRecord{quotas[name].Limit, a.process, t.number, of.Number}
		a.config.note(event{Kind: sending, Tenant: name, To: quotas[name].Limit, Number: t.number})
	}
	err = a.ask(a.ctx, func(ctx context.Context) error {
		return a.transactions.register(ctx, of, a.store, a.config.Node, grants)
	})
	if err != nil {
		return err
	}
	for name, it := range grants {
		t := a.tenants[name]
		t.isWriter = true
		t.setGranted(it.Grant)
		a.config.note(event{Kind: answered, Tenant: name, To: it.Grant, Number: it.Number})
	}
	return nil
}

// What an answer to a request of a generation has of others than the asker: that the store's record is gone isn't that it
// was forgotten, and that the generation is another one isn't which.
func (a *Agent) look(of *generation, err error) error {
	if !errors.Is(err, errNotJoined) && !errors.Is(err, errGeneration) {
		return err
	}
	if of != noGeneration && a.generation.CompareAndSwap(of, noGeneration) {
		a.tell()
		a.wakeJoin()
	}
	return a.notJoined()
}

func (a *Agent) wakeJoin() {
	select {
	case a.join <- struct{}{}:
	default:
	}
}

// Whether the store has joined, and the generation is open.
func (a *Agent) isJoined() bool { return a.generation.Load() != noGeneration }

func (a *Agent) notJoined() *StateError {
	switch other := a.other.Load(); {
	case other != nil:
		return &StateError{State: OtherFormat, Store: a.store, Cause: other}
	case a.isRestored.Load():
		return &StateError{State: Restored, Store: a.store}
	}
	return &StateError{State: NotJoined, Store: a.store}
}

// A signal for all that wait for it.
type renewal struct {
	mutex sync.Mutex
	is    chan struct{}
}

func (r *renewal) renew() {
	r.mutex.Lock()
	defer r.mutex.Unlock()
	close(r.is)
	r.is = make(chan struct{})
}

func (r *renewal) now() <-chan struct{} {
	r.mutex.Lock()
	defer r.mutex.Unlock()
	return r.is
}

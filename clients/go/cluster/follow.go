package cluster

import (
	"context"
	"errors"
	"strings"
	"sync"
	"time"

	"go.etcd.io/etcd/clientv3"
	"go.etcd.io/etcd/mvcc/mvccpb"

	"pibroulez.example/pibroulez"
)

// What an agent follows and tells beside its grants. All of it is hints: it says when to look, and no grant depends on it.

// Opens watches until the agent ends, anew where they break.
func (a *Agent) watching(once func(ctx context.Context)) {
	for a.isAlive() {
		ctx, cancel := context.WithCancel(clientv3.WithRequireLeader(a.ctx))
		once(ctx)
		cancel()
		a.sleep(pause)
	}
}

// Calls a function with each event of some watches, until one breaks.
func (a *Agent) events(ctx context.Context, renewed <-chan struct{}, handle func(*clientv3.Event), watches ...clientv3.WatchChan) {
	ctx, cancel := context.WithCancel(ctx)
	var group sync.WaitGroup
	var mutex sync.Mutex
	for _, watch := range watches {
		watch := watch
		group.Add(1)
		go func() {
			defer group.Done()
			defer cancel()
			for {
				select {
				case told, isOpen := <-watch:
					if !isOpen || told.Err() != nil {
						return
					}
					mutex.Lock()
					for _, it := range told.Events {
						handle(it)
					}
					mutex.Unlock()
				case <-renewed:
					return
				case <-a.ended:
					return
				case <-ctx.Done():
					return
				}
			}
		}()
	}
	group.Wait()
	cancel()
}

// Follows a tenant's record, and who waits for room.
func (a *Agent) follow(t *tenant) {
	record, shards, wants := a.keys.tenant(t.name), a.keys.shards(t.name), a.keys.wants(t.name)
	a.watching(func(ctx context.Context) {
		renewed := a.renewal.now()
		var found *clientv3.TxnResponse
		err := a.ask(ctx, func(ctx context.Context) (err error) {
			found, err = a.kv.Txn(ctx).Then(clientv3.OpGet(wants, clientv3.WithPrefix()), clientv3.OpGet(record, clientv3.WithKeysOnly()),
				clientv3.OpGet(shards, clientv3.WithPrefix()), clientv3.OpGet(a.keys.generation())).Commit()
			return err
		})
		if err != nil {
			return
		}
		var of generationRecord
		if _, err := take(answer(found, 3), &of); err != nil {
			return
		}
		others := map[string]bool{}
		for _, it := range answer(found, 0).Kvs {
			a.recall(t, others, string(it.Key), true)
		}
		defer t.others.Store(0)
		from := clientv3.WithRev(found.Header.Revision + 1)
		t.seeNothing(of)
		for _, number := range []int{1, 2} {
			for _, it := range answer(found, number).Kvs {
				a.change(t, it, true)
			}
		}
		t.wakeWaiting()
		a.events(ctx, renewed, func(it *clientv3.Event) {
			if key := string(it.Kv.Key); strings.HasPrefix(key, wants) {
				a.recall(t, others, key, it.Type == mvccpb.PUT)
			} else {
				a.change(t, it.Kv, it.Type == mvccpb.PUT)
				t.wakeWaiting()
			}
		}, a.config.Client.Watch(ctx, record, from), a.config.Client.Watch(ctx, shards, from, clientv3.WithPrefix()),
			a.config.Client.Watch(ctx, wants, from, clientv3.WithPrefix()))
	})
}

// The tenant's record, or one of its shards, has this revision.
func (a *Agent) change(t *tenant, it *mvccpb.KeyValue, isThere bool) {
	_, parts := a.keys.parts(string(it.Key))
	if len(parts) != 2 {
		if it.ModRevision > t.seen.Load() {
			t.seen.Store(it.ModRevision)
		}
		return
	}
	number, isShard := shardOf(parts[1])
	if !isShard {
		return
	}
	var record shardRecord
	if isThere {
		_, err := takeOne(it, &record)
		isThere = err == nil
	}
	t.mutex.Lock()
	defer t.mutex.Unlock()
	if it.ModRevision > t.told.shards[number].revision {
		t.told.shards[number] = toldShard{knownShard{record.Free, it.ModRevision}, !isThere}
	}
}

// As a watch begins, in a generation: what an earlier one has told may be of before a restore.
func (t *tenant) seeNothing(of generationRecord) {
	t.seen.Store(0)
	t.mutex.Lock()
	defer t.mutex.Unlock()
	t.told = told{of, map[int]toldShard{}}
}

// Another store waits for room, or no longer.
func (a *Agent) recall(t *tenant, others map[string]bool, key string, isWaiting bool) {
	_, parts := a.keys.parts(key)
	if len(parts) != 2 || parts[1] == a.store {
		return
	}
	mark(others, parts[1], isWaiting)
	t.others.Store(int64(len(others)))
	if isWaiting {
		t.wake()
	}
}

// Follows which stores have joined, whether this one is drained, and the generation.
func (a *Agent) followStores() {
	joined, drained, generation := a.keys.joined(""), a.keys.drained(a.store), a.keys.generation()
	a.watching(func(ctx context.Context) {
		renewed := a.renewal.now()
		var found *clientv3.TxnResponse
		err := a.ask(ctx, func(ctx context.Context) (err error) {
			found, err = a.kv.Txn(ctx).Then(clientv3.OpGet(joined, clientv3.WithPrefix(), clientv3.WithKeysOnly()),
				clientv3.OpGet(drained, clientv3.WithCountOnly()), clientv3.OpGet(generation)).Commit()
			return err
		})
		if err != nil {
			return
		}
		stores := map[string]bool{}
		for _, it := range answer(found, 0).Kvs {
			stores[string(it.Key)] = true
		}
		a.arrange(stores)
		a.drain(answer(found, 1).Count > 0)
		for _, it := range answer(found, 2).Kvs {
			a.compareGeneration(it)
		}
		from := clientv3.WithRev(found.Header.Revision + 1)
		a.events(ctx, renewed, func(it *clientv3.Event) {
			isPut := it.Type == mvccpb.PUT
			switch key := string(it.Kv.Key); {
			case key == drained:
				a.drain(isPut)
				return
			case key == generation:
				a.compareGeneration(it.Kv)
				return
			case isPut:
				stores[key] = true
			default:
				delete(stores, key)
				a.lack(key)
			}
			a.arrange(stores)
		}, a.config.Client.Watch(ctx, joined, from, clientv3.WithPrefix()), a.config.Client.Watch(ctx, drained, from),
			a.config.Client.Watch(ctx, generation, from))
	})
}

// How many stores there are, and how many come before this one.
func (a *Agent) arrange(stores map[string]bool) {
	own, place := a.keys.joined(a.store), int64(0)
	for it := range stores {
		if it < own {
			place++
		}
	}
	a.stores.Store(int64(len(stores)))
	a.place.Store(place)
}

// Where the generation isn't the one in which the store has joined, who joins finds out why.
func (a *Agent) compareGeneration(it *mvccpb.KeyValue) {
	if of := a.generation.Load(); string(it.Value) != of.text {
		a.look(of, errGeneration)
		a.wakeJoin()
	}
}

// A store's record of having joined is gone. Where it is this one's, who joins finds out why.
func (a *Agent) lack(key string) {
	if key == a.keys.joined(a.store) {
		a.look(a.generation.Load(), errNotJoined)
	}
}

func (a *Agent) drain(isDrained bool) {
	if a.isDrained.Swap(isDrained) == isDrained {
		return
	}
	for _, t := range a.tenants {
		t.wake()
	}
}

// Tells that the agent answers, under a lease, and what its store is charged.
func (a *Agent) present() {
	for a.isAlive() {
		lease, err := a.lease()
		if err != nil {
			a.sleep(pause)
			continue
		}
		alive, err := a.config.Client.KeepAlive(a.ctx, lease)
		if err != nil {
			a.sleep(pause)
			continue
		}
		a.leased.Store(int64(lease))
		a.report(lease, alive)
		a.leased.Store(0)
		a.revoke(lease)
	}
}

func (a *Agent) lease() (clientv3.LeaseID, error) {
	var lease clientv3.LeaseID
	err := a.ask(a.ctx, func(ctx context.Context) error {
		granted, err := a.config.Client.Grant(ctx, int64(a.config.Lease/time.Second))
		if err == nil {
			lease = granted.ID
		}
		return err
	})
	return lease, err
}

// A lease that isn't needed any more ends by itself too.
func (a *Agent) revoke(lease clientv3.LeaseID) {
	ctx, cancel := context.WithTimeout(context.Background(), time.Second)
	defer cancel()
	a.config.Client.Revoke(ctx, lease)
}

// Tells it at the beginning, where it has changed, and else once in a while, until the lease or the agent ends.
func (a *Agent) report(lease clientv3.LeaseID, alive <-chan *clientv3.LeaseKeepAliveResponse) {
	var last map[string]use
	timer := time.NewTicker(a.config.Report)
	defer timer.Stop()
	for quiet := 0; ; quiet++ {
		if quotas, err := a.config.Store.Quotas(a.ctx); err == nil {
			now := a.uses(quotas)
			if last == nil || quiet >= mostQuiet || !areEqual(last, now) {
				record := presence{a.config.Node, time.Now().UnixMilli(), now}
				err := a.ask(a.ctx, func(ctx context.Context) error { return a.tellPresence(ctx, record, lease) })
				if err == nil {
					last, quiet = now, 0
				}
			}
		}
		for isTick := false; !isTick; {
			select {
			case _, isOpen := <-alive:
				if !isOpen {
					return
				}
			case <-timer.C:
				isTick = true
			case <-a.ctx.Done():
				return
			case <-a.ended:
				return
			}
		}
	}
}

// Tells it in whatever generation. It finds out where that is another one than the agent's.
func (a *Agent) tellPresence(ctx context.Context, record presence, lease clientv3.LeaseID) error {
	of := a.generation.Load()
	tell := clientv3.OpPut(a.keys.present(a.store), text(record), clientv3.WithLease(lease))
	r, err := a.commit(ctx, of, []clientv3.Cmp{of.isCurrent(a.keys)}, []clientv3.Op{tell}, []clientv3.Op{tell})
	if err == nil && !r.Succeeded || errors.Is(err, errGeneration) {
		a.look(of, errGeneration)
		err = nil
	}
	return err
}

// How many reports are left out where nothing has changed.
const mostQuiet = 6

func (a *Agent) uses(quotas map[string]pibroulez.Quota) map[string]use {
	uses := map[string]use{}
	for name := range a.tenants {
		uses[name] = use{quotas[name].Charged, quotas[name].Limit}
	}
	return uses
}

func areEqual(a, b map[string]use) bool {
	for name, it := range a {
		if b[name] != it {
			return false
		}
	}
	return len(a) == len(b)
}

// Tells others that this store waits for room, once for all charges that do. What it answers takes it back.
func (a *Agent) wait(ctx context.Context, t *tenant, need Usage) (withdraw func()) {
	t.mutex.Lock()
	t.waits++
	isFirst := t.waits == 1
	t.mutex.Unlock()
	key := a.keys.want(t.name, a.store)
	if isFirst {
		a.count(func(m *Metrics) { m.Recalls++ })
		var options []clientv3.OpOption
		if lease := a.leased.Load(); lease != 0 {
			options = append(options, clientv3.WithLease(clientv3.LeaseID(lease)))
		}
		a.ask(ctx, func(ctx context.Context) error {
			_, err := a.kv.Put(ctx, key, text(wantRecord{need}), options...)
			return err
		})
	}
	return func() {
		t.mutex.Lock()
		t.waits--
		isLast := t.waits == 0
		t.mutex.Unlock()
		if isLast {
			// Beside the caller, whose context may have ended. The call that it is of keeps the agent from being closed.
			a.start(func() {
				a.ask(a.ctx, func(ctx context.Context) error {
					_, err := a.kv.Delete(ctx, key)
					return err
				})
			})
		}
	}
}

// What is told of a tenant's refusals, read from etcd at most once a second.
type rooms struct {
	turn chan struct{}
	of   map[string]*snapshot
}

// The refusal of a charge, with what is told of the cluster's room. Where the agent has come to an end or is closed, or the
// context has ended, it is that.
func (a *Agent) refused(ctx context.Context, t *tenant, need Usage, cause error) error {
	select {
	case <-a.ended:
		return a.end
	default:
	}
	switch {
	case ctx.Err() != nil:
		return ctx.Err()
	case a.ctx.Err() != nil:
		return ErrClosed
	case cause == errShort:
		cause = nil
	}
	refused := &Refused{Tenant: t.name, Need: need, Idle: map[string]Usage{}, Cause: cause}
	quota, err := a.config.Store.Quota(ctx, t.name)
	if err != nil {
		return err
	}
	refused.Idle[a.config.Node] = quota.Free
	if !errors.Is(cause, EtcdAway) {
		if room, err := a.room(ctx, t.name); err == nil {
			a.tellRoom(refused, room)
		}
	}
	return refused
}

func (a *Agent) tellRoom(refused *Refused, room *snapshot) {
	refused.Limit, refused.Free = room.tenants[refused.Tenant].Limit, room.freeOf(refused.Tenant)
	hasRoom := false
	for store, it := range room.present {
		if store == a.store {
			continue
		}
		told := it.Use[refused.Tenant]
		idle := minus(told.Bound, told.Charged)
		refused.Idle[it.Node] = plus(refused.Idle[it.Node], idle)
		hasRoom = hasRoom || covers(idle, refused.Need)
	}
	for _, grants := range room.grants {
		refused.Unanswered = plus(refused.Unanswered, grants[refused.Tenant].Grant)
	}
	if hasRoom {
		a.count(func(m *Metrics) { m.RefusalsWithRoom++ })
	}
}

// The tenant's record, which agents answer and what they have told, and the grants of those that don't.
func (a *Agent) room(ctx context.Context, tenant string) (*snapshot, error) {
	select {
	case a.rooms.turn <- struct{}{}:
		defer func() { <-a.rooms.turn }()
	case <-ctx.Done():
		return nil, ctx.Err()
	}
	if found := a.rooms.of[tenant]; found != nil && time.Since(found.now) < time.Second {
		return found, nil
	}
	found := newSnapshot()
	err := a.get(ctx, found, clientv3.OpGet(a.keys.tenant(tenant)), clientv3.OpGet(a.keys.shards(tenant), clientv3.WithPrefix()),
		clientv3.OpGet(a.keys.present(""), clientv3.WithPrefix()), clientv3.OpGet(a.keys.joined(""), clientv3.WithPrefix()))
	var silent []clientv3.Op
	for store := range found.joined {
		if _, answers := found.present[store]; !answers && store != a.store {
			silent = append(silent, clientv3.OpGet(a.keys.grant(store, tenant)))
		}
	}
	for ; err == nil && len(silent) > 0; silent = silent[least(len(silent), mostOps):] {
		err = a.get(ctx, found, silent[:least(len(silent), mostOps)]...)
	}
	if err != nil {
		return nil, err
	}
	a.rooms.of[tenant] = found
	return found, nil
}

// How many operations a transaction of etcd has at most, as it is configured where nothing is said.
const mostOps = 128

func least(a, b int) int {
	if a < b {
		return a
	}
	return b
}

// Reads what these ask for, as of one revision.
func (a *Agent) get(ctx context.Context, into *snapshot, ops ...clientv3.Op) error {
	return a.ask(ctx, func(ctx context.Context) error {
		r, err := a.kv.Txn(ctx).Then(ops...).Commit()
		if err != nil {
			return err
		}
		for number := range r.Responses {
			for _, it := range answer(r, number).Kvs {
				if err := into.put(a.keys, string(it.Key), it.Value); err != nil {
					return err
				}
			}
		}
		return nil
	})
}

package cluster

import (
	"context"
	"encoding/json"
	"errors"
	"fmt"
	"sync/atomic"

	"go.etcd.io/etcd/clientv3"
	"go.etcd.io/etcd/mvcc/mvccpb"
)

// transactions are those that write what grants depend on, in etcd: join, grant, limit and forget; and where etcd was
// restored, next, register and sum, of generations.go. Nothing else does.
type transactions struct {
	kv   clientv3.KV
	keys keys
	// The greatest revision that etcd has answered, and whether it has answered an earlier one to what was asked later.
	floor  atomic.Int64
	isBack atomic.Bool
}

// Why a transaction wasn't carried out.
var (
	// A key was changed meanwhile. What is known is as it is now.
	errLost = errors.New("a key was changed meanwhile")
	// There is no record that the store has joined.
	errNotJoined = errors.New("there is no record that the store has joined")
	// The generation is another one, or it isn't open.
	errGeneration = errors.New("the generation of grants is another one")
	// The shards aren't those that the tenant's record says.
	errShards = errors.New("the shards aren't those of the tenant's record")
)

func isThere(key string) clientv3.Cmp { return clientv3.Compare(clientv3.CreateRevision(key), ">", 0) }
func isGone(key string) clientv3.Cmp  { return clientv3.Compare(clientv3.CreateRevision(key), "=", 0) }

func isOf(key string, revision int64) clientv3.Cmp {
	return clientv3.Compare(clientv3.ModRevision(key), "=", revision)
}

func put(key string, record any) clientv3.Op { return clientv3.OpPut(key, text(record)) }

// The answer to the operation of this number.
func answer(r *clientv3.TxnResponse, number int) *clientv3.GetResponse {
	return (*clientv3.GetResponse)(r.Responses[number].GetResponseRange())
}

// Takes the one record of an answer. Its revision, or 0 where there is none.
func take(r *clientv3.GetResponse, record any) (int64, error) {
	if len(r.Kvs) == 0 {
		return 0, nil
	}
	return takeOne(r.Kvs[0], record)
}

func takeOne(it *mvccpb.KeyValue, record any) (int64, error) {
	if err := json.Unmarshal(it.Value, record); err != nil {
		return 0, &BadRecord{string(it.Key), err}
	}
	return it.ModRevision, nil
}

// Makes a transaction in a generation, or in whatever one where that is nil. Its answer is errGeneration where etcd was
// restored since the generation began.
func (t *transactions) commit(ctx context.Context, of *generation, ifs []clientv3.Cmp, thens, elses []clientv3.Op) (*clientv3.TxnResponse, error) {
	floor := t.floor.Load()
	r, err := t.kv.Txn(ctx).If(ifs...).Then(thens...).Else(elses...).Commit()
	if err != nil {
		return nil, err
	}
	t.see(r.Header.Revision, floor)
	if of != nil && (t.isBack.Load() || clusterOf(r) != of.Cluster) {
		return nil, errGeneration
	}
	return r, nil
}

// Sees the revision of an answer to what was asked when etcd was at `floor` at least.
func (t *transactions) see(revision, floor int64) {
	if revision < floor {
		t.isBack.Store(true)
		t.floor.Store(revision)
		return
	}
	for last := t.floor.Load(); last < revision && !t.floor.CompareAndSwap(last, revision); {
		last = t.floor.Load()
	}
}

// The id of etcd's cluster.
func clusterOf(r *clientv3.TxnResponse) string { return fmt.Sprintf("%016x", r.Header.ClusterId) }

// Reads a tenant's record and pool and a store's grant, as of one revision that is at least each one answered before.
func (t *transactions) read(ctx context.Context, of *generation, store, tenant string, k *known) error {
	k.isFresh = false
	joined := t.keys.joined(store)
	r, err := t.commit(ctx, of, []clientv3.Cmp{isThere(joined), of.isCurrent(t.keys)}, t.keys.reads(store, tenant),
		[]clientv3.Op{clientv3.OpGet(joined, clientv3.WithCountOnly())})
	switch {
	case err != nil:
		return err
	case r.Succeeded:
		return k.take(r, 0, t.keys)
	case answer(r, 0).Count == 0:
		return errNotJoined
	}
	return errGeneration
}

// join writes that a store has joined in an open generation, where it hasn't and was not forgotten. Whether it was written
// now, and else in which generation.
func (t *transactions) join(ctx context.Context, of *generation, store, node string) (isNew bool, generation uint64, err error) {
	joined, forgotten := t.keys.joined(store), t.keys.forgotten(store)
	record := joinRecord{node, of.Number}
	r, err := t.commit(ctx, of, []clientv3.Cmp{isGone(joined), isGone(forgotten), of.isCurrent(t.keys)}, []clientv3.Op{put(joined, record)},
		[]clientv3.Op{clientv3.OpGet(joined), clientv3.OpGet(forgotten, clientv3.WithCountOnly())})
	switch {
	case err != nil:
		return false, 0, err
	case r.Succeeded:
		return true, of.Number, nil
	case answer(r, 1).Count > 0:
		return false, 0, Forgotten
	}
	revision, err := take(answer(r, 0), &record)
	if err == nil && revision == 0 {
		err = errGeneration
	}
	return false, record.Generation, err
}

// grant sets a store's grant, and what is free or owed with it, which may be granted by what is known. Where it is errLost
// nothing was written, and what is known is as it is now. By any other error of etcd it may have been written, or may still
// be.
func (t *transactions) grant(ctx context.Context, of *generation, store, tenant string, home int, k *known, next grantRecord) error {
	plan := k.plan(next.Grant, home)
	grantKey, joined := t.keys.grant(store, tenant), t.keys.joined(store)
	ifs := []clientv3.Cmp{of.isCurrent(t.keys), isOf(t.keys.tenant(tenant), k.tenantRev), isOf(grantKey, k.grantRev), isThere(joined)}
	thens := []clientv3.Op{put(grantKey, next)}
	for at, free := range plan.free {
		key := t.keys.shard(tenant, at)
		ifs, thens = append(ifs, isOf(key, k.shards[at].revision)), append(thens, put(key, shardRecord{free}))
	}
	record := k.tenant
	if record.Debt = plan.debt; plan.isPaid {
		thens = append(thens, put(t.keys.tenant(tenant), record))
	}
	k.isFresh = false
	r, err := t.commit(ctx, of, ifs, thens, append(t.keys.reads(store, tenant),
		clientv3.OpGet(joined, clientv3.WithCountOnly()), clientv3.OpGet(t.keys.generation())))
	switch {
	case err != nil:
		return err
	case r.Succeeded:
		k.wrote(plan, record, next, r.Header.Revision)
		return nil
	case answer(r, 3).Count == 0:
		return errNotJoined
	case !of.isIn(answer(r, 4)):
		return errGeneration
	}
	if err := k.take(r, 0, t.keys); err != nil {
		return err
	}
	return errLost
}

// What is known once a plan was carried out.
func (k *known) wrote(plan plan, record tenantRecord, grant grantRecord, revision int64) {
	for at, free := range plan.free {
		k.shards[at] = knownShard{free, revision}
	}
	if plan.isPaid {
		k.tenant, k.tenantRev = record, revision
	}
	k.grant, k.grantRev, k.isFresh = grant, revision, true
}

// limit gives a tenant another record, by what it is now, and divides anew what is free. A change that isn't to be is its
// error. A tenant that isn't there has a limit of 0, and no shards.
func (t *transactions) limit(ctx context.Context, tenant string, change func(*tenantRecord) error) error {
	of, err := t.open(ctx)
	if err != nil {
		return err
	}
	var k known
	for {
		if err := t.still(ctx, of, tenant, &k); err != nil {
			return restored(err)
		}
		next := k.tenant
		if err := change(&next); err != nil {
			return err
		}
		ifs, thens := t.divided(tenant, &k, next)
		ifs = append(ifs, isOf(t.keys.tenant(tenant), k.tenantRev), of.isCurrent(t.keys))
		w, err := t.commit(ctx, of, ifs, thens, []clientv3.Op{clientv3.OpGet(t.keys.generation())})
		if err != nil || w.Succeeded {
			return restored(err)
		}
		if !of.isIn(answer(w, 0)) {
			return ErrRestored
		}
	}
}

// still reads a tenant's record and shards. Where they were read before, it writes the record as it is, which voids all
// grants under way: where stores take from each shard all the time, nobody else would find all as they were read.
func (t *transactions) still(ctx context.Context, of *generation, tenant string, k *known) (err error) {
	key, reads := t.keys.tenant(tenant), t.keys.reads("", tenant)[:2]
	ifs, thens := []clientv3.Cmp{of.isCurrent(t.keys)}, reads
	if k.tenantRev != 0 {
		ifs, thens = append(ifs, isOf(key, k.tenantRev)), append([]clientv3.Op{put(key, k.tenant)}, reads...)
	}
	r, err := t.commit(ctx, of, ifs, thens, reads)
	if err != nil {
		return err
	}
	*k = known{}
	first := len(r.Responses) - len(reads)
	if k.tenantRev, err = take(answer(r, first), &k.tenant); err == nil && k.tenantRev != 0 {
		k.shards, err = takeShards(answer(r, first+1), t.keys, k.tenant.Shards)
	}
	return err
}

// divide keeps what is free of a tenant in this number of shards, for a store that has joined. It is a transaction of a limit, with
// the one that there is. Where it is errLost nothing was written.
func (t *transactions) divide(ctx context.Context, of *generation, store, tenant string, k *known, shards int) error {
	next, joined := k.tenant, t.keys.joined(store)
	next.Shards = shards
	ifs, thens := t.divided(tenant, k, next)
	ifs = append(ifs, isOf(t.keys.tenant(tenant), k.tenantRev), of.isCurrent(t.keys), isThere(joined))
	k.isFresh = false
	r, err := t.commit(ctx, of, ifs, thens, []clientv3.Op{clientv3.OpGet(joined, clientv3.WithCountOnly()), clientv3.OpGet(t.keys.generation())})
	switch {
	case err != nil || r.Succeeded:
		return err
	case answer(r, 0).Count == 0:
		return errNotJoined
	case !of.isIn(answer(r, 1)):
		return errGeneration
	}
	return errLost
}

// What writes a tenant's record and each of its shards, as the next record has them.
func (t *transactions) divided(tenant string, k *known, next tenantRecord) (ifs []clientv3.Cmp, thens []clientv3.Op) {
	record, parts := dividedOf(next.Limit, k.granted(), next.Shards)
	thens = []clientv3.Op{put(t.keys.tenant(tenant), record)}
	for i := 0; i < len(k.shards) || i < len(parts); i++ {
		key, revision := t.keys.shard(tenant, i), int64(0)
		if i < len(k.shards) {
			revision = k.shards[i].revision
		}
		if ifs = append(ifs, isOf(key, revision)); i < len(parts) {
			thens = append(thens, put(key, parts[i]))
		} else {
			thens = append(thens, clientv3.OpDelete(key))
		}
	}
	return ifs, thens
}

// forget takes a store out: first its record of having joined, so that none of its transactions is carried out from then
// on, and then its grants, each with what is free. It may be called again where it has ended with an error. What was freed.
func (t *transactions) forget(ctx context.Context, store string) (map[string]Usage, error) {
	of, err := t.current(ctx, 0)
	if err != nil {
		return nil, err
	}
	if of.Phase == isSumming {
		return nil, ErrRestored
	}
	if err := t.mark(ctx, store); err != nil {
		return nil, err
	}
	r, err := t.kv.Get(ctx, t.keys.grantsOf(store), clientv3.WithPrefix(), clientv3.WithKeysOnly())
	if err != nil {
		return nil, err
	}
	freed := map[string]Usage{}
	for _, it := range r.Kvs {
		_, parts := t.keys.parts(string(it.Key))
		if len(parts) != 2 {
			continue
		}
		if freed[parts[1]], err = t.free(ctx, of, store, parts[1]); err != nil {
			return freed, restored(err)
		}
	}
	return freed, nil
}

// Marks a store as forgotten, where it has joined and its agent doesn't answer, unless it is marked already.
func (t *transactions) mark(ctx context.Context, store string) error {
	joined, forgotten, present := t.keys.joined(store), t.keys.forgotten(store), t.keys.present(store)
	r, err := t.commit(ctx, nil, []clientv3.Cmp{isThere(joined), isGone(present)},
		[]clientv3.Op{clientv3.OpDelete(joined), clientv3.OpPut(forgotten, "{}")},
		[]clientv3.Op{clientv3.OpGet(joined, clientv3.WithCountOnly()), clientv3.OpGet(forgotten, clientv3.WithCountOnly())})
	switch {
	case err != nil || r.Succeeded:
		return err
	case answer(r, 0).Count > 0:
		return ErrAnswers
	case answer(r, 1).Count == 0:
		return ErrNoStore
	}
	return nil
}

// Takes the grant of a store that was marked as forgotten. In a closed generation it counts for nothing.
func (t *transactions) free(ctx context.Context, of *generation, store, tenant string) (Usage, error) {
	grantKey := t.keys.grant(store, tenant)
	for {
		r, err := t.commit(ctx, of, nil, t.keys.reads(store, tenant), nil)
		if err != nil {
			return Usage{}, err
		}
		var k known
		if err := k.take(r, 0, t.keys); err != nil && !(of.Phase == isClosed && errors.Is(err, ErrNoTenant)) {
			return Usage{}, err
		}
		if k.isFresh && k.grantRev == 0 {
			return Usage{}, nil
		}
		ifs := []clientv3.Cmp{isThere(t.keys.forgotten(store)), isGone(t.keys.joined(store)), of.isCurrent(t.keys)}
		thens := []clientv3.Op{clientv3.OpDelete(grantKey)}
		if of.Phase == isOpen {
			ifs, thens = t.freed(tenant, &k, append(ifs, isOf(grantKey, k.grantRev)), thens)
		}
		w, err := t.commit(ctx, of, ifs, thens, []clientv3.Op{clientv3.OpGet(t.keys.generation())})
		if err != nil || w.Succeeded {
			return k.grant.Grant, err
		}
		if !of.isIn(answer(w, 0)) {
			return Usage{}, errGeneration
		}
	}
}

// What writes a tenant's pool with a grant given back.
func (t *transactions) freed(tenant string, k *known, ifs []clientv3.Cmp, thens []clientv3.Op) ([]clientv3.Cmp, []clientv3.Op) {
	plan := k.plan(Usage{}, int(k.grantRev)%len(k.shards))
	ifs = append(ifs, isOf(t.keys.tenant(tenant), k.tenantRev))
	for at, free := range plan.free {
		key := t.keys.shard(tenant, at)
		ifs, thens = append(ifs, isOf(key, k.shards[at].revision)), append(thens, put(key, shardRecord{free}))
	}
	if plan.isPaid {
		record := k.tenant
		record.Debt = plan.debt
		thens = append(thens, put(t.keys.tenant(tenant), record))
	}
	return ifs, thens
}

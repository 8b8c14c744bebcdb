package cluster

import (
	"go.etcd.io/etcd/clientv3"

	"pibroulez.example/pibroulez/cluster/rules"
)

// MostShards is how many shards a tenant's pool has at most: a transaction that writes them all is within what etcd
// takes.
const MostShards = 64

// What is known of a tenant, of its pool and of a store's grant, each as of some revision. A revision of 0 is of a key that
// isn't there.
type known struct {
	tenant    tenantRecord
	tenantRev int64
	shards    []knownShard
	grant     grantRecord
	grantRev  int64
	// As of which revision all was read.
	read int64
	// Whether nothing is known that is later.
	isFresh bool
}

type knownShard struct {
	free     Usage
	revision int64
}

// What a watch has told of a tenant's shards, in a generation.
type told struct {
	of     generationRecord
	shards map[int]toldShard
}

type toldShard struct {
	knownShard
	isGone bool
}

// Takes what a watch has told of shards since they were read: no transaction is carried out in which one isn't as it is
// known to be. The greatest revision of these, and whether it was all: what is told of another generation, or of another
// number of shards, has to be read.
func (k *known) hear(told *told, of *generation) (latest int64, isAll bool) {
	for at, it := range told.shards {
		switch {
		case it.revision <= k.read || at < len(k.shards) && it.revision <= k.shards[at].revision:
			continue
		case at >= len(k.shards) || it.isGone || !of.isSame(told.of):
			return latest, false
		}
		k.shards[at] = it.knownShard
		if latest < it.revision {
			latest = it.revision
		}
	}
	return latest, true
}

// What is free in all shards.
func (k *known) free() (free Usage) {
	for _, it := range k.shards {
		free = plus(free, it.free)
	}
	return free
}

// The sum of all grants.
func (k *known) granted() Usage { return grantedOf(k.tenant, k.free()) }

func grantedOf(tenant tenantRecord, free Usage) Usage {
	return minus(plus(tenant.Limit, tenant.Debt), free)
}

// A plan is what a transaction writes of a tenant: what is free in shards, and its debt, where it pays some.
type plan struct {
	free   map[int]Usage
	debt   Usage
	isPaid bool
}

// The plan of a grant that may be granted. It takes from the store's own shard what that has, and from the next ones the
// rest; what it gives back pays the debt first, and is free in the store's own shard then. A shard is always written.
func (k *known) plan(to Usage, home int) plan {
	more, back := minus(to, k.grant.Grant), minus(k.grant.Grant, to)
	paid := each(k.tenant.Debt, back, rules.Paid)
	p := plan{map[int]Usage{}, minus(k.tenant.Debt, paid), paid != Usage{}}
	for i := range k.shards {
		at := (home + i) % len(k.shards)
		took := smaller(more, k.shards[at].free)
		if took != (Usage{}) {
			p.free[at] = minus(k.shards[at].free, took)
			more = minus(more, took)
		}
	}
	if back = minus(back, paid); back != (Usage{}) || len(p.free) == 0 {
		if _, isThere := p.free[home]; !isThere {
			p.free[home] = k.shards[home].free
		}
		p.free[home] = plus(p.free[home], back)
	}
	return p
}

// Takes what etcd has answered to `reads`, beginning with the operation of this number.
func (k *known) take(r *clientv3.TxnResponse, number int, keys keys) (err error) {
	var now known
	if now.tenantRev, err = take(answer(r, number), &now.tenant); err != nil {
		return err
	}
	if now.tenantRev == 0 {
		return ErrNoTenant
	}
	if now.shards, err = takeShards(answer(r, number+1), keys, now.tenant.Shards); err != nil {
		return err
	}
	if now.grantRev, err = take(answer(r, number+2), &now.grant); err != nil {
		return err
	}
	now.isFresh, now.read = true, r.Header.Revision
	*k = now
	return nil
}

// What known.take takes.
func (k keys) reads(store, tenant string) []clientv3.Op {
	return []clientv3.Op{
		clientv3.OpGet(k.tenant(tenant)), clientv3.OpGet(k.shards(tenant), clientv3.WithPrefix()), clientv3.OpGet(k.grant(store, tenant)),
	}
}

// All shards that a tenant's pool has.
func takeShards(r *clientv3.GetResponse, keys keys, count int) ([]knownShard, error) {
	if count < 1 || count > MostShards || len(r.Kvs) != count {
		return nil, &BadRecord{keys.tenants(), errShards}
	}
	shards := make([]knownShard, count)
	for _, it := range r.Kvs {
		_, parts := keys.parts(string(it.Key))
		number, isShard := 0, false
		if len(parts) == 2 {
			number, isShard = shardOf(parts[1])
		}
		if !isShard || number >= count {
			return nil, &BadRecord{string(it.Key), errShards}
		}
		var record shardRecord
		revision, err := takeOne(it, &record)
		if err != nil {
			return nil, err
		}
		shards[number] = knownShard{record.Free, revision}
	}
	return shards, nil
}

// The pool of a tenant with a limit of which this much is granted, in this many shards.
func dividedOf(limit, granted Usage, shards int) (tenantRecord, []shardRecord) {
	free, debt := minus(limit, granted), minus(granted, limit)
	parts := make([]shardRecord, shards)
	for i := range parts {
		part := func(free uint64) uint64 { return rules.Part(free, uint64(shards), uint64(i)) }
		parts[i].Free = Usage{Blocks: part(free.Blocks), Inodes: part(free.Inodes)}
	}
	return tenantRecord{limit, debt, shards}, parts
}

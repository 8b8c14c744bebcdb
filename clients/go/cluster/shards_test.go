package cluster

import (
	"context"
	"errors"
	"fmt"
	"sync"
	"sync/atomic"
	"testing"

	"pibroulez.example/pibroulez"
)

// A tenant's pool in shards.

// The free blocks and inodes of each shard.
func (w *world) shards(tenant string) []Usage {
	w.t.Helper()
	s := must(w.operator.snapshot(ctx))(w.t)
	all := make([]Usage, len(s.shards[tenant]))
	for number, it := range s.shards[tenant] {
		all[number] = it.Free
	}
	return all
}

// Where a store's own shard is short it takes from the next ones, until all are empty; what is given back goes to its own.
func TestShortShards(t *testing.T) {
	t.Parallel()
	w := newWorld(t)
	isError(t, w.operator.SetShards(ctx, "a", 2), ErrNoTenant)
	w.limit("a", 102, 103)
	isError(t, w.operator.SetShards(ctx, "a", 0), ErrBadShards)
	isError(t, w.operator.SetShards(ctx, "a", MostShards+1), ErrBadShards)
	must(0, w.operator.SetShards(ctx, "a", 4))(t)
	equal(t, w.shards("a"), []Usage{usage(26, 26), usage(26, 26), usage(25, 26), usage(25, 25)})
	small := func(c *Config) { c.Batch = usage(1, 1) }
	one := w.node("one", small).settle()
	must(0, one.take("a", "k", usage(20, 30)))(t)
	must(0, one.take("a", "l", usage(80, 60)))(t)
	equal(t, must(w.operator.Quota(ctx, "a"))(t).Free, usage(1, 12))
	two := w.node("two", small).settle()
	must(0, two.take("a", "k", usage(1, 1)))(t)
	isError(t, two.take("a", "l", usage(2, 1)), pibroulez.ErrOverLimit)
	must(one.st.Discard(ctx, "a", "l"))(t)
	must(0, one.giveBack("a"))(t)
	must(0, two.take("a", "l", usage(80, 70)))(t)
	must(0, w.operator.SetShards(ctx, "a", MostShards))(t)
	equal(t, len(w.shards("a")), MostShards)
	must(0, two.take("a", "m", usage(1, 1)))(t)
	must(0, w.operator.SetShards(ctx, "a", 1))(t)
	free := must(w.operator.Quota(ctx, "a"))(t).Free
	equal(t, w.shards("a"), []Usage{free})
	equal(t, plus(must(w.operator.Quota(ctx, "a"))(t).Granted, free), usage(102, 103))
	equal(t, w.check()["limit"], 4)
}

// A lowering leaves a debt, which givings-back pay first: while there is one nothing is granted from any shard.
func TestDebt(t *testing.T) {
	t.Parallel()
	w := newWorld(t)
	w.limit("a", 100, 100)
	must(0, w.operator.SetShards(ctx, "a", 2))(t)
	small := func(c *Config) { c.Batch = usage(0, 1) }
	one, two := w.node("one", small).settle(), w.node("two", small).settle()
	for i, blocks := range []uint64{20, 30} {
		must(0, one.take("a", fmt.Sprint(i), usage(blocks, 1)))(t)
	}
	must(0, two.take("a", "k", usage(40, 1)))(t)
	equal(t, w.limit("a", 60, 100).Above, usage(30, 0))
	equal(t, w.shards("a")[0].Blocks+w.shards("a")[1].Blocks, uint64(0))
	must(one.st.Discard(ctx, "a", "0"))(t)
	must(0, one.giveBack("a"))(t)
	// 20 of 30 are paid, and the other store gets none of them. Inodes are granted meanwhile.
	equal(t, must(w.operator.Quota(ctx, "a"))(t).Above, usage(10, 0))
	isError(t, two.take("a", "l", usage(1, 1)), pibroulez.ErrOverLimit)
	must(0, two.Charge(ctx, "a", usage(0, 50), func(ctx context.Context) error {
		_, err := two.st.Charge(ctx, "a", "k", usage(40, 51))
		return err
	}))(t)
	must(one.st.Discard(ctx, "a", "1"))(t)
	must(0, one.giveBack("a"))(t)
	quota := must(w.operator.Quota(ctx, "a"))(t)
	equal(t, []uint64{quota.Above.Blocks, quota.Free.Blocks, quota.Granted.Blocks}, []uint64{0, 20, 40})
	must(0, two.take("a", "l", usage(20, 1)))(t)
	isError(t, two.take("a", "m", usage(1, 1)), pibroulez.ErrOverLimit)
	w.check()
}

// Stores at different shards lose no compare to each other, and read nothing again.
func TestShardsDontHinder(t *testing.T) {
	t.Parallel()
	w := newWorld(t)
	w.limit("a", 1000, 1000)
	must(0, w.operator.SetShards(ctx, "a", 2))(t)
	exact := func(c *Config) { c.Batch = usage(0, 1) }
	nodes := []*node{w.node("one", exact).settle(), w.node("two", exact).settle()}
	for _, n := range nodes {
		until(t, "both to be known", func() bool { return n.stores.Load() == 2 })
		must(0, n.take("a", "first", usage(1, 1)))(t)
	}
	equal(t, nodes[0].place.Load()+nodes[1].place.Load(), int64(1))
	before := []Metrics{must(nodes[0].Metrics(ctx))(t), must(nodes[1].Metrics(ctx))(t)}
	for i := 0; i < 10; i++ {
		for _, n := range nodes {
			// A busy machine's etcd may be late.
			until(t, "room", func() bool {
				err := n.take("a", fmt.Sprint(i), usage(3, 1))
				if err != nil {
					isError(t, err, EtcdAway)
				}
				return err == nil
			})
		}
	}
	for i, n := range nodes {
		after := must(n.Metrics(ctx))(t)
		equal(t, after.Raises, before[i].Raises+10)
		if isAnswered := after.Unanswered == before[i].Unanswered; isAnswered {
			equal(t, after.LostCompares, before[i].LostCompares)
			equal(t, after.Reads, before[i].Reads)
		}
	}
	w.check()
}

// A store that loses compares divides the pool further, and then takes from a shard of its own. Each time that it is about
// to write, another one does so before it.
func TestAHinderedStoreDivides(t *testing.T) {
	t.Parallel()
	w := newWorld(t)
	w.limit("a", 1000, 1000)
	exact := func(c *Config) { c.Batch, c.Timeout = usage(0, 1), patience }
	two := w.node("two", exact).settle()
	var hindered atomic.Int64
	client := w.tapped(func(writes map[string]string, _ func() error) bool {
		for key := range writes {
			letter, parts := w.operator.keys.parts(key)
			if letter == "g" && parts[0] != two.Identity() && hindered.Add(1) <= lossesToDivide+1 {
				must(0, two.take("a", fmt.Sprint(hindered.Load()), usage(1, 1)))(t)
			}
		}
		return false
	})
	one := w.node("one", func(c *Config) { exact(c); c.Client = client }).settle()
	until(t, "both to be known", func() bool { return one.stores.Load() == 2 })
	must(0, one.take("a", "k", usage(300, 200)))(t)
	metrics := must(one.Metrics(ctx))(t)
	equal(t, []uint64{metrics.LostCompares, metrics.Divisions}, []uint64{lossesToDivide + 1, 1})
	equal(t, must(w.operator.Quota(ctx, "a"))(t).Shards, 2)
	// There are no more shards than stores, and none that is too small.
	tenant := one.tenants["a"]
	for shards, lacks := range map[int]Usage{2: usage(1, 1), 1: usage(600, 1)} {
		must(0, w.operator.SetShards(ctx, "a", shards))(t)
		must(0, tenant.take(ctx))(t)
		tenant.known.isFresh = false
		must(one.know(ctx, tenant, Usage{}))(t)
		must(0, one.divide(ctx, tenant, lacks))(t)
		tenant.leave()
		equal(t, must(one.Metrics(ctx))(t).Divisions, uint64(1))
	}
	// Nothing is divided by what has changed meanwhile.
	must(0, tenant.take(ctx))(t)
	must(one.know(ctx, tenant, Usage{}))(t)
	must(0, two.take("a", "last", usage(1, 1)))(t)
	isError(t, one.transactions.divide(ctx, one.generation.Load(), one.store, "a", &tenant.known, 2), errLost)
	tenant.leave()
	w.check()
}

// What a watch tells of a shard is taken where it is later than what was read, of the same generation, and of a shard that
// is there.
func TestHear(t *testing.T) {
	t.Parallel()
	of := &generation{generationRecord{format, 2, "c", "m", isOpen}, ""}
	closed, other := of.generationRecord, of.generationRecord
	closed.Phase, other.Mark = isClosed, "n"
	shard := func(revision int64, isGone bool) toldShard {
		return toldShard{knownShard{usage(7, 7), revision}, isGone}
	}
	for name, it := range map[string]struct {
		told   told
		latest int64
		isAll  bool
		free   Usage
	}{
		"nothing":                 {told{}, 0, true, usage(2, 2)},
		"later":                   {told{of.generationRecord, map[int]toldShard{1: shard(11, false)}}, 11, true, usage(8, 8)},
		"in another phase":        {told{closed, map[int]toldShard{1: shard(11, false)}}, 11, true, usage(8, 8)},
		"in another generation":   {told{other, map[int]toldShard{1: shard(11, false)}}, 0, false, usage(2, 2)},
		"as of the read":          {told{of.generationRecord, map[int]toldShard{1: shard(10, false)}}, 0, true, usage(2, 2)},
		"before the last write":   {told{of.generationRecord, map[int]toldShard{0: shard(12, false)}}, 0, true, usage(2, 2)},
		"gone":                    {told{of.generationRecord, map[int]toldShard{1: shard(11, true)}}, 0, false, usage(2, 2)},
		"gone before the read":    {told{of.generationRecord, map[int]toldShard{5: shard(9, true)}}, 0, true, usage(2, 2)},
		"one that wasn't there":   {told{of.generationRecord, map[int]toldShard{2: shard(11, false)}}, 0, false, usage(2, 2)},
		"before the first one":    {told{generationRecord{}, map[int]toldShard{1: shard(11, false)}}, 0, false, usage(2, 2)},
		"of a later one's format": {told{generationRecord{format + 1, 2, "c", "m", isOpen}, map[int]toldShard{1: shard(11, false)}}, 0, false, usage(2, 2)},
	} {
		k := known{shards: []knownShard{{usage(1, 1), 12}, {usage(1, 1), 8}}, read: 10, isFresh: true}
		latest, isAll := k.hear(&it.told, of)
		if latest != it.latest || isAll != it.isAll || k.free() != it.free {
			t.Errorf("%s: %d, %v, %v free", name, latest, isAll, k.free())
		}
	}
}

// A limit is set and a pool divided while stores take from all of its shards all the time.
func TestALimitOfAHotTenant(t *testing.T) {
	t.Parallel()
	w := newWorld(t)
	w.limit("a", 1<<30, 1<<30)
	const count = 8
	must(0, w.operator.SetShards(ctx, "a", count))(t)
	nodes := w.memoryNodes(t, count, func(c *Config) { c.Batch, c.Patience = usage(0, 1<<10), patience })
	hot, cool := context.WithCancel(ctx)
	var group sync.WaitGroup
	defer group.Wait()
	defer cool()
	for i := range nodes {
		n := &nodes[i]
		group.Add(1)
		go func() {
			defer group.Done()
			for hot.Err() == nil {
				if err := n.take(usage(1, 0)); err != nil && !errors.Is(err, EtcdAway) {
					t.Error(err)
					return
				}
			}
		}()
	}
	bounded, cancel := context.WithTimeout(ctx, patience)
	defer cancel()
	for i := uint64(1); i <= 5; i++ {
		must(w.operator.SetLimit(bounded, "a", usage(1<<30+i, 1<<30)))(t)
		must(0, w.operator.SetShards(bounded, "a", count))(t)
	}
	cool()
	group.Wait()
	equal(t, len(must(w.operator.Check(ctx))(t).Faults), 0)
	w.checkHistory(w.history())
}

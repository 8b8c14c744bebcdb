package cluster

import (
	"context"
	"errors"
	"fmt"
	"os"
	"strings"
	"sync"
	"testing"
	"time"

	"go.etcd.io/etcd/clientv3"

	"pibroulez.example/pibroulez"
)

// A client's KV whose transactions are looked at before they are sent. The function may hold one: then it isn't answered,
// and what it hands out sends it later.
type tap struct {
	clientv3.KV
	keys keys
	look func(writes map[string]string, later func() error) (isHeld bool)
}

// A client whose KV can be changed while it is used.
type turnout struct {
	clientv3.KV
	mutex sync.Mutex
}

func (k *turnout) set(to clientv3.KV) {
	k.mutex.Lock()
	defer k.mutex.Unlock()
	k.KV = to
}

func (k *turnout) now() clientv3.KV {
	k.mutex.Lock()
	defer k.mutex.Unlock()
	return k.KV
}

func (k *turnout) Txn(ctx context.Context) clientv3.Txn { return k.now().Txn(ctx) }

func (k *turnout) Get(ctx context.Context, key string, options ...clientv3.OpOption) (*clientv3.GetResponse, error) {
	return k.now().Get(ctx, key, options...)
}

func (k *turnout) Put(ctx context.Context, key, value string, options ...clientv3.OpOption) (*clientv3.PutResponse, error) {
	return k.now().Put(ctx, key, value, options...)
}

// A client of etcd with a tap.
func (w *world) tapped(look func(writes map[string]string, later func() error) bool) *clientv3.Client {
	client := clientv3.NewCtxClient(ctx)
	client.KV, client.Watcher, client.Lease = &tap{w.client.KV, w.operator.keys, look}, w.client.Watcher, w.client.Lease
	return client
}

func (t *tap) Txn(ctx context.Context) clientv3.Txn {
	return &tapTxn{Txn: t.KV.Txn(ctx), tap: t, ctx: ctx}
}

type tapTxn struct {
	clientv3.Txn
	tap   *tap
	ctx   context.Context
	ifs   []clientv3.Cmp
	thens []clientv3.Op
	elses []clientv3.Op
}

func (t *tapTxn) If(all ...clientv3.Cmp) clientv3.Txn  { t.ifs = all; return t }
func (t *tapTxn) Then(all ...clientv3.Op) clientv3.Txn { t.thens = all; return t }
func (t *tapTxn) Else(all ...clientv3.Op) clientv3.Txn { t.elses = all; return t }
func (t *tapTxn) commit(ctx context.Context) (*clientv3.TxnResponse, error) {
	return t.tap.KV.Txn(ctx).If(t.ifs...).Then(t.thens...).Else(t.elses...).Commit()
}

func (t *tapTxn) Commit() (*clientv3.TxnResponse, error) {
	writes := map[string]string{}
	for _, it := range t.thens {
		if it.IsPut() || it.IsDelete() {
			writes[string(it.KeyBytes())] = string(it.ValueBytes())
		}
	}
	later := func() error { _, err := t.commit(context.Background()); return err }
	if len(writes) > 0 && t.tap.look(writes, later) {
		<-t.ctx.Done()
		return nil, t.ctx.Err()
	}
	return t.commit(t.ctx)
}

// The rules, each by its name.

// No limit is raised without a write of the grant since the last lowering. The transaction of a lowering is held until the
// store that sent it has gone on. A variant that doesn't write where it sees that the grant is enough ends with 140 of
// 100 charged, and is no walk of the model.
func TestRuleNoRaiseWithoutAWrite(t *testing.T) {
	for _, isRight := range []bool{true, false} {
		t.Run(fmt.Sprint("right ", isRight), func(t *testing.T) {
			w := newWorld(t)
			w.limit("a", 100, 100)
			var mutex sync.Mutex
			var held []func() error
			isHolding := false
			client := w.tapped(func(_ map[string]string, later func() error) bool {
				mutex.Lock()
				defer mutex.Unlock()
				if isHolding {
					held = append(held, later)
				}
				return isHolding
			})
			hold := func(is bool) { mutex.Lock(); isHolding = is; mutex.Unlock() }
			one := w.node("one", func(c *Config) {
				c.Client, c.Timeout, c.Batch, c.Share, c.tick = client, time.Second, usage(39, 39), 1, time.Hour
				c.isUnwritten = !isRight
			}).settle()
			two := w.node("two", func(c *Config) { c.Batch = usage(1, 1) }).settle()
			must(0, one.take("a", "k", usage(61, 61)))(t)
			equal(t, one.quota("a").Limit, usage(100, 100))
			hold(true)
			err := one.giveBack("a")
			if !errors.Is(err, EtcdAway) {
				t.Fatalf("%v: the transaction wasn't held", err)
			}
			equal(t, one.quota("a").Limit, usage(61, 61))
			hold(false)
			must(0, one.take("a", "l", usage(39, 39)))(t)
			for _, later := range held {
				if err := later(); err != nil {
					t.Fatal(err)
				}
			}
			err = two.take("a", "k", usage(39, 39))
			sum := plus(one.quota("a").Charged, two.quota("a").Charged)
			if isRight {
				if !errors.Is(err, pibroulez.ErrOverLimit) {
					t.Errorf("%v, not refused", err)
				}
				equal(t, sum, usage(100, 100))
				w.check()
				return
			}
			equal(t, sum, usage(139, 139))
			one.close()
			two.close()
			_, err = walk(w.operator.keys, w.history(), w.recorded(), "a", quantities["blocks"])
			if err == nil || !strings.Contains(err.Error(), "no step of the protocol") {
				t.Errorf("%v: a wrong run is taken as a walk", err)
			}
		})
	}
}

// The revision of the first shard as the node knows it, and that its watch hasn't told anything.
func (n *node) knownShard(tenant string) int64 { return n.tenants[tenant].known.shards[0].revision }

// And as its watch has told it.
func (n *node) seenShard(tenant string) int64 {
	t := n.tenants[tenant]
	t.mutex.Lock()
	defer t.mutex.Unlock()
	return t.told.shards[0].revision
}

func (n *node) seenNothing(tenant string) {
	t := n.tenants[tenant]
	t.seeNothing(t.told.of)
}

// Gives back what isn't charged.
func (n *node) giveBack(tenant string) error {
	t := n.tenants[tenant]
	must(0, t.take(ctx))(n.world.t)
	defer t.leave()
	return n.lower(ctx, t, Usage{})
}

// A lowering is in the log before it is sent: whatever grant is sent, the log has a limit that is within it.
func TestRuleALoweringIsInTheLogFirst(t *testing.T) {
	w := newWorld(t)
	w.limit("a", 100, 100)
	log, sends, lowers := "", 0, 0
	client := w.tapped(func(writes map[string]string, _ func() error) bool {
		for key, value := range writes {
			if letter, _ := w.operator.keys.parts(key); letter != "g" {
				continue
			}
			var grant grantRecord
			if _, err := fmt.Sscanf(value, `{"g":[%d,%d]`, &grant.Grant.Blocks, &grant.Grant.Inodes); err != nil {
				t.Error(err)
			}
			last, err := lastOf(log)
			if err != nil {
				t.Error(err)
				continue
			}
			bound := last["a"].Limit
			if !covers(grant.Grant, bound) {
				t.Errorf("%v is sent, and the log has a limit of %v", grant.Grant, bound)
			}
			sends++
			if grant.Grant == bound {
				lowers++
			}
		}
		return false
	})
	one := w.node("one", func(c *Config) { c.Client, c.Batch = client, usage(20, 20); log = c.Node }, "a")
	log = one.log
	one.settle()
	for i := 0; i < 5; i++ {
		must(0, one.take("a", fmt.Sprint(i), usage(10, 2)))(t)
		must(0, one.giveBack("a"))(t)
	}
	if lowers != 5 || sends < 10 {
		t.Errorf("%d of %d transactions were lowerings", lowers, sends)
	}
	w.check()
}

// A node that waits gives its own idle back first. Of a limit of 10 each of two stores is charged 3 and has 2 idle, and
// both want 4 more at once: 4 are there, so one of them gets them.
func TestRuleAWaitingNodeGivesItsOwnIdleBack(t *testing.T) {
	w := newWorld(t)
	w.limit("a", 10, 10)
	var nodes []*node
	for _, name := range []string{"one", "two"} {
		n := w.node(name, func(c *Config) { c.Batch, c.Patience, c.Share = usage(2, 2), time.Minute, 1 }).settle()
		must(0, n.take("a", "k", usage(3, 3)))(t)
		equal(t, n.quota("a").Limit, usage(5, 5))
		nodes = append(nodes, n)
	}
	ends := make(chan error, 2)
	bounded, cancel := context.WithCancel(ctx)
	defer func() { cancel() }()
	// Also where no other one waits: it needs more than there is.
	go func() { ends <- nodes[0].takeUntil(bounded, "a", "l", usage(8, 8)) }()
	until(t, "its own idle to be given back", func() bool { return nodes[0].quota("a").Limit == usage(3, 3) })
	cancel()
	isError(t, <-ends, context.Canceled)
	bounded, cancel = context.WithCancel(ctx)
	must(0, nodes[0].take("a", "m", usage(1, 1)))(t)
	must(nodes[0].st.Discard(ctx, "a", "m"))(t)
	for _, n := range nodes {
		n := n
		go func() { ends <- n.takeUntil(bounded, "a", "l", usage(4, 4)) }()
	}
	must(0, <-ends)(t)
	// The other one would wait on.
	cancel()
	isError(t, <-ends, context.Canceled)
	equal(t, plus(nodes[0].quota("a").Charged, nodes[1].quota("a").Charged), usage(10, 10))
	w.check()
}

// Only the operator's mark says forgotten: a record of having joined that is gone is written again.
func TestRuleOnlyTheMarkSaysForgotten(t *testing.T) {
	w := newWorld(t)
	w.limit("a", 100, 100)
	one := w.node("one", nil).settle()
	must(0, one.take("a", "k", usage(10, 10)))(t)
	store := one.Identity()
	must(w.client.Delete(ctx, w.operator.keys.joined(store)))(t)
	until(t, "a record of having joined", func() bool {
		return must(w.client.Get(ctx, w.operator.keys.joined(store)))(t).Count == 1
	})
	until(t, "serving", func() bool { return one.Status().State == Serving })
	must(0, one.take("a", "l", usage(70, 70)))(t)
	until(t, "that it is present", func() bool {
		return must(w.client.Get(ctx, w.operator.keys.present(store)))(t).Count == 1
	})
	_, err := w.operator.Forget(ctx, Forgetting{Store: store, DataDestroyed: true})
	isError(t, err, ErrAnswers)
	_, err = w.operator.Forget(ctx, Forgetting{Store: store})
	isError(t, err, ErrNotConfirmed)
	equal(t, one.Status().State, Serving)
}

// An agent whose watch has told of a change takes that before it writes, and so loses no compare; where it was the
// tenant's record it reads. One whose watch hasn't loses one compare, and knows then.
func TestRuleAKnownChangeIsTakenFirst(t *testing.T) {
	w := newWorld(t)
	w.limit("a", 100, 100)
	small := func(c *Config) { c.Batch = usage(1, 1) }
	one, two := w.node("one", small).settle(), w.node("two", small).settle()
	must(0, one.take("a", "k", usage(10, 10)))(t)
	for i := 0; i < 5; i++ {
		must(0, two.take("a", fmt.Sprint(i), usage(5, 5)))(t)
		changed := two.knownShard("a")
		until(t, "the change at the watch", func() bool { return one.seenShard("a") >= changed })
		before := must(one.Metrics(ctx))(t)
		must(0, one.take("a", fmt.Sprint(i), usage(5, 5)))(t)
		after := must(one.Metrics(ctx))(t)
		equal(t, after.LostCompares, before.LostCompares)
		equal(t, after.Reads, before.Reads)
		until(t, "the change at the other watch", func() bool {
			return two.seenShard("a") >= one.knownShard("a")
		})
	}
	known := one.tenants["a"].known.tenantRev
	w.limit("a", 200, 200)
	until(t, "the limit at the watch", func() bool { return one.tenants["a"].seen.Load() > known })
	before := must(one.Metrics(ctx))(t)
	must(0, one.take("a", "after", usage(5, 5)))(t)
	equal(t, must(one.Metrics(ctx))(t).LostCompares, before.LostCompares)
	equal(t, must(one.Metrics(ctx))(t).Reads, before.Reads+1)
	// As if the watch hadn't told.
	must(0, two.take("a", "last", usage(5, 5)))(t)
	until(t, "the change at the watch", func() bool { return one.seenShard("a") >= two.knownShard("a") })
	one.seenNothing("a")
	before = must(one.Metrics(ctx))(t)
	must(0, one.take("a", "last", usage(5, 5)))(t)
	equal(t, must(one.Metrics(ctx))(t).LostCompares, before.LostCompares+1)
	w.check()
}

// A raise in one quantity never waits for the other: where the limit in blocks is below what is granted, inodes are
// granted at once, and the other way round.
func TestRuleAQuantityDoesntWaitForTheOther(t *testing.T) {
	w := newWorld(t)
	w.limit("a", 100, 100)
	one := w.node("one", func(c *Config) { c.Batch = usage(1, 1) }).settle()
	two := w.node("two", func(c *Config) { c.Batch = usage(1, 1) }).settle()
	must(0, one.take("a", "k", usage(50, 10)))(t)
	must(0, two.take("a", "k", usage(40, 10)))(t)
	w.limit("a", 20, 100)
	must(0, one.take("a", "l", usage(1, 30)))(t)
	equal(t, one.quota("a").Limit, usage(51, 41))
	w.limit("a", 200, 20)
	must(0, two.take("a", "l", usage(60, 1)))(t)
	err := two.take("a", "m", usage(1, 1))
	isError(t, err, pibroulez.ErrOverLimit)
	equal(t, two.quota("a").Limit.Inodes, uint64(11))
	w.check()
}

// A refusal is by what was read after the charge began, also where the watch is late and nothing is waited for.
func TestRuleALateWatchRefusesNothing(t *testing.T) {
	w := newWorld(t)
	w.limit("a", 100, 100)
	one := w.node("one", func(c *Config) { c.Batch = usage(1, 1) }).settle()
	must(0, one.take("a", "k", usage(50, 10)))(t)
	known := one.knownShard("a")
	w.limit("a", 200, 200)
	until(t, "the change at the watch", func() bool { return one.seenShard("a") > known })
	// As if the watch hadn't told.
	one.seenNothing("a")
	before := must(one.Metrics(ctx))(t)
	must(0, one.take("a", "l", usage(120, 1)))(t)
	equal(t, must(one.Metrics(ctx))(t).Reads, before.Reads+1)
	// What is refused was read once.
	one.seenNothing("a")
	isError(t, one.take("a", "m", usage(120, 1)), pibroulez.ErrOverLimit)
	equal(t, must(one.Metrics(ctx))(t).Reads, before.Reads+2)
	w.check()
}

func isError(t *testing.T, err, want error) {
	t.Helper()
	if !errors.Is(err, want) {
		t.Errorf("%v, not %v", err, want)
	}
}

// Nothing but the four transactions writes what grants depend on, of an agent as of an operator: each revision of all
// tests' histories is of one of them, and here there is one of each.
func TestRuleNothingElseWrites(t *testing.T) {
	w := newWorld(t)
	w.limit("a", 100, 100)
	one := w.node("one", func(c *Config) { c.Patience = 10 * time.Millisecond }).settle()
	must(0, one.take("a", "k", usage(10, 10)))(t)
	isError(t, one.take("a", "l", usage(100, 1)), pibroulez.ErrOverLimit)
	must(0, w.operator.Drain(ctx, "one"))(t)
	must(0, w.operator.Undrain(ctx, "one"))(t)
	store := one.Identity()
	one.close()
	freed := must(w.operator.Forget(ctx, Forgetting{Store: store, DataDestroyed: true}))(t)
	equal(t, fmt.Sprint(freed), "map[a:10/10]")
	freed = must(w.operator.Forget(ctx, Forgetting{Store: store, DataDestroyed: true}))(t)
	equal(t, len(freed), 0)
	kinds := w.check()
	for _, it := range []string{"join", "grant", "limit", "mark", "free"} {
		if kinds[it] == 0 {
			t.Errorf("no %s in %v", it, kinds)
		}
	}
	stranger := revision{1, map[string][]byte{w.prefix + "/g/x/a": {1}}}
	if _, err := stranger.kind(w.operator.keys); err == nil {
		t.Error("a grant that is written alone is taken")
	}
}

// The ends, each by its name.

// An old log ends as LimitAboveGrant at the next settle, before anything is charged: what it had been granted is another
// store's. Its limit is lowered to what is charged.
func TestOldLog(t *testing.T) {
	w := newWorld(t)
	w.limit("a", 100, 100)
	one := w.node("one", func(c *Config) { c.Batch = usage(90, 90); c.Share = 1 }).settle()
	must(0, one.take("a", "k", usage(10, 10)))(t)
	equal(t, one.quota("a").Limit, usage(100, 100))
	kept := must(os.ReadFile(one.log))(t)
	must(0, one.giveBack("a"))(t)
	one.close()
	two := w.node("two", nil).settle()
	must(0, two.take("a", "k", usage(90, 90)))(t)
	must(0, os.WriteFile(one.log, kept, 0o600))(t)
	one.config.Start, one.config.Patience = AfterSettling, 20*time.Second
	one.open()
	isError(t, one.take("a", "l", usage(1, 1)), LimitAboveGrant)
	var end *StateError
	if !errors.As(one.Status().Err, &end) {
		t.Fatal(one.Status())
	}
	equal(t, *end, StateError{State: LimitAboveGrant, Store: one.Identity(), Tenant: "a", Limit: usage(100, 100), Grant: usage(10, 10)})
	until(t, "the limit at what is charged", func() bool { return one.quota("a").Limit == usage(10, 10) })
	isError(t, one.take("a", "l", usage(1, 1)), LimitAboveGrant)
}

// A copied store that runs beside its original: who had the grants ends as Copied once the other has written them.
func TestCopiedStore(t *testing.T) {
	w := newWorld(t)
	w.limit("a", 100, 100)
	one := w.node("one", func(c *Config) { c.Batch = usage(1, 1) }).settle()
	must(0, one.take("a", "k", usage(10, 10)))(t)
	copied := w.node("two", nil, "a")
	copied.close()
	must(0, os.WriteFile(copied.log, must(os.ReadFile(one.log))(t), 0o600))(t)
	copied.open()
	equal(t, copied.Identity(), one.Identity())
	copied.settle()
	isError(t, one.take("a", "l", usage(5, 5)), Copied)
	equal(t, one.Status().State, Copied)
	until(t, "the limit at what is charged", func() bool { return one.quota("a").Limit == usage(10, 10) })
}

// A copy that is older than what its original has given back since.
func TestOldCopy(t *testing.T) {
	w := newWorld(t)
	w.limit("a", 100, 100)
	one := w.node("one", func(c *Config) { c.Batch = usage(1, 1) }).settle()
	must(0, one.take("a", "k", usage(10, 10)))(t)
	kept := must(os.ReadFile(one.log))(t)
	must(one.st.Discard(ctx, "a", "k"))(t)
	must(0, one.giveBack("a"))(t)
	copied := w.node("two", nil, "a")
	copied.close()
	must(0, os.WriteFile(copied.log, kept, 0o600))(t)
	copied.open()
	until(t, "its end", func() bool { return copied.Status().State == LimitAboveGrant })
	isError(t, copied.Status().Err, LimitAboveGrant)
	must(0, one.take("a", "l", usage(5, 5)))(t)
}

// A forgotten store that comes back ends as Forgotten, and what it was granted is others'.
func TestForgottenStoreComesBack(t *testing.T) {
	w := newWorld(t)
	w.limit("a", 100, 100)
	one := w.node("one", nil).settle()
	must(0, one.take("a", "k", usage(90, 90)))(t)
	store := one.Identity()
	one.close()
	must(w.operator.Forget(ctx, Forgetting{Store: store, DataDestroyed: true}))(t)
	two := w.node("two", nil).settle()
	must(0, two.take("a", "k", usage(100, 100)))(t)
	one.open()
	until(t, "its end", func() bool { return one.Status().State == Forgotten })
	<-one.Ended()
	isError(t, one.Status().Err, Forgotten)
	isError(t, one.take("a", "l", usage(1, 1)), Forgotten)
	until(t, "the limit at what is charged", func() bool { return one.quota("a").Limit == usage(90, 90) })
	_, err := w.operator.Forget(ctx, Forgetting{Store: strings.Repeat("0", 32), DataDestroyed: true})
	isError(t, err, ErrNoStore)
	members := must(w.operator.Nodes(ctx))(t)
	forgotten := 0
	for _, it := range members {
		if it.IsForgotten && it.Store == store {
			forgotten++
		}
	}
	equal(t, forgotten, 1)
}

// A forgotten store gets nothing more: neither by a grant that it asked for before and that arrives late.
func TestForgottenStoreGetsNothing(t *testing.T) {
	w := newWorld(t)
	w.limit("a", 100, 100)
	var mutex sync.Mutex
	var held []func() error
	client := w.tapped(func(writes map[string]string, later func() error) bool {
		mutex.Lock()
		defer mutex.Unlock()
		isGrant := false
		for key := range writes {
			letter, _ := w.operator.keys.parts(key)
			isGrant = isGrant || letter == "g"
		}
		if isGrant {
			held = append(held, later)
		}
		return isGrant
	})
	one := w.node("one", func(c *Config) { c.Client, c.Timeout, c.tick = client, 500*time.Millisecond, time.Hour }).settle()
	isError(t, one.take("a", "k", usage(10, 10)), EtcdAway)
	store := one.Identity()
	one.close()
	must(w.operator.Forget(ctx, Forgetting{Store: store, DataDestroyed: true}))(t)
	equal(t, len(held) > 0, true)
	for _, later := range held {
		must(0, later())(t)
	}
	equal(t, must(w.client.Get(ctx, w.operator.keys.grant(store, "a")))(t).Count, int64(0))
	equal(t, must(w.operator.Quota(ctx, "a"))(t).Granted, Usage{})
	w.check()
}

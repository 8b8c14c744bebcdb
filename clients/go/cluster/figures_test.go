package cluster

import (
	"context"
	"errors"
	"fmt"
	"math/rand"
	"os"
	"sort"
	"strconv"
	"strings"
	"sync"
	"sync/atomic"
	"testing"
	"time"

	"go.etcd.io/etcd/clientv3"

	"pibroulez.example/pibroulez"
)

// The figures of README, which benchmarks/cluster prints: each is measured once, whatever b.N is. What doesn't depend on the
// machine has to be so.

// A store in memory, for many nodes on one machine.
type memoryStore struct {
	mutex  sync.Mutex
	quotas map[string]pibroulez.Quota
}

func newMemoryStore(t testing.TB, tenants ...string) *memoryStore {
	m := &memoryStore{quotas: map[string]pibroulez.Quota{}}
	for name := range must(Namespaces(tenants...))(t) {
		m.quotas[name] = pibroulez.Quota{}
	}
	return m
}

func (m *memoryStore) Quota(_ context.Context, namespace string) (pibroulez.Quota, error) {
	m.mutex.Lock()
	defer m.mutex.Unlock()
	return m.quotas[namespace], nil
}

func (m *memoryStore) Quotas(context.Context) (map[string]pibroulez.Quota, error) {
	m.mutex.Lock()
	defer m.mutex.Unlock()
	all := map[string]pibroulez.Quota{}
	for name, it := range m.quotas {
		all[name] = it
	}
	return all, nil
}

func (m *memoryStore) Limit(_ context.Context, namespace string, limit Usage, _ ...pibroulez.Option) error {
	m.mutex.Lock()
	defer m.mutex.Unlock()
	it := m.quotas[namespace]
	if !covers(limit, it.Charged) {
		return pibroulez.ErrBelowCharge
	}
	it.Limit, it.Free = limit, minus(limit, it.Charged)
	m.quotas[namespace] = it
	return nil
}

func (m *memoryStore) charge(namespace string, more Usage) error {
	m.mutex.Lock()
	defer m.mutex.Unlock()
	it := m.quotas[namespace]
	if !covers(it.Free, more) {
		return pibroulez.ErrOverLimit
	}
	it.Charged, it.Free = plus(it.Charged, more), minus(it.Free, more)
	m.quotas[namespace] = it
	return nil
}

// Agents over stores in memory.
type memoryNode struct {
	*Agent
	store *memoryStore
}

func (w *world) memoryNodes(t testing.TB, count int, change func(*Config)) []memoryNode {
	t.Helper()
	var nodes []memoryNode
	for i := 0; i < count; i++ {
		config := w.config(fmt.Sprint("n", i))
		store := newMemoryStore(t, "a")
		config.Store, config.Report = store, time.Second
		change(&config)
		agent := must(New(ctx, config))(t)
		t.Cleanup(agent.Close)
		nodes = append(nodes, memoryNode{agent, store})
	}
	for _, n := range nodes {
		<-n.Settled()
		n := n
		until(t, "all stores to be known", func() bool { return n.stores.Load() >= int64(count) })
	}
	return nodes
}

func (n *memoryNode) take(more Usage) error {
	return n.Charge(ctx, "a", more, func(context.Context) error { return n.store.charge("a", more) })
}

func median(took []time.Duration) time.Duration {
	sort.Slice(took, func(i, j int) bool { return took[i] < took[j] })
	return took[len(took)/2]
}

func timed(do func() error, t testing.TB) time.Duration {
	t.Helper()
	begin := time.Now()
	must(0, do())(t)
	return time.Since(begin)
}

// A charge without a grant beside one without a cluster, and one with a grant beside a round trip to etcd: by turns, so
// that all have the same machine.
func BenchmarkFiguresOfCharges(t *testing.B) {
	w := newWorld(t)
	w.limit("a", 1<<30, 1<<30)
	const count = 2000
	one := w.node("one", func(c *Config) { c.Share, c.Batch = 1, usage(1<<20, 1<<20) }).settle()
	must(0, one.take("a", "k", usage(1, 1)))(t)
	blocks := uint64(1)
	call := func(ctx context.Context) error {
		blocks++
		_, err := one.st.Charge(ctx, "a", "k", usage(blocks, 1))
		return err
	}
	var alone, within, grants, trips []time.Duration
	for i := 0; i < count; i++ {
		alone = append(alone, timed(func() error { return call(ctx) }, t))
		within = append(within, timed(func() error { return one.Charge(ctx, "a", usage(1, 0), call) }, t))
	}
	exact := w.memoryNodes(t, 1, func(c *Config) { c.Share, c.Batch = 1, usage(0, 1<<20) })[0]
	key := w.prefix + "/w/trip/trip"
	for i := 0; i < count/4; i++ {
		grants = append(grants, timed(func() error { return exact.take(usage(1, 0)) }, t))
		trips = append(trips, timed(func() error {
			_, err := w.client.Txn(ctx).If(isThere(key)).Then(clientv3.OpPut(key, "{}")).Else(clientv3.OpPut(key, "{}")).Commit()
			return err
		}, t))
	}
	a, b, c, d := median(alone), median(within), median(grants), median(trips)
	fmt.Printf("figure: a charge by the store alone %v, within the grant %v (%.2f times), with a grant %v, a round trip to etcd %v (%.2f round trips)\n",
		a, b, float64(b)/float64(a), c, d, float64(c)/float64(d))
}

// Ten nodes with loads of 1 to 1/10, by charges of 1 to 20 blocks, until the first one is refused; and with recall until
// nothing is left that a charge wants.
func BenchmarkFiguresOfLoads(t *testing.B) {
	const limit, count = 100_000, 10
	fill := func(share, batch uint64, shards int) (charged, grants uint64, charges int) {
		w := newWorld(t)
		w.limit("a", limit, 1<<30)
		must(0, w.operator.SetShards(ctx, "a", shards))(t)
		nodes := w.memoryNodes(t, count, func(c *Config) { c.Batch, c.Share = usage(batch, 1<<20), share })
		random := rand.New(rand.NewSource(1))
		for {
			it := random.Intn(count)
			if random.Intn(it+1) > 0 {
				continue
			}
			need := uint64(1 + random.Intn(20))
			if err := nodes[it].take(usage(need, 0)); errors.Is(err, pibroulez.ErrOverLimit) {
				break
			} else if err != nil {
				t.Fatal(err)
			}
			charged += need
			charges++
		}
		for _, n := range nodes {
			grants += must(n.Metrics(ctx))(t).Raises
		}
		return charged, grants, charges
	}
	for _, shards := range []int{1, 4} {
		charged, grants, charges := fill(0, limit/400, shards)
		fmt.Printf("figure: 10 nodes, %d shards: %.2f %% charged before the first refusal, by %d grants for %d exact ones (1/%d)\n",
			shards, 100*float64(charged)/limit, grants, charges, charges/int(grants))
		if shards == 1 && charged < limit*999/1000 || grants*20 > uint64(charges) {
			t.Errorf("%d shards: %d of %d charged, %d grants for %d", shards, charged, limit, grants, charges)
		}
	}
}

func BenchmarkFiguresOfRecall(t *testing.B) {
	const limit, count = 20_000, 10
	w := newWorld(t)
	w.limit("a", limit, 1<<30)
	nodes := w.memoryNodes(t, count, func(c *Config) { c.Patience = time.Minute })
	random := rand.New(rand.NewSource(1))
	charged, refusals := uint64(0), 0
	for charged < limit {
		need := uint64(1 + random.Intn(20))
		if need > limit-charged {
			need = limit - charged
		}
		if err := nodes[random.Intn(count)].take(usage(need, 0)); err != nil {
			refusals++
			t.Error(err)
			break
		}
		charged += need
	}
	fmt.Printf("figure: 10 nodes with recall: %d of %d charged, %d refusals while as much was free\n", charged, limit, refusals)
}

// Grants of nodes that all take from one tenant, each exactly, for 10 seconds: one node alone, and 16 at pools in 1, 4
// and 16 shards, and at one that they divide themselves.
func BenchmarkFiguresOfAHotTenant(t *testing.B) {
	for _, it := range []struct {
		nodes, shards int
		isUndivided   bool
	}{{1, 1, true}, {16, 1, true}, {16, 4, true}, {16, 16, true}, {16, 1, false}} {
		w := newWorld(t)
		w.limit("a", 1<<30, 1<<30)
		must(0, w.operator.SetShards(ctx, "a", it.shards))(t)
		nodes := w.memoryNodes(t, it.nodes, func(c *Config) {
			c.Batch, c.Patience, c.isUndivided = usage(0, 1<<20), time.Minute, it.isUndivided
		})
		how := fmt.Sprintf("in %d shards", it.shards)
		if !it.isUndivided {
			how = "in shards as they divide it"
		}
		fmt.Printf("figure: %d nodes at one tenant %s: %s\n", it.nodes, how, w.hot(t, nodes, 10*time.Second))
		if shards := must(w.operator.Quota(ctx, "a"))(t).Shards; it.isUndivided && shards != it.shards || shards > it.nodes {
			t.Errorf("%+v: %d shards", it, shards)
		}
		for _, n := range nodes {
			n.Close()
		}
	}
}

// Grants of all nodes for this long. What doesn't depend on other work on the machine: the transactions that each grant
// took, of which each is a round trip, and the processors' time.
func (w *world) hot(t testing.TB, nodes []memoryNode, how time.Duration) string {
	t.Helper()
	var group sync.WaitGroup
	before, cpu, cpuOfEtcd, begin := w.sum(t, nodes), processorTime("self"), w.etcd.processorTime(), time.Now()
	for i := range nodes {
		n := &nodes[i]
		group.Add(1)
		go func() {
			defer group.Done()
			for time.Since(begin) < how {
				if err := n.take(usage(1, 0)); err != nil {
					t.Error(err)
					return
				}
			}
		}()
	}
	group.Wait()
	took, after := time.Since(begin), w.sum(t, nodes)
	cpu, cpuOfEtcd = processorTime("self")-cpu, w.etcd.processorTime()-cpuOfEtcd
	grants, lost, reads := after.Raises-before.Raises, after.LostCompares-before.LostCompares, after.Reads-before.Reads
	each := func(count float64) float64 { return count / float64(grants) }
	if faults := must(w.operator.Check(ctx))(t).Faults; len(faults) > 0 {
		t.Error(faults)
	}
	return fmt.Sprintf("%.0f grants a second; each %.2f transactions, %.2f of them lost compares and %.2f reads, and %.2f ms of agents and %.2f ms of etcd",
		float64(grants)/took.Seconds(), each(float64(grants+lost+reads)), each(float64(lost)), each(float64(reads)),
		each(cpu.Seconds()*1000), each(cpuOfEtcd.Seconds()*1000))
}

// The counters of all.
func (w *world) sum(t testing.TB, nodes []memoryNode) (all Metrics) {
	t.Helper()
	for _, n := range nodes {
		it := must(n.Metrics(ctx))(t)
		all.Raises, all.LostCompares, all.Reads = all.Raises+it.Raises, all.LostCompares+it.LostCompares, all.Reads+it.Reads
	}
	return all
}

// The processors' time of a process, by proc(5): in hundredths of a second.
func processorTime(process string) time.Duration {
	text, _ := os.ReadFile("/proc/" + process + "/stat")
	words := strings.Fields(string(text[strings.LastIndexByte(string(text), ')')+1:]))
	if len(words) < 13 {
		return 0
	}
	user, _ := strconv.ParseInt(words[11], 10, 64)
	system, _ := strconv.ParseInt(words[12], 10, 64)
	return time.Duration(user+system) * (time.Second / 100)
}

func (e *etcd) processorTime() (all time.Duration) {
	for _, it := range e.members {
		all += processorTime(strconv.Itoa(it.process.Process.Pid))
	}
	return all
}

// 1,000 nodes with 30 of 1,000 tenants each: what etcd keeps of them, and 500 grants a second.
func BenchmarkFiguresOfManyNodes(t *testing.B) {
	const nodes, tenants, each, workers, asked, seconds = 1000, 1000, 30, 64, 500, 20
	w := newWorld(t)
	var all transactions
	all.kv, all.keys = w.client.KV, w.operator.keys
	parallel(t, tenants, workers, func(i int) error {
		return w.operator.limit(ctx, fmt.Sprint("tenant-", i), func(r *tenantRecord) error { *r = tenantRecord{usage(1<<30, 1<<30), Usage{}, 1}; return nil })
	})
	of := must(all.current(ctx, 0))(t)
	identity := func(i int) string { return fmt.Sprintf("%032x", i) }
	tenant := func(node, i int) string { return fmt.Sprint("tenant-", (node*7+i*31)%tenants) }
	// What each node knows of each tenant, and what its watch has told.
	knows, tolds := make([]known, nodes*each), make([]tenantOfNode, nodes*each)
	isWatched, lost := false, atomic.Int64{}
	grant := func(node, i int, blocks uint64) error {
		k, its := &knows[node*each+i], &tolds[node*each+i]
		for {
			err := error(nil)
			if !isWatched || !k.isFresh || !its.hear(k, of) {
				err = all.read(ctx, of, identity(node), tenant(node, i), k)
			}
			if err == nil {
				err = all.grant(ctx, of, identity(node), tenant(node, i), 0, k, grantRecord{usage(blocks, blocks), "0123456789abcdef", blocks, of.Number})
			}
			if err != errLost {
				return err
			}
			lost.Add(1)
		}
	}
	parallel(t, nodes, workers, func(i int) error {
		_, _, err := all.join(ctx, of, identity(i), fmt.Sprint("node-", i))
		for j := 0; j < each && err == nil; j++ {
			err = grant(i, j, 1)
		}
		return err
	})
	keys := must(w.client.Get(ctx, w.prefix, clientv3.WithPrefix()))(t)
	bytes := 0
	for _, it := range keys.Kvs {
		bytes += len(it.Key) + len(it.Value)
	}
	status := must(w.client.Status(ctx, w.etcd.members[0].client))(t)
	fmt.Printf("figure: %d nodes with %d of %d tenants: %d keys, %.1f MB, a database of %.0f MB, members of %s\n",
		nodes, each, tenants, len(keys.Kvs), float64(bytes)/1e6, float64(status.DbSize)/1e6, w.etcd.memory())
	write := func(i int) error { return grant(i%nodes, i/nodes%each, uint64(2+i)) }
	w.checkPace(t, asked, seconds, workers, write)
	var names [][]string
	for i := 0; i < nodes; i++ {
		names = append(names, nil)
		for j := 0; j < each; j++ {
			names[i] = append(names[i], tenant(i, j))
		}
	}
	isWatched = true
	end := w.beside(t, names, identity, func(node, i int, it *clientv3.Event) { tolds[node*each+i].tell(of, it) })
	lost.Store(0)
	w.checkPace(t, asked, seconds, workers, func(i int) error { return write(i + asked*seconds) })
	fmt.Printf("figure: of these %.2f lost compares a grant\n", float64(lost.Load())/(asked*seconds))
	end()
}

// What a watch has told of a tenant in one shard.
type tenantOfNode struct {
	mutex sync.Mutex
	told  told
}

func (n *tenantOfNode) tell(of *generation, it *clientv3.Event) {
	var record shardRecord
	revision, err := takeOne(it.Kv, &record)
	n.mutex.Lock()
	defer n.mutex.Unlock()
	n.told = told{of.generationRecord, map[int]toldShard{0: {knownShard{record.Free, revision}, err != nil}}}
}

func (n *tenantOfNode) hear(k *known, of *generation) bool {
	n.mutex.Lock()
	defer n.mutex.Unlock()
	_, isAll := k.hear(&n.told, of)
	return isAll
}

// What the agents of the nodes with these tenants do beside their grants: each watches the shards of a tenant, and
// tells every 5 seconds what its store is charged. Ends it, and prints what it was. An agent has two more watches of a
// tenant, which grants tell nothing.
func (w *world) beside(t testing.TB, names [][]string, identity func(int) string, tell func(node, i int, it *clientv3.Event)) (end func()) {
	t.Helper()
	const clients, report, workers = 16, 5 * time.Second, 64
	bounded, cancel := context.WithCancel(clientv3.WithRequireLeader(ctx))
	var all []*clientv3.Client
	for i := 0; i < clients; i++ {
		client := must(w.etcd.dial())(t)
		t.Cleanup(func() { client.Close() })
		all = append(all, client)
	}
	var events, watches, reports atomic.Int64
	keys := w.operator.keys
	parallel(t, len(names), workers, func(i int) error {
		for j, tenant := range names[i] {
			j, it := j, all[i%clients].Watch(bounded, keys.shards(tenant), clientv3.WithPrefix())
			watches.Add(1)
			go func() {
				for told := range it {
					events.Add(int64(len(told.Events)))
					for _, event := range told.Events {
						tell(i, j, event)
					}
				}
			}()
		}
		return nil
	})
	memory, begin := w.etcd.memory(), time.Now()
	var group sync.WaitGroup
	for i := 0; i < workers; i++ {
		i := i
		group.Add(1)
		go func() {
			defer group.Done()
			for at := i; bounded.Err() == nil; at += workers {
				node := at % len(names)
				due := begin.Add(time.Duration(at) * report / time.Duration(len(names)))
				select {
				case <-time.After(time.Until(due)):
				case <-bounded.Done():
					return
				}
				record := presence{fmt.Sprint("node-", node), time.Now().UnixMilli(), map[string]use{}}
				for _, it := range names[node] {
					record.Use[it] = use{usage(uint64(at), 1), usage(uint64(at), 1)}
				}
				if _, err := w.client.Put(bounded, keys.present(identity(node)), text(record)); err == nil {
					reports.Add(1)
				}
			}
		}()
	}
	return func() {
		cancel()
		group.Wait()
		took := time.Since(begin).Seconds()
		fmt.Printf("figure: beside them %d watches with %.0f events a second, and %.0f reports a second; members of %s\n",
			watches.Load(), float64(events.Load())/took, float64(reports.Load())/took, memory)
	}
}

// Asks for this many grants a second. How many there are, and what the median takes, from when it was to begin.
func (w *world) checkPace(t testing.TB, asked, seconds, workers int, grant func(i int) error) {
	t.Helper()
	begin := time.Now()
	took := make([]time.Duration, asked*seconds)
	parallel(t, len(took), workers, func(i int) error {
		due := begin.Add(time.Duration(i) * time.Second / time.Duration(asked))
		time.Sleep(time.Until(due))
		err := grant(i)
		took[i] = time.Since(due)
		return err
	})
	pace := float64(len(took)) / time.Since(begin).Seconds()
	fmt.Printf("figure: %d grants a second asked: %.0f a second, median %v\n", asked, pace, median(took))
	if faults := must(w.operator.Check(ctx))(t).Faults; len(faults) > 0 {
		t.Error(faults)
	}
}

// Calls a function with each number, by this many workers.
func parallel(t testing.TB, count, workers int, do func(i int) error) {
	t.Helper()
	numbers, ends := make(chan int), make(chan error, workers)
	for i := 0; i < workers; i++ {
		go func() {
			var err error
			for i := range numbers {
				if err == nil {
					err = do(i)
				}
			}
			ends <- err
		}()
	}
	for i := 0; i < count; i++ {
		numbers <- i
	}
	close(numbers)
	for i := 0; i < workers; i++ {
		must(0, <-ends)(t)
	}
}

// What the members have in memory.
func (e *etcd) memory() string {
	var all []string
	for _, it := range e.members {
		text, _ := os.ReadFile(fmt.Sprintf("/proc/%d/status", it.process.Process.Pid))
		for _, line := range strings.Split(string(text), "\n") {
			if strings.HasPrefix(line, "VmRSS:") {
				all = append(all, strings.TrimSpace(strings.TrimPrefix(line, "VmRSS:")))
			}
		}
	}
	return strings.Join(all, ", ")
}

package cluster

import (
	"context"
	"errors"
	"fmt"
	"io"
	"math/rand"
	"net"
	"net/url"
	"os"
	"reflect"
	"runtime"
	"strings"
	"sync"
	"testing"
	"time"

	"go.etcd.io/etcd/clientv3"

	"pibroulez.example/pibroulez"
)

// A network to one member of etcd that can hold what a client sends, and lets it through later, and none of what comes
// after some moment. Where it hears again, its connections are closed, since what they lack is lost.
type proxy struct {
	listener net.Listener
	to       string

	mutex             sync.Mutex
	isHolding, isDeaf bool
	held              map[net.Conn][]byte
	connections       []net.Conn
}

func (w *world) proxy() *proxy {
	w.t.Helper()
	at := must(url.Parse(w.etcd.members[0].client))(w.t)
	p := &proxy{listener: must(net.Listen("tcp", "127.0.0.1:0"))(w.t), to: at.Host, held: map[net.Conn][]byte{}}
	go p.serve()
	w.t.Cleanup(func() {
		p.listener.Close()
		p.mutex.Lock()
		defer p.mutex.Unlock()
		for _, it := range p.connections {
			it.Close()
		}
	})
	return p
}

func (p *proxy) endpoint() string { return "http://" + p.listener.Addr().String() }

func (p *proxy) serve() {
	for {
		down, err := p.listener.Accept()
		if err != nil {
			return
		}
		up, err := net.Dial("tcp", p.to)
		if err != nil {
			down.Close()
			continue
		}
		p.mutex.Lock()
		p.connections = append(p.connections, down, up)
		p.mutex.Unlock()
		go io.Copy(down, up)
		go p.copy(up, down)
	}
}

func (p *proxy) copy(up, down net.Conn) {
	buffer := make([]byte, 1<<16)
	for {
		n, err := down.Read(buffer)
		if err != nil {
			return
		}
		p.mutex.Lock()
		switch {
		case p.isDeaf:
		case p.isHolding:
			p.held[up] = append(p.held[up], buffer[:n]...)
		default:
			up.Write(buffer[:n])
		}
		p.mutex.Unlock()
	}
}

func (p *proxy) set(isHolding, isDeaf bool) {
	p.mutex.Lock()
	defer p.mutex.Unlock()
	if p.isDeaf && !isDeaf {
		for _, it := range p.connections {
			it.Close()
		}
	}
	p.isHolding, p.isDeaf = isHolding, isDeaf
}

func (p *proxy) letThrough() {
	p.mutex.Lock()
	defer p.mutex.Unlock()
	for up, bytes := range p.held {
		up.Write(bytes)
		delete(p.held, up)
	}
}

// A lowering that arrives after its sender has given up and found another way to etcd ends at 100 of 100.
func TestLateLowering(t *testing.T) {
	w := newWorld(t)
	w.limit("a", 100, 100)
	p := w.proxy()
	slow := must(dialEtcd([]string{p.endpoint()}))(t)
	defer slow.Close()
	kv := &turnout{KV: w.client.KV}
	client := clientv3.NewCtxClient(ctx)
	client.KV, client.Watcher, client.Lease = kv, w.client.Watcher, w.client.Lease
	change := func(c *Config) { c.Batch, c.Share, c.Timeout, c.tick = usage(39, 39), 1, time.Second, time.Hour }
	one := w.node("one", func(c *Config) { change(c); c.Client = client }).settle()
	two := w.node("two", change).settle()
	must(0, one.take("a", "k", usage(61, 61)))(t)
	must(slow.Get(ctx, "any"))(t)
	kv.set(slow)
	p.set(true, false)
	isError(t, one.giveBack("a"), EtcdAway)
	p.set(true, true)
	kv.set(w.client.KV)
	must(0, one.take("a", "l", usage(39, 39)))(t)
	p.letThrough()
	before := must(w.client.Get(ctx, w.operator.keys.grant(one.Identity(), "a")))(t).Kvs[0].ModRevision
	time.Sleep(500 * time.Millisecond)
	after := must(w.client.Get(ctx, w.operator.keys.grant(one.Identity(), "a")))(t).Kvs[0].ModRevision
	equal(t, after, before)
	isError(t, two.take("a", "k", usage(39, 39)), pibroulez.ErrOverLimit)
	equal(t, plus(one.quota("a").Charged, two.quota("a").Charged), usage(100, 100))
	w.check()
}

// While etcd is away a node charges within its grant, refuses what needs more with that cause, and goes on by itself.
func TestEtcdAway(t *testing.T) {
	w := newWorld(t)
	w.limit("a", 100, 100)
	p := w.proxy()
	client := must(dialEtcd([]string{p.endpoint()}))(t)
	defer client.Close()
	one := w.node("one", func(c *Config) { c.Client, c.Timeout, c.Batch, c.Share = client, time.Second, usage(20, 20), 1 }).settle()
	must(0, one.take("a", "k", usage(10, 10)))(t)
	p.set(false, true)
	must(0, one.take("a", "l", usage(20, 20)))(t)
	err := one.take("a", "m", usage(20, 20))
	isError(t, err, pibroulez.ErrOverLimit)
	isError(t, err, EtcdAway)
	isError(t, err, context.DeadlineExceeded)
	equal(t, one.Status().State, EtcdAway)
	equal(t, one.quota("a").Limit, usage(30, 30))
	if must(one.Metrics(ctx))(t).Unanswered+1 == 0 || time.Since(one.Status().Since) > time.Minute {
		t.Error("no count or no time")
	}
	p.set(false, false)
	until(t, "etcd", func() bool { return one.take("a", "m", usage(20, 20)) == nil })
	until(t, "serving", func() bool { return one.Status().State == Serving })
	w.check()
}

// At a first start without etcd a node has not joined, and charges nothing. It joins by itself.
func TestNotJoined(t *testing.T) {
	w := newWorld(t)
	w.limit("a", 100, 100)
	p := w.proxy()
	p.set(false, true)
	client := must(dialEtcd([]string{p.endpoint()}))(t)
	defer client.Close()
	one := w.node("one", func(c *Config) { c.Client, c.Timeout = client, 500*time.Millisecond })
	until(t, "the first request", func() bool { return errors.Is(one.Status().Err, context.DeadlineExceeded) })
	equal(t, one.Status().State, NotJoined)
	isError(t, one.Status().Err, NotJoined)
	err := one.take("a", "k", usage(1, 1))
	isError(t, err, pibroulez.ErrOverLimit)
	equal(t, one.quota("a"), pibroulez.Quota{})
	p.set(false, false)
	one.settle()
	until(t, "a charge", func() bool { return one.take("a", "k", usage(1, 1)) == nil })
	w.check()
}

// A node begins again at once within its limits, or waits until it has settled.
func TestStarts(t *testing.T) {
	w := newWorld(t)
	w.limit("a", 100, 100)
	one := w.node("one", func(c *Config) { c.Batch, c.Share = usage(20, 20), 1 }).settle()
	must(0, one.take("a", "k", usage(10, 10)))(t)
	one.close()
	p := w.proxy()
	p.set(false, true)
	away := must(dialEtcd([]string{p.endpoint()}))(t)
	defer away.Close()
	one.config.Client = away
	one.open()
	must(0, one.take("a", "l", usage(20, 20)))(t)
	one.close()
	one.config.Start, one.config.Patience = AfterSettling, 50*time.Millisecond
	one.open()
	isError(t, one.take("a", "m", usage(1, 1)), Settling)
	one.config.Patience = time.Minute
	one.close()
	one.open()
	bounded, cancel := context.WithTimeout(ctx, 50*time.Millisecond)
	defer cancel()
	err := one.Charge(bounded, "a", usage(1, 1), func(context.Context) error { t.Error("it is made"); return nil })
	isError(t, err, context.DeadlineExceeded)
	p.set(false, false)
	must(0, one.take("a", "m", usage(1, 1)))(t)
	equal(t, one.Status().State, Serving)
	w.check()
}

// What an operator asks for.
func TestOperator(t *testing.T) {
	w := newWorld(t)
	_, err := w.operator.Quota(ctx, "a")
	isError(t, err, ErrNoTenant)
	_, err = w.operator.SetLimit(ctx, "a", usage(1, MostLimit+1))
	isError(t, err, ErrBadLimit)
	isError(t, w.operator.Drain(ctx, "one"), ErrNoNode)
	w.limit("a", 100, 100)
	w.limit("b/c", 10, 10)
	change := func(c *Config) { c.Batch, c.Share = usage(10, 10), 1 }
	one, two := w.node("one", change, "a", "b/c").settle(), w.node("two", change, "a", "b/c").settle()
	must(0, one.take("a", "k", usage(30, 10)))(t)
	must(0, two.take("a", "k", usage(20, 10)))(t)
	must(0, two.take("b/c", "k", usage(5, 5)))(t)
	until(t, "the report", func() bool {
		quota := must(w.operator.Quota(ctx, "a"))(t)
		return len(quota.Holdings) == 2 && quota.Holdings[0].Charged == usage(30, 10) && quota.Holdings[1].Charged == usage(20, 10)
	})
	quota := w.limit("a", 45, 100)
	equal(t, []Usage{quota.Limit, quota.Granted, quota.Free, quota.Above}, []Usage{usage(45, 100), usage(70, 40), usage(0, 60), usage(25, 0)})
	for i, want := range []Holding{
		{one.Identity(), "one", usage(40, 20), usage(30, 10), usage(40, 20), usage(10, 10), 0, true},
		{two.Identity(), "two", usage(30, 20), usage(20, 10), usage(30, 20), usage(10, 10), 0, true},
	} {
		got := quota.Holdings[i]
		if got.Age < 0 || got.Age > time.Minute {
			t.Errorf("told %v ago", got.Age)
		}
		got.Age = 0
		equal(t, got, want)
	}
	// Nothing is evicted, and nothing more is granted in blocks until enough came back.
	isError(t, one.take("a", "l", usage(11, 1)), pibroulez.ErrOverLimit)
	must(0, one.giveBack("a"))(t)
	must(0, two.giveBack("a"))(t)
	equal(t, must(w.operator.Quota(ctx, "a"))(t).Above, usage(5, 0))
	must(w.operator.SetLimit(ctx, "a", usage(100, 100)))(t)

	must(0, w.operator.Drain(ctx, "one"))(t)
	until(t, "drained", func() bool { return one.isDrained.Load() })
	err = one.take("a", "l", usage(50, 1))
	isError(t, err, ErrDrained)
	isError(t, err, pibroulez.ErrOverLimit)
	members := must(w.operator.Nodes(ctx))(t)
	equal(t, len(members), 2)
	equal(t, []any{members[0].Node, members[0].IsDrained, members[0].Answers, members[0].Granted["a"]}, []any{"one", true, true, usage(30, 10)})
	equal(t, []any{members[1].Node, members[1].IsDrained, members[1].Answers, members[1].Granted["b/c"].Blocks >= 5}, []any{"two", false, true, true})
	must(0, w.operator.Undrain(ctx, one.Identity()))(t)
	until(t, "a charge", func() bool { return one.take("a", "l", usage(20, 1)) == nil })

	checked := must(w.operator.Check(ctx))(t)
	equal(t, len(checked.Faults), 0)
	equal(t, len(checked.Tenants), 2)
	equal(t, checked.Tenants[1].Tenant, "b/c")
	w.check()
	// Check finds what isn't so.
	must(w.client.Put(ctx, w.operator.keys.tenant("a"), `{"s":3,"l":[100,100],"d":[0,0],"k":2}`))(t)
	must(w.client.Put(ctx, w.operator.keys.grant("x", "d"), `{"g":[1,1],"p":"y","n":1}`))(t)
	checked = must(w.operator.Check(ctx))(t)
	equal(t, len(checked.Faults), 3)
	must(w.client.Put(ctx, w.operator.keys.tenant("a"), `no record`))(t)
	_, err = w.operator.Check(ctx)
	var bad *BadRecord
	if !errors.As(err, &bad) || bad.Key != w.operator.keys.tenant("a") {
		t.Errorf("%v, not a bad record", err)
	}
	_, err = w.operator.SetLimit(ctx, "a", usage(1, 1))
	if !errors.As(err, &bad) {
		t.Errorf("%v: a bad record is written over", err)
	}
}

// A refusal tells what is free, idle by node, and granted to nodes that don't answer.
func TestRefused(t *testing.T) {
	w := newWorld(t)
	w.limit("a", 100, 100)
	change := func(c *Config) { c.Batch, c.Share = usage(10, 10), 1 }
	one, two, three := w.node("one", change).settle(), w.node("two", change).settle(), w.node("three", change).settle()
	must(0, one.take("a", "k", usage(10, 10)))(t)
	must(0, two.take("a", "k", usage(20, 20)))(t)
	must(0, three.take("a", "k", usage(5, 5)))(t)
	gone := three.Identity()
	three.close()
	until(t, "that three doesn't answer", func() bool {
		return must(w.client.Get(ctx, w.operator.keys.present(gone)))(t).Count == 0
	})
	until(t, "the report", func() bool {
		// The store's own limit may be told before what it is charged under it.
		two := must(w.operator.Quota(ctx, "a"))(t).Holdings[2]
		return two.Bound == usage(30, 30) && two.Idle == usage(10, 10)
	})
	err := one.take("a", "l", usage(90, 1))
	var refused *Refused
	if !errors.As(err, &refused) {
		t.Fatal(err)
	}
	equal(t, *refused, Refused{
		Tenant: "a", Need: usage(90, 1), Limit: usage(100, 100), Free: usage(45, 45),
		Idle: map[string]Usage{"one": {}, "two": usage(10, 10)}, Unanswered: usage(15, 15),
	})
	equal(t, err.Error(), `OverLimit: tenant "a" needs 90/1: limit 100/100, free 45/45, granted to nodes that don't answer 15/15, idle on one 0/0, idle on two 10/10`)
	isError(t, one.take("none", "k", usage(1, 1)), pibroulez.ErrNoNamespace)
	two.config.Local = map[string]Usage{"a": usage(35, 100)}
	two.close()
	two.open()
	isError(t, two.settle().take("a", "l", usage(16, 1)), ErrLocalLimit)
	must(0, two.take("a", "l", usage(15, 15)))(t)
	four := w.node("four", nil, "no-limit")
	isError(t, four.settle().take("no-limit", "k", usage(1, 1)), ErrNoTenant)
	w.check()
}

// What an idle node doesn't use goes back unasked, and what a waiting one needs is recalled.
func TestIdleAndRecall(t *testing.T) {
	w := newWorld(t)
	w.limit("a", 100, 100)
	one := w.node("one", func(c *Config) { c.Batch, c.Share = usage(80, 80), 1 }).settle()
	must(0, one.take("a", "k", usage(10, 10)))(t)
	equal(t, one.quota("a").Limit, usage(90, 90))
	two := w.node("two", func(c *Config) {
		c.Batch, c.Share, c.Patience, c.Idle = usage(5, 5), 1, 100*time.Millisecond, 100*time.Millisecond
	}).settle()
	isError(t, two.take("a", "k", usage(90, 90)), pibroulez.ErrOverLimit)
	one.close()
	one.config.Patience = time.Second
	one.open()
	two.close()
	two.config.Patience = 20 * time.Second
	two.open()
	must(0, two.take("a", "k", usage(70, 70)))(t)
	equal(t, one.quota("a").Limit, usage(10, 10))
	metrics := must(two.Metrics(ctx))(t)
	if metrics.Recalls == 0 || metrics.With.Count != 1 || metrics.With.Sum <= 0 {
		t.Errorf("%+v", metrics)
	}
	must(two.st.Discard(ctx, "a", "k"))(t)
	until(t, "that it is given back but for a batch", func() bool { return two.quota("a").Limit == usage(5, 5) })
	until(t, "the sum", func() bool { return must(w.operator.Quota(ctx, "a"))(t).Granted == usage(15, 15) })
	w.check()
}

// With recall no charge is refused while as much is free on nodes that answer: four nodes charge until nothing is left, and
// each amount that the limit leaves is granted, wherever it lies, also in other shards.
func TestNoRefusalWithRoom(t *testing.T) {
	w := newWorld(t)
	w.limit("a", 300, 1000)
	must(0, w.operator.SetShards(ctx, "a", 3))(t)
	var nodes []*node
	for i := 0; i < 4; i++ {
		// A share of its own, so that how much a node takes doesn't depend on how many others it knows by then.
		nodes = append(nodes, w.node(fmt.Sprint("n", i), func(c *Config) { c.Patience, c.Share = 30*time.Second, 1 }).settle())
	}
	random := rand.New(rand.NewSource(1))
	charged, waited := uint64(0), uint64(0)
	for i := 0; charged < 300; i++ {
		need := uint64(1 + random.Intn(12))
		if need > 300-charged {
			need = 300 - charged
		}
		must(0, nodes[random.Intn(4)].take("a", fmt.Sprint(i), usage(need, 1)))(t)
		charged += need
	}
	sum := Usage{}
	for _, n := range nodes {
		sum = plus(sum, n.quota("a").Charged)
		waited += must(n.Metrics(ctx))(t).Recalls
	}
	equal(t, sum.Blocks, uint64(300))
	if waited == 0 {
		t.Error("nothing was recalled")
	}
	w.check()
}

// The counters are of what was done.
func TestMetrics(t *testing.T) {
	w := newWorld(t)
	w.limit("a", 100, 100)
	one := w.node("one", func(c *Config) { c.Batch, c.Share = usage(10, 10), 1 }).settle()
	must(0, one.take("a", "k", usage(10, 10)))(t)
	must(0, one.take("a", "l", usage(5, 5)))(t)
	must(0, one.giveBack("a"))(t)
	got := must(one.Metrics(ctx))(t)
	equal(t, got.Tenants, map[string]TenantMetrics{"a": {usage(15, 15), usage(15, 15), Usage{}, 0}})
	equal(t, []uint64{got.Raises, got.Lowerings, got.Settles, got.LostCompares, got.Unanswered, got.With.Count, got.Without.Count}, []uint64{1, 1, 1, 0, 0, 1, 1})
	sum := uint64(0)
	for _, it := range got.Without.Counts {
		sum += it
	}
	equal(t, sum, got.Without.Count)
	if got.SinceEtcd < 0 || got.SinceEtcd > time.Minute || got.Without.Sum <= 0 {
		t.Errorf("%+v", got)
	}
}

// Only a store that was opened with an identity has an agent, and its log has it in its first line.
func TestIdentity(t *testing.T) {
	w := newWorld(t)
	one := w.node("one", nil)
	lines := strings.Split(string(must(os.ReadFile(one.log))(t)), "\n")
	if !strings.Contains(lines[0], identityBegin+one.Identity()) {
		t.Errorf("%s has no identity in %s", one.log, lines[0])
	}
	store := one.Identity()
	one.close()
	one.config.Node = "another"
	one.open()
	equal(t, one.Identity(), store)
	plain := must(pibroulez.New(ctx, pibroulez.Config{Program: program(), Root: "/r", Namespaces: map[string]Usage{"a": {}}}))(t)
	defer plain.Close()
	config := w.config("plain")
	config.Store = plain
	_, err := New(ctx, config)
	isError(t, err, ErrNoIdentity)
	var many []string
	for number := 0; number < MostTenants; number++ {
		many = append(many, fmt.Sprint("t", number))
	}
	full := must(OpenOrNew(ctx, pibroulez.Config{Program: program(), Root: "/r"}, many...))(t)
	defer full.Close()
	if err := full.NamespaceCreate(ctx, "one more", usage(1, 1)); err != nil {
		t.Fatal(err)
	}
	config.Store = full
	_, err = New(ctx, config)
	isError(t, err, ErrBadConfig)
	_, err = Namespaces(append(many, "one more")...)
	isError(t, err, ErrBadConfig)
	_, err = Namespaces(identityBegin + "x")
	isError(t, err, ErrNoIdentity)
	first, second := must(Namespaces("a"))(t), must(Namespaces("a"))(t)
	if len(first) != 2 || reflect.DeepEqual(first, second) {
		t.Errorf("%v and %v", first, second)
	}
	for _, broken := range []func(*Config){
		func(c *Config) { c.Client = nil }, func(c *Config) { c.Store = nil }, func(c *Config) { c.Node = "" }, func(c *Config) { c.Start = "soon" },
	} {
		given := w.config("one")
		given.Store = one.st
		broken(&given)
		_, err := New(ctx, given)
		isError(t, err, ErrBadConfig)
	}
}

// An agent that is closed leaves no goroutine, whatever it was at; what waits ends.
func TestCloseLeavesNothing(t *testing.T) {
	w := newWorld(t)
	w.limit("a", 10, 10)
	p := w.proxy()
	client := must(dialEtcd([]string{p.endpoint()}))(t)
	defer client.Close()
	must(client.Get(ctx, "any"))(t)
	for i := 0; i < 3; i++ {
		one := w.node(fmt.Sprint("one", i), func(c *Config) { c.Client, c.Patience = client, time.Hour }).settle()
		waits := make(chan error)
		go func() { waits <- one.take("a", "k", usage(20, 1)) }()
		until(t, "that it waits", func() bool { return must(one.Metrics(ctx))(t).Tenants["a"].Wants == 1 })
		p.set(false, i == 1)
		agent := one.Agent
		go agent.Close()
		isError(t, <-waits, ErrClosed)
		agent.Close()
		isError(t, agent.Charge(ctx, "a", usage(1, 1), func(context.Context) error { return nil }), ErrClosed)
		p.set(false, false)
	}
	until(t, "no goroutine of an agent", func() bool {
		stacks := make([]byte, 1<<20)
		stacks = stacks[:runtime.Stack(stacks, true)]
		for _, it := range strings.Split(string(stacks), "\n\n") {
			if strings.Contains(it, "cluster.(*Agent)") && !strings.Contains(it, "testing.tRunner") {
				return false
			}
		}
		return true
	})
}

// A call whose context ends waits no longer, at each place at which it may wait.
func TestContexts(t *testing.T) {
	w := newWorld(t)
	w.limit("a", 10, 10)
	one := w.node("one", func(c *Config) { c.Patience = time.Hour }).settle()
	ended := func(how time.Duration) error {
		bounded, cancel := context.WithTimeout(ctx, how)
		defer cancel()
		return one.Charge(bounded, "a", usage(20, 1), func(context.Context) error { return pibroulez.ErrOverLimit })
	}
	isError(t, ended(300*time.Millisecond), context.DeadlineExceeded)
	turn := one.tenants["a"]
	must(0, turn.take(ctx))(t)
	isError(t, ended(50*time.Millisecond), context.DeadlineExceeded)
	turn.leave()
	cancelled, cancel := context.WithCancel(ctx)
	cancel()
	_, err := w.operator.Check(cancelled)
	isError(t, err, context.Canceled)
	_, err = New(cancelled, one.config)
	isError(t, err, context.Canceled)
	isError(t, one.refused(cancelled, turn, usage(20, 1), errShort), context.Canceled)
	until(t, "that nobody waits", func() bool {
		return must(w.client.Get(ctx, w.operator.keys.want("a", one.Identity())))(t).Count == 0
	})
}

// Package cluster keeps one limit for a tenant over many nodes, by etcd: at any moment the sum of what all stores are
// charged is at most the limit that was in force when the sum of grants was last raised.
//
// Each node has a store of its own, which charges within its own limit, and an Agent beside it. The agent has etcd grant
// the store a part of the tenant's limit before it raises the store's own, and gives back what isn't used. So a charge
// waits for etcd only where it needs more than the store has. README.md has the keys, the invariants, and what is proved,
// checked, tested and believed.
//
// An Operator sets limits, tells who has what, and forgets stores whose data are destroyed.
package cluster

import (
	"context"
	"crypto/rand"
	"encoding/hex"
	"errors"
	"fmt"
	"strings"
	"sync"
	"sync/atomic"
	"time"

	"go.etcd.io/etcd/clientv3"

	"pibroulez.example/pibroulez"
)

// DefaultPrefix is what the keys begin with.
const DefaultPrefix = "/pibroulez"

func keysOf(prefix string) keys {
	if prefix == "" {
		prefix = DefaultPrefix
	}
	return keys{strings.TrimSuffix(prefix, "/")}
}

// A Store is what an agent needs of a store. A *pibroulez.Store is one, opened with Namespaces and a log.
//
// Limit has the limit on the disk before it answers, and the calls are carried out in the order in which they are made.
type Store interface {
	Quota(ctx context.Context, namespace string) (pibroulez.Quota, error)
	Quotas(ctx context.Context) (map[string]pibroulez.Quota, error)
	Limit(ctx context.Context, namespace string, limit Usage, options ...pibroulez.Option) error
}

// A Start says whether charges wait for the first settle.
type Start string

// The ways to start.
const (
	// AtOnce: charges are made within the limits that the store had.
	AtOnce Start = "at-once"
	// AfterSettling: charges wait until all tenants are settled.
	AfterSettling Start = "settled"
)

// Config says how an agent works. Client, Node and Store are needed; each of the others has a value where it is left out.
type Config struct {
	// Client is a client of etcd, with its endpoints and TLS. The agent doesn't close it. One with DialKeepAliveTime finds
	// another member sooner.
	Client *clientv3.Client
	// Prefix is what the keys begin with, DefaultPrefix where it is empty.
	Prefix string
	// Node is what operators call the machine. It is no identity: that is in the store's log.
	Node  string
	Store Store
	// Start is AtOnce where it is empty.
	Start Start
	// Batch is how much more than it needs a store asks for at most, and what an idle one keeps: 64/64.
	Batch Usage
	// Share is such that at most 1/Share of what is left of the pool is taken beyond the need: twice the number of stores
	// that have joined.
	Share uint64
	// Patience is how long a charge waits for others to give back: a second. Below 0 nobody is asked, and nothing is given
	// back to those that ask.
	Patience time.Duration
	// Idle is after how long without a charge a store gives back unasked: 2 seconds. Below 0 it doesn't.
	Idle time.Duration
	// Local are limits of this node, by tenant. One above the tenant's limit in the cluster changes nothing.
	Local map[string]Usage
	// Timeout is how long one request to etcd waits for its answer: 2 seconds.
	Timeout time.Duration
	// Lease is how long after its end an agent counts as one that answers: 15 seconds, and at least 2. No grant depends on
	// it.
	Lease time.Duration
	// Report is how often the agent tells etcd what its store is charged, where that has changed: 5 seconds.
	Report time.Duration

	// For tests: what is told of each step, how often a tenant is looked at that nobody has called for, the wrong variant
	// that raises a store's own limit without a write where the grant is seen to be enough, and whether a pool is divided by
	// an operator alone.
	note        func(event)
	tick        time.Duration
	isUnwritten bool
	isUndivided bool
}

func (c *Config) complete() error {
	switch {
	case c.Client == nil || c.Store == nil || c.Node == "":
		return fmt.Errorf("%w: Client, Store and Node are needed", ErrBadConfig)
	case c.Start == "":
		c.Start = AtOnce
	case c.Start != AtOnce && c.Start != AfterSettling:
		return fmt.Errorf("%w: no such Start: %q", ErrBadConfig, c.Start)
	}
	if c.Batch == (Usage{}) {
		c.Batch = Usage{Blocks: 64, Inodes: 64}
	}
	for _, it := range []struct {
		given *time.Duration
		value time.Duration
	}{{&c.Patience, time.Second}, {&c.Idle, 2 * time.Second}, {&c.Timeout, 2 * time.Second}, {&c.Lease, 15 * time.Second}, {&c.Report, 5 * time.Second}} {
		if *it.given == 0 {
			*it.given = it.value
		}
	}
	if c.Lease < 2*time.Second {
		c.Lease = 2 * time.Second
	}
	if c.tick == 0 {
		c.tick = pause
	}
	if c.note == nil {
		c.note = func(event) {}
	}
	return nil
}

// An Agent has a store charge within the cluster's limits. Any number of goroutines may call it. It writes no limit of
// the store but those that it is granted, and nobody else may call the store's Limit. Where the store's process ends, so
// do its calls; Close the agent then.
type Agent struct {
	config Config
	transactions
	counters
	tenants map[string]*tenant
	// The store's identity, and that of this process.
	store, process string

	ctx    context.Context
	cancel context.CancelFunc
	group  sync.WaitGroup
	// Closed is guarded by mutex, for calls that come as the agent is closed.
	calls    sync.WaitGroup
	isClosed bool

	// How many tenants are not yet settled; settled is closed once none is.
	unsettled atomic.Int64
	settled   chan struct{}
	// Closed once the agent has come to an end, which end says.
	ended chan struct{}
	end   *StateError

	isRestored, isDrained atomic.Bool
	// The record of another format that has kept the store from joining, or nil.
	other atomic.Pointer[BadRecord]
	// The generation in which the store has joined, or noGeneration, and the number of the last one that was seen.
	generation atomic.Pointer[generation]
	seen       atomic.Uint64
	// Wakes who joins.
	join chan struct{}
	// How many stores have joined, and how many of them come before this one.
	stores, place atomic.Int64
	// Have all watches opened anew, and tell of a change of the state.
	renewal, told renewal
	// The lease of its hints, or 0.
	leased atomic.Int64
	rooms  rooms
}

// New begins the work of an agent. It asks the store, and not etcd: that is asked from then on, also where it is away now.
// The error is ErrNoIdentity where the store wasn't opened with Namespaces, ErrBadConfig, also where it has more than
// MostTenants, or that of the store.
func New(ctx context.Context, config Config) (*Agent, error) {
	if err := config.complete(); err != nil {
		return nil, err
	}
	quotas, err := config.Store.Quotas(ctx)
	if err != nil {
		return nil, err
	}
	store, tenants, err := identityOf(quotas)
	if err != nil {
		return nil, err
	}
	if len(tenants) > MostTenants {
		return nil, fmt.Errorf("%w: %d tenants, and %d are the most", ErrBadConfig, len(tenants), MostTenants)
	}
	var bits [8]byte
	if _, err := rand.Read(bits[:]); err != nil {
		return nil, err
	}
	now := time.Now()
	a := &Agent{
		config: config, transactions: transactions{kv: config.Client.KV, keys: keysOf(config.Prefix)}, tenants: map[string]*tenant{},
		store: store, process: hex.EncodeToString(bits[:]), settled: make(chan struct{}), ended: make(chan struct{}),
		join: make(chan struct{}, 1), counters: counters{answered: now, status: Status{Since: now}},
		rooms: rooms{make(chan struct{}, 1), map[string]*snapshot{}}, renewal: renewal{is: make(chan struct{})}, told: renewal{is: make(chan struct{})},
	}
	a.generation.Store(noGeneration)
	a.ctx, a.cancel = context.WithCancel(context.Background())
	for _, name := range tenants {
		a.tenants[name] = newTenant(name)
	}
	a.unsettled.Store(int64(len(tenants)))
	if len(tenants) == 0 {
		close(a.settled)
	}
	a.tell()
	a.config.note(event{Kind: begun, By: a.process})
	a.join <- struct{}{}
	a.start(a.keepJoined, a.followStores, a.present)
	for _, t := range a.tenants {
		t := t
		a.start(func() { a.keep(t) }, func() { a.follow(t) })
	}
	return a, nil
}

func (a *Agent) start(loops ...func()) {
	a.group.Add(len(loops))
	for _, it := range loops {
		it := it
		go func() {
			defer a.group.Done()
			it()
		}()
	}
}

// Close ends the work. Calls that wait for a grant end with ErrClosed, and Close waits for those that are being made. The
// store stays open, keeps what it is granted, and goes on charging within that; another agent may go on with it.
func (a *Agent) Close() {
	a.mutex.Lock()
	a.isClosed = true
	a.mutex.Unlock()
	a.cancel()
	a.calls.Wait()
	a.group.Wait()
}

// Identity is the store's, as its log has it.
func (a *Agent) Identity() string { return a.store }

// Status tells the agent's state.
func (a *Agent) Status() Status {
	a.mutex.Lock()
	defer a.mutex.Unlock()
	return a.status
}

// Ended is closed once the agent has come to an end: Forgotten, LimitAboveGrant or Copied. Status says which.
func (a *Agent) Ended() <-chan struct{} { return a.ended }

// Settled is closed once all tenants have been settled for the first time.
func (a *Agent) Settled() <-chan struct{} { return a.settled }

// Metrics tells the counters. It asks the store, and not etcd.
func (a *Agent) Metrics(ctx context.Context) (Metrics, error) {
	quotas, err := a.config.Store.Quotas(ctx)
	if err != nil {
		return Metrics{}, err
	}
	a.mutex.Lock()
	metrics := a.all
	metrics.SinceEtcd = time.Since(a.answered)
	a.mutex.Unlock()
	metrics.Tenants = map[string]TenantMetrics{}
	for name, t := range a.tenants {
		t.mutex.Lock()
		metrics.Tenants[name] = TenantMetrics{t.granted, quotas[name].Charged, quotas[name].Free, t.waits}
		t.mutex.Unlock()
	}
	return metrics, nil
}

// Charge makes a call that charges a tenant, as Prepare, Charge or Put of a store. Where the store refuses it as
// pibroulez.ErrOverLimit, the agent gets enough granted that `need` more is free, and makes it again. need is all that
// the call charges beyond what is charged now.
//
// The error is the call's own, or a *Refused where no room was found, or a *StateError where the agent has come to an
// end, or still settles and Config.Start is AfterSettling. pibroulez.ErrNoNamespace is of a tenant that the store
// doesn't have. Where the call is granted within the store's own limit, etcd isn't asked.
func (a *Agent) Charge(ctx context.Context, tenant string, need Usage, call func(context.Context) error) error {
	t := a.tenants[tenant]
	if t == nil {
		return fmt.Errorf("%w: %q", pibroulez.ErrNoNamespace, tenant)
	}
	if err := a.enter(); err != nil {
		return err
	}
	defer a.calls.Done()
	begin := time.Now()
	if err := a.ready(ctx); err != nil {
		return err
	}
	t.charged.Store(begin.UnixNano())
	err := call(ctx)
	isWaiting := errors.Is(err, pibroulez.ErrOverLimit)
	if isWaiting {
		err = a.obtain(ctx, t, need, call)
	}
	if err == nil {
		took := time.Since(begin)
		a.count(func(m *Metrics) {
			if isWaiting {
				m.With.add(took)
			} else {
				m.Without.add(took)
			}
		})
	}
	return err
}

func (a *Agent) enter() error {
	a.mutex.Lock()
	defer a.mutex.Unlock()
	if a.isClosed {
		return ErrClosed
	}
	a.calls.Add(1)
	return nil
}

// Waits as long as charges are to wait.
func (a *Agent) ready(ctx context.Context) error {
	select {
	case <-a.ended:
		return a.end
	default:
	}
	if a.config.Start == AtOnce {
		return nil
	}
	select {
	case <-a.settled:
		return nil
	default:
	}
	patience := time.NewTimer(a.config.Patience)
	defer patience.Stop()
	select {
	case <-a.settled:
		return nil
	case <-a.ended:
		return a.end
	case <-ctx.Done():
		return ctx.Err()
	case <-a.ctx.Done():
		return ErrClosed
	case <-patience.C:
		return &StateError{State: Settling, Store: a.store, Cause: a.Status().Err}
	}
}

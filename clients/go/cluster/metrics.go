package cluster

import (
	"sync"
	"time"
)

// Metrics are an agent's counters, since it began, and what it is charged now.
type Metrics struct {
	Tenants map[string]TenantMetrics
	// Raises and Lowerings are of the store's own limits, by this agent. Settles are grants that were set to those.
	Raises, Lowerings, Settles uint64
	// LostCompares are transactions that weren't carried out, since a key had changed meanwhile. Unanswered are those
	// whose answer never came.
	LostCompares, Unanswered uint64
	// Reads are those of a tenant's record, shards and grant.
	Reads uint64
	// Divisions are how often this agent has divided a pool among more shards.
	Divisions uint64
	// Recalls are how often this store has asked others to give back.
	Recalls uint64
	// RefusalsWithRoom are refused charges for which another node that answers had enough in both quantities, as it had
	// told last.
	RefusalsWithRoom uint64
	// SinceEtcd is how long ago etcd last answered, or how long ago the agent began.
	SinceEtcd time.Duration
	// Without are charges that didn't wait for a grant, and With those that did. Refused ones aren't counted.
	Without, With Latency
}

// TenantMetrics are what a store has of a tenant.
type TenantMetrics struct {
	// Granted is the grant as the agent knows it, Charged what the store charges, and Idle what of its limit it doesn't.
	Granted, Charged, Idle Usage
	// Wants is how many charges wait for a grant.
	Wants int
}

// Bounds are the upper ends of the parts of a Latency; the last one has none.
var Bounds = [...]time.Duration{
	100 * time.Microsecond, 250 * time.Microsecond, 500 * time.Microsecond, time.Millisecond, 2500 * time.Microsecond,
	5 * time.Millisecond, 10 * time.Millisecond, 25 * time.Millisecond, 100 * time.Millisecond, time.Second,
}

// A Latency is how long calls took.
type Latency struct {
	// Counts are those of at most each of Bounds and above the one before, and last those above all.
	Counts [len(Bounds) + 1]uint64
	Count  uint64
	Sum    time.Duration
}

func (l *Latency) add(took time.Duration) {
	at := 0
	for at < len(Bounds) && took > Bounds[at] {
		at++
	}
	l.Counts[at]++
	l.Count++
	l.Sum += took
}

// The counters, and the state.
type counters struct {
	mutex  sync.Mutex
	all    Metrics
	status Status
	// When etcd answered last, and why it is away, or nil.
	answered time.Time
	away     *StateError
}

func (c *counters) count(do func(*Metrics)) {
	c.mutex.Lock()
	defer c.mutex.Unlock()
	do(&c.all)
}

package main

import (
	"context"
	"errors"
	"fmt"
	"math"
	"time"

	"github.com/prometheus/client_golang/prometheus"
	"go.etcd.io/etcd/clientv3"

	"pibroulez.example/pibroulez"
	"pibroulez.example/pibroulez/cluster"
	"pibroulez.example/pibroulez/cluster/dial"
	"pibroulez.example/pibroulez/pibroulezd/configuration"
	"pibroulez.example/pibroulez/pibroulezd/door"
)

// The error of a daemon whose store must not go on, as its cluster has it.
var errOutOfCluster = errors.New("the store is none of its cluster any more")

// A node has the limits of a cluster for its store. A nil one is in none.
type node struct {
	client *clientv3.Client
	agent  *cluster.Agent
}

// Has a store charge within the limits of the cluster. It waits until all tenants are settled, so that the first charges
// aren't refused for that, and for an etcd that doesn't answer as long as a charge does.
func join(ctx context.Context, store *pibroulez.Store, c *configuration.Configuration) (*node, error) {
	it := c.Cluster
	client, err := dial.Client(dial.Config{Endpoints: it.Endpoints, Authority: it.Authority, Certificate: it.Certificate, Key: it.Key})
	if err != nil {
		return nil, err
	}
	config := cluster.Config{
		Client: client, Prefix: it.Prefix, Node: it.Node, Store: store, Start: cluster.AtOnce, Batch: it.Batch, Share: it.Share,
		Patience: it.Patience, Idle: it.Idle, Local: map[string]pibroulez.Usage{},
	}
	if it.IsSettled {
		config.Start = cluster.AfterSettling
	}
	for name, tenant := range c.Tenants {
		if most := uint64(configuration.MostLimit); tenant.Limit != (pibroulez.Usage{Blocks: most, Inodes: most}) {
			config.Local[name] = tenant.Limit
		}
	}
	agent, err := cluster.New(ctx, config)
	if err != nil {
		client.Close()
		return nil, err
	}
	late, cancel := context.WithTimeout(ctx, it.Patience)
	defer cancel()
	select {
	case <-agent.Settled():
	case <-agent.Ended():
	case <-late.Done():
	}
	return &node{client, agent}, nil
}

// Leaves the work. The store keeps what it is granted.
func (n *node) leave() {
	if n != nil {
		n.agent.Close()
		n.client.Close()
	}
}

// Is closed once the store must not go on.
func (n *node) ended() <-chan struct{} {
	if n == nil {
		return nil
	}
	return n.agent.Ended()
}

func (n *node) end() error { return fmt.Errorf("%w: %v", errOutOfCluster, n.agent.Status().Err) }

func (n *node) chargeOfContainerd() func(context.Context, string, pibroulez.Usage, func(context.Context) error) error {
	if n == nil {
		return nil
	}
	return n.agent.Charge
}

func (n *node) chargeOfLines() func(context.Context, string, pibroulez.Usage, func(context.Context) error) error {
	if n == nil {
		return nil
	}
	return func(ctx context.Context, tenant string, need pibroulez.Usage, call func(context.Context) error) error {
		err := n.agent.Charge(ctx, tenant, need, call)
		var refused *cluster.Refused
		var state *cluster.StateError
		switch {
		case errors.As(err, &refused):
			return &door.OverLimit{Free: refused.Free, Words: err.Error()}
		case errors.As(err, &state):
			return &door.OverLimit{Words: err.Error()}
		case errors.Is(err, pibroulez.ErrNoNamespace):
			// The store says it of each line itself.
			return call(ctx)
		}
		return err
	}
}

func (n *node) metrics() []prometheus.Collector {
	if n == nil {
		return nil
	}
	return []prometheus.Collector{&clusterMetrics{n.agent}}
}

// Asks an agent for its counters at each scrape.
type clusterMetrics struct{ agent *cluster.Agent }

func described(name, help string, labels ...string) *prometheus.Desc {
	return prometheus.NewDesc("pibroulez_cluster_"+name, help, labels, nil)
}

var (
	stateDesc     = described("state", "1 for the state that the agent is in.", "state")
	grantedDesc   = described("granted", "What of the tenant's limit this store is granted.", "tenant", "quantity")
	chargedDesc   = described("charged", "What of that it charges.", "tenant", "quantity")
	idleDesc      = described("idle", "What of its own limit it doesn't.", "tenant", "quantity")
	wantsDesc     = described("wants", "The charges that wait for a grant.", "tenant")
	sinceEtcdDesc = described("etcd_answered_seconds", "How long ago etcd has answered.")
	chargeDesc    = described("charge_seconds", "How long granted charges took, with a new grant and without.", "grant")
)

// What is counted since the agent began.
var counted = []struct {
	desc *prometheus.Desc
	of   func(cluster.Metrics) uint64
}{
	{described("raises_total", "How often a limit of the store was raised."), func(m cluster.Metrics) uint64 { return m.Raises }},
	{described("lowerings_total", "How often one was lowered."), func(m cluster.Metrics) uint64 { return m.Lowerings }},
	{described("settles_total", "How often a grant was set to the store's own limit."), func(m cluster.Metrics) uint64 { return m.Settles }},
	{described("lost_compares_total", "The transactions that came after a change of another."), func(m cluster.Metrics) uint64 { return m.LostCompares }},
	{described("divisions_total", "How often a pool was divided among more shards."), func(m cluster.Metrics) uint64 { return m.Divisions }},
	{described("unanswered_total", "The transactions whose answer never came."), func(m cluster.Metrics) uint64 { return m.Unanswered }},
	{described("recalls_total", "How often others were asked to give back."), func(m cluster.Metrics) uint64 { return m.Recalls }},
	{described("refusals_with_room_total", "The refused charges for which another node had room."), func(m cluster.Metrics) uint64 { return m.RefusalsWithRoom }},
}

// Describe tells nothing: what there is is known when it is asked for.
func (c *clusterMetrics) Describe(chan<- *prometheus.Desc) {}

// Collect asks the agent, which asks the store.
func (c *clusterMetrics) Collect(to chan<- prometheus.Metric) {
	ctx, cancel := context.WithTimeout(context.Background(), 10*time.Second)
	defer cancel()
	metrics, err := c.agent.Metrics(ctx)
	if err != nil {
		to <- prometheus.NewInvalidMetric(sinceEtcdDesc, err)
		return
	}
	gauge := func(desc *prometheus.Desc, value float64, labels ...string) {
		to <- prometheus.MustNewConstMetric(desc, prometheus.GaugeValue, value, labels...)
	}
	gauge(stateDesc, 1, string(c.agent.Status().State))
	gauge(sinceEtcdDesc, metrics.SinceEtcd.Seconds())
	for name, tenant := range metrics.Tenants {
		for desc, usage := range map[*prometheus.Desc]pibroulez.Usage{grantedDesc: tenant.Granted, chargedDesc: tenant.Charged, idleDesc: tenant.Idle} {
			gauge(desc, float64(usage.Blocks), name, "blocks")
			gauge(desc, float64(usage.Inodes), name, "inodes")
		}
		gauge(wantsDesc, float64(tenant.Wants), name)
	}
	for _, it := range counted {
		to <- prometheus.MustNewConstMetric(it.desc, prometheus.CounterValue, float64(it.of(metrics)))
	}
	to <- histogram(metrics.Without, "without")
	to <- histogram(metrics.With, "with")
}

// A latency with the number of all that took at most each bound.
func histogram(latency cluster.Latency, grant string) prometheus.Metric {
	buckets, sum := map[float64]uint64{}, uint64(0)
	for i, bound := range cluster.Bounds {
		sum += latency.Counts[i]
		buckets[bound.Seconds()] = sum
	}
	return prometheus.MustNewConstHistogram(chargeDesc, latency.Count, math.Max(0, latency.Sum.Seconds()), buckets, grant)
}

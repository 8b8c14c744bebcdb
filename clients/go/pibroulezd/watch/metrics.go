package watch

import (
	"context"

	"github.com/prometheus/client_golang/prometheus"

	"pibroulez.example/pibroulez"
	"pibroulez.example/pibroulez/pibroulezd/door"
)

// Asks the store for all that is told, at each scrape.
type collector struct{ config Config }

func described(name, help string, labels ...string) *prometheus.Desc {
	return prometheus.NewDesc("pibroulez_"+name, help, labels, nil)
}

// Of each tenant, in blocks of 4096 bytes and in inodes.
var ofTenants = []struct {
	desc *prometheus.Desc
	of   func(pibroulez.Quota) pibroulez.Usage
}{
	{described("tenant_limit", "The tenant's limit.", "tenant", "quantity"), func(q pibroulez.Quota) pibroulez.Usage { return q.Limit }},
	{described("tenant_charged", "What the tenant is charged.", "tenant", "quantity"), func(q pibroulez.Quota) pibroulez.Usage { return q.Charged }},
	{described("tenant_committed", "What of that is for committed snapshots.", "tenant", "quantity"), func(q pibroulez.Quota) pibroulez.Usage { return q.Committed }},
	{described("tenant_open", "What of that is for active snapshots.", "tenant", "quantity"), func(q pibroulez.Quota) pibroulez.Usage { return q.Open }},
	{described("tenant_spare", "What of the latter their layers don't take.", "tenant", "quantity"), func(q pibroulez.Quota) pibroulez.Usage { return q.Spare }},
	{described("tenant_free", "What the limit leaves.", "tenant", "quantity"), func(q pibroulez.Quota) pibroulez.Usage { return q.Free }},
}

var (
	snapshotsDesc   = described("snapshots", "The snapshots.", "tenant", "kind")
	entriesDesc     = described("journal_entries", "The entries of the journal's round.")
	logBytesDesc    = described("log_bytes", "The bytes of the log's lines.")
	logAppendsDesc  = described("log_appends_total", "The appends to the log, each with two syncs: at first those whose marks it has.")
	connectionsDesc = described("connections", "The connections of the door for lines.")
	linesDesc       = described("lines_total", "The lines that the door has read.")
	faultsDesc      = described("line_faults_total", "The lines that the store took for no command.")
	refusalsDesc    = described("line_refusals_total", "The lines that were refused, by the refusal's name.", "refusal")
)

// Describe tells nothing: what there is is known when it is asked for.
func (c *collector) Describe(chan<- *prometheus.Desc) {}

// Collect asks the store. What it doesn't answer is an error of the scrape.
func (c *collector) Collect(to chan<- prometheus.Metric) {
	ctx, cancel := context.WithTimeout(context.Background(), patience)
	defer cancel()
	if err := c.collect(ctx, to); err != nil {
		to <- prometheus.NewInvalidMetric(entriesDesc, err)
	}
}

func (c *collector) collect(ctx context.Context, to chan<- prometheus.Metric) error {
	report, err := c.config.Store.Report(ctx)
	if err != nil {
		return err
	}
	quotas, err := c.config.Store.Quotas(ctx)
	if err != nil {
		return err
	}
	gauge := func(desc *prometheus.Desc, value uint64, labels ...string) {
		to <- prometheus.MustNewConstMetric(desc, prometheus.GaugeValue, float64(value), labels...)
	}
	count := func(desc *prometheus.Desc, value uint64, labels ...string) {
		to <- prometheus.MustNewConstMetric(desc, prometheus.CounterValue, float64(value), labels...)
	}
	gauge(entriesDesc, report.Entries)
	for tenant, quota := range quotas {
		for _, it := range ofTenants {
			gauge(it.desc, it.of(quota).Blocks, tenant, "blocks")
			gauge(it.desc, it.of(quota).Inodes, tenant, "inodes")
		}
		kinds, err := c.kindsOf(ctx, tenant)
		if err != nil {
			return err
		}
		for kind, number := range kinds {
			gauge(snapshotsDesc, number, tenant, string(kind))
		}
	}
	appends, err := c.config.Store.LogAppends()
	if err != nil {
		return err
	}
	gauge(logBytesDesc, c.config.Store.LogBytes())
	count(logAppendsDesc, appends)
	if c.config.Counts != nil {
		tellCounts(c.config.Counts(), gauge, count)
	}
	return nil
}

// Tells the counts of the door for lines.
func tellCounts(counts door.Counts, gauge, count func(*prometheus.Desc, uint64, ...string)) {
	gauge(connectionsDesc, uint64(counts.Connections))
	count(linesDesc, counts.Lines)
	count(faultsDesc, counts.Faults)
	for name, number := range counts.Refusals {
		count(refusalsDesc, number, string(name))
	}
}

// How many snapshots a tenant has of each kind.
func (c *collector) kindsOf(ctx context.Context, tenant string) (map[pibroulez.Kind]uint64, error) {
	kinds := map[pibroulez.Kind]uint64{pibroulez.KindActive: 0, pibroulez.KindCommitted: 0, pibroulez.KindView: 0}
	nodes, err := c.config.Store.Tree(ctx, tenant)
	for _, it := range nodes {
		kinds[it.Kind]++
	}
	return kinds, err
}

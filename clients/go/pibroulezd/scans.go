package main

import (
	"github.com/prometheus/client_golang/prometheus"

	"pibroulez.example/pibroulez/containerd"
)

// Asks at each scrape what the door for containerd has read of directories.
type scanMetrics struct{ scans func() containerd.Scans }

func describedOfScans(name, help string, labels ...string) *prometheus.Desc {
	return prometheus.NewDesc("pibroulez_"+name, help, labels, nil)
}

var (
	scansDesc         = describedOfScans("scans_total", "The directories of active snapshots that were read.")
	scanSecondsDesc   = describedOfScans("scan_seconds_total", "How long that took.")
	sharedDesc        = describedOfScans("shared_scans_total", "The questions that had the answer to another one.")
	snapshotsOverDesc = describedOfScans("snapshots_over", "The active snapshots with more than the tenant's limit covers.", "tenant")
	overDesc          = describedOfScans("over", "What of them it doesn't cover.", "tenant", "quantity")
)

// Describe tells nothing: the tenants are known when it is asked for.
func (m *scanMetrics) Describe(chan<- *prometheus.Desc) {}

// Collect tells what was read and found.
func (m *scanMetrics) Collect(to chan<- prometheus.Metric) {
	told := m.scans()
	count := func(desc *prometheus.Desc, value float64) {
		to <- prometheus.MustNewConstMetric(desc, prometheus.CounterValue, value)
	}
	gauge := func(desc *prometheus.Desc, value uint64, labels ...string) {
		to <- prometheus.MustNewConstMetric(desc, prometheus.GaugeValue, float64(value), labels...)
	}
	count(scansDesc, float64(told.Number))
	count(scanSecondsDesc, told.Took.Seconds())
	count(sharedDesc, float64(told.Shared))
	for tenant, it := range told.Over {
		gauge(snapshotsOverDesc, uint64(it.Snapshots), tenant)
		gauge(overDesc, it.Above.Blocks, tenant, "blocks")
		gauge(overDesc, it.Above.Inodes, tenant, "inodes")
	}
}

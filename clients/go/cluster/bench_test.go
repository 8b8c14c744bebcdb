package cluster

import (
	"context"
	"fmt"
	"sort"
	"testing"
	"time"
)

// What a charge takes: by the store alone, by an agent within the grant, and by one that needs a grant each time. Beside
// the mean it tells the median.
func BenchmarkCharge(b *testing.B) {
	for _, it := range []struct {
		name              string
		hasAgent, isExact bool
	}{{"store alone", false, false}, {"within the grant", true, false}, {"a grant each", true, true}} {
		b.Run(it.name, func(b *testing.B) {
			w := newWorld(b)
			w.limit("a", 1<<30, 1<<30)
			one := w.node("one", func(c *Config) {
				c.Share, c.Batch = 1, usage(1<<29, 1<<29)
				if it.isExact {
					c.Batch = usage(0, 1<<20)
				}
			}).settle()
			must(0, one.take("a", "k", usage(1, 1)))(b)
			took := make([]time.Duration, 0, b.N)
			b.ResetTimer()
			for i := 0; i < b.N; i++ {
				begin := time.Now()
				call := func(ctx context.Context) error {
					_, err := one.st.Charge(ctx, "a", "k", usage(uint64(i+2), 1))
					return err
				}
				err := error(nil)
				if it.hasAgent {
					err = one.Charge(ctx, "a", usage(1, 0), call)
				} else {
					err = call(ctx)
				}
				must(0, err)(b)
				took = append(took, time.Since(begin))
			}
			b.StopTimer()
			sort.Slice(took, func(i, j int) bool { return took[i] < took[j] })
			b.ReportMetric(float64(took[len(took)/2].Microseconds()), "us-median")
		})
	}
}

// What a transaction of a grant takes, which is a round trip to etcd: one that is as it was, and of several stores at one
// tenant.
func BenchmarkGrants(b *testing.B) {
	for _, stores := range []int{1, 4, 16} {
		b.Run(fmt.Sprint(stores, " stores at one tenant"), func(b *testing.B) {
			w := newWorld(b)
			w.limit("a", 1<<30, 1<<30)
			ends := make(chan error)
			var nodes []*node
			for i := 0; i < stores; i++ {
				nodes = append(nodes, w.node(fmt.Sprint("n", i), func(c *Config) { c.Share, c.Batch = 1, usage(0, 0) }).settle())
			}
			b.ResetTimer()
			for _, n := range nodes {
				n := n
				go func() {
					var err error
					for i := 0; i < (b.N+stores-1)/stores && err == nil; i++ {
						err = n.take("a", fmt.Sprint(i), usage(1, 1))
					}
					ends <- err
				}()
			}
			for range nodes {
				must(0, <-ends)(b)
			}
			b.StopTimer()
			lost := uint64(0)
			for _, n := range nodes {
				lost += must(n.Metrics(ctx))(b).LostCompares
			}
			b.ReportMetric(float64(lost)/float64(b.N), "lost/op")
		})
	}
}

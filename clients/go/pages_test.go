package pibroulez

import (
	"errors"
	"fmt"
	"testing"
)

// What a call for each of them has visited.
func all[T any](t *testing.T, each func(func(T) error) error) []T {
	t.Helper()
	var visited []T
	granted(t, each(func(it T) error { visited = append(visited, it); return nil }))
	return visited
}

// Pages of 64, also where the last one is full, and where there is none.
func TestPages(t *testing.T) {
	for _, count := range []int{0, 64, 130} {
		store := newStore(t, Usage{1000, 1000})
		commitEmpty(t, store, "base", "")
		must[Prepared](t)(store.Prepare(ctx, "a", "k", ""))
		for n := 0; n < count; n++ {
			must[Viewed](t)(store.View(ctx, "a", fmt.Sprintf("v%03d", n), "base"))
			must[Changed](t)(store.Create(ctx, "a", "k", fmt.Sprintf("/%03d", n)))
			granted(t, store.LeaseCreate(ctx, "a", fmt.Sprintf("l%03d", n)))
		}
		views := all(t, func(visit func(Info) error) error { return store.WalkAll(ctx, "a", Filter{Kind: KindView}, visit) })
		tree := all(t, func(visit func(Node) error) error { return store.TreeAll(ctx, "a", visit) })
		equal(t, tree, must[[]Node](t)(store.Tree(ctx, "a")))
		equal(t, tree[0], Node{Key: "base", Kind: KindCommitted, ID: 1, Usage: Usage{1, 1}, Children: count})
		changes := all(t, func(visit func(Change) error) error { return store.DiffAll(ctx, "a", "k", visit) })
		leases := all(t, func(visit func(Lease) error) error { return store.LeasesAll(ctx, "a", visit) })
		entries := all(t, func(visit func(Entry) error) error { return store.JournalAll(ctx, "a", 1, visit) })
		equal(t, []int{len(views), len(tree), len(changes), len(leases)}, []int{count, count + 2, count + 1, count})
		for n := 0; n < count; n++ {
			equal(t, views[n].Name, fmt.Sprintf("v%03d", n))
			equal(t, changes[n+1], Change{"added", fmt.Sprintf("/%03d", n)})
			equal(t, leases[n].Name, fmt.Sprintf("l%03d", n))
		}
		// The first entry is the session's, and a file command that needs a charge makes one.
		report := must[Report](t)(store.Report(ctx))
		equal(t, uint64(len(entries)), report.Entries-1)
		for n, entry := range entries {
			equal(t, entry.Number, uint64(n)+2)
		}
	}
}

func TestEndOfPages(t *testing.T) {
	store := newStore(t, Usage{1000, 1000})
	commitEmpty(t, store, "base", "")
	enough, visited := errors.New("enough"), 0
	stop := func() error { visited++; return enough }
	isError(t, store.WalkAll(ctx, "a", Filter{}, func(Info) error { return stop() }), enough)
	isError(t, store.TreeAll(ctx, "a", func(Node) error { return stop() }), enough)
	isError(t, store.DiffAll(ctx, "a", "base", func(Change) error { return stop() }), enough)
	isError(t, store.FullJournalAll(ctx, "a", 0, func(Entry) error { return stop() }), enough)
	equal(t, visited, 4)
	isError(t, store.WalkAll(ctx, "b", Filter{}, func(Info) error { return stop() }), ErrNoNamespace)
	isError(t, store.TreeAll(ctx, "b", func(Node) error { return stop() }), ErrNoNamespace)
	isError(t, store.LeasesAll(ctx, "b", func(Lease) error { return stop() }), ErrNoNamespace)
	equal(t, visited, 4)
}

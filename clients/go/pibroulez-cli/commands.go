package main

import (
	"context"
	"fmt"
	"strconv"
	"strings"

	"pibroulez.example/pibroulez"
	"pibroulez.example/pibroulez/told"
)

func quota(ctx context.Context, store *pibroulez.Store, given words) (answer, error) {
	quotas := map[string]pibroulez.Quota{}
	var err error
	if len(given.rest) > 1 {
		quotas[given.rest[1]], err = store.Quota(ctx, given.rest[1])
	} else {
		quotas, err = store.Quotas(ctx)
	}
	it := answer{value: quotas, columns: []string{
		"TENANT", ">BLOCKS", ">RESERVED", ">FREE", ">LIMIT", ">INODES", ">RESERVED", ">FREE", ">LIMIT",
	}}
	for _, name := range told.Sorted(quotas) {
		q := quotas[name]
		it.rows = append(it.rows, []any{
			told.Name(name), q.Charged.Blocks, q.Spare.Blocks, q.Free.Blocks, q.Limit.Blocks,
			q.Charged.Inodes, q.Spare.Inodes, q.Free.Inodes, q.Limit.Inodes,
		})
	}
	return it, err
}

func limit(ctx context.Context, store *pibroulez.Store, given words) (answer, error) {
	usage, err := usageOf(given.rest[2])
	if err != nil {
		return answer{}, err
	}
	if err := store.Limit(ctx, given.rest[1], usage); err != nil {
		return answer{}, err
	}
	return quota(ctx, store, given)
}

func tenantAdd(ctx context.Context, store *pibroulez.Store, given words) (answer, error) {
	if pibroulez.IsIdentity(given.rest[1]) {
		return answer{}, fmt.Errorf("%w: %q is a name for the identity of a store, and no tenant's", errWords, given.rest[1])
	}
	usage, err := usageOf(given.rest[2])
	if err != nil {
		return answer{}, err
	}
	if err := store.NamespaceCreate(ctx, given.rest[1], usage); err != nil {
		return answer{}, err
	}
	return quota(ctx, store, given)
}

func tenantRemove(ctx context.Context, store *pibroulez.Store, given words) (answer, error) {
	name := given.rest[1]
	if err := store.NamespaceRemove(ctx, name); err != nil {
		return answer{}, err
	}
	return answer{value: map[string]string{"removed": name}, words: fmt.Sprintf("removed %s\n", told.Name(name))}, nil
}

func tree(ctx context.Context, store *pibroulez.Store, given words) (answer, error) {
	nodes, err := store.Tree(ctx, given.rest[1])
	it := answer{value: orEmpty(nodes), columns: []string{"SNAPSHOT", "KIND", ">ID", ">BLOCKS", ">INODES", ">CHILDREN"}}
	on := map[string][]pibroulez.Node{}
	for _, node := range nodes {
		on[node.Parent] = append(on[node.Parent], node)
	}
	var add func(parent string, depth int)
	add = func(parent string, depth int) {
		for _, node := range on[parent] {
			name := strings.Repeat("  ", depth) + told.Name(node.Key)
			it.rows = append(it.rows, []any{name, node.Kind, node.ID, node.Usage.Blocks, node.Usage.Inodes, node.Children})
			add(node.Key, depth+1)
		}
	}
	add("", 0)
	return it, err
}

func diskUsage(ctx context.Context, store *pibroulez.Store, given words) (answer, error) {
	path := "/"
	if len(given.rest) > 3 {
		path = given.rest[3]
	}
	usage, err := store.DiskUsage(ctx, given.rest[1], given.rest[2], path, pibroulez.WithPeek())
	return answer{
		value: usage, columns: []string{">BLOCKS", ">INODES", "PATH"}, rows: [][]any{{usage.Blocks, usage.Inodes, told.Name(path)}},
	}, err
}

// What a change is told by, as of other tools for layers.
var letters = map[string]string{"added": "A", "changed": "C", "removed": "D"}

func diff(ctx context.Context, store *pibroulez.Store, given words) (answer, error) {
	changes := []pibroulez.Change{}
	var text strings.Builder
	err := store.DiffAll(ctx, given.rest[1], given.rest[2], func(it pibroulez.Change) error {
		hasRead(ctx, 1)
		changes = append(changes, it)
		fmt.Fprintf(&text, "%s %s\n", letters[it.Change], told.Name(it.Path))
		return nil
	})
	return answer{value: changes, words: text.String()}, err
}

func journal(ctx context.Context, store *pibroulez.Store, given words) (answer, error) {
	namespace, page := "", store.JournalAll
	if len(given.rest) > 1 {
		namespace = given.rest[1]
	}
	if given.isFull {
		page = store.FullJournalAll
	}
	// The last ones of a tenant aren't known by their numbers, so all are gone through.
	entries := []pibroulez.Entry{}
	err := page(ctx, namespace, 0, func(it pibroulez.Entry) error {
		hasRead(ctx, 1)
		if entries = append(entries, it); uint64(len(entries)) > given.last {
			entries = entries[1:]
		}
		return nil
	})
	it := answer{value: entries, columns: []string{">ENTRY", ">SESSION", "CALL", "TENANT", "KEY", ">ID", "REFUSED"}}
	if given.isFull {
		it.columns = append(it.columns, "LINE")
	}
	for _, entry := range entries {
		tenant, key, id := orBlank(entry.Namespace), orBlank(entry.Key), ""
		if namespace != "" {
			tenant = told.Name(namespace)
		}
		if entry.ID > 0 {
			id = strconv.FormatUint(entry.ID, 10)
		}
		row := []any{entry.Number, entry.Session, entry.Call, tenant, key, id, entry.Refused}
		if given.isFull {
			row = append(row, orBlank(entry.Line))
		}
		it.rows = append(it.rows, row)
	}
	return it, err
}

func leases(ctx context.Context, store *pibroulez.Store, given words) (answer, error) {
	all, err := store.Leases(ctx, given.rest[1])
	it := answer{value: orEmpty(all), columns: []string{"LEASE", ">UNTIL", "SNAPSHOTS"}}
	for _, lease := range all {
		until := "-"
		if lease.Until != nil {
			until = strconv.FormatUint(*lease.Until, 10)
		}
		it.rows = append(it.rows, []any{told.Name(lease.Name), until, strings.Join(names(lease.Names), " ")})
	}
	return it, err
}

func sweep(ctx context.Context, store *pibroulez.Store, given words) (answer, error) {
	moment, err := strconv.ParseUint(given.rest[2], 10, 64)
	if err != nil {
		return answer{}, fmt.Errorf("%w: %q is no moment", errWords, given.rest[2])
	}
	var swept pibroulez.Swept
	if given.isTry {
		swept, err = store.TrySweep(ctx, given.rest[1], moment)
	} else {
		swept, err = store.Sweep(ctx, given.rest[1], moment)
	}
	verb := "removed"
	if given.isTry {
		verb = "would remove"
	}
	var text strings.Builder
	for _, name := range names(swept.Removed) {
		fmt.Fprintln(&text, name)
	}
	fmt.Fprintf(&text, "%s %d snapshots with %v, and %d leases\n", verb, len(swept.Removed), swept.Freed, swept.Leases)
	return answer{value: swept, words: text.String()}, err
}

func names(of []string) []string {
	all := make([]string, 0, len(of))
	for _, it := range of {
		all = append(all, told.Name(it))
	}
	return all
}

func orBlank(name string) string {
	if name == "" {
		return ""
	}
	return told.Name(name)
}

func orEmpty[T any](of []T) []T {
	if of == nil {
		return []T{}
	}
	return of
}

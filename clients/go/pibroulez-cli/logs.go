package main

import (
	"context"
	"errors"
	"fmt"
	"io"
	"io/fs"
	"os"
	"path/filepath"
	"reflect"
	"strings"

	"pibroulez.example/pibroulez"
	"pibroulez.example/pibroulez/told"
)

var (
	errDiffer    = errors.New("the stores differ")
	errNoRegular = errors.New("it is no regular file")
	errShortened = errors.New("the log was made short meanwhile, each time")
)

// How many bytes are copied before it is asked again whether they are wanted.
const mostCopied = 64 << 20

// A command on the stores of logs: each log is copied, so that it stays as it is, and another process may have it meanwhile,
// and a process over the copy carries out its lines.
func onLogs(do func(context.Context, []*pibroulez.Store) (answer, error)) func(context.Context, words) (answer, error) {
	return func(ctx context.Context, given words) (answer, error) {
		folder, err := os.MkdirTemp("", "pibroulez-")
		if err != nil {
			return answer{}, err
		}
		defer os.RemoveAll(folder)
		var stores []*pibroulez.Store
		for number, path := range given.rest[1:] {
			store, err := storeOfLog(ctx, given.program, path, filepath.Join(folder, fmt.Sprint(number)))
			if err != nil {
				return answer{}, err
			}
			defer store.Close()
			stores = append(stores, store)
		}
		return do(ctx, stores)
	}
}

// The store that a log tells, by a process over a copy.
func storeOfLog(ctx context.Context, program, path, copied string) (*pibroulez.Store, error) {
	if err := copyLog(ctx, path, copied); err != nil {
		return nil, err
	}
	store, err := pibroulez.Open(ctx, program, copied)
	// The error names the copy.
	if bad := new(pibroulez.BadLog); errors.As(err, &bad) {
		bad.Path = path
	} else if of := new(fs.PathError); errors.As(err, &of) && of.Path == copied {
		of.Path = path
	}
	return store, err
}

// Copies the file that counts of a log, anew where another one counts then.
func copyLog(ctx context.Context, path, copied string) error {
	for try := 0; try < mostTries; try++ {
		counting := pibroulez.CountingLog(path)
		if err := copyFile(ctx, counting, copied); err != nil {
			return err
		}
		if pibroulez.CountingLog(path) == counting {
			return nil
		}
	}
	return errShortened
}

// The text of the file that counts only grows, and a byte that is written last says how far it goes, so a copy is a log too
// while lines are added.
func copyFile(ctx context.Context, from, to string) error {
	info, err := os.Stat(from)
	if err != nil {
		return err
	}
	if !info.Mode().IsRegular() {
		return &fs.PathError{Op: "copy", Path: from, Err: errNoRegular}
	}
	source, err := os.Open(from)
	if err != nil {
		return err
	}
	defer source.Close()
	target, err := os.OpenFile(to, os.O_WRONLY|os.O_CREATE|os.O_TRUNC, 0o600)
	if err != nil {
		return err
	}
	for err == nil {
		if err = ctx.Err(); err == nil {
			_, err = io.CopyN(target, source, mostCopied)
		}
	}
	if err != io.EOF {
		target.Close()
		return err
	}
	return target.Close()
}

// What a store has of a tenant.
type holding struct {
	Charged   pibroulez.Usage `json:"charged"`
	Limit     pibroulez.Usage `json:"limit"`
	Committed int             `json:"committed"`
	Active    int             `json:"active"`
	Views     int             `json:"views"`
	Leases    int             `json:"leases"`
}

// Says what a log's store has. That the log is whole is what its process has found by the marks.
func logCheck(ctx context.Context, stores []*pibroulez.Store) (answer, error) {
	store := stores[0]
	s, err := look(ctx, store)
	if err != nil {
		return answer{}, err
	}
	tenants := map[string]*holding{}
	it := answer{columns: []string{
		"TENANT", ">BLOCKS", ">LIMIT", ">INODES", ">LIMIT", ">COMMITTED", ">ACTIVE", ">VIEWS", ">LEASES",
	}}
	for _, name := range told.Sorted(s.quotas) {
		leases, err := store.Leases(ctx, name)
		if err != nil {
			return answer{}, err
		}
		h := holdingOf(s.quotas[name], s.trees[name], len(leases))
		tenants[name] = h
		it.rows = append(it.rows, []any{
			told.Name(name), h.Charged.Blocks, h.Limit.Blocks, h.Charged.Inodes, h.Limit.Inodes, h.Committed, h.Active, h.Views, h.Leases,
		})
	}
	faults := s.faults()
	it.value = map[string]any{"entries": s.report.Entries, "faults": faults, "snapshots": s.report.Records, "tenants": tenants}
	s.tell(&it, fmt.Sprintf("the log is whole: %d entries of its last round, ", s.report.Entries), faults)
	return it, nil
}

func holdingOf(quota pibroulez.Quota, nodes []pibroulez.Node, leases int) *holding {
	h := &holding{Charged: quota.Charged, Limit: quota.Limit, Leases: leases}
	for _, it := range nodes {
		switch it.Kind {
		case pibroulez.KindCommitted:
			h.Committed++
		case pibroulez.KindActive:
			h.Active++
		case pibroulez.KindView:
			h.Views++
		}
	}
	return h
}

// A snapshot as a store tells it, but for what is in its layer.
type snapshot struct {
	pibroulez.Info
	Usage pibroulez.Usage `json:"usage"`
}

func (s snapshot) String() string {
	words := fmt.Sprintf("%s %d, %v", s.Kind, s.ID, s.Usage)
	if s.Parent != "" {
		words += " on " + told.Name(s.Parent)
	}
	words += fmt.Sprintf(", made %d, changed %d", s.Created, s.Updated)
	for _, label := range told.Sorted(s.Labels) {
		words += fmt.Sprintf(", %s=%s", told.Name(label), told.Name(s.Labels[label]))
	}
	return words
}

// A lease as it is told.
type lease pibroulez.Lease

func (l lease) String() string {
	words := strings.Join(names(l.Names), " ")
	if l.Until != nil {
		words += fmt.Sprintf(" until %d", *l.Until)
	}
	return strings.TrimSpace(words)
}

// What two stores tell differently: a tenant's limit, one of its snapshots or leases. Nil is what one doesn't have.
type unlike struct {
	Tenant string `json:"tenant"`
	What   string `json:"what"`
	Name   string `json:"name"`
	First  any    `json:"first"`
	Second any    `json:"second"`
}

// The kinds of what a store has of a tenant.
var kindsOfParts = []string{"limit", "snapshot", "lease"}

// What a store has of each tenant, by its kind and its name. A limit has none.
type parts map[string]map[string]map[string]any

func partsOf(ctx context.Context, store *pibroulez.Store) (parts, error) {
	quotas, err := store.Quotas(ctx)
	if err != nil {
		return nil, err
	}
	all := parts{}
	for name, quota := range quotas {
		snapshots, err := snapshotsOf(ctx, store, name)
		if err != nil {
			return nil, err
		}
		leases, err := store.Leases(ctx, name)
		if err != nil {
			return nil, err
		}
		byName := map[string]any{}
		for _, it := range leases {
			byName[it.Name] = lease(it)
		}
		all[name] = map[string]map[string]any{"limit": {"": quota.Limit}, "snapshot": snapshots, "lease": byName}
	}
	return all, nil
}

func snapshotsOf(ctx context.Context, store *pibroulez.Store, tenant string) (map[string]any, error) {
	nodes, err := store.Tree(ctx, tenant)
	if err != nil {
		return nil, err
	}
	usages := map[string]pibroulez.Usage{}
	for _, it := range nodes {
		usages[it.Key] = it.Usage
	}
	all := map[string]any{}
	err = store.WalkAll(ctx, tenant, pibroulez.Filter{}, func(info pibroulez.Info) error {
		hasRead(ctx, 1)
		all[info.Name] = snapshot{info, usages[info.Name]}
		return nil
	})
	return all, err
}

// Says in which snapshots, leases and limits the stores of two logs differ.
func logDiff(ctx context.Context, stores []*pibroulez.Store) (answer, error) {
	first, err := partsOf(ctx, stores[0])
	if err != nil {
		return answer{}, err
	}
	second, err := partsOf(ctx, stores[1])
	if err != nil {
		return answer{}, err
	}
	found := differences(first, second)
	it := answer{value: found}
	if len(found) > 0 {
		it.columns, it.fault = []string{"TENANT", "WHAT", "NAME", "FIRST", "SECOND"}, errDiffer
	}
	for _, d := range found {
		it.rows = append(it.rows, []any{told.Name(d.Tenant), d.What, orBlank(d.Name), inWords(d.First), inWords(d.Second)})
	}
	return it, nil
}

// A part in words, or that there is none.
func inWords(part any) string {
	if part == nil {
		return "-"
	}
	return fmt.Sprint(part)
}

func differences(first, second parts) []unlike {
	found := []unlike{}
	for _, tenant := range told.Sorted(joined(first, second)) {
		for _, what := range kindsOfParts {
			a, b := first[tenant][what], second[tenant][what]
			for _, name := range told.Sorted(joined(a, b)) {
				if !reflect.DeepEqual(a[name], b[name]) {
					found = append(found, unlike{tenant, what, name, a[name], b[name]})
				}
			}
		}
	}
	return found
}

// The names of both.
func joined[V any](a, b map[string]V) map[string]bool {
	names := map[string]bool{}
	for name := range a {
		names[name] = true
	}
	for name := range b {
		names[name] = true
	}
	return names
}

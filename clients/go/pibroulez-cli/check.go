package main

import (
	"context"
	"errors"
	"fmt"

	"pibroulez.example/pibroulez"
	"pibroulez.example/pibroulez/told"
)

// How often a check begins anew where calls of others came between its questions.
const mostTries = 10

var (
	errBusy   = errors.New("others have changed the store between the questions, each time")
	errFaults = errors.New("the store tells what doesn't fit")
)

// What a store tells, between two equal numbers of entries.
type seen struct {
	report pibroulez.Report
	quotas map[string]pibroulez.Quota
	trees  map[string][]pibroulez.Node
}

func check(ctx context.Context, store *pibroulez.Store, _ words) (answer, error) {
	for try := 0; try < mostTries; try++ {
		before, err := look(ctx, store)
		if err != nil {
			return answer{}, err
		}
		after, err := store.Report(ctx)
		if err != nil {
			return answer{}, err
		}
		if after.Entries == before.report.Entries {
			return before.answer(), nil
		}
	}
	return answer{}, errBusy
}

func look(ctx context.Context, store *pibroulez.Store) (*seen, error) {
	s := &seen{trees: map[string][]pibroulez.Node{}}
	var err error
	if s.report, err = store.Report(ctx); err != nil {
		return nil, err
	}
	if s.quotas, err = store.Quotas(ctx); err != nil {
		return nil, err
	}
	for name := range s.quotas {
		if s.trees[name], err = store.Tree(ctx, name); err != nil {
			return nil, err
		}
		hasRead(ctx, len(s.trees[name]))
	}
	return s, nil
}

func (s *seen) answer() answer {
	faults := s.faults()
	it := answer{value: map[string]any{"tenants": len(s.quotas), "snapshots": s.report.Records, "faults": faults}}
	s.tell(&it, "", faults)
	return it
}

// Has an answer tell the faults, and then in a line how many there are.
func (s *seen) tell(it *answer, before string, faults []string) {
	for _, fault := range faults {
		it.words += fault + "\n"
	}
	it.words += fmt.Sprintf("%s%d tenants, %d snapshots, %d faults\n", before, len(s.quotas), s.report.Records, len(faults))
	if len(faults) > 0 {
		it.fault = errFaults
	}
}

// What doesn't fit together, in words.
func (s *seen) faults() []string {
	faults := []string{}
	add := func(format string, values ...any) { faults = append(faults, fmt.Sprintf(format, values...)) }
	records, open := 0, 0
	for _, tenant := range told.Sorted(s.quotas) {
		quota, nodes, name := s.quotas[tenant], s.trees[tenant], told.Name(tenant)
		committed, active := sums(nodes)
		if quota.Committed != committed || quota.Open != active {
			add("%s: charged %v and %v, and its snapshots %v and %v", name, quota.Committed, quota.Open, committed, active)
		}
		if quota.Charged != plus(committed, active) || s.report.Totals[tenant] != quota.Charged {
			add("%s: charged %v in all, by the report %v", name, quota.Charged, s.report.Totals[tenant])
		}
		if plus(quota.Charged, quota.Free) != quota.Limit {
			add("%s: charged %v and free %v of %v", name, quota.Charged, quota.Free, quota.Limit)
		}
		for _, fault := range faultsOfTree(nodes) {
			add("%s: %s", name, fault)
		}
		records += len(nodes)
		for _, it := range nodes {
			if it.Kind == pibroulez.KindActive {
				open++
			}
		}
	}
	if records != s.report.Records || open != s.report.Open {
		add("%d snapshots, %d of them active, and by the report %d and %d", records, open, s.report.Records, s.report.Open)
	}
	return faults
}

// What is charged for committed snapshots and for active ones. A view is charged nothing.
func sums(nodes []pibroulez.Node) (committed, active pibroulez.Usage) {
	for _, it := range nodes {
		if it.Kind == pibroulez.KindActive {
			active = plus(active, it.Usage)
		} else {
			committed = plus(committed, it.Usage)
		}
	}
	return committed, active
}

// Parents that aren't there or aren't committed, and children that were counted otherwise.
func faultsOfTree(nodes []pibroulez.Node) []string {
	var faults []string
	kinds, children := map[string]pibroulez.Kind{}, map[string]int{}
	for _, it := range nodes {
		kinds[it.Key] = it.Kind
		children[it.Parent]++
	}
	for _, it := range nodes {
		if it.Parent != "" && kinds[it.Parent] != pibroulez.KindCommitted {
			faults = append(faults, fmt.Sprintf("%s is on %s, which is not committed", told.Name(it.Key), told.Name(it.Parent)))
		}
		if it.Children != children[it.Key] {
			faults = append(faults, fmt.Sprintf("%s has %d children, and %d snapshots are on it", told.Name(it.Key), it.Children, children[it.Key]))
		}
	}
	return faults
}

func plus(a, b pibroulez.Usage) pibroulez.Usage {
	return pibroulez.Usage{Blocks: a.Blocks + b.Blocks, Inodes: a.Inodes + b.Inodes}
}

package main

import (
	"context"
	"errors"
	"fmt"
	"path/filepath"
	"strconv"
	"strings"

	"pibroulez.example/pibroulez"
	"pibroulez.example/pibroulez/containerd/upper"
	"pibroulez.example/pibroulez/told"
)

// What a snapshot takes by three accounts: what is charged, what its directory would be charged, and what the file system
// holds. Blocks are of 4096 bytes.
type audited struct {
	Ledger      pibroulez.Usage `json:"ledger"`
	Scan        pibroulez.Usage `json:"scan"`
	FileSystem  pibroulez.Usage `json:"file_system"`
	Differences []difference    `json:"differences"`
}

// A path for which the accounts aren't the same. Nil is nothing there.
type difference struct {
	Path       string           `json:"path"`
	Ledger     *pibroulez.Usage `json:"ledger"`
	Scan       *pibroulez.Usage `json:"scan"`
	FileSystem *pibroulez.Usage `json:"file_system"`
	Why        string           `json:"why"`
}

const blockSize = 4096

func audit(ctx context.Context, store *pibroulez.Store, given words) (answer, error) {
	tenant, key := given.rest[1], given.rest[2]
	info, err := store.Stat(ctx, tenant, key)
	if err != nil {
		return answer{}, err
	}
	if info.Kind == pibroulez.KindView {
		return answer{}, fmt.Errorf("%s is a view, and has no layer", told.Name(key))
	}
	ledger, err := store.Usage(ctx, tenant, key)
	if err != nil {
		return answer{}, err
	}
	layer, err := upper.Read(filepath.Join(given.root, "snapshots", strconv.FormatUint(info.ID, 10), "fs"))
	if err != nil {
		return answer{}, err
	}
	it := &audited{Ledger: ledger, Scan: layer.Count, FileSystem: usageOfHeld(layer.Held), Differences: []difference{}}
	if err := it.compare(ctx, &account{store, tenant, key}, layer); err != nil {
		return answer{}, err
	}
	return it.answer(), nil
}

func usageOfHeld(held upper.Held) pibroulez.Usage {
	return pibroulez.Usage{Blocks: (held.Bytes + blockSize - 1) / blockSize, Inodes: held.Inodes}
}

// What the store has of a snapshot's layer.
type account struct {
	store       *pibroulez.Store
	tenant, key string
}

// The paths that the layer changes, and whether it removes what is below there.
func (a *account) changes(ctx context.Context) (map[string]bool, error) {
	isRemoved := map[string]bool{}
	err := a.store.DiffAll(ctx, a.tenant, a.key, func(it pibroulez.Change) error {
		isRemoved[it.Path] = it.Change == "removed"
		return nil
	})
	return isRemoved, err
}

// What the store counts at a path, nil for nothing. Of what it shows it isn't known whether the layer itself has it, so a
// directory or a file that a layer below has in the same form counts as its own.
func (a *account) at(ctx context.Context, it *upper.Item, isRemoved map[string]bool) (*pibroulez.Usage, error) {
	seen, err := a.store.Look(ctx, a.tenant, a.key, it.Path, pibroulez.WithPeek())
	if err != nil && !errors.Is(err, pibroulez.ErrNotFound) {
		return nil, err
	}
	switch {
	case it.Kind == upper.Link && seen.Type != "":
		return new(pibroulez.Usage), nil
	case seen.Type == pibroulez.Directory:
		return &pibroulez.Usage{Blocks: 1, Inodes: 1}, nil
	case seen.Type == pibroulez.File:
		return &pibroulez.Usage{Blocks: (seen.Size + blockSize - 1) / blockSize, Inodes: 1}, nil
	case seen.Type == pibroulez.Symlink, it.Kind == upper.Whiteout && isRemoved[it.Path]:
		return &pibroulez.Usage{Inodes: 1}, nil
	}
	return nil, nil
}

// Finds each path whose accounts differ.
func (it *audited) compare(ctx context.Context, a *account, layer *upper.Layer) error {
	isRemoved, err := a.changes(ctx)
	if err != nil {
		return err
	}
	isThere, hidden := map[string]bool{}, []string{}
	for i := range layer.Items {
		item := &layer.Items[i]
		isThere[item.Path] = true
		if item.Kind != upper.Link && (item.Kind != upper.Directory || item.IsOpaque) {
			hidden = append(hidden, item.Path+"/")
		}
		ledger, err := a.at(ctx, item, isRemoved)
		if err != nil {
			return err
		}
		hasRead(ctx, 1)
		scan, held := item.Count(), usageOfHeld(item.Held)
		switch {
		case ledger == nil:
			it.add(item.Path, nil, &scan, &held, "not in the ledger")
		case *ledger != scan:
			it.add(item.Path, ledger, &scan, &held, "changed since it was charged")
		case scan != held:
			it.add(item.Path, ledger, &scan, &held, whyHeld(item))
		}
	}
	for path := range isRemoved {
		// Without a parent the root is a change.
		if path != "/" && !isThere[path] && !(isRemoved[path] && isWithin(path, hidden)) {
			it.add(path, nil, nil, nil, "in the ledger alone")
		}
	}
	it.sort()
	return nil
}

// Whether a path is in a directory that hides what is below, or in what stands in a directory's place.
func isWithin(path string, hidden []string) bool {
	for _, it := range hidden {
		if strings.HasPrefix(path, it) {
			return true
		}
	}
	return false
}

// Why a file system holds something else than the ledger counts.
func whyHeld(it *upper.Item) string {
	blocks, held := it.Count().Blocks*blockSize, it.Held.Bytes
	switch {
	case it.Kind == upper.Whiteout:
		return "shares its inode with another whiteout"
	case it.Kind == upper.File && held < blocks:
		return "sparse or compressed"
	case it.Kind == upper.Symlink:
		return "a target in a block of its own"
	case it.Kind == upper.Directory:
		return "a directory of another size"
	}
	return "further blocks of the file system"
}

func (it *audited) add(path string, ledger, scan, held *pibroulez.Usage, why string) {
	it.Differences = append(it.Differences, difference{path, ledger, scan, held, why})
}

// The paths in the order of their bytes.
func (it *audited) sort() {
	byPath := map[string]difference{}
	for _, one := range it.Differences {
		byPath[one.Path] = one
	}
	it.Differences = it.Differences[:0]
	for _, path := range told.Sorted(byPath) {
		it.Differences = append(it.Differences, byPath[path])
	}
}

func (it *audited) answer() answer {
	a := answer{value: it, columns: []string{"ACCOUNT", ">BLOCKS", ">INODES"}, rows: [][]any{
		{"ledger", it.Ledger.Blocks, it.Ledger.Inodes}, {"directory", it.Scan.Blocks, it.Scan.Inodes},
		{"file system", it.FileSystem.Blocks, it.FileSystem.Inodes},
	}}
	var text strings.Builder
	for _, one := range it.Differences {
		fmt.Fprintf(&text, "%s: ledger %s, directory %s, file system %s: %s\n", told.Name(one.Path), orNone(one.Ledger), orNone(one.Scan), orNone(one.FileSystem), one.Why)
	}
	a.words = text.String()
	return a
}

func orNone(usage *pibroulez.Usage) string {
	if usage == nil {
		return "-"
	}
	return usage.String()
}

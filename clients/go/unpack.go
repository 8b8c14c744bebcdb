package pibroulez

import (
	"context"
	"encoding/json"
	"fmt"
	"io"

	"pibroulez.example/pibroulez/layer"
)

// What a batch of Unpack has at most. A line of the program has at most 16,777,216 bytes.
const (
	mostOperations = 1000
	mostBatchBytes = 8 << 20
)

// Unpacked is what a layer takes that was unpacked.
type Unpacked struct {
	// Count is what the layer takes, and Share what is charged for it.
	Count, Share Usage
	// LeftOut counts what the store doesn't keep, by what it is.
	LeftOut map[string]int
}

// Unpack makes the layer of a new active snapshot by a layer's archive (tar, without compression), in batches that are
// charged what all need. What becomes of its entries, whiteouts and opaque marks is told at layer.Read; files are made by
// their sizes and digests. WithSession and WithWhole are of each batch.
//
// The store is asked what lower layers show, and nothing is made before the archive is read. The error is ErrNotEmpty where
// the layer has more than its root, layer.ErrUnreadable, or that of a batch, of which what came before is done.
func (s *Store) Unpack(ctx context.Context, namespace, key string, archive io.Reader, options ...Option) (Unpacked, error) {
	begun, err := s.Batch(ctx, namespace, key, Usage{}, nil, options...)
	if err != nil {
		return Unpacked{}, err
	}
	if root := (Usage{1, 1}); begun.Count != root {
		return Unpacked{}, fmt.Errorf("unpack: %w: the layer has more than its root", ErrNotEmpty)
	}
	made, err := layer.Read(archive, seenIn{ctx, s, namespace, key}, layer.Bounds{})
	if err != nil {
		return Unpacked{}, fmt.Errorf("unpack: %w", err)
	}
	last, need := begun, Usage{made.Blocks, made.Inodes}
	for left := made.Operations; len(left) > 0; {
		group, err := first(left)
		if err != nil {
			return Unpacked{}, err
		}
		if last, err = s.Batch(ctx, namespace, key, need, group, options...); err != nil {
			return Unpacked{last.Count, last.Share, made.LeftOut}, err
		}
		left = left[len(group):]
	}
	return Unpacked{last.Count, last.Share, made.LeftOut}, nil
}

// The first operations, as many as a batch has.
func first(all []layer.Operation) ([]Operation, error) {
	var group []Operation
	left := mostBatchBytes
	for _, each := range all {
		text, err := json.Marshal(each)
		if err != nil {
			return nil, err
		}
		if left -= len(text); len(group) == mostOperations || left < 0 && len(group) > 0 {
			break
		}
		given := fields{}
		for name, value := range each {
			if name != "do" {
				given[name] = value
			}
		}
		group = append(group, Operation{fmt.Sprint(each["do"]), given})
	}
	return group, nil
}

// What a snapshot shows.
type seenIn struct {
	ctx            context.Context
	store          *Store
	namespace, key string
}

func (s seenIn) List(path string) ([]string, error) {
	return s.store.List(s.ctx, s.namespace, s.key, path)
}

func (s seenIn) Look(path string) (layer.Node, error) {
	seen, err := s.store.Look(s.ctx, s.namespace, s.key, path)
	is := func(kind FileType) bool { return seen.Type == kind }
	return layer.Node{IsDirectory: is(Directory), IsSymlink: is(Symlink), Mode: seen.Mode, Size: seen.Size, Target: seen.Target}, err
}

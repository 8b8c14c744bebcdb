package containerd

import (
	"context"
	"errors"
	"fmt"
	"io/fs"
	"strings"

	"github.com/containerd/containerd/errdefs"
	"github.com/containerd/containerd/filters"
	"github.com/containerd/containerd/log"
	"github.com/containerd/containerd/mount"
	"github.com/containerd/containerd/snapshots"

	"pibroulez.example/pibroulez"
)

// Begins a call that may change the snapshots of these keys. It is alone with them until what is handed out is called, and
// its context doesn't end.
func (s *Snapshotter) change(ctx context.Context, keys ...string) (context.Context, func(), error) {
	s.running.RLock()
	release, err := s.locks.take(ctx, keys...)
	if err == nil {
		if err = ctx.Err(); err != nil {
			release()
		}
	}
	if err != nil {
		s.running.RUnlock()
		return nil, nil, err
	}
	return endless{ctx}, func() {
		release()
		s.running.RUnlock()
	}, nil
}

// Stat tells a snapshot of any kind.
func (s *Snapshotter) Stat(ctx context.Context, key string) (snapshots.Info, error) {
	info, err := s.store.Stat(ctx, s.namespaceOf(key), key)
	if err != nil {
		return snapshots.Info{}, subject{key: key}.classified(err)
	}
	return s.infoOf(info), nil
}

// Update changes labels. A label with an empty value is removed, as containerd's own snapshotters do.
func (s *Snapshotter) Update(ctx context.Context, info snapshots.Info, fieldpaths ...string) (snapshots.Info, error) {
	ctx, end, err := s.change(ctx, info.Name)
	if err != nil {
		return snapshots.Info{}, err
	}
	defer end()
	labels := withoutEmpty(info.Labels)
	updated, err := s.store.Update(ctx, s.namespaceOf(info.Name), info.Name, labels, fieldpaths)
	if err != nil {
		return snapshots.Info{}, subject{key: info.Name, labels: labels}.classified(err)
	}
	return s.infoOf(updated), nil
}

// Usage tells what the store charges for a snapshot alone. Of an active one its directory is read after the call has begun,
// which costs a status of each of its entries, and what is there is charged, or what it reserves where that is more: also less
// than before. Calls on one snapshot share a reading, and four are read at one time. Where the tenant's limit doesn't cover
// all, what it covers is charged, the rest is told by OverLabel, Scans and the log, and the answer has both. A charge that the
// log can't keep, as on a full disk, is no error, and is made up for by a later call.
func (s *Snapshotter) Usage(ctx context.Context, key string) (snapshots.Usage, error) {
	usage, err := s.usageOf(ctx, key)
	if errors.Is(err, errNotActive) {
		usage, err = s.store.Usage(ctx, s.namespaceOf(key), key)
	}
	if err != nil {
		return snapshots.Usage{}, subject{key: key}.classified(err)
	}
	return snapshots.Usage{Inodes: int64(usage.Inodes), Size: int64(usage.Blocks) * blockSize}, nil
}

// Mounts tells how an active snapshot or a view is mounted. Its directory is there then.
func (s *Snapshotter) Mounts(ctx context.Context, key string) ([]mount.Mount, error) {
	ctx, end, err := s.change(ctx, key)
	if err != nil {
		return nil, err
	}
	defer end()
	mounts, err := s.store.Mounts(ctx, s.namespaceOf(key), key)
	if err == nil {
		err = s.complete(ctx, key)
	}
	if err != nil {
		return nil, subject{key: key}.classified(err)
	}
	return mountsWith(s.options, mounts), nil
}

// Makes the directory of an active snapshot or a view, where a full disk didn't take it before.
func (s *Snapshotter) complete(ctx context.Context, key string) error {
	info, err := s.store.Stat(ctx, s.namespaceOf(key), key)
	if err != nil {
		return err
	}
	if has, err := exists(s.directories.of(info.ID)); has || err != nil {
		return err
	}
	parent := uint64(0)
	if info.Parent != "" {
		it, err := s.store.Stat(ctx, s.namespaceOf(info.Parent), info.Parent)
		if err != nil {
			return err
		}
		parent = it.ID
	}
	return s.directories.make(record{ID: info.ID, Key: key}, parent, info.Kind)
}

// Prepare makes an active snapshot and its directory.
func (s *Snapshotter) Prepare(ctx context.Context, key, parent string, opts ...snapshots.Opt) ([]mount.Mount, error) {
	return s.create(ctx, pibroulez.KindActive, key, parent, opts)
}

// View makes a view and its directory.
func (s *Snapshotter) View(ctx context.Context, key, parent string, opts ...snapshots.Opt) ([]mount.Mount, error) {
	return s.create(ctx, pibroulez.KindView, key, parent, opts)
}

func (s *Snapshotter) create(ctx context.Context, kind pibroulez.Kind, key, parent string, opts []snapshots.Opt) ([]mount.Mount, error) {
	labels, err := labelsOf(opts)
	if err != nil {
		return nil, err
	}
	reserve, err := reserveOf(labels)
	if err != nil {
		return nil, err
	}
	ctx, end, err := s.change(ctx, key)
	if err != nil {
		return nil, err
	}
	defer end()
	id, chain, err := s.place(ctx, kind, key, parent, labels)
	if err == nil && kind == pibroulez.KindActive && reserve != (pibroulez.Usage{}) {
		if err = s.chargeFor(ctx, key, reserve); err != nil {
			s.dropOwn(ctx, key, id)
		}
	}
	if err != nil {
		return nil, subject{key: key, parent: &parent, labels: labels}.classified(err)
	}
	mounts, err := s.made(ctx, record{ID: id, Key: key}, chain, kind)
	if err != nil {
		s.dropOwn(ctx, key, id)
		return nil, subject{key: key}.classified(err)
	}
	return mounts, nil
}

// Makes an active snapshot or a view. Its id, and those of its ancestors.
func (s *Snapshotter) place(ctx context.Context, kind pibroulez.Kind, key, parent string, labels map[string]string) (uint64, []uint64, error) {
	namespace := s.namespaceOf(key)
	if kind == pibroulez.KindView {
		var made pibroulez.Viewed
		err := s.within(ctx, namespace, func() (err error) {
			made, err = s.store.View(ctx, namespace, key, parent, pibroulez.WithLabels(labels))
			return err
		})
		return made.ID, made.Chain, err
	}
	var made pibroulez.Prepared
	err := s.within(ctx, namespace, func() error {
		return s.charge(ctx, namespace, root, func(ctx context.Context) (err error) {
			made, err = s.store.Prepare(ctx, namespace, key, parent, pibroulez.WithLabels(labels))
			return err
		})
	})
	return made.ID, made.Chain, s.wanting(err, key, root)
}

// Gives a new snapshot its directory and its time.
func (s *Snapshotter) made(ctx context.Context, r record, chain []uint64, kind pibroulez.Kind) ([]mount.Mount, error) {
	parent := uint64(0)
	if len(chain) > 0 {
		parent = chain[0]
	}
	if err := s.directories.make(r, parent, kind); err != nil {
		return nil, err
	}
	info, err := s.store.Stat(ctx, s.namespaceOf(r.Key), r.Key)
	if err != nil {
		return nil, err
	}
	s.times.of(info)
	mounts, err := s.store.Mounts(ctx, s.namespaceOf(r.Key), r.Key)
	return mountsWith(s.options, mounts), err
}

// Commit commits an active snapshot, with the labels that are given, and charges what its directory has. Its directory has
// both its key and its name before the store has the name, which is written beside the rest: each waits for the disk. Where it isn't committed, it is as before but for what is charged:
// over the tenant's limit nothing is charged either.
func (s *Snapshotter) Commit(ctx context.Context, name, key string, opts ...snapshots.Opt) error {
	labels, err := labelsOf(opts)
	if err != nil {
		return err
	}
	ctx, end, err := s.change(ctx, key, name)
	if err != nil {
		return err
	}
	defer end()
	about := subject{key: key, name: &name, labels: labels}
	info, err := s.committable(ctx, about)
	if err != nil {
		return about.classified(err)
	}
	named := make(chan error, 1)
	go func() { named <- s.directories.nameIn(info.ID, key, name) }()
	err = s.record(ctx, info)
	if failed := <-named; failed != nil {
		if err == nil {
			return failed
		}
		return about.classified(err)
	}
	if err != nil {
		s.unname(ctx, info.ID, key, err)
		return about.classified(err)
	}
	if _, err := s.store.Commit(ctx, s.namespaceOf(key), key, name, pibroulez.WithLabels(labels)); err != nil {
		s.unname(ctx, info.ID, key, err)
		return about.classified(err)
	}
	s.scans.forget(info.ID)
	_, err = s.Stat(ctx, name)
	return err
}

// The snapshot of a commit that the store would take. It would seal the snapshot where it refuses it.
func (s *Snapshotter) committable(ctx context.Context, about subject) (pibroulez.Info, error) {
	namespace, name := s.namespaceOf(about.key), *about.name
	info, err := s.store.Stat(ctx, namespace, about.key)
	if err != nil {
		return info, err
	}
	if info.Kind != pibroulez.KindActive {
		return info, fmt.Errorf("snapshot %q is not active: %w", about.key, errdefs.ErrFailedPrecondition)
	}
	if other := s.namespaceOf(name); other != namespace {
		return info, fmt.Errorf("snapshot %q of tenant %q is not committed as %q of another one: %w", about.key, namespace, name, errdefs.ErrInvalidArgument)
	}
	if !isKey(name) {
		return info, &pibroulez.Refusal{Reason: pibroulez.ErrBadArgument, From: "book", Of: "name"}
	}
	if about.hasMalformedLabels() {
		return info, &pibroulez.Refusal{Reason: pibroulez.ErrBadArgument, From: "book", Of: "labels"}
	}
	_, err = s.store.Stat(ctx, namespace, name)
	switch {
	case err == nil:
		return info, &pibroulez.Refusal{Reason: pibroulez.ErrAlreadyExists, From: "book", Of: "name"}
	case errors.Is(err, pibroulez.ErrNotFound):
		return info, nil
	}
	return info, err
}

// Has a directory say, after a commit that was not made, that its snapshot isn't to be committed. Where nobody knows
// whether it was made, the directory goes on to say both.
func (s *Snapshotter) unname(ctx context.Context, id uint64, key string, err error) {
	if mayBeMade(err) {
		return
	}
	if err := s.directories.nameIn(id, key, ""); err != nil {
		log.G(ctx).WithError(err).WithField("key", key).Warn("failed to put key back")
	}
}

// Remove drops a snapshot of any kind, and takes its directory's name away. The directory itself is removed beside the
// calls: Cleanup and Close wait for that.
func (s *Snapshotter) Remove(ctx context.Context, key string) error {
	ctx, end, err := s.change(ctx, key)
	if err == nil {
		defer end()
		var info pibroulez.Info
		if info, err = s.store.Stat(ctx, s.namespaceOf(key), key); err == nil {
			err = s.drop(ctx, info)
		}
	}
	if err != nil {
		return fmt.Errorf("failed to remove: %w", subject{key: key}.classified(err))
	}
	return nil
}

// Drops the snapshot that a call has made and failed to complete.
func (s *Snapshotter) dropOwn(ctx context.Context, key string, id uint64) {
	info, err := s.store.Stat(ctx, s.namespaceOf(key), key)
	if err == nil && info.ID == id {
		err = s.drop(ctx, info)
	}
	if err != nil {
		log.G(ctx).WithError(err).WithField("key", key).Warn("failed to drop snapshot")
	}
}

// Drops a snapshot. Its directory says before that it is to go.
func (s *Snapshotter) drop(ctx context.Context, info pibroulez.Info) error {
	directory := s.directories.of(info.ID)
	if err := markRemoving(directory); err != nil && !isFull(err) && !errors.Is(err, fs.ErrNotExist) {
		return err
	}
	var err error
	namespace := s.namespaceOf(info.Name)
	if info.Kind == pibroulez.KindActive {
		_, err = s.store.Discard(ctx, namespace, info.Name)
	} else {
		_, err = s.store.Remove(ctx, namespace, info.Name)
	}
	if err != nil && !mayBeMade(err) {
		if err := unmarkRemoving(directory); err != nil {
			log.G(ctx).WithError(err).WithField("path", directory).Warn("failed to put key back")
		}
	}
	if err != nil {
		return err
	}
	s.times.drop(info.ID)
	s.scans.forget(info.ID)
	s.directories.remove(info.ID)
	s.emptied(ctx, namespace)
	return nil
}

// Whether a call with this error may have been made: its store ended before the answer.
func mayBeMade(err error) bool {
	return errors.Is(err, pibroulez.ErrDied) || errors.Is(err, pibroulez.ErrClosed)
}

// Walk calls the function with each snapshot that matches one of the filters, in byte order of the keys.
func (s *Snapshotter) Walk(ctx context.Context, fn snapshots.WalkFunc, texts ...string) error {
	filter, err := filters.ParseAll(texts...)
	if err != nil {
		return err
	}
	cursors := s.cursors()
	for {
		it, err := s.least(ctx, cursors)
		if err != nil {
			return subject{}.classified(err)
		}
		if it == nil {
			return nil
		}
		info := s.infoOf(*it)
		if !filter.Match(fieldsOf(info)) {
			continue
		}
		if err := fn(ctx, info); err != nil {
			return err
		}
	}
}

func (s *Snapshotter) infoOf(info pibroulez.Info) snapshots.Info {
	created, updated := s.times.of(info)
	return snapshots.Info{
		Kind:    snapshots.ParseKind(string(info.Kind)),
		Name:    info.Name,
		Parent:  info.Parent,
		Labels:  info.Labels,
		Created: created,
		Updated: updated,
	}
}

// What filters see of a snapshot.
func fieldsOf(info snapshots.Info) filters.Adaptor {
	return filters.AdapterFunc(func(path []string) (string, bool) {
		if len(path) == 0 {
			return "", false
		}
		switch path[0] {
		case "kind":
			return strings.ToLower(info.Kind.String()), true
		case "name":
			return info.Name, true
		case "parent":
			return info.Parent, true
		case "labels":
			value, found := info.Labels[strings.Join(path[1:], ".")]
			return value, found
		}
		return "", false
	})
}

// The labels that options give.
func labelsOf(opts []snapshots.Opt) (map[string]string, error) {
	var info snapshots.Info
	for _, opt := range opts {
		if err := opt(&info); err != nil {
			return nil, err
		}
	}
	return withoutEmpty(info.Labels), nil
}

func withoutEmpty(labels map[string]string) map[string]string {
	kept := map[string]string{}
	for name, value := range labels {
		if value != "" {
			kept[name] = value
		}
	}
	return kept
}

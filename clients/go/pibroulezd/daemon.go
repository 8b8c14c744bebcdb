package main

import (
	"context"
	"errors"
	"fmt"
	"os"
	"path/filepath"
	"sync/atomic"

	notify "github.com/coreos/go-systemd/v22/daemon"
	"github.com/sirupsen/logrus"

	"pibroulez.example/pibroulez"
	"pibroulez.example/pibroulez/cluster"
	"pibroulez.example/pibroulez/containerd"
	"pibroulez.example/pibroulez/containerd/service"
	"pibroulez.example/pibroulez/pibroulezd/configuration"
	"pibroulez.example/pibroulez/pibroulezd/door"
	"pibroulez.example/pibroulez/pibroulezd/watch"
	"pibroulez.example/pibroulez/told"
)

// The error of a daemon whose store's process has ended.
var errStoreEnded = errors.New("the store has ended")

// What has ended a store, as an errStoreEnded.
type storeEnd struct{ cause error }

func (s *storeEnd) Error() string { return fmt.Sprintf("%v: %v", errStoreEnded, s.cause) }

func (s *storeEnd) Is(target error) bool { return target == errStoreEnded }

func (s *storeEnd) Unwrap() error { return s.cause }

// A daemon has a store and what it is to do.
type daemon struct {
	log *logrus.Logger
	// The path of the file.
	path  string
	store *pibroulez.Store
	// What of the file counts now. It is never changed, but replaced by one goroutine.
	current atomic.Pointer[configuration.Configuration]
	limits  *limits
	// The doors, nil where there are none.
	lines       *door.Door
	snapshotter *containerd.Snapshotter
	snapshots   *service.Service
	watch       *watch.Watch
	// What has the limits of a cluster, or nil.
	node *node
	// The file of the refusals, which is opened anew where the configuration is read again.
	refusals *appended
	// What has ended a door.
	failed chan error
}

// Serves until the context ends. The error is errStoreEnded, with what it ended of, where the store's process has ended by
// itself.
func serve(ctx context.Context, log *logrus.Logger, path string, hangups <-chan os.Signal) error {
	d, err := open(ctx, log, path)
	if ctx.Err() != nil && err != nil {
		return nil
	}
	if err != nil {
		return err
	}
	defer d.close()
	if err := d.openDoors(ctx); err != nil {
		return err
	}
	log.WithField("root", d.current.Load().Root).Info("serving")
	d.tell(notify.SdNotifyReady)
	for {
		select {
		case <-ctx.Done():
			return nil
		case <-d.store.Ended():
			return &storeEnd{d.store.Err()}
		case err := <-d.failed:
			return err
		case <-d.node.ended():
			return d.node.end()
		case <-hangups:
			d.tell(notify.SdNotifyReloading)
			d.readAgain(ctx)
			d.tell(notify.SdNotifyReady)
		}
	}
}

// Opens the store that the file names, with its tenants and their limits.
func open(ctx context.Context, log *logrus.Logger, path string) (*daemon, error) {
	c, err := configuration.Read(path)
	if err != nil {
		return nil, err
	}
	d := &daemon{log: log, path: path, failed: make(chan error, 1)}
	if err := os.MkdirAll(c.Root, 0o700); err != nil {
		return nil, err
	}
	if d.store, err = openStore(ctx, c); err != nil {
		return nil, fmt.Errorf("no store of %s: %w", c.Root, err)
	}
	d.store.RollWhenFull(c.Journal)
	d.limits = readLimits(log, filepath.Join(c.Root, "limits.json"))
	if err := d.begin(ctx, c); err != nil {
		d.store.Close()
		return nil, err
	}
	d.current.Store(c)
	return d, nil
}

// The store of the configuration, which the process of a daemon that was killed may have for a little longer. A proxy's log
// of an earlier version is taken over.
func openStore(ctx context.Context, c *configuration.Configuration) (*pibroulez.Store, error) {
	open := func() (*pibroulez.Store, error) { return openLog(ctx, c) }
	if c.Containerd == nil || c.Log != filepath.Join(c.Root, containerd.LogFile) {
		return pibroulez.OnceFree(ctx, open)
	}
	return pibroulez.OnceFree(ctx, func() (*pibroulez.Store, error) { return containerd.OpenStore(ctx, c.Program, c.Root, open) })
}

// The store that the log tells, or a new one: of a cluster with an identity, and without limits of its own.
func openLog(ctx context.Context, c *configuration.Configuration) (*pibroulez.Store, error) {
	config := pibroulez.Config{
		Program: c.Program, Root: c.Root, Namespaces: map[string]pibroulez.Usage{}, Journal: c.Journal, Slots: c.Slots,
		LayerInodes: c.LayerInodes, Ancestors: c.Ancestors, Log: c.Log, Checkpoint: c.Checkpoint,
	}
	if c.Cluster != nil {
		return cluster.OpenOrNew(ctx, config, told.Sorted(c.Tenants)...)
	}
	for name, tenant := range c.Tenants {
		config.Namespaces[name] = tenant.Limit
	}
	return pibroulez.OpenOrNew(ctx, config)
}

// Makes the store's tenants those of the file, and gives them their limits.
func (d *daemon) begin(ctx context.Context, c *configuration.Configuration) error {
	if err := d.beginTenants(ctx, c); err != nil {
		return err
	}
	// The round may be one of another length, which an earlier configuration has said.
	// On a full disk it is rolled where it is full.
	if err := d.store.Roll(ctx, c.Journal); err != nil && !errors.Is(err, pibroulez.ErrNotKept) {
		return err
	}
	if c.Cluster != nil {
		return nil
	}
	d.limits.apply(ctx, d.store, c)
	return nil
}

// Reads the file again, and goes on with what of it may change. Where it has faults, all stays as it is.
func (d *daemon) readAgain(ctx context.Context) {
	old := d.current.Load()
	read, err := configuration.Read(d.path)
	var faults configuration.Faults
	switch {
	case errors.As(err, &faults):
		for _, it := range faults {
			d.log.WithField("fault", it.Error()).Error("the old configuration stays")
		}
		return
	case err != nil:
		d.log.WithError(err).Error("the old configuration stays")
		return
	}
	next, refused := old.Next(d.path, read)
	for _, it := range refused {
		d.log.WithField("fault", it.Error()).Error("refused")
	}
	d.reserve(ctx, next)
	// Whoever has lost a role has lost it before the tenants and their limits change.
	d.current.Store(next)
	if next.Cluster == nil {
		d.changeTenants(ctx, next)
	}
	if d.refusals != nil {
		if err := d.refusals.reopen(); err != nil {
			d.log.WithError(err).Error("the old file of refusals stays")
		}
	}
	d.log.WithField("file", d.path).Info("read again")
}

func (d *daemon) tell(state string) {
	if _, err := notify.SdNotify(false, state); err != nil {
		d.log.WithError(err).Warn("failed to tell systemd")
	}
}

package main

import (
	"context"
	"errors"
	"fmt"

	"github.com/containerd/containerd/log"
	"github.com/coreos/go-systemd/v22/daemon"

	"pibroulez.example/pibroulez"
	"pibroulez.example/pibroulez/containerd"
	"pibroulez.example/pibroulez/containerd/service"
	"pibroulez.example/pibroulez/socket"
)

// The error of a proxy whose store's process has ended.
var errStoreEnded = errors.New("the store has ended")

// Modes of the socket, and of its folder where that is made.
const (
	socketMode = 0o660
	folderMode = 0o700
)

// Serves the snapshotter until the context ends, and then what has been asked for by that time. The error is
// errStoreEnded, with what it ended of, where the store's process has ended by itself.
func serve(ctx context.Context, config containerd.Config, path string) error {
	snapshotter, err := newOnceFree(ctx, config)
	if ctx.Err() != nil {
		return nil
	}
	if err != nil {
		return fmt.Errorf("no snapshotter of %s: %w", config.Root, err)
	}
	defer snapshotter.Close()
	listener, err := socket.Listen(path, socketMode, folderMode)
	if err != nil {
		return err
	}
	snapshots := service.New(snapshotter, nil)
	served := make(chan error, 1)
	go func() { served <- snapshots.Serve(listener) }()
	log.L.WithField("root", config.Root).WithField("socket", path).Info("serving")
	if _, err := daemon.SdNotify(false, daemon.SdNotifyReady); err != nil {
		log.L.WithError(err).Warn("failed to tell systemd")
	}
	select {
	case <-ctx.Done():
		snapshots.End()
		log.L.Info("ended")
		return nil
	case <-snapshotter.Ended():
		snapshots.End()
		return fmt.Errorf("%w: %v", errStoreEnded, snapshotter.Err())
	case err := <-served:
		return err
	}
}

// A snapshotter of a root, which the store of a proxy that was killed may have for a little longer.
func newOnceFree(ctx context.Context, config containerd.Config) (*containerd.Snapshotter, error) {
	return pibroulez.OnceFree(ctx, func() (*containerd.Snapshotter, error) { return containerd.New(ctx, config) })
}

package main

import (
	"context"
	"os"
	"path/filepath"
	"testing"
	"time"

	snapshotsapi "github.com/containerd/containerd/api/services/snapshots/v1"
	"github.com/containerd/containerd/errdefs"
	"github.com/containerd/containerd/namespaces"
	"github.com/containerd/containerd/snapshots"
	"github.com/containerd/containerd/snapshots/proxy"
	"google.golang.org/grpc"

	"pibroulez.example/pibroulez/containerd"
)

func program() string {
	if named := os.Getenv("PIBROULEZ_PROGRAM"); named != "" {
		return named
	}
	return "../../../../crates/snap_replay/out/snap_replay"
}

func granted(t *testing.T, err error) {
	t.Helper()
	if err != nil {
		t.Fatal(err)
	}
}

// Serves the snapshotter of a root, and hands out a client of it and what ends both.
func serving(t *testing.T, root string) (snapshots.Snapshotter, func()) {
	t.Helper()
	socket := filepath.Join(root, "socket")
	ctx, end := context.WithCancel(context.Background())
	ended := make(chan error)
	go func() { ended <- serve(ctx, containerd.Config{Program: program(), Root: root}, socket) }()
	dialled, cancel := context.WithTimeout(ctx, time.Minute)
	defer cancel()
	connection, err := grpc.DialContext(dialled, "unix://"+socket, grpc.WithInsecure(), grpc.WithBlock())
	granted(t, err)
	return proxy.NewSnapshotter(snapshotsapi.NewSnapshotsClient(connection), "pibroulez"), func() {
		t.Helper()
		connection.Close()
		end()
		granted(t, <-ended)
	}
}

// containerd's client sees the snapshots over the socket, with classes of errors, and finds them again when the proxy
// has ended and is started again.
func TestOverTheSocket(t *testing.T) {
	root := t.TempDir()
	ctx := namespaces.WithNamespace(context.Background(), "test")
	s, end := serving(t, root)
	_, err := s.Prepare(ctx, "k", "")
	granted(t, err)
	granted(t, s.Commit(ctx, "base", "k", snapshots.WithLabels(map[string]string{"x": "1"})))
	mounts, err := s.View(ctx, "view", "base")
	granted(t, err)
	if len(mounts) != 1 || mounts[0].Source != filepath.Join(root, "snapshots", "1", "fs") {
		t.Errorf("%v: mounts of a view", mounts)
	}
	if err := s.Remove(ctx, "base"); !errdefs.IsFailedPrecondition(err) {
		t.Errorf("%v: a snapshot with a child", err)
	}
	none := func(context.Context, snapshots.Info) error { return nil }
	granted(t, s.Walk(ctx, none, "name==base"))
	if err := s.Walk(ctx, none, "name=="); !errdefs.IsInvalidArgument(err) {
		t.Errorf("%v: a walk with a malformed filter", err)
	}
	before, err := s.Stat(ctx, "base")
	granted(t, err)
	end()

	s, end = serving(t, root)
	defer end()
	after, err := s.Stat(ctx, "base")
	granted(t, err)
	if after.Labels["x"] != "1" || after.Kind != snapshots.KindCommitted || !after.Created.Equal(before.Created) {
		t.Errorf("%v, not %v", after, before)
	}
	granted(t, s.Remove(ctx, "view"))
	granted(t, s.Remove(ctx, "base"))
}

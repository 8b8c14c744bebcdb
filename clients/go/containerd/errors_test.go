package containerd

import (
	"errors"
	"fmt"
	"os"
	"path/filepath"
	"strings"
	"testing"

	"github.com/containerd/containerd/errdefs"
	"github.com/containerd/containerd/snapshots"

	"pibroulez.example/pibroulez"
)

// A refusal says of what it is, with its class, and is still the store's.
func TestWordsOfRefusals(t *testing.T) {
	s := newSnapshotter(t, t.TempDir())
	commit(t, s, "base", "")
	_, err := s.Prepare(ctx, "a/5/k2", "base")
	granted(t, err)
	prepare := func(key, parent string, opts ...snapshots.Opt) error {
		_, err := s.Prepare(ctx, key, parent, opts...)
		return err
	}
	labels := map[string]string{}
	for n := 0; n < 65; n++ {
		labels[fmt.Sprint(n)] = "x"
	}
	long := map[string]string{"long": strings.Repeat("x", 4093)}
	_, mounts := s.Mounts(ctx, "base")
	_, stat := s.Stat(ctx, "none")
	for words, it := range map[string]struct {
		err, class error
		reason     pibroulez.Reason
	}{
		`parent "a/5/k2" is not committed`: {prepare("x", "a/5/k2"), errdefs.ErrInvalidArgument, pibroulez.ErrNotCommitted},
		`parent "p" is not found`:          {prepare("x", "p"), errdefs.ErrNotFound, pibroulez.ErrNotFound},
		`snapshot "none" is not found`:     {stat, errdefs.ErrNotFound, pibroulez.ErrNotFound},
		`snapshot "base" already exists`:   {prepare("base", ""), errdefs.ErrAlreadyExists, pibroulez.ErrAlreadyExists},
		`snapshot "a/5/k2" already exists`: {s.Commit(ctx, "a/5/k2", "a/5/k2"), errdefs.ErrAlreadyExists, pibroulez.ErrAlreadyExists},
		`snapshot "base" is not active`:    {mounts, errdefs.ErrFailedPrecondition, pibroulez.ErrNotActive},
		`snapshot "base" has children`:     {s.Remove(ctx, "base"), errdefs.ErrFailedPrecondition, pibroulez.ErrHasChildren},
		`malformed key ""`:                 {prepare("", ""), errdefs.ErrInvalidArgument, pibroulez.ErrBadArgument},
		`malformed parent "\x00"`:          {prepare("x", "\x00"), errdefs.ErrInvalidArgument, pibroulez.ErrBadArgument},
		`malformed name ""`:                {s.Commit(ctx, "", "a/5/k2"), errdefs.ErrInvalidArgument, pibroulez.ErrBadArgument},
		`65 labels of snapshot "x", of at most 64`: {prepare("x", "", snapshots.WithLabels(labels)), errdefs.ErrInvalidArgument,
			pibroulez.ErrBadArgument},
		`malformed label "long" of snapshot "x"`: {prepare("x", "", snapshots.WithLabels(long)), errdefs.ErrInvalidArgument,
			pibroulez.ErrBadArgument},
	} {
		if it.err == nil || !strings.HasSuffix(it.err.Error(), words) {
			t.Errorf("%v, not %s", it.err, words)
		}
		if !errors.Is(it.err, it.class) || !errors.Is(it.err, it.reason) {
			t.Errorf("%v is not %v and %v", it.err, it.class, it.reason)
		}
	}
}

// Where a limit is passed the words say whose it is, what is free and what is wanted.
func TestWordsOfALimit(t *testing.T) {
	root := t.TempDir()
	s := newSnapshotter(t, root)
	commit(t, s, "base", "")
	granted(t, s.store.Limit(ctx, Namespace, pibroulez.Usage{Blocks: 4, Inodes: 8}))
	_, err := s.store.Prepare(ctx, Namespace, "fills", "")
	granted(t, err)
	_, err = s.store.Charge(ctx, Namespace, "fills", pibroulez.Usage{Blocks: 3, Inodes: 1})
	granted(t, err)
	_, err = s.Prepare(ctx, "k", "base")
	const want = `over limit: free 0 blocks, 6 inodes of tenant "containerd", and snapshot "k" wants 1 blocks, 1 inodes more`
	if !errdefs.IsUnavailable(err) || err.Error() != want {
		t.Errorf("%v", err)
	}
}

// A root that the store refuses is named by its field.
func TestMalformedRoot(t *testing.T) {
	root := filepath.Join(t.TempDir(), "a,b")
	granted(t, os.Mkdir(root, 0o700))
	_, err := New(ctx, Config{Program: program(), Root: root})
	if !errdefs.IsInvalidArgument(err) || err.Error() != `malformed field "root" of open` {
		t.Errorf("%v", err)
	}
}

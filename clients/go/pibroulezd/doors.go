package main

import (
	"context"
	"fmt"
	"net"
	"os"
	"sync"
	"time"

	"pibroulez.example/pibroulez"
	"pibroulez.example/pibroulez/containerd"
	"pibroulez.example/pibroulez/containerd/service"
	"pibroulez.example/pibroulez/pibroulezd/configuration"
	"pibroulez.example/pibroulez/pibroulezd/door"
	"pibroulez.example/pibroulez/pibroulezd/watch"
	"pibroulez.example/pibroulez/socket"
	"pibroulez.example/pibroulez/told"
)

// The modes of the folder of a socket, where it is made, of containerd's socket, and of that for who watches. Others than
// root may reach the socket for lines there.
const (
	openFolderMode = 0o755
	containerdMode = 0o660
	watchMode      = 0o660
)

// How long the cluster may take to be left.
const patience = 10 * time.Second

// Opens the doors that the configuration names.
func (d *daemon) openDoors(ctx context.Context) error {
	c := d.current.Load()
	if c.Cluster != nil {
		var err error
		if d.node, err = join(ctx, d.store, c); err != nil {
			return fmt.Errorf("cluster: %w", err)
		}
		d.log.WithField("store", d.node.agent.Identity()).WithField("node", c.Cluster.Node).Info("cluster")
	}
	if c.Watch != nil {
		// It counts what the others do.
		d.watch = watch.New(watch.Config{Store: d.store, Counts: d.counts, Metrics: append(d.node.metrics(), &scanMetrics{d.scans})})
	}
	if c.Containerd != nil {
		if err := d.openContainerd(ctx, c); err != nil {
			return err
		}
	}
	if c.Lines != nil {
		if err := d.openLines(c); err != nil {
			return err
		}
	}
	if c.Watch != nil {
		return d.openWatch(c)
	}
	return nil
}

func (d *daemon) openWatch(c *configuration.Configuration) error {
	var listener net.Listener
	var err error
	if c.Watch.Socket != "" {
		listener, err = socket.Listen(c.Watch.Socket, watchMode, openFolderMode)
	} else {
		listener, err = net.Listen("tcp", c.Watch.Address)
	}
	if err != nil {
		return err
	}
	d.log.WithField("address", listener.Addr().String()).Info("watch")
	go d.end(func() error { return d.watch.Serve(listener) })
	return nil
}

// The counts of the door for lines. Without it all are 0.
func (d *daemon) counts() door.Counts {
	if d.lines == nil {
		return door.Counts{}
	}
	return d.lines.Counts()
}

// What the door for containerd has read of directories. Without it all is 0.
func (d *daemon) scans() containerd.Scans {
	if d.snapshotter == nil {
		return containerd.Scans{}
	}
	return d.snapshotter.Scans()
}

// Takes note of how long a line took, where somebody watches.
func (d *daemon) observe(do string, took time.Duration) {
	if d.watch != nil {
		d.watch.Observe(do, took)
	}
}

// Takes note of how long a call of containerd took, where somebody watches.
func (d *daemon) observeCall(call string, took time.Duration) {
	if d.watch != nil {
		d.watch.ObserveCall(call, took)
	}
}

func (d *daemon) openContainerd(ctx context.Context, c *configuration.Configuration) error {
	var err error
	config := containerd.Config{Root: c.Root, Store: d.store, Each: c.Containerd.Each, Charge: d.node.chargeOfContainerd()}
	config.Tenants, config.Others = tenantsOf(c)
	if d.snapshotter, err = containerd.New(ctx, config); err != nil {
		return fmt.Errorf("no snapshotter of %s: %w", c.Root, err)
	}
	listener, err := socket.Listen(c.Containerd.Socket, containerdMode, openFolderMode)
	if err != nil {
		return err
	}
	d.snapshots = service.New(d.snapshotter, d.observeCall)
	d.log.WithField("socket", c.Containerd.Socket).Info("containerd")
	go d.end(func() error { return d.snapshots.Serve(listener) })
	return nil
}

func (d *daemon) openLines(c *configuration.Configuration) error {
	var err error
	if d.refusals, err = appendTo(c.Lines.Refusals); err != nil {
		return err
	}
	listener, err := socket.Listen(c.Lines.Socket, c.Lines.Mode, openFolderMode)
	if err != nil {
		return err
	}
	d.lines = door.New(door.Config{
		Store: d.store, Rights: d.rights, LineBytes: int(c.Lines.LineBytes), Connections: int(c.Lines.Connections),
		Patience: c.Lines.Patience, Journal: c.Journal, Refusals: d.refusals, Observe: d.observe,
		Charge: d.node.chargeOfLines(),
		Warn:   func(words string, err error) { d.log.WithError(err).Warn(words) },
	})
	d.log.WithField("socket", c.Lines.Socket).Info("lines")
	go d.end(func() error { return d.lines.Serve(listener) })
	return nil
}

// The tenants of containerd that a file names, with their limits, and the others.
func tenantsOf(c *configuration.Configuration) (containerds map[string]pibroulez.Usage, others []string) {
	containerds = map[string]pibroulez.Usage{}
	for _, name := range told.Sorted(c.Tenants) {
		if it := c.Tenants[name]; it.IsContainerds {
			containerds[name] = it.Limit
		} else {
			others = append(others, name)
		}
	}
	return containerds, others
}

// Serves a door, and has the daemon end where it fails.
func (d *daemon) end(serve func() error) {
	if err := serve(); err != nil {
		select {
		case d.failed <- err:
		default:
		}
	}
}

// Ends the doors, once what has come by them is answered, and then the store.
func (d *daemon) close() {
	if d.watch != nil {
		d.watch.End()
	}
	if d.snapshots != nil {
		d.snapshots.End()
	}
	if d.lines != nil {
		d.lines.Close()
	}
	if d.refusals != nil {
		d.refusals.close()
	}
	left := make(chan struct{})
	go func() {
		d.node.leave()
		close(left)
	}()
	// It may wait for a store that doesn't answer, which its end kills.
	select {
	case <-left:
	case <-time.After(patience):
	}
	isRunning := d.store.Err() == nil
	if err := d.store.Close(); err != nil && isRunning {
		d.log.WithError(err).Warn("the store's end")
	}
	<-left
	if d.snapshotter != nil {
		d.snapshotter.Close()
	}
}

// What a peer may do, by the roles that count now.
func (d *daemon) rights(peer door.Peer) door.Rights {
	c, groups := d.current.Load(), peer.AllGroups()
	rights := door.Rights{
		IsOperator: c.Operators.Has(peer.User, groups), IsQuota: c.Quotas.Has(peer.User, groups), Namespaces: map[string]bool{},
	}
	for name, tenant := range c.Tenants {
		if tenant.Members.Has(peer.User, groups) {
			rights.Namespaces[name] = true
		}
	}
	return rights
}

// A file at whose end lines are written. Who moves it away has it opened anew.
type appended struct {
	path  string
	mutex sync.Mutex
	file  *os.File
}

func appendTo(path string) (*appended, error) {
	a := &appended{path: path}
	return a, a.reopen()
}

func (a *appended) reopen() error {
	file, err := os.OpenFile(a.path, os.O_APPEND|os.O_CREATE|os.O_WRONLY, 0o600)
	if err != nil {
		return err
	}
	a.mutex.Lock()
	defer a.mutex.Unlock()
	if a.file != nil {
		a.file.Close()
	}
	a.file = file
	return nil
}

func (a *appended) Write(line []byte) (int, error) {
	a.mutex.Lock()
	defer a.mutex.Unlock()
	return a.file.Write(line)
}

func (a *appended) close() {
	a.mutex.Lock()
	defer a.mutex.Unlock()
	a.file.Close()
}

package main

import (
	"context"
	"errors"
	"fmt"
	"strings"

	"pibroulez.example/pibroulez"
	"pibroulez.example/pibroulez/cluster"
	"pibroulez.example/pibroulez/containerd"
	"pibroulez.example/pibroulez/pibroulezd/configuration"
	"pibroulez.example/pibroulez/told"
)

// At a start, makes the store's tenants those of the configuration. The error tells which can't be made, and which
// others stay, since they have snapshots or leases. In a cluster each other one does: etcd has what was granted for it.
// Where each namespace of containerd is a tenant, others are left to its door.
func (d *daemon) beginTenants(ctx context.Context, c *configuration.Configuration) error {
	quotas, err := d.store.Quotas(ctx)
	if err != nil {
		return err
	}
	others, isOfCluster := othersOf(quotas, c)
	if c.Containerd != nil && c.Containerd.Each != nil {
		others = identitiesOf(others)
	}
	switch {
	case c.Cluster != nil && !isOfCluster:
		return fmt.Errorf("cluster: %w", cluster.ErrNoIdentity)
	case c.Cluster == nil && !isOfCluster:
		refused := d.removeTenants(ctx, others)
		others = told.Sorted(refused)
		for _, name := range others {
			if !errors.Is(refused[name], pibroulez.ErrNotEmpty) {
				return fmt.Errorf("%s: tenants: %q isn't removed from the store of %s: %w", d.path, name, c.Root, refused[name])
			}
		}
	}
	var names []string
	for _, name := range others {
		if c.Cluster == nil || !cluster.IsIdentity(name) {
			names = append(names, fmt.Sprintf("%q", name))
		}
	}
	if len(names) > 0 {
		return fmt.Errorf("%s: tenants: the store of %s also has %s", d.path, c.Root, strings.Join(names, ", "))
	}
	refused := d.makeTenants(ctx, quotas, c)
	for _, name := range told.Sorted(refused) {
		return fmt.Errorf("%s: tenants: %q isn't made in the store of %s: %w", d.path, name, c.Root, refused[name])
	}
	return nil
}

// Where the file is read again, makes the store's tenants those of the file, as far as that can be, and gives them their
// limits. What is refused is told, and is tried again at the next time.
func (d *daemon) changeTenants(ctx context.Context, c *configuration.Configuration) {
	quotas, err := d.store.Quotas(ctx)
	if err != nil {
		d.log.WithError(err).Error("the old tenants stay")
		return
	}
	others, _ := othersOf(quotas, c)
	if d.hasEach() {
		others = d.changeContainerds(ctx, c, others)
	}
	d.tellRefused("the tenant stays, and has no members", d.removeTenants(ctx, others))
	d.tellRefused("the tenant isn't made", d.makeTenants(ctx, quotas, c))
	d.limits.apply(ctx, d.store, c)
}

// Whether each namespace of containerd is a tenant.
func (d *daemon) hasEach() bool {
	it := d.current.Load().Containerd
	return d.snapshotter != nil && it != nil && it.Each != nil
}

// Where each namespace of containerd is a tenant, has the door for it have those of the file with their limits. Of the
// other namespaces of the store, those are answered that aren't containerd's.
func (d *daemon) changeContainerds(ctx context.Context, c *configuration.Configuration, others []string) (anothers []string) {
	containerds, _ := tenantsOf(c)
	taken, err := d.snapshotter.SetTenants(ctx, containerds, *c.Containerd.Each)
	if err != nil {
		d.log.WithError(err).Error("tenants of containerd without snapshots stay")
	}
	for _, name := range taken {
		d.log.WithField("tenant", name).WithError(containerd.ErrTaken).Error("the tenant is none of containerd's before the next start")
	}
	for _, name := range others {
		if !d.snapshotter.HasTenant(name) {
			anothers = append(anothers, name)
		}
	}
	return anothers
}

// Where each namespace of containerd is a tenant, takes those of a file out of it that are to be another's, and were not
// before, but are containerd's: nobody calls on its snapshots.
func (d *daemon) reserve(ctx context.Context, next *configuration.Configuration) {
	if !d.hasEach() {
		return
	}
	old := d.current.Load()
	_, others := tenantsOf(next)
	for _, name := range others {
		if it, wasThere := old.Tenants[name]; wasThere && !it.IsContainerds {
			continue
		}
		if err := d.snapshotter.Reserve(ctx, name); err != nil {
			d.log.WithField("tenant", name).WithError(err).Error("the tenant stays containerd's, and has no members")
			delete(next.Tenants, name)
		}
	}
}

// The namespaces of a store that are no tenants of the configuration, and whether one is the identity of a store of a cluster.
func othersOf(quotas map[string]pibroulez.Quota, c *configuration.Configuration) (others []string, isOfCluster bool) {
	for _, name := range told.Sorted(quotas) {
		isOfCluster = isOfCluster || cluster.IsIdentityOf(name, quotas[name].Limit)
		if _, isTenant := c.Tenants[name]; !isTenant {
			others = append(others, name)
		}
	}
	return others, isOfCluster
}

// Those of some namespaces that have the name of an identity.
func identitiesOf(names []string) (found []string) {
	for _, name := range names {
		if cluster.IsIdentity(name) {
			found = append(found, name)
		}
	}
	return found
}

// Removes tenants. Those that are refused stay as they are, and are answered with why.
func (d *daemon) removeTenants(ctx context.Context, names []string) map[string]error {
	refused := map[string]error{}
	for _, name := range names {
		if err := d.store.NamespaceRemove(ctx, name); err != nil {
			refused[name] = err
			continue
		}
		d.limits.forget(name)
		d.log.WithField("tenant", name).Info("tenant removed")
	}
	return refused
}

// Makes the tenants that the store doesn't have, with their limits, and in a cluster with nothing granted. Those that are
// refused are answered with why.
func (d *daemon) makeTenants(ctx context.Context, quotas map[string]pibroulez.Quota, c *configuration.Configuration) map[string]error {
	refused := map[string]error{}
	for _, name := range told.Sorted(c.Tenants) {
		if _, isThere := quotas[name]; isThere {
			continue
		}
		limit := c.Tenants[name].Limit
		if c.Cluster != nil {
			limit = pibroulez.Usage{}
		}
		err := d.store.NamespaceCreate(ctx, name, limit)
		if errors.Is(err, pibroulez.ErrNamespaceExists) && c.Tenants[name].IsContainerds {
			// The door has made it meanwhile.
			continue
		}
		if err != nil {
			refused[name] = err
			continue
		}
		if c.Cluster == nil {
			d.limits.give(name, limit)
		}
		d.log.WithField("tenant", name).WithField("limit", limit.String()).Info("tenant made")
	}
	return refused
}

func (d *daemon) tellRefused(words string, refused map[string]error) {
	for _, name := range told.Sorted(refused) {
		d.log.WithField("tenant", name).WithError(refused[name]).Error(words)
	}
}

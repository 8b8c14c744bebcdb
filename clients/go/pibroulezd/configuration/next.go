package configuration

import (
	"fmt"
	"sort"
)

// Next is what a running daemon goes on with where its file is read again: the roles and, but in a cluster, the tenants with
// their limits are those of the file, and all else stays as it is. Tenants of containerd stay too, since the door has them from
// its beginning, but where each of its namespaces is one. Each key of the file that says something else is among the faults,
// which refuse it.
func (c *Configuration) Next(path string, read *Configuration) (*Configuration, Faults) {
	var refused Faults
	refuse := func(key, words string) { refused = append(refused, &Fault{Path: path, Key: key, Words: words}) }
	next := *c
	isEach := c.Containerd != nil && c.Containerd.Each != nil
	if isEach && read.Containerd != nil && read.Containerd.Each != nil {
		next.Containerd = &Containerd{c.Containerd.Socket, read.Containerd.Each}
	}
	next.Operators, next.Quotas, next.Tenants = read.Operators, read.Quotas, map[string]Tenant{}
	now := read.fixed()
	for key, old := range c.fixed() {
		if it, isThere := now[key]; isThere && it != old {
			refuse(key, fmt.Sprintf("it can't change while the daemon runs: %v stays", old))
		}
	}
	for name, tenant := range c.Tenants {
		if name == ContainerdNamespace && c.Containerd != nil && read.Containerd == nil {
			// The door is refused by its own key.
			next.Tenants[name] = tenant
			continue
		}
		now, isThere := read.Tenants[name]
		switch {
		case isThere:
		case c.Cluster != nil:
			refuse("tenants."+told(name), "in a cluster a tenant stays as long as its store: it has no members")
			now = Tenant{Limit: tenant.Limit}
		case tenant.IsContainerds && !isEach:
			refuse("tenants."+told(name), "a tenant of containerd stays while the daemon runs: it keeps its limit")
			now = tenant
		default:
			continue
		}
		if isThere && now.IsContainerds != tenant.IsContainerds {
			refuse("tenants."+told(name), "whose its snapshots are can't change while the daemon runs: it stays, and the tenant has no members")
			now.Members = Members{}
		}
		now.IsContainerds = tenant.IsContainerds
		if c.Cluster != nil && now.Limit != tenant.Limit {
			refuse("tenants."+told(name), "in a cluster a node's own limit can't change while the daemon runs: "+tenant.Limit.String()+" stays")
			now.Limit = tenant.Limit
		}
		next.Tenants[name] = now
	}
	for name, tenant := range read.Tenants {
		_, isThere := c.Tenants[name]
		switch {
		case isThere:
		case name == ContainerdNamespace && read.Containerd != nil:
			// The door is refused by its own key.
		case c.Cluster != nil:
			refuse("tenants."+told(name), "in a cluster a tenant is made at a start")
		case tenant.IsContainerds && !isEach:
			refuse("tenants."+told(name), "a tenant of containerd is made at a start")
		default:
			next.Tenants[name] = tenant
		}
	}
	if (c.Cluster == nil) != (read.Cluster == nil) {
		// Limits are of another kind there: one that is left out is the most. So the members alone are those of the file.
		next.Tenants = map[string]Tenant{}
		for name, tenant := range c.Tenants {
			tenant.Members = read.Tenants[name].Members
			next.Tenants[name] = tenant
		}
	}
	sort.SliceStable(refused, func(i, j int) bool { return refused[i].Key < refused[j].Key })
	return &next, refused
}

// What can't change while the daemon runs, by its keys. That of a door says whether there is one.
func (c *Configuration) fixed() map[string]any {
	all := map[string]any{
		"root": c.Root, "program": c.Program, "log": c.Log, "journal": c.Journal, "slots": c.Slots,
		"layer_inodes": c.LayerInodes, "ancestors": c.Ancestors, "checkpoint": c.Checkpoint,
		"lines": door(c.Lines != nil), "containerd": door(c.Containerd != nil),
		"watch": door(c.Watch != nil), "cluster": clusterOf(c.Cluster),
	}
	if c.Watch != nil {
		all["watch.address"] = *c.Watch
	}
	if c.Containerd != nil {
		all["containerd.socket"] = c.Containerd.Socket
		all["containerd.each"] = each(c.Containerd.Each != nil)
	}
	if c.Lines == nil {
		return all
	}
	for key, value := range map[string]any{
		"socket": c.Lines.Socket, "mode": c.Lines.Mode, "line_bytes": c.Lines.LineBytes, "connections": c.Lines.Connections,
		"patience": c.Lines.Patience, "refusals": c.Lines.Refusals,
	} {
		all["lines."+key] = value
	}
	return all
}

// Whether there is a door.
type door bool

func (d door) String() string {
	if d {
		return "the door"
	}
	return "no door"
}

// Whether each namespace of containerd is a tenant.
type each bool

func (e each) String() string {
	if e {
		return "a tenant for each namespace"
	}
	return "one namespace for all others"
}

// All that is said of a cluster.
type cluster string

func clusterOf(c *Cluster) cluster {
	if c == nil {
		return ""
	}
	return cluster(fmt.Sprintf("%+v", *c))
}

func (c cluster) String() string {
	if c == "" {
		return "no cluster"
	}
	return "what it was"
}

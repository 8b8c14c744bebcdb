package cluster

import (
	"errors"
	"fmt"
	"time"

	"pibroulez.example/pibroulez"
)

// A State is what an agent is in. It is an error too: errors.Is tells whether a call has ended for it, and errors.As with
// a *StateError of which store and tenant.
type State string

func (s State) Error() string { return string(s) }

// What a node does in each state. In the first six it serves, and goes from one to the other by itself.
const (
	// Serving: all tenants are settled and etcd answers. Charges within the grant don't wait, and others ask etcd.
	Serving State = "Serving"
	// Settling: since the agent began, not all tenants have had their grants set to the store's own limits. With AtOnce
	// charges are made within those limits, which outlive a crash, and one that needs more asks etcd; with AfterSettling
	// they wait until all are settled, as long as their contexts and Config.Patience last.
	Settling State = "Settling"
	// EtcdAway: the last request to etcd had no answer. The node charges within its grants, and gives nothing back. A
	// charge that needs more is refused, with this cause. It asks again by itself.
	EtcdAway State = "EtcdAway"
	// NotJoined: etcd has neither a record that the store has joined nor the mark that it was forgotten, as at a first
	// start while etcd is away. The node charges within its store's own limits, 0 for a new one, and tries to join.
	NotJoined State = "NotJoined"
	// Restored: etcd was restored from a backup. The node has registered its store's own limits, or tries to, and charges
	// within them. A charge that needs more is refused, with this cause, until an operator has reopened the cluster.
	Restored State = "Restored"
	// OtherFormat: the keys in etcd are of another format, as another version of this package has written them. The node
	// writes nothing over them, and charges within its store's own limits. A charge that needs more is refused, with this
	// cause. It asks again by itself.
	OtherFormat State = "OtherFormat"

	// Forgotten: an operator has said that the store's data are destroyed, and yet it is here. Others may have what it
	// was granted. This and the next two are ends: each charge by the agent is refused, the store's own limits are lowered
	// to what is charged, so that no other caller charges more either, and nothing is written to etcd any more. Who has
	// the store ends it, and begins a new one.
	Forgotten State = "Forgotten"
	// LimitAboveGrant: the store's own limit is above its grant. Its log has gone back in time, as one put back from a
	// backup, or the disk was copied and the copy has run.
	LimitAboveGrant State = "LimitAboveGrant"
	// Copied: while this agent runs, another process has written the grants of its store: a copy of the store runs too.
	Copied State = "Copied"
)

// isEnd says that an agent doesn't leave the state.
func (s State) isEnd() bool { return s == Forgotten || s == LimitAboveGrant || s == Copied }

// A StateError is why an agent can't do more than it does.
type StateError struct {
	State State
	Store string
	// Tenant, and Limit and Grant, the store's own, are told of LimitAboveGrant; Tenant also of Copied.
	Tenant       string
	Limit, Grant Usage
	// Cause is why etcd is away, or nil.
	Cause error
}

func (e *StateError) Error() string {
	switch {
	case e.State == LimitAboveGrant:
		return fmt.Sprintf("%v: store %s, tenant %q: limit %v, grant %v", e.State, e.Store, e.Tenant, e.Limit, e.Grant)
	case e.State == Copied:
		return fmt.Sprintf("%v: store %s, tenant %q: another process writes its grants", e.State, e.Store, e.Tenant)
	case e.Cause != nil:
		return fmt.Sprintf("%v: store %s: %v", e.State, e.Store, e.Cause)
	}
	return fmt.Sprintf("%v: store %s", e.State, e.Store)
}

// Is tells the state.
func (e *StateError) Is(target error) bool { return target == e.State }

// Unwrap is the cause.
func (e *StateError) Unwrap() error { return e.Cause }

// A Status is an agent's state.
type Status struct {
	State State
	// Err is a *StateError, or nil while the agent serves.
	Err error
	// Since is when the state began.
	Since time.Time
}

// Why room isn't had, beside the states.
var (
	// ErrNoTenant: no operator has given the tenant a limit in the cluster.
	ErrNoTenant = errors.New("the tenant has no limit in the cluster")
	// ErrLocalLimit: this node's own limit for the tenant, Config.Local, doesn't leave that much.
	ErrLocalLimit = errors.New("the node's limit for the tenant is reached")
	// ErrDrained: an operator drains this store, so it takes no more.
	ErrDrained = errors.New("the store is drained")
	// ErrBusy: other stores have changed the tenant's record each time that this one was about to, for Config.Patience and
	// Config.Timeout.
	ErrBusy = errors.New("the tenant's record was changed each time")
)

// ErrBadConfig is the error of a Config without what is needed, with a Start that there isn't, or of a store with more than
// MostTenants.
var ErrBadConfig = errors.New("the configuration is not one")

// ErrClosed is the error of each call once the agent is closed.
var ErrClosed = errors.New("the agent is closed")

// ErrNoIdentity is the error of a store without an identity, or with several: one that wasn't opened with Namespaces, or
// where such a namespace was made or removed since.
var ErrNoIdentity = errors.New("the store's log has no identity, or several")

// A BadRecord is a key of etcd whose value isn't of this protocol. Nothing is written over it.
type BadRecord struct {
	Key   string
	Cause error
}

func (b *BadRecord) Error() string { return fmt.Sprintf("%s: %v", b.Key, b.Cause) }

// Unwrap is what is wrong with the value.
func (b *BadRecord) Unwrap() error { return b.Cause }

// A Refused is a charge for which no room was found within Config.Patience. errors.Is tells that it is
// pibroulez.ErrOverLimit, and its cause.
type Refused struct {
	Tenant string
	Need   Usage
	// Limit is the tenant's, and Free what of it no store is granted.
	Limit, Free Usage
	// Idle is what each node is granted and doesn't use, as its agent told last, and of this one as it is.
	Idle map[string]Usage
	// Unanswered is what is granted to stores whose agents don't answer.
	Unanswered Usage
	// Cause is nil where the cluster has no room, else a *StateError, ErrNoTenant, ErrLocalLimit, ErrDrained, ErrBusy, a
	// *BadRecord, or the store's error.
	Cause error
}

func (r *Refused) Error() string {
	words := fmt.Sprintf("%v: tenant %q needs %v: limit %v, free %v, granted to nodes that don't answer %v",
		pibroulez.ErrOverLimit, r.Tenant, r.Need, r.Limit, r.Free, r.Unanswered)
	for _, node := range sorted(r.Idle) {
		words += fmt.Sprintf(", idle on %s %v", node, r.Idle[node])
	}
	if r.Cause != nil {
		words += fmt.Sprintf(": %v", r.Cause)
	}
	return words
}

// Is says that it is pibroulez.ErrOverLimit.
func (r *Refused) Is(target error) bool { return target == pibroulez.ErrOverLimit }

// Unwrap is the cause.
func (r *Refused) Unwrap() error { return r.Cause }

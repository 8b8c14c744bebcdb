package containerd

import (
	"context"
	"errors"
	"fmt"
	"sort"
	"strconv"
	"strings"
	"sync"

	"github.com/containerd/containerd/errdefs"
	"github.com/containerd/containerd/log"

	"pibroulez.example/pibroulez"
	"pibroulez.example/pibroulez/told"
)

// ReserveLabel is the label of a new active snapshot with BLOCKS/INODES that are charged for it at once, its root among them.
// Without that much room it isn't made. Of a view, and of a commit, it charges nothing.
const ReserveLabel = "containerd.io/snapshot/pibroulez.reserve"

// The most of each quantity that a limit may have.
const mostLimit = 1 << 40

// The most bytes of a namespace's name (docs/RULES.md).
const mostNamespaceBytes = 255

// The tenants of containerd: which of its namespaces are namespaces of the store. One that isn't listed is made with its first
// snapshot, and removed with its last.
type tenants struct {
	// Who has the lock of a name makes or removes its namespace, or learns that nobody does.
	locks locks

	mutex sync.RWMutex
	// Those that stay, with the limits by which they are made.
	listed map[string]pibroulez.Usage
	// The limit of each other one, or nil where others share Namespace.
	each *pibroulez.Usage
	// The names that are none of containerd's tenants: those of others, and those with snapshots in Namespace.
	others map[string]bool
	// What is known of the namespaces of the store.
	of map[string]*use
}

// The use of a namespace of the store.
type use struct {
	// Whether the store has it, as far as is known.
	isThere bool
	// How many calls may make a snapshot there.
	makers int
	// Whether its last snapshot may be gone.
	mayBeEmpty bool
}

func newTenants(config Config) *tenants {
	t := &tenants{
		locks: locks{held: map[string]*lock{}}, listed: map[string]pibroulez.Usage{}, each: config.Each, others: map[string]bool{}, of: map[string]*use{},
	}
	for name, limit := range config.Tenants {
		t.listed[name] = limit
	}
	for _, name := range config.Others {
		t.others[name] = true
	}
	return t
}

// Whether a namespace of containerd is one of the store. Who asks has the mutex.
func (t *tenants) has(name string) bool {
	if _, isListed := t.listed[name]; isListed {
		return true
	}
	return t.each != nil && !t.others[name] && mayBeTenant(name)
}

// Whether a namespace of containerd may be one of the store that nobody has listed.
func mayBeTenant(name string) bool {
	return name != "" && name != Namespace && len(name) <= mostNamespaceBytes && !pibroulez.IsIdentity(name)
}

// What is known of a namespace of the store. Who asks has the mutex.
func (t *tenants) useOf(name string) *use {
	it := t.of[name]
	if it == nil {
		it = new(use)
		t.of[name] = it
	}
	return it
}

// The namespace of the store that has the snapshot of a key, or would have it: the tenant of its first part, if it is one.
func (s *Snapshotter) namespaceOf(key string) string {
	name, _, isNamed := strings.Cut(key, "/")
	if !isNamed {
		return Namespace
	}
	s.tenants.mutex.RLock()
	defer s.tenants.mutex.RUnlock()
	if s.tenants.has(name) {
		return name
	}
	return Namespace
}

// All namespaces of the store that have snapshots of containerd: that of all without a tenant, and the tenants in the order
// of their keys.
func (s *Snapshotter) namespaces() []string {
	s.tenants.mutex.RLock()
	defer s.tenants.mutex.RUnlock()
	all := append([]string{Namespace}, told.Sorted(s.tenants.listed)...)
	for name, it := range s.tenants.of {
		if _, isListed := s.tenants.listed[name]; it.isThere && !isListed && s.tenants.has(name) {
			all = append(all, name)
		}
	}
	sort.Slice(all[1:], func(i, j int) bool { return all[1+i]+"/" < all[1+j]+"/" })
	return all
}

// Finds the tenants that the store has, and removes those that aren't listed and have nothing. The error is
// errdefs.ErrFailedPrecondition where one that is listed isn't there, where a snapshot of one is among those of none, and
// where one that isn't listed has a snapshot of somebody else.
func (s *Snapshotter) findTenants(ctx context.Context) error {
	if len(s.tenants.listed) == 0 && s.tenants.each == nil {
		return nil
	}
	quotas, err := s.store.Quotas(ctx)
	if err != nil {
		return err
	}
	for _, name := range told.Sorted(s.tenants.listed) {
		if _, isThere := quotas[name]; !isThere || name == Namespace {
			return fmt.Errorf("tenant %q of containerd is no namespace of the store: %w", name, errdefs.ErrFailedPrecondition)
		}
	}
	if err := s.findShared(ctx); err != nil {
		return err
	}
	for _, name := range s.unlisted(quotas) {
		isThere, err := s.tidy(ctx, name)
		if err == nil && isThere {
			err = s.hasNoOther(ctx, name)
		}
		if err != nil {
			return err
		}
	}
	return nil
}

// Takes note of the namespaces of containerd that have snapshots among those of no tenant: they stay there.
func (s *Snapshotter) findShared(ctx context.Context) error {
	nodes, err := s.store.Tree(ctx, Namespace)
	if err != nil {
		return err
	}
	s.tenants.mutex.Lock()
	defer s.tenants.mutex.Unlock()
	for _, node := range nodes {
		name, _, isNamed := strings.Cut(node.Key, "/")
		if !isNamed {
			continue
		}
		if _, isListed := s.tenants.listed[name]; isListed {
			return fmt.Errorf("snapshot %q was made before %q was a tenant, so it is charged to none: %w", node.Key, name, errdefs.ErrFailedPrecondition)
		}
		s.tenants.others[name] = true
	}
	return nil
}

// The namespaces of the store that are tenants of containerd without being listed.
func (s *Snapshotter) unlisted(quotas map[string]pibroulez.Quota) (names []string) {
	s.tenants.mutex.RLock()
	defer s.tenants.mutex.RUnlock()
	for _, name := range told.Sorted(quotas) {
		if _, isListed := s.tenants.listed[name]; !isListed && s.tenants.has(name) {
			names = append(names, name)
		}
	}
	return names
}

// Whether a tenant has no snapshots of others than containerd.
func (s *Snapshotter) hasNoOther(ctx context.Context, name string) error {
	// Of the keys before those that begin with the name and a slash, and of those behind them.
	for _, after := range []string{"", name + "0"} {
		page, err := s.store.Walk(ctx, name, after, 1, pibroulez.Filter{})
		if err != nil {
			return err
		}
		if len(page) > 0 && !strings.HasPrefix(page[0].Name, name+"/") {
			return fmt.Errorf("namespace %q of the store has the snapshot %q, which isn't containerd's: %w", name, page[0].Name, errdefs.ErrFailedPrecondition)
		}
	}
	return nil
}

// ErrTaken is of a name that is no tenant's before the next start: snapshots of it are another's.
var ErrTaken = errors.New("snapshots of this name are another's")

// SetTenants changes which tenants stay, with the limits by which they are made from now on, and the limit of each other one.
// It is for a snapshotter with Config.Each. Those that are ErrTaken are answered, and stay what they are. A tenant that isn't
// listed any more goes with its last snapshot, or at once.
func (s *Snapshotter) SetTenants(ctx context.Context, listed map[string]pibroulez.Usage, each pibroulez.Usage) (taken []string, err error) {
	s.tenants.mutex.Lock()
	s.tenants.each, s.tenants.listed = &each, map[string]pibroulez.Usage{}
	for _, name := range told.Sorted(listed) {
		if s.tenants.others[name] || !mayBeTenant(name) {
			taken = append(taken, name)
		} else {
			s.tenants.listed[name] = listed[name]
		}
	}
	s.tenants.mutex.Unlock()
	quotas, err := s.store.Quotas(ctx)
	if err != nil {
		return taken, err
	}
	for _, name := range s.unlisted(quotas) {
		if _, err := s.tidy(ctx, name); err != nil {
			return taken, err
		}
	}
	return taken, nil
}

// HasTenant says whether containerd's namespace of this name is one of the store by itself, or would be.
func (s *Snapshotter) HasTenant(name string) bool {
	s.tenants.mutex.RLock()
	defer s.tenants.mutex.RUnlock()
	return s.tenants.has(name)
}

// Reserve has a name be none of containerd's tenants, so that it may be another's: its snapshots that are made from now on
// are in Namespace. The error is ErrTaken where it has a snapshot or a lease, and is a tenant then as before.
func (s *Snapshotter) Reserve(ctx context.Context, name string) error {
	release, err := s.tenants.locks.take(ctx, name)
	if err != nil {
		return err
	}
	defer release()
	s.tenants.mutex.Lock()
	isOurs, it := s.tenants.has(name), s.tenants.of[name]
	isUsed := isOurs && it != nil && it.makers > 0
	s.tenants.mutex.Unlock()
	if isOurs && !isUsed {
		isUsed, err = s.removeEmpty(ctx, name)
	}
	if err != nil {
		return err
	}
	if isUsed {
		return fmt.Errorf("namespace %q: %w", name, ErrTaken)
	}
	s.tenants.mutex.Lock()
	defer s.tenants.mutex.Unlock()
	s.tenants.others[name] = true
	return nil
}

// Makes a call that makes a snapshot, in a namespace that the store has then. Where the call is refused, a namespace that was
// made for it goes again.
func (s *Snapshotter) within(ctx context.Context, name string, call func() error) error {
	if name == Namespace || s.hasCluster {
		return call()
	}
	for {
		isNew, err := s.enter(ctx, name)
		if err != nil {
			return err
		}
		err = call()
		// Somebody else may have removed it meanwhile.
		isGone := errors.Is(err, pibroulez.ErrNoNamespace)
		s.leave(ctx, name, func(it *use) {
			it.makers--
			it.isThere = it.isThere && !isGone
			it.mayBeEmpty = it.mayBeEmpty || err != nil
		})
		if !isGone || isNew {
			return err
		}
	}
}

// Has the store have a namespace, and keep it until the call is left. Whether it was made for this.
func (s *Snapshotter) enter(ctx context.Context, name string) (isNew bool, err error) {
	release, err := s.tenants.locks.take(ctx, name)
	if err != nil {
		return false, err
	}
	defer release()
	s.tenants.mutex.Lock()
	limit, isListed := s.tenants.listed[name]
	if !isListed && s.tenants.each != nil {
		limit = *s.tenants.each
	}
	isOurs, isThere := s.tenants.has(name), s.tenants.useOf(name).isThere
	s.tenants.mutex.Unlock()
	if !isOurs {
		// It has become another's since the call has begun.
		return false, &noTenant{fmt.Errorf("%v: %w", ErrTaken, errdefs.ErrUnavailable), name}
	}
	if !isThere {
		err := s.store.NamespaceCreate(ctx, name, limit)
		if isNew = err == nil; isNew {
			log.G(ctx).WithField("tenant", name).WithField("limit", limit.String()).Info("tenant made")
		} else if !errors.Is(err, pibroulez.ErrNamespaceExists) {
			return false, &noTenant{err, name}
		}
	}
	s.tenants.mutex.Lock()
	defer s.tenants.mutex.Unlock()
	it := s.tenants.useOf(name)
	it.isThere = true
	it.makers++
	return isNew, nil
}

// A tenant that the store doesn't have, and doesn't get.
type noTenant struct {
	error
	name string
}

func (n *noTenant) Unwrap() error { return n.error }

func (n *noTenant) Error() string {
	if errors.Is(n.error, pibroulez.ErrTooManyNamespaces) {
		return fmt.Sprintf("tenant %q is not made: the store has as many namespaces as one may have", n.name)
	}
	return fmt.Sprintf("tenant %q is not made: %v", n.name, n.error)
}

// Takes note that a snapshot of a namespace is gone. It goes with its last one.
func (s *Snapshotter) emptied(ctx context.Context, name string) {
	if name != Namespace && !s.hasCluster {
		s.leave(ctx, name, func(it *use) { it.mayBeEmpty = true })
	}
}

// Takes note of what has become of a namespace, and removes one that isn't listed where nobody makes a snapshot there and its
// last may be gone. Where that fails it stays until its next snapshot is gone, or the next start.
func (s *Snapshotter) leave(ctx context.Context, name string, note func(*use)) {
	release, err := s.tenants.locks.take(endless{ctx}, name)
	if err != nil {
		return
	}
	defer release()
	s.tenants.mutex.Lock()
	it := s.tenants.useOf(name)
	note(it)
	_, stays := s.tenants.listed[name]
	stays = stays || !s.tenants.has(name) || it.makers > 0 || !it.mayBeEmpty || !it.isThere
	if !it.isThere && it.makers == 0 {
		delete(s.tenants.of, name)
	}
	s.tenants.mutex.Unlock()
	if stays {
		return
	}
	if _, err := s.removeEmpty(endless{ctx}, name); err != nil {
		log.G(ctx).WithError(err).WithField("tenant", name).Warn("failed to remove a tenant without snapshots")
	}
}

// Removes a tenant that isn't listed, if it has nothing. Whether the store has it still.
func (s *Snapshotter) tidy(ctx context.Context, name string) (bool, error) {
	release, err := s.tenants.locks.take(ctx, name)
	if err != nil {
		return false, err
	}
	defer release()
	s.tenants.mutex.Lock()
	it := s.tenants.useOf(name)
	it.isThere = true
	isUsed := it.makers > 0
	s.tenants.mutex.Unlock()
	if isUsed {
		return true, nil
	}
	isThere, err := s.removeEmpty(ctx, name)
	if errors.Is(err, pibroulez.ErrNotKept) || isFull(err) {
		// A full disk keeps none from being served.
		err = nil
	}
	return isThere, err
}

// Removes a tenant if it has no snapshot and no lease. Whether the store has it still. Who asks has its lock. What the store
// would refuse is asked first, since the log keeps refused calls too.
func (s *Snapshotter) removeEmpty(ctx context.Context, name string) (isThere bool, err error) {
	page, err := s.store.Walk(ctx, name, "", 1, pibroulez.Filter{})
	isEmpty := err == nil && len(page) == 0
	if isEmpty {
		var leases []pibroulez.Lease
		leases, err = s.store.Leases(ctx, name)
		isEmpty = err == nil && len(leases) == 0
	}
	if isEmpty {
		if err = s.store.NamespaceRemove(ctx, name); err == nil {
			log.G(ctx).WithField("tenant", name).Info("tenant removed")
		}
	}
	isThere = !isEmpty || err != nil
	if errors.Is(err, pibroulez.ErrNoNamespace) {
		isThere, err = false, nil
	} else if errors.Is(err, pibroulez.ErrNotEmpty) {
		err = nil
	}
	s.tenants.mutex.Lock()
	defer s.tenants.mutex.Unlock()
	if it := s.tenants.useOf(name); isThere {
		it.mayBeEmpty = err != nil
	} else {
		delete(s.tenants.of, name)
	}
	return isThere, err
}

// The snapshots of all namespaces.
func (s *Snapshotter) tree(ctx context.Context) ([]pibroulez.Node, error) {
	var all []pibroulez.Node
	for _, namespace := range s.namespaces() {
		nodes, err := s.store.Tree(ctx, namespace)
		if err != nil && !isGone(err, namespace) {
			return nil, err
		}
		for _, node := range nodes {
			if s.namespaceOf(node.Key) == namespace {
				all = append(all, node)
			}
		}
	}
	return all, nil
}

// Whether a question found that a tenant has gone meanwhile, with its last snapshot.
func isGone(err error, namespace string) bool {
	return namespace != Namespace && errors.Is(err, pibroulez.ErrNoNamespace)
}

// A cursor goes through the snapshots of a namespace, page by page.
type cursor struct {
	namespace, after string
	page             []pibroulez.Info
	isLast           bool
}

// Cursors go through all snapshots: those without a tenant, and beside them the tenants', one after another.
type cursors struct {
	shared  *cursor
	tenants []*cursor
}

func (s *Snapshotter) cursors() *cursors {
	all := s.namespaces()
	c := &cursors{shared: &cursor{namespace: all[0]}}
	for _, namespace := range all[1:] {
		c.tenants = append(c.tenants, &cursor{namespace: namespace})
	}
	return c
}

// The snapshot with the least key of those that are left, or nil.
func (s *Snapshotter) least(ctx context.Context, c *cursors) (*pibroulez.Info, error) {
	if err := s.fill(ctx, c.shared); err != nil {
		return nil, err
	}
	found := c.shared
	for len(c.tenants) > 0 {
		it := c.tenants[0]
		if err := s.fill(ctx, it); err != nil {
			return nil, err
		}
		if len(it.page) > 0 {
			if len(found.page) == 0 || it.page[0].Name < found.page[0].Name {
				found = it
			}
			break
		}
		c.tenants = c.tenants[1:]
	}
	if len(found.page) == 0 {
		return nil, nil
	}
	it := found.page[0]
	found.page = found.page[1:]
	return &it, nil
}

// Asks for the next page where none of the last one is left. A tenant's namespace may also have snapshots of others.
func (s *Snapshotter) fill(ctx context.Context, it *cursor) error {
	for len(it.page) == 0 && !it.isLast {
		page, err := s.store.Walk(ctx, it.namespace, it.after, pageSize, pibroulez.Filter{})
		if err != nil && !isGone(err, it.namespace) {
			return err
		}
		if it.isLast = len(page) < pageSize; len(page) > 0 {
			it.after = page[len(page)-1].Name
		}
		for _, info := range page {
			if s.namespaceOf(info.Name) == it.namespace {
				it.page = append(it.page, info)
			}
		}
	}
	return nil
}

// What a new snapshot's labels reserve: nothing where there is no such label.
func reserveOf(labels map[string]string) (pibroulez.Usage, error) {
	text, isThere := labels[ReserveLabel]
	if !isThere {
		return pibroulez.Usage{}, nil
	}
	blocks, inodes, isPair := strings.Cut(text, "/")
	b, errOfBlocks := strconv.ParseUint(blocks, 10, 64)
	i, errOfInodes := strconv.ParseUint(inodes, 10, 64)
	if !isPair || errOfBlocks != nil || errOfInodes != nil || b > mostLimit || i > mostLimit {
		return pibroulez.Usage{}, fmt.Errorf(
			"malformed label %s: %q is no BLOCKS/INODES, each at most 2^40: %w", ReserveLabel, text, errdefs.ErrInvalidArgument,
		)
	}
	return pibroulez.Usage{Blocks: b, Inodes: i}, nil
}

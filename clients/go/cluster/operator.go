package cluster

import (
	"context"
	"encoding/json"
	"errors"
	"fmt"
	"sort"
	"time"

	"go.etcd.io/etcd/clientv3"
)

// MostLimit is the greatest limit of a tenant in a quantity, as a store has it.
const MostLimit = 1 << 40

// Errors of an Operator.
var (
	// ErrBadLimit: a quantity is above MostLimit.
	ErrBadLimit = errors.New("the limit is above 2^40")
	// ErrBadShards: a number of shards isn't from 1 to MostShards.
	ErrBadShards = errors.New("the number of shards isn't from 1 to 64")
	// ErrNoStore: no store of this identity has joined or was forgotten.
	ErrNoStore = errors.New("no such store")
	// ErrNoNode: no store that has joined is of this node.
	ErrNoNode = errors.New("no such node")
	// ErrAnswers: the agent of the store answers, or did within Config.Lease, so its data are there.
	ErrAnswers = errors.New("the agent of the store answers")
	// ErrNotConfirmed: Forgetting.DataDestroyed isn't set, or Reopening.AllRegistered.
	ErrNotConfirmed = errors.New("the operator hasn't confirmed it")
)

// An Operator does what an operator asks for. Any number of them may work at once, and any number of goroutines may call
// one. Each call asks etcd, and ends with its context.
type Operator struct{ transactions }

// NewOperator works on the cluster of stores with a prefix, or DefaultPrefix where it is empty.
func NewOperator(client *clientv3.Client, prefix string) *Operator {
	return &Operator{transactions{kv: client, keys: keysOf(prefix)}}
}

// A Holding is what a store has of a tenant.
type Holding struct {
	Store, Node string
	// Granted is as of etcd.
	Granted Usage
	// Charged, Bound, the store's own limit, and Idle, what it is granted and doesn't use, are as its agent has told Age
	// ago, by the clocks of both machines. An agent that never told has Age below 0.
	Charged, Bound, Idle Usage
	Age                  time.Duration
	// Answers says that the agent does, or did within Config.Lease.
	Answers bool
}

// A TenantQuota is what a tenant may take and takes, at one revision of etcd.
type TenantQuota struct {
	Tenant string
	// Limit is the tenant's, Granted the sum of its grants, and Free what of the limit is not granted.
	Limit, Granted, Free Usage
	// Shards is in how many shards that is kept.
	Shards int
	// Above is what is granted above the limit, after it was lowered: that is still to come back.
	Above Usage
	// Holdings are in order of nodes and stores.
	Holdings []Holding
}

// SetLimit sets a tenant's limit, and makes the tenant where it isn't there, with a pool in one shard. It may be below what
// is granted: nothing is evicted, no grant is raised any more, and the answer tells how much is to come back, Above, and who
// has it.
//
// Where it ends with an error of etcd or of the context, the limit may have been set; it may be set again.
func (o *Operator) SetLimit(ctx context.Context, tenant string, limit Usage) (TenantQuota, error) {
	if !covers(Usage{Blocks: MostLimit, Inodes: MostLimit}, limit) {
		return TenantQuota{}, fmt.Errorf("%w: %v", ErrBadLimit, limit)
	}
	err := o.limit(ctx, tenant, func(record *tenantRecord) error {
		if record.Limit = limit; record.Shards == 0 {
			record.Shards = 1
		}
		return nil
	})
	if err != nil {
		return TenantQuota{}, err
	}
	return o.Quota(ctx, tenant)
}

// SetShards keeps what of a tenant's limit is free in this number of shards, from 1 to MostShards. Each store takes from one of
// them first, so that stores at different ones don't hinder each other. Where they do, agents divide it further. It is ErrNoTenant where no limit was set, ErrBadShards
// for another number, and ErrRestored where etcd was restored and isn't reopened.
func (o *Operator) SetShards(ctx context.Context, tenant string, shards int) error {
	if shards < 1 || shards > MostShards {
		return fmt.Errorf("%w: %d", ErrBadShards, shards)
	}
	return o.limit(ctx, tenant, func(record *tenantRecord) error {
		if record.Shards == 0 {
			return fmt.Errorf("%w: %q", ErrNoTenant, tenant)
		}
		record.Shards = shards
		return nil
	})
}

// Quota tells what a tenant may take and takes. It is ErrNoTenant where no limit was set. It reads all grants.
func (o *Operator) Quota(ctx context.Context, tenant string) (TenantQuota, error) {
	all, err := o.Quotas(ctx)
	if err != nil {
		return TenantQuota{}, err
	}
	for _, it := range all {
		if it.Tenant == tenant {
			return it, nil
		}
	}
	return TenantQuota{}, fmt.Errorf("%w: %q", ErrNoTenant, tenant)
}

// Quotas tells what all tenants may take and take, in order of their names.
func (o *Operator) Quotas(ctx context.Context) ([]TenantQuota, error) {
	s, err := o.snapshot(ctx)
	if err != nil {
		return nil, err
	}
	quotas := make([]TenantQuota, 0, len(s.tenants))
	for _, tenant := range sorted(s.tenants) {
		quotas = append(quotas, s.quota(tenant))
	}
	return quotas, nil
}

// A Member is a store of the cluster.
type Member struct {
	Store, Node string
	// Answers says that its agent does, or did within Config.Lease, and Age how long ago it told what it is charged, below
	// 0 where it never did.
	Answers bool
	Age     time.Duration
	// IsDrained says that an operator drains it, and IsForgotten that it was forgotten.
	IsDrained, IsForgotten bool
	// Granted is what it is granted of each tenant.
	Granted map[string]Usage
}

// Nodes tells all stores, in order of nodes and identities. Forgotten ones have no node.
func (o *Operator) Nodes(ctx context.Context) ([]Member, error) {
	s, err := o.snapshot(ctx)
	if err != nil {
		return nil, err
	}
	var members []Member
	for store, it := range s.joined {
		age, answers := s.age(store)
		members = append(members, Member{store, it.Node, answers, age, s.drained[store], false, s.grantsOf(store)})
	}
	for store := range s.forgotten {
		members = append(members, Member{store, "", false, -1, false, true, s.grantsOf(store)})
	}
	sort.Slice(members, func(i, j int) bool {
		a, b := members[i], members[j]
		return a.Node < b.Node || a.Node == b.Node && a.Store < b.Store
	})
	return members, nil
}

// A Forgetting is a store that is to be forgotten, by its identity.
type Forgetting struct {
	Store string
	// DataDestroyed is the operator's word that the store's log and data are gone for good, also from each copy. The
	// limits of all tenants stand on it: where the store comes back its agent ends as Forgotten, but until it has asked
	// etcd it charges what others may have been granted since.
	DataDestroyed bool
}

// Forget takes a store out for good and frees its grants. What was freed, of each tenant.
//
// It is ErrNotConfirmed without the operator's word, ErrAnswers while the agent answers, and ErrNoStore where there was no
// such store. Where it ends with another error, the store may be marked and some grants freed: it may be called again,
// and goes on.
func (o *Operator) Forget(ctx context.Context, it Forgetting) (map[string]Usage, error) {
	if !it.DataDestroyed {
		return nil, ErrNotConfirmed
	}
	if !isIdentity(it.Store) {
		return nil, fmt.Errorf("%w: %q", ErrNoStore, it.Store)
	}
	return o.forget(ctx, it.Store)
}

// Restored says that etcd was restored from a backup, where its cluster has the same id as before, so that no agent can
// know: to be called before any agent reaches it. From then on stores register, and nothing is granted until Reopen.
func (o *Operator) Restored(ctx context.Context) error {
	of, err := o.current(ctx, 0)
	if err != nil || of.Phase == isClosed {
		return err
	}
	return o.next(ctx, of, 1, of.Cluster, isClosed)
}

// A Reopening is an operator's word on an etcd that was restored from a backup.
type Reopening struct {
	// AllRegistered is the operator's word that each store has registered that has joined since the backup was made, or
	// that its data are destroyed. The backup doesn't have these, and what others have isn't counted with them: one that
	// comes back later ends as LimitAboveGrant.
	AllRegistered bool
}

// Reopen makes the sums anew once all stores that have joined have registered, and lets grants be raised again. A tenant
// that the backup lacks gets a limit of 0, and what is granted as its debt. Nothing is done where the cluster is open.
//
// It is ErrNotConfirmed without the operator's word, and a *NotRegistered where stores have yet to register or to be
// forgotten. Where it ends with another error it is to be called again, and goes on.
func (o *Operator) Reopen(ctx context.Context, it Reopening) error {
	of, err := o.current(ctx, 0)
	if err != nil || of.Phase == isOpen {
		return err
	}
	if !it.AllRegistered {
		return ErrNotConfirmed
	}
	s, err := o.snapshot(ctx)
	if err != nil {
		return err
	}
	if missing := s.notRegistered(of.Number); len(missing) > 0 {
		return &NotRegistered{missing}
	}
	if of.Phase == isClosed {
		if of, err = o.turnTo(ctx, of, isSumming); err != nil {
			return restored(err)
		}
		// As all grants are from now on.
		if s, err = o.snapshot(ctx); err != nil {
			return err
		}
	}
	sums := s.sums()
	for tenant := range s.tenants {
		sums[tenant] = plus(sums[tenant], Usage{})
	}
	for _, tenant := range sorted(sums) {
		if err := o.sum(ctx, of, tenant, s.tenants[tenant], sums[tenant]); err != nil {
			return restored(err)
		}
	}
	_, err = o.turnTo(ctx, of, isOpen)
	return restored(err)
}

// Drain has the stores of a node, or the one of an identity, give back what they don't use and take no more, from when
// their agents see it until Undrain. What is charged stays.
func (o *Operator) Drain(ctx context.Context, node string) error {
	return o.eachStore(ctx, node, func(store string) clientv3.Op { return clientv3.OpPut(o.keys.drained(store), "{}") })
}

// Undrain lets them take again.
func (o *Operator) Undrain(ctx context.Context, node string) error {
	return o.eachStore(ctx, node, func(store string) clientv3.Op { return clientv3.OpDelete(o.keys.drained(store)) })
}

func (o *Operator) eachStore(ctx context.Context, node string, do func(store string) clientv3.Op) error {
	s, err := o.snapshot(ctx)
	if err != nil {
		return err
	}
	isOne := false
	for _, store := range sorted(s.joined) {
		if s.joined[store].Node != node && store != node {
			continue
		}
		isOne = true
		if _, err := o.kv.Do(ctx, do(store)); err != nil {
			return err
		}
	}
	if !isOne {
		return fmt.Errorf("%w: %q", ErrNoNode, node)
	}
	return nil
}

// A Checked is what Check has looked at.
type Checked struct {
	// Revision is that of etcd at which all was read.
	Revision int64
	Tenants  []TenantQuota
	// Faults are the sums and records that aren't as the protocol has them, in words. None should ever be there.
	Faults []string
}

// Check reads all at one revision, and compares each tenant's sum with its grants, and each grant with the stores that
// have joined or were forgotten.
func (o *Operator) Check(ctx context.Context) (Checked, error) {
	s, err := o.snapshot(ctx)
	if err != nil {
		return Checked{}, err
	}
	checked := Checked{Revision: s.revision, Faults: s.faults()}
	for _, tenant := range sorted(s.tenants) {
		checked.Tenants = append(checked.Tenants, s.quota(tenant))
	}
	return checked, nil
}

// All of the cluster at one revision.
type snapshot struct {
	revision           int64
	now                time.Time
	generation         generationRecord
	tenants            map[string]tenantRecord
	shards             map[string]map[int]shardRecord    // by tenant and number
	grants             map[string]map[string]grantRecord // by store and tenant
	joined             map[string]joinRecord
	forgotten, drained map[string]bool
	present            map[string]presence
}

func newSnapshot() *snapshot {
	return &snapshot{
		now: time.Now(), tenants: map[string]tenantRecord{}, shards: map[string]map[int]shardRecord{}, grants: map[string]map[string]grantRecord{},
		joined: map[string]joinRecord{}, forgotten: map[string]bool{}, drained: map[string]bool{}, present: map[string]presence{},
	}
}

func (t *transactions) snapshot(ctx context.Context) (*snapshot, error) {
	r, err := t.kv.Get(ctx, t.keys.prefix+"/", clientv3.WithPrefix())
	if err != nil {
		return nil, err
	}
	s := newSnapshot()
	s.revision = r.Header.Revision
	for _, it := range r.Kvs {
		if err := s.put(t.keys, string(it.Key), it.Value); err != nil {
			return nil, err
		}
	}
	return s, nil
}

// Takes a key with its value, or its deletion where that is nil.
func (s *snapshot) put(keys keys, key string, value []byte) error {
	kind, parts := keys.parts(key)
	if kind == "e" && len(parts) == 0 {
		if err := json.Unmarshal(value, &s.generation); err != nil {
			return &BadRecord{key, err}
		}
		if s.generation.Format != format {
			return &BadRecord{key, ErrOtherFormat}
		}
		return nil
	}
	if len(parts) == 0 {
		return &BadRecord{key, errors.New("no such kind of key")}
	}
	var err error
	switch name := parts[0]; {
	case kind == "g" && len(parts) == 2:
		err = s.putGrant(name, parts[1], value)
	case kind == "t" && len(parts) == 2:
		err = s.putShard(name, parts[1], value)
	case kind == "w" && len(parts) == 2:
	case len(parts) != 1:
		err = errors.New("no such kind of key")
	case kind == "t":
		var it tenantRecord
		err = putRecord(s.tenants, name, value, &it)
	case kind == "j":
		var it joinRecord
		err = putRecord(s.joined, name, value, &it)
	case kind == "a":
		var it presence
		err = putRecord(s.present, name, value, &it)
	case kind == "f":
		mark(s.forgotten, name, value != nil)
	case kind == "d":
		mark(s.drained, name, value != nil)
	default:
		err = errors.New("no such kind of key")
	}
	if err != nil {
		return &BadRecord{key, err}
	}
	return nil
}

func (s *snapshot) putGrant(store, tenant string, value []byte) error {
	if s.grants[store] == nil {
		s.grants[store] = map[string]grantRecord{}
	}
	var it grantRecord
	return putRecord(s.grants[store], tenant, value, &it)
}

func (s *snapshot) putShard(tenant, number string, value []byte) error {
	at, isShard := shardOf(number)
	if !isShard {
		return errShards
	}
	if s.shards[tenant] == nil {
		s.shards[tenant] = map[int]shardRecord{}
	}
	var it shardRecord
	return putRecord(s.shards[tenant], at, value, &it)
}

// What is free in all shards of a tenant.
func (s *snapshot) freeOf(tenant string) (free Usage) {
	for _, it := range s.shards[tenant] {
		free = plus(free, it.Free)
	}
	return free
}

// What is granted of a tenant, as its record and its shards have it.
func (s *snapshot) grantedOf(tenant string) Usage {
	return grantedOf(s.tenants[tenant], s.freeOf(tenant))
}

// The sums of all grants.
func (s *snapshot) sums() map[string]Usage {
	sums := map[string]Usage{}
	for _, grants := range s.grants {
		for tenant, it := range grants {
			sums[tenant] = plus(sums[tenant], it.Grant)
		}
	}
	return sums
}

// The stores that have joined, and not in this generation.
func (s *snapshot) notRegistered(generation uint64) []string {
	var missing []string
	for _, store := range sorted(s.joined) {
		if s.joined[store].Generation != generation {
			missing = append(missing, store)
		}
	}
	return missing
}

func putRecord[K comparable, R any](records map[K]R, name K, value []byte, it *R) error {
	if value == nil {
		delete(records, name)
		return nil
	}
	if err := json.Unmarshal(value, it); err != nil {
		return err
	}
	records[name] = *it
	return nil
}

func mark(marks map[string]bool, name string, isThere bool) {
	if isThere {
		marks[name] = true
	} else {
		delete(marks, name)
	}
}

func (s *snapshot) quota(tenant string) TenantQuota {
	record := s.tenants[tenant]
	quota := TenantQuota{
		Tenant: tenant, Limit: record.Limit, Granted: s.grantedOf(tenant), Free: s.freeOf(tenant), Above: record.Debt, Shards: record.Shards,
	}
	for store, grants := range s.grants {
		grant, isThere := grants[tenant]
		if !isThere {
			continue
		}
		age, answers := s.age(store)
		told := s.present[store].Use[tenant]
		it := Holding{store, s.joined[store].Node, grant.Grant, told.Charged, told.Bound, Usage{}, age, answers}
		if answers {
			it.Idle = minus(grant.Grant, told.Charged)
		}
		quota.Holdings = append(quota.Holdings, it)
	}
	sort.Slice(quota.Holdings, func(i, j int) bool {
		a, b := quota.Holdings[i], quota.Holdings[j]
		return a.Node < b.Node || a.Node == b.Node && a.Store < b.Store
	})
	return quota
}

func (s *snapshot) age(store string) (time.Duration, bool) {
	it, answers := s.present[store]
	if !answers {
		return -1, false
	}
	age := s.now.Sub(time.UnixMilli(it.At))
	if age < 0 {
		age = 0
	}
	return age, true
}

func (s *snapshot) grantsOf(store string) map[string]Usage {
	granted := map[string]Usage{}
	for tenant, it := range s.grants[store] {
		granted[tenant] = it.Grant
	}
	return granted
}

// What isn't as I1 has it.
func (s *snapshot) faults() []string {
	var faults []string
	for _, store := range sorted(s.grants) {
		_, isJoined := s.joined[store]
		if len(s.grants[store]) > 0 && !isJoined && !s.forgotten[store] {
			faults = append(faults, fmt.Sprintf("store %s has grants, and has neither joined nor was forgotten", store))
		}
		for _, tenant := range sorted(s.grants[store]) {
			if _, isThere := s.tenants[tenant]; !isThere && s.isOpen() {
				faults = append(faults, fmt.Sprintf("store %s has a grant of tenant %q, which has no limit", store, tenant))
			}
		}
	}
	for _, store := range sorted(s.joined) {
		if s.forgotten[store] {
			faults = append(faults, fmt.Sprintf("store %s has joined, and was forgotten", store))
		}
	}
	if !s.isOpen() {
		return append(faults, fmt.Sprintf("etcd was restored, and isn't reopened: generation %d; not registered: %q", s.generation.Number, s.notRegistered(s.generation.Number)))
	}
	sums := s.sums()
	for _, tenant := range sorted(s.tenants) {
		faults = append(faults, s.faultsOf(tenant, sums[tenant])...)
	}
	return faults
}

// Whether grants are raised and lowered, as also before the first one.
func (s *snapshot) isOpen() bool { return s.generation.Phase == isOpen || s.generation.Number == 0 }

// What isn't so of a tenant whose grants have this sum.
func (s *snapshot) faultsOf(tenant string, sum Usage) (faults []string) {
	it, free := s.tenants[tenant], s.freeOf(tenant)
	if granted := grantedOf(it, free); granted != sum {
		faults = append(faults, fmt.Sprintf("tenant %q: its record and shards say %v, and its grants sum to %v", tenant, granted, sum))
	}
	isBoth := it.Debt.Blocks > 0 && free.Blocks > 0 || it.Debt.Inodes > 0 && free.Inodes > 0
	if isBoth {
		faults = append(faults, fmt.Sprintf("tenant %q has a debt of %v, and %v free", tenant, it.Debt, free))
	}
	if len(s.shards[tenant]) != it.Shards {
		faults = append(faults, fmt.Sprintf("tenant %q has %d shards, and its record says %d", tenant, len(s.shards[tenant]), it.Shards))
	}
	return faults
}

func sorted[V any](of map[string]V) []string {
	names := make([]string, 0, len(of))
	for it := range of {
		names = append(names, it)
	}
	sort.Strings(names)
	return names
}

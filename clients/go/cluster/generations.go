package cluster

import (
	"context"
	"crypto/rand"
	"encoding/hex"
	"errors"
	"fmt"

	"go.etcd.io/etcd/clientv3"
)

// A generation of grants, and its text in etcd.
//
// An etcd that is restored from a backup has grants of some time before, while stores have gone on. It is told by another
// id of its cluster, by a revision that is behind one that was answered before, or by an operator. Then the next generation
// begins, which is closed: each store registers its own limits as its grants, and once all have an operator has the sums
// made anew and opens it.
type generation struct {
	generationRecord
	text string
}

// ErrRestored is the error of what can't be done in a generation that isn't open, or that has ended meanwhile.
var ErrRestored = errors.New("etcd was restored from a backup, and isn't reopened")

// ErrOtherFormat is the cause of a *BadRecord where the keys are of another format than this package's, as a later or an
// earlier version has written them. Nothing is written over them.
var ErrOtherFormat = errors.New("the keys in etcd are of another format")

// The error of an operator's call.
func restored(err error) error {
	if errors.Is(err, errGeneration) {
		return ErrRestored
	}
	return err
}

// That the generation is the one in etcd, in this phase.
func (g *generation) isCurrent(keys keys) clientv3.Cmp {
	return clientv3.Compare(clientv3.Value(keys.generation()), "=", g.text)
}

// Whether it is this one, in whatever phase.
func (g *generation) isSame(other generationRecord) bool {
	other.Phase = g.Phase
	return g.Number > 0 && g.generationRecord == other
}

// Whether an answer has it.
func (g *generation) isIn(r *clientv3.GetResponse) bool {
	return len(r.Kvs) == 1 && string(r.Kvs[0].Value) == g.text
}

// Nobody's generation: no etcd has it.
var noGeneration = &generation{text: "none"}

func newGeneration(number uint64, cluster, phase string) (*generation, error) {
	var bits [8]byte
	if _, err := rand.Read(bits[:]); err != nil {
		return nil, err
	}
	record := generationRecord{format, number, cluster, hex.EncodeToString(bits[:]), phase}
	return &generation{record, text(record)}, nil
}

// current reads the generation, which is ErrOtherFormat where it is of another format. It begins the first one, and the next
// one where etcd was restored. Where that was seen by a revision alone, a closed generation after the last one that is known
// is of this restore.
func (t *transactions) current(ctx context.Context, last uint64) (*generation, error) {
	key := t.keys.generation()
	for {
		r, err := t.commit(ctx, nil, nil, []clientv3.Op{clientv3.OpGet(key)}, nil)
		if err != nil {
			return nil, err
		}
		var now generation
		revision, err := take(answer(r, 0), &now.generationRecord)
		if err != nil {
			return nil, err
		}
		phase := isOpen
		if revision != 0 {
			if now.Format != format {
				return nil, &BadRecord{key, ErrOtherFormat}
			}
			now.text = string(answer(r, 0).Kvs[0].Value)
			isOther := now.Cluster != clusterOf(r)
			if isBack := t.isBack.Load(); !isOther && (!isBack || now.Phase == isClosed && now.Number > last) {
				t.isBack.Store(false)
				return &now, nil
			}
			phase = isClosed
		}
		if err := t.next(ctx, &now, revision, clusterOf(r), phase); err != nil {
			return nil, err
		}
	}
}

// next begins the generation after one, unless another one has begun. The first one begins where nothing is kept: what is
// there without a generation is of the first format.
func (t *transactions) next(ctx context.Context, now *generation, revision int64, cluster, phase string) error {
	next, err := newGeneration(now.Number+1, cluster, phase)
	if err != nil {
		return err
	}
	key := t.keys.generation()
	ifs, elses := []clientv3.Cmp{now.isCurrent(t.keys)}, []clientv3.Op(nil)
	if revision == 0 {
		ifs = []clientv3.Cmp{isGone(key)}
		elses = []clientv3.Op{clientv3.OpGet(key, clientv3.WithCountOnly())}
		for _, it := range t.keys.kept() {
			ifs = append(ifs, isGone(it).WithPrefix())
		}
	}
	r, err := t.commit(ctx, nil, ifs, []clientv3.Op{clientv3.OpPut(key, next.text)}, elses)
	switch {
	case err != nil:
		return err
	case r.Succeeded:
		t.isBack.Store(false)
	case revision == 0 && answer(r, 0).Count == 0:
		return &BadRecord{t.keys.prefix, ErrOtherFormat}
	}
	return nil
}

// The generation, where it is open.
func (t *transactions) open(ctx context.Context) (*generation, error) {
	of, err := t.current(ctx, 0)
	if err == nil && of.Phase != isOpen {
		return nil, ErrRestored
	}
	return of, err
}

// register writes in a closed generation that a store has joined, and what its own limits are, as its grants.
func (t *transactions) register(ctx context.Context, of *generation, store, node string, grants map[string]grantRecord) error {
	forgotten := t.keys.forgotten(store)
	thens := []clientv3.Op{put(t.keys.joined(store), joinRecord{node, of.Number})}
	for tenant, it := range grants {
		thens = append(thens, put(t.keys.grant(store, tenant), it))
	}
	r, err := t.commit(ctx, of, []clientv3.Cmp{isGone(forgotten), of.isCurrent(t.keys)}, thens,
		[]clientv3.Op{clientv3.OpGet(forgotten, clientv3.WithCountOnly())})
	switch {
	case err != nil || r.Succeeded:
		return err
	case answer(r, 0).Count > 0:
		return Forgotten
	}
	return errGeneration
}

// Whether a store has joined or registered in a generation, and whether it was forgotten.
func (t *transactions) isRegistered(ctx context.Context, of *generation, store string) (bool, error) {
	r, err := t.commit(ctx, of, nil, []clientv3.Op{clientv3.OpGet(t.keys.joined(store)), clientv3.OpGet(t.keys.forgotten(store), clientv3.WithCountOnly())}, nil)
	if err != nil {
		return false, err
	}
	if answer(r, 1).Count > 0 {
		return false, Forgotten
	}
	var record joinRecord
	revision, err := take(answer(r, 0), &record)
	return revision != 0 && record.Generation == of.Number, err
}

// In a phase of the same generation.
func (t *transactions) turnTo(ctx context.Context, of *generation, phase string) (*generation, error) {
	next := *of
	next.Phase = phase
	next.text = text(next.generationRecord)
	r, err := t.commit(ctx, of, []clientv3.Cmp{of.isCurrent(t.keys)}, []clientv3.Op{clientv3.OpPut(t.keys.generation(), next.text)}, nil)
	if err == nil && !r.Succeeded {
		err = errGeneration
	}
	return &next, err
}

// sum makes a tenant's record and pool anew, by its grants, in which nothing changes meanwhile.
func (t *transactions) sum(ctx context.Context, of *generation, tenant string, record tenantRecord, granted Usage) error {
	if record.Shards == 0 {
		record.Shards = 1
	}
	next, parts := dividedOf(record.Limit, granted, record.Shards)
	thens := []clientv3.Op{put(t.keys.tenant(tenant), next)}
	for i, it := range parts {
		thens = append(thens, put(t.keys.shard(tenant, i), it))
	}
	r, err := t.commit(ctx, of, []clientv3.Cmp{of.isCurrent(t.keys)}, thens, nil)
	if err == nil && !r.Succeeded {
		err = errGeneration
	}
	return err
}

// A NotRegistered is the error of Reopen where stores that have joined have yet to register.
type NotRegistered struct{ Stores []string }

func (n *NotRegistered) Error() string {
	return fmt.Sprintf("these stores have not registered, nor were they forgotten: %q", n.Stores)
}

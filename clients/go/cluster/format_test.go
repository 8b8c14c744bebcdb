package cluster

import (
	"encoding/json"
	"errors"
	"fmt"
	"testing"

	"go.etcd.io/etcd/clientv3"

	"pibroulez.example/pibroulez"
)

// Keys of other formats, and agents that know another one alone.

// A tenant's record in the first format: the limit, and the sum of grants.
type firstTenant struct {
	Limit   Usage `json:"l"`
	Granted Usage `json:"s"`
}

// An agent of the first format, as far as it reads and writes a tenant.
type firstAgent struct {
	*world
	store string
}

// Reads the tenant and sends a transaction that raises the grant to all of the limit: once it is called. Whether it was
// carried out.
func (a firstAgent) raise(tenant string) (func() bool, error) {
	keys := a.operator.keys
	key, grant := keys.tenant(tenant), keys.grant(a.store, tenant)
	record, granted := must(a.client.Get(ctx, key))(a.t), must(a.client.Get(ctx, grant))(a.t)
	var it firstTenant
	if len(record.Kvs) == 0 {
		return nil, ErrNoTenant
	}
	if err := json.Unmarshal(record.Kvs[0].Value, &it); err != nil {
		return nil, err
	}
	revision := int64(0)
	if len(granted.Kvs) > 0 {
		revision = granted.Kvs[0].ModRevision
	}
	to := grantRecord{Grant: minus(it.Limit, it.Granted), By: "first", Number: 1}
	return func() bool {
		return must(a.client.Txn(ctx).If(isOf(key, record.Kvs[0].ModRevision), isOf(grant, revision), isThere(keys.joined(a.store))).
			Then(put(key, firstTenant{it.Limit, it.Limit}), put(grant, to)).Commit())(a.t).Succeeded
	}, nil
}

// What grants depend on.
func (w *world) kept() map[string]string {
	w.t.Helper()
	kept := map[string]string{}
	for _, from := range append(w.operator.keys.kept(), w.operator.keys.generation()) {
		for _, it := range must(w.client.Get(ctx, from, clientv3.WithPrefix()))(w.t).Kvs {
			kept[string(it.Key)] = string(it.Value)
		}
	}
	return kept
}

func (w *world) put(key, value string) {
	w.t.Helper()
	must(w.client.Put(ctx, key, value))(w.t)
}

// Keys of an earlier format, or of a later one, are told by name, and nothing is written over them.
func TestOtherFormat(t *testing.T) {
	t.Parallel()
	store := fmt.Sprintf("%032x", 1)
	for name, generation := range map[string]string{
		"the first format": "", "the second format": `{"e":1,"c":"1","m":"2","s":"open"}`, "a later format": `{"v":4,"e":1}`,
		"no format": `[]`,
	} {
		generation := generation
		t.Run(name, func(t *testing.T) {
			t.Parallel()
			w := newWorld(t)
			keys := w.operator.keys
			if generation != "" {
				w.put(keys.generation(), generation)
			}
			w.put(keys.tenant("a"), text(firstTenant{usage(100, 100), usage(60, 60)}))
			w.put(keys.joined(store), `{"node":"old"}`)
			w.put(keys.grant(store, "a"), `{"g":[60,60],"p":"old","n":1}`)
			before := w.kept()
			one := w.node("one", nil)
			one.awaitState(OtherFormat)
			err := one.take("a", "k", usage(1, 1))
			isError(t, err, OtherFormat)
			isError(t, err, pibroulez.ErrOverLimit)
			_, limited := w.operator.SetLimit(ctx, "a", usage(10, 10))
			_, asked := w.operator.Quotas(ctx)
			_, checked := w.operator.Check(ctx)
			_, forgotten := w.operator.Forget(ctx, Forgetting{Store: store, DataDestroyed: true})
			for i, err := range []error{
				limited, asked, checked, forgotten, w.operator.SetShards(ctx, "a", 2), w.operator.Restored(ctx),
				w.operator.Reopen(ctx, Reopening{AllRegistered: true}), w.operator.Drain(ctx, "old"),
			} {
				if !isBadRecord(err) || generation != "[]" && !isOther(err) {
					t.Errorf("call %d: %v", i, err)
				}
			}
			equal(t, w.kept(), before)
		})
	}
}

func isBadRecord(err error) bool {
	var bad *BadRecord
	return errors.As(err, &bad)
}

func isOther(err error) bool { return errors.Is(err, ErrOtherFormat) }

// A cluster of the first format is taken over as a restored etcd is: its keys are removed, and each store registers what its
// log has. An agent of that format that still runs gets nothing more, neither by what it has sent before.
func TestTakenOver(t *testing.T) {
	t.Parallel()
	w := newWorld(t)
	keys := w.operator.keys
	w.limit("a", 100, 100)
	one := w.node("one", func(c *Config) { c.Batch = usage(1, 1) }).settle()
	must(0, one.take("a", "k", usage(59, 59)))(t)
	must(0, one.take("a", "l", usage(1, 1)))(t)
	store := one.Identity()
	one.close()
	// As the first format would have it, with another node's agent of that.
	must(w.client.Delete(ctx, w.prefix+"/", clientv3.WithPrefix()))(t)
	old := firstAgent{w, fmt.Sprintf("%032x", 1)}
	w.put(keys.tenant("a"), text(firstTenant{usage(100, 100), usage(60, 60)}))
	w.put(keys.joined(store), `{"node":"one"}`)
	w.put(keys.joined(old.store), `{"node":"old"}`)
	w.put(keys.grant(store, "a"), `{"g":[60,60],"p":"first","n":1}`)
	late, err := old.raise("a")
	must(0, err)(t)
	one.open()
	one.awaitState(OtherFormat)
	must(one.st.Discard(ctx, "a", "l"))(t)
	must(0, one.take("a", "m", usage(1, 1)))(t)

	must(w.client.Delete(ctx, w.prefix+"/", clientv3.WithPrefix()))(t)
	must(0, w.operator.Restored(ctx))(t)
	_, err = old.raise("a")
	isError(t, err, ErrNoTenant)
	one.awaitState(Restored)
	// It says by its own way that it has joined, and is told apart.
	w.put(keys.joined(old.store), `{"node":"old"}`)
	var missing *NotRegistered
	until(t, "that one has registered", func() bool {
		err := w.operator.Reopen(ctx, Reopening{AllRegistered: true})
		return errors.As(err, &missing) && len(missing.Stores) == 1
	})
	equal(t, missing.Stores, []string{old.store})
	must(w.operator.Forget(ctx, Forgetting{Store: old.store, DataDestroyed: true}))(t)
	must(0, w.operator.Reopen(ctx, Reopening{AllRegistered: true}))(t)
	one.awaitState(Serving)
	quota := w.limit("a", 100, 100)
	equal(t, plus(quota.Granted, quota.Free), usage(100, 100))
	if granted := quota.Granted; !covers(granted, usage(60, 60)) {
		t.Errorf("%v granted, and 60 are charged", granted)
	}
	if _, err := old.raise("a"); err == nil || late() {
		t.Errorf("%v: an agent of the first format is granted something", err)
	}
	must(0, one.take("a", "n", usage(40, 40)))(t)
	isError(t, one.take("a", "o", usage(1, 1)), pibroulez.ErrOverLimit)
	equal(t, len(must(w.operator.Check(ctx))(t).Faults), 0)

	// A tenant's record that an operator of an earlier format has made is nobody's.
	two := w.node("two", nil, "b")
	for _, record := range []string{text(firstTenant{usage(100, 100), Usage{}}), `{"l":[100,100],"d":[0,0],"k":1}`} {
		w.put(keys.tenant("b"), record)
		isError(t, two.take("b", "k", usage(1, 1)), ErrOtherFormat)
		_, err = w.operator.SetLimit(ctx, "b", usage(1, 1))
		isError(t, err, ErrOtherFormat)
	}
}

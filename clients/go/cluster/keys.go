package cluster

import (
	"encoding/json"
	"net/url"
	"strconv"
	"strings"

	"pibroulez.example/pibroulez"
)

// Usage is blocks of 4096 bytes, and inodes.
type Usage = pibroulez.Usage

// keys are those of one cluster of stores. S is a store's identity, and T a tenant, escaped as in a path of a URL.
type keys struct{ prefix string }

// The generation of all grants.
func (k keys) generation() string { return k.prefix + "/e" }

// The tenant's limit, its debt, and how many shards its pool has.
func (k keys) tenant(tenant string) string { return k.tenants() + url.PathEscape(tenant) }

// What of the pool is free in the shard of a number.
func (k keys) shard(tenant string, number int) string {
	return k.shards(tenant) + strconv.Itoa(number)
}

// The grant of a store.
func (k keys) grant(store, tenant string) string { return k.grantsOf(store) + url.PathEscape(tenant) }

// That a store has joined.
func (k keys) joined(store string) string { return k.prefix + "/j/" + store }

// The operator's mark that a store was forgotten, for good.
func (k keys) forgotten(store string) string { return k.prefix + "/f/" + store }

// Hints: no grant depends on them.

// How much a store waits for.
func (k keys) want(tenant, store string) string { return k.wants(tenant) + store }

// That the agent of a store answers, and what it was charged.
func (k keys) present(store string) string { return k.prefix + "/a/" + store }

// An operator's wish that a store gives back what it doesn't use, and takes no more.
func (k keys) drained(store string) string { return k.prefix + "/d/" + store }

// The beginnings of keys.

// Those of all that grants depend on, but for the generation.
func (k keys) kept() []string {
	return []string{k.tenants(), k.grants(), k.joined(""), k.forgotten("")}
}

func (k keys) tenants() string              { return k.prefix + "/t/" }
func (k keys) shards(tenant string) string  { return k.tenant(tenant) + "/" }
func (k keys) grants() string               { return k.prefix + "/g/" }
func (k keys) grantsOf(store string) string { return k.grants() + store + "/" }
func (k keys) wants(tenant string) string   { return k.prefix + "/w/" + url.PathEscape(tenant) + "/" }

// What a key is of: the letter of its kind, and its parts behind that.
func (k keys) parts(key string) (kind string, parts []string) {
	if !strings.HasPrefix(key, k.prefix+"/") {
		return "", nil
	}
	parts = strings.Split(key[len(k.prefix)+1:], "/")
	for i, it := range parts {
		if text, err := url.PathUnescape(it); err == nil {
			parts[i] = text
		}
	}
	return parts[0], parts[1:]
}

// The number of a shard, or false where that is none.
func shardOf(text string) (int, bool) {
	number, err := strconv.Atoi(text)
	return number, err == nil && number >= 0 && number < MostShards && strconv.Itoa(number) == text
}

// The phases of a generation.
const (
	// Grants are raised and lowered.
	isOpen = "open"
	// Etcd was restored from a backup: stores register their own limits as their grants, and nothing else is granted.
	isClosed = "closed"
	// An operator makes the sums anew: no grant changes.
	isSumming = "summing"
)

// The number of the format of all keys, which is in the generation and in each tenant's record. Nothing is written over
// records of another one. The first format had a tenant's pool in its record, and the second one no number.
const format = 3

// A generation of all grants. The next one begins where etcd was restored from a backup. Each transaction compares its
// text, so that none from before is carried out.
type generationRecord struct {
	Format int    `json:"v"`
	Number uint64 `json:"e"`
	// Cluster is the id of etcd's cluster, and Mark are random bits, so that no two generations are the same.
	Cluster string `json:"c"`
	Mark    string `json:"m"`
	Phase   string `json:"s"`
}

type tenantRecord struct {
	Limit Usage `json:"l"`
	// Debt is what is granted above the limit. Nothing is free then.
	Debt   Usage `json:"d"`
	Shards int   `json:"k"`
}

// MarshalJSON puts the format where the first one had a pair of numbers, so that nobody takes the record by that.
func (r tenantRecord) MarshalJSON() ([]byte, error) {
	return json.Marshal(struct {
		Format int `json:"s"`
		tenantFields
	}{format, tenantFields(r)})
}

// UnmarshalJSON takes a record of this format alone.
func (r *tenantRecord) UnmarshalJSON(text []byte) error {
	var it struct {
		Format json.RawMessage `json:"s"`
	}
	if err := json.Unmarshal(text, &it); err != nil {
		return err
	}
	if string(it.Format) != strconv.Itoa(format) {
		return ErrOtherFormat
	}
	return json.Unmarshal(text, (*tenantFields)(r))
}

// A tenant's record without its format.
type tenantFields tenantRecord

type shardRecord struct {
	Free Usage `json:"f"`
}

type grantRecord struct {
	Grant Usage `json:"g"`
	// By is the process that has written it, and Number the number of the transaction there, from 1.
	By     string `json:"p"`
	Number uint64 `json:"n"`
	// Generation is the number of the generation in which it was written.
	Generation uint64 `json:"e"`
}

type joinRecord struct {
	Node string `json:"node"`
	// Generation is the number of the one in which the store has joined, or has registered its limits.
	Generation uint64 `json:"e"`
}

type wantRecord struct {
	Need Usage `json:"n"`
}

// What an agent tells of its store, now and then.
type presence struct {
	Node string `json:"node"`
	// At is the node's clock, in milliseconds since 1970.
	At  int64          `json:"at"`
	Use map[string]use `json:"use"`
}

type use struct {
	Charged Usage `json:"c"`
	Bound   Usage `json:"m"`
}

// The text of a record. Each can be written.
func text(record any) string {
	b, err := json.Marshal(record)
	if err != nil {
		panic(err)
	}
	return string(b)
}

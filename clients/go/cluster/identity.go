package cluster

import (
	"context"
	"crypto/rand"
	"encoding/hex"
	"fmt"
	"strings"

	"pibroulez.example/pibroulez"
)

// The identity of a store is a namespace of it, of this beginning and 32 hexadecimal digits, and with a limit of 0/0, so
// that it never has a snapshot. It is in the first line of the log, which makes the store: no store is made without it, and it
// goes where the log goes. No agent takes a store from which it was removed, or that has two.
const identityBegin = "pibroulez-store-"

// MostTenants is how many tenants a store of a cluster may have: after a restore of etcd it registers all of them and itself
// by one transaction, which has at most mostOps operations.
const MostTenants = mostOps - 1

// Namespaces are what a new store of a cluster is opened with: each tenant, with a limit of 0/0, and a new identity.
//
// The error is ErrNoIdentity where a tenant has the name of an identity, and ErrBadConfig for more than MostTenants.
func Namespaces(tenants ...string) (map[string]Usage, error) {
	var bits [16]byte
	if _, err := rand.Read(bits[:]); err != nil {
		return nil, err
	}
	namespaces := map[string]Usage{identityBegin + hex.EncodeToString(bits[:]): {}}
	for _, it := range tenants {
		if IsIdentity(it) {
			return nil, fmt.Errorf("%w: tenant %q", ErrNoIdentity, it)
		}
		namespaces[it] = Usage{}
	}
	if count := len(namespaces) - 1; count > MostTenants {
		return nil, fmt.Errorf("%w: %d tenants, and %d are the most", ErrBadConfig, count, MostTenants)
	}
	return namespaces, nil
}

// OpenOrNew opens the store again that config.Log tells, as pibroulez.OpenOrNew does, or opens a new one for these tenants,
// with an identity of its own. config.Namespaces isn't read. The error is that of Namespaces or of pibroulez.OpenOrNew.
func OpenOrNew(ctx context.Context, config pibroulez.Config, tenants ...string) (*pibroulez.Store, error) {
	namespaces, err := Namespaces(tenants...)
	if err != nil {
		return nil, err
	}
	config.Namespaces = namespaces
	if config.Log == "" {
		return pibroulez.New(ctx, config)
	}
	return pibroulez.OpenOrNew(ctx, config)
}

// IsIdentity says whether a namespace is there for an identity, and is no tenant.
func IsIdentity(namespace string) bool { return pibroulez.IsIdentity(namespace) }

// IsIdentityOf says whether a namespace with this limit is an identity, and not one that somebody has made by a name like that.
func IsIdentityOf(namespace string, limit Usage) bool {
	return IsIdentity(namespace) && isIdentity(strings.TrimPrefix(namespace, identityBegin)) && limit == (Usage{})
}

// The identity of a store, and its tenants.
func identityOf(quotas map[string]pibroulez.Quota) (string, []string, error) {
	var found, tenants []string
	for _, name := range sorted(quotas) {
		if id := strings.TrimPrefix(name, identityBegin); id != name {
			found = append(found, id)
		} else {
			tenants = append(tenants, name)
		}
	}
	if len(found) != 1 || !isIdentity(found[0]) {
		return "", nil, fmt.Errorf("%w: %q", ErrNoIdentity, found)
	}
	return found[0], tenants, nil
}

func isIdentity(text string) bool {
	bits, err := hex.DecodeString(text)
	return err == nil && len(bits) == 16 && strings.ToLower(text) == text
}

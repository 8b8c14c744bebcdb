package door

import (
	"encoding/json"

	"pibroulez.example/pibroulez"
)

// Rights are what a caller's roles let it do. Each adds to the others.
type Rights struct {
	// IsOperator is for each command.
	IsOperator bool
	// IsQuota is for limits, and for what changes nothing and makes no entry, in each namespace, but `save`.
	IsQuota bool
	// Namespaces are those whose tenant the caller is: for all commands on one of them but `limit`,
	// `namespace_create` and `namespace_remove`, in session 0.
	Namespaces map[string]bool
}

// Whether a line may be sent. A word that isn't known is an operator's alone, since a later store may know it.
func (r Rights) allow(line pibroulez.Line) bool {
	if r.IsOperator || r.IsQuota && (line.Do == "limit" || line.IsQuestion() && line.Do != "save") {
		return true
	}
	var namespace string
	if !isTenants[line.Do] || !isText(line.Members["ns"]) || json.Unmarshal(line.Members["ns"], &namespace) != nil {
		return false
	}
	session, isThere := line.Members["s"]
	return r.Namespaces[namespace] && (!isThere || string(session) == "0")
}

// IsKnown says whether a word is one of a command that the door knows.
func IsKnown(do string) bool { return isTenants[do] || isShort[do] || isWhole[do] }

// Commands that ask for the whole store. Of these a quota service makes `report` alone.
var isWhole = setOf("report", "save")

// Commands of a tenant on its namespace.
var isTenants = setOf(
	"prepare", "view", "remove", "stat", "update", "usage", "mounts", "walk", "charge", "trim", "commit", "discard",
	"lease_create", "lease_add", "lease_drop", "lease_release", "sweep",
	"mkdir", "create", "put", "write", "truncate", "setmode", "symlink", "link", "rename", "unlink", "rmdir", "opaque", "whiteout",
	"batch",
	"look", "list", "read", "resolve", "du", "quota", "leases", "tree", "diff", "journal",
)

// Commands that nobody makes in a cluster, since its agent has the tenants of the file and sets their limits.
var isNobodysInCluster = setOf("limit", "namespace_create", "namespace_remove")

// Whether a line makes a namespace that is named as the identity of a store of a cluster. A store with one isn't served without.
func makesIdentity(line pibroulez.Line) bool {
	var namespace string
	return line.Do == "namespace_create" && json.Unmarshal(line.Members["ns"], &namespace) == nil && pibroulez.IsIdentity(namespace)
}

// Commands whose answers have at most some hundred bytes, but for the ids of the ancestors.
var isShort = setOf(
	"session", "reopen", "roll", "prepare", "view", "remove", "usage", "charge", "trim", "commit", "discard",
	"lease_create", "lease_add", "lease_drop", "lease_release", "limit", "namespace_create", "namespace_remove",
	"mkdir", "create", "put", "write", "truncate", "setmode", "symlink", "link", "rename", "unlink", "rmdir", "opaque", "whiteout",
	"batch",
	"du",
)

func setOf(words ...string) map[string]bool {
	set := map[string]bool{}
	for _, it := range words {
		set[it] = true
	}
	return set
}

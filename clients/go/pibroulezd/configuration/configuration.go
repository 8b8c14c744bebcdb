// Package configuration reads what the daemon is to do from a file in TOML, and says what of it may change while it runs.
package configuration

import (
	"fmt"
	"io/fs"
	"net/netip"
	"os"
	"path/filepath"
	"sort"
	"strings"
	"time"

	"github.com/pelletier/go-toml"

	"pibroulez.example/pibroulez"
)

// Bounds, of docs/RULES.md but for leastJournal: a shorter round would be rolled too often.
const (
	MostLimit     = 1 << 40
	mostTenants   = 4096
	mostNameBytes = 255
	leastJournal  = 1 << 16
	mostJournal   = 1 << 20
	mostSlots     = 4096
	mostInodes    = 1 << 24
	mostAncestors = 500
	// With 1 the log would be made short all the time.
	leastCheckpoint, mostCheckpoint = 2, 1 << 10
)

// The most tenants of a store of a cluster: cluster.MostTenants.
const mostTenantsOfCluster = 127

// A store takes at most one part in this number of what is left, beyond its need.
const mostShare = 1 << 20

// Bounds of the door for lines. A line of the store has 2^24 bytes, with the id that the daemon gives it.
const (
	leastLineBytes  = 1 << 10
	mostLineBytes   = 1<<24 - 64
	mostConnections = 1 << 16
	leastPatience   = 100 * time.Millisecond
	mostPatience    = time.Hour
)

// A Configuration is what a file says, with the values of what it leaves out.
type Configuration struct {
	// Root is the directory that mounts name, Program the path of snap_replay, and Log the file that keeps the calls.
	Root, Program, Log string
	// Journal is the most entries of a round, Slots how many snapshots may be active at one time, LayerInodes the most inodes
	// of each layer, and Ancestors the most committed ancestors of a snapshot. Checkpoint is that of pibroulez.Config.
	Journal, Slots, LayerInodes, Ancestors, Checkpoint uint64
	// Lines is the door for builders and quota services, or nil for none.
	Lines *Lines
	// Containerd is the door for containerd, or nil for none. Its namespace is among the tenants.
	Containerd *Containerd
	// Watch is the door for who watches, or nil for none.
	Watch *Watch
	// Cluster says where the limits of tenants are kept, or is nil where they are this store's own. Those of the tenants
	// here are then bounds of this node.
	Cluster *Cluster
	// Tenants are the namespaces of the store.
	Tenants map[string]Tenant
	// Operators may do all, and Quotas set limits and see all.
	Operators, Quotas Members
}

// Lines is a socket that takes the lines of `serve`.
type Lines struct {
	Socket string
	Mode   fs.FileMode
	// LineBytes is the most bytes of a line, and Connections how many one user may have.
	LineBytes, Connections uint64
	// Patience is how long a line may take, and a part of an answer to be read.
	Patience time.Duration
	// Refusals is the file that has the refusals.
	Refusals string
}

// Containerd is the socket of a snapshotter, and the limit of each namespace of containerd that isn't among the tenants, or nil
// where all of these share one.
type Containerd struct {
	Socket string
	Each   *pibroulez.Usage
}

// ContainerdNamespace is the namespace of the store that has the snapshots of containerd.
const ContainerdNamespace = "containerd"

// A Cluster is an etcd that keeps the limits of tenants over many nodes.
type Cluster struct {
	// Endpoints are URLs of members, and the next three the files of their authority and of a certificate, or empty.
	Endpoints                   []string
	Authority, Certificate, Key string
	// Prefix is what the keys begin with, and Node what operators call this machine.
	Prefix, Node string
	// The others are as of cluster.Config. Times that are off are below 0.
	Batch          pibroulez.Usage
	Share          uint64
	Patience, Idle time.Duration
	// IsSettled says that charges wait for the first settle.
	IsSettled bool
}

// Watch is where HTTP is answered: at the socket of a path, or at an address of this machine.
type Watch struct{ Socket, Address string }

// A Tenant is a namespace of the store.
type Tenant struct {
	Limit pibroulez.Usage
	// Members may call on the namespace.
	Members Members
	// IsContainerds says that its snapshots are those of containerd's namespace of this name, with which nobody else has to
	// do: it has no members.
	IsContainerds bool
}

// Members are users and groups, by their numbers.
type Members struct {
	Users, Groups map[uint32]bool
}

// Has says whether a process of this user, in these groups, is one of them.
func (m Members) Has(user uint32, groups []uint32) bool {
	if m.Users[user] {
		return true
	}
	for _, it := range groups {
		if m.Groups[it] {
			return true
		}
	}
	return false
}

// A Fault is what is wrong with a file at a key.
type Fault struct {
	Path string
	// Line is the line's number, from 1, or 0 where the key isn't there. Key is empty where the text is no TOML.
	Line  int
	Key   string
	Words string
}

func (f *Fault) Error() string {
	words := f.Path
	if f.Line > 0 {
		words = fmt.Sprintf("%s:%d", words, f.Line)
	}
	if f.Key != "" {
		words += ": " + f.Key
	}
	return words + ": " + f.Words
}

// Faults are all that is wrong with a file, in the order of their lines.
type Faults []*Fault

func (f Faults) Error() string {
	words := make([]string, 0, len(f))
	for _, it := range f {
		words = append(words, it.Error())
	}
	return strings.Join(words, "\n")
}

// Read reads a file. The error is Faults where the file is there, and not what it has to be.
func Read(path string) (*Configuration, error) {
	text, err := os.ReadFile(path)
	if err != nil {
		return nil, err
	}
	return parse(path, text)
}

func parse(path string, text []byte) (*Configuration, error) {
	tree, fault := load(text)
	if fault != nil {
		fault.Path = path
		return nil, Faults{fault}
	}
	r := &reader{path: path}
	c := r.configuration(&table{reader: r, tree: tree})
	if len(r.faults) == 0 {
		return c, nil
	}
	sort.SliceStable(r.faults, func(i, j int) bool { return r.faults[i].Line < r.faults[j].Line })
	return nil, r.faults
}

// The tree of a text. The library tells a place within its words, and panics at some texts.
func load(text []byte) (tree *toml.Tree, fault *Fault) {
	defer func() {
		if cause := recover(); cause != nil {
			tree, fault = nil, &Fault{Words: "not TOML"}
		}
	}()
	tree, err := toml.LoadBytes(text)
	if err == nil {
		return tree, nil
	}
	fault = &Fault{Words: "not TOML: " + err.Error()}
	var column int
	if _, failed := fmt.Sscanf(err.Error(), "(%d, %d):", &fault.Line, &column); failed == nil {
		_, words, _ := strings.Cut(err.Error(), "): ")
		fault.Words = "not TOML: " + words
	}
	return nil, fault
}

func (r *reader) configuration(t *table) *Configuration {
	c := &Configuration{
		Root:        t.path("root", ""),
		Program:     t.text("program", "snap_replay"),
		Journal:     t.number("journal", mostJournal, leastJournal, mostJournal),
		Slots:       t.number("slots", mostSlots, 1, mostSlots),
		LayerInodes: t.number("layer_inodes", mostInodes, 1, mostInodes),
		Ancestors:   t.number("ancestors", mostAncestors, 1, mostAncestors),
		Checkpoint:  t.number("checkpoint", 4, 0, mostCheckpoint),
		Tenants:     map[string]Tenant{},
	}
	if c.Root == "" && !t.has("root") {
		t.fault("root", "a path is wanted, nothing is there")
	}
	if c.Checkpoint > 0 && c.Checkpoint < leastCheckpoint {
		t.fault("checkpoint", fmt.Sprintf("0 or a number from %d to %d is wanted, another number is there", leastCheckpoint, mostCheckpoint))
	}
	c.Log = t.path("log", filepath.Join(c.Root, "calls.jsonl"))
	if c.Program == "" {
		t.fault("program", "a text is wanted, an empty one is there")
	}
	if strings.ContainsAny(c.Root, ":,\\\x00") {
		t.fault("root", `a path without : , \ and NUL is wanted, another path is there`)
	}
	if t.has("lines") {
		c.Lines = t.table("lines").lines(c.Root)
	}
	if t.has("watch") {
		c.Watch = t.table("watch").watch()
	}
	if t.has("cluster") {
		c.Cluster = t.table("cluster").cluster()
	}
	roles := t.table("roles")
	c.Operators = members(roles.table("operator"))
	c.Quotas = members(roles.table("quota"))
	roles.end()
	c.readTenants(t)
	t.end()
	return c
}

// Reads the tenants, and the door for containerd with its namespace.
func (c *Configuration) readTenants(t *table) {
	tenants, most := t.table("tenants"), mostTenants
	for _, name := range tenants.keys() {
		it := tenants.tenant(name, c.Cluster != nil)
		if c.Tenants[name] = it; it.IsContainerds && !t.has("containerd") {
			tenants.fault(name, "its snapshots are containerd's, and there is no door for containerd")
		}
	}
	if t.has("containerd") {
		if tenants.has(ContainerdNamespace) {
			tenants.fault(ContainerdNamespace, "the door for containerd has this namespace: its limit is there")
		}
		c.Containerd, c.Tenants[ContainerdNamespace] = t.table("containerd").containerd(c.Cluster != nil)
	}
	if c.Cluster != nil {
		most = mostTenantsOfCluster
	}
	if len(c.Tenants) > most {
		t.fault("tenants", fmt.Sprintf("at most %d are wanted, %d are there", most, len(c.Tenants)))
	}
}

func (t *table) lines(root string) *Lines {
	l := &Lines{
		Socket:      t.socket("socket", "/run/pibroulez/lines.sock"),
		Mode:        t.mode("mode", 0o666),
		LineBytes:   t.number("line_bytes", 1<<20, leastLineBytes, mostLineBytes),
		Connections: t.number("connections", 256, 1, mostConnections),
		Patience:    t.duration("patience", 30*time.Second, leastPatience, mostPatience, false),
		Refusals:    t.path("refusals", filepath.Join(root, "refusals.jsonl")),
	}
	t.end()
	return l
}

func (t *table) limit(key string, mayLack bool) uint64 {
	if mayLack {
		return t.number(key, MostLimit, 0, MostLimit)
	}
	return t.neededNumber(key, 0, MostLimit)
}

func (t *table) cluster() *Cluster {
	c := &Cluster{
		Endpoints: t.texts("endpoints"), Authority: t.path("cacert", ""), Certificate: t.path("cert", ""), Key: t.path("key", ""),
		Prefix: t.text("prefix", "/pibroulez"), Node: t.text("node", ""),
		Batch: t.usage("batch", pibroulez.Usage{Blocks: 64, Inodes: 64}), Share: t.number("share", 0, 1, mostShare),
		Patience: t.duration("patience", time.Second, time.Millisecond, mostPatience, true),
		Idle:     t.duration("idle", 2*time.Second, time.Millisecond, mostPatience, true),
	}
	switch start := t.text("start", "at-once"); start {
	case "at-once":
	case "settled":
		c.IsSettled = true
	default:
		t.fault("start", `"at-once" or "settled" is wanted, another text is there`)
	}
	if len(c.Endpoints) == 0 {
		t.fault("endpoints", "an array of at least one text is wanted, nothing is there")
	}
	if c.Node == "" && !t.has("node") {
		c.Node, _ = os.Hostname()
	}
	if c.Node == "" {
		t.fault("node", "a text is wanted, nothing is there")
	}
	if !strings.HasPrefix(c.Prefix, "/") {
		t.fault("prefix", "a text that begins with / is wanted, another one is there")
	}
	t.end()
	return c
}

func (t *table) watch() *Watch {
	const otherwise = "unix:/run/pibroulez/watch.sock"
	text := t.text("address", otherwise)
	t.end()
	if path := strings.TrimPrefix(text, "unix:"); path != text {
		if !filepath.IsAbs(path) || len(path) > mostSocketBytes {
			t.fault("address", fmt.Sprintf("after unix: a path from / on of at most %d bytes is wanted, another text is there", mostSocketBytes))
		}
		return &Watch{Socket: filepath.Clean(path)}
	}
	address, err := netip.ParseAddrPort(text)
	if err != nil || !address.Addr().IsLoopback() {
		t.fault("address", "unix: and a path, or an address of this machine as 127.0.0.1:9464, is wanted, another text is there")
	}
	return &Watch{Address: text}
}

func (t *table) containerd(isOfCluster bool) (*Containerd, Tenant) {
	it := &Containerd{Socket: t.socket("socket", "/run/pibroulez/containerd.sock")}
	limit := pibroulez.Usage{Blocks: t.number("blocks", MostLimit, 0, MostLimit), Inodes: t.number("inodes", MostLimit, 0, MostLimit)}
	if t.has("each") {
		if isOfCluster {
			t.fault("each", "in a cluster tenants are made at a start alone")
		}
		each := t.table("each")
		it.Each = &pibroulez.Usage{Blocks: each.limit("blocks", false), Inodes: each.limit("inodes", false)}
		each.end()
	}
	t.end()
	return it, Tenant{Limit: limit}
}

// In a cluster a tenant's limit is there, and that of the file one for this node alone.
func (t *table) tenant(name string, isOfCluster bool) Tenant {
	// The library takes a backslash in a key as itself, and TOML doesn't.
	if name == "" || len(name) > mostNameBytes || strings.ContainsAny(name, "\\\x00") {
		t.fault(name, fmt.Sprintf(`a name of 1 to %d bytes without \ and NUL is wanted, another one is there`, mostNameBytes))
	}
	if pibroulez.IsIdentity(name) {
		t.fault(name, "a store of a cluster has its identity under such a name: another one is wanted")
	}
	it := t.table(name)
	limit := pibroulez.Usage{Blocks: it.limit("blocks", isOfCluster), Inodes: it.limit("inodes", isOfCluster)}
	isContainerds := it.flag("containerd")
	if isContainerds && (it.has("users") || it.has("groups")) {
		t.fault(name, "its snapshots are containerd's, so it has no users and no groups")
	}
	if isContainerds && strings.Contains(name, "/") {
		t.fault(name, "no namespace of containerd has a / in its name")
	}
	return Tenant{limit, members(it), isContainerds}
}

// The members that a table names, which has no other key than those that were asked for.
func members(t *table) Members {
	m := Members{t.numbersOf("users", userNumber), t.numbersOf("groups", groupNumber)}
	t.end()
	return m
}

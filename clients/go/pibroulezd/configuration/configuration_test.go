package configuration

import (
	"errors"
	"fmt"
	"io/fs"
	"os"
	"path/filepath"
	"reflect"
	"regexp"
	"strings"
	"testing"
	"time"

	"pibroulez.example/pibroulez"
)

func granted(t *testing.T, err error) {
	t.Helper()
	if err != nil {
		t.Fatal(err)
	}
}

func equal(t *testing.T, got, want any) {
	t.Helper()
	if !reflect.DeepEqual(got, want) {
		t.Errorf("%+v, not %+v", got, want)
	}
}

const whole = `
root = "/srv/store/"
program = "/usr/local/bin/snap_replay"
log = "/srv/log"
journal = 65536
slots = 64
layer_inodes = 1000
ancestors = 128
checkpoint = 7

[lines]
socket = "/run/x.sock"
mode = "0600"
line_bytes = 2048
connections = 7
patience = "5s"
refusals = "/var/log/refusals"

[roles.operator]
users = ["root", 7]
[roles.quota]
groups = ["root", 8]

[tenants.a]
blocks = 100
inodes = 50
users = [1000]
[tenants."b/c d"]
blocks = 1099511627776
inodes = 0
groups = [1001]
`

func TestWhole(t *testing.T) {
	c, err := parse("p", []byte(whole))
	granted(t, err)
	none := map[uint32]bool{}
	equal(t, *c, Configuration{
		Root: "/srv/store", Program: "/usr/local/bin/snap_replay", Log: "/srv/log",
		Journal: 65536, Slots: 64, LayerInodes: 1000, Ancestors: 128, Checkpoint: 7,
		Lines:     &Lines{"/run/x.sock", 0o600, 2048, 7, 5 * time.Second, "/var/log/refusals"},
		Operators: Members{map[uint32]bool{0: true, 7: true}, none},
		Quotas:    Members{none, map[uint32]bool{0: true, 8: true}},
		Tenants: map[string]Tenant{
			"a":     {Limit: pibroulez.Usage{Blocks: 100, Inodes: 50}, Members: Members{map[uint32]bool{1000: true}, none}},
			"b/c d": {Limit: pibroulez.Usage{Blocks: 1 << 40}, Members: Members{none, map[uint32]bool{1001: true}}},
		},
	})
}

// What a file leaves out has the values that README tells.
func TestLeftOut(t *testing.T) {
	c, err := parse("p", []byte(`root = "/r"`))
	granted(t, err)
	members := Members{map[uint32]bool{}, map[uint32]bool{}}
	equal(t, *c, Configuration{
		Root: "/r", Program: "snap_replay", Log: "/r/calls.jsonl", Journal: 1048576, Slots: 4096, LayerInodes: 16777216,
		Ancestors: 500, Checkpoint: 4, Tenants: map[string]Tenant{}, Operators: members, Quotas: members,
	})
	c, err = parse("p", []byte("root = \"/r\"\n[lines]"))
	granted(t, err)
	equal(t, *c.Lines, Lines{"/run/pibroulez/lines.sock", 0o666, 1048576, 256, 30 * time.Second, "/r/refusals.jsonl"})
}

// Each fault is told by its line and its key, and all of a file at once.
func TestFaults(t *testing.T) {
	many := "root = \"/r\"\n"
	for i := 0; i < 4097; i++ {
		many += fmt.Sprintf("[tenants.t%d]\nblocks = 1\ninodes = 1\n", i)
	}
	for _, it := range []struct{ text, want string }{
		{"", "p:1: root: a path is wanted, nothing is there"},
		{"root = \"r\"", "p:1: root: a path that begins with / is wanted, another text is there"},
		{"root = 5", "p:1: root: a text is wanted, another number is there"},
		{"root = \"/a:b\"", `p:1: root: a path without : , \ and NUL is wanted, another path is there`},
		{"root = \"/r\"\nrot = 1", "p:2: rot: no such key"},
		{"root = \"/r\"\n[role]\n", "p:2: role: no such key"},
		{"root = \"/r\"\nprogram = \"\"", "p:2: program: a text is wanted, an empty one is there"},
		{"root = \"/r\"\nlog = [1]", "p:2: log: a text is wanted, an array is there"},
		{"root = \"/r\"\n\nslots = 0", "p:3: slots: a number from 1 to 4096 is wanted, another number is there"},
		{"root = \"/r\"\nslots = -1", "p:2: slots: a number from 1 to 4096 is wanted, another number is there"},
		{"root = \"/r\"\nslots = \"8\"", "p:2: slots: a number from 1 to 4096 is wanted, another text is there"},
		{"root = \"/r\"\nslots = 1.5", "p:2: slots: a number from 1 to 4096 is wanted, something else is there"},
		{"root = \"/r\"\nlayer_inodes = 16777217", "p:2: layer_inodes: a number from 1 to 16777216 is wanted, another number is there"},
		{"root = \"/r\"\nancestors = 0", "p:2: ancestors: a number from 1 to 500 is wanted, another number is there"},
		{"root = \"/r\"\nancestors = 501", "p:2: ancestors: a number from 1 to 500 is wanted, another number is there"},
		{"root = \"/r\"\nancestors = \"64\"", "p:2: ancestors: a number from 1 to 500 is wanted, another text is there"},
		{"root = \"/r\"\ncheckpoint = 1", "p:2: checkpoint: 0 or a number from 2 to 1024 is wanted, another number is there"},
		{"root = \"/r\"\ncheckpoint = 1025", "p:2: checkpoint: a number from 0 to 1024 is wanted, another number is there"},
		{"root = \"/r\"\njournal = 65535", "p:2: journal: a number from 65536 to 1048576 is wanted, another number is there"},
		{"root = \"/r\"\n[tenants]\na = 5", "p:3: tenants.a: a table is wanted, another number is there"},
		{"root = \"/r\"\n[[tenants]]\nblocks = 1", "p:2: tenants: a table is wanted, an array is there"},
		{"root = \"/r\"\n[tenants.a]\nblocks = 1", "p:2: tenants.a.inodes: a number from 0 to 1099511627776 is wanted, nothing is there"},
		{"root = \"/r\"\n[tenants.a]\nblocks = 1099511627777\ninodes = 1", "p:3: tenants.a.blocks: a number from 0 to 1099511627776 is wanted, another number is there"},
		{"root = \"/r\"\n[tenants.\"a\\u0000\"]\nblocks = 1\ninodes = 1", `p:2: tenants."a\\u0000": a name of 1 to 255 bytes without \ and NUL is wanted, another one is there`},
		{"root = \"/r\"\n[tenants.a]\nblocks = 1\ninodes = 1\nuser = [\"root\"]", "p:5: tenants.a.user: no such key"},
		{"root = \"/r\"\n[roles.operator]\nusers = \"root\"", "p:3: roles.operator.users: an array of names and numbers is wanted, another text is there"},
		{"root = \"/r\"\n[roles.operator]\nusers = [\"no-such-user-here\"]", "p:3: roles.operator.users: no such user: \"no-such-user-here\""},
		{"root = \"/r\"\n[roles.quota]\ngroups = [\"no-such-group-here\"]", "p:3: roles.quota.groups: no such group: \"no-such-group-here\""},
		{"root = \"/r\"\n[roles.quota]\ngroups = [4294967295]", "p:3: roles.quota.groups: a number from 0 to 4294967294 is wanted, 4294967295 is there"},
		{"root = \"/r\"\n[roles.quota]\ngroups = [true]", "p:3: roles.quota.groups: a name or a number is wanted, true or false is there"},
		{"root = \"/r\"\n[roles.tenant]\nusers = [1]", "p:2: roles.tenant: no such key"},
		{"root = \"/r\"\nlines = 1", "p:2: lines: a table is wanted, another number is there"},
		{"root = \"/r\"\n[lines]\nsocket = \"/" + strings.Repeat("s", 107) + "\"", "p:3: lines.socket: a path of at most 107 bytes"},
		{"root = \"/r\"\n[lines]\nmode = 438", "p:3: lines.mode: a text of octal digits, at most 0777, is wanted, another number is there"},
		{"root = \"/r\"\n[lines]\nmode = \"1777\"", "p:3: lines.mode: a text of octal digits, at most 0777, is wanted, another text is there"},
		{"root = \"/r\"\n[lines]\nline_bytes = 16777153", "p:3: lines.line_bytes: a number from 1024 to 16777152 is wanted"},
		{"root = \"/r\"\n[lines]\npatience = \"99ms\"", "p:3: lines.patience: a text as \"1s\", from 100ms to 1h0m0s, is wanted"},
		{"root = \"/r\"\n[lines]\nconnection = 1", "p:3: lines.connection: no such key"},
		{"root = \"/r\"\n[containerd]\nsocket = \"x\"", "p:3: containerd.socket: a path that begins with / is wanted"},
		{"root = \"/r\"\n[containerd]\nblocks = -1", "p:3: containerd.blocks: a number from 0 to 1099511627776 is wanted"},
		{"root = \"/r\"\n[containerd]\nusers = [1]", "p:3: containerd.users: no such key"},
		{"root = \"/r\"\n[containerd]\neach = 1", "p:3: containerd.each: a table is wanted, another number is there"},
		{"root = \"/r\"\n[containerd.each]\nblocks = 1", "p:2: containerd.each.inodes: a number from 0 to 1099511627776 is wanted, nothing is there"},
		{"root = \"/r\"\n[containerd.each]\nblocks = 1\ninodes = 1\nusers = [1]", "p:5: containerd.each.users: no such key"},
		{"root = \"/r\"\n[containerd.each]\nblocks = 1\ninodes = 1\n[cluster]\nendpoints = [\"e\"]", "p:2: containerd.each: in a cluster tenants are made at a start alone"},
		{"root = \"/r\"\n[containerd]\n[tenants.containerd]\nblocks = 1\ninodes = 1", "p:3: tenants.containerd: the door for containerd has this namespace"},
		{"root = \"/r\"\n[tenants.a]\nblocks = 1\ninodes = 1\ncontainerd = true", "p:2: tenants.a: its snapshots are containerd's, and there is no door"},
		{"root = \"/r\"\n[containerd]\n[tenants.a]\nblocks = 1\ninodes = 1\ncontainerd = true\nusers = [1]", "p:3: tenants.a: its snapshots are containerd's, so it has no users"},
		{"root = \"/r\"\n[containerd]\n[tenants.a]\nblocks = 1\ninodes = 1\ncontainerd = 1", "p:6: tenants.a.containerd: true or false is wanted, another number is there"},
		{"root = \"/r\"\n[containerd]\n[tenants.\"a/b\"]\nblocks = 1\ninodes = 1\ncontainerd = true", "p:3: tenants.\"a/b\": no namespace of containerd has a /"},
		{"root = \"/r\"\n[watch]\naddress = \"0.0.0.0:80\"", "p:3: watch.address: unix: and a path, or an address of this machine"},
		{"root = \"/r\"\n[watch]\naddress = \"localhost:80\"", "p:3: watch.address: unix: and a path, or an address of this machine"},
		{"root = \"/r\"\n[watch]\naddress = \"unix:x\"", "p:3: watch.address: after unix: a path from / on"},
		{"root = \"/r\"\n[watch]\naddress = 80", "p:3: watch.address: a text is wanted, another number is there"},
		{"root = \"/r\"\n[watch]\nport = 80", "p:3: watch.port: no such key"},
		{"root = \"/r\"\n[lines]\npatience = 5", "p:3: lines.patience: a text is wanted, another number is there"},
		{"root = \"/r\"\n[lines]\npatience = \"off\"", "p:3: lines.patience: a text as"},
		{"root = \"/r\"\n[cluster]", "p:2: cluster.endpoints: an array of at least one text is wanted, nothing is there"},
		{"root = \"/r\"\n[tenants.pibroulez-store-0]\nblocks = 1\ninodes = 1", "tenants.pibroulez-store-0: a store of a cluster has its identity under such a name: another one is wanted"},
		{clustered + "endpoints = [\"x\", 1]", "p:3: cluster.endpoints: a text is wanted, another number is there"},
		{clustered + "endpoints = \"x\"", "p:3: cluster.endpoints: an array of texts is wanted, another text is there"},
		{clustered + "endpoints = [\"x\"]\nbatch = \"5\"", "p:4: cluster.batch: a text as \"64/64\", BLOCKS/INODES, is wanted"},
		{clustered + "endpoints = [\"x\"]\nidle = \"0s\"", "p:4: cluster.idle: a text as \"1s\", from 1ms to 1h0m0s, is wanted"},
		{clustered + "endpoints = [\"x\"]\nstart = \"soon\"", "p:4: cluster.start: \"at-once\" or \"settled\" is wanted"},
		{clustered + "endpoints = [\"x\"]\nnode = \"\"", "p:4: cluster.node: a text is wanted"},
		{clustered + "endpoints = [\"x\"]\nprefix = \"x\"", "p:4: cluster.prefix: a text that begins with / is wanted"},
		{clustered + "endpoints = [\"x\"]\nshare = 0", "p:4: cluster.share: a number from 1 to 1048576 is wanted"},
		{clustered + "endpoints = [\"x\"]\ncert = \"x\"", "p:4: cluster.cert: a path that begins with / is wanted"},
		{clustered + "endpoints = [\"x\"]\ntls = true", "p:4: cluster.tls: no such key"},
		{many, "p:2: tenants: at most 4096 are wanted, 4097 are there"},
		{many + "[cluster]\nendpoints = [\"x\"]", "p:2: tenants: at most 127 are wanted, 4097 are there"},
		{"root = \"/r\"\nslots = =", "p:2: not TOML: "},
		{"root = \"/r\"\nroot = \"/r\"", "p:2: not TOML: The following key was defined twice: root"},
		{"root = \"/r\"\n[tenants.a]\n[tenants.a]", "not TOML: "},
		{"\xff\xfe\x00", "not TOML"},
		{"a = \"\xff\"", "p"},
	} {
		_, err := parse("p", []byte(it.text))
		var faults Faults
		if !errors.As(err, &faults) || len(faults) == 0 || !strings.Contains(err.Error(), it.want) {
			t.Errorf("%q: %v, not %s", it.text, err, it.want)
		}
	}
	_, err := parse("p", []byte("slots = 0\nroot = 5\nx = 1"))
	var faults Faults
	if errors.As(err, &faults); len(faults) != 3 || faults[0].Key != "slots" || faults[1].Key != "root" || faults[2].Key != "x" {
		t.Errorf("%v: not three faults in the order of the lines", err)
	}
}

// A text that is cut or changed anywhere is read, or has faults, and no other end.
func TestCutAndChanged(t *testing.T) {
	for at := range whole {
		for _, text := range []string{whole[:at], whole[at:], whole[:at] + "\"" + whole[at+1:], whole[:at] + "[\x00" + whole[at+1:]} {
			var faults Faults
			if _, err := parse("p", []byte(text)); err != nil && !errors.As(err, &faults) {
				t.Errorf("%q: %v", text, err)
			}
		}
	}
}

func TestFile(t *testing.T) {
	path := filepath.Join(t.TempDir(), "c.toml")
	if _, err := Read(path); !errors.Is(err, fs.ErrNotExist) {
		t.Errorf("%v: no file", err)
	}
	granted(t, os.WriteFile(path, []byte(`root = "/r"`), 0o600))
	c, err := Read(path)
	granted(t, err)
	equal(t, c.Root, "/r")
}

func TestMembers(t *testing.T) {
	m := Members{map[uint32]bool{1: true}, map[uint32]bool{2: true}}
	for _, it := range []struct {
		user   uint32
		groups []uint32
		want   bool
	}{{1, nil, true}, {2, []uint32{1}, false}, {3, []uint32{5, 2}, true}, {0, nil, false}} {
		if m.Has(it.user, it.groups) != it.want {
			t.Errorf("%+v", it)
		}
	}
}

// What may change while the daemon runs changes, and each other key that says something else is refused by its name.
func TestNext(t *testing.T) {
	old, err := parse("p", []byte(whole))
	granted(t, err)
	same, refused := old.Next("p", old)
	equal(t, same, old)
	equal(t, len(refused), 0)
	read, err := parse("p", []byte(`
root = "/other"
slots = 65
[roles.operator]
users = [9]
[tenants.a]
blocks = 7
inodes = 8
users = [10]
[tenants.new]
blocks = 1
inodes = 1
`))
	granted(t, err)
	next, refused := old.Next("p", read)
	var keys []string
	for _, it := range refused {
		keys = append(keys, it.Key)
	}
	equal(t, keys, []string{
		"ancestors", "checkpoint", "journal", "layer_inodes", "lines", "log", "program", "root", "slots",
	})
	if words := refused[4].Error(); words != "p: lines: it can't change while the daemon runs: the door stays" {
		t.Error(words)
	}
	if words := refused[7].Error(); words != "p: root: it can't change while the daemon runs: /srv/store stays" {
		t.Error(words)
	}
	want := *old
	want.Operators, want.Quotas, want.Tenants = read.Operators, read.Quotas, read.Tenants
	equal(t, *next, want)
	other := *old
	other.Lines = &Lines{"/other", 0o666, 1, 2, 3, "/r"}
	_, refused = old.Next("p", &other)
	keys = nil
	for _, it := range refused {
		keys = append(keys, it.Key)
	}
	equal(t, keys, []string{
		"lines.connections", "lines.line_bytes", "lines.mode", "lines.patience", "lines.refusals", "lines.socket",
	})
}

const clustered = "root = \"/r\"\n[cluster]\n"

// In a cluster a tenant need not have a limit, and that of a node stays while the daemon runs.
func TestCluster(t *testing.T) {
	host, err := os.Hostname()
	granted(t, err)
	read := func(rest string) *Configuration {
		t.Helper()
		c, err := parse("p", []byte(clustered+"endpoints = [\"http://e:1\", \"http://e:2\"]\n"+rest))
		granted(t, err)
		return c
	}
	c := read("[tenants.a]\n[tenants.b]\nblocks = 5")
	endpoints := []string{"http://e:1", "http://e:2"}
	equal(t, *c.Cluster, Cluster{
		Endpoints: endpoints, Prefix: "/pibroulez", Node: host, Batch: pibroulez.Usage{Blocks: 64, Inodes: 64}, Patience: time.Second, Idle: 2 * time.Second,
	})
	equal(t, c.Tenants["a"].Limit, pibroulez.Usage{Blocks: 1 << 40, Inodes: 1 << 40})
	equal(t, c.Tenants["b"].Limit, pibroulez.Usage{Blocks: 5, Inodes: 1 << 40})
	equal(t, *read("cacert = \"/a\"\ncert = \"/c\"\nkey = \"/k\"\nprefix = \"/p\"\nnode = \"n\"\nbatch = \"7/8\"\nshare = 9\n" +
		"patience = \"off\"\nidle = \"50ms\"\nstart = \"settled\"").Cluster, Cluster{
		endpoints, "/a", "/c", "/k", "/p", "n", pibroulez.Usage{Blocks: 7, Inodes: 8}, 9, -1, 50 * time.Millisecond, true,
	})
	next, refused := c.Next("p", read("node = \"n\"\n[tenants.a]\n[tenants.b]\nblocks = 6\nusers = [3]"))
	if len(refused) != 2 || refused[0].Key != "cluster" || refused[1].Key != "tenants.b" {
		t.Errorf("%v", refused)
	}
	other, refused := c.Next("p", read("[tenants.a]\n[tenants.new]"))
	if len(refused) != 2 || refused[0].Key != "tenants.b" || refused[1].Key != "tenants.new" || len(other.Tenants) != 2 {
		t.Errorf("%v, %v", refused, other.Tenants)
	}
	equal(t, next.Cluster, c.Cluster)
	equal(t, next.Tenants["b"], Tenant{Limit: pibroulez.Usage{Blocks: 5, Inodes: 1 << 40}, Members: Members{map[uint32]bool{3: true}, map[uint32]bool{}}})

	// A file that gains or loses the cluster changes members alone.
	alone, err := parse("p", []byte("root = \"/r\"\n[tenants.a]\nblocks = 1\ninodes = 2\nusers = [7]\n[tenants.b]\nblocks = 3\ninodes = 4\nusers = [7]\n"))
	granted(t, err)
	clusters := read("[tenants.a]\nusers = [8]\n[tenants.new]\n")
	next, _ = alone.Next("p", clusters)
	equal(t, next.Tenants, map[string]Tenant{
		"a": {Limit: alone.Tenants["a"].Limit, Members: clusters.Tenants["a"].Members}, "b": {Limit: alone.Tenants["b"].Limit},
	})
	next, _ = clusters.Next("p", alone)
	equal(t, next.Tenants, map[string]Tenant{
		"a": {Limit: clusters.Tenants["a"].Limit, Members: alone.Tenants["a"].Members}, "new": {Limit: clusters.Tenants["new"].Limit},
	})
}

func TestWatch(t *testing.T) {
	for text, want := range map[string]Watch{
		"": {Socket: "/run/pibroulez/watch.sock"}, `address = "unix:/w//x"`: {Socket: "/w/x"},
		`address = "127.0.0.1:9464"`: {Address: "127.0.0.1:9464"}, `address = "[::1]:0"`: {Address: "[::1]:0"},
	} {
		c, err := parse("p", []byte("root = \"/r\"\n[watch]\n"+text))
		granted(t, err)
		equal(t, *c.Watch, want)
	}
}

// The door for containerd brings a namespace, whose limit may change and which stays with the door.
func TestContainerd(t *testing.T) {
	read := func(rest string) *Configuration {
		t.Helper()
		c, err := parse("p", []byte("root = \"/r\"\n"+rest))
		granted(t, err)
		return c
	}
	old := read("[containerd]")
	equal(t, *old.Containerd, Containerd{Socket: "/run/pibroulez/containerd.sock"})
	equal(t, old.Tenants, map[string]Tenant{"containerd": {Limit: pibroulez.Usage{Blocks: 1 << 40, Inodes: 1 << 40}}})
	next, refused := old.Next("p", read("[containerd]\nblocks = 5"))
	equal(t, len(refused), 0)
	equal(t, next.Tenants["containerd"].Limit, pibroulez.Usage{Blocks: 5, Inodes: 1 << 40})
	for _, it := range []struct {
		old, now, key string
	}{
		{"[containerd]", "", "containerd"}, {"", "[containerd]", "containerd"},
		{"[containerd]", "[containerd]\nsocket = \"/other\"", "containerd.socket"},
	} {
		old := read(it.old)
		next, refused := old.Next("p", read(it.now))
		if len(refused) != 1 || refused[0].Key != it.key {
			t.Errorf("%v of %+v", refused, it)
		}
		equal(t, next.Containerd, old.Containerd)
		equal(t, next.Tenants, old.Tenants)
	}
}

// A tenant of containerd stays one, and its limit may change.
func TestTenantsOfContainerd(t *testing.T) {
	read := func(rest string) *Configuration {
		t.Helper()
		c, err := parse("p", []byte("root = \"/r\"\n[containerd]\n[tenants.a]\nblocks = 1\n"+rest))
		granted(t, err)
		return c
	}
	old := read("inodes = 2\ncontainerd = true")
	equal(t, old.Tenants["a"].IsContainerds, true)
	next, refused := old.Next("p", read("inodes = 3\ncontainerd = true"))
	equal(t, len(refused), 0)
	equal(t, next.Tenants["a"].Limit, pibroulez.Usage{Blocks: 1, Inodes: 3})
	next, refused = old.Next("p", read("inodes = 2\nusers = [1]"))
	if len(refused) != 1 || refused[0].Key != "tenants.a" {
		t.Errorf("%v", refused)
	}
	equal(t, next.Tenants["a"], Tenant{Limit: pibroulez.Usage{Blocks: 1, Inodes: 2}, IsContainerds: true})
	// It comes and goes at a start.
	without := read("inodes = 2\ncontainerd = true")
	delete(without.Tenants, "a")
	for was, now := range map[*Configuration]*Configuration{old: without, without: old} {
		next, refused = was.Next("p", now)
		if len(refused) != 1 || refused[0].Key != "tenants.a" {
			t.Errorf("%v", refused)
		}
		equal(t, next.Tenants, was.Tenants)
	}
	next, refused = read("inodes = 2\nusers = [1]").Next("p", old)
	equal(t, len(refused), 1)
	equal(t, next.Tenants["a"], Tenant{Limit: pibroulez.Usage{Blocks: 1, Inodes: 2}})
}

// Each key that README has is known.
func TestKeysOfReadme(t *testing.T) {
	readme, err := os.ReadFile("../README.md")
	granted(t, err)
	keys := 0
	for _, row := range regexp.MustCompile("(?m)^\\| (`[a-z][^|]*) \\|").FindAllStringSubmatch(string(readme), -1) {
		for _, key := range regexp.MustCompile("`([a-z_]+(\\.[a-zA-Z_]+)*)`").FindAllStringSubmatch(row[1], -1) {
			_, err := parse("p", []byte(key[1]+" = [{}]"))
			if err == nil || strings.Contains(err.Error(), "no such key") {
				t.Errorf("%s: %v", key[1], err)
			}
			keys++
		}
	}
	if keys < 30 {
		t.Errorf("only %d keys", keys)
	}
}

// Where each namespace of containerd is a tenant, those of the file come and go while the daemon runs, and the limit of each
// other one changes. Whether there is one doesn't.
func TestNextWithEach(t *testing.T) {
	read := func(rest string) *Configuration {
		t.Helper()
		c, err := parse("p", []byte("root = \"/r\"\n[containerd]\n"+rest))
		granted(t, err)
		return c
	}
	const each, named = "[containerd.each]\nblocks = 1\ninodes = 2\n", "[tenants.a]\nblocks = 3\ninodes = 4\ncontainerd = true\n"
	old := read(each)
	equal(t, *old.Containerd.Each, pibroulez.Usage{Blocks: 1, Inodes: 2})
	next, refused := old.Next("p", read("[containerd.each]\nblocks = 5\ninodes = 6\n"+named))
	equal(t, len(refused), 0)
	equal(t, *next.Containerd.Each, pibroulez.Usage{Blocks: 5, Inodes: 6})
	equal(t, next.Tenants["a"].IsContainerds, true)
	last, refused := next.Next("p", read(each))
	equal(t, len(refused), 0)
	equal(t, len(last.Tenants), 1)
	for _, it := range []struct{ old, read, want string }{
		{each, "", "p: containerd.each: it can't change while the daemon runs: a tenant for each namespace stays"},
		{"", each, "p: containerd.each: it can't change while the daemon runs: one namespace for all others stays"},
	} {
		next, refused := read(it.old).Next("p", read(it.read))
		equal(t, refused.Error(), it.want)
		equal(t, next.Containerd.Each != nil, it.old != "")
	}
}

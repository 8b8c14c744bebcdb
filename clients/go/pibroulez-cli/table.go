package main

import (
	"context"
	"strings"
)

// A command: its words, the options that are its own beside those of its kind, and what the help says of it. The help, the
// checks of a command line and the completions are made of this.
type command struct {
	name string
	// What follows the name: `TENANT [PATH]`.
	words string
	// Its own options, without dashes, and whether it asks etcd in place of the daemon.
	own       []string
	ofCluster bool
	// Each a line of the help.
	tells []string
	run   func(context.Context, words) (answer, error)
}

// Is set by init, since the completions are a command themselves.
var commands []command

func init() {
	commands = []command{
		{"quota", "[TENANT]", nil, false, []string{"what each tenant may take and takes"}, onStore(quota)},
		{"limit", "TENANT BLOCKS/INODES", nil, false, []string{"sets a tenant's limit"}, onStore(limit)},
		{"tenant-add", "NAME BLOCKS/INODES", nil, false, []string{
			"makes a tenant with its limit; the daemon's file has to name it too, or it goes when that is read",
		}, onStore(tenantAdd)},
		{"tenant-remove", "TENANT", nil, false, []string{"removes a tenant that has no snapshot and no lease"}, onStore(tenantRemove)},
		{"tree", "TENANT", nil, false, []string{"its snapshots, each below its parent, with what is charged for it alone"}, onStore(tree)},
		{"du", "TENANT KEY [PATH]", nil, false, []string{"what is taken by what is seen at a path of a snapshot (/)"}, onStore(diskUsage)},
		{"diff", "TENANT KEY", nil, false, []string{"what a snapshot's layer changes: A added, C changed, D removed"}, onStore(diff)},
		{"journal", "[TENANT]", []string{"last", "full"}, false, []string{"the last entries of the journal (20), with the lines that make them"}, onStore(journal)},
		{"leases", "TENANT", nil, false, []string{"its leases"}, onStore(leases)},
		{"sweep", "TENANT MOMENT", []string{"try"}, false, []string{
			"takes leases that have ended at a moment, and snapshots that nothing needs; tells which",
		}, onStore(sweep)},
		{"check", "", nil, false, []string{"compares what the store tells: sums, parents, and numbers of snapshots"}, onStore(check)},
		{"save", "", nil, false, []string{"the lines of the whole store, of which snap_replay makes it again"}, onStore(save)},
		{"audit", "TENANT KEY", []string{"root"}, false, []string{
			"what a snapshot takes by the ledger, by its directory and by the file system, and the paths that",
			"make the difference; as root of the daemon's machine",
		}, onStore(audit)},
		{"log-check", "FILE", []string{"program"}, false, []string{
			"whether a log is whole, and what the store that it tells has of each tenant; without the daemon",
		}, onLogs(logCheck)},
		{"log-diff", "FILE OTHER", []string{"program"}, false, []string{
			"in which limits, snapshots and leases the stores of two logs differ; without the daemon",
		}, onLogs(logDiff)},
		{"log-save", "FILE", []string{"program"}, false, []string{"the lines of the store that a log tells; without the daemon"}, onLogs(logSave)},
		{"completion", "SHELL", nil, false, []string{"the words by which bash, zsh or fish complete this command"}, completion},

		{"cluster quota", "[TENANT]", nil, true, []string{"limit, granted, charged and idle of each node, and how long ago it told"}, onCluster(clusterQuota)},
		{"cluster limit", "TENANT BLOCKS/INODES", nil, true, []string{
			"sets a tenant's limit, also below what is granted: tells what is to come back, and from whom",
		}, onCluster(clusterLimit)},
		{"cluster shards", "TENANT NUMBER", nil, true, []string{
			"keeps what is free of its limit in this number of shards (1 to 64), so that many nodes don't hinder each other",
		}, onCluster(clusterShards)},
		{"cluster nodes", "", nil, true, []string{"the stores, whether their agents answer, and what they are granted"}, onCluster(clusterNodes)},
		{"cluster forget", "STORE --data-destroyed", []string{"data-destroyed"}, true, []string{
			"takes a store out for good and frees its grants; may be repeated",
		}, onCluster(clusterForget)},
		{"cluster check", "", nil, true, []string{"compares all sums and records at one revision"}, onCluster(clusterCheck)},
		{"cluster drain", "NODE", nil, true, []string{"has a node give back what it doesn't use, and take no more"}, onCluster(clusterDrain)},
		{"cluster undrain", "NODE", nil, true, []string{"lets it take again"}, onCluster(clusterUndrain)},
		{"cluster restored", "", nil, true, []string{
			"says that etcd was restored from a backup: nothing is granted until it is reopened",
		}, onCluster(clusterRestored)},
		{"cluster reopen", "--all-registered", []string{"all-registered"}, true, []string{
			"makes the sums anew, once all stores have registered what they have",
		}, onCluster(clusterReopen)},
	}
}

func commandOf(name string) (command, bool) {
	for _, it := range commands {
		if it.name == name {
			return it, true
		}
	}
	return command{}, false
}

// The words that follow the name, without options.
func (c command) operands() (all []string) {
	for _, it := range strings.Fields(c.words) {
		if !strings.HasPrefix(it, "--") {
			all = append(all, it)
		}
	}
	return all
}

// How many words may follow the name.
func (c command) counts() (least, most int) {
	for _, it := range c.operands() {
		if !strings.HasPrefix(it, "[") {
			least++
		}
		most++
	}
	return least, most
}

// All options of the command, without dashes.
func (c command) options() []string {
	if c.name == "completion" {
		return []string{"socket"}
	}
	if c.ofCluster {
		return append([]string{"json", "endpoints", "cacert", "cert", "key", "prefix"}, c.own...)
	}
	if strings.HasPrefix(c.name, "log-") {
		return append([]string{"json"}, c.own...)
	}
	return append([]string{"json", "socket"}, c.own...)
}

// What an option takes, where it isn't one that is there or not.
var takes = map[string]string{
	"socket": "PATH", "last": "N", "endpoints": "URLS", "cacert": "FILE", "cert": "FILE", "key": "FILE", "prefix": "KEY", "root": "PATH", "program": "PATH",
}

// The options as the help tells them, and what it says.
var optionTells = [][2]string{
	{"--socket PATH", "the daemon's socket for lines (/run/pibroulez/lines.sock)"},
	{"--json", "one JSON value in place of a table"},
	{"--endpoints URLS", "etcd's, with commas between them (http://127.0.0.1:2379)"},
	{"--cacert FILE, --cert FILE, --key FILE", "etcd's authority, and the certificate and key that it asks for"},
	{"--prefix KEY", "what the keys begin with (/pibroulez)"},
	{"--root PATH", "the daemon's root, which has the snapshots' directories (/var/lib/pibroulez)"},
	{"--program PATH", "the program that carries out a log's lines (snap_replay)"},
	{"--", "what follows is no option"},
	{"--help, --version", "tell, and end"},
}

// Where the help has what it says of a command, and of an option.
const (
	tellsAt       = 36
	optionTellsAt = 21
)

// A name and what is said of it, below it where it has no room beside it.
func helpLine(name string, at int, tells ...string) string {
	name = "  " + name
	if len(name) < at {
		name += strings.Repeat(" ", at-len(name))
	} else {
		name += "\n" + strings.Repeat(" ", at)
	}
	return name + strings.Join(tells, "\n"+strings.Repeat(" ", at)) + "\n"
}

// A command's line of the help.
func (c command) help() string {
	all := strings.TrimSpace(c.name + " " + c.words)
	for _, it := range c.own {
		if !strings.Contains(c.words, "--"+it) {
			all += " [" + strings.TrimSpace("--"+it+" "+takes[it]) + "]"
		}
	}
	return helpLine(all, tellsAt, c.tells...)
}

func helpOf() string {
	var all strings.Builder
	all.WriteString(helpBefore)
	for _, it := range commands {
		if !it.ofCluster {
			all.WriteString(it.help())
		}
	}
	all.WriteString("\nOf a cluster's tenants, by etcd:\n\n")
	for _, it := range commands {
		if it.ofCluster {
			all.WriteString(it.help())
		}
	}
	all.WriteString("\n")
	for _, it := range optionTells {
		all.WriteString(helpLine(it[0], optionTellsAt, it[1]))
	}
	all.WriteString(helpAfter)
	return all.String()
}

const helpBefore = `usage: pibroulez [--socket PATH] [--json] COMMAND

Asks and changes the store of a daemon, as the roles of the caller allow. A usage is BLOCKS/INODES, in blocks of 4096 bytes.

`

const helpAfter = `
Statuses:
  0  it was done
  1  it was refused, the daemon can't be reached, or a check has found something; standard error says what
  2  the words are wrong
`

package main

import (
	"context"
	"encoding/json"
	"errors"
	"fmt"
	"io"
	"os"
	"os/exec"
	"path/filepath"
	"reflect"
	"regexp"
	"strings"
	"testing"
	"time"

	"pibroulez.example/pibroulez"
	"pibroulez.example/pibroulez/pibroulezd/door"
	"pibroulez.example/pibroulez/socket"
)

var ctx = context.Background()

func program() string {
	if named := os.Getenv("PIBROULEZ_PROGRAM"); named != "" {
		return named
	}
	return "../../../crates/snap_replay/out/snap_replay"
}

func granted(t *testing.T, err error) {
	t.Helper()
	if err != nil {
		t.Fatal(err)
	}
}

func equal(t *testing.T, got, want any) {
	t.Helper()
	if !reflect.DeepEqual(got, want) {
		t.Errorf("%v, not %v", got, want)
	}
}

func usage(blocks, inodes uint64) pibroulez.Usage {
	return pibroulez.Usage{Blocks: blocks, Inodes: inodes}
}

// A daemon's door over a store with a snapshot of each kind. The tenant `a` has, in blocks and inodes: the root and an empty
// file of the committed one (1/2), the root of another (1/1), and of the active one its root, a directory, and 5/3 beyond
// that (7/5), of which its layer takes 2/3 with a whiteout.
type house struct {
	store  *pibroulez.Store
	socket string
	rights door.Rights
}

func newHouse(t *testing.T) *house {
	t.Helper()
	return newHouseWith(t, map[string]pibroulez.Usage{"a": usage(100, 50), "b\n": usage(10, 10)})
}

func newHouseWith(t *testing.T, tenants map[string]pibroulez.Usage) *house {
	t.Helper()
	h := &house{socket: filepath.Join(t.TempDir(), "lines"), rights: door.Rights{IsOperator: true}}
	var err error
	h.store, err = pibroulez.New(ctx, pibroulez.Config{
		Program: program(), Root: "/r", Namespaces: tenants,
	})
	granted(t, err)
	d := door.New(door.Config{
		Store: h.store, Rights: func(door.Peer) door.Rights { return h.rights }, LineBytes: 1 << 20, Connections: 10,
		Patience: time.Minute, Journal: 1 << 20, Refusals: io.Discard, Warn: func(words string, err error) { t.Error(words, err) },
	})
	listener, err := socket.Listen(h.socket, 0o600, 0o700)
	granted(t, err)
	ended := make(chan error, 1)
	go func() { ended <- d.Serve(listener) }()
	t.Cleanup(func() {
		d.Close()
		granted(t, <-ended)
		h.store.Close()
	})
	h.furnish(t)
	return h
}

func (h *house) furnish(t *testing.T) {
	t.Helper()
	_, err := h.store.Prepare(ctx, "a", "k0", "")
	granted(t, err)
	_, err = h.store.WriteText(ctx, "a", "k0", "/none", 0, "")
	if err == nil {
		t.Fatal("a write into nothing")
	}
	_, err = h.store.Create(ctx, "a", "k0", "/file")
	granted(t, err)
	_, err = h.store.Commit(ctx, "a", "k0", "base")
	granted(t, err)
	_, err = h.store.Prepare(ctx, "a", "\x1b[31m", "base")
	granted(t, err)
	_, err = h.store.Mkdir(ctx, "a", "\x1b[31m", "/new", pibroulez.WithExtra(usage(5, 3)))
	granted(t, err)
	_, err = h.store.Unlink(ctx, "a", "\x1b[31m", "/file")
	granted(t, err)
	_, err = h.store.View(ctx, "a", "v", "base")
	granted(t, err)
	granted(t, h.store.LeaseCreate(ctx, "a", "l", pibroulez.WithUntil(7)))
	granted(t, h.store.LeaseAdd(ctx, "a", "l", "base"))
	_, err = h.store.Prepare(ctx, "a", "k1", "")
	granted(t, err)
	_, err = h.store.Commit(ctx, "a", "k1", "unused")
	granted(t, err)
}

// What is printed, with spaces at the ends of lines left out, and the status.
func (h *house) run(t *testing.T, args ...string) (out, errs string, status int) {
	t.Helper()
	var printed, said strings.Builder
	status = run(ctx, append([]string{"--socket", h.socket}, args...), &printed, &said)
	return printed.String(), said.String(), status
}

// Each command prints a table, and one JSON value by --json.
func TestCommands(t *testing.T) {
	h := newHouse(t)
	for _, it := range []struct{ args, table, value string }{
		{
			"quota", `
TENANT  BLOCKS  RESERVED  FREE  LIMIT  INODES  RESERVED  FREE  LIMIT
a            9         5    91    100       8         2    42     50
"b\n"        0         0    10     10       0         0    10     10
`, `{"a":{"limit":[100,50],"charged":[9,8],"committed":[2,3],"open":[7,5],"spare":[5,2],"free":[91,42]},"b\n":{"limit":[10,10],"charged":[0,0],"committed":[0,0],"open":[0,0],"spare":[0,0],"free":[10,10]}}`,
		},
		{
			"tree a", `
SNAPSHOT      KIND       ID  BLOCKS  INODES  CHILDREN
base          Committed   1       1       2         2
  "\x1b[31m"  Active      2       7       5         0
  v           View        3       0       0         0
unused        Committed   4       1       1         0
`, "",
		},
		{"du a base", "\nBLOCKS  INODES  PATH\n     1       2  /\n", `[1,2]`},
		{"du a base /file", "\nBLOCKS  INODES  PATH\n     0       1  /file\n", `[0,1]`},
		{"diff a \x1b[31m", "\nD /file\nA /new\n", `[{"change":"removed","path":"/file"},{"change":"added","path":"/new"}]`},
		{"leases a", "\nLEASE  UNTIL  SNAPSHOTS\nl          7  base\n", `[{"lease":"l","names":["base"],"until":7}]`},
		{"leases b\n", "\nLEASE  UNTIL  SNAPSHOTS\n", `[]`},
		{"sweep a 8 --try", "\nunused\nwould remove 1 snapshots with 1/1, and 1 leases\n", `{"freed":[1,1],"leases":1,"removed":["unused"]}`},
		{
			"journal a --last 2", `
ENTRY  SESSION  CALL     TENANT  KEY     ID  REFUSED
   10        0  prepare  a       k1       4
   11        0  commit   a       unused   4
`, "",
		},
		{"check", "\n2 tenants, 4 snapshots, 0 faults\n", `{"faults":[],"snapshots":4,"tenants":2}`},
	} {
		args := strings.Split(it.args, " ")
		out, errs, status := h.run(t, args...)
		if trimmed(out) != it.table[1:] || errs != "" || status != 0 {
			t.Errorf("%s: %d, %s\n%s\nnot\n%s", it.args, status, errs, trimmed(out), it.table[1:])
		}
		out, _, status = h.run(t, append([]string{"--json"}, args...)...)
		var value any
		if err := json.Unmarshal([]byte(out), &value); err != nil || status != 0 || strings.Count(out, "\n") != 1 {
			t.Errorf("%s: %d, %v: %s", it.args, status, err, out)
		}
		if it.value != "" && out != it.value+"\n" {
			t.Errorf("%s: %s, not %s", it.args, out, it.value)
		}
	}
}

func trimmed(text string) string {
	lines := strings.Split(text, "\n")
	for i, it := range lines {
		lines[i] = strings.TrimRight(it, " ")
	}
	return strings.Join(lines, "\n")
}

// What changes the store changes it, and tells what is there then.
func TestChanges(t *testing.T) {
	h := newHouse(t)
	out, _, status := h.run(t, "limit", "a", "80/40")
	if status != 0 || !strings.Contains(out, "    71     80 ") {
		t.Errorf("%d: %s", status, out)
	}
	quota, err := h.store.Quota(ctx, "a")
	granted(t, err)
	equal(t, quota.Limit, usage(80, 40))
	out, _, status = h.run(t, "tenant-add", "c\n", "7/5")
	if status != 0 || !strings.Contains(out, "\n\"c\\n\" ") || !strings.Contains(out, "     7 ") {
		t.Errorf("%d: %s", status, out)
	}
	quota, err = h.store.Quota(ctx, "c\n")
	granted(t, err)
	equal(t, quota.Limit, usage(7, 5))
	out, _, status = h.run(t, "tenant-remove", "c\n")
	equal(t, out, "removed \"c\\n\"\n")
	equal(t, status, 0)
	_, err = h.store.Quota(ctx, "c\n")
	if !errors.Is(err, pibroulez.ErrNoNamespace) {
		t.Error(err)
	}
	out, _, status = h.run(t, "sweep", "a", "8")
	equal(t, out, "unused\nremoved 1 snapshots with 1/1, and 1 leases\n")
	equal(t, status, 0)
	nodes, err := h.store.Tree(ctx, "a")
	granted(t, err)
	equal(t, len(nodes), 3)
	out, _, _ = h.run(t, "journal", "--full", "--last=1")
	if !strings.Contains(out, `{"do":"sweep","now":8,"ns":"a","s":0}`) {
		t.Error(out)
	}
}

// What is refused is told by its name, with status 1, and wrong words with status 2.
func TestRefusals(t *testing.T) {
	h := newHouse(t)
	for _, it := range []struct {
		args   []string
		status int
		want   string
	}{
		{[]string{"limit", "a", "1/1"}, 1, "BelowCharge"},
		{[]string{"tenant-add", "a", "1/1"}, 1, "NamespaceExists"},
		{[]string{"tenant-add", "c", "1"}, 2, `"1" is no BLOCKS/INODES`},
		{[]string{"tenant-add", "pibroulez-store-x", "1/1"}, 2, `"pibroulez-store-x" is a name for the identity of a store`},
		{[]string{"tenant-remove", "a"}, 1, "NotEmpty"},
		{[]string{"tenant-remove", "none"}, 1, "NoNamespace"},
		{[]string{"tree", "none"}, 1, "NoNamespace"},
		{[]string{"--", "tree", "--json"}, 1, "NoNamespace"},
		{[]string{"du", "a", "none"}, 1, "NotFound"},
		{[]string{"limit", "a", "1"}, 2, `"1" is no BLOCKS/INODES`},
		{[]string{"limit", "a", "1/-1"}, 2, `"1/-1" is no BLOCKS/INODES`},
		{[]string{"sweep", "a", "now"}, 2, `"now" is no moment`},
		{nil, 2, "no command"},
		{[]string{"quotas"}, 2, `no such command: "quotas"`},
		{[]string{"tree"}, 2, "tree has 1 to 1 words, and 0 are given"},
		{[]string{"tree", "a", "b"}, 2, "and 2 are given"},
		{[]string{"tree", "a", "--try"}, 2, "tree has no option --try"},
		{[]string{"quota", "--last", "x"}, 2, "invalid value"},
		{[]string{"quota", "--other"}, 2, "not defined"},
	} {
		out, errs, status := h.run(t, it.args...)
		if status != it.status || !strings.Contains(errs, it.want) || out != "" {
			t.Errorf("%q: %d, %s, %s", it.args, status, errs, out)
		}
	}
	h.rights = door.Rights{Namespaces: map[string]bool{"a": true}}
	_, errs, status := h.run(t, "quota")
	if status != failed || !strings.Contains(errs, "NotAllowed (from door)") {
		t.Errorf("%d: %s", status, errs)
	}
	_, _, status = h.run(t, "quota", "a")
	equal(t, status, 0)
	_, errs, status = h.run(t, "--socket", h.socket+"x", "check")
	if status != failed || !strings.Contains(errs, "no such file") {
		t.Errorf("%d: %s", status, errs)
	}
}

// Help names each command and option, and the version is that of the program.
func TestHelp(t *testing.T) {
	var out strings.Builder
	equal(t, run(ctx, []string{"--help"}, &out, io.Discard), 0)
	for _, it := range commands {
		for _, word := range append([]string{"\n  " + it.name + " ", "--socket", "--json", "--version"}, it.options()...) {
			if !strings.Contains(strings.ReplaceAll(out.String(), "check  ", "check "), word) {
				t.Errorf("help without %q", word)
			}
		}
	}
	out.Reset()
	equal(t, run(ctx, []string{"--version"}, &out, io.Discard), 0)
	told, err := exec.Command(program(), "--version").Output()
	granted(t, err)
	equal(t, out.String(), strings.Replace(string(told), "snap_replay", "pibroulez", 1))
}

// A check finds each thing that doesn't fit.
func TestFaults(t *testing.T) {
	good := func() *seen {
		return &seen{
			report: pibroulez.Report{Records: 2, Open: 1, Totals: map[string]pibroulez.Usage{"a": usage(5, 3)}},
			quotas: map[string]pibroulez.Quota{"a": {
				Limit: usage(10, 10), Charged: usage(5, 3), Committed: usage(2, 1), Open: usage(3, 2), Free: usage(5, 7),
			}},
			trees: map[string][]pibroulez.Node{"a": {
				{Key: "base", Kind: pibroulez.KindCommitted, Usage: usage(2, 1), Children: 1},
				{Key: "k", Kind: pibroulez.KindActive, Usage: usage(3, 2), Parent: "base"},
			}},
		}
	}
	equal(t, good().faults(), []string{})
	for want, change := range map[string]func(*seen){
		"a: charged 2/1 and 3/2, and its snapshots 2/1 and 4/2": func(s *seen) { s.trees["a"][1].Usage.Blocks++ },
		"a: charged 5/3 in all, by the report 5/4":              func(s *seen) { s.report.Totals["a"] = usage(5, 4) },
		"a: charged 5/3 and free 5/7 of 11/10": func(s *seen) {
			q := s.quotas["a"]
			q.Limit.Blocks++
			s.quotas["a"] = q
		},
		"a: k is on base, which is not committed":                  func(s *seen) { s.trees["a"][0].Kind = pibroulez.KindView },
		"a: base has 2 children, and 1 snapshots are on it":        func(s *seen) { s.trees["a"][0].Children++ },
		"2 snapshots, 1 of them active, and by the report 3 and 1": func(s *seen) { s.report.Records++ },
		"a: k is on none, which is not committed":                  func(s *seen) { s.trees["a"][1].Parent = "none" },
		"1 snapshots, 0 of them active, and by the report 2 and 1": func(s *seen) { s.trees["a"] = s.trees["a"][:1] },
	} {
		s := good()
		change(s)
		if faults := s.faults(); !strings.Contains(fmt.Sprint(faults), want) {
			t.Errorf("%q, not %q", faults, want)
		}
		if s.answer().fault == nil {
			t.Errorf("%q isn't a fault", want)
		}
	}
}

// The manual page has each command, and each option of the help.
func TestManual(t *testing.T) {
	text, err := os.ReadFile("pibroulez.1")
	granted(t, err)
	manual := strings.ReplaceAll(string(text), `\-`, "-")
	words := regexp.MustCompile(`--[a-z-]+`).FindAllString(helpOf(), -1)
	for _, it := range commands {
		words = append(words, it.name)
	}
	for _, it := range words {
		if !regexp.MustCompile(`(?m)^\.(B|BR|BI|RB) .*` + regexp.QuoteMeta(it)).MatchString(manual) {
			t.Errorf("no %s", it)
		}
	}
}

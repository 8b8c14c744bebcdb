package door

import (
	"encoding/json"
	"fmt"
	"io/fs"
	"os"
	"path/filepath"
	"strings"
	"syscall"
	"testing"
	"time"

	"pibroulez.example/pibroulez"
)

// Each command, with NS for its namespace, and whether the roles quota and tenant may make it. `tenant` is of a call on the
// tenant's own namespace.
var commands = []struct {
	line          string
	quota, tenant bool
}{
	{`{"do":"session"}`, false, false},
	{`{"do":"reopen"}`, false, false},
	{`{"do":"roll"}`, false, false},
	{`{"do":"prepare","ns":"NS","key":"new","parent":""}`, false, true},
	{`{"do":"view","ns":"NS","key":"new","parent":"base"}`, false, true},
	{`{"do":"remove","ns":"NS","key":"base"}`, false, true},
	{`{"do":"stat","ns":"NS","key":"k"}`, false, true},
	{`{"do":"stat","ns":"NS","key":"k","quiet":false}`, false, true},
	{`{"do":"stat","ns":"NS","key":"k","quiet":true}`, true, true},
	{`{"do":"update","ns":"NS","key":"k","labels":{"x":"y"}}`, false, true},
	{`{"do":"usage","ns":"NS","key":"k"}`, false, true},
	{`{"do":"usage","ns":"NS","key":"k","quiet":true}`, true, true},
	{`{"do":"usage","ns":"NS","key":"k","chain":true}`, true, true},
	{`{"do":"mounts","ns":"NS","key":"k"}`, false, true},
	{`{"do":"mounts","ns":"NS","key":"k","quiet":true}`, true, true},
	{`{"do":"walk","ns":"NS"}`, false, true},
	{`{"do":"walk","ns":"NS","quiet":true}`, true, true},
	{`{"do":"charge","ns":"NS","key":"k","need":[9,9]}`, false, true},
	{`{"do":"trim","ns":"NS","key":"k"}`, false, true},
	{`{"do":"commit","ns":"NS","key":"k","name":"new"}`, false, true},
	{`{"do":"discard","ns":"NS","key":"k"}`, false, true},
	{`{"do":"lease_create","ns":"NS","lease":"new"}`, false, true},
	{`{"do":"lease_add","ns":"NS","lease":"l","name":"base"}`, false, true},
	{`{"do":"lease_drop","ns":"NS","lease":"l","name":"base"}`, false, true},
	{`{"do":"lease_release","ns":"NS","lease":"l"}`, false, true},
	{`{"do":"limit","ns":"NS","blocks":50,"inodes":50}`, true, false},
	{`{"do":"namespace_create","ns":"NS","blocks":5,"inodes":5}`, false, false},
	{`{"do":"namespace_remove","ns":"NS"}`, false, false},
	{`{"do":"sweep","ns":"NS","now":0}`, false, true},
	{`{"do":"sweep","ns":"NS","now":0,"try":false}`, false, true},
	{`{"do":"sweep","ns":"NS","now":0,"try":true}`, true, true},
	{`{"do":"batch","ns":"NS","key":"k","need":[9,9],"ops":[{"do":"mkdir","path":"/new"}]}`, false, true},
	{`{"do":"mkdir","ns":"NS","key":"k","path":"/new"}`, false, true},
	{`{"do":"create","ns":"NS","key":"k","path":"/new"}`, false, true},
	{`{"do":"put","ns":"NS","key":"k","path":"/new","size":5}`, false, true},
	{`{"do":"write","ns":"NS","key":"k","path":"/f","text":"x"}`, false, true},
	{`{"do":"truncate","ns":"NS","key":"k","path":"/f","size":5}`, false, true},
	{`{"do":"setmode","ns":"NS","key":"k","path":"/f","mode":5}`, false, true},
	{`{"do":"symlink","ns":"NS","key":"k","path":"/new","target":"x"}`, false, true},
	{`{"do":"link","ns":"NS","key":"k","from":"/f","to":"/new"}`, false, true},
	{`{"do":"rename","ns":"NS","key":"k","from":"/f","to":"/new"}`, false, true},
	{`{"do":"unlink","ns":"NS","key":"k","path":"/f"}`, false, true},
	{`{"do":"rmdir","ns":"NS","key":"k","path":"/d"}`, false, true},
	{`{"do":"opaque","ns":"NS","key":"k","path":"/d"}`, false, true},
	{`{"do":"whiteout","ns":"NS","key":"k","path":"/d"}`, false, true},
	{`{"do":"look","ns":"NS","key":"k","path":"/f"}`, true, true},
	{`{"do":"list","ns":"NS","key":"k","path":"/"}`, true, true},
	{`{"do":"read","ns":"NS","key":"k","path":"/f"}`, true, true},
	{`{"do":"resolve","ns":"NS","key":"k","path":"/f"}`, true, true},
	{`{"do":"du","ns":"NS","key":"k","path":"/"}`, true, true},
	{`{"do":"quota","ns":"NS"}`, true, true},
	{`{"do":"quota"}`, true, false},
	{`{"do":"leases","ns":"NS"}`, true, true},
	{`{"do":"tree","ns":"NS"}`, true, true},
	{`{"do":"diff","ns":"NS","key":"base"}`, true, true},
	{`{"do":"journal","ns":"NS"}`, true, true},
	{`{"do":"journal","ns":"NS","full":true}`, true, true},
	{`{"do":"journal"}`, true, false},
	{`{"do":"report"}`, true, false},
	{`{"do":"save"}`, false, false},
	{`{"do":"save","ns":"NS"}`, false, false},
	{`{"do":"save","ns":"NS","max":1,"s":0}`, false, false},
	{`{"do":"no-such-command","ns":"NS"}`, false, false},
	{`{"do":"prepare","key":"new","parent":""}`, false, false},
	{`{"do":"prepare","ns":["NS"],"key":"new","parent":""}`, false, false},
	{`{"do":"prepare","ns":"NS","key":"new","parent":"","s":0}`, false, true},
	{`{"do":"prepare","ns":"NS","key":"new","parent":"","s":1}`, false, false},
	{`{"do":"prepare","ns":"NS","key":"new","parent":"","s":"0"}`, false, false},
	{`{"do":"prepare","ns":"b","key":"new","parent":"","ns":"NS"}`, false, true},
	{`{"do":"prepare","ns":"NS","key":"new","parent":"","ns":"other"}`, false, false},
	{`{"do":"prepare","NS":"NS","Ns":"NS","key":"new","parent":""}`, false, false},
	{`{"do":"limit","do":"quota","ns":"NS"}`, true, true},
	{`{"do":"quota","do":"limit","ns":"NS","blocks":50,"inodes":50}`, true, false},
}

// What is there for the commands.
var furniture = []string{
	`{"do":"prepare","ns":"NS","key":"k0","parent":""}`, `{"do":"commit","ns":"NS","key":"k0","name":"base"}`,
	`{"do":"prepare","ns":"NS","key":"k","parent":"base"}`, `{"do":"create","ns":"NS","key":"k","path":"/f"}`,
	`{"do":"mkdir","ns":"NS","key":"k","path":"/d"}`, `{"do":"lease_create","ns":"NS","lease":"l"}`,
}

func in(namespace, line string) string { return strings.ReplaceAll(line, "NS", namespace) }

// Each call of each role, on the tenant's namespace and on another one: what isn't allowed is refused by its name, is no
// line of the log and changes nothing.
func TestRoles(t *testing.T) {
	h := newHouse(t, nil)
	operator, caller := h.talk(t), h.talk(t)
	for _, line := range furniture {
		for _, namespace := range []string{"a", "b"} {
			if answer := operator.ask(in(namespace, line)); strings.Contains(answer, "error") {
				t.Fatal(line, answer)
			}
		}
	}
	refused := 0
	asking := func(rights Rights, line string, isAllowed bool) {
		t.Helper()
		before, logged := h.seen(t)
		h.allow(rights)
		answer := caller.ask(line)
		const want = `{"error":"NotAllowed","from":"door"}`
		if isRefused := answer == want; isRefused == isAllowed {
			t.Errorf("%+v: %s: %s", rights, line, answer)
		}
		if after, still := h.seen(t); answer == want && (after != before || still != logged) {
			t.Errorf("%+v: %s: %s, not %s", rights, line, after, before)
		}
		if answer == want {
			refused++
		}
	}
	nobody, quota, tenant := Rights{}, Rights{IsQuota: true}, Rights{Namespaces: map[string]bool{"a": true}}
	for _, it := range commands {
		for _, namespace := range []string{"a", "b", "none"} {
			line := in(namespace, it.line)
			asking(nobody, line, false)
			asking(quota, line, it.quota)
			asking(tenant, line, it.tenant && namespace == "a")
			asking(Rights{IsQuota: true, Namespaces: tenant.Namespaces}, line, it.quota || it.tenant && namespace == "a")
		}
	}
	for _, it := range commands {
		asking(Rights{IsOperator: true}, in("a", it.line), true)
	}
	equal(t, h.Counts().Refusals[pibroulez.ErrNotAllowed], uint64(refused))
}

// Nobody makes a namespace that is named as the identity of a store of a cluster, whatever form the line has.
func TestNobodyMakesIdentities(t *testing.T) {
	h := newHouse(t, nil)
	k := h.talk(t)
	for _, name := range []string{`pibroulez-store-`, `pibroulez-store-x`, `\u0070ibroulez-store-x`} {
		equal(t, k.ask(`{"do":"namespace_create","ns":"`+name+`","blocks":0,"inodes":0}`), `{"error":"NotAllowed","from":"door"}`)
		equal(t, k.ask(`{"do":"namespace_create","ns":"fine","blocks":0,"inodes":0,"ns":"`+name+`"}`), `{"error":"NotAllowed","from":"door"}`)
	}
	equal(t, k.ask(`{"do":"namespace_create","ns":"pibroulez-store","blocks":0,"inodes":0}`), `{"ok":true}`)
	equal(t, k.ask(`{"do":"namespace_remove","ns":"pibroulez-store-x"}`), `{"error":"NoNamespace","from":"book","of":"ns"}`)
	if !strings.Contains(h.refused.String(), `"do":"namespace_create","ns":"pibroulez-store-x"`) {
		t.Error(h.refused.String())
	}
}

// A store that is open takes no line of a saved one, whoever sends it: nothing is counted as a refusal, nor changed.
func TestNobodyRestores(t *testing.T) {
	h := newHouse(t, nil)
	k := h.talk(t)
	before, logged := h.seen(t)
	for number, rights := range []Rights{{}, {IsQuota: true}, {Namespaces: map[string]bool{"a": true}}, {IsOperator: true}} {
		h.allow(rights)
		line := 2*number + 1
		equal(t, k.ask(`{"do":"restore","piece":"end","lines":1,"id":7}`), fmt.Sprintf(`{"answer":{"fault":"open twice","line":%d},"id":7}`, line))
		equal(t, k.ask(`{"do":"restore","ns":"a"}`), fmt.Sprintf(`{"fault":"open twice","line":%d}`, line+1))
	}
	after, still := h.seen(t)
	equal(t, after, before)
	equal(t, still, logged)
	equal(t, h.refused.String(), "")
}

// Each command that the door knows is in the table.
func TestAllCommandsHaveRoles(t *testing.T) {
	isThere := map[string]bool{}
	for _, it := range commands {
		line := pibroulez.Line{Members: map[string]json.RawMessage{}}
		granted(t, json.Unmarshal([]byte(it.line), &line.Members))
		granted(t, json.Unmarshal(line.Members["do"], &line.Do))
		isThere[line.Do] = true
	}
	for _, words := range []map[string]bool{isTenants, isShort, isWhole} {
		for it := range words {
			if !isThere[it] {
				t.Errorf("no row of %q", it)
			}
		}
	}
}

// Whatever a tenant sends, another tenant's namespace stays as it is, and so do all limits and the round.
func TestTenantsApart(t *testing.T) {
	h := newHouse(t, nil)
	k := h.talk(t)
	for _, line := range furniture {
		for _, namespace := range []string{"a", "b"} {
			k.ask(in(namespace, line))
		}
	}
	seen := func() string {
		t.Helper()
		quotas, err := h.store.Quotas(ctx)
		granted(t, err)
		tree, err := h.store.Tree(ctx, "b")
		granted(t, err)
		leases, err := h.store.Leases(ctx, "b")
		granted(t, err)
		changes, err := h.store.Diff(ctx, "b", "k", "", 0)
		granted(t, err)
		entries, err := h.store.Journal(ctx, "b", 0, 0)
		granted(t, err)
		return fmt.Sprint(quotas["a"].Limit, quotas["b"], tree, leases, changes, entries)
	}
	var lines []string
	for _, it := range commands {
		lines = append(lines, in("a", it.line), in("b", it.line))
	}
	h.allow(Rights{Namespaces: map[string]bool{"a": true}})
	before := seen()
	var all strings.Builder
	for number, it := range changedLines(2, lines, 6000) {
		all.WriteString(it + "\n" + lines[number%len(lines)] + "\n")
	}
	answers := k.askAll(all.String())
	equal(t, seen(), before)
	allowed := 0
	for _, it := range answers {
		if !strings.Contains(it, "NotAllowed") && !strings.Contains(it, "fault") {
			allowed++
		}
	}
	if allowed < 1000 {
		t.Errorf("only %d lines were allowed", allowed)
	}
}

// A role that is taken away while a line waits for its turn is gone for it.
func TestRightsOfALateLine(t *testing.T) {
	asked := 0
	h := newHouse(t, func(c *Config) {
		c.Rights = func(Peer) Rights {
			asked++
			return Rights{IsOperator: asked == 1}
		}
	})
	equal(t, h.talk(t).ask(`{"do":"session"}`), `{"error":"NotAllowed","from":"door"}`)
	report, err := h.store.Report(ctx)
	granted(t, err)
	equal(t, report.Entries, uint64(1))
}

// All that is seen of a store, and how long its log is.
func (h *house) seen(t *testing.T) (string, int64) {
	t.Helper()
	var all []any
	report, err := h.store.Report(ctx)
	granted(t, err)
	quotas, err := h.store.Quotas(ctx)
	granted(t, err)
	all = append(all, report, quotas)
	for _, namespace := range []string{"a", "b"} {
		tree, err := h.store.Tree(ctx, namespace)
		granted(t, err)
		leases, err := h.store.Leases(ctx, namespace)
		granted(t, err)
		all = append(all, tree, leases)
	}
	log, err := os.Stat(h.log)
	granted(t, err)
	return fmt.Sprint(all...), log.Size()
}

// A refusal is in its log, with who and what, and a flood is there by its number. A log that can't be written is told, and
// the call is refused all the same.
func TestRefusals(t *testing.T) {
	h := newHouse(t, nil)
	h.allow(Rights{})
	k := h.talk(t)
	equal(t, k.ask(`{"do":"limit","ns":"a\n\"","key":"`+strings.Repeat("ä", 200)+`x","id":3}`), `{"answer":{"error":"NotAllowed","from":"door"},"id":3}`)
	var it refusal
	granted(t, json.Unmarshal([]byte(h.refused.String()), &it))
	if moment, err := time.Parse(time.RFC3339Nano, it.Time); err != nil || time.Since(moment) > time.Hour {
		t.Errorf("%s, %v", it.Time, err)
	}
	it.Time = ""
	equal(t, it, refusal{
		Refused: "NotAllowed", User: uint32(os.Getuid()), Group: uint32(os.Getgid()), Process: int32(os.Getpid()), Do: "limit",
		Namespace: "a\n\"", Key: strings.Repeat("ä", 128),
	})
	equal(t, strings.Count(h.refused.String(), "\n"), 1)

	h.refused.mutex.Lock()
	h.refused.err = syscall.ENOSPC
	h.refused.mutex.Unlock()
	equal(t, k.ask(`{"do":"report"}`), `{"error":"NotAllowed","from":"door"}`)
	if !strings.Contains(h.warned.String(), "a refusal isn't in its log: no space left on device") {
		t.Error(h.warned.String())
	}
}

// Of a user that floods the log some refusals are written, one more after each second, and the number of the others.
func TestFloodOfRefusals(t *testing.T) {
	to := new(text)
	r := refusals{to: to, users: map[uint32]*allowance{}}
	begin := time.Unix(1000, 0)
	tell := func(at time.Duration, user uint32) {
		granted(t, r.tell(begin.Add(at), Peer{User: user}, pibroulez.ErrNotAllowed, pibroulez.Line{Do: "report"}))
	}
	for i := 0; i < 1000; i++ {
		tell(0, 1)
	}
	equal(t, strings.Count(to.String(), "\n"), mostAtOnce)
	tell(0, 2)
	equal(t, strings.Count(to.String(), "\n"), mostAtOnce+1)
	tell(time.Second, 1)
	tell(time.Second, 1)
	equal(t, strings.Count(to.String(), "\n"), mostAtOnce+2)
	equal(t, strings.Count(to.String(), `"unsaid":980`), 1)
	tell(time.Hour, 1)
	equal(t, strings.Count(to.String(), `"unsaid":1}`), 1)
	for user := uint32(0); user < 10*mostUsers; user++ {
		tell(time.Hour, user)
	}
	if len(r.users) > mostUsers {
		t.Errorf("%d users are remembered", len(r.users))
	}
}

// The kernel's word on who has connected: its user, its group and its further groups.
func TestPeers(t *testing.T) {
	if os.Getuid() != 0 {
		t.Skip("only root starts a process of another user")
	}
	// Others reach the socket and the program by this folder.
	folder, err := os.MkdirTemp("", "door")
	granted(t, err)
	defer os.RemoveAll(folder)
	granted(t, os.Chmod(folder, 0o755))
	self, err := os.ReadFile(os.Args[0])
	granted(t, err)
	granted(t, os.WriteFile(filepath.Join(folder, "caller"), self, 0o755))
	peers := make(chan Peer, 1)
	h := newHouseIn(t, folder, func(c *Config) {
		c.Rights = func(it Peer) Rights {
			peers <- it
			return Rights{}
		}
	})
	many := make([]uint32, 100)
	for i := range many {
		many[i] = uint32(5000 + i)
	}
	for _, it := range []struct {
		user, group uint32
		groups      []uint32
	}{{1234, 2345, []uint32{3456, 4567}}, {7, 8, []uint32{}}, {0, 9, many}} {
		process := caller(filepath.Join(folder, "caller"), h.path)
		process.SysProcAttr = &syscall.SysProcAttr{Credential: &syscall.Credential{Uid: it.user, Gid: it.group, Groups: it.groups}}
		output, err := process.CombinedOutput()
		if err != nil || string(output) != `{"error":"NotAllowed","from":"door"}`+"\n" {
			t.Fatalf("%v: %s", err, output)
		}
		equal(t, <-peers, Peer{it.user, it.group, it.groups, int32(process.ProcessState.Pid())})
	}
	if mode, err := os.Stat(h.path); err != nil || mode.Mode() != fs.ModeSocket|0o666 {
		t.Errorf("%v, %v", mode, err)
	}
}

package door

import (
	"context"
	"encoding/json"
	"errors"
	"fmt"
	"strings"
	"sync"
	"testing"

	"pibroulez.example/pibroulez"
)

// Gives a store as much more of a limit as a call needs, as a cluster does, and sees whether the call charges more.
type granter struct {
	t     *testing.T
	store *pibroulez.Store
	most  pibroulez.Usage
	mutex sync.Mutex
	needs []string
}

func (g *granter) charge(ctx context.Context, namespace string, need pibroulez.Usage, call func(context.Context) error) error {
	g.mutex.Lock()
	defer g.mutex.Unlock()
	before, err := g.store.Quota(ctx, namespace)
	if err != nil {
		return call(ctx)
	}
	g.needs = append(g.needs, need.String())
	if err := call(ctx); !errors.Is(err, pibroulez.ErrOverLimit) {
		return err
	}
	limit := pibroulez.Usage{Blocks: before.Charged.Blocks + need.Blocks, Inodes: before.Charged.Inodes + need.Inodes}
	if limit.Blocks > g.most.Blocks || limit.Inodes > g.most.Inodes {
		return &OverLimit{Free: before.Free, Words: "no \"room\""}
	}
	if limit.Blocks < before.Limit.Blocks {
		limit.Blocks = before.Limit.Blocks
	}
	if limit.Inodes < before.Limit.Inodes {
		limit.Inodes = before.Limit.Inodes
	}
	if err := g.store.Limit(ctx, namespace, limit); err != nil {
		return err
	}
	if err := call(ctx); err != nil {
		g.t.Errorf("%v more isn't enough: %v", need, err)
		return err
	}
	return nil
}

// A store without a limit is charged line by line, each with as much more as it needs, and each in its place.
func TestCharges(t *testing.T) {
	g := &granter{t: t, most: pibroulez.Usage{Blocks: 4000, Inodes: 4000}}
	h := newHouse(t, func(c *Config) {
		g.store = c.Store
		c.Charge = g.charge
	})
	granted(t, h.store.Limit(ctx, "a", pibroulez.Usage{}))
	k := h.talk(t)
	lines := []string{
		`{"do":"prepare","ns":"a","key":"k0","parent":""}`,
		`{"do":"mkdir","ns":"a","key":"k0","path":"/d"}`,
		`{"do":"mkdir","ns":"a","key":"k0","path":"/d/e"}`,
		`{"do":"put","ns":"a","key":"k0","path":"/d/e/f","size":40960}`,
		`{"do":"put","ns":"a","key":"k0","path":"/d/e/g","size":8192}`,
		`{"do":"create","ns":"a","key":"k0","path":"/d/e/h"}`,
		`{"do":"write","ns":"a","key":"k0","path":"/d/e/h","offset":4096,"text":"x"}`,
		`{"do":"symlink","ns":"a","key":"k0","path":"/d/e/s","target":"x"}`,
		`{"do":"commit","ns":"a","key":"k0","name":"base"}`,
	}
	for key, line := range map[string]string{
		"write": `"path":"/d/e/f","offset":50000,"fill":[1,5]`, "truncate": `"path":"/d/e/f","size":100000`, "setmode": `"path":"/d/e/f","mode":5`,
		"link": `"from":"/d/e/f","to":"/d/x"`, "rename": `"from":"/d/e/f","to":"/d/x"`, "unlink": `"path":"/d/e/f"`, "opaque": `"path":"/d/e"`,
		"whiteout": `"path":"/d/e"`, "put": `"path":"/d/e/new","size":4097`, "mkdir": `"path":"/d/e/new"`, "charge": `"need":[70,60]`,
	} {
		lines = append(lines, fmt.Sprintf(`{"do":"prepare","ns":"a","key":%q,"parent":"base"}`, key), fmt.Sprintf(`{"do":%q,"ns":"a","key":%q,%s}`, key, key, line))
	}
	k.send(strings.Join(lines, "\n") + "\n")
	for _, line := range lines {
		if answer := k.answer(); strings.Contains(answer, "error") || strings.Contains(answer, "fault") {
			t.Errorf("%s: %s", line, answer)
		}
	}
	// 10 blocks of a file in two directories: the file, and what copies of these would take.
	equal(t, g.needs[3], "12/3")
	equal(t, k.ask(`{"do":"limit","ns":"a","blocks":5000,"inodes":5000,"id":1}`), `{"answer":{"error":"NotAllowed","from":"door"},"id":1}`)
	for _, line := range []string{`{"do":"namespace_create","ns":"new","blocks":1,"inodes":1}`, `{"do":"namespace_remove","ns":"b"}`} {
		equal(t, k.ask(line), `{"error":"NotAllowed","from":"door"}`)
	}
	answer := k.ask(`{"do":"charge","ns":"a","key":"put","need":[5000,1],"id":2}`)
	if !strings.HasPrefix(answer, `{"answer":{"error":"OverLimit","free":[`) || !strings.HasSuffix(answer, `],"from":"cluster","words":"no \"room\""},"id":2}`) {
		t.Error(answer)
	}
	store := h.client(t)
	_, err := store.Charge(ctx, "a", "put", pibroulez.Usage{Blocks: 5000})
	var refusal *pibroulez.Refusal
	if !errors.As(err, &refusal) || refusal.Reason != pibroulez.ErrOverLimit || refusal.From != "cluster" {
		t.Error(err)
	}
	// What is no command, of no namespace or of a sealed snapshot is answered as ever.
	for line, want := range map[string]string{
		`{"do":"mkdir","ns":"a","key":"put","path":5}`:            `{"fault":"bad field path: a path is wanted, a number is there","line":`,
		`{"do":"mkdir","ns":"none","key":"put","path":"/x"}`:      `{"error":"NoNamespace","from":"book","of":"ns"}`,
		`{"do":"mkdir","ns":"a","key":"none","path":"/x"}`:        `{"error":"NotFound","from":"book","of":"key"}`,
		`{"do":"write","ns":"a","key":"put","path":"","text":""}`: `{"error":"BadPath","from":"file","of":"path"}`,
	} {
		if answer := k.ask(line); !strings.HasPrefix(answer, want) {
			t.Errorf("%s: %s, not %s", line, answer, want)
		}
	}
}

// The most that each line may charge.
func TestNeeds(t *testing.T) {
	h := newHouse(t, nil)
	k := h.talk(t)
	k.ask(`{"do":"prepare","ns":"a","key":"k","parent":""}`)
	k.ask(`{"do":"put","ns":"a","key":"k","path":"/f","size":8193}`)
	c := &connection{door: h.Door, ctx: ctx}
	for line, want := range map[string]string{
		`{"do":"prepare"}`:                                               "1/1",
		`{"do":"charge","need":[5,7]}`:                                   "5/7",
		`{"do":"batch","need":[5,7],"ops":[]}`:                           "5/7",
		`{"do":"mkdir","path":"/a/b"}`:                                   "2/2",
		`{"do":"create","path":"/a/b/c"}`:                                "2/3",
		`{"do":"put","path":"/a","size":4097}`:                           "2/1",
		`{"do":"put","path":"/a","size":18446744073709551615}`:           "0/1",
		`{"do":"write","ns":"a","key":"k","path":"/f","text":"x"}`:       "3/1",
		`{"do":"write","ns":"a","key":"k","path":"/g","fill":[0,12289]}`: "4/1",
		`{"do":"truncate","path":"/f","size":0}`:                         "0/1",
		`{"do":"setmode","ns":"a","key":"k","path":"/f"}`:                "3/1",
		`{"do":"setmode","ns":"a","key":"k","path":"/"}`:                 "1/1",
		`{"do":"symlink","path":"/s"}`:                                   "0/1",
		`{"do":"link","ns":"a","key":"k","from":"/f","to":"/a/b"}`:       "4/3",
		`{"do":"rename","ns":"a","key":"k","from":"/f","to":"/a/b"}`:     "4/3",
		`{"do":"unlink","path":"/a/f"}`:                                  "1/2",
		`{"do":"opaque","path":"/a/f"}`:                                  "2/2",
		`{"do":"mkdir","path":5}`:                                        "0/0",
	} {
		var members map[string]json.RawMessage
		granted(t, json.Unmarshal([]byte(line), &members))
		var do string
		granted(t, json.Unmarshal(members["do"], &do))
		delete(members, "do")
		if need := c.needOf(pibroulez.Line{Do: do, Members: members}); need.String() != want {
			t.Errorf("%s: %v, not %s", line, need, want)
		}
	}
}

package main

import (
	"encoding/json"
	"path/filepath"
	"strings"
	"testing"

	"pibroulez.example/pibroulez"
	"pibroulez.example/pibroulez/pibroulezd/door"
)

// The lines that it prints, one by one or as one value, make the store, also where its log is asked. A role that may not
// save prints nothing.
func TestSave(t *testing.T) {
	h := newHouse(t)
	isStore := func(lines string) {
		t.Helper()
		log := filepath.Join(t.TempDir(), "log")
		store, err := pibroulez.Restore(ctx, program(), log, strings.NewReader(lines))
		granted(t, err)
		for _, tenant := range []string{"a", "b\n"} {
			nodes, err := store.Tree(ctx, tenant)
			granted(t, err)
			want, err := h.store.Tree(ctx, tenant)
			granted(t, err)
			equal(t, nodes, want)
		}
		granted(t, store.Close())
		var printed, said strings.Builder
		if status := run(ctx, []string{"log-save", log, "--program", program()}, &printed, &said); status != 0 {
			t.Errorf("%d, %s", status, said.String())
		}
		// Session 0 is an entry, so the first line alone is another one.
		_, rest, _ := strings.Cut(lines, "\n")
		_, again, _ := strings.Cut(printed.String(), "\n")
		equal(t, again, rest)
	}
	out, errs, status := h.run(t, "save")
	if errs != "" || status != 0 {
		t.Fatal(errs, status)
	}
	isStore(out)
	value, _, _ := h.run(t, "--json", "save")
	var lines []json.RawMessage
	granted(t, json.Unmarshal([]byte(value), &lines))
	var all strings.Builder
	for _, line := range lines {
		all.Write(line)
		all.WriteByte('\n')
	}
	equal(t, all.String(), out)
	for _, rights := range []door.Rights{{IsQuota: true}, {Namespaces: map[string]bool{"a": true}}} {
		h.rights = rights
		out, errs, status := h.run(t, "save")
		equal(t, []any{out, errs, status}, []any{"", "pibroulez: save: NotAllowed (from door)\n", 1})
	}
}

package main

import (
	"encoding/json"
	"os"
	"path/filepath"
	"strings"
	"testing"

	"pibroulez.example/pibroulez"
)

// An audit tells what the ledger, the directory and the file system have of a snapshot, and each path that makes a difference.
func TestAudit(t *testing.T) {
	h := newHouse(t)
	root := t.TempDir()
	granted(t, h.store.Limit(ctx, "a", usage(1000, 100)))
	made, err := h.store.Prepare(ctx, "a", "audited", "base")
	granted(t, err)
	equal(t, made.ID, uint64(5))
	at := func(path string) string { return filepath.Join(root, "snapshots/5/fs", path) }
	granted(t, os.MkdirAll(at("d"), 0o755))
	granted(t, os.WriteFile(at("d/same"), make([]byte, 4096), 0o600))
	granted(t, os.WriteFile(at("d/longer"), make([]byte, 4096), 0o600))
	granted(t, os.WriteFile(at("d/sparse"), nil, 0o600))
	granted(t, os.Truncate(at("d/sparse"), 1<<20))
	granted(t, os.WriteFile(at("\x1b[31m"), nil, 0o600))
	for _, it := range []error{
		second(h.store.Mkdir(ctx, "a", "audited", "/d")), second(h.store.Put(ctx, "a", "audited", "/d/same", 4096)),
		second(h.store.Put(ctx, "a", "audited", "/d/longer", 4097)), second(h.store.Put(ctx, "a", "audited", "/d/sparse", 1<<20)),
		second(h.store.Put(ctx, "a", "audited", "/gone", 1)), second(h.store.Whiteout(ctx, "a", "audited", "/file")),
	} {
		granted(t, it)
	}
	out, errs, status := h.run(t, "--json", "audit", "a", "audited", "--root", root)
	equal(t, status, 0)
	equal(t, errs, "")
	var got audited
	granted(t, json.Unmarshal([]byte(out), &got))
	// The ledger has the root, d, files of 1, 2, 256 and 1 blocks, and a whiteout. The directory has 1, 1 and 256, and an empty file.
	equal(t, got.Ledger, usage(2+1+2+256+1, 2+4+1))
	equal(t, got.Scan, usage(2+1+1+256, 2+4))
	equal(t, got.FileSystem.Inodes, uint64(6))
	why := map[string]string{}
	for _, it := range got.Differences {
		why[it.Path] = it.Why
	}
	delete(why, "/d")
	equal(t, why, map[string]string{
		"/d/longer": "changed since it was charged", "/d/sparse": "sparse or compressed", "/\x1b[31m": "not in the ledger",
		"/file": "in the ledger alone", "/gone": "in the ledger alone",
	})
	for _, it := range got.Differences {
		if it.Path == "/d/longer" {
			equal(t, *it.Ledger, usage(2, 1))
			equal(t, *it.Scan, usage(1, 1))
		}
	}
	out, _, _ = h.run(t, "audit", "a", "audited", "--root", root)
	for _, want := range []string{
		"ACCOUNT      BLOCKS  INODES\n", "\nledger          262       7\n", "\ndirectory       260       6\n",
		"\n/d/longer: ledger 2/1, directory 1/1, file system 1/1: changed since it was charged\n",
		"\n\"/\\x1b[31m\": ledger -, directory 0/1, file system 0/1: not in the ledger\n", "\n/gone: ledger -, directory -, file system -: in the ledger alone\n",
	} {
		if !strings.Contains(out, want) {
			t.Errorf("no %q in %s", want, out)
		}
	}
	for _, it := range []struct{ key, want string }{{"v", "v is a view"}, {"none", "NotFound"}, {"k", "NotFound"}, {"unused", "no such file"}} {
		_, errs, status := h.run(t, "audit", "a", it.key, "--root", root)
		if status != failed || !strings.Contains(errs, it.want) {
			t.Errorf("%s: %d, %s", it.key, status, errs)
		}
	}
}

func second(_ pibroulez.Changed, err error) error { return err }

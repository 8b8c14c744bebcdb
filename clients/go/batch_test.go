package pibroulez

import (
	"archive/tar"
	"bytes"
	"errors"
	"testing"

	"pibroulez.example/pibroulez/layer"
)

// The third and fourth answers of examples/files/batch, and a charge of 6/5 where the limit is 5/4.
func TestBatch(t *testing.T) {
	store := newStore(t, Usage{5, 4})
	must[Prepared](t)(store.Prepare(ctx, "a", "k", ""))
	made := []Operation{MkdirOf("/d", 0o755), CreateOf("/d/f", 0o644), WriteFillOf("/d/f", 0, 120, 5000)}
	equal(t, must[Batched](t)(store.Batch(ctx, "a", "k", Usage{5, 4}, made)), Batched{3, Usage{4, 3}, Usage{5, 4}})
	batch, err := store.Batch(ctx, "a", "k", Usage{5, 4}, []Operation{SymlinkOf("/l", "d"), made[0], made[0]})
	equal(t, batch, Batched{1, Usage{4, 4}, Usage{5, 4}})
	var refused *OperationRefused
	if !errors.As(err, &refused) || refused.Number != 2 || !errors.Is(err, ErrExists) || refused.Why.From != "file" {
		t.Error(err)
	}
	refusal := new(Refusal)
	if _, err = store.Batch(ctx, "a", "k", Usage{6, 5}, made); !errors.As(err, &refusal) || errors.As(err, &refused) {
		t.Error(err)
	}
	equal(t, refusal.Reason, ErrOverLimit)
	fault := new(Fault)
	if _, err = store.Batch(ctx, "a", "k", Usage{5, 4}, []Operation{MkdirOf("d", 0o755)}); !errors.As(err, &fault) {
		t.Error(err)
	}
	if _, err = store.Batch(ctx, "a", "k", Usage{5, 4}, []Operation{{"mkdir", fields{"do": "x"}}}); !errors.Is(err, ErrReserved) {
		t.Error(err)
	}
	equal(t, must[[]string](t)(store.List(ctx, "a", "k", "/")), []string{"d", "l"})
}

// The answers of examples/files/whole-batch: the third operation is refused, and the layer is as it was.
func TestWholeBatch(t *testing.T) {
	store := newStore(t, Usage{20, 10})
	must[Prepared](t)(store.Prepare(ctx, "a", "k", ""))
	must[Batched](t)(store.Batch(ctx, "a", "k", Usage{5, 4}, []Operation{MkdirOf("/d", 0o755), CreateOf("/d/f", 0o644), WriteFillOf("/d/f", 0, 120, 5000)}))
	made := []Operation{RenameOf("/d/f", "/g"), WriteFillOf("/g", 5000, 120, 5000), RmdirOf("/none"), UnlinkOf("/g")}
	batch, err := store.Batch(ctx, "a", "k", Usage{5, 4}, made, WithWhole())
	equal(t, batch, Batched{0, Usage{4, 3}, Usage{5, 4}})
	var refused *OperationRefused
	if !errors.As(err, &refused) || refused.Number != 3 || !errors.Is(err, ErrNotFound) {
		t.Error(err)
	}
	equal(t, must[[]string](t)(store.List(ctx, "a", "k", "/")), []string{"d"})
	made[2] = RmdirOf("/d")
	equal(t, must[Batched](t)(store.Batch(ctx, "a", "k", Usage{5, 4}, made, WithWhole())), Batched{4, Usage{1, 1}, Usage{5, 4}})
	_, err = store.Mkdir(ctx, "a", "k", "/d", WithWhole())
	isError(t, err, ErrOption)
}

// Each maker of an operation, over a layer: the sums are the counts of what stands after them.
func TestOperations(t *testing.T) {
	store := newStore(t, Usage{100, 100})
	must[Prepared](t)(store.Prepare(ctx, "a", "k", ""))
	// The root, two directories 3/3, and two empty files under three names 0/2; the file of one block 1/1, one of 8 by put
	// 8/1, and a symlink 0/1.
	equal(t, must[Batched](t)(store.Batch(ctx, "a", "k", Usage{}, []Operation{
		MkdirOf("/d", 0o700), MkdirOf("/e", 0o700), CreateOf("/d/a", 0o600), CreateOf("/d/b", 0o600), LinkOf("/d/a", "/a"),
		CreateOf("/c", 0o600), WriteTextOf("/c", 2, "hi"), PutOf("/p", 0o600, 32768, "x"), SymlinkOf("/s", "d"),
	})), Batched{9, Usage{12, 8}, Usage{12, 8}})
	must[Committed](t)(store.Commit(ctx, "a", "k", "base"))
	must[Prepared](t)(store.Prepare(ctx, "a", "k", "base"))
	// The root and the directory /d 2/2, with whiteouts of /d/a and /e, of /s and /a; /c of 2 blocks as /c2, with a whiteout
	// in its place, and the copy of /p.
	equal(t, must[Batched](t)(store.Batch(ctx, "a", "k", Usage{}, []Operation{
		UnlinkOf("/d/a"), RmdirOf("/e"), WhiteoutOf("/s"), WhiteoutOf("/a"), RenameOf("/c", "/c2"), TruncateOf("/c2", 5000),
		SetmodeOf("/p", 0o640), WriteFillOf("/c2", 0, 1, 2),
	})), Batched{8, Usage{12, 9}, Usage{12, 9}})
	equal(t, must[[]string](t)(store.List(ctx, "a", "k", "/d")), []string{"b"})
	must[Batched](t)(store.Batch(ctx, "a", "k", Usage{}, []Operation{OpaqueOf("/d")}))
	equal(t, must[[]string](t)(store.List(ctx, "a", "k", "/d")), []string{})
}

// An operation that finds the journal full is not made once more in the next round: those before it are done. The journal has
// room for the session, the prepare, the charge and the discard.
func TestFullJournalInABatch(t *testing.T) {
	store := newStoreOf(t, Config{Program: program(), Root: "/r", Namespaces: map[string]Usage{"a": {9, 9}}, Journal: 4})
	store.RollWhenFull(4)
	must[Prepared](t)(store.Prepare(ctx, "a", "k", ""))
	batch, err := store.Batch(ctx, "a", "k", Usage{2, 2}, []Operation{MkdirOf("/d", 0o755), MkdirOf("/e", 0o755)})
	if !errors.Is(err, ErrJournalFull) {
		t.Error(err)
	}
	equal(t, batch, Batched{1, Usage{2, 2}, Usage{2, 2}})
}

func TestUnpack(t *testing.T) {
	store := newStore(t, Usage{100, 100})
	must[Prepared](t)(store.Prepare(ctx, "a", "k", ""))
	// The root and a directory 2/2, a file of two names of 3 bytes 1/1, and a symlink.
	made := must[Unpacked](t)(store.Unpack(ctx, "a", "k", archive(t,
		&tar.Header{Name: "d", Typeflag: tar.TypeDir, Mode: 0o755}, &tar.Header{Name: "d/f", Size: 3},
		&tar.Header{Name: "g", Typeflag: tar.TypeLink, Linkname: "d/f"}, &tar.Header{Name: "l", Typeflag: tar.TypeSymlink, Linkname: "d"},
		&tar.Header{Name: "p", Typeflag: tar.TypeFifo})))
	equal(t, made, Unpacked{Usage{3, 4}, Usage{3, 4}, map[string]int{"pipes": 1}})
	must[Committed](t)(store.Commit(ctx, "a", "k", "base"))
	must[Prepared](t)(store.Prepare(ctx, "a", "k", "base"))
	// The root and the directory 2/2, in it a whiteout, and an empty file.
	made = must[Unpacked](t)(store.Unpack(ctx, "a", "k", archive(t, &tar.Header{Name: "d/.wh.f"}, &tar.Header{Name: "l/n"})))
	equal(t, made, Unpacked{Usage{2, 4}, Usage{2, 4}, map[string]int{}})
	equal(t, must[[]string](t)(store.List(ctx, "a", "k", "/d")), []string{"n"})
	if _, err := store.Unpack(ctx, "a", "k", archive(t)); !errors.Is(err, ErrNotEmpty) {
		t.Error(err)
	}
	must[Prepared](t)(store.Prepare(ctx, "a", "n", "base"))
	if _, err := store.Unpack(ctx, "a", "n", bytes.NewReader([]byte("x"))); !errors.Is(err, layer.ErrUnreadable) {
		t.Error(err)
	}
}

// A batch has at most 1,000 operations, so a layer of 2,500 files and 2 directories has three, and an entry for each beside
// the one of the charge that tells the count, the session and the prepare.
func TestManyFiles(t *testing.T) {
	store := newStore(t, Usage{3000, 3000})
	must[Prepared](t)(store.Prepare(ctx, "a", "k", ""))
	var headers []*tar.Header
	for i := 0; i < 2500; i++ {
		headers = append(headers, &tar.Header{Name: "d/e/" + string(rune('a'+i%26)) + string(rune('a'+i/26%26)) + string(rune('a'+i/676)), Size: 1})
	}
	made := must[Unpacked](t)(store.Unpack(ctx, "a", "k", archive(t, headers...)))
	equal(t, made.Count, Usage{2503, 2503})
	report := must[Report](t)(store.Report(ctx))
	equal(t, report.Entries, uint64(6))
}

func archive(t *testing.T, headers ...*tar.Header) *bytes.Buffer {
	t.Helper()
	made := new(bytes.Buffer)
	w := tar.NewWriter(made)
	for _, it := range headers {
		if it.Typeflag == 0 {
			it.Typeflag, it.Mode = tar.TypeReg, 0o644
		}
		granted(t, w.WriteHeader(it))
		if _, err := w.Write(make([]byte, it.Size)); err != nil {
			t.Fatal(err)
		}
	}
	granted(t, w.Close())
	return made
}

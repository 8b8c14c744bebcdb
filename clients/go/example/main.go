// A snapshot gets a file of 5000 bytes, and is committed: it takes its root's block and two of the file, and an inode for
// each. Its key is free then.
//
//	go run ./example [PROGRAM]
package main

import (
	"context"
	"errors"
	"fmt"
	"io"
	"log"
	"os"

	"pibroulez.example/pibroulez"
)

func main() {
	program := "../../crates/snap_replay/out/snap_replay"
	if len(os.Args) > 1 {
		program = os.Args[1]
	}
	if err := run(context.Background(), os.Stdout, program); err != nil {
		log.Fatal(err)
	}
}

func run(ctx context.Context, out io.Writer, program string) error {
	store, err := pibroulez.New(ctx, pibroulez.Config{
		Program:    program,
		Root:       "/r",
		Namespaces: map[string]pibroulez.Usage{"a": {Blocks: 100, Inodes: 100}},
	})
	if err != nil {
		return err
	}
	defer store.Close()
	if _, err := store.Prepare(ctx, "a", "k", ""); err != nil {
		return err
	}
	if _, err := store.Create(ctx, "a", "k", "/file"); err != nil {
		return err
	}
	if _, err := store.WriteFill(ctx, "a", "k", "/file", 0, 'x', 5000); err != nil {
		return err
	}
	committed, err := store.Commit(ctx, "a", "k", "base")
	if err != nil {
		return err
	}
	fmt.Fprintln(out, committed.Usage)
	_, err = store.Stat(ctx, "a", "k")
	if !errors.Is(err, pibroulez.ErrNotFound) {
		return err
	}
	fmt.Fprintln(out, err)
	return nil
}

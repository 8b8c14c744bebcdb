package main

import (
	"bytes"
	"context"
	"os"
	"testing"
)

func TestRun(t *testing.T) {
	program := os.Getenv("PIBROULEZ_PROGRAM")
	if program == "" {
		program = "../../../crates/snap_replay/out/snap_replay"
	}
	var out bytes.Buffer
	if err := run(context.Background(), &out, program); err != nil {
		t.Fatal(err)
	}
	if want := "3/2\nstat: NotFound (from book)\n"; out.String() != want {
		t.Errorf("%q, not %q", out.String(), want)
	}
}

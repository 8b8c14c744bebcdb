package main

import (
	"io"
	"os"
	"path/filepath"
	"strings"
	"testing"
	"time"
)

// What comes to a terminal up to a text.
func readUntil(t *testing.T, keys *os.File, text string) string {
	t.Helper()
	all, part := "", make([]byte, 1024)
	for !strings.Contains(all, text) {
		granted(t, keys.SetReadDeadline(time.Now().Add(time.Minute)))
		count, err := keys.Read(part)
		granted(t, err)
		all += string(part[:count])
	}
	before, _, _ := strings.Cut(all, text)
	return before
}

// A terminal is told how far a command is that takes long, and has nothing of that where it has ended.
func TestProgress(t *testing.T) {
	keys, shown := openTerminal(t)
	defer keys.Close()
	defer shown.Close()
	progressEach = 10 * time.Millisecond
	defer func() { progressEach = time.Second }()
	told, end := withProgress(ctx, "journal", shown)
	hasRead(told, 5)
	hasRead(told, 2)
	readUntil(t, keys, clearLine+"journal: 0 s, 7 read")
	end()
	io.WriteString(shown, "ended")
	if last := readUntil(t, keys, "ended"); !strings.HasSuffix(last, clearLine) {
		t.Errorf("%q is left", last)
	}
	equal(t, progressWords("check", 61*time.Second, 0), "check: 61 s")
}

// What is no terminal is told nothing, and neither is one of a command that ends within a second.
func TestNoProgress(t *testing.T) {
	path := filepath.Join(t.TempDir(), "errors")
	file, err := os.Create(path)
	granted(t, err)
	defer file.Close()
	for _, errs := range []io.Writer{new(strings.Builder), file} {
		told, end := withProgress(ctx, "journal", errs)
		hasRead(told, 1)
		end()
		equal(t, told, ctx)
	}
	progressEach = time.Hour
	defer func() { progressEach = time.Second }()
	keys, shown := openTerminal(t)
	defer keys.Close()
	defer shown.Close()
	var printed strings.Builder
	equal(t, run(ctx, []string{"--socket", newHouse(t).socket, "check"}, &printed, shown), 0)
	io.WriteString(shown, "ended")
	equal(t, readUntil(t, keys, "ended"), "")
}

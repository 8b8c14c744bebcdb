package main

import (
	"context"
	"fmt"
	"io"
	"os"
	"sync/atomic"
	"time"
)

// How long a command says nothing, and how often it tells after that how far it is.
var progressEach = time.Second

// Takes away what stands in the line of a terminal.
const clearLine = "\r\x1b[K"

type progressKey struct{}

// Takes note of how much a command has read.
func hasRead(ctx context.Context, number int) {
	if it, isTold := ctx.Value(progressKey{}).(*atomic.Uint64); isTold {
		it.Add(uint64(number))
	}
}

// Has a terminal told how far a command is, until end is called, which takes the words away again.
func withProgress(ctx context.Context, name string, errs io.Writer) (told context.Context, end func()) {
	if !isTerminal(errs) {
		return ctx, func() {}
	}
	number, ending, ended := new(atomic.Uint64), make(chan struct{}), make(chan struct{})
	began := time.Now()
	go func() {
		defer close(ended)
		ticks := time.NewTicker(progressEach)
		defer ticks.Stop()
		for after := ""; ; after = clearLine {
			select {
			case <-ticks.C:
				io.WriteString(errs, clearLine+progressWords(name, time.Since(began), number.Load()))
			case <-ending:
				io.WriteString(errs, after)
				return
			}
		}
	}()
	return context.WithValue(ctx, progressKey{}, number), func() {
		close(ending)
		<-ended
	}
}

func progressWords(name string, took time.Duration, number uint64) string {
	words := fmt.Sprintf("%s: %.0f s", name, took.Seconds())
	if number > 0 {
		words += fmt.Sprintf(", %d read", number)
	}
	return words
}

func isTerminal(it io.Writer) bool {
	file, isFile := it.(*os.File)
	if !isFile {
		return false
	}
	info, err := file.Stat()
	return err == nil && info.Mode()&os.ModeCharDevice != 0
}

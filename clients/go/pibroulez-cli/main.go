// The operator's command over the socket of a daemon. `--help` tells its commands and statuses.
package main

import (
	"context"
	"errors"
	"flag"
	"fmt"
	"io"
	"os"
	"os/signal"
	"strconv"
	"strings"
	"syscall"

	"pibroulez.example/pibroulez"
)

// The version is that of snap_replay.
const version = "0.2.0"

// Statuses.
const (
	failed     = 1
	wrongWords = 2
)

// The words of a command line.
type words struct {
	socket string
	isJSON bool
	last   uint64
	isFull bool
	isTry  bool
	root   string
	// The program that carries out the lines of logs.
	program string
	etcd    etcdWords
	// Whether the operator says that a store's data are destroyed.
	isDestroyed bool
	// Whether the operator says that all stores have registered.
	areRegistered bool
	// What isn't an option: the command first.
	rest []string
	// What is to be told instead, or empty.
	told string
}

// A command that calls the daemon's store.
func onStore(do func(context.Context, *pibroulez.Store, words) (answer, error)) func(context.Context, words) (answer, error) {
	return func(ctx context.Context, given words) (answer, error) {
		store, err := pibroulez.New(ctx, pibroulez.Config{Socket: given.socket})
		if err != nil {
			return answer{}, err
		}
		defer store.Close()
		return do(ctx, store, given)
	}
}

var errWords = errors.New("wrong words")

func main() {
	ctx, stop := signal.NotifyContext(context.Background(), syscall.SIGINT, syscall.SIGTERM)
	defer stop()
	os.Exit(run(ctx, os.Args[1:], os.Stdout, os.Stderr))
}

// Carries out the words, and answers the status.
func run(ctx context.Context, args []string, out, errs io.Writer) int {
	given, err := read(args)
	if err == nil && given.told != "" {
		_, err = io.WriteString(out, given.told)
	} else if err == nil {
		err = do(ctx, given, out, errs)
	}
	if err == nil {
		return 0
	}
	fmt.Fprintf(errs, "pibroulez: %v\n", err)
	if errors.Is(err, errWords) {
		fmt.Fprintln(errs, "see --help")
		return wrongWords
	}
	return failed
}

// Makes the calls of a command, and prints what they are answered. A terminal is told how far it is.
func do(ctx context.Context, given words, out, errs io.Writer) error {
	command, _ := commandOf(given.rest[0])
	told, end := withProgress(ctx, command.name, errs)
	it, err := command.run(told, given)
	end()
	if err != nil {
		return err
	}
	if given.isJSON {
		err = printJSON(out, it.value)
	} else {
		err = it.print(out)
	}
	if err == nil {
		err = it.fault
	}
	return err
}

// Options may stand anywhere before `--`.
func read(args []string) (words, error) {
	given := words{}
	var tellsVersion bool
	flags := flag.NewFlagSet("pibroulez", flag.ContinueOnError)
	flags.SetOutput(io.Discard)
	flags.StringVar(&given.socket, "socket", "/run/pibroulez/lines.sock", "")
	flags.BoolVar(&given.isJSON, "json", false, "")
	flags.Uint64Var(&given.last, "last", 20, "")
	flags.BoolVar(&given.isFull, "full", false, "")
	flags.BoolVar(&given.isTry, "try", false, "")
	flags.StringVar(&given.root, "root", "/var/lib/pibroulez", "")
	flags.StringVar(&given.program, "program", "snap_replay", "")
	flags.BoolVar(&given.isDestroyed, "data-destroyed", false, "")
	flags.BoolVar(&given.areRegistered, "all-registered", false, "")
	given.etcd.define(flags)
	flags.BoolVar(&tellsVersion, "version", false, "")
	before, after := args, []string(nil)
	for i, it := range args {
		if it == "--" {
			before, after = args[:i], args[i+1:]
			break
		}
	}
	for {
		if err := flags.Parse(before); errors.Is(err, flag.ErrHelp) {
			return words{told: helpOf()}, nil
		} else if err != nil {
			return words{}, fmt.Errorf("%w: %v", errWords, err)
		}
		if before = flags.Args(); len(before) == 0 {
			break
		}
		given.rest, before = append(given.rest, before[0]), before[1:]
	}
	given.rest = append(given.rest, after...)
	if len(given.rest) > 1 && given.rest[0] == "cluster" {
		given.rest = append([]string{"cluster " + given.rest[1]}, given.rest[2:]...)
	}
	if tellsVersion {
		return words{told: "pibroulez " + version + "\n"}, nil
	}
	return given, given.check(flags)
}

// Whether there is such a command, with this number of words and these options.
func (w words) check(flags *flag.FlagSet) error {
	if len(w.rest) == 0 {
		return fmt.Errorf("%w: no command", errWords)
	}
	it, isThere := commandOf(w.rest[0])
	if !isThere {
		return fmt.Errorf("%w: no such command: %q", errWords, w.rest[0])
	}
	least, most := it.counts()
	if count := len(w.rest) - 1; count < least || count > most {
		return fmt.Errorf("%w: %s has %d to %d words, and %d are given", errWords, w.rest[0], least, most, count)
	}
	isOwn := map[string]bool{}
	for _, name := range it.options() {
		isOwn[name] = true
	}
	var err error
	flags.Visit(func(given *flag.Flag) {
		if !isOwn[given.Name] {
			err = fmt.Errorf("%w: %s has no option --%s", errWords, w.rest[0], given.Name)
		}
	})
	return err
}

// A usage as it is told.
func usageOf(text string) (pibroulez.Usage, error) {
	blocks, inodes, isPair := strings.Cut(text, "/")
	b, errOfBlocks := strconv.ParseUint(blocks, 10, 64)
	i, errOfInodes := strconv.ParseUint(inodes, 10, 64)
	if !isPair || errOfBlocks != nil || errOfInodes != nil {
		return pibroulez.Usage{}, fmt.Errorf("%w: %q is no BLOCKS/INODES", errWords, text)
	}
	return pibroulez.Usage{Blocks: b, Inodes: i}, nil
}

// A proxy plugin of containerd: the snapshotter behind a socket. `--help` tells its options and statuses.
package main

import (
	"context"
	"errors"
	"flag"
	"fmt"
	"io"
	"os"
	"os/signal"
	"syscall"

	"github.com/containerd/containerd/log"
	"github.com/sirupsen/logrus"

	"pibroulez.example/pibroulez/containerd"
)

// The version is that of snap_replay.
const version = "0.2.0"

const help = `usage: pibroulez-proxy [--program PATH] [--root FOLDER] [--socket PATH] [--checkpoint N] [--log-level LEVEL]

Serves a snapshotter to containerd, as a proxy plugin of type "snapshot" with the socket as its address. It ends at
SIGTERM or SIGINT, once what has been asked for by then is answered.

  --program PATH     snap_replay, which keeps the store; without a / it is looked up in PATH (snap_replay)
  --root FOLDER      where the snapshots are kept, for one process at a time; it is made (/var/lib/pibroulez)
  --socket PATH      where containerd asks, of mode 0660; its folder is made, of mode 0700 (/run/pibroulez/proxy.sock)
  --checkpoint N     makes the log short where it has grown to so many times what it had behind the last checkpoint, of at
                     least 1 MiB; 0 never (4)
  --log-level LEVEL  what is told on standard error: error, warn, info, debug with a line for each call (info)
  --help, --version  tell, and end

Statuses:
  0  it was to end
  1  it could not begin, or the socket failed; standard error says why
  2  its words are wrong
  3  the store's process has ended, so that whoever has started this one can start it anew
`

// Statuses.
const (
	failed     = 1
	wrongWords = 2
	storeEnded = 3
)

// What the words on the command line say.
type words struct {
	config containerd.Config
	socket string
	level  logrus.Level
	// What is to be told instead of serving, or empty.
	told string
}

func main() {
	given, err := read(os.Args[1:])
	if err != nil {
		fmt.Fprintf(os.Stderr, "pibroulez-proxy: %v; see --help\n", err)
		os.Exit(wrongWords)
	}
	if given.told != "" {
		fmt.Print(given.told)
		return
	}
	logrus.SetLevel(given.level)
	logrus.SetFormatter(&logrus.TextFormatter{FullTimestamp: true, TimestampFormat: log.RFC3339NanoFixed})
	ctx, stop := signal.NotifyContext(context.Background(), syscall.SIGTERM, syscall.SIGINT)
	defer stop()
	os.Exit(statusOf(serve(ctx, given.config, given.socket)))
}

// The status of what has ended the serving, after a line that says it.
func statusOf(err error) int {
	if err == nil {
		return 0
	}
	log.L.Error(err)
	if errors.Is(err, errStoreEnded) {
		return storeEnded
	}
	return failed
}

func read(args []string) (words, error) {
	var given words
	var level string
	var tellsVersion bool
	flags := flag.NewFlagSet("pibroulez-proxy", flag.ContinueOnError)
	flags.SetOutput(io.Discard)
	flags.StringVar(&given.config.Program, "program", "snap_replay", "")
	flags.StringVar(&given.config.Root, "root", "/var/lib/pibroulez", "")
	flags.StringVar(&given.socket, "socket", "/run/pibroulez/proxy.sock", "")
	flags.Uint64Var(&given.config.Checkpoint, "checkpoint", 4, "")
	flags.StringVar(&level, "log-level", "info", "")
	flags.BoolVar(&tellsVersion, "version", false, "")
	err := flags.Parse(args)
	if errors.Is(err, flag.ErrHelp) {
		return words{told: help}, nil
	}
	if err != nil {
		return words{}, err
	}
	if flags.NArg() > 0 {
		return words{}, fmt.Errorf("unknown word %q", flags.Arg(0))
	}
	if tellsVersion {
		return words{told: "pibroulez-proxy " + version + "\n"}, nil
	}
	given.level, err = logrus.ParseLevel(level)
	return given, err
}

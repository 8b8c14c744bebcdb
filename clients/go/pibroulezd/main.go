// A daemon over one store: `--help` tells its options and statuses, and README.md what it does.
package main

import (
	"context"
	"errors"
	"flag"
	"fmt"
	"io"
	"os"
	"os/signal"
	"syscall"

	"github.com/sirupsen/logrus"

	"pibroulez.example/pibroulez"
	"pibroulez.example/pibroulez/pibroulezd/configuration"
)

// The version is that of snap_replay.
const version = "0.2.0"

const help = `usage: pibroulezd [--config FILE] [--check] [--log-level LEVEL]

Keeps a store by a process of its own, and serves it to others as the file says. At SIGHUP it reads the file again. It ends
at SIGTERM or SIGINT, once what has been asked for by then is answered, and where its store ends.

  --config FILE      what it is to do, in TOML (/etc/pibroulez/pibroulezd.toml)
  --check            tells each fault of the file by its line and key, and ends
  --log-level LEVEL  what is told on standard error: error, warn, info, debug (info)
  --help, --version  tell, and end

Statuses:
  0  it was to end, or the file has no fault
  1  it could not begin, a socket failed, or the file has faults; standard error says why
  2  its words are wrong
  3  the store's process has ended, so that whoever has started this one can start it anew
  4  the store must not go on: its cluster has forgotten it, its log is an old one, or a copy of it runs; to start it anew
     changes nothing
  6  another process has the store's log
  7  the file is no log, or a damaged one; to start it anew changes nothing
  8  a sync of the log failed, so that the store has ended; a new start knows what the log has
`

// Statuses.
const (
	failed       = 1
	wrongWords   = 2
	storeEnded   = 3
	outOfCluster = 4
	// Those of a log are those of the store's process, in docs/SCRIPT.md.
	busyLog   = 6
	badLog    = 7
	failedLog = 8
)

// What the words on the command line say.
type words struct {
	path   string
	checks bool
	level  logrus.Level
	// What is to be told instead of serving, or empty.
	told string
}

func main() {
	given, err := read(os.Args[1:])
	if err != nil {
		fmt.Fprintf(os.Stderr, "pibroulezd: %v; see --help\n", err)
		os.Exit(wrongWords)
	}
	switch {
	case given.told != "":
		fmt.Print(given.told)
	case given.checks:
		if _, err := configuration.Read(given.path); err != nil {
			fmt.Fprintln(os.Stderr, err)
			os.Exit(failed)
		}
	default:
		os.Exit(run(given))
	}
}

// Serves until a signal, and answers the status.
func run(given words) int {
	// containerd's packages write to this one too.
	log := logrus.StandardLogger()
	log.SetLevel(given.level)
	log.SetFormatter(&logrus.TextFormatter{FullTimestamp: true, DisableColors: true})
	ctx, stop := signal.NotifyContext(context.Background(), syscall.SIGTERM, syscall.SIGINT)
	defer stop()
	hangups := make(chan os.Signal, 1)
	signal.Notify(hangups, syscall.SIGHUP)
	err := serve(ctx, log, given.path, hangups)
	if err == nil {
		log.Info("ended")
		return 0
	}
	log.Error(err)
	return statusOf(err)
}

// The status of a daemon that has ended of an error.
func statusOf(err error) int {
	switch {
	case errors.Is(err, pibroulez.ErrLogFailed):
		return failedLog
	case errors.As(err, new(*pibroulez.BadLog)):
		return badLog
	case errors.Is(err, errStoreEnded):
		return storeEnded
	case errors.Is(err, errOutOfCluster):
		return outOfCluster
	case errors.Is(err, syscall.EWOULDBLOCK):
		return busyLog
	}
	return failed
}

func read(args []string) (words, error) {
	var given words
	var level string
	var tellsVersion bool
	flags := flag.NewFlagSet("pibroulezd", flag.ContinueOnError)
	flags.SetOutput(io.Discard)
	flags.StringVar(&given.path, "config", "/etc/pibroulez/pibroulezd.toml", "")
	flags.BoolVar(&given.checks, "check", false, "")
	flags.StringVar(&level, "log-level", "info", "")
	flags.BoolVar(&tellsVersion, "version", false, "")
	err := flags.Parse(args)
	if errors.Is(err, flag.ErrHelp) {
		return words{told: help}, nil
	}
	if err != nil {
		return words{}, err
	}
	if flags.NArg() > 0 {
		return words{}, fmt.Errorf("unknown word %q", flags.Arg(0))
	}
	if tellsVersion {
		return words{told: "pibroulezd " + version + "\n"}, nil
	}
	given.level, err = logrus.ParseLevel(level)
	return given, err
}

package main

import (
	"context"
	"encoding/json"
	"errors"
	"io/fs"
	"os"
	"path/filepath"

	"github.com/sirupsen/logrus"

	"pibroulez.example/pibroulez"
	"pibroulez.example/pibroulez/pibroulezd/configuration"
	"pibroulez.example/pibroulez/told"
)

// The limits of the configuration that the store was given last, by tenant, in a file. So a limit that somebody else has
// set stays until the configuration says another one than before.
type limits struct {
	log   *logrus.Logger
	path  string
	given map[string]pibroulez.Usage
	// Whether the file lacks a change.
	hasChanged bool
}

// The limits that a file has. Without it each is given anew.
func readLimits(log *logrus.Logger, path string) *limits {
	l := &limits{log: log, path: path, given: map[string]pibroulez.Usage{}}
	text, err := os.ReadFile(path)
	if err == nil {
		err = json.Unmarshal(text, &l.given)
	}
	if err != nil && !errors.Is(err, fs.ErrNotExist) {
		log.WithError(err).Warn("all limits of the configuration are given anew")
		l.given = map[string]pibroulez.Usage{}
	}
	return l
}

// Gives the store each limit of the configuration that is another one than before. One that is refused is told, the
// tenant's stays as it is, and it is given again at the next time.
func (l *limits) apply(ctx context.Context, store *pibroulez.Store, c *configuration.Configuration) {
	for _, name := range told.Sorted(c.Tenants) {
		limit := c.Tenants[name].Limit
		if given, isGiven := l.given[name]; isGiven && given == limit {
			continue
		}
		told := l.log.WithField("tenant", name).WithField("limit", limit.String())
		err := l.set(ctx, store, name, limit)
		if errors.Is(err, pibroulez.ErrNoNamespace) {
			// It couldn't be made, which is told by itself.
			continue
		}
		if err != nil {
			told.WithError(err).Error("the old limit stays")
			continue
		}
		told.Info("limit")
		l.give(name, limit)
	}
	l.applyEach(ctx, store, c)
	if !l.hasChanged {
		return
	}
	if err := l.write(); err != nil {
		l.log.WithError(err).Warn("the limits are given anew at the next start")
		return
	}
	l.hasChanged = false
}

// The name by which the file has the limit of each tenant of containerd that isn't named. No tenant has it.
const ofEach = ""

// Gives each tenant of containerd that the configuration doesn't name the limit of these where that is another one than before:
// those that had it, and those that were named before.
func (l *limits) applyEach(ctx context.Context, store *pibroulez.Store, c *configuration.Configuration) {
	if c.Containerd == nil || c.Containerd.Each == nil {
		l.forget(ofEach)
		return
	}
	quotas, err := store.Quotas(ctx)
	if err != nil {
		l.log.WithError(err).Error("the old limits of containerd's other tenants stay")
		return
	}
	each, isWhole := *c.Containerd.Each, true
	last, isGiven := l.given[ofEach]
	for _, name := range told.Sorted(quotas) {
		given, wasNamed := l.given[name]
		_, isNamed := c.Tenants[name]
		if isNamed || pibroulez.IsIdentity(name) || !wasNamed && (!isGiven || quotas[name].Limit != last) {
			continue
		}
		if wasNamed && given == quotas[name].Limit || !wasNamed && last != each {
			err := store.Limit(ctx, name, each)
			if told := l.log.WithField("tenant", name).WithField("limit", each.String()); err == nil {
				told.Info("limit")
			} else if !errors.Is(err, pibroulez.ErrNoNamespace) {
				told.WithError(err).Error("the old limit stays")
				isWhole = false
				continue
			}
		}
		l.forget(name)
	}
	if isWhole && (!isGiven || last != each) {
		l.give(ofEach, each)
	}
}

// The store has this limit of the configuration.
func (l *limits) give(name string, limit pibroulez.Usage) { l.given[name], l.hasChanged = limit, true }

// The store has no such tenant any more.
func (l *limits) forget(name string) {
	if _, isGiven := l.given[name]; isGiven {
		delete(l.given, name)
		l.hasChanged = true
	}
}

func (l *limits) set(ctx context.Context, store *pibroulez.Store, name string, limit pibroulez.Usage) error {
	quota, err := store.Quota(ctx, name)
	if err != nil || quota.Limit == limit {
		return err
	}
	return store.Limit(ctx, name, limit)
}

// Has the file on the disk before it has its name.
func (l *limits) write() error {
	text, err := json.Marshal(l.given)
	if err != nil {
		return err
	}
	file, err := os.CreateTemp(filepath.Dir(l.path), ".limits-")
	if err != nil {
		return err
	}
	defer os.Remove(file.Name())
	defer file.Close()
	if _, err := file.Write(append(text, '\n')); err != nil {
		return err
	}
	if err := file.Sync(); err != nil {
		return err
	}
	return os.Rename(file.Name(), l.path)
}

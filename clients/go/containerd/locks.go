package containerd

import (
	"context"
	"sort"
	"sync"
	"time"
)

// Locks of keys. Who has the lock of a key is alone in changing its snapshot, its directory, and what the directory says.
type locks struct {
	mutex sync.Mutex
	held  map[string]*lock
}

// The lock of a key, while somebody has it or waits for it.
type lock struct {
	token chan struct{}
	users int
}

// Takes the locks of all these keys, and hands out what gives them back. Where the context ends before that, none is
// taken, and the error is the context's.
func (l *locks) take(ctx context.Context, keys ...string) (func(), error) {
	var taken []string
	release := func() {
		for _, key := range taken {
			l.release(key, true)
		}
	}
	// In one order for all, so that no two wait for each other.
	sort.Strings(keys)
	for n, key := range keys {
		if n > 0 && key == keys[n-1] {
			continue
		}
		if err := l.wait(ctx, key); err != nil {
			release()
			return nil, err
		}
		taken = append(taken, key)
	}
	return release, nil
}

func (l *locks) wait(ctx context.Context, key string) error {
	l.mutex.Lock()
	it := l.held[key]
	if it == nil {
		it = &lock{token: make(chan struct{}, 1)}
		l.held[key] = it
	}
	it.users++
	l.mutex.Unlock()
	select {
	case it.token <- struct{}{}:
		return nil
	case <-ctx.Done():
		l.release(key, false)
		return ctx.Err()
	}
}

func (l *locks) release(key string, taken bool) {
	l.mutex.Lock()
	defer l.mutex.Unlock()
	it := l.held[key]
	if taken {
		<-it.token
	}
	if it.users--; it.users == 0 {
		delete(l.held, key)
	}
}

// A context that doesn't end, with the values of another one. What has begun to change something runs to its end by it.
type endless struct{ context.Context }

func (endless) Deadline() (time.Time, bool) { return time.Time{}, false }

func (endless) Done() <-chan struct{} { return nil }

func (endless) Err() error { return nil }

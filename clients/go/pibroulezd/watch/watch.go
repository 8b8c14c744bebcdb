// Package watch tells people and machines about a store over HTTP: metrics in Prometheus's format, whether the store
// answers, and one page. It changes nothing, and makes no entry.
package watch

import (
	"context"
	"net"
	"net/http"
	"strings"
	"time"

	"github.com/prometheus/client_golang/prometheus"
	"github.com/prometheus/client_golang/prometheus/promhttp"

	"pibroulez.example/pibroulez"
	"pibroulez.example/pibroulez/pibroulezd/door"
)

// How long a question may take, and how many are answered at one time.
const (
	patience   = 10 * time.Second
	mostAtOnce = 16
)

// Config says what is told.
type Config struct {
	Store *pibroulez.Store
	// Counts tells the counts of the door for lines, or is nil where there is none.
	Counts func() door.Counts
	// Metrics are told beside the store's, if there are any.
	Metrics []prometheus.Collector
}

// A Watch answers questions by HTTP.
type Watch struct {
	config   Config
	registry *prometheus.Registry
	took     *prometheus.HistogramVec
	calls    *prometheus.HistogramVec
	server   http.Server
	turn     chan struct{}
}

// New makes a watch, which Serve has answer.
func New(config Config) *Watch {
	w := &Watch{config: config, registry: prometheus.NewRegistry(), turn: make(chan struct{}, mostAtOnce)}
	w.took = histogram("line", "How long a line of the door took from when it was sent to its answer.", "do")
	w.calls = histogram("containerd", "How long a call of containerd took.", "call")
	w.registry.MustRegister(w.took, w.calls, &collector{config})
	w.registry.MustRegister(config.Metrics...)
	metrics := promhttp.HandlerFor(w.registry, promhttp.HandlerOpts{ErrorHandling: promhttp.HTTPErrorOnError})
	pages := http.NewServeMux()
	pages.Handle("/metrics", metrics)
	pages.HandleFunc("/healthz", w.health)
	pages.HandleFunc("/", w.page)
	w.server = http.Server{
		Handler: w.guarded(pages), ReadHeaderTimeout: patience, ReadTimeout: patience, WriteTimeout: 3 * patience,
		IdleTimeout: time.Minute, MaxHeaderBytes: 1 << 14,
	}
	return w
}

// A histogram of seconds, from a tenth of a millisecond to some seven seconds.
func histogram(name, help, label string) *prometheus.HistogramVec {
	return prometheus.NewHistogramVec(prometheus.HistogramOpts{
		Name: "pibroulez_" + name + "_seconds", Help: help, Buckets: prometheus.ExponentialBuckets(0.0001, 4, 9),
	}, []string{label})
}

// ObserveCall takes note of how long a call of containerd took, by its name in the service.
func (w *Watch) ObserveCall(call string, took time.Duration) {
	w.calls.WithLabelValues(call).Observe(took.Seconds())
}

// Observe takes note of how long a line took.
func (w *Watch) Observe(do string, took time.Duration) {
	if !door.IsKnown(do) {
		do = "other"
	}
	w.took.WithLabelValues(do).Observe(took.Seconds())
}

// Serve answers by a listener until End: then there is no error.
func (w *Watch) Serve(listener net.Listener) error {
	if err := w.server.Serve(listener); err != http.ErrServerClosed {
		return err
	}
	return nil
}

// End ends the answers, once those that are under way have come, or the patience has ended.
func (w *Watch) End() {
	ctx, cancel := context.WithTimeout(context.Background(), patience)
	defer cancel()
	if w.server.Shutdown(ctx) != nil {
		w.server.Close()
	}
}

// What each page is told to a browser by: no script, nothing from elsewhere, and no other page around it.
var headers = map[string]string{
	"Content-Security-Policy": "default-src 'none'; style-src 'sha256-" + styleSum + "'; form-action 'none'; frame-ancestors 'none'; base-uri 'none'",
	"X-Content-Type-Options":  "nosniff",
	"Referrer-Policy":         "no-referrer",
	"Cache-Control":           "no-store",
}

// Answers what only asks, by a name of this machine, at most this number at one time.
func (w *Watch) guarded(pages http.Handler) http.Handler {
	return http.HandlerFunc(func(answer http.ResponseWriter, request *http.Request) {
		for name, value := range headers {
			answer.Header().Set(name, value)
		}
		switch {
		case request.Method != http.MethodGet && request.Method != http.MethodHead:
			answer.Header().Set("Allow", "GET, HEAD")
			http.Error(answer, "only GET and HEAD", http.StatusMethodNotAllowed)
			return
		case !isLocal(request):
			http.Error(answer, "not the name of this machine", http.StatusForbidden)
			return
		}
		ctx, cancel := context.WithTimeout(request.Context(), patience)
		defer cancel()
		select {
		case w.turn <- struct{}{}:
			defer func() { <-w.turn }()
			pages.ServeHTTP(answer, request.WithContext(ctx))
		case <-ctx.Done():
			http.Error(answer, "too many questions", http.StatusServiceUnavailable)
		}
	})
}

// Whether a request is by an address of this machine, or over a Unix socket. Else a page from elsewhere could ask by a name
// of its own that leads here.
func isLocal(request *http.Request) bool {
	if address, isThere := request.Context().Value(http.LocalAddrContextKey).(net.Addr); isThere && address.Network() == "unix" {
		return true
	}
	host := request.Host
	if name, _, err := net.SplitHostPort(host); err == nil {
		host = name
	}
	address := net.ParseIP(strings.Trim(host, "[]"))
	return host == "localhost" || address != nil && address.IsLoopback()
}

func (w *Watch) health(answer http.ResponseWriter, request *http.Request) {
	answer.Header().Set("Content-Type", "text/plain; charset=utf-8")
	if _, err := w.config.Store.Report(request.Context()); err != nil {
		answer.WriteHeader(http.StatusServiceUnavailable)
		answer.Write([]byte(err.Error() + "\n"))
		return
	}
	answer.Write([]byte("ok\n"))
}

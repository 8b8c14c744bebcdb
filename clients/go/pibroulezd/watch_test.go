package main

import (
	"context"
	"fmt"
	"io"
	"net"
	"net/http"
	"strings"
	"testing"

	"github.com/containerd/containerd/errdefs"
	"github.com/containerd/containerd/namespaces"

	"pibroulez.example/pibroulez"
)

// Asks the daemon over its socket.
func (p place) get(t *testing.T, path string) string {
	t.Helper()
	client := http.Client{Transport: &http.Transport{DisableKeepAlives: true, DialContext: func(ctx context.Context, _, _ string) (net.Conn, error) {
		return new(net.Dialer).DialContext(ctx, "unix", p.path("watch"))
	}}}
	response, err := client.Get("http://any.example" + path)
	granted(t, err)
	defer response.Body.Close()
	text, err := io.ReadAll(response.Body)
	granted(t, err)
	equal(t, response.StatusCode, http.StatusOK)
	return string(text)
}

// Who watches sees what came by the other doors.
func TestWatch(t *testing.T) {
	p := newPlace(t)
	p.configure(t, p.lines()+fmt.Sprintf("[watch]\naddress = %q\n", "unix:"+p.path("watch"))+p.containerd()+roles("operator")+tenant("a", 100, 100))
	it := p.start(t)
	store := p.connect(t)
	_, err := store.Prepare(ctx, "a", "<k>", "")
	granted(t, err)
	_, err = store.Prepare(ctx, "a", "<k>", "")
	isError(t, err, pibroulez.ErrAlreadyExists)
	_, err = p.snapshotter(t).Stat(namespaces.WithNamespace(ctx, "test"), "none")
	if !errdefs.IsNotFound(err) {
		t.Error(err)
	}
	metrics := p.get(t, "/metrics")
	for _, want := range []string{
		`pibroulez_snapshots{kind="Active",tenant="a"} 1`, `pibroulez_snapshots{kind="Active",tenant="containerd"} 0`,
		`pibroulez_line_refusals_total{refusal="AlreadyExists"} 1`, `pibroulez_line_seconds_count{do="prepare"} 2`,
		"pibroulez_lines_total 2", `pibroulez_containerd_seconds_count{call="Stat"} 1`, "pibroulez_connections 1",
	} {
		if !strings.Contains(metrics, want) {
			t.Errorf("no %s in %s", want, metrics)
		}
	}
	equal(t, p.get(t, "/healthz"), "ok\n")
	if page := p.get(t, "/?tenant=a"); !strings.Contains(page, "&lt;k&gt;") {
		t.Error(page)
	}
	it.end(t)
}

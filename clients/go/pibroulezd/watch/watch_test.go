package watch

import (
	"context"
	"encoding/json"
	"fmt"
	"io"
	"net"
	"net/http"
	"net/url"
	"os"
	"path/filepath"
	"strings"
	"testing"
	"time"

	"github.com/prometheus/common/expfmt"
	"golang.org/x/net/html"

	"pibroulez.example/pibroulez"
	"pibroulez.example/pibroulez/pibroulezd/door"
)

var ctx = context.Background()

func program() string {
	if named := os.Getenv("PIBROULEZ_PROGRAM"); named != "" {
		return named
	}
	return "../../../../crates/snap_replay/out/snap_replay"
}

func granted(t *testing.T, err error) {
	t.Helper()
	if err != nil {
		t.Fatal(err)
	}
}

func equal[V comparable](t *testing.T, got, want V) {
	t.Helper()
	if got != want {
		t.Errorf("%v, not %v", got, want)
	}
}

// Names that a page or a metric must not take for anything but text.
var hostile = []string{
	`<script>alert(1)</script>`, `"><img src=x onerror=alert(1)>`, `'; DROP`, "a\nb\t\x1b[31m", "\u202eevil\u2066", `{{.}}`, `&lt;b&gt;`,
	"javascript:alert(1)", strings.Repeat("ä", 500), "\u200b\ufeff", `back\slash"quote`, "</td></tr></table>",
}

const hostileTenant = "</a><script>x</script>\"\n\\"

func usage(blocks, inodes uint64) pibroulez.Usage {
	return pibroulez.Usage{Blocks: blocks, Inodes: inodes}
}

// A watch over a store with two tenants, and who asks it.
type seen struct {
	*Watch
	store *pibroulez.Store
	host  string
	http  http.Client
}

func watched(t *testing.T, change func(*Config)) *seen {
	t.Helper()
	store, err := pibroulez.New(ctx, pibroulez.Config{
		Program: program(), Root: "/r", Namespaces: map[string]pibroulez.Usage{"a": usage(100, 50), hostileTenant: usage(1000, 1000)},
		Log: filepath.Join(t.TempDir(), "log"),
	})
	granted(t, err)
	t.Cleanup(func() { store.Close() })
	config := Config{Store: store}
	if change != nil {
		change(&config)
	}
	s := &seen{Watch: New(config), store: store}
	listener, err := net.Listen("tcp", "127.0.0.1:0")
	granted(t, err)
	s.host = listener.Addr().String()
	ended := make(chan error, 1)
	go func() { ended <- s.Serve(listener) }()
	t.Cleanup(func() {
		s.End()
		granted(t, <-ended)
	})
	return s
}

func (s *seen) ask(t *testing.T, method, path, host string) (*http.Response, string) {
	t.Helper()
	request, err := http.NewRequest(method, "http://"+s.host+path, nil)
	granted(t, err)
	request.Host = host
	response, err := s.http.Do(request)
	granted(t, err)
	defer response.Body.Close()
	text, err := io.ReadAll(response.Body)
	granted(t, err)
	return response, string(text)
}

func (s *seen) get(t *testing.T, path string) string {
	t.Helper()
	response, text := s.ask(t, http.MethodGet, path, s.host)
	if response.StatusCode != http.StatusOK {
		t.Fatalf("%s: %s: %s", path, response.Status, text)
	}
	return text
}

// The metrics are those of the store, and of the door where there is one, in a form that Prometheus's own parser takes.
func TestMetrics(t *testing.T) {
	s := watched(t, func(c *Config) {
		c.Counts = func() door.Counts {
			return door.Counts{Connections: 2, Lines: 7, Faults: 1, Refusals: map[pibroulez.Reason]uint64{pibroulez.ErrNotAllowed: 3}}
		}
	})
	_, err := s.store.Prepare(ctx, "a", "k", "")
	granted(t, err)
	_, err = s.store.Create(ctx, "a", "k", "/f", pibroulez.WithExtra(usage(4, 2)))
	granted(t, err)
	_, err = s.store.Prepare(ctx, "a", "base", "")
	granted(t, err)
	_, err = s.store.Commit(ctx, "a", "base", "b")
	granted(t, err)
	s.Observe("prepare", 3*time.Millisecond)
	s.Observe("no such command", time.Second)
	s.ObserveCall("Prepare", time.Minute)
	report, err := s.store.Report(ctx)
	granted(t, err)
	text := s.get(t, "/metrics")
	for _, want := range []string{
		`pibroulez_tenant_limit{quantity="blocks",tenant="a"} 100`, `pibroulez_tenant_limit{quantity="inodes",tenant="a"} 50`,
		// The root, the file, and what is charged beyond that; and the root of the committed one.
		`pibroulez_tenant_charged{quantity="blocks",tenant="a"} 6`, `pibroulez_tenant_charged{quantity="inodes",tenant="a"} 5`,
		`pibroulez_tenant_committed{quantity="blocks",tenant="a"} 1`, `pibroulez_tenant_open{quantity="blocks",tenant="a"} 5`,
		`pibroulez_tenant_spare{quantity="blocks",tenant="a"} 4`, `pibroulez_tenant_free{quantity="blocks",tenant="a"} 94`,
		`pibroulez_snapshots{kind="Active",tenant="a"} 1`, `pibroulez_snapshots{kind="Committed",tenant="a"} 1`,
		`pibroulez_snapshots{kind="View",tenant="a"} 0`, fmt.Sprintf("pibroulez_journal_entries %d", report.Entries),
		`pibroulez_connections 2`, `pibroulez_lines_total 7`, `pibroulez_line_faults_total 1`,
		`pibroulez_line_refusals_total{refusal="NotAllowed"} 3`, `pibroulez_line_seconds_count{do="prepare"} 1`,
		`pibroulez_line_seconds_count{do="other"} 1`, `pibroulez_line_seconds_bucket{do="prepare",le="0.0064"} 1`,
		`pibroulez_containerd_seconds_count{call="Prepare"} 1`, `pibroulez_containerd_seconds_bucket{call="Prepare",le="+Inf"} 1`,
		`pibroulez_containerd_seconds_sum{call="Prepare"} 60`, `tenant="</a><script>x</script>\"\n\\"`,
	} {
		if !strings.Contains(text, want) {
			t.Errorf("no %s in %s", want, text)
		}
	}
	var parser expfmt.TextParser
	families, err := parser.TextToMetricFamilies(strings.NewReader(text))
	granted(t, err)
	equal(t, len(families["pibroulez_tenant_free"].GetMetric()), 4)
	if log := families["pibroulez_log_bytes"].GetMetric()[0].GetGauge().GetValue(); log < 100 {
		t.Errorf("%v bytes of the log", log)
	}
	appends, err := s.store.LogAppends()
	granted(t, err)
	equal(t, families["pibroulez_log_appends_total"].GetMetric()[0].GetCounter().GetValue(), float64(appends))
}

// What a page shows: texts, in order, and whether something of it could run or lead elsewhere.
func read(t *testing.T, text string) (texts []string) {
	t.Helper()
	root, err := html.Parse(strings.NewReader(text))
	granted(t, err)
	var walk func(*html.Node)
	walk = func(n *html.Node) {
		if n.Type == html.ElementNode {
			switch n.Data {
			case "script", "iframe", "object", "embed", "link", "img", "base", "form", "foreignObject":
				t.Errorf("an element %s", n.Data)
			}
			for _, it := range n.Attr {
				if strings.HasPrefix(it.Key, "on") || it.Key == "src" || it.Key == "style" || it.Key == "href" && !strings.HasPrefix(it.Val, "/?tenant=") {
					t.Errorf("an attribute %s=%q", it.Key, it.Val)
				}
			}
		}
		if n.Type == html.TextNode && n.Parent.Data != "style" {
			texts = append(texts, n.Data)
		}
		for child := n.FirstChild; child != nil; child = child.NextSibling {
			walk(child)
		}
	}
	walk(root)
	return texts
}

// The page shows each tenant with what is used, reserved and free, and the snapshots of one below their parents.
func TestPage(t *testing.T) {
	s := watched(t, nil)
	for _, it := range []struct{ key, parent, name string }{{"k1", "", "base"}, {"k2", "base", "child"}, {"k3", "", "other"}} {
		_, err := s.store.Prepare(ctx, "a", it.key, it.parent)
		granted(t, err)
		_, err = s.store.Commit(ctx, "a", it.key, it.name)
		granted(t, err)
	}
	_, err := s.store.Prepare(ctx, "a", "z", "child")
	granted(t, err)
	_, err = s.store.Charge(ctx, "a", "z", usage(21, 11))
	granted(t, err)
	_, err = s.store.Prepare(ctx, "a", "none", "nobody")
	if err == nil {
		t.Fatal("a snapshot on nothing")
	}
	text := s.get(t, "/?tenant=a")
	// 3 committed roots and one active of 100, and 20 more that are reserved.
	for _, want := range []string{`aria-label="4 used, 20 reserved, 76 free"`, `class="reserved" width="240"`, `class="used" width="40"`} {
		if !strings.Contains(text, want) {
			t.Errorf("no %s in %s", want, text)
		}
	}
	texts := strings.Join(read(t, text), "|")
	for _, want := range []string{"base|Committed|1|1|1|", "child|Committed|2|1|1|", "z|Active|4|21|11|", "other|Committed|3|1|1", "prepare|a|none|", "NotFound"} {
		if !strings.Contains(strings.ReplaceAll(texts, "|\n|", "|"), want) {
			t.Errorf("no %s in %s", want, texts)
		}
	}
	order := strings.Index(texts, "base")
	for _, name := range []string{"child", "|z|", "other"} {
		at := strings.Index(texts, name)
		if at < order {
			t.Errorf("%s isn't in its place in %s", name, texts)
		}
		order = at
	}
	equal(t, strings.Count(text, `<span class="i"></span>`), 3)
}

// Names are texts of the page, whatever they are, and in those that have no form of their own each character is seen.
func TestHostileNames(t *testing.T) {
	s := watched(t, nil)
	for _, name := range hostile {
		_, err := s.store.Prepare(ctx, hostileTenant, name, "")
		granted(t, err)
	}
	for _, path := range []string{"/", "/?tenant=" + url.QueryEscape(hostileTenant), "/?tenant=" + url.QueryEscape(hostile[0])} {
		read(t, s.get(t, path))
	}
	texts := strings.Join(read(t, s.get(t, "/?tenant="+url.QueryEscape(hostileTenant))), "|")
	for _, want := range []string{
		`|<script>alert(1)</script>|`, `|"\"><img src=x onerror=alert(1)>"|`, `|"a\nb\t\x1b[31m"|`, `|"\u202eevil\u2066"|`, `|{{.}}|`,
		`|&lt;b&gt;|`, strings.Repeat("ä", 200) + "… (1000 bytes)", `|"\u200b\ufeff"|`, `|"</a><script>x</script>\"\n\\"|`,
	} {
		if !strings.Contains(texts, want) {
			t.Errorf("no %s in %s", want, texts)
		}
	}
}

// Nothing but questions by a name of this machine is answered, and a browser is told that nothing may run.
func TestGuards(t *testing.T) {
	s := watched(t, nil)
	for _, it := range []struct {
		method, path, host string
		status             int
	}{
		{"GET", "/", "localhost", 200}, {"GET", "/", "127.0.0.1:1234", 200}, {"GET", "/", "[::1]:80", 200}, {"HEAD", "/", "localhost:1", 200},
		{"GET", "/", "evil.example", 403}, {"GET", "/metrics", "localhost.evil.example", 403}, {"GET", "/", "10.0.0.1", 403},
		{"POST", "/", "localhost", 405}, {"DELETE", "/metrics", "localhost", 405}, {"GET", "/other", "localhost", 404},
		{"GET", "/../etc/passwd", "localhost", 404}, {"GET", "/?tenant=%ff%00", "localhost", 200}, {"GET", "/healthz", "localhost", 200},
	} {
		response, _ := s.ask(t, it.method, it.path, it.host)
		if response.StatusCode != it.status || !strings.HasPrefix(response.Header.Get("Content-Security-Policy"), "default-src 'none'") {
			t.Errorf("%+v: %s, %v", it, response.Status, response.Header)
		}
	}
}

// Where the store has ended it isn't well, and there are no metrics.
func TestStoreHasEnded(t *testing.T) {
	s := watched(t, nil)
	equal(t, s.get(t, "/healthz"), "ok\n")
	process, err := os.FindProcess(s.store.PID())
	granted(t, err)
	granted(t, process.Kill())
	<-s.store.Ended()
	for path, status := range map[string]int{"/healthz": 503, "/": 503, "/metrics": 500} {
		response, text := s.ask(t, http.MethodGet, path, s.host)
		if response.StatusCode != status || !strings.Contains(text, "the process has ended") {
			t.Errorf("%s: %s: %s", path, response.Status, text)
		}
	}
}

// Of many snapshots the page shows a part, and says how many more there are.
func TestManySnapshots(t *testing.T) {
	nodes := []pibroulez.Node{{Key: "b"}, {Key: "c", Parent: "a"}, {Key: "a"}, {Key: "d", Parent: "c"}}
	var got []string
	for _, it := range inOrder(nodes) {
		got = append(got, fmt.Sprint(len(it.Indents), it.Key))
	}
	equal(t, strings.Join(got, " "), "0b 0a 1c 2d")
	s := watched(t, nil)
	_, err := s.store.Prepare(ctx, hostileTenant, "k", "")
	granted(t, err)
	_, err = s.store.Commit(ctx, hostileTenant, "k", "base")
	granted(t, err)
	const views = mostNodes + 5
	for number := 0; number < views; number++ {
		_, err := s.store.Send(ctx, pibroulez.Line{Do: "view", Members: members(t, number)})
		granted(t, err)
	}
	if text := s.get(t, "/?tenant="+url.QueryEscape(hostileTenant)); !strings.Contains(text, "and 6 more") {
		t.Error(text[:2000])
	}
}

func members(t *testing.T, number int) map[string]json.RawMessage {
	t.Helper()
	namespace, err := json.Marshal(hostileTenant)
	granted(t, err)
	return map[string]json.RawMessage{"ns": namespace, "key": []byte(fmt.Sprintf(`"v%d"`, number)), "parent": []byte(`"base"`)}
}

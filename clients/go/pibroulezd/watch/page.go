package watch

import (
	"bytes"
	"context"
	"crypto/sha256"
	"encoding/base64"
	"fmt"
	"html/template"
	"net/http"
	"net/url"
	"unicode/utf8"

	"pibroulez.example/pibroulez"
	"pibroulez.example/pibroulez/told"
)

// How much a page has at most: snapshots, entries of the journal, and characters of a name.
const (
	mostNodes   = 2000
	mostEntries = 50
	mostName    = 200
)

const style = `
body { font: 15px/1.45 sans-serif; margin: 2em auto; max-width: 70em; padding: 0 1em; color: #222; background: #fff }
h1 { font-size: 1.3em } h2 { font-size: 1.1em; margin-top: 2em }
table { border-collapse: collapse; width: 100% } th, td { text-align: left; padding: .25em .8em .25em 0; vertical-align: top }
th { border-bottom: 1px solid #999; font-weight: 600 } td.n, th.n { text-align: right; font-variant-numeric: tabular-nums }
td.k { word-break: break-all; min-width: 9em } td.b { min-width: 6em } div { overflow-x: auto } .i { display: inline-block; width: 1.3em } .m { color: #777 }
svg { display: block; width: 100%; height: 14px } .free { fill: #e4e4e4 } .used { fill: #2b6cb0 } .reserved { fill: #90b8de }
.over { color: #b00020 } ul.key { list-style: none; padding: 0 } ul.key li { display: inline-block; margin-right: 1.5em }
ul.key svg { display: inline-block; width: 14px; vertical-align: middle }
`

// The sum of the style, by which a browser takes it and no other one.
var styleSum = func() string {
	sum := sha256.Sum256([]byte(style))
	return base64.StdEncoding.EncodeToString(sum[:])
}()

// A bar of one quantity of a tenant, in thousandths of the whole.
type bar struct {
	Name                       string
	Used, Reserved, Free       uint64
	Limit                      uint64
	UsedPart, UsedReservedPart uint64
}

type tenant struct {
	Name, Link string
	Bars       []bar
}

// A snapshot, with an element for each of its ancestors.
type node struct {
	pibroulez.Node
	Indents []struct{}
}

type page struct {
	Style   template.CSS
	Tenants []tenant
	Chosen  string
	Nodes   []node
	More    int
	Entries []pibroulez.Entry
	Report  pibroulez.Report
}

var pages = template.Must(template.New("page").Funcs(template.FuncMap{"told": shown}).Parse(`<!doctype html>
<html lang="en"><head><meta charset="utf-8"><title>Pibroulez</title><style>{{.Style}}</style></head><body>
<h1>Pibroulez</h1>
<p>Snapshots: {{.Report.Records}}, active: {{.Report.Open}}; entries in this round of the journal: {{.Report.Entries}}.</p>
<h2>Tenants</h2>
<ul class="key"><li><svg><rect class="used" width="14" height="14"/></svg> used</li><li><svg><rect class="reserved" width="14" height="14"/></svg> reserved</li><li><svg><rect class="free" width="14" height="14"/></svg> free</li></ul>
<div><table><tr><th>tenant</th><th></th><th></th><th class="n">used</th><th class="n">reserved</th><th class="n">free</th><th class="n">limit</th></tr>
{{range .Tenants}}{{$tenant := .}}{{range $number, $bar := .Bars}}<tr>
<td class="k">{{if eq $number 0}}<a href="{{$tenant.Link}}"><bdi>{{told $tenant.Name}}</bdi></a>{{end}}</td><td>{{.Name}}</td>
<td class="b"><svg viewBox="0 0 1000 14" preserveAspectRatio="none" role="img" aria-label="{{.Used}} used, {{.Reserved}} reserved, {{.Free}} free"><rect class="free" width="1000" height="14"/><rect class="reserved" width="{{.UsedReservedPart}}" height="14"/><rect class="used" width="{{.UsedPart}}" height="14"/></svg></td>
<td class="n">{{.Used}}</td><td class="n">{{.Reserved}}</td><td class="n">{{.Free}}</td><td class="n">{{.Limit}}</td></tr>
{{end}}{{end}}</table></div>
{{if .Chosen}}<h2>Snapshots of <bdi>{{told .Chosen}}</bdi></h2>
<div><table><tr><th>snapshot</th><th>kind</th><th class="n">id</th><th class="n">blocks</th><th class="n">inodes</th></tr>
{{range .Nodes}}<tr><td class="k">{{range .Indents}}<span class="i"></span>{{end}}<bdi>{{told .Key}}</bdi></td><td>{{.Kind}}</td><td class="n">{{.ID}}</td><td class="n">{{.Usage.Blocks}}</td><td class="n">{{.Usage.Inodes}}</td></tr>
{{end}}</table></div>{{if .More}}<p class="m">and {{.More}} more</p>{{end}}{{end}}
<h2>Last entries of the journal</h2>
<div><table><tr><th class="n">entry</th><th>session</th><th>call</th><th>tenant</th><th>key</th><th class="n">id</th><th>refused</th></tr>
{{range .Entries}}<tr><td class="n">{{.Number}}</td><td>{{.Session}}</td><td>{{.Call}}</td><td class="k"><bdi>{{with .Namespace}}{{told .}}{{end}}</bdi></td><td class="k"><bdi>{{with .Key}}{{told .}}{{end}}</bdi></td><td class="n">{{if .ID}}{{.ID}}{{end}}</td><td class="over">{{.Refused}}</td></tr>
{{end}}</table></div></body></html>
`))

// A name as it is told, or its beginning.
func shown(name string) string {
	if utf8.RuneCountInString(name) <= mostName {
		return told.Name(name)
	}
	return fmt.Sprintf("%s… (%d bytes)", told.Name(string([]rune(name)[:mostName])), len(name))
}

func (w *Watch) page(answer http.ResponseWriter, request *http.Request) {
	if request.URL.Path != "/" {
		http.NotFound(answer, request)
		return
	}
	it, err := w.read(request.Context(), request.URL.Query().Get("tenant"))
	var text bytes.Buffer
	if err == nil {
		err = pages.Execute(&text, it)
	}
	if err != nil {
		http.Error(answer, err.Error(), http.StatusServiceUnavailable)
		return
	}
	answer.Header().Set("Content-Type", "text/html; charset=utf-8")
	answer.Write(text.Bytes())
}

// What a page tells, with the snapshots of a tenant: of the first one where this one isn't there.
func (w *Watch) read(ctx context.Context, chosen string) (*page, error) {
	it := &page{Style: style, Chosen: chosen}
	quotas, err := w.config.Store.Quotas(ctx)
	if err != nil {
		return nil, err
	}
	names := told.Sorted(quotas)
	if _, isThere := quotas[chosen]; !isThere {
		it.Chosen = ""
		if len(names) > 0 {
			it.Chosen = names[0]
		}
	}
	for _, name := range names {
		it.Tenants = append(it.Tenants, tenantOf(name, quotas[name]))
	}
	if it.Report, err = w.config.Store.Report(ctx); err != nil {
		return nil, err
	}
	if it.Chosen != "" {
		nodes, err := w.config.Store.Tree(ctx, it.Chosen)
		if err != nil {
			return nil, err
		}
		it.Nodes = inOrder(nodes)
		if len(it.Nodes) > mostNodes {
			it.Nodes, it.More = it.Nodes[:mostNodes], len(it.Nodes)-mostNodes
		}
	}
	it.Entries, err = w.lastEntries(ctx, it.Report.Entries)
	return it, err
}

func tenantOf(name string, quota pibroulez.Quota) tenant {
	it := tenant{Name: name, Link: "/?" + url.Values{"tenant": {name}}.Encode()}
	for _, quantity := range []struct {
		name string
		of   func(pibroulez.Usage) uint64
	}{
		{"blocks", func(u pibroulez.Usage) uint64 { return u.Blocks }}, {"inodes", func(u pibroulez.Usage) uint64 { return u.Inodes }},
	} {
		charged, reserved, limit := quantity.of(quota.Charged), quantity.of(quota.Spare), quantity.of(quota.Limit)
		b := bar{Name: quantity.name, Used: charged - reserved, Reserved: reserved, Free: quantity.of(quota.Free), Limit: limit}
		if limit > 0 {
			b.UsedPart, b.UsedReservedPart = b.Used*1000/limit, charged*1000/limit
		}
		it.Bars = append(it.Bars, b)
	}
	return it
}

// The snapshots, each after its parent, with those on one parent in the order of their keys.
func inOrder(nodes []pibroulez.Node) []node {
	on := map[string][]pibroulez.Node{}
	for _, it := range nodes {
		on[it.Parent] = append(on[it.Parent], it)
	}
	all := make([]node, 0, len(nodes))
	var add func(parent string, depth int)
	add = func(parent string, depth int) {
		for _, it := range on[parent] {
			all = append(all, node{it, make([]struct{}, depth)})
			add(it.Key, depth+1)
		}
	}
	add("", 0)
	return all
}

// The last entries of a round with this number, the last one first.
func (w *Watch) lastEntries(ctx context.Context, entries uint64) ([]pibroulez.Entry, error) {
	first, err := w.config.Store.Journal(ctx, "", 0, 1)
	if err != nil || len(first) == 0 {
		return nil, err
	}
	after := first[0].Number - 1
	if entries > mostEntries {
		after += entries - mostEntries
	}
	page, err := w.config.Store.Journal(ctx, "", after, mostEntries)
	for i, j := 0, len(page)-1; i < j; i, j = i+1, j-1 {
		page[i], page[j] = page[j], page[i]
	}
	return page, err
}

package watch

import (
	"context"
	"image"
	"image/color"
	"image/png"
	"io"
	"net/http"
	"net/http/httptest"
	"net/url"
	"os"
	"os/exec"
	"path/filepath"
	"strings"
	"sync"
	"testing"
	"time"

	"golang.org/x/net/html"

	"pibroulez.example/pibroulez"
)

// How long a browser may take for a page on a machine with other work.
const browserPatience = 2 * time.Minute

// A browser, all of whose requests come by a proxy of the test's.
type browser struct {
	path, folder string
	proxy        *httptest.Server
	mutex        sync.Mutex
	asked        []string
}

func newBrowser(t *testing.T) *browser {
	t.Helper()
	path, err := exec.LookPath("chromium")
	if err != nil {
		t.Skip("chromium isn't there")
	}
	if os.Getenv("PIBROULEZ_KILLS") == "" {
		t.Skip("a browser takes long: with --all alone")
	}
	b := &browser{path: path, folder: t.TempDir()}
	b.proxy = httptest.NewServer(b)
	t.Cleanup(b.proxy.Close)
	return b
}

// Hands a request on to this machine, and refuses what leads elsewhere. Both are taken note of.
func (b *browser) ServeHTTP(answer http.ResponseWriter, request *http.Request) {
	b.mutex.Lock()
	b.asked = append(b.asked, request.Method+" "+request.URL.String())
	b.mutex.Unlock()
	if request.Method != http.MethodGet || !isLocal(request) {
		http.Error(answer, "elsewhere", http.StatusForbidden)
		return
	}
	response, err := http.Get(request.URL.String())
	if err != nil {
		http.Error(answer, err.Error(), http.StatusBadGateway)
		return
	}
	defer response.Body.Close()
	for name, values := range response.Header {
		answer.Header()[name] = values
	}
	answer.WriteHeader(response.StatusCode)
	io.Copy(answer, response.Body)
}

// Opens an address, by further words of the browser's. What it prints.
func (b *browser) open(t *testing.T, address string, words ...string) string {
	t.Helper()
	timed, cancel := context.WithTimeout(ctx, browserPatience)
	defer cancel()
	words = append([]string{
		"--headless=new", "--no-sandbox", "--disable-gpu", "--disable-dev-shm-usage", "--no-first-run", "--hide-scrollbars",
		"--disable-background-networking", "--disable-component-update", "--disable-sync", "--force-device-scale-factor=1",
		"--user-data-dir=" + filepath.Join(b.folder, "profile"), "--proxy-server=" + b.proxy.URL, "--proxy-bypass-list=<-loopback>",
	}, words...)
	process := exec.CommandContext(timed, b.path, append(words, address)...)
	process.Env = append(os.Environ(), "HOME="+b.folder)
	output, err := process.Output()
	if err != nil {
		t.Fatalf("chromium: %v", err)
	}
	return string(output)
}

// A picture of an address in a window of this width. It is kept where PIBROULEZ_PICTURES names a folder.
func (b *browser) picture(t *testing.T, address, name, size string) image.Image {
	t.Helper()
	folder := b.folder
	if kept := os.Getenv("PIBROULEZ_PICTURES"); kept != "" {
		folder = kept
	}
	path := filepath.Join(folder, name+".png")
	b.open(t, address, "--screenshot="+path, "--window-size="+size)
	file, err := os.Open(path)
	granted(t, err)
	defer file.Close()
	it, err := png.Decode(file)
	granted(t, err)
	return it
}

// The colours of a bar.
var (
	usedColour     = color.RGBA{0x2b, 0x6c, 0xb0, 0xff}
	reservedColour = color.RGBA{0x90, 0xb8, 0xde, 0xff}
	freeColour     = color.RGBA{0xe4, 0xe4, 0xe4, 0xff}
)

// Of each row of a picture in which a bar of all three is, the greatest width of each part. Keys of 14 dots aren't bars.
func bars(it image.Image) (rows int, widths map[color.RGBA]int) {
	widths = map[color.RGBA]int{}
	for y := it.Bounds().Min.Y; y < it.Bounds().Max.Y; y++ {
		counts := map[color.RGBA]int{}
		for x := it.Bounds().Min.X; x < it.Bounds().Max.X; x++ {
			counts[color.RGBAModel.Convert(it.At(x, y)).(color.RGBA)]++
		}
		if counts[usedColour] > 0 && counts[reservedColour] > 14 && counts[freeColour] > 14 {
			rows++
			for _, part := range []color.RGBA{usedColour, reservedColour, freeColour} {
				if counts[part] > widths[part] {
					widths[part] = counts[part]
				}
			}
		}
	}
	return rows, widths
}

// Names that would change the page or ask elsewhere if a browser took them for more than a text.
var active = []string{
	`<script>document.title="ran"</script>`, `<img src="http://elsewhere.example/a" onerror="document.title='ran'">`,
	`"><svg onload="document.title='ran'">`, `<style>@import "http://elsewhere.example/b";</style>`, `</title><title>ran</title>`,
	`<meta http-equiv="refresh" content="0;url=http://elsewhere.example/c">`, `<a href="javascript:document.title='ran'">x</a>`,
	`<iframe src="http://elsewhere.example/d"></iframe>`, `--><script>document.title="ran"</script><!--`,
	"\u202e\u2066evil\u200b", "a\x1b[31m\x07", strings.Repeat("\u0301", 300), strings.Repeat("W", 900), "مرحبا", "名前",
}

// What a browser has made of the page: its title, and the texts of its cells.
func dom(t *testing.T, text string) (title string, cells map[string]bool) {
	t.Helper()
	root, err := html.Parse(strings.NewReader(text))
	granted(t, err)
	cells = map[string]bool{}
	var textOf func(*html.Node) string
	textOf = func(n *html.Node) (all string) {
		if n.Type == html.TextNode {
			all = n.Data
		}
		for child := n.FirstChild; child != nil; child = child.NextSibling {
			all += textOf(child)
		}
		return all
	}
	var walk func(*html.Node)
	walk = func(n *html.Node) {
		switch {
		case n.Type == html.ElementNode && n.Data == "title":
			title = textOf(n)
		case n.Type == html.ElementNode && n.Data == "td":
			cells[textOf(n)] = true
		}
		for child := n.FirstChild; child != nil; child = child.NextSibling {
			walk(child)
		}
	}
	walk(root)
	return title, cells
}

// A browser shows names as texts, whatever they have: it runs nothing, asks for nothing beside the page, and takes the
// page's own style, so that a tenant's bar has its three parts in the widths of its numbers.
func TestBrowser(t *testing.T) {
	b := newBrowser(t)
	s := watched(t, nil)
	// Its numbers are the widest, and leave the bars their room all the same.
	granted(t, s.store.NamespaceCreate(ctx, "great", usage(1<<40, 1<<40)))
	for _, name := range append(append([]string{}, hostile...), active...) {
		_, err := s.store.Prepare(ctx, hostileTenant, name, "", pibroulez.WithLabels(map[string]string{"x": name}))
		granted(t, err)
	}
	// Of 1000 blocks and inodes the roots take 27, 400 more are reserved, and 573 are left.
	equal(t, len(hostile)+len(active), 27)
	_, err := s.store.Charge(ctx, hostileTenant, hostile[0], usage(401, 401))
	granted(t, err)
	address := "http://" + s.host + "/?tenant=" + url.QueryEscape(hostileTenant)
	text := b.open(t, address, "--dump-dom")
	read(t, text)
	title, cells := dom(t, text)
	equal(t, title, "Pibroulez")
	for _, name := range active {
		if !cells[shown(name)] {
			t.Errorf("no cell %q", shown(name))
		}
	}
	for _, it := range []struct{ name, size string }{{"page", "1280,1600"}, {"narrow", "500,2400"}} {
		rows, widths := bars(b.picture(t, address, it.name, it.size))
		t.Log(it.name, rows, widths)
		whole := widths[usedColour] + widths[reservedColour] + widths[freeColour]
		if rows < 10 || whole < 60 {
			t.Fatalf("%s: bars of %d rows, %v", it.name, rows, widths)
		}
		// A part's end may be a dot further, of at least 60.
		if part := widths[reservedColour] * 1000 / whole; part < 370 || part > 430 {
			t.Errorf("%s: %d of 1000 are reserved", it.name, part)
		}
	}
	b.mutex.Lock()
	defer b.mutex.Unlock()
	pages := 0
	for _, asked := range b.asked {
		switch {
		case asked == "GET "+address:
			pages++
		case strings.Contains(asked, "elsewhere") || strings.Contains(asked, s.host) && !strings.HasSuffix(asked, "/favicon.ico"):
			t.Errorf("the browser asked for %s", asked)
		}
	}
	equal(t, pages, 3)
}

package told

import (
	"strings"
	"testing"
)

func TestName(t *testing.T) {
	for name, want := range map[string]string{
		"": `""`, "a": "a", "a b/ä": "a b/ä", "<b>": "<b>", "a\nb": `"a\nb"`, "\x1b[31m": `"\x1b[31m"`, "\u202eevil": `"\u202eevil"`,
		"\u200b": `"\u200b"`, `"a"`: `"\"a\""`, `a"b\c`: `a"b\c`, " a": `" a"`, "a ": `"a "`, "a\u00a0b": "\"a\u00a0b\"", "\xff": `"\xff"`, "\ufffd": "\"\ufffd\"",
		// Marks stand on the character before them.
		"e\u0301": "e\u0301", "a\u0323\u0302b\u0301": "a\u0323\u0302b\u0301", "\u0301a": `"\u0301a"`, "x" + strings.Repeat("\u0301", 4): "x" + strings.Repeat("\u0301", 4),
		"x" + strings.Repeat("\u0301", 5): `"x\u0301\u0301\u0301\u0301\u0301"`,
	} {
		if got := Name(name); got != want {
			t.Errorf("%q: %s, not %s", name, got, want)
		}
	}
}

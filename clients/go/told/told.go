// Package told has the names of others as people are told them.
package told

import (
	"sort"
	"strconv"
	"unicode"
)

// How many marks, as accents, may stand on one character: the most that a text of a language has.
const mostMarks = 4

// Name is a name as it is seen on a page or a terminal: of characters that have a form, or else in quotation marks with
// escapes. So none looks like another one, turns what stands beside it, is written over it, or is a terminal's command. An
// empty one is "".
func Name(name string) string {
	if name == "" {
		return `""`
	}
	if hasLooseMarks(name) {
		return strconv.QuoteToASCII(name)
	}
	for _, it := range name {
		if it == unicode.ReplacementChar || !unicode.IsGraphic(it) || unicode.IsSpace(it) && it != ' ' {
			return strconv.QuoteToGraphic(name)
		}
	}
	if first := name[0]; first == '"' || first == ' ' || name[len(name)-1] == ' ' {
		return strconv.QuoteToGraphic(name)
	}
	return name
}

// Whether marks stand on no character, or more of them on one than are read: they would be seen on what is beside.
func hasLooseMarks(name string) bool {
	marks := mostMarks
	for _, it := range name {
		if !unicode.IsMark(it) {
			marks = 0
		} else if marks++; marks > mostMarks {
			return true
		}
	}
	return false
}

// Sorted tells the names that a map has, in the order of their bytes.
func Sorted[V any](of map[string]V) []string {
	names := make([]string, 0, len(of))
	for it := range of {
		names = append(names, it)
	}
	sort.Strings(names)
	return names
}

package configuration

import (
	"errors"
	"fmt"
	"io/fs"
	"os/user"
	"path/filepath"
	"sort"
	"strconv"
	"strings"
	"time"

	"github.com/pelletier/go-toml"

	"pibroulez.example/pibroulez"
)

// What reads a tree, and finds all faults of it.
type reader struct {
	path   string
	faults Faults
}

// A table of the file. A nil tree has no key.
type table struct {
	reader *reader
	tree   *toml.Tree
	// The keys above it, as they are told.
	prefix string
	// The keys that were asked for.
	known map[string]bool
}

func (t *table) fault(key, words string) {
	fault := &Fault{Path: t.reader.path, Key: t.prefix + told(key), Words: words}
	if t.tree != nil {
		fault.Line = t.tree.Position().Line
		if t.tree.HasPath([]string{key}) {
			fault.Line = t.tree.GetPositionPath([]string{key}).Line
		}
	}
	t.reader.faults = append(t.reader.faults, fault)
}

// A key as it may stand in a file.
func told(key string) string {
	for _, it := range key {
		if (it < 'a' || it > 'z') && (it < 'A' || it > 'Z') && (it < '0' || it > '9') && it != '_' && it != '-' {
			return strconv.Quote(key)
		}
	}
	if key == "" {
		return `""`
	}
	return key
}

func (t *table) has(key string) bool { return t.tree != nil && t.tree.HasPath([]string{key}) }

// All keys of a table that may have any.
func (t *table) keys() []string {
	if t.tree == nil {
		return nil
	}
	keys := t.tree.Keys()
	sort.Strings(keys)
	return keys
}

// The value of a key, or nil.
func (t *table) value(key string) any {
	if t.known == nil {
		t.known = map[string]bool{}
	}
	t.known[key] = true
	if t.tree == nil {
		return nil
	}
	return t.tree.GetPath([]string{key})
}

// Finds the keys that nobody has asked for.
func (t *table) end() {
	for _, key := range t.keys() {
		if !t.known[key] {
			t.fault(key, "no such key")
		}
	}
}

func (t *table) wrong(key, wanted string, value any) {
	t.fault(key, fmt.Sprintf("%s is wanted, %s is there", wanted, kindOf(value)))
}

// What a value is, in words.
func kindOf(value any) string {
	switch value.(type) {
	case nil:
		return "nothing"
	case string:
		return "another text"
	case int64, uint64:
		return "another number"
	case *toml.Tree:
		return "a table"
	case []any, []*toml.Tree:
		return "an array"
	case bool:
		return "true or false"
	}
	return "something else"
}

func (t *table) text(key, otherwise string) string {
	switch it := t.value(key).(type) {
	case nil:
		return otherwise
	case string:
		return it
	default:
		t.wrong(key, "a text", it)
		return otherwise
	}
}

func (t *table) flag(key string) bool {
	switch it := t.value(key).(type) {
	case nil:
	case bool:
		return it
	default:
		t.wrong(key, "true or false", it)
	}
	return false
}

// An absolute path, as it is told by the shortest text.
func (t *table) path(key, otherwise string) string {
	it := t.text(key, otherwise)
	if _, isText := t.value(key).(string); !isText {
		return it
	}
	if !filepath.IsAbs(it) {
		t.fault(key, "a path that begins with / is wanted, another text is there")
	}
	return filepath.Clean(it)
}

// The most bytes of the path of a socket (unix(7)).
const mostSocketBytes = 107

func (t *table) socket(key, otherwise string) string {
	it := t.path(key, otherwise)
	if len(it) > mostSocketBytes {
		t.fault(key, fmt.Sprintf("a path of at most %d bytes is wanted, a longer one is there", mostSocketBytes))
	}
	return it
}

// The mode of a file, in octal digits, as a text: a number of TOML would mean another one.
func (t *table) mode(key string, otherwise fs.FileMode) fs.FileMode {
	if !t.has(key) {
		t.value(key)
		return otherwise
	}
	text, isText := t.value(key).(string)
	mode, err := strconv.ParseUint(text, 8, 32)
	if !isText || err != nil || mode > 0o777 {
		t.wrong(key, "a text of octal digits, at most 0777,", t.value(key))
		return otherwise
	}
	return fs.FileMode(mode)
}

func (t *table) number(key string, otherwise, least, most uint64) uint64 {
	if !t.has(key) {
		t.value(key)
		return otherwise
	}
	return t.neededNumber(key, least, most)
}

// A duration as time.ParseDuration takes it, or one below 0 where it may be "off" and is.
func (t *table) duration(key string, otherwise, least, most time.Duration, mayBeOff bool) time.Duration {
	text := t.text(key, otherwise.String())
	if mayBeOff && text == "off" {
		return -1
	}
	it, err := time.ParseDuration(text)
	if err != nil || it < least || it > most {
		t.fault(key, fmt.Sprintf("a text as \"1s\", from %v to %v, is wanted, another one is there", least, most))
	}
	return it
}

// A usage as BLOCKS/INODES.
func (t *table) usage(key string, otherwise pibroulez.Usage) pibroulez.Usage {
	blocks, inodes, isPair := strings.Cut(t.text(key, otherwise.String()), "/")
	b, errOfBlocks := strconv.ParseUint(blocks, 10, 41)
	i, errOfInodes := strconv.ParseUint(inodes, 10, 41)
	if !isPair || errOfBlocks != nil || errOfInodes != nil || b > MostLimit || i > MostLimit {
		t.fault(key, "a text as \"64/64\", BLOCKS/INODES, is wanted, another one is there")
	}
	return pibroulez.Usage{Blocks: b, Inodes: i}
}

func (t *table) texts(key string) []string {
	value := t.value(key)
	elements, isArray := value.([]any)
	if value != nil && !isArray {
		t.wrong(key, "an array of texts", value)
	}
	var texts []string
	for _, it := range elements {
		text, isText := it.(string)
		if !isText {
			t.fault(key, "a text is wanted, "+kindOf(it)+" is there")
		}
		texts = append(texts, text)
	}
	return texts
}

func (t *table) neededNumber(key string, least, most uint64) uint64 {
	value := t.value(key)
	if it, isNumber := value.(int64); isNumber && it >= 0 && uint64(it) >= least && uint64(it) <= most {
		return uint64(it)
	}
	t.wrong(key, fmt.Sprintf("a number from %d to %d", least, most), value)
	return 0
}

func (t *table) table(key string) *table {
	within := &table{reader: t.reader, prefix: t.prefix + told(key) + "."}
	switch it := t.value(key).(type) {
	case nil:
	case *toml.Tree:
		within.tree = it
	default:
		t.wrong(key, "a table", it)
	}
	return within
}

// The numbers that the elements of an array name.
func (t *table) numbersOf(key string, numberOf func(string) (uint32, error)) map[uint32]bool {
	numbers := map[uint32]bool{}
	value := t.value(key)
	elements, isArray := value.([]any)
	if value != nil && !isArray {
		t.wrong(key, "an array of names and numbers", value)
	}
	for _, it := range elements {
		number, err := numberOfElement(it, numberOf)
		if err != nil {
			t.fault(key, err.Error())
			continue
		}
		numbers[number] = true
	}
	return numbers
}

// The last number of 32 bits is that of nobody: system calls mean by it that none is given.
const mostNumber = 1<<32 - 2

func numberOfElement(element any, numberOf func(string) (uint32, error)) (uint32, error) {
	switch it := element.(type) {
	case string:
		return numberOf(it)
	case int64:
		if it >= 0 && it <= mostNumber {
			return uint32(it), nil
		}
		return 0, fmt.Errorf("a number from 0 to %d is wanted, %d is there", mostNumber, it)
	}
	return 0, fmt.Errorf("a name or a number is wanted, %s is there", kindOf(element))
}

func userNumber(name string) (uint32, error) {
	it, err := user.Lookup(name)
	if err != nil {
		return 0, failed("user", name, err)
	}
	return parsed(it.Uid)
}

func groupNumber(name string) (uint32, error) {
	it, err := user.LookupGroup(name)
	if err != nil {
		return 0, failed("group", name, err)
	}
	return parsed(it.Gid)
}

func failed(kind, name string, err error) error {
	var noUser user.UnknownUserError
	var noGroup user.UnknownGroupError
	if errors.As(err, &noUser) || errors.As(err, &noGroup) {
		return fmt.Errorf("no such %s: %q", kind, name)
	}
	return fmt.Errorf("%s %q is not found: %v", kind, name, err)
}

func parsed(digits string) (uint32, error) {
	number, err := strconv.ParseUint(digits, 10, 32)
	return uint32(number), err
}

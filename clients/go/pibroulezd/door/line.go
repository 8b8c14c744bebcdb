package door

import (
	"bytes"
	"encoding/json"
	"errors"
	"fmt"
	"strconv"
	"unicode/utf8"

	"pibroulez.example/pibroulez"
)

// How many arrays and objects a line may be deep, as the store has it.
const mostDeep = 127

// A command is what a line says, before the store has seen it.
type command struct {
	pibroulez.Line
	// The text of its id in JSON, or nil.
	id []byte
	// What is wrong with it, as the store says it, or empty.
	fault string
}

// Takes a line apart, as the store does (docs/SCRIPT.md). What it takes is written anew for the store, so that both judge
// the same.
func parse(text []byte) command {
	if !isJSON(text) {
		return command{fault: "not JSON"}
	}
	var members map[string]json.RawMessage
	if first := bytes.TrimLeft(text, " \t\r\n"); first[0] != '{' {
		return command{fault: "not an object"}
	}
	if err := json.Unmarshal(text, &members); err != nil {
		return command{fault: "not JSON"}
	}
	c := command{Line: pibroulez.Line{Members: members}, id: idOf(members["id"])}
	do := members["do"]
	delete(members, "id")
	delete(members, "do")
	if !isText(do) || json.Unmarshal(do, &c.Do) != nil {
		c.fault = "bad field do: the word of a command, in a job that of a file command, is wanted, " + kindOf(do) + " is there"
	} else if c.Do == "open" || c.Do == "restore" {
		c.fault = "open twice"
	}
	return c
}

// Whether a line has nothing but what may stand between words.
func isEmpty(text []byte) bool { return len(bytes.Trim(text, " \t\r")) == 0 }

func isText(value []byte) bool { return len(value) > 0 && value[0] == '"' }

// What is there in place of a text.
func kindOf(value []byte) string {
	if len(value) == 0 {
		return "nothing"
	}
	switch value[0] {
	case 'n':
		return "null"
	case 't', 'f':
		return "a truth value"
	case '[':
		return "an array"
	case '{':
		return "an object"
	case '"':
		return "another text"
	}
	return "a number"
}

// The text of an id as the store writes it: a text, or a number of digits alone. Another one is none.
func idOf(value []byte) []byte {
	if isText(value) {
		var text string
		if json.Unmarshal(value, &text) != nil {
			return nil
		}
		return quoted(text)
	}
	if _, err := strconv.ParseUint(string(value), 10, 64); err != nil {
		return nil
	}
	return value
}

// A text in JSON as the store escapes it.
func quoted(text string) []byte {
	line := []byte{'"'}
	for i := 0; i < len(text); i++ {
		switch b := text[i]; {
		case b == '"' || b == '\\':
			line = append(line, '\\', b)
		case b >= ' ':
			line = append(line, b)
		case bytes.IndexByte([]byte("\b\f\n\r\t"), b) >= 0:
			line = append(line, '\\', "btn?fr"[b-'\b'])
		default:
			line = append(line, fmt.Sprintf(`\u%04x`, b)...)
		}
	}
	return append(line, '"')
}

// Whether a line is JSON in UTF-8, not too deep, whose escapes are of characters and whose numbers are those of a float of
// 64 bits.
func isJSON(text []byte) bool {
	if !utf8.Valid(text) {
		return false
	}
	depth, isWithin := 0, false
	for i := 0; i < len(text); i++ {
		switch b := text[i]; {
		case isWithin && b == '\\':
			length := escapeLength(text[i:])
			if length == 0 {
				return false
			}
			i += length - 1
		case b == '"':
			isWithin = !isWithin
		case isWithin:
		case b == '{' || b == '[':
			if depth++; depth > mostDeep {
				return false
			}
		case b == '}' || b == ']':
			depth--
		case b == '-' || b >= '0' && b <= '9':
			number := numberIn(text[i:])
			if _, err := strconv.ParseFloat(number, 64); errors.Is(err, strconv.ErrRange) {
				return false
			}
			i += len(number) - 1
		}
	}
	return json.Valid(text)
}

// What begins a text and may be of a number.
func numberIn(text []byte) string {
	return string(text[:len(text)-len(bytes.TrimLeft(text, "+-.0123456789eE"))])
}

// How many bytes the escape has that begins a text, two halves of a character together, or 0 where it is none.
func escapeLength(text []byte) int {
	if len(text) < 2 {
		return 0
	}
	if text[1] != 'u' {
		return 2
	}
	const escape = len(`\u0000`)
	switch unit := unitOf(text); {
	case unit < 0 || unit >= 0xdc00 && unit < 0xe000:
		return 0
	case unit < 0xd800 || unit >= 0xe000:
		return escape
	}
	if low := unitOf(text[escape:]); low < 0xdc00 || low >= 0xe000 {
		return 0
	}
	return 2 * escape
}

// The number of an escape by four digits, or one below 0.
func unitOf(text []byte) int64 {
	if len(text) < 6 || text[0] != '\\' || text[1] != 'u' {
		return -1
	}
	unit, err := strconv.ParseUint(string(text[2:6]), 16, 16)
	if err != nil {
		return -1
	}
	return int64(unit)
}

// The answer within what a line with an id is answered. The faults of a line that is no object have none.
func withID(answer, id []byte) []byte {
	if id == nil {
		return answer
	}
	return bytes.Join([][]byte{[]byte(`{"answer":`), answer, []byte(`,"id":`), id, []byte(`}`)}, nil)
}

func faultOf(words string, number uint64) []byte {
	return []byte(fmt.Sprintf(`{"fault":%s,"line":%d}`, quoted(words), number))
}

func refusalOf(name pibroulez.Reason) []byte {
	return []byte(fmt.Sprintf(`{"error":%s,"from":"door"}`, quoted(string(name))))
}

// An answer of the store to a line with this number and id. A fault has the number that the line had for the store.
func handedOn(answer []byte, number uint64, id []byte) []byte {
	if !bytes.HasPrefix(answer, []byte(`{"fault":`)) {
		return withID(answer, id)
	}
	if at := bytes.LastIndex(answer, []byte(`,"line":`)); at >= 0 {
		answer = append(answer[:at:at], fmt.Sprintf(`,"line":%d}`, number)...)
	}
	if bytes.HasPrefix(answer, []byte(`{"fault":"not JSON",`)) {
		return answer
	}
	return withID(answer, id)
}

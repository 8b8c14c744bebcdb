package pibroulez

import (
	"context"
	"encoding/json"
	"fmt"
)

// An Operation is one of a batch: the word of a file command, and its fields but `ns`, `key` and `extra`, as docs/SCRIPT.md
// names them. MkdirOf and those below make one.
type Operation struct {
	Do     string
	Fields map[string]any
}

// MarshalJSON is the object of the operation. It is ErrReserved where a field is `do`.
func (o Operation) MarshalJSON() ([]byte, error) {
	object := fields{"do": o.Do}
	for name, value := range o.Fields {
		if name == "do" {
			return nil, fmt.Errorf("%w: %s", ErrReserved, name)
		}
		object[name] = value
	}
	return json.Marshal(object)
}

// MkdirOf makes a directory of a mode.
func MkdirOf(path string, mode uint32) Operation {
	return Operation{"mkdir", fields{"path": path, "mode": mode}}
}

// CreateOf makes an empty file of a mode.
func CreateOf(path string, mode uint32) Operation {
	return Operation{"create", fields{"path": path, "mode": mode}}
}

// PutOf makes a file of a mode and a size in bytes, which aren't kept. Its digest may be empty for none.
func PutOf(path string, mode uint32, size uint64, digest string) Operation {
	given := fields{"path": path, "mode": mode, "size": size}
	if digest != "" {
		given["digest"] = digest
	}
	return Operation{"put", given}
}

// WriteTextOf writes a text into a file.
func WriteTextOf(path string, offset uint64, text string) Operation {
	return Operation{"write", fields{"path": path, "offset": offset, "text": text}}
}

// WriteFillOf writes a byte a number of times into a file.
func WriteFillOf(path string, offset uint64, fill byte, count uint64) Operation {
	return Operation{"write", fields{"path": path, "offset": offset, "fill": [2]uint64{uint64(fill), count}}}
}

// TruncateOf cuts a file, or fills it with zero bytes, to a size.
func TruncateOf(path string, size uint64) Operation {
	return Operation{"truncate", fields{"path": path, "size": size}}
}

// SetmodeOf sets the mode of a file or directory.
func SetmodeOf(path string, mode uint32) Operation {
	return Operation{"setmode", fields{"path": path, "mode": mode}}
}

// SymlinkOf makes a symlink.
func SymlinkOf(path, target string) Operation {
	return Operation{"symlink", fields{"path": path, "target": target}}
}

// LinkOf gives a file or symlink one more name.
func LinkOf(oldPath, newPath string) Operation {
	return Operation{"link", fields{"from": oldPath, "to": newPath}}
}

// RenameOf moves what is at a path.
func RenameOf(oldPath, newPath string) Operation {
	return Operation{"rename", fields{"from": oldPath, "to": newPath}}
}

// UnlinkOf removes a file or symlink.
func UnlinkOf(path string) Operation { return Operation{"unlink", fields{"path": path}} }

// RmdirOf removes an empty directory.
func RmdirOf(path string) Operation { return Operation{"rmdir", fields{"path": path}} }

// WhiteoutOf removes what is at a path, a directory with all that is in it.
func WhiteoutOf(path string) Operation { return Operation{"whiteout", fields{"path": path}} }

// OpaqueOf hides what the layers below have in a directory.
func OpaqueOf(path string) Operation { return Operation{"opaque", fields{"path": path}} }

// Batched is what a batch leaves.
type Batched struct {
	// Done is how many operations were done.
	Done uint64 `json:"done"`
	// Count is what the layer takes after them, and Share what is charged for it.
	Count Usage `json:"count"`
	Share Usage `json:"share"`
}

// An OperationRefused says that an operation of a batch was refused. Those before it are done, of a batch WithWhole none, and
// no later one is.
type OperationRefused struct {
	// Number is the operation's, from 1.
	Number uint64
	Why    *Refusal
}

func (o *OperationRefused) Error() string { return fmt.Sprintf("operation %d: %v", o.Number, o.Why) }

// Unwrap is the refusal.
func (o *OperationRefused) Unwrap() error { return o.Why }

// Batch charges what is needed, and carries out operations in order. One that needs more than is charged makes a charge of
// its own. The first that is refused is an OperationRefused, with what those before it leave; WithWhole the layer is as it was
// before the batch, and charges stay. Where the charge is refused, the error is that Refusal, and nothing is done.
func (s *Store) Batch(ctx context.Context, namespace, key string, need Usage, operations []Operation, options ...Option) (Batched, error) {
	if operations == nil {
		operations = []Operation{}
	}
	var text json.RawMessage
	given := fields{"ns": namespace, "key": key, "need": need, "ops": operations}
	if err := s.call(ctx, "batch", given, options, &text); err != nil {
		return Batched{}, err
	}
	var answer struct {
		Batched
		Op uint64
	}
	if err := json.Unmarshal(text, &answer); err != nil || answer.Op == 0 {
		return answer.Batched, err
	}
	refusal, err := refusalIn(text)
	if err != nil {
		return answer.Batched, err
	}
	return answer.Batched, fmt.Errorf("batch: %w", &OperationRefused{answer.Op, refusal})
}

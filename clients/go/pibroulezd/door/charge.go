package door

import (
	"context"
	"encoding/json"
	"errors"
	"fmt"
	"strings"
	"time"

	"pibroulez.example/pibroulez"
)

// An OverLimit is a charge for which no room was found.
type OverLimit struct {
	// Free is what the tenant has free, and Words say why that isn't enough.
	Free  pibroulez.Usage
	Words string
}

func (o *OverLimit) Error() string { return o.Words }

func (o *OverLimit) text() []byte {
	return []byte(fmt.Sprintf(`{"error":"OverLimit","free":[%d,%d],"from":"cluster","words":%s}`, o.Free.Blocks, o.Free.Inodes, quoted(o.Words)))
}

// Commands that may charge.
var charges = setOf(
	"prepare", "charge",
	"mkdir", "create", "put", "write", "truncate", "setmode", "symlink", "link", "rename", "unlink", "rmdir", "opaque", "whiteout",
	"batch",
)

// Carries out a line that may charge, to its end: one that is made again for more room mustn't come after those behind it.
func (c *connection) charge(it command, isAlone bool) bool {
	begin := time.Now()
	var text []byte
	err := c.door.config.Charge(c.ctx, textOf(it.Members["ns"]), c.needOf(it.Line), func(ctx context.Context) error {
		sent, err := c.door.config.Store.Send(ctx, it.Line)
		if err != nil {
			return err
		}
		if text, err = sent.Answer(ctx); err != nil {
			return err
		}
		return overLimitIn(text)
	})
	var over *OverLimit
	var refusal *pibroulez.Refusal
	switch {
	case errors.As(err, &over):
		text = over.text()
	case err != nil && !errors.As(err, &refusal):
		c.end(isAlone)
		if name := c.door.reasonOf(err); name != "" {
			return c.refuse(it, name)
		}
		return false
	}
	c.door.counters.answer(text)
	if c.door.config.Observe != nil {
		c.door.config.Observe(it.Do, time.Since(begin))
	}
	c.waiting <- answer{text: handedOn(text, c.number, it.id), isAlone: isAlone}
	return true
}

// The refusal of an answer for want of room, if it is one.
func overLimitIn(text []byte) error {
	if !strings.HasPrefix(string(text), `{"error":"OverLimit",`) {
		return nil
	}
	refusal := new(pibroulez.Refusal)
	if err := json.Unmarshal(text, refusal); err != nil {
		return err
	}
	return refusal
}

const blockSize = 4096

// The most that a line may charge beyond what is charged: its own nodes, and copies of what it changes and of each
// directory above, by the counts of docs/RULES.md. What isn't well-formed charges nothing, since it is a fault.
func (c *connection) needOf(line pibroulez.Line) pibroulez.Usage {
	var fields struct {
		NS, Key, Path, From, To, Text string
		Need                          pibroulez.Usage
		Size, Offset                  uint64
		Fill                          [2]uint64
	}
	members, err := json.Marshal(line.Members)
	if err != nil || json.Unmarshal(members, &fields) != nil {
		return pibroulez.Usage{}
	}
	// The size that a file has there, or 0.
	size := func(path string) uint64 {
		seen, err := c.door.config.Store.Look(c.ctx, fields.NS, fields.Key, path)
		if err != nil {
			return 0
		}
		return seen.Size
	}
	need := above(fields.Path)
	need.Inodes++
	switch line.Do {
	case "prepare":
		return pibroulez.Usage{Blocks: 1, Inodes: 1}
	case "charge", "batch":
		return fields.Need
	case "mkdir", "opaque":
		need.Blocks++
	case "put", "truncate":
		need.Blocks += blocksOf(fields.Size)
	case "write":
		need.Blocks += blocksOf(larger(size(fields.Path), fields.Offset+uint64(len(fields.Text))+fields.Fill[1]))
	case "setmode":
		need.Blocks += larger(1, blocksOf(size(fields.Path)))
	case "link", "rename":
		from, to := above(fields.From), above(fields.To)
		// The file, and a whiteout in its place.
		need = pibroulez.Usage{Blocks: from.Blocks + to.Blocks + blocksOf(size(fields.From)), Inodes: from.Inodes + to.Inodes + 2}
	}
	return need
}

// What copies of the directories above a path take.
func above(path string) pibroulez.Usage {
	names := uint64(strings.Count(path, "/"))
	if names == 0 {
		return pibroulez.Usage{}
	}
	return pibroulez.Usage{Blocks: names - 1, Inodes: names - 1}
}

// A size that is too great is a refusal, and takes nothing.
func blocksOf(size uint64) uint64 {
	if size > 1<<40 {
		return 0
	}
	return (size + blockSize - 1) / blockSize
}

func larger(a, b uint64) uint64 {
	if a > b {
		return a
	}
	return b
}

package main

import (
	"context"
	"encoding/json"
	"errors"
	"strings"

	"pibroulez.example/pibroulez"
)

var errSaved = errors.New("others have saved the store meanwhile, each time")

// The lines of the saved store. It begins anew where another one saves it between two pages.
func save(ctx context.Context, store *pibroulez.Store, _ words) (answer, error) {
	for try := 0; try < mostTries; try++ {
		lines := []json.RawMessage{}
		var text strings.Builder
		err := store.SaveAll(ctx, func(line json.RawMessage) error {
			hasRead(ctx, 1)
			lines = append(lines, line)
			text.Write(line)
			return text.WriteByte('\n')
		})
		if !errors.Is(err, pibroulez.ErrBadArgument) {
			return answer{value: lines, words: text.String()}, err
		}
	}
	return answer{}, errSaved
}

func logSave(ctx context.Context, stores []*pibroulez.Store) (answer, error) {
	return save(ctx, stores[0], words{})
}

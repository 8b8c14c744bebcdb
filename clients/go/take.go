package pibroulez

import (
	"context"
	"encoding/json"
	"fmt"
)

// Take waits for the answer as Answer does, and takes its members, where answer isn't nil, as json.Unmarshal does. A refusal
// is a *Refusal then, and a fault a *Fault. It is called once, in place of Answer.
func (s *Sent) Take(ctx context.Context, answer any) error {
	text, err := s.Answer(ctx)
	if err == nil {
		err = refused(text)
	}
	if err != nil {
		return fmt.Errorf("%s: %w", s.call.do, err)
	}
	if answer == nil {
		return nil
	}
	return json.Unmarshal(text, answer)
}

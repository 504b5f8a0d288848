package main

// A Message is one that came to a consumer: what acknowledges it, and its bytes.
type Message struct {
	ID   string
	Tag  uint64
	Body []byte
}

// A Kind says how a subscription gives its messages to its consumers.
type Kind string

const (
	Exclusive Kind = "Exclusive"
	Shared    Kind = "Shared"
	KeyShared Kind = "Key_Shared"
)

// A Feature is what a measure needs and not every system has.
type Feature int

const (
	Nothing Feature = iota
	AcknowledgesUpTo
	SharesByKey
)

// A System is one of those that stand beside each other. Each topic has one subscription, which keeps every message that
// is published after Prepare.
type System interface {
	Name() string
	Has(Feature) bool
	// Start begins it over what the folder has, and returns once it answers.
	Start(folder string) error
	Process() *Process
	Version() (string, error)
	Prepare(topic string, kind Kind) error
	// Publisher has at most so many publishes unanswered.
	Publisher(topic string, most int) (Publisher, error)
	Consumer(topic string, kind Kind, prefetch int) (Consumer, error)
}

// A Publisher may be used by two at once, of whom one sends and the other takes the answers.
type Publisher interface {
	// Send may keep the message until Flush. The body is the caller's again afterwards.
	Send(key string, body []byte) error
	Flush() error
	// Answer waits for the answer to the first publish that has none, and fails where it is no ok.
	Answer() error
	Close()
}

// A Consumer is used by one at a time, but for Close, which ends a Receive that waits.
type Consumer interface {
	// Receive waits until there is at least one message.
	Receive() ([]Message, error)
	Acknowledge([]Message) error
	AcknowledgeUpTo(Message) error
	Close()
}

package main

import (
	"crypto/sha256"
	"encoding/json"
	"fmt"
	"io"
	"net/url"
	"os"
	"path/filepath"
	"strconv"
	"time"

	"github.com/gorilla/websocket"
)

// Broker is the topic broker of this repository, over Pulsar's WebSocket API.
type Broker struct {
	program, address string
	process          *Process
}

func (b *Broker) Name() string      { return "broker" }
func (b *Broker) Has(Feature) bool  { return true }
func (b *Broker) Process() *Process { return b.process }
func (b *Broker) Address() string   { return b.address }

func (b *Broker) Start(folder string) (err error) {
	if b.address, err = freeAddress(); err != nil {
		return err
	}
	b.process, err = startProcess(folder, nil, b.program, filepath.Join(folder, "broker.db"), b.address, "4")
	if err != nil {
		return err
	}
	return b.process.await(func() error { return listens(b.address) })
}

// It has no version of its own, so the program's bytes say which it is.
func (b *Broker) Version() (string, error) {
	file, err := os.Open(b.program)
	if err != nil {
		return "", err
	}
	defer file.Close()
	sum := sha256.New()
	if _, err := io.Copy(sum, file); err != nil {
		return "", err
	}
	return fmt.Sprintf("the program with SHA-256 %.6x..", sum.Sum(nil)), nil
}

func (b *Broker) dial(endpoint, topic, rest string, query url.Values) (*websocket.Conn, error) {
	target := url.URL{
		Scheme:   "ws",
		Host:     b.address,
		Path:     "/ws/v2/" + endpoint + "/persistent/public/default/" + topic + rest,
		RawQuery: query.Encode(),
	}
	connection, _, err := websocket.DefaultDialer.Dial(target.String(), nil)
	return connection, err
}

func (b *Broker) subscribe(topic string, kind Kind, query url.Values) (*websocket.Conn, error) {
	query.Set("subscriptionType", string(kind))
	query.Set("subscriptionInitialPosition", "Earliest")
	return b.dial("consumer", topic, "/"+subscription, query)
}

// A subscription is made by its first consumer, which takes nothing here. Its coming and its going are waited for, since
// neither has an answer, and the next consumer may be refused while it is there.
func (b *Broker) Prepare(topic string, kind Kind) error {
	first, err := b.subscribe(topic, kind, url.Values{"pullMode": {"true"}})
	if err != nil {
		return err
	}
	defer first.Close()
	if err := b.awaitMembers(topic, 1); err != nil {
		return err
	}
	closeOrderly(first)
	return b.awaitMembers(topic, 0)
}

// Waits until the topic's subscription has so many consumers. Before there is a topic, whoever asks is refused.
func (b *Broker) awaitMembers(topic string, count int) error {
	var members int
	var err error
	for tries := 0; tries < 2000; tries++ {
		if members, err = b.members(topic); err == nil && members == count {
			return nil
		}
		time.Sleep(5 * time.Millisecond)
	}
	return fmt.Errorf("the subscription of %s has %d consumers instead of %d: %w", topic, members, count, err)
}

func (b *Broker) members(topic string) (int, error) {
	admin, err := b.dial("admin", topic, "", nil)
	if err != nil {
		return 0, err
	}
	defer admin.Close()
	if err := admin.WriteJSON(map[string]string{"type": "stats", "subscription": subscription}); err != nil {
		return 0, err
	}
	var stats struct {
		Result  string
		Members int
	}
	if err := admin.ReadJSON(&stats); err != nil {
		return 0, err
	}
	if stats.Result != "ok" {
		return 0, fmt.Errorf("the statistics were answered %s", stats.Result)
	}
	return stats.Members, nil
}

// An end that the broker is told of, so that what was sent just before is taken in.
func closeOrderly(connection *websocket.Conn) {
	said := websocket.FormatCloseMessage(websocket.CloseNormalClosure, "")
	connection.WriteControl(websocket.CloseMessage, said, time.Now().Add(time.Second))
	connection.Close()
}

func (b *Broker) Publisher(topic string, _ int) (Publisher, error) {
	connection, err := b.dial("producer", topic, "", nil)
	return &brokerPublisher{connection: connection}, err
}

func (b *Broker) Consumer(topic string, kind Kind, prefetch int) (Consumer, error) {
	connection, err := b.subscribe(topic, kind, url.Values{"receiverQueueSize": {strconv.Itoa(prefetch)}})
	if err != nil {
		return nil, err
	}
	consumer := &brokerConsumer{connection: connection, texts: make(chan []byte, prefetch)}
	go consumer.read()
	return consumer, nil
}

type brokerPublisher struct {
	connection     *websocket.Conn
	sent, answered int
}

type brokerPublish struct {
	Payload []byte `json:"payload"`
	Context string `json:"context"`
	Key     string `json:"key,omitempty"`
}

type brokerAnswer struct {
	Result, MessageID, Context, ErrorMsg string
}

func (p *brokerPublisher) Send(key string, body []byte) error {
	p.sent++
	return p.connection.WriteJSON(brokerPublish{body, strconv.Itoa(p.sent), key})
}

func (p *brokerPublisher) Flush() error { return nil }
func (p *brokerPublisher) Close()       { p.connection.Close() }

func (p *brokerPublisher) Answer() error {
	var answer brokerAnswer
	if err := p.connection.ReadJSON(&answer); err != nil {
		return err
	}
	p.answered++
	if answer.Result != "ok" || answer.Context != strconv.Itoa(p.answered) {
		return fmt.Errorf("publish %d was answered %+v", p.answered, answer)
	}
	return nil
}

// One goroutine reads texts while another makes messages of them, as the library for AMQP does by itself.
type brokerConsumer struct {
	connection *websocket.Conn
	texts      chan []byte
	failed     error // once the channel is closed
}

type brokerDelivery struct {
	MessageID string
	Payload   []byte
}

type brokerCommand struct {
	Type      string `json:"type,omitempty"`
	MessageID string `json:"messageId"`
}

func (c *brokerConsumer) read() {
	defer close(c.texts)
	for {
		_, text, err := c.connection.ReadMessage()
		if err != nil {
			c.failed = err
			return
		}
		c.texts <- text
	}
}

func (c *brokerConsumer) Receive() ([]Message, error) {
	text, open := <-c.texts
	if !open {
		return nil, c.failed
	}
	var delivery brokerDelivery
	if err := json.Unmarshal(text, &delivery); err != nil {
		return nil, err
	}
	return []Message{{ID: delivery.MessageID, Body: delivery.Payload}}, nil
}

func (c *brokerConsumer) Acknowledge(messages []Message) error {
	for _, message := range messages {
		if err := c.connection.WriteJSON(brokerCommand{MessageID: message.ID}); err != nil {
			return err
		}
	}
	return nil
}

func (c *brokerConsumer) AcknowledgeUpTo(message Message) error {
	return c.connection.WriteJSON(brokerCommand{"acknowledgeCumulative", message.ID})
}

func (c *brokerConsumer) Close() { closeOrderly(c.connection) }

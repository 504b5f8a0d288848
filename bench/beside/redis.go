package main

import (
	"errors"
	"fmt"
	"strings"

	"github.com/gomodule/redigo/redis"
)

// The subscription of each topic, under this name in Redis and in the broker.
const subscription = "s"

// Redis keeps a topic as a stream, and its subscription as the stream's group.
type Redis struct {
	address string
	process *Process
	members int
}

func (r *Redis) Name() string              { return "Redis" }
func (r *Redis) Has(feature Feature) bool  { return feature == Nothing }
func (r *Redis) Process() *Process         { return r.process }
func (r *Redis) Address() string           { return r.address }
func (r *Redis) dial() (redis.Conn, error) { return redis.Dial("tcp", r.address) }

func (r *Redis) Start(folder string) (err error) {
	if r.address, err = freeAddress(); err != nil {
		return err
	}
	r.process, err = startProcess(folder, nil, "redis-server", "--bind", "127.0.0.1", "--port", portOf(r.address),
		"--dir", folder, "--appendonly", "yes", "--appendfsync", "always", "--save", "")
	if err != nil {
		return err
	}
	return r.process.await(func() error { return r.once("PING") })
}

// Says one command on a connection of its own.
func (r *Redis) once(command string, words ...interface{}) error {
	connection, err := r.dial()
	if err != nil {
		return err
	}
	defer connection.Close()
	_, err = connection.Do(command, words...)
	return err
}

func (r *Redis) Version() (string, error) {
	connection, err := r.dial()
	if err != nil {
		return "", err
	}
	defer connection.Close()
	text, err := redis.String(connection.Do("INFO", "server"))
	if err != nil {
		return "", err
	}
	for _, line := range strings.Fields(text) {
		if strings.HasPrefix(line, "redis_version:") {
			return strings.TrimPrefix(line, "redis_version:"), nil
		}
	}
	return "", errors.New("it does not say its version")
}

func (r *Redis) Prepare(topic string, _ Kind) error {
	return r.once("XGROUP", "CREATE", topic, subscription, "0", "MKSTREAM")
}

func (r *Redis) Publisher(topic string, _ int) (Publisher, error) {
	connection, err := r.dial()
	return &redisPublisher{connection, topic}, err
}

func (r *Redis) Consumer(topic string, _ Kind, prefetch int) (Consumer, error) {
	connection, err := r.dial()
	r.members++
	return &redisConsumer{connection, topic, fmt.Sprintf("c%d", r.members), prefetch}, err
}

type redisPublisher struct {
	connection redis.Conn
	topic      string
}

func (p *redisPublisher) Send(_ string, body []byte) error {
	return p.connection.Send("XADD", p.topic, "*", "payload", body)
}

func (p *redisPublisher) Flush() error { return p.connection.Flush() }
func (p *redisPublisher) Close()       { p.connection.Close() }

func (p *redisPublisher) Answer() error {
	_, err := redis.String(p.connection.Receive())
	return err
}

type redisConsumer struct {
	connection  redis.Conn
	topic, name string
	prefetch    int
}

func (c *redisConsumer) Receive() ([]Message, error) {
	streams, err := redis.Values(c.connection.Do("XREADGROUP", "GROUP", subscription, c.name, "COUNT", c.prefetch,
		"BLOCK", 0, "STREAMS", c.topic, ">"))
	if err != nil {
		return nil, err
	}
	stream, err := redis.Values(streams[0], nil)
	if err != nil {
		return nil, err
	}
	entries, err := redis.Values(stream[1], nil)
	if err != nil {
		return nil, err
	}
	messages := make([]Message, 0, len(entries))
	for _, entry := range entries {
		message, err := redisMessage(entry)
		if err != nil {
			return nil, err
		}
		messages = append(messages, message)
	}
	return messages, nil
}

// An entry is its id and the list of its fields and their values.
func redisMessage(entry interface{}) (Message, error) {
	parts, err := redis.Values(entry, nil)
	if err != nil {
		return Message{}, err
	}
	id, err := redis.String(parts[0], nil)
	if err != nil {
		return Message{}, err
	}
	fields, err := redis.ByteSlices(parts[1], nil)
	if err != nil {
		return Message{}, err
	}
	return Message{ID: id, Body: fields[1]}, nil
}

func (c *redisConsumer) Acknowledge(messages []Message) error {
	words := redis.Args{c.topic, subscription}
	for _, message := range messages {
		words = append(words, message.ID)
	}
	count, err := redis.Int(c.connection.Do("XACK", words...))
	if err == nil && count != len(messages) {
		err = fmt.Errorf("it acknowledged %d of %d messages", count, len(messages))
	}
	return err
}

func (c *redisConsumer) AcknowledgeUpTo(Message) error {
	return errors.New("there is no such acknowledgement")
}

func (c *redisConsumer) Close() { c.connection.Close() }

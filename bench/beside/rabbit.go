package main

import (
	"context"
	"errors"
	"fmt"
	"path/filepath"

	amqp "github.com/rabbitmq/amqp091-go"
)

// The server itself: the command of that name on the path begins it as another user, over folders of the system.
const rabbitServer = "/usr/lib/rabbitmq/bin/rabbitmq-server"

// Rabbit keeps a topic with its subscription as one quorum queue, of which it is the only node.
type Rabbit struct {
	address, version string
	process          *Process
}

func (r *Rabbit) Name() string             { return "RabbitMQ" }
func (r *Rabbit) Has(feature Feature) bool { return feature != SharesByKey }
func (r *Rabbit) Process() *Process        { return r.process }
func (r *Rabbit) Version() (string, error) { return r.version, nil }

func (r *Rabbit) dial() (*amqp.Connection, error) {
	return amqp.Dial("amqp://guest:guest@" + r.address + "/")
}

func (r *Rabbit) Start(folder string) error {
	var ports [3]string
	for i := range ports {
		address, err := freeAddress()
		if err != nil {
			return err
		}
		r.address, ports[i] = address, portOf(address)
	}
	// Erlang's daemon of names is begun here, since a server that does not find one leaves one behind.
	names, err := startProcess(folder, nil, "epmd", "-port", ports[0], "-address", "127.0.0.1")
	if err != nil {
		return err
	}
	process, err := startProcess(folder, rabbitEnvironment(folder, ports), rabbitServer)
	if err != nil {
		return err
	}
	process.needs, r.process = names, process
	return process.await(r.ask)
}

// Everything of the server's in its folder, and nothing of the system's. The process is the Erlang machine itself, where
// input is allowed, and then input is none.
func rabbitEnvironment(folder string, ports [3]string) []string {
	in := func(name string) string { return filepath.Join(folder, name) }
	return []string{
		"HOME=" + folder,
		"ERL_EPMD_PORT=" + ports[0],
		"ERL_EPMD_ADDRESS=127.0.0.1",
		"RABBITMQ_DIST_PORT=" + ports[1],
		"RABBITMQ_NODE_PORT=" + ports[2],
		"RABBITMQ_NODE_IP_ADDRESS=127.0.0.1",
		"RABBITMQ_NODENAME=beside@localhost",
		"RABBITMQ_CONF_ENV_FILE=" + in("none.conf"),
		"RABBITMQ_CONFIG_FILE=" + in("none"),
		"RABBITMQ_CONFIG_FILES=" + in("none.d"),
		"RABBITMQ_ADVANCED_CONFIG_FILE=" + in("none.config"),
		"RABBITMQ_ENABLED_PLUGINS_FILE=" + in("plugins"),
		"RABBITMQ_MNESIA_BASE=" + in("data"),
		"RABBITMQ_LOG_BASE=" + in("log"),
		"RABBITMQ_ALLOW_INPUT=true",
		"RABBITMQ_SERVER_ADDITIONAL_ERL_ARGS=-noinput",
	}
}

func (r *Rabbit) ask() error {
	connection, err := r.dial()
	if err != nil {
		return err
	}
	defer connection.Close()
	r.version = fmt.Sprintf("%v on %v", connection.Properties["version"], connection.Properties["platform"])
	return nil
}

// A connection of its own for each user, as the other two have it.
func (r *Rabbit) channel() (*amqp.Connection, *amqp.Channel, error) {
	connection, err := r.dial()
	if err != nil {
		return nil, nil, err
	}
	channel, err := connection.Channel()
	if err != nil {
		connection.Close()
		return nil, nil, err
	}
	return connection, channel, nil
}

func (r *Rabbit) Prepare(topic string, _ Kind) error {
	connection, channel, err := r.channel()
	if err != nil {
		return err
	}
	defer connection.Close()
	_, err = channel.QueueDeclare(topic, true, false, false, false, amqp.Table{"x-queue-type": "quorum"})
	return err
}

func (r *Rabbit) Publisher(topic string, most int) (Publisher, error) {
	connection, channel, err := r.channel()
	if err != nil {
		return nil, err
	}
	if err := channel.Confirm(false); err != nil {
		connection.Close()
		return nil, err
	}
	confirms := channel.NotifyPublish(make(chan amqp.Confirmation, most))
	return &rabbitPublisher{connection, channel, topic, confirms}, nil
}

func (r *Rabbit) Consumer(topic string, _ Kind, prefetch int) (Consumer, error) {
	connection, channel, err := r.channel()
	if err != nil {
		return nil, err
	}
	if err := channel.Qos(prefetch, 0, false); err != nil {
		connection.Close()
		return nil, err
	}
	deliveries, err := channel.Consume(topic, "", false, false, false, false, nil)
	if err != nil {
		connection.Close()
		return nil, err
	}
	return &rabbitConsumer{connection, channel, deliveries}, nil
}

type rabbitPublisher struct {
	connection *amqp.Connection
	channel    *amqp.Channel
	topic      string
	confirms   chan amqp.Confirmation
}

func (p *rabbitPublisher) Send(_ string, body []byte) error {
	return p.channel.PublishWithContext(context.Background(), "", p.topic, false, false,
		amqp.Publishing{DeliveryMode: amqp.Persistent, Body: body})
}

func (p *rabbitPublisher) Flush() error { return nil }
func (p *rabbitPublisher) Close()       { p.connection.Close() }

func (p *rabbitPublisher) Answer() error {
	confirm, open := <-p.confirms
	if !open {
		return errors.New("the channel was closed")
	}
	if !confirm.Ack {
		return errors.New("a publish was not confirmed")
	}
	return nil
}

type rabbitConsumer struct {
	connection *amqp.Connection
	channel    *amqp.Channel
	deliveries <-chan amqp.Delivery
}

func (c *rabbitConsumer) Receive() ([]Message, error) {
	delivery, open := <-c.deliveries
	if !open {
		return nil, errors.New("the channel was closed")
	}
	return []Message{{Tag: delivery.DeliveryTag, Body: delivery.Body}}, nil
}

func (c *rabbitConsumer) Acknowledge(messages []Message) error {
	for _, message := range messages {
		if err := c.channel.Ack(message.Tag, false); err != nil {
			return err
		}
	}
	return nil
}

func (c *rabbitConsumer) AcknowledgeUpTo(message Message) error {
	return c.channel.Ack(message.Tag, true)
}
func (c *rabbitConsumer) Close() { c.connection.Close() }

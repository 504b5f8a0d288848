package main

import (
	"encoding/binary"
	"fmt"
	"math/rand"
	"strconv"
	"time"
)

// How many publishes go before those that are timed.
const warming = 100

// The bytes of messages, each of which begins with its number. They are the same bytes again and again.
type bodies struct{ bytes []byte }

func newBodies(size int) bodies {
	bytes := make([]byte, size)
	rand.New(rand.NewSource(1)).Read(bytes)
	return bodies{bytes}
}

func (b bodies) numbered(number int) []byte {
	binary.BigEndian.PutUint64(b.bytes, uint64(number))
	return b.bytes
}

func numberOf(message Message) (int, error) {
	if len(message.Body) < 8 {
		return 0, fmt.Errorf("a message of %d bytes came", len(message.Body))
	}
	return int(binary.BigEndian.Uint64(message.Body)), nil
}

// Publishes and waits for the answer.
func publish(publisher Publisher, body []byte) error {
	if err := publisher.Send("", body); err != nil {
		return err
	}
	if err := publisher.Flush(); err != nil {
		return err
	}
	return publisher.Answer()
}

// How long each of so many publishes took, one at a time, after some that are not counted.
func publishTimes(publisher Publisher, count, size int) (times, error) {
	bodies := newBodies(size)
	took := make(times, 0, count)
	for number := -warming; number < count; number++ {
		before := time.Now()
		if err := publish(publisher, bodies.numbered(number)); err != nil {
			return nil, err
		}
		if number >= 0 {
			took = append(took, time.Since(before))
		}
	}
	return took, nil
}

// A stream of publishes that does not wait but where too many have no answer.
type stream struct {
	count, size, unanswered, keys int
}

func (s stream) publish(publisher Publisher) error {
	room := make(chan struct{}, s.unanswered)
	answered := make(chan error, 1)
	go func() {
		for number := 0; number < s.count; number++ {
			if err := publisher.Answer(); err != nil {
				answered <- err
				return
			}
			<-room
		}
		answered <- nil
	}()
	if err := s.send(publisher, room, answered); err != nil {
		return err
	}
	return <-answered
}

func (s stream) send(publisher Publisher, room chan<- struct{}, answered <-chan error) error {
	bodies := newBodies(s.size)
	for number := 0; number < s.count; number++ {
		select {
		case room <- struct{}{}:
		default:
			if err := publisher.Flush(); err != nil {
				return err
			}
			select {
			case room <- struct{}{}:
			case err := <-answered:
				return err
			}
		}
		key := ""
		if s.keys > 0 {
			key = "key-" + strconv.Itoa(number%s.keys)
		}
		if err := publisher.Send(key, bodies.numbered(number)); err != nil {
			return err
		}
	}
	return publisher.Flush()
}

// Publishes a stream into a topic, and says how many a second were answered.
func (s stream) into(system System, topic string) (float64, error) {
	publisher, err := system.Publisher(topic, s.unanswered)
	if err != nil {
		return 0, err
	}
	defer publisher.Close()
	before := time.Now()
	if err := s.publish(publisher); err != nil {
		return 0, err
	}
	return perSecond(s.count, time.Since(before)), nil
}

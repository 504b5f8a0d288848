package main

import (
	"fmt"
	"sync/atomic"
	"time"
)

// What came of so many messages: each is to come once.
type arrivals struct {
	came []uint32
	left int64
	all  chan struct{}
}

func newArrivals(count int) *arrivals {
	return &arrivals{make([]uint32, count), int64(count), make(chan struct{})}
}

func (a *arrivals) add(messages []Message) error {
	for _, message := range messages {
		number, err := numberOf(message)
		if err != nil {
			return err
		}
		if number < 0 || number >= len(a.came) || atomic.AddUint32(&a.came[number], 1) != 1 {
			return fmt.Errorf("message %d came again, or was not published", number)
		}
	}
	return nil
}

// Counts messages that are acknowledged.
func (a *arrivals) done(count int) {
	if atomic.AddInt64(&a.left, -int64(count)) == 0 {
		close(a.all)
	}
}

// Takes in and acknowledges messages, one acknowledgement for each or for so many, until all have come.
func (a *arrivals) consume(consumer Consumer, cumulative int) error {
	since := 0
	for atomic.LoadInt64(&a.left) > 0 {
		messages, err := consumer.Receive()
		if err != nil {
			return err
		}
		if err := a.add(messages); err != nil {
			return err
		}
		since += len(messages)
		if cumulative == 0 {
			err = consumer.Acknowledge(messages)
		} else if since >= cumulative || int64(since) == atomic.LoadInt64(&a.left) {
			err = consumer.AcknowledgeUpTo(messages[len(messages)-1])
		} else {
			continue
		}
		if err != nil {
			return err
		}
		a.done(since)
		since = 0
	}
	return nil
}

// Consumes the backlog with so many consumers at once, and says how many messages a second.
func (s Sizes) consumeBacklog(system System, kind Kind, members, cumulative int) (float64, error) {
	arrivals := newArrivals(s.backlog)
	failed := make(chan error, members)
	var consumers []Consumer
	defer func() {
		for _, consumer := range consumers {
			consumer.Close()
		}
	}()
	before := time.Now()
	for i := 0; i < members; i++ {
		consumer, err := system.Consumer(topic, kind, s.prefetch)
		if err != nil {
			return 0, err
		}
		consumers = append(consumers, consumer)
		go func() {
			if err := arrivals.consume(consumer, cumulative); err != nil {
				failed <- err
			}
		}()
	}
	select {
	case <-arrivals.all:
		return perSecond(s.backlog, time.Since(before)), nil
	case err := <-failed:
		return 0, err
	}
}

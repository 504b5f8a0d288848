package main

import (
	"fmt"
	"time"
)

// What so many messages take in memory, and how soon they are back after a kill.
func (s Sizes) kept(system System, folder string) ([]float64, error) {
	if err := system.Prepare(topic, Exclusive); err != nil {
		return nil, err
	}
	if _, err := (stream{s.stored, s.small, s.unanswered, 0}).into(system, topic); err != nil {
		return nil, err
	}
	time.Sleep(settling)
	memory, err := system.Process().Memory()
	if err != nil {
		return nil, err
	}
	system.Process().Kill()
	before := time.Now()
	if err := system.Start(folder); err != nil {
		return nil, err
	}
	err = system.Process().await(func() error { return hasMessage(system) })
	return []float64{memory, time.Since(before).Seconds()}, err
}

func hasMessage(system System) error {
	consumer, err := system.Consumer(topic, Exclusive, 1)
	if err != nil {
		return err
	}
	defer consumer.Close()
	_, err = consumer.Receive()
	return err
}

// What idle consumers cost, on twenty topics whose subscription they share.
func (s Sizes) beside(system System, _ string) ([]float64, error) {
	crowd, err := s.idlers(system)
	defer atOnce(len(crowd), func(i int) error { crowd[i].Close(); return nil })
	if err != nil {
		return nil, err
	}
	published, err := s.waiting(s.payload)(system, "")
	if err != nil {
		return nil, err
	}
	time.Sleep(settling)
	before, err := system.Process().Processor()
	if err != nil {
		return nil, err
	}
	time.Sleep(s.idle)
	after, err := system.Process().Processor()
	return []float64{published[0], float64(after-before) / float64(s.idle) * 100}, err
}

func (s Sizes) idlers(system System) (crowd []Consumer, err error) {
	name := func(i int) string { return fmt.Sprintf("crowd-%d", i%crowdTopics) }
	for i := 0; i < crowdTopics; i++ {
		if err := system.Prepare(name(i), Shared); err != nil {
			return nil, err
		}
	}
	for i := 0; i < s.crowd; i++ {
		consumer, err := system.Consumer(name(i), Shared, s.prefetch)
		if err != nil {
			return crowd, err
		}
		crowd = append(crowd, consumer)
		go consumer.Receive()
	}
	return crowd, nil
}

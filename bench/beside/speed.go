package main

import (
	"fmt"
	"time"
)

func (s Sizes) waiting(payload int) func(System, string) ([]float64, error) {
	return func(system System, _ string) ([]float64, error) {
		if err := system.Prepare(topic, Exclusive); err != nil {
			return nil, err
		}
		publisher, err := system.Publisher(topic, 1)
		if err != nil {
			return nil, err
		}
		defer publisher.Close()
		took, err := publishTimes(publisher, s.count, payload)
		if err != nil {
			return nil, err
		}
		return []float64{took.part(50), took.part(99), took.part(99.9)}, nil
	}
}

// Fills a topic, and consumes it.
func (s Sizes) backlogAt(system System, kind Kind, members, keys, cumulative int) ([]float64, error) {
	if err := system.Prepare(topic, kind); err != nil {
		return nil, err
	}
	filling, err := stream{s.backlog, s.payload, s.unanswered, keys}.into(system, topic)
	if err != nil {
		return nil, err
	}
	consuming, err := s.consumeBacklog(system, kind, members, cumulative)
	return []float64{filling, consuming}, err
}

func (s Sizes) backlogOfOne(system System, _ string) ([]float64, error) {
	return s.backlogAt(system, Exclusive, 1, 0, 0)
}

// The second of two, since the filling has its row already.
func second(rates []float64, err error) ([]float64, error) {
	if err != nil {
		return nil, err
	}
	return rates[1:], nil
}

func (s Sizes) backlogUpTo(system System, _ string) ([]float64, error) {
	return second(s.backlogAt(system, Exclusive, 1, 0, s.cumulative))
}

func (s Sizes) shared(system System, _ string) ([]float64, error) {
	return second(s.backlogAt(system, Shared, eight, 0, 0))
}

func (s Sizes) sharedByKey(system System, _ string) ([]float64, error) {
	return second(s.backlogAt(system, KeyShared, eight, s.keys, 0))
}

// From before a publish is sent until a consumer that waits has its message, which tells when that was.
func (s Sizes) endToEnd(system System, _ string) ([]float64, error) {
	if err := system.Prepare(topic, Exclusive); err != nil {
		return nil, err
	}
	consumer, err := system.Consumer(topic, Exclusive, s.prefetch)
	if err != nil {
		return nil, err
	}
	defer consumer.Close()
	publisher, err := system.Publisher(topic, 1)
	if err != nil {
		return nil, err
	}
	defer publisher.Close()
	began, took := time.Now(), make(times, 0, s.paced)
	ended := make(chan error, 2)
	go func() { ended <- s.publishPaced(publisher, began) }()
	go func() { ended <- arriveAfter(consumer, began, s.paced+warming, &took) }()
	for i := 0; i < 2; i++ {
		if err := <-ended; err != nil {
			return nil, err
		}
	}
	took = took[warming:]
	return []float64{took.part(50), took.part(99)}, nil
}

func (s Sizes) publishPaced(publisher Publisher, began time.Time) error {
	bodies := newBodies(s.payload)
	ticker := time.NewTicker(time.Second / time.Duration(s.perSecond))
	defer ticker.Stop()
	for number := 0; number < s.paced+warming; number++ {
		<-ticker.C
		if err := publish(publisher, bodies.numbered(int(time.Since(began)))); err != nil {
			return err
		}
	}
	return nil
}

// Takes in so many messages whose number is the moment at which they were sent.
func arriveAfter(consumer Consumer, began time.Time, count int, took *times) error {
	for len(*took) < count {
		messages, err := consumer.Receive()
		if err != nil {
			return err
		}
		now := time.Since(began)
		for _, message := range messages {
			sent, err := numberOf(message)
			if err != nil {
				return err
			}
			*took = append(*took, now-time.Duration(sent))
		}
		if err := consumer.Acknowledge(messages); err != nil {
			return err
		}
	}
	return nil
}

// Messages a second through eight topics, from the first publish until the last acknowledgement.
func (s Sizes) eightTopics(system System, _ string) ([]float64, error) {
	var publishers []Publisher
	var consumers []Consumer
	defer func() {
		atOnce(len(publishers), func(i int) error { publishers[i].Close(); return nil })
		atOnce(len(consumers), func(i int) error { consumers[i].Close(); return nil })
	}()
	for i := 0; i < eight; i++ {
		name := fmt.Sprintf("of-eight-%d", i)
		if err := system.Prepare(name, Exclusive); err != nil {
			return nil, err
		}
		consumer, err := system.Consumer(name, Exclusive, s.prefetch)
		if err != nil {
			return nil, err
		}
		consumers = append(consumers, consumer)
		publisher, err := system.Publisher(name, s.ofEight)
		if err != nil {
			return nil, err
		}
		publishers = append(publishers, publisher)
	}
	before := time.Now()
	err := atOnce(2*eight, func(i int) error {
		if i < eight {
			return stream{s.each, s.payload, s.ofEight, 0}.publish(publishers[i])
		}
		return newArrivals(s.each).consume(consumers[i-eight], 0)
	})
	return []float64{perSecond(eight*s.each, time.Since(before))}, err
}

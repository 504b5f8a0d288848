package main

import (
	"fmt"
	"sort"
	"time"
)

// Sizes of the measures, by flags.
type Sizes struct {
	count, backlog, paced, each, stored, crowd int
	payload, small, keys                       int
	unanswered, ofEight, prefetch, cumulative  int
	perSecond                                  int
	idle                                       time.Duration
}

const (
	eight       = 8
	crowdTopics = 20
	settling    = 2 * time.Second
	topic       = "t"
)

// A Measure fills some rows of the table. It finds a system that was just started over an empty folder. Where the client in C
// has it too, it does so by these words.
type Measure struct {
	number int
	rows   []Row
	needs  Feature
	do     func(system System, folder string) ([]float64, error)
	lean   []string
}

// Its numbers at a system, or none where that has not what it needs.
func (m Measure) at(system System, folder string) ([]float64, error) {
	if lean, ok := system.(*Lean); ok {
		return lean.measure(folder, m.lean)
	}
	return m.do(system, folder)
}

func (m Measure) has(system System) bool {
	_, lean := system.(*Lean)
	return system.Has(m.needs) && (!lean || m.lean != nil)
}

// A Row of the table.
type Row struct{ number, label, unit string }

// How fast, by times and rates that one publisher and one consumer have.
func (s Sizes) alone() []Measure {
	backlog := fmt.Sprintf("consume and acknowledge a backlog of %s, prefetch %s", grouped(s.backlog), grouped(s.prefetch))
	return []Measure{
		{1, waitingRows("publish and wait for the answer"), Nothing, s.waiting(s.payload), s.leanWaiting(s.payload)},
		{1, waitingRows(fmt.Sprintf("the same with %d bytes", s.small)), Nothing, s.waiting(s.small), s.leanWaiting(s.small)},
		{2, []Row{
			{"2", fmt.Sprintf("publish with up to %s unanswered", grouped(s.unanswered)), "a second"},
			{"3", backlog, "a second"},
		}, Nothing, s.backlogOfOne, s.leanBacklog()},
		{3, []Row{
			{"3", fmt.Sprintf("the same, one acknowledgement up to each %dth", s.cumulative), "a second"},
		}, AcknowledgesUpTo, s.backlogUpTo, nil},
		{4, []Row{
			{"4", fmt.Sprintf("end to end at %d a second, p50", s.perSecond), "µs"},
			{"4", "the same, p99", "µs"},
		}, Nothing, s.endToEnd, s.leanPaced()},
	}
}

func waitingRows(label string) []Row {
	return []Row{{"1", label + ", p50", "µs"}, {"1", label + ", p99", "µs"}, {"1", label + ", p99.9", "µs"}}
}

// How fast with many, and what is kept.
func (s Sizes) many() []Measure {
	stored := fmt.Sprintf("%s messages of %d bytes", grouped(s.stored), s.small)
	return []Measure{
		{5, []Row{
			{"5", fmt.Sprintf("eight topics, each with a publisher (up to %d unanswered) and a consumer", s.ofEight), "a second"},
		}, Nothing, s.eightTopics, nil},
		{6, []Row{
			{"6", fmt.Sprintf("Shared: a backlog of %s at 8 consumers", grouped(s.backlog)), "a second"},
		}, Nothing, s.shared, nil},
		{7, []Row{
			{"7", fmt.Sprintf("Key_Shared: the same with %s keys", grouped(s.keys)), "a second"},
		}, SharesByKey, s.sharedByKey, nil},
		{8, []Row{
			{"8", "memory with " + stored, "MiB"},
			{"9", "restart with them, until a consumer has the first", "s"},
		}, Nothing, s.kept, nil},
		{10, []Row{
			{"10", fmt.Sprintf("beside %s idle consumers: publish and wait, p50", grouped(s.crowd)), "µs"},
			{"10", "beside them: processor time while nothing happens", "% of one"},
		}, Nothing, s.beside, nil},
	}
}

// Does something for each of so many at once, until all are done or one has failed.
func atOnce(count int, do func(int) error) error {
	ended := make(chan error, count)
	for i := 0; i < count; i++ {
		go func(i int) { ended <- do(i) }(i)
	}
	for i := 0; i < count; i++ {
		if err := <-ended; err != nil {
			return err
		}
	}
	return nil
}

func perSecond(count int, took time.Duration) float64 { return float64(count) / took.Seconds() }

type times []time.Duration

// The time below which so many hundredths of the times are, in microseconds.
func (t times) part(hundredths float64) float64 {
	sort.Slice(t, func(i, j int) bool { return t[i] < t[j] })
	return microseconds(t[int(float64(len(t))*hundredths/100)])
}

func microseconds(took time.Duration) float64 { return float64(took) / float64(time.Microsecond) }

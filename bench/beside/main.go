// Measures the broker beside Redis Streams and RabbitMQ, and prints a table of Markdown. run.sh builds and starts it.
package main

import (
	"flag"
	"fmt"
	"os"
	"os/signal"
	"path/filepath"
	"strings"
	"syscall"
	"time"
)

// A Run is what the flags ask for.
type Run struct {
	program, lean, room string
	turns               int
	patience            time.Duration
	only, systems       string
	sizes               Sizes
}

func flags() *Run {
	run := &Run{}
	s := &run.sizes
	flag.StringVar(&run.program, "program", "", "the broker's program")
	flag.StringVar(&run.lean, "lean", "", "the client in C")
	flag.StringVar(&run.room, "room", ".", "the folder under which each system has its own")
	flag.IntVar(&run.turns, "turns", 3, "how often all is measured")
	flag.DurationVar(&run.patience, "patience", 20*time.Minute, "after how long a measure has failed")
	flag.StringVar(&run.only, "only", "", "the numbers of the measures, as 1,2; all where it is empty")
	flag.StringVar(&run.systems, "systems", "Redis,RabbitMQ,broker,Redis-lean,broker-lean",
		"those that are measured; lean is by the client in C")
	flag.IntVar(&s.count, "count", 10000, "publishes that wait, one at a time")
	flag.IntVar(&s.backlog, "backlog", 50000, "messages that are published at once, and consumed")
	flag.IntVar(&s.paced, "paced", 1000, "messages end to end")
	flag.IntVar(&s.perSecond, "rate", 200, "how many of them a second")
	flag.IntVar(&s.each, "each", 10000, "messages of each of the eight topics")
	flag.IntVar(&s.stored, "stored", 1000000, "messages that are kept over a restart")
	flag.IntVar(&s.crowd, "crowd", 1000, "idle consumers")
	flag.IntVar(&s.payload, "payload", 1024, "bytes of a message")
	flag.IntVar(&s.small, "small", 100, "bytes of a small message, and of those that are kept over a restart")
	flag.IntVar(&s.keys, "keys", 10000, "keys of Key_Shared")
	flag.IntVar(&s.unanswered, "unanswered", 1000, "publishes without an answer")
	flag.IntVar(&s.ofEight, "of-eight", 100, "publishes without an answer at each of the eight topics")
	flag.IntVar(&s.prefetch, "prefetch", 1000, "messages that a consumer may have unacknowledged")
	flag.IntVar(&s.cumulative, "cumulative", 100, "messages of one acknowledgement up to the last")
	flag.DurationVar(&s.idle, "idle", 10*time.Second, "how long nothing happens beside the idle consumers")
	flag.Parse()
	return run
}

// The measures that were asked for.
func (r *Run) measures() []Measure {
	all := append(r.sizes.alone(), r.sizes.many()...)
	if r.only == "" {
		return all
	}
	var some []Measure
	for _, measure := range all {
		for _, number := range strings.Split(r.only, ",") {
			if number == fmt.Sprint(measure.number) {
				some = append(some, measure)
			}
		}
	}
	return some
}

// The systems that were asked for.
func (r *Run) asked() ([]System, error) {
	redis, broker := &Redis{}, &Broker{program: r.program}
	all := map[string]System{}
	for _, system := range []System{redis, &Rabbit{}, broker, &Lean{redis, r.lean}, &Lean{broker, r.lean}} {
		all[system.Name()] = system
	}
	var some []System
	for _, name := range strings.Split(r.systems, ",") {
		system, known := all[name]
		if !known {
			return nil, fmt.Errorf("there is no system %q", name)
		}
		some = append(some, system)
	}
	return some, nil
}

// Measures everything in turns, and in each turn each measure at one system after the other, so that what else the
// machine does meets them alike.
func (r *Run) all(folder string) error {
	systems, err := r.asked()
	if err != nil {
		return err
	}
	costs, err := textCosts(r.sizes.payload)
	if err != nil {
		return err
	}
	synced, err := disk(folder)
	if err != nil {
		return err
	}
	fmt.Print(machine(), synced, clients(), costs)
	measures := r.measures()
	results := newResults(measures, systems)
	for turn := 1; turn <= r.turns; turn++ {
		for _, measure := range measures {
			for _, system := range systems {
				err := within(r.patience, func() error { return r.one(folder, measure, system, results) })
				if err != nil {
					return fmt.Errorf("%s, measure %d, turn %d: %w", system.Name(), measure.number, turn, err)
				}
			}
		}
	}
	fmt.Printf("%s\nMedians of %d:\n\n%s", results.Versions(), r.turns, results.Table())
	return nil
}

// Measures at a system that has a folder of its own for it.
func (r *Run) one(folder string, measure Measure, system System, results *Results) error {
	if !measure.has(system) {
		return nil
	}
	own := filepath.Join(folder, system.Name())
	if err := os.Mkdir(own, 0o700); err != nil {
		return err
	}
	defer os.RemoveAll(own)
	if err := system.Start(own); err != nil {
		return err
	}
	defer func() { system.Process().Kill() }()
	version, err := system.Version()
	if err != nil {
		return err
	}
	results.versions[system.Name()] = version
	values, err := measure.at(system, own)
	if err == nil && len(values) != len(measure.rows) {
		err = fmt.Errorf("there are %d numbers for %d rows", len(values), len(measure.rows))
	}
	if err != nil {
		return system.Process().explained(err)
	}
	for i, row := range measure.rows {
		results.add(row, system, values[i])
		fmt.Fprintf(os.Stderr, "%s: %s: %s %s\n", system.Name(), row.label, shown(values[i]), row.unit)
	}
	return nil
}

// Does it, or fails once it has taken too long.
func within(patience time.Duration, do func() error) error {
	ended := make(chan error, 1)
	go func() { ended <- do() }()
	select {
	case err := <-ended:
		return err
	case <-time.After(patience):
		return fmt.Errorf("it took more than %v", patience)
	}
}

// Stops all that it started, however it ends.
func (r *Run) begin() error {
	room, err := filepath.Abs(r.room)
	if err != nil {
		return err
	}
	folder, err := os.MkdirTemp(room, "beside-")
	if err != nil {
		return err
	}
	defer os.RemoveAll(folder)
	defer stopAll()
	signals := make(chan os.Signal, 1)
	signal.Notify(signals, syscall.SIGINT, syscall.SIGTERM, syscall.SIGHUP)
	ended := make(chan error, 1)
	go func() { ended <- r.all(folder) }()
	select {
	case err := <-ended:
		return err
	case said := <-signals:
		return fmt.Errorf("stopped by a signal: %v", said)
	}
}

func main() {
	run := flags()
	if err := run.begin(); err != nil {
		fmt.Fprintln(os.Stderr, "beside:", err)
		os.Exit(1)
	}
}

package main

import (
	"fmt"
	"os"
	"strconv"
	"strings"
)

// A Spoken is a system that the client in C can speak to.
type Spoken interface {
	System
	Address() string
}

// A Lean is a system that the client in C measures, which costs less than one in Go.
type Lean struct {
	Spoken
	program string
}

func (l *Lean) Name() string { return l.Spoken.Name() + "-lean" }

// Measures with these words, on a topic that has its subscription; the numbers that the client printed.
func (l *Lean) measure(folder string, words []string) ([]float64, error) {
	if err := l.Prepare(topic, Exclusive); err != nil {
		return nil, err
	}
	words = append([]string{l.Spoken.Name(), portOf(l.Address())}, words...)
	client, err := startProcess(folder, nil, l.program, words...)
	if err != nil {
		return nil, err
	}
	defer client.Kill()
	<-client.ended
	said, err := os.ReadFile(client.said)
	if err == nil && !client.command.ProcessState.Success() {
		err = fmt.Errorf("the client in C ended, %v: %s", client.command.ProcessState, lastLines(said, 5))
	}
	if err != nil {
		return nil, err
	}
	return numbers(string(said))
}

func numbers(text string) (all []float64, err error) {
	for _, word := range strings.Fields(text) {
		number, err := strconv.ParseFloat(word, 64)
		if err != nil {
			return nil, err
		}
		all = append(all, number)
	}
	return all, nil
}

// The client's words for the measures that it has too, with as many messages of as many bytes.

func (s Sizes) leanWaiting(payload int) []string {
	return words("waiting", s.count, payload)
}

func (s Sizes) leanBacklog() []string {
	return words("backlog", s.backlog, s.payload, s.unanswered, s.prefetch)
}

func (s Sizes) leanPaced() []string {
	return words("paced", s.paced, s.payload, s.perSecond, s.prefetch)
}

func words(measure string, sizes ...int) []string {
	all := []string{measure}
	for _, size := range sizes {
		all = append(all, strconv.Itoa(size))
	}
	return all
}

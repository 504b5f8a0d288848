package main

import (
	"bytes"
	"errors"
	"fmt"
	"net"
	"os"
	"os/exec"
	"path/filepath"
	"strconv"
	"strings"
	"sync"
	"syscall"
	"time"
)

const ticksPerSecond = 100 // USER_HZ, in which Linux counts processor time for programs

// A Process is one that we started, with all that it started in its group, and one that it needs where there is one.
type Process struct {
	command *exec.Cmd
	said    string
	ended   chan struct{}
	needs   *Process
}

// All that run, so that a failure anywhere can stop them.
var running = struct {
	sync.Mutex
	them map[*Process]bool
	over bool
}{them: map[*Process]bool{}}

var errOver = errors.New("nothing more is started")

// Starts a program in a folder; what it says goes to a file there.
func startProcess(folder string, environment []string, name string, words ...string) (*Process, error) {
	said := filepath.Join(folder, "said-"+filepath.Base(name))
	out, err := os.OpenFile(said, os.O_CREATE|os.O_APPEND|os.O_WRONLY, 0o600)
	if err != nil {
		return nil, err
	}
	defer out.Close()
	command := exec.Command(name, words...)
	command.Dir, command.Stdout, command.Stderr = folder, out, out
	command.Env = append(os.Environ(), environment...)
	command.SysProcAttr = &syscall.SysProcAttr{Setpgid: true, Pdeathsig: syscall.SIGKILL}
	running.Lock()
	defer running.Unlock()
	if running.over {
		return nil, errOver
	}
	if err := command.Start(); err != nil {
		return nil, err
	}
	process := &Process{command: command, said: said, ended: make(chan struct{})}
	running.them[process] = true
	go func() {
		command.Wait()
		close(process.ended)
	}()
	return process, nil
}

// Kill ends it at once, as a crash does: none of the three is asked to put its things in order.
func (p *Process) Kill() {
	syscall.Kill(-p.command.Process.Pid, syscall.SIGKILL)
	<-p.ended
	running.Lock()
	delete(running.them, p)
	running.Unlock()
	if p.needs != nil {
		p.needs.Kill()
	}
}

// Kills all that run, and lets nothing more start.
func stopAll() {
	running.Lock()
	running.over = true
	var them []*Process
	for process := range running.them {
		them = append(them, process)
	}
	running.Unlock()
	for _, process := range them {
		process.Kill()
	}
}

// Asks until it answers, or has ended.
func (p *Process) await(ask func() error) error {
	for {
		err := ask()
		if err == nil {
			return nil
		}
		select {
		case <-p.ended:
			return p.explained(err)
		case <-time.After(5 * time.Millisecond):
		}
	}
}

// An error with what the process said last, where it has ended, or does so at once.
func (p *Process) explained(err error) error {
	select {
	case <-p.ended:
		said, _ := os.ReadFile(p.said)
		return fmt.Errorf("%w; the program ended, %v: %s", err, p.command.ProcessState, lastLines(said, 5))
	case <-time.After(100 * time.Millisecond):
		return err
	}
}

func lastLines(text []byte, count int) string {
	lines := strings.Split(strings.TrimSpace(string(text)), "\n")
	if len(lines) > count {
		lines = lines[len(lines)-count:]
	}
	return strings.Join(lines, "\n")
}

func (p *Process) file(name string) ([]byte, error) {
	return os.ReadFile(fmt.Sprintf("/proc/%d/%s", p.command.Process.Pid, name))
}

// Memory is how much of it is in memory, in MiB.
func (p *Process) Memory() (float64, error) {
	text, err := p.file("status")
	if err != nil {
		return 0, err
	}
	return kibibytes(text, "VmRSS:")
}

// The number in KiB that stands after a name, in MiB.
func kibibytes(text []byte, name string) (float64, error) {
	for _, line := range strings.Split(string(text), "\n") {
		if words := strings.Fields(line); len(words) > 1 && words[0] == name {
			count, err := strconv.ParseFloat(words[1], 64)
			return count / 1024, err
		}
	}
	return 0, fmt.Errorf("there is no %s", name)
}

// Processor is the processor time that it has used.
func (p *Process) Processor() (time.Duration, error) {
	text, err := p.file("stat")
	if err != nil {
		return 0, err
	}
	words := strings.Fields(string(text[bytes.LastIndexByte(text, ')')+1:]))
	var ticks int
	for _, word := range words[11:13] {
		count, err := strconv.Atoi(word)
		if err != nil {
			return 0, err
		}
		ticks += count
	}
	return time.Duration(ticks) * time.Second / ticksPerSecond, nil
}

// An address at which nobody listens.
func freeAddress() (string, error) {
	listener, err := net.Listen("tcp", "127.0.0.1:0")
	if err != nil {
		return "", err
	}
	defer listener.Close()
	return listener.Addr().String(), nil
}

func portOf(address string) string {
	return address[strings.LastIndexByte(address, ':')+1:]
}

func listens(address string) error {
	connection, err := net.Dial("tcp", address)
	if err != nil {
		return err
	}
	return connection.Close()
}

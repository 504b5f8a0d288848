package main

import (
	"encoding/json"
	"fmt"
	"os"
	"os/exec"
	"path/filepath"
	"runtime"
	"strings"
	"syscall"
	"time"
)

// Where the clients' libraries come from, and the compiler of the one in C.
var libraries = []struct{ name, pack string }{
	{"redigo", "golang-github-gomodule-redigo-dev"},
	{"amqp091-go", "golang-github-rabbitmq-amqp091-go-dev"},
	{"gorilla/websocket", "golang-github-gorilla-websocket-dev"},
	{"gcc", "gcc"},
}

func machine() string {
	memory := "unknown"
	if text, err := os.ReadFile("/proc/meminfo"); err == nil {
		if mebibytes, err := kibibytes(text, "MemTotal:"); err == nil {
			memory = fmt.Sprintf("%.1f GiB", mebibytes/1024)
		}
	}
	load, _ := os.ReadFile("/proc/loadavg")
	kernel, _ := os.ReadFile("/proc/sys/kernel/osrelease")
	return fmt.Sprintf("- Machine: %s, %d processors, memory %s, Linux %s; load before: %s\n",
		processorName(), runtime.NumCPU(), memory, strings.TrimSpace(string(kernel)), firstWord(string(load)))
}

func processorName() string {
	text, _ := os.ReadFile("/proc/cpuinfo")
	for _, line := range strings.Split(string(text), "\n") {
		if name, value, found := strings.Cut(line, ":"); found && strings.TrimSpace(name) == "model name" {
			return strings.TrimSpace(value)
		}
	}
	return runtime.GOARCH
}

func firstWord(text string) string {
	word, _, _ := strings.Cut(text, " ")
	return word
}

func clients() string {
	said := []string{strings.Replace(runtime.Version(), "go", "Go ", 1)}
	for _, library := range libraries {
		version, err := exec.Command("dpkg-query", "-W", "-f", "${Version}", library.pack).Output()
		if err != nil {
			version = []byte("of unknown version")
		}
		said = append(said, library.name+" "+string(version))
	}
	return "- Clients: " + strings.Join(said, ", ") + "\n"
}

// How long a write and the disk's answer take in a folder: what each commit waits for at least.
func syncTimes(folder string, count, size int) (times, error) {
	file, err := os.Create(filepath.Join(folder, "sync"))
	if err != nil {
		return nil, err
	}
	defer os.Remove(file.Name())
	defer file.Close()
	took := make(times, 0, count)
	bytes := make([]byte, size)
	for i := 0; i < count; i++ {
		before := time.Now()
		if _, err := file.Write(bytes); err != nil {
			return nil, err
		}
		if err := syscall.Fdatasync(int(file.Fd())); err != nil {
			return nil, err
		}
		took = append(took, time.Since(before))
	}
	return took, nil
}

func disk(folder string) (string, error) {
	const count, size = 500, 4096
	took, err := syncTimes(folder, count, size)
	if err != nil {
		return "", err
	}
	return fmt.Sprintf("- Disk: a write of %s bytes and its fdatasync, p50 %s µs, p99 %s µs\n",
		grouped(size), shown(took.part(50)), shown(took.part(99))), nil
}

// What the broker's texts cost a client, without any broker: none can be faster over one connection.
func textCosts(size int) (string, error) {
	const count = 5000
	body := newBodies(size).numbered(0)
	before := time.Now()
	for i := 0; i < count; i++ {
		if _, err := json.Marshal(brokerPublish{Payload: body, Context: "1"}); err != nil {
			return "", err
		}
	}
	writing := time.Since(before)
	text, err := json.Marshal(map[string]interface{}{
		"messageId": "CAAQAA==", "payload": body, "properties": map[string]string{},
		"publishTime": "2026-01-01T00:00:00.000Z", "redeliveryCount": 0,
	})
	if err != nil {
		return "", err
	}
	before = time.Now()
	for i := 0; i < count; i++ {
		if err := json.Unmarshal(text, new(brokerDelivery)); err != nil {
			return "", err
		}
	}
	reading := time.Since(before)
	return fmt.Sprintf("- The client's texts alone: a publish is made in %s µs, a delivery of the broker read in %s µs\n",
		shown(microseconds(writing)/count), shown(microseconds(reading)/count)), nil
}

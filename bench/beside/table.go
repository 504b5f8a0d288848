package main

import (
	"fmt"
	"math"
	"sort"
	"strings"
)

// Results are what each turn measured, by row and by system.
type Results struct {
	rows     []Row
	systems  []System
	versions map[string]string
	values   map[Row]map[string][]float64
}

func newResults(measures []Measure, systems []System) *Results {
	results := &Results{systems: systems, versions: map[string]string{}, values: map[Row]map[string][]float64{}}
	for _, measure := range measures {
		for _, row := range measure.rows {
			results.rows = append(results.rows, row)
			results.values[row] = map[string][]float64{}
		}
	}
	return results
}

func (r *Results) add(row Row, system System, value float64) {
	r.values[row][system.Name()] = append(r.values[row][system.Name()], value)
}

// Versions is a line for each system.
func (r *Results) Versions() string {
	var out strings.Builder
	for _, system := range r.systems {
		fmt.Fprintf(&out, "- %s: %s\n", system.Name(), r.versions[system.Name()])
	}
	return out.String()
}

// The median of a row's turns, or no number where it was not measured.
func (r *Results) median(row Row, system string) float64 {
	values := r.values[row][system]
	if len(values) == 0 {
		return math.NaN()
	}
	sort.Float64s(values)
	return values[len(values)/2]
}

// Table is the medians as a table of Markdown.
func (r *Results) Table() string {
	var out strings.Builder
	fmt.Fprint(&out, "| | What | Unit |")
	for _, system := range r.systems {
		fmt.Fprintf(&out, " %s |", system.Name())
	}
	fmt.Fprintf(&out, " broker / Redis | the same, lean |\n|---|---|---|%s---:|---:|\n", strings.Repeat("---:|", len(r.systems)))
	for _, row := range r.rows {
		fmt.Fprintf(&out, "| %s | %s | %s |", row.number, row.label, row.unit)
		for _, system := range r.systems {
			fmt.Fprintf(&out, " %s |", shown(r.median(row, system.Name())))
		}
		fmt.Fprintf(&out, " %s |", shown(r.median(row, "broker")/r.median(row, "Redis")))
		fmt.Fprintf(&out, " %s |\n", shown(r.median(row, "broker-lean")/r.median(row, "Redis-lean")))
	}
	return out.String()
}

// Three digits at least, and none that say nothing.
func shown(value float64) string {
	switch {
	case math.IsNaN(value) || math.IsInf(value, 0):
		return "-"
	case value < 10:
		return fmt.Sprintf("%.2f", value)
	case value < 100:
		return fmt.Sprintf("%.1f", value)
	}
	return grouped(int(math.Round(value)))
}

// A number with its thousands apart.
func grouped(number int) string {
	if number < 1000 {
		return fmt.Sprint(number)
	}
	return fmt.Sprintf("%s,%03d", grouped(number/1000), number%1000)
}

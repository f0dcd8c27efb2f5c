// The peer of the strict reader: go-syslog's strict parser of RFC 5424, on the lines of a file. bench/run builds it over Debian's sources of go-syslog.
//
//	peer check 5424 FILE              says how many lines it reads and refuses, and how many elements, parameters and bytes of messages they have
//	peer pass READER 5424 FILE TIMES  reads each line so often
//	peer time pass READER 5424 FILE   reads each line twice, and says the nanoseconds a line of the second time
//
// READER is peer, with the collector off, or peer_collected.
package main

import (
	"bytes"
	"fmt"
	"os"
	"runtime"
	"runtime/debug"
	"strconv"
	"time"

	"github.com/influxdata/go-syslog"
	"github.com/influxdata/go-syslog/rfc5424"
)

const usage = "usage: peer check 5424 FILE | pass READER 5424 FILE TIMES | time pass READER 5424 FILE"

// What the last line was read as. It is kept so that no reading is left out.
var last syslog.Message

// Reads every line once. This is the measured part: nothing is printed.
func pass(parser syslog.Machine, lines [][]byte) {
	for _, line := range lines {
		last, _ = parser.Parse(line)
	}
}

func check(parser syslog.Machine, lines [][]byte) {
	read, elements, params, message := 0, 0, 0, 0
	for _, line := range lines {
		one, err := parser.Parse(line)
		if err != nil {
			continue
		}
		read++
		if data := one.StructuredData(); data != nil {
			elements += len(*data)
			for _, element := range *data {
				params += len(element)
			}
		}
		if text := one.Message(); text != nil {
			message += len(*text)
		}
	}
	fmt.Println("peer", read, len(lines)-read, elements, params, message)
}

// The lines of RFC 5424: behind '>' comes the version.
func lines(file string) ([][]byte, error) {
	text, err := os.ReadFile(file)
	var lines [][]byte
	for _, line := range bytes.Split(text, []byte("\n")) {
		if bytes.Contains(line, []byte(">1 ")) {
			lines = append(lines, line)
		}
	}
	return lines, err
}

func collect(reader string) error {
	switch reader {
	case "peer":
		debug.SetGCPercent(-1)
	case "peer_collected":
		debug.SetGCPercent(100)
	default:
		return fmt.Errorf("'%s' is no reader", reader)
	}
	return nil
}

// So many passes, and the time of the last one.
func passes(reader, file string, times int) (time.Duration, int, error) {
	if err := collect(reader); err != nil {
		return 0, 0, err
	}
	all, err := lines(file)
	parser, start := rfc5424.NewMachine(), time.Now()
	for i := 0; i < times && err == nil; i++ {
		start = time.Now()
		pass(parser, all)
	}
	return time.Since(start), len(all), err
}

func run(args []string) error {
	switch {
	case len(args) == 3 && args[0] == "check" && args[1] == "5424":
		all, err := lines(args[2])
		if err == nil {
			check(rfc5424.NewMachine(), all)
		}
		return err
	case len(args) == 5 && args[0] == "pass" && args[2] == "5424":
		times, err := strconv.Atoi(args[4])
		if err == nil {
			_, _, err = passes(args[1], args[3], times)
		}
		return err
	case len(args) == 5 && args[0] == "time" && args[1] == "pass" && args[3] == "5424":
		spent, count, err := passes(args[2], args[4], 2)
		if err == nil {
			fmt.Printf("%.1f\n", float64(spent.Nanoseconds())/float64(count))
		}
		return err
	}
	return fmt.Errorf("%s", usage)
}

func main() {
	runtime.GOMAXPROCS(1)
	if err := run(os.Args[1:]); err != nil {
		fmt.Fprintln(os.Stderr, "peer:", err)
		os.Exit(2)
	}
}

// The work of handover.c over a channel of Go: handover SIZE BURST THREADS MESSAGES PAUSE. A burst is sent and received one by one.
package main

import (
	"fmt"
	"os"
	"sort"
	"strconv"
	"sync"
	"time"
)

func number(at int) int {
	value, err := strconv.Atoi(os.Args[at])
	if err != nil {
		os.Exit(2)
	}
	return value
}

type message struct {
	sent  time.Time
	bytes []byte
}

func main() {
	size, burst, threads, messages, pause := number(1), number(2), number(3), number(4), number(5)
	way := make(chan message, 64)
	all := make([][]time.Duration, threads)
	var producers, consumers sync.WaitGroup
	began := time.Now()
	for at := 0; at < threads; at++ {
		producers.Add(1)
		consumers.Add(1)
		go func() {
			for sent := 0; sent < messages; sent++ {
				if pause > 0 && sent%burst == 0 {
					time.Sleep(time.Duration(pause))
				}
				way <- message{time.Now(), make([]byte, size)}
			}
			producers.Done()
		}()
		go func(at int) {
			into := make([]byte, size)
			for got := range way {
				all[at] = append(all[at], time.Since(got.sent))
				copy(into, got.bytes)
			}
			consumers.Done()
		}(at)
	}
	producers.Wait()
	close(way)
	consumers.Wait()
	took := time.Since(began)
	var times []time.Duration
	for _, each := range all {
		times = append(times, each...)
	}
	sort.Slice(times, func(a, b int) bool { return times[a] < times[b] })
	count := len(times)
	fmt.Printf("%.0f %d %d\n", float64(count)/took.Seconds(), times[count/2].Nanoseconds(), times[count/100*99].Nanoseconds())
}

// The peers' tasks with goroutines: `routines TASK COUNT`, which prints `name value` lines.
package main

import (
	"fmt"
	"os"
	"strconv"
	"strings"
	"sync"
	"time"
)

const channels, workers = 64, 16

func reportMemory(name string) {
	text, err := os.ReadFile("/proc/self/statm")
	if err == nil {
		pages, _ := strconv.Atoi(strings.Fields(string(text))[1])
		fmt.Println(name, pages*os.Getpagesize())
	}
}

func seconds(name string, began time.Time) {
	fmt.Printf("%s %.6f\n", name, time.Since(began).Seconds())
}

func waiters(number int, within func()) {
	var all [channels]chan int
	for i := range all {
		all[i] = make(chan int)
	}
	var started, ended sync.WaitGroup
	started.Add(number)
	ended.Add(number)
	reportMemory("before")
	began := time.Now()
	for i := 0; i < number; i++ {
		channel := all[i%channels]
		go func() {
			started.Done()
			<-channel
			ended.Done()
		}()
	}
	started.Wait()
	seconds("start", began)
	reportMemory("after")
	within()
	began = time.Now()
	for i := 0; i < number; i++ {
		all[i%channels] <- 1
	}
	ended.Wait()
	seconds("wake", began)
}

func handing(number int) {
	var both [2]chan int
	for i := range both {
		both[i] = make(chan int, 1)
	}
	var ended sync.WaitGroup
	ended.Add(2)
	began := time.Now()
	for i := 0; i < 2; i++ {
		mine, other := both[i], both[1-i]
		go func() {
			for turn := 0; turn < number; turn++ {
				other <- <-mine + 1
			}
			ended.Done()
		}()
	}
	both[0] <- 0
	ended.Wait()
	seconds("seconds", began)
}

func pool(number int) {
	requests := make(chan int, 1024)
	answers := make(chan int, workers)
	began := time.Now()
	for i := 0; i < workers; i++ {
		go func() {
			sum := 0
			for value := range requests {
				sum += value * value
			}
			answers <- sum
		}()
	}
	for i := 0; i < number; i++ {
		requests <- i % 100
	}
	close(requests)
	sum := 0
	for i := 0; i < workers; i++ {
		sum += <-answers
	}
	seconds("seconds", began)
	fmt.Println("sum", sum)
}

//go:noinline
func depth(n int) int {
	if n < 1 {
		return 0
	}
	return depth(n-1) + 1
}

func recurse() {
	done := make(chan int)
	go func() { done <- depth(10000) }()
	fmt.Println("depth", <-done)
	reportMemory("deep")
}

func main() {
	number, _ := strconv.Atoi(os.Args[2])
	switch os.Args[1] {
	case "waiters":
		waiters(number, func() {})
	case "handing":
		handing(number)
	case "pool":
		pool(number)
	case "deep":
		waiters(number, recurse)
	}
}

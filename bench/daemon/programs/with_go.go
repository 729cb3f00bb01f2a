// Go: all at once by http.Get; by a hint over a client with so many connections.
package main

import (
	"bytes"
	"fmt"
	"io"
	"net/http"
	"os"
	"strconv"
	"sync"
)

func main() {
	url := os.Args[1]
	wanted, _ := os.ReadFile(os.Args[2])
	count, _ := strconv.Atoi(os.Args[3])
	most, _ := strconv.Atoi(os.Args[4])
	client := http.DefaultClient
	if most > 0 {
		client = &http.Client{Transport: &http.Transport{MaxConnsPerHost: most, MaxIdleConnsPerHost: most}}
	}
	fmt.Println("begins")
	var all sync.WaitGroup
	for number := 0; number < count; number++ {
		all.Add(1)
		go func() {
			defer all.Done()
			told := "good"
			reply, fault := client.Get(url)
			if fault == nil {
				var body []byte
				body, fault = io.ReadAll(reply.Body)
				reply.Body.Close()
				if !bytes.Equal(body, wanted) {
					told = "another reply"
				}
			}
			if fault != nil {
				told = fmt.Sprintf("%T", fault)
			}
			fmt.Println(told)
		}()
	}
	all.Wait()
}

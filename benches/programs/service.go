// Echoes the query of each request, and has 10,000 goroutines that wait besides.
package main

import (
	"fmt"
	"net"
	"net/http"
	_ "net/http/pprof"
	"os"
)

func main() {
	never := make(chan bool)
	for at := 0; at < 10000; at++ {
		go func() { <-never }()
	}
	http.HandleFunc("/echo", func(to http.ResponseWriter, request *http.Request) {
		fmt.Fprint(to, request.URL.RawQuery)
	})
	listener, err := net.Listen("tcp", "127.0.0.1:0")
	if err != nil {
		panic(err)
	}
	fmt.Println("ready", listener.Addr().(*net.TCPAddr).Port, os.Getpid())
	panic(http.Serve(listener, nil))
}

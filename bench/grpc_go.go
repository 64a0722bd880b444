// A server of gRPC's health service by grpc-go, and clients of it and of healthd, for measure.py.
//
//	grpc_go serve                          prints its port, and serves until it is killed
//	grpc_go ask KIND PORT CLIENTS SECONDS  prints requests a second, and the median and the 99th percentile in microseconds
//
// KIND is `web`, a Check of healthd over a connection of its own; `grpc`, a Check of grpc-go over one; or `kept`, a Check of grpc-go over a
// connection that each client keeps.
package main

import (
	"bytes"
	"context"
	"fmt"
	"io/ioutil"
	"log"
	"net"
	"os"
	"sort"
	"strconv"
	"sync"
	"time"

	"google.golang.org/grpc"
	"google.golang.org/grpc/health"
	health_pb "google.golang.org/grpc/health/grpc_health_v1"
)

const request = "POST /grpc.health.v1.Health/Check HTTP/1.1\r\nhost: localhost\r\n" +
	"content-type: application/grpc-web+proto\r\ncontent-length: 8\r\n\r\n\x00\x00\x00\x00\x03\n\x01a"

func serve() {
	listener, err := net.Listen("tcp", "127.0.0.1:0")
	if err != nil {
		log.Fatal(err)
	}
	server, statuses := grpc.NewServer(), health.NewServer()
	statuses.SetServingStatus("a", health_pb.HealthCheckResponse_SERVING)
	health_pb.RegisterHealthServer(server, statuses)
	fmt.Println(listener.Addr().(*net.TCPAddr).Port)
	log.Fatal(server.Serve(listener))
}

func dial(place string) *grpc.ClientConn {
	connection, err := grpc.Dial(place, grpc.WithInsecure(), grpc.WithBlock())
	if err != nil {
		log.Fatal(err)
	}
	return connection
}

func askOn(connection *grpc.ClientConn) {
	answer, err := health_pb.NewHealthClient(connection).Check(context.Background(), &health_pb.HealthCheckRequest{Service: "a"})
	if err != nil || answer.Status != health_pb.HealthCheckResponse_SERVING {
		log.Fatal(answer, err)
	}
}

func askWeb(place string) {
	connection, err := net.Dial("tcp", place)
	if err != nil {
		log.Fatal(err)
	}
	defer connection.Close()
	if _, err := connection.Write([]byte(request)); err != nil {
		log.Fatal(err)
	}
	answer, err := ioutil.ReadAll(connection)
	if err != nil || !bytes.Contains(answer, []byte("\x00\x00\x00\x00\x02\x08\x01\x80")) {
		log.Fatalf("%q %v", answer, err)
	}
}

// What one Check of a client is.
func asker(kind, place string) func() {
	switch kind {
	case "web":
		return func() { askWeb(place) }
	case "grpc":
		return func() {
			connection := dial(place)
			defer connection.Close()
			askOn(connection)
		}
	default:
		connection := dial(place)
		return func() { askOn(connection) }
	}
}

func ask(kind, place string, clients int, long time.Duration) {
	times, ready := make([][]time.Duration, clients), make([]func(), clients)
	for client := range ready {
		ready[client] = asker(kind, place)
	}
	var all sync.WaitGroup
	begin := time.Now()
	for client := range ready {
		all.Add(1)
		go func(client int) {
			defer all.Done()
			for time.Since(begin) < long {
				start := time.Now()
				ready[client]()
				times[client] = append(times[client], time.Since(start))
			}
		}(client)
	}
	all.Wait()
	took := time.Since(begin)
	var every []time.Duration
	for _, some := range times {
		every = append(every, some...)
	}
	sort.Slice(every, func(i, j int) bool { return every[i] < every[j] })
	micros := func(at int) float64 { return float64(every[at].Nanoseconds()) / 1000 }
	fmt.Println(float64(len(every))/took.Seconds(), micros(len(every)/2), micros(len(every)*99/100))
}

func main() {
	if len(os.Args) == 2 && os.Args[1] == "serve" {
		serve()
	}
	clients, _ := strconv.Atoi(os.Args[4])
	seconds, _ := strconv.ParseFloat(os.Args[5], 64)
	ask(os.Args[2], "127.0.0.1:"+os.Args[3], clients, time.Duration(seconds*float64(time.Second)))
}

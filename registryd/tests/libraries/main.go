// Command libraries pushes to a registry, pulls from it and deletes by the calls of one library of Go:
// libraries oras|distribution HOST:PORT. The status is 1 if a result differs from the expected one. Only errors are
// printed.
package main

import (
	"context"
	"fmt"
	"math/rand"
	"os"
	"reflect"
)

func main() {
	clients := map[string]func(context.Context, string){"oras": playOras, "distribution": playDistribution}
	if len(os.Args) != 3 || clients[os.Args[1]] == nil {
		fmt.Fprintln(os.Stderr, "usage: libraries oras|distribution HOST:PORT")
		os.Exit(2)
	}
	clients[os.Args[1]](context.Background(), os.Args[2])
}

// check ends the program if a step failed.
func check(step string, err error) {
	if err != nil {
		fmt.Fprintf(os.Stderr, "%s: %s: %v\n", os.Args[1], step, err)
		os.Exit(1)
	}
}

// expect ends the program if a step had another result than the expected one.
func expect[T any](step string, found, expected T) {
	if !reflect.DeepEqual(found, expected) {
		check(step, fmt.Errorf("found %.200v and not %.200v", found, expected))
	}
}

// randomBytes returns n bytes that depend on the seed only.
func randomBytes(n int, seed int64) []byte {
	data := make([]byte, n)
	rand.New(rand.NewSource(seed)).Read(data)
	return data
}

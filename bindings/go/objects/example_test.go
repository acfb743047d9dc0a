package objects_test

import (
	"bytes"
	"errors"
	"fmt"
	"log"
	"os"

	"bpfcanon"
	"bpfcanon/objects"
)

// object returns an object file that clang made, with debugging information.
func object() []byte {
	data, err := os.ReadFile("../../../testdata/objects/pass.little.debug.o")
	if err != nil {
		log.Fatal(err)
	}
	return data
}

// The canonical file of an object file has no debugging information, and is its own canonical file.
func ExampleCanon() {
	data := object()
	canonical, err := objects.Canon(data)
	if err != nil {
		log.Fatal(err)
	}
	again, err := objects.Canon(canonical)
	fmt.Println(len(data), len(canonical), bytes.Equal(again, canonical), err)
	// Output: 2928 856 true <nil>
}

// The key of an object file, under which a cache stores what was made of it.
func ExampleKey() {
	key, err := objects.Key(object())
	if err != nil {
		log.Fatal(err)
	}
	fmt.Printf("%x\n", key)
	// Output: c917fcd49ec0d1154cce27517cf3e3ecfd7e22b1a542dfae09abddc1d2b0e802
}

// A file that is refused has a cause and an offset.
func ExampleCheck() {
	err := objects.Check(object()[:100])
	var fault *bpfcanon.FaultError
	if errors.As(err, &fault) {
		fmt.Println(fault.Offset, fault.Cause)
	}
	if errors.Is(err, bpfcanon.ErrObjectSectionTable) {
		fmt.Println("the file is cut")
	}
	// Output:
	// 40 the section header table isn't inside the file
	// the file is cut
}

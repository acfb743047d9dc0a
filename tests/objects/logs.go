// Command logs prints the verifier's logs of the programs of an object file, each of which cilium/ebpf loads.
package main

import (
	"errors"
	"fmt"
	"os"

	"github.com/cilium/ebpf"
)

const levels = 3 // of a log with all instructions

func main() {
	for _, name := range os.Args[2:] {
		spec, err := ebpf.LoadCollectionSpec(os.Args[1])
		if err != nil {
			fmt.Println(err)
			os.Exit(1)
		}
		for other := range spec.Programs {
			if other != name {
				delete(spec.Programs, other)
			}
		}
		options := ebpf.ProgramOptions{LogLevel: levels, LogSize: 1 << 22}
		loaded, err := ebpf.NewCollectionWithOptions(spec, ebpf.CollectionOptions{Programs: options})
		var refused *ebpf.VerifierError
		switch {
		case errors.As(err, &refused):
			fmt.Printf("program %s: load program: %+v\n", name, refused)
		case err != nil:
			fmt.Println(err)
		default:
			fmt.Printf("program %s: load program: loaded\n%s\n", name, loaded.Programs[name].VerifierLog)
		}
	}
}

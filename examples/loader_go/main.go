// Command loader loads a BPF object file whose canonical file has a signature of Ed25519.
//
// The file is read once. What is verified is its canonical file, and cilium/ebpf gets those bytes and
// no others: it never sees a label, a second symbol table or a source line that the signer didn't sign.
package main

import (
	"bytes"
	"crypto/ed25519"
	"crypto/x509"
	"debug/elf"
	"errors"
	"fmt"
	"os"
	"sort"
	"strconv"

	"bpfcanon/objects"
	"github.com/cilium/ebpf"
)

// Objects of old releases have valid signatures: build with -ldflags "-X main.leastVersion=N", and only
// objects of version N or later are loaded.
var leastVersion = "0"

// verify returns the canonical file of an object, which is signed.
func verify(key ed25519.PublicKey, signature, object []byte) ([]byte, error) {
	canonical, err := objects.Canon(object)
	if err != nil {
		return nil, err
	}
	if !ed25519.Verify(key, canonical, signature) {
		return nil, errors.New("the signature isn't one of this object by this key")
	}
	return canonical, nil
}

// readKey returns a public key of Ed25519. Other kinds have parameters that a signature could choose.
func readKey(name string) (ed25519.PublicKey, error) {
	der, err := os.ReadFile(name)
	if err != nil {
		return nil, err
	}
	parsed, err := x509.ParsePKIXPublicKey(der)
	if key, ok := parsed.(ed25519.PublicKey); ok && err == nil {
		return key, nil
	}
	return nil, fmt.Errorf("%s: the key isn't a public key of Ed25519 in DER", name)
}

// checkVersion refuses objects of low versions. The version of an object is its variable in
// .rodata.version, which is signed with the rest, or 0 if it has none. cilium/ebpf leaves sections
// out that no program uses.
func checkVersion(object []byte) error {
	least, err := strconv.ParseUint(leastVersion, 10, 32)
	if err != nil {
		return err
	}
	file, err := elf.NewFile(bytes.NewReader(object))
	if err != nil {
		return fmt.Errorf("open: %w", err)
	}
	version := uint32(0)
	if section := file.Section(".rodata.version"); section != nil && section.Size == 4 {
		value, err := section.Data()
		if err != nil {
			return fmt.Errorf("open: %w", err)
		}
		version = file.ByteOrder.Uint32(value)
	}
	if uint64(version) < least {
		return fmt.Errorf("the object has version %d, and only %d or later is loaded", version, least)
	}
	return nil
}

// load prints what is in an object, and loads it into the kernel.
func load(object []byte) error {
	if err := checkVersion(object); err != nil {
		return err
	}
	spec, err := ebpf.LoadCollectionSpecFromReader(bytes.NewReader(object))
	if err != nil {
		return fmt.Errorf("open: %w", err)
	}
	var lines []string
	for name := range spec.Maps {
		lines = append(lines, "map "+name)
	}
	for name := range spec.Programs {
		lines = append(lines, "program "+name)
	}
	sort.Strings(lines)
	for _, line := range lines {
		fmt.Println(line)
	}
	collection, err := ebpf.NewCollection(spec)
	if err != nil {
		return fmt.Errorf("load: %w", err)
	}
	// Attach or pin the programs here: they end with the collection.
	collection.Close()
	return nil
}

func run(keyName, signatureName, objectName string) error {
	key, err := readKey(keyName)
	if err != nil {
		return err
	}
	signature, err := os.ReadFile(signatureName)
	if err != nil {
		return err
	}
	object, err := os.ReadFile(objectName)
	if err != nil {
		return err
	}
	canonical, err := verify(key, signature, object)
	if err != nil {
		return fmt.Errorf("%s: %w", objectName, err)
	}
	return load(canonical)
}

func main() {
	if len(os.Args) != 4 {
		fmt.Fprintln(os.Stderr, "loader: usage: loader KEY SIGNATURE OBJECT")
		os.Exit(2)
	}
	if err := run(os.Args[1], os.Args[2], os.Args[3]); err != nil {
		fmt.Fprintln(os.Stderr, "loader:", err)
		os.Exit(1)
	}
}

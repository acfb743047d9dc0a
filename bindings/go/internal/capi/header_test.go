package capi_test

import (
	"fmt"
	"os"
	"os/exec"
	"regexp"
	"strings"
	"testing"
)

// What capi.go asks of the header's version, for the C preprocessor.
func versionCheck(t *testing.T) string {
	t.Helper()
	source, err := os.ReadFile("capi.go")
	if err != nil {
		t.Fatal(err)
	}
	check := regexp.MustCompile(`(?s)// #if BPFCANON_VERSION.*?// #endif\n`).FindString(string(source))
	if check == "" {
		t.Fatal("capi.go doesn't ask for a version")
	}
	return strings.ReplaceAll(check, "// ", "")
}

// A header of version 0.1 or of a later 0.x is taken, and with another one the package isn't compiled.
func TestVersionsOfTheHeader(t *testing.T) {
	compiler, check := os.Getenv("CC"), versionCheck(t)
	if compiler == "" {
		compiler = "cc"
	}
	// The header may be in the folder of the package, and else pkg-config knows where it is.
	flags, _ := exec.Command("pkg-config", "--cflags", "bpfcanon").Output()
	words := append(strings.Fields(compiler), append(strings.Fields(string(flags)), "-I.", "-E", "-x", "c", "-")...)
	for _, row := range []struct {
		major, minor, patch int
		isTaken             bool
	}{
		{0, 0, 9, false}, {0, 0, 999, false}, {0, 1, 0, true}, {0, 1, 12, true}, {0, 2, 0, true}, {0, 10, 0, true},
		{1, 0, 0, false}, {1, 1, 0, false},
	} {
		program := "#include <bpfcanon.h>\n"
		for name, number := range map[string]int{"MAJOR": row.major, "MINOR": row.minor, "PATCH": row.patch} {
			program += fmt.Sprintf("#undef BPFCANON_VERSION_%[1]s\n#define BPFCANON_VERSION_%[1]s %[2]d\n", name, number)
		}
		preprocess := exec.Command(words[0], words[1:]...)
		preprocess.Stdin = strings.NewReader(program + check)
		output, err := preprocess.CombinedOutput()
		if isRefused := strings.Contains(string(output), "needs version 0.1 or a later 0.x"); isRefused == row.isTaken || isRefused != (err != nil) {
			t.Errorf("%v: %v, %.200s", row, err, output)
		}
	}
}

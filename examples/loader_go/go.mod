module example.org/loader

go 1.19

require (
	bpfcanon v0.0.0
	github.com/cilium/ebpf v0.9.1
)

replace bpfcanon => ../../bindings/go

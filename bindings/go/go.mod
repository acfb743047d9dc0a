module bpfcanon

go 1.19

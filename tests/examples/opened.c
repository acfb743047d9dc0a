/* Takes the place of bpf_object__open_mem in a loader, and writes the bytes that it is given to the file `opened`. */
#include <bpf/libbpf.h>
#include <stdio.h>

struct bpf_object *bpf_object__open_mem(const void *bytes, size_t len, const struct bpf_object_open_opts *options)
{
	FILE *file = fopen("opened", "wb");

	(void)options;
	if (file) {
		fwrite(bytes, 1, len, file);
		fclose(file);
	}
	return NULL;
}

/*
 * Loads a BPF object file whose canonical file has a signature of Ed25519: see README.md.
 *
 * The file is read once. What is verified is its canonical file, and libbpf gets those bytes and no others: it never sees a label, a
 * second symbol table or a source line that the signer didn't sign.
 */
#include <bpf/libbpf.h>
#include <bpfcanon.h>
#include <errno.h>
#include <openssl/evp.h>
#include <openssl/x509.h>
#include <stdarg.h>
#include <stdio.h>
#include <stdlib.h>
#include <string.h>

/* Objects of old releases have valid signatures: compile in the version of yours, and only objects with this or a later one are loaded. */
#ifndef LEAST_VERSION
#define LEAST_VERSION 0
#endif

struct bytes {
	uint8_t *start; /* from malloc */
	size_t len;
};

static int fail(const char *format, ...)
{
	va_list words;

	va_start(words, format);
	fputs("loader: ", stderr);
	vfprintf(stderr, format, words);
	fputc('\n', stderr);
	va_end(words);
	return -1;
}

/* Reads a file up to one byte more than an object file may have, which is then refused as too large. */
static int read_file(const char *name, struct bytes *out)
{
	const size_t capacity = BPFCANON_OBJECT_MAX + 1;
	FILE *file = fopen(name, "rb");
	int error;

	if (!file)
		return fail("%s: %s", name, strerror(errno));
	out->start = malloc(capacity);
	out->len = out->start ? fread(out->start, 1, capacity, file) : 0;
	error = !out->start ? ENOMEM : ferror(file) ? errno : 0;
	fclose(file);
	return error ? fail("%s: %s", name, strerror(error)) : 0;
}

static int make_canonical(const char *name, const struct bytes *object, struct bytes *out)
{
	bpfcanon_answer answer = bpfcanon_object_canon_new(object->start, object->len, &out->start);

	out->len = answer.written;
	if (answer.status == BPFCANON_STATUS_FAULT)
		return fail("%s: byte %llu: %s", name, (unsigned long long)answer.offset, bpfcanon_object_cause_text(answer.cause));
	return answer.status == BPFCANON_STATUS_DONE ? 0 : fail("%s: %s", name, bpfcanon_status_text(answer.status));
}

/* Only Ed25519, which has one digest and no parameters that a key or a signature could choose. */
static int verify(const struct bytes *canonical, const struct bytes *key, const struct bytes *signature)
{
	const unsigned char *at = key->start;
	EVP_PKEY *public_key = d2i_PUBKEY(NULL, &at, (long)key->len);
	EVP_MD_CTX *context = EVP_MD_CTX_new();
	int failed = 0;

	if (!public_key || at != key->start + key->len || EVP_PKEY_id(public_key) != EVP_PKEY_ED25519)
		failed = fail("the key isn't a public key of Ed25519 in DER");
	else if (!context || EVP_DigestVerifyInit(context, NULL, NULL, NULL, public_key) != 1)
		failed = fail("libcrypto can't verify signatures");
	else if (EVP_DigestVerify(context, signature->start, signature->len, canonical->start, canonical->len) != 1)
		failed = fail("the signature isn't one of this object by this key");
	EVP_MD_CTX_free(context);
	EVP_PKEY_free(public_key);
	return failed;
}

static int fail_in_libbpf(const char *step, int error)
{
	char reason[128];

	libbpf_strerror(error, reason, sizeof reason);
	return fail("%s: %s", step, reason);
}

/* The version of an object is its variable in .rodata.version, which is signed with the rest, or 0 if it has none. */
static int check_version(const struct bpf_object *object)
{
	struct bpf_map *map = bpf_object__find_map_by_name(object, ".rodata.version");
	size_t len = 0;
	const uint32_t *value = map ? bpf_map__initial_value(map, &len) : NULL;
	const uint32_t least = LEAST_VERSION, version = value && len == sizeof *value ? *value : 0;

	return version < least ? fail("the object has version %u, and only %u or later is loaded", version, least) : 0;
}

/* The name of the object begins those of some maps in the kernel. It isn't taken from a path, which no one has signed. */
static int load(const struct bytes *canonical)
{
	LIBBPF_OPTS(bpf_object_open_opts, options, .object_name = "signed");
	struct bpf_object *object = bpf_object__open_mem(canonical->start, canonical->len, &options);
	struct bpf_program *program;
	struct bpf_map *map;
	int error;

	if (!object)
		return fail_in_libbpf("open", errno);
	if (check_version(object)) {
		bpf_object__close(object);
		return -1;
	}
	bpf_object__for_each_map(map, object)
		printf("map %s\n", bpf_map__name(map));
	bpf_object__for_each_program(program, object)
		printf("program %s\n", bpf_program__name(program));
	error = bpf_object__load(object);
	/* Attach or pin the programs here: they end with the object. */
	bpf_object__close(object);
	return error ? fail_in_libbpf("load", error) : 0;
}

int main(int argc, char **argv)
{
	struct bytes key = { 0 }, signature = { 0 }, object = { 0 }, canonical = { 0 };
	int failed;

	if (argc != 4) {
		fail("usage: loader KEY SIGNATURE OBJECT");
		return 2;
	}
	failed = read_file(argv[1], &key) || read_file(argv[2], &signature) || read_file(argv[3], &object) ||
	         make_canonical(argv[3], &object, &canonical) || verify(&canonical, &key, &signature) || load(&canonical);
	bpfcanon_free(canonical.start);
	free(object.start);
	free(signature.start);
	free(key.start);
	return failed;
}

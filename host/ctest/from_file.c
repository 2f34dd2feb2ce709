/*
 * from_file PATH: a controller that starts from a file. Its configuration is saved to PATH once; a start reads the file, loads it
 * and receives. A file that was damaged is refused, and the endpoint that runs is kept. It is C++ as well.
 * host/ctest/run compares what it prints with from_file.expected.
 */
#define _POSIX_C_SOURCE 200809L /* for fsync */
#include <stdio.h>
#include <unistd.h>

#include "niulassenc.h"

static const uint8_t packet[50] = {
    0x45, 0, 0, 50, 0, 0, 0x40, 0, 64, 17, 0x26, 0xb9, 10, 0, 0, 2, 10, 0, 0, 1, /* IPv4, 10.0.0.2 to 10.0.0.1 */
    0xcc, 0xb8, 0x12, 0xb5, 0, 30, 0, 0, 0x08, 0, 0, 0, 0, 0, 22, 0,             /* UDP; VXLAN, network 22 */
    2, 0, 0, 0, 0, 2, 2, 0, 0, 0, 0, 1, 0x88, 0xb5};                             /* the inner frame */

static uint8_t memory[NIULASSENC_MEMORY_BYTES];
static struct niulassenc_endpoint endpoint;

/* Two peers with a VXLAN network each. */
static bool configure(struct niulassenc_endpoint *made)
{
    *made = niulassenc_start(0x0a000001, 7471, 1500).endpoint;
    for (uint32_t address = 0x0a000002; address <= 0x0a000003; address++) {
        struct niulassenc_addition peer = niulassenc_add_peer(made, address);
        if (niulassenc_add_binding(made, peer.number, NIULASSENC_VXLAN, 22, 7).code != NIULASSENC_DONE)
            return false;
    }
    return true;
}

/* Replaces the file by the image of a configuration: written beside it, then renamed, so that a loss of power leaves the old file
 * or the new one. */
static bool save(const struct niulassenc_endpoint *from, const char *path)
{
    uint8_t image[NIULASSENC_IMAGE_BYTES]; /* always enough */
    struct niulassenc_saving saved = niulassenc_save(from, image, sizeof image);
    char beside[4096];
    int length = snprintf(beside, sizeof beside, "%s.new", path);

    if (saved.code != NIULASSENC_DONE || length < 0 || (size_t)length >= sizeof beside)
        return false;
    FILE *file = fopen(beside, "wb");
    if (file == NULL)
        return false;
    bool written = fwrite(image, 1, saved.length, file) == saved.length && fflush(file) == 0 && fsync(fileno(file)) == 0;
    if (fclose(file) != 0 || !written || rename(beside, path) != 0)
        return false;
    printf("saved: %zu bytes\n", saved.length);
    return true;
}

/* Loads a file. One byte more than an image can have is read, so that bytes behind an image are seen and refused. A file that is
 * not there, or cannot be read, is as good as an empty one: 24. */
static struct niulassenc_started load(const char *path)
{
    uint8_t image[NIULASSENC_IMAGE_BYTES + 1] = {0};
    size_t length = 0;
    FILE *file = fopen(path, "rb");

    if (file != NULL) {
        length = fread(image, 1, sizeof image, file);
        if (ferror(file))
            length = 0;
        fclose(file);
    }
    return niulassenc_load(image, length);
}

/* Puts what a file has in the place of the endpoint, if it is good; else the endpoint stays as it is. */
static bool take_over(const char *path)
{
    struct niulassenc_started loaded = load(path);

    if (loaded.code != NIULASSENC_DONE) {
        printf("not loaded: %s (%d)\n", niulassenc_text(loaded.code), loaded.code);
        return false;
    }
    endpoint = loaded.endpoint;
    printf("loaded: %d peers, %d bindings\n", endpoint.peer_count, endpoint.binding_count);
    return true;
}

static void receive(void)
{
    struct niulassenc_receipt got = niulassenc_receive(&endpoint, packet, sizeof packet, memory, sizeof memory);

    if (got.code == NIULASSENC_DONE)
        printf("tenant %d, frame of %zu bytes\n", got.tenant, got.length);
    else
        printf("no frame: %s (%d)\n", niulassenc_text(got.code), got.code);
}

/* One byte behind the image is enough. */
static bool damage(const char *path)
{
    FILE *file = fopen(path, "ab");

    return file != NULL && fputc(0, file) == 0 && fclose(file) == 0;
}

int main(int count, char **arguments)
{
    struct niulassenc_endpoint made;

    if (count != 2 || !niulassenc_matches()) /* usage; header and archive are of different versions */
        return 1;
    if (!configure(&made) || !save(&made, arguments[1]))
        return 1;

    if (!take_over(arguments[1])) /* what a controller does when it starts */
        return 1;
    receive();

    if (!damage(arguments[1]) || take_over(arguments[1]))
        return 1;
    receive(); /* by the endpoint that was there before */
    return 0;
}

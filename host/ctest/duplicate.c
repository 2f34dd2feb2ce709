/*
 * From received packets to the two peers that show one address to a tenant: receive, view, owner, source, observe. Cloned boards
 * share one hardware address; here 02:00:00:00:00:01 comes from 10.0.0.2 and from 10.0.0.3. It is C++ as well.
 * host/ctest/run compares what it prints with duplicate.expected.
 */
#include <stdio.h>

#include "niulassenc.h"

static const uint8_t packets[2][50] = {
    {0x45, 0, 0, 50, 0, 0, 0x40, 0, 64, 17, 0x26, 0xb9, 10, 0, 0, 2, 10, 0, 0, 1, /* IPv4, 10.0.0.2 to 10.0.0.1 */
     0xcc, 0xb8, 0x12, 0xb5, 0, 30, 0, 0, 0x08, 0, 0, 0, 0, 0, 22, 0,             /* UDP; VXLAN, network 22 */
     2, 0, 0, 0, 0, 2, 2, 0, 0, 0, 0, 1, 0x88, 0xb5},                             /* the inner frame */
    {0x45, 0, 0, 50, 0, 0, 0x40, 0, 64, 17, 0x26, 0xb8, 10, 0, 0, 3, 10, 0, 0, 1, /* IPv4, 10.0.0.3 to 10.0.0.1 */
     0xcc, 0xb8, 0x12, 0xb5, 0, 30, 0, 0, 0x08, 0, 0, 0, 0, 0, 22, 0,             /* UDP; VXLAN, network 22 */
     2, 0, 0, 0, 0, 2, 2, 0, 0, 0, 0, 1, 0x88, 0xb5}};                            /* the inner frame */

static uint8_t memory[NIULASSENC_MEMORY_BYTES];
static struct niulassenc_endpoint endpoint;
static struct niulassenc_detector detector; /* kept over all receives */

/* A delivered frame's peer is listed, so its number is below NIULASSENC_PEERS. */
static void print_peer(const char *before, uint16_t peer)
{
    unsigned address = endpoint.addresses[peer];

    printf("%s%u.%u.%u.%u", before, address >> 24, address >> 16 & 255, address >> 8 & 255, address & 255);
}

/* Tells the detector of a delivered frame, and says which peers share its source address. */
static void watch(struct niulassenc_receipt got, struct niulassenc_part frame)
{
    uint16_t peer = niulassenc_owner(&endpoint, got.binding);
    uint64_t address = niulassenc_source(frame.bytes, frame.length);
    struct niulassenc_observation seen = niulassenc_observe(&detector, got.tenant, peer, address);

    if (seen.answer == NIULASSENC_OBSERVED_DUPLICATE) {
        printf("tenant %d: ", got.tenant);
        for (int shift = 40; shift >= 0; shift -= 8)
            printf("%02x%s", (unsigned)(address >> shift & 255), shift > 0 ? ":" : "");
        print_peer(" is shown by peers ", seen.peer);
        print_peer(" and ", peer);
        printf("\n");
    } else if (seen.answer == NIULASSENC_OBSERVED_FULL) {
        printf("tenant %d: an address is not watched, %s\n", got.tenant, niulassenc_observed_text(seen.answer));
    }
}

int main(void)
{
    if (!niulassenc_matches()) /* header and archive are of different versions */
        return 1;
    endpoint = niulassenc_start(0x0a000001, 7471, 1500).endpoint;
    detector = niulassenc_detector_start();
    for (uint32_t address = 0x0a000002; address <= 0x0a000003; address++) {
        struct niulassenc_addition peer = niulassenc_add_peer(&endpoint, address);
        if (niulassenc_add_binding(&endpoint, peer.number, NIULASSENC_VXLAN, 22, 7).code != NIULASSENC_DONE)
            return 1;
    }
    for (int i = 0; i < 2; i++) {
        struct niulassenc_receipt got = niulassenc_receive(&endpoint, packets[i], sizeof packets[i], memory, sizeof memory);
        if (got.code == NIULASSENC_DONE)
            watch(got, niulassenc_view(packets[i], sizeof packets[i], memory, sizeof memory, got));
        else /* 1: the rest of its frame is still to come; from 2 on: dropped */
            printf("%d: %s\n", got.code, niulassenc_text(got.code));
    }
    return 0;
}

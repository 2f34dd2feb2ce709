/*
 * Writes a capture (pcap, IPv4 packets) to standard output: inner frames of many kinds that the library wraps on STT bindings, each
 * on a Context ID of its own, for tshark to read. What tshark must say of each is in packets.expected, in the same order.
 *
 * The inner frames have right lengths and checksums, as draft-davie-stt-06, 3.1, wants them, but for the one that is cut off. No
 * last segment has 20 bytes or fewer: with fewer than five, tshark (4.0) was seen to take the frame for complete one segment too
 * early, as if it counted the TCP header as data.
 */
#include <stdio.h>
#include <stdlib.h>
#include <string.h>

#include "../ctest/bytes.h"
#include "niulassenc.h"

enum { OWN = 0x0a000001, PEER = 0x0a000002, STT_PORT = 7471, MTU = 576, ETHERNET = 14, LINKTYPE_IPV4 = 228 };
enum { IPV4 = 0x0800, ARP = 0x0806, IPV6 = 0x86dd, EXPERIMENTAL = 0x88b5 };
enum { ICMP = 1, TCP = 6, UDP = 17, ICMPV6 = 58, HOP_BY_HOP = 0 };

/* An inner frame: its type and length. Of IPv4 the words of the header and the flags and fragment offset; the protocol or next
 * header. Behind a hop-by-hop header comes TCP. */
struct inner {
    uint32_t type;
    size_t length;
    uint32_t words;
    uint32_t fragment;
    uint8_t protocol;
};

static const struct inner frames[] = {
    {IPV4, 64, 5, 0x4000, TCP},
    {IPV4, 104, 15, 0x4000, TCP},
    {IPV4, 60, 5, 0, UDP},
    {IPV4, 101, 15, 0, UDP},
    {IPV6, 80, 0, 0, TCP},
    {IPV6, 71, 0, 0, UDP},
    {IPV4, 74, 5, 0x2000, TCP},
    {IPV4, 74, 7, 0x2000, UDP},
    {IPV4, 74, 5, 0x0003, TCP},
    {IPV4, 74, 5, 0x2003, UDP},
    {IPV4, 60, 5, 0, ICMP},
    {IPV6, 70, 0, 0, ICMPV6},
    {IPV6, 90, 0, 0, HOP_BY_HOP},
    {ARP, 42, 0, 0, 0},
    {EXPERIMENTAL, 60, 0, 0, 0},
    {IPV4, ETHERNET + 60 - 1, 15, 0, TCP},
    {IPV4, ETHERNET + 60, 15, 0, TCP},
    {IPV4, 1514, 5, 0x4000, TCP},
    {IPV4, 1514, 15, 0, UDP},
    {IPV6, 1300, 0, 0, TCP},
    {EXPERIMENTAL, 600, 0, 0, 0},
};

/* A header of TCP, UDP, ICMP or ICMPv6 in the first of `length` bytes, with a checksum over all of them. `pseudo` is the sum of the
 * two addresses. */
static void transport(uint8_t *at, size_t length, uint8_t protocol, uint32_t pseudo)
{
    size_t field = protocol == TCP ? 16 : protocol == UDP ? 6 : 2;

    put32(at, protocol == ICMP ? 0x08000000 : protocol == ICMPV6 ? 0x80000000 : 0x9c4007d1); /* echo; port 40000 to 2001 */
    if (protocol == TCP) {
        memset(at + 4, 0, 16);
        put32(at + 12, 0x50101000); /* 20 bytes, acknowledgement, window 4096 */
    }
    if (protocol == UDP)
        put16(at + 4, length);
    put16(at + field, 0);
    put16(at + field, ~sum(protocol == ICMP ? 0 : pseudo + protocol + (uint32_t)length, at, length));
}

/* IPv4 from 192.0.2.1 to 192.0.2.2. Only where the fragment offset is 0 there is a transport header. That of a first fragment has
 * the checksum of this fragment alone; nobody can verify it. */
static void ipv4(uint8_t *at, size_t length, const struct inner *of)
{
    size_t header = 4 * of->words;

    at[0] = (uint8_t)(0x40 | of->words);
    at[1] = 0;
    put16(at + 2, length < header ? header : length);
    put16(at + 6, of->fragment);
    at[8] = 64;
    at[9] = of->protocol;
    put16(at + 10, 0);
    put32(at + 12, 0xc0000201);
    put32(at + 16, 0xc0000202);
    if (length < header)
        return;
    memset(at + 20, 0, header - 20); /* options: the end of their list */
    put16(at + 10, ~sum(0, at, header));
    if (length > header && (of->fragment & 0x1fff) == 0)
        transport(at + header, length - header, of->protocol, sum(0, at + 12, 8));
}

/* IPv6 from 2001:db8::1 to 2001:db8::2. */
static void ipv6(uint8_t *at, size_t length, uint8_t next)
{
    uint8_t header[40] = {0x60, [7] = 64, 0x20, 1, 0x0d, 0xb8, [23] = 1, 0x20, 1, 0x0d, 0xb8, [39] = 2};
    size_t behind = 40;

    header[6] = next;
    if (length > behind)
        put16(header + 4, length - behind);
    memcpy(at, header, length < behind ? length : behind);
    if (next == HOP_BY_HOP) {
        static const uint8_t options[8] = {TCP, 0, 1, 4, 0, 0, 0, 0}; /* padding */
        memcpy(at + behind, options, sizeof options);
        behind += sizeof options;
        next = TCP;
    }
    if (length > behind)
        transport(at + behind, length - behind, next, sum(0, header + 8, 32));
}

/* ARP: who has 192.0.2.2, says 192.0.2.1. */
static void arp(uint8_t *at)
{
    static const uint8_t request[28] = {0, 1, 8, 0, 6, 4, 0, 1, 2, 0, 0, 0, 0, 1, 192, 0, 2, 1, [24] = 192, 0, 2, 2};

    memcpy(at, request, sizeof request);
}

static void build(uint8_t *frame, const struct inner *of)
{
    static const uint8_t addresses[12] = {2, 0, 0, 0, 0, 2, 2, 0, 0, 0, 0, 1};
    size_t length = of->length - ETHERNET;

    for (size_t i = 0; i < of->length; i++)
        frame[i] = (uint8_t)(i * 7 + of->length);
    memcpy(frame, addresses, sizeof addresses);
    put16(frame + 12, of->type);
    if (of->type == IPV4)
        ipv4(frame + ETHERNET, length, of);
    if (of->type == IPV6)
        ipv6(frame + ETHERNET, length, of->protocol);
    if (of->type == ARP)
        arp(frame + ETHERNET);
}

/* Numbers of a capture are in the byte order of the machine. */
static void number(uint32_t value)
{
    fwrite(&value, sizeof value, 1, stdout);
}

static void capture_header(void)
{
    number(0xa1b2c3d4);
    number(2 | 4 << 16); /* version 2.4, on a machine whose low bytes come first */
    number(0);
    number(0);
    number(65535);
    number(LINKTYPE_IPV4);
}

static void record(const uint8_t *packet, size_t length, uint32_t second)
{
    number(second);
    number(0);
    number((uint32_t)length);
    number((uint32_t)length);
    fwrite(packet, length, 1, stdout);
}

static void check(bool good, const char *what, size_t at)
{
    if (good)
        return;
    fprintf(stderr, "packets: frame %zu: %s\n", at, what);
    exit(1);
}

int main(void)
{
    struct niulassenc_endpoint endpoint = niulassenc_start(OWN, STT_PORT, MTU).endpoint;
    uint8_t frame[NIULASSENC_FRAME_MAX], packet[MTU];

    check(niulassenc_matches(), "the archive is not of the header's version", 0);
    check(niulassenc_add_peer(&endpoint, PEER).code == NIULASSENC_DONE, "the peer is refused", 0);
    capture_header();
    for (uint32_t i = 0; i < sizeof frames / sizeof *frames; i++) {
        struct niulassenc_addition bound = niulassenc_add_binding(&endpoint, 0, NIULASSENC_STT, 0x0102030405060700 + i + 1, i);
        struct niulassenc_writing wrote;
        uint32_t segment = 0;

        check(bound.code == NIULASSENC_DONE, "its binding is refused", i + 1);
        build(frame, &frames[i]);
        do {
            wrote = niulassenc_wrap(&endpoint, bound.number, frame, frames[i].length, segment, 1000 + i, packet, sizeof packet);
            check(wrote.code == NIULASSENC_DONE, niulassenc_text(wrote.code), i + 1);
            record(packet, wrote.length, i);
        } while (++segment < wrote.segments);
    }
    check(fflush(stdout) == 0, "cannot be written", 0);
    return 0;
}

/*
 * The library from C: an endpoint that delivers a VXLAN frame and an STT frame in two segments, what refusals leave, the byte that
 * a bad tunnel header is refused for, frames that its peer wraps and it unwraps, what an STT header tells of a TCP frame, what
 * ticks free, and its configuration saved and loaded. It is C++ as well.
 * Each step prints a line; host/ctest/run compares them with demo.expected. Whatever a line cannot show is asserted.
 */
#undef NDEBUG
#include <assert.h>
#include <stdio.h>
#include <string.h>

#include "niulassenc.h"
#include "packets.h"

/* An endpoint's bytes without the 4 of padding at its end, which no promise speaks of. */
enum { ENDPOINT_BYTES = 1068 };

static uint8_t memory[NIULASSENC_MEMORY_BYTES];

/* What a receipt's offset counts in, or NULL where it has none. The code decides: 0 is a byte of an STT frame too. */
static const char *offset_in(uint8_t code)
{
    if (code >= NIULASSENC_BAD_VXLAN_FLAG && code <= NIULASSENC_BAD_GRE_TYPE)
        return "packet";
    if (code == NIULASSENC_BAD_STT_VERSION || code == NIULASSENC_BAD_STT_FLAGS)
        return "STT frame";
    return NULL;
}

/* Receives, prints the answer, and shows that what is delivered is T. */
static struct niulassenc_receipt receive(struct niulassenc_endpoint *endpoint, const char *what, const uint8_t *packet,
                                         size_t length)
{
    struct niulassenc_receipt got = niulassenc_receive(endpoint, packet, length, memory, sizeof memory);

    if (got.code == NIULASSENC_DONE) {
        struct niulassenc_part part = niulassenc_view(packet, length, memory, sizeof memory, got);
        printf("%s: tenant %d, binding %d, %zu bytes from %zu of the %s\n", what, got.tenant, got.binding, got.length,
               got.start, got.in_memory ? "memory" : "packet");
        assert(part.length == sizeof frame && memcmp(part.bytes, frame, sizeof frame) == 0);
    } else {
        printf("%s: %d, %s", what, got.code, niulassenc_text(got.code));
        if (offset_in(got.code) != NULL)
            printf(", at byte %d of the %s", got.offset, offset_in(got.code));
        printf("\n");
        assert(got.tenant == NIULASSENC_NONE && got.binding == NIULASSENC_NONE);
        assert(got.start == 0 && got.length == 0 && !got.in_memory);
    }
    assert(offset_in(got.code) != NULL || got.offset == 0);
    return got;
}

/* Prints the answer of an adding call. */
static struct niulassenc_addition add(const char *what, struct niulassenc_addition added)
{
    if (added.code == NIULASSENC_DONE)
        printf("%s: number %d\n", what, added.number);
    else
        printf("%s: %d, %s\n", what, added.code, niulassenc_text(added.code));
    assert(added.code == NIULASSENC_DONE || added.number == NIULASSENC_NONE);
    return added;
}

/* Calls that are refused: nothing that was lent is changed. */
static void refusals(struct niulassenc_endpoint *endpoint)
{
    static uint8_t memory_before[sizeof memory];
    struct niulassenc_endpoint before;
    uint8_t packet[sizeof vxlan];

    memcpy(&before, endpoint, sizeof before);
    memcpy(memory_before, memory, sizeof memory);
    memcpy(packet, vxlan, sizeof packet);
    put32(packet + 16, OWN + 1);
    sum_header(packet);
    receive(endpoint, "not for us", packet, sizeof packet);
    packet[10] ^= 1;
    receive(endpoint, "damaged", packet, sizeof packet);
    receive(endpoint, "empty", packet, 0);
    memcpy(packet, vxlan, sizeof packet);
    packet[28] = 0;
    receive(endpoint, "VXLAN without its flag", packet, sizeof packet);
    struct niulassenc_receipt got = niulassenc_receive(endpoint, packet, 0, memory, sizeof memory - 1);
    printf("memory of 55,295 bytes: %d, %s\n", got.code, niulassenc_text(got.code));
    add("the peer again", niulassenc_add_peer(endpoint, PEER));
    /* Cut to 16 bits (a kind: 8), these would be peer 0, VXLAN and tenant 7. */
    add("peer 65,536", niulassenc_add_binding(endpoint, 65536, NIULASSENC_VXLAN, 23, 7));
    add("kind 257", niulassenc_add_binding(endpoint, 0, 257, 23, 7));
    add("tenant 65,543", niulassenc_add_binding(endpoint, 0, NIULASSENC_VXLAN, 23, 65543));
    assert(memcmp(&before, endpoint, ENDPOINT_BYTES) == 0 && memcmp(memory_before, memory, sizeof memory) == 0);
}

/* The offset in a packet is counted from its first byte, here over a word of options; in an STT frame, from the frame's first
 * byte, whichever segment has the offending one. Of a complete frame that is bad, the last segment is stored and the slot is
 * free. */
static void bad_headers(struct niulassenc_endpoint *endpoint)
{
    static const uint8_t gre[24 + 8] = {0x46, 0, 0, 46, 0, 0, 0x40, 0, 64, 47, 0, 0, 10, 0, 0, 1, 10, 0, 0, 2, 1, 1, 1, 1,
                                        0x20, 0, 0x65, 0x59, 0, 0x10, 0, 0};
    uint8_t nvgre[sizeof gre + sizeof frame], stt[STT_HEADER + sizeof tcp_frame], packet[128];

    memcpy(nvgre, gre, sizeof gre);
    memcpy(nvgre + sizeof gre, frame, sizeof frame);
    put16(nvgre + 10, checksum(0, nvgre, 24));
    receive(endpoint, "NVGRE with type 0x6559", nvgre, sizeof nvgre);

    stt_frame(stt, 0x0102030405060708, tcp_frame, sizeof tcp_frame);
    stt[1] = 3;
    receive(endpoint, "STT with both flags, first segment", packet, segment(packet, stt, sizeof stt, 0, 20, 78));
    receive(endpoint, "STT with both flags, last segment", packet, segment(packet, stt, sizeof stt, 20, sizeof stt - 20, 78));
    assert(memcmp(memory, stt, sizeof stt) == 0 && !endpoint->peers[0].slots[0].pending);

    /* The flags are about TCP and UDP. T carries neither, so on it they are ignored. */
    stt_frame(stt, 0x0102030405060708, frame, sizeof frame);
    stt[1] = 3;
    size_t length = segment(packet, stt, STT_HEADER + sizeof frame, 0, STT_HEADER + sizeof frame, 79);
    receive(endpoint, "STT with both flags, neither TCP nor UDP", packet, length);
}

/* Wraps, and prints the answer. What is behind the packet stays as it came: all of the output, where the call is refused. */
static size_t wrap(const struct niulassenc_endpoint *sender, const char *what, uint32_t binding, const uint8_t *bytes,
                   size_t length, uint32_t segment_number, uint8_t *out, size_t size)
{
    struct niulassenc_endpoint before;

    memcpy(&before, sender, sizeof before);
    memset(out, 0xa5, size);
    struct niulassenc_writing wrote = niulassenc_wrap(sender, binding, bytes, length, segment_number, 0x01020304, out, size);
    if (wrote.code == NIULASSENC_DONE)
        printf("%s: %zu bytes, segments %u\n", what, wrote.length, (unsigned)wrote.segments);
    else
        printf("%s: %d, %s\n", what, wrote.code, niulassenc_text(wrote.code));
    assert(wrote.code == NIULASSENC_DONE || (wrote.length == 0 && wrote.segments == 0));
    for (size_t i = wrote.length; i < size; i++)
        assert(out[i] == 0xa5);
    assert(memcmp(&before, sender, ENDPOINT_BYTES) == 0);
    return wrote.length;
}

/* The peer, with an MTU of 576: binding 0 is VXLAN, binding 1 STT. */
static struct niulassenc_endpoint sending_peer(void)
{
    struct niulassenc_endpoint sender = niulassenc_start(PEER, STT_PORT, 576).endpoint;

    assert(niulassenc_add_peer(&sender, OWN).code == NIULASSENC_DONE);
    assert(niulassenc_add_binding(&sender, 0, NIULASSENC_VXLAN, 22, 1).code == NIULASSENC_DONE);
    assert(niulassenc_add_binding(&sender, 0, NIULASSENC_STT, 0x0102030405060708, 2).code == NIULASSENC_DONE);
    return sender;
}

/* The peer wraps, and we unwrap: T on VNI 22, and a frame of 600 bytes that an MTU of 576 cuts in two. */
static void wraps(struct niulassenc_endpoint *endpoint)
{
    struct niulassenc_endpoint sender = sending_peer();
    uint8_t large[600], out[2][580];

    size_t length = wrap(&sender, "wrap on VXLAN", 0, frame, sizeof frame, 0, out[0], sizeof out[0]);
    assert(length == sizeof vxlan && memcmp(out[0], vxlan, sizeof vxlan) == 0);
    receive(endpoint, "unwrap", out[0], length);

    for (size_t i = 0; i < sizeof large; i++)
        large[i] = (uint8_t)(i * 7 + 1);
    put16(large + 12, 0x88b5);
    size_t first = wrap(&sender, "wrap on STT, segment 0", 1, large, sizeof large, 0, out[0], sizeof out[0]);
    size_t second = wrap(&sender, "wrap on STT, segment 1", 1, large, sizeof large, 1, out[1], sizeof out[1]);
    receive(endpoint, "unwrap segment 1", out[1], second);
    struct niulassenc_receipt got = niulassenc_receive(endpoint, out[0], first, memory, sizeof memory);
    struct niulassenc_part part = niulassenc_view(out[0], first, memory, sizeof memory, got);
    printf("unwrap segment 0: tenant %d, binding %d, %zu bytes\n", got.tenant, got.binding, got.length);
    assert(part.length == sizeof large && memcmp(part.bytes, large, sizeof large) == 0);

    wrap(&sender, "wrap on binding 65,536", 65536, frame, sizeof frame, 0, out[0], sizeof out[0]);
    wrap(&sender, "wrap on no binding", 2, frame, sizeof frame, 0, out[0], sizeof out[0]);
    wrap(&sender, "wrap a frame of 13 bytes", 0, frame, 13, 0, out[0], sizeof out[0]);
    wrap(&sender, "wrap above the MTU", 0, large, 541, 0, out[0], sizeof out[0]);
    wrap(&sender, "wrap segment 2 of 2", 1, large, sizeof large, 2, out[0], sizeof out[0]);
    wrap(&sender, "wrap into 49 bytes", 0, frame, sizeof frame, 0, out[0], 49);
}

/* The STT header, at byte 40 of a frame's first packet, tells what the frame carries and where: flag 0x04 is IPv4, 0x08 is TCP. */
static void hints(void)
{
    struct niulassenc_endpoint sender = sending_peer();
    uint8_t out[580];

    wrap(&sender, "wrap TCP on STT", 1, tcp_frame, sizeof tcp_frame, 0, out, sizeof out);
    printf("STT header: flags 0x%02x, L4 offset %d\n", out[41], out[42]);
    wrap(&sender, "wrap neither TCP nor UDP on STT", 1, frame, sizeof frame, 0, out, sizeof out);
    printf("STT header: flags 0x%02x, L4 offset %d\n", out[41], out[42]);
}

/* How many frames are pending. */
static unsigned pending(const struct niulassenc_endpoint *endpoint)
{
    unsigned count = 0;

    for (unsigned peer = 0; peer < NIULASSENC_PEERS; peer++)
        for (unsigned slot = 0; slot < NIULASSENC_SLOTS; slot++)
            count += endpoint->peers[peer].slots[slot].pending;
    return count;
}

/* A frame that lost a segment is given up at its fourth tick. A tick does not say what it freed: count before and after. */
static void ticks(struct niulassenc_endpoint *endpoint, const uint8_t *packet, size_t length)
{
    receive(endpoint, "STT, one segment of two", packet, length);
    for (int tick = 1; tick <= NIULASSENC_TICKS; tick++) {
        unsigned before = pending(endpoint);
        uint8_t code = niulassenc_tick(endpoint);
        printf("tick %d: %s, %u freed\n", tick, niulassenc_text(code), before - pending(endpoint));
        assert(code == NIULASSENC_DONE);
    }
}

/* Prints a save's answer. What is behind the image stays as it came: all of the output, where the call is refused. */
static size_t save(const struct niulassenc_endpoint *endpoint, const char *what, uint8_t *out, size_t size)
{
    memset(out, 0xa5, size);
    struct niulassenc_saving saved = niulassenc_save(endpoint, out, size);
    if (saved.code == NIULASSENC_DONE)
        printf("%s: %zu bytes\n", what, saved.length);
    else
        printf("%s: %d, %s\n", what, saved.code, niulassenc_text(saved.code));
    assert(saved.code == NIULASSENC_DONE || saved.length == 0);
    for (size_t i = saved.length; i < size; i++)
        assert(out[i] == 0xa5);
    return saved.length;
}

/* The configuration as a settings image, and an endpoint from it: the same, since no frame is pending here. */
static void images(const struct niulassenc_endpoint *endpoint)
{
    static const uint8_t begin[19] = {'T', 'W', 'N', 0, 1, 10, 0, 0, 2, 0x1d, 0x2f, 0x05, 0xdc, 1, 10, 0, 0, 1, 2};
    uint8_t image[NIULASSENC_IMAGE_BYTES], other[NIULASSENC_IMAGE_BYTES];
    size_t length = save(endpoint, "save", image, sizeof image);

    assert(length == sizeof begin + 2 * 12 && memcmp(image, begin, sizeof begin) == 0);
    save(endpoint, "save into 42 bytes", other, 42);
    struct niulassenc_started loaded = niulassenc_load(image, length);
    printf("load: %s\n", niulassenc_text(loaded.code));
    assert(memcmp(&loaded.endpoint, endpoint, ENDPOINT_BYTES) == 0);
    loaded = niulassenc_load(image, length + 1);
    printf("load with a byte behind the image: %d, %s\n", loaded.code, niulassenc_text(loaded.code));
    assert(loaded.endpoint.own == 0 && loaded.endpoint.port == 0 && loaded.endpoint.peer_count == 0);
    save(&loaded.endpoint, "save what was not loaded", other, 0);
}

/* A place that does not fit gives the empty part at the packet's start. */
static void misfits(void)
{
    struct niulassenc_part_at at = niulassenc_cut(50, NIULASSENC_MEMORY_BYTES, 36, 14, false);
    assert(at.start == 36 && at.length == 14 && !at.in_memory);
    at = niulassenc_cut(50, NIULASSENC_MEMORY_BYTES, 37, 14, false);
    assert(at.start == 0 && at.length == 0 && !at.in_memory);

    struct niulassenc_receipt place = {SIZE_MAX, 2, 0, 0, 0, true, 0};
    struct niulassenc_part part = niulassenc_view(vxlan, sizeof vxlan, memory, sizeof memory, place);
    assert(part.bytes == vxlan && part.length == 0);
    place.start = sizeof memory - 1;
    part = niulassenc_view(vxlan, sizeof vxlan, memory, sizeof memory, place);
    assert(part.bytes == vxlan && part.length == 0);
    place.start = sizeof memory - 2;
    part = niulassenc_view(vxlan, sizeof vxlan, memory, sizeof memory, place);
    assert(part.bytes == memory + sizeof memory - 2 && part.length == 2);
}

int main(void)
{
    if (!niulassenc_matches()) {
        fprintf(stderr, "demo: the archive is not of the header's version\n");
        return 1;
    }
    struct niulassenc_started started = niulassenc_start(OWN, STT_PORT, 1500);
    struct niulassenc_endpoint endpoint = started.endpoint;
    uint8_t stt[STT_HEADER + sizeof frame];
    uint8_t first[64], second[64];

    printf("start: %s\n", niulassenc_text(started.code));
    printf("start at port 0: %s\n", niulassenc_text(niulassenc_start(OWN, 0, 1500).code));
    printf("start at port 65,537: %s\n", niulassenc_text(niulassenc_start(OWN, 65537, 1500).code));
    printf("start with an MTU of 66,000: %s\n", niulassenc_text(niulassenc_start(OWN, STT_PORT, 66000).code));
    struct niulassenc_addition peer = add("peer", niulassenc_add_peer(&endpoint, PEER));
    add("VXLAN binding", niulassenc_add_binding(&endpoint, peer.number, NIULASSENC_VXLAN, 22, 7));
    add("STT binding", niulassenc_add_binding(&endpoint, peer.number, NIULASSENC_STT, 0x0102030405060708, 9));
    assert(endpoint.own == OWN && endpoint.peer_count == 1 && endpoint.addresses[0] == PEER);
    assert(endpoint.binding_count == 2 && endpoint.tenants[1] == 9 && endpoint.networks[0] == 22);

    memset(memory, 0xa5, sizeof memory);
    receive(&endpoint, "VXLAN", vxlan, sizeof vxlan);

    stt_frame(stt, 0x0102030405060708, frame, sizeof frame);
    size_t first_length = segment(first, stt, sizeof stt, 0, 20, 77);
    size_t second_length = segment(second, stt, sizeof stt, 20, 12, 77);
    receive(&endpoint, "STT, second segment", second, second_length);
    niulassenc_tick(&endpoint);
    assert(endpoint.peers[0].slots[0].pending && endpoint.peers[0].slots[0].age == 1);
    receive(&endpoint, "STT, first segment", first, first_length);
    assert(!endpoint.peers[0].slots[0].pending && memory[NIULASSENC_SLOT_BYTES] == 0xa5);

    refusals(&endpoint);
    bad_headers(&endpoint);
    wraps(&endpoint);
    hints();
    ticks(&endpoint, second, second_length);
    images(&endpoint);
    misfits();
    return 0;
}

/*
 * A fuzz target for clang's libFuzzer. An input is read as a run of calls: starts, additions, receives of raw and of built
 * packets, ticks, wraps, cuts, saves and loads, on one endpoint with one memory; observations by one detector, of what is
 * delivered and of any numbers. Everything that a call is lent ends right before a page that may not be touched, or begins right
 * behind one. After each call these are checked:
 *
 * - the code is one that the call can give;
 * - a refusal changed neither endpoint nor memory nor output, a good call only what it may change, and no call its input;
 * - what is delivered lies where the answer says, is a good frame, goes to the tenant of its binding, and came from the
 *   binding's owner;
 * - a refusal for a tunnel header names the first byte that breaks its rule, a good header has none, and every other answer has
 *   offset 0;
 * - the first segment of a wrapped STT frame has the header that the inner frame asks for, its hints too;
 * - a detector answers what a search through its entries says, and only a new address changes it, by one entry;
 * - a saved image is the endpoint's numbers in their order, and loads again as the same configuration with no frame pending; a
 *   load accepts what a start and additions accept, and nothing else.
 *
 * The archive is not instrumented, so the fuzzer is told what happened by counters of its own: the answers given to each call,
 * and how many frames were pending.
 */
#define _GNU_SOURCE
#include <stdio.h>
#include <stdlib.h>
#include <string.h>
#include <sys/mman.h>
#include <unistd.h>

#include "../ctest/bytes.h"
#include "niulassenc.h"

enum { MEMORY = NIULASSENC_MEMORY_BYTES, LONGEST = 2000, OWN = 0x0a000002, STT_PORT = 7471 };

#define CHECK(fact)                                                             \
    do {                                                                        \
        if (!(fact)) {                                                          \
            fprintf(stderr, "fuzz: line %d: %s does not hold\n", __LINE__, #fact); \
            abort();                                                            \
        }                                                                       \
    } while (0)

enum call { START, PEER, BINDING, RAW, BUILT, TICK, WRAP, CUT, OWNER, SOURCE, OBSERVE, SAVE, LOAD, CALLS };

/* What the fuzzer looks at: each answer to each call, the hints of wrapped STT frames, each number of pending frames, and the
 * number of entries by eights. */
enum { PENDING = CALLS * 32, ENTRIES = PENDING + NIULASSENC_PEERS * NIULASSENC_SLOTS + 1, COUNTERS = ENTRIES + 32 };
__attribute__((section("__libfuzzer_extra_counters"))) static uint8_t counters[COUNTERS];

static void count(enum call call, uint8_t code)
{
    counters[call * 32 + (code < 31 ? code : 31)]++;
}

/* The input, read from the front; 0 where it has ended. */
static const uint8_t *input;
static size_t left;

static uint32_t number(size_t bytes)
{
    uint32_t value = 0;

    for (; bytes > 0; bytes--) {
        value = value << 8 | (left > 0 ? *input : 0);
        if (left > 0) {
            input++;
            left--;
        }
    }
    return value;
}

static size_t bytes(uint8_t *to, size_t length)
{
    size_t had = length < left ? length : left;

    memcpy(to, input, had);
    memset(to + had, 0, length - had);
    input += had;
    left -= had;
    return length;
}

/* Pages with one on each side that may not be touched. */
struct region {
    uint8_t *begin;
    size_t size;
};

static struct region region(size_t least)
{
    size_t page = (size_t)sysconf(_SC_PAGESIZE), size = (least + page - 1) / page * page;
    uint8_t *all = mmap(NULL, size + 2 * page, PROT_NONE, MAP_PRIVATE | MAP_ANONYMOUS, -1, 0);

    CHECK(all != MAP_FAILED && mprotect(all + page, size, PROT_READ | PROT_WRITE) == 0);
    struct region made = {all + page, size};
    return made;
}

/* A part of the region: its last bytes, or its first. */
static uint8_t *part(struct region from, size_t length, bool at_end)
{
    return at_end ? from.begin + from.size - length : from.begin;
}

static struct region endpoint_pages, memory_pages, packet_pages, output_pages, detector_pages;
static struct niulassenc_endpoint *endpoint;
static struct niulassenc_detector *detector;
static uint8_t *memory;
static bool at_end;

/* What was there before a call. */
static struct niulassenc_endpoint endpoint_before;
static uint8_t memory_before[MEMORY], lent_before[LONGEST];

/* The bytes of an endpoint and of a detector that mean something: not the padding at their ends. */
enum {
    ENDPOINT_BYTES = offsetof(struct niulassenc_endpoint, owners) + NIULASSENC_BINDINGS,
    DETECTOR_BYTES = offsetof(struct niulassenc_detector, count) + sizeof(uint16_t)
};

static void remember(void)
{
    memcpy(&endpoint_before, endpoint, sizeof endpoint_before);
    memcpy(memory_before, memory, MEMORY);
}

static bool endpoint_same(void)
{
    return memcmp(&endpoint_before, endpoint, ENDPOINT_BYTES) == 0;
}

static bool memory_same(void)
{
    return memcmp(memory_before, memory, MEMORY) == 0;
}

/* Whether all that changed of the memory lies in one slot. */
static bool one_slot_changed(void)
{
    unsigned changed = 0;

    for (size_t at = 0; at < MEMORY; at += NIULASSENC_SLOT_BYTES)
        changed += memcmp(memory_before + at, memory + at, NIULASSENC_SLOT_BYTES) != 0;
    return changed <= 1;
}

static void count_pending(void)
{
    unsigned pending = 0;

    for (unsigned peer = 0; peer < NIULASSENC_PEERS; peer++)
        for (unsigned slot = 0; slot < NIULASSENC_SLOTS; slot++)
            pending += endpoint->peers[peer].slots[slot].pending;
    counters[PENDING + pending]++;
}

static uint64_t get(const uint8_t *at, size_t bytes)
{
    uint64_t value = 0;

    for (; bytes > 0; bytes--)
        value = value << 8 | *at++;
    return value;
}

/* Makes some fields right, as `which` says: the header's length fields, the addresses, the checksums. */
static void mend(uint8_t *packet, size_t length, uint32_t which)
{
    if (length < 20)
        return;
    size_t header = (packet[0] & 15u) * 4;
    if (which & 1) {
        packet[0] = 0x45;
        header = 20;
        put16(packet + 2, (uint32_t)length);
        put16(packet + 6, 0x4000);
    }
    if (which & 2) {
        put32(packet + 12, OWN + 1 + (which >> 5) % 9);
        put32(packet + 16, OWN);
    }
    size_t total = (size_t)packet[2] << 8 | packet[3];
    if (which & 4 && header >= 20 && header <= total && total <= length) {
        size_t payload = total - header;
        size_t field = packet[9] == 6 && payload >= 20 ? 16 : packet[9] == 17 && payload >= 8 ? 6 : 0;
        if (field != 0) {
            put16(packet + header + field, 0);
            uint32_t pseudo = sum(packet[9] + (uint32_t)payload, packet + 12, 8);
            put16(packet + header + field, ~sum(pseudo, packet + header, payload));
        }
    }
    if (which & 8 && header >= 20 && header <= length) {
        put16(packet + 10, 0);
        put16(packet + 10, ~sum(0, packet, header));
    }
}

/* Tells the detector. What it must answer is told from its entries, of which there are never more than fit; what it must be
 * afterwards, from the answer. */
static void observe(uint16_t tenant, uint16_t peer, uint64_t address)
{
    struct niulassenc_detector expected = *detector;
    unsigned kept = expected.count < NIULASSENC_ENTRIES ? expected.count : NIULASSENC_ENTRIES, at = 0;
    uint8_t answer = kept == NIULASSENC_ENTRIES ? NIULASSENC_OBSERVED_FULL : NIULASSENC_OBSERVED_NEW;

    while (at < kept && (expected.addresses[at] != address || expected.tenants[at] != tenant))
        at++;
    if (at < kept)
        answer = expected.peers[at] == peer ? NIULASSENC_OBSERVED_KNOWN : NIULASSENC_OBSERVED_DUPLICATE;
    struct niulassenc_observation got = niulassenc_observe(detector, tenant, peer, address);
    count(OBSERVE, got.answer);
    counters[ENTRIES + kept / 8]++;
    CHECK(got.answer == answer);
    CHECK(got.peer == (answer == NIULASSENC_OBSERVED_DUPLICATE ? expected.peers[at] : NIULASSENC_NONE));
    if (answer == NIULASSENC_OBSERVED_NEW) {
        expected.addresses[kept] = address;
        expected.tenants[kept] = tenant;
        expected.peers[kept] = peer;
        expected.count++;
    }
    CHECK(memcmp(&expected, detector, DETECTOR_BYTES) == 0);
}

/* A delivered frame: where it lies, what it is, whose it is, whom it came from. */
static void delivered(struct niulassenc_receipt got, const uint8_t *packet, size_t length)
{
    struct niulassenc_part frame = niulassenc_view(packet, length, memory, MEMORY, got);

    CHECK(frame.length == got.length && frame.bytes == (got.in_memory ? memory : packet) + got.start);
    CHECK(frame.length >= NIULASSENC_FRAME_MIN && frame.length <= NIULASSENC_FRAME_MAX);
    CHECK(!(frame.bytes[12] == 0x81 && frame.bytes[13] == 0x00) && !(frame.bytes[12] == 0x88 && frame.bytes[13] == 0xa8));
    CHECK(got.binding < endpoint->binding_count && endpoint->tenants[got.binding] == got.tenant);
    CHECK(got.in_memory == (endpoint->kinds[got.binding] == NIULASSENC_STT));
    uint16_t peer = niulassenc_owner(endpoint, got.binding);
    uint8_t address[4];
    CHECK(peer < endpoint->peer_count);
    put32(address, endpoint->addresses[peer]);
    CHECK(memcmp(address, packet + 12, sizeof address) == 0);
    observe(got.tenant, peer, niulassenc_source(frame.bytes, frame.length));
}

/* The slot, counted over all peers, of the STT frame that a packet belongs to: the one that its identifier had before the call, or
 * else the first that was free. */
static unsigned slot_of(const uint8_t *packet)
{
    const uint8_t *tcp = packet + (packet[0] & 15) * 4;
    unsigned peer = 0, slot = 0;

    while (endpoint_before.addresses[peer] != get(packet + 12, 4))
        CHECK(++peer < endpoint_before.peer_count);
    const struct niulassenc_slot *slots = endpoint_before.peers[peer].slots;
    while (slot < NIULASSENC_SLOTS && !(slots[slot].pending && slots[slot].identifier == get(tcp + 8, 4)))
        slot++;
    if (slot == NIULASSENC_SLOTS)
        for (slot = 0; slots[slot].pending; slot++)
            CHECK(slot + 1 < NIULASSENC_SLOTS);
    return peer * NIULASSENC_SLOTS + slot;
}

/* Of a complete STT frame the slot is free, every number 0, and nothing else of the endpoint is changed. */
static void freed(const uint8_t *packet)
{
    struct niulassenc_endpoint expected = endpoint_before;
    unsigned slot = slot_of(packet);

    memset(&expected.peers[slot / NIULASSENC_SLOTS].slots[slot % NIULASSENC_SLOTS], 0, sizeof(struct niulassenc_slot));
    CHECK(memcmp(&expected, endpoint, ENDPOINT_BYTES) == 0);
}

/* Where an inner frame has a TCP or UDP header, 0 where it has none, and what the flags of an STT frame say of it: 0x04 IPv4, 0x08
 * TCP. */
static size_t transport(const uint8_t *frame, size_t length, uint8_t *flags)
{
    bool four = length >= 34 && get(frame + 12, 2) == 0x0800 && frame[14] >= 0x45 && frame[14] <= 0x4f;
    bool six = length >= 54 && get(frame + 12, 2) == 0x86dd && frame[14] >= 0x60 && frame[14] <= 0x6f;
    size_t at = four ? 14 + 4 * (frame[14] - 0x40u) : 54;

    *flags = 0;
    if ((!four && !six) || at > length || (four && get(frame + 20, 2) % 0x2000 != 0))
        return 0;
    uint8_t protocol = frame[four ? 23 : 20];
    if (protocol != 6 && protocol != 17)
        return 0;
    *flags = (uint8_t)((four ? 0x04 : 0) | (protocol == 6 ? 0x08 : 0));
    return at;
}

/* What the header of a complete STT frame is refused with, 0 where it is good. The checksum flags count for TCP and UDP only. */
static uint8_t judge_stt(const uint8_t *frame, size_t length)
{
    uint8_t flags;

    if (frame[0] != 0)
        return NIULASSENC_BAD_STT_VERSION;
    return (frame[1] & 3) == 3 && transport(frame + 18, length - 18, &flags) != 0 ? NIULASSENC_BAD_STT_FLAGS : 0;
}

/* The code and offset that the tunnel header of a packet is refused with, which has passed all checks up to there, for STT the
 * reassembly too; 0 and 0 for a good header. */
static void judge(const uint8_t *packet, uint8_t *code, size_t *offset)
{
    size_t at = (packet[0] & 15u) * 4;
    const uint8_t *header = packet + at;

    *code = *offset = 0;
    if (packet[9] == 17 && !(header[8] & 0x08)) {
        *code = NIULASSENC_BAD_VXLAN_FLAG;
        *offset = at + 8;
    } else if (packet[9] == 47 && ((header[0] & 0xfc) != 0x20 || (header[1] & 7) != 0)) {
        *code = NIULASSENC_BAD_GRE_FLAGS;
        *offset = (header[0] & 0xfc) != 0x20 ? at : at + 1;
    } else if (packet[9] == 47 && !(header[2] == 0x65 && header[3] == 0x58)) {
        *code = NIULASSENC_BAD_GRE_TYPE;
        *offset = header[2] != 0x65 ? at + 2 : at + 3;
    } else if (packet[9] == 6) {
        *code = judge_stt(memory + slot_of(packet) * NIULASSENC_SLOT_BYTES, get(header + 4, 2));
        *offset = *code == NIULASSENC_BAD_STT_FLAGS;
    }
}

/* Whether a code refuses a tunnel header, and whether it says that one was looked at. */
static bool of_a_header(uint8_t code)
{
    return code >= NIULASSENC_BAD_VXLAN_FLAG && code <= NIULASSENC_BAD_STT_FLAGS;
}

static bool judged(uint8_t code)
{
    return of_a_header(code) || code == NIULASSENC_DONE || code == NIULASSENC_NO_BINDING || code == NIULASSENC_BAD_FRAME;
}

/* A header that was looked at tells whether it must be refused, and for which byte. Where none was, the offset is 0. */
static void offending(struct niulassenc_receipt got, const uint8_t *packet)
{
    uint8_t code = 0;
    size_t offset = 0;

    if (judged(got.code))
        judge(packet, &code, &offset);
    CHECK(code == (of_a_header(got.code) ? got.code : 0));
    CHECK(got.offset == offset);
}

static void receive(enum call call, const uint8_t *built, size_t length, size_t memory_length)
{
    uint8_t *packet = part(packet_pages, length, at_end);
    uint8_t *lent = at_end ? memory + MEMORY - memory_length : memory;

    memcpy(packet, built, length);
    memcpy(lent_before, built, length);
    remember();
    struct niulassenc_receipt got = niulassenc_receive(endpoint, packet, length, lent, memory_length);
    count(call, got.code);
    CHECK(memcmp(lent_before, packet, length) == 0);
    CHECK((got.code <= NIULASSENC_NO_SLOT && got.code != 11) || of_a_header(got.code));
    CHECK((got.code == NIULASSENC_MEMORY_TOO_SMALL) == (memory_length < MEMORY));
    CHECK(one_slot_changed());
    offending(got, packet);
    if (judged(got.code) && packet[9] == 6)
        freed(packet);
    else if (got.code != NIULASSENC_PENDING)
        CHECK(endpoint_same() && memory_same());
    if (got.code == NIULASSENC_DONE) {
        delivered(got, packet, length);
        return;
    }
    CHECK(got.tenant == NIULASSENC_NONE && got.binding == NIULASSENC_NONE);
    CHECK(got.start == 0 && got.length == 0 && !got.in_memory);
}

/* Any bytes, some of whose fields are made right. */
static void raw(void)
{
    uint8_t packet[LONGEST];
    uint32_t which = number(2);
    size_t length = number(2) % (LONGEST + 1), memory_length = which & 16 ? number(2) % (MEMORY + 1) : MEMORY;

    bytes(packet, length);
    mend(packet, length, which);
    receive(RAW, packet, length, memory_length);
}

/* Puts words of options behind the first 20 bytes of the IPv4 header. */
static size_t add_options(uint8_t *packet, size_t length, size_t words)
{
    memmove(packet + 20 + 4 * words, packet + 20, length - 20);
    memset(packet + 20, 1, 4 * words);
    packet[0] = (uint8_t)(0x45 + words);
    put16(packet + 2, (uint32_t)(length + 4 * words));
    return length + 4 * words;
}

/* Gives a frame an IP header, as `which` says, now and then one that does not count: of another version, with another protocol, of
 * a later fragment, or longer than the frame. */
static void put_ip(uint8_t *frame, size_t length, uint32_t which)
{
    static const uint8_t protocols[4] = {6, 17, 6, 1};
    uint8_t protocol = protocols[which >> 1 & 3];

    if (length < 34)
        return;
    put16(frame + 12, which & 1 ? 0x0800 : 0x86dd);
    frame[14] = (uint8_t)(which & 8 ? number(1) : which & 1 ? 0x45 + number(1) % 11 : 0x60);
    put16(frame + 20, which & 16 ? number(2) : which & 1 ? which << 8 & 0xe000 : (uint32_t)protocol << 8);
    frame[23] = protocol;
}

static void segment_header(uint8_t *packet, uint32_t frame_length, uint32_t offset)
{
    packet[9] = 6;
    put16(packet + 22, STT_PORT);
    put16(packet + 24, frame_length);
    put16(packet + 26, offset);
    put32(packet + 28, number(1) % 6);
    packet[32] = 0x50;
}

/* Writes a segment of an STT frame that has an IP header: all of the frame, its first 56 bytes, or the rest. Gives the segment's
 * length. */
static size_t segment_with_ip(uint8_t *packet, bool both_flags)
{
    uint8_t frame[80] = {0};
    uint32_t length = 70 + number(1) % 8, which = number(1) % 3, from = which == 2 ? 56 : 0, to = which == 1 ? 56 : length;

    segment_header(packet, length, from);
    frame[1] = both_flags ? 3 : (uint8_t)number(1);
    bytes(frame + 18, number(1) % (length - 17));
    put_ip(frame + 18, length - 18, number(1));
    memcpy(packet + 40, frame + from, to - from);
    return to - from;
}

/* Writes what a packet of one of the three kinds carries, a short frame or a segment, and gives the packet's length. */
static size_t carried(uint8_t *packet, uint32_t protocol, bool both_flags)
{
    size_t length = 20;

    if (protocol == 0) {
        packet[9] = 17;
        put16(packet + 22, 4789);
        packet[28] = 8;
        packet[34] = (uint8_t)number(1);
        length += 16 + bytes(packet + 36, number(1) % 80);
        put16(packet + 24, (uint32_t)length - 20);
    } else if (protocol == 1) {
        packet[9] = 47;
        put32(packet + 20, 0x20006558);
        put16(packet + 25, 0x1000 >> 8);
        packet[26] = (uint8_t)number(1);
        length += 8 + bytes(packet + 28, number(1) % 80);
    } else if (protocol == 2) {
        length += 20 + segment_with_ip(packet, both_flags);
    } else {
        uint32_t frame_length = protocol == 3 ? 32 + number(1) % 8 : number(2);
        segment_header(packet, frame_length, protocol == 3 ? number(1) % 40 : number(2));
        length += 20 + bytes(packet + 40, number(1) % (protocol == 3 ? 41 : 256));
        if (both_flags) /* where the segment is the frame's first */
            put16(packet + 40, 3);
    }
    return length;
}

/* A packet from one of the peers, now and then with options or a fault. */
static void built(void)
{
    uint8_t packet[LONGEST] = {0x45, 0, 0, 0, 0, 0, 0x40, 0, 64};
    uint32_t which = number(1);
    size_t length = carried(packet, number(1) % 5, which & 64), words = which & 32 ? number(1) % 11 : 0;

    mend(packet, length, 1 | 2 | which << 5);
    length = add_options(packet, length, words);
    if (which & 8) { /* a field is wrong, or two in a row, the checksums are right */
        size_t at = number(1) % (64 + 4 * words);
        packet[at] ^= (uint8_t)number(1);
        packet[at + 1] ^= (uint8_t)(which & 128 ? number(1) : 0);
    }
    mend(packet, length, packet[9] == 6 || which & 4 ? 4 | 8 : 8);
    if (which & 16) /* anything is wrong */
        packet[number(1) % (64 + 4 * words)] ^= (uint8_t)number(1);
    receive(BUILT, packet, length, MEMORY);
}

static void start(void)
{
    uint32_t which = number(1);
    struct niulassenc_started got = niulassenc_start(which & 1 ? number(4) : OWN, which & 2 ? number(4) : STT_PORT,
                                                     which & 4 ? number(4) : NIULASSENC_MTU_MIN + which);

    count(START, got.code);
    CHECK(got.code == NIULASSENC_DONE || got.code == NIULASSENC_OUT_OF_RANGE);
    CHECK((got.code == NIULASSENC_DONE) == (got.endpoint.port != 0));
    CHECK(got.endpoint.peer_count == 0 && got.endpoint.binding_count == 0);
    *endpoint = got.endpoint;
}

static void add(enum call call)
{
    struct niulassenc_addition got;
    uint32_t which = number(1);

    remember();
    if (call == PEER) {
        got = niulassenc_add_peer(endpoint, which & 1 ? number(4) : OWN + 1 + which % 9);
    } else {
        uint32_t peer = which & 1 ? number(4) : (which >> 1) % 8, kind = which & 16 ? number(4) : number(1) % 4;
        uint64_t network = which & 32 ? (uint64_t)number(4) << 32 | number(4) : number(2);
        got = niulassenc_add_binding(endpoint, peer, kind, network, which & 64 ? number(4) : number(2));
    }
    count(call, got.code);
    CHECK(got.code == NIULASSENC_DONE || (got.code >= NIULASSENC_OUT_OF_RANGE && got.code <= NIULASSENC_FULL));
    CHECK(got.code == NIULASSENC_DONE || (got.number == NIULASSENC_NONE && endpoint_same()));
    CHECK(endpoint->peer_count <= NIULASSENC_PEERS && endpoint->binding_count <= NIULASSENC_BINDINGS);
    CHECK(memory_same());
}

static void tick(void)
{
    remember();
    uint8_t code = niulassenc_tick(endpoint);
    count(TICK, code);
    CHECK(code == NIULASSENC_DONE && memory_same());
    for (unsigned peer = 0; peer < NIULASSENC_PEERS; peer++)
        for (unsigned slot = 0; slot < NIULASSENC_SLOTS; slot++)
            CHECK(endpoint->peers[peer].slots[slot].age < NIULASSENC_TICKS);
}

/* The first segment of an STT frame: what stands behind the IPv4 and the TCP header is the frame's own, from its version on. */
static void wrapped_stt(uint32_t binding, const uint8_t *frame, size_t length, const uint8_t *packet, size_t packet_length)
{
    uint8_t expected[18 + NIULASSENC_FRAME_MAX] = {0};

    expected[2] = (uint8_t)transport(frame, length, &expected[1]);
    put32(expected + 8, (uint32_t)(endpoint->networks[binding] >> 32));
    put32(expected + 12, (uint32_t)endpoint->networks[binding]);
    memcpy(expected + 18, frame, length);
    CHECK(packet_length > 40 && packet_length - 40 <= 18 + length);
    CHECK(memcmp(expected, packet + 40, packet_length - 40) == 0);
    count(WRAP, (uint8_t)(24 + (expected[2] != 0) + expected[1] / 4)); /* the five kinds of hints, behind the codes */
}

static void wrap(void)
{
    uint32_t which = number(1), binding = which & 1 ? number(4) : number(1) % 8, segment = which & 2 ? number(4) : which >> 6;
    size_t length = which & 16 ? 33 + number(1) % 44 : number(2) % 1600; /* the longest IPv4 header ends at 74 */
    size_t room = which & 4 ? number(2) % (LONGEST + 1) : LONGEST;
    uint8_t *frame = part(packet_pages, length, at_end), *output = part(output_pages, room, at_end);

    for (size_t i = 0; i < length; i++)
        frame[i] = (uint8_t)(i + which);
    if (which & 8)
        put_ip(frame, length, number(1));
    memcpy(lent_before, frame, length);
    memset(output, 0xa5, room);
    remember();
    struct niulassenc_writing got = niulassenc_wrap(endpoint, binding, frame, length, segment, number(1), output, room);
    count(WRAP, got.code);
    CHECK(memcmp(lent_before, frame, length) == 0 && endpoint_same() && memory_same());
    CHECK(got.code == NIULASSENC_DONE || got.code == NIULASSENC_BAD_FRAME ||
          (got.code >= NIULASSENC_OUTPUT_TOO_SHORT && got.code <= NIULASSENC_NO_SUCH));
    CHECK(got.length <= room && got.length <= endpoint->mtu);
    CHECK((got.code == NIULASSENC_DONE) == (got.segments > 0));
    CHECK(got.segments <= NIULASSENC_SEGMENTS_MAX && (got.segments == 0 || segment < got.segments));
    for (size_t i = got.length; i < room; i++)
        CHECK(output[i] == 0xa5);
    if (got.code == NIULASSENC_DONE && endpoint->kinds[binding] == NIULASSENC_STT && segment == 0)
        wrapped_stt(binding, frame, length, output, got.length);
}

static void cut(void)
{
    uint32_t which = number(1);
    size_t numbers[4];

    for (int i = 0; i < 4; i++)
        numbers[i] = which >> i & 1 ? (size_t)0 - number(1) : number(2);
    struct niulassenc_part_at got = niulassenc_cut(numbers[0], numbers[1], numbers[2], numbers[3], which & 16);
    size_t size = which & 16 ? numbers[1] : numbers[0];
    bool fits = numbers[3] <= size && numbers[2] <= size - numbers[3];
    count(CUT, fits);
    CHECK(got.start == (fits ? numbers[2] : 0) && got.length == (fits ? numbers[3] : 0));
    CHECK(got.in_memory == (fits && which & 16));
}

static void owner(void)
{
    uint32_t which = number(1), binding = which & 1 ? number(4) : which >> 1;

    remember();
    uint16_t got = niulassenc_owner(endpoint, binding);
    bool listed = binding < endpoint->binding_count;
    count(OWNER, listed);
    CHECK(got == (listed ? endpoint->owners[binding] : NIULASSENC_NONE));
    CHECK(endpoint_same());
}

static void source(void)
{
    size_t length = number(1) % 32;
    uint8_t *frame = part(packet_pages, length, at_end);
    uint64_t expected = 0;

    bytes(frame, length);
    memcpy(lent_before, frame, length);
    for (size_t i = 6; i < 12 && length >= 12; i++)
        expected = expected << 8 | frame[i];
    CHECK(niulassenc_source(frame, length) == expected);
    CHECK(memcmp(lent_before, frame, length) == 0);
    count(SOURCE, length >= 12);
}

/* Observations of addresses in a row, now and then by another detector: an empty one, or one whose count no call would give. */
static void watch(void)
{
    uint32_t which = number(1), more = which & 16 ? number(1) : 1;
    uint16_t tenant = (uint16_t)(which & 1 ? number(2) : 7), peer = (uint16_t)(which & 2 ? number(2) : which >> 5);
    uint64_t address = (which & 4 ? (uint64_t)number(4) << 32 : 0) + number(1);

    if (which == 0) {
        static const struct niulassenc_detector empty;
        *detector = niulassenc_detector_start();
        CHECK(memcmp(detector, &empty, DETECTOR_BYTES) == 0);
    } else if (which & 8 && number(1) == 0) {
        detector->count = (uint16_t)number(2);
    }
    remember();
    for (; more > 0; more--)
        observe(tenant, peer, address++);
    CHECK(endpoint_same() && memory_same());
}

/* The image of the endpoint, written from its fields. A count that no call would give counts as the most that there can be. */
static size_t image_of(uint8_t *image)
{
    unsigned peers = endpoint->peer_count < NIULASSENC_PEERS ? endpoint->peer_count : NIULASSENC_PEERS;
    unsigned bindings = endpoint->binding_count < NIULASSENC_BINDINGS ? endpoint->binding_count : NIULASSENC_BINDINGS;
    uint8_t *at = image + 14;

    memcpy(image, "TWN\0\1", 5);
    put32(image + 5, endpoint->own);
    put16(image + 9, endpoint->port);
    put16(image + 11, endpoint->mtu);
    image[13] = (uint8_t)peers;
    for (unsigned i = 0; i < peers; i++, at += 4)
        put32(at, endpoint->addresses[i]);
    *at++ = (uint8_t)bindings;
    for (unsigned i = 0; i < bindings; i++, at += 12) {
        at[0] = endpoint->owners[i];
        at[1] = endpoint->kinds[i];
        put32(at + 2, (uint32_t)(endpoint->networks[i] >> 32));
        put32(at + 6, (uint32_t)endpoint->networks[i]);
        put16(at + 10, endpoint->tenants[i]);
    }
    return (size_t)(at - image);
}

/* Whether an image is good: it has the bytes that its counts ask for, and a start and additions take all that it lists. Then they
 * have made the endpoint that a load must give. */
static bool listed(struct niulassenc_endpoint *made, const uint8_t *image, size_t length)
{
    if (length < 15 || memcmp(image, "TWN\0\1", 5) != 0)
        return false;
    unsigned peers = image[13];
    if (length < 15 + 4 * peers)
        return false;
    const uint8_t *at = image + 14;
    unsigned bindings = at[4 * peers];
    if (length != 15 + 4 * peers + 12 * bindings)
        return false;
    struct niulassenc_started started =
        niulassenc_start((uint32_t)get(image + 5, 4), (uint32_t)get(image + 9, 2), (uint32_t)get(image + 11, 2));
    bool good = started.code == NIULASSENC_DONE;
    *made = started.endpoint;
    for (; peers > 0; peers--, at += 4)
        good = niulassenc_add_peer(made, (uint32_t)get(at, 4)).code == NIULASSENC_DONE && good;
    at++;
    for (; bindings > 0; bindings--, at += 12) {
        uint32_t tenant = (uint32_t)get(at + 10, 2);
        good = niulassenc_add_binding(made, at[0], at[1], get(at + 2, 8), tenant).code == NIULASSENC_DONE && good;
    }
    return good;
}

/* Loads an image. What it gives, good or refused, is told from the calls that list the same. */
static struct niulassenc_started load_image(const uint8_t *made, size_t length)
{
    static const struct niulassenc_endpoint refused;
    struct niulassenc_endpoint expected;
    uint8_t *image = part(packet_pages, length, at_end);

    memcpy(image, made, length);
    bool good = listed(&expected, made, length);
    remember();
    struct niulassenc_started got = niulassenc_load(image, length);
    CHECK(got.code == (good ? NIULASSENC_DONE : NIULASSENC_BAD_IMAGE));
    CHECK(memcmp(&got.endpoint, good ? &expected : &refused, ENDPOINT_BYTES) == 0);
    CHECK(memcmp(image, made, length) == 0 && endpoint_same() && memory_same());
    return got;
}

/* Saves, now and then with counts that no call would give. What is saved of others must load as the same configuration. */
static void save(void)
{
    uint32_t which = number(1);
    size_t room = which & 1 ? number(2) % (LONGEST + 1) : NIULASSENC_IMAGE_BYTES;
    uint8_t *output = part(output_pages, room, at_end), image[NIULASSENC_IMAGE_BYTES];
    struct niulassenc_endpoint kept = *endpoint;

    if (which & 2) {
        endpoint->peer_count = (uint16_t)number(2);
        endpoint->binding_count = (uint16_t)number(2);
    }
    size_t length = image_of(image);
    uint8_t code = endpoint->port == 0 ? NIULASSENC_OUT_OF_RANGE : room < length ? NIULASSENC_OUTPUT_TOO_SHORT : NIULASSENC_DONE;
    memset(output, 0xa5, room);
    remember();
    struct niulassenc_saving got = niulassenc_save(endpoint, output, room);
    count(SAVE, got.code);
    CHECK(got.code == code && got.length == (code == NIULASSENC_DONE ? length : 0));
    CHECK(memcmp(output, image, got.length) == 0);
    for (size_t i = got.length; i < room; i++)
        CHECK(output[i] == 0xa5);
    CHECK(endpoint_same() && memory_same());
    *endpoint = kept;
    if (which & 2 || got.code != NIULASSENC_DONE)
        return;
    struct niulassenc_started loaded = load_image(output, got.length);
    memset(kept.peers, 0, sizeof kept.peers);
    CHECK(loaded.code == NIULASSENC_DONE && memcmp(&loaded.endpoint, &kept, ENDPOINT_BYTES) == 0);
}

/* Loads any bytes, or the image of the endpoint with some changed, cut off or behind it. What is loaded goes on in the endpoint's
 * place, with the memory as it is. */
static void load(void)
{
    uint8_t image[NIULASSENC_IMAGE_BYTES + 256] = {0};
    uint32_t which = number(1);
    size_t length = which & 1 ? bytes(image, number(2) % sizeof image) : image_of(image);

    if (which & 2) /* any bytes, but for the letters and the version */
        memcpy(image, "TWN\0\1", 5);
    if ((which & 17) == 16) { /* without bindings: a wrong peer mostly leaves some binding without its peer, and that hides it */
        length = 15 + 4u * image[13];
        image[length - 1] = 0;
    }
    for (uint32_t changes = which >> 5; changes > 0; changes--) {
        size_t at = number(2) % (length + 1);
        image[at] += (uint8_t)number(1);
    }
    if (which & 4)
        length = number(2) % (length + 1);
    if (which & 8)
        length += number(1);
    if (length > sizeof image)
        length = sizeof image;
    struct niulassenc_started got = load_image(image, length);
    count(LOAD, got.code);
    if (got.code == NIULASSENC_DONE)
        *endpoint = got.endpoint;
}

int LLVMFuzzerTestOneInput(const uint8_t *data, size_t size);

int LLVMFuzzerInitialize(int *count, char ***arguments);

int LLVMFuzzerInitialize(int *count, char ***arguments)
{
    (void)count;
    (void)arguments;
    CHECK(niulassenc_matches());
    endpoint_pages = region(sizeof *endpoint);
    memory_pages = region(MEMORY);
    packet_pages = region(LONGEST);
    output_pages = region(LONGEST);
    detector_pages = region(sizeof *detector);
    return 0;
}

int LLVMFuzzerTestOneInput(const uint8_t *data, size_t size)
{
    input = data;
    left = size;
    uint32_t how = number(1);
    at_end = how & 1;
    endpoint = (struct niulassenc_endpoint *)(void *)part(endpoint_pages, sizeof *endpoint, at_end);
    memory = part(memory_pages, MEMORY, at_end);
    memset(memory, how & 2 ? 0xff : 0, MEMORY);
    *endpoint = niulassenc_start(OWN, STT_PORT, NIULASSENC_MTU_MIN + (how >> 2)).endpoint;
    detector = (struct niulassenc_detector *)(void *)part(detector_pages, sizeof *detector, at_end);
    *detector = niulassenc_detector_start();
    for (uint32_t i = 0; i < 4; i++) {
        CHECK(niulassenc_add_peer(endpoint, OWN + 1 + i).code == NIULASSENC_DONE);
        CHECK(niulassenc_add_binding(endpoint, i, NIULASSENC_VXLAN, 22, i).code == NIULASSENC_DONE);
        CHECK(niulassenc_add_binding(endpoint, i, NIULASSENC_STT, 0, i).code == NIULASSENC_DONE);
        CHECK(niulassenc_add_binding(endpoint, i, NIULASSENC_NVGRE, 0x1016, i).code == NIULASSENC_DONE);
    }
    while (left > 0) {
        uint32_t next = number(1) % 22;
        if (next == 0)
            start();
        else if (next == 1)
            add(PEER);
        else if (next == 2)
            add(BINDING);
        else if (next == 3)
            tick();
        else if (next < 6)
            wrap();
        else if (next == 6)
            cut();
        else if (next < 10)
            raw();
        else if (next < 16)
            built();
        else if (next == 16)
            owner();
        else if (next == 17)
            source();
        else if (next == 18)
            save();
        else if (next == 19)
            load();
        else
            watch();
        count_pending();
    }
    return 0;
}

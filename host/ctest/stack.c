/*
 * stack START LOAD OTHER: how much stack each call uses. Every case runs on a painted stack of its own; the deepest byte that
 * lost its paint tells the use, so only bytes that are written are seen. Counted with it are the few bytes of the frame that
 * makes the call, the struct that the call gives back where the compiler keeps it there, and what the C library's memcpy and
 * memset take. Fails where a start, of an endpoint or of a detector, uses more than START bytes, a load more than LOAD, or another
 * call more than OTHER.
 */
#define _XOPEN_SOURCE 700
#undef NDEBUG
#include <assert.h>
#include <stdbool.h>
#include <stdio.h>
#include <stdlib.h>
#include <string.h>
#include <ucontext.h>

#include "niulassenc.h"
#include "packets.h"

enum { PAINT = 0xa5, STACK_BYTES = 65536, LARGEST_FRAME = NIULASSENC_FRAME_MAX, VSID = 4096, IDENTIFIER = 77 };

/* Makes the type 0x88b5 of the frames here the tag 0x88a8: a change of its second byte. */
enum { TO_TAG = 0xb5 ^ 0xa8 };

/* The last three of 64 bindings, all of the last of eight peers: whatever is searched for stands at the end. */
enum { ON_VXLAN = 61, ON_NVGRE = 62, ON_STT = 63 };

/* One of the calls, its cases, and the most that they have used. */
struct subject {
    const char *name;
    void (*call)(void);
    void (*cases)(struct subject *self);
    size_t most;
    unsigned measured;
};

static uint8_t stack[STACK_BYTES];
static uint8_t memory[NIULASSENC_MEMORY_BYTES];
static uint8_t output[2000];
static struct niulassenc_endpoint full, endpoint;
static struct niulassenc_detector detector;
static uint8_t inner[LARGEST_FRAME];
static uint8_t stt[STT_HEADER + LARGEST_FRAME];

/* What the next call is given, and the code, or the detector's answer, that it gave. */
static struct {
    uint64_t network, source;
    uint32_t address, port, kind, binding, segment;
    uint16_t tenant, peer;
    uint8_t packet[2000];
    size_t packet_length, memory_length, frame_length, output_length;
} given;
static uint8_t code;

/* Makes the largest frame, which carries neither TCP nor UDP. */
static void carry_neither(uint8_t *to)
{
    for (size_t i = 0; i < LARGEST_FRAME; i++)
        to[i] = (uint8_t)i;
    put16(to + 12, 0x88b5);
}

/* Makes it one that carries TCP (6) or UDP (17), over IPv4 behind the longest header or over IPv6. */
static void carry(uint8_t *to, uint32_t type, uint8_t protocol)
{
    put16(to + 12, type);
    to[14] = type == 0x0800 ? 0x4f : 0x60;
    put16(to + 20, type == 0x0800 ? 0 : (uint32_t)protocol << 8);
    to[23] = protocol;
}

static void start(void)
{
    code = niulassenc_start(OWN, given.port, 1500).code;
}

static void add_peer(void)
{
    code = niulassenc_add_peer(&endpoint, given.address).code;
}

static void add_binding(void)
{
    code = niulassenc_add_binding(&endpoint, 7, given.kind, given.network, 1).code;
}

static void receive(void)
{
    code = niulassenc_receive(&endpoint, given.packet, given.packet_length, memory, given.memory_length).code;
}

static void tick(void)
{
    code = niulassenc_tick(&endpoint);
}

static void wrap(void)
{
    code = niulassenc_wrap(&endpoint, given.binding, inner, given.frame_length, given.segment, IDENTIFIER, output,
                           given.output_length)
               .code;
}

static void cut(void)
{
    struct niulassenc_part_at at = niulassenc_cut(given.packet_length, given.memory_length, given.frame_length, 2, true);

    code = at.length == 2 ? NIULASSENC_DONE : NIULASSENC_OUT_OF_RANGE;
}

static void save(void)
{
    code = niulassenc_save(&endpoint, output, given.output_length).code;
}

/* The packet is the image. */
static void load(void)
{
    code = niulassenc_load(given.packet, given.packet_length).code;
}

static void owner(void)
{
    code = niulassenc_owner(&endpoint, given.binding) == given.peer ? NIULASSENC_DONE : NIULASSENC_OUT_OF_RANGE;
}

static void source(void)
{
    code = niulassenc_source(inner, given.frame_length) == given.source ? NIULASSENC_DONE : NIULASSENC_OUT_OF_RANGE;
}

static void detector_start(void)
{
    struct niulassenc_detector started = niulassenc_detector_start();

    code = started.count == 0 && started.addresses[NIULASSENC_ENTRIES - 1] == 0 ? NIULASSENC_DONE : NIULASSENC_OUT_OF_RANGE;
}

static void observe(void)
{
    code = niulassenc_observe(&detector, given.tenant, given.peer, given.source).answer;
}

static void matches(void)
{
    code = niulassenc_matches() ? NIULASSENC_DONE : NIULASSENC_OUT_OF_RANGE;
}

/* Makes the call on a fresh stack. That it gives the expected code shows that the case is the one meant. */
static void measure(struct subject *subject, uint8_t expected)
{
    static ucontext_t inside, outside;
    size_t untouched = 0;

    memset(stack, PAINT, sizeof stack);
    assert(getcontext(&inside) == 0);
    inside.uc_stack.ss_sp = stack;
    inside.uc_stack.ss_size = sizeof stack;
    inside.uc_link = &outside;
    makecontext(&inside, subject->call, 0);
    assert(swapcontext(&outside, &inside) == 0);
    if (code != expected) {
        fprintf(stderr, "stack: %s gave %d where %d was expected\n", subject->name, code, expected);
        exit(1);
    }
    while (untouched < sizeof stack && stack[untouched] == PAINT)
        untouched++;
    size_t used = sizeof stack - untouched;
    if (used > subject->most)
        subject->most = used;
    subject->measured++;
}

/* Lists peers, PEER as the eighth, and bindings, the last three those of PEER that the packets are for. */
static void list(unsigned peers, unsigned bindings)
{
    endpoint = niulassenc_start(OWN, STT_PORT, 1500).endpoint;
    for (unsigned i = 0; i < peers; i++)
        assert(niulassenc_add_peer(&endpoint, i == 7 ? (uint32_t)PEER : 0x0a000100 + i).code == NIULASSENC_DONE);
    for (unsigned i = 0; i < bindings && i < ON_VXLAN; i++)
        assert(niulassenc_add_binding(&endpoint, i % 8, NIULASSENC_STT, 1000 + i, 1).code == NIULASSENC_DONE);
    if (bindings > ON_VXLAN)
        assert(niulassenc_add_binding(&endpoint, 7, NIULASSENC_VXLAN, 22, 1).code == NIULASSENC_DONE);
    if (bindings > ON_NVGRE)
        assert(niulassenc_add_binding(&endpoint, 7, NIULASSENC_NVGRE, VSID, 1).code == NIULASSENC_DONE);
    if (bindings > ON_STT)
        assert(niulassenc_add_binding(&endpoint, 7, NIULASSENC_STT, 22, 1).code == NIULASSENC_DONE);
}

static void starts(struct subject *subject)
{
    given.port = STT_PORT;
    measure(subject, NIULASSENC_DONE);
    given.port = 0;
    measure(subject, NIULASSENC_OUT_OF_RANGE);
    given.port = 65537;
    measure(subject, NIULASSENC_OUT_OF_RANGE);
}

static void peers(struct subject *subject)
{
    list(7, 0);
    given.address = OWN;
    measure(subject, NIULASSENC_OUT_OF_RANGE);
    given.address = PEER;
    measure(subject, NIULASSENC_DONE);
    measure(subject, NIULASSENC_ALREADY_LISTED);
    given.address = PEER + 5;
    measure(subject, NIULASSENC_FULL);
}

static void bindings(struct subject *subject)
{
    list(8, 63);
    given.kind = 4;
    given.network = 22;
    measure(subject, NIULASSENC_OUT_OF_RANGE);
    given.kind = NIULASSENC_STT;
    measure(subject, NIULASSENC_DONE);
    measure(subject, NIULASSENC_ALREADY_LISTED);
    given.network = 23;
    measure(subject, NIULASSENC_FULL);
}

/* The next packet is the largest frame on VXLAN or NVGRE, as the peer wraps it. */
static void wrapped(uint32_t kind, uint32_t network)
{
    struct niulassenc_endpoint sender = niulassenc_start(PEER, STT_PORT, 1600).endpoint;

    assert(niulassenc_add_peer(&sender, OWN).code == NIULASSENC_DONE);
    assert(niulassenc_add_binding(&sender, 0, kind, network, 1).code == NIULASSENC_DONE);
    struct niulassenc_writing wrote =
        niulassenc_wrap(&sender, 0, inner, sizeof inner, 0, 0, given.packet, sizeof given.packet);
    assert(wrote.code == NIULASSENC_DONE);
    given.packet_length = wrote.length;
}

/* The next packet is a segment of the largest STT frame. */
static void piece(size_t frame_length, size_t offset, size_t length, uint32_t identifier)
{
    given.packet_length = segment(given.packet, stt, frame_length, offset, length, identifier);
}

static void deliveries(struct subject *subject)
{
    endpoint = full;
    given.memory_length = sizeof memory;
    wrapped(NIULASSENC_VXLAN, 22);
    measure(subject, NIULASSENC_DONE);
    size_t udp_length = given.packet_length - 20;
    put16(given.packet + 26, checksum(pseudo_header(17, udp_length), given.packet + 20, udp_length));
    measure(subject, NIULASSENC_DONE);
    wrapped(NIULASSENC_NVGRE, VSID);
    measure(subject, NIULASSENC_DONE);
    piece(sizeof stt, 0, sizeof stt, IDENTIFIER);
    measure(subject, NIULASSENC_DONE);
    piece(sizeof stt, 1000, sizeof stt - 1000, IDENTIFIER);
    measure(subject, NIULASSENC_PENDING);
    piece(sizeof stt, 500, 500, IDENTIFIER);
    measure(subject, NIULASSENC_PENDING);
    piece(sizeof stt, 0, 500, IDENTIFIER);
    measure(subject, NIULASSENC_DONE);
}

/* Receives T on VXLAN with one byte changed; the header's checksum stays right where `right` says so. */
static void damaged(struct subject *subject, size_t at, uint8_t change, bool right, uint8_t expected)
{
    endpoint = full;
    given.packet_length = sizeof vxlan;
    memcpy(given.packet, vxlan, sizeof vxlan);
    given.packet[at] ^= change;
    if (right)
        sum_header(given.packet);
    measure(subject, expected);
}

static void tunnel_refusals(struct subject *subject)
{
    given.memory_length = sizeof memory - 1;
    measure(subject, NIULASSENC_MEMORY_TOO_SMALL);
    given.memory_length = sizeof memory;
    given.packet_length = 0;
    measure(subject, NIULASSENC_NOT_IPV4);
    damaged(subject, 0, 0x20, true, NIULASSENC_NOT_IPV4);
    damaged(subject, 10, 1, false, NIULASSENC_BAD_IPV4_CHECKSUM);
    damaged(subject, 6, 0x20, true, NIULASSENC_FRAGMENT);
    damaged(subject, 19, 0x80, true, NIULASSENC_NOT_FOR_US);
    damaged(subject, 15, 0x80, true, NIULASSENC_UNKNOWN_PEER);
    damaged(subject, 9, 0x80, true, NIULASSENC_UNKNOWN_PROTOCOL);
    damaged(subject, 25, 1, true, NIULASSENC_BAD_TRANSPORT_HEADER);
    damaged(subject, 27, 1, true, NIULASSENC_BAD_TRANSPORT_CHECKSUM);
    damaged(subject, 28, 0x08, true, NIULASSENC_BAD_VXLAN_FLAG);
    damaged(subject, 34, 1, true, NIULASSENC_NO_BINDING);
    damaged(subject, 49, TO_TAG, true, NIULASSENC_BAD_FRAME);
}

/* Receives the largest frame on NVGRE with one byte of the GRE header changed. */
static void damaged_gre(struct subject *subject, size_t at, uint8_t change, uint8_t expected)
{
    endpoint = full;
    wrapped(NIULASSENC_NVGRE, VSID);
    given.packet[20 + at] ^= change;
    measure(subject, expected);
}

static void gre_refusals(struct subject *subject)
{
    damaged_gre(subject, 0, 0x80, NIULASSENC_BAD_GRE_FLAGS);
    damaged_gre(subject, 1, 1, NIULASSENC_BAD_GRE_FLAGS);
    damaged_gre(subject, 2, 1, NIULASSENC_BAD_GRE_TYPE);
    damaged_gre(subject, 3, 1, NIULASSENC_BAD_GRE_TYPE);
}

/* Receives the complete STT frame in one segment with one byte changed. */
static void complete(struct subject *subject, size_t at, uint8_t change, uint8_t expected)
{
    endpoint = full;
    stt[at] ^= change;
    piece(sizeof stt, 0, sizeof stt, IDENTIFIER);
    stt[at] ^= change;
    measure(subject, expected);
}

/* Both checksum flags: refused on TCP and UDP frames, ignored on others. */
static void both_flags(struct subject *subject)
{
    complete(subject, 1, 3, NIULASSENC_DONE);
    carry(stt + STT_HEADER, 0x0800, 6);
    complete(subject, 1, 3, NIULASSENC_BAD_STT_FLAGS);
    complete(subject, 1, 1, NIULASSENC_DONE);
    carry(stt + STT_HEADER, 0x86dd, 17);
    complete(subject, 1, 3, NIULASSENC_BAD_STT_FLAGS);
    carry_neither(stt + STT_HEADER);
}

static void stt_refusals(struct subject *subject)
{
    complete(subject, 0, 1, NIULASSENC_BAD_STT_VERSION);
    both_flags(subject);
    complete(subject, 8, 1, NIULASSENC_NO_BINDING);
    complete(subject, STT_HEADER + 13, TO_TAG, NIULASSENC_BAD_FRAME);
    piece(sizeof stt, 0, 500, IDENTIFIER);
    given.packet[36] ^= 1;
    measure(subject, NIULASSENC_BAD_TRANSPORT_CHECKSUM);
    piece(30, 0, 30, IDENTIFIER);
    measure(subject, NIULASSENC_BAD_SEGMENT);
    for (uint32_t i = 0; i < 4; i++) {
        piece(sizeof stt, 0, 500, IDENTIFIER - i);
        measure(subject, NIULASSENC_PENDING);
    }
    piece(sizeof stt - 2, 500, 500, IDENTIFIER);
    measure(subject, NIULASSENC_LENGTH_DIFFERS);
    piece(sizeof stt, 498, 500, IDENTIFIER);
    measure(subject, NIULASSENC_ALREADY_RECEIVED);
    piece(sizeof stt, 0, sizeof stt, IDENTIFIER + 1);
    measure(subject, NIULASSENC_NO_SLOT);
}

static void receives(struct subject *subject)
{
    deliveries(subject);
    tunnel_refusals(subject);
    gre_refusals(subject);
    stt_refusals(subject);
}

/* The last receives have left four frames pending: the fourth tick frees them. */
static void ticks(struct subject *subject)
{
    for (unsigned i = 0; i < 4; i++) {
        assert(endpoint.peers[7].slots[3].pending);
        measure(subject, NIULASSENC_DONE);
    }
    assert(!endpoint.peers[7].slots[3].pending);
}

/* Wraps a frame, or its segment, into an output of this length. */
static void wrap_on(struct subject *subject, uint32_t binding, size_t frame_length, uint32_t number, size_t output_length,
                    uint8_t expected)
{
    given.binding = binding;
    given.frame_length = frame_length;
    given.segment = number;
    given.output_length = output_length;
    measure(subject, expected);
}

static void wraps(struct subject *subject)
{
    wrap_on(subject, ON_VXLAN, 1464, 0, 1500, NIULASSENC_DONE);
    wrap_on(subject, ON_NVGRE, 1472, 0, 1500, NIULASSENC_DONE);
    wrap_on(subject, ON_STT, sizeof inner, 0, 1500, NIULASSENC_DONE);
    wrap_on(subject, ON_STT, sizeof inner, 1, 1500, NIULASSENC_DONE);
    carry(inner, 0x0800, 6);
    wrap_on(subject, ON_STT, sizeof inner, 0, 1500, NIULASSENC_DONE);
    wrap_on(subject, ON_STT, sizeof inner, 1, 1500, NIULASSENC_DONE);
    carry(inner, 0x86dd, 17);
    wrap_on(subject, ON_STT, sizeof inner, 0, 1500, NIULASSENC_DONE);
    carry_neither(inner);
    wrap_on(subject, ON_STT, 13, 0, 1500, NIULASSENC_BAD_FRAME);
    wrap_on(subject, ON_VXLAN, 1464, 0, 1499, NIULASSENC_OUTPUT_TOO_SHORT);
    wrap_on(subject, ON_NVGRE, 1472, 0, 1499, NIULASSENC_OUTPUT_TOO_SHORT);
    wrap_on(subject, ON_STT, sizeof inner, 0, 1499, NIULASSENC_OUTPUT_TOO_SHORT);
    wrap_on(subject, ON_VXLAN, 1465, 0, 1500, NIULASSENC_EXCEEDS_MTU);
    wrap_on(subject, 64, sizeof inner, 0, 1500, NIULASSENC_NO_SUCH);
    wrap_on(subject, 65536, sizeof inner, 0, 1500, NIULASSENC_NO_SUCH);
    wrap_on(subject, ON_STT, sizeof inner, 2, 1500, NIULASSENC_NO_SUCH);
}

static void cuts(struct subject *subject)
{
    given.memory_length = sizeof memory;
    given.frame_length = sizeof memory - 2;
    measure(subject, NIULASSENC_DONE);
    given.frame_length = sizeof memory - 1;
    measure(subject, NIULASSENC_OUT_OF_RANGE);
}

/* The longest image, and the same from counts that no call would give. */
static void saves(struct subject *subject)
{
    endpoint = full;
    given.output_length = NIULASSENC_IMAGE_BYTES;
    measure(subject, NIULASSENC_DONE);
    given.output_length--;
    measure(subject, NIULASSENC_OUTPUT_TOO_SHORT);
    endpoint.peer_count = endpoint.binding_count = UINT16_MAX;
    measure(subject, NIULASSENC_OUTPUT_TOO_SHORT);
    given.output_length = sizeof output;
    measure(subject, NIULASSENC_DONE);
    endpoint.port = 0;
    measure(subject, NIULASSENC_OUT_OF_RANGE);
}

/* Loads the full configuration's image with one byte changed. */
static void damaged_image(struct subject *subject, size_t at, uint8_t change)
{
    given.packet[at] ^= change;
    measure(subject, NIULASSENC_BAD_IMAGE);
    given.packet[at] ^= change;
}

/* Of a long list the last is wrong: all before it is listed by then. */
static void loads(struct subject *subject)
{
    enum { LAST_PEER = 14 + 4 * 7, BINDING_COUNT = 46, LAST_BINDING = 47 + 12 * 63 };

    given.packet_length = niulassenc_save(&full, given.packet, sizeof given.packet).length;
    assert(given.packet_length == NIULASSENC_IMAGE_BYTES);
    measure(subject, NIULASSENC_DONE);
    damaged_image(subject, 0, 1);                              /* letters */
    damaged_image(subject, 4, 2);                              /* version */
    damaged_image(subject, 5, 0x0a ^ 0xe0);                    /* own address */
    damaged_image(subject, 11, 0x80);                          /* MTU */
    damaged_image(subject, 13, 1);                             /* 9 peers */
    damaged_image(subject, LAST_PEER + 3, (OWN ^ PEER) & 255); /* our address */
    damaged_image(subject, BINDING_COUNT, 1);                  /* 65 bindings */
    damaged_image(subject, LAST_BINDING, 8);                   /* owner */
    damaged_image(subject, LAST_BINDING + 1, NIULASSENC_STT);  /* kind */
    put16(given.packet + LAST_BINDING + 8, 1000 + 55);         /* binding 55 again */
    measure(subject, NIULASSENC_BAD_IMAGE);
    given.packet_length--;
    measure(subject, NIULASSENC_BAD_IMAGE);
    given.packet_length += 2;
    measure(subject, NIULASSENC_BAD_IMAGE);
    given.packet_length = 0;
    measure(subject, NIULASSENC_BAD_IMAGE);
}

static void owners(struct subject *subject)
{
    endpoint = full;
    given.binding = ON_STT;
    given.peer = 7;
    measure(subject, NIULASSENC_DONE);
    given.binding = 64;
    given.peer = NIULASSENC_NONE;
    measure(subject, NIULASSENC_DONE);
    given.binding = UINT32_MAX;
    measure(subject, NIULASSENC_DONE);
}

static void sources(struct subject *subject)
{
    given.source = 0x060708090a0b; /* byte i of the inner frame is i */
    given.frame_length = sizeof inner;
    measure(subject, NIULASSENC_DONE);
    given.source = 0;
    given.frame_length = 11;
    measure(subject, NIULASSENC_DONE);
}

/* What is found stands at the last of 128 entries. */
static void observations(struct subject *subject)
{
    detector = niulassenc_detector_start();
    given.tenant = 7;
    given.peer = 2;
    for (given.source = 0; given.source < NIULASSENC_ENTRIES; given.source++)
        measure(subject, NIULASSENC_OBSERVED_NEW);
    measure(subject, NIULASSENC_OBSERVED_FULL);
    given.source--;
    measure(subject, NIULASSENC_OBSERVED_KNOWN);
    given.peer = 3;
    measure(subject, NIULASSENC_OBSERVED_DUPLICATE);
}

static void once(struct subject *subject)
{
    measure(subject, NIULASSENC_DONE);
}

/* Prints a call's most, and says whether it keeps to the bound. */
static bool within(const struct subject *subject, size_t bound)
{
    printf("stack: niulassenc_%s uses at most %zu bytes in %u cases\n", subject->name, subject->most, subject->measured);
    if (subject->most <= bound)
        return true;
    fprintf(stderr, "stack: niulassenc_%s uses more than the %zu bytes that are stated\n", subject->name, bound);
    return false;
}

int main(int count, char **arguments)
{
    static struct subject subjects[] = {
        {"start", start, starts, 0, 0},
        {"add_peer", add_peer, peers, 0, 0},
        {"add_binding", add_binding, bindings, 0, 0},
        {"receive", receive, receives, 0, 0},
        {"tick", tick, ticks, 0, 0},
        {"wrap", wrap, wraps, 0, 0},
        {"save", save, saves, 0, 0},
        {"load", load, loads, 0, 0},
        {"cut", cut, cuts, 0, 0},
        {"owner", owner, owners, 0, 0},
        {"source", source, sources, 0, 0},
        {"detector_start", detector_start, once, 0, 0},
        {"observe", observe, observations, 0, 0},
        {"matches", matches, once, 0, 0},
    };
    bool kept = true;

    if (count != 4) {
        fprintf(stderr, "usage: stack START LOAD OTHER\n");
        return 2;
    }
    size_t of_start = strtoul(arguments[1], NULL, 10);
    size_t of_load = strtoul(arguments[2], NULL, 10);
    size_t of_others = strtoul(arguments[3], NULL, 10);
    carry_neither(inner);
    stt_frame(stt, 22, inner, sizeof inner);
    list(8, 64);
    full = endpoint;
    for (size_t i = 0; i < sizeof subjects / sizeof *subjects; i++) {
        bool starts_something = subjects[i].call == start || subjects[i].call == detector_start;
        subjects[i].cases(&subjects[i]);
        kept = within(&subjects[i], starts_something ? of_start : subjects[i].call == load ? of_load : of_others) && kept;
    }
    return kept ? 0 : 1;
}

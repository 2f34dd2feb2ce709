/*
 * niulassenc: a tunnel endpoint for VXLAN (RFC 7348), NVGRE (RFC 7637) and STT (draft-davie-stt-06) whose configuration can be
 * saved and loaded, and a detector of addresses that several peers show to one tenant, without a heap.
 *
 * The functions are those of the crate `niulassenc`, which `niulassenc_c` exports: each is proved to do what its contract there
 * says, for every input. What is not proved is that a caller keeps the rules of this header. They are few:
 *
 * - Header and archive are of one version: niulassenc_matches() says so. Ask it once, before anything else.
 * - A pointer is never NULL, not even where its length is 0, and is aligned for its type.
 * - What one call is given does not overlap: endpoint, packet and memory are three separate objects, and so are endpoint,
 *   frame and output. A settings image and the output that one is saved to are no part of an endpoint either.
 * - An endpoint comes from niulassenc_start or niulassenc_load. It is plain data: it holds no pointer, may be copied, and needs
 *   no clean-up. Its fields may be read. Only the functions write it.
 * - Calls on one endpoint do not run at the same time; only wraps, niulassenc_owner and niulassenc_save may, with each other,
 *   since they only read it. Calls on different endpoints with different memories may: there is no state outside what a call is
 *   given.
 * - Reassembly memory belongs to one endpoint. It may contain anything at first, and each receive is given it as the last one
 *   left it. Where somebody else writes it, a receive stays safe and delivers what it finds there.
 * - A detector comes from niulassenc_detector_start. It is plain data too, and only niulassenc_observe writes it; calls on one
 *   detector do not run at the same time. It is separate from every endpoint: no call on an endpoint reads or writes it. Its
 *   entries name peers by number, so start it anew where an endpoint is started or loaded anew with another list of peers.
 *
 * An address is a number: 10.0.0.1 is 0x0a000001. So are a port and a network id: none is in network byte order. Settings and
 * numbers of peers, bindings, tenants and segments are 32 bits wide, so that one that is too large is refused and not cut off.
 * What a detector is told is not checked: its tenant and peer are 16 bits wide, as the library's answers have them.
 *
 * C11 or C++11, or later; x86-64 Linux. docs/EMBEDDING.md is the guide.
 */
#ifndef NIULASSENC_H
#define NIULASSENC_H

#include <stdbool.h>
#include <stddef.h>
#include <stdint.h>

#ifdef __cplusplus
extern "C" {
#endif

/* The version of this header. niulassenc_version() gives the archive's in the same form. */
#define NIULASSENC_VERSION_MAJOR 0
#define NIULASSENC_VERSION_MINOR 6
#define NIULASSENC_VERSION_PATCH 0
#define NIULASSENC_VERSION \
    (NIULASSENC_VERSION_MAJOR * 0x10000u + NIULASSENC_VERSION_MINOR * 0x100u + NIULASSENC_VERSION_PATCH)

/* Limits. */
#define NIULASSENC_PEERS 8            /* peers of an endpoint */
#define NIULASSENC_BINDINGS 64        /* bindings of an endpoint */
#define NIULASSENC_SLOTS 4            /* STT frames that may be pending from one peer */
#define NIULASSENC_MTU_MIN 576        /* largest outer packet that is written: from */
#define NIULASSENC_MTU_MAX 1600       /* to */
#define NIULASSENC_FRAME_MIN 14       /* inner frame, in bytes: from */
#define NIULASSENC_FRAME_MAX 1514     /* to */
#define NIULASSENC_SEGMENTS_MAX 3     /* STT segments of one frame, at the smallest MTU */
#define NIULASSENC_TICKS 4            /* a pending frame is given up at this tick after its first segment */
#define NIULASSENC_SLOT_BYTES 1728    /* reassembly memory of one slot */
#define NIULASSENC_MEMORY_BYTES 55296 /* reassembly memory that a receive needs: 8 peers of 4 slots */
#define NIULASSENC_ENTRIES 128        /* entries of a detector */
#define NIULASSENC_IMAGE_BYTES 815    /* the longest settings image */

/* What stands for a tenant, a binding, a peer or a number that is not there. 0xFFFF is a tenant's number too: the code, or what
 * a detector answers, decides. */
#define NIULASSENC_NONE 0xFFFF

/* The answers. From 2 on they are refusals: a refused call leaves the endpoint, the memory and the output as they came. The one
 * exception is 12, 13, 28 or 29 on an STT frame that has become complete: its last segment is stored, and its slot is freed.
 * 11 is no longer given: since version 0.5.0 a receive gives one of 25 to 29 instead, checked where 11 was, right before 12, and
 * with the offset of a byte. Later versions may have more numbers: treat one that you do not know as a refusal.
 *
 * TCP or UDP is found in an inner frame whose type (bytes 12 and 13) is
 * - 0x0800, with an IPv4 header (version 4, 20 bytes or more) that ends within the frame, fragment offset 0 and protocol 6 or 17;
 * - 0x86DD, with an IPv6 header (version 6, 40 bytes) that ends within the frame and next header 6 or 17.
 * So it is not found in a tagged frame, behind IPv6 extension headers, or in a fragment but the first. The TCP or UDP header itself
 * is not looked at. A frame in which it is not found is never refused with 29, since version 0.6.0, whatever its STT flags. */
enum niulassenc_code {
    NIULASSENC_DONE = 0,                    /* delivered, written or done */
    NIULASSENC_PENDING = 1,                 /* segment received, its frame not yet complete */
    NIULASSENC_MEMORY_TOO_SMALL = 2,        /* reassembly memory under 55,296 bytes */
    NIULASSENC_NOT_IPV4 = 3,                /* under 20 bytes; version not 4; header length under 5 words; total length below
                                               the header or above the bytes given */
    NIULASSENC_BAD_IPV4_CHECKSUM = 4,       /* IPv4 header checksum wrong */
    NIULASSENC_FRAGMENT = 5,                /* more-fragments bit set or fragment offset not 0 */
    NIULASSENC_NOT_FOR_US = 6,              /* destination is not our address */
    NIULASSENC_UNKNOWN_PEER = 7,            /* source is not a listed peer */
    NIULASSENC_UNKNOWN_PROTOCOL = 8,        /* protocol not 17, 6 or 47; or destination port not 4789 (17) or not the STT port
                                               (6) */
    NIULASSENC_BAD_TRANSPORT_HEADER = 9,    /* UDP, GRE or TCP-shaped header broken */
    NIULASSENC_BAD_TRANSPORT_CHECKSUM = 10, /* UDP checksum non-zero and wrong, or TCP checksum wrong */
    NIULASSENC_NO_BINDING = 12,             /* no binding for this peer, kind and network id */
    NIULASSENC_BAD_FRAME = 13,              /* inner frame not 14 to 1,514 bytes, or tagged (0x8100, 0x88A8) */
    NIULASSENC_BAD_SEGMENT = 14,            /* segment empty; frame length outside 32 to 1,532; offset plus segment above it */
    NIULASSENC_LENGTH_DIFFERS = 15,         /* a frame pending from this peer has this identifier and another length */
    NIULASSENC_ALREADY_RECEIVED = 16,       /* some byte of the segment was received already */
    NIULASSENC_NO_SLOT = 17,                /* a new identifier, and the peer's four slots are taken */
    NIULASSENC_OUT_OF_RANGE = 18,           /* a setting or binding outside its range, or naming a peer not listed; or the
                                               endpoint to save is one of a refused start or load */
    NIULASSENC_ALREADY_LISTED = 19,         /* peer or binding already listed */
    NIULASSENC_FULL = 20,                   /* 8 peers or 64 bindings are listed already */
    NIULASSENC_OUTPUT_TOO_SHORT = 21,       /* output shorter than the packet or the settings image */
    NIULASSENC_EXCEEDS_MTU = 22,            /* VXLAN or NVGRE packet would exceed the MTU */
    NIULASSENC_NO_SUCH = 23,                /* no such binding, or no such segment number */
    NIULASSENC_BAD_IMAGE = 24,              /* not what saving some endpoint gives, byte by byte with nothing after it */
    NIULASSENC_BAD_VXLAN_FLAG = 25,         /* VXLAN flag I (0x08 of the VXLAN header's first byte) not set */
    NIULASSENC_BAD_GRE_FLAGS = 26,          /* first byte of the GRE header not 0x20 to 0x23, or low three bits of the second
                                               not 0 */
    NIULASSENC_BAD_GRE_TYPE = 27,           /* GRE protocol type not 0x6558 */
    NIULASSENC_BAD_STT_VERSION = 28,        /* STT frame's version not 0 */
    NIULASSENC_BAD_STT_FLAGS = 29           /* STT frame's flags 0x01 and 0x02 both set, and TCP or UDP found in the inner
                                               frame, as told above */
};

enum niulassenc_kind {
    NIULASSENC_VXLAN = 1, /* ids 0 to 16,777,215 */
    NIULASSENC_NVGRE = 2, /* ids 4,096 to 16,777,214 */
    NIULASSENC_STT = 3    /* any 64-bit Context ID */
};

/* What a detector answers. Only the first makes an entry, and an entry stays. */
enum niulassenc_observed {
    NIULASSENC_OBSERVED_NEW = 0,       /* tenant and address were not listed: now they are, with this peer */
    NIULASSENC_OBSERVED_KNOWN = 1,     /* listed with this peer */
    NIULASSENC_OBSERVED_DUPLICATE = 2, /* listed with another peer, which is told: the first that showed them */
    NIULASSENC_OBSERVED_FULL = 3       /* not listed, and 128 entries are kept: this address is not watched */
};

/* A slot of the reassembly memory: a pending STT frame, or free, every number 0. */
struct niulassenc_slot {
    uint32_t identifier;
    uint16_t frame_length; /* of the STT frame, its 18-byte header included */
    uint8_t age;           /* ticks since its first segment: 0 to 3 */
    bool pending;
};

struct niulassenc_peer {
    struct niulassenc_slot slots[NIULASSENC_SLOTS];
};

/* An endpoint. Peer i is peers[i] and addresses[i]. Binding i is networks[i], tenants[i], kinds[i] and owners[i], the number of
 * its peer. */
struct niulassenc_endpoint {
    uint64_t networks[NIULASSENC_BINDINGS];
    struct niulassenc_peer peers[NIULASSENC_PEERS];
    uint32_t addresses[NIULASSENC_PEERS];
    uint32_t own;
    uint16_t tenants[NIULASSENC_BINDINGS];
    uint16_t port;
    uint16_t mtu;
    uint16_t peer_count;
    uint16_t binding_count;
    uint8_t kinds[NIULASSENC_BINDINGS];
    uint8_t owners[NIULASSENC_BINDINGS];
};

/* What a start or a load gives. A refused one (18; 24) gives an endpoint with every number 0: adding to it is 18, and so is saving
 * it. */
struct niulassenc_started {
    struct niulassenc_endpoint endpoint;
    uint8_t code;
};

/* What an adding call gives: the number of the new peer or binding, NIULASSENC_NONE where the code is not 0. */
struct niulassenc_addition {
    uint16_t number;
    uint8_t code;
};

/* What a receive gives. Code 0: the frame is `length` bytes from `start` on, of the memory or else of the packet, and goes to
 * the tenant. Any other code: tenant and binding are NIULASSENC_NONE, and the place is empty (0, 0, in the packet).
 * Codes 25 to 29: `offset` is that of the first offending byte. For 25 to 27 it counts from the packet's first byte, the IPv4
 * header and its options included; for 28 and 29 from the first byte of the STT frame, whose segments may have come in several
 * packets, so that the byte need not be in the last one. Any other code, 0 and 1 too: `offset` is 0. */
struct niulassenc_receipt {
    size_t start;
    size_t length;
    uint16_t tenant;
    uint16_t binding;
    uint8_t code;
    bool in_memory;
    uint8_t offset;
};

/* What a wrap gives: the length of the packet that was written, and how many segments its frame has. Both are 0 where the
 * code is not 0. */
struct niulassenc_writing {
    size_t length;
    uint32_t segments;
    uint8_t code;
};

/* What a save gives: the length of the settings image that was written, 0 where the code is not 0. */
struct niulassenc_saving {
    size_t length;
    uint8_t code;
};

/* Where the part of a place lies: `length` bytes from `start` on, of the memory or else of the packet. */
struct niulassenc_part_at {
    size_t start;
    size_t length;
    bool in_memory;
};

/* A detector. Entry i is addresses[i], tenants[i] and peers[i], the peer that showed this address to this tenant first. Behind
 * the count every number is 0. */
struct niulassenc_detector {
    uint64_t addresses[NIULASSENC_ENTRIES];
    uint16_t tenants[NIULASSENC_ENTRIES];
    uint16_t peers[NIULASSENC_ENTRIES];
    uint16_t count;
};

/* What an observation gives: one of enum niulassenc_observed, and of a duplicate the peer of its entry. For every other answer
 * the peer is NIULASSENC_NONE. */
struct niulassenc_observation {
    uint8_t answer;
    uint16_t peer;
};

/* The layout that the archive has. Where a compiler lays out otherwise, or the target is another one, nothing is built. */
#ifdef __cplusplus
#define NIULASSENC_HOLDS(fact) static_assert(fact, "niulassenc.h: " #fact)
#else
#define NIULASSENC_HOLDS(fact) _Static_assert(fact, "niulassenc.h: " #fact)
#endif
#define NIULASSENC_SIZE(type, bytes) NIULASSENC_HOLDS(sizeof(struct type) == (bytes))
#define NIULASSENC_AT(type, field, offset) NIULASSENC_HOLDS(offsetof(struct type, field) == (offset))

NIULASSENC_HOLDS(sizeof(size_t) == 8);
NIULASSENC_HOLDS(sizeof(bool) == 1);
NIULASSENC_HOLDS(NIULASSENC_MEMORY_BYTES == NIULASSENC_PEERS * NIULASSENC_SLOTS * NIULASSENC_SLOT_BYTES);

NIULASSENC_SIZE(niulassenc_slot, 8);
NIULASSENC_AT(niulassenc_slot, identifier, 0);
NIULASSENC_AT(niulassenc_slot, frame_length, 4);
NIULASSENC_AT(niulassenc_slot, age, 6);
NIULASSENC_AT(niulassenc_slot, pending, 7);

NIULASSENC_SIZE(niulassenc_peer, 32);
NIULASSENC_AT(niulassenc_peer, slots, 0);

NIULASSENC_SIZE(niulassenc_endpoint, 1072);
NIULASSENC_AT(niulassenc_endpoint, networks, 0);
NIULASSENC_AT(niulassenc_endpoint, peers, 512);
NIULASSENC_AT(niulassenc_endpoint, addresses, 768);
NIULASSENC_AT(niulassenc_endpoint, own, 800);
NIULASSENC_AT(niulassenc_endpoint, tenants, 804);
NIULASSENC_AT(niulassenc_endpoint, port, 932);
NIULASSENC_AT(niulassenc_endpoint, mtu, 934);
NIULASSENC_AT(niulassenc_endpoint, peer_count, 936);
NIULASSENC_AT(niulassenc_endpoint, binding_count, 938);
NIULASSENC_AT(niulassenc_endpoint, kinds, 940);
NIULASSENC_AT(niulassenc_endpoint, owners, 1004);

NIULASSENC_SIZE(niulassenc_started, 1080);
NIULASSENC_AT(niulassenc_started, endpoint, 0);
NIULASSENC_AT(niulassenc_started, code, 1072);

NIULASSENC_SIZE(niulassenc_addition, 4);
NIULASSENC_AT(niulassenc_addition, number, 0);
NIULASSENC_AT(niulassenc_addition, code, 2);

NIULASSENC_SIZE(niulassenc_receipt, 24);
NIULASSENC_AT(niulassenc_receipt, start, 0);
NIULASSENC_AT(niulassenc_receipt, length, 8);
NIULASSENC_AT(niulassenc_receipt, tenant, 16);
NIULASSENC_AT(niulassenc_receipt, binding, 18);
NIULASSENC_AT(niulassenc_receipt, code, 20);
NIULASSENC_AT(niulassenc_receipt, in_memory, 21);
NIULASSENC_AT(niulassenc_receipt, offset, 22);

NIULASSENC_SIZE(niulassenc_writing, 16);
NIULASSENC_AT(niulassenc_writing, length, 0);
NIULASSENC_AT(niulassenc_writing, segments, 8);
NIULASSENC_AT(niulassenc_writing, code, 12);

NIULASSENC_SIZE(niulassenc_saving, 16);
NIULASSENC_AT(niulassenc_saving, length, 0);
NIULASSENC_AT(niulassenc_saving, code, 8);

NIULASSENC_SIZE(niulassenc_part_at, 24);
NIULASSENC_AT(niulassenc_part_at, start, 0);
NIULASSENC_AT(niulassenc_part_at, length, 8);
NIULASSENC_AT(niulassenc_part_at, in_memory, 16);

NIULASSENC_SIZE(niulassenc_detector, 1544);
NIULASSENC_AT(niulassenc_detector, addresses, 0);
NIULASSENC_AT(niulassenc_detector, tenants, 1024);
NIULASSENC_AT(niulassenc_detector, peers, 1280);
NIULASSENC_AT(niulassenc_detector, count, 1536);

NIULASSENC_SIZE(niulassenc_observation, 4);
NIULASSENC_AT(niulassenc_observation, answer, 0);
NIULASSENC_AT(niulassenc_observation, peer, 2);

#undef NIULASSENC_AT
#undef NIULASSENC_SIZE
#undef NIULASSENC_HOLDS

/* The archive's version, in the form of NIULASSENC_VERSION. */
uint32_t niulassenc_version(void);

/* The bytes of an endpoint, as the archive has it. */
uint32_t niulassenc_endpoint_bytes(void);

/* The bytes of a detector, as the archive has it. */
uint32_t niulassenc_detector_bytes(void);

/* Whether header and archive go together. Where they do not, make no other call: one that writes the endpoint or the detector
 * could write past the struct that this header declares. */
static inline bool niulassenc_matches(void)
{
    return niulassenc_version() == NIULASSENC_VERSION && niulassenc_endpoint_bytes() == sizeof(struct niulassenc_endpoint) &&
           niulassenc_detector_bytes() == sizeof(struct niulassenc_detector);
}

/* Starts an endpoint: own address, port of STT (1 to 65,535), largest outer packet that is written (576 to 1,600): 18. */
struct niulassenc_started niulassenc_start(uint32_t own, uint32_t port, uint32_t mtu);

/* Lists a peer: 18, 19, 20. */
struct niulassenc_addition niulassenc_add_peer(struct niulassenc_endpoint *endpoint, uint32_t address);

/* Binds a network of a listed peer to a tenant, 0 to 65,535: 18, 19, 20. The kind is one of enum niulassenc_kind. */
struct niulassenc_addition niulassenc_add_binding(struct niulassenc_endpoint *endpoint, uint32_t peer, uint32_t kind,
                                                  uint64_t network, uint32_t tenant);

/* Receives an outer packet, from the first byte of its IPv4 header on; bytes past its total length are ignored: 1 to 10, 12 to
 * 17, 25 to 29. A frame in the packet is good as long as the packet is left as it is; one in the memory, until the next receive
 * with that memory. */
struct niulassenc_receipt niulassenc_receive(struct niulassenc_endpoint *endpoint, const uint8_t *packet,
                                             size_t packet_length, uint8_t *memory, size_t memory_length);

/* A tick: every pending frame grows older by 1, and those that reach 4 are given up. How long one lasts is the caller's choice.
 * The answer is always 0. */
uint8_t niulassenc_tick(struct niulassenc_endpoint *endpoint);

/* Wraps a frame (14 to 1,514 bytes, untagged) for the binding: the outer packet that carries it, or its segment of this
 * number, is written at the front of the output, and no byte behind it is touched: 13, 21, 22, 23. Segments count from 0 and
 * are asked for one a call; VXLAN and NVGRE have segment 0 only. The identifier names the STT frame: all its segments take the
 * same one, and frames that are pending at a peer at once take different ones. A packet is never longer than the MTU.
 * Of an STT frame the header tells, since version 0.6.0, where TCP or UDP is found in the inner frame, in the sense of enum
 * niulassenc_code: flag 0x04 says IPv4, flag 0x08 TCP, and the L4 offset is that of the TCP or UDP header from the inner frame's
 * first byte on. Where it is not found, flags and L4 offset are 0. All else of that header but the Context ID is always 0. */
struct niulassenc_writing niulassenc_wrap(const struct niulassenc_endpoint *endpoint, uint32_t binding, const uint8_t *frame,
                                          size_t frame_length, uint32_t segment, uint32_t identifier, uint8_t *output,
                                          size_t output_length);

/* Saves an endpoint's configuration: the settings image, at most 815 bytes, is written at the front of the output, and no byte
 * behind it is touched: 18, then 21. The image has settings, peers and bindings, all in their order; of pending frames it has
 * nothing, and they stay pending. */
struct niulassenc_saving niulassenc_save(const struct niulassenc_endpoint *endpoint, uint8_t *output, size_t output_length);

/* Loads a settings image: an endpoint with the configuration that was saved and no frame pending, as if started and listed anew:
 * 24. Exactly what saving some endpoint gives is accepted; a byte too many is refused, so give the length of the whole file. */
struct niulassenc_started niulassenc_load(const uint8_t *image, size_t image_length);

/* The part to cut for a place, given the lengths of the packet and of the memory: the place itself where it fits, else the empty
 * part at the packet's start (0, 0, in the packet). What it gives always fits. */
struct niulassenc_part_at niulassenc_cut(size_t packet_length, size_t memory_length, size_t start, size_t length,
                                         bool in_memory);

/* The number of the peer whose network a binding is: of a receipt's binding, the peer that the frame came from; its address is
 * addresses[number] of the endpoint. NIULASSENC_NONE where no binding has this number. */
uint16_t niulassenc_owner(const struct niulassenc_endpoint *endpoint, uint32_t binding);

/* The source address of an inner frame (bytes 6 to 11) as a number: 02:00:00:00:00:01 is 0x020000000001. Of a frame under 12
 * bytes, which no receive delivers, it is 0. */
uint64_t niulassenc_source(const uint8_t *frame, size_t frame_length);

/* A detector with no entry. */
struct niulassenc_detector niulassenc_detector_start(void);

/* Tells a detector of a delivered frame (code 0, no other): its tenant, the peer that it came from (niulassenc_owner) and its
 * source address (niulassenc_source). Nothing is checked: what is told of another receipt becomes an entry too, and stays. */
struct niulassenc_observation niulassenc_observe(struct niulassenc_detector *detector, uint16_t tenant, uint16_t peer,
                                                 uint64_t address);

/* A part of the packet or of the memory. */
struct niulassenc_part {
    const uint8_t *bytes;
    size_t length;
};

/* The frame of a receipt, where it lies: nothing is copied. Where nothing was delivered, the empty part at the packet's start.
 * niulassenc_cut decides; here a pointer is added. */
static inline struct niulassenc_part niulassenc_view(const uint8_t *packet, size_t packet_length, const uint8_t *memory,
                                                     size_t memory_length, struct niulassenc_receipt receipt)
{
    struct niulassenc_part_at at =
        niulassenc_cut(packet_length, memory_length, receipt.start, receipt.length, receipt.in_memory);
    struct niulassenc_part part = {(at.in_memory ? memory : packet) + at.start, at.length};

    return part;
}

/* A short text for a code, for a log; "unknown code" for one that this header does not have. */
static inline const char *niulassenc_text(uint32_t code)
{
    static const char *const texts[] = {
        "done",
        "segment received, frame not yet complete",
        "reassembly memory too small",
        "not an IPv4 packet, or cut short",
        "IPv4 header checksum wrong",
        "IPv4 fragment",
        "not for our address",
        "sender is not a listed peer",
        "not VXLAN, NVGRE or STT",
        "UDP, GRE or TCP header broken",
        "UDP or TCP checksum wrong",
        "unknown code", /* 11 is no longer given */
        "no binding for this network of the peer",
        "inner frame too short, too long or tagged",
        "segment empty or outside its frame",
        "identifier pending with another frame length",
        "segment received already",
        "the peer's slots are all taken",
        "setting or binding out of range",
        "already listed",
        "no room for another peer or binding",
        "output too short",
        "packet would exceed the MTU",
        "no such binding or segment",
        "not a good settings image",
        "VXLAN flag missing",
        "GRE flags or version wrong",
        "GRE protocol type wrong",
        "STT version wrong",
        "STT checksum flags both set on a TCP or UDP frame",
    };

    return code < sizeof texts / sizeof *texts ? texts[code] : "unknown code";
}

/* A short text for what a detector answers; "unknown answer" for a number that this header does not have. */
static inline const char *niulassenc_observed_text(uint32_t answer)
{
    static const char *const texts[] = {"new", "known", "duplicate", "detector full"};

    return answer < sizeof texts / sizeof *texts ? texts[answer] : "unknown answer";
}

#ifdef __cplusplus
}
#endif

#endif

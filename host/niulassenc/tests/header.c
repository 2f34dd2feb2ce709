/*
 * What the header says, in lines that tests/header.rs compares with the Rust cover: the version, the limits, the names and
 * numbers of the codes and of what a detector answers, and the texts of every number that they may be.
 */
#include <inttypes.h>
#include <stdio.h>

#include "niulassenc.h"

#define LIMIT(name) printf("limit " #name " %u\n", (unsigned)NIULASSENC_##name)
#define CODE(name) printf("code " #name " %u\n", (unsigned)NIULASSENC_##name)
#define OBSERVED(name) printf("observed " #name " %u\n", (unsigned)NIULASSENC_OBSERVED_##name)

int main(void)
{
    printf("version %" PRIu32 "\n", (uint32_t)NIULASSENC_VERSION);
    LIMIT(PEERS);
    LIMIT(BINDINGS);
    LIMIT(SLOTS);
    LIMIT(MTU_MIN);
    LIMIT(MTU_MAX);
    LIMIT(FRAME_MIN);
    LIMIT(FRAME_MAX);
    LIMIT(SEGMENTS_MAX);
    LIMIT(TICKS);
    LIMIT(SLOT_BYTES);
    LIMIT(MEMORY_BYTES);
    LIMIT(ENTRIES);
    LIMIT(IMAGE_BYTES);
    LIMIT(NONE);
    CODE(MEMORY_TOO_SMALL);
    CODE(NOT_IPV4);
    CODE(BAD_IPV4_CHECKSUM);
    CODE(FRAGMENT);
    CODE(NOT_FOR_US);
    CODE(UNKNOWN_PEER);
    CODE(UNKNOWN_PROTOCOL);
    CODE(BAD_TRANSPORT_HEADER);
    CODE(BAD_TRANSPORT_CHECKSUM);
    CODE(NO_BINDING);
    CODE(BAD_FRAME);
    CODE(BAD_SEGMENT);
    CODE(LENGTH_DIFFERS);
    CODE(ALREADY_RECEIVED);
    CODE(NO_SLOT);
    CODE(OUT_OF_RANGE);
    CODE(ALREADY_LISTED);
    CODE(FULL);
    CODE(OUTPUT_TOO_SHORT);
    CODE(EXCEEDS_MTU);
    CODE(NO_SUCH);
    CODE(BAD_IMAGE);
    CODE(BAD_VXLAN_FLAG);
    CODE(BAD_GRE_FLAGS);
    CODE(BAD_GRE_TYPE);
    CODE(BAD_STT_VERSION);
    CODE(BAD_STT_FLAGS);
    OBSERVED(NEW);
    OBSERVED(KNOWN);
    OBSERVED(DUPLICATE);
    OBSERVED(FULL);
    for (unsigned code = 0; code < 256; code++)
        printf("text %u %s\n", code, niulassenc_text(code));
    for (unsigned answer = 0; answer < 256; answer++)
        printf("observed text %u %s\n", answer, niulassenc_observed_text(answer));
}

/*
 * Packets from the peer 10.0.0.1 to us, 10.0.0.2, for the C programs beside this file.
 */
#ifndef NIULASSENC_CTEST_PACKETS_H
#define NIULASSENC_CTEST_PACKETS_H

#include <stddef.h>
#include <stdint.h>
#include <string.h>

#include "bytes.h"

enum { OWN = 0x0a000002, PEER = 0x0a000001, STT_PORT = 7471, STT_HEADER = 18 };

/* The frame T, and T on VNI 22 from 10.0.0.1 to 10.0.0.2, whole: cases 2 and 3 of document 01's bench sheet. */
static const uint8_t frame[14] = {0x02, 0, 0, 0, 0, 0x02, 0x02, 0, 0, 0, 0, 0x01, 0x88, 0xb5};
static const uint8_t vxlan[50] = {0x45, 0x00, 0x00, 0x32, 0x00, 0x00, 0x40, 0x00, 0x40, 0x11, 0x26, 0xb9, 0x0a,
                                  0x00, 0x00, 0x01, 0x0a, 0x00, 0x00, 0x02, 0xcc, 0xb8, 0x12, 0xb5, 0x00, 0x1e,
                                  0x00, 0x00, 0x08, 0x00, 0x00, 0x00, 0x00, 0x00, 0x16, 0x00, 0x02, 0x00, 0x00,
                                  0x00, 0x00, 0x02, 0x02, 0x00, 0x00, 0x00, 0x00, 0x01, 0x88, 0xb5};

/* A frame with the addresses of T that carries TCP over IPv4: 192.168.0.1 to 192.168.0.2, port 40000 to 80. */
static const uint8_t tcp_frame[54] = {
    0x02, 0, 0, 0, 0, 0x02, 0x02, 0, 0, 0, 0, 0x01, 0x08, 0x00, 0x45, 0, 0, 40, 0, 0, 0x40, 0, 64, 6, 0xb9, 0x7c, 192, 168, 0, 1,
    192, 168, 0, 2, 0x9c, 0x40, 0, 80, 0, 0, 0, 1, 0, 0, 0, 0, 0x50, 0x02, 0x10, 0, 0x81, 0xfd, 0, 0};

/* The checksum of RFC 1071 over `length` bytes, on top of a sum. */
static inline uint16_t checksum(uint32_t from, const uint8_t *bytes, size_t length)
{
    return (uint16_t)~sum(from, bytes, length);
}

/* Makes the checksum of an IPv4 header without options right. */
static inline void sum_header(uint8_t *packet)
{
    put16(packet + 10, 0);
    put16(packet + 10, checksum(0, packet, 20));
}

/* What the pseudo-header of UDP and TCP adds to a sum: both addresses, the protocol and the length. */
static inline uint32_t pseudo_header(uint32_t protocol, size_t length)
{
    return (PEER >> 16) + (PEER & 0xffff) + (OWN >> 16) + (OWN & 0xffff) + protocol + (uint32_t)length;
}

/* Writes the STT frame that carries an inner frame: 18 bytes of header, of which only the Context ID is not 0. */
static inline void stt_frame(uint8_t *out, uint64_t context, const uint8_t *inner, size_t length)
{
    memset(out, 0, STT_HEADER);
    put32(out + 8, (uint32_t)(context >> 32));
    put32(out + 12, (uint32_t)context);
    memcpy(out + STT_HEADER, inner, length);
}

/* Writes the segment of an STT frame that carries `length` bytes from `offset` on (draft-davie-stt-06, 3.1 and 3.2). */
static inline size_t segment(uint8_t *out, const uint8_t *stt, size_t frame_length, size_t offset, size_t length, uint32_t id)
{
    size_t total = 40 + length;
    uint8_t *tcp = out + 20;

    memset(out, 0, 40);
    out[0] = 0x45;
    put16(out + 2, (uint32_t)total);
    put16(out + 6, 0x4000);
    out[8] = 64;
    out[9] = 6;
    put32(out + 12, PEER);
    put32(out + 16, OWN);
    sum_header(out);
    put16(tcp, 49152);
    put16(tcp + 2, STT_PORT);
    put16(tcp + 4, (uint32_t)frame_length);
    put16(tcp + 6, (uint32_t)offset);
    put32(tcp + 8, id);
    tcp[12] = 0x50;
    tcp[13] = 0x10;
    put16(tcp + 14, 65535);
    memcpy(tcp + 20, stt + offset, length);
    put16(tcp + 16, checksum(pseudo_header(6, 20 + length), tcp, 20 + length));
    return total;
}

#endif

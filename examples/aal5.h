/*
 * Frames of AAL 5 (ITU-T I.363.5), as modem.c sends them: the frame, zeros up to a whole number of cells, and in the
 * last eight octets two that are free (0), the frame's length and a CRC-32. The last cell has payload type 1, each
 * before it 0 (section 8 of the manual).
 */
#ifndef AAL5_H
#define AAL5_H

#include <stddef.h>
#include <stdint.h>
#include <string.h>

#define AAL5_PAYLOAD 48u /* octets of a cell's payload, behind the five of its header */
#define AAL5_TRAILER 8u
#define AAL5_MOST 1536u /* octets with trailer: 32 cells, enough for a frame of 1,500 */

/* The cells of a frame of so many octets. */
static inline size_t aal5_cells(size_t octets)
{
    return (octets + AAL5_TRAILER + AAL5_PAYLOAD - 1) / AAL5_PAYLOAD;
}

/* The CRC-32: by x^32 + x^26 + x^23 + .. + 1, high bits first, begun with ones, complemented. */
static inline uint32_t aal5_crc(const uint8_t *octets, size_t count)
{
    uint32_t remainder = UINT32_C(0xFFFFFFFF);
    for (size_t octet = 0; octet < count; octet++) {
        remainder ^= (uint32_t)octets[octet] << 24;
        for (int bit = 0; bit < 8; bit++) {
            remainder = remainder & UINT32_C(0x80000000) ? remainder << 1 ^ UINT32_C(0x04C11DB7) : remainder << 1;
        }
    }
    return ~remainder;
}

/* Completes a frame of so many octets: zeros and trailer. Answers how many it has with them. */
static inline size_t aal5_complete(uint8_t *frame, size_t octets)
{
    size_t length = aal5_cells(octets) * AAL5_PAYLOAD;
    memset(frame + octets, 0, length - octets);
    frame[length - 6] = (uint8_t)(octets >> 8);
    frame[length - 5] = (uint8_t)octets;
    uint32_t crc = aal5_crc(frame, length - 4);
    for (size_t octet = 0; octet < 4; octet++) {
        frame[length - 4 + octet] = (uint8_t)(crc >> (24 - 8 * octet));
    }
    return length;
}

/* The octets of a frame that arrived, without zeros and trailer; 0 if it is damaged. */
static inline size_t aal5_octets(const uint8_t *frame, size_t length)
{
    uint32_t crc = 0;
    for (size_t octet = length - 4; octet < length; octet++) {
        crc = crc << 8 | frame[octet];
    }
    size_t octets = (size_t)frame[length - 6] << 8 | frame[length - 5];
    int whole = crc == aal5_crc(frame, length - 4) && aal5_cells(octets) * AAL5_PAYLOAD == length;
    return whole ? octets : 0;
}

#endif /* AAL5_H */

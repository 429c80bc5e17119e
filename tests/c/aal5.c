/*
 * The frames of examples/aal5.h against the three published with AAL 5 (ITU-T I.363.5, appendix): 40 octets of 0, of
 * 255, and from 1 to 40, with their CRC-32s. Each is read back, and refused with any bit changed.
 */
#include "../../examples/aal5.h"
#include "check.h"

#define OCTETS 40u
#define LENGTH 48u

static void vector(uint8_t first, uint8_t step, uint32_t crc)
{
    uint8_t frame[AAL5_MOST];
    for (size_t octet = 0; octet < OCTETS; octet++) {
        frame[octet] = (uint8_t)(first + octet * step);
    }
    CHECK(aal5_complete(frame, OCTETS) == LENGTH);
    for (size_t octet = 0; octet < 4; octet++) {
        CHECK(frame[LENGTH - 4 + octet] == (uint8_t)(crc >> (24 - 8 * octet)));
    }
    CHECK(aal5_octets(frame, LENGTH) == OCTETS);
    for (size_t bit = 0; bit < 8 * LENGTH; bit++) {
        frame[bit / 8] ^= (uint8_t)(1u << bit % 8);
        CHECK(aal5_octets(frame, LENGTH) == 0);
        frame[bit / 8] ^= (uint8_t)(1u << bit % 8);
    }
}

int main(void)
{
    vector(0, 0, UINT32_C(0x864D7F99));
    vector(255, 0, UINT32_C(0xC55E457A));
    vector(1, 1, UINT32_C(0xBF671ED0));
    return checks_failed != 0;
}

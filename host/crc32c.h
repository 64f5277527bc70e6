/*
 * crc32c.h - CRC-32C (RFC 4960, appendix B), as an OP_MSG message has it.
 *
 * For C99 or C++11, and later ones. Link with libcrc32c_c.a
 * (`rt lib` in crates/crc32c_c), which is for x86-64 Linux and needs the C library
 * alone. Calls keep nothing and change nothing that is lent.
 */
#ifndef CRC32C_H
#define CRC32C_H

#include <stddef.h>
#include <stdint.h>

#ifdef __cplusplus
extern "C" {
#endif

/*
 * The register after `length` bytes, which may be 0 with a null pointer. The
 * checksum of bytes in one or several parts is the complement of the last
 * register, the first being 0xFFFFFFFF.
 */
uint32_t crc32c_update(uint32_t crc_register, const uint8_t *bytes,
                       size_t length);

/*
 * The checksum of a message whose flag word changes from `old_flags` to
 * `new_flags` and nothing else, from the checksum that it had and the number
 * of bytes between the flag word and the checksum (messageLength - 24). The
 * message itself is not read, and the cost grows with the number of binary
 * digits of that number. From a wrong checksum comes a wrong one.
 */
uint32_t crc32c_refresh(uint32_t checksum, uint32_t old_flags,
                        uint32_t new_flags, uint64_t following);

#ifdef __cplusplus
}
#endif

#endif

/*
 * Partnerwedge: outage records of MPLS paths (LSPs) from Y.1711 check packets.
 *
 * The node holds a table of up to 64 paths only as its image, in a buffer of its own of PW_IMAGE octets or more. The
 * image can be copied, written to a file and put back at any time: there is no other state.
 *
 * Every call
 *   - answers one number of the table below; 0 is "done";
 *   - changes nothing, in any buffer, where it answers another number than 0;
 *   - keeps no pointer, and allocates nothing;
 *   - reads and writes only the buffers that it is lent. Each pointer points at the number of octets given behind it
 *     and is never null, not even with a length of 0.
 *
 * The buffers lent to one call must not overlap. Calls on one buffer must not run at the same time; calls on different
 * buffers may.
 *
 * An image ends with the last field that its header counts. The octets of the buffer past it are neither read nor
 * written, except by pw_add, which writes its new field there. The image at the moment has 5 + 79 * image[4] octets.
 *
 * Answer numbers
 *    0  done
 *    1  no path has that number
 *    2  the payload isn't 44 octets
 *    3  the payload's BIP16 is wrong
 *    4  the payload's function type is not 01, 02, 03 or 07
 *    5  a reserved or padding octet of the payload, its TTSI, DT or rate breaks its rule
 *    6  a CV or FFD packet with the expected TTSI, but not of the path's own type and rate
 *    7  there are 64 paths already
 *    8  a path already expects that TTSI
 *    9  1,000,000,000,000 slots of the path are closed already
 *   10  the octets lent as the image are not an image
 *   11  a lent buffer is too short: the image under 5,061 octets, the answer under 27, the payload to write under 44
 *   12  the given kind, TTSI, type, DT or rate breaks its rule, or the server value isn't 0 or 1
 *   13  an FDI or BDI is wanted, and no defect stands
 *
 * Where more than one number fits, the one named first for the call below is given.
 */
#ifndef PARTNERWEDGE_H
#define PARTNERWEDGE_H

#include <stddef.h>
#include <stdint.h>

#ifdef __cplusplus
extern "C" {
#endif

#define PW_IMAGE 5061 /* the least length of an image's buffer */
#define PW_ANSWER 27  /* what a close writes of its answer buffer, and that buffer's least length */
#define PW_PAYLOAD 44 /* a payload, and the least length of a buffer to write one in */
#define PW_TTSI 20    /* 16 octets of LSR address, 4 of tunnel number, whose first two are zero */

/*
 * The image of an empty table: writes the first 5 octets of the buffer, whatever they were.
 * Answers 11, 0.
 */
uint8_t pw_empty(uint8_t *image, size_t image_len);

/*
 * Adds a path. Its number is the count of paths before it: 0 for the first.
 * kind: 0 for a path checked with CV, or the rate code 1 to 6 (10, 20, 50, 100, 200, 500 ms) of one checked with FFD.
 * ttsi: the TTSI to expect, PW_TTSI octets; any other length breaks its rule. dl: the local defect location, any
 * number.
 * Answers 11, 10, 12, 8, 7, 0.
 */
uint8_t pw_add(uint8_t *image, size_t image_len, uint8_t kind, const uint8_t *ttsi, size_t ttsi_len, uint32_t dl);

/*
 * Takes a packet's payload (what follows the OAM alert label) into the path's open slot. CV and FFD are counted, the
 * latest FDI is held for its life, a BDI is checked and changes nothing.
 * Answers 11, 10, 1, 2, 3, 4, 5, 6, 0.
 */
uint8_t pw_receive(uint8_t *image, size_t image_len, uint64_t lsp, const uint8_t *payload, size_t payload_len);

/*
 * Closes the path's open slot: to be called once a slot, that is each second for kind 0 and once each interval of its
 * rate for another. On 0 it writes PW_ANSWER octets of the answer and no others, numbers big-endian:
 *
 *   offset  octets
 *        0       2  code of the defect that stands: 0201 LOCV, 0202 Mismatch, 0203 Mismerge, 0204 Excess; 0 none
 *        2       2  DT to send, 0 if no defect stands
 *        4       4  DL to send, 0 if no defect stands
 *        8       1  alarm: 1 yes, 0 no
 *        9       1  suppression of the path's traffic: 1 yes, 0 no
 *       10       1  record: 0 none, 1 U (the path was unavailable), 2 B (a short break)
 *       11       8  from: the first slot out, 0 without a record
 *       19       8  until: the first slot no longer out, 0 without a record
 *
 * Each record is handed out once, by the close that ends it. Only paths of kind 0 have records.
 * Answers 11 (image or answer), 10, 1, 9, 0.
 */
uint8_t pw_close(uint8_t *image, size_t image_len, uint64_t lsp, uint8_t *answer, size_t answer_len);

/*
 * Sets the path's server signal: 1 on, 0 off. It is off at first.
 * Answers 11, 10, 1, 12, 0.
 */
uint8_t pw_server(uint8_t *image, size_t image_len, uint64_t lsp, uint8_t on);

/*
 * Write the FDI, or the BDI, that the path has to send now: the first PW_PAYLOAD octets of the buffer, and no others.
 * The image is not changed.
 * Answer 11 (image), 10, 1, 13, 11 (payload), 0.
 */
uint8_t pw_write_fdi(const uint8_t *image, size_t image_len, uint64_t lsp, uint8_t *payload, size_t payload_len);
uint8_t pw_write_bdi(const uint8_t *image, size_t image_len, uint64_t lsp, uint8_t *payload, size_t payload_len);

/*
 * Writes a payload from fields: the first PW_PAYLOAD octets of the buffer, and no others. Looks only at the fields that
 * the type has:
 *   type 01       CV        ttsi
 *   type 07       FFD       ttsi, rate
 *   type 02, 03   FDI, BDI  ttsi (or 20 zeros), dt, dl
 * A ttsi of another length than PW_TTSI breaks its rule; rate is 1 to 6; dt is 0101, 0102, 0201, 0202, 0203, 0204 or
 * 02FF (hexadecimal); dl is any number.
 * Answers 12, 11, 0.
 */
uint8_t pw_write(uint8_t type, const uint8_t *ttsi, size_t ttsi_len, uint8_t rate, uint16_t dt, uint32_t dl,
                 uint8_t *payload, size_t payload_len);

#ifdef __cplusplus
}
#endif

#endif

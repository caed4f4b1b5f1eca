/* The AMR-WB voice adapter's C interface: whole recordings, two of them merged, one frame, the reception class, the codec's bit order with
 * its sheets, a viewer, the report, eight consoles that share one adapter, and the link to a radio network. Three static libraries have it, of
 * which a host links one: level one has the calls for recordings and for one frame, with formats 1 and 2; level two has these with formats 1 to
 * 3, and every other call but the link's; level three has all. They need no C library but for memcpy and memset.
 *
 * Octets are lent as a pointer and a length, and so are numbers, which the length counts; a length of 0 may come with any pointer that is not
 * null. The lent buffers of one call must not overlap, but for the two recordings that amrwb_merge reads. No call keeps a pointer, uses the heap
 * or fails in another way than by its answer.
 *
 * A format is 1 IF1, 2 IF2 or 3 stored (format 3 is refusal 11 in level one). A recording is its frames joined, none or more, at most
 * 16,777,215 octets; a stored one begins with the nine octets "#!AMR-WB\n", which count too.
 *
 * Numbers are uint64_t, and none is cut off on the way: 257 is never taken for 1. Every answer begins with refusal, frame and octet.
 * refusal is 0, or the number of why the call was refused:
 *   1 no octets              2 reserved frame type (10 to 13)    3 fewer octets than the type's    4 octets behind a single frame
 *   5 spare or filling bit 1 6 a mode or field out of range      7 CRC                             8 header of a stored recording
 *   9 recording too long, read or about to be written           10 buffer shorter than needed
 *   11 another argument out of its range                        12 no sheet for modes 5 to 8     13 FQC 3
 *   14 the link has no set                                      15 the link has a set            16 RFCI or type not in the set
 *   17 a sub-flow's buffer with another length than its octets, or with a filling bit 1
 *   23 text that has not a sheet's form                         24 a number missing from a sheet
 *   27 a console already has 100 frames waiting
 * Where several apply, the one that comes first in this order is given: 11, 27, 14, 15, 9 for what is read, 8, the first refused frame by 1 to
 * 7, 12, 23, 24, 13, 16, 17, 6 for the mode of a SID frame that the link makes, 9 for what would be written, 10; of two recordings the first
 * is judged whole by 9, 8 and its frames, and then the second. 1 and 4 come in a call for one frame only, 8 and 9 in a call for recordings only,
 * 12 in amrwb_order_to_core and amrwb_order_to_row only, 23 in amrwb_sheet_read only, 24 in these three only, 13 to 17 in the link's only, 27 in
 * the consoles' only. At 2 to 7 in a recording, frame counts its frames from 0, and octet is the place of that frame's first octet, from 0 at the
 * recording's start, header included; else both are 0. At a refusal every other field is 0, but recording of amrwb_merge says which is refused,
 * and offset and number of amrwb_view_next, consoles and link stay as given; no lent octet or number is changed. Otherwise octets and numbers of
 * a buffer beyond the written ones stay.
 *
 * A frame type is 0 to 9, 14 or 15; quality is the FQI (0 bad, 1 good); indication and request are modes, 0 to 8. A core is packed:
 * d(0) is the top bit of its first octet, and filling bits are 0. Type 0 to 9 has 17, 23, 32, 36, 40, 46, 50, 58, 60, 5 octets
 * of it, type 14 and 15 none. */
#ifndef AMRWB_H
#define AMRWB_H

#include <stddef.h>
#include <stdint.h>

#ifdef __cplusplus
extern "C" {
#endif

typedef struct {
    uint64_t refusal, frame, octet;
    uint64_t frames; /* frames read; 0 in a call for one frame */
    uint64_t octets; /* octets written */
} amrwb_answer;

typedef struct {
    uint64_t refusal, frame, octet;
    uint64_t recording; /* 1 where the second recording is refused, else 0 */
    uint64_t frames;    /* of the recording that is made */
    uint64_t octets;    /* octets written */
} amrwb_joined;

typedef struct {
    uint64_t refusal, frame, octet;
    uint64_t type, quality;
    uint64_t indication, request; /* 0 where the frame carries none: IF2, stored, types 14 and 15 */
    uint64_t core_octets;         /* octets written to core */
} amrwb_frame;

typedef struct {
    uint64_t refusal, frame, octet;
#ifdef __cplusplus
    uint64_t class_;
#else
    uint64_t class;
#endif
    /* 1 speech good, 2 speech bad, 3 SID first, 4 SID update, 5 SID bad, 6 speech lost, 7 no data */
} amrwb_class_answer;

typedef struct {
    uint64_t refusal, frame, octet;
    uint64_t end; /* 1 at the end of the recording, else 0 */
    uint64_t type, quality;
    uint64_t indication, request;
    uint64_t core_octets;    /* octets written to core */
    uint64_t offset, number; /* the next frame's first octet, from 0 at the recording's start, and its number, from 0 */
#ifdef __cplusplus
    uint64_t class_;
#else
    uint64_t class;
#endif
    /* the reception class of the frame shown, 1 to 7 as above; 0 where no frame is shown: opened, at the end, refused */
} amrwb_view;

typedef struct {
    uint64_t refusal, frame, octet;
    uint64_t octets, frames;               /* of the recording */
    uint64_t speech, comfort, lost, empty; /* frames of type 0 to 8, 9, 14 and 15 */
} amrwb_counts;

typedef struct {
    uint64_t refusal, frame, octet;
    uint64_t mode;    /* 5 to 8 */
    uint64_t numbers; /* numbers written */
} amrwb_sheet;

/* Level one: recordings. */

/* Reads the recording rec of a format to its end: frames read, and octets 0. 11 for the format; 9; 8 in storage format; the first refused
 * frame by 2, 3, 5, 6, 7. */
amrwb_answer amrwb_validate(uint64_t format, const uint8_t *rec, size_t len);

/* Reads the whole recording rec, then writes the same frames in another format, or in the same one, to out. Towards IF1 from IF2 or stored
 * a frame gets its type as indication (type 9: 0) and this request, types 14 and 15 neither, and the CRC is computed; IF1 to IF1 keeps
 * its own. frames read and octets written. 11 for a format or a request above 8, also where the request is not used; 9 for what is read; 8;
 * the first refused frame by 2, 3, 5, 6, 7; 9 for what would be written; 10. */
amrwb_answer amrwb_convert(uint64_t from, uint64_t to, uint64_t request, const uint8_t *rec, size_t len, uint8_t *out,
                           size_t out_len);

/* As amrwb_convert, but writes nothing: frames read, and the octets that the conversion needs of out. Never 10. */
amrwb_answer amrwb_convert_length(uint64_t from, uint64_t to, uint64_t request, const uint8_t *rec, size_t len);

/* Reads the whole recordings a and b of a format, which two recorders made of the same talk, and then writes a third of that format to out: number
 * by number a's frame, but b's where a's has type 14 or 15, at either quality, or where a has ended, and b still has a frame there, whatever it
 * is. So it has as many frames as the longer of the two. Frames are matched by their number alone: both recordings must begin at the same time. A
 * frame of a of type 0 to 9 is kept, at either quality. Frames are copied octet for octet: in IF1 they keep indication, request and CRC. In storage
 * format there is one header. frames of the third, and octets written. 11 for the format; a by 9, 8, its first refused frame by 2, 3, 5, 6, 7; b
 * by the same; 9 for what would be written; 10. Where b is refused recording is 1, else 0; frame and octet are a place in the one that is
 * refused. At 11, at 9 for what would be written and at 10 all three are 0. There is no call for the octets that out must hold: a_len + b_len are
 * always enough, and in storage format nine fewer. a and b may overlap or be the same octets; out must overlap neither. */
amrwb_joined amrwb_merge(uint64_t format, const uint8_t *a, size_t a_len, const uint8_t *b, size_t b_len, uint8_t *out, size_t out_len);

/* Level one: one frame. */

/* Reads one frame of a format, which takes all of octets, and writes its packed core to core: the frame's fields, and core_octets written.
 * 11 for the format; 1 to 7; 10. */
amrwb_frame amrwb_read_frame(uint64_t format, const uint8_t *octets, size_t len, uint8_t *core, size_t core_len);

/* Build a frame to out from its fields and its packed core: octets written, and frames 0. In IF1 the CRC is computed. 11 for a type above 15,
 * a quality above 1, or a core that has not exactly the type's octets (not asked for types 10 to 13); 2; 5 for a filling bit 1 of the core;
 * 6 for an indication or a request above 8, for type 9 with an indication, for types 14 and 15 with either, and for a SID frame's mode above
 * 8; 10. */
amrwb_answer amrwb_build_if1(uint64_t type, uint64_t quality, uint64_t indication, uint64_t request, const uint8_t *core,
                             size_t core_len, uint8_t *out, size_t out_len);
amrwb_answer amrwb_build_if2(uint64_t type, uint64_t quality, const uint8_t *core, size_t core_len, uint8_t *out, size_t out_len);

/* Level two: a frame in storage format, built as in amrwb_build_if2. */
amrwb_answer amrwb_build_stored(uint64_t type, uint64_t quality, const uint8_t *core, size_t core_len, uint8_t *out, size_t out_len);

/* Level two: the reception class of a frame; sti counts for type 9 alone. 11 for a type above 15, a quality above 1 or an sti above 1; 2. */
amrwb_class_answer amrwb_class(uint64_t type, uint64_t quality, uint64_t sti);

/* Level two: the codec's bit order. A row has one octet of 0 or 1 for each bit s(1) to s(K) of the codec, in its order; K is 132, 177, 253,
 * 285, 317, 365, 397, 461, 477 for mode 0 to 8. The tables for modes 0 to 4 are the library's, and no sheet is read there. For modes 5 to 8 the
 * host lends one, a sheet: K numbers, each of 0 to K-1 once, by which d(j) = s(sheet[j]+1). Each call judges it; sheet_len counts its numbers,
 * and 0 says that there is none, which is 12. Also where there is none, or none is read, sheet must not be null. */

/* Writes the packed core of a row to core: octets written. 11 for a mode above 8, a row with another length than K or a value above 1, or in
 * modes 5 to 8 a sheet with another length than K or 0; in modes 5 to 8 also 12, and 24 where a number below K is missing from the sheet; 10. */
amrwb_answer amrwb_order_to_core(uint64_t mode, const uint16_t *sheet, size_t sheet_len, const uint8_t *row, size_t row_len,
                                 uint8_t *core, size_t core_len);

/* Writes the row of a packed core to row: octets written, one for each bit. 11 for a mode above 8, a core that has not exactly the mode's
 * octets, or a sheet as above; 5 for a filling bit 1; 12; 24; 10. */
amrwb_answer amrwb_order_to_row(uint64_t mode, const uint16_t *sheet, size_t sheet_len, const uint8_t *core, size_t core_len,
                                uint8_t *row, size_t row_len);

/* Reads a sheet from text, and writes its K numbers to numbers, where 477 places are enough: the mode, and numbers written. The text has the
 * lines mode=5, bits=365 (K), d0=0, d1=4 and so on to d(K-1), each ended by one line feed, and nothing else. Its numbers are decimal, of any
 * length, without leading zeros. 23 where it differs from that, the mode is not 5 to 8, or bits is not the mode's K; 24 where a number below K
 * is missing, whatever stands in its place; 10. */
amrwb_sheet amrwb_sheet_read(const uint8_t *text, size_t len, uint16_t *numbers, size_t numbers_len);

/* Level two: a viewer, which hands out the frames of a recording in turn. The host keeps format, offset and number between the calls, and
 * lends the same recording to each. */

/* Opens the recording rec of a format: offset is its first frame's, number, end and class are 0, and no frame is read. 11 for the format; 9;
 * 8. */
amrwb_view amrwb_view_open(uint64_t format, const uint8_t *rec, size_t len);

/* Reads the frame at offset, with the given number, and writes its packed core to core; class is the frame's, a SID frame's STI being d(35)
 * of that core; offset and number of the answer are the next frame's. At the end of the recording (offset is len) end is 1. There, and at a
 * refusal, class is 0, and offset and number stay as given. 11 for the format, an offset above len or a number above offset; the frame by 2, 3,
 * 5, 6, 7, with number and offset as its place; 10. Length and header of the recording are not judged again. */
amrwb_view amrwb_view_next(uint64_t format, uint64_t offset, uint64_t number, const uint8_t *rec, size_t len, uint8_t *core,
                           size_t core_len);

/* Level two: the report. */

/* Reads the stored recording rec to its end, and counts its frames by class. 9 for more than 65,536 octets here; 8; the first refused frame
 * by 2, 3, 5, 6. */
amrwb_counts amrwb_report(const uint8_t *rec, size_t len);

/* Level two: eight consoles, numbered from 0, share one adapter, which has room for one frame in each slot. The host calls
 * amrwb_consoles_add for each new frame of a console, and amrwb_consoles_slot once in each slot; where served is 1 it takes one frame from that
 * console. Only counts are kept: the frames stay with their consoles. The state is the host's to keep: each call takes it by value and answers
 * the next one, which is the same where the call is refused or nobody waits. */

/* waiting[i] frames wait at console i, in a state that a call answered at most 100; next is the console at which the next slot begins to look.
 * A state that no call answered is safe to hand in: next counts modulo 8, and a console with more than 100 is full, and served like any
 * other. */
typedef struct {
    uint8_t waiting[8];
    uint8_t next;
} amrwb_consoles;

typedef struct {
    uint64_t refusal, frame, octet;
    uint64_t served;  /* 1 where a console was served, else 0 */
    uint64_t console; /* that console, else 0 */
    amrwb_consoles consoles;
} amrwb_consoles_answer;

/* Nothing waits, and the first slot begins with console 0. */
amrwb_consoles amrwb_consoles_fresh(void);

/* Takes in a frame of a console: one more waits there, and next stays. 11 for a console above 7; 27 where 100 or more wait there. */
amrwb_consoles_answer amrwb_consoles_add(amrwb_consoles consoles, uint64_t console);

/* Serves the first console with a frame waiting, from next on around the ring: one frame fewer waits there, and next becomes the console after
 * it (0 after 7), so that the one served last comes last. So a console with a frame waiting is served within eight slots. With nobody waiting
 * served is 0 and the state stays. Never refused. */
amrwb_consoles_answer amrwb_consoles_slot(amrwb_consoles consoles);

/* Level three: the link to a radio network. Its state is the host's to keep: each call takes it by value and answers the next one, which is
 * the same where the call is refused. */

/* A sub-flow combination (RFC): the RFCI, 0 to 63, the frame type, 0 to 9 or 15, and three sub-flow sizes in bits, whose sum is the bits of
 * the type's core. */
typedef struct {
    uint8_t rfci, type;
    uint16_t size1, size2, size3;
} amrwb_combination;

/* A set has its combinations in the first count places; count is 0 where there is no set. request is the stored mode request; forwarded is
 * the request that was forwarded last, 15 where none was. A link that no call answered is safe to hand in: see docs/DECISIONS.md. */
typedef struct {
    struct {
        amrwb_combination places[11];
        uint32_t count;
    } set;
    uint16_t request, forwarded;
} amrwb_link;

typedef struct {
    uint64_t refusal, frame, octet;
    amrwb_link link;
} amrwb_link_answer;

typedef struct {
    uint64_t refusal, frame, octet;
    uint64_t fqc;        /* 0 good, 1 bad */
    uint64_t rfci;
    uint64_t n1, n2, n3; /* octets written to each sub-flow's buffer */
    uint64_t forwarded;  /* 1 where the frame's request is forwarded, else 0 */
    uint64_t request;    /* that request, else 0 */
    amrwb_link link;
} amrwb_down;

/* No set, request 0, no request forwarded. */
amrwb_link amrwb_link_fresh(void);

/* Stores the combinations that rows writes, five numbers for each: RFCI, type and three sizes; 1 to 11 of them, with different RFCIs and
 * different types. rows_len counts the numbers. 11 for anything else, also for a length that is no multiple of five; 15 where there is a
 * set. */
amrwb_link_answer amrwb_link_assign(amrwb_link link, const uint64_t *rows, size_t rows_len);

/* Back to no set; both requests stay. 14 where there is none. */
amrwb_link_answer amrwb_link_release(amrwb_link link);

/* Stores a mode request, 0 to 8 (else 11), with a set or without. */
amrwb_link_answer amrwb_link_rate(amrwb_link link, uint64_t mode);

/* Joins three sub-flows, each in exactly its octets with filling bits 0, into an IF1 frame in out, with the stored request, the type as
 * indication (type 9: 0) and the computed CRC. fqc 0 gives quality 1, 2 gives quality 0; 1 gives type 15 with quality 0, and the sub-flows are
 * not read. 11 for fqc above 3 or rfci above 63; 14; 13; 16; 17; 6; 10. */
amrwb_answer amrwb_link_up(amrwb_link link, uint64_t fqc, uint64_t rfci, const uint8_t *s1, size_t n1, const uint8_t *s2, size_t n2,
                           const uint8_t *s3, size_t n3, uint8_t *out, size_t out_len);

/* Splits one IF1 frame, which takes all of frame, into the three sub-flows of its type's combination. The buffers may be longer than needed.
 * A request of types 0 to 9 that is not the one forwarded last is forwarded, and kept in link. 14; the frame by 1 to 7; 16; 10. */
amrwb_down amrwb_link_down(amrwb_link link, const uint8_t *frame, size_t len, uint8_t *s1, size_t n1, uint8_t *s2, size_t n2, uint8_t *s3,
                           size_t n3);

#ifdef __cplusplus
}
#endif

#endif

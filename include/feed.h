/*
 * feed.h - the feed adapter's library for C and C++.
 *
 * Packets of a D2-HDMAC/packet data service (ETS 300 352) are gathered by address, four to a group; a board shows the last whole
 * group. This library keeps the groups of up to 16 followed addresses and says of each whether it is fresh.
 *
 * Every call answers a number. 0 is done, 1 to 7 are answers, 20 and more are refusals:
 *
 *    1  started    2  held       3  whole                                       (a packet)
 *    4  nothing yet   5  fresh   6  doubtful   7  stale                         (ask, board text)
 *   20  a lent length is wrong            27  address not followed
 *   21  spare bit set                     28  type unreadable
 *   22  address not 1 to 1,022            29  type 3F: a control packet
 *   23  protection not 0 or 1             30  type F8
 *   24  limit not 1 to 1,500              31  a protected word can't be read
 *   25  address already followed          32  out of step
 *   26  no free slot                      33  a bare number too large
 *   47  type C7                           34  state, or map, not good
 *   44  a pair of a field is wrong                                            (the map)
 *   45  more than 128 components          46  structure unfinished            (the map)
 *   48  setting above 3                   49  header beyond the setting       (headers)
 *
 * A call is refused with the first number of its order that applies. A refused call changes nothing that was lent to it, but for one
 * case: a packet refused with 28, 47, 30, 31 or 32 drops the unfinished group of its address and marks a gap there. 29 is no error: a
 * control packet stands between the packets of a group and is none of them. Values that a call hands out by pointers are set by a refused
 * one, too, as the call says.
 *
 * The library allocates nothing, keeps nothing between calls and has no global state: everything it knows is in the state that you
 * lend. Calls on different states may run at the same time.
 *
 * What you vouch for, since no call can see it: a pointer points at as many bytes as the length beside it says (a length of 0 wants
 * a pointer that is not null all the same), values that are written to are valid, what is lent for writing does not overlap what else
 * is lent, and nobody else writes in it during the call.
 */
#ifndef FEED_H
#define FEED_H

#include <stddef.h>
#include <stdint.h>

/*
 * A state, in bytes: 16 slots, and a setting behind them. Its byte places are in docs/LAYOUT.md. A saved state of 11,776 bytes, of an
 * older library that had no setting, is refused with 20.
 */
#define FEED_STATE 11777
/* A packet image; the four images of a group. */
#define FEED_IMAGE 94
#define FEED_IMAGES 376
/* What a group carries, plain and protected; what a packet carries at most. */
#define FEED_PLAIN 360
#define FEED_PROTECTED 180
#define FEED_PACKET 90
/* The longest limit, in subframes; the last address that can be followed. */
#define FEED_LONGEST 1500
#define FEED_LAST_ADDRESS 1022

/* A map, in bytes; a field of TDM control; the marks of a list, one for each component. */
#define FEED_MAP 36356
#define FEED_MAP_FIELD 10
#define FEED_MAP_LIST 256
/* All ones: an undefined line, an undefined clock period. The component number that announces panning vectors. */
#define FEED_MAP_NO_LINE 1023
#define FEED_MAP_NO_CLOCK 2047
#define FEED_MAP_PANNING 0x81

/* What ask and board text answer of an address. */
#define FEED_NOTHING_YET 4
#define FEED_FRESH 5
#define FEED_DOUBTFUL 6
#define FEED_STALE 7

#ifdef __cplusplus
extern "C" {
#endif

/*
 * Starts a state: nothing is followed. Every byte becomes 0 but for the last, the setting of feed_set_header_flips, which becomes 3. It
 * works on any contents.
 * Refused: 20.
 */
uint8_t feed_start(uint8_t *state, size_t state_len);

/*
 * Follows an address, 1 to 1,022: the lowest free slot is taken. protection is 0 where its groups are sent plain, 1 where they are
 * protected; limit is how many subframes may end before a group is stale, 1 to 1,500.
 * Refused, in this order: 20, 34, 22, 23, 24, 25, 26.
 */
uint8_t feed_follow(uint8_t *state, size_t state_len, uint32_t address, uint32_t protection, uint32_t limit);

/*
 * Leaves an address: its slot becomes 0.
 * Refused, in this order: 20, 34, 22, 27.
 */
uint8_t feed_leave(uint8_t *state, size_t state_len, uint32_t address);

/*
 * Sets how many flips are corrected in a packet's header at the most, 0 to 3, from the next packet on. Every other call but feed_start
 * keeps the setting. It is there for an empty channel: noise is read as some header always at 3, and 277, 24 and 1 times in 2,048 at 2, 1
 * and 0.
 * Refused, in this order, and then the setting stays as it was: 20, 34, 48 (most above 3).
 */
uint8_t feed_set_header_flips(uint8_t *state, size_t state_len, uint32_t most);

/*
 * Takes in one packet image of 94 bytes: bit k in order of transmission is the bit of weight 2^(k mod 8) in byte k/8, and the bit of
 * weight 128 in byte 93 is 0. Answers 1 where it starts a group, 2 where it is held, 3 where it makes a group whole.
 * Refused, in this order: 20, 34, 21, 49 (more flips in the header than the setting says: the packet is no address's, and changes nothing),
 * 27, 28, 29, 47, 30, 31, 32. Of these 29 changes nothing; 28, 47, 30, 31 and 32 drop the address's unfinished group and mark a gap.
 */
uint8_t feed_packet(uint8_t *state, size_t state_len, const uint8_t *image, size_t image_len);

/*
 * The same call, with what its number carries. With 32, *awaited_or_place is the index that was awaited before this packet, and *came the
 * index that came. With 31, *awaited_or_place is the place of the first word that cannot be read, 0 to 29, and *came is 0. With every
 * other number, refusals too, both are 0. Both are always set; the number says what they are.
 */
uint8_t feed_packet_detail(uint8_t *state, size_t state_len, const uint8_t *image, size_t image_len, uint8_t *awaited_or_place,
                           uint8_t *came);

/*
 * Ends a subframe: every whole group is one subframe older, up to 1,500.
 * Refused, in this order: 20, 34.
 */
uint8_t feed_subframe_end(uint8_t *state, size_t state_len);

/*
 * Asks what is known of an address: 4, 5, 6 or 7. With 5 to 7 the last whole group is the part of the state from *at on, *len bytes
 * long (360 plain, 180 protected); otherwise *at and *len are 0. Nothing is copied: the part is good until the state is next changed.
 * Refused, in this order: 20, 34, 22, 27.
 */
uint8_t feed_ask(const uint8_t *state, size_t state_len, uint32_t address, size_t *at, size_t *len);

/*
 * What a board is to show: ask's number, and the group only where that is 5. Then *from is 1 and the text is the part of the state
 * from *at on, *len bytes long. In every other case, refusals too, *from is 0 and the text is the whole notice: *at is 0 and *len is
 * notice_len. An empty notice is taken.
 * Refused as ask: 20, 34, 22, 27.
 */
uint8_t feed_board_text(const uint8_t *state, size_t state_len, uint32_t address, const uint8_t *notice, size_t notice_len,
                        uint8_t *from, size_t *at, size_t *len);

/*
 * Writes a group: the message, 360 bytes plain or 180 protected, becomes four images in a row, 376 bytes, with indices 0 to 3, type
 * byte 00 and spare bit 0. A refused write leaves the output as it was, whatever its length.
 * Refused, in this order: 22, 23, 20.
 */
uint8_t feed_write_group(uint32_t address, uint32_t protection, const uint8_t *message, size_t message_len, uint8_t *output,
                         size_t output_len);

/*
 * What one packet's type byte and data are read as, without a state: *index and the 90 useful bytes, or the 45 of protected data with
 * 0 behind them. With 31, *place is that of the first word that cannot be read, 0 to 29. Where the packet is refused the other values
 * are 0. bytes_len is 90.
 * Refused, in this order: 20 (bytes_len) and 23, which change nothing; 20 (image_len), 28, 29, 47, 30, 31.
 */
uint8_t feed_received(uint8_t protection, const uint8_t *image, size_t image_len, uint8_t *place, uint8_t *index, uint8_t *bytes,
                      size_t bytes_len);

/*
 * The bare calls. A refused one gives 0 as its values.
 *
 * A header of 23 bits is read as the code word within three flips of it, of which there is exactly one. Refused: 33 (2^23 or more).
 */
uint8_t feed_read_header(uint32_t n, uint16_t *address, uint8_t *index, uint8_t *flips);
/*
 * The same with a setting, the greatest number of flips to correct, 0 to 3; the call above is this one at 3.
 * Refused, in this order: 33 (2^23 or more), 48 (most above 3), 49 (the nearest code word needs more flips than most).
 */
uint8_t feed_read_header_within(uint32_t n, uint32_t most, uint16_t *address, uint8_t *index, uint8_t *flips);
/*
 * The same answers, proved so for every n and most, without a table: the error patterns themselves are tried, fewest flips first. For
 * those who have to judge how a header is read (docs/APPROVAL.md); it tries up to 2,048 patterns, so it is no reader for a running feed.
 */
uint8_t feed_read_header_plain(uint32_t n, uint32_t most, uint16_t *address, uint8_t *index, uint8_t *flips);
/* Refused: 33 (address above 1,023, index above 3). */
uint8_t feed_write_header(uint32_t address, uint32_t index, uint32_t *header);
/* A 24-bit word is read as the code word within three flips, if there is one. Refused, in this order: 33 (2^24 or more), 31. */
uint8_t feed_read_word(uint32_t n, uint16_t *information, uint8_t *flips);
/* Refused: 33 (4,096 or more). */
uint8_t feed_write_word(uint32_t information, uint32_t *word);
/* A type byte within two flips of 00, 3F, C7 or F8 is read as it. Refused: 28. */
uint8_t feed_read_type(uint8_t byte, uint8_t *value, uint8_t *flips);
/* Gives back one of the four; nothing is corrected. Refused: 28. */
uint8_t feed_write_type(uint8_t byte, uint8_t *value);

/*
 * The multiplex's map: which components there are and where they stand in the television frame, from the fields of TDM control
 * (ETS 300 352, 4.5.4), so that a move is seen when it is announced. These calls are in libfeedmap.a, beside libfeed.a.
 *
 * A field is the 80 bits of a repeated data frame, corrected, as 10 bytes, lowest bit first: frame count 8, update flag 1, component 8,
 * structure (TDMS) 62, LINKS 1. A structure's fields are handed out as numbers of eight bytes, lowest byte first, TDMS as it was sent;
 * feed_map_unpack takes one apart. Line 1 and clock period 1 are coded 0; all ones mean undefined.
 *
 * Announced structures come in force at line 1 of each frame with count 2 modulo 128, the second frame behind that with count 0.
 */

/*
 * Starts a map: every byte becomes 0, and nothing is known. It works on any contents.
 * Refused: 20.
 */
uint8_t feed_map_start(uint8_t *map, size_t map_len);

/*
 * Takes in the field of one frame. Whatever was announced comes in force first, if a change falls between the last field's frame and
 * this one's, by their counts: up to 127 frames may be missed in a row. A field with the last one's count, all eight bits of it, is one
 * of the same frame's five blocks: it changes nothing. Panning vectors only move the count. A list of fields that is being gathered
 * while a frame is missed, or over a change of whose configuration not every frame was heard, is begun anew: no part of a structure is
 * ever shown as the whole. What was announced in a configuration that was heard from its first frame to its last stands, whichever
 * frames are missed behind the change. A whole list, too, is begun anew by a field that does not come in turn: its fields come one behind
 * the other, the first behind the last, and a field that is left out, or that it has not, means that the structure is another one.
 * Refused, in this order, and then the map stays as it was: 20, 34, 44 (first after last, or last alone all ones; panning vectors
 * never), 45 (a further component: with the flag where 128 others are announced; without it where 128 others are in force for certain,
 * that is, a field of each was heard in the running configuration, or a change before which every frame was heard put it in force).
 */
uint8_t feed_map_take(uint8_t *map, size_t map_len, const uint8_t *field, size_t field_len);

/*
 * What is known of a component in the frame with a count, which is taken as the next frame with it modulo 128, from the last field's
 * frame on, up to 128 frames later: the last count itself asks for the frame that has ended, the next one for the frame that runs,
 * further ones for what is announced. With 0 the structure's fields are the part of the map from *at on, *len bytes long, eight bytes a
 * field in rising order; where *len is 0 there is no such component, or it is not known. The part is good until the map is next changed.
 * *announced is 1 where something new was said of the component since the last change, and then *frames is in how many frames behind
 * the last field's the change comes, 1 to 128; both are given with 46, too.
 * *unknown is 1 where *len is 0 and the map has not heard enough to say that there is no such component. It has where all ones came of
 * it: without the flag, in that frame's configuration; with the flag, in the one before, if every frame of that was heard, to the last.
 * And it has after 255 frames in a row since the start or the last missed one, a little over ten seconds: that these are enough is a
 * rule of the house, as the standard does not say how often a component has to be sent.
 * Refused, in this order: 20, 34, 46 (fields were heard, but it is not known that these are all: that is known when the first of them
 * comes again, and of announced ones at the change, if every frame of the configuration before it was heard and they were not begun
 * anew on the way, since what came before may belong to them; a frame missed on the way has the gathering begin anew). With 20 and 34
 * every value is 0, with 46 *at, *len and *unknown are.
 */
uint8_t feed_map_show(const uint8_t *map, size_t map_len, uint8_t id, uint8_t count, size_t *at, size_t *len, uint8_t *announced,
                      uint8_t *frames, uint8_t *unknown);

/*
 * A mark for each component in the frame with a count, as feed_map_show has it: out[id] is 1 where its structure is whole, 2 where it
 * is unfinished, 0 where there is none, 3 where the map has not heard enough to say that there is none. out_len is 256.
 * Refused, in this order, and then out stays as it was: 20, 34.
 */
uint8_t feed_map_list(const uint8_t *map, size_t map_len, uint8_t count, uint8_t *out, size_t out_len);

/*
 * The fields that were heard so far of a component's structure in the frame with a count, where feed_map_show still answers 46, too:
 * asked for a frame behind the next change, it tells where a component moves to from the first field of its announcement on. They are
 * the part of the map from *at on, *len bytes long, at most eight fields; *whole is 1 where they are known to be all. *len is 0 where
 * none was heard, or none since the gathering was begun anew.
 * Refused, in this order, and then every value is 0: 20, 34.
 */
uint8_t feed_map_heard(const uint8_t *map, size_t map_len, uint8_t id, uint8_t count, size_t *at, size_t *len, uint8_t *whole);

/*
 * How far what was heard reaches. *row is how many frames were heard in a row since the start or the last missed one, up to 255, from
 * where on *unknown above is 0; *unbroken is 1 where every frame of the running configuration was heard, from its first on.
 * *components is how many components are in force in the frame with a count, whole or unfinished: a multiplex never has more than 128,
 * so that more than 128 mean that deletions were missed, and some that are shown are gone.
 * Refused, in this order, and then every value is 0: 20, 34.
 */
uint8_t feed_map_known(const uint8_t *map, size_t map_len, uint8_t count, uint8_t *row, uint8_t *unbroken, size_t *components);

/*
 * A field, taken apart.
 * Refused: 20, and then every value is 0.
 */
uint8_t feed_map_read(const uint8_t *field, size_t field_len, uint8_t *count, uint8_t *flag, uint8_t *id, uint64_t *tdms,
                      uint8_t *links);

/*
 * A field, written; what was written is read as what went in. out_len is 10.
 * Refused, in this order, and then out stays as it was: 20, 33 (flag or links above 1, tdms of more than 62 bits), 44 as above.
 */
uint8_t feed_map_write(uint8_t count, uint8_t flag, uint8_t id, uint64_t tdms, uint8_t links, uint8_t *out, size_t out_len);

/*
 * The six numbers of a structure's field as TDMS: first and last line of two subframes, first and last clock period.
 * Refused: 33 (a line above 1,023, a clock period above 2,047), and then *tdms is 0.
 */
uint8_t feed_map_pack(uint32_t fln1, uint32_t lln1, uint32_t fln2, uint32_t lln2, uint32_t fcp, uint32_t lcp, uint64_t *tdms);

/*
 * TDMS as its six numbers.
 * Refused: 33 (more than 62 bits), and then every number is 0.
 */
uint8_t feed_map_unpack(uint64_t tdms, uint32_t *fln1, uint32_t *lln1, uint32_t *fln2, uint32_t *lln2, uint32_t *fcp, uint32_t *lcp);

#ifdef __cplusplus
}
#endif

#endif

/*
 * A teletext component moves and goes, and a sound component comes: each is seen before it happens. Then a frame is missed, and the map
 * says what it does not know any more.
 *
 *   cc -Iinclude examples/map.c crates/feedmap/out/libfeedmap.a -o map && ./map
 */
#include <inttypes.h>
#include <stdio.h>

#include "feed.h"

enum { TELETEXT = 0x20, SOUND = 0x40, OTHER = 0x50 };

static uint8_t map[FEED_MAP];

static const char *name(uint8_t id)
{
    return id == TELETEXT ? "teletext" : id == SOUND ? "sound" : "component 50 (hex)";
}

/* Takes in one frame's field: a component in lines first to last, clock periods first_clock to last_clock. */
static void take(uint8_t count, uint8_t flag, uint8_t id, uint32_t first, uint32_t last, uint32_t first_clock, uint32_t last_clock,
                 uint8_t links)
{
    uint8_t field[FEED_MAP_FIELD];
    uint64_t tdms;
    uint8_t number = feed_map_pack(first, last, FEED_MAP_NO_LINE, FEED_MAP_NO_LINE, first_clock, last_clock, &tdms);
    if (number == 0) number = feed_map_write(count, flag, id, tdms, links, field, sizeof field);
    if (number == 0) number = feed_map_take(map, sizeof map, field, sizeof field);
    if (number != 0) printf("count %u: refused, %u\n", count, number);
}

/* Lines, as people count them: line 1 is coded 0. Each call tells the same once more, so LINKS change with every frame. */
static void lines(uint8_t count, uint8_t flag, uint8_t id, uint32_t first, uint32_t last)
{
    take(count, flag, id, first - 1, last - 1, 229, 1291, count % 2);
    printf("count %3u: %s %s lines %" PRIu32 " to %" PRIu32 "\n", count, name(id), flag ? "is to be in" : "is in", first, last);
}

/* All ones: the component is to be deleted. */
static void deleted(uint8_t count, uint8_t id)
{
    take(count, 1, id, FEED_MAP_NO_LINE, FEED_MAP_NO_LINE, FEED_MAP_NO_CLOCK, FEED_MAP_NO_CLOCK, 0);
    printf("count %3u: %s is to be deleted\n", count, name(id));
}

/* Frames from one count up to another that bring panning vectors, which are no component's. */
static void other_frames(uint8_t from, uint8_t to)
{
    for (uint8_t count = from; count != (uint8_t)(to + 1); count++) take(count, 0, FEED_MAP_PANNING, 0, 0, 0, 0, 0);
    printf("counts %u to %u: nothing of these components\n", from, to);
}

/* The fields from a place in the map on. */
static void fields(size_t at, size_t len)
{
    for (size_t k = 0; k < len; k += 8) {
        uint64_t tdms = 0;
        uint32_t fln1, lln1, fln2, lln2, fcp, lcp;
        for (size_t i = 8; i-- > 0;) tdms = tdms << 8 | map[at + k + i];
        feed_map_unpack(tdms, &fln1, &lln1, &fln2, &lln2, &fcp, &lcp);
        printf("%s lines %" PRIu32 " to %" PRIu32, k ? " and" : "", fln1 + 1, lln1 + 1);
    }
}

/* Says what is known of a component in the frame with a count. */
static void show(uint8_t id, uint8_t count)
{
    size_t at, len;
    uint8_t announced, frames, unknown, whole;
    uint8_t number = feed_map_show(map, sizeof map, id, count, &at, &len, &announced, &frames, &unknown);
    printf("    %s at count %u:", name(id), count);
    if (number == 46) {
        printf(" unfinished; heard so far:");
        feed_map_heard(map, sizeof map, id, count, &at, &len, &whole);
        fields(at, len);
        if (len == 0) printf(" nothing");
    } else if (number != 0) {
        printf(" refused, %u", number);
    } else if (len != 0) {
        fields(at, len);
    } else {
        printf("%s", unknown ? " not known yet" : " not there");
    }
    if (announced) printf(" (a change is announced, in %u frame%s)", frames, frames == 1 ? "" : "s");
    printf("\n");
}

/* Says how far what was heard reaches. */
static void known(uint8_t count)
{
    uint8_t row, unbroken;
    size_t components;
    feed_map_known(map, sizeof map, count, &row, &unbroken, &components);
    printf("    heard in a row: %u%s; every frame since the last change: %s; components in force: %zu%s\n", row,
           row == 255 ? " or more" : "", unbroken ? "yes" : "no", components, components > 128 ? ", so deletions were missed" : "");
}

int main(void)
{
    feed_map_start(map, sizeof map);
    /* Nothing was heard: that is not the same as "there is none". */
    show(TELETEXT, 2);

    printf("\nTeletext is there.\n");
    lines(2, 0, TELETEXT, 11, 21);
    show(TELETEXT, 2);
    /* The same again: its structure has one field, and is whole. */
    lines(3, 0, TELETEXT, 11, 21);
    show(TELETEXT, 3);

    printf("\nA move: what is in force stays until count 130, and where it goes to is seen at once.\n");
    lines(4, 1, TELETEXT, 14, 21);
    show(TELETEXT, 4);
    show(TELETEXT, 130);
    other_frames(5, 129);
    /* Every frame since the last change was heard: one field is all. */
    show(TELETEXT, 129);
    show(TELETEXT, 130);
    lines(130, 0, TELETEXT, 14, 21);
    show(TELETEXT, 130);

    printf("\nA creation and a deletion: the sound comes, teletext goes.\n");
    lines(131, 1, SOUND, 310, 310);
    deleted(132, TELETEXT);
    show(SOUND, 132);
    show(TELETEXT, 132);
    /* Behind the change. As long as more can come, "is to be deleted" need not be the last word. */
    show(SOUND, 2);
    show(TELETEXT, 2);
    other_frames(133, 1);
    show(SOUND, 2);
    show(TELETEXT, 2);
    lines(2, 0, SOUND, 310, 310);
    show(SOUND, 2);
    show(TELETEXT, 2);
    /* Nothing was ever heard of this one, in more than 255 frames: it is held to be absent, by a rule of the house. */
    show(OTHER, 2);
    known(2);

    printf("\nThe frame with count 3 is missed.\n");
    lines(4, 0, SOUND, 310, 310);
    show(SOUND, 4);
    /* That it was deleted was heard, and holds up to the next change. Of the other one the map says again that it does not know. */
    show(TELETEXT, 4);
    show(OTHER, 4);
    known(4);
    return 0;
}

/*
 * An installer at a silent board: packets come, and the board shows nothing new. Which packets were they? A control packet, after which
 * nothing is lost; one of type C7; one out of step; one with a protected word that cannot be read.
 *
 *   cc -Iinclude examples/installer.c crates/feed/out/libfeed.a -o installer && ./installer
 */
#include <stdio.h>
#include <string.h>

#include "feed.h"

#define ADDRESS 17
#define LIMIT 2
#define CONTROL 0x3F
#define RESERVED 0xC7

static uint8_t state[FEED_STATE];
static uint8_t images[FEED_IMAGES];

/* Takes an image in, and says what it was. detail is the index that was awaited with 32, the place of a word with 31. */
static void take(const uint8_t *image)
{
    uint8_t detail, came;
    uint8_t number = feed_packet_detail(state, sizeof state, image, FEED_IMAGE, &detail, &came);
    printf("%4u  ", number);
    switch (number) {
    case 1: printf("starts a group\n"); break;
    case 2: printf("is held\n"); break;
    case 3: printf("makes the group whole\n"); break;
    case 29: printf("is a control packet: nothing is lost\n"); break;
    case 47: printf("has the reserved type C7: the group is given up\n"); break;
    case 31: printf("has a word that cannot be read, word %u: the group is given up\n", detail); break;
    case 32: printf("is out of step: %u was awaited, %u came\n", detail, came); break;
    default: printf("is refused\n"); break;
    }
}

static void take_data(int index)
{
    take(images + index * FEED_IMAGE);
}

/* The same packet with another type: the eight bits from bit 23 on. */
static void take_typed(int index, uint8_t type)
{
    uint8_t image[FEED_IMAGE];
    memcpy(image, images + index * FEED_IMAGE, sizeof image);
    image[2] = (uint8_t)((image[2] & 0x7F) | type << 7);
    image[3] = (uint8_t)((image[3] & 0x80) | type >> 1);
    take(image);
}

/* The same packet with four bits of a word flipped. Word w stands from bit 31 + 24 w on. */
static void take_hurt(int index, int word)
{
    uint8_t image[FEED_IMAGE];
    memcpy(image, images + index * FEED_IMAGE, sizeof image);
    for (int bit = 31 + 24 * word, k = 0; k < 4; k++, bit += 5)
        image[bit / 8] ^= (uint8_t)(1 << (bit % 8));
    take(image);
}

/* What the last whole group is worth now, and what comes next. */
static void next(const char *what)
{
    size_t at, len;
    uint8_t number = feed_ask(state, sizeof state, ADDRESS, &at, &len);
    const char *worth = number == FEED_FRESH ? "fresh" : number == FEED_DOUBTFUL ? "doubtful" : "nothing yet";
    printf("ask: %u, %s. %s\n", number, worth, what);
}

int main(void)
{
    uint8_t message[FEED_PROTECTED] = "08:14 Prague, platform 3";
    feed_start(state, sizeof state);
    feed_follow(state, sizeof state, ADDRESS, 1, LIMIT);
    feed_write_group(ADDRESS, 1, message, sizeof message, images, sizeof images);
    next("A group with control packets in it:");
    take_data(0);
    take_typed(1, CONTROL);
    take_data(1);
    take_data(2);
    take_typed(0, CONTROL);
    take_data(3);
    next("Type C7 in the middle of a group:");
    take_data(0);
    take_typed(1, RESERVED);
    take_data(1);
    next("Packet 2 is lost:");
    take_data(0);
    take_data(1);
    take_data(3);
    next("A word of packet 1 is damaged:");
    take_data(0);
    take_hurt(1, 7);
    next("A group as it was sent:");
    for (int index = 0; index < 4; index++)
        take_data(index);
    next("That is all.");
    return 0;
}

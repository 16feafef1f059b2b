/*
 * A small board: it follows an address, takes in packets, ends subframes, and shows the platform list only while the adapter
 * has reason to call it fresh. Here the packets are made by the library's own writer; one of them is damaged on the way.
 *
 *   cc -Iinclude examples/board.c crates/feed/out/libfeed.a -o board && ./board
 */
#include <stdio.h>
#include <string.h>

#include "feed.h"

#define ADDRESS 17
#define LIMIT 2

static uint8_t state[FEED_STATE];
static const char notice[] = "Please listen to announcements";

/* What the board shows now. */
static void show(const char *when)
{
    uint8_t from;
    size_t at, len;
    uint8_t number = feed_board_text(state, sizeof state, ADDRESS, (const uint8_t *)notice, strlen(notice), &from, &at, &len);
    const char *text = from ? (const char *)state + at : notice + at;
    printf("%-28s %u  %.*s\n", when, number, (int)len, text);
}

/* Sends a list as a protected group. Flips one bit in so many words of its third packet. */
static void send(const char *list, int words)
{
    uint8_t message[FEED_PROTECTED] = {0};
    uint8_t images[FEED_IMAGES];
    strncpy((char *)message, list, sizeof message);
    if (feed_write_group(ADDRESS, 1, message, sizeof message, images, sizeof images) != 0)
        return;
    for (int k = 0; k < words; k++)
        for (int bit = 0; bit < 4; bit++)
            images[2 * FEED_IMAGE + 10 + 3 * k] ^= (uint8_t)(1 << bit);
    for (int i = 0; i < 4; i++)
        printf("%u ", feed_packet(state, sizeof state, images + i * FEED_IMAGE, FEED_IMAGE));
    printf(" answers to four packets\n");
}

int main(void)
{
    feed_start(state, sizeof state);
    printf("%u  follow\n", feed_follow(state, sizeof state, ADDRESS, 1, LIMIT));
    show("before any packet");
    send("08:14 Prague, platform 3", 0);
    show("after a whole group");
    send("08:14 Prague, platform 5", 1);
    show("after a damaged group");
    send("08:14 Prague, platform 5", 0);
    show("after the next whole group");
    feed_subframe_end(state, sizeof state);
    show("one subframe later");
    feed_subframe_end(state, sizeof state);
    show("two subframes later: silence");
    return 0;
}

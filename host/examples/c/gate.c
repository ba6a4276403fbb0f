/*
 * Decides on the records of a night, and narrows the policy to what they used.
 *
 *     cc -I INCLUDE gate.c LIB/libmuckposy.a -o gate && ./gate
 *
 * INCLUDE and LIB are the folders of those names that ./dist makes.
 */

#include <stdio.h>
#include <string.h>

#include "muckposy.h"

static const char POLICY[] =
    "{\"Version\":\"2012-10-17\",\"Statement\":["
    "{\"Effect\":\"Allow\",\"Action\":\"s3:*\",\"Resource\":\"arn:aws:s3:::gate/*\"},"
    "{\"Effect\":\"Deny\",\"Action\":\"s3:Delete*\",\"Resource\":\"*\"}]}";

static const char *const NIGHT[] = {
    "{\"ActionNames\":[\"s3:GetObject\"],\"ResourceArns\":[\"arn:aws:s3:::gate/north/1\"]}",
    "{\"ActionNames\":[\"s3:GetObject\"],\"ResourceArns\":[\"arn:aws:s3:::gate/north/2\"]}",
    "{\"ActionNames\":[\"s3:DeleteObject\"],\"ResourceArns\":[\"arn:aws:s3:::gate/north/2\"]}",
    "{\"ActionNames\":[\"sqs:SendMessage\"]}",
    "{\"ActionNames\":",
};

static const char *const OUTCOMES[] = {"", "allowed", "explicitly denied", "implicitly denied"};

/* A room is 64 KiB: too much for a small stack, so it has a place of its own. */
static uint32_t room[MUCKPOSY_ROOM_NUMBERS];

static const uint8_t *bytes(const char *text)
{
    return (const uint8_t *)text;
}

static int refused(muckposy_reply reply)
{
    if (reply.number != 0) {
        printf("refused by %llu at %zu\n", (unsigned long long)reply.number, reply.place);
    }
    return reply.number != 0;
}

int main(void)
{
    uint8_t output[MUCKPOSY_RESULT_BYTES];
    const size_t length = strlen(POLICY);
    muckposy_reply reply;
    size_t i;

    if (refused(muckposy_fresh(room, MUCKPOSY_ROOM_NUMBERS))) {
        return 1;
    }
    for (i = 0; i < sizeof NIGHT / sizeof *NIGHT; i++) {
        reply = muckposy_feed(bytes(POLICY), length, bytes(NIGHT[i]), strlen(NIGHT[i]), room, MUCKPOSY_ROOM_NUMBERS);
        if (!refused(reply)) {
            printf("%s, statement %zu\n", OUTCOMES[reply.decision], reply.detail);
        }
    }
    reply = muckposy_finish(bytes(POLICY), length, room, MUCKPOSY_ROOM_NUMBERS, output, sizeof output);
    if (refused(reply)) {
        return 1;
    }
    printf("%.*s\n", (int)reply.detail, (const char *)output);
    return 0;
}

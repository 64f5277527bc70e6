/*
 * Reads the PING message, forwards it with a flag bit that the relay does not
 * know, appends a document sequence to it, moves the body behind that, writes a
 * message from the body, reads a stored listing and shows four refusals.
 *
 *     gcc -std=c99 -Wall -Wextra -Werror -I.. relay.c \
 *         ../../crates/relay_c/out/librelay_c.a -o relay
 */
#include "relay.h"

#include <inttypes.h>
#include <stdio.h>
#include <stdlib.h>
#include <string.h>

static const uint8_t PING[36] = {
    0x24, 0x00, 0x00, 0x00, 0x07, 0x00, 0x00, 0x00, 0x00, 0x00, 0x00, 0x00,
    0xDD, 0x07, 0x00, 0x00, 0x00, 0x00, 0x00, 0x00, 0x00, 0x0F, 0x00, 0x00,
    0x00, 0x10, 0x70, 0x69, 0x6E, 0x67, 0x00, 0x01, 0x00, 0x00, 0x00, 0x00};

/* PING and then three stray bytes, as relay_log lists them. */
static const char LISTING[] = "relay-log\t2\n"
                              "msg\t0\t36\t7\t0\t0\t0\t1\n"
                              "bad\t36\t1\t0\n"
                              "end\t1\n";

/* The length that a document states in its first four bytes. */
static uint32_t document_length(const uint8_t *document)
{
    return (uint32_t)document[0] | (uint32_t)document[1] << 8 |
           (uint32_t)document[2] << 16 | (uint32_t)document[3] << 24;
}

static void print_section(const struct relay_entry *entry, const uint8_t *message)
{
    int64_t at = entry->start;
    switch (entry->kind) {
    case RELAY_BODY:
        printf("  body at %" PRId64 ", length %" PRId64 "\n", at, entry->length);
        break;
    case RELAY_SEQUENCE:
        printf("  sequence %.*s: documents %" PRId64 "\n",
               (int)entry->identifier_length,
               (const char *)message + entry->identifier_start,
               entry->documents);
        while (at < entry->start + entry->length) {
            uint32_t length = document_length(message + at);
            printf("    at %" PRId64 ", length %" PRIu32 "\n", at, length);
            at += length;
        }
        break;
    }
}

static void print_view(const struct relay_view *view, const uint8_t *message)
{
    printf("  length %" PRId64 ", request %" PRId64 ", response to %" PRId64
           ", flags %" PRId64 "\n",
           view->length, view->request_id, view->response_to, view->flags);
    printf("  elements %" PRId64 ", sequences %" PRIu32 "\n",
           view->elements, relay_sequence_count(view));
    for (int i = 0; i < RELAY_MAX_SECTIONS; i++)
        print_section(&view->entries[i], message);
}

static void print_refusal(const char *what, uint64_t result)
{
    printf("%s: refusal %d at %" PRIu32 ": %s\n", what,
           (int)relay_number(result), relay_place(result),
           relay_words(relay_number(result)));
}

static void print_bad_line(const char *what, uint64_t result)
{
    printf("%s: line %" PRIu64 ": %s\n", what, relay_line(result),
           relay_words(RELAY_BAD_LINE));
}

/* Room for a message, from the heap: a message may be too long for the stack. */
static uint8_t *room(size_t length)
{
    uint8_t *bytes = (uint8_t *)malloc(length);
    if (bytes == NULL) {
        fprintf(stderr, "no memory\n");
        exit(1);
    }
    return bytes;
}

int main(void)
{
    static const uint8_t two_documents[16] = {
        5, 0, 0, 0, 0, /* {} */
        11, 0, 0, 0, 0x08, 'd', 'r', 'y', 0, 1, 0 /* {"dry": true} */};
    /* Appending adds 6 bytes, the identifier, which is "d", and the documents;
       none of the other messages is longer. */
    size_t length = sizeof PING + 6 + 1 + sizeof two_documents;
    uint8_t *output = room(length), *moved = room(length);
    struct relay_view view;
    struct relay_listing listing;
    uint8_t message[sizeof PING];
    uint64_t result;

    result = relay_read(RELAY_HOUSE_BITS, 1, PING, sizeof PING, RELAY_VIEW(&view));
    if (result != RELAY_ACCEPTED) {
        print_refusal("read", result);
        return 1;
    }
    printf("read\n");
    print_view(&view, PING);

    /* Bit 17 is optional and not known to the house edition. */
    memcpy(message, PING, sizeof PING);
    message[18] = 0x02;
    result = relay_forward(RELAY_HOUSE_BITS, 1, message, sizeof message,
                           output, length, RELAY_VIEW(&view));
    if (result != RELAY_ACCEPTED) {
        print_refusal("forward", result);
        return 1;
    }
    printf("forward\n");
    print_view(&view, output);
    printf("  forwarded as PING: %s\n",
           memcmp(output, PING, sizeof PING) == 0 ? "yes" : "no");

    result = relay_append(RELAY_HOUSE_BITS, 1, PING, sizeof PING,
                          (const uint8_t *)"d", 1,
                          two_documents, sizeof two_documents,
                          output, length, RELAY_VIEW(&view));
    if (result != RELAY_ACCEPTED) {
        print_refusal("append", result);
        return 1;
    }
    printf("append\n");
    print_view(&view, output);

    result = relay_move(RELAY_HOUSE_BITS, 1, output, length,
                        relay_sequence_count(&view),
                        moved, length, RELAY_VIEW(&view));
    if (result != RELAY_ACCEPTED) {
        print_refusal("move", result);
        return 1;
    }
    printf("move\n");
    print_view(&view, moved);
    printf("  body behind sequences: %" PRIu32 "\n", relay_behind(&view));

    result = relay_write(RELAY_HOUSE_BITS, 1, -1, 7, RELAY_CHECKSUM_PRESENT,
                         PING + 21, 15, output, length,
                         RELAY_VIEW(&view));
    if (result != RELAY_ACCEPTED) {
        print_refusal("write", result);
        return 1;
    }
    printf("write\n");
    print_view(&view, output);

    result = relay_read_listing((const uint8_t *)LISTING, strlen(LISTING),
                                RELAY_LISTING(&listing));
    if (result != RELAY_ACCEPTED) {
        print_bad_line("listing", result);
        return 1;
    }
    printf("listing\n  version %" PRId64 ", messages %" PRId64 "\n",
           listing.version, listing.messages);

    /* The body has the name "ping" already. */
    result = relay_append(RELAY_HOUSE_BITS, 1, PING, sizeof PING,
                          (const uint8_t *)"ping", 4, NULL, 0,
                          output, length, RELAY_VIEW(&view));
    print_refusal("append", result);

    /* PING has no sequence. */
    result = relay_move(RELAY_HOUSE_BITS, 1, PING, sizeof PING, 1,
                        output, length, RELAY_VIEW(&view));
    print_refusal("move", result);

    result = relay_read(RELAY_HOUSE_BITS, 1, NULL, 0, RELAY_VIEW(&view));
    print_refusal("read", result);

    /* Its last line is missing: the fourth. */
    result = relay_read_listing((const uint8_t *)LISTING,
                                strlen(LISTING) - strlen("end\t1\n"),
                                RELAY_LISTING(&listing));
    print_bad_line("listing", result);

    free(output);
    free(moved);
    return 0;
}

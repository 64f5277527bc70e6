/* Prints what relay.h says, for the test that compares it with the crate. */
#include "relay.h"

#include <stdio.h>

static void field(const char *name, size_t offset)
{
    printf("%s %d\n", name, (int)(offset / sizeof(int64_t)));
}

/* Where an entry stands in the list; -1 for NULL. */
static int place(const struct relay_view *view, const struct relay_entry *entry)
{
    return entry == NULL ? -1 : (int)(entry - view->entries);
}

/* What the header's functions say of a body behind some of so many sequences. */
static void sections(int behind, int count)
{
    struct relay_view view;
    int i;
    for (i = 0; i < RELAY_MAX_SECTIONS; i++)
        view.entries[i].kind = i > count ? RELAY_NONE : RELAY_SEQUENCE;
    view.entries[behind].kind = RELAY_BODY;
    printf("behind %d of %d: body %d, sequences",
           (int)relay_behind(&view), (int)relay_sequence_count(&view),
           place(&view, relay_body(&view)));
    for (i = 0; i <= RELAY_MAX_SECTIONS; i++)
        printf(" %d", place(&view, relay_sequence(&view, (uint32_t)i)));
    printf("\n");
}

int main(void)
{
    int behind, count;
    printf("version %s\n", RELAY_VERSION);
    printf("max_length %d\n", RELAY_MAX_LENGTH);
    printf("max_elements %d\n", RELAY_MAX_ELEMENTS);
    printf("max_levels %d\n", RELAY_MAX_LEVELS);
    printf("max_sequences %d\n", RELAY_MAX_SEQUENCES);
    printf("max_sections %d\n", RELAY_MAX_SECTIONS);
    printf("house_bits %lu\n", (unsigned long)RELAY_HOUSE_BITS);
    printf("view_numbers %d\n", (int)(sizeof(struct relay_view) / sizeof(int64_t)));
    field("length", offsetof(struct relay_view, length));
    field("request_id", offsetof(struct relay_view, request_id));
    field("response_to", offsetof(struct relay_view, response_to));
    field("flags", offsetof(struct relay_view, flags));
    field("elements", offsetof(struct relay_view, elements));
    field("entries", offsetof(struct relay_view, entries));
    field("second entry", offsetof(struct relay_view, entries) + sizeof(struct relay_entry));
    field("kind", offsetof(struct relay_entry, kind));
    field("identifier_start", offsetof(struct relay_entry, identifier_start));
    field("identifier_length", offsetof(struct relay_entry, identifier_length));
    field("start", offsetof(struct relay_entry, start));
    field("length", offsetof(struct relay_entry, length));
    field("documents", offsetof(struct relay_entry, documents));
    printf("kinds %d %d %d\n", RELAY_BODY, RELAY_SEQUENCE, RELAY_NONE);
    printf("listing_numbers %d\n", (int)(sizeof(struct relay_listing) / sizeof(int64_t)));
    field("version", offsetof(struct relay_listing, version));
    field("messages", offsetof(struct relay_listing, messages));
    for (count = 0; count <= RELAY_MAX_SEQUENCES; count++)
        for (behind = 0; behind <= count; behind++)
            sections(behind, count);
    for (uint64_t number = 1; number <= 40; number++) {
        uint64_t result = number << 32 | 47999999;
        printf("%d at %lu: %s\n", (int)relay_number(result),
               (unsigned long)relay_place(result), relay_words(relay_number(result)));
    }
    /* Lines, the last one of more than 32 bits. */
    printf("line %lu\n", (unsigned long)relay_line(((uint64_t)38 << 32) + 1));
    printf("line %lu\n", (unsigned long)relay_line(((uint64_t)39 << 32) + 5));
    return 0;
}

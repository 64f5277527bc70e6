/*
 * relay.h - reads, forwards, writes, extends and reorders MongoDB OP_MSG
 * messages, and reads stored listings of them.
 *
 * For C99 or C++11, and later ones. Link with librelay_c.a, which is for
 * x86-64 Linux and needs the C library alone.
 *
 *   relay_read       checks a message and shows where its parts are
 *   relay_forward    checks a message and copies it, as a relay passes it on
 *   relay_write      makes a message from a body
 *   relay_append     copies a message with one more document sequence
 *   relay_move       copies a message with its body at another place among its
 *                    document sequences
 *   relay_read_listing
 *                    checks a listing that was made by the program relay_log
 *
 *     struct relay_view view;
 *     uint64_t result = relay_read(RELAY_HOUSE_BITS, 1, bytes, length,
 *                                  RELAY_VIEW(&view));
 *     if (result == RELAY_ACCEPTED)
 *         use(bytes + relay_body(&view)->start, relay_body(&view)->length);
 *     else
 *         fprintf(stderr, "refusal %d at %lu: %s\n", (int)relay_number(result),
 *                 (unsigned long)relay_place(result),
 *                 relay_words(relay_number(result)));
 *
 * examples/relay.c is a whole program.
 *
 * Messages. All numbers in a message are little-endian.
 *
 *   at 0     messageLength, 4 bytes, signed: counts the whole message
 *   at 4     requestID, 4 bytes, signed
 *   at 8     responseTo, 4 bytes, signed
 *   at 12    opCode, 4 bytes, signed: 2013 is OP_MSG, all others are refused
 *   at 16    the flag word, 4 bytes, unsigned
 *   at 20    the sections; each starts with a byte that is its kind
 *              kind 0, the body: one BSON document
 *              kind 1, a document sequence: its size, 4 bytes, signed, which
 *              counts from its own first byte; its identifier, ended by a zero
 *              byte; BSON documents back to back, or none
 *   at the end, where bit 0 of the flag word is set: the checksum, 4 bytes,
 *            CRC-32C of all bytes before it
 *
 * A message has one body, at any place among its sections, and at most 16
 * sequences. The names of the body's own elements, its top-level names, are all
 * different. An identifier is not empty, and differs from those names and from
 * the other identifiers. One with dots also leads to no name in the body: it is
 * parted at every dot, and followed from the body one name at a time into
 * documents (type 03). So no sequence is called `run.points` beside a body that
 * has `points`, of any type, inside `run`. Of equal names inside a document all
 * are followed. An empty name, beside a dot, is met by an empty name alone, and
 * a name with a dot of its own by none; arrays and scopes are not entered.
 *
 * BSON 1.1 is checked for structure: types, lengths and zero bytes, at all
 * levels. A section's document stands at level 1; a document, array or scope
 * inside an element stands one level deeper than that element's document.
 * Texts are UTF-8 as RFC 3629 defines it: identifiers, the names of elements at
 * all levels, strings (types 02, 0D and 0E, and those in 0C and 0F) and both
 * parts of a regular expression (0B). A zero byte inside a string is a
 * character like others. Binary data of subtype 02 start with a length of their
 * own, 4 bytes, signed, which is the outer length less 4.
 * Not checked: the keys of arrays, what decimals hold, other subtypes of binary
 * data, which options a regular expression has.
 *
 * Editions. What a relay knows of the protocol is its edition. Each call takes
 * one as two arguments: `bits`, the set of flag bits that are known, and
 * `sequences`, which is 0 if kind 1 is not known and anything else if it is.
 * A message with an unknown flag bit of 0 to 15 set, or with a section of an
 * unknown kind, is refused. An unknown flag bit of 16 to 31 is neither shown
 * nor passed on. The edition to take, unless there is a reason for another, is
 * RELAY_HOUSE_BITS and 1: every flag bit that OP_MSG has a use for, and
 * sequences. It is called the house edition.
 *
 * Results. Each call answers 0 (RELAY_ACCEPTED) or a refusal: its number times
 * 2^32 plus its place. relay_number() and relay_place() take the two apart,
 * relay_words() says what a number means. A place is counted in bytes from the
 * start of the message that is read, or of the message that the call would
 * have written; of a listing it is the number of a line, and relay_line() has
 * it whole. Every call ends with an answer, whatever the bytes are.
 *
 * Streams. RELAY_BUFFER_UNDER_16 and RELAY_BUFFER_SHORT say that the buffer
 * does not hold a whole message yet: receive more bytes and call again. After
 * an accepted message the next one starts view.length bytes further.
 *
 * Lent memory. Every buffer belongs to the caller before, during and after the
 * call; the library keeps no pointer, allocates nothing and has no state of its
 * own, so calls from several threads are independent as long as their buffers
 * are. Each pointer must be valid for its length; a pointer with length 0 may
 * be NULL. `output` and `view` must not overlap each other or any input; inputs
 * may overlap. `view` must be aligned for int64_t, as a struct relay_view is;
 * bytes may stand anywhere. The same goes for a listing's `answer` as for a
 * view. An output as long as the message suffices to forward it or to move its
 * body; the calls that write more say how much.
 *
 *   On a refusal neither the output nor the view nor the answer changes.
 *   On acceptance every byte of the written message and each of the 107 numbers
 *   of the view, or of the 2 of the answer, is decided by the call alone,
 *   whatever was there before; bytes of the output past the message and numbers
 *   of the view past the 107th, or of the answer past the 2nd, stay.
 */
#ifndef RELAY_H
#define RELAY_H

#include <stddef.h>
#include <stdint.h>

#ifdef __cplusplus
extern "C" {
#endif

#define RELAY_VERSION "0.3.0"

/*
 * The limits are the library's own. A MongoDB server takes messages of the same
 * length, but more elements and deeper documents.
 */

/*
 * The longest message in bytes. An output of this length always has room, but
 * it is too long for most stacks: take it from the heap, or take only as much
 * as the message to come needs.
 */
#define RELAY_MAX_LENGTH 48000000

/* The most elements in a message, at all levels of all its documents. */
#define RELAY_MAX_ELEMENTS 262144

/* The deepest level at which a document may stand. */
#define RELAY_MAX_LEVELS 32

/* The most document sequences in a message. */
#define RELAY_MAX_SEQUENCES 16

/* The most sections in a message: a body and its document sequences. */
#define RELAY_MAX_SECTIONS 17

/* How many numbers a view has. */
#define RELAY_VIEW_NUMBERS 107

/* The flag bits that OP_MSG has a use for. */
#define RELAY_CHECKSUM_PRESENT ((uint32_t)1 << 0)
#define RELAY_MORE_TO_COME ((uint32_t)1 << 1)
#define RELAY_EXHAUST_ALLOWED ((uint32_t)1 << 16)

/* The flag bits of the house edition. */
#define RELAY_HOUSE_BITS \
    (RELAY_CHECKSUM_PRESENT | RELAY_MORE_TO_COME | RELAY_EXHAUST_ALLOWED)

/* What an entry of a view says. */
enum relay_kind {
    RELAY_NONE = -1, /* nothing: the entry is not used */
    RELAY_BODY = 0,
    RELAY_SEQUENCE = 1
};

/*
 * One section. Places are counted in bytes from the start of the message. A
 * body has no identifier and counts no documents, an unused entry has nothing:
 * the numbers for what is not there are 0.
 */
struct relay_entry {
    int64_t kind;              /* one of enum relay_kind */
    int64_t identifier_start;
    int64_t identifier_length; /* without the zero byte */
    int64_t start;             /* the place of the body's BSON document, or of
                                  a sequence's documents */
    int64_t length;            /* how many bytes these take */
    int64_t documents;         /* how many documents a sequence has, 0 or more */
};

/*
 * What an accepted message holds: the 107 numbers that a call writes, in order.
 * The message is the one that relay_read has read, or the one that another call
 * has written to its output. Its sections stand in the order of the message,
 * with the unused entries behind them. Each document starts with its length, so
 * this meets the body and all documents of sequences, as they stand:
 *
 *     for (int i = 0; i < RELAY_MAX_SECTIONS; i++) {
 *         const struct relay_entry *entry = &view.entries[i];
 *         int64_t at = entry->start;
 *         while (at < entry->start + entry->length) {
 *             const uint8_t *document = message + at;
 *             uint32_t length =
 *                 (uint32_t)document[0] | (uint32_t)document[1] << 8 |
 *                 (uint32_t)document[2] << 16 | (uint32_t)document[3] << 24;
 *             use(entry, document, length);
 *             at += length;
 *         }
 *     }
 */
struct relay_view {
    int64_t length;      /* messageLength */
    int64_t request_id;  /* signed: -1 is -1 */
    int64_t response_to;
    int64_t flags;       /* the flag word, kept to the known bits */
    int64_t elements;    /* elements at all levels of all documents */
    struct relay_entry entries[RELAY_MAX_SECTIONS];
};

/* Fails to compile where the structure is not just the 107 numbers. */
typedef char relay_view_is_107_numbers
    [sizeof(struct relay_view) == RELAY_VIEW_NUMBERS * sizeof(int64_t) ? 1 : -1];

/*
 * Passes a pointer to a struct relay_view as the last two arguments of a call,
 * `view` and `view_len`. Who keeps views in another form lends 107 or more
 * numbers of type int64_t.
 */
#define RELAY_VIEW(pointer) ((int64_t *)(void *)(pointer)), RELAY_VIEW_NUMBERS

/*
 * What an accepted listing tells: the two numbers that relay_read_listing
 * writes, in order.
 */
struct relay_listing {
    int64_t version;  /* 1 or 2 */
    int64_t messages; /* how many messages are listed */
};

/* How many numbers a listing has. */
#define RELAY_LISTING_NUMBERS 2

/* Fails to compile where the structure is not just the two numbers. */
typedef char relay_listing_is_2_numbers
    [sizeof(struct relay_listing) == RELAY_LISTING_NUMBERS * sizeof(int64_t) ? 1 : -1];

/*
 * Passes a pointer to a struct relay_listing as the last two arguments of
 * relay_read_listing, `answer` and `answer_len`.
 */
#define RELAY_LISTING(pointer) ((int64_t *)(void *)(pointer)), RELAY_LISTING_NUMBERS

/*
 * The four functions below are for the view of an accepted message.
 */

/* How many sequences stand before the body. */
static inline uint32_t relay_behind(const struct relay_view *view)
{
    uint32_t place = 0;
    while (place < RELAY_MAX_SEQUENCES && view->entries[place].kind == RELAY_SEQUENCE)
        place++;
    return place;
}

/* The body's entry. */
static inline const struct relay_entry *relay_body(const struct relay_view *view)
{
    return &view->entries[relay_behind(view)];
}

/* How many sequences the message has. */
static inline uint32_t relay_sequence_count(const struct relay_view *view)
{
    uint32_t place, count = 0;
    for (place = 0; place < RELAY_MAX_SECTIONS; place++)
        count += view->entries[place].kind == RELAY_SEQUENCE;
    return count;
}

/* The entry of a sequence, by its number from 0 on; NULL where there is none. */
static inline const struct relay_entry *relay_sequence(const struct relay_view *view,
                                                       uint32_t number)
{
    uint32_t place;
    for (place = 0; place < RELAY_MAX_SECTIONS; place++)
        if (view->entries[place].kind == RELAY_SEQUENCE && number-- == 0)
            return &view->entries[place];
    return NULL;
}

/*
 * The refusals, each with its place. When each is given stands in
 * relay_words(). Reading makes its checks in the order 1 to 9, with the second
 * case of 7 after 8; then, from left to right through the sections, 10, 11, 14,
 * 12, 13, 20, 15, 16, 21, 17, 18, 19 of each thing as it is reached; then 22,
 * 23, and 24 of the first identifier that clashes in any way. A text's 27 comes
 * directly after the checks of its own length and zero byte: an identifier's
 * after 13, a name's after 18, and in a value a text's after its own 19 and
 * before what follows it there. 38 is given for listings alone.
 */
enum relay_refusal {
    RELAY_ACCEPTED = 0,
    RELAY_BUFFER_UNDER_16 = 1,       /* 0 */
    RELAY_LENGTH_OUT_OF_RANGE = 2,   /* 0 */
    RELAY_BUFFER_SHORT = 3,          /* 0 */
    RELAY_OLD_OPCODE = 4,            /* 12 */
    RELAY_COMPRESSED_OPCODE = 5,     /* 12 */
    RELAY_OTHER_OPCODE = 6,          /* 12 */
    RELAY_LENGTH_TOO_SMALL = 7,      /* 16 */
    RELAY_UNKNOWN_FLAG = 8,          /* 16 */
    RELAY_CHECKSUM_DIFFERS = 9,      /* messageLength - 4 */
    RELAY_UNKNOWN_KIND = 10,         /* the kind byte */
    RELAY_SECOND_BODY = 11,          /* its kind byte */
    RELAY_SECTION_SIZE = 12,         /* the size's first byte */
    RELAY_BAD_IDENTIFIER = 13,       /* the identifier's first byte */
    RELAY_SEVENTEENTH_SEQUENCE = 14, /* its kind byte */
    RELAY_DOCUMENT_LENGTH = 15,      /* the document's first byte */
    RELAY_DOCUMENT_LAST_BYTE = 16,   /* that byte */
    RELAY_UNKNOWN_TYPE = 17,         /* the type byte */
    RELAY_NAME_WITHOUT_ZERO = 18,    /* the name's first byte */
    RELAY_BAD_VALUE = 19,            /* the value's first byte */
    RELAY_TOO_DEEP = 20,             /* the document's first byte */
    RELAY_TOO_MANY_ELEMENTS = 21,    /* the element's type byte */
    RELAY_NO_BODY = 22,              /* the end of the sections */
    RELAY_NAME_TWICE = 23,           /* the later name's first byte */
    RELAY_IDENTIFIER_CLASH = 24,     /* the identifier's first byte */
    RELAY_OUTPUT_SHORT = 25,         /* 0 */
    RELAY_TEXT_NOT_UTF8 = 27,        /* the byte after the text's longest
                                        beginning that is UTF-8 */
    RELAY_MOVE_TOO_FAR = 28,         /* 0 */
    RELAY_BAD_LINE = 38              /* the number of the line, from 1 */
};

/* The refusal's number in a result; RELAY_ACCEPTED if there is none. */
static inline enum relay_refusal relay_number(uint64_t result)
{
    return (enum relay_refusal)(result >> 32);
}

/* The refusal's place in a result. */
static inline uint32_t relay_place(uint64_t result)
{
    return (uint32_t)result;
}

/*
 * The number of the line, counted from 1, in a result of relay_read_listing
 * that is 38 times 2^32 or more. A number from 2^32 on spills over the
 * refusal's, so that relay_number() would not show 38 and relay_place() not the
 * line; it takes a listing of over 80 GB.
 */
static inline uint64_t relay_line(uint64_t result)
{
    return result - ((uint64_t)RELAY_BAD_LINE << 32);
}

/*
 * When a number is given, in English. The enclosing end of a document is the
 * end of its sequence, for a body the end of the sections, and for a document
 * inside another the last byte of that other one; for a scope it is the end of
 * its value. Types have the rules of BSON 1.1; a wrong length inside binary data
 * of subtype 02 breaks that type's rule. A character that is cut off is no part
 * of a beginning that is UTF-8, so 27 is at its first byte.
 */
static inline const char *relay_words(enum relay_refusal number)
{
    switch (number) {
    case RELAY_ACCEPTED:
        return "accepted";
    case RELAY_BUFFER_UNDER_16:
        return "buffer is under 16 bytes";
    case RELAY_LENGTH_OUT_OF_RANGE:
        return "messageLength is under 16 or over 48,000,000";
    case RELAY_BUFFER_SHORT:
        return "buffer is shorter than messageLength";
    case RELAY_OLD_OPCODE:
        return "message of an older protocol (opCode 1, 2001, 2002, 2004 to 2007)";
    case RELAY_COMPRESSED_OPCODE:
        return "compressed message (opCode 2012)";
    case RELAY_OTHER_OPCODE:
        return "opCode is none that is known";
    case RELAY_LENGTH_TOO_SMALL:
        return "messageLength is under 20, or under 24 with bit 0 of the flag word set";
    case RELAY_UNKNOWN_FLAG:
        return "flag word has an unknown bit set (of bits 0 to 15; in write, of all)";
    case RELAY_CHECKSUM_DIFFERS:
        return "message's checksum differs from that of its bytes";
    case RELAY_UNKNOWN_KIND:
        return "section's kind is not known";
    case RELAY_SECOND_BODY:
        return "message has a second body";
    case RELAY_SECTION_SIZE:
        return "sequence's size is cut off, under 5, or passes the end of the sections";
    case RELAY_BAD_IDENTIFIER:
        return "sequence's identifier is empty, or its zero byte is not inside its section "
               "(in append: or it holds one)";
    case RELAY_SEVENTEENTH_SEQUENCE:
        return "message has a seventeenth sequence";
    case RELAY_DOCUMENT_LENGTH:
        return "document's length is cut off, under 5, or passes the enclosing end "
               "(in write: or is not the lent body's)";
    case RELAY_DOCUMENT_LAST_BYTE:
        return "document's last byte is not zero";
    case RELAY_UNKNOWN_TYPE:
        return "element's type is none of BSON 1.1";
    case RELAY_NAME_WITHOUT_ZERO:
        return "element's name has no zero byte before the document's last byte";
    case RELAY_BAD_VALUE:
        return "element's value breaks its type's rule or passes the document's last byte";
    case RELAY_TOO_DEEP:
        return "document stands at level 33";
    case RELAY_TOO_MANY_ELEMENTS:
        return "element is number 262,145 of its message";
    case RELAY_NO_BODY:
        return "message has no body";
    case RELAY_NAME_TWICE:
        return "body has a top-level name that equals an earlier one";
    case RELAY_IDENTIFIER_CLASH:
        return "sequence's identifier is a top-level name of the body, an earlier identifier, "
               "or a dotted path to a name in the body";
    case RELAY_OUTPUT_SHORT:
        return "output is too short for the message, or view for its 107 numbers";
    case RELAY_TEXT_NOT_UTF8:
        return "name, identifier, string or part of a regular expression is not UTF-8";
    case RELAY_MOVE_TOO_FAR:
        return "body is to move behind more sequences than the message has";
    case RELAY_BAD_LINE:
        return "line of a stored listing is bad or missing";
    }
    return "no such refusal";
}

/*
 * Reads one message from the start of `message` and fills the view. Bytes past
 * messageLength are not looked at.
 *
 *   bits, sequences    the edition
 *   message            message_len bytes that start with a message
 *   view               view_len numbers, at least 107; see RELAY_VIEW
 *
 * Refusals: 1 to 24 and 27 by the message; then 25 at 0 if the view is shorter
 * than 107 numbers.
 */
uint64_t relay_read(uint32_t bits, uint8_t sequences,
                    const uint8_t *message, size_t message_len,
                    int64_t *view, size_t view_len);

/*
 * Reads a message and copies it to the output: its first messageLength bytes,
 * with the flag word kept to the known bits and, where bit 0 is set, the
 * checksum worked out anew. The view is the message's, with the same places in
 * the output.
 *
 * Refusals: those of relay_read; then 25 at 0 if the output is shorter than
 * messageLength, or the view shorter than 107 numbers.
 */
uint64_t relay_forward(uint32_t bits, uint8_t sequences,
                       const uint8_t *message, size_t message_len,
                       uint8_t *output, size_t output_len,
                       int64_t *view, size_t view_len);

/*
 * Writes a message to the output: header, flag word, the body as a section of
 * kind 0, and a checksum where bit 0 of the flags is set. The message is 21
 * bytes longer than the body, and 4 more with a checksum. The view is that of
 * the new message.
 *
 *   request_id, response_to, flags    as they shall stand in the message
 *   body                              body_len bytes, one BSON document
 *
 * Refusals, in this order: 8 at 16 if any set bit is not known, the optional
 * bits 16 to 31 too; 2 at 0 if the message would be over 48,000,000 bytes; 25
 * at 0 if the output is shorter than the message; 15 at 21 if the body is under
 * 4 bytes or the length it states is not body_len; those of relay_read on the
 * new message; 25 at 0 if the view is shorter than 107 numbers.
 */
uint64_t relay_write(uint32_t bits, uint8_t sequences,
                     int32_t request_id, int32_t response_to, uint32_t flags,
                     const uint8_t *body, size_t body_len,
                     uint8_t *output, size_t output_len,
                     int64_t *view, size_t view_len);

/*
 * Writes a message to the output as relay_forward does, with one more document
 * sequence behind its sections, the new length and, where bit 0 is set, a new
 * checksum. The message grows by 6 bytes, the identifier and the documents. The
 * view is that of the new message.
 *
 *   identifier    identifier_len bytes, without a zero byte at the end
 *   documents     documents_len bytes: BSON documents back to back, or none
 *
 * Refusals, in this order, where E is the end of the message's sections,
 * messageLength or 4 less with a checksum: those of relay_read on the message;
 * 10 at E if kind 1 is not known; 14 at E if it has sixteen sequences; 13 at
 * E + 5 if the identifier is empty or holds a zero; 2 at 0 if the new length is
 * over 48,000,000; 25 at 0 if the output is shorter than the new length; those
 * of relay_read on the new message, so that an identifier that is not UTF-8 is
 * 27 from E + 5 on, before the documents are looked at, and one that clashes is
 * 24 at E + 5, after them; 25 at 0 if the view is shorter than 107 numbers.
 */
uint64_t relay_append(uint32_t bits, uint8_t sequences,
                      const uint8_t *message, size_t message_len,
                      const uint8_t *identifier, size_t identifier_len,
                      const uint8_t *documents, size_t documents_len,
                      uint8_t *output, size_t output_len,
                      int64_t *view, size_t view_len);

/*
 * Writes a message to the output as relay_forward does, with its body behind
 * the first `behind` of its sequences. Each section keeps its own bytes, and
 * the sequences their order; where bit 0 is set, there is a new checksum. The
 * view is that of the new message.
 *
 *   behind    how many sequences shall stand before the body: 0 moves it to the
 *             front, relay_sequence_count() to the end, relay_behind() nowhere
 *
 * A message whose set bits are all known is had again from its view, wherever
 * its body stands: relay_write from the body, relay_append with each sequence in
 * order, relay_move behind relay_behind().
 *
 * Refusals, in this order: those of relay_read; 28 at 0 if the message has fewer
 * than `behind` sequences; 25 at 0 if the output is shorter than messageLength,
 * or the view shorter than 107 numbers.
 */
uint64_t relay_move(uint32_t bits, uint8_t sequences,
                    const uint8_t *message, size_t message_len,
                    uint32_t behind,
                    uint8_t *output, size_t output_len,
                    int64_t *view, size_t view_len);

/*
 * Reads a stored listing, which the program relay_log has made of a stream of
 * messages, and answers its version and how many messages it lists.
 *
 *   listing    listing_len bytes: the whole listing and nothing else
 *   answer     answer_len numbers, at least 2; see RELAY_LISTING
 *
 * A listing is made of lines, each ended by a newline, with fields parted by
 * tabs:
 *
 *   relay-log, version                    the first line; version is 1 or 2
 *   msg, offset, length, requestID,       a message that was accepted
 *     responseTo, flags, sequences,
 *     elements
 *   big, offset, length                   a longer one, which was passed over;
 *                                         in version 2 alone
 *   bad, offset, number, place            a refusal, which ended the stream
 *   end, messages                         the last line
 *
 * Numbers are decimal, without leading zeros, a plus or -0. The ids are signed
 * 32-bit numbers, all others unsigned 64-bit numbers. A msg has at most 16
 * sequences, and in version 1 at most 4,096 elements and a length of 26 to
 * 49,152, in version 2 at most 262,144 elements and a length of 26 to 65,536.
 * The length of a big is 65,537 to 48,000,000. Each offset, also that of a bad,
 * is the sum of the lengths before it. Only end follows a bad, and nothing
 * follows end, which counts the lines of msg and big. Nothing else is checked.
 *
 * Refusals: 38 with the number, from 1, of the first line that is bad or
 * missing; see relay_line(). A last line without its newline is bad, and so is
 * whatever stands behind end; an empty listing misses line 1. Then 25 at 0 if
 * the answer is shorter than 2 numbers.
 */
uint64_t relay_read_listing(const uint8_t *listing, size_t listing_len,
                            int64_t *answer, size_t answer_len);

#ifdef __cplusplus
}
#endif

#endif

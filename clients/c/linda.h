/*
 * The frames of a tuple space, version 2 of docs/PROTOCOL.md: messages and replies as bytes, and back. C99, one header,
 * no allocation; nothing is read or written outside of what it is given.
 *
 *     linda_frame ask = {.kind = LINDA_ASK, .ticket = 1, .flag = true, .items = {.count = 2}};
 *     ask.items.item[0] = linda_text("job");
 *     ask.items.item[1] = linda_formal(LINDA_ANY_INTEGER);
 *     uint8_t bytes[LINDA_MOST_BYTES];
 *     size_t size = linda_encode(&ask, bytes, sizeof bytes);          // 0: it is no frame, or there is no room
 *
 *     linda_frame reply;
 *     size_t used, offset;
 *     switch (linda_decode(LINDA_SERVER, came, came_size, &reply, &used, &offset)) {
 *     case LINDA_OK:       // reply is the frame of the first `used` bytes; its texts point into `came`
 *     case LINDA_MORE:     // a frame has begun, and is not whole: read more, and try again from its first byte
 *     default:             // no frame; what comes after it is none either
 *     }
 *
 * It sends nothing and waits for nothing: docs/PROTOCOL.md says what a client does.
 */
#ifndef LINDA_H
#define LINDA_H

#include <stdbool.h>
#include <stddef.h>
#include <stdint.h>
#include <string.h>

#define LINDA_VERSION 2
#define LINDA_MOST_TEXT 4095        /* bytes of UTF-8 in a text */
#define LINDA_MOST_FIELDS 32        /* fields of a tuple, and patterns of a template, beside the tag */
#define LINDA_MOST_LENGTH 262144    /* bytes of a frame after its length, as its reader takes them */
#define LINDA_MOST_BYTES 135256     /* of a frame with its length, as it is written: an Offer of the largest tuple */

/* ---- values */

/* What an item is; the number is its byte in a frame. The last four are formals, which only a template has. */
typedef enum {
    LINDA_INTEGER = 1,
    LINDA_TEXT = 2,
    LINDA_TRUTH = 3,
    LINDA_ANY_INTEGER = 4,
    LINDA_ANY_TEXT = 5,
    LINDA_ANY_TRUTH = 6,
    LINDA_ANY = 7
} linda_kind;

/* A value or a formal: `integer` of an integer, `truth` of a truth value, `text` and `size` of a text, which is UTF-8,
   may contain zeros, and has none at its end. */
typedef struct {
    linda_kind kind;
    bool truth;
    int64_t integer;
    const char *text;
    size_t size;
} linda_item;

/* A tuple or a template: a tag and fields or patterns, `count` with the tag, 1 to 33. */
typedef struct {
    size_t count;
    linda_item item[1 + LINDA_MOST_FIELDS];
} linda_items;

static inline linda_item linda_integer(int64_t integer)
{
    linda_item item = {LINDA_INTEGER, false, 0, NULL, 0};
    item.integer = integer;
    return item;
}

static inline linda_item linda_truth(bool truth)
{
    linda_item item = {LINDA_TRUTH, false, 0, NULL, 0};
    item.truth = truth;
    return item;
}

static inline linda_item linda_bytes(const char *text, size_t size)
{
    linda_item item = {LINDA_TEXT, false, 0, NULL, 0};
    item.text = text;
    item.size = size;
    return item;
}

/* The text up to its first zero. It is not copied. */
static inline linda_item linda_text(const char *text)
{
    return linda_bytes(text, strlen(text));
}

/* One of LINDA_ANY_INTEGER, LINDA_ANY_TEXT, LINDA_ANY_TRUTH and LINDA_ANY. */
static inline linda_item linda_formal(linda_kind kind)
{
    linda_item item = {LINDA_ANY, false, 0, NULL, 0};
    item.kind = kind;
    return item;
}

static inline bool linda_is_formal(linda_kind kind)
{
    return kind >= LINDA_ANY_INTEGER && kind <= LINDA_ANY;
}

/* Whether an item of a template fits a value. */
static inline bool linda_fits(const linda_item *pattern, const linda_item *value)
{
    switch (pattern->kind) {
    case LINDA_INTEGER: return value->kind == LINDA_INTEGER && value->integer == pattern->integer;
    case LINDA_TRUTH: return value->kind == LINDA_TRUTH && value->truth == pattern->truth;
    case LINDA_TEXT:
        return value->kind == LINDA_TEXT && value->size == pattern->size &&
               (value->size == 0 || memcmp(value->text, pattern->text, value->size) == 0);
    case LINDA_ANY_INTEGER: return value->kind == LINDA_INTEGER;
    case LINDA_ANY_TEXT: return value->kind == LINDA_TEXT;
    case LINDA_ANY_TRUTH: return value->kind == LINDA_TRUTH;
    case LINDA_ANY: return true;
    }
    return false;
}

/* Whether a template matches a tuple. */
static inline bool linda_matches(const linda_items *pattern, const linda_items *tuple)
{
    if (pattern->count != tuple->count || pattern->count > 1 + LINDA_MOST_FIELDS) return false;
    for (size_t at = 0; at < pattern->count; at++) {
        if (!linda_fits(&pattern->item[at], &tuple->item[at])) return false;
    }
    return true;
}

/* Whether these bytes are UTF-8: no overlong form, no surrogate, nothing above U+10FFFF. */
static inline bool linda_is_utf8(const uint8_t *data, size_t size)
{
    size_t at = 0;
    while (at < size) {
        uint8_t first = data[at++];
        uint8_t least = 0x80, most = 0xbf;      /* of the second byte */
        size_t more;
        if (first < 0x80) continue;
        if (first >= 0xc2 && first <= 0xdf) {
            more = 1;
        } else if (first >= 0xe0 && first <= 0xef) {
            more = 2;
            if (first == 0xe0) least = 0xa0;
            if (first == 0xed) most = 0x9f;
        } else if (first >= 0xf0 && first <= 0xf4) {
            more = 3;
            if (first == 0xf0) least = 0x90;
            if (first == 0xf4) most = 0x8f;
        } else {
            return false;
        }
        if (size - at < more) return false;
        for (; more > 0; more--) {
            if (data[at] < least || data[at] > most) return false;
            at++;
            least = 0x80;
            most = 0xbf;
        }
    }
    return true;
}

/* ---- frames */

/* What a frame is; the number is its byte. The first six are sent by clients, the others by servers. */
typedef enum {
    LINDA_HELLO = 0x01,
    LINDA_OUT = 0x02,
    LINDA_ASK = 0x03,
    LINDA_ACCEPT = 0x04,
    LINDA_CANCEL = 0x05,
    LINDA_LEAVE = 0x06,
    LINDA_WELCOME = 0x11,
    LINDA_STORED = 0x12,
    LINDA_OFFER = 0x13,
    LINDA_READ = 0x14,
    LINDA_TAKEN = 0x15,
    LINDA_GONE = 0x16,
    LINDA_REFUSED = 0x17,
    LINDA_LEFT = 0x18
} linda_frame_kind;

/* The codes of a Refused. */
typedef enum {
    LINDA_CODE_VERSION = 1,
    LINDA_CODE_KNOWN = 2,
    LINDA_CODE_BUSY = 3,
    LINDA_CODE_OLD = 4,
    LINDA_CODE_GAP = 5,
    LINDA_CODE_FULL = 6,
    LINDA_CODE_TOO_MANY_CLIENTS = 7,
    LINDA_CODE_DOWN = 8,
    LINDA_CODE_MALFORMED = 9,
    LINDA_CODE_TOO_MANY_ASKS = 10,
    LINDA_CODE_LEFT = 11,
    LINDA_CODE_NO_HELLO = 12
} linda_code;

/* A frame. What its kind does not have is not looked at when it is encoded, and 0 when it was decoded. A Hello needs
 * the version LINDA_VERSION, which nothing sets by itself:
 *
 *     Hello     version, client, flag (fresh)        Welcome   number (the last one)
 *     Out       number, items                        Stored    number, id
 *     Ask       ticket, flag (remove), items         Offer     ticket, id, items
 *     Accept    number, ticket, id                   Read      ticket, id, items
 *     Cancel    ticket                               Taken     number, id, items
 *     Leave     number                               Gone      number
 *                                                    Refused   code, detail
 *                                                    Left      number
 */
typedef struct {
    linda_frame_kind kind;
    uint8_t version;
    uint8_t code;
    bool flag;
    uint32_t client;
    uint64_t number;
    uint64_t ticket;
    uint64_t id;
    uint64_t detail;
    linda_items items;
} linda_frame;

/* The side that sent a frame. */
typedef enum { LINDA_CLIENT, LINDA_SERVER } linda_side;

typedef enum {
    LINDA_OK,
    LINDA_MORE,             /* the bytes end inside a frame that may be one */
    LINDA_EMPTY_FRAME,      /* the length is 0 */
    LINDA_FRAME_TOO_LONG,   /* the length is above LINDA_MOST_LENGTH */
    LINDA_MALFORMED         /* the whole frame is there, and is none; the offset is that of docs/PROTOCOL.md */
} linda_status;

/* ---- writing */

/* The buffer for bytes that are written: `at` of `room` are written; `ok` is false once one was refused. */
typedef struct {
    uint8_t *data;
    size_t room;
    size_t at;
    bool ok;
} linda_writer;

static inline void linda_put(linda_writer *to, const void *data, size_t size)
{
    if (!to->ok || to->room - to->at < size) {
        to->ok = false;
        return;
    }
    if (size > 0) memcpy(to->data + to->at, data, size);
    to->at += size;
}

static inline void linda_put_number(linda_writer *to, uint64_t number, size_t size)
{
    uint8_t bytes[8];
    for (size_t at = 0; at < size; at++) bytes[at] = (uint8_t)(number >> (8 * (size - 1 - at)));
    linda_put(to, bytes, size);
}

static inline void linda_put_item(linda_writer *to, const linda_item *item, bool may_be_formal)
{
    linda_put_number(to, (uint64_t)item->kind, 1);
    switch (item->kind) {
    case LINDA_INTEGER:
        linda_put_number(to, (uint64_t)item->integer, 8);
        return;
    case LINDA_TRUTH:
        linda_put_number(to, item->truth ? 1 : 0, 1);
        return;
    case LINDA_TEXT:
        if (item->size > LINDA_MOST_TEXT || !linda_is_utf8((const uint8_t *)item->text, item->size)) break;
        linda_put_number(to, item->size, 2);
        linda_put(to, item->text, item->size);
        return;
    case LINDA_ANY_INTEGER:
    case LINDA_ANY_TEXT:
    case LINDA_ANY_TRUTH:
    case LINDA_ANY:
        if (may_be_formal) return;
    }
    to->ok = false;
}

static inline void linda_put_items(linda_writer *to, const linda_items *items, bool is_template)
{
    if (items->count < 1 || items->count > 1 + LINDA_MOST_FIELDS) {
        to->ok = false;
        return;
    }
    linda_put_item(to, &items->item[0], false);
    linda_put_number(to, items->count - 1, 1);
    for (size_t at = 1; at < items->count; at++) linda_put_item(to, &items->item[at], is_template);
}

static inline void linda_put_body(linda_writer *to, const linda_frame *frame)
{
    switch (frame->kind) {
    case LINDA_HELLO:
        linda_put_number(to, frame->version, 1);
        linda_put_number(to, frame->client, 4);
        linda_put_number(to, frame->flag ? 1 : 0, 1);
        return;
    case LINDA_OUT:
        linda_put_number(to, frame->number, 8);
        linda_put_items(to, &frame->items, false);
        return;
    case LINDA_ASK:
        linda_put_number(to, frame->ticket, 8);
        linda_put_number(to, frame->flag ? 1 : 0, 1);
        linda_put_items(to, &frame->items, true);
        return;
    case LINDA_ACCEPT:
        linda_put_number(to, frame->number, 8);
        linda_put_number(to, frame->ticket, 8);
        linda_put_number(to, frame->id, 8);
        return;
    case LINDA_CANCEL:
        linda_put_number(to, frame->ticket, 8);
        return;
    case LINDA_STORED:
        linda_put_number(to, frame->number, 8);
        linda_put_number(to, frame->id, 8);
        return;
    case LINDA_OFFER:
    case LINDA_READ:
        linda_put_number(to, frame->ticket, 8);
        linda_put_number(to, frame->id, 8);
        linda_put_items(to, &frame->items, false);
        return;
    case LINDA_TAKEN:
        linda_put_number(to, frame->number, 8);
        linda_put_number(to, frame->id, 8);
        linda_put_items(to, &frame->items, false);
        return;
    case LINDA_REFUSED:
        linda_put_number(to, frame->code, 1);
        linda_put_number(to, frame->detail, 8);
        return;
    case LINDA_LEAVE:
    case LINDA_WELCOME:
    case LINDA_GONE:
    case LINDA_LEFT:
        linda_put_number(to, frame->number, 8);
        return;
    }
    to->ok = false;
}

/* Writes a frame with its length to `data`, and returns how many bytes it has. 0 if there is no room for it, or if it
   is no frame: a kind, a count of items or a text that is not within the limits, or a formal that may not be there.
   What is in `data` is of no use then. */
static inline size_t linda_encode(const linda_frame *frame, uint8_t *data, size_t room)
{
    linda_writer to = {data, room, 0, true};
    linda_put_number(&to, 0, 4);
    linda_put_number(&to, (uint64_t)frame->kind, 1);
    linda_put_body(&to, frame);
    if (!to.ok) return 0;
    size_t size = to.at;
    to.at = 0;
    linda_put_number(&to, size - 4, 4);
    return size;
}

/* ---- reading */

/* The bytes that are read: the next is at `at`, and the frame ends at `end`. Once `ok` is false `at` is the offset of the
   first fault. */
typedef struct {
    const uint8_t *data;
    size_t end;
    size_t at;
    bool ok;
} linda_reader;

static inline void linda_fail(linda_reader *from, size_t offset)
{
    if (from->ok) from->at = offset;
    from->ok = false;
}

/* The next `size` bytes, or NULL if there are fewer before the end of the frame. */
static inline const uint8_t *linda_get(linda_reader *from, size_t size)
{
    if (!from->ok) return NULL;
    if (from->end - from->at < size) {
        linda_fail(from, from->end);
        return NULL;
    }
    from->at += size;
    return from->data + (from->at - size);
}

static inline uint64_t linda_get_number(linda_reader *from, size_t size)
{
    const uint8_t *bytes = linda_get(from, size);
    uint64_t number = 0;
    for (size_t at = 0; bytes != NULL && at < size; at++) number = number << 8 | bytes[at];
    return number;
}

/* A byte that is 0 or 1. */
static inline bool linda_get_flag(linda_reader *from)
{
    size_t at = from->at;
    uint64_t flag = linda_get_number(from, 1);
    if (flag > 1) linda_fail(from, at);
    return flag == 1;
}

static inline int64_t linda_signed(uint64_t number)
{
    return number <= INT64_MAX ? (int64_t)number : -(int64_t)(UINT64_MAX - number) - 1;
}

static inline void linda_get_item(linda_reader *from, linda_item *item, bool may_be_formal)
{
    size_t at = from->at;
    uint64_t kind = linda_get_number(from, 1);
    if (!from->ok) return;
    switch (kind) {
    case LINDA_INTEGER:
        *item = linda_integer(linda_signed(linda_get_number(from, 8)));
        return;
    case LINDA_TRUTH:
        *item = linda_truth(linda_get_flag(from));
        return;
    case LINDA_TEXT: {
        size_t size = (size_t)linda_get_number(from, 2);
        if (size > LINDA_MOST_TEXT) {
            linda_fail(from, at + 1);
            return;
        }
        const uint8_t *text = linda_get(from, size);
        if (text == NULL) return;
        if (!linda_is_utf8(text, size)) linda_fail(from, at + 3);
        *item = linda_bytes((const char *)text, size);
        return;
    }
    default:
        if (!may_be_formal || kind < LINDA_ANY_INTEGER || kind > LINDA_ANY) {
            linda_fail(from, at);
            return;
        }
        *item = linda_formal((linda_kind)kind);
    }
}

static inline void linda_get_items(linda_reader *from, linda_items *items, bool is_template)
{
    linda_get_item(from, &items->item[0], false);
    size_t at = from->at;
    size_t count = (size_t)linda_get_number(from, 1);
    if (count > LINDA_MOST_FIELDS) linda_fail(from, at);
    for (size_t place = 1; from->ok && place <= count; place++) {
        linda_get_item(from, &items->item[place], is_template);
    }
    items->count = from->ok ? 1 + count : 0;
}

static inline void linda_get_body(linda_reader *from, linda_side side, linda_frame *frame)
{
    size_t at = from->at;
    uint64_t kind = linda_get_number(from, 1);
    bool is_message = kind >= LINDA_HELLO && kind <= LINDA_LEAVE;
    bool is_reply = kind >= LINDA_WELCOME && kind <= LINDA_LEFT;
    if (side == LINDA_CLIENT ? !is_message : !is_reply) {
        linda_fail(from, at);
        return;
    }
    frame->kind = (linda_frame_kind)kind;
    switch (frame->kind) {
    case LINDA_HELLO:
        frame->version = (uint8_t)linda_get_number(from, 1);
        frame->client = (uint32_t)linda_get_number(from, 4);
        frame->flag = linda_get_flag(from);
        return;
    case LINDA_OUT:
        frame->number = linda_get_number(from, 8);
        linda_get_items(from, &frame->items, false);
        return;
    case LINDA_ASK:
        frame->ticket = linda_get_number(from, 8);
        frame->flag = linda_get_flag(from);
        linda_get_items(from, &frame->items, true);
        return;
    case LINDA_ACCEPT:
        frame->number = linda_get_number(from, 8);
        frame->ticket = linda_get_number(from, 8);
        frame->id = linda_get_number(from, 8);
        return;
    case LINDA_CANCEL:
        frame->ticket = linda_get_number(from, 8);
        return;
    case LINDA_STORED:
        frame->number = linda_get_number(from, 8);
        frame->id = linda_get_number(from, 8);
        return;
    case LINDA_OFFER:
    case LINDA_READ:
        frame->ticket = linda_get_number(from, 8);
        frame->id = linda_get_number(from, 8);
        linda_get_items(from, &frame->items, false);
        return;
    case LINDA_TAKEN:
        frame->number = linda_get_number(from, 8);
        frame->id = linda_get_number(from, 8);
        linda_get_items(from, &frame->items, false);
        return;
    case LINDA_REFUSED:
        frame->code = (uint8_t)linda_get_number(from, 1);
        frame->detail = linda_get_number(from, 8);
        return;
    case LINDA_LEAVE:
    case LINDA_WELCOME:
    case LINDA_GONE:
    case LINDA_LEFT:
        frame->number = linda_get_number(from, 8);
        return;
    }
}

/* Reads the frame that begins at `data`, of `size` bytes that came. LINDA_OK: it has `used` bytes, its length among
   them, and is `frame`, whose texts point into `data`. All else leaves nothing of use in `frame`, and `used` is 0.
   `offset` is that of a fault in the frame, 0 for all that is not LINDA_MALFORMED. */
static inline linda_status linda_decode(linda_side side, const uint8_t *data, size_t size, linda_frame *frame,
                                        size_t *used, size_t *offset)
{
    memset(frame, 0, sizeof *frame);
    *used = *offset = 0;
    if (size < 4) return LINDA_MORE;
    linda_reader from = {data, 4, 0, true};
    size_t length = (size_t)linda_get_number(&from, 4);
    if (length == 0) return LINDA_EMPTY_FRAME;
    if (length > LINDA_MOST_LENGTH) return LINDA_FRAME_TOO_LONG;
    if (size - 4 < length) return LINDA_MORE;
    from.end = 4 + length;
    linda_get_body(&from, side, frame);
    if (from.ok && from.at < from.end) linda_fail(&from, from.at);
    if (!from.ok) {
        *offset = from.at;
        return LINDA_MALFORMED;
    }
    *used = from.end;
    return LINDA_OK;
}

#endif

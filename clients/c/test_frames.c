/*
 * The tests of linda.h, over the tables of vectors.h, which clients/c/test_frames makes of examples/vectors.json:
 *
 * - Each frame that the file has in words is read as these words, and each value.
 * - Each stream is read frame by frame, to its end or to the fault that the server found. Each frame is written as the
 *   same bytes again, needs all of them, and has room in no fewer.
 * - Each byte of each frame is changed: what is still a frame is written as the bytes that were read, since nothing has
 *   two spellings. Each read is of memory of just that size, so that a sanitizer sees what goes beyond it.
 */
#include "linda.h"

#include <inttypes.h>
#include <stdio.h>
#include <stdlib.h>

typedef struct {
    linda_side side;
    const char *hex;
    const char *words;
} told_frame;

/* `fault`: -1 if the server refused nothing as malformed, else the offset that it reported. */
typedef struct {
    linda_side side;
    const char *hex;
    long fault;
    const char *name;
} told_stream;

#include "vectors.h"

static unsigned long wrong, frames_read, changed_read;

static void fail(const char *what, const char *where)
{
    if (wrong++ < 20) printf("%s: %.200s\n", what, where);
}

static uint8_t *bytes_of(const char *hex, size_t *size)
{
    *size = strlen(hex) / 2;
    uint8_t *bytes = malloc(*size + 1);
    if (bytes == NULL) exit(3);
    for (size_t at = 0; at < *size; at++) {
        unsigned byte;
        if (sscanf(hex + 2 * at, "%2x", &byte) != 1) exit(3);
        bytes[at] = (uint8_t)byte;
    }
    return bytes;
}

/* ---- words, as examples/client.py writes them */

static char words[4096];
static size_t words_size;

static void say(const char *text, size_t size)
{
    if (words_size + size >= sizeof words) return;
    memcpy(words + words_size, text, size);
    words_size += size;
    words[words_size] = 0;
}

static void say_text(const char *text)
{
    say(text, strlen(text));
}

static void say_number(const char *name, uint64_t number)
{
    char text[64];
    snprintf(text, sizeof text, "%s %" PRIu64, name, number);
    say_text(text);
}

static void say_item(const linda_item *item)
{
    char text[64];
    switch (item->kind) {
    case LINDA_INTEGER:
        snprintf(text, sizeof text, "%" PRId64, item->integer);
        say_text(text);
        return;
    case LINDA_TRUTH: say_text(item->truth ? "true" : "false"); return;
    case LINDA_TEXT:
        say_text("\"");
        for (size_t at = 0; at < item->size; at++) {
            if (item->text[at] == '"' || item->text[at] == '\\') say_text("\\");
            say(item->text + at, 1);
        }
        say_text("\"");
        return;
    case LINDA_ANY_INTEGER: say_text("?i"); return;
    case LINDA_ANY_TEXT: say_text("?s"); return;
    case LINDA_ANY_TRUTH: say_text("?b"); return;
    case LINDA_ANY: say_text("_"); return;
    }
}

static void say_items(const char *name, const linda_items *items)
{
    say_text(name);
    for (size_t at = 0; at < items->count; at++) {
        say_text(at == 0 ? " (" : ", ");
        say_item(&items->item[at]);
    }
    say_text(")");
}

static const char *words_of(const linda_frame *frame)
{
    static const char *const codes[] = {"?", "Version", "Known", "Busy", "Old", "Gap", "Full", "TooManyClients", "Down",
                                        "Malformed", "TooManyAsks", "Left", "NoHello"};
    words_size = 0;
    switch (frame->kind) {
    case LINDA_HELLO:
        say_number("Hello version", frame->version);
        say_number(", client", frame->client);
        say_text(frame->flag ? ", fresh true" : ", fresh false");
        break;
    case LINDA_OUT:
        say_number("Out number", frame->number);
        say_items(", tuple", &frame->items);
        break;
    case LINDA_ASK:
        say_number("Ask ticket", frame->ticket);
        say_text(frame->flag ? ", remove true" : ", remove false");
        say_items(", template", &frame->items);
        break;
    case LINDA_ACCEPT:
        say_number("Accept number", frame->number);
        say_number(", ticket", frame->ticket);
        say_number(", id", frame->id);
        break;
    case LINDA_CANCEL: say_number("Cancel ticket", frame->ticket); break;
    case LINDA_LEAVE: say_number("Leave number", frame->number); break;
    case LINDA_WELCOME: say_number("Welcome last", frame->number); break;
    case LINDA_STORED:
        say_number("Stored number", frame->number);
        say_number(", id", frame->id);
        break;
    case LINDA_OFFER:
    case LINDA_READ:
        say_number(frame->kind == LINDA_OFFER ? "Offer ticket" : "Read ticket", frame->ticket);
        say_number(", id", frame->id);
        say_items(", tuple", &frame->items);
        break;
    case LINDA_TAKEN:
        say_number("Taken number", frame->number);
        say_number(", id", frame->id);
        say_items(", tuple", &frame->items);
        break;
    case LINDA_GONE: say_number("Gone number", frame->number); break;
    case LINDA_REFUSED:
        say_text("Refused ");
        say_text(frame->code <= LINDA_CODE_NO_HELLO ? codes[frame->code] : "?");
        say_number(", detail", frame->detail);
        break;
    case LINDA_LEFT: say_number("Left number", frame->number); break;
    }
    return words;
}

/* ---- reading, and writing again */

/* Decodes out of memory of just this size, which is kept until the next call. */
static linda_status decode(linda_side side, const uint8_t *data, size_t size, linda_frame *frame, size_t *used,
                           size_t *offset)
{
    static uint8_t *copy;
    free(copy);
    copy = malloc(size > 0 ? size : 1);
    if (copy == NULL) exit(3);
    if (size > 0) memcpy(copy, data, size);
    return linda_decode(side, copy, size, frame, used, offset);
}

static bool is_written_as(const linda_frame *frame, const uint8_t *data, size_t size)
{
    uint8_t *room = malloc(size);
    if (room == NULL) exit(3);
    bool is_same = linda_encode(frame, room, size) == size && memcmp(room, data, size) == 0;
    is_same = is_same && linda_encode(frame, room, size - 1) == 0 && linda_encode(frame, room, 0) == 0;
    free(room);
    return is_same;
}

/* A frame of just this size, which was read as one. */
static void hold_frame(linda_side side, const uint8_t *data, size_t size, const linda_frame *read, const char *name)
{
    linda_frame frame;
    size_t used, offset;
    frames_read++;
    if (!is_written_as(read, data, size)) fail("written as other bytes", name);
    if (read->items.count > 0 && read->kind != LINDA_ASK && !linda_matches(&read->items, &read->items)) {
        fail("a tuple that does not match itself", name);
    }
    size_t step = 1 + size / 64;
    for (size_t less = 0; less < size; less += step) {
        if (decode(side, data, less, &frame, &used, &offset) != LINDA_MORE) fail("read as whole too early", name);
    }
    uint8_t *changed = malloc(size);
    if (changed == NULL) exit(3);
    memcpy(changed, data, size);
    for (size_t at = 0; at < size; at += step) {
        for (unsigned bit = 0; bit < 8; bit++) {
            changed[at] = (uint8_t)(data[at] ^ 1u << bit);
            linda_status status = decode(side, changed, size, &frame, &used, &offset);
            if (status == LINDA_OK && !is_written_as(&frame, changed, used)) fail("two spellings", name);
            if (status == LINDA_MALFORMED && (offset < 4 || offset > size)) fail("an offset outside", name);
            changed_read++;
        }
        changed[at] = data[at];
    }
    free(changed);
}

static void hold_stream(const told_stream *told)
{
    size_t size, used, offset, at = 0;
    uint8_t *data = bytes_of(told->hex, &size);
    linda_frame frame;
    linda_status status;
    while ((status = decode(told->side, data + at, size - at, &frame, &used, &offset)) == LINDA_OK) {
        linda_frame again;
        size_t end, none;
        if (linda_decode(told->side, data + at, size - at, &again, &end, &none) != LINDA_OK || end != used) {
            fail("read in two ways", told->name);
        }
        hold_frame(told->side, data + at, used, &again, told->name);
        at += used;
    }
    if (told->fault < 0 ? status != LINDA_MORE
                        : status == LINDA_MORE || offset != (size_t)told->fault) {
        char text[64];
        snprintf(text, sizeof text, "status %d, offset %zu, not %ld", (int)status, offset, told->fault);
        fail(text, told->name);
    }
    free(data);
}

static void hold_words(const told_frame *told)
{
    size_t size, used, offset;
    uint8_t *data = bytes_of(told->hex, &size);
    linda_frame frame;
    if (linda_decode(told->side, data, size, &frame, &used, &offset) != LINDA_OK || used != size) {
        fail("not read", told->words);
    } else {
        if (strcmp(words_of(&frame), told->words) != 0) fail(words, told->words);
        hold_frame(told->side, data, size, &frame, told->words);
    }
    free(data);
}

/* ---- what is no frame */

static void refuses(const char *what, linda_frame *frame)
{
    static uint8_t room[2 * LINDA_MOST_BYTES];
    if (linda_encode(frame, room, sizeof room) != 0) fail("written", what);
}

static void hold_limits(void)
{
    static uint8_t room[LINDA_MOST_BYTES];
    static char text[LINDA_MOST_TEXT + 1];
    memset(text, 'x', sizeof text);
    linda_frame out = {.kind = LINDA_OFFER, .ticket = UINT64_MAX, .id = UINT64_MAX, .items = {.count = 33}};
    for (size_t at = 0; at < 33; at++) out.items.item[at] = linda_bytes(text, LINDA_MOST_TEXT);
    linda_frame read;
    size_t used, offset;
    if (linda_encode(&out, room, sizeof room) != LINDA_MOST_BYTES) fail("not written", "the longest frame");
    if (linda_decode(LINDA_SERVER, room, sizeof room, &read, &used, &offset) != LINDA_OK || used != sizeof room ||
        !linda_matches(&out.items, &read.items)) {
        fail("not read", "the longest frame");
    }
    for (size_t at = 0; at < 33; at++) {
        linda_frame other = out;
        other.items.item[at] = linda_bytes(text, LINDA_MOST_TEXT - 1);
        if (linda_matches(&other.items, &out.items)) fail("matches", "a template with another item");
    }
    linda_frame wrong_out = out;
    wrong_out.items.item[7] = linda_bytes(text, LINDA_MOST_TEXT + 1);
    refuses("a text of 4,096 bytes", &wrong_out);
    wrong_out = out;
    wrong_out.items.count = 34;
    refuses("33 fields", &wrong_out);
    wrong_out.items.count = 0;
    refuses("no tag", &wrong_out);
    wrong_out = out;
    wrong_out.items.item[1] = linda_formal(LINDA_ANY);
    refuses("a formal in a tuple", &wrong_out);
    wrong_out.kind = LINDA_ASK;
    if (linda_encode(&wrong_out, room, sizeof room) == 0) fail("not written", "a formal in a template");
    wrong_out.items.item[0] = linda_formal(LINDA_ANY_TEXT);
    refuses("a formal as a tag", &wrong_out);
    wrong_out.items.item[0] = linda_formal((linda_kind)8);
    refuses("a kind of item that there is not", &wrong_out);
    wrong_out.items.item[0] = linda_text("\xed\xa0\x80");
    refuses("a surrogate", &wrong_out);
    wrong_out.kind = (linda_frame_kind)7;
    refuses("a kind of frame that there is not", &wrong_out);
    static const char *const texts[] = {"\x80", "\xc0\x80", "\xc1\xbf", "\xc2", "\xe0\x9f\xbf", "\xe1\x80",
                                        "\xed\xa0\x80", "\xf0\x8f\xbf\xbf", "\xf4\x90\x80\x80", "\xf5\x80\x80\x80",
                                        "\xff", "a\xe2\x82"};
    for (size_t at = 0; at < sizeof texts / sizeof *texts; at++) {
        if (linda_is_utf8((const uint8_t *)texts[at], strlen(texts[at]))) fail("UTF-8", "what is none");
    }
    static const char *const good[] = {"", "a", "\xc2\x80", "\xdf\xbf", "\xe0\xa0\x80", "\xed\x9f\xbf", "\xee\x80\x80",
                                       "\xef\xbf\xbf", "\xf0\x90\x80\x80", "\xf4\x8f\xbf\xbf"};
    for (size_t at = 0; at < sizeof good / sizeof *good; at++) {
        if (!linda_is_utf8((const uint8_t *)good[at], strlen(good[at]))) fail("no UTF-8", "what is");
    }
    static const uint8_t lengths[][5] = {{0, 0, 0, 0, 1}, {0, 4, 0, 1, 1}, {255, 255, 255, 255, 1}};
    for (size_t at = 0; at < 3; at++) {
        linda_status status = linda_decode(LINDA_CLIENT, lengths[at], 5, &read, &used, &offset);
        if (status != (at == 0 ? LINDA_EMPTY_FRAME : LINDA_FRAME_TOO_LONG)) fail("a length", "of no frame");
    }
    linda_item one = linda_integer(1), yes = linda_truth(true), any = linda_formal(LINDA_ANY_INTEGER);
    linda_item empty = linda_text("");
    if (linda_fits(&one, &yes) || linda_fits(&any, &yes) || !linda_fits(&any, &one) || !linda_fits(&empty, &empty)) {
        fail("fits", "what does not");
    }
    /* Texts may have zeros: what is after one counts, and a text is longer than its beginning. */
    linda_item zeros[] = {linda_bytes("a\0b", 3), linda_bytes("a\0c", 3), linda_bytes("a\0", 2), linda_bytes("a", 1)};
    for (size_t at = 0; at < 16; at++) {
        if (linda_fits(&zeros[at / 4], &zeros[at % 4]) != (at / 4 == at % 4)) fail("fits", "texts with zeros");
    }
}

int main(void)
{
    size_t told = sizeof told_frames / sizeof *told_frames, streams = sizeof told_streams / sizeof *told_streams;
    for (size_t at = 0; at < told; at++) hold_words(&told_frames[at]);
    for (size_t at = 0; at < streams; at++) hold_stream(&told_streams[at]);
    hold_limits();
    printf("%zu frames in words and %zu streams: %lu frames, each byte of them changed (%lu reads): %lu faults\n", told,
           streams, frames_read, changed_read, wrong);
    return wrong == 0 ? 0 : 1;
}

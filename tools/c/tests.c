/*
 * Tests of the library for C over the images of examples/valve_positioner.edd, examples/temperature_scanner.edd and
 * examples/flow_transmitter.edd: each call with good and bad arguments, each request for memory refused in turn, and
 * images with a byte changed. Expected values are read off the sources. messages.c has those of the calls on messages, and
 * sessions.c those of the calls on sessions.
 *
 *     tests VALVE_IMAGE SCANNER_IMAGE FLOW_IMAGE [STEP]
 */
#include "tests.h"
#include "pool.h"

#include <stdio.h>
#include <stdlib.h>
#include <string.h>

static int passed, failed;

void check(int holds, const char *what, const char *file, int at)
{
    if (holds) {
        passed++;
    } else if (failed++ < 50) {
        printf("%s, line %d: not so: %s\n", file, at, what);
    }
}

/* ---- memory that is refused from the request of a number on ---- */

static long requests_left = -1, blocks;
long memory_calls;
static unsigned char nothing;

static rattle_block answer(void *block)
{
    rattle_block it = { block != NULL, block ? block : &nothing };
    return it;
}

static int is_refused(void) { return requests_left >= 0 && requests_left-- == 0 ? (requests_left = 0, 1) : 0; }

rattle_block rattle_alloc(size_t size, size_t alignment)
{
    (void)alignment;
    memory_calls++;
    if (is_refused())
        return answer(NULL);
    blocks++;
    return answer(malloc(size ? size : 1));
}

rattle_block rattle_realloc(void *block, size_t kept, size_t size, size_t alignment)
{
    (void)kept;
    (void)alignment;
    memory_calls++;
    return answer(is_refused() ? NULL : realloc(block, size ? size : 1));
}

void rattle_dealloc(void *block)
{
    memory_calls++;
    blocks--;
    free(block);
}

/* ---- an image ---- */

static file read_file(const char *name)
{
    file it = { NULL, 0, { 0 } };
    FILE *from = fopen(name, "rb");
    if (!from) {
        printf("%s can't be read\n", name);
        exit(2);
    }
    it.bytes = malloc(1 << 20);
    it.length = fread(it.bytes, 1, 1 << 20, from);
    fclose(from);
    return it;
}

#define TEXT(words) (const uint8_t *)(words), strlen(words)

static int is(edd_words words, const char *text)
{
    return words.length == strlen(text) && !memcmp(words.bytes, text, words.length);
}

/* ---- the calls ---- */

size_t rounded(size_t size)
{
    struct probe {
        char first;
        int64_t second;
    };
    const size_t unit = offsetof(struct probe, second);
    return (size + unit - 1) / unit * unit;
}

static void try_sizes(void)
{
    CHECK(sizeof(edd_image) == 56 && offsetof(edd_image, version) == 40 && offsetof(edd_image, strings) == 54);
    CHECK(sizeof(edd_item) == 4 && offsetof(edd_item, kind) == 2);
    CHECK(sizeof(edd_type) == 2);
    CHECK(offsetof(edd_words, is_key) == 2 * sizeof(void *));
    CHECK(sizeof(edd_record) == rounded(25) && offsetof(edd_record, number) == 8 && offsetof(edd_record, tag) == 22);
    CHECK(sizeof(edd_request) == 16 && offsetof(edd_request, tag) == 14);
    CHECK(sizeof(edd_setting) == rounded(10) && offsetof(edd_setting, variable) == 8);
    CHECK(sizeof(edd_answer) == 12 && offsetof(edd_answer, aborts) == 8);
    CHECK(sizeof(edd_ending) == rounded(11) && offsetof(edd_ending, ending) == 10);
}

static void try_load(file *it)
{
    edd_image untouched = { 0 };
    CHECK(edd_load(it->bytes, it->length, &it->image) == EDD_OK);
    CHECK(it->image.length == it->length && it->image.manufacturer == 17 && it->image.device_type == 0x52);
    CHECK(it->image.variables == 5 && it->image.commands == 2 && it->image.menus == 1 && it->image.methods == 2);
    CHECK(edd_load(it->bytes, 10, &untouched) == EDD_SHORT && untouched.length == 0);
    CHECK(edd_load(it->bytes, it->length - 1, &untouched) == EDD_LENGTH && untouched.length == 0);
    CHECK(edd_load(it->bytes + 1, it->length - 1, &untouched) == EDD_MAGIC);
    CHECK(edd_load(it->bytes, 0, &untouched) == EDD_SHORT);
}

static void try_lookups(file *it)
{
    edd_item item = { 99, 99 };
    edd_words words = EDD_NO_WORDS;
    edd_type type = { 9, 9 };
    CHECK(edd_find(OF(it), TEXT("show_opening"), &item) == EDD_OK && item.kind == EDD_KIND_METHOD && item.number == 1);
    CHECK(edd_find(OF(it), TEXT("nothing"), &item) == EDD_NO_ITEM && item.number == 1);
    CHECK(edd_find(OF(it), TEXT("\xff\xfe"), &item) == EDD_NO_ITEM);
    CHECK(edd_find(OF(it), TEXT(""), &item) == EDD_NO_ITEM);
    CHECK(edd_name(OF(it), EDD_KIND_COMMAND, 1, &words) == EDD_OK && is(words, "move") && !words.is_key);
    CHECK(words.bytes > it->bytes && words.bytes < it->bytes + it->length);
    CHECK(edd_name(OF(it), EDD_KIND_COMMAND, 2, &words) == EDD_NO_ITEM && is(words, "move"));
    CHECK(edd_name(OF(it), 0, 0, &words) == EDD_NO_ITEM && edd_name(OF(it), 7, 0, &words) == EDD_NO_ITEM);
    CHECK(edd_text(OF(it), 65535, TEXT("de"), &words) == EDD_NO_ITEM && is(words, "move"));
    CHECK(edd_variable(OF(it), 4, &type) == EDD_OK && type.type == EDD_TYPE_ENUMERATED && type.size == 1);
    CHECK(edd_variable(OF(it), 3, &type) == EDD_OK && type.type == EDD_TYPE_INTEGER && type.size == 2);
    CHECK(edd_variable(OF(it), 5, &type) == EDD_NO_ITEM && type.size == 2);
}

static void try_elements(file *it)
{
    uint16_t variable = 77;
    edd_item item = { 0, 0 };
    CHECK(edd_load(it->bytes, it->length, &it->image) == EDD_OK && it->image.version == 2);
    CHECK(edd_find(OF(it), TEXT("limit_3"), &item) == EDD_OK);
    CHECK(edd_element(OF(it), 1, 3, &variable) == EDD_OK && variable == item.number);
    CHECK(edd_element(OF(it), 1, 7, &variable) == EDD_NO_ITEM && variable == item.number);
    CHECK(edd_element(OF(it), 1, -1, &variable) == EDD_NO_ITEM && edd_element(OF(it), 1, INT64_MAX, &variable) == EDD_NO_ITEM);
    CHECK(edd_element(OF(it), 9, 3, &variable) == EDD_NO_ITEM);
}

static void try_attributes(file *it)
{
    int64_t values[5] = { 0, 100, 0, 0, 1 };
    edd_record records[8];
    edd_words words = EDD_NO_WORDS;
    size_t given = 42;
    memset(records, 0x55, sizeof records);
    CHECK(edd_attribute(OF(it), 1, 0, EDD_LABEL, 0, values, 5, records, 8, &given) == EDD_OK && given == 1);
    CHECK(records[0].tag == EDD_RECORD_WORDS && records[1].tag == 0x55);
    CHECK(edd_text(OF(it), records[0].text, TEXT("de"), &words) == EDD_OK && is(words, "Stellung"));
    CHECK(edd_text(OF(it), records[0].text, TEXT("fr"), &words) == EDD_OK && is(words, "Position"));
    CHECK(edd_text(OF(it), records[0].text, TEXT("\xff"), &words) == EDD_OK && is(words, "Position"));
    CHECK(edd_attribute(OF(it), 1, 2, EDD_MIN_VALUE, 0, values, 5, records, 8, &given) == EDD_OK && given == 1
          && records[0].tag == EDD_RECORD_NUMBER && records[0].value == 300);
    CHECK(edd_attribute(OF(it), 1, 0, EDD_HANDLING, 0, values, 5, records, 8, &given) == EDD_OK && records[0].value == 1);
    CHECK(edd_attribute(OF(it), 1, 0, EDD_HELP, 0, values, 5, records, 8, &given) == EDD_OK && given == 0);
    CHECK(edd_attribute(OF(it), 5, 0, EDD_VALIDITY, 0, values, 5, records, 8, &given) == EDD_OK && records[0].value == 0);
    CHECK(edd_attribute(OF(it), 3, 0, EDD_ITEMS, 0, values, 5, records, 8, &given) == EDD_OK && given == 5
          && records[0].tag == EDD_RECORD_ENTRY && records[0].qualifiers == 3 && records[2].kind == EDD_KIND_METHOD
          && records[4].item == 4);
    CHECK(edd_attribute(OF(it), 2, 0, EDD_REPLY, 0, values, 5, records, 8, &given) == EDD_OK && given == 2
          && records[1].tag == EDD_RECORD_VARIABLE && records[1].item == 4 && records[1].number == 0);
    CHECK(edd_attribute(OF(it), 2, 1, EDD_REQUEST, 1, values, 5, records, 8, &given) == EDD_OK && given == 1
          && records[0].tag == EDD_RECORD_CONSTANT && records[0].value == 1);
    CHECK(edd_attribute(OF(it), 2, 1, EDD_RESPONSE_CODES, 0, values, 5, records, 8, &given) == EDD_OK && given == 2
          && records[1].tag == EDD_RECORD_RESPONSE && records[1].number == 16 && records[1].class_ == 4);
    CHECK(edd_attribute(OF(it), 1, 4, EDD_ENUMERATORS, 0, values, 5, records, 8, &given) == EDD_OK && given == 2
          && records[1].tag == EDD_RECORD_ENUMERATOR && records[1].value == 1 && records[1].help == EDD_NO_STRING);
    memset(records, 0x55, sizeof records);
    CHECK(edd_attribute(OF(it), 3, 0, EDD_ITEMS, 0, values, 5, records, 4, &given) == EDD_NO_ROOM && given == 5
          && records[0].tag == 0x55);
    given = 42;
    CHECK(edd_attribute(OF(it), 3, 9, EDD_ITEMS, 0, values, 5, records, 8, &given) == EDD_NO_ITEM && given == 42);
    CHECK(edd_attribute(OF(it), 1, 0, EDD_ITEMS, 0, values, 5, records, 8, &given) == EDD_NO_ITEM);
    CHECK(edd_attribute(OF(it), 1, 0, 99, 0, values, 5, records, 8, &given) == EDD_NO_ITEM);
    CHECK(edd_attribute(OF(it), 1, 0, EDD_LABEL, 0, values, 4, records, 8, &given) == EDD_WRONG_VALUES);
    values[0] = 70000;
    CHECK(edd_attribute(OF(it), 1, 0, EDD_LABEL, 0, values, 5, records, 8, &given) == EDD_WRONG_VALUES && given == 42
          && records[0].tag == 0x55);
}

static void try_plays(file *it)
{
    int64_t values[5] = { 800, 100, 3900, 0, 0 }, after[5] = { 7, 7, 7, 7, 7 };
    edd_answer answers[2] = { { 0, 1, 0 }, { 0, 0, 0 } };
    edd_setting settings[1] = { { 2000, 0 } };
    edd_request requests[2];
    edd_ending ending = { 9, 9, 9 };
    memset(requests, 0x55, sizeof requests);
    CHECK(edd_play(OF(it), 1, values, 5, answers, 0, settings, 0, 1000, requests, 2, after, 5, &ending) == EDD_OK
          && ending.ending == EDD_WAITING && ending.requests == 1 && requests[0].tag == EDD_ASK_SEND_COMMAND
          && requests[0].first == 3 && requests[1].tag == 0x55 && after[0] == 800);
    /* 100 * (2000 - 100) / (3900 - 100) = 50 */
    CHECK(edd_play(OF(it), 1, values, 5, answers, 1, settings, 1, 1000, requests, 2, after, 5, &ending) == EDD_OK
          && ending.ending == EDD_ENDED && after[0] == 2000 && after[3] == 50 && values[0] == 800);
    CHECK(edd_play(OF(it), 1, values, 5, answers, 1, settings, 1, 3, requests, 2, after, 5, &ending) == EDD_OK
          && ending.ending == EDD_SPENT);
    answers[0].aborts = 200;
    CHECK(edd_play(OF(it), 1, values, 5, answers, 1, settings, 1, 1000, requests, 0, after, 5, &ending) == EDD_OK
          && ending.ending == EDD_ABORTED && after[0] == 800 && ending.requests == 1);
    answers[0].aborts = 0;
    values[2] = 100;
    CHECK(edd_play(OF(it), 1, values, 5, answers, 1, settings, 1, 1000, requests, 2, after, 5, &ending) == EDD_OK
          && ending.ending == EDD_TRAPPED && ending.trap == EDD_DIV_ZERO);
    values[2] = 3900;
    settings[0].value = 65536;
    after[0] = 7;
    ending.ending = 9;
    CHECK(edd_play(OF(it), 1, values, 5, answers, 1, settings, 1, 1000, requests, 2, after, 5, &ending) == EDD_OUT_OF_RANGE
          && after[0] == 7 && ending.ending == 9);
    settings[0].variable = 5;
    CHECK(edd_play(OF(it), 1, values, 5, answers, 1, settings, 1, 1000, requests, 2, after, 5, &ending) == EDD_BAD_VARIABLE
          && after[0] == 7 && ending.ending == 9);
    /* the second answer has none left, and each is counted before anything is played */
    answers[1].settings = 1;
    CHECK(edd_play(OF(it), 1, values, 5, answers, 1, settings, 0, 1000, requests, 2, after, 5, &ending) == EDD_NO_SETTINGS
          && after[0] == 7 && ending.ending == 9);
    CHECK(edd_play(OF(it), 2, values, 5, answers, 2, settings, 1, 1000, requests, 2, after, 5, &ending) == EDD_NO_SETTINGS
          && after[0] == 7 && ending.ending == 9);
    CHECK(edd_play(OF(it), 2, values, 5, answers, 0, settings, 0, 1000, requests, 2, after, 5, &ending) == EDD_NO_ITEM);
    CHECK(edd_play(OF(it), 1, values, 4, answers, 0, settings, 0, 1000, requests, 2, after, 5, &ending) == EDD_WRONG_VALUES);
    CHECK(edd_play(OF(it), 1, values, 5, answers, 0, settings, 0, 1000, requests, 2, after, 4, &ending) == EDD_NO_ROOM
          && after[0] == 7 && ending.ending == 9);
}

/* ---- another image ---- */

static void try_another(file *it, file *other)
{
    edd_image none = { 0 };
    edd_item item = { 5, 5 };
    edd_words words = EDD_NO_WORDS;
    edd_type type = { 9, 9 };
    uint16_t variable = 77;
    int64_t values[5] = { 0 }, after[5];
    edd_record record;
    edd_request request;
    edd_ending ending = { 9, 9, 9 };
    size_t given = 42;
    edd_image *images[2];
    int k;
    images[0] = &none;
    images[1] = &other->image;
    for (k = 0; k < 2; k++) {
        CHECK(edd_find(it->bytes, it->length, images[k], TEXT("main"), &item) == EDD_OTHER_IMAGE && item.kind == 5);
        CHECK(edd_name(it->bytes, it->length, images[k], 1, 0, &words) == EDD_OTHER_IMAGE && words.length == 0);
        CHECK(edd_text(it->bytes, it->length, images[k], 0, TEXT("de"), &words) == EDD_OTHER_IMAGE);
        CHECK(edd_variable(it->bytes, it->length, images[k], 0, &type) == EDD_OTHER_IMAGE && type.type == 9);
        CHECK(edd_element(it->bytes, it->length, images[k], 0, 1, &variable) == EDD_OTHER_IMAGE && variable == 77);
        CHECK(edd_attribute(it->bytes, it->length, images[k], 1, 0, EDD_LABEL, 0, values, 5, &record, 1, &given)
              == EDD_OTHER_IMAGE && given == 42);
        CHECK(edd_play(it->bytes, it->length, images[k], 0, values, 5, (edd_answer *)values, 0,
                       (edd_setting *)values, 0, 10, &request, 1, after, 5, &ending) == EDD_OTHER_IMAGE && ending.ending == 9);
    }
    CHECK(edd_find(it->bytes, 3, &it->image, TEXT("main"), &item) == EDD_OTHER_IMAGE);
    /* A length that is not that of the image, as where a word of flash was lost. */
    CHECK(edd_find(it->bytes, it->length - 1, &it->image, TEXT("main"), &item) == EDD_OTHER_IMAGE);
    CHECK(edd_text(it->bytes, 100, &it->image, 0, TEXT("de"), &words) == EDD_OTHER_IMAGE && words.length == 0);
    CHECK(edd_attribute(it->bytes, 56, &it->image, 1, 0, EDD_LABEL, 0, values, 5, &record, 1, &given)
          == EDD_OTHER_IMAGE && given == 42);
}

/* ---- memory ---- */

/* Refuses each request for memory of the calls on messages in turn. */
static void try_memory_of_messages(file *it)
{
    const edd_message reply = { 0, 0, EDD_REPLY };
    const int64_t values[5] = { 800, 100, 3900, 0, 0 };
    const uint8_t octets[3] = { 1, 44, 0 };
    edd_message found;
    edd_setting settings[2];
    uint8_t sent[3];
    size_t given;
    long at;
    int call;
    for (call = 0; call < 3; call++)
        for (at = 0;; at++) {
            uint32_t status;
            requests_left = at;
            given = 42;
            status = call == 0 ? edd_encode(OF(it), &reply, values, 5, sent, 3, &given)
                   : call == 1 ? edd_decode(OF(it), &reply, values, 5, octets, 3, settings, 2, &given)
                               : edd_reader(OF(it), 0, values, 5, 0, &found, &given);
            CHECK(blocks == 0);
            if (status == EDD_OK) {
                CHECK(at > 1);
                break;
            }
            CHECK(status == EDD_MEMORY && given == 42);
        }
    requests_left = -1;
}

static void try_memory(file *it)
{
    int64_t values[5] = { 800, 100, 3900, 0, 0 }, after[5];
    edd_answer answers[1] = { { 0, 1, 0 } };
    edd_setting settings[1] = { { 2000, 0 } };
    edd_request requests[2];
    edd_record records[8];
    edd_ending ending;
    edd_image image = { 0 };
    size_t given = 42;
    long at;
    uint32_t status;
    for (at = 0;; at++) {
        requests_left = at;
        status = edd_load(it->bytes, it->length, &image);
        if (status == EDD_OK)
            break;
        CHECK(status == EDD_MEMORY && image.length == 0 && blocks == 0);
    }
    CHECK(at > 0 && blocks == 0);
    for (at = 0;; at++) {
        requests_left = at;
        status = edd_attribute(OF(it), 3, 0, EDD_ITEMS, 0, values, 5, records, 8, &given);
        if (status == EDD_OK)
            break;
        CHECK(status == EDD_MEMORY && given == 42 && blocks == 0);
    }
    CHECK(at > 0 && blocks == 0);
    for (at = 0;; at++) {
        requests_left = at;
        after[0] = 7;
        status = edd_play(OF(it), 1, values, 5, answers, 1, settings, 1, 1000, requests, 2, after, 5, &ending);
        if (status == EDD_OK)
            break;
        CHECK(status == EDD_MEMORY && after[0] == 7 && blocks == 0);
    }
    CHECK(at > 0 && blocks == 0);
    requests_left = -1;
}

/* ---- images with a byte changed ---- */

/* Encodes the messages of a command, and takes them. */
static void exchange_all(const uint8_t *bytes, size_t length, const edd_image *image, uint16_t command,
                         const int64_t *values)
{
    edd_setting settings[64];
    uint8_t octets[64];
    size_t given, taken, k;
    for (k = 0; k < 4; k++) {
        edd_message message = { 0, 0, EDD_REQUEST };
        message.command = command;
        message.position = (uint16_t)(k / 2);
        if (k % 2)
            message.side = EDD_REPLY;
        if (edd_encode(bytes, length, image, &message, values, image->variables, octets, 64, &given) == EDD_OK)
            CHECK(edd_decode(bytes, length, image, &message, values, image->variables, octets, given, settings, 64,
                             &taken) == (taken <= 64 ? EDD_OK : EDD_NO_ROOM));
    }
}

/* Reads all of an image that was loaded, encodes its messages, and plays its methods a little. */
static void read_all(const uint8_t *bytes, size_t length, const edd_image *image)
{
    static int64_t values[65536], after[65536];
    static edd_record records[64];
    edd_answer answers[3] = { { 1, 0, 0 }, { 0, 0, 0 }, { 0, 0, 1 } };
    edd_setting setting = { 0, 0 };
    edd_request requests[4];
    edd_ending ending;
    edd_words words = EDD_NO_WORDS;
    const uint16_t counts[7] = { 0, image->variables, image->commands, image->menus, image->collections, image->methods, image->arrays };
    size_t given, k;
    uint8_t kind, attribute;
    uint16_t number;
    for (kind = 1; kind <= 6; kind++)
        for (number = 0; number < counts[kind] && number < 20; number++) {
            CHECK(edd_name(bytes, length, image, kind, number, &words) == EDD_OK);
            for (attribute = 1; attribute <= 22; attribute++)
                if (edd_attribute(bytes, length, image, kind, number, attribute, 0, values, image->variables, records, 64,
                                  &given) == EDD_OK)
                    for (k = 0; k < given; k++)
                        if (records[k].tag == EDD_RECORD_WORDS)
                            CHECK(edd_text(bytes, length, image, records[k].text, TEXT("de"), &words) == EDD_OK);
        }
    for (number = 0; number < image->commands && number < 20; number++)
        exchange_all(bytes, length, image, number, values);
    for (number = 0; number < image->methods && number < 20; number++)
        edd_play(bytes, length, image, number, values, image->variables, answers, 3, &setting, 0, 2000, requests, 4, after,
                 image->variables, &ending);
}

static void try_damage(const file *it, size_t step)
{
    static const uint8_t changes[4] = { 0x01, 0x80, 0xff, 0x10 };
    uint8_t *bytes = malloc(it->length); /* of the image's size, so that a read past its end is seen */
    long loaded = 0, refused = 0;
    size_t at;
    int k;
    for (at = 0; at < it->length; at += step)
        for (k = 0; k < 4; k++) {
            edd_image image = { 0 };
            edd_item item;
            memcpy(bytes, it->bytes, it->length);
            bytes[at] ^= changes[k];
            if (edd_load(bytes, it->length, &image) == EDD_OK) {
                loaded++;
                read_all(bytes, it->length, &image);
                try_damaged_sessions(bytes, it->length, &image, it);
            } else {
                refused++;
                CHECK(edd_find(bytes, it->length, &image, TEXT("main"), &item) == EDD_OTHER_IMAGE);
            }
        }
    CHECK(blocks == 0 && loaded > 0 && refused > 0);
    printf("damaged images: %ld loaded, %ld refused\n", loaded, refused);
    free(bytes);
}

int main(int count, char **words)
{
    file valve, scanner, flow;
    size_t step;
    if (count < 4) {
        printf("usage: tests VALVE_IMAGE SCANNER_IMAGE FLOW_IMAGE [STEP]\n");
        return 2;
    }
    valve = read_file(words[1]);
    scanner = read_file(words[2]);
    flow = read_file(words[3]);
    step = count > 4 ? (size_t)strtoul(words[4], NULL, 10) : 1;
    try_sizes();
    try_load(&valve);
    try_lookups(&valve);
    try_elements(&scanner);
    try_attributes(&valve);
    try_plays(&valve);
    try_another(&valve, &scanner);
    try_memory(&valve);
    try_memory_of_messages(&valve);
    CHECK(edd_load(flow.bytes, flow.length, &flow.image) == EDD_OK);
    try_messages(&flow, &valve);
    try_sessions(&valve, &flow, step);
    try_damage(&valve, step);
    try_damage(&scanner, step);
    try_damage(&flow, step);
    free(valve.bytes);
    free(scanner.bytes);
    free(flow.bytes);
    printf("%d passed, %d failed\n", passed, failed);
    return failed != 0;
}

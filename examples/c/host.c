/*
 * A small communicator on a terminal: it loads an image, shows menus and variables with their labels in a
 * language, changes variables, and runs methods whose questions are asked here.
 *
 *     host IMAGE [LANGUAGE]
 *
 * Its commands, one a line: menu [NAME], show NAME, set NAME NUMBER, run NAME, quit. Where a method asks, a
 * line is the answer: `abort`, the value of the variable that is asked for, or else a number, which is the
 * answer's code; nothing is 0. For a command of the device it may be followed by what the device has set, as in
 * `0 position=240`.
 */
#include "edd.h"
#include "pool.h"

#include <inttypes.h>
#include <stdio.h>
#include <stdlib.h>
#include <string.h>

enum { VARIABLES = 512, RECORDS = 256, SETTINGS = 64, BUDGET = 1000, STEPS = 1000000 };

static uint8_t bytes[256 * 1024];
static size_t length;
static edd_image image;
static const char *language = "en";
static int64_t values[VARIABLES];
static edd_record records[RECORDS];
static char line[512];

static void print_words(edd_words words) { printf("%.*s", (int)words.length, (const char *)words.bytes); }

static void print_name(uint8_t kind, uint16_t number)
{
    edd_words name = EDD_NO_WORDS;
    if (edd_name(bytes, length, &image, kind, number, &name) == EDD_OK)
        print_words(name);
}

static void print_text(uint16_t string)
{
    edd_words text = EDD_NO_WORDS;
    if (edd_text(bytes, length, &image, string, (const uint8_t *)language, strlen(language), &text) == EDD_OK)
        print_words(text);
}

/* Reads an attribute into `records`: how many there are, 0 where it can't be read, with the reason. */
static size_t read_attribute(uint8_t kind, uint16_t number, uint8_t attribute)
{
    size_t given = 0;
    uint32_t status = edd_attribute(bytes, length, &image, kind, number, attribute, 0, values, image.variables,
                                    records, RECORDS, &given);
    if (status == EDD_OK)
        return given;
    printf("<refused %" PRIu32 "> ", status);
    return 0;
}

static int64_t read_number(uint8_t kind, uint16_t number, uint8_t attribute, int64_t otherwise)
{
    size_t given = read_attribute(kind, number, attribute);
    return given > 0 && records[0].tag == EDD_RECORD_NUMBER ? records[0].value : otherwise;
}

/* The label, or the name where there is none. */
static void print_label(uint8_t kind, uint16_t number)
{
    if (read_attribute(kind, number, EDD_LABEL) > 0)
        print_text(records[0].text);
    else
        print_name(kind, number);
}

/* The value of a variable: of an enumeration its text. */
static void print_value(uint16_t number)
{
    size_t given = read_attribute(EDD_KIND_VARIABLE, number, EDD_ENUMERATORS), k;
    for (k = 0; k < given; k++)
        if (records[k].value == values[number]) {
            print_text(records[k].text);
            return;
        }
    printf("%" PRId64, values[number]);
    if (read_attribute(EDD_KIND_VARIABLE, number, EDD_CONSTANT_UNIT) > 0) {
        putchar(' ');
        print_text(records[0].text);
    }
}

static void show_entry(uint8_t kind, uint16_t number)
{
    print_name(kind, number);
    printf("  ");
    print_label(kind, number);
    if (kind == EDD_KIND_VARIABLE) {
        printf(": ");
        print_value(number);
    }
    putchar('\n');
}

static void list_menu(uint16_t menu)
{
    edd_record entries[RECORDS];
    size_t given = read_attribute(EDD_KIND_MENU, menu, EDD_ITEMS), k;
    memcpy(entries, records, given * sizeof *entries);
    for (k = 0; k < given; k++) {
        if (entries[k].tag == EDD_RECORD_WORDS) {
            print_text(entries[k].text);
            putchar('\n');
        } else if (!(entries[k].qualifiers & 4) && read_number(entries[k].kind, entries[k].item, EDD_VALIDITY, 1)) {
            show_entry(entries[k].kind, entries[k].item);
        }
    }
}

static int find(const char *name, uint8_t kind, uint16_t *number)
{
    edd_item item;
    if (edd_find(bytes, length, &image, (const uint8_t *)name, strlen(name), &item) != EDD_OK || item.kind != kind) {
        printf("there is no such item: %s\n", name);
        return 0;
    }
    *number = item.number;
    return 1;
}

/* Puts a limit into `limit`, which stays where there is none. 0 where it can't be read. */
static int read_limit(uint16_t number, uint8_t attribute, int64_t *limit)
{
    size_t given;
    if (edd_attribute(bytes, length, &image, EDD_KIND_VARIABLE, number, attribute, 0, values, image.variables,
                      records, RECORDS, &given) != EDD_OK)
        return 0;
    if (given > 0 && records[0].tag == EDD_RECORD_NUMBER)
        *limit = records[0].value;
    return 1;
}

/* Whether a number is one for a variable, by its type and its limits; where these can't be read, none is. */
static int is_value(uint16_t number, int64_t wanted)
{
    edd_type type;
    int64_t span, least, from, to;
    if (edd_variable(bytes, length, &image, number, &type) != EDD_OK)
        return 0;
    span = (int64_t)1 << 8 * type.size;
    least = from = type.type == EDD_TYPE_INTEGER ? -span / 2 : 0;
    to = least + span - 1;
    return wanted >= from && wanted <= to && read_limit(number, EDD_MIN_VALUE, &from)
        && read_limit(number, EDD_MAX_VALUE, &to) && wanted >= from && wanted <= to;
}

static int is_writable(uint16_t number) { return (read_number(EDD_KIND_VARIABLE, number, EDD_HANDLING, 3) & 2) != 0; }

static int is_number(const char *word, int64_t *number)
{
    char *end;
    *number = strtoll(word, &end, 10);
    return end != word && *end == 0;
}

static void set(const char *name, const char *number)
{
    uint16_t variable;
    int64_t wanted;
    if (!find(name, EDD_KIND_VARIABLE, &variable))
        return;
    if (!is_writable(variable))
        printf("refused: it is read only\n");
    else if (!is_number(number, &wanted) || !is_value(variable, wanted))
        printf("refused: it can't be %s\n", number);
    else
        values[variable] = wanted;
    show_entry(EDD_KIND_VARIABLE, variable);
}

static void print_request(const edd_request *request)
{
    static const char *const words[] = { "",        "",         "acknowledge ", "wait ", "enter ",
                                         "choose ", "command ", "command ",     "save" };
    printf("%s", words[request->tag <= 8 ? request->tag : 0]);
    if (request->tag == EDD_ASK_SEND_COMMAND || request->tag == EDD_ASK_SEND_COMMAND_TRANS)
        printf("%" PRId32, request->first);
    if (request->tag == EDD_ASK_SEND_COMMAND_TRANS)
        printf(" %" PRId32, request->second);
    if (request->tag == EDD_ASK_DELAY)
        printf("%" PRId32 " s ", request->first);
    if (request->text != EDD_NO_STRING)
        print_text(request->text);
    if (request->choices != EDD_NO_STRING) {
        printf(": ");
        print_text(request->choices);
    }
    if (request->tag == EDD_ASK_GET_DEV_VAR_VALUE) {
        printf(": ");
        print_name(EDD_KIND_VARIABLE, request->variable);
    }
    putchar('\n');
}

/* Whether a number is that of a choice: they are parted by ; and counted from 0. */
static int is_choice(uint16_t choices, int64_t number)
{
    edd_words text = EDD_NO_WORDS;
    int64_t last = 0;
    size_t k;
    if (edd_text(bytes, length, &image, choices, (const uint8_t *)language, strlen(language), &text) != EDD_OK)
        return 0;
    for (k = 0; k < text.length; k++)
        last += text.bytes[k] == ';';
    return number >= 0 && number <= last;
}

/* Takes one word of an answer. 0 where it is none. */
static int take_word(const edd_request *request, char *word, edd_answer *answer, edd_setting *settings)
{
    edd_setting *next = &settings[answer->settings];
    char *value = strchr(word, '=');
    int64_t number;
    if (value)
        *value++ = 0;
    if (answer->settings == SETTINGS || !is_number(value ? value : word, &number))
        return 0;
    if (value) {
        next->value = number;
        answer->settings++;
        return find(word, EDD_KIND_VARIABLE, &next->variable);
    }
    if (request->tag == EDD_ASK_GET_DEV_VAR_VALUE) {
        next->value = number;
        next->variable = request->variable;
        answer->settings++;
        return is_value(request->variable, number);
    }
    answer->code = (int32_t)number;
    return number == answer->code && (request->tag != EDD_ASK_SELECT_FROM_LIST || is_choice(request->choices, number));
}

/* Reads an answer from a line: an abort at the end of the input. 0 where the line is none. */
static int read_answer(const edd_request *request, edd_answer *answer, edd_setting *settings)
{
    int is_read = fgets(line, sizeof line, stdin) != NULL;
    char *word = is_read ? strtok(line, " \t\r\n") : NULL;
    memset(answer, 0, sizeof *answer);
    answer->aborts = !is_read || (word && !strcmp(word, "abort"));
    for (; word && !answer->aborts; word = strtok(NULL, " \t\r\n"))
        if (!take_word(request, word, answer, settings))
            return 0;
    return 1;
}

/* Answers the pending request: a message needs nobody, and where a line can't be taken it is asked for again. */
static uint32_t answer(edd_session *session, const edd_request *request)
{
    edd_setting settings[SETTINGS + 1];
    edd_answer given = { 0, 0, 0 };
    uint32_t status;
    for (;;) {
        if (request->tag == EDD_ASK_PUT_MESSAGE || read_answer(request, &given, settings)) {
            status = edd_reply(bytes, length, &image, session, values, image.variables, &given, settings, given.settings);
            if (status != EDD_BAD_VARIABLE && status != EDD_OUT_OF_RANGE)
                return status;
        }
        printf("that can't be; once more\n");
        print_request(request);
    }
}

/*
 * Runs the method in a session, and asks for an answer wherever it waits. It takes a budget of instructions at a
 * time, between which a firmware would do its other work, and draw its screen from `values`. One that executes a
 * million instructions is given up, and then its abort methods don't run: only a request can be aborted.
 */
static void run(uint16_t method)
{
    static edd_session session;
    static const char *const ends[] = { "ended", "aborted", "trapped", "waiting", "did not end" };
    edd_turn turn;
    uint32_t status = edd_start(bytes, length, &image, method, values, image.variables, &session);
    while (status == EDD_OK) {
        status = edd_advance(bytes, length, &image, &session, values, image.variables, BUDGET, &turn);
        if (status == EDD_OK && turn.turn == EDD_WAITING) {
            print_request(&turn.request);
            status = answer(&session, &turn.request);
        } else if (status == EDD_OK && (turn.turn != EDD_SPENT || session.taken >= STEPS)) {
            printf("%s", ends[turn.turn]);
            if (turn.turn == EDD_TRAPPED)
                printf(": %u", (unsigned)turn.trap);
            putchar('\n');
            return;
        }
    }
    printf("refused %" PRIu32 "\n", status);
}

static void start_values(void)
{
    uint16_t number;
    for (number = 0; number < image.variables; number++)
        values[number] = 0;
    for (number = 0; number < image.variables; number++) {
        int64_t start = read_number(EDD_KIND_VARIABLE, number, EDD_DEFAULT_VALUE, 0);
        values[number] = is_value(number, start) ? start : 0;
    }
}

static int load(const char *name)
{
    uint32_t status;
    FILE *file = fopen(name, "rb");
    if (!file) {
        fprintf(stderr, "%s can't be read\n", name);
        return 0;
    }
    length = fread(bytes, 1, sizeof bytes, file);
    fclose(file);
    status = edd_load(bytes, length, &image);
    if (status != EDD_OK)
        fprintf(stderr, "%s is refused: %" PRIu32 "\n", name, status);
    else if (image.variables > VARIABLES)
        fprintf(stderr, "%s has more variables than this program has room for\n", name);
    return status == EDD_OK && image.variables <= VARIABLES;
}

int main(int count, char **words)
{
    char name[256], number[32];
    uint16_t found = 0;
    if (count < 2)
        fprintf(stderr, "host IMAGE [LANGUAGE]\n");
    if (count < 2 || !load(words[1]))
        return 1;
    if (count > 2)
        language = words[2];
    start_values();
    while (printf("> "), fflush(stdout), fgets(line, sizeof line, stdin) && strncmp(line, "quit", 4)) {
        if (sscanf(line, "set %255s %31s", name, number) == 2)
            set(name, number);
        else if (sscanf(line, "run %255s", name) == 1 && find(name, EDD_KIND_METHOD, &found))
            run(found);
        else if (sscanf(line, "show %255s", name) == 1 && find(name, EDD_KIND_VARIABLE, &found))
            show_entry(EDD_KIND_VARIABLE, found);
        else if (sscanf(line, "menu %255s", name) == 1 && find(name, EDD_KIND_MENU, &found))
            list_menu(found);
        else if (!strncmp(line, "menu", 4) && line[4] < ' ')
            for (found = 0; found < image.menus; found++)
                show_entry(EDD_KIND_MENU, found);
        else if (line[0] > ' ')
            printf("a line is menu [NAME], show NAME, set NAME NUMBER, run NAME, or quit\n");
    }
    printf("memory: %zu bytes at most, %zu now\n", pool_most(), pool_in_use());
    return 0;
}

/*
 * Tests of sessions: methods that are run by them and by edd_play make the same requests and leave the same values;
 * refusals write nothing; and whatever a session's numbers are, a call is safe. The rest of the tests is in tests.c.
 */
#include "tests.h"

#include <stdlib.h>
#include <string.h>

enum { VALUES = 64, PARTS = 256 };

/* A method that was run: what it asked, what was answered, and where it was after each of its requests. */
typedef struct run {
    edd_request requests[PARTS];
    edd_answer answers[PARTS];
    edd_setting settings[PARTS];
    edd_session sessions[PARTS];
    int64_t values[PARTS][VALUES];
    size_t asked, set;
    edd_session last;
    int64_t left[VALUES];
} run;

/* ---- numbers at random, the same in each run ---- */

static uint32_t seed = 1;

static uint32_t dice(void)
{
    seed ^= seed << 13;
    seed ^= seed >> 17;
    seed ^= seed << 5;
    return seed;
}

/* ---- a device that answers ---- */

/* Its valve moves by 900 to an end; the other requests are answered with the `abort_at`-th as an abort. */
typedef struct device {
    int64_t position, target;
    size_t abort_at;
} device;

static void answer_request(device *at, run *it, const edd_request *request)
{
    edd_answer *answer = &it->answers[it->asked];
    memset(answer, 0, sizeof *answer);
    answer->aborts = it->asked == at->abort_at;
    if (answer->aborts)
        return;
    if (request->tag == EDD_ASK_SEND_COMMAND_TRANS)
        at->target = request->second ? 3900 : 130;
    if (request->tag == EDD_ASK_DELAY)
        at->position = at->position + 900 < at->target ? at->position + 900 : at->position - 900 > at->target ? at->position - 900 : at->target;
    if (request->tag == EDD_ASK_SEND_COMMAND && request->first == 3) {
        it->settings[it->set].variable = 0;
        it->settings[it->set++].value = at->position;
        answer->settings = 1;
    }
}

/* ---- runs ---- */

/* Runs a method by a session in budgets of so many instructions, and keeps all that it asks and is. */
static void run_by_session(const file *from, uint16_t method, const int64_t *values, device at, uint32_t budget, run *it)
{
    const size_t count = from->image.variables;
    int64_t held[VALUES];
    edd_session session;
    edd_turn turn, again;
    int rounds;
    memset(it, 0, sizeof *it);
    memcpy(held, values, count * sizeof *held);
    memset(&session, 0xaa, sizeof session);
    CHECK(edd_start(OF(from), method, held, count, &session) == EDD_OK);
    CHECK(edd_where(&session, &turn) == EDD_OK && turn.turn == EDD_SPENT && session.taken == 0 && session.method == method);
    for (rounds = 0; rounds < 100000; rounds++) {
        uint64_t before = session.taken;
        CHECK(edd_advance(OF(from), &session, held, count, budget, &turn) == EDD_OK);
        CHECK(session.taken - before <= budget && (turn.turn != EDD_SPENT || session.taken - before == budget));
        CHECK(edd_where(&session, &again) == EDD_OK && again.turn == turn.turn && again.trap == turn.trap
              && again.request.tag == turn.request.tag && (turn.turn == EDD_WAITING) == (turn.request.tag != 0));
        if (turn.turn == EDD_SPENT)
            continue;
        if (turn.turn != EDD_WAITING || it->asked == PARTS)
            break;
        it->requests[it->asked] = turn.request;
        it->sessions[it->asked] = session;
        memcpy(it->values[it->asked], held, sizeof held);
        answer_request(&at, it, &turn.request);
        CHECK(edd_reply(OF(from), &session, held, count, &it->answers[it->asked],
                        it->settings + it->set - it->answers[it->asked].settings, it->answers[it->asked].settings) == EDD_OK);
        CHECK(edd_where(&session, &again) == EDD_OK && again.turn != EDD_WAITING);
        it->asked++;
    }
    CHECK(turn.turn != EDD_SPENT && it->asked < PARTS);
    it->last = session;
    memcpy(it->left, held, sizeof held);
}

static int same_request(const edd_request *a, const edd_request *b)
{
    return a->first == b->first && a->second == b->second && a->text == b->text && a->choices == b->choices
        && a->variable == b->variable && a->tag == b->tag;
}

/* A method makes the same requests by sessions of several budgets and by edd_play, and leaves the same values. */
static void try_run(const file *from, uint16_t method, const int64_t *values, device at, uint8_t ends)
{
    static const uint32_t budgets[3] = { 1, 7, 1000 };
    static run it, other;
    static edd_request requests[PARTS];
    int64_t after[VALUES];
    edd_ending ending;
    size_t k, r, count = from->image.variables;
    long before = memory_calls;
    run_by_session(from, method, values, at, 100, &it);
    CHECK(memory_calls == before);
    CHECK(it.last.turn.turn == ends);
    for (k = 0; k < 3; k++) {
        run_by_session(from, method, values, at, budgets[k], &other);
        CHECK(other.asked == it.asked && other.set == it.set && other.last.taken == it.last.taken);
        CHECK(other.last.turn.turn == it.last.turn.turn && other.last.turn.trap == it.last.turn.trap);
        CHECK(!memcmp(other.left, it.left, count * sizeof *after));
        for (r = 0; r < it.asked; r++)
            CHECK(same_request(&other.requests[r], &it.requests[r]) && other.sessions[r].taken == it.sessions[r].taken);
    }
    CHECK(memory_calls == before);
    CHECK(edd_play(OF(from), method, values, count, it.answers, it.asked, it.settings, it.set, 1000000, requests, PARTS, after,
                   count, &ending) == EDD_OK);
    CHECK(ending.requests == it.asked && ending.ending == it.last.turn.turn && ending.trap == it.last.turn.trap);
    CHECK(!memcmp(after, it.left, count * sizeof *after));
    for (r = 0; r < it.asked; r++)
        CHECK(same_request(&requests[r], &it.requests[r]));
}

/* ---- refusals ---- */

static void try_starts(const file *it, const file *other)
{
    int64_t values[5] = { 800, 0, 0, 0, 0 };
    edd_session session, was;
    edd_image none = { 0 };
    memset(&session, 0x55, sizeof session);
    was = session;
    CHECK(edd_start(OF(it), 2, values, 5, &session) == EDD_NO_ITEM && edd_start(OF(it), 65535, values, 5, &session) == EDD_NO_ITEM);
    CHECK(edd_start(OF(it), 0, values, 4, &session) == EDD_WRONG_VALUES && edd_start(OF(it), 0, values, 0, &session) == EDD_WRONG_VALUES);
    CHECK(edd_start(it->bytes, it->length, &other->image, 0, values, 5, &session) == EDD_OTHER_IMAGE
          && edd_start(it->bytes, it->length, &none, 0, values, 5, &session) == EDD_OTHER_IMAGE);
    values[0] = 65536;
    CHECK(edd_start(OF(it), 0, values, 5, &session) == EDD_WRONG_VALUES && edd_start(OF(it), 2, values, 4, &session) == EDD_NO_ITEM);
    CHECK(!memcmp(&session, &was, sizeof session));
    values[0] = 800;
    CHECK(edd_start(OF(it), 1, values, 5, &session) == EDD_OK && session.method == 1 && session.taken == 0 && session.place == 0);
    CHECK(session.turn.turn == EDD_SPENT && session.turn.request.tag == 0 && session.turn.request.text == EDD_NO_STRING);
}

static void try_replies(const file *it, const file *other)
{
    int64_t values[5] = { 800, 100, 3900, 0, 0 }, were[5];
    edd_setting settings[3] = { { 2000, 0 }, { 65536, 0 }, { 1, 5 } };
    edd_answer answer = { 0, 1, 0 };
    edd_session session, was;
    edd_turn turn = { { 0, 0, 0, 0, 0, 0 }, 9, 9 };
    CHECK(edd_start(OF(it), 1, values, 5, &session) == EDD_OK);
    was = session;
    memcpy(were, values, sizeof values);
    CHECK(edd_reply(OF(it), &session, values, 5, &answer, settings, 1) == EDD_NOT_ASKING);
    CHECK(edd_advance(it->bytes, it->length, &other->image, &session, values, 5, 10, &turn) == EDD_OTHER_IMAGE);
    CHECK(edd_advance(it->bytes, it->length - 1, &it->image, &session, values, 5, 10, &turn) == EDD_OTHER_IMAGE);
    CHECK(edd_reply(it->bytes, 3, &it->image, &session, values, 5, &answer, settings, 1) == EDD_OTHER_IMAGE);
    CHECK(edd_advance(OF(it), &session, values, 4, 10, &turn) == EDD_NO_SESSION && turn.turn == 9);
    CHECK(!memcmp(&session, &was, sizeof session) && !memcmp(values, were, sizeof values));
    CHECK(edd_advance(OF(it), &session, values, 5, 0, &turn) == EDD_OK && turn.turn == EDD_SPENT && session.taken == 0);
    CHECK(edd_advance(OF(it), &session, values, 5, 1000, &turn) == EDD_OK && turn.turn == EDD_WAITING
          && turn.request.tag == EDD_ASK_SEND_COMMAND && turn.request.first == 3);
    was = session;
    CHECK(edd_advance(OF(it), &session, values, 5, 1000, &turn) == EDD_OK && session.taken == was.taken && turn.turn == EDD_WAITING);
    was = session;
    answer.settings = 2;
    CHECK(edd_reply(OF(it), &session, values, 5, &answer, settings, 3) == EDD_OUT_OF_RANGE);
    answer.settings = 3;
    CHECK(edd_reply(OF(it), &session, values, 5, &answer, settings, 3) == EDD_OUT_OF_RANGE);
    CHECK(edd_reply(OF(it), &session, values, 5, &answer, settings + 2, 1) == EDD_NO_SETTINGS);
    CHECK(edd_reply(OF(it), &session, values, 5, &answer, settings, 2) == EDD_NO_SETTINGS);
    answer.settings = 1;
    CHECK(edd_reply(OF(it), &session, values, 5, &answer, settings + 2, 1) == EDD_BAD_VARIABLE);
    CHECK(edd_reply(OF(it), &session, values, 5, &answer, settings + 2, 0) == EDD_NO_SETTINGS);
    CHECK(edd_reply(OF(it), &session, values, 4, &answer, settings + 2, 1) == EDD_NO_SESSION);
    values[4] = 256;
    CHECK(edd_reply(OF(it), &session, values, 5, &answer, settings + 2, 1) == EDD_NO_SESSION);
    CHECK(edd_advance(OF(it), &session, values, 5, 1000, &turn) == EDD_NO_SESSION && turn.turn == EDD_WAITING);
    values[4] = 0;
    CHECK(!memcmp(&session, &was, sizeof session) && !memcmp(values, were, sizeof values));
    /* 100 * (2000 - 100) / (3900 - 100) = 50, with a value that the program changes between two calls */
    values[0] = 900;
    answer.settings = 1;
    CHECK(edd_reply(OF(it), &session, values, 5, &answer, settings, 3) == EDD_OK && values[0] == 2000 && session.taken == was.taken);
    CHECK(edd_reply(OF(it), &session, values, 5, &answer, settings, 1) == EDD_NOT_ASKING);
    CHECK(edd_advance(OF(it), &session, values, 5, 1000, &turn) == EDD_OK && turn.turn == EDD_ENDED && values[3] == 50);
    CHECK(edd_reply(OF(it), &session, values, 5, &answer, settings, 1) == EDD_NOT_ASKING);
    /* an abort sets nothing, and so it may say what it likes */
    session = was;
    answer.settings = 3;
    answer.aborts = 200;
    CHECK(edd_reply(OF(it), &session, values, 5, &answer, settings, 3) == EDD_OK && session.turn.turn == EDD_ABORTED && values[0] == 2000);
}

static void try_traps(const file *it)
{
    int64_t values[5] = { 800, 100, 100, 0, 0 };
    const edd_setting none = { 0, 0 };
    edd_answer answer = { 0, 0, 0 };
    edd_session session;
    edd_turn turn;
    CHECK(edd_start(OF(it), 1, values, 5, &session) == EDD_OK && edd_advance(OF(it), &session, values, 5, 1000, &turn) == EDD_OK);
    CHECK(edd_reply(OF(it), &session, values, 5, &answer, &none, 0) == EDD_OK && values[0] == 800);
    CHECK(edd_advance(OF(it), &session, values, 5, 1000, &turn) == EDD_OK && turn.turn == EDD_TRAPPED && turn.trap == EDD_DIV_ZERO);
    CHECK(edd_advance(OF(it), &session, values, 5, 1000, &turn) == EDD_OK && turn.turn == EDD_TRAPPED && turn.trap == EDD_DIV_ZERO);
    CHECK(edd_where(&session, &turn) == EDD_OK && turn.trap == EDD_DIV_ZERO);
}

/* ---- wild numbers ---- */

/* What the calls make of a session and values, whatever they are. */
static void try_wild(const file *from, const edd_session *wild, const int64_t *values)
{
    static const edd_answer answers[2] = { { 1, 1, 0 }, { 0, 0, 1 } };
    const size_t count = from->image.variables;
    edd_setting setting = { 0, 0 };
    edd_session session = *wild;
    int64_t held[VALUES];
    edd_turn turn = { { 0, 0, 0, 0, 0, 0 }, 9, 9 };
    uint32_t status, again;
    int k;
    setting.value = values[0];
    memcpy(held, values, count * sizeof *held);
    status = edd_advance(OF(from), &session, held, count, 300, &turn);
    CHECK(status == EDD_OK || status == EDD_NO_SESSION);
    if (status == EDD_NO_SESSION)
        CHECK(!memcmp(&session, wild, sizeof session) && !memcmp(held, values, count * sizeof *held) && turn.turn == 9);
    else
        CHECK(turn.turn <= EDD_SPENT && edd_advance(OF(from), &session, held, count, 300, &turn) == EDD_OK);
    for (k = 0; k < 2; k++) {
        session = *wild;
        memcpy(held, values, count * sizeof *held);
        again = edd_reply(OF(from), &session, held, count, &answers[k], &setting, 1);
        CHECK((status == EDD_OK) == (again != EDD_NO_SESSION) && (again == EDD_OK || again == EDD_NOT_ASKING || again == EDD_NO_SESSION));
        if (again != EDD_OK)
            CHECK(!memcmp(&session, wild, sizeof session) && !memcmp(held, values, count * sizeof *held));
        else
            CHECK(edd_advance(OF(from), &session, held, count, 300, &turn) == EDD_OK);
    }
    again = edd_where(wild, &turn);
    CHECK((again == EDD_OK || again == EDD_NO_SESSION) && (status != EDD_OK || again == EDD_OK));
}

/* Each field and each byte of a live session in turn, and values that are out of their ranges. */
static void try_fields(const file *from, const edd_session *live, const int64_t *values)
{
    static const struct {
        size_t at, size, count;
    } fields[] = {
        { offsetof(edd_session, taken), 8, 1 },
        { offsetof(edd_session, place), 8, 1 },
        { offsetof(edd_session, operands), 4, 128 },
        { offsetof(edd_session, slots), 4, 64 },
        { offsetof(edd_session, abort_methods), 2, 8 },
        { offsetof(edd_session, method), 2, 1 },
        { offsetof(edd_session, operand_count), 2, 1 },
        { offsetof(edd_session, abort_count), 2, 1 },
        { offsetof(edd_session, is_aborting), 2, 1 },
        { offsetof(edd_session, turn) + offsetof(edd_turn, request), 4, 2 },
        { offsetof(edd_session, turn) + offsetof(edd_turn, request) + offsetof(edd_request, text), 2, 3 },
        { offsetof(edd_session, turn) + offsetof(edd_turn, request) + offsetof(edd_request, tag), 1, 1 },
        { offsetof(edd_session, turn) + offsetof(edd_turn, trap), 2, 1 },
        { offsetof(edd_session, turn) + offsetof(edd_turn, turn), 1, 1 },
    };
    static const uint64_t wild[] = { 0, 1, 2, 3, 4, 5, 7, 8, 9, 63, 64, 65, 127, 128, 129, 210, 213, 255, 256, 1000, 0x7fff, 0x8000,
                                     0xffff, 0x10000, 0x7fffffff, 0x80000000, 0xffffffff, 0x100000000, 0x7fffffffffffffff,
                                     0x8000000000000000, 0xffffffffffffffff };
    size_t f, e, w, at;
    int64_t held[VALUES];
    edd_session session;
    for (f = 0; f < sizeof fields / sizeof *fields; f++)
        for (e = 0; e < fields[f].count; e += e < 4 ? 1 : 31)
            for (w = 0; w < sizeof wild / sizeof *wild; w++) {
                uint64_t number = wild[w];
                uint32_t four = (uint32_t)number;
                uint16_t two = (uint16_t)number;
                uint8_t one = (uint8_t)number;
                const void *with = fields[f].size == 8 ? (void *)&number : fields[f].size == 4 ? (void *)&four : fields[f].size == 2 ? (void *)&two : (void *)&one;
                session = *live;
                memcpy((char *)&session + fields[f].at + e * fields[f].size, with, fields[f].size);
                try_wild(from, &session, values);
            }
    for (at = 0; at < sizeof session; at++) {
        static const uint8_t changes[4] = { 0x01, 0x80, 0xff, 0x10 };
        for (w = 0; w < 4; w++) {
            session = *live;
            ((uint8_t *)&session)[at] ^= changes[w];
            try_wild(from, &session, values);
        }
    }
    for (at = 0; at < from->image.variables; at++)
        for (w = 0; w < sizeof wild / sizeof *wild; w++) {
            memcpy(held, values, sizeof held);
            held[at] = (int64_t)wild[w];
            try_wild(from, live, held);
        }
}

/* Sessions of numbers at random: all, and those whose tags and counts are small. */
static void try_random(const file *from, const int64_t *values, long rounds)
{
    edd_session session;
    size_t at;
    while (rounds-- > 0) {
        for (at = 0; at < sizeof session; at++)
            ((uint8_t *)&session)[at] = (uint8_t)dice();
        if (rounds % 8) {
            session.place = dice() % 300;
            session.method = (uint16_t)(dice() % (from->image.methods + 1u));
            session.operand_count = (uint16_t)(dice() % 4);
            session.abort_count = (uint16_t)(dice() % 10);
            session.is_aborting = (uint16_t)(dice() % 3);
            session.turn.turn = (uint8_t)(rounds % 3 ? EDD_SPENT : dice() % 6);
            session.turn.trap = (uint16_t)(209 + dice() % 6);
            session.turn.request.tag = (uint8_t)(dice() % 10);
        }
        try_wild(from, &session, values);
    }
}

/* ---- other images ---- */

void try_damaged_sessions(const uint8_t *bytes, size_t length, const edd_image *image, const file *undamaged)
{
    static int64_t values[65536], held[65536];
    edd_answer answer = { 1, 0, 0 };
    edd_session session;
    edd_turn turn;
    uint16_t method;
    size_t count = image->variables;
    int rounds;
    uint32_t status;
    memset(values, 0, count * sizeof *values);
    memset(held, 0, count * sizeof *held);
    for (method = 0; method < image->methods && method < 20; method++) {
        status = edd_start(bytes, length, image, method, values, count, &session);
        CHECK(status == EDD_OK || status == EDD_NO_ITEM || status == EDD_WRONG_VALUES);
        for (rounds = 0; status == EDD_OK && rounds < 6; rounds++) {
            CHECK(edd_advance(bytes, length, image, &session, held, count, 200, &turn) == EDD_OK);
            answer.aborts = rounds == 4;
            if (turn.turn == EDD_WAITING)
                CHECK(edd_reply(bytes, length, image, &session, held, count, &answer, (edd_setting *)values, 0) == EDD_OK);
        }
        memset(held, 0, count * sizeof *held);
        /* a session of the undamaged image goes on, or is none of this one */
        if (image->variables != undamaged->image.variables || edd_start(OF(undamaged), method, values, count, &session) != EDD_OK)
            continue;
        CHECK(edd_advance(OF(undamaged), &session, held, count, 25, &turn) == EDD_OK);
        status = edd_advance(bytes, length, image, &session, held, count, 200, &turn);
        CHECK(status == EDD_OK || status == EDD_NO_SESSION);
        memset(held, 0, count * sizeof *held);
    }
}

static void try_layout(void)
{
    CHECK(sizeof(edd_turn) == 20 && offsetof(edd_turn, trap) == 16 && offsetof(edd_turn, turn) == 18);
    CHECK(sizeof(edd_session) == rounded(828) && offsetof(edd_session, place) == 8 && offsetof(edd_session, operands) == 16);
    CHECK(offsetof(edd_session, slots) == 528 && offsetof(edd_session, abort_methods) == 784 && offsetof(edd_session, method) == 800);
    CHECK(offsetof(edd_session, operand_count) == 802 && offsetof(edd_session, abort_count) == 804);
    CHECK(offsetof(edd_session, is_aborting) == 806 && offsetof(edd_session, turn) == 808);
}

void try_sessions(const file *valve, const file *flow, size_t step)
{
    static run it;
    const int64_t values[VALUES] = { 800, 0, 0, 0, 0 };
    int64_t meter[VALUES];
    device at = { 800, 800, PARTS };
    edd_item item;
    edd_turn turn;
    edd_session empty;
    size_t k;
    long before = memory_calls;
    try_layout();
    try_starts(valve, flow);
    try_replies(valve, flow);
    try_traps(valve);
    CHECK(memory_calls == before);
    /* calibrate to its end, with the stem where it was, and aborted at each of its requests */
    try_run(valve, 0, values, at, EDD_ENDED);
    run_by_session(valve, 0, values, at, 100, &it);
    CHECK(it.left[1] == 130 && it.left[2] == 3900 && it.asked > 10);
    for (at.abort_at = 0; at.abort_at < it.asked; at.abort_at++)
        try_run(valve, 0, values, at, EDD_ABORTED);
    before = memory_calls;
    for (k = 0; k < it.asked; k += 5)
        try_fields(valve, &it.sessions[k], it.values[k]);
    try_fields(valve, &it.last, it.left);
    try_random(valve, values, 40000 / (long)step);
    memset(&empty, 0, sizeof empty);
    CHECK(edd_where(&empty, &turn) == EDD_OK && turn.turn == EDD_ENDED);
    try_wild(valve, &empty, values);
    CHECK(memory_calls == before);
    /* abort methods: of calibrate of the flow transmitter, and of a session of another image */
    for (k = 0; k < flow->image.variables; k++)
        meter[k] = 0;
    CHECK(edd_find(OF(flow), (const uint8_t *)"factor", 6, &item) == EDD_OK);
    meter[item.number] = 1000;
    CHECK(edd_find(OF(flow), (const uint8_t *)"calibrate", 9, &item) == EDD_OK);
    for (at.abort_at = 0; at.abort_at < 4; at.abort_at++)
        try_run(flow, item.number, meter, at, EDD_ABORTED);
    at.abort_at = 2;
    run_by_session(flow, item.number, meter, at, 100, &it);
    CHECK(it.asked > 3 && it.last.is_aborting == 1 && it.last.method != item.number);
    for (k = 0; k < it.asked; k++)
        try_fields(flow, &it.sessions[k], it.values[k]);
    try_random(flow, meter, 20000 / (long)step);
}

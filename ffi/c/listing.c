/*
 * Replays document 01's listing through the C interface, and before that holds the header's structs
 * against the library, each field written on one side and read on the other, and core sets read and
 * written against their texts. Ends with status 1 at the first difference.
 */
#include "lent.h"

static int same_report(struct makxirund_report r, unsigned number, unsigned moves, unsigned started, unsigned stopped)
{
    return r.number == number && r.moves == moves && r.started == started && r.stopped == stopped && r.place == 0;
}

static int quiet(struct makxirund_report r, unsigned number)
{
    return same_report(r, number, 0, MAKXIRUND_NONE, MAKXIRUND_NONE);
}

static int refused_at(struct makxirund_report r, unsigned number, unsigned place)
{
    const unsigned found = r.place;
    r.place = 0;
    return quiet(r, number) && found == place;
}

static int sound_at(struct makxirund_answer a, unsigned number, unsigned place)
{
    return a.number == number && a.place == place;
}

/* ---- the header's structs against the library ---- */

static int all_empty(const struct makxirund_dispatcher *d)
{
    for (size_t s = 0; s < COUNT(d->tasks); s++) {
        if (d->tasks[s].priority != 0 || d->tasks[s].mask != 0 || d->order[s] != MAKXIRUND_NONE)
            return 0;
    }
    for (size_t c = 0; c < COUNT(d->seats); c++) {
        if (d->seats[c] != MAKXIRUND_NONE)
            return 0;
    }
    return 1;
}

static void check_dispatcher(void)
{
    struct makxirund_dispatcher *d = lend();
    EXPECT(quiet(makxirund_fresh(d, 33), MAKXIRUND_CORE_COUNT));
    EXPECT(d->cores == 1 && all_empty(d) && margins_kept());

    d = lend();
    EXPECT(quiet(makxirund_fresh(d, 32), MAKXIRUND_DONE));
    EXPECT(d->cores == 32 && all_empty(d) && margins_kept());
    EXPECT(sound_at(makxirund_sound(d), MAKXIRUND_DONE, 0));

    /* the last slot and the last core lie where the header says */
    EXPECT(quiet(makxirund_create(d, 127, 200, 0x80000000u), MAKXIRUND_DONE));
    EXPECT(d->tasks[127].priority == 200 && d->tasks[127].mask == 0x80000000u);
    EXPECT(same_report(makxirund_wake(d, 127), MAKXIRUND_DONE, 0, 127, MAKXIRUND_NONE));
    EXPECT(d->order[0] == 127 && d->order[1] == MAKXIRUND_NONE && d->seats[31] == 127 && d->seats[0] == MAKXIRUND_NONE);
    EXPECT(margins_kept());

    /* each argument arrives whole */
    EXPECT(quiet(makxirund_wake(d, 383), MAKXIRUND_SLOT_ABOVE)); /* 383 is 127 but for the high byte */
    EXPECT(quiet(makxirund_block(d, 127), MAKXIRUND_DONE));
    EXPECT(quiet(makxirund_delete(d, 127), MAKXIRUND_DONE));
    EXPECT(d->tasks[127].priority == 0 && d->tasks[127].mask == 0);
    EXPECT(sound_at(makxirund_sound(d), MAKXIRUND_DONE, 0) && margins_kept());
}

/* What C writes the library reads, and names: slot 127 runs on core 31 of 32, and slot 5 sleeps. */
static void check_unsound(void)
{
    struct makxirund_dispatcher *d = lend();
    makxirund_fresh(d, 32);
    makxirund_create(d, 127, 200, 0x80000000u);
    makxirund_create(d, 5, 1, 1);
    makxirund_wake(d, 127);
    const struct makxirund_dispatcher before = *d;

    d->seats[30] = 5;
    EXPECT(sound_at(makxirund_sound(d), MAKXIRUND_UNSOUND_SEAT, 30));
    d->order[126] = 5;
    EXPECT(sound_at(makxirund_sound(d), MAKXIRUND_UNSOUND_PLACE, 126));
    d->tasks[126].mask = 1;
    EXPECT(sound_at(makxirund_sound(d), MAKXIRUND_UNSOUND_SLOT, 126));
    d->cores = 255;
    EXPECT(sound_at(makxirund_sound(d), MAKXIRUND_UNSOUND_COUNT, 255));

    *d = before;
    d->cores = 31;
    d->tasks[127].mask = 1;
    EXPECT(sound_at(makxirund_sound(d), MAKXIRUND_UNSOUND_MISSING_CORE, 31));

    /* as does every call, before all other refusals */
    const struct makxirund_record record = {6, 0, 0};
    EXPECT(refused_at(makxirund_create(d, 999, 0, 0), MAKXIRUND_UNSOUND_MISSING_CORE, 31));
    EXPECT(refused_at(makxirund_delete(d, 999), MAKXIRUND_UNSOUND_MISSING_CORE, 31));
    EXPECT(refused_at(makxirund_wake(d, 999), MAKXIRUND_UNSOUND_MISSING_CORE, 31));
    EXPECT(refused_at(makxirund_block(d, 999), MAKXIRUND_UNSOUND_MISSING_CORE, 31));
    const struct makxirund_load_report r = makxirund_load(d, &record, 1);
    EXPECT(refused_at(r.report, MAKXIRUND_UNSOUND_MISSING_CORE, 31) && r.index == 0);
    const struct makxirund_line line = {1, 9, 0, {0, 0, 0, 0, 0}};
    const struct makxirund_written w = makxirund_line(line, d, (uint8_t[1]){0}, 0);
    EXPECT(w.number == MAKXIRUND_UNSOUND_MISSING_CORE && w.place == 31 && w.length == 0);
    EXPECT(margins_kept());
}

/* Slot 7 runs on core 1 and slot 8 on core 0; slot 9 waits, for core 0 alone. */
static void check_delete(void)
{
    const struct makxirund_record list[] = {{7, 9, 2}, {8, 8, 3}, {9, 1, 1}};
    struct makxirund_dispatcher *d = lend();
    makxirund_fresh(d, 2);
    makxirund_load(d, list, COUNT(list));
    for (size_t i = 0; i < COUNT(list); i++)
        EXPECT(makxirund_wake(d, list[i].slot).number == MAKXIRUND_DONE);
    EXPECT(d->seats[0] == 8 && d->seats[1] == 7);

    /* slot 8 shifts to the freed core, so that slot 9 starts */
    EXPECT(same_report(makxirund_delete(d, 7), MAKXIRUND_DONE, 1, 9, MAKXIRUND_NONE));
    EXPECT(d->seats[0] == 9 && d->seats[1] == 8);
    EXPECT(d->order[0] == 8 && d->order[1] == 9 && d->order[2] == MAKXIRUND_NONE);
    EXPECT(quiet(makxirund_delete(d, 7), MAKXIRUND_SLOT_EMPTY));

    /* nobody waits for the core of slot 8 */
    EXPECT(quiet(makxirund_delete(d, 8), MAKXIRUND_DONE));
    EXPECT(quiet(makxirund_block(d, 9), MAKXIRUND_DONE));
    EXPECT(quiet(makxirund_delete(d, 9), MAKXIRUND_DONE));
    EXPECT(all_empty(d) && margins_kept());
}

static void check_load(void)
{
    const struct makxirund_record list[] = {{2, 9, 1}, {127, 255, 6}, {3, 1, 4}, {127, 0, 0}};
    struct makxirund_dispatcher *d = lend();
    makxirund_fresh(d, 3);
    const struct makxirund_dispatcher before = *d;

    struct makxirund_load_report r = makxirund_load(d, list, 4);
    EXPECT(quiet(r.report, MAKXIRUND_SLOT_IN_USE) && r.index == 3);
    EXPECT(memcmp(d->tasks, before.tasks, sizeof d->tasks) == 0);
    r = makxirund_load(d, list, 0);
    EXPECT(quiet(r.report, MAKXIRUND_DONE) && r.index == 0);
    r = makxirund_load(d, list, 3);
    EXPECT(quiet(r.report, MAKXIRUND_DONE) && r.index == 0);
    EXPECT(d->tasks[2].priority == 9 && d->tasks[2].mask == 1);
    EXPECT(d->tasks[127].priority == 255 && d->tasks[127].mask == 6);
    EXPECT(d->tasks[3].priority == 1 && d->tasks[3].mask == 4);
    EXPECT(margins_kept());
}

static int same_text(struct makxirund_written w, const uint8_t *buffer, const char *text)
{
    return w.number == MAKXIRUND_DONE && w.place == 0 && w.length == strlen(text)
        && memcmp(buffer, text, w.length) == 0;
}

static int unwritten(struct makxirund_written w, unsigned number)
{
    return w.number == number && w.place == 0 && w.length == 0;
}

static void check_lines(void)
{
    uint8_t buffer[MAKXIRUND_LONGEST_LINE];
    struct makxirund_dispatcher *d = lend();
    makxirund_fresh(d, 2);
    makxirund_create(d, 101, 1, 2);
    makxirund_wake(d, 101);

    struct makxirund_line line = {4000000000u, 3, 65535, {201, 102, 65534, 300, 400}};
    const char *text = "4000000000 D 65535 201 102 65534 300 -,101\n";
    memset(buffer, PATTERN, sizeof buffer);
    EXPECT(same_text(makxirund_line(line, d, buffer, strlen(text)), buffer, text));
    EXPECT(buffer[strlen(text)] == PATTERN);
    EXPECT(unwritten(makxirund_line(line, d, buffer, strlen(text) - 1), MAKXIRUND_LINE_LONG));
    line.kind = 4;
    EXPECT(unwritten(makxirund_line(line, d, buffer, sizeof buffer), MAKXIRUND_BAD_KIND));

    text = "refused 255 at 18446744073709551615\n";
    EXPECT(strlen(text) == MAKXIRUND_LONGEST_FAULT);
    EXPECT(same_text(makxirund_fault(255, SIZE_MAX, buffer, sizeof buffer), buffer, text));
    EXPECT(unwritten(makxirund_fault(255, SIZE_MAX, buffer, strlen(text) - 1), MAKXIRUND_LINE_LONG));
    EXPECT(margins_kept());
}

/* ---- core sets ---- */

static struct makxirund_reading read_list(const char *text, uint8_t limit)
{
    return makxirund_read_list((const uint8_t *)text, strlen(text), limit);
}

static struct makxirund_reading read_mask(const char *text, uint8_t limit)
{
    return makxirund_read_mask((const uint8_t *)text, strlen(text), limit);
}

static int is_set(struct makxirund_reading r, uint64_t set)
{
    return r.number == MAKXIRUND_DONE && r.offset == 0 && r.set == set;
}

static int is_fault(struct makxirund_reading r, unsigned number, size_t offset)
{
    return r.number == number && r.offset == offset && r.set == 0;
}

static void check_set_readers(void)
{
    EXPECT(is_set(read_list("", 32), 0));
    EXPECT(is_set(read_list("0-4,9", 10), 0x21F));
    EXPECT(is_set(read_list("63,007,3-3,2-4", 64), 0x800000000000009Cu));
    EXPECT(is_fault(read_list("1,", 32), MAKXIRUND_UNEXPECTED, 2));
    EXPECT(is_fault(read_list("1-2-3", 32), MAKXIRUND_UNEXPECTED, 3));
    EXPECT(is_fault(read_list("5-3x", 32), MAKXIRUND_BACKWARD, 2));
    EXPECT(is_fault(read_list("0,0040", 32), MAKXIRUND_ABOVE_LIMIT, 2));

    EXPECT(is_set(read_mask("8000021F", 32), 0x8000021Fu));
    EXPECT(is_set(read_mask("00000001,8000021f", 64), 0x18000021Fu));
    EXPECT(is_fault(read_mask("", 32), MAKXIRUND_UNEXPECTED, 0));
    EXPECT(is_fault(read_mask("0000021g", 32), MAKXIRUND_UNEXPECTED, 7));
    EXPECT(is_fault(read_mask("0000021f", 64), MAKXIRUND_UNEXPECTED, 8));
    EXPECT(is_fault(read_mask("00000001,8000021f", 32), MAKXIRUND_UNEXPECTED, 8));
    EXPECT(is_fault(read_mask("0000001f", 4), MAKXIRUND_ABOVE_LIMIT, 6));

    /* limits at both ends */
    EXPECT(is_fault(read_list("0", 0), MAKXIRUND_ABOVE_LIMIT, 0));
    EXPECT(is_set(read_list("63", 255), 0x8000000000000000u));
    EXPECT(is_fault(read_list("64", 255), MAKXIRUND_ABOVE_LIMIT, 0));
    EXPECT(is_set(read_mask("", 0), 0));
    EXPECT(is_set(read_mask("80000000,00000000", 255), 0x8000000000000000u));
}

typedef struct makxirund_written writer(uint64_t set, uint8_t limit, uint8_t *buffer, size_t room);

/* The text with room to spare and with none, and refused with one byte less. */
static void check_set_text(writer *write, uint64_t set, uint8_t limit, const char *text)
{
    uint8_t buffer[MAKXIRUND_LIST_ROOM];
    const size_t length = strlen(text);
    for (size_t spare = 0; spare <= sizeof buffer - length; spare++) {
        memset(buffer, PATTERN, sizeof buffer);
        EXPECT(same_text(write(set, limit, buffer, length + spare), buffer, text));
        EXPECT(kept_from(buffer, sizeof buffer, length));
    }
    if (length == 0)
        return;
    memset(buffer, PATTERN, sizeof buffer);
    EXPECT(unwritten(write(set, limit, buffer, length - 1), MAKXIRUND_OUTPUT_SHORT));
    EXPECT(kept_from(buffer, sizeof buffer, 0));
}

/* A core at the limit: refused before a short buffer is, and no byte changes. */
static void check_set_above(writer *write)
{
    uint8_t buffer[MAKXIRUND_LIST_ROOM];
    memset(buffer, PATTERN, sizeof buffer);
    for (size_t room = 0; room <= sizeof buffer; room++) {
        EXPECT(unwritten(write(0x100000000u, 32, buffer, room), MAKXIRUND_ABOVE_LIMIT));
        EXPECT(kept_from(buffer, sizeof buffer, 0));
    }
}

static void check_set_writers(void)
{
    check_set_text(makxirund_write_list, 0, 32, "");
    check_set_text(makxirund_write_list, 0x80000000000002CFu, 64, "0-3,6-7,9,63");
    check_set_text(makxirund_write_list, UINT64_MAX, 255, "0-63");
    check_set_above(makxirund_write_list);

    check_set_text(makxirund_write_mask, 0, 32, "00000000");
    check_set_text(makxirund_write_mask, 0xABCDEF0012345678u, 64, "abcdef00,12345678");
    EXPECT(strlen("abcdef00,12345678") == MAKXIRUND_MASK_ROOM);
    check_set_text(makxirund_write_mask, 0, 0, "");
    check_set_above(makxirund_write_mask);
}

/* ---- document 01's listing ---- */

static const uint8_t file[] = {0x03, 0x04, 0x00, 0x32, 0x03, 0x00, 0x00, 0x00, 0x01, 0x28, 0x06, 0x00, 0x00, 0x00, 0x02,
                               0x1E, 0x01, 0x00, 0x00, 0x00, 0x05, 0x1E, 0x04, 0x00, 0x00, 0x00, 0x08, 0x00, 0x01, 0x00,
                               0x01, 0x01, 0x01, 0x02, 0x01, 0x05, 0x02, 0x00, 0x01, 0x05, 0x01, 0x00, 0x03, 0x05};

static const char *const listing[] = {"1 C 0 0 0 - - -,-,-\n",  "2 C 1 0 0 - - -,-,-\n",  "3 C 2 0 0 - - -,-,-\n",
                                      "4 C 5 0 0 - - -,-,-\n",  "5 W 0 0 0 0 - 0,-,-\n",  "6 W 1 0 0 1 - 0,1,-\n",
                                      "7 W 2 0 2 2 - 2,0,1\n",  "8 W 5 0 0 - - 2,0,1\n",  "9 B 0 0 1 5 - 2,1,5\n",
                                      "10 W 5 9 0 - - 2,1,5\n", "11 W 0 0 1 0 5 2,0,1\n", "12 D 5 0 0 - - 2,0,1\n"};

static struct makxirund_report make_call(struct makxirund_dispatcher *d, struct makxirund_file_event e)
{
    switch (e.kind) {
    case 1:
        return makxirund_wake(d, e.slot);
    case 2:
        return makxirund_block(d, e.slot);
    default:
        return makxirund_delete(d, e.slot);
    }
}

static void print_line(size_t k, unsigned kind, unsigned slot, struct makxirund_report r,
                       const struct makxirund_dispatcher *d)
{
    uint8_t buffer[MAKXIRUND_LONGEST_LINE];
    const struct makxirund_line line = {(uint32_t)k + 1, (uint8_t)kind, (uint16_t)slot, r};
    const struct makxirund_written w = makxirund_line(line, d, buffer, sizeof buffer);
    EXPECT(same_text(w, buffer, listing[k]));
    fwrite(buffer, 1, w.length, stdout);
}

static void replay_listing(void)
{
    struct makxirund_dispatcher *d = lend();
    const struct makxirund_layout layout = makxirund_read(file, sizeof file);
    EXPECT(layout.number == MAKXIRUND_DONE && layout.offset == 0);
    EXPECT(layout.cores == 3 && layout.records == 4 && layout.events == 8);
    const struct makxirund_layout cut = makxirund_read(file, sizeof file - 1);
    EXPECT(cut.number == MAKXIRUND_FILE_SHORT && cut.offset == sizeof file - 1);
    EXPECT(cut.cores == 0 && cut.records == 0 && cut.events == 0);

    EXPECT(quiet(makxirund_fresh(d, layout.cores), MAKXIRUND_DONE));
    size_t k = 0;
    for (size_t i = 0; i < layout.records; i++, k++) {
        const struct makxirund_file_record t = makxirund_record(file, sizeof file, i);
        EXPECT(t.found);
        print_line(k, 0, t.slot, makxirund_create(d, t.slot, t.priority, t.mask), d);
    }
    for (size_t i = 0; i < layout.events; i++, k++) {
        const struct makxirund_file_event e = makxirund_event(file, sizeof file, i);
        EXPECT(e.found);
        print_line(k, e.kind, e.slot, make_call(d, e), d);
    }
    EXPECT(k == COUNT(listing));
    EXPECT(!makxirund_record(file, sizeof file, layout.records).found);
    EXPECT(!makxirund_event(file, sizeof file, layout.events).found);
    EXPECT(margins_kept());
}

int main(void)
{
    check_dispatcher();
    check_unsound();
    check_delete();
    check_load();
    check_lines();
    check_set_readers();
    check_set_writers();
    replay_listing();
    return 0;
}

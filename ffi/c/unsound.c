/*
 * Lends the library each stored dump of a dispatcher, byte for byte as it stands in memory, and asks
 * every call that is lent one: all must give the stored number and place and leave every byte as it
 * was. Then mends each dump, looking only where number and place say, until it is sound. Ends with
 * status 1 at the first difference.
 *
 * usage: unsound FOLDER
 *
 * FOLDER/args names the dumps, FOLDER/stdout has for each its name, number and place, FOLDER/data
 * holds them.
 */
#include "lent.h"

struct vector {
    char name[64];
    unsigned number, place;
    unsigned char dump[sizeof(struct makxirund_dispatcher)];
};

static struct makxirund_dispatcher *lend_dump(const struct vector *v)
{
    struct makxirund_dispatcher *d = lend();
    memcpy(d, v->dump, sizeof v->dump);
    return d;
}

/* ---- the calls ---- */

/* A sound one is refused for other causes only, if at all; in another nothing has changed. */
static void check_answer(const struct vector *v, const struct makxirund_dispatcher *d, unsigned number, unsigned place)
{
    if (v->number == MAKXIRUND_DONE) {
        EXPECT(number < MAKXIRUND_UNSOUND_COUNT && place == 0);
    } else {
        EXPECT(number == v->number && place == v->place);
        EXPECT(memcmp(d, v->dump, sizeof v->dump) == 0);
    }
    EXPECT(margins_kept());
}

static void check_report(const struct vector *v, const struct makxirund_dispatcher *d, struct makxirund_report r)
{
    check_answer(v, d, r.number, r.place);
    if (r.number != MAKXIRUND_DONE)
        EXPECT(r.moves == 0 && r.started == MAKXIRUND_NONE && r.stopped == MAKXIRUND_NONE);
}

static void check_load(const struct vector *v, const struct makxirund_record *records, size_t count)
{
    struct makxirund_dispatcher *d = lend_dump(v);
    const struct makxirund_load_report r = makxirund_load(d, records, count);
    check_report(v, d, r.report);
    EXPECT(r.index == 0);
}

static void check_line(const struct vector *v, uint8_t kind, size_t length)
{
    uint8_t buffer[MAKXIRUND_LONGEST_LINE];
    memset(buffer, PATTERN, sizeof buffer);
    const struct makxirund_dispatcher *d = lend_dump(v);
    const struct makxirund_line line = {1, kind, 7, {0, 0, 7, MAKXIRUND_NONE, 9}};
    const struct makxirund_written w = makxirund_line(line, d, buffer, length);
    check_answer(v, d, w.number, w.place);
    EXPECT((w.number == MAKXIRUND_DONE) == (w.length != 0));
    EXPECT(kept_from(buffer, sizeof buffer, w.length));
}

/* Each call with words that it may accept, and with words that it would refuse for their own sake. */
static void check_calls(const struct vector *v, uint16_t slot)
{
    const struct makxirund_record legal = {slot, 1, 1}, illegal = {slot, 0, 0};
    struct makxirund_dispatcher *d = lend_dump(v);
    check_report(v, d, makxirund_create(d, slot, 1, 1));
    d = lend_dump(v);
    check_report(v, d, makxirund_create(d, slot, 0, 0));
    d = lend_dump(v);
    check_report(v, d, makxirund_delete(d, slot));
    d = lend_dump(v);
    check_report(v, d, makxirund_wake(d, slot));
    d = lend_dump(v);
    check_report(v, d, makxirund_block(d, slot));
    check_load(v, &legal, 1);
    check_load(v, &illegal, 1);
    check_load(v, &legal, 0);
}

static void check_vector(const struct vector *v)
{
    static const uint16_t slots[] = {0, 1, 5, 127, 128, 255, 65535};
    struct makxirund_dispatcher *d = lend_dump(v);
    const struct makxirund_answer a = makxirund_sound(d);
    EXPECT(a.number == v->number && a.place == v->place);
    EXPECT(memcmp(d, v->dump, sizeof v->dump) == 0 && margins_kept());
    for (size_t i = 0; i < COUNT(slots); i++)
        check_calls(v, slots[i]);
    check_line(v, 0, MAKXIRUND_LONGEST_LINE);
    check_line(v, 0, 0);
    check_line(v, 9, MAKXIRUND_LONGEST_LINE);
}

/* ---- number and place, looked up in a dump by what the header says of them ---- */

static void mend(unsigned char *bytes, struct makxirund_answer a)
{
    static const unsigned char none[2] = {MAKXIRUND_NONE, 0};
    switch (a.number) {
    case MAKXIRUND_UNSOUND_COUNT:
        EXPECT(bytes[0] == a.place);
        bytes[0] = 1;
        break;
    case MAKXIRUND_UNSOUND_SLOT:
        memset(bytes + 4 + 8 * a.place, 0, 8);
        break;
    case MAKXIRUND_UNSOUND_PLACE:
        memcpy(bytes + 1028 + 2 * a.place, none, 2);
        break;
    default:
        memcpy(bytes + 1284 + 2 * a.place, none, 2);
    }
}

/* With the named word mended the next one is further on, until the dispatcher is sound. */
static void check_mending(const struct vector *v)
{
    struct makxirund_dispatcher *d = lend_dump(v);
    struct makxirund_answer a = makxirund_sound(d);
    while (a.number != MAKXIRUND_DONE) {
        mend((unsigned char *)d, a);
        const struct makxirund_answer next = makxirund_sound(d);
        const int further = next.number > a.number || (next.number == a.number && next.place > a.place);
        EXPECT(next.number == MAKXIRUND_DONE || further);
        a = next;
    }
    EXPECT(makxirund_load(d, &(struct makxirund_record){0, 0, 0}, 0).report.number == MAKXIRUND_DONE);
}

/* ---- the files ---- */

static FILE *opened(const char *folder, const char *name)
{
    char path[512];
    EXPECT(snprintf(path, sizeof path, "%s/%s", folder, name) < (int)sizeof path);
    FILE *file = fopen(path, "rb");
    if (file == NULL) {
        perror(path);
        exit(1);
    }
    return file;
}

static void read_dump(const char *folder, struct vector *v)
{
    char name[80];
    snprintf(name, sizeof name, "data/%s", v->name);
    FILE *file = opened(folder, name);
    EXPECT(fread(v->dump, 1, sizeof v->dump, file) == sizeof v->dump && fgetc(file) == EOF);
    fclose(file);
}

/* The next name of args, which must be that of the next line of stdout. */
static int next_vector(FILE *args, FILE *lines, struct vector *v)
{
    char name[sizeof v->name];
    if (fscanf(args, "%63s", name) != 1) {
        EXPECT(fscanf(lines, "%63s", name) == EOF);
        return 0;
    }
    EXPECT(fscanf(lines, "%63s %u %u", v->name, &v->number, &v->place) == 3 && strcmp(v->name, name) == 0);
    snprintf(about, sizeof about, " of %s", name);
    return 1;
}

/* Checks each vector in turn; gives how many there are. */
static unsigned check_all(const char *folder, void check(const struct vector *v))
{
    static struct vector v;
    FILE *args = opened(folder, "args"), *lines = opened(folder, "stdout");
    unsigned dumps = 0;
    while (next_vector(args, lines, &v)) {
        read_dump(folder, &v);
        check(&v);
        dumps++;
    }
    fclose(args);
    fclose(lines);
    return dumps;
}

int main(int count, char **words)
{
    if (count != 2) {
        fprintf(stderr, "usage: unsound FOLDER\n");
        return 2;
    }
    const unsigned dumps = check_all(words[1], check_vector);
    EXPECT(dumps > 0 && check_all(words[1], check_mending) == dumps);
    printf("unsound.c: %u dumps answered as stored by every call\n", dumps);
    return 0;
}

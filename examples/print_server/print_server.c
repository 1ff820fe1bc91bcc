/* print_server SHEET TABLE DOCUMENT            prints the sheds that get the notice of the document, one on each line,
 *                                              and then how many patterns were tried
 * print_server SHEET DOCUMENT                  prints the same sheds, without a table
 * print_server SHEET                           only checks the sheet
 * print_server --wanted SHEET TABLE DOCUMENT   prints `wanted` if at least one shed gets the notice, else `not wanted`
 *
 * The other arguments are files. Status 0: done; 1: the hub refused the files, and standard error says why; 2: the files
 * could not be read, there are too few or too many, or the first begins with `-` and is no option. */
#include "hub.h"

#include <stdio.h>
#include <string.h>

/* More than any sound file has. */
#define MOST 65536

struct bytes {
    size_t length;
    uint8_t at[MOST + 1];
};

static const char *const sentences[] = {
    [HUB_DONE] = "done",
    [HUB_ENDS_EARLY] = "the bytes end where one more is needed",
    [HUB_BYTES_REMAIN] = "bytes remain after the last section",
    [HUB_LABEL_LENGTH] = "a label's length is 0 or over 60",
    [HUB_LABEL_AGAIN] = "a label has occurred before",
    [HUB_COUNT] = "a count is outside its limits",
    [HUB_PARENT] = "a parent breaks its rule",
    [HUB_AXIS] = "an axis is neither 0 nor 1",
    [HUB_LABEL_NUMBER] = "a label number is outside its range",
    [HUB_SECOND_NEAR] = "a second near step stands at the root",
    [HUB_NO_ROOM] = "the lent output is too short",
    [HUB_NOT_THERE] = "a number asked for doesn't exist",
    [HUB_NOT_FAIR] = "the table is not fair to the sheet",
};

/* Reads a whole file. Returns 1, or 0 after a message. */
static int read_file(const char *path, struct bytes *to)
{
    FILE *file = fopen(path, "rb");
    if (file == NULL) {
        fprintf(stderr, "%s: it cannot be opened\n", path);
        return 0;
    }
    to->length = fread(to->at, 1, sizeof to->at, file);
    int failed = ferror(file);
    fclose(file);
    if (failed) {
        fprintf(stderr, "%s: it cannot be read\n", path);
        return 0;
    }
    if (to->length > MOST) {
        fprintf(stderr, "%s: it is longer than %d bytes\n", path, MOST);
        return 0;
    }
    return 1;
}

static int refused(uint8_t number)
{
    fprintf(stderr, "refused %d: %s\n", number, sentences[number]);
    return 1;
}

static void print_sheds(uint64_t delivered)
{
    for (int shed = 0; shed < 64; shed++)
        if (delivered >> shed & 1)
            printf("shed %d\n", shed);
}

static int check(const struct bytes *s)
{
    uint8_t number = hub_sheet_check(s->at, s->length);
    return number == HUB_DONE ? 0 : refused(number);
}

static int route_plainly(const struct bytes *s, const struct bytes *d)
{
    hub_plain_answer answer = hub_plain_route(s->at, s->length, d->at, d->length);
    if (answer.number != HUB_DONE)
        return refused(answer.number);
    print_sheds(answer.delivered);
    return 0;
}

static int route_by_table(const struct bytes *s, const struct bytes *t, const struct bytes *d)
{
    hub_table_answer answer = hub_table_route(s->at, s->length, t->at, t->length, d->at, d->length);
    if (answer.number != HUB_DONE)
        return refused(answer.number);
    print_sheds(answer.delivered);
    printf("%llu patterns tried\n", (unsigned long long)answer.tried);
    return 0;
}

static int ask_wanted(const struct bytes *s, const struct bytes *t, const struct bytes *d)
{
    hub_wanted_answer answer = hub_wanted(s->at, s->length, t->at, t->length, d->at, d->length);
    if (answer.number != HUB_DONE)
        return refused(answer.number);
    puts(answer.wanted ? "wanted" : "not wanted");
    return 0;
}

/* What is done with the files where there is no option. */
static int check_or_route(const struct bytes *files, int count)
{
    switch (count) {
    case 1:
        return check(&files[0]);
    case 2:
        return route_plainly(&files[0], &files[1]);
    default:
        return route_by_table(&files[0], &files[1], &files[2]);
    }
}

static int usage(void)
{
    fprintf(stderr, "usage: print_server SHEET [[TABLE] DOCUMENT]\n"
                    "       print_server --wanted SHEET TABLE DOCUMENT\n");
    return 2;
}

int main(int count, char **arguments)
{
    static struct bytes files[3];
    bool wanted = count > 1 && strcmp(arguments[1], "--wanted") == 0;
    char **paths = arguments + (wanted ? 2 : 1);
    int path_count = count - (wanted ? 2 : 1);

    if (path_count < (wanted ? 3 : 1) || path_count > 3 || paths[0][0] == '-')
        return usage();
    for (int i = 0; i < path_count; i++)
        if (!read_file(paths[i], &files[i]))
            return 2;
    return wanted ? ask_wanted(&files[0], &files[1], &files[2]) : check_or_route(files, path_count);
}

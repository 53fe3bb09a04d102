/*
 * A desk: desk TALLIES RADIO TIDY <TEXT >REPORT
 *
 * Decodes the text of a block for a radio, prints its report, writes its tidy text to the file TIDY, and counts the
 * answer in the file TALLIES, a list that ./radios reads. Ends with 0; with 1 where the text, the radio or its tally is
 * refused; with 2 where a file can't be read or written. A text that is refused has a report, but is no call of the
 * decoder and counts nowhere. examples/c/run builds and runs it.
 */
#include <errno.h>
#include <stdio.h>
#include <string.h>

#include "vedrogne.h"

enum { N = VEDROGNE_BLOCK_LENGTH(VEDROGNE_LARGEST_M), WORK = VEDROGNE_WORK_LENGTH(VEDROGNE_LARGEST_M) };

static const char names[] = "radio blocks criterion limit refusals iterations\n";

/* A text, with room for a byte more than it may have, so that a longer one is refused and not cut. */
static uint8_t text[VEDROGNE_LONGEST_TEXT + 1], tidy[VEDROGNE_LONGEST_TIDY_TEXT], report[VEDROGNE_REPORT_LENGTH];
static uint32_t settings[VEDROGNE_SETTINGS_LENGTH], tallies[VEDROGNE_TALLIES_LENGTH], iterations, reason;
static uint8_t mask[N], mark[N], coded_mark[N];
static int16_t llr[N], soft[N], coded_soft[N], work[WORK];

/* Fills the tallies; 1 where the file is a list of them, or isn't there yet. */
static int load_tallies(const char *path)
{
    char line[sizeof names] = "";
    unsigned radio = 0, n[VEDROGNE_TALLY_LENGTH];
    FILE *file = fopen(path, "r");
    int found;
    if (file == NULL) {
        return errno == ENOENT;
    }
    found = fgets(line, sizeof line, file) != NULL && strcmp(line, names) == 0 ? 6 : 0;
    while (found == 6 && radio < VEDROGNE_RADIOS) {
        found = fscanf(file, "%9u%9u%9u%9u%9u%9u", &radio, n, n + 1, n + 2, n + 3, n + 4);
        for (unsigned i = 0; found == 6 && radio < VEDROGNE_RADIOS && i < VEDROGNE_TALLY_LENGTH; i++) {
            tallies[VEDROGNE_TALLY_LENGTH * radio + i] = n[i];
        }
    }
    fclose(file);
    return found == EOF;
}

/* Writes a file that gets its name once it is whole, so that an earlier one of this name is never lost. 1 if it can. */
static int save(const char *path, const void *bytes, size_t length)
{
    char part[FILENAME_MAX];
    FILE *file = snprintf(part, sizeof part, "%s.part", path) < FILENAME_MAX ? fopen(part, "wb") : NULL;
    return file != NULL && fwrite(bytes, 1, length, file) == length && fclose(file) == 0 && rename(part, path) == 0;
}

static int save_tallies(const char *path)
{
    static char list[64 * (VEDROGNE_RADIOS + 1)];
    int end = sprintf(list, "%s", names);
    for (unsigned radio = 0; radio < VEDROGNE_RADIOS; radio++) {
        const uint32_t *n = &tallies[VEDROGNE_TALLY_LENGTH * radio];
        if (n[VEDROGNE_TALLY_BLOCKS] > 0) {
            end += sprintf(list + end, "%u %u %u %u %u %u\n", radio, (unsigned)n[0], (unsigned)n[1], (unsigned)n[2],
                           (unsigned)n[3], (unsigned)n[4]);
        }
    }
    return save(path, list, (size_t)end);
}

int main(int count, char **arguments)
{
    size_t length = fread(text, 1, sizeof text, stdin), written = 0;
    unsigned radio;
    uint32_t number;
    char behind;

    if (count != 4 || sscanf(arguments[2], "%9u%c", &radio, &behind) != 1 || !load_tallies(arguments[1])) {
        fprintf(stderr, "desk TALLIES RADIO TIDY: RADIO is a number, TALLIES a list or no file yet\n");
        return 2;
    }
    vedrogne_report(text, length, report, sizeof report, &written);
    if (ferror(stdin) || fwrite(report, 1, written, stdout) != written || fflush(stdout) != 0) {
        fprintf(stderr, "desk: the text can't be read, or the report can't be written\n");
        return 2;
    }
    number = vedrogne_read(text, length, settings, VEDROGNE_SETTINGS_LENGTH, mask, N, llr, N);
    if (number == VEDROGNE_DONE) {
        vedrogne_write(settings, VEDROGNE_SETTINGS_LENGTH, mask, N, llr, N, tidy, sizeof tidy, &written);
        number = vedrogne_decode_radio(radio, tallies, VEDROGNE_TALLIES_LENGTH, settings, VEDROGNE_SETTINGS_LENGTH,
                                       mask, N, llr, N, soft, N, mark, N, coded_soft, N, coded_mark, N, work, WORK,
                                       &iterations, &reason);
    }
    if (number != VEDROGNE_DONE) {
        fprintf(stderr, "radio %u: refused %u\n", radio, (unsigned)number);
    } else if (!save(arguments[3], tidy, written) || !save_tallies(arguments[1])) {
        perror("desk");
        return 2;
    }
    return number != VEDROGNE_DONE;
}

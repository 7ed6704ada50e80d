/* What stands behind a subcommand: files, and options before, among or behind them. Behind -- everything is a file. */
#include "cggtts.h"

#include <stdio.h>
#include <string.h>

/* An option with a word behind it, and what that is: in the same word, a long option with = between, or in the next word. */
static int read_named(int argc, char **argv, int *i, const char *option, const char *what, const char **word)
{
    const char *behind = argv[*i] + strlen(option);
    if (*word != NULL) {
        return wrong_use("%s: %s twice", argv[0], option);
    }
    if (*behind == '\0' && *i + 1 == argc) {
        return wrong_use("%s: %s without %s", argv[0], option, what);
    }
    *word = *behind == '\0' ? argv[++*i] : behind + (option[1] == '-');
    return ACCEPTED;
}

/*
 * A code and the one that is put in its place, OLD=NEW, three characters each, as they stand in the columns of FRC; or the code of
 * lines of version 01, which have none.
 */
static int read_code(int argc, char **argv, int *i, struct arguments *found)
{
    const char *codes = NULL;
    if (read_named(argc, argv, i, "--frc", "OLD=NEW or XYZ", &codes) != ACCEPTED) {
        return FAILED;
    }
    if (strlen(codes) == FRC_WIDTH && is_code(codes)) {
        int twice = found->frc != NULL;
        found->frc = codes;
        return twice ? wrong_use("%s: --frc XYZ twice", argv[0]) : ACCEPTED;
    }
    if (strlen(codes) != 2 * FRC_WIDTH + 1 || codes[FRC_WIDTH] != '=' || !is_code(codes + FRC_WIDTH + 1)) {
        return wrong_use("%s: '%s' is neither OLD=NEW nor XYZ, three characters each, those of NEW and XYZ A to Z or 0 to 9", argv[0],
                         codes);
    }
    if (code_for(found, (const uint8_t *)codes) != NULL) {
        return wrong_use("%s: --frc twice for '%.3s'", argv[0], codes);
    }
    if (found->codes_count == MOST_CODES) {
        return wrong_use("%s: more than %d times --frc", argv[0], MOST_CODES);
    }
    found->codes[found->codes_count++] = codes;
    return ACCEPTED;
}

/* The code that is put in the place of this one, or NULL. */
const char *code_for(const struct arguments *given, const uint8_t *code)
{
    for (int i = 0; i < given->codes_count; i++) {
        if (memcmp(given->codes[i], code, FRC_WIDTH) == 0) {
            return given->codes[i] + FRC_WIDTH + 1;
        }
    }
    return NULL;
}

/* HC and FRC for lines of version 01: each is one that a line may have, and neither is given alone. */
int check_supplied(const char *command, const struct arguments *given, int needed)
{
    const char *hc = given->hc, *frc = given->frc;
    int64_t number = 0;
    if (hc != NULL && (read_ps(hc, &number) != FITS || number < 0 || number > TRACKLINE_MOST_HC)) {
        return wrong_use("%s: '%s' is no HC, which is 0 to %d", command, hc, TRACKLINE_MOST_HC);
    }
    if (frc != NULL && (strlen(frc) != FRC_WIDTH || !is_code(frc))) {
        return wrong_use("%s: '%s' is no FRC, which is three of A to Z and 0 to 9", command, frc);
    }
    if ((needed || hc != NULL || frc != NULL) && (hc == NULL || frc == NULL)) {
        return wrong_use("%s: %s is needed, as lines of version 01 have none", command, hc == NULL ? "--hc N" : "--frc XYZ");
    }
    return ACCEPTED;
}

/* Whether a word is this option with what it names in the same word or in the next. */
static int is_option(const char *word, const char *option)
{
    size_t length = strlen(option);
    return strncmp(word, option, length) == 0 && (word[length] == '\0' || word[length] == '=');
}

/* The options that name nothing. Answers where the one that is given is noted, or NULL. */
static int *noted(const char *word, int allowed, struct arguments *found)
{
    struct {
        const char *word;
        int where;
        int *given;
    } const options[] = {{"--pairs", WITH_VIEW, &found->pairs},
                         {"--about", WITH_VIEW, &found->about},
                         {"--parted", WITH_VIEW, &found->parted},
                         {"--skip", WITH_CONVERT, &found->skip},
                         {"--show", WITH_STORE, &found->show},
                         {"--sort", WITH_DAY, &found->sort},
                         {"--gps", WITH_DOWN, &found->gps},
                         {"--bad", WITH_READ, &found->bad},
                         {"--csv", WITH_READ, &found->csv}};
    for (size_t i = 0; i < sizeof options / sizeof options[0]; i++) {
        if ((allowed & options[i].where) && strcmp(word, options[i].word) == 0) {
            return options[i].given;
        }
    }
    return NULL;
}

static int read_option(int argc, char **argv, int *i, int allowed, struct arguments *found)
{
    const char *word = argv[*i];
    int *given = noted(word, allowed, found);
    if (given != NULL) {
        *given = 1;
        return ACCEPTED;
    }
    if ((allowed & WITH_CONVERT) && is_option(word, "--frc")) {
        return read_code(argc, argv, i, found);
    }
    if ((allowed & WITH_UP) && is_option(word, "--frc")) {
        return read_named(argc, argv, i, "--frc", "XYZ", &found->frc);
    }
    if ((allowed & (WITH_CONVERT | WITH_UP)) && is_option(word, "--hc")) {
        return read_named(argc, argv, i, "--hc", "a number", &found->hc);
    }
    if ((allowed & WITH_OUTPUT) && word[1] == 'o') {
        return read_named(argc, argv, i, "-o", "a file", &found->output);
    }
    if ((allowed & WITH_VIEW) && is_option(word, "--svg")) {
        return read_named(argc, argv, i, "--svg", "a file", &found->picture);
    }
    if ((allowed & WITH_VIEW) && is_option(word, "--range")) {
        return read_named(argc, argv, i, "--range", "LOW:HIGH", &found->range);
    }
    return wrong_use("%s: no option '%s'", argv[0], word);
}

/* A file that standard output goes to was emptied by the shell before this program began, or would grow while it is read. */
static int complain_of_output(const char *name, int replacing)
{
    char reason[NAME_ROOM];
    int emptied = is_empty(name), named = replacing && strcmp(name, "-") != 0;
    snprintf(reason, sizeof reason, "is also standard output%s%s%s%s",
             emptied ? ", and is empty now: it has to be fetched again" : "",
             replacing ? (emptied ? "; then use -o" : "; use -o") : "", named ? " " : "", named ? name : "");
    complain(name, reason);
    return FAILED;
}

/* What is read is not written to, unless it is to be replaced. */
static int keep_input(const char *command, int allowed, const struct arguments *found, const char *name)
{
    const char *written[] = {allowed & REPLACING ? NULL : found->output, found->picture};
    if (is_standard_output(name)) {
        return complain_of_output(name, allowed & REPLACING);
    }
    for (size_t i = 0; i < sizeof written / sizeof written[0]; i++) {
        if (written[i] != NULL && is_input(written[i], name)) {
            return wrong_use("%s: %s is read, and would be overwritten: name another file", command, written[i]);
        }
    }
    return ACCEPTED;
}

static int keep_inputs(const char *command, int allowed, const struct arguments *found)
{
    int status = found->count == 0 ? keep_input(command, allowed, found, "-") : ACCEPTED;
    int files = allowed & WITH_NUMBERS && found->count > 1 ? 1 : found->count;
    for (int i = 0; i < files && status == ACCEPTED; i++) {
        status = keep_input(command, allowed, found, found->names[i]);
    }
    if (status == ACCEPTED && found->picture != NULL
        && (strcmp(found->picture, "-") == 0 || is_standard_output(found->picture))) {
        status = wrong_use("%s: standard output is for the report, and --svg needs another file", command);
    }
    return status;
}

/* Whether a word that begins with a minus is a number. */
static int is_negative(const char *word, int allowed)
{
    return allowed & WITH_NUMBERS && word[1] >= '0' && word[1] <= '9';
}

/* The files, and the numbers behind them, are gathered at the front of argv, in their order. */
int read_arguments(int argc, char **argv, int allowed, struct arguments *found)
{
    int files_only = 0, status = ACCEPTED;
    memset(found, 0, sizeof *found);
    found->names = argv + 1;
    for (int i = 1; i < argc && status == ACCEPTED; i++) {
        char *word = argv[i];
        if (files_only || word[0] != '-' || word[1] == '\0' || is_negative(word, allowed)) {
            found->names[found->count++] = word;
        } else if (strcmp(word, "--") == 0) {
            files_only = 1;
        } else {
            status = read_option(argc, argv, &i, allowed, found);
        }
    }
    if (status == ACCEPTED && found->count == 0 && !(allowed & NO_FILE)) {
        status = wrong_use("%s: no file", argv[0]);
    }
    return status == ACCEPTED ? keep_inputs(argv[0], allowed, found) : status;
}

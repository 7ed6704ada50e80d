/*
 * cggtts: files of CGGTTS data lines and of what they are made from, for people at a keyboard. The work is done by the
 * library trackline.
 */
#include "cggtts.h"

#include <signal.h>
#include <string.h>

#ifndef VERSION
#define VERSION "unknown"
#endif

static const struct command {
    const char *name;
    const char *arguments;
    const char *purpose;
    int (*run)(int argc, char **argv);
} COMMANDS[] = {
    {"line", "FILE.. [-o OUT]", "print the data line of each hire block, or write them to OUT", line_command},
    {"check", "FILE..", "say whether each hire block is accepted, and what is to blame if not", check_command},
    {"read", "[FILE..] [--bad | --csv]",
     "show what stands in each data line, and what is to blame if it is refused; refused ones alone, or a table", read_command},
    {"convert", "FILE.. [-o LINES] [--skip] [--frc OLD=NEW].. [--hc N --frc XYZ]",
     "make one line file of published files: headers, comments and other fills and line ends taken off; name what can't be taken;\n"
     "        lines of version 01 get HC N and FRC XYZ",
     convert_command},
    {"merge", "FILE FILE.. [-o OUT]", "print the lines of two or more line files as one file, or write it to OUT", merge_command},
    {"view", "FIRST SECOND [--pairs | --about] [--svg PICTURE [--range LOW:HIGH]] [--parted]",
     "report REFSYS of FIRST minus REFSYS of SECOND over the tracks of both, or print each pair; with mean, deviation and\n"
     "        median, rounded; draw them, from LOW to HIGH ns; files of any length, date by date",
     view_command},
    {"day", "FILE.. [-o LINES] [--sort]",
     "make one line file of hire blocks, one or more in each FILE, all or none; with --sort put them in order first", day_command},
    {"down", "LINES.. [-o OLD] [--gps]",
     "make lines of version 01 of GPS lines, without comment, FR, HC and FRC; --gps leaves lines of other constellations out", down_command},
    {"up", "OLD.. --hc N --frc XYZ [-o LINES]", "make lines of ours of lines of version 01, with this HC and FRC", up_command},
    {"path", "X Y Z X Y Z [--ps]",
     "print the length of the straight path between satellite and antenna, all in whole mm; --ps adds the time of light, rounded to ps",
     path_command},
    {"starts", "MJD | yyyy-mm-dd", "print the starts of that date's 89 tracks as hhmmss, in order", starts_command},
    {"delays", "STORE MJD | yyyy-mm-dd", "print the delays in force on that date, and since when and until when they are",
     delays_command},
    {"append", "STORE MJD INT CAB REF [GD] -o OUT",
     "write the store with one entry more, in force from that date on; delays in ps; OUT may be STORE", append_command},
    {"store", "TEXT -o STORE | --show STORE [-o TEXT]",
     "make a store of a text with a row for each entry: date, INT, CAB, REF, GD; or show a store as such a text", store_command},
};

enum { COUNT = sizeof COMMANDS / sizeof COMMANDS[0] };

static void print_usage(const struct command *command)
{
    print_form("    cggtts %s %s\n        %s\n", command->name, command->arguments, command->purpose);
}

static int print_help(const struct command *only)
{
    print_text("usage:\n");
    for (int i = 0; i < COUNT; i++) {
        if (only == NULL || only == &COMMANDS[i]) {
            print_usage(&COMMANDS[i]);
        }
    }
    print_text("A FILE named -, or for read no FILE, is standard input. Exit status: 0 accepted, 1 refused, 2 wrong use or\n"
               "a file that can't be read or written. See cggtts(1).\n");
    return ACCEPTED;
}

static const struct command *command_named(const char *name)
{
    for (int i = 0; i < COUNT; i++) {
        if (strcmp(COMMANDS[i].name, name) == 0) {
            return &COMMANDS[i];
        }
    }
    return NULL;
}

static int is_help(const char *word)
{
    return strcmp(word, "--help") == 0 || strcmp(word, "-h") == 0;
}

static int is_version(const char *word)
{
    return strcmp(word, "--version") == 0 || strcmp(word, "-V") == 0;
}

/* Whether help is asked for behind a subcommand; behind -- every word is a file. */
static int asks_for_help(int argc, char **argv)
{
    for (int i = 2; i < argc && strcmp(argv[i], "--") != 0; i++) {
        if (is_help(argv[i])) {
            return 1;
        }
    }
    return 0;
}

/* cggtts help, by itself or with a subcommand behind it. */
static int help_command(int argc, char **argv)
{
    const struct command *only = argc == 3 ? command_named(argv[2]) : NULL;
    if (argc > 3) {
        return wrong_use("help: '%s' is one word too many", argv[3]);
    }
    if (argc == 3 && only == NULL) {
        return wrong_use("no subcommand '%s'", argv[2]);
    }
    return print_help(only);
}

static int run(int argc, char **argv)
{
    if (argc < 2) {
        return wrong_use("a subcommand is missing");
    }
    int help = is_help(argv[1]), version = is_version(argv[1]);
    if (strcmp(argv[1], "help") == 0) {
        return help_command(argc, argv);
    }
    if ((help || version) && argc > 2) {
        return wrong_use("%s: '%s' is one word too many", argv[1], argv[2]);
    }
    if (help) {
        return print_help(NULL);
    }
    if (version) {
        print_text("cggtts " VERSION "\n");
        return ACCEPTED;
    }
    const struct command *command = command_named(argv[1]);
    if (command == NULL) {
        return wrong_use("no subcommand '%s'", argv[1]);
    }
    if (asks_for_help(argc, argv)) {
        return print_help(command);
    }
    return command->run(argc - 1, argv + 1);
}

/* A file that would grow beyond the limit on its size is an error of writing, as a full disk is, and no signal. */
int main(int argc, char **argv)
{
    signal(SIGXFSZ, SIG_IGN);
    int status = run(argc, argv);
    int closed = close_output();
    return closed > status ? closed : status;
}

#include "program.h"

#include <errno.h>
#include <fcntl.h>
#include <getopt.h>
#include <signal.h>
#include <stdio.h>
#include <stdlib.h>
#include <string.h>
#include <unistd.h>

#include "staffripple.h"

static const char *program = "";

/*
 * A file that is opened while a standard stream is closed would take the stream's number, and what is meant for the
 * stream would go into the file. So each has a file, one that cannot be used the stream's way.
 */
static void fill_streams(void)
{
    for (int stream = STDIN_FILENO; stream <= STDERR_FILENO; stream++) {
        if (fcntl(stream, F_GETFD) == -1 && errno == EBADF &&
            open("/dev/null", stream == STDIN_FILENO ? O_WRONLY : O_RDONLY) != stream)
            exit(EXIT_FAILED);
    }
}

void program_begin(const char *name)
{
    program = name;
    fill_streams();
    struct sigaction ignore = {.sa_handler = SIG_IGN};
    sigemptyset(&ignore.sa_mask);
    sigaction(SIGPIPE, &ignore, NULL);
    sigaction(SIGXFSZ, &ignore, NULL);
}

int complain(int status, const char *name, const char *what)
{
    fprintf(stderr, "%s: %s: %s\n", program, name, what);
    return status;
}

int misused(const char *what, const char *word)
{
    fprintf(stderr, "%s: %s%s; %s --help says more\n", program, what, word, program);
    return EXIT_USAGE;
}

int misused_option(int found, char **words)
{
    const char letter[] = {'-', (char)optopt, 0};
    const char *word = optopt > 0 && optopt < LONG_OPTION ? letter : words[optind - 1];
    return misused(found == ':' ? "a word is missing after " : "no such option: ", word);
}

int print_octets(const void *octets, size_t length)
{
    const char *rest = octets;
    while (length > 0) {
        ssize_t written = write(STDOUT_FILENO, rest, length);
        if (written < 0 && errno != EINTR)
            return complain(EXIT_FAILED, "standard output", strerror(errno));
        if (written > 0) {
            rest += written;
            length -= (size_t)written;
        }
    }
    return EXIT_GOOD;
}

int print_text(const char *text)
{
    return print_octets(text, strlen(text));
}

int print_version(void)
{
    char line[200];
    snprintf(line, sizeof line, "%s " STAFFRIPPLE_VERSION " (" STAFFRIPPLE_KIT ")\n", program);
    return print_text(line);
}

int print_flush(void)
{
    if (fflush(stdout) != 0 || ferror(stdout))
        return complain(EXIT_FAILED, "standard output", strerror(errno));
    return EXIT_GOOD;
}

int program_end(int status)
{
    if (close(STDOUT_FILENO) != 0 && status == EXIT_GOOD)
        return complain(EXIT_FAILED, "standard output", strerror(errno));
    return status;
}

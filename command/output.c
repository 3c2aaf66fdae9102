/* output.c: the beginning and the end of what the command prints, and how it ends when it is disturbed. */
#include "output.h"

#include <errno.h>
#include <signal.h>
#include <stdbool.h>
#include <stdio.h>
#include <string.h>
#include <unistd.h>

/* Who reads has seen enough: no word, but not all is well, since not all was said. */
static void on_closed_pipe(int signal_number)
{
    (void)signal_number;
    _exit(STATUS_WRONG);
}

/* A mapped file was cut short by another program while it was read. */
static void on_lost_page(int signal_number)
{
    static const char line[] = "boundary: the file became shorter while it was read. Try again when no program writes to it.\n";
    (void)signal_number;
    if (write(STDERR_FILENO, line, sizeof line - 1) < 0)
        _exit(STATUS_WRONG); /* nobody can be told */
    _exit(STATUS_WRONG);
}

/* Has a signal handled, and lets it through. */
static void handle(int signal_number, void (*handler)(int))
{
    struct sigaction action = {.sa_handler = handler};
    sigset_t set;
    sigemptyset(&action.sa_mask);
    sigaction(signal_number, &action, NULL);
    sigemptyset(&set);
    sigaddset(&set, signal_number);
    sigprocmask(SIG_UNBLOCK, &set, NULL);
}

void output_begin(void)
{
    handle(SIGPIPE, on_closed_pipe);
    handle(SIGBUS, on_lost_page);
}

enum status output_end(enum status status)
{
    bool failed = ferror(stdout) != 0;
    errno = 0;
    if (fclose(stdout) != 0)
        failed = true;
    if (!failed)
        return status;
    fprintf(stderr, "boundary: the output could not be written in full%s%s.\n", errno != 0 ? ": " : "", errno != 0 ? strerror(errno) : "");
    return STATUS_WRONG;
}

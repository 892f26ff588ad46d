/*
 * terminal: runs a command with its standard output on a terminal of its own,
 * and copies what it prints there to standard output.
 *
 *   terminal COMMAND WORD..
 *
 * Exit status: the command's; 125 if there is no terminal or the command can't
 * be run or is killed.
 */
#define _XOPEN_SOURCE 700

#include <fcntl.h>
#include <stdio.h>
#include <stdlib.h>
#include <sys/wait.h>
#include <termios.h>
#include <unistd.h>

enum { STATUS_FAILED = 125 };

static int failed(const char *what)
{
    perror(what);
    return STATUS_FAILED;
}

/* A terminal that changes no byte. */
static int open_terminal(int control)
{
    struct termios settings;
    int terminal = open(ptsname(control), O_RDWR | O_NOCTTY);
    if (terminal < 0 || tcgetattr(terminal, &settings) != 0)
        return -1;
    settings.c_oflag &= ~(tcflag_t)OPOST;
    return tcsetattr(terminal, TCSANOW, &settings) == 0 ? terminal : -1;
}

/* Until every program on the terminal has closed it. */
static void copy(int control)
{
    char bytes[4096];
    ssize_t got;
    while ((got = read(control, bytes, sizeof bytes)) > 0)
        fwrite(bytes, 1, (size_t)got, stdout);
}

int main(int argc, char **argv)
{
    int control = posix_openpt(O_RDWR | O_NOCTTY), status;
    if (argc < 2 || control < 0 || grantpt(control) != 0 || unlockpt(control) != 0)
        return failed("terminal");
    int terminal = open_terminal(control);
    if (terminal < 0)
        return failed("terminal");
    pid_t child = fork();
    if (child < 0)
        return failed("fork");
    if (child == 0) {
        dup2(terminal, STDOUT_FILENO);
        close(terminal);
        close(control);
        execvp(argv[1], argv + 1);
        _exit(failed(argv[1]));
    }
    close(terminal);
    copy(control);
    if (waitpid(child, &status, 0) != child || !WIFEXITED(status))
        return STATUS_FAILED;
    return fflush(stdout) == 0 ? WEXITSTATUS(status) : STATUS_FAILED;
}

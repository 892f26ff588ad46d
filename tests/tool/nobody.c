/*
 * nobody: runs a command as a user whom files' modes hold, also if root starts
 * it.
 *
 *   nobody COMMAND WORD..
 */
#define _DEFAULT_SOURCE

#include <grp.h>
#include <stdio.h>
#include <unistd.h>

enum { NOBODY = 65534, STATUS_FAILED = 125 };

int main(int argc, char **argv)
{
    if (geteuid() == 0 &&
        (setgroups(0, NULL) != 0 || setgid(NOBODY) != 0 || setuid(NOBODY) != 0)) {
        perror("nobody");
        return STATUS_FAILED;
    }
    if (argc > 1)
        execvp(argv[1], argv + 1);
    perror(argc > 1 ? argv[1] : "nobody");
    return STATUS_FAILED;
}

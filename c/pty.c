/* Puts a program behind a pseudo-terminal, so that a client of serial lines can be put in front of it:
 *
 *     pty PROGRAM WORD..
 *
 * The name of the line that a client opens is printed on standard output. Then the program takes this one's
 * place, with the other end of the line as its standard input and output. The line is raw, as a serial line
 * is: one that echoes would let the program hear its own answers. Where something of this cannot be done it
 * is said on standard error, and the status is 1. */
#include "sys.h"

static int complain(const char *what)
{
    char line[96];
    int n = snprintf(line, sizeof line, "pty: cannot %.60s\n", what);

    return write(2, line, (size_t)n) == n ? 1 : 2;
}

/* Makes the client's end raw. It stays open in the program that is started: with nobody at that end, as
 * before the first client and between two, the program would otherwise be told of an error. */
static int hold_raw(const char *name)
{
    struct termios line;
    int client = open(name, SYS_BOTH_WAYS | SYS_NOT_CONTROLLING);

    if (client < 0 || tcgetattr(client, &line) != 0)
        return 0;
    cfmakeraw(&line);
    return tcsetattr(client, SYS_NOW, &line) == 0;
}

static int say_name(const char *name)
{
    char line[96];
    int n = snprintf(line, sizeof line, "%s\n", name);

    return n < (int)sizeof line && write(1, line, (size_t)n) == n;
}

int main(int argc, char **argv)
{
    int end = posix_openpt(SYS_BOTH_WAYS | SYS_NOT_CONTROLLING);
    char *name;

    if (argc < 2)
        return complain("start nothing: pty PROGRAM WORD..");
    if (end < 0 || grantpt(end) != 0 || unlockpt(end) != 0 || (name = ptsname(end)) == NULL)
        return complain("make a pseudo-terminal");
    if (!hold_raw(name))
        return complain("make the line raw");
    if (!say_name(name))
        return complain("say the line's name");
    if (dup2(end, 0) != 0 || dup2(end, 1) != 1)
        return complain("put the line in place");
    execvp(argv[1], argv + 1);
    return complain("start the program");
}

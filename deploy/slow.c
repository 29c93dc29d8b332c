/* For the tries: runs PROGRAM with the words that it is given, and passes on what it writes, at RATE bytes a second. */
#include <stdlib.h>
#include <time.h>
#include <unistd.h>

static void run(int output, char **words)
{
    dup2(output, 1);
    close(output);
    execv(PROGRAM, words);
    _exit(127);
}

static void pass_on(const char *piece, ssize_t size)
{
    long nanoseconds = (long)(size * 1e9 / RATE);
    nanosleep(&(struct timespec){nanoseconds / 1000000000, nanoseconds % 1000000000}, NULL);
    while (size > 0) {
        ssize_t gone = write(1, piece, size);
        if (gone < 0)
            exit(1);
        piece += gone;
        size -= gone;
    }
}

int main(int count, char **words)
{
    static char piece[1 << 16];
    int ends[2];
    ssize_t size;
    (void)count;
    if (pipe(ends) != 0)
        return 1;
    if (fork() == 0) {
        close(ends[0]);
        run(ends[1], words);
    }
    close(ends[1]);
    while ((size = read(ends[0], piece, sizeof piece)) > 0)
        pass_on(piece, size);
    return size < 0;
}

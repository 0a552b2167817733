/* Mistakes in calls of a checked archive: each is made in a process of its own, which must end by SIGABRT with one line. */
#ifndef MISUSED_H
#define MISUSED_H

#include "check.h"
#include <signal.h>
#include <sys/wait.h>

struct mistake {
    const char *line;
    void (*make)(void);
};

/* The process that makes a mistake, with standard error in a pipe. */
static inline void make_mistake(const struct mistake *mistake, int to)
{
    dup2(to, STDERR_FILENO);
    alarm(60);
    mistake->make();
    _exit(0);
}

static inline void is_told(const struct mistake *mistake)
{
    int ends[2], status = 0;
    char told[400];
    size_t length = 0;
    ssize_t part;
    if (pipe(ends) != 0) {
        perror("pipe");
        exit(2);
    }
    pid_t process = fork();
    if (process == 0)
        make_mistake(mistake, ends[1]);
    close(ends[1]);
    while (length < sizeof told - 1 && (part = read(ends[0], told + length, sizeof told - 1 - length)) > 0)
        length += (size_t)part;
    close(ends[0]);
    waitpid(process, &status, 0);
    told[length] = '\0';
    bool good = WIFSIGNALED(status) && WTERMSIG(status) == SIGABRT && strcmp(told, mistake->line) == 0;
    if (!check_at(good, mistake->line, __FILE__, __LINE__))
        fprintf(stderr, "    status %d, told: %s\n", status, told);
}

#endif

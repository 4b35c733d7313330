/*
 * Runs a program over pipes that give and take little at a time.
 *
 *   pipes feed PIECE PROGRAM.. feeds standard input to PROGRAM, PIECE bytes at a time, each when the last are read, so
 *                              that reads come short; copies what PROGRAM prints through a pipe of one page. Whenever
 *                              PROGRAM sleeps in a write to the full pipe it is stopped and continued: a write that
 *                              has put some bytes in then comes short. Exit status 0 where PROGRAM's is 0.
 *   pipes read-once PROGRAM    stands in for a program that reads once: PROGRAM gets what one read gives
 *   pipes write-once PROGRAM   stands in for one that writes once: what PROGRAM prints goes out by one write
 *
 * At most 65,536 bytes go in under read-once, what a pipe holds.
 */
#define _GNU_SOURCE
#include <errno.h>
#include <fcntl.h>
#include <signal.h>
#include <stdbool.h>
#include <stdio.h>
#include <stdlib.h>
#include <string.h>
#include <sys/ioctl.h>
#include <sys/prctl.h>
#include <sys/wait.h>
#include <unistd.h>

enum { MOST = 1 << 20, PAGE = 4096, SECONDS = 120 };

static char bytes[MOST];

static void check(bool good, const char *what) {
    if (!good) {
        perror(what);
        exit(2);
    }
}

/* All that can be read, and how much. */
static size_t read_all(int fd) {
    size_t count = 0;
    ssize_t got;
    while ((got = read(fd, bytes + count, MOST - count)) > 0) {
        count += (size_t)got;
    }
    check(got == 0, "pipes: read");
    return count;
}

static void write_all(int fd, const char *from, size_t count) {
    while (count > 0) {
        ssize_t put = write(fd, from, count);
        check(put > 0, "pipes: write");
        from += put;
        count -= (size_t)put;
    }
}

/* Starts a program over two files; it dies with this one. */
static pid_t start(char **program, int in, int out) {
    pid_t pid = fork();
    check(pid >= 0, "pipes: fork");
    if (pid == 0) {
        prctl(PR_SET_PDEATHSIG, SIGKILL);
        signal(SIGPIPE, SIG_DFL);
        dup2(in, STDIN_FILENO);
        dup2(out, STDOUT_FILENO);
        execv(*program, program);
        perror(*program);
        _exit(127);
    }
    return pid;
}

static int ended(pid_t pid) {
    int status;
    check(waitpid(pid, &status, 0) == pid, "pipes: waitpid");
    return WIFEXITED(status) ? WEXITSTATUS(status) : 128 + WTERMSIG(status);
}

static int waiting(int fd) {
    int count = 0;
    check(ioctl(fd, FIONREAD, &count) == 0, "pipes: FIONREAD");
    return count;
}

/* A process's state: S where it sleeps, Z where it has ended. */
static char state(pid_t pid) {
    char name[64], text[512];
    snprintf(name, sizeof name, "/proc/%d/stat", (int)pid);
    int fd = open(name, O_RDONLY);
    check(fd >= 0, name);
    ssize_t got = read(fd, text, sizeof text - 1);
    close(fd);
    check(got > 0, name);
    text[got] = 0;
    const char *after = strrchr(text, ')');
    return after != NULL && after[1] == ' ' ? after[2] : '?';
}

/* Feeds a piece at a time. Ends early where the program doesn't read on: it has ended, or sleeps over its output. */
static void feed(int to, int from, pid_t pid, size_t count, size_t piece) {
    for (size_t at = 0; at < count; at += piece) {
        size_t n = count - at < piece ? count - at : piece;
        if (write(to, bytes + at, n) < 0 && errno == EPIPE) {
            return;
        }
        while (waiting(to) > 0) {
            char now = state(pid);
            if (now == 'Z' || (now == 'S' && waiting(from) > 0)) {
                return;
            }
            usleep(10);
        }
    }
}

/* Makes a sleeping program's write come short. */
static void interrupt(pid_t pid) {
    int status;
    check(kill(pid, SIGSTOP) == 0, "pipes: SIGSTOP");
    check(waitpid(pid, &status, WUNTRACED) == pid && WIFSTOPPED(status), "pipes: a stop");
    check(kill(pid, SIGCONT) == 0, "pipes: SIGCONT");
}

/* Copies what comes out, each time when the program has ended or sleeps over what it has written. */
static void drain(int from, pid_t pid) {
    static char page[PAGE];
    for (;;) {
        int before;
        char now;
        do {
            before = waiting(from);
            usleep(200);
            now = state(pid);
        } while (now != 'Z' && !(now == 'S' && before > 0 && waiting(from) == before));
        if (now == 'S') {
            interrupt(pid);
        } else if (waiting(from) == 0) {
            return;
        }
        ssize_t got = read(from, page, sizeof page);
        check(got > 0, "pipes: read");
        write_all(STDOUT_FILENO, page, (size_t)got);
    }
}

static int feed_program(size_t piece, char **program) {
    int in[2], out[2];
    size_t count = read_all(STDIN_FILENO);
    check(piece > 0 && pipe2(in, O_CLOEXEC) == 0 && pipe2(out, O_CLOEXEC) == 0, "pipes: pipe2");
    check(fcntl(out[1], F_SETPIPE_SZ, PAGE) >= PAGE, "pipes: F_SETPIPE_SZ");
    pid_t pid = start(program, in[0], out[1]);
    close(in[0]);
    close(out[1]);
    feed(in[1], out[0], pid, count, piece);
    close(in[1]);
    drain(out[0], pid);
    return ended(pid);
}

static int read_once(char **program) {
    int in[2];
    ssize_t got = read(STDIN_FILENO, bytes, 65536);
    check(got >= 0 && pipe(in) == 0, "pipes: read");
    write_all(in[1], bytes, (size_t)got);
    close(in[1]);
    dup2(in[0], STDIN_FILENO);
    execv(*program, program);
    check(false, *program);
    return 2;
}

static int write_once(char **program) {
    int out[2];
    check(pipe2(out, O_CLOEXEC) == 0, "pipes: pipe2");
    pid_t pid = start(program, STDIN_FILENO, out[1]);
    close(out[1]);
    size_t count = read_all(out[0]);
    int status = ended(pid);
    check(write(STDOUT_FILENO, bytes, count) >= 0, "pipes: write");
    return status;
}

int main(int count, char **words) {
    signal(SIGPIPE, SIG_IGN);
    alarm(SECONDS);
    if (count >= 4 && strcmp(words[1], "feed") == 0) {
        return feed_program(strtoul(words[2], NULL, 10), words + 3);
    }
    if (count == 3 && strcmp(words[1], "read-once") == 0) {
        return read_once(words + 2);
    }
    if (count == 3 && strcmp(words[1], "write-once") == 0) {
        return write_once(words + 2);
    }
    fputs("pipes: feed PIECE PROGRAM.., read-once PROGRAM or write-once PROGRAM\n", stderr);
    return 2;
}

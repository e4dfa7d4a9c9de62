// What lotd needs, of Linux. A command is a process group of its own, so a signal reaches all its processes.

#define _GNU_SOURCE

#include "machine.h"

#include <dirent.h>
#include <fcntl.h>
#include <limits.h>
#include <sched.h>
#include <signal.h>
#include <stdio.h>
#include <stdlib.h>
#include <string.h>
#include <sys/prctl.h>
#include <sys/resource.h>
#include <sys/wait.h>
#include <time.h>
#include <unistd.h>

static const int ends[] = {SIGINT, SIGTERM, SIGHUP, SIGQUIT};
static volatile sig_atomic_t told;
static cpu_set_t set; // where commands run

static void hear(int signal) {
    told = signal;
}

// What is ignored, as after nohup, stays so.
static void handle_ends(void (*handler)(int)) {
    struct sigaction action = {.sa_handler = handler, .sa_flags = SA_RESTART}, before;
    for (size_t i = 0; i < sizeof ends / sizeof *ends; i++) {
        if (sigaction(ends[i], NULL, &before) == 0 && before.sa_handler != SIG_IGN) {
            sigaction(ends[i], &action, NULL);
        }
    }
}

static void fail(const char *what) {
    perror(what);
    exit(2);
}

void machine_open(uint32_t processors) {
    cpu_set_t all;
    if (sched_getaffinity(0, sizeof all, &all) != 0 || CPU_COUNT(&all) < (int)processors) {
        fprintf(stderr, "lotd: there are fewer processors\n");
        exit(2);
    }
    for (size_t i = CPU_SETSIZE; CPU_COUNT(&set) < (int)processors;) {
        if (CPU_ISSET(--i, &all)) {
            CPU_SET(i, &set);
        }
    }
    handle_ends(hear);
}

int machine_told(void) {
    int signal = told;
    told = 0;
    return signal;
}

// If lotd is killed, Linux kills the command, and not what this has started.
static void become(const char *words, pid_t parent) {
    int empty = open("/dev/null", O_RDONLY);
    handle_ends(SIG_DFL);
    if (setpgid(0, 0) != 0 || prctl(PR_SET_PDEATHSIG, SIGKILL) != 0 || getppid() != parent ||
        sched_setaffinity(0, sizeof set, &set) != 0 || dup2(empty, STDIN_FILENO) != STDIN_FILENO) {
        _exit(127);
    }
    raise(SIGSTOP);
    execl("/bin/sh", "sh", "-c", words, (char *)NULL);
    _exit(127);
}

int machine_start(const char *words) {
    int status;
    pid_t parent = getpid(), pid = fork();
    if (pid == 0) {
        become(words, parent);
    }
    if (pid < 0 || waitpid(pid, &status, WUNTRACED) != pid || !WIFSTOPPED(status)) {
        fail(words);
    }
    return pid;
}

void machine_send(int command, int signal) {
    kill(-command, signal);
}

// What the system says of a thread stands behind its name, which has parentheses and may have any letters: its state,
// and as 13th and 14th number what the children had for which its process has waited.
static void look_at_thread(const char *folder, const char *thread, bool is_first, struct look *look) {
    char path[PATH_MAX], text[512], state;
    unsigned long user, system;
    snprintf(path, sizeof path, "%s/%s/stat", folder, thread);
    FILE *file = fopen(path, "r");
    const char *end = file != NULL && fgets(text, sizeof text, file) != NULL ? strrchr(text, ')') : NULL;
    if (end != NULL && sscanf(end + 1, " %c %*d %*d %*d %*d %*d %*u %*u %*u %*u %*u %*u %*u %lu %lu", &state, &user,
                              &system) == 3) {
        look->is_stopped = look->is_stopped || state == 'T';
        look->is_busy = look->is_busy || state == 'R' || state == 'T';
        look->ran += is_first ? (user + system) * (1000000000 / (uint64_t)sysconf(_SC_CLK_TCK)) : 0;
    }
    if (file != NULL) {
        fclose(file);
    }
}

static void look_at(pid_t pid, struct look *look);

static void look_at_children(const char *folder, const char *thread, struct look *look) {
    char path[PATH_MAX];
    int child;
    snprintf(path, sizeof path, "%s/%s/children", folder, thread);
    FILE *file = fopen(path, "r");
    while (file != NULL && fscanf(file, "%d", &child) == 1) {
        look_at(child, look);
    }
    if (file != NULL) {
        fclose(file);
    }
}

// Looks at the threads of a process, and at the children of each.
static void look_at(pid_t pid, struct look *look) {
    char folder[64];
    clockid_t clock;
    struct timespec time;
    if (clock_getcpuclockid(pid, &clock) == 0 && clock_gettime(clock, &time) == 0) {
        look->ran += (uint64_t)time.tv_sec * 1000000000 + (uint64_t)time.tv_nsec;
    }
    snprintf(folder, sizeof folder, "/proc/%d/task", pid);
    DIR *threads = opendir(folder);
    for (struct dirent *it; threads != NULL && (it = readdir(threads)) != NULL;) {
        if (it->d_name[0] != '.') {
            look_at_thread(folder, it->d_name, atoi(it->d_name) == pid, look);
            look_at_children(folder, it->d_name, look);
        }
    }
    if (threads != NULL) {
        closedir(threads);
    }
}

struct look machine_look(int command) {
    struct look look = {0, false, false};
    look_at(command, &look);
    return look;
}

static uint64_t nanoseconds_of(struct timeval time) {
    return (uint64_t)time.tv_sec * 1000000000 + (uint64_t)time.tv_usec * 1000;
}

bool machine_ended(int command, struct end *end) {
    struct rusage usage;
    if (wait4(command, &end->status, WNOHANG, &usage) != command) {
        return false;
    }
    end->ran = nanoseconds_of(usage.ru_utime) + nanoseconds_of(usage.ru_stime);
    kill(-command, SIGCONT); // what it leaves in the background
    return true;
}

void machine_pause(uint64_t nanoseconds) {
    struct timespec time = {(time_t)(nanoseconds / 1000000000), (long)(nanoseconds % 1000000000)};
    nanosleep(&time, NULL);
}

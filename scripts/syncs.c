/* Preloaded into a program, this counts and times what it does on files. At the program's end it writes into the file that
   the environment variable SYNCS names: the calls of pwrite, those of fdatasync, the seconds that passed in fdatasync, and
   the most memory that the program had, in kB.

   Build: cc -shared -fPIC -o syncs.so syncs.c. Use: SYNCS=FILE LD_PRELOAD=./syncs.so PROGRAM */
#define _GNU_SOURCE

#include <stdio.h>
#include <stdlib.h>
#include <sys/syscall.h>
#include <time.h>
#include <unistd.h>

static long writes, syncs;
static double in_syncs;

static double seconds(void)
{
    struct timespec now;
    clock_gettime(CLOCK_MONOTONIC, &now);
    return (double)now.tv_sec + (double)now.tv_nsec / 1e9;
}

ssize_t pwrite(int file, const void *bytes, size_t count, off_t at)
{
    writes++;
    return syscall(SYS_pwrite64, file, bytes, count, at);
}

int fdatasync(int file)
{
    double start = seconds();
    int answer = (int)syscall(SYS_fdatasync, file);
    in_syncs += seconds() - start;
    syncs++;
    return answer;
}

/* The most memory that the program had. */
static long most_memory(void)
{
    long most = 0;
    char line[256];
    FILE *status = fopen("/proc/self/status", "r");
    if (status == NULL)
        return 0;
    while (fgets(line, sizeof line, status) != NULL && sscanf(line, "VmHWM: %ld", &most) != 1)
        ;
    fclose(status);
    return most;
}

__attribute__((destructor)) static void tell(void)
{
    const char *name = getenv("SYNCS");
    FILE *report = name == NULL ? NULL : fopen(name, "w");
    if (report == NULL)
        return;
    fprintf(report, "%ld %ld %.6f %ld\n", writes, syncs, in_syncs, most_memory());
    fclose(report);
}

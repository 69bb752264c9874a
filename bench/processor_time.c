/* Answers each clock by the processor time of the process, so that the programs of bench/run measure
 * what they use and not what they wait for on a machine with other work:
 *     cc -shared -fPIC -O1 bench/processor_time.c -o /tmp/processor_time.so
 *     LD_PRELOAD=/tmp/processor_time.so FOLDER/crates/bench_calls/out/bench_calls
 */
#include <sys/syscall.h>
#include <time.h>
#include <unistd.h>

int clock_gettime(clockid_t clock, struct timespec *at) {
    (void)clock;
    return (int)syscall(SYS_clock_gettime, CLOCK_PROCESS_CPUTIME_ID, at);
}

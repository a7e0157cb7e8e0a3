/* Runs the threads of the program into which it is preloaded in turns of a few instructions: the
 * trap flag of x86-64 raises SIGTRAP after every instruction, and the handler counts, and passes
 * the turn to a thread drawn at random. So threads meet of which the first would otherwise end
 * before the next one starts. SEED is the seed of the draws, and TURN the most instructions of a
 * turn.
 *
 * A thread passes its turn on before a system call in which it may wait for another thread, and
 * waits for a turn after it. The C library's own creation and joining of threads isn't stepped,
 * since it blocks signals. */
#define _GNU_SOURCE
#include <dlfcn.h>
#include <errno.h>
#include <linux/futex.h>
#include <pthread.h>
#include <signal.h>
#include <stdatomic.h>
#include <stdint.h>
#include <stdlib.h>
#include <sys/syscall.h>
#include <ucontext.h>
#include <unistd.h>
#include <x86intrin.h>

#define THREADS 64
#define NOBODY THREADS
#define TRAP_FLAG 0x100ull

typedef int Create(pthread_t *, const pthread_attr_t *, void *(*)(void *), void *);
typedef int Join(pthread_t, void **);

struct start {
    void *(*run)(void *);
    void *with;
    int number;
};

/* A bit for each number that a thread has, one for each thread that waits for a turn or has it, and
 * whose turn it is. They are changed under the lock. */
static _Atomic uint64_t numbers, members;
static _Atomic uint32_t turn = NOBODY, lock;
/* How often each was given the turn, by which it is woken. */
static _Atomic uint32_t turns[THREADS];
/* What is drawn next, which who has the turn alone draws. */
static uint64_t draws;
static uint64_t longest;

static __thread __attribute__((tls_model("initial-exec"))) int number = -1;
static __thread __attribute__((tls_model("initial-exec"))) uint64_t left;

static void futex(_Atomic uint32_t *word, int operation, uint32_t value) {
    syscall(SYS_futex, word, operation, value, NULL, NULL, 0);
}

static void take_lock(void) {
    while (atomic_exchange(&lock, 1) != 0)
        syscall(SYS_sched_yield);
}

static void let_lock_go(void) { atomic_store(&lock, 0); }

/* A number below the bound (xorshift). */
static uint64_t draw(uint64_t bound) {
    draws ^= draws << 13;
    draws ^= draws >> 7;
    draws ^= draws << 17;
    return draws % bound;
}

/* Gives the turn to one of the members. */
static void pass_turn(void) {
    uint64_t others = members;
    if (others != 0)
        for (uint64_t nth = draw(__builtin_popcountll(others)); nth > 0; nth--)
            others &= others - 1;
    turn = others == 0 ? NOBODY : (uint32_t)__builtin_ctzll(others);
    if (turn == NOBODY || turn == (uint32_t)number)
        return;
    atomic_fetch_add(&turns[turn], 1);
    futex(&turns[turn], FUTEX_WAKE_PRIVATE, 1);
}

static void wait_for_turn(void) {
    for (uint32_t count = turns[number]; turn != (uint32_t)number; count = turns[number])
        futex(&turns[number], FUTEX_WAIT_PRIVATE, count);
    left = 1 + draw(longest);
}

static int is_member(int which) { return members >> which & 1; }

static void join_in(void) {
    take_lock();
    members |= 1ull << number;
    if (turn == NOBODY)
        pass_turn();
    let_lock_go();
    wait_for_turn();
}

static void leave(void) {
    take_lock();
    members &= ~(1ull << number);
    if (turn == (uint32_t)number)
        pass_turn();
    let_lock_go();
}

static int new_number(void) {
    take_lock();
    if (~numbers == 0)
        _exit(77);
    int least = __builtin_ctzll(~numbers);
    numbers |= 1ull << least;
    let_lock_go();
    return least;
}

/* Whether the next instruction is a call of the kernel in which the thread may wait. */
static int may_wait(const greg_t *registers) {
    const unsigned char *next = (const unsigned char *)registers[REG_RIP];
    if (next[0] != 0x0f || next[1] != 0x05)
        return 0;
    return registers[REG_RAX] != SYS_futex || (registers[REG_RSI] & FUTEX_CMD_MASK) != FUTEX_WAKE;
}

/* An instruction was done. Who is no member comes from the kernel. */
static void stepped(int signal, siginfo_t *info, void *context) {
    int error = errno;
    (void)signal;
    (void)info;
    if (number < 0)
        return;
    if (!is_member(number)) {
        join_in();
    } else if (may_wait(((ucontext_t *)context)->uc_mcontext.gregs)) {
        leave();
    } else if (--left == 0) {
        take_lock();
        pass_turn();
        let_lock_go();
        wait_for_turn();
    }
    errno = error;
}

static void step(int is_stepped) {
    uint64_t flags = __readeflags() & ~TRAP_FLAG;
    __writeeflags(is_stepped ? flags | TRAP_FLAG : flags);
}

static void *run_in_turns(void *given) {
    struct start start = *(struct start *)given;
    free(given);
    number = start.number;
    join_in();
    step(1);
    void *result = start.run(start.with);
    step(0);
    if (is_member(number))
        leave();
    atomic_fetch_and(&numbers, ~(1ull << number));
    return result;
}

__attribute__((constructor)) static void begin(void) {
    struct sigaction action = {.sa_sigaction = stepped, .sa_flags = SA_SIGINFO};
    draws = 1 + strtoull(getenv("SEED"), NULL, 10);
    longest = strtoull(getenv("TURN"), NULL, 10);
    if (longest == 0 || sigaction(SIGTRAP, &action, NULL) != 0)
        _exit(77);
}

/* The new thread takes part before the one that makes it goes on. */
int pthread_create(pthread_t *thread, const pthread_attr_t *how, void *(*run)(void *), void *with) {
    step(0);
    Create *create = (Create *)dlsym(RTLD_NEXT, "pthread_create");
    if (number < 0)
        number = new_number();
    if (is_member(number))
        leave();
    struct start *start = malloc(sizeof *start);
    if (start == NULL)
        _exit(77);
    int its = new_number();
    *start = (struct start){run, with, its};
    int result = create(thread, how, run_in_turns, start);
    while (result == 0 && is_member(its) == 0 && (numbers >> its & 1) != 0)
        syscall(SYS_sched_yield);
    join_in();
    step(1);
    return result;
}

int pthread_join(pthread_t thread, void **result) {
    step(0);
    Join *join = (Join *)dlsym(RTLD_NEXT, "pthread_join");
    if (number >= 0 && is_member(number))
        leave();
    return join(thread, result);
}

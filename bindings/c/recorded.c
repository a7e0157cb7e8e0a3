/* An example of yachtrecord.h: records random calls of three threads on a table of three slots, and
 * prints the log (docs/use/RECORDING.md). recorded SEED [N]: one look of N returns what the slot
 * had before. Without N the table is right. It is built with -pthread. */
#include <yachtrecord.h>

enum { SLOTS = 3, THREADS = 3 };

/* A value in the table, and the number of its users: the table, and each hold. */
typedef struct {
    yacht_value *value;
    unsigned users;
} node;

/* A thread's access, with what it holds. */
typedef struct {
    node *held;
} handle;

static pthread_mutex_t lock = PTHREAD_MUTEX_INITIALIZER;
static node *now[SLOTS], *before[SLOTS]; /* what each slot has, and what it had before that */
static unsigned long looks, wrong_look;  /* the number of looks, and which of them are wrong */
static handle handles[THREADS];
static int entered;

static void *enter(void *table) {
    (void)table;
    pthread_mutex_lock(&lock);
    handle *it = entered < THREADS ? &handles[entered++] : NULL;
    pthread_mutex_unlock(&lock);
    return it;
}

static void end_use(node *it) {
    if (!it || --it->users) return;
    yacht_record_drop(it->value);
    free(it);
}

/* Installs a value, or none, and returns whether the slot had one. */
static int swap(uint64_t slot, yacht_value *value) {
    node *it = value ? (node *)malloc(sizeof *it) : NULL, *old = now[slot];
    if (it) it->value = value, it->users = 1;
    now[slot] = it;
    if (!old) return 0;
    end_use(before[slot]);
    before[slot] = old;
    return 1;
}

static yacht_value *get(void *of, uint64_t slot) {
    pthread_mutex_lock(&lock);
    node *it = wrong_look && ++looks % wrong_look == 0 ? before[slot] : now[slot];
    if (it) it->users++;
    pthread_mutex_unlock(&lock);
    ((handle *)of)->held = it;
    return it ? it->value : NULL;
}

static void release(void *of, yacht_value *value) {
    (void)value;
    pthread_mutex_lock(&lock);
    end_use(((handle *)of)->held);
    pthread_mutex_unlock(&lock);
}

static void put(void *of, uint64_t slot, yacht_value *value) {
    (void)of;
    pthread_mutex_lock(&lock);
    swap(slot, value);
    pthread_mutex_unlock(&lock);
}

static int put_any(void *of, yacht_value *value, uint64_t *slot) {
    (void)of;
    pthread_mutex_lock(&lock);
    for (*slot = 0; *slot < SLOTS && now[*slot]; ++*slot) {}
    if (*slot < SLOTS) swap(*slot, value);
    pthread_mutex_unlock(&lock);
    return *slot < SLOTS;
}

static int take(void *of, uint64_t slot) {
    (void)of;
    pthread_mutex_lock(&lock);
    int was_full = swap(slot, NULL);
    pthread_mutex_unlock(&lock);
    return was_full;
}

/* Drops what the slots had before. */
static void rest(void *of) {
    (void)of;
    pthread_mutex_lock(&lock);
    for (int slot = 0; slot < SLOTS; slot++) end_use(before[slot]), before[slot] = NULL;
    pthread_mutex_unlock(&lock);
}

/* Reads a number, or ends the program. */
static unsigned long number(const char *word) {
    char *end;
    unsigned long it = strtoul(word, &end, 10);
    if (*word >= '0' && *word <= '9' && !*end) return it;
    fprintf(stderr, "recorded: '%s' is not a number\n", word);
    exit(2);
}

int main(int count, char **words) {
    yacht_calls calls = {enter, get, release, put, put_any, take, rest};
    yacht_plan plan = {count > 1 ? number(words[1]) : 1, THREADS, 20, 1000, SLOTS, 20};
    wrong_look = count > 2 ? number(words[2]) : 0;
    return yacht_record(NULL, calls, plan);
}

/* How many syncs a program makes that only appends: so many threads, each with so many transactions, of which each appends one audit record to
   each of two trails, or some to the first, and then a commit record to the monitor trail. A batch goes out as the trails of tmf have it: its head behind a closed
   gate, its records and the next closed gate, a sync, the open gate, a sync. Whoever lands takes all that waits with it. Arguments: threads,
   transactions of each, a folder, and how many audit records the first trail gets, one where nothing is said. It prints the syncs of all. */
#include <fcntl.h>
#include <pthread.h>
#include <stdio.h>
#include <stdlib.h>
#include <string.h>
#include <unistd.h>

enum { TRAILS = 3, THREADS = 64, HEAD = 16, AUDIT = 128, COMMIT = 32, ROOM = 64 * 1024 };

struct trail {
    pthread_mutex_t waiting, landing;
    char pending[ROOM];
    size_t bytes;
    long handed, landed, syncs;
    off_t end;
    int file;
};

static struct trail trails[TRAILS];
static int transactions, first = 1;

static void must(int well) {
    if (!well) {
        perror("floor");
        exit(1);
    }
}

/* Writes a batch of so many bytes behind its closed gate, and the next closed gate; syncs, opens the gate, syncs. */
static void write_batch(struct trail *to, const char *batch, size_t bytes) {
    const char open_gate = 1;
    must(pwrite(to->file, batch, bytes + 1, to->end) == (ssize_t)bytes + 1 && fdatasync(to->file) == 0);
    must(pwrite(to->file, &open_gate, 1, to->end) == 1 && fdatasync(to->file) == 0);
    to->end += bytes;
    to->syncs += 2;
}

/* Hands a record in, and comes back when it has landed. */
static void land(struct trail *to, size_t bytes) {
    static __thread char batch[HEAD + ROOM + 1];
    pthread_mutex_lock(&to->waiting);
    memset(to->pending + to->bytes, 'r', bytes);
    to->bytes += bytes;
    long own = ++to->handed;
    pthread_mutex_unlock(&to->waiting);
    pthread_mutex_lock(&to->landing);
    if (to->landed < own) {
        pthread_mutex_lock(&to->waiting);
        size_t all = to->bytes;
        long last = to->handed;
        memcpy(batch + HEAD, to->pending, all);
        to->bytes = 0;
        pthread_mutex_unlock(&to->waiting);
        batch[HEAD + all] = 0;
        write_batch(to, batch, HEAD + all);
        to->landed = last;
    }
    pthread_mutex_unlock(&to->landing);
}

static void *work(void *nothing) {
    for (int n = 0; n < transactions; n++) {
        land(&trails[0], first * AUDIT);
        land(&trails[1], AUDIT);
        land(&trails[2], COMMIT);
    }
    return nothing;
}

int main(int count, char **words) {
    pthread_t threads[THREADS];
    must(count == 4 || count == 5);
    if (count == 5) first = atoi(words[4]);
    must(1 <= first && first * AUDIT * THREADS <= ROOM);
    int workers = atoi(words[1]);
    must(workers <= THREADS);
    transactions = atoi(words[2]);
    for (int n = 0; n < TRAILS; n++) {
        char name[4096];
        snprintf(name, sizeof name, "%s/%d", words[3], n);
        trails[n].file = open(name, O_RDWR | O_CREAT | O_TRUNC, 0600);
        must(trails[n].file >= 0);
        pthread_mutex_init(&trails[n].waiting, 0);
        pthread_mutex_init(&trails[n].landing, 0);
    }
    for (int n = 0; n < workers; n++) must(pthread_create(&threads[n], 0, work, 0) == 0);
    for (int n = 0; n < workers; n++) pthread_join(threads[n], 0);
    printf("%ld\n", trails[0].syncs + trails[1].syncs + trails[2].syncs);
    return 0;
}

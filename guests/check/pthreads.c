// Threads of POSIX: producers and consumers over a mutex and two conditions, whose sum is known, and lines that stay whole.
#include <pthread.h>
#include <semaphore.h>
#include <stdio.h>
#include <stdlib.h>

enum { ROOM = 3, EACH = 6, PAIRS = 2 };

static pthread_mutex_t mutex = PTHREAD_MUTEX_INITIALIZER;
static pthread_cond_t has_room = PTHREAD_COND_INITIALIZER, has_item = PTHREAD_COND_INITIALIZER;
static pthread_once_t once = PTHREAD_ONCE_INIT;
static pthread_key_t key;
static sem_t done;
static int items[ROOM], count, destroyed;

static void destroy(void *value) {
    destroyed += *(int *)value;
    free(value);
}

static void make_key(void) {
    pthread_key_create(&key, destroy);
}

static void *produce(void *first) {
    pthread_once(&once, make_key);
    int *own = malloc(sizeof *own);
    *own = 1;
    pthread_setspecific(key, own);
    for (int i = 0; i < EACH; i++) {
        pthread_mutex_lock(&mutex);
        while (count == ROOM)
            pthread_cond_wait(&has_room, &mutex);
        items[count++] = (int)(long)first + i;
        pthread_cond_signal(&has_item);
        pthread_mutex_unlock(&mutex);
    }
    sem_post(&done);
    return NULL;
}

static void *consume(void *name) {
    long sum = 0;
    for (int i = 0; i < EACH; i++) {
        pthread_mutex_lock(&mutex);
        while (count == 0)
            pthread_cond_wait(&has_item, &mutex);
        sum += items[--count];
        pthread_cond_signal(&has_room);
        pthread_mutex_unlock(&mutex);
    }
    printf("consumer %s has %d\n", (char *)name, EACH);
    if (sum % 2 == 0)
        pthread_exit((void *)sum);
    return (void *)sum;
}

int main(void) {
    pthread_t threads[2 * PAIRS];
    static char *const names[PAIRS] = {"a", "b"};
    long all = 0;
    void *result;
    sem_init(&done, 0, 0);
    for (int i = 0; i < PAIRS; i++) {
        pthread_create(&threads[2 * i], NULL, produce, (void *)(100l * i));
        pthread_create(&threads[2 * i + 1], NULL, consume, names[i]);
    }
    for (int i = 0; i < 2 * PAIRS; i++) {
        pthread_join(threads[i], &result);
        all += (long)result;
    }
    sem_wait(&done);
    printf("all %ld, destroyed %d, again %d\n", all, destroyed, pthread_mutex_trylock(&mutex));
    return 0;
}

// Threads of POSIX over those of liblog. A thread runs on until its next call, so what makes no call here is done in one go. Which
// thread runs is known by the stack that it is on, without a call.
#include <errno.h>
#include <pthread.h>
#include <semaphore.h>
#include <stdlib.h>

#include "threads.h"

enum { THREADS = 64, USUAL_STACK = 65536 };

static struct thread {
    void *(*start)(void *);
    void *argument, *result;
    uint8_t *stack;
    uint32_t size;
    // Thread 0 is there from the start.
    uint8_t is_there, has_begun, has_ended, is_detached;
    const void *values[PTHREAD_KEYS_MAX];
} threads[THREADS] = {{.is_there = 1, .has_begun = 1}};

static struct key {
    uint8_t is_there;
    void (*destroy)(void *);
} keys[PTHREAD_KEYS_MAX];

// Threads that run yet, and whether thread 0 has left them behind.
static uint32_t running = 1;

static struct thread *this_thread(void) {
    uint32_t place = stack_pointer();
    for (struct thread *thread = threads + 1; thread < threads + THREADS; thread++)
        if (thread->is_there && place - (uint32_t)thread->stack < thread->size)
            return thread;
    return threads;
}

// The lock that a thread has until its end.
static uint32_t end_of(const struct thread *thread) {
    return (uint32_t)thread;
}

static void give_back(struct thread *thread) {
    free(thread->stack);
    *thread = (struct thread){0};
}

static void end(struct thread *thread, void *result) {
    for (int key = 0; key < PTHREAD_KEYS_MAX; key++) {
        void *value = (void *)thread->values[key];
        thread->values[key] = NULL;
        if (value != NULL && keys[key].is_there && keys[key].destroy != NULL)
            keys[key].destroy(value);
    }
    thread->result = result;
    thread->has_ended = 1;
    liblog_unlock(end_of(thread));
    if (--running == 0)
        exit(0);
}

static void begin(int32_t place) {
    struct thread *thread = (struct thread *)place;
    liblog_lock(end_of(thread));
    thread->has_begun = 1;
    end(thread, thread->start(thread->argument));
}

int pthread_create(pthread_t *restrict made, const pthread_attr_t *restrict attributes, void *(*start)(void *), void *restrict argument) {
    struct thread *thread = threads + 1;
    while (thread < threads + THREADS && thread->is_there) {
        // The stack that a thread ends on is free once it has ended.
        if (thread->is_detached && thread->has_ended)
            give_back(thread);
        else
            thread++;
    }
    uint32_t size = attributes != NULL && attributes->__u.__s[0] != 0 ? attributes->__u.__s[0] : USUAL_STACK;
    uint8_t *stack = thread < threads + THREADS ? malloc(size) : NULL;
    if (stack == NULL)
        return EAGAIN;
    *thread = (struct thread){.start = start, .argument = argument, .stack = stack, .size = size, .is_there = 1,
        .is_detached = attributes != NULL && attributes->__u.__i[1] == PTHREAD_CREATE_DETACHED};
    running++;
    if (thread_start(begin, (int32_t)thread, stack, size) < 0) {
        running--;
        give_back(thread);
        return EAGAIN;
    }
    *made = (pthread_t)thread;
    return 0;
}

int pthread_join(pthread_t which, void **result) {
    struct thread *thread = (struct thread *)which;
    if (thread == this_thread())
        return EDEADLK;
    while (!thread->has_begun)
        liblog_yield();
    if (!thread->has_ended) {
        liblog_lock(end_of(thread));
        liblog_unlock(end_of(thread));
    }
    if (result != NULL)
        *result = thread->result;
    give_back(thread);
    return 0;
}

int pthread_detach(pthread_t which) {
    ((struct thread *)which)->is_detached = 1;
    return 0;
}

// A thread of liblog ends with its first function. One that ends further in waits for a lock that nobody gives back.
_Noreturn void pthread_exit(void *result) {
    static uint32_t nobody;
    end(this_thread(), result);
    liblog_lock((uint32_t)&nobody);
    for (;;)
        liblog_join(liblog_thread());
}

pthread_t pthread_self(void) {
    return (pthread_t)this_thread();
}

int pthread_equal(pthread_t left, pthread_t right) {
    return left == right;
}

int pthread_once(pthread_once_t *once, void (*act)(void)) {
    enum { DONE = 1, BEING_DONE };
    while (*once == BEING_DONE)
        liblog_yield();
    if (*once == DONE)
        return 0;
    *once = BEING_DONE;
    act();
    *once = DONE;
    return 0;
}

// ---- What a thread is made with: the size of its stack, and whether it is detached ----

int pthread_attr_init(pthread_attr_t *attributes) {
    *attributes = (pthread_attr_t){0};
    return 0;
}

int pthread_attr_destroy(pthread_attr_t *attributes) {
    (void)attributes;
    return 0;
}

int pthread_attr_setdetachstate(pthread_attr_t *attributes, int state) {
    attributes->__u.__i[1] = state;
    return 0;
}

int pthread_attr_setstacksize(pthread_attr_t *attributes, size_t size) {
    if (size < PTHREAD_STACK_MIN)
        return EINVAL;
    attributes->__u.__s[0] = size;
    return 0;
}

// ---- Mutexes ----

// Its type, the number of the thread that has it and 1, or 0, and how many times more that thread has taken it.
#define TYPE_OF(mutex) ((mutex)->__u.__i[0])
#define OWNER(mutex) ((mutex)->__u.__i[1])
#define AGAIN(mutex) ((mutex)->__u.__i[2])

static int own_number(void) {
    return (int)(this_thread() - threads) + 1;
}

int pthread_mutex_init(pthread_mutex_t *restrict mutex, const pthread_mutexattr_t *restrict attributes) {
    *mutex = (pthread_mutex_t){0};
    TYPE_OF(mutex) = attributes != NULL ? (int)attributes->__attr : PTHREAD_MUTEX_DEFAULT;
    return 0;
}

int pthread_mutex_destroy(pthread_mutex_t *mutex) {
    return OWNER(mutex) != 0 ? EBUSY : 0;
}

int pthread_mutex_lock(pthread_mutex_t *mutex) {
    if (liblog_lock((uint32_t)mutex) == 0) {
        OWNER(mutex) = own_number();
        return 0;
    }
    // This thread has it already. One that takes an ordinary one twice is told, in place of waiting forever.
    if (TYPE_OF(mutex) != PTHREAD_MUTEX_RECURSIVE)
        return EDEADLK;
    AGAIN(mutex)++;
    return 0;
}

// It waits if another thread takes the mutex at the same moment.
int pthread_mutex_trylock(pthread_mutex_t *mutex) {
    if (OWNER(mutex) == 0 || (TYPE_OF(mutex) == PTHREAD_MUTEX_RECURSIVE && OWNER(mutex) == own_number()))
        return pthread_mutex_lock(mutex);
    return EBUSY;
}

int pthread_mutex_unlock(pthread_mutex_t *mutex) {
    if (OWNER(mutex) != own_number())
        return EPERM;
    if (AGAIN(mutex) > 0) {
        AGAIN(mutex)--;
        return 0;
    }
    OWNER(mutex) = 0;
    liblog_unlock((uint32_t)mutex);
    return 0;
}

int pthread_mutexattr_init(pthread_mutexattr_t *attributes) {
    attributes->__attr = PTHREAD_MUTEX_DEFAULT;
    return 0;
}

int pthread_mutexattr_destroy(pthread_mutexattr_t *attributes) {
    (void)attributes;
    return 0;
}

int pthread_mutexattr_settype(pthread_mutexattr_t *attributes, int type) {
    attributes->__attr = (unsigned)type;
    return 0;
}

// ---- Conditions: no call of liblog waits for one, so a thread looks whenever it runs ----

// A thread that waits, in the order in which they came. It stands on the thread's own stack.
struct waiter {
    struct waiter *next;
    int is_woken;
};
#define FIRST_WAITER(condition) (*(struct waiter **)&(condition)->__u.__p[0])

int pthread_cond_init(pthread_cond_t *restrict condition, const pthread_condattr_t *restrict attributes) {
    (void)attributes;
    *condition = (pthread_cond_t){0};
    return 0;
}

int pthread_cond_destroy(pthread_cond_t *condition) {
    (void)condition;
    return 0;
}

static int64_t millis_of(const struct timespec *time) {
    return (int64_t)time->tv_sec * 1000 + (time->tv_nsec + 999999) / 1000000;
}

static int is_late(const struct timespec *end) {
    struct timespec now;
    return end != NULL && clock_gettime(CLOCK_REALTIME, &now) == 0 && millis_of(&now) >= millis_of(end);
}

static void leave(pthread_cond_t *condition, struct waiter *waiter) {
    struct waiter **place = &FIRST_WAITER(condition);
    while (*place != waiter)
        place = &(*place)->next;
    *place = waiter->next;
}

static int wait_for(pthread_cond_t *condition, pthread_mutex_t *mutex, const struct timespec *end) {
    struct waiter waiter = {0}, **last = &FIRST_WAITER(condition);
    while (*last != NULL)
        last = &(*last)->next;
    *last = &waiter;
    pthread_mutex_unlock(mutex);
    while (!waiter.is_woken && !is_late(end))
        liblog_yield();
    if (!waiter.is_woken)
        leave(condition, &waiter);
    pthread_mutex_lock(mutex);
    return waiter.is_woken ? 0 : ETIMEDOUT;
}

int pthread_cond_wait(pthread_cond_t *restrict condition, pthread_mutex_t *restrict mutex) {
    return wait_for(condition, mutex, NULL);
}

int pthread_cond_timedwait(pthread_cond_t *restrict condition, pthread_mutex_t *restrict mutex, const struct timespec *restrict end) {
    return wait_for(condition, mutex, end);
}

int pthread_cond_signal(pthread_cond_t *condition) {
    struct waiter *waiter = FIRST_WAITER(condition);
    if (waiter != NULL) {
        FIRST_WAITER(condition) = waiter->next;
        waiter->is_woken = 1;
    }
    return 0;
}

int pthread_cond_broadcast(pthread_cond_t *condition) {
    while (FIRST_WAITER(condition) != NULL)
        pthread_cond_signal(condition);
    return 0;
}

int pthread_condattr_init(pthread_condattr_t *attributes) {
    *attributes = (pthread_condattr_t){0};
    return 0;
}

int pthread_condattr_destroy(pthread_condattr_t *attributes) {
    (void)attributes;
    return 0;
}

// All clocks tell one time.
int pthread_condattr_setclock(pthread_condattr_t *attributes, clockid_t clock) {
    (void)attributes, (void)clock;
    return 0;
}

// ---- Locks for many readers or one writer ----

// How many read, or -1 where one writes.
#define READERS(lock) ((lock)->__u.__i[0])

int pthread_rwlock_init(pthread_rwlock_t *restrict lock, const pthread_rwlockattr_t *restrict attributes) {
    (void)attributes;
    *lock = (pthread_rwlock_t){0};
    return 0;
}

int pthread_rwlock_destroy(pthread_rwlock_t *lock) {
    return READERS(lock) != 0 ? EBUSY : 0;
}

int pthread_rwlock_rdlock(pthread_rwlock_t *lock) {
    while (READERS(lock) < 0)
        liblog_yield();
    READERS(lock)++;
    return 0;
}

int pthread_rwlock_wrlock(pthread_rwlock_t *lock) {
    while (READERS(lock) != 0)
        liblog_yield();
    READERS(lock) = -1;
    return 0;
}

int pthread_rwlock_unlock(pthread_rwlock_t *lock) {
    if (READERS(lock) == 0)
        return EPERM;
    READERS(lock) += READERS(lock) < 0 ? 1 : -1;
    return 0;
}

// ---- Values of a thread's own ----

int pthread_key_create(pthread_key_t *made, void (*destroy)(void *)) {
    for (int key = 0; key < PTHREAD_KEYS_MAX; key++)
        if (!keys[key].is_there) {
            keys[key] = (struct key){.is_there = 1, .destroy = destroy};
            for (struct thread *thread = threads; thread < threads + THREADS; thread++)
                thread->values[key] = NULL;
            *made = (pthread_key_t)key;
            return 0;
        }
    return EAGAIN;
}

int pthread_key_delete(pthread_key_t key) {
    if (key >= PTHREAD_KEYS_MAX || !keys[key].is_there)
        return EINVAL;
    keys[key].is_there = 0;
    return 0;
}

void *pthread_getspecific(pthread_key_t key) {
    return key < PTHREAD_KEYS_MAX ? (void *)this_thread()->values[key] : NULL;
}

int pthread_setspecific(pthread_key_t key, const void *value) {
    if (key >= PTHREAD_KEYS_MAX || !keys[key].is_there)
        return EINVAL;
    this_thread()->values[key] = value;
    return 0;
}

// ---- Semaphores ----

int sem_init(sem_t *semaphore, int is_shared, unsigned count) {
    (void)is_shared;
    semaphore->__val[0] = (int)count;
    return 0;
}

int sem_destroy(sem_t *semaphore) {
    (void)semaphore;
    return 0;
}

int sem_post(sem_t *semaphore) {
    semaphore->__val[0]++;
    return 0;
}

int sem_trywait(sem_t *semaphore) {
    if (semaphore->__val[0] > 0) {
        semaphore->__val[0]--;
        return 0;
    }
    errno = EAGAIN;
    return -1;
}

int sem_wait(sem_t *semaphore) {
    while (semaphore->__val[0] <= 0)
        liblog_yield();
    return sem_trywait(semaphore);
}

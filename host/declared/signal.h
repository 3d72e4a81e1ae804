#ifndef DECLARED_SIGNAL_H
#define DECLARED_SIGNAL_H

#define SIGHUP 1
#define SIGINT 2
#define SIGTERM 15
#define SIGXFSZ 25
#define SIG_DFL ((__sighandler_t)0)
#define SIG_IGN ((__sighandler_t)1)
#define SIG_BLOCK 0
#define SIG_UNBLOCK 1

typedef void (*__sighandler_t)(int);
typedef struct {
    unsigned long int __val[16];
} sigset_t;

extern __sighandler_t signal(int number, __sighandler_t handler) __attribute__((__nothrow__, __leaf__));
extern int raise(int number) __attribute__((__nothrow__, __leaf__));
extern int sigemptyset(sigset_t *set) __attribute__((__nothrow__, __leaf__));
extern int sigaddset(sigset_t *set, int number) __attribute__((__nothrow__, __leaf__));
extern int sigprocmask(int how, const sigset_t *set, sigset_t *old) __attribute__((__nothrow__, __leaf__));

#endif

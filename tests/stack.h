/* Tests in a thread with little stack, so that a call which takes more than its service may ends the test. */
#ifndef STACK_H
#define STACK_H

#include <pthread.h>

static void in_stack_of(size_t bytes, void *(*all)(void *))
{
    pthread_attr_t attributes;
    pthread_t thread;
    must(pthread_attr_init(&attributes) == 0 && pthread_attr_setstacksize(&attributes, bytes) == 0 &&
             pthread_attr_setguardsize(&attributes, bytes) == 0,
         "there is no little stack");
    must(pthread_create(&thread, &attributes, all, NULL) == 0 && pthread_join(thread, NULL) == 0, "there is no thread");
}

#endif

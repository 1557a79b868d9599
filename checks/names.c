/*
 * Loaded into a program by LD_PRELOAD, gives the host "two.test" two addresses, in this order.
 *
 * FIRST_ADDRESS, SECOND_ADDRESS    the addresses, such as 127.0.0.3
 *
 * All other names are looked up by the system.
 */
#define _GNU_SOURCE
#include <arpa/inet.h>
#include <dlfcn.h>
#include <netdb.h>
#include <stdlib.h>
#include <string.h>

typedef int lookup(const char *, const char *, const struct addrinfo *, struct addrinfo **);

int getaddrinfo(const char *host, const char *service, const struct addrinfo *hints, struct addrinfo **found) {
    const char *first = getenv("FIRST_ADDRESS"), *second = getenv("SECOND_ADDRESS");
    lookup *system = (lookup *)dlsym(RTLD_NEXT, "getaddrinfo");
    struct addrinfo *rest;
    int failed;
    if (!host || strcmp(host, "two.test") != 0 || !first || !second) return system(host, service, hints, found);
    failed = system(first, service, hints, found);
    if (failed) return failed;
    failed = system(second, service, hints, &rest);
    if (failed) return failed;
    struct addrinfo *last = *found;
    while (last->ai_next) last = last->ai_next;
    last->ai_next = rest;
    return 0;
}

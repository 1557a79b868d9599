/*
 * new_keys PORT COUNT RATE: sends COUNT events with the state "ok", each of a host of its own, to a server on this machine,
 * 100 in a message and at most 64 messages at a time, and reads the reply to each. With a RATE other than 0 it sends so
 * many in a second. It ends with status 1 if a reply is not the one to accepted events, or the connection ends.
 */
#include <arpa/inet.h>
#include <stdio.h>
#include <stdlib.h>
#include <string.h>
#include <sys/socket.h>
#include <time.h>
#include <unistd.h>

enum { EVENTS = 100, MESSAGES = 64, HOST = 16, EVENT = 8 + HOST, MESSAGE = 4 + EVENTS * EVENT, REPLY = 6 };

static const char accepted[REPLY] = {0, 0, 0, 2, 16, 1};

/* Writes a message with the events from this number on. */
static void put_message(unsigned char *at, long number) {
    unsigned length = htonl(MESSAGE - 4);
    memcpy(at, &length, 4);
    at += 4;
    for (int event = 0; event < EVENTS; event++, at += EVENT) {
        char host[HOST + 1];
        snprintf(host, sizeof host, "host-%011ld", number + event);
        at[0] = 6 << 3 | 2;
        at[1] = EVENT - 2;
        memcpy(at + 2, "\x12\x02ok", 4);
        at[6] = 4 << 3 | 2;
        at[7] = HOST;
        memcpy(at + 8, host, HOST);
    }
}

static void send_all(int link, const unsigned char *from, size_t count) {
    while (count > 0) {
        ssize_t sent = write(link, from, count);
        if (sent <= 0) exit(1);
        from += sent;
        count -= sent;
    }
}

static void expect_replies(int link, int count) {
    char replies[MESSAGES * REPLY];
    size_t had = 0, wanted = (size_t)count * REPLY;
    while (had < wanted) {
        ssize_t more = read(link, replies + had, wanted - had);
        if (more <= 0) exit(1);
        had += more;
    }
    for (int at = 0; at < count; at++)
        if (memcmp(replies + at * REPLY, accepted, REPLY) != 0) exit(1);
}

static double seconds(void) {
    struct timespec now;
    clock_gettime(CLOCK_MONOTONIC, &now);
    return now.tv_sec + now.tv_nsec / 1e9;
}

/* Waits until this many events may have been sent. */
static void wait_for(double since, long number, long rate) {
    double left = since + (double)number / rate - seconds();
    if (left > 0) usleep(left * 1e6);
}

int main(int count_of_words, char **words) {
    static unsigned char messages[MESSAGES * MESSAGE];
    if (count_of_words != 4) return 1;
    struct sockaddr_in to = {.sin_family = AF_INET, .sin_port = htons(atoi(words[1]))};
    to.sin_addr.s_addr = htonl(INADDR_LOOPBACK);
    int link = socket(AF_INET, SOCK_STREAM, 0);
    if (connect(link, (struct sockaddr *)&to, sizeof to) != 0) return 1;
    long count = atol(words[2]), rate = atol(words[3]), number = 0;
    int most = rate == 0 || rate >= 64 * EVENTS ? MESSAGES : 1;
    double since = seconds();
    while (number < count) {
        int made = 0;
        if (rate > 0) wait_for(since, number, rate);
        for (; made < most && number < count; made++, number += EVENTS)
            put_message(messages + made * MESSAGE, number);
        send_all(link, messages, (size_t)made * MESSAGE);
        expect_replies(link, made);
    }
    return 0;
}

/* Times a front that threads share. */
#ifndef FRONT_H
#define FRONT_H

/* Four threads do jobs of HMAC-SHA-256 over 1,500 bytes, of which one thread is given eight times as many as each other one, and then as
 * many as each: by a manager for each thread, and by one front. The two take turns, as often as there are passes, and of each the fastest
 * pass counts. Prints a row for each load: nanoseconds a job of either, until the last thread has all its results, and how many times as
 * fast the front is. */
void time_front(int passes);

#endif

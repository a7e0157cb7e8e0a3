/* The message of a program that can't set up its ring. */
#ifndef REFUSED_H
#define REFUSED_H

#include <errno.h>
#include <stdio.h>
#include <string.h>

/* Prints why the kernel has refused a ring, or a sparse table, by the number of errno. */
static inline void print_refused(const char *program, int error) {
	const char *why = "io_uring is refused";
	if (error == EPERM)
		why = "io_uring is refused, as in a container or by /proc/sys/kernel/io_uring_disabled";
	if (error == ENOSYS)
		why = "the kernel has no io_uring";
	if (error == EINVAL)
		why = "the kernel's io_uring is older than that of Linux 5.19";
	fprintf(stderr, "%s: %s: %s\n", program, why, strerror(error));
}

#endif

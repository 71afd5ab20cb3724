/* A driver to copy (docs/DRIVERS.md), over nothing but stdio: it reads the commands of a history, one a line, and answers each with a line.
 *
 * This one is a client that can make legs, enable them, lose them and write. It answers `?` to all else, and of its
 * answers it gives the fields that it has. In the place of `struct pool` goes your own driver: call it, and say what it did.
 *
 *     cc -o driver examples/driver-under-test.c && ./lab --against ./driver */
#include <stdio.h>
#include <string.h>

typedef unsigned long long number; /* a number of a history: 0 to 2^64 - 1 */

static struct pool {
	number chunks, version;
	int written;
	char session[17]; /* '.', 'C', 'N' or 'F' */
} pool;

static void fresh(number chunks)
{
	pool.chunks = chunks;
	pool.version = 1;
	pool.written = 0;
	strcpy(pool.session, "................");
}

static void refused(int why) { printf("refused %d\n", why); }

static void ok(void)
{
	int count = 0;
	for (int i = 0; i < 16; i++) count += pool.session[i] == 'N';
	printf("ok version=%llu count=%d sessions=%s", pool.version, count, pool.session);
}

static void lost(int i)
{
	pool.version += pool.session[i] == 'N';
	pool.session[i] = 'F';
}

static void join_create(number i)
{
	if (i > 15) refused(3);
	else if (pool.session[i] != '.') refused(8);
	else if (pool.written) refused(17);
	else {
		pool.session[i] = 'C';
		ok();
		putchar('\n');
	}
}

static void enable(number i)
{
	if (i > 15) refused(3);
	else if (pool.session[i] == '.') refused(7);
	else if (pool.session[i] != 'C') refused(9);
	else if (pool.written) refused(17);
	else {
		pool.session[i] = 'N';
		ok();
		putchar('\n');
	}
}

static void link_down(number i)
{
	if (i > 15) refused(3);
	else if (pool.session[i] == '.') refused(7);
	else if (pool.session[i] == 'F') refused(9);
	else {
		lost((int)i);
		ok();
		putchar('\n');
	}
}

static void write_ended(number chunk, number reached)
{
	number normal = 0, missed = 0;
	for (int i = 0; i < 16; i++) normal |= (number)(pool.session[i] == 'N') << i;
	if (reached > 65535) refused(3);
	else if (chunk >= pool.chunks) refused(4);
	else if (!normal || reached & ~normal) refused(11);
	else {
		for (int i = 0; i < 16; i++)
			if ((normal & ~reached) >> i & 1) lost(i);
		for (int i = 0; i < 16 && reached; i++) missed |= (number)(pool.session[i] == 'C' || pool.session[i] == 'F') << i;
		if (reached) pool.written = 1;
		ok();
		printf(" acked=%d list=%llu\n", reached != 0, missed);
	}
}

int main(void)
{
	char line[512];
	number a, b;
	fresh(4096);
	while (fgets(line, sizeof line, stdin)) {
		if (sscanf(line, "pool 0 %llu", &a) == 1 && a >= 1 && a <= 4096) {
			fresh(a);
			puts("done");
		} else if (sscanf(line, "join_create %llu", &a) == 1) join_create(a);
		else if (sscanf(line, "enable %llu", &a) == 1) enable(a);
		else if (sscanf(line, "link_down %llu", &a) == 1) link_down(a);
		else if (sscanf(line, "write %llu %llu", &a, &b) == 2) write_ended(a, b);
		else puts("?");
		fflush(stdout); /* each answer before the next command: else what it hangs or ends at can't be told */
	}
	return 0;
}

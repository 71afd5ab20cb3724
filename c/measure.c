/* Events a second through the library, against the same events written by hand (byhand.h), and whole maps against memcpy: ratios, in one run. docs/LIBRARY.md. */
#include "byhand.h"
#include "lines.h"
#include <stdlib.h>
#include <string.h>
#include <time.h>

static mzk_client client, client0;
static mzk_node node, node0;
static struct hand_pool pool, pool0;
static struct hand_node hand, hand0;
static struct hand_answer answer;
static uint8_t own[8192], map[8192], staging[8192], part[1024], from[8192];
static uint64_t chunks;

static void must(int ok, const char *what)
{
	if (ok) return;
	fprintf(stderr, "measure: not the same: %s\n", what);
	exit(1);
}

static double seconds(void)
{
	struct timespec t;
	clock_gettime(CLOCK_MONOTONIC, &t);
	return t.tv_sec + t.tv_nsec * 1e-9;
}

/* The hand's state from the words. */
static void pool_of(const uint64_t *w, struct hand_pool *p)
{
	memset(p, 0, sizeof *p);
	for (unsigned i = 0; i < 16; i++) {
		uint64_t s = w[MZK_C_SESSION + i], st = s & MZK_S_STATE;
		p->session[i] = (struct hand_session){ st == MZK_S_FAILED_IO ? H_FAILED : (uint8_t)st, st == MZK_S_FAILED_IO, !!(s & MZK_S_MAINTENANCE), !!(s & MZK_S_MARK), !!(s & MZK_S_DISASSEMBLE), !!(s & MZK_S_OWED) };
	}
	p->count = w[MZK_C_COUNT];
	p->version = w[MZK_C_VERSION];
	p->members = w[MZK_C_MEMBERS];
	p->chunks = w[MZK_C_CHUNKS];
	p->sync = w[MZK_C_SYNC];
	p->written = w[MZK_C_WRITTEN];
	p->assembled = w[MZK_C_ASSEMBLED];
	p->job = (int)w[MZK_C_JOB];
	p->step = (int)w[MZK_C_JOB_DATA];
	p->source = w[MZK_C_JOB_ID];
	p->left = w[MZK_C_JOB_LEFT];
	p->taken = w[MZK_C_JOB_TAKEN];
	p->number = (uint32_t)w[MZK_C_NUMBER];
	p->tick = (uint32_t)w[MZK_C_TICK];
	p->due = (uint16_t)w[MZK_C_DUE];
	p->once = (uint16_t)w[MZK_C_ONCE];
}

static void node_of(const mzk_node *n, struct hand_node *h)
{
	const uint64_t *w = n->state;
	*h = (struct hand_node){ w[MZK_N_ID], w[MZK_N_CHUNKS], w[MZK_N_MEMBERS], w[MZK_N_VERSION], w[MZK_N_HELD], w[MZK_N_GOT], (uint8_t)w[MZK_N_STATE], w[MZK_N_STORE], w[MZK_N_CREATE], w[MZK_N_TRANSFER], { 0 }, { 0 } };
	memcpy(h->kept, w + MZK_N_KEPT, sizeof h->kept);
	memcpy(h->summaries, n->summaries, sizeof h->summaries);
}

/* The events. Each begins from the saved state, so that each is the same event; the copy is in both times. */
static void lib_link_down(void) { memcpy(client.state, client0.state, sizeof client.state); mzk_link_down(&client, 3); }
static void by_link_down(void) { pool = pool0; hand_link_down(&pool, 3, &answer); }
static void lib_write(void) { memcpy(client.state, client0.state, sizeof client.state); mzk_write(&client, 7, 0xfff7); }
static void by_write(void) { pool = pool0; hand_write(&pool, own, sizeof own, 7, 0xfff7, &answer); }
static void lib_answer(void) { memcpy(client.state, client0.state, sizeof client.state); mzk_answer_good(&client, client0.state[MZK_C_NUMBER]); }
static void by_answer(void) { pool = pool0; hand_answer_ready(&pool, own, sizeof own, pool0.number, &answer); }
static void lib_read(void) { mzk_client_do(&client, 0, 0, 0, 0); }
static void lib_node_write(void) { memcpy(node.state, node0.state, sizeof node.state); mzk_n_write(&node, 7, 8, 2); }
static void by_node_write(void) { memcpy(&hand, &hand0, offsetof(struct hand_node, summaries)); hand_node_write(&hand, map, sizeof map, staging, sizeof staging, 7, 8, 2); }
static void lib_part(void) { memcpy(node.state, node0.state, sizeof node.state); mzk_n_take_part(&node, 0, part, sizeof part); }
static void by_part(void) { memcpy(&hand, &hand0, offsetof(struct hand_node, summaries)); hand_take_part(&hand, map, sizeof map, staging, sizeof staging, 0, part, sizeof part); }
static void lib_node_read(void) { mzk_node_do(&node, 0, 0, 0, 0); }
static void lib_ready(void) { memcpy(node.state, node0.state, sizeof node.state); mzk_n_map_ready(&node, 1); }
static void lib_take_all(void)
{
	memcpy(node.state, node0.state, sizeof node.state);
	for (unsigned at = 0; at < 8192; at += 1024) mzk_n_take_part(&node, at, from + at, 1024);
}
static void lib_done(void) { memcpy(node.state, node0.state, sizeof node.state); mzk_n_map_done(&node, 0, 2, 3); }
static void by_memcpy(void) { memcpy(staging, from, 8192); __asm__ volatile("" ::: "memory"); }

/* Nanoseconds of one, over a turn of some milliseconds. */
static double turn(void (*f)(void), long n)
{
	double t = seconds();
	for (long i = 0; i < n; i++) f();
	return (seconds() - t) * 1e9 / n;
}

static long turns_of(void (*f)(void)) { return (long)(4e6 / (turn(f, 64) + 1)) + 64; }

/* The best of fifteen turns of each, by turns, so that what else the machine does meets both. */
static void row(const char *what, void (*lib)(void), void (*other)(void))
{
	double a = 1e18, b = 1e18;
	long n = turns_of(lib), m = other ? turns_of(other) : 0;
	for (int i = 0; i < 15; i++) {
		double t = turn(lib, n), u = other ? turn(other, m) : b;
		if (t < a) a = t;
		if (u < b) b = u;
	}
	if (other) printf("| %s | %.0f | %.0f | %.1f |\n", what, 1e9 / a, 1e9 / b, a / b);
	else printf("| %s | %.0f | | |\n", what, 1e9 / a);
}

static void same_pool(const char *what)
{
	struct hand_pool p;
	pool_of(client.state, &p);
	must(!memcmp(&p, &pool, sizeof p) && client.out[MZK_ACCEPTED] == !answer.refusal && client.out[MZK_REFUSAL] == answer.refusal, what);
	must(client.out[MZK_O_OUTCOME] != MZK_WRITTEN || (client.out[MZK_O_OUTCOME_A] == answer.acked && client.out[MZK_O_OUTCOME_B] == answer.list), what);
	must(!memcmp(client.map, own, sizeof own), what);
}

static void same_node(const char *what)
{
	struct hand_node h;
	node_of(&node, &h);
	must(!memcmp(&h, &hand, sizeof h) && !memcmp(node.map, map, sizeof map) && !memcmp(node.staging, staging, sizeof staging), what);
}

/* The state to begin from, for library and hand. */
static void begin_client(void)
{
	client0 = client;
	pool_of(client0.state, &pool0);
	memcpy(own, client.map, sizeof own);
}

static void begin_node(void)
{
	node0 = node;
	node_of(&node0, &hand0);
	hand = hand0;
	memcpy(map, node.map, sizeof map);
	memcpy(staging, node.staging, sizeof staging);
}

static void measure(void)
{
	printf("| %u chunks | library, events a second | by hand | the library takes times |\n|---|---|---|---|\n", (unsigned)chunks);

	mzk_client_init(&client, 0, chunks);
	for (unsigned i = 0; i < 16; i++) {
		mzk_join_create(&client, i);
		mzk_enable(&client, i);
	}
	begin_client();
	lib_link_down(), by_link_down(), same_pool("link down");
	row("link down, 16 sessions NORMAL", lib_link_down, by_link_down);
	client = client0;
	mzk_link_down(&client, 3);
	begin_client();
	lib_write(), by_write(), same_pool("write");
	row("write that reaches 15 of 16", lib_write, by_write);
	client = client0;
	mzk_store_check(&client, 3);
	must(client.out[MZK_O_AWAITED] == MZK_SENT_READY, "a run");
	begin_client();
	lib_answer(), by_answer(), same_pool("answer in a run");
	must(client.out[MZK_O_AWAITED] == MZK_SENT_SEND && client.out[MZK_O_AWAITED_A] == answer.to && client.out[MZK_O_AWAITED_A + 1] == answer.receiver, "answer in a run");
	must(client.out[MZK_O_NUMBER] == answer.number && client.out[MZK_O_OUTCOME_A] == answer.taken, "answer in a run");
	row("answer in a run, to MAP_READY", lib_answer, by_answer);
	row("no event: the client's words are read, no more", lib_read, NULL);

	mzk_node_init(&node, 0, chunks);
	mzk_n_register_create(&node);
	mzk_n_join_create(&node, 1);
	mzk_n_enable1(&node, 1, 1);
	mzk_n_pool_info(&node, MZK_ADD_CREATE, 3);
	for (unsigned i = 0; i < chunks; i += 5) mzk_n_write(&node, i, 8, 1);
	begin_node();
	lib_node_write(), must(!hand_node_write(&hand, map, sizeof map, staging, sizeof staging, 7, 8, 2), "a node's write"), same_node("a node's write");
	row("a node's write", lib_node_write, by_node_write);
	memcpy(from, node.map, sizeof from);
	memcpy(part, from, sizeof part);
	mzk_n_fault(&node);
	mzk_n_join_assemble(&node);
	static mzk_node joined;
	joined = node;
	mzk_n_map_ready(&node, 1);
	begin_node();
	lib_part(), must(!hand_take_part(&hand, map, sizeof map, staging, sizeof staging, 0, part, sizeof part), "take a part"), same_node("take a part");
	row("a node takes a part of 1,024 bytes", lib_part, by_part);
	row("no event: the node's words are read, no more", lib_node_read, NULL);

	printf("\n| %u chunks, a map of 8,192 bytes | library, a second | memcpy | the library takes times |\n|---|---|---|---|\n", (unsigned)chunks);
	lib_take_all(), must(node.out[MZK_ACCEPTED] == 1, "take all");
	row("a map taken in eight parts", lib_take_all, by_memcpy);
	begin_node();
	lib_done(), must(node.out[MZK_ACCEPTED] == 1, "map done");
	row("MAP_DONE: staging into the map", lib_done, by_memcpy);
	node = joined;
	begin_node();
	lib_ready(), must(node.out[MZK_ACCEPTED] == 1, "map ready");
	row("MAP_READY that keeps: the map into staging", lib_ready, by_memcpy);
	putchar('\n');
}

int main(void)
{
	static const uint64_t sizes[] = { 4096, 64 };
	for (int i = 0; i < 2; i++) {
		chunks = sizes[i];
		measure();
	}
	return 0;
}

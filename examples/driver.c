/* A leg is lost and comes back, by the proved rules called from C: the history of leg-lost.history, and the lines that ./lab writes for it.
 *
 *     ./library
 *     cc -Itarget/library examples/driver.c -Ltarget/library -lmunzolkheg_client -lmunzolkheg_node -o driver && ./driver
 *
 * A driver's own test does the same beside its own code, event by event, and compares. */
#include "lines.h"
#include <stdlib.h>

static mzk_client client;
static mzk_node node[2];

/* No call of the library fails here; a refusal is no failure. */
static void done(uint64_t returned)
{
	if (returned == MZK_DONE) return;
	fprintf(stderr, "driver: a call of the library returned %" PRIu64 "\n", returned);
	exit(1);
}

/* The messages that are not awaited, as events of their nodes: of these the history has POOL_INFO, MARK and CLEAR. Then the client's line. */
static void said(uint64_t returned)
{
	done(returned);
	const uint64_t *told = client.out + MZK_O_TOLD;
	for (unsigned i = 0; i < 2 && client.out[MZK_ACCEPTED]; i++) {
		if (!(told[1] >> i & 1)) continue;
		if (told[0] == MZK_TOLD_INFOS) done(mzk_n_pool_info(&node[i], told[2], told[3]));
		if (told[0] == MZK_TOLD_MARKS) done(mzk_n_write(&node[i], told[2], told[3], told[4]));
		if (told[0] == MZK_TOLD_CLEARS) done(mzk_n_synced(&node[i], told[2], told[3]));
	}
	put_client(stdout, client.state, client.out);
}

static void node_said(unsigned i, uint64_t returned)
{
	done(returned);
	put_node(stdout, node[i].state, node[i].out);
}

/* MAP_SEND: node `from` gives its map in parts, node `to` takes them; 1 where all were taken. */
static int send_map(unsigned from, unsigned to)
{
	for (uint64_t at = 0; at < MZK_MAP_BYTES; at += MZK_PART_BYTES) {
		done(mzk_n_give_part(&node[from], at, MZK_PART_BYTES));
		if (!node[from].out[MZK_ACCEPTED]) return 0;
		done(mzk_n_take_part(&node[to], at, node[from].map + at, MZK_PART_BYTES));
		if (!node[to].out[MZK_ACCEPTED]) return 0;
	}
	return 1;
}

/* The awaited message goes to its node, and the node's answer to the client. This run awaits MAP_READY, MAP_SEND and MAP_DONE. */
static void deliver(void)
{
	uint64_t m[5], number = client.out[MZK_O_NUMBER];
	for (int i = 0; i < 5; i++) m[i] = client.out[MZK_O_AWAITED + i];
	int good = 0;
	if (m[0] == MZK_SENT_READY) {
		done(mzk_n_map_ready(&node[m[1]], m[2]));
		good = node[m[1]].out[MZK_ACCEPTED] != 0;
	} else if (m[0] == MZK_SENT_SEND) {
		good = send_map(m[1], m[2]);
	} else if (m[0] == MZK_SENT_DONE) {
		done(mzk_n_map_done(&node[m[1]], m[2], m[3], m[4]));
		good = node[m[1]].out[MZK_ACCEPTED] != 0;
	}
	said(good ? mzk_answer_good(&client, number) : mzk_answer_failed(&client, number));
}

int main(void)
{
	/* pool 0 64, auto 1: two nodes, 64 chunks; messages that are not awaited arrive at once */
	done(mzk_client_init(&client, 0, 64));
	for (unsigned i = 0; i < 2; i++) mzk_node_init(&node[i], i, 64);
	puts("done\ndone");

	for (unsigned i = 0; i < 2; i++) {
		node_said(i, mzk_n_register_create(&node[i]));
		said(mzk_join_create(&client, i));
		node_said(i, mzk_n_join_create(&node[i], i ? 3 : 1));
		node_said(i, mzk_n_enable1(&node[i], 1, i ? 3 : 1));
		said(mzk_enable(&client, i));
	}
	said(mzk_write(&client, 5, 3)); /* reaches both */

	said(mzk_link_down(&client, 1)); /* the leg is lost */
	said(mzk_write(&client, 7, 1));  /* reaches node 0 alone: chunk 7 is marked for member 1 */
	put_row(stdout, node[0].map, 1);
	put_row(stdout, client.map, 1);

	node_said(1, mzk_n_join_assemble(&node[1])); /* it is back */
	said(mzk_store_check(&client, 1));           /* a run begins: three awaited messages */
	for (int i = 0; i < 3; i++) deliver();
	put_row(stdout, node[1].map, 1);

	said(mzk_synced(&client, &node[0], 1, 7)); /* the data of chunk 7 was copied */
	put_row(stdout, node[0].map, 1);
	put_row(stdout, node[1].map, 1);
	return 0;
}

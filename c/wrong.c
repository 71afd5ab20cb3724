/* Words that are no state's, numbers that are no event's, maps of a wrong length: what a call returns, and that nothing is changed. */
#include "munzolkheg.h"
#include <stdio.h>
#include <string.h>

static mzk_client client, client0;
static mzk_node node, node0;
static int wrong;

static void expect(const char *what, unsigned place, uint64_t got, uint64_t due)
{
	if (got == due && !memcmp(&client, &client0, sizeof client) && !memcmp(&node, &node0, sizeof node)) return;
	printf("wrong: %s %u: %llu for %llu, or something changed\n", what, place, (unsigned long long)got, (unsigned long long)due);
	wrong = 1;
}

int main(void)
{
	mzk_client_init(&client, 0, 64);
	mzk_join_create(&client, 0);
	mzk_node_init(&node, 0, 64);
	mzk_n_register_create(&node);
	memset(client.out, 0xa5, sizeof client.out);
	memset(node.out, 0xa5, sizeof node.out);
	client0 = client;
	node0 = node;

	expect("sync 2", 0, mzk_client_fresh(client.state, 2, 64), MZK_NO_EVENT);
	for (uint64_t kind = 0; kind < 40; kind++) {
		if (kind >= MZK_JOIN_CREATE && kind <= MZK_CHECK_ANSWER) continue;
		expect("client kind", (unsigned)kind, mzk_client_do(&client, kind, 0, 0, 0), MZK_NO_EVENT);
	}
	expect("empty 2", 0, mzk_client_do(&client, MZK_CHECK_ANSWER, 0, 0, 2), MZK_NO_EVENT);
	for (uint64_t kind = 0; kind < 40; kind++) {
		if (kind >= MZK_N_REGISTER_CREATE && kind <= MZK_N_FILL) continue;
		expect("node kind", (unsigned)kind, mzk_node_do(&node, kind, 0, 0, 0), MZK_NO_EVENT);
	}
	static const uint64_t flags[] = { MZK_N_UNREGISTER, MZK_N_LEAVE, MZK_N_MAP_READY, MZK_N_MAP_DONE };
	for (unsigned i = 0; i < 4; i++) expect("flag 2", (unsigned)flags[i], mzk_node_do(&node, flags[i], 2, 0, 0), MZK_NO_EVENT);
	expect("what 4", 0, mzk_node_do(&node, MZK_N_POOL_INFO, 4, 0, 0), MZK_NO_EVENT);
	expect("question 0", 0, mzk_n_ask(&node, 0, 0, 0), MZK_NO_EVENT);
	expect("question 3", 0, mzk_n_ask(&node, 3, 0, 0), MZK_NO_EVENT);

	/* The words of a client that hold a case or fewer than 64 bits, and the sessions; of a node the cases and the spare words. */
	static const unsigned bound[] = { MZK_C_SYNC, MZK_C_WRITTEN, MZK_C_ASSEMBLED, MZK_C_NUMBER, MZK_C_JOB, MZK_C_JOB_DATA, MZK_C_TICK, MZK_C_DUE, MZK_C_ONCE };
	for (unsigned i = 0; i < 25; i++) {
		unsigned at = i < 9 ? bound[i] : MZK_C_SESSION + i - 9;
		client.state[at] = client0.state[at] = (uint64_t)1 << 40;
		expect("client word", at, mzk_try(&client), MZK_NO_STATE);
		client.state[at] = client0.state[at] = at >= MZK_C_SESSION && at == MZK_C_SESSION ? MZK_S_CREATED : 0;
	}
	for (unsigned at = MZK_N_STATE; at < 16; at++) {
		if (at >= MZK_N_MEMBERS && at <= MZK_N_HELD) continue;
		uint64_t was = node.state[at];
		node.state[at] = node0.state[at] = 7;
		expect("node word", at, mzk_n_fault(&node), MZK_NO_STATE);
		expect("node word, asked", at, mzk_n_map_check(&node), MZK_NO_STATE);
		node.state[at] = node0.state[at] = was;
	}

	/* A map of another length is refused, by the rules. */
	for (size_t length = 0; length <= MZK_MAP_BYTES; length += length < 8191 ? 8191 : 1) {
		uint64_t out[MZK_CLIENT_OUT];
		uint64_t got = mzk_client_event(client.state, client.map, length, node.map, 0, MZK_WRITE, 0, 1, 0, out);
		expect("length", (unsigned)length, got, MZK_DONE);
		expect("length, refused", (unsigned)length, out[MZK_REFUSAL], length == MZK_MAP_BYTES ? MZK_R_REACH : MZK_R_MAP);
	}
	puts(wrong ? "wrong: FAILED" : "wrong: every wrong word and number was told, and nothing was changed");
	return wrong;
}

/* Every outcome, every told and every awaited message, every refusal, state, job and bit once, read by the names of munzolkheg.h: a name that stood for another number or another word would be seen here.
 * What is due is what the events before it say (who is a member, what was written, who was lost), never a number of the library. */
#include "munzolkheg.h"
#include <stdio.h>
#include <string.h>

static mzk_client client;
static mzk_node node;
static int failed;
static uint64_t outcomes, tolds, sents, refusals, sessions, jobs, nodes, infos; /* what was read, by number */

static void must(int ok, const char *what, int line)
{
	if (ok) return;
	printf("numbers: line %d: %s\n", line, what);
	failed = 1;
}
#define MUST(test) must(test, #test, __LINE__)
/* accepted */
#define OK(call) do { MUST((call) == MZK_DONE); MUST(mzk_accepted(&client)); } while (0)
#define NODE_OK(call) do { MUST((call) == MZK_DONE); MUST(mzk_n_accepted(&node)); } while (0)

static uint64_t bit(uint64_t i) { return (uint64_t)1 << i; }

static void outcome(enum mzk_outcome what, uint64_t a, uint64_t b, int line)
{
	must(mzk_ca(&client, MZK_CA_OUTCOME) == what && mzk_ca(&client, MZK_CA_OUTCOME_A) == a && mzk_ca(&client, MZK_CA_OUTCOME_B) == b, "the outcome", line);
	outcomes |= bit(what);
}
#define OUTCOME(what, a, b) outcome(what, a, b, __LINE__)

static void told(enum mzk_told what, uint64_t a, uint64_t b, uint64_t c, uint64_t d, int line)
{
	must(mzk_ca(&client, MZK_CA_TOLD) == what && mzk_ca(&client, MZK_CA_TOLD_A) == a && mzk_ca(&client, MZK_CA_TOLD_B) == b && mzk_ca(&client, MZK_CA_TOLD_C) == c && mzk_ca(&client, MZK_CA_TOLD_D) == d, "what is told", line);
	tolds |= bit(what);
	if (what == MZK_TOLD_INFOS) infos |= bit(b);
}
#define TOLD(what, a, b, c, d) told(what, a, b, c, d, __LINE__)

static void sent(enum mzk_sent what, uint64_t a, uint64_t b, uint64_t c, uint64_t d, int line)
{
	must(mzk_ca(&client, MZK_CA_AWAITED) == what && mzk_ca(&client, MZK_CA_AWAITED_A) == a && mzk_ca(&client, MZK_CA_AWAITED_B) == b && mzk_ca(&client, MZK_CA_AWAITED_C) == c && mzk_ca(&client, MZK_CA_AWAITED_D) == d, "what is awaited", line);
	must(what == MZK_SENT_NOTHING || mzk_ca(&client, MZK_CA_NUMBER) == mzk_cw(&client, MZK_CW_NUMBER), "the number of the awaited message", line);
	sents |= bit(what);
	if (what == MZK_SENT_INFO) infos |= bit(b);
}
#define SENT(what, a, b, c, d) sent(what, a, b, c, d, __LINE__)

static void session(uint64_t id, enum mzk_session state, unsigned bits, int line)
{
	uint64_t word = client.state[MZK_CW_SESSION + id];
	must((word & MZK_SB_STATE) == state && word == state + bits, mzk_session_text(word), line);
	sessions |= bit(state) | (uint64_t)bits << 8;
}
#define SESSION(id, state, bits) session(id, state, bits, __LINE__)

static void job(enum mzk_job what, uint64_t data, uint64_t id, uint64_t left, uint64_t taken, int line)
{
	must(mzk_cw(&client, MZK_CW_JOB) == what && mzk_cw(&client, MZK_CW_JOB_DATA) == data && mzk_cw(&client, MZK_CW_JOB_ID) == id, mzk_job_text(mzk_cw(&client, MZK_CW_JOB)), line);
	must(mzk_cw(&client, MZK_CW_JOB_LEFT) == left && mzk_cw(&client, MZK_CW_JOB_TAKEN) == taken, "who is left, or how many answers", line);
	jobs |= bit(what);
}
#define JOB(what, data, id, left, taken) job(what, data, id, left, taken, __LINE__)

static void refused(uint64_t returned, int is_node, enum mzk_refusal why, int line)
{
	const uint64_t *out = is_node ? node.out : client.out;
	must(returned == MZK_DONE && !out[MZK_A_ACCEPTED] && out[MZK_A_REFUSAL] == why, mzk_refusal_text(out[MZK_A_REFUSAL]), line);
	must(strcmp(mzk_refusal_text(why), mzk_refusal_text(0)) != 0, "the words of a refusal", line);
	refusals |= bit(why);
}
#define REFUSED(call, why) refused(call, 0, why, __LINE__)
#define NODE_REFUSED(call, why) refused(call, 1, why, __LINE__)

static void node_state(enum mzk_node_state state, int line)
{
	must(mzk_nw(&node, MZK_NW_STATE) == state, mzk_node_state_text(mzk_nw(&node, MZK_NW_STATE)), line);
	nodes |= bit(state);
}
#define NODE_STATE(state) node_state(state, __LINE__)

static uint64_t answer(void) { return mzk_answer_good(&client, mzk_ca(&client, MZK_CA_NUMBER)); }
static uint64_t answer_failed(void) { return mzk_answer_failed(&client, mzk_ca(&client, MZK_CA_NUMBER)); }
static uint64_t version(void) { return mzk_cw(&client, MZK_CW_VERSION); }

/* A pool of so many members, all NORMAL. */
static void fresh(unsigned members)
{
	MUST(mzk_client_init(&client, 0, 64) == MZK_DONE);
	for (unsigned i = 0; i < members; i++) {
		OK(mzk_join_create(&client, i));
		SESSION(i, MZK_S_CREATED, 0);
		OUTCOME(MZK_OUTCOME_PLAIN, 0, 0);
		TOLD(MZK_TOLD_INFOS, bit(i) - 1, MZK_INFO_ADD_CREATE, i, 0);
		SENT(MZK_SENT_NOTHING, 0, 0, 0, 0);
		OK(mzk_enable(&client, i));
		SESSION(i, MZK_S_NORMAL, 0);
		TOLD(MZK_TOLD_NOTHING, 0, 0, 0, 0);
	}
	MUST(mzk_cw(&client, MZK_CW_COUNT) == members && mzk_cw(&client, MZK_CW_MEMBERS) == bit(members) - 1 && mzk_cw(&client, MZK_CW_CHUNKS) == 64);
	MUST(!mzk_cw(&client, MZK_CW_SYNC) && !mzk_cw(&client, MZK_CW_WRITTEN) && !mzk_cw(&client, MZK_CW_ASSEMBLED));
}

/* Writes, a sync, map check. */
static void writes(void)
{
	fresh(3);
	OK(mzk_write(&client, 7, 3)); /* member 2 is not reached */
	SESSION(2, MZK_S_FAILED_IO, 0);
	OUTCOME(MZK_OUTCOME_WRITTEN, 1, 4);
	TOLD(MZK_TOLD_MARKS, 3, 7, 4, version());
	MUST(mzk_cw(&client, MZK_CW_WRITTEN) == 1 && version() > 1);
	REFUSED(mzk_join_create(&client, 3), MZK_R_IN_SERVICE);
	REFUSED(mzk_write(&client, 64, 3), MZK_R_CHUNK);
	REFUSED(mzk_write(&client, 7, 7), MZK_R_REACH);
	REFUSED(mzk_link_down(&client, 16), MZK_R_ID);
	REFUSED(mzk_link_down(&client, 5), MZK_R_NO_SESSION);
	REFUSED(mzk_enable(&client, 1), MZK_R_STATE);
	OK(mzk_tick(&client)); /* members 0 and 1 have no dirty chunk */
	TOLD(MZK_TOLD_CHECKS, 0, 1, 0, 0);
	OK(mzk_store_check(&client, 2)); /* 2 comes back by a run: 0 spreads */
	SESSION(2, MZK_S_RECONNECTING, 0);
	JOB(MZK_JOB_SPREAD, MZK_STEP_READY, 0, 4, 0);
	SENT(MZK_SENT_READY, 2, 0, 0, 0);
	REFUSED(mzk_extend(&client), MZK_R_JOB);
	REFUSED(mzk_answer_good(&client, mzk_cw(&client, MZK_CW_NUMBER) + 1), MZK_R_NOT_AWAITED);
	OK(mzk_answer_good(&client, mzk_cw(&client, MZK_CW_NUMBER)));
	OUTCOME(MZK_OUTCOME_TAKEN, 1, 0);
	JOB(MZK_JOB_SPREAD, MZK_STEP_SEND, 0, 4, 1);
	SENT(MZK_SENT_SEND, 0, 2, 0, 0);
	OK(answer());
	JOB(MZK_JOB_SPREAD, MZK_STEP_DONE, 0, 4, 2);
	SENT(MZK_SENT_DONE, 2, 1, version(), 7);
	OK(answer());
	OUTCOME(MZK_OUTCOME_TAKEN, 3, 0);
	SESSION(2, MZK_S_NORMAL, 0);
	JOB(MZK_JOB_NONE, 0, 0, 0, 0);
	OK(mzk_tick(&client));
	TOLD(MZK_TOLD_CHECKS, 4, 2, 0, 0);
	MUST(mzk_cw(&client, MZK_CW_TICK) == 2 && mzk_cw(&client, MZK_CW_DUE) == 4 && !mzk_cw(&client, MZK_CW_ONCE));
	OK(mzk_check_answer(&client, 2, 2, 1));
	MUST(!mzk_cw(&client, MZK_CW_DUE) && mzk_cw(&client, MZK_CW_ONCE) == 4);
	mzk_node_init(&node, 0, 64);
	node.map[512 * 2] = (uint8_t)(1 << 7); /* chunk 7 is dirty for member 2 on the node that is read */
	OK(mzk_synced(&client, &node, 2, 7));
	TOLD(MZK_TOLD_CLEARS, 7, 2, 7, 0);
	REFUSED(mzk_synced(&client, &node, 2, 8), MZK_R_NO_SYNC);
	client.map[8] = 1; /* past the chunk count */
	REFUSED(mzk_write(&client, 7, 7), MZK_R_MAP);
	client.map[8] = 0;
	OK(mzk_write(&client, 7, 0)); /* reaches nobody */
	OUTCOME(MZK_OUTCOME_WRITTEN, 0, 0);
	MUST(mzk_client_init(&client, 1, 64) == MZK_DONE);
	MUST(mzk_cw(&client, MZK_CW_SYNC) == 1);
	REFUSED(mzk_write(&client, 7, 0), MZK_R_POOL_KIND);
	client.state[MZK_CW_VERSION] = 0;
	REFUSED(mzk_join_create(&client, 0), MZK_R_BROKEN);
}

/* Members added, lost, kept in maintenance, removed. */
static void members(void)
{
	fresh(3);
	OK(mzk_link_down(&client, 1));
	SESSION(1, MZK_S_FAILED_LINK, 0);
	OK(mzk_extend(&client));
	OUTCOME(MZK_OUTCOME_PICKED, 3, 0);
	TOLD(MZK_TOLD_EXTENDED, 5, 5, 3, version());
	MUST((client.state[MZK_CW_SESSION + 3] & MZK_SB_STATE) != MZK_S_NONE && mzk_cw(&client, MZK_CW_MEMBERS) == 15);
	SENT(MZK_SENT_READY, 3, 0, 0, 0); /* its run */
	OK(answer_failed());
	TOLD(MZK_TOLD_DISABLE, 3, 0, 0, 0);
	REFUSED(mzk_join_create(&client, 1), MZK_R_SESSION);
	OK(mzk_maintenance(&client, 2));
	TOLD(MZK_TOLD_OFF, 2, 0, 0, 0);
	SESSION(2, MZK_S_RECONNECTING, MZK_SB_MAINTENANCE);
	OK(mzk_link_down(&client, 0)); /* the last that was NORMAL */
	SESSION(0, MZK_S_FAILED_LINK, MZK_SB_MARK);

	for (unsigned mode = MZK_MODE_DELETE; mode <= MZK_MODE_DISASSEMBLE; mode++) {
		int is_delete = mode == MZK_MODE_DELETE;
		unsigned bits = is_delete ? 0 : MZK_SB_DISASSEMBLE;
		fresh(3);
		OK(is_delete ? mzk_remove_delete(&client, 1) : mzk_remove_disassemble(&client, 1));
		SENT(MZK_SENT_LEAVE, 1, mode, 0, 0);
		SESSION(1, MZK_S_REMOVING, bits + MZK_SB_OWED);
		JOB(MZK_JOB_REMOVE_LEAVE, 0, 1, 0, 0);
		for (uint64_t to = 0; to < 3; to += 2) {
			OK(answer());
			SENT(MZK_SENT_INFO, to, is_delete ? MZK_INFO_REMOVED_DELETE : MZK_INFO_REMOVED_DISASSEMBLE, 1, 0);
			SESSION(1, MZK_S_REMOVING, bits);
			JOB(MZK_JOB_REMOVE_INFO, to, 1, 0, 0);
		}
		OK(answer());
		SESSION(1, MZK_S_NONE, 0);
		MUST(mzk_cw(&client, MZK_CW_MEMBERS) == (is_delete ? 5 : 7));
	}

	MUST(mzk_client_init(&client, 0, 64) == MZK_DONE);
	OK(mzk_join_assemble(&client, 0, 7, 9));
	TOLD(MZK_TOLD_INFOS, 0, MZK_INFO_ADD_ASSEMBLE, 0, 0);
	MUST(version() == 9 && mzk_cw(&client, MZK_CW_MEMBERS) == 7 && mzk_cw(&client, MZK_CW_ASSEMBLED) == 1);
	REFUSED(mzk_join_assemble(&client, 5, 7, 9), MZK_R_MEMBERSHIP);
	MUST(mzk_client_init(&client, 0, 64) == MZK_DONE);
	REFUSED(mzk_join_assemble(&client, 0, 7, UINT64_MAX), MZK_R_VERSION);
	fresh(16);
	REFUSED(mzk_extend(&client), MZK_R_NO_ID);
}

/* Recovery: nobody is NORMAL. */
static void recovery(void)
{
	fresh(2); /* case 2: 1 was the last */
	OK(mzk_link_down(&client, 0));
	OK(mzk_link_down(&client, 1));
	OK(mzk_store_check(&client, 0));
	OK(mzk_store_check(&client, 1));
	JOB(MZK_JOB_ENABLE, 0, 1, 1, 0);
	SENT(MZK_SENT_ENABLE, 1, version(), 3, 0);
	OK(answer());
	SENT(MZK_SENT_READY, 0, 0, 0, 0);
	OK(answer_failed()); /* the receiver is passed over */
	TOLD(MZK_TOLD_DISABLE, 0, 0, 0, 0);

	MUST(mzk_client_init(&client, 0, 64) == MZK_DONE); /* case 3: nobody holds the mark, both are asked */
	OK(mzk_join_assemble(&client, 0, 3, 4));
	OK(mzk_join_assemble(&client, 1, 3, 5));
	TOLD(MZK_TOLD_INFOS, 1, MZK_INFO_ADD_ASSEMBLE, 1, 0);
	SENT(MZK_SENT_GET_VERSION, 0, 0, 0, 0);
	JOB(MZK_JOB_VERSIONS, 0, 0, 3, 0);
	OK(mzk_answer_version(&client, mzk_ca(&client, MZK_CA_NUMBER), 4));
	SENT(MZK_SENT_GET_VERSION, 1, 0, 0, 0);
	JOB(MZK_JOB_VERSIONS, 4, 0, 2, 1);
	OK(mzk_answer_version(&client, mzk_ca(&client, MZK_CA_NUMBER), 5)); /* 1 has the higher one: 0 gets its map */
	JOB(MZK_JOB_BASE, MZK_STEP_READY, 1, 1, 2);
	SENT(MZK_SENT_READY, 0, 0, 0, 0);
	OK(answer());
	JOB(MZK_JOB_BASE, MZK_STEP_SEND, 1, 1, 3);
	SENT(MZK_SENT_SEND, 1, 0, 0, 0);
	OK(answer());
	JOB(MZK_JOB_BASE, MZK_STEP_DONE, 1, 1, 4);
	SENT(MZK_SENT_DONE, 0, 0, version(), 3);
	OK(answer());
	JOB(MZK_JOB_LAST_IO, 0, 1, 3, 5);
	SENT(MZK_SENT_LAST_IO, 0, 1, 0, 0);
	OK(answer());
	SENT(MZK_SENT_LAST_IO, 1, 1, 0, 0);
	OK(answer()); /* 0's last ones go to 1, which keeps what it has */
	JOB(MZK_JOB_GATHER, MZK_STEP_READY, 1, 1, 7);
	SENT(MZK_SENT_READY, 1, 1, 0, 0);
	OK(answer());
	SENT(MZK_SENT_SEND, 0, 1, 0, 0);
	OK(answer());
	SENT(MZK_SENT_DONE, 1, 0, version(), 3);
	OK(answer());
	JOB(MZK_JOB_ENABLE, 1, 1, 1, 10);
	SENT(MZK_SENT_ENABLE, 1, version(), 3, 0);
}

/* A node's states and refusals. */
static void storage(void)
{
	mzk_node_init(&node, 1, 64);
	NODE_STATE(MZK_NS_EMPTY);
	MUST(mzk_nw(&node, MZK_NW_ID) == 1 && mzk_nw(&node, MZK_NW_CHUNKS) == 64);
	NODE_OK(mzk_n_register_create(&node));
	NODE_STATE(MZK_NS_REGISTERED);
	MUST(mzk_nw(&node, MZK_NW_STORE) == 1 && mzk_nw(&node, MZK_NW_CREATE) == 1);
	NODE_OK(mzk_n_join_create(&node, 3));
	NODE_STATE(MZK_NS_CREATED);
	MUST(mzk_nw(&node, MZK_NW_MEMBERS) == 3 && !mzk_nw(&node, MZK_NW_CREATE));
	NODE_OK(mzk_n_enable1(&node, 6, 3));
	NODE_STATE(MZK_NS_NORMAL);
	MUST(mzk_nw(&node, MZK_NW_VERSION) == 6);
	NODE_OK(mzk_n_write(&node, 9, 1, 7)); /* missed by member 0 */
	MUST(mzk_nw(&node, MZK_NW_VERSION) == 7 && mzk_nw(&node, MZK_NW_HELD) == 1 && node.state[MZK_NW_KEPT + 15] == 9);
	MUST(node.map[9 / 8] == 1 << 9 % 8);
	NODE_OK(mzk_n_next(&node, 0, 3));
	MUST(mzk_na(&node, MZK_NA_NUMBERED) == 1 && mzk_na(&node, MZK_NA_VALUE) == 9);
	NODE_OK(mzk_n_next(&node, 0, 10));
	MUST(mzk_na(&node, MZK_NA_NUMBERED) == 0);
	NODE_OK(mzk_n_map_check(&node));
	MUST(mzk_na(&node, MZK_NA_NUMBERED) == 1 && mzk_na(&node, MZK_NA_VALUE) == 1);
	NODE_OK(mzk_n_map_get_ver(&node));
	MUST(mzk_na(&node, MZK_NA_NUMBERED) == 1 && mzk_na(&node, MZK_NA_VALUE) == 7);
	NODE_REFUSED(mzk_n_enable1(&node, UINT64_MAX, 3), MZK_R_VERSION);
	NODE_REFUSED(mzk_n_write(&node, 64, 0, 7), MZK_R_CHUNK);
	NODE_OK(mzk_n_pool_info(&node, MZK_INFO_ADD_CREATE, 2));
	MUST(mzk_nw(&node, MZK_NW_MEMBERS) == 7);
	NODE_OK(mzk_n_fault(&node));
	NODE_STATE(MZK_NS_NO_IO);
	static const uint8_t part[MZK_PART_BYTES];
	NODE_REFUSED(mzk_n_take_part(&node, 0, part, sizeof part), MZK_R_NO_TRANSFER);
	NODE_OK(mzk_n_map_ready(&node, 1));
	MUST(mzk_nw(&node, MZK_NW_TRANSFER) == 1 && mzk_nw(&node, MZK_NW_GOT) == 0);
	NODE_REFUSED(mzk_n_take_part(&node, 1, part, sizeof part), MZK_R_PART);
	NODE_OK(mzk_n_take_part(&node, 0, part, sizeof part));
	MUST(mzk_nw(&node, MZK_NW_GOT) == MZK_PART_BYTES);
	node.summaries[0] ^= 1;
	NODE_REFUSED(mzk_n_fault(&node), MZK_R_SUMMARIES);
}

int main(void)
{
	writes();
	members();
	recovery();
	storage();
	MUST(outcomes == (bit(MZK_OUTCOME_PICKED) << 1) - 1);
	MUST(tolds == (bit(MZK_TOLD_CHECKS) << 1) - 1);
	MUST(sents == (bit(MZK_SENT_INFO) << 1) - 1);
	MUST(infos == (bit(MZK_INFO_REMOVED_DISASSEMBLE) << 1) - 1);
	MUST(refusals == (bit(MZK_R_NO_ID) << 1) - 2);
	MUST(sessions == (((bit(MZK_S_FAILED_IO) << 1) - 1) | (uint64_t)(MZK_SB_MAINTENANCE | MZK_SB_MARK | MZK_SB_DISASSEMBLE | MZK_SB_OWED) << 8));
	MUST(jobs == (bit(MZK_JOB_REMOVE_INFO) << 1) - 1);
	MUST(nodes == (bit(MZK_NS_NO_IO) << 1) - 1);
	puts(failed ? "numbers: FAILED" : "numbers: every outcome, message, refusal, state, job and bit is read by its name");
	return failed;
}

/* The lines that ./lab writes (docs/HISTORIES.md), from the words of the library. For tests and examples. */
#ifndef MUNZOLKHEG_LINES_H
#define MUNZOLKHEG_LINES_H
#include "munzolkheg.h"
#include <inttypes.h>
#include <stdio.h>

/* The ids of a client whose session has all the bits of `bits`, and its state in `states`, a set of states. */
static inline uint64_t ids_with(const uint64_t *state, unsigned states, uint64_t bits)
{
	uint64_t set = 0;
	for (unsigned i = 0; i < MZK_MEMBERS; i++) {
		uint64_t w = state[MZK_C_SESSION + i];
		if ((states >> (w & MZK_S_STATE) & 1) && (w & bits) == bits) set |= (uint64_t)1 << i;
	}
	return set;
}

static inline void put_told(FILE *f, const uint64_t *t)
{
	for (unsigned i = 0; i < MZK_MEMBERS; i++) {
		int to = t[1] >> i & 1;
		if (t[0] == MZK_TOLD_MARKS && to) fprintf(f, " | MARK %u %" PRIu64 " %" PRIu64 " %" PRIu64, i, t[2], t[3], t[4]);
		if (t[0] == MZK_TOLD_CLEARS && to) fprintf(f, " | CLEAR %u %" PRIu64 " %" PRIu64, i, t[2], t[3]);
		if (t[0] == MZK_TOLD_INFOS && to) fprintf(f, " | POOL_INFO %u %" PRIu64 " %" PRIu64, i, t[2], t[3]);
		if (t[0] == MZK_TOLD_EXTENDED && to) fprintf(f, " | POOL_INFO %u %d %" PRIu64, i, MZK_ADD_CREATE, t[3]);
		if (t[0] == MZK_TOLD_CHECKS && to) fprintf(f, " | MAP_CHECK %u %" PRIu64, i, t[2]);
	}
	if (t[0] == MZK_TOLD_EXTENDED)
		for (unsigned i = 0; i < MZK_MEMBERS; i++)
			if (t[2] >> i & 1) fprintf(f, " | FILL %u %" PRIu64 " %" PRIu64, i, t[3], t[4]);
	if (t[0] == MZK_TOLD_DISABLE) fprintf(f, " | MAP_DISABLE %" PRIu64, t[1]);
	if (t[0] == MZK_TOLD_OFF) fprintf(f, " | ENABLE %" PRIu64 " 0", t[1]);
}

static inline void put_awaited(FILE *f, const uint64_t *m, uint64_t number)
{
	switch (m[0]) {
	case MZK_SENT_GET_VERSION: fprintf(f, " | MAP_GET_VER %" PRIu64, m[1]); break;
	case MZK_SENT_READY: fprintf(f, " | MAP_READY %" PRIu64 " %" PRIu64, m[1], m[2]); break;
	case MZK_SENT_SEND: fprintf(f, " | MAP_SEND %" PRIu64 " %" PRIu64, m[1], m[2]); break;
	case MZK_SENT_DONE: fprintf(f, " | MAP_DONE %" PRIu64 " %" PRIu64 " %" PRIu64 " %" PRIu64, m[1], m[2], m[3], m[4]); break;
	case MZK_SENT_LAST_IO: fprintf(f, " | LAST_IO %" PRIu64 " %" PRIu64, m[1], m[2]); break;
	case MZK_SENT_ENABLE: fprintf(f, " | ENABLE %" PRIu64 " 1 %" PRIu64 " %" PRIu64, m[1], m[2], m[3]); break;
	case MZK_SENT_LEAVE: fprintf(f, " | LEAVE %" PRIu64 " %" PRIu64, m[1], m[2]); break;
	case MZK_SENT_INFO: fprintf(f, " | POOL_INFO %" PRIu64 " %" PRIu64 " %" PRIu64, m[1], m[2], m[3]); break;
	default: return;
	}
	fprintf(f, " #%" PRIu64, number);
}

/* The line of a client's event: its state after it, and the answer. */
static inline void put_client(FILE *f, const uint64_t *state, const uint64_t *out)
{
	static const char letters[] = ".CNFRXF";
	static const char *const phases[] = { "none", "run:versions", "run:base", "run:last_io", "run:gather", "run:enable", "run:spread" };
	if (!out[MZK_ACCEPTED]) {
		fprintf(f, "refused %" PRIu64 "\n", out[MZK_REFUSAL]);
		return;
	}
	fprintf(f, "ok version=%" PRIu64 " count=%" PRIu64 " members=%" PRIu64 " sessions=", state[MZK_C_VERSION], state[MZK_C_COUNT], state[MZK_C_MEMBERS]);
	for (unsigned i = 0; i < MZK_MEMBERS; i++) fputc(letters[state[MZK_C_SESSION + i] & MZK_S_STATE], f);
	uint64_t removing = ids_with(state, 1u << MZK_S_REMOVING, 0);
	fprintf(f, " maint=%" PRIu64 " marked=%" PRIu64, ids_with(state, 255, MZK_S_MAINTENANCE), ids_with(state, 255, MZK_S_MARK));
	fprintf(f, " delete=%" PRIu64 " owed=%" PRIu64, removing & ~ids_with(state, 255, MZK_S_DISASSEMBLE), ids_with(state, 255, MZK_S_OWED));
	if (state[MZK_C_JOB] >= MZK_JOB_REMOVE_LEAVE) fprintf(f, " job=remove:%" PRIu64, state[MZK_C_JOB_ID]);
	else fprintf(f, " job=%s", phases[state[MZK_C_JOB]]);
	if (out[MZK_O_OUTCOME] == MZK_TAKEN) fprintf(f, " taken=%" PRIu64, out[MZK_O_OUTCOME_A]);
	if (out[MZK_O_OUTCOME] == MZK_WRITTEN) fprintf(f, " acked=%" PRIu64 " list=%" PRIu64, out[MZK_O_OUTCOME_A], out[MZK_O_OUTCOME_B]);
	if (out[MZK_O_OUTCOME] == MZK_PICKED) fprintf(f, " id=%" PRIu64, out[MZK_O_OUTCOME_A]);
	put_told(f, out + MZK_O_TOLD);
	put_awaited(f, out + MZK_O_AWAITED, out[MZK_O_NUMBER]);
	fputc('\n', f);
}

/* A node's state, without a newline. */
static inline void put_node_state(FILE *f, const uint64_t *state)
{
	static const char *const names[] = { "EMPTY", "REGISTERED", "CREATED", "NORMAL", "NO_IO" };
	fprintf(f, "ok node=%" PRIu64 " state=%s store=%" PRIu64 " create=%" PRIu64, state[MZK_N_ID], names[state[MZK_N_STATE]], state[MZK_N_STORE], state[MZK_N_CREATE]);
	fprintf(f, " members=%" PRIu64 " version=%" PRIu64 " kept=", state[MZK_N_MEMBERS], state[MZK_N_VERSION]);
	uint64_t held = state[MZK_N_HELD] > 16 ? 16 : state[MZK_N_HELD];
	if (!held) fputc('-', f);
	for (uint64_t i = 16 - held; i < 16; i++) fprintf(f, "%s%" PRIu64, i > 16 - held ? "," : "", state[MZK_N_KEPT + i]);
	fprintf(f, " transfer=%d", !state[MZK_N_TRANSFER] ? 0 : state[MZK_N_GOT] < MZK_MAP_BYTES ? 1 : 2);
}

/* The line of a node's event. */
static inline void put_node(FILE *f, const uint64_t *state, const uint64_t *out)
{
	if (!out[MZK_ACCEPTED]) {
		fprintf(f, "refused %" PRIu64 "\n", out[MZK_REFUSAL]);
		return;
	}
	put_node_state(f, state);
	fputc('\n', f);
}

static inline int is_dirty(const uint8_t *map, unsigned member, unsigned chunk) { return map[512 * member + chunk / 8] >> chunk % 8 & 1; }

/* The dirty chunks of a member, as ranges. */
static inline void put_row(FILE *f, const uint8_t *map, unsigned member)
{
	int some = 0;
	for (unsigned c = 0; c < MZK_CHUNK_LIMIT; c++) {
		if (!is_dirty(map, member, c)) continue;
		unsigned from = c;
		while (c + 1 < MZK_CHUNK_LIMIT && is_dirty(map, member, c + 1)) c++;
		fprintf(f, some ? " %u" : "dirty %u", from);
		if (c > from) fprintf(f, "-%u", c);
		some = 1;
	}
	fputs(some ? "\n" : "clean\n", f);
}
#endif

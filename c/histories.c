/* Histories as ./lab reads them (docs/HISTORIES.md), played through the library: the same lines must come out.
 * Standard input: a history. Standard output: a line for each command. What the lab does around the events, the way of messages and maps to their nodes, is done here in C. */
#include "lines.h"
#include <stdlib.h>
#include <string.h>

static struct {
	uint64_t client[MZK_CLIENT_WORDS];
	uint8_t own[MZK_MAP_BYTES];
	size_t own_lent;
	uint64_t node[16][MZK_NODE_WORDS], summaries[16][MZK_SUMMARY_WORDS];
	uint8_t map[16][MZK_MAP_BYTES], staging[16][MZK_MAP_BYTES];
	size_t map_lent[16], staging_lent[16];
	int automatic;
	uint64_t cut;
	uint64_t awaited[5], number; /* the awaited message as in an answer, and its number */
	uint64_t logged, record[8];
	int has_record;
} lab;

static const uint8_t nothing[1];

static void made(uint64_t returned)
{
	if (returned == MZK_DONE) return;
	fflush(stdout);
	fprintf(stderr, "histories: a call of the library returned %" PRIu64 "\n", returned);
	exit(1);
}

static void fresh(uint64_t sync, uint64_t chunks)
{
	memset(&lab, 0, sizeof lab);
	made(mzk_client_fresh(lab.client, sync, chunks));
	lab.own_lent = MZK_MAP_BYTES;
	lab.cut = MZK_PART_BYTES;
	for (unsigned n = 0; n < 16; n++) {
		mzk_node_fresh(lab.node[n], lab.summaries[n], n, chunks);
		lab.map_lent[n] = lab.staging_lent[n] = MZK_MAP_BYTES;
	}
}

/* ---- Nodes. A number past 15 is no node: refused 3. */
static void node_event(uint64_t n, uint64_t kind, uint64_t a, uint64_t b, uint64_t c, const uint8_t *part, size_t bytes, uint64_t *out)
{
	if (n > 15) {
		memset(out, 0, MZK_NODE_OUT * sizeof *out);
		out[MZK_REFUSAL] = MZK_R_ID;
		return;
	}
	made(mzk_node_event(lab.node[n], lab.summaries[n], lab.map[n], lab.map_lent[n], lab.staging[n], lab.staging_lent[n], part, bytes, kind, a, b, c, out));
}

static void node_plain(uint64_t n, uint64_t kind, uint64_t a, uint64_t b, uint64_t c, uint64_t *out) { node_event(n, kind, a, b, c, nothing, 0, out); }

/* The bytes of the giver's map from the offset on, 0 past its end, however much of it is lent. */
static void take_part(uint64_t n, uint64_t offset, uint64_t length, uint64_t giver, uint64_t *out)
{
	uint8_t part[2048];
	memset(part, 0, sizeof part);
	if (length > sizeof part) length = sizeof part;
	if (giver < 16 && offset < MZK_MAP_BYTES) memcpy(part, lab.map[giver] + offset, length < MZK_MAP_BYTES - offset ? length : MZK_MAP_BYTES - offset);
	node_event(n, MZK_N_TAKE_PART, offset, 0, 0, part, length, out);
}

/* A whole map in parts, until all are taken or one is refused; given: the giver is asked for each. */
static void pass_map(int given, uint64_t giver, uint64_t receiver, uint64_t *out)
{
	out[MZK_ACCEPTED] = 1;
	for (uint64_t at = 0; out[MZK_ACCEPTED] && at < MZK_MAP_BYTES; at += lab.cut) {
		uint64_t left = MZK_MAP_BYTES - at, length = lab.cut < left ? lab.cut : left;
		if (given) node_plain(giver, MZK_N_GIVE_PART, at, length, 0, out);
		if (out[MZK_ACCEPTED]) take_part(receiver, at, length, giver, out);
	}
}

/* ---- The client. */
static void tell(const uint64_t *t)
{
	uint64_t out[MZK_NODE_OUT];
	for (uint64_t i = 0; i < 16; i++) {
		int to = t[1] >> i & 1;
		if (t[0] == MZK_TOLD_MARKS && to) node_plain(i, MZK_N_WRITE, t[2], t[3], t[4], out);
		if (t[0] == MZK_TOLD_CLEARS && to) node_plain(i, MZK_N_SYNCED, t[2], t[3], 0, out);
		if (t[0] == MZK_TOLD_INFOS && to) node_plain(i, MZK_N_POOL_INFO, t[2], t[3], 0, out);
		if (t[0] == MZK_TOLD_DISABLE && t[1] == i) node_plain(i, MZK_N_MAP_DISABLE, 0, 0, 0, out);
		if (t[0] == MZK_TOLD_OFF && t[1] == i) node_plain(i, MZK_N_ENABLE0, 0, 0, 0, out);
		if (t[0] == MZK_TOLD_EXTENDED && to) node_plain(i, MZK_N_POOL_INFO, MZK_ADD_CREATE, t[3], 0, out);
		if (t[0] == MZK_TOLD_EXTENDED && (t[2] >> i & 1)) node_plain(i, MZK_N_FILL, t[3], t[4], 0, out);
	}
}

/* The log record of an accepted event: sequence, kind, member, set, number, version, count, causes. */
static void enter(uint64_t kind, uint64_t a, uint64_t b, uint64_t c, const uint64_t *out)
{
	uint64_t *r = lab.record;
	lab.has_record = out[MZK_ACCEPTED] && kind <= MZK_EXTEND;
	if (!lab.has_record) return;
	memset(r, 0, sizeof lab.record);
	r[0] = ++lab.logged;
	r[1] = kind;
	switch (kind) {
	case MZK_WRITE: r[3] = b; r[4] = a; break;
	case MZK_TRY: case MZK_ANSWER_GOOD: case MZK_ANSWER_FAILED: break;
	case MZK_ANSWER_VERSION: r[4] = b; break;
	case MZK_EXTEND: r[2] = out[MZK_O_OUTCOME_A]; break;
	case MZK_JOIN_ASSEMBLE: r[3] = b; r[4] = c; /* fallthrough */
	default: r[2] = a;
	}
	r[5] = lab.client[MZK_C_VERSION];
	r[6] = lab.client[MZK_C_COUNT];
	for (unsigned i = 0; i < 16; i++) {
		uint64_t s = lab.client[MZK_C_SESSION + i] & MZK_S_STATE;
		r[7] |= (uint64_t)(s == MZK_S_FAILED_LINK ? 1 : s == MZK_S_FAILED_IO ? 2 : 0) << 2 * i;
	}
}

static void client_event(uint64_t kind, uint64_t a, uint64_t b, uint64_t c, uint64_t of)
{
	uint64_t out[MZK_CLIENT_OUT];
	const uint8_t *other = of < 16 ? lab.map[of] : nothing;
	made(mzk_client_event(lab.client, lab.own, lab.own_lent, other, of < 16 ? lab.map_lent[of] : 0, kind, a, b, c, out));
	enter(kind, a, b, c, out);
	put_client(stdout, lab.client, out);
	if (!out[MZK_ACCEPTED]) return;
	if (out[MZK_O_AWAITED] != MZK_SENT_NOTHING || lab.client[MZK_C_JOB] == MZK_JOB_NONE) {
		memcpy(lab.awaited, out + MZK_O_AWAITED, sizeof lab.awaited);
		lab.number = out[MZK_O_NUMBER];
	}
	if (lab.automatic) tell(out + MZK_O_TOLD);
}

static void deliver(void)
{
	uint64_t out[MZK_NODE_OUT] = { 0 }, *m = lab.awaited;
	switch (m[0]) {
	case MZK_SENT_NOTHING: puts("idle"); return;
	case MZK_SENT_GET_VERSION: node_plain(m[1], MZK_N_MAP_GET_VER, 0, 0, 0, out); break;
	case MZK_SENT_READY: node_plain(m[1], MZK_N_MAP_READY, m[2], 0, 0, out); break;
	case MZK_SENT_SEND: pass_map(1, m[1], m[2], out); break;
	case MZK_SENT_DONE: node_plain(m[1], MZK_N_MAP_DONE, m[2], m[3], m[4], out); break;
	case MZK_SENT_LAST_IO: node_plain(m[1], MZK_N_LAST_IO, m[2], 0, 0, out); break;
	case MZK_SENT_ENABLE: node_plain(m[1], MZK_N_ENABLE1, m[2], m[3], 0, out); break;
	case MZK_SENT_LEAVE: node_plain(m[1], MZK_N_LEAVE, m[2] == 0, 0, 0, out); break;
	case MZK_SENT_INFO: node_plain(m[1], MZK_N_POOL_INFO, m[2], m[3], 0, out); break;
	}
	if (!out[MZK_ACCEPTED]) client_event(MZK_ANSWER_FAILED, lab.number, 0, 0, 16);
	else if (m[0] == MZK_SENT_GET_VERSION) client_event(MZK_ANSWER_VERSION, lab.number, out[MZK_O_VALUE], 0, 16);
	else client_event(MZK_ANSWER_GOOD, lab.number, 0, 0, 16);
}

static void ask(uint64_t n, uint64_t kind, uint64_t a, uint64_t b, uint64_t *out)
{
	made(mzk_node_ask(lab.node[n], lab.summaries[n], lab.map[n], lab.map_lent[n], lab.staging[n], lab.staging_lent[n], kind, a, b, out));
}

static void deliver_check(void)
{
	uint64_t out[MZK_NODE_OUT], due = lab.client[MZK_C_DUE], m = 0;
	if (!due) {
		puts("idle");
		return;
	}
	while (!(due >> m & 1)) m++;
	ask(m, MZK_ASK_CHECK, 0, 0, out);
	client_event(MZK_CHECK_ANSWER, lab.client[MZK_C_TICK], m, out[MZK_ACCEPTED] && out[MZK_O_VALUE], 16);
}

/* The six words of a row's summaries, made true of the map: 256 groups of 16 chunks, 16 groups of groups, the root. */
static void true_row(unsigned n, unsigned m)
{
	uint64_t *w = lab.summaries[n] + 6 * m;
	memset(w, 0, 6 * sizeof *w);
	for (unsigned c = 0; c < MZK_CHUNK_LIMIT; c++) {
		if (!is_dirty(lab.map[n], m, c)) continue;
		w[c / 16 / 64] |= (uint64_t)1 << c / 16 % 64;
		w[4] |= (uint64_t)1 << c / 256;
		w[5] = 1;
	}
}

/* ---- Lines. */
struct line {
	int count; /* 9: more than eight words */
	struct { const char *word; int number; uint64_t value; } at[9];
};

/* Words between single spaces; a word of digits that fits 64 bits is a number, leading zeros allowed. */
static void cut_line(char *s, struct line *l)
{
	memset(l, 0, sizeof *l);
	for (char *next; s; s = next) {
		next = strchr(s, ' ');
		if (next) *next++ = 0;
		if (l->count == 8) {
			l->count = 9;
			return;
		}
		uint64_t v = 0;
		int number = *s != 0;
		for (const char *p = s; *p && number; p++) {
			unsigned d = (unsigned char)*p - '0';
			number = d < 10 && (v < UINT64_MAX / 10 || (v == UINT64_MAX / 10 && d <= UINT64_MAX % 10));
			v = v * 10 + d;
		}
		l->at[l->count].word = s;
		l->at[l->count].number = number;
		l->at[l->count].value = number ? v : 0;
		l->count++;
	}
}

/* Whether the line is a name, or two, or three with a number second, and then numbers; x: its words' numbers. */
static const struct line *now;
static int form(const char *pattern)
{
	int i = 0;
	for (const char *p = pattern; *p; i++) {
		size_t n = strcspn(p, " ");
		if (i >= now->count) return 0;
		if (*p == '#') {
			if (!now->at[i].number) return 0;
		} else if (now->at[i].number || strlen(now->at[i].word) != n || memcmp(now->at[i].word, p, n)) return 0;
		p += n;
		while (*p == ' ') p++;
	}
	return i == now->count;
}

static const struct { const char *pattern; uint64_t kind; } client_forms[] = {
	{ "join_create #", MZK_JOIN_CREATE }, { "join_assemble # # #", MZK_JOIN_ASSEMBLE }, { "enable #", MZK_ENABLE }, { "maintenance #", MZK_MAINTENANCE },
	{ "link_down #", MZK_LINK_DOWN }, { "store_check #", MZK_STORE_CHECK }, { "rejoin #", MZK_REJOIN }, { "try", MZK_TRY }, { "extend", MZK_EXTEND },
	{ "tick", MZK_TICK }, { "write # #", MZK_WRITE },
};

/* flags: how many values the first number may have, 0 for any. */
static const struct { const char *pattern; uint64_t kind, flags; } node_forms[] = {
	{ "node # register_create", MZK_N_REGISTER_CREATE, 0 }, { "node # register_add # #", MZK_N_REGISTER_ADD, 0 }, { "node # unregister #", MZK_N_UNREGISTER, 2 },
	{ "node # join_create #", MZK_N_JOIN_CREATE, 0 }, { "node # join_assemble", MZK_N_JOIN_ASSEMBLE, 0 }, { "node # leave #", MZK_N_LEAVE, 2 },
	{ "node # enable1 # #", MZK_N_ENABLE1, 0 }, { "node # enable0", MZK_N_ENABLE0, 0 }, { "node # fault", MZK_N_FAULT, 0 },
	{ "node # write # # #", MZK_N_WRITE, 0 }, { "node # synced # #", MZK_N_SYNCED, 0 }, { "node # pool_info # #", MZK_N_POOL_INFO, 4 },
	{ "node # last_io #", MZK_N_LAST_IO, 0 }, { "node # map_ready #", MZK_N_MAP_READY, 2 }, { "node # give_part # #", MZK_N_GIVE_PART, 0 },
	{ "node # map_done # # #", MZK_N_MAP_DONE, 2 }, { "node # map_disable", MZK_N_MAP_DISABLE, 0 }, { "node # map_get_ver", MZK_N_MAP_GET_VER, 0 },
	{ "node # fill # #", MZK_N_FILL, 0 },
};

static const struct { const char *pattern; unsigned place; uint64_t limit; } poke_forms[] = {
	{ "poke version #", MZK_C_VERSION, UINT64_MAX }, { "poke count #", MZK_C_COUNT, 65535 }, { "poke chunks #", MZK_C_CHUNKS, 65535 },
	{ "poke members #", MZK_C_MEMBERS, 65535 }, { "poke written #", MZK_C_WRITTEN, 1 }, { "poke assembled #", MZK_C_ASSEMBLED, 1 },
	{ "poke tick #", MZK_C_TICK, UINT32_MAX }, { "poke due #", MZK_C_DUE, 65535 }, { "poke once #", MZK_C_ONCE, 65535 },
};

/* The line was obeyed by a line of output of its own. */
static int node_line(const uint64_t *x)
{
	uint64_t out[MZK_NODE_OUT];
	if (now->count < 3 || x[1] > 15) return 0;
	for (size_t i = 0; i < sizeof node_forms / sizeof *node_forms; i++)
		if (form(node_forms[i].pattern)) {
			if (node_forms[i].flags && x[3] >= node_forms[i].flags) return 0;
			node_plain(x[1], node_forms[i].kind, x[3], x[4], x[5], out);
			put_node(stdout, lab.node[x[1]], out);
			return 1;
		}
	if (form("node # take_part # # #") && x[4] <= 2048 && x[5] < 16) {
		take_part(x[1], x[3], x[4], x[5], out);
		put_node(stdout, lab.node[x[1]], out);
		return 1;
	}
	if (form("node # take #") && x[3] < 16) {
		pass_map(0, x[3], x[1], out);
		put_node(stdout, lab.node[x[1]], out);
		return 1;
	}
	int check = form("node # map_check");
	if (!check && !form("node # next # #")) return 0;
	if (check) ask(x[1], MZK_ASK_CHECK, 0, 0, out);
	else ask(x[1], MZK_ASK_NEXT, x[3], x[4], out);
	if (!out[MZK_ACCEPTED]) printf("refused %" PRIu64 "\n", out[MZK_REFUSAL]);
	else {
		put_node_state(stdout, lab.node[x[1]]);
		if (check) printf(" empty=%" PRIu64 "\n", out[MZK_O_VALUE]);
		else if (out[MZK_O_NUMBERED]) printf(" next=%" PRIu64 "\n", out[MZK_O_VALUE]);
		else puts(" next=none");
	}
	return 1;
}

static int client_line(const uint64_t *x)
{
	for (size_t i = 0; i < sizeof client_forms / sizeof *client_forms; i++)
		if (form(client_forms[i].pattern)) {
			client_event(client_forms[i].kind, x[1], x[2], x[3], 16);
			return 1;
		}
	if (form("remove # #") && x[2] < 2) client_event(x[2] ? MZK_REMOVE_DISASSEMBLE : MZK_REMOVE_DELETE, x[1], 0, 0, 16);
	else if (form("synced # # #") && x[3] < 16) client_event(MZK_SYNCED, x[1], x[2], 0, x[3]);
	else if (form("answer # # #") && x[2] < 3) client_event(x[2] == 0 ? MZK_ANSWER_FAILED : x[2] == 1 ? MZK_ANSWER_GOOD : MZK_ANSWER_VERSION, x[1], x[3], 0, 16);
	else if (form("check_answer # # #") && x[3] < 2) client_event(MZK_CHECK_ANSWER, x[1], x[2], x[3], 16);
	else if (form("deliver")) deliver();
	else if (form("deliver_check")) deliver_check();
	else if (form("row client #") && x[2] < 16) put_row(stdout, lab.own, x[2]);
	else if (form("row # #") && x[1] < 16 && x[2] < 16) put_row(stdout, lab.map[x[1]], x[2]);
	else if (form("staging # #") && x[1] < 16 && x[2] < 16) put_row(stdout, lab.staging[x[1]], x[2]);
	else if (form("look")) {
		const uint64_t *s = lab.client;
		printf("look written=%" PRIu64 " assembled=%" PRIu64 " tick=%" PRIu64 " due=%" PRIu64 " once=%" PRIu64, s[MZK_C_WRITTEN], s[MZK_C_ASSEMBLED], s[MZK_C_TICK], s[MZK_C_DUE], s[MZK_C_ONCE]);
		printf(" link=%" PRIu64 " io=%" PRIu64 "\n", ids_with(s, 1u << MZK_S_FAILED_LINK, 0), ids_with(s, 1u << MZK_S_FAILED_IO, 0));
	} else if (form("look #") && x[1] < 16) printf("look got=%" PRIu64 "\n", lab.node[x[1]][MZK_N_GOT]);
	else if (form("record")) {
		fputs(lab.has_record ? "record" : "none", stdout);
		for (int i = 0; i < 8 && lab.has_record; i++) printf(" %" PRIu64, lab.record[i]);
		putchar('\n');
	} else return 0;
	return 1;
}

/* The line sets the lab up: done. */
static int setting(const uint64_t *x)
{
	for (size_t i = 0; i < sizeof poke_forms / sizeof *poke_forms; i++)
		if (form(poke_forms[i].pattern)) {
			if (x[2] > poke_forms[i].limit) return 0;
			lab.client[poke_forms[i].place] = x[2];
			return 1;
		}
	if (form("poke session # # # # # #")) {
		int flags = x[4] < 2 && x[5] < 2 && x[6] < 2 && x[7] < 2;
		if (x[2] > 15 || x[3] > 6 || !flags || (x[3] != MZK_S_REMOVING && (x[6] || x[7])) || (!x[3] && (x[4] || x[5]))) return 0;
		lab.client[MZK_C_SESSION + x[2]] = x[3] + MZK_S_MAINTENANCE * x[4] + MZK_S_MARK * x[5] + MZK_S_DISASSEMBLE * x[6] + MZK_S_OWED * x[7];
	} else if (form("poke_node # # # # # # #")) {
		if (x[1] > 15 || x[2] > 4 || x[3] > 1 || x[4] > 1 || x[5] > 65535 || x[7] > 2) return 0;
		uint64_t *s = lab.node[x[1]];
		s[MZK_N_STATE] = x[2];
		s[MZK_N_STORE] = x[3];
		s[MZK_N_CREATE] = x[4];
		s[MZK_N_MEMBERS] = x[5];
		s[MZK_N_VERSION] = x[6];
		s[MZK_N_TRANSFER] = x[7] != 0;
		s[MZK_N_GOT] = x[7] == 2 ? MZK_MAP_BYTES : 0;
	} else if (form("poke_got # #") && x[1] < 16 && x[2] < 65536) {
		if (lab.node[x[1]][MZK_N_TRANSFER]) lab.node[x[1]][MZK_N_GOT] = x[2];
	} else if (form("summary # # #") && x[1] < 16 && x[2] < 96) lab.summaries[x[1]][x[2]] = x[3];
	else if (form("byte client # #") && x[2] < MZK_MAP_BYTES && x[3] < 256) lab.own[x[2]] = (uint8_t)x[3];
	else if (form("byte # # #") && x[1] < 16 && x[2] < MZK_MAP_BYTES && x[3] < 256) {
		lab.map[x[1]][x[2]] = (uint8_t)x[3];
		true_row(x[1], x[2] / 512);
	} else if (form("staging_byte # # #") && x[1] < 16 && x[2] < MZK_MAP_BYTES && x[3] < 256) lab.staging[x[1]][x[2]] = (uint8_t)x[3];
	else if (form("lend client #") && x[2] <= MZK_MAP_BYTES) lab.own_lent = x[2];
	else if (form("lend # #") && x[1] < 16 && x[2] <= MZK_MAP_BYTES) lab.map_lent[x[1]] = x[2];
	else if (form("lend_staging # #") && x[1] < 16 && x[2] <= MZK_MAP_BYTES) lab.staging_lent[x[1]] = x[2];
	else if (form("auto #") && x[1] < 2) lab.automatic = x[1] == 1;
	else if (form("cut #") && x[1] > 0 && x[1] <= MZK_PART_BYTES) lab.cut = x[1];
	else if (form("pool # #") && x[1] < 2 && x[2] < 65536) fresh(x[1], x[2]);
	else return 0;
	return 1;
}

static void obey(char *s, size_t length)
{
	struct line l;
	uint64_t x[9];
	if (!length || *s == '#') return;
	if (length > 255 || memchr(s, 0, length)) {
		puts("unreadable");
		return;
	}
	cut_line(s, &l);
	now = &l;
	for (int i = 0; i < 9; i++) x[i] = l.at[i].value;
	if (!strcmp(l.at[0].word, "node") ? node_line(x) : client_line(x)) return;
	puts(setting(x) ? "done" : "unreadable");
}

int main(void)
{
	char *s = NULL;
	size_t room = 0;
	ssize_t got;
	fresh(0, 4096);
	while ((got = getline(&s, &room, stdin)) >= 0) {
		if (got && s[got - 1] == '\n') s[--got] = 0;
		obey(s, (size_t)got);
	}
	free(s);
	return 0;
}

/* A few events written by hand, with no proof: link down and write with no job in hand, the good answer to MAP_READY in an enabling spread, a node's write and its taking of a part. They are
 * for measuring (measure.c), and test all that the rules test, the state rules, the maps and the summaries with them: so they answer as the proved ones do, which measure.c looks at first. */
#ifndef BYHAND_H
#define BYHAND_H
#include <stdbool.h>
#include <stdint.h>
#include <string.h>

enum hand_state { H_NONE, H_CREATED, H_NORMAL, H_FAILED, H_RECONNECTING, H_REMOVING };
struct hand_session { uint8_t state, io, maintenance, mark, disassemble, owed; };
struct hand_pool {
	struct hand_session session[16];
	uint64_t count, version, members, chunks;
	bool sync, written, assembled;
	int job; /* 0 none, 6 an enabling spread */
	int step;
	uint64_t source, left, taken;
	uint32_t number, tick;
	uint16_t due, once;
};
struct hand_answer {
	uint64_t refusal; /* 0: accepted */
	bool acked;
	uint64_t list, mark_to, mark_chunk, mark_version, taken;
	int awaited; /* 0 none, 3 MAP_SEND */
	uint64_t to, receiver;
	uint32_t number;
};

static inline bool hand_has(uint64_t set, uint64_t i) { return set >> i & 1; }

/* No bit past the chunk count. */
static inline bool hand_sound(const uint8_t *map, size_t bytes, uint64_t chunks)
{
	if (bytes != 8192) return false;
	uint8_t got = 0;
	for (unsigned m = 0; m < 16; m++) {
		const uint8_t *row = map + 512 * m;
		if (chunks % 8) got |= row[chunks / 8] >> chunks % 8;
		for (uint64_t i = (chunks + 7) / 8; i < 512; i++) got |= row[i];
	}
	return !got;
}

/* The state rules: of the sessions, and of an enabling spread. */
static inline bool hand_valid(const struct hand_pool *p)
{
	uint64_t normal = 0, marked = 0;
	if (p->chunks < 1 || p->chunks > 4096 || p->version < 1 || p->members > 65535 || (p->sync && p->members)) return false;
	for (unsigned i = 0; i < 16; i++) {
		const struct hand_session *s = &p->session[i];
		bool waits = s->state == H_FAILED || s->state == H_RECONNECTING;
		normal += s->state == H_NORMAL;
		marked += s->mark;
		if ((s->mark || s->maintenance) && !waits) return false;
		if (p->sync && (s->mark || s->maintenance || s->state == H_RECONNECTING)) return false;
		if (!p->sync && s->state != H_NONE && s->state != H_REMOVING && !hand_has(p->members, i)) return false;
	}
	if (p->count != (p->sync ? 0 : normal) || marked > 1 || (marked && normal)) return false;
	if (p->version > (((uint64_t)1 << 63) - 17) - p->count) return false;
	if (!p->job) return true;
	if (p->sync || p->version > ((uint64_t)1 << 63) - 34 || !p->left || p->left > 65535 || p->source > 15 || p->session[p->source].state != H_NORMAL) return false;
	uint64_t size = 0;
	for (unsigned i = 0; i < 16; i++) {
		if (!hand_has(p->left, i)) continue;
		if (p->session[i].state != H_RECONNECTING || p->session[i].maintenance) return false;
		size++;
	}
	return p->taken <= 168 && p->taken + 3 * size - p->step <= 168;
}

static inline void hand_fail(struct hand_pool *p, unsigned i, bool io)
{
	struct hand_session *s = &p->session[i];
	bool was = s->state == H_NORMAL;
	s->state = H_FAILED;
	s->io = io;
	if (!was || p->sync) return;
	p->count--;
	if (!p->count) s->mark = 1;
	if (p->version < ((uint64_t)1 << 63) - 17) p->version++;
}

static void hand_link_down(struct hand_pool *p, uint64_t id, struct hand_answer *a)
{
	memset(a, 0, sizeof *a);
	if (!hand_valid(p)) { a->refusal = 1; return; }
	if (id > 15) { a->refusal = 3; return; }
	uint8_t s = p->session[id].state;
	if (s == H_NONE) { a->refusal = 7; return; }
	if (s != H_CREATED && s != H_NORMAL && s != H_RECONNECTING) { a->refusal = 9; return; }
	hand_fail(p, id, false);
	p->once = 0;
}

static void hand_write(struct hand_pool *p, uint8_t *map, size_t bytes, uint64_t chunk, uint64_t reached, struct hand_answer *a)
{
	memset(a, 0, sizeof *a);
	if (!hand_valid(p)) { a->refusal = 1; return; }
	if (!hand_sound(map, bytes, p->chunks)) { a->refusal = 2; return; }
	if (reached > 65535) { a->refusal = 3; return; }
	if (chunk >= p->chunks) { a->refusal = 4; return; }
	if (p->sync) { a->refusal = 5; return; }
	uint64_t normal = 0;
	for (unsigned i = 0; i < 16; i++) normal |= (uint64_t)(p->session[i].state == H_NORMAL) << i;
	if (!normal || (reached & ~normal)) { a->refusal = 11; return; }
	bool changed = false;
	for (unsigned i = 0; i < 16; i++)
		if (hand_has(normal & ~reached, i)) {
			hand_fail(p, i, true);
			changed = true;
		}
	a->acked = reached != 0;
	if (changed || a->acked) p->once = 0;
	if (!reached) return;
	p->written = true;
	for (unsigned i = 0; i < 16; i++) {
		const struct hand_session *s = &p->session[i];
		if (!hand_has(p->members, i) || s->state == H_NORMAL || (s->state == H_REMOVING && !s->disassemble)) continue;
		a->list |= (uint64_t)1 << i;
		map[512 * i + chunk / 8] |= (uint8_t)(1 << chunk % 8);
	}
	a->mark_to = reached;
	a->mark_chunk = chunk;
	a->mark_version = p->version;
}

/* A good answer to MAP_READY of an enabling spread: MAP_SEND is next. */
static void hand_answer_ready(struct hand_pool *p, const uint8_t *map, size_t bytes, uint64_t number, struct hand_answer *a)
{
	memset(a, 0, sizeof *a);
	if (!hand_valid(p)) { a->refusal = 1; return; }
	if (!hand_sound(map, bytes, p->chunks)) { a->refusal = 2; return; }
	if (p->job != 6 || number != p->number) { a->refusal = 13; return; }
	p->step = 1;
	p->taken++;
	p->number++;
	p->once = 0;
	unsigned x = 0;
	while (!hand_has(p->left, x)) x++;
	a->taken = p->taken;
	a->awaited = 3;
	a->to = p->source;
	a->receiver = x;
	a->number = p->number;
}

struct hand_node {
	uint64_t id, chunks, members, version, held, got;
	uint8_t state; /* 0 EMPTY .. 4 NO_IO */
	bool store, create, transfer;
	uint64_t kept[16];
	uint64_t summaries[96];
};

static inline bool hand_agree(const uint64_t *words, const uint8_t *map)
{
	for (unsigned m = 0; m < 16; m++) {
		uint64_t w[6] = { 0 };
		const uint8_t *row = map + 512 * m;
		for (unsigned g = 0; g < 256; g++)
			if (row[2 * g] | row[2 * g + 1]) w[g / 64] |= (uint64_t)1 << g % 64;
		for (unsigned g = 0; g < 16; g++)
			if (w[g / 4] >> g % 4 * 16 & 65535) w[4] |= (uint64_t)1 << g;
		w[5] = w[4] != 0;
		if (memcmp(w, words + 6 * m, sizeof w)) return false;
	}
	return true;
}

static inline uint64_t hand_common(const struct hand_node *n, const uint8_t *map, size_t bytes, const uint8_t *staging, size_t staging_bytes)
{
	bool own = n->id < 16 && hand_has(n->members, n->id), ok = n->chunks >= 1 && n->chunks <= 4096 && n->members <= 65535 && n->version <= ((uint64_t)1 << 63) - 17;
	ok = ok && (n->state == 0 || own) && (!n->create || n->state == 1) && (n->state == 4 || n->store == (n->state != 0));
	ok = ok && (!n->transfer || (n->state == 4 && n->store)) && n->held <= 16 && n->got <= 8192;
	for (uint64_t i = 16 - (n->held <= 16 ? n->held : 16); i < 16; i++) ok = ok && n->kept[i] < n->chunks;
	if (!ok) return 1;
	if (!hand_sound(map, bytes, n->chunks) || !hand_sound(staging, staging_bytes, n->chunks)) return 2;
	if (!hand_agree(n->summaries, map)) return 18;
	return 0;
}

static uint64_t hand_node_write(struct hand_node *n, uint8_t *map, size_t bytes, const uint8_t *staging, size_t staging_bytes, uint64_t chunk, uint64_t set, uint64_t version)
{
	uint64_t why = hand_common(n, map, bytes, staging, staging_bytes);
	if (why) return why;
	if (n->id > 15 || set > 65535) return 3;
	if (chunk >= n->chunks) return 4;
	if (n->state != 3) return 9;
	if (version > ((uint64_t)1 << 63) - 17) return 14;
	if (version > n->version) n->version = version;
	memmove(n->kept, n->kept + 1, 15 * sizeof *n->kept);
	n->kept[15] = chunk;
	if (n->held < 16) n->held++;
	for (unsigned m = 0; m < 16; m++) {
		if (!hand_has(set, m)) continue;
		map[512 * m + chunk / 8] |= (uint8_t)(1 << chunk % 8);
		n->summaries[6 * m + chunk / 16 / 64] |= (uint64_t)1 << chunk / 16 % 64;
		n->summaries[6 * m + 4] |= (uint64_t)1 << chunk / 256;
		n->summaries[6 * m + 5] = 1;
	}
	return 0;
}

static uint64_t hand_take_part(struct hand_node *n, const uint8_t *map, size_t bytes, uint8_t *staging, size_t staging_bytes, uint64_t offset, const uint8_t *part, size_t length)
{
	uint64_t why = hand_common(n, map, bytes, staging, staging_bytes);
	if (why) return why;
	if (n->id > 15) return 3;
	if (!n->transfer) return 15;
	if (length < 1 || length > 1024 || offset > 8192 || length > 8192 - offset || offset != n->got) return 16;
	uint8_t past = 0;
	for (size_t i = 0; i < length; i++) {
		uint64_t first = (offset + i) % 512 * 8;
		if (first >= n->chunks) past |= part[i];
		else if (n->chunks - first < 8) past |= part[i] >> (n->chunks - first);
	}
	if (past) return 16;
	for (size_t i = 0; i < length; i++) staging[offset + i] |= part[i];
	n->got = offset + length;
	return 0;
}
#endif

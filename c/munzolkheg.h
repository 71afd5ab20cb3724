/* The proved rules of a replicated pool, client and storage node, for C and C++ on x86-64 Linux.
 *
 * `./library` builds target/library/libmunzolkheg_client.a and libmunzolkheg_node.a and puts this header beside them:
 *
 *     cc -Itarget/library yourtest.c -Ltarget/library -lmunzolkheg_client -lmunzolkheg_node -o yourtest
 *
 * A client is 32 words that you keep, a node 32 words and 96 words of summaries. Make them by the `fresh` calls, hand
 * them to the event calls, read them by the numbers below. They are plain memory: copy, store and compare them as you
 * like. There is no other memory: no allocation, no global, no lock. Two threads may work on two states at once.
 *
 * What you owe, since no proof can ask it of C: no pointer is NULL (not even at length 0); pointers to words are aligned
 * to 8; each buffer is as long as it is said to be; NO TWO BUFFERS OF ONE CALL OVERLAP. A node that takes its own map
 * gets a copy of it.
 * Everything else may be anything: words, bytes, lengths, ids, sets, numbers. What they break is answered by a refusal,
 * or by an error of the call.
 *
 * What a name begins with says what it is: MZK_CW_ a client's word, MZK_CE_ its event, MZK_CA_ a word of its answer; MZK_NW_, MZK_NE_,
 * MZK_NA_ a node's, MZK_NQ_ a question to it; MZK_A_ a word of either answer, MZK_R_ a refusal. Each list is an enum of its own, and
 * mzk_cw, mzk_ca, mzk_nw and mzk_na take one each, so that a compiler warns where words are mixed up. Numbers and comments between
 * the marks are made from the definitions of the rules by tools/header.py, and compared with them whenever the project is tested.
 *
 * Proved of the calls (not of this header, nor of the small functions at its end): for any words, bytes and numbers the
 * returned number, every word and every byte that is left are what the definitions of the rules say. docs/LIBRARY.md. */
#ifndef MUNZOLKHEG_H
#define MUNZOLKHEG_H
#include <stddef.h>
#include <stdint.h>

/* Raised with every change of a name, a number or a word's place. */
#define MZK_VERSION 2

#ifdef __cplusplus
extern "C" {
#define MZK_WORDS(n) n
#else
#define MZK_WORDS(n) static n
#endif

/* [made by tools/header.py: common] */
enum {
	MZK_MEMBERS = 16,
	MZK_PART_BYTES = 1024,
	MZK_CHUNK_LIMIT = 4096,
	MZK_MAP_BYTES = 8192
};

/* What a call returns. At any number but MZK_DONE nothing was changed: no word, no byte, not the answer. */
enum mzk_returned {
	MZK_DONE = 0,     /* the event was tried; the answer says whether it was accepted or refused */
	MZK_NO_STATE = 1, /* the words of state are those of no client, or no node */
	MZK_NO_EVENT = 2  /* kind is no event's, or a number that is a case is out of its range */
};

/* Refusals, where an event was not accepted. A refusal changes no state and no byte of a map. The first that applies is given,
 * in the order 1 2 18 3 4 5 6 7 8 9 17 10 11 19 12 13 14 15 16. */
enum mzk_refusal {
	MZK_R_BROKEN = 1,       /* the state value breaks a state rule */
	MZK_R_MAP = 2,          /* a map, staging map or dump is not 8,192 bytes, or has a bit set past the chunk count */
	MZK_R_ID = 3,           /* an id above 15, or a bit above 15 in a set */
	MZK_R_CHUNK = 4,        /* a chunk that is not below the chunk count */
	MZK_R_POOL_KIND = 5,    /* the event is not for this kind of pool */
	MZK_R_JOB = 6,          /* a job is in hand that bars the event */
	MZK_R_NO_SESSION = 7,   /* the id has no session */
	MZK_R_SESSION = 8,      /* the id has a session */
	MZK_R_STATE = 9,        /* the transition, or at a node the state, is not allowed */
	MZK_R_MEMBERSHIP = 10,  /* a membership test does not hold */
	MZK_R_REACH = 11,       /* at a write, sync or extend, no session is NORMAL; or a reached set names an id that is not */
	MZK_R_NO_SYNC = 12,     /* at the client, the chunk can't be synced */
	MZK_R_NOT_AWAITED = 13, /* not the number that is awaited, or no such answer is */
	MZK_R_VERSION = 14,     /* a version above 2^63 - 34, in a node's write or fill above 2^63 - 17 */
	MZK_R_NO_TRANSFER = 15, /* no map transfer in hand, or MAP_DONE before a whole map was taken */
	MZK_R_PART = 16,        /* a part of length 0 or above 1,024, one that does not start where the last ended, one past byte 8,192, or one with a bit past the chunk count */
	MZK_R_IN_SERVICE = 17,  /* join create after an acknowledged write; or enable from CREATED after one, or once the pool was assembled */
	MZK_R_SUMMARIES = 18,   /* a node's summary disagrees with its map */
	MZK_R_NO_ID = 19        /* at extend, no id is left */
};

/* Both answers begin so. */
enum mzk_answer_word {
	MZK_A_ACCEPTED = 0, /* 1, or 0: refused */
	MZK_A_REFUSAL = 1   /* its number, MZK_R_..; 0 where it was accepted */
};
/* [end] */

/* A map is 8,192 bytes: member m's row starts at byte 512 m; chunk c is bit c % 8, lowest first, of byte c / 8 of the
 * row; 1 is dirty. A set of members is a number: member m is bit m. */

/* ======== The client ======== */
/* [made by tools/header.py: client] */
enum {
	MZK_CLIENT_OUT = 16,
	MZK_CLIENT_WORDS = 32
};

/* The words of a client. */
enum mzk_client_word {
	MZK_CW_COUNT = 0,      /* sessions that are NORMAL */
	MZK_CW_VERSION = 1,    /* of the pool */
	MZK_CW_MEMBERS = 2,    /* a set */
	MZK_CW_SYNC = 3,       /* 1 for a sync pool */
	MZK_CW_WRITTEN = 4,    /* 1: a write was acknowledged, */
	MZK_CW_ASSEMBLED = 5,  /* 1: a node's member set was taken over, since a delete last emptied the membership */
	MZK_CW_NUMBER = 6,     /* of the last awaited message */
	MZK_CW_CHUNKS = 7,     /* of the pool */
	MZK_CW_JOB = 8,        /* what is in hand: MZK_JOB_.. */
	MZK_CW_JOB_DATA = 9,   /* VERSIONS: the highest version so far; BASE, GATHER, SPREAD: the message, MZK_STEP_..; ENABLE: 1 where all members are to stay candidates; REMOVE_INFO: the peer; else 0 */
	MZK_CW_JOB_ID = 10,    /* of a run its source, of a removal its id */
	MZK_CW_JOB_LEFT = 11,  /* of a run: who is left in its phase, a set */
	MZK_CW_JOB_TAKEN = 12, /* of a run: the awaited answers taken so far */
	MZK_CW_TICK = 13,      /* the number of the last tick */
	MZK_CW_DUE = 14,       /* the members whose answer to it is due, a set */
	MZK_CW_ONCE = 15,      /* those of which one empty answer stands, a set */
	MZK_CW_SESSION = 16    /* sixteen words, one for each id */
};

enum mzk_job {
	MZK_JOB_NONE = 0,
	MZK_JOB_VERSIONS = 1,
	MZK_JOB_BASE = 2,
	MZK_JOB_LAST_IO = 3,
	MZK_JOB_GATHER = 4,
	MZK_JOB_ENABLE = 5,
	MZK_JOB_SPREAD = 6,
	MZK_JOB_REMOVE_LEAVE = 7,
	MZK_JOB_REMOVE_INFO = 8
};

/* The message of a run that goes round: READY, SEND, DONE. */
enum mzk_step {
	MZK_STEP_READY = 0,
	MZK_STEP_SEND = 1,
	MZK_STEP_DONE = 2
};

/* A session's word: its state, and bits. */
enum mzk_session {
	MZK_S_NONE = 0,
	MZK_S_CREATED = 1,
	MZK_S_NORMAL = 2,
	MZK_S_FAILED_LINK = 3,
	MZK_S_RECONNECTING = 4,
	MZK_S_REMOVING = 5,
	MZK_S_FAILED_IO = 6
};

enum mzk_session_bit {
	MZK_SB_STATE = 7,        /* word & MZK_SB_STATE is its state, MZK_S_.. */
	MZK_SB_MAINTENANCE = 8,  /* under maintenance */
	MZK_SB_MARK = 16,        /* holds the mark */
	MZK_SB_DISASSEMBLE = 32, /* REMOVING in disassemble mode, else in delete mode */
	MZK_SB_OWED = 64         /* REMOVING, and LEAVE_POOL is still owed */
};

/* The kinds of events, with the numbers a, b, c (else 0) and the map that is lent. The first fifteen are those of a log record
 * (docs/AUDIT.md). */
enum mzk_client_kind {
	MZK_CE_JOIN_CREATE = 1,        /* a: id */
	MZK_CE_JOIN_ASSEMBLE = 2,      /* a: id, b: a set, c: version */
	MZK_CE_ENABLE = 3,             /* a: id */
	MZK_CE_MAINTENANCE = 4,        /* a: id */
	MZK_CE_LINK_DOWN = 5,          /* a: id */
	MZK_CE_STORE_CHECK = 6,        /* a: id */
	MZK_CE_REMOVE_DELETE = 7,      /* a: id; map */
	MZK_CE_REMOVE_DISASSEMBLE = 8, /* a: id; map */
	MZK_CE_WRITE = 9,              /* a: chunk, b: the set that was reached; map */
	MZK_CE_TRY = 10,
	MZK_CE_ANSWER_GOOD = 11,       /* a: the message's number; map */
	MZK_CE_ANSWER_VERSION = 12,    /* a: the message's number, b: version; map */
	MZK_CE_ANSWER_FAILED = 13,     /* a: the message's number; map */
	MZK_CE_REJOIN = 14,            /* a: id */
	MZK_CE_EXTEND = 15,            /* map */
	MZK_CE_SYNCED = 16,            /* a: member, b: chunk; other, a node's map, only read */
	MZK_CE_TICK = 17,              /* map, only read */
	MZK_CE_CHECK_ANSWER = 18       /* a: the tick's number, b: member, c: empty 0 or 1; map */
};

/* The words of an answer. A refusal's others are 0. */
enum mzk_client_answer {
	MZK_CA_OUTCOME = 2,    /* MZK_OUTCOME_.. */
	MZK_CA_OUTCOME_A = 3,  /* its numbers */
	MZK_CA_OUTCOME_B = 4,
	MZK_CA_TOLD = 5,       /* the messages that are not awaited: MZK_TOLD_.. */
	MZK_CA_TOLD_A = 6,     /* their numbers */
	MZK_CA_TOLD_B = 7,
	MZK_CA_TOLD_C = 8,
	MZK_CA_TOLD_D = 9,
	MZK_CA_AWAITED = 10,   /* the awaited message: MZK_SENT_.. */
	MZK_CA_AWAITED_A = 11, /* its numbers */
	MZK_CA_AWAITED_B = 12,
	MZK_CA_AWAITED_C = 13,
	MZK_CA_AWAITED_D = 14,
	MZK_CA_NUMBER = 15     /* of the awaited message */
};

enum mzk_outcome {
	MZK_OUTCOME_PLAIN = 0,
	MZK_OUTCOME_TAKEN = 1,   /* the awaited answers taken. A: how many */
	MZK_OUTCOME_WRITTEN = 2, /* a write ended. A: acknowledged 0 or 1, B: the mark list */
	MZK_OUTCOME_PICKED = 3   /* the id that extend picked. A: id */
};

enum mzk_told {
	MZK_TOLD_NOTHING = 0,
	MZK_TOLD_MARKS = 1,    /* MARK to each of A. A: the set, B: chunk, C: the mark list, D: version */
	MZK_TOLD_CLEARS = 2,   /* CLEAR to each of A. A: the set, B: member, C: chunk */
	MZK_TOLD_INFOS = 3,    /* POOL_INFO to each of A, which may be empty. A: the set, B: MZK_INFO_.., C: member */
	MZK_TOLD_DISABLE = 4,  /* MAP_DISABLE to A. A: the node's id */
	MZK_TOLD_OFF = 5,      /* ENABLE 0 to A. A: the node's id */
	MZK_TOLD_EXTENDED = 6, /* POOL_INFO add-create of the member to each of A, then its FILL to each of B. A: a set, B: a set, C: member, D: version */
	MZK_TOLD_CHECKS = 7    /* MAP_CHECK to each of A. A: the set, B: tick */
};

enum mzk_sent {
	MZK_SENT_NOTHING = 0,
	MZK_SENT_GET_VERSION = 1, /* MAP_GET_VER to A. A: the node's id */
	MZK_SENT_READY = 2,       /* MAP_READY to A. A: the node's id, B: keep 0 or 1 */
	MZK_SENT_SEND = 3,        /* MAP_SEND to A. A: the node's id, B: receiver */
	MZK_SENT_DONE = 4,        /* MAP_DONE to A. A: the node's id, B: enable 0 or 1, C: version, D: set */
	MZK_SENT_LAST_IO = 5,     /* LAST_IO to A. A: the node's id, B: chosen */
	MZK_SENT_ENABLE = 6,      /* ENABLE 1 to A. A: the node's id, B: version, C: set */
	MZK_SENT_LEAVE = 7,       /* LEAVE to A. A: the node's id, B: MZK_MODE_.. */
	MZK_SENT_INFO = 8         /* POOL_INFO to A. A: the node's id, B: MZK_INFO_.., C: member */
};

/* What a POOL_INFO says of its member. */
enum mzk_info {
	MZK_INFO_ADD_CREATE = 0,
	MZK_INFO_ADD_ASSEMBLE = 1,
	MZK_INFO_REMOVED_DELETE = 2,
	MZK_INFO_REMOVED_DISASSEMBLE = 3
};

enum mzk_mode {
	MZK_MODE_DELETE = 0,
	MZK_MODE_DISASSEMBLE = 1
};

/* A fresh client of a pool, sync 0 or 1 (else MZK_NO_EVENT). A chunk count outside 1 to 4096 gives a client whose events are all refused. */
uint64_t mzk_client_fresh(uint64_t state[MZK_WORDS(32)], uint64_t sync, uint64_t chunks);

/* An event, its kind one of enum mzk_client_kind. map: the client's own. other: the node's map that MZK_CE_SYNCED reads; at other
 * events any byte. */
uint64_t mzk_client_event(uint64_t state[MZK_WORDS(32)], uint8_t *map, size_t map_bytes, const uint8_t *other, size_t other_bytes,
                          uint64_t kind, uint64_t a, uint64_t b, uint64_t c, uint64_t out[MZK_WORDS(16)]);
/* [end] */

/* ======== The storage node ======== */
/* [made by tools/header.py: node] */
enum {
	MZK_NODE_OUT = 4,
	MZK_NODE_WORDS = 32,
	MZK_SUMMARY_WORDS = 96
};

/* The words of a node. The summaries are the node's too: any words are some node's, but events of a node whose summaries are not
 * its map's are refused (18). */
enum mzk_node_word {
	MZK_NW_ID = 0,
	MZK_NW_CHUNKS = 1,
	MZK_NW_STATE = 2,    /* MZK_NS_.. */
	MZK_NW_STORE = 3,    /* 1: a store is registered */
	MZK_NW_CREATE = 4,   /* 1: registered with create mode */
	MZK_NW_MEMBERS = 5,  /* a set */
	MZK_NW_VERSION = 6,
	MZK_NW_HELD = 7,     /* how many of the last chunk numbers are kept, 0 to 16 */
	MZK_NW_TRANSFER = 8, /* 1: a map transfer is in hand, */
	MZK_NW_GOT = 9,      /* of which so many bytes were taken */
	MZK_NW_KEPT = 16     /* sixteen words; the kept chunk numbers stand at their end, oldest first. The six words before are 0 */
};

enum mzk_node_state {
	MZK_NS_EMPTY = 0,
	MZK_NS_REGISTERED = 1,
	MZK_NS_CREATED = 2,
	MZK_NS_NORMAL = 3,
	MZK_NS_NO_IO = 4
};

/* The kinds of a node's events, with the numbers a, b, c (else 0). A number out of the range that is said here is MZK_NO_EVENT. */
enum mzk_node_kind {
	MZK_NE_REGISTER_CREATE = 1,
	MZK_NE_REGISTER_ADD = 2,    /* a: a set, b: version */
	MZK_NE_UNREGISTER = 3,      /* a: delete 0 or 1 */
	MZK_NE_JOIN_CREATE = 4,     /* a: a set */
	MZK_NE_JOIN_ASSEMBLE = 5,
	MZK_NE_LEAVE = 6,           /* a: delete 0 or 1 */
	MZK_NE_ENABLE1 = 7,         /* a: version, b: a set */
	MZK_NE_ENABLE0 = 8,
	MZK_NE_FAULT = 9,
	MZK_NE_WRITE = 10,          /* a: chunk, b: the set that it did not reach, c: version */
	MZK_NE_SYNCED = 11,         /* a: member, b: chunk */
	MZK_NE_POOL_INFO = 12,      /* a: MZK_INFO_.., b: member */
	MZK_NE_LAST_IO = 13,        /* a: the id that was chosen */
	MZK_NE_MAP_READY = 14,      /* a: keep 0 or 1 */
	MZK_NE_GIVE_PART = 15,      /* a: offset, b: length; if it is accepted, these bytes of map are yours to send */
	MZK_NE_TAKE_PART = 16,      /* a: offset; part: the bytes */
	MZK_NE_MAP_DONE = 17,       /* a: enable 0 or 1, b: version, c: a set */
	MZK_NE_MAP_DISABLE = 18,
	MZK_NE_MAP_GET_VER = 19,
	MZK_NE_FILL = 20            /* a: member, b: version */
};

/* The kinds of questions, which change nothing. */
enum mzk_question {
	MZK_NQ_CHECK = 1, /* is the node NORMAL and its own row empty: 1 or 0 */
	MZK_NQ_NEXT = 2   /* a: member, b: start; the first dirty chunk of that member's row at or after start, if there is one */
};

/* The words of a node's answer. */
enum mzk_node_answer {
	MZK_NA_NUMBERED = 2, /* 1: a number is answered, */
	MZK_NA_VALUE = 3     /* this one: of MAP_GET_VER the version, of a question what it says */
};

/* A fresh node, with its summaries. */
void mzk_node_fresh(uint64_t state[MZK_WORDS(32)], uint64_t summaries[MZK_WORDS(96)], uint64_t id, uint64_t chunks);

/* An event, its kind one of enum mzk_node_kind, with the node's map and staging map. part: the bytes that MZK_NE_TAKE_PART takes; at
 * other events any byte. */
uint64_t mzk_node_event(uint64_t state[MZK_WORDS(32)], uint64_t summaries[MZK_WORDS(96)], uint8_t *map, size_t map_bytes,
                        uint8_t *staging, size_t staging_bytes, const uint8_t *part, size_t part_bytes, uint64_t kind, uint64_t a,
                        uint64_t b, uint64_t c, uint64_t out[MZK_WORDS(4)]);

/* A question, its kind one of enum mzk_question. */
uint64_t mzk_node_ask(const uint64_t state[MZK_WORDS(32)], const uint64_t summaries[MZK_WORDS(96)], const uint8_t *map,
                      size_t map_bytes, const uint8_t *staging, size_t staging_bytes, uint64_t kind, uint64_t a, uint64_t b,
                      uint64_t out[MZK_WORDS(4)]);
/* [end] */

/* ======== In words ======== */
/* [made by tools/header.py: texts] */
static inline const char *mzk_refusal_text(uint64_t refusal)
{
	switch (refusal) {
	case MZK_R_BROKEN: return "the state value breaks a state rule";
	case MZK_R_MAP: return "a map, staging map or dump is not 8,192 bytes, or has a bit set past the chunk count";
	case MZK_R_ID: return "an id above 15, or a bit above 15 in a set";
	case MZK_R_CHUNK: return "a chunk that is not below the chunk count";
	case MZK_R_POOL_KIND: return "the event is not for this kind of pool";
	case MZK_R_JOB: return "a job is in hand that bars the event";
	case MZK_R_NO_SESSION: return "the id has no session";
	case MZK_R_SESSION: return "the id has a session";
	case MZK_R_STATE: return "the transition, or at a node the state, is not allowed";
	case MZK_R_MEMBERSHIP: return "a membership test does not hold";
	case MZK_R_REACH: return "at a write, sync or extend, no session is NORMAL; or a reached set names an id that is not";
	case MZK_R_NO_SYNC: return "at the client, the chunk can't be synced";
	case MZK_R_NOT_AWAITED: return "not the number that is awaited, or no such answer is";
	case MZK_R_VERSION: return "a version above 2^63 - 34, in a node's write or fill above 2^63 - 17";
	case MZK_R_NO_TRANSFER: return "no map transfer in hand, or MAP_DONE before a whole map was taken";
	case MZK_R_PART: return "a part of length 0 or above 1,024, one that does not start where the last ended, one past byte 8,192, or one with a bit past the chunk count";
	case MZK_R_IN_SERVICE: return "join create after an acknowledged write; or enable from CREATED after one, or once the pool was assembled";
	case MZK_R_SUMMARIES: return "a node's summary disagrees with its map";
	case MZK_R_NO_ID: return "at extend, no id is left";
	default: return "no refusal";
	}
}

static inline const char *mzk_session_text(uint64_t session_word)
{
	switch (session_word & MZK_SB_STATE) {
	case MZK_S_NONE: return "none";
	case MZK_S_CREATED: return "CREATED";
	case MZK_S_NORMAL: return "NORMAL";
	case MZK_S_FAILED_LINK: return "FAILED, cause link";
	case MZK_S_FAILED_IO: return "FAILED, cause IO";
	case MZK_S_RECONNECTING: return "RECONNECTING";
	case MZK_S_REMOVING: return "REMOVING";
	default: return "no state";
	}
}

static inline const char *mzk_job_text(uint64_t job)
{
	switch (job) {
	case MZK_JOB_NONE: return "NONE";
	case MZK_JOB_VERSIONS: return "VERSIONS";
	case MZK_JOB_BASE: return "BASE";
	case MZK_JOB_LAST_IO: return "LAST_IO";
	case MZK_JOB_GATHER: return "GATHER";
	case MZK_JOB_ENABLE: return "ENABLE";
	case MZK_JOB_SPREAD: return "SPREAD";
	case MZK_JOB_REMOVE_LEAVE: return "REMOVE_LEAVE";
	case MZK_JOB_REMOVE_INFO: return "REMOVE_INFO";
	default: return "no job's number";
	}
}

static inline const char *mzk_node_state_text(uint64_t state)
{
	switch (state) {
	case MZK_NS_EMPTY: return "EMPTY";
	case MZK_NS_REGISTERED: return "REGISTERED";
	case MZK_NS_CREATED: return "CREATED";
	case MZK_NS_NORMAL: return "NORMAL";
	case MZK_NS_NO_IO: return "NO_IO";
	default: return "no state";
	}
}

static inline const char *mzk_client_kind_text(uint64_t kind)
{
	switch (kind) {
	case MZK_CE_JOIN_CREATE: return "join_create";
	case MZK_CE_JOIN_ASSEMBLE: return "join_assemble";
	case MZK_CE_ENABLE: return "enable";
	case MZK_CE_MAINTENANCE: return "maintenance";
	case MZK_CE_LINK_DOWN: return "link_down";
	case MZK_CE_STORE_CHECK: return "store_check";
	case MZK_CE_REMOVE_DELETE: return "remove_delete";
	case MZK_CE_REMOVE_DISASSEMBLE: return "remove_disassemble";
	case MZK_CE_WRITE: return "write";
	case MZK_CE_TRY: return "try";
	case MZK_CE_ANSWER_GOOD: return "answer_good";
	case MZK_CE_ANSWER_VERSION: return "answer_version";
	case MZK_CE_ANSWER_FAILED: return "answer_failed";
	case MZK_CE_REJOIN: return "rejoin";
	case MZK_CE_EXTEND: return "extend";
	case MZK_CE_SYNCED: return "synced";
	case MZK_CE_TICK: return "tick";
	case MZK_CE_CHECK_ANSWER: return "check_answer";
	default: return "no event";
	}
}

static inline const char *mzk_node_kind_text(uint64_t kind)
{
	switch (kind) {
	case MZK_NE_REGISTER_CREATE: return "register_create";
	case MZK_NE_REGISTER_ADD: return "register_add";
	case MZK_NE_UNREGISTER: return "unregister";
	case MZK_NE_JOIN_CREATE: return "join_create";
	case MZK_NE_JOIN_ASSEMBLE: return "join_assemble";
	case MZK_NE_LEAVE: return "leave";
	case MZK_NE_ENABLE1: return "enable1";
	case MZK_NE_ENABLE0: return "enable0";
	case MZK_NE_FAULT: return "fault";
	case MZK_NE_WRITE: return "write";
	case MZK_NE_SYNCED: return "synced";
	case MZK_NE_POOL_INFO: return "pool_info";
	case MZK_NE_LAST_IO: return "last_io";
	case MZK_NE_MAP_READY: return "map_ready";
	case MZK_NE_GIVE_PART: return "give_part";
	case MZK_NE_TAKE_PART: return "take_part";
	case MZK_NE_MAP_DONE: return "map_done";
	case MZK_NE_MAP_DISABLE: return "map_disable";
	case MZK_NE_MAP_GET_VER: return "map_get_ver";
	case MZK_NE_FILL: return "fill";
	default: return "no event";
	}
}
/* [end] */

/* ======== One call for each event, over whole maps ========
 * A client and a node with their maps, in one piece each. The maps of a fresh one are zero. */
typedef struct {
	uint64_t state[MZK_CLIENT_WORDS];
	uint64_t out[MZK_CLIENT_OUT];
	uint8_t map[MZK_MAP_BYTES];
} mzk_client;

typedef struct {
	uint64_t state[MZK_NODE_WORDS];
	uint64_t summaries[MZK_SUMMARY_WORDS];
	uint64_t out[MZK_NODE_OUT];
	uint8_t map[MZK_MAP_BYTES];
	uint8_t staging[MZK_MAP_BYTES];
} mzk_node;

/* The words by their names: a compiler warns where a client's name is used for a node, or an answer's for a state. */
static inline uint64_t mzk_cw(const mzk_client *k, enum mzk_client_word w) { return k->state[w]; }
static inline uint64_t mzk_ca(const mzk_client *k, enum mzk_client_answer w) { return k->out[w]; }
static inline uint64_t mzk_nw(const mzk_node *n, enum mzk_node_word w) { return n->state[w]; }
static inline uint64_t mzk_na(const mzk_node *n, enum mzk_node_answer w) { return n->out[w]; }
static inline int mzk_accepted(const mzk_client *k) { return k->out[MZK_A_ACCEPTED] != 0; }
static inline int mzk_n_accepted(const mzk_node *n) { return n->out[MZK_A_ACCEPTED] != 0; }
static inline uint64_t mzk_refusal(const mzk_client *k) { return k->out[MZK_A_REFUSAL]; }
static inline uint64_t mzk_n_refusal(const mzk_node *n) { return n->out[MZK_A_REFUSAL]; }

static inline void mzk_zero(uint8_t *bytes, size_t n) { while (n) bytes[--n] = 0; }

static inline uint64_t mzk_client_init(mzk_client *k, uint64_t sync, uint64_t chunks)
{
	mzk_zero(k->map, sizeof k->map);
	return mzk_client_fresh(k->state, sync, chunks);
}
static inline uint64_t mzk_client_do(mzk_client *k, uint64_t kind, uint64_t a, uint64_t b, uint64_t c)
{
	static const uint8_t none[1] = { 0 };
	return mzk_client_event(k->state, k->map, sizeof k->map, none, 0, kind, a, b, c, k->out);
}
/* [made by tools/header.py: client calls] */
static inline uint64_t mzk_join_create(mzk_client *k, uint64_t id) { return mzk_client_do(k, MZK_CE_JOIN_CREATE, id, 0, 0); }
static inline uint64_t mzk_join_assemble(mzk_client *k, uint64_t id, uint64_t set, uint64_t version) { return mzk_client_do(k, MZK_CE_JOIN_ASSEMBLE, id, set, version); }
static inline uint64_t mzk_enable(mzk_client *k, uint64_t id) { return mzk_client_do(k, MZK_CE_ENABLE, id, 0, 0); }
static inline uint64_t mzk_maintenance(mzk_client *k, uint64_t id) { return mzk_client_do(k, MZK_CE_MAINTENANCE, id, 0, 0); }
static inline uint64_t mzk_link_down(mzk_client *k, uint64_t id) { return mzk_client_do(k, MZK_CE_LINK_DOWN, id, 0, 0); }
static inline uint64_t mzk_store_check(mzk_client *k, uint64_t id) { return mzk_client_do(k, MZK_CE_STORE_CHECK, id, 0, 0); }
static inline uint64_t mzk_remove_delete(mzk_client *k, uint64_t id) { return mzk_client_do(k, MZK_CE_REMOVE_DELETE, id, 0, 0); }
static inline uint64_t mzk_remove_disassemble(mzk_client *k, uint64_t id) { return mzk_client_do(k, MZK_CE_REMOVE_DISASSEMBLE, id, 0, 0); }
static inline uint64_t mzk_write(mzk_client *k, uint64_t chunk, uint64_t reached) { return mzk_client_do(k, MZK_CE_WRITE, chunk, reached, 0); }
static inline uint64_t mzk_try(mzk_client *k) { return mzk_client_do(k, MZK_CE_TRY, 0, 0, 0); }
static inline uint64_t mzk_answer_good(mzk_client *k, uint64_t number) { return mzk_client_do(k, MZK_CE_ANSWER_GOOD, number, 0, 0); }
static inline uint64_t mzk_answer_version(mzk_client *k, uint64_t number, uint64_t version) { return mzk_client_do(k, MZK_CE_ANSWER_VERSION, number, version, 0); }
static inline uint64_t mzk_answer_failed(mzk_client *k, uint64_t number) { return mzk_client_do(k, MZK_CE_ANSWER_FAILED, number, 0, 0); }
static inline uint64_t mzk_rejoin(mzk_client *k, uint64_t id) { return mzk_client_do(k, MZK_CE_REJOIN, id, 0, 0); }
static inline uint64_t mzk_extend(mzk_client *k) { return mzk_client_do(k, MZK_CE_EXTEND, 0, 0, 0); }
static inline uint64_t mzk_synced(mzk_client *k, const mzk_node *of, uint64_t member, uint64_t chunk)
{
	return mzk_client_event(k->state, k->map, sizeof k->map, of->map, sizeof of->map, MZK_CE_SYNCED, member, chunk, 0, k->out);
}
static inline uint64_t mzk_tick(mzk_client *k) { return mzk_client_do(k, MZK_CE_TICK, 0, 0, 0); }
static inline uint64_t mzk_check_answer(mzk_client *k, uint64_t tick, uint64_t member, uint64_t empty) { return mzk_client_do(k, MZK_CE_CHECK_ANSWER, tick, member, empty); }
/* [end] */

static inline void mzk_node_init(mzk_node *n, uint64_t id, uint64_t chunks)
{
	mzk_zero(n->map, sizeof n->map);
	mzk_zero(n->staging, sizeof n->staging);
	mzk_node_fresh(n->state, n->summaries, id, chunks);
}
static inline uint64_t mzk_node_do(mzk_node *n, uint64_t kind, uint64_t a, uint64_t b, uint64_t c)
{
	static const uint8_t none[1] = { 0 };
	return mzk_node_event(n->state, n->summaries, n->map, sizeof n->map, n->staging, sizeof n->staging, none, 0, kind, a, b, c, n->out);
}
static inline uint64_t mzk_n_ask(mzk_node *n, uint64_t kind, uint64_t a, uint64_t b)
{
	return mzk_node_ask(n->state, n->summaries, n->map, sizeof n->map, n->staging, sizeof n->staging, kind, a, b, n->out);
}
/* [made by tools/header.py: node calls] */
static inline uint64_t mzk_n_register_create(mzk_node *n) { return mzk_node_do(n, MZK_NE_REGISTER_CREATE, 0, 0, 0); }
static inline uint64_t mzk_n_register_add(mzk_node *n, uint64_t set, uint64_t version) { return mzk_node_do(n, MZK_NE_REGISTER_ADD, set, version, 0); }
static inline uint64_t mzk_n_unregister(mzk_node *n, uint64_t is_delete) { return mzk_node_do(n, MZK_NE_UNREGISTER, is_delete, 0, 0); }
static inline uint64_t mzk_n_join_create(mzk_node *n, uint64_t set) { return mzk_node_do(n, MZK_NE_JOIN_CREATE, set, 0, 0); }
static inline uint64_t mzk_n_join_assemble(mzk_node *n) { return mzk_node_do(n, MZK_NE_JOIN_ASSEMBLE, 0, 0, 0); }
static inline uint64_t mzk_n_leave(mzk_node *n, uint64_t is_delete) { return mzk_node_do(n, MZK_NE_LEAVE, is_delete, 0, 0); }
static inline uint64_t mzk_n_enable1(mzk_node *n, uint64_t version, uint64_t set) { return mzk_node_do(n, MZK_NE_ENABLE1, version, set, 0); }
static inline uint64_t mzk_n_enable0(mzk_node *n) { return mzk_node_do(n, MZK_NE_ENABLE0, 0, 0, 0); }
static inline uint64_t mzk_n_fault(mzk_node *n) { return mzk_node_do(n, MZK_NE_FAULT, 0, 0, 0); }
static inline uint64_t mzk_n_write(mzk_node *n, uint64_t chunk, uint64_t missed, uint64_t version) { return mzk_node_do(n, MZK_NE_WRITE, chunk, missed, version); }
static inline uint64_t mzk_n_synced(mzk_node *n, uint64_t member, uint64_t chunk) { return mzk_node_do(n, MZK_NE_SYNCED, member, chunk, 0); }
static inline uint64_t mzk_n_pool_info(mzk_node *n, uint64_t what, uint64_t member) { return mzk_node_do(n, MZK_NE_POOL_INFO, what, member, 0); }
static inline uint64_t mzk_n_last_io(mzk_node *n, uint64_t chosen) { return mzk_node_do(n, MZK_NE_LAST_IO, chosen, 0, 0); }
static inline uint64_t mzk_n_map_ready(mzk_node *n, uint64_t keep) { return mzk_node_do(n, MZK_NE_MAP_READY, keep, 0, 0); }
static inline uint64_t mzk_n_give_part(mzk_node *n, uint64_t offset, uint64_t length) { return mzk_node_do(n, MZK_NE_GIVE_PART, offset, length, 0); }
static inline uint64_t mzk_n_take_part(mzk_node *n, uint64_t offset, const uint8_t *part, size_t bytes)
{
	return mzk_node_event(n->state, n->summaries, n->map, sizeof n->map, n->staging, sizeof n->staging, part, bytes, MZK_NE_TAKE_PART, offset, 0, 0, n->out);
}
static inline uint64_t mzk_n_map_done(mzk_node *n, uint64_t enable, uint64_t version, uint64_t set) { return mzk_node_do(n, MZK_NE_MAP_DONE, enable, version, set); }
static inline uint64_t mzk_n_map_disable(mzk_node *n) { return mzk_node_do(n, MZK_NE_MAP_DISABLE, 0, 0, 0); }
static inline uint64_t mzk_n_map_get_ver(mzk_node *n) { return mzk_node_do(n, MZK_NE_MAP_GET_VER, 0, 0, 0); }
static inline uint64_t mzk_n_fill(mzk_node *n, uint64_t member, uint64_t version) { return mzk_node_do(n, MZK_NE_FILL, member, version, 0); }
static inline uint64_t mzk_n_map_check(mzk_node *n) { return mzk_n_ask(n, MZK_NQ_CHECK, 0, 0); }
static inline uint64_t mzk_n_next(mzk_node *n, uint64_t member, uint64_t start) { return mzk_n_ask(n, MZK_NQ_NEXT, member, start); }
/* [end] */

/* ======== The names of version 1 ========
 * What was written with them still compiles; MZK_NEW_NAMES_ONLY leaves them out. */
#ifndef MZK_NEW_NAMES_ONLY
#define MZK_ACCEPTED MZK_A_ACCEPTED
#define MZK_REFUSAL MZK_A_REFUSAL
#define MZK_C_COUNT MZK_CW_COUNT
#define MZK_C_VERSION MZK_CW_VERSION
#define MZK_C_MEMBERS MZK_CW_MEMBERS
#define MZK_C_SYNC MZK_CW_SYNC
#define MZK_C_WRITTEN MZK_CW_WRITTEN
#define MZK_C_ASSEMBLED MZK_CW_ASSEMBLED
#define MZK_C_NUMBER MZK_CW_NUMBER
#define MZK_C_CHUNKS MZK_CW_CHUNKS
#define MZK_C_JOB MZK_CW_JOB
#define MZK_C_JOB_DATA MZK_CW_JOB_DATA
#define MZK_C_JOB_ID MZK_CW_JOB_ID
#define MZK_C_JOB_LEFT MZK_CW_JOB_LEFT
#define MZK_C_JOB_TAKEN MZK_CW_JOB_TAKEN
#define MZK_C_TICK MZK_CW_TICK
#define MZK_C_DUE MZK_CW_DUE
#define MZK_C_ONCE MZK_CW_ONCE
#define MZK_C_SESSION MZK_CW_SESSION
#define MZK_S_STATE MZK_SB_STATE
#define MZK_S_MAINTENANCE MZK_SB_MAINTENANCE
#define MZK_S_MARK MZK_SB_MARK
#define MZK_S_DISASSEMBLE MZK_SB_DISASSEMBLE
#define MZK_S_OWED MZK_SB_OWED
#define MZK_JOIN_CREATE MZK_CE_JOIN_CREATE
#define MZK_JOIN_ASSEMBLE MZK_CE_JOIN_ASSEMBLE
#define MZK_ENABLE MZK_CE_ENABLE
#define MZK_MAINTENANCE MZK_CE_MAINTENANCE
#define MZK_LINK_DOWN MZK_CE_LINK_DOWN
#define MZK_STORE_CHECK MZK_CE_STORE_CHECK
#define MZK_REMOVE_DELETE MZK_CE_REMOVE_DELETE
#define MZK_REMOVE_DISASSEMBLE MZK_CE_REMOVE_DISASSEMBLE
#define MZK_WRITE MZK_CE_WRITE
#define MZK_TRY MZK_CE_TRY
#define MZK_ANSWER_GOOD MZK_CE_ANSWER_GOOD
#define MZK_ANSWER_VERSION MZK_CE_ANSWER_VERSION
#define MZK_ANSWER_FAILED MZK_CE_ANSWER_FAILED
#define MZK_REJOIN MZK_CE_REJOIN
#define MZK_EXTEND MZK_CE_EXTEND
#define MZK_SYNCED MZK_CE_SYNCED
#define MZK_TICK MZK_CE_TICK
#define MZK_CHECK_ANSWER MZK_CE_CHECK_ANSWER
#define MZK_O_OUTCOME MZK_CA_OUTCOME
#define MZK_O_OUTCOME_A MZK_CA_OUTCOME_A
#define MZK_O_OUTCOME_B MZK_CA_OUTCOME_B
#define MZK_O_TOLD MZK_CA_TOLD
#define MZK_O_TOLD_A MZK_CA_TOLD_A
#define MZK_O_AWAITED MZK_CA_AWAITED
#define MZK_O_AWAITED_A MZK_CA_AWAITED_A
#define MZK_O_NUMBER MZK_CA_NUMBER
#define MZK_PLAIN MZK_OUTCOME_PLAIN
#define MZK_TAKEN MZK_OUTCOME_TAKEN
#define MZK_WRITTEN MZK_OUTCOME_WRITTEN
#define MZK_PICKED MZK_OUTCOME_PICKED
#define MZK_ADD_CREATE MZK_INFO_ADD_CREATE
#define MZK_ADD_ASSEMBLE MZK_INFO_ADD_ASSEMBLE
#define MZK_REMOVED_DELETE MZK_INFO_REMOVED_DELETE
#define MZK_REMOVED_DISASSEMBLE MZK_INFO_REMOVED_DISASSEMBLE
#define MZK_N_ID MZK_NW_ID
#define MZK_N_CHUNKS MZK_NW_CHUNKS
#define MZK_N_STATE MZK_NW_STATE
#define MZK_N_STORE MZK_NW_STORE
#define MZK_N_CREATE MZK_NW_CREATE
#define MZK_N_MEMBERS MZK_NW_MEMBERS
#define MZK_N_VERSION MZK_NW_VERSION
#define MZK_N_HELD MZK_NW_HELD
#define MZK_N_TRANSFER MZK_NW_TRANSFER
#define MZK_N_GOT MZK_NW_GOT
#define MZK_N_KEPT MZK_NW_KEPT
#define MZK_NODE_EMPTY MZK_NS_EMPTY
#define MZK_NODE_REGISTERED MZK_NS_REGISTERED
#define MZK_NODE_CREATED MZK_NS_CREATED
#define MZK_NODE_NORMAL MZK_NS_NORMAL
#define MZK_NODE_NO_IO MZK_NS_NO_IO
#define MZK_N_REGISTER_CREATE MZK_NE_REGISTER_CREATE
#define MZK_N_REGISTER_ADD MZK_NE_REGISTER_ADD
#define MZK_N_UNREGISTER MZK_NE_UNREGISTER
#define MZK_N_JOIN_CREATE MZK_NE_JOIN_CREATE
#define MZK_N_JOIN_ASSEMBLE MZK_NE_JOIN_ASSEMBLE
#define MZK_N_LEAVE MZK_NE_LEAVE
#define MZK_N_ENABLE1 MZK_NE_ENABLE1
#define MZK_N_ENABLE0 MZK_NE_ENABLE0
#define MZK_N_FAULT MZK_NE_FAULT
#define MZK_N_WRITE MZK_NE_WRITE
#define MZK_N_SYNCED MZK_NE_SYNCED
#define MZK_N_POOL_INFO MZK_NE_POOL_INFO
#define MZK_N_LAST_IO MZK_NE_LAST_IO
#define MZK_N_MAP_READY MZK_NE_MAP_READY
#define MZK_N_GIVE_PART MZK_NE_GIVE_PART
#define MZK_N_TAKE_PART MZK_NE_TAKE_PART
#define MZK_N_MAP_DONE MZK_NE_MAP_DONE
#define MZK_N_MAP_DISABLE MZK_NE_MAP_DISABLE
#define MZK_N_MAP_GET_VER MZK_NE_MAP_GET_VER
#define MZK_N_FILL MZK_NE_FILL
#define MZK_ASK_CHECK MZK_NQ_CHECK
#define MZK_ASK_NEXT MZK_NQ_NEXT
#define MZK_O_NUMBERED MZK_NA_NUMBERED
#define MZK_O_VALUE MZK_NA_VALUE
#endif

#ifdef __cplusplus
}
#endif
#endif

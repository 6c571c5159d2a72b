/* Reads the text of a plan from standard input and prints what `rehearse` prints of it.
   Written from README.md and docs/ alone; docs/queue.md has the rules of the steps. */

#include <inttypes.h>
#include <stdbool.h>
#include <stdint.h>
#include <stdio.h>
#include <stdlib.h>

#define MAX_CELLS 64
#define MAX_WORKERS 8
#define MAX_ITEMS 64
#define MAX_WORDS 64
#define MAX_TURNS 4096
#define MAX_PROBE 65535
#define LOG_ROOM 64
#define RANK_LIMIT (INT64_C(1) << 40)

enum receiver_phase { PROBING, BUSY, FOUND, FILLED };
enum worker_phase { IDLE, SEEKING, DOUBTING, MARKED, PASSED, SURE, COPIED };

enum refusal {
    NONE = 0, QUEUE_CLOSED = 4, HAND_FULL = 5, RANKS_USED_UP = 6, LOG_FULL = 7,
    RANK_OUT_OF_RANGE = 8, HAND_EMPTY = 9, NO_SUCH_WORKER = 10, NO_ITEM_LEFT = 14, BAD_LINE = 15
};

struct item { int64_t probe, sequence, level; };
struct cell { struct item item; int64_t rank, gap; };
struct worker { enum worker_phase phase; int64_t rank; struct item copy; };
struct entry { int64_t rank, worker; struct item item; };
struct receiver { int64_t tail; enum receiver_phase phase; bool full; struct item hand; };
struct word { int64_t party, count; };

struct plan {
    int64_t cells, workers, start, probe[MAX_ITEMS];
    int items, words;
    struct word word[MAX_WORDS];
};

struct queue {
    int64_t head, end, cells, workers;
    struct cell cell[MAX_CELLS];
    struct receiver receiver;
    struct worker worker[MAX_WORKERS];
    int entries;
    struct entry log[LOG_ROOM];
};

/* ---- the form of a text ---- */

struct text { const unsigned char *at, *end; };

static bool take(struct text *t, unsigned char wanted)
{
    if (t->at == t->end || *t->at != wanted)
        return false;
    t->at++;
    return true;
}

static bool at_digit(const struct text *t)
{
    return t->at != t->end && *t->at >= '0' && *t->at <= '9';
}

static bool take_number(struct text *t, int64_t low, int64_t high, int64_t *number)
{
    int64_t value = 0;
    if (!at_digit(t))
        return false;
    if (take(t, '0')) {
        if (at_digit(t))
            return false;
    } else {
        /* Above high nothing is added any more, so that no length overflows: high is below 2^40. */
        for (; at_digit(t); t->at++)
            if (value <= high)
                value = 10 * value + (*t->at - '0');
    }
    *number = value;
    return low <= value && value <= high;
}

static bool parse_sizes(struct text *t, struct plan *p)
{
    return take_number(t, 1, MAX_CELLS, &p->cells) && take(t, ' ')
        && take_number(t, 1, MAX_WORKERS, &p->workers) && take(t, ' ')
        && take_number(t, 0, RANK_LIMIT - 1, &p->start) && take(t, '\n');
}

static bool parse_probes(struct text *t, struct plan *p)
{
    p->items = 0;
    if (take(t, '\n'))
        return true;
    do {
        if (p->items == MAX_ITEMS || !take_number(t, 0, MAX_PROBE, &p->probe[p->items]))
            return false;
        p->items++;
    } while (take(t, ' '));
    return take(t, '\n');
}

static bool parse_turns(struct text *t, struct plan *p)
{
    int64_t left = MAX_TURNS;
    p->words = 0;
    if (take(t, '\n'))
        return true;
    do {
        struct word *w = &p->word[p->words];
        if (p->words == MAX_WORDS || !take_number(t, 0, p->workers, &w->party)
            || !take(t, ':') || !take_number(t, 1, left, &w->count))
            return false;
        left -= w->count;
        p->words++;
    } while (take(t, ' '));
    return take(t, '\n');
}

/* Answers the first bad line, or 0. */
static int parse(struct text t, struct plan *p)
{
    if (!parse_sizes(&t, p))
        return 1;
    if (!parse_probes(&t, p))
        return 2;
    if (!parse_turns(&t, p))
        return 3;
    return t.at == t.end ? 0 : 4;
}

/* ---- the queue ---- */

static struct cell *cell_of(struct queue *q, int64_t rank)
{
    return &q->cell[rank % q->cells];
}

static bool ended(const struct queue *q, int64_t rank)
{
    return q->end >= 0 && rank >= q->end;
}

/* No lay out of a plan in form can be refused. */
static void lay_out(struct queue *q, const struct plan *p)
{
    static const struct item blank = {0, 0, 0};
    q->head = p->start;
    q->end = -1;
    q->cells = p->cells;
    for (int i = 0; i < q->cells; i++)
        q->cell[i] = (struct cell){blank, -1, -1};
    q->receiver = (struct receiver){p->start, PROBING, false, blank};
    q->workers = p->workers;
    for (int k = 0; k < q->workers; k++)
        q->worker[k] = (struct worker){IDLE, 0, blank};
    q->entries = 0;
}

static enum refusal submit(struct queue *q, struct item item)
{
    if (q->end >= 0)
        return QUEUE_CLOSED;
    if (q->receiver.full)
        return HAND_FULL;
    q->receiver.full = true;
    q->receiver.hand = item;
    q->receiver.phase = PROBING;
    return NONE;
}

static enum refusal receiver_step(struct queue *q)
{
    struct receiver *r = &q->receiver;
    if (!r->full)
        return HAND_EMPTY;
    if (r->phase == PROBING && r->tail == RANK_LIMIT)
        return RANKS_USED_UP;
    struct cell *c = cell_of(q, r->tail);
    switch (r->phase) {
    case PROBING:
        r->phase = c->rank >= 0 ? BUSY : FOUND;
        break;
    case BUSY:
        c->gap = r->tail++;
        r->phase = PROBING;
        break;
    case FOUND:
        c->item = r->hand;
        r->phase = FILLED;
        break;
    case FILLED:
        c->rank = r->tail++;
        r->full = false;
        r->phase = PROBING;
        break;
    }
    return NONE;
}

static void withdraw(struct queue *q)
{
    q->receiver.full = false;
}

static enum refusal close_queue(struct queue *q)
{
    if (q->receiver.full)
        return HAND_FULL;
    if (q->end == -1)
        q->end = q->receiver.tail;
    return NONE;
}

static enum refusal take_rank(struct queue *q, struct worker *w)
{
    if (ended(q, q->head)) {
        w->phase = IDLE;
        return NONE;
    }
    if (q->head == RANK_LIMIT)
        return RANKS_USED_UP;
    w->rank = q->head++;
    w->phase = SEEKING;
    return NONE;
}

static enum refusal deliver(struct queue *q, int64_t k)
{
    struct worker *w = &q->worker[k];
    if (q->entries == LOG_ROOM)
        return LOG_FULL;
    cell_of(q, w->rank)->rank = -1;
    q->log[q->entries++] = (struct entry){w->rank, k, w->copy};
    w->phase = IDLE;
    return NONE;
}

static enum refusal worker_step(struct queue *q, int64_t k)
{
    if (k < 0 || k >= q->workers)
        return NO_SUCH_WORKER;
    struct worker *w = &q->worker[k];
    if (w->phase != IDLE && w->rank >= q->head)
        return RANK_OUT_OF_RANGE;
    const struct cell *own = cell_of(q, w->rank);
    switch (w->phase) {
    case IDLE:
    case PASSED:
        return take_rank(q, w);
    case SEEKING:
        w->phase = own->rank == w->rank ? SURE : DOUBTING;
        break;
    case DOUBTING:
        if (own->gap >= w->rank)
            w->phase = MARKED;
        else
            w->phase = ended(q, w->rank) ? IDLE : SEEKING;
        break;
    case MARKED:
        w->phase = own->rank == w->rank ? SURE : PASSED;
        break;
    case SURE:
        w->copy = own->item;
        w->phase = COPIED;
        break;
    case COPIED:
        return deliver(q, k);
    }
    return NONE;
}

/* ---- the rehearsal ---- */

static enum refusal receiver_turn(struct queue *q, const struct plan *p, int *next)
{
    if (q->receiver.full)
        return receiver_step(q);
    if (*next == p->items)
        return NO_ITEM_LEFT;
    struct item item = {p->probe[*next], *next, 0};
    (*next)++;
    return submit(q, item);
}

/* Answers the refusal that stopped the turns, if any, and its turn. */
static enum refusal take_turns(struct queue *q, const struct plan *p, int *turn)
{
    int next = 0;
    *turn = 0;
    for (int i = 0; i < p->words; i++) {
        int64_t party = p->word[i].party;
        for (int n = 0; n < p->word[i].count; n++, (*turn)++) {
            enum refusal why = party == 0 ? receiver_turn(q, p, &next) : worker_step(q, party - 1);
            if (why != NONE)
                return why;
        }
    }
    return NONE;
}

static void print(const struct queue *q, enum refusal why, int turn)
{
    for (int i = 0; i < q->entries; i++) {
        const struct entry *e = &q->log[i];
        printf("%" PRId64 " %" PRId64 " %" PRId64 " %" PRId64 " %" PRId64 "\n", e->rank, e->worker,
               e->item.probe, e->item.sequence, e->item.level);
    }
    if (why != NONE)
        printf("stopped %d %d\n", (int)why, turn);
    printf("end %" PRId64 "\n", q->end);
}

static void rehearse(const struct plan *p)
{
    static struct queue q;
    int turn;
    lay_out(&q, p);
    enum refusal why = take_turns(&q, p, &turn);
    withdraw(&q);
    close_queue(&q); /* not refused: the hand is empty */
    print(&q, why, turn);
}

/* Answers the bytes of the whole input, or NULL if they cannot be had. */
static unsigned char *read_all(FILE *from, size_t *length)
{
    size_t room = 1 << 16, got;
    unsigned char *bytes = malloc(room);
    *length = 0;
    while (bytes != NULL && (got = fread(bytes + *length, 1, room - *length, from)) > 0) {
        *length += got;
        if (*length < room)
            continue;
        unsigned char *more = room > SIZE_MAX / 2 ? NULL : realloc(bytes, 2 * room);
        if (more == NULL)
            free(bytes);
        bytes = more;
        room *= 2;
    }
    if (bytes != NULL && ferror(from)) {
        free(bytes);
        return NULL;
    }
    return bytes;
}

int main(void)
{
    static struct plan p;
    size_t length;
    unsigned char *bytes = read_all(stdin, &length);
    if (bytes == NULL) {
        fputs("ring: cannot read the input\n", stderr);
        return EXIT_FAILURE;
    }
    int bad = parse((struct text){bytes, bytes + length}, &p);
    free(bytes);
    if (bad != 0)
        printf("refused %d %d\n", (int)BAD_LINE, bad);
    else
        rehearse(&p);
    return fflush(stdout) == 0 ? EXIT_SUCCESS : EXIT_FAILURE;
}

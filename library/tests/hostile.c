/* Tests hostile texts, arrays, cost matrices and tables. All arguments lie at the edge of
   accessible memory, and inputs are read-only. Texts are noise, or examples that are cut off or
   changed; arrays have numbers at the limits and beyond them; matrices have up to four lines, with
   shapes that don't fit, too, of whole numbers and of doubles. The test compares the answers with
   the definitions, which it implements again. Tables have up to six places, persons or things,
   without a fault or with odd cells and changed bytes; the test compares the form of their answers.
   The first word is the number of rounds, and the others are instance texts. Ends with 0, or names
   the line of the first check that fails. */
#define _DEFAULT_SOURCE
#include "mcf.h"

#include <stdio.h>
#include <stdlib.h>
#include <string.h>
#include <sys/mman.h>

#define CHECK(holds)                                                               \
    do {                                                                           \
        if (!(holds)) {                                                            \
            fprintf(stderr, "hostile: line %d, round %ld\n", __LINE__, round_now); \
            exit(1);                                                               \
        }                                                                          \
    } while (0)

__extension__ typedef __int128 wide;

enum { MANY = 6, SIZE = 1 << 20, ROOM = 1 << 26, PAGE = 1 << 16 };

static const int64_t BOUND = INT64_C(1000000000000000000), COST = INT64_C(1000000000000000);
static const struct mcf_choice standard = {0, 0, 0, 0, 0};
static long round_now, outcomes[13];

static uint64_t chance(uint64_t below) {
    static uint64_t state = 88172645463325252u;
    state ^= state << 13;
    state ^= state >> 7;
    state ^= state << 17;
    return below == 0 ? 0 : (state >> 11) % below;
}

/* The end of at least `size` new bytes. The memory after them is inaccessible. */
static uint8_t *edge(size_t size) {
    size_t whole = (size + PAGE - 1) / PAGE * PAGE;
    uint8_t *begin = mmap(NULL, whole + PAGE, PROT_READ | PROT_WRITE,
                          MAP_PRIVATE | MAP_ANONYMOUS | MAP_NORESERVE, -1, 0);
    CHECK(begin != MAP_FAILED && mprotect(begin + whole, PAGE, PROT_NONE) == 0);
    return begin + whole;
}

static void *at_edge(uint8_t *end, const void *bytes, size_t length) {
    return memcpy(end - length, bytes, length);
}

/* Makes the bytes before an end read-only, or writable again. */
static void protect(uint8_t *end, size_t size, int how) {
    CHECK(mprotect(end - size, size, how) == 0);
}

/* ---- texts */

static uint8_t text[SIZE], *input_end, *room_end, *answer_end;

/* Solves a text by any engine, with a buffer of just the needed length. The checker accepts the
 * answer, and judges changed ones. */
static void answer_text(const uint8_t *input, size_t length) {
    const struct mcf_choice any = {(uint32_t)chance(6), (uint32_t)chance(4), (uint32_t)chance(3),
                                   (uint32_t)chance(3), (uint32_t)chance(3)};
    struct mcf_verdict verdict;
    size_t used = 0, again = 0;
    uint8_t *buffer, *other;
    uint32_t status;
    int change;
    CHECK(mcf_check(input, length, input, length, &verdict) <= 1);
    CHECK(mcf_solve(input, length, &any, room_end, 0, &used) == MCF_BUFFER_TOO_SMALL && used > 0);
    if (used > ROOM) return;
    buffer = room_end - used;
    memset(buffer, 7, used);
    CHECK(mcf_solve(input, length, &any, buffer + 1, used - 1, &again) == MCF_BUFFER_TOO_SMALL &&
          again == used);
    CHECK(buffer[0] == 7 && memcmp(buffer, buffer + 1, used - 1) == 0);
    status = mcf_solve(input, length, &any, buffer, used, &again);
    CHECK(status <= MCF_INVALID_INPUT && again == used);
    CHECK(mcf_check(input, length, buffer, used, &verdict) == 0 && verdict.kind == status);
    outcomes[status]++;
    if (used > SIZE) return;
    for (change = 0; change < 3; change++) {
        size_t cut = change == 0 ? used - 1 - chance(used) : used;
        other = at_edge(answer_end, buffer, cut);
        if (cut > 0 && change > 0) other[chance(cut)] = (uint8_t)chance(256);
        CHECK(mcf_check(input, length, other, cut, &verdict) ==
              (verdict.kind > MCF_ACCEPTED_REFUSAL));
    }
}

static void try_text(size_t length) {
    const uint8_t *input = at_edge(input_end, text, length);
    protect(input_end, SIZE, PROT_READ);
    answer_text(input, length);
    protect(input_end, SIZE, PROT_READ | PROT_WRITE);
}

static size_t read_text(const char *path) {
    FILE *file = fopen(path, "rb");
    size_t length;
    CHECK(file != NULL);
    length = fread(text, 1, SIZE, file);
    fclose(file);
    return length;
}

/* Tries an example that is cut off, has changed bytes, or has a large number in it. */
static void try_changed(const char *path) {
    static const char *const numbers[] = {"-1",
                                          "0",
                                          "1000000",
                                          "1000001",
                                          "4294967296",
                                          "9223372036854775808",
                                          "1000000000000000001",
                                          "99999999999999999999999999999999999999999",
                                          "1.5",
                                          "+1",
                                          "-",
                                          "\t",
                                          "\r\n",
                                          "p",
                                          "1e3"};
    size_t length = read_text(path), place, count;
    const char *number = numbers[chance(sizeof numbers / sizeof *numbers)];
    if (length == 0 || length > 4096) return;
    place = chance(length);
    count = strlen(number);
    switch (chance(4)) {
    case 0:
        length = place;
        break;
    case 1:
        text[place] = (uint8_t)chance(256);
        break;
    case 2:
        text[place] = (uint8_t) "0123456789 -\npna"[chance(16)];
        break;
    default:
        memmove(text + place + count, text + place, length - place);
        memcpy(text + place, number, count);
        length += count;
    }
    try_text(length);
}

/* Tries a beginning with random bytes of an alphabet after it, a million bytes in all. */
static void try_noise(const char *begin, const char *alphabet) {
    size_t place = strlen(begin), count = strlen(alphabet);
    memcpy(text, begin, place);
    for (; place < 1000000; place++)
        text[place] = (uint8_t)(count ? alphabet[chance(count)] : (int)chance(256));
    try_text(1000000);
}

/* ---- arrays */

struct problem {
    size_t nodes, arcs, rows;
    int is_pairs;
    int64_t supplies[MANY];
    uint64_t src[MANY], dst[MANY];
    int64_t low[MANY], cap[MANY], cost[MANY];
};

static struct problem now;
static int is_again;
static uint8_t *supply_end, *arc_end, *flow_end, *price_end, *other_flow_end, *other_price_end;

static int64_t bound(void) {
    static const int64_t values[] = {0,
                                     1,
                                     2,
                                     7,
                                     30,
                                     -1,
                                     -5,
                                     0,
                                     1000000000000000000,
                                     999999999999999999,
                                     -1000000000000000000,
                                     1000000000000000001,
                                     -1000000000000000001,
                                     INT64_MAX,
                                     INT64_MIN};
    return values[chance(chance(3) ? 8 : chance(4) ? 11 : 15)];
}

static int64_t cost(void) {
    static const int64_t values[] = {0,
                                     1,
                                     2,
                                     30,
                                     -1,
                                     -7,
                                     1000000000000000,
                                     999999999999999,
                                     -1000000000000000,
                                     1000000000000001,
                                     -1000000000000001,
                                     INT64_MAX,
                                     INT64_MIN};
    return values[chance(chance(3) ? 6 : chance(4) ? 9 : 13)];
}

static uint32_t end_of(size_t most) {
    return chance(40)  ? 1 + (uint32_t)chance(most)
           : chance(2) ? (uint32_t)(most + chance(3))
           : chance(2) ? 0
                       : UINT32_MAX - (uint32_t)chance(3);
}

static wide size_of(int64_t n) { return n < 0 ? -(wide)n : n; }

static int is_up_to(int64_t limit, int64_t n) { return size_of(n) <= limit; }

/* The code of the first fault, or 0; `place` gets its place. */
static uint32_t first_fault(uint64_t *place) {
    wide total = 0, limit = (wide)BOUND * BOUND;
    size_t k;
    for (k = 0; k < now.nodes; k++) {
        *place = k + 1;
        if (!is_up_to(BOUND, now.supplies[k])) return MCF_SUPPLY;
    }
    for (k = 0; k < now.arcs; k++) {
        wide low = size_of(now.low[k]), cap = size_of(now.cap[k]);
        *place = k + 1;
        if (now.src[k] < 1 || now.src[k] > now.nodes || now.dst[k] < 1 || now.dst[k] > now.nodes)
            return MCF_NODE;
        if (!is_up_to(BOUND, now.low[k]) || !is_up_to(BOUND, now.cap[k])) return MCF_BOUND;
        if (now.cap[k] < now.low[k]) return MCF_ORDER;
        if (!is_up_to(COST, now.cost[k])) return MCF_COST;
        if (now.is_pairs && (now.src[k] > now.rows || now.dst[k] <= now.rows)) return MCF_SIDE;
        total += size_of(now.cost[k]) * (low < cap ? cap : low);
        if (!now.is_pairs && total > limit) return MCF_TOTAL;
    }
    return 0;
}

/* Whether a flow is feasible and has this cost, and the prices show that no flow costs less. */
static int is_right(const int64_t *flow, const int64_t *prices, wide claimed) {
    wide left[MANY], spent = 0;
    size_t k;
    for (k = 0; k < now.nodes; k++) left[k] = now.supplies[k];
    for (k = 0; k < now.arcs; k++) {
        size_t u = now.src[k] - 1, v = now.dst[k] - 1;
        wide reduced = (wide)now.cost[k] - prices[u] + prices[v];
        if (flow[k] < now.low[k] || flow[k] > now.cap[k]) return 0;
        if ((flow[k] < now.cap[k] && reduced < 0) || (flow[k] > now.low[k] && reduced > 0))
            return 0;
        left[u] -= flow[k];
        left[v] += flow[k];
        spent += (wide)now.cost[k] * flow[k];
    }
    for (k = 0; k < now.nodes; k++)
        if (left[k] != 0) return 0;
    return spent == claimed;
}

/* Whether the marked nodes must send (or take) more than they can. */
static int blocks(const int64_t *marks, uint32_t side, uint64_t count) {
    wide must = 0, can = 0;
    uint64_t marked = 0;
    size_t k;
    for (k = 0; k < now.nodes; k++) {
        if (marks[k] != 0 && marks[k] != 1) return 0;
        if (marks[k] == 1) must += side == MCF_SEND ? now.supplies[k] : -(wide)now.supplies[k];
        marked += marks[k] == 1;
    }
    for (k = 0; k < now.arcs; k++) {
        int64_t leaves = marks[now.src[k] - 1] - marks[now.dst[k] - 1];
        if (leaves == (side == MCF_SEND ? 1 : -1)) can += now.cap[k];
        if (leaves == (side == MCF_SEND ? -1 : 1)) must += now.low[k];
    }
    return marked == count && must > can;
}

static void make_flow_problem(void) {
    size_t k;
    wide sum = 0;
    now.is_pairs = 0;
    now.nodes = chance(MANY + 1);
    now.arcs = now.nodes == 0 && chance(8) ? 0 : chance(MANY + 1);
    for (k = 0; k < now.nodes; k++) {
        now.supplies[k] = bound();
        if (k + 1 == now.nodes && chance(4) && is_up_to(BOUND, (int64_t)-sum))
            now.supplies[k] = (int64_t)-sum;
        sum += now.supplies[k];
    }
    for (k = 0; k < now.arcs; k++) {
        now.src[k] = end_of(now.nodes);
        now.dst[k] = end_of(now.nodes);
        now.low[k] = chance(2) ? 0 : bound();
        now.cap[k] = bound();
        if (now.cap[k] < now.low[k] && chance(10)) now.cap[k] = now.low[k];
        now.cost[k] = cost();
    }
}

static void make_assignment(void) {
    size_t k, columns;
    now.is_pairs = 1;
    now.rows = chance(4);
    columns = chance(3) ? now.rows : chance(4);
    if (now.rows + columns > MANY) columns = MANY - now.rows;
    now.nodes = now.rows + columns;
    now.arcs = chance(MANY + 1);
    for (k = 0; k < now.nodes; k++) now.supplies[k] = k < now.rows ? 1 : -1;
    for (k = 0; k < now.arcs; k++) {
        now.src[k] = end_of(now.rows);
        now.dst[k] = (uint64_t)now.rows + end_of(columns);
        now.low[k] = 0;
        now.cap[k] = 1;
        now.cost[k] = cost();
    }
}

/* The arcs or pairs of the problem, at the edge of memory. */
static const void *arcs_at_edge(void) {
    struct mcf_arc arcs[MANY];
    struct mcf_pair pairs[MANY];
    size_t k;
    for (k = 0; k < now.arcs; k++) {
        pairs[k].row = arcs[k].src = (uint32_t)now.src[k];
        pairs[k].column = (uint32_t)(now.dst[k] - now.rows);
        arcs[k].dst = (uint32_t)now.dst[k];
        arcs[k].low = now.low[k];
        arcs[k].cap = now.cap[k];
        pairs[k].cost = arcs[k].cost = now.cost[k];
    }
    return now.is_pairs ? at_edge(arc_end, pairs, now.arcs * sizeof *pairs)
                        : at_edge(arc_end, arcs, now.arcs * sizeof *arcs);
}

static const void *lent_arcs;

/* Makes all inputs read-only, including the flow and prices to judge, or writable again. */
static void protect_arrays(int is_judged, int how) {
    protect(supply_end, PAGE, how), protect(arc_end, PAGE, how);
    if (is_judged)
        protect(flow_end, PAGE, how), protect(price_end, PAGE, how),
            protect(other_flow_end, PAGE, how), protect(other_price_end, PAGE, how);
}

static uint32_t call(const struct mcf_choice *choice, int64_t *flow, size_t flow_length,
                     int64_t *prices, size_t prices_length, struct mcf_verdict *verdict) {
    struct mcf_flow_problem flows;
    struct mcf_assignment pairs;
    flows.supplies = (const int64_t *)(const void *)(supply_end - now.nodes * sizeof(int64_t));
    flows.nodes = now.nodes;
    flows.arcs = lent_arcs;
    flows.arc_count = now.arcs;
    pairs.rows = (uint32_t)now.rows;
    pairs.columns = (uint32_t)(now.nodes - now.rows);
    pairs.pairs = lent_arcs;
    pairs.pair_count = now.arcs;
    if (choice == NULL)
        return now.is_pairs
                   ? mcf_check_pairs(&pairs, flow, flow_length, prices, prices_length, verdict)
                   : mcf_check_arcs(&flows, flow, flow_length, prices, prices_length, verdict);
    if (now.is_pairs)
        return mcf_solve_pairs(&pairs, choice, flow, flow_length, prices, prices_length, verdict);
    /* Every other call starts from what the buffers hold. */
    is_again = !is_again;
    return is_again
               ? mcf_solve_arcs_from(&flows, choice, flow, flow_length, prices, prices_length,
                                     verdict)
               : mcf_solve_arcs(&flows, choice, flow, flow_length, prices, prices_length, verdict);
}

static uint32_t solve(const struct mcf_choice *choice, int64_t *flow, size_t flow_length,
                      int64_t *prices, size_t prices_length, struct mcf_verdict *verdict) {
    uint32_t status;
    protect_arrays(choice == NULL, PROT_READ);
    status = call(choice, flow, flow_length, prices, prices_length, verdict);
    protect_arrays(choice == NULL, PROT_READ | PROT_WRITE);
    return status;
}

static wide number_of(const struct mcf_verdict *verdict) {
    wide size = (wide)verdict->low + ((wide)verdict->high << 64);
    return verdict->negative ? -size : size;
}

/* The checker agrees with the definitions on a correct flow and on changed ones. */
static void try_judge(const int64_t *flow, const int64_t *prices, const struct mcf_verdict *found) {
    int64_t *other = at_edge(other_flow_end, flow, now.arcs * sizeof *flow),
            *others = at_edge(other_price_end, prices, now.nodes * sizeof *prices);
    int change;
    for (change = 0; change < 6; change++) {
        struct mcf_verdict verdict = *found;
        int right;
        if (change > 1 && now.arcs)
            other[chance(now.arcs)] = chance(3) ? (int64_t)chance(3) : bound();
        if (change > 2 && now.nodes)
            others[chance(now.nodes)] = chance(3) ? -(int64_t)chance(9) : cost();
        if (change > 3) verdict.low ^= chance(2), verdict.negative = (uint32_t)chance(2);
        right = is_right(other, others, number_of(&verdict));
        CHECK(solve(NULL, other, now.arcs, others, now.nodes, &verdict) == (right ? 0u : 1u));
        CHECK((verdict.kind == MCF_ACCEPTED_FLOW) == right &&
              verdict.kind != MCF_ACCEPTED_BLOCKED && verdict.kind != MCF_ACCEPTED_REFUSAL);
    }
}

static void try_arrays(void) {
    int64_t *flow = (int64_t *)(void *)(flow_end - now.arcs * sizeof(int64_t)),
            *prices = (int64_t *)(void *)(price_end - now.nodes * sizeof(int64_t));
    int64_t sevens[MANY];
    struct mcf_choice choice = {0, 0, 0, 0, 0};
    struct mcf_verdict verdict;
    uint64_t place = 0;
    uint32_t fault = first_fault(&place), status;
    memset(sevens, 7, sizeof sevens);
    at_edge(supply_end, now.supplies, now.nodes * sizeof(int64_t));
    lent_arcs = arcs_at_edge();
    at_edge(flow_end, sevens, now.arcs * sizeof *flow);
    at_edge(price_end, sevens, now.nodes * sizeof *prices);
    choice.engine = (uint32_t)chance(6);
    choice.pricing = (uint32_t)chance(4);
    choice.block = (uint32_t)chance(3);
    choice.check = (uint32_t)chance(3);
    status = solve(&choice, flow, now.arcs, prices, now.nodes, &verdict);
    outcomes[3 + (status < 3 ? status : 3)]++;
    CHECK(status == MCF_FLOW || status == MCF_BLOCKED || status == MCF_INVALID_INPUT);
    CHECK((status == MCF_INVALID_INPUT) == (fault != 0));
    if (status == MCF_FLOW) {
        CHECK(verdict.kind == MCF_ACCEPTED_FLOW && is_right(flow, prices, number_of(&verdict)));
        try_judge(flow, prices, &verdict);
    } else if (status == MCF_BLOCKED) {
        CHECK(verdict.kind == MCF_ACCEPTED_BLOCKED && blocks(prices, verdict.code, verdict.low) &&
              verdict.high == 0);
    } else {
        CHECK(verdict.kind == MCF_ACCEPTED_REFUSAL && verdict.code == fault &&
              verdict.low == place && verdict.high == 0 && verdict.negative == 0);
        CHECK(memcmp(flow, sevens, now.arcs * sizeof *flow) == 0 &&
              memcmp(prices, sevens, now.nodes * sizeof *prices) == 0);
        CHECK(solve(NULL, flow, now.arcs, prices, now.nodes, &verdict) == MCF_INVALID_INPUT &&
              verdict.code == fault && verdict.low == place);
    }
    CHECK(solve(&choice, flow - 1, now.arcs + 1, prices, now.nodes, &verdict) ==
          MCF_BUFFER_TOO_SMALL);
    CHECK(solve(NULL, flow, now.arcs, prices - 1, now.nodes + 1, &verdict) == MCF_BUFFER_TOO_SMALL);
    choice.engine = UINT32_MAX - (uint32_t)chance(9);
    CHECK(solve(&choice, flow, now.arcs, prices, now.nodes, &verdict) == MCF_INVALID_CHOICE);
}

/* Tries numbers of nodes and arcs at the limits and beyond them, in memory that is all zero. */
static void try_sizes(void) {
    enum { NODES = 1000001, ARCS = 10000001 };
    const void *zeros =
        edge((size_t)ARCS * sizeof(struct mcf_arc)) - (size_t)ARCS * sizeof(struct mcf_arc);
    int64_t *flow = (int64_t *)(void *)(edge((size_t)ARCS * 8) - (size_t)ARCS * 8),
            *prices = (int64_t *)(void *)(edge((size_t)NODES * 8) - (size_t)NODES * 8);
    struct mcf_flow_problem problem;
    struct mcf_assignment pairs;
    struct mcf_verdict verdict;
    problem.supplies = zeros;
    problem.nodes = NODES;
    problem.arcs = zeros;
    problem.arc_count = 0;
    CHECK(mcf_solve_arcs(&problem, &standard, flow, 0, prices, NODES, &verdict) ==
              MCF_INVALID_INPUT &&
          verdict.code == MCF_SIZE && verdict.low == 0);
    problem.nodes = NODES - 1;
    CHECK(mcf_solve_arcs(&problem, &standard, flow, 0, prices, NODES - 1, &verdict) == MCF_FLOW &&
          verdict.low == 0);
    CHECK(mcf_check_arcs(&problem, flow, 0, prices, NODES - 1, &verdict) == 0);
    problem.nodes = 1;
    problem.arc_count = ARCS;
    CHECK(mcf_solve_arcs(&problem, &standard, flow, ARCS, prices, 1, &verdict) ==
              MCF_INVALID_INPUT &&
          verdict.code == MCF_SIZE);
    CHECK(mcf_check_arcs(&problem, flow, ARCS, prices, 1, &verdict) == MCF_INVALID_INPUT &&
          verdict.code == MCF_SIZE);
    problem.arc_count = ARCS - 1;
    CHECK(mcf_solve_arcs(&problem, &standard, flow, ARCS - 1, prices, 1, &verdict) ==
              MCF_INVALID_INPUT &&
          verdict.code == MCF_NODE && verdict.low == 1);
    pairs.pairs = zeros;
    pairs.pair_count = 0;
    pairs.rows = pairs.columns = UINT32_MAX;
    CHECK(mcf_solve_pairs(&pairs, &standard, flow, 0, prices, NODES, &verdict) ==
          MCF_BUFFER_TOO_SMALL);
    CHECK(mcf_solve_pairs(&pairs, &standard, flow, 0, prices, 0, &verdict) == MCF_BUFFER_TOO_SMALL);
    CHECK(mcf_check_pairs(&pairs, flow, 0, prices, UINT32_MAX - UINT32_MAX, &verdict) ==
          MCF_BUFFER_TOO_SMALL);
    pairs.rows = 1;
    pairs.columns = NODES - 1;
    CHECK(mcf_solve_pairs(&pairs, &standard, flow, 0, prices, NODES, &verdict) ==
              MCF_INVALID_INPUT &&
          verdict.code == MCF_SIZE);
    CHECK(mcf_check_pairs(&pairs, flow, 0, prices, NODES, &verdict) == MCF_INVALID_INPUT &&
          verdict.code == MCF_SIZE);
}

/* Inputs may overlap: here an arc is also the supplies of four nodes, and a flow is also its
 * prices. */
static void try_overlap(void) {
    const int64_t ends = INT64_C(0x200000001);
    const int64_t values[4] = {ends, -5, 7, -ends - 2}, none[3] = {0, 0, 0};
    const struct mcf_arc arc = {1, 2, -5, 7, -8589934595},
                         loops[3] = {{1, 1, 0, 1, 0}, {2, 3, 0, 1, 0}, {3, 2, 0, 1, 0}};
    const struct mcf_flow_problem once = {values, 4, &arc, 1}, whole = {none, 3, loops, 3};
    struct mcf_flow_problem twice = {NULL, 4, NULL, 1};
    struct mcf_choice choice = {0, 0, 0, 0, 0};
    struct mcf_verdict verdict, other;
    int64_t flow[3], prices[4], again[3], others[4];
    void *both = at_edge(supply_end, &arc, sizeof arc);
    CHECK(memcmp(both, values, sizeof values) == 0);
    twice.supplies = both, twice.arcs = both;
    for (choice.engine = 0; choice.engine < 6; choice.engine++) {
        memset(&verdict, 0, sizeof verdict), memset(&other, 0, sizeof other);
        CHECK(mcf_solve_arcs(&once, &choice, flow, 1, prices, 4, &verdict) == MCF_BLOCKED);
        CHECK(mcf_solve_arcs(&twice, &choice, again, 1, others, 4, &other) == MCF_BLOCKED);
        CHECK(memcmp(prices, others, sizeof prices) == 0 &&
              memcmp(&verdict, &other, sizeof verdict) == 0);
    }
    memset(&verdict, 0, sizeof verdict);
    CHECK(mcf_check_arcs(&whole, none, 3, none, 3, &verdict) == 0 &&
          verdict.kind == MCF_ACCEPTED_FLOW);
}

/* ---- cost matrices */

enum { LINES = 4, ENTRIES = 64, ROOMS = 2 * LINES };

static struct {
    size_t rows, columns, stride, length;
    int64_t costs[ENTRIES], supplies[LINES], demands[LINES];
} table;

static const wide FAR = (wide)1 << 100;

static int64_t entry(void) {
    return chance(5) == 0 ? INT64_MAX : chance(4) ? (int64_t)chance(9) - 4 : cost();
}

/* A shape, which in few rounds doesn't fit the costs, or whose last place is too far for a size. */
static void make_matrix(void) {
    size_t k;
    table.rows = chance(LINES + 1);
    table.columns = chance(LINES + 1);
    table.stride = table.columns + chance(3);
    table.length = table.rows ? (table.rows - 1) * table.stride + table.columns : 0;
    if (chance(2)) table.length += chance(3);
    if (chance(20) == 0 && table.length > 0) table.length--;
    if (chance(20) == 0 && table.columns > 0) table.stride = table.columns - 1;
    if (chance(20) == 0) table.stride = SIZE_MAX / (1 + chance(3)) + chance(2);
    for (k = 0; k < ENTRIES; k++) table.costs[k] = entry();
}

/* Masses, which in most rounds are small and have equal sums. */
static void make_masses(void) {
    int is_small = chance(8) > 0;
    size_t k;
    for (k = 0; k < LINES; k++) table.supplies[k] = table.demands[k] = 0;
    for (k = 0; k < LINES * 2 && is_small && table.rows && table.columns; k++) {
        int64_t amount = (int64_t)chance(2);
        table.supplies[chance(table.rows)] += amount;
        table.demands[chance(table.columns)] += amount;
    }
    for (k = 0; k < LINES && !is_small; k++)
        table.supplies[k] = bound(), table.demands[k] = chance(3) ? table.supplies[k] : bound();
    if (chance(12) == 0) table.supplies[chance(LINES)] += (int64_t)chance(3) - 1;
}

static int64_t cost_at(size_t row, size_t column) {
    return table.costs[row * table.stride + column];
}

static int is_matrix(void) {
    size_t i, j;
    if (table.columns > table.stride) return 0;
    for (i = 0; i < table.rows; i++)
        if ((wide)i * (wide)table.stride + (wide)table.columns > (wide)table.length) return 0;
    for (i = 0; i < table.rows; i++)
        for (j = 0; j < table.columns; j++)
            if (cost_at(i, j) != INT64_MAX && !is_up_to(COST, cost_at(i, j))) return 0;
    return 1;
}

/* The prices of rows and columns, or their marks, times 2^lift. */
static struct {
    wide rows[ROOMS], columns[ROOMS];
    int lift;
} priced;

/* The reduced cost of a pair, times 2^lift. */
static wide reduced(size_t row, size_t column) {
    return ((wide)cost_at(row, column) * ((wide)1 << priced.lift)) - priced.rows[row] -
           priced.columns[column];
}

/* Whether no allowed pair costs less than the sum of its prices. */
static int are_none_below(void) {
    size_t i, j;
    for (i = 0; i < table.rows; i++)
        for (j = 0; j < table.columns; j++)
            if (cost_at(i, j) != INT64_MAX && reduced(i, j) < 0) return 0;
    return 1;
}

/* Whether the prices show that the columns of the rows are an assignment of least cost, which
 * `spent` gets. */
static int is_assignment(const uint32_t *column_of, wide *spent) {
    const wide *u = priced.rows, *v = priced.columns;
    size_t i, j, pairs = 0, smaller = table.rows < table.columns ? table.rows : table.columns;
    int taken[LINES] = {0};
    *spent = 0;
    for (i = 0; i < table.rows; i++) {
        j = column_of[i];
        if (j >= table.columns) continue;
        if (cost_at(i, j) == INT64_MAX || taken[j] || reduced(i, j) != 0) return 0;
        taken[j] = 1;
        pairs++;
        *spent += cost_at(i, j);
    }
    for (j = 0; j < table.columns && table.rows < table.columns; j++)
        if (v[j] > 0 || (!taken[j] && v[j] != 0)) return 0;
    for (i = 0; i < table.rows && table.columns < table.rows; i++)
        if (u[i] > 0 || (column_of[i] >= table.columns && u[i] != 0)) return 0;
    return pairs == smaller && are_none_below();
}

/* The least cost of so many more pairs, in rows from this one on; FAR if there are none. */
static wide least_pairs(size_t row, unsigned taken, size_t pairs) {
    wide least, rest;
    size_t j;
    if (pairs == 0) return 0;
    if (row == table.rows) return FAR;
    least = least_pairs(row + 1, taken, pairs);
    for (j = 0; j < table.columns; j++) {
        if (taken >> j & 1 || cost_at(row, j) == INT64_MAX) continue;
        rest = least_pairs(row + 1, taken | 1u << j, pairs - 1);
        if (rest < FAR && rest + cost_at(row, j) < least) least = rest + cost_at(row, j);
    }
    return least;
}

/* Whether fewer marked rows and columns than the smaller side has meet all allowed pairs. */
static int is_cover(void) {
    const wide *rows = priced.rows, *columns = priced.columns;
    size_t i, j, marks = 0;
    for (i = 0; i < table.rows; i++) marks += rows[i] == 1;
    for (j = 0; j < table.columns; j++) marks += columns[j] == 1;
    for (i = 0; i < table.rows; i++)
        for (j = 0; j < table.columns; j++)
            if (cost_at(i, j) != INT64_MAX && rows[i] != 1 && columns[j] != 1) return 0;
    return marks < table.rows && marks < table.columns;
}

/* Whether the prices show that the entries are a plan of least cost, which `spent` gets. */
static int is_plan(const struct mcf_shipment *plan, size_t used, wide *spent) {
    wide supplies[LINES], demands[LINES];
    size_t i, j, k;
    *spent = 0;
    for (i = 0; i < table.rows; i++) supplies[i] = table.supplies[i];
    for (j = 0; j < table.columns; j++) demands[j] = table.demands[j];
    for (k = 0; k < used; k++) {
        i = plan[k].row, j = plan[k].column;
        if (i >= table.rows || j >= table.columns || cost_at(i, j) == INT64_MAX) return 0;
        if (plan[k].amount < 0) return 0;
        if (plan[k].amount > 0 && reduced(i, j) != 0) return 0;
        supplies[i] -= plan[k].amount;
        demands[j] -= plan[k].amount;
        *spent += (wide)cost_at(i, j) * plan[k].amount;
    }
    for (i = 0; i < table.rows; i++)
        if (supplies[i] != 0) return 0;
    for (j = 0; j < table.columns; j++)
        if (demands[j] != 0) return 0;
    return are_none_below();
}

/* The least cost of a plan for what is left, in pairs from this place on; FAR if there is none. */
static wide least_plan(size_t place, int64_t *supplies, int64_t *demands) {
    size_t i = place / table.columns, j = place % table.columns, k;
    int64_t amount, most;
    wide least = FAR, rest;
    for (k = 0; k < i && k < table.rows; k++)
        if (supplies[k] != 0) return FAR;
    if (i == table.rows) {
        for (k = 0; k < table.columns; k++)
            if (demands[k] != 0) return FAR;
        return 0;
    }
    most = cost_at(i, j) == INT64_MAX ? 0 : supplies[i] < demands[j] ? supplies[i] : demands[j];
    for (amount = 0; amount <= most; amount++) {
        supplies[i] -= amount, demands[j] -= amount;
        rest = least_plan(place + 1, supplies, demands);
        supplies[i] += amount, demands[j] += amount;
        if (rest < FAR && rest + (wide)cost_at(i, j) * amount < least)
            least = rest + (wide)cost_at(i, j) * amount;
    }
    return least;
}

/* Whether the marks exclude every plan by a side. */
static int is_cut(uint32_t side) {
    const wide *rows = priced.rows, *columns = priced.columns;
    wide supply = 0, demand = 0;
    size_t i, j;
    for (i = 0; i < table.rows; i++) supply += rows[i] == 1 ? table.supplies[i] : 0;
    for (j = 0; j < table.columns; j++) demand += columns[j] == 1 ? table.demands[j] : 0;
    for (i = 0; i < table.rows; i++)
        for (j = 0; j < table.columns; j++) {
            if (cost_at(i, j) == INT64_MAX) continue;
            if (side == MCF_SEND ? rows[i] == 1 && columns[j] != 1
                                 : rows[i] != 1 && columns[j] == 1)
                return 0;
        }
    return side == MCF_SEND ? supply > demand : supply < demand;
}

static int are_marks(void) {
    size_t k;
    for (k = 0; k < table.rows; k++)
        if (priced.rows[k] != 0 && priced.rows[k] != 1) return 0;
    for (k = 0; k < table.columns; k++)
        if (priced.columns[k] != 0 && priced.columns[k] != 1) return 0;
    return 1;
}

static int64_t sevens_of[ROOMS * 2];

/* Room for so many values at the edge of memory, all bytes 7. */
static void *room_at(uint8_t *end, size_t size) { return at_edge(end, sevens_of, size); }

static int is_seven(const void *room, size_t size) { return memcmp(room, sevens_of, size) == 0; }

/* The matrix of the table, whose costs end at the edge of memory. */
static struct mcf_matrix matrix_at_edge(void) {
    struct mcf_matrix matrix;
    matrix.costs = at_edge(arc_end, table.costs, table.length * sizeof(int64_t));
    matrix.length = table.length;
    matrix.rows = table.rows;
    matrix.columns = table.columns;
    matrix.stride = table.stride;
    return matrix;
}

static uint8_t *double_end, *wide_end, *other_wide_end;

/* Makes what is judged read-only, or writable again. */
static void protect_judged(int how) {
    protect(flow_end, PAGE, how), protect(other_flow_end, PAGE, how);
    protect(price_end, PAGE, how), protect(other_price_end, PAGE, how);
    protect(wide_end, PAGE, how), protect(other_wide_end, PAGE, how);
}

/* ---- the same matrices of doubles: the entries times 2^places */

static int as_doubles, places;

/* The double for an entry: one that is beyond the limit is no number, or -infinity. */
static double double_of(int64_t cost) {
    static const double one = 1.0, zero = 0.0;
    double value = (double)cost;
    int k;
    if (cost == INT64_MAX) return one / zero;
    if (!is_up_to(COST, cost)) return cost > 0 ? zero / zero : -one / zero;
    for (k = 0; k < places; k++) value *= 2.0;
    for (k = 0; k > places; k--) value /= 2.0;
    return value;
}

/* The doubles of a matrix, at the edge of memory, which is read-only from now on. */
static struct mcf_doubles doubles_of(const struct mcf_matrix *matrix) {
    static double values[ENTRIES];
    struct mcf_doubles doubles;
    size_t k;
    for (k = 0; k < matrix->length; k++) values[k] = double_of(matrix->costs[k]);
    protect(double_end, PAGE, PROT_READ | PROT_WRITE);
    doubles.costs = at_edge(double_end, values, matrix->length * sizeof *values);
    protect(double_end, PAGE, PROT_READ);
    doubles.length = matrix->length;
    doubles.rows = matrix->rows;
    doubles.columns = matrix->columns;
    doubles.stride = matrix->stride;
    return doubles;
}

/* Takes prices over. */
static void take_whole(const int64_t *u, size_t rows, const int64_t *v, size_t columns) {
    size_t k;
    priced.lift = 0;
    for (k = 0; k < rows; k++) priced.rows[k] = u[k];
    for (k = 0; k < columns; k++) priced.columns[k] = v[k];
}

static wide price_of(struct mcf_wide words, int shift) {
    return ((wide)words.high * ((wide)1 << 64) + words.low) * ((wide)1 << shift);
}

/* Takes prices in units of 2^(unit - 1074) over, in these or in those of 2^places. Where the first
   are much finer, all finite entries are 0, so that the second do, too. */
static void take_wide(const struct mcf_wide *y, size_t rows, const struct mcf_wide *z,
                      size_t columns, int64_t unit) {
    int64_t shift = unit - 1074 - places;
    size_t k;
    CHECK(shift < 64);
    if (shift < -64) shift = 0;
    priced.lift = shift < 0 ? (int)-shift : 0;
    for (k = 0; k < rows; k++) priced.rows[k] = price_of(y[k], shift > 0 ? (int)shift : 0);
    for (k = 0; k < columns; k++) priced.columns[k] = price_of(z[k], shift > 0 ? (int)shift : 0);
}

/* The prices as 64-bit numbers at the edge of memory. */
static const int64_t *narrowed(uint8_t *end, const wide *prices, size_t count) {
    static int64_t numbers[ROOMS];
    size_t k;
    for (k = 0; k < count; k++) numbers[k] = (int64_t)prices[k];
    return at_edge(end, numbers, count * sizeof *numbers);
}

/* The prices in two words each at the edge of memory. */
static const struct mcf_wide *widened(uint8_t *end, const wide *prices, size_t count) {
    static struct mcf_wide words[ROOMS];
    size_t k;
    for (k = 0; k < count; k++)
        words[k].low = (uint64_t)prices[k], words[k].high = (int64_t)(prices[k] >> 64);
    return at_edge(end, words, count * sizeof *words);
}

/* The scale of the prices. */
static struct mcf_scale scale_now(void) {
    struct mcf_scale scale;
    scale.unit = (uint32_t)(1074 + places - priced.lift);
    scale.is_rounded = 0;
    return scale;
}

/* Assigns with rooms for so many prices, which are taken over if there are any. */
static uint32_t assign(const struct mcf_matrix *matrix, uint32_t *column_of, size_t column_count,
                       size_t rows, size_t columns) {
    int64_t *u = room_at(price_end, rows * sizeof *u),
            *v = room_at(other_price_end, columns * sizeof *v);
    struct mcf_wide *y = room_at(wide_end, rows * sizeof *y),
                    *z = room_at(other_wide_end, columns * sizeof *z);
    struct mcf_doubles doubles;
    struct mcf_scale scale = {77, 78};
    uint32_t status;
    if (as_doubles) {
        doubles = doubles_of(matrix);
        status = mcf_assign_doubles(&doubles, column_of, column_count, y, rows, z, columns, &scale);
        if (status > MCF_FLOW) CHECK(scale.unit == 77 && scale.is_rounded == 78);
        if (status == MCF_FLOW) CHECK(scale.is_rounded == 0);
        if (status == MCF_BLOCKED) scale.unit = (uint32_t)(1074 + places);
        if (status <= MCF_BLOCKED) take_wide(y, rows, z, columns, scale.unit);
    } else {
        status = mcf_assign_matrix(matrix, column_of, column_count, u, rows, v, columns);
        if (status <= MCF_BLOCKED) take_whole(u, rows, v, columns);
    }
    if (status > MCF_BLOCKED) {
        CHECK(is_seven(u, rows * sizeof *u) && is_seven(v, columns * sizeof *v));
        CHECK(is_seven(y, rows * sizeof *y) && is_seven(z, columns * sizeof *z));
    }
    return status;
}

static struct mcf_transport_doubles transport_of(const struct mcf_transport *problem) {
    struct mcf_transport_doubles doubles;
    doubles.matrix = doubles_of(&problem->matrix);
    doubles.supplies = problem->supplies, doubles.supply_count = problem->supply_count;
    doubles.demands = problem->demands, doubles.demand_count = problem->demand_count;
    return doubles;
}

/* Sends with rooms for so many prices, which are taken over if there are any. */
static uint32_t send(const struct mcf_transport *problem, struct mcf_shipment *plan, size_t length,
                     size_t rows, size_t columns, struct mcf_planned *told) {
    int64_t *u = room_at(price_end, rows * sizeof *u),
            *v = room_at(other_price_end, columns * sizeof *v);
    struct mcf_wide *y = room_at(wide_end, rows * sizeof *y),
                    *z = room_at(other_wide_end, columns * sizeof *z);
    struct mcf_planned_doubles all = {77, 77, {77, 78}};
    struct mcf_transport_doubles doubles;
    uint32_t status;
    if (as_doubles) {
        doubles = transport_of(problem);
        status = mcf_transport_doubles(&doubles, plan, length, y, rows, z, columns, &all);
        if (status > MCF_BLOCKED) CHECK(all.scale.unit == 77 && all.scale.is_rounded == 78);
        if (status <= MCF_BLOCKED) CHECK(all.scale.is_rounded == 0);
        if (status == MCF_BLOCKED) CHECK(all.scale.unit == 0);
        if (status == MCF_BLOCKED) all.scale.unit = (uint32_t)(1074 + places);
        if (status <= MCF_BLOCKED) take_wide(y, rows, z, columns, all.scale.unit);
        told->used = all.used, told->side = all.side;
    } else {
        status = mcf_transport_matrix(problem, plan, length, u, rows, v, columns, told);
        if (status <= MCF_BLOCKED) take_whole(u, rows, v, columns);
    }
    if (status > MCF_BLOCKED) {
        CHECK(is_seven(u, rows * sizeof *u) && is_seven(v, columns * sizeof *v));
        CHECK(is_seven(y, rows * sizeof *y) && is_seven(z, columns * sizeof *z));
    }
    return status;
}

static uint32_t judge_matrix(const struct mcf_matrix *matrix, const uint32_t *column_of,
                             size_t column_count, size_t rows, size_t columns) {
    const int64_t *u = narrowed(price_end, priced.rows, rows),
                  *v = narrowed(other_price_end, priced.columns, columns);
    const struct mcf_wide *y = widened(wide_end, priced.rows, rows),
                          *z = widened(other_wide_end, priced.columns, columns);
    const struct mcf_scale scale = scale_now();
    struct mcf_doubles doubles;
    uint32_t status;
    protect_judged(PROT_READ);
    if (as_doubles) {
        doubles = doubles_of(matrix);
        status = mcf_check_doubles(&doubles, column_of, column_count, y, rows, z, columns, &scale);
    } else {
        status = mcf_check_matrix(matrix, column_of, column_count, u, rows, v, columns);
    }
    protect_judged(PROT_READ | PROT_WRITE);
    return status;
}

static uint32_t judge_transport(const struct mcf_transport *problem,
                                const struct mcf_shipment *plan, size_t used, size_t rows,
                                size_t columns) {
    const int64_t *u = narrowed(price_end, priced.rows, rows),
                  *v = narrowed(other_price_end, priced.columns, columns);
    const struct mcf_wide *y = widened(wide_end, priced.rows, rows),
                          *z = widened(other_wide_end, priced.columns, columns);
    const struct mcf_scale scale = scale_now();
    struct mcf_transport_doubles doubles;
    uint32_t status;
    protect_judged(PROT_READ);
    if (as_doubles) {
        doubles = transport_of(problem);
        status = mcf_check_transport_doubles(&doubles, plan, used, y, rows, z, columns, &scale);
    } else {
        status = mcf_check_transport(problem, plan, used, u, rows, v, columns);
    }
    protect_judged(PROT_READ | PROT_WRITE);
    return status;
}

/* The judge agrees with the definition on an assignment and on changed ones. */
static void try_matrix_judge(const struct mcf_matrix *matrix, uint32_t *column_of) {
    size_t rows = table.rows, columns = table.columns;
    int change, right;
    wide spent;
    for (change = 0; change < 6; change++) {
        if (change > 0 && rows) column_of[chance(rows)] = (uint32_t)chance(columns + 1);
        if (change > 3 && rows) priced.rows[chance(rows)] += (int64_t)chance(3) - 1;
        if (change > 4 && columns) priced.columns[chance(columns)] = entry();
        right = is_assignment(column_of, &spent);
        CHECK(judge_matrix(matrix, column_of, rows, rows, columns) == (right ? 0u : 1u));
    }
    CHECK(judge_matrix(matrix, column_of - 1, rows + 1, rows, columns) == 1);
    CHECK(judge_matrix(matrix, column_of, rows, rows + 1, columns) == 1);
    CHECK(judge_matrix(matrix, column_of, rows, rows, columns + 1) == 1);
}

static void try_assign(void) {
    struct mcf_matrix matrix = matrix_at_edge();
    size_t rows = table.rows, columns = table.columns, smaller = rows < columns ? rows : columns;
    uint32_t *column_of = room_at(flow_end, rows * sizeof *column_of), status;
    int right = is_matrix();
    wide spent;
    protect(arc_end, PAGE, PROT_READ);
    status = assign(&matrix, column_of, rows, rows, columns);
    outcomes[6 + (status < 3 ? status : 3)]++;
    CHECK(status <= MCF_INVALID_INPUT && (status == MCF_INVALID_INPUT) == !right);
    if (status != MCF_FLOW) CHECK(is_seven(column_of, rows * sizeof *column_of));
    if (status == MCF_FLOW) {
        CHECK(is_assignment(column_of, &spent) && spent == least_pairs(0, 0, smaller));
        try_matrix_judge(&matrix, column_of);
    } else if (status == MCF_BLOCKED) {
        CHECK(are_marks() && is_cover());
        CHECK(least_pairs(0, 0, smaller) == FAR);
    } else {
        CHECK(judge_matrix(&matrix, column_of, rows, rows, columns) == MCF_INVALID_INPUT);
    }
    CHECK(assign(&matrix, column_of - 1, rows + 1, rows, columns) == MCF_BUFFER_TOO_SMALL);
    CHECK(assign(&matrix, column_of, rows, rows + 1, columns) == MCF_BUFFER_TOO_SMALL);
    CHECK(assign(&matrix, column_of, rows, rows, columns + 1) == MCF_BUFFER_TOO_SMALL);
    protect(arc_end, PAGE, PROT_READ | PROT_WRITE);
}

/* The judge agrees with the definition on a plan and on changed ones. */
static void try_plan_judge(const struct mcf_transport *problem, struct mcf_shipment *plan,
                           size_t used) {
    size_t rows = table.rows, columns = table.columns;
    int change, right;
    wide spent;
    for (change = 0; change < 6; change++) {
        if (change > 1 && used) plan[chance(used)].column = (uint32_t)chance(columns + 1);
        if (change > 2 && used) plan[chance(used)].amount += (int64_t)chance(3) - 1;
        if (change > 3 && rows) priced.rows[chance(rows)] += (int64_t)chance(3) - 1;
        if (change > 4 && used) plan[chance(used)].amount = bound();
        right = is_plan(plan, used, &spent);
        CHECK(judge_transport(problem, plan, used, rows, columns) == (right ? 0u : 1u));
    }
    CHECK(judge_transport(problem, plan, used, rows + 1, columns) == 1);
    CHECK(judge_transport(problem, plan, used, rows, columns + 1) == 1);
}

/* Whether the masses are small enough to try all plans. */
static int are_few(void) {
    size_t k;
    for (k = 0; k < LINES; k++)
        if (table.supplies[k] < 0 || table.supplies[k] > 4 || table.demands[k] < 0 ||
            table.demands[k] > 4)
            return 0;
    return table.rows > 0 && table.columns > 0 && table.rows + table.columns <= 6;
}

static void try_found_plan(const struct mcf_transport *problem, struct mcf_shipment *room,
                           size_t length, const struct mcf_planned *told) {
    struct mcf_shipment plan[ROOMS];
    wide spent;
    CHECK(told->used <= length && told->side == 0 && is_plan(room, told->used, &spent));
    CHECK(is_seven(room + told->used, (length - told->used) * sizeof *room));
    if (are_few()) CHECK(spent == least_plan(0, table.supplies, table.demands));
    memcpy(plan, room, told->used * sizeof *plan);
    try_plan_judge(problem, at_edge(other_flow_end, plan, told->used * sizeof *plan), told->used);
}

static void try_transport(void) {
    size_t rows = table.rows, columns = table.columns, all = rows + columns;
    size_t length = all > 0 && chance(2) ? all - 1 : all;
    struct mcf_transport problem;
    struct mcf_planned told = {77, 77};
    struct mcf_shipment *plan = room_at(other_flow_end, length * sizeof *plan);
    int right = is_matrix();
    uint32_t status;
    problem.matrix = matrix_at_edge();
    problem.supplies = at_edge(supply_end, table.supplies, rows * sizeof *table.supplies);
    problem.supply_count = rows;
    problem.demands = at_edge(answer_end, table.demands, columns * sizeof *table.demands);
    problem.demand_count = columns;
    protect(arc_end, PAGE, PROT_READ), protect(supply_end, PAGE, PROT_READ);
    protect(answer_end, PAGE, PROT_READ);
    if (length > 0 && length < all)
        CHECK(send(&problem, plan + 1, length - 1, rows, columns, &told) == MCF_BUFFER_TOO_SMALL);
    status = send(&problem, plan, length, rows, columns, &told);
    outcomes[6 + (status < 3 ? status : 3)]++;
    CHECK(status <= MCF_INVALID_INPUT && (status == MCF_INVALID_INPUT) == !right);
    if (status != MCF_FLOW) CHECK(is_seven(plan, length * sizeof *plan));
    if (status == MCF_FLOW) {
        try_found_plan(&problem, plan, length, &told);
    } else if (status == MCF_BLOCKED) {
        CHECK(are_marks() && is_cut(told.side));
        CHECK(told.used == 0 && told.side <= MCF_TAKE);
        if (are_few()) CHECK(least_plan(0, table.supplies, table.demands) == FAR);
    } else {
        CHECK(told.used == 77 && told.side == 77);
        CHECK(judge_transport(&problem, plan, length, rows, columns) == MCF_INVALID_INPUT);
    }
    problem.supplies--, problem.supply_count++;
    CHECK(send(&problem, plan, length, rows, columns, &told) == MCF_BUFFER_TOO_SMALL);
    CHECK(judge_transport(&problem, plan, length, rows, columns) ==
          (right ? 1u : (uint32_t)MCF_INVALID_INPUT));
    protect(answer_end, PAGE, PROT_READ | PROT_WRITE);
    protect(arc_end, PAGE, PROT_READ | PROT_WRITE),
        protect(supply_end, PAGE, PROT_READ | PROT_WRITE);
}

/* Tries shapes that no memory has. */
static void try_shapes(void) {
    struct mcf_matrix matrix = {NULL, 0, SIZE_MAX, 0, 0};
    struct mcf_transport problem;
    struct mcf_planned told;
    uint32_t *none = room_at(flow_end, 0);
    int64_t *zero = room_at(price_end, 0), cost_of_one = 1;
    matrix.costs = zero;
    CHECK(mcf_check_matrix(&matrix, none, 0, zero, 0, zero, 0) == 1);
    CHECK(mcf_assign_matrix(&matrix, none, 0, zero, 0, zero, 0) == MCF_BUFFER_TOO_SMALL);
    problem.matrix = matrix;
    problem.supplies = problem.demands = zero;
    problem.supply_count = problem.demand_count = 0;
    CHECK(mcf_check_transport(&problem, room_at(other_flow_end, 0), 0, zero, 0, zero, 0) == 1);
    CHECK(mcf_transport_matrix(&problem, room_at(other_flow_end, 0), 0, zero, 0, zero, 0, &told) ==
          MCF_BUFFER_TOO_SMALL);
    matrix.costs = &cost_of_one, matrix.length = 1, matrix.columns = 1, matrix.stride = 1;
    CHECK(mcf_check_matrix(&matrix, none, 0, zero, 0, zero, 0) == MCF_INVALID_INPUT);
    matrix.rows = 0, matrix.columns = matrix.stride = SIZE_MAX;
    CHECK(mcf_check_matrix(&matrix, none, 0, zero, 0, zero, 0) == 1);
    matrix.stride--;
    CHECK(mcf_check_matrix(&matrix, none, 0, zero, 0, zero, 0) == MCF_INVALID_INPUT);
}

/* ---- tables of places and routes, and of persons and things */

enum { ROWS = 6, LONGEST = 3000 };

/* How a table is written: the byte between cells, the mark before decimals, the end of lines, how
   many of eight cells stand between quotes, and whether each cell is one that has no fault. */
static struct {
    char separator, mark;
    const char *line_end;
    uint64_t quoted;
    int is_plain;
} style;

/* How many bytes of the text are written, and whether a cell of its last row is. */
static size_t written;
static int is_in_row;

static char long_cell[LONGEST + 1];

static void make_style(void) {
    static const char separators[] = ",;\t", *const ends[] = {"\n", "\r\n", "\r"};
    style.separator = separators[chance(3)];
    style.mark = chance(2) ? '.' : ',';
    style.line_end = ends[chance(3)];
    style.quoted = chance(3) ? 0 : chance(9);
    style.is_plain = chance(2) == 0;
}

static void put(const char *word) {
    size_t length = strlen(word);
    memcpy(text + written, word, length);
    written += length;
}

static const char *odd_cell(void) {
    static const char *const cells[] = {"",
                                        "-",
                                        "x",
                                        "A",
                                        "no",
                                        "+1",
                                        "-0",
                                        "-7",
                                        "1e3",
                                        "1,5",
                                        "1.000",
                                        "1 000",
                                        "1.2.3",
                                        "0..2",
                                        "3..1",
                                        "inf",
                                        "\342\210\2221",
                                        "\xd9\xa1",
                                        "\xff",
                                        "\xc3",
                                        "\xef\xbb\xbf",
                                        "\"",
                                        "a\nb",
                                        "\r\n\"route\",\"",
                                        "sep=;",
                                        "0.0000000000000000000000000000000000000001",
                                        "1000000000000000",
                                        "1000000000000000001",
                                        "-999999999999999999999999999999",
                                        "99999999999999999999999999999999999999999"};
    return chance(20) ? cells[chance(sizeof cells / sizeof *cells)] : long_cell;
}

/* Writes a cell, between quotes if it needs them; sometimes an odd one in its place. */
static void put_cell(const char *cell) {
    const char between[] = {style.separator, 0};
    int is_quoted;
    if (!style.is_plain && chance(24) == 0) cell = odd_cell();
    is_quoted =
        strpbrk(cell, "\"\r\n") || strchr(cell, style.separator) || chance(8) < style.quoted;
    if (is_in_row) put(between);
    is_in_row = 1;
    if (is_quoted) put("\"");
    for (; *cell; cell++) {
        text[written++] = (uint8_t)*cell;
        if (*cell == '"') put("\"");
    }
    if (is_quoted) put("\"");
}

static void end_row(void) {
    put(style.line_end);
    is_in_row = 0;
}

/* Writes so many tenths. */
static void put_tenths(int64_t tenths) {
    char cell[32];
    int size = (int)(tenths < 0 ? -tenths : tenths);
    sprintf(cell, "%s%d%c%d", tenths < 0 ? "-" : "", size / 10, style.mark, size % 10);
    if (size % 10 == 0) sprintf(cell, "%s%d", tenths < 0 ? "-" : "", size / 10);
    put_cell(cell);
}

/* Writes a number from the first to the second, with a decimal or without one. */
static int64_t put_between(int64_t from, int64_t to) {
    int64_t tenths = from * 10 + (int64_t)chance((uint64_t)(to - from) * 10 + 1);
    if (chance(2)) tenths -= tenths % 10;
    put_tenths(tenths);
    return tenths;
}

static void put_heads(const char *const *heads, size_t count) {
    size_t k;
    written = 0;
    if (chance(8) == 0) put("\xef\xbb\xbf");
    for (k = 0; k < count; k++) put_cell(heads[k]);
    end_row();
}

static const char *const names[ROWS] = {"Mill", "B", "\xc3\x96st, 2", "Werk \"C\"", "x", "0"};

/* Writes a table of so many places, whose supplies most often have the sum 0. */
static void put_places(size_t count) {
    static const char *const heads[] = {"name", "supply", "least", "most", "cost"};
    int64_t sum = 0, tenths;
    int has_bounds = chance(3) == 0, is_even = chance(4) > 0;
    size_t k;
    put_heads(heads, has_bounds ? 5 : 2);
    for (k = 0; k < count; k++) {
        put_cell(names[k]);
        if (k + 1 == count && is_even)
            put_tenths(-sum);
        else
            tenths = put_between(-4, 4), sum += tenths;
        if (has_bounds && chance(2)) {
            put_between(0, 1);
            put_between(1, 9);
            put_between(0, 3);
        }
        end_row();
    }
}

/* Writes a table of routes between so many places, in one direction or both, with up to two steps
   of cost. In some tables no cost is below 0, and routes may have no limit. */
static void put_routes(size_t count) {
    static const char *const heads[] = {"from", "to",     "most",   "cost",
                                        "both", "most 2", "cost 2", "least"};
    static const size_t widths[] = {4, 5, 7, 8};
    size_t k, columns = widths[chance(4)], rows = count ? 1 + chance(2 * ROWS) : 0;
    int may_be_free = chance(3) == 0;
    put_heads(heads, columns);
    for (k = 0; k < rows; k++) {
        int is_both = columns > 4 && chance(3) == 0,
            is_free = may_be_free && columns < 7 && chance(3) == 0;
        put_cell(names[chance(count)]);
        put_cell(names[chance(count)]);
        if (is_free)
            put_cell("");
        else
            put_between(1, 9);
        put_between(is_both || may_be_free ? 0 : -2, 3);
        if (columns > 4) put_cell(is_both ? "yes" : "");
        if (columns > 6) {
            put_between(1, 9);
            put_between(3, 5);
        }
        if (columns > 7) put_cell(is_both || chance(2) ? "" : "1");
        end_row();
        if (chance(16) == 0) end_row();
    }
}

static void put_range(void) {
    static const char *const ranges[] = {"", "0..1", "0..2", "1", "1..3", "2"};
    put_cell(ranges[chance(6)]);
}

static void put_needs(size_t things) {
    size_t j;
    put_cell("needs");
    for (j = 0; j < things; j++) put_range();
    end_row();
}

/* Writes a matrix of costs, in which some pairs are forbidden. */
static void put_matrix(size_t persons, size_t things) {
    static const char *const letters[ROWS] = {"U", "V", "W", "X", "Y", "Z"};
    const char *heads[ROWS + 2] = {""};
    int has_takes = (int)chance(2), has_needs = (int)chance(2);
    size_t i, j;
    for (j = 0; j < things; j++) heads[1 + j] = letters[j];
    heads[1 + things] = "takes";
    put_heads(heads, 1 + things + (size_t)has_takes);
    for (i = 0; i < persons; i++) {
        put_cell(names[i]);
        for (j = 0; j < things; j++)
            if (chance(5) == 0)
                put_cell(chance(2) ? "x" : "-");
            else
                put_between(-3, 9);
        if (has_takes) put_range();
        end_row();
    }
    if (has_needs) put_needs(things);
}

/* Writes a list of pairs: some of those of the persons with the things. */
static void put_list(size_t persons, size_t things) {
    static const char *const heads[] = {"who", "what", "cost", "takes", "needs"};
    size_t columns = 3 + chance(3), place;
    put_heads(heads, columns);
    for (place = 0; place < persons * things; place++) {
        if (place > 0 && chance(4) == 0) continue;
        put_cell(names[place / things]);
        put_cell(names[place % things]);
        if (chance(9) == 0)
            put_cell("");
        else
            put_between(-3, 9);
        if (columns > 3) put_cell(place / things % 2 ? "1" : "0..2");
        if (columns > 4) put_cell(place % things % 2 ? "1..2" : "");
        end_row();
    }
}

/* Cuts the text off, changes a byte, or inserts a quote or an odd cell. */
static void spoil(void) {
    size_t place = chance(written + 1), count;
    const char *cell = chance(3) ? odd_cell() : "\"";
    count = strlen(cell);
    switch (chance(6)) {
    case 0:
        written = place;
        break;
    case 1:
        if (place < written) text[place] = (uint8_t)chance(256);
        break;
    case 2:
        if (place < written) text[place] = (uint8_t) "\"\r\n,;\t .-0"[chance(10)];
        break;
    case 3:
        memmove(text + place + count, text + place, written - place);
        memcpy(text + place, cell, count);
        written += count;
    }
}

/* Writes noise up to a length: random bytes of an alphabet, or any. */
static void put_noise(const char *alphabet, size_t length) {
    size_t count = strlen(alphabet);
    while (written < length)
        text[written++] = (uint8_t)(count ? alphabet[chance(count)] : (int)chance(256));
}

/* The bytes before an end that a call reads are the text, spoiled unless the table is plain. */
static const uint8_t *table_at(uint8_t *end, size_t *length) {
    size_t changes = style.is_plain ? 0 : chance(3);
    for (; changes > 0; changes--) spoil();
    if (!style.is_plain && chance(16) == 0) put_noise("\"\r\n,;\t .-0123x", written + chance(200));
    *length = written;
    return at_edge(end, text, written);
}

/* What a call for tables is asked. */
static struct {
    int is_pairs, is_meant;
    const uint8_t *tables[2];
    size_t lengths[2];
    struct mcf_plan_options flow;
    struct mcf_pair_options pairs;
} asked;

/* A number for an option below a limit; rarely one without a meaning. */
static uint32_t option(uint32_t limit) {
    uint32_t number = chance(40)  ? (uint32_t)chance(limit)
                      : chance(2) ? limit
                                  : UINT32_MAX - (uint32_t)chance(3);
    asked.is_meant = asked.is_meant && number < limit;
    return number;
}

/* Chooses a penalty, and sees whether it is a number by the mark that is asked for. Without one,
   1.500 may also be 1500. */
static void make_penalty(void) {
    static const struct {
        const char *text;
        int is_plain, is_meant[3];
    } penalties[] = {{"0", 1, {1, 1, 1}},
                     {"30", 1, {1, 1, 1}},
                     {"2.5", 1, {1, 1, 0}},
                     {"2,5", 1, {0, 0, 1}},
                     {"1.500", 1, {0, 1, 1}},
                     {"1 000", 1, {1, 1, 1}},
                     {"-1", 0, {1, 1, 1}},
                     {"1000000000000000000000000000000", 0, {1, 1, 1}},
                     {"0.000000000000000000000000000001", 0, {1, 1, 0}},
                     {"99999999999999999999999999999999999999999", 1, {0, 0, 0}},
                     {"1e3", 1, {0, 0, 0}},
                     {" 1", 1, {0, 0, 0}},
                     {"\xff", 1, {0, 0, 0}}};
    size_t place = chance(sizeof penalties / sizeof *penalties);
    const char *penalty = chance(4) ? "" : penalties[place].text;
    asked.flow.penalty_length = strlen(penalty);
    asked.flow.penalty = at_edge(supply_end, penalty, strlen(penalty));
    if (*penalty == 0) return;
    style.is_plain = style.is_plain && penalties[place].is_plain;
    asked.is_meant =
        asked.is_meant && asked.flow.decimal < 3 && penalties[place].is_meant[asked.flow.decimal];
}

/* The number of a mark: that of the tables, or none, if they are plain. */
static uint32_t mark_option(void) {
    uint32_t number = option(3);
    if (style.is_plain && number < 3 && number > 0)
        number = style.mark == '.' ? MCF_POINT : MCF_COMMA;
    return number;
}

static void make_flow_tables(void) {
    size_t count = chance(ROWS + 1);
    asked.is_pairs = 0, asked.is_meant = 1;
    asked.flow.decimal = mark_option();
    asked.flow.allow_unused = option(2);
    asked.flow.allow_short = option(2);
    asked.flow.ranges = option(2);
    make_penalty();
    put_places(count);
    asked.tables[0] = table_at(input_end, &asked.lengths[0]);
    put_routes(count);
    asked.tables[1] = table_at(answer_end, &asked.lengths[1]);
}

static void make_pair_table(void) {
    size_t persons = 1 + chance(ROWS), things = 1 + chance(ROWS);
    asked.is_pairs = 1, asked.is_meant = 1;
    asked.pairs.decimal = mark_option();
    asked.pairs.each = option(4);
    asked.pairs.maximise = option(2);
    if (chance(2))
        put_matrix(persons, things);
    else
        put_list(persons, things);
    asked.tables[0] = table_at(input_end, &asked.lengths[0]);
}

/* Makes the tables and the penalty read-only, or writable again. */
static void protect_tables(int how) {
    protect(input_end, asked.lengths[0] / PAGE * PAGE + PAGE, how);
    protect(answer_end, asked.lengths[1] / PAGE * PAGE + PAGE, how);
    protect(supply_end, PAGE, how);
}

static uint32_t plan_tables(uint8_t *room, size_t size, size_t *used) {
    uint32_t status;
    protect_tables(PROT_READ);
    if (asked.is_pairs)
        status = mcf_plan_pairs(asked.tables[0], asked.lengths[0], &asked.pairs, room, size, used);
    else
        status = mcf_plan_flow(asked.tables[0], asked.lengths[0], asked.tables[1], asked.lengths[1],
                               &asked.flow, room, size, used);
    protect_tables(PROT_READ | PROT_WRITE);
    return status;
}

/* Room for so many bytes at the edge of memory, all 7. */
static uint8_t *room_of(size_t size) { return memset(room_end - size, 7, size); }

static int are_sevens(const uint8_t *room, size_t size) {
    return size == 0 || (room[0] == 7 && memcmp(room, room + 1, size - 1) == 0);
}

/* The place after the row at a place of an answer, each of whose cells stands between quotes. */
static size_t after_row(const uint8_t *answer, size_t used, size_t place) {
    for (;;) {
        CHECK(place < used && answer[place] == '"');
        for (place++; place + 1 < used; place++) {
            if (answer[place] == '"' && answer[place + 1] != '"') break;
            place += answer[place] == '"';
        }
        CHECK(place + 1 < used && (answer[place + 1] == ',' || answer[place + 1] == '\n'));
        place += 2;
        if (answer[place - 1] == '\n') return place;
    }
}

/* How many rows of an answer begin with these bytes. */
static size_t rows_with(const uint8_t *answer, size_t used, const char *bytes) {
    size_t place = 0, rows = 0, length = strlen(bytes);
    while (place < used) {
        rows += used - place >= length && memcmp(answer + place, bytes, length) == 0;
        place = after_row(answer, used, place);
    }
    return rows;
}

/* The rows of an answer are those of its status: a plan has a row for each place and each route
   of the tables that it repeats, and a choice has one for each person and each thing. */
static void check_answer(uint32_t status, const uint8_t *answer, size_t used) {
    static const char *const begins[] = {"\"answer\",\"plan\"\n", "\"answer\",\"no plan\"\n",
                                         "\"answer\",\"faults\"\n"};
    char sizes[80];
    size_t routes = rows_with(answer, used, "\"route\",");
    CHECK(used >= strlen(begins[status]));
    CHECK(memcmp(answer, begins[status], strlen(begins[status])) == 0);
    CHECK(rows_with(answer, used, "\"answer\",") == 1);
    CHECK(rows_with(answer, used, "\"cost\",") == (status == MCF_FLOW));
    CHECK(rows_with(answer, used, "\"side\",") == (status == MCF_BLOCKED));
    CHECK((rows_with(answer, used, "\"fault\",") > 0) == (status == MCF_INVALID_INPUT));
    if (status > MCF_FLOW) return;
    if (!asked.is_pairs) {
        CHECK(routes == rows_with(answer, used, "\"row\",\"routes\","));
        CHECK(rows_with(answer, used, "\"place\",") ==
              rows_with(answer, used, "\"row\",\"places\","));
        return;
    }
    sprintf(sizes, "\"persons\",\"%lu\"\n", (unsigned long)rows_with(answer, used, "\"person\","));
    CHECK(rows_with(answer, used, sizes) == 1);
    sprintf(sizes, "\"things\",\"%lu\"\n", (unsigned long)rows_with(answer, used, "\"thing\","));
    CHECK(rows_with(answer, used, sizes) == 1);
}

/* Plans tables in rooms that are empty, too short, longer than the answer, and just as long. */
static void try_tables(void) {
    size_t used = 77, again = 77, more = chance(40), less;
    uint8_t *room = room_of(more), *other;
    uint32_t status = plan_tables(room, asked.is_meant ? 0 : more, &used);
    CHECK(are_sevens(room, more));
    CHECK((status == MCF_INVALID_CHOICE) == !asked.is_meant);
    if (!asked.is_meant) {
        CHECK(used == 0);
        outcomes[12]++;
        return;
    }
    CHECK(status == MCF_BUFFER_TOO_SMALL && used > 0 && used <= ROOM / 4);
    less = 1 + chance(used);
    room = room_of(used - less);
    CHECK(plan_tables(room, used - less, &again) == MCF_BUFFER_TOO_SMALL && again == used);
    CHECK(are_sevens(room, used - less));
    again = 77;
    room = room_of(used + more);
    status = plan_tables(room, used + more, &again);
    CHECK(status <= MCF_INVALID_INPUT && again == used && are_sevens(room + used, more));
    check_answer(status, room, used);
    if (style.is_plain) CHECK(status != MCF_INVALID_INPUT);
    other = memcpy(room_end - ROOM / 2, room, used);
    again = 77;
    room = memset(room_end - used, 9, used);
    CHECK(plan_tables(room, used, &again) == status && again == used);
    CHECK(memcmp(room, other, used) == 0);
    outcomes[9 + status]++;
}

/* Plans tables of thirty thousand bytes: a beginning with noise after it. */
static void try_long(const char *begin, const char *alphabet) {
    static const struct mcf_plan_options flow = {0, 0, 0, 0, NULL, 0, NULL, 0};
    static const struct mcf_pair_options pairs = {0, 0, 0, 0, NULL, 0, NULL, 0};
    written = 0;
    put(begin);
    put_noise(alphabet, 30000);
    style.is_plain = 0;
    asked.flow = flow, asked.pairs = pairs;
    asked.flow.penalty = supply_end;
    asked.is_meant = 1;
    asked.lengths[0] = asked.lengths[1] = written;
    asked.tables[0] = at_edge(input_end, text, written);
    asked.tables[1] = at_edge(answer_end, text, written);
    for (asked.is_pairs = 0; asked.is_pairs < 2; asked.is_pairs++) try_tables();
}

int main(int count, char **words) {
    long rounds = count > 1 ? atol(words[1]) : 0;
    input_end = edge(SIZE);
    room_end = edge(ROOM);
    answer_end = edge(SIZE);
    supply_end = edge(PAGE), arc_end = edge(PAGE), flow_end = edge(PAGE), price_end = edge(PAGE);
    other_flow_end = edge(PAGE), other_price_end = edge(PAGE);
    double_end = edge(PAGE), wide_end = edge(PAGE), other_wide_end = edge(PAGE);
    try_text(0);
    try_sizes();
    try_overlap();
    memset(sevens_of, 7, sizeof sevens_of);
    try_shapes();
    memset(long_cell, 'n', LONGEST);
    try_noise("", "");
    try_noise("", "\n");
    try_noise("", "0123456789");
    try_noise("p min 9 9\n", "0123456789 -\npna");
    try_noise("c", " \tc");
    try_noise("p min 1000000 10000000\n", "a 12\n");
    try_long("", "");
    try_long("", "\"");
    try_long("", "\"\n,");
    try_long("name,supply\n", ",;\n");
    try_long("name,supply\n", "A,1\n");
    try_long("from,to,most,cost\n", "A,1\n");
    try_long("who,what,cost\n", "AB,\n");
    try_long(",A,B,C,D,E\n", "F12,\n");
    for (round_now = 1; round_now <= rounds; round_now++) {
        make_flow_problem();
        now.rows = 0;
        try_arrays();
        make_assignment();
        try_arrays();
        make_matrix();
        make_masses();
        places = chance(4) ? (int)chance(1900) - 1000 : -1074;
        for (as_doubles = 0; as_doubles < 2; as_doubles++) {
            try_assign();
            try_transport();
        }
        make_style();
        if (round_now % 2)
            make_flow_tables();
        else
            make_pair_table();
        try_tables();
        if (count > 2) try_changed(words[2 + chance((uint64_t)count - 2)]);
    }
    printf("texts: %ld flows, %ld sets, %ld refusals; arrays: %ld flows, %ld sets, %ld faults; "
           "matrices: %ld least, %ld without, %ld faults; "
           "tables: %ld plans, %ld without, %ld faults, %ld without a meaning\n",
           outcomes[0], outcomes[1], outcomes[2], outcomes[3], outcomes[4], outcomes[5],
           outcomes[6], outcomes[7], outcomes[8], outcomes[9], outcomes[10], outcomes[11],
           outcomes[12]);
    return 0;
}

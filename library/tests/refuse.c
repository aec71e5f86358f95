/* Refuses each allocation of each call in turn. The status says so, the call writes nothing, and no
   memory leaks. The words are instance texts. Link with -Wl,--wrap=malloc,--wrap=realloc,
   --wrap=free. */
#include "mcf.h"

#include <stdio.h>
#include <stdlib.h>
#include <string.h>

void *__real_malloc(size_t size);
void *__real_realloc(void *block, size_t size);
void __real_free(void *block);

static long left = -1, live, refusals;

static int is_refused(void) {
    if (left == 0) return 1;
    if (left > 0) left--;
    return 0;
}

void *__wrap_malloc(size_t size) {
    void *block;
    if (is_refused()) return NULL;
    block = __real_malloc(size);
    live += block != NULL;
    return block;
}

void *__wrap_realloc(void *block, size_t size) {
    void *grown;
    if (is_refused()) return NULL;
    grown = __real_realloc(block, size);
    live += block == NULL && grown != NULL;
    return grown;
}

void __wrap_free(void *block) {
    live -= block != NULL;
    __real_free(block);
}

enum { SIZE = 1 << 20, MANY = 4096 };

static uint8_t input[SIZE], buffer[SIZE], untouched[SIZE];
static int64_t supplies[MANY], flow[MANY], prices[MANY], sevens[MANY];
static struct mcf_arc arcs[MANY];
static struct mcf_pair pairs[MANY];
static int64_t costs[400];
static uint32_t column_of[20];
static int64_t masses[20];
static struct mcf_shipment plan[40];
static struct mcf_planned told;
static double doubles[400];
static struct mcf_wide row_wides[20], column_wides[20];
static struct mcf_planned_doubles told_doubles;
static struct mcf_scale scale;
static size_t length, used, nodes, arc_count;
static uint32_t ended;
static struct mcf_choice choice;
static struct mcf_verdict verdict, before;

/* Tables to plan, and the status of the answer: plans, none, and faults. */
struct flow_case {
    const char *places, *routes;
    uint32_t status, decimal, allow_unused, allow_short, ranges;
    const char *penalty;
};

static const struct flow_case flow_cases[] = {
    /* A place with bounds, a second step, a route both ways, and a least amount. */
    {"name,supply,least,most,cost\nMill,3,,,\nPort,,1,9,0.5\nTown,-3,,,\n",
     "from,to,most,cost,both,most 2,cost 2,least\n"
     "Mill,Port,1,1.5,,3,2,\nTown,Port,5,1,yes,,,\nMill,Town,1,9,,,,1\n",
     MCF_FLOW, MCF_SHOWN_MARK, 0, 0, 1, ""},
    {"name,supply,most\nMill,3,\nPort,,9\nTown,-3,\n",
     "from,to,most,cost\nMill,Port,5,1.5\nPort,Town,2,1\n", MCF_FLOW, MCF_SHOWN_MARK, 1, 1, 1, ""},
    {"name;supply\nMill;3\nTown;-5\n", "from;to;most;cost\n\"Mill\";Town;;1,5\n", MCF_FLOW,
     MCF_COMMA, 0, 1, 1, "2,5"},
    {"name,supply\n", "from,to,most,cost\n", MCF_FLOW, MCF_POINT, 0, 0, 0, ""},
    {"name,supply,most\nMill,3,\nPort,,1\nTown,-3,\n",
     "from,to,most,cost,both\nMill,Port,5,1.5,\nPort,Town,5,1,yes\n", MCF_BLOCKED, MCF_SHOWN_MARK,
     0, 0, 0, ""},
    {"name,supply\nMill,3\nTown,-4\n", "from,to,most,cost\nMill,Town,9,1\n", MCF_BLOCKED,
     MCF_SHOWN_MARK, 1, 0, 0, ""},
    {"name,supply,extra\nMill,x,\nMill,1.000,,1\n,1,\n",
     "from,to,most,cost,most2\nMill,Town,-1,1e3,\n", MCF_INVALID_INPUT, MCF_SHOWN_MARK, 0, 0, 0,
     ""},
    {"name,supply,least,most,cost\nMill,3,2,1,-1\n",
     "from,to,most,cost,least,both\nMill,Mill,,-1,1,yes\n", MCF_INVALID_INPUT, MCF_SHOWN_MARK, 0, 1,
     0, "-1"},
    {"name,supply\nMill,1000000000000000001\n",
     "from,to,most,cost\nMill,Mill,0.00000000000000000000000000000000000001,1\n", MCF_INVALID_INPUT,
     MCF_SHOWN_MARK, 0, 0, 0, ""},
    {"name,supply\n\"Mill,3\n", "\"from\"x", MCF_INVALID_INPUT, MCF_SHOWN_MARK, 0, 0, 0, ""},
    {"", "", MCF_INVALID_INPUT, MCF_SHOWN_MARK, 0, 0, 0, ""}};

struct pair_case {
    const char *costs;
    uint32_t status;
    struct mcf_pair_options options;
};

static const struct pair_case pair_cases[] = {
    {",X,Y,takes\nA,1,2.5,0..9\nB,3,4,0..1\nneeds,1,2,\n", MCF_FLOW, {.maximise = 1}},
    {",X,Y,takes\nA,1,2.5,0..9\nB,3,4,0..1\nneeds,2,2,\n", MCF_BLOCKED, {.maximise = 1}},
    {"who,what,cost,needs\nA,X,1,0..2\nA,Y,-2,\nB,X,x,\nB,Y,4,1..3\n",
     MCF_FLOW,
     {.decimal = MCF_POINT}},
    {";X;Y\nA;1,5;2\nB;x;-\nC;;1\n", MCF_BLOCKED, {.decimal = MCF_COMMA, .each = MCF_EACH_WHO}},
    {"who,what,cost\nA,X,1\nB,X,1\n", MCF_BLOCKED, {.each = MCF_EACH_BOTH, .maximise = 1}},
    {",X,X\nA,1,z,9\nA,1.000,1e3\n", MCF_INVALID_INPUT, {.each = MCF_EACH_WHAT}},
    {"who,what,cots,takes\nA,X,1,3..1\nA,X,,2\n", MCF_INVALID_INPUT, {.each = 0}},
    {"who,what,cost,takes\nA,X,1,3..1\nA,X,2,z\n,Y,1000000000000000000001,\n",
     MCF_INVALID_INPUT,
     {.each = 0}},
    {"who,what,cost\nA,X,1\nB,X,1\nB,Y,2\n",
     MCF_FLOW,
     {.groups = (const uint8_t *)"group,what,most\ng,X,1\ng,Y,\n", .groups_length = 27}},
    {"\"A", MCF_INVALID_INPUT, {.each = 0}}};

enum {
    FLOW_CASES = sizeof flow_cases / sizeof *flow_cases,
    PAIR_CASES = sizeof pair_cases / sizeof *pair_cases
};

static const struct flow_case *flow_case = flow_cases;
static const struct pair_case *pair_case = pair_cases;

static const uint8_t *bytes_of(const char *word) { return (const uint8_t *)word; }

static uint32_t plan_flow(void) {
    struct mcf_plan_options options;
    options.decimal = flow_case->decimal;
    options.allow_unused = flow_case->allow_unused;
    options.allow_short = flow_case->allow_short;
    options.ranges = flow_case->ranges;
    options.penalty = bytes_of(flow_case->penalty);
    options.penalty_length = strlen(flow_case->penalty);
    options.fill_down = bytes_of("from\nname");
    options.fill_down_length = flow_case->ranges ? 9 : 0;
    return mcf_plan_flow(bytes_of(flow_case->places), strlen(flow_case->places),
                         bytes_of(flow_case->routes), strlen(flow_case->routes), &options, buffer,
                         sizeof buffer, &used);
}

/* The calls, by number. Each writes only what its status allows. */
static uint32_t call(int number) {
    static struct mcf_flow_problem problem = {supplies, 0, arcs, 0};
    static const struct mcf_assignment assignment = {20, 20, pairs, 400};
    static const struct mcf_matrix matrix = {costs, 400, 20, 20, 20};
    static const struct mcf_transport transport = {
        {costs, 400, 20, 20, 20}, masses, 20, masses, 20};
    static const struct mcf_doubles double_matrix = {doubles, 400, 20, 20, 20};
    static const struct mcf_transport_doubles double_transport = {
        {doubles, 400, 20, 20, 20}, masses, 20, masses, 20};
    problem.nodes = nodes;
    problem.arc_count = arc_count;
    switch (number) {
    case 0:
        return mcf_solve(input, length, &choice, buffer, sizeof buffer, &used);
    case 1:
        return mcf_check(input, length, untouched, used, &verdict);
    case 2:
        return mcf_solve_arcs(&problem, &choice, flow, arc_count, prices, nodes, &verdict);
    case 3:
        return mcf_check_arcs(&problem, flow, arc_count, prices, nodes, &verdict);
    case 4:
        return mcf_solve_pairs(&assignment, &choice, flow, 400, prices, 40, &verdict);
    case 5:
        return mcf_check_pairs(&assignment, flow, 400, prices, 40, &verdict);
    case 6:
        return mcf_assign_matrix(&matrix, column_of, 20, flow, 20, prices, 20);
    case 7:
        return mcf_check_matrix(&matrix, column_of, 20, flow, 20, prices, 20);
    case 8:
        return mcf_transport_matrix(&transport, plan, 40, flow, 20, prices, 20, &told);
    case 9:
        return mcf_check_transport(&transport, plan, told.used, flow, 20, prices, 20);
    case 10:
        return mcf_assign_doubles(&double_matrix, column_of, 20, row_wides, 20, column_wides, 20,
                                  &scale);
    case 11:
        return mcf_check_doubles(&double_matrix, column_of, 20, row_wides, 20, column_wides, 20,
                                 &scale);
    case 12:
        return mcf_transport_doubles(&double_transport, plan, 40, row_wides, 20, column_wides, 20,
                                     &told_doubles);
    case 13:
        return mcf_check_transport_doubles(&double_transport, plan, told_doubles.used, row_wides,
                                           20, column_wides, 20, &told_doubles.scale);
    case 14:
        return plan_flow();
    case 15:
        return mcf_plan_pairs(bytes_of(pair_case->costs), strlen(pair_case->costs),
                              &pair_case->options, buffer, sizeof buffer, &used);
    default:
        return mcf_solve_arcs_from(&problem, &choice, flow, arc_count, prices, nodes, &verdict);
    }
}

/* Refuses the first allocation of a call, then the second, and so on, until a call succeeds, with
   the status `ended`. */
static int refuse_each(int number) {
    long step;
    for (step = 0;; step++) {
        uint32_t status;
        int solves = number == 2 || number == 4 || number == 6 || number == 8 || number == 16;
        int answers = number == 0 || number == 14 || number == 15;
        int is_wide = number == 10 || number == 12, plans = number == 8 || number == 12;
        memset(&verdict, 9, sizeof verdict);
        if (answers) memset(buffer, 7, sizeof buffer);
        if (solves) memset(flow, 7, sizeof flow), memset(prices, 7, sizeof prices);
        if (is_wide) memset(row_wides, 7, sizeof row_wides);
        if (is_wide) memset(column_wides, 7, sizeof column_wides);
        if (is_wide) memset(column_of, 7, sizeof column_of), memset(&scale, 7, sizeof scale);
        if (plans) memset(plan, 7, sizeof plan);
        if (number == 8) memset(&told, 7, sizeof told);
        if (number == 12) memset(&told_doubles, 7, sizeof told_doubles);
        before = verdict;
        left = step;
        live = 0;
        status = call(number);
        left = -1;
        if (live != 0)
            return printf("refuse: call %d, refusal %ld: %ld blocks are lost\n", number, step,
                          live);
        ended = status;
        if (status != MCF_NO_MEMORY) return 0;
        refusals++;
        if (memcmp(&verdict, &before, sizeof verdict) != 0)
            return printf("refuse: call %d: the verdict is written\n", number);
        if (answers &&
            (used != 0 || buffer[0] != 7 || memcmp(buffer, buffer + 1, sizeof buffer - 1) != 0))
            return printf("refuse: call %d: the buffer is written\n", number);
        if (solves &&
            (memcmp(flow, sevens, sizeof flow) != 0 || memcmp(prices, sevens, sizeof prices) != 0))
            return printf("refuse: call %d: a buffer is written\n", number);
        if (plans && memcmp(plan, sevens, sizeof plan) != 0)
            return printf("refuse: call %d: the plan is written\n", number);
        if (number == 8 && memcmp(&told, sevens, sizeof told) != 0)
            return printf("refuse: call %d: what is told is written\n", number);
        if (number == 12 && memcmp(&told_doubles, sevens, sizeof told_doubles) != 0)
            return printf("refuse: call %d: what is told is written\n", number);
        if (is_wide && (memcmp(row_wides, sevens, sizeof row_wides) != 0 ||
                        memcmp(column_wides, sevens, sizeof column_wides) != 0 ||
                        memcmp(column_of, sevens, sizeof column_of) != 0 ||
                        memcmp(&scale, sevens, sizeof scale) != 0))
            return printf("refuse: call %d: a buffer is written\n", number);
    }
}

/* Makes a pseudorandom problem. */
static void make_arrays(void) {
    uint32_t place, state = 12345;
    nodes = 30;
    arc_count = 200;
    for (place = 0; place < 200; place++) {
        state = state * 1103515245u + 12345u;
        arcs[place].src = 1 + (place % 30);
        arcs[place].dst = 1 + (state >> 16) % 30;
        arcs[place].low = 0;
        arcs[place].cap = 1 + (state >> 8) % 20;
        arcs[place].cost = (int64_t)((state >> 4) % 100);
    }
    supplies[0] = 5;
    supplies[29] = -5;
    for (place = 0; place < 400; place++) {
        state = state * 1103515245u + 12345u;
        pairs[place].row = 1 + place / 20;
        pairs[place].column = 1 + place % 20;
        pairs[place].cost = costs[place] = (int64_t)((state >> 4) % 100);
        doubles[place] = (double)(state >> 1) / 3.0;
    }
    for (place = 0; place < 20; place++) masses[place] = 1 + (int64_t)place % 4;
}

/* Forbids all pairs outside the first column. */
static void forbid(void) {
    const double one = 1.0, zero = 0.0;
    int place;
    for (place = 0; place < 400; place++)
        if (place % 20 > 0) costs[place] = INT64_MAX, doubles[place] = one / zero;
}

/* Plans the tables of all cases, each of which ends with its status. */
static int refuse_tables(void) {
    for (; flow_case < flow_cases + FLOW_CASES; flow_case++)
        if (refuse_each(14) || ended != flow_case->status)
            return printf("refuse: status %lu, tables\n%s%s", (unsigned long)ended,
                          flow_case->places, flow_case->routes);
    for (; pair_case < pair_cases + PAIR_CASES; pair_case++)
        if (refuse_each(15) || ended != pair_case->status)
            return printf("refuse: status %lu, table\n%s", (unsigned long)ended, pair_case->costs);
    return 0;
}

int main(int count, char **words) {
    int place, number;
    memset(sevens, 7, sizeof sevens);
    make_arrays();
    for (choice.engine = 0; choice.engine < 6; choice.engine++)
        for (choice.pricing = 0; choice.pricing < 4; choice.pricing++) {
            choice.check = choice.pricing & 1;
            for (number = 2; number < 6; number++)
                if (refuse_each(number)) return 1;
            if (refuse_each(16)) return 1;
            /* The supply exceeds the capacities. */
            supplies[0] += 1000, supplies[29] -= 1000;
            if (refuse_each(2) || refuse_each(16)) return 1;
            supplies[0] -= 1000, supplies[29] += 1000;
        }
    /* Call it with the same matrix, and with one that allows only one column. */
    for (number = 6; number < 14; number++)
        if (refuse_each(number)) return 1;
    forbid();
    for (number = 6; number < 14; number += 2)
        if (refuse_each(number)) return 1;
    /* The masses differ in total. */
    masses[0] = -1;
    if (refuse_each(8) || refuse_each(12)) return 1;
    if (refuse_tables()) return 1;
    choice.pricing = choice.check = 0;
    for (place = 1; place < count; place++) {
        FILE *file = fopen(words[place], "rb");
        if (!file) return 90;
        length = fread(input, 1, sizeof input, file);
        fclose(file);
        for (choice.engine = 0; choice.engine < 6; choice.engine++) {
            choice.form = 1 + (choice.engine & 1);
            if (refuse_each(0)) return 1;
            memcpy(untouched, buffer, sizeof buffer);
            if (refuse_each(1)) return 1;
        }
    }
    printf("%ld refusals, each reported, nothing written and nothing lost\n", refusals);
    return 0;
}

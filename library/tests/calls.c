/* Calls each function of the library, and ends with the number of the first check that fails, or 0.
   The words are instance texts, each after its expected status. */
#include "mcf.h"

#include <stdio.h>
#include <stdlib.h>
#include <string.h>

#define CHECK(number, holds)                                                       \
    do {                                                                           \
        if (!(holds)) {                                                            \
            fprintf(stderr, "calls: check %d fails, line %d\n", number, __LINE__); \
            return number;                                                         \
        }                                                                          \
    } while (0)

static const struct mcf_choice standard = {0, 0, 0, 0, 0};

static uint8_t *read_all(const char *path, size_t *length) {
    FILE *file = fopen(path, "rb");
    uint8_t *bytes;
    if (!file) exit(90);
    fseek(file, 0, SEEK_END);
    *length = (size_t)ftell(file);
    rewind(file);
    bytes = malloc(*length + 1);
    if (!bytes || fread(bytes, 1, *length, file) != *length) exit(91);
    fclose(file);
    return bytes;
}

/* Solves a text by each engine and rule, in each form, and judges the answers. */
static int check_text(const char *path, uint32_t want) {
    size_t length, used = 77, again;
    uint8_t nothing = 0, *buffer;
    uint8_t *input = read_all(path, &length);
    struct mcf_choice choice = standard;
    struct mcf_verdict verdict;
    CHECK(1, mcf_solve(input, length, &choice, &nothing, 0, &used) == MCF_BUFFER_TOO_SMALL &&
                 used > 0);
    buffer = malloc(used + 4096);
    CHECK(2, mcf_solve(input, length, &choice, buffer, used, &again) == want && again == used);
    memset(&verdict, 0xff, sizeof verdict);
    CHECK(3, mcf_check(input, length, buffer, used, &verdict) == 0 && verdict.kind == want);
    buffer[0] ^= 1;
    CHECK(4, mcf_check(input, length, buffer, used, &verdict) == 1 &&
                 verdict.kind == MCF_REJECTED_SHAPE && verdict.low == 1);
    choice.engine = 9;
    CHECK(5, mcf_solve(input, length, &choice, buffer, used, &again) == MCF_INVALID_CHOICE &&
                 again == 0);
    choice.engine = 0;
    choice.block = 1000001;
    CHECK(6, mcf_solve(input, length, &choice, buffer, used, &again) == MCF_INVALID_CHOICE);
    for (choice.engine = 0; choice.engine < 6; choice.engine++)
        for (choice.pricing = 0; choice.pricing < 4; choice.pricing++)
            for (choice.form = 0; choice.form < 3; choice.form++) {
                choice.block = choice.pricing;
                CHECK(7, mcf_solve(input, length, &choice, buffer, used + 4096, &again) == want);
                CHECK(8, mcf_check(input, length, buffer, again, &verdict) == 0);
            }
    free(buffer);
    free(input);
    return 0;
}

static int check_arcs(void) {
    static const int64_t supplies[3] = {4, 0, -4};
    static const struct mcf_arc arcs[3] = {{1, 2, 0, 3, 1}, {2, 3, 0, 3, -1}, {1, 3, 0, 9, 5}};
    static const int64_t more[3] = {4, 4, -4};
    static const struct mcf_arc other[3] = {{1, 2, 0, 3, 1}, {2, 3, 4, 3, -1}, {1, 3, 0, 9, 5}};
    static const struct mcf_flow_problem problem = {supplies, 3, arcs, 3},
                                         richer = {more, 3, arcs, 3};
    static const struct mcf_arc dearer[3] = {{1, 2, 0, 3, 1}, {2, 3, 0, 3, 9}, {1, 3, 0, 9, 5}};
    static const struct mcf_flow_problem changed = {supplies, 3, dearer, 3};
    static const struct mcf_flow_problem faulty = {supplies, 3, other, 3},
                                         nothing = {supplies, 0, arcs, 0};
    int64_t flow[3], prices[3];
    struct mcf_choice choice = standard;
    struct mcf_verdict verdict;
    for (choice.engine = 0; choice.engine < 6; choice.engine++) {
        CHECK(11, mcf_solve_arcs(&problem, &choice, flow, 3, prices, 3, &verdict) == MCF_FLOW);
        CHECK(12, flow[0] == 3 && flow[1] == 3 && flow[2] == 1 && verdict.low == 5 &&
                      verdict.high == 0 && verdict.negative == 0);
        CHECK(13, mcf_check_arcs(&problem, flow, 3, prices, 3, &verdict) == 0 &&
                      verdict.kind == MCF_ACCEPTED_FLOW);
        CHECK(27, mcf_solve_arcs_from(&changed, &choice, flow, 3, prices, 3, &verdict) == MCF_FLOW);
        CHECK(28, flow[0] == 0 && flow[1] == 0 && flow[2] == 4 && verdict.low == 20);
        CHECK(29, mcf_solve_arcs_from(&problem, &choice, flow, 3, prices, 3, &verdict) == MCF_FLOW);
        CHECK(30, flow[0] == 3 && flow[1] == 3 && flow[2] == 1 && verdict.low == 5);
        CHECK(31,
              mcf_solve_arcs_from(&richer, &choice, flow, 3, prices, 3, &verdict) == MCF_BLOCKED);
        CHECK(32, mcf_solve_arcs_from(&problem, &choice, flow, 3, prices, 3, &verdict) == MCF_FLOW);
        choice.check = choice.engine & 1;
    }
    verdict.low = 6;
    CHECK(14, mcf_check_arcs(&problem, flow, 3, prices, 3, &verdict) == 1 &&
                  verdict.kind == MCF_REJECTED_COST);
    verdict.high = UINT64_MAX;
    CHECK(15, mcf_check_arcs(&problem, flow, 3, prices, 3, &verdict) == 1 &&
                  verdict.kind == MCF_REJECTED_COST);
    verdict.low = 5;
    verdict.high = 0;
    flow[2] = 2;
    CHECK(16, mcf_check_arcs(&problem, flow, 3, prices, 3, &verdict) == 1 &&
                  verdict.kind == MCF_REJECTED_NODE && verdict.low == 1);
    flow[2] = 10;
    CHECK(17, mcf_check_arcs(&problem, flow, 3, prices, 3, &verdict) == 1 &&
                  verdict.kind == MCF_REJECTED_ARC && verdict.low == 3);
    choice = standard;
    CHECK(18,
          mcf_solve_arcs(&problem, &choice, flow, 2, prices, 3, &verdict) == MCF_BUFFER_TOO_SMALL);
    CHECK(19, mcf_check_arcs(&problem, flow, 3, prices, 2, &verdict) == MCF_BUFFER_TOO_SMALL);
    choice.pricing = 4;
    CHECK(20,
          mcf_solve_arcs(&problem, &choice, flow, 3, prices, 3, &verdict) == MCF_INVALID_CHOICE);
    choice = standard;
    CHECK(21, mcf_solve_arcs(&richer, &choice, flow, 3, prices, 3, &verdict) == MCF_BLOCKED);
    CHECK(22, verdict.code == MCF_SEND && verdict.low >= 1 &&
                  prices[0] + prices[1] + prices[2] == (int64_t)verdict.low);
    CHECK(23, mcf_solve_arcs(&faulty, &choice, flow, 3, prices, 3, &verdict) == MCF_INVALID_INPUT);
    CHECK(24,
          verdict.code == MCF_ORDER && verdict.low == 2 && verdict.kind == MCF_ACCEPTED_REFUSAL);
    CHECK(25, mcf_check_arcs(&faulty, flow, 3, prices, 3, &verdict) == MCF_INVALID_INPUT &&
                  verdict.code == MCF_ORDER);
    CHECK(26, mcf_solve_arcs(&nothing, &choice, flow, 0, prices, 0, &verdict) == MCF_FLOW &&
                  verdict.low == 0);
    return 0;
}

/* Solves matrices with more columns than rows, with more rows than columns and a forbidden pair,
   without an assignment, and with a fault. */
static int check_matrix(void) {
    static const int64_t costs[7] = {4, 1, 3, 2, 0, 5, 77}, tall[4] = {5, -3, INT64_MAX, 2};
    static const int64_t none[4] = {INT64_MAX, 1, INT64_MAX, 1},
                         beyond[1] = {INT64_C(1000000000000001)};
    static const struct mcf_matrix wide = {costs, 7, 2, 3, 3}, high = {tall, 4, 4, 1, 1},
                                   without = {none, 4, 2, 2, 2}, faulty = {beyond, 1, 1, 1, 1},
                                   overlapping = {costs, 7, 2, 3, 2};
    uint32_t column_of[4];
    int64_t rows[4], columns[3];
    CHECK(51, mcf_assign_matrix(&wide, column_of, 2, rows, 2, columns, 3) == MCF_FLOW);
    CHECK(52, column_of[0] == 1 && column_of[1] == 0);
    CHECK(53, mcf_check_matrix(&wide, column_of, 2, rows, 2, columns, 3) == 0);
    rows[0]++;
    CHECK(54, mcf_check_matrix(&wide, column_of, 2, rows, 2, columns, 3) == 1);
    CHECK(55, mcf_check_matrix(&wide, column_of, 2, rows, 1, columns, 3) == 1);
    CHECK(56, mcf_assign_matrix(&high, column_of, 4, rows, 4, columns, 1) == MCF_FLOW);
    CHECK(57, column_of[1] == 0 && column_of[0] > 0 && column_of[2] > 0 && column_of[3] > 0);
    CHECK(58, mcf_assign_matrix(&without, column_of, 2, rows, 2, columns, 2) == MCF_BLOCKED);
    CHECK(59, rows[0] == 0 && rows[1] == 0 && columns[0] == 0 && columns[1] == 1);
    CHECK(60, mcf_assign_matrix(&faulty, column_of, 1, rows, 1, columns, 1) == MCF_INVALID_INPUT);
    CHECK(61,
          mcf_assign_matrix(&overlapping, column_of, 2, rows, 2, columns, 3) == MCF_INVALID_INPUT);
    CHECK(62, mcf_check_matrix(&faulty, column_of, 1, rows, 1, columns, 1) == MCF_INVALID_INPUT);
    CHECK(63, mcf_assign_matrix(&wide, column_of, 2, rows, 2, columns, 2) == MCF_BUFFER_TOO_SMALL);
    return 0;
}

/* The plan is worked by hand: it costs 3 + 6 + 2. */
static int check_transport(void) {
    static const int64_t costs[4] = {1, 2, 3, 1}, one_way[4] = {1, INT64_MAX, 1, INT64_MAX};
    static const int64_t supplies[2] = {3, 4}, demands[2] = {5, 2}, more[2] = {5, 3};
    static const struct mcf_transport problem = {{costs, 4, 2, 2, 2}, supplies, 2, demands, 2},
                                      without = {{one_way, 4, 2, 2, 2}, supplies, 2, demands, 2},
                                      uneven = {{costs, 4, 2, 2, 2}, supplies, 2, more, 2},
                                      faulty = {{costs, 3, 2, 2, 2}, supplies, 2, demands, 2},
                                      narrow = {{costs, 4, 2, 2, 2}, supplies, 2, demands, 1};
    struct mcf_shipment plan[3];
    struct mcf_planned told = {9, 9};
    int64_t rows[2], columns[2];
    size_t place, cost = 0;
    CHECK(71, mcf_transport_matrix(&problem, plan, 3, rows, 2, columns, 2, &told) == MCF_FLOW);
    for (place = 0; place < told.used; place++)
        cost += (size_t)(costs[plan[place].row * 2 + plan[place].column] * plan[place].amount);
    CHECK(72, told.used == 3 && told.side == 0 && cost == 11);
    CHECK(73, mcf_check_transport(&problem, plan, 3, rows, 2, columns, 2) == 0);
    CHECK(74, mcf_check_transport(&problem, plan, 2, rows, 2, columns, 2) == 1);
    CHECK(75, mcf_check_transport(&narrow, plan, 3, rows, 2, columns, 2) == 1);
    CHECK(76, mcf_check_transport(&faulty, plan, 3, rows, 2, columns, 2) == MCF_INVALID_INPUT);
    CHECK(77, mcf_transport_matrix(&without, plan, 3, rows, 2, columns, 2, &told) == MCF_BLOCKED);
    CHECK(78, told.side == MCF_SEND && rows[0] == 1 && rows[1] == 1 && columns[0] == 1 &&
                  columns[1] == 0);
    CHECK(79, mcf_transport_matrix(&uneven, plan, 3, rows, 2, columns, 2, &told) == MCF_BLOCKED);
    CHECK(80, told.side == MCF_TAKE && rows[0] == 1 && columns[1] == 1);
    CHECK(81,
          mcf_transport_matrix(&faulty, plan, 3, rows, 2, columns, 2, &told) == MCF_INVALID_INPUT);
    CHECK(82, mcf_transport_matrix(&problem, plan, 2, rows, 2, columns, 2, &told) ==
                  MCF_BUFFER_TOO_SMALL);
    CHECK(83, mcf_transport_matrix(&narrow, plan, 3, rows, 2, columns, 2, &told) ==
                  MCF_BUFFER_TOO_SMALL);
    return 0;
}

/* Solves matrices of doubles: one that is least by a unit in the last place, one whose bits span
   more than 118, one without an assignment, and two with a fault. */
static int check_doubles(void) {
    static const double one = 1.0, last = 2.220446049250313e-16, zero = 0.0;
    static const double far[2] = {1.0, 1e-300};
    static double costs[4], none[4], faulty[4];
    const struct mcf_doubles matrix = {costs, 4, 2, 2, 2}, without = {none, 4, 2, 2, 2},
                             wrong = {faulty, 4, 2, 2, 2}, wide = {far, 2, 1, 2, 2};
    uint32_t column_of[2];
    struct mcf_scale scale = {0, 7};
    struct mcf_wide rows[2], columns[2];
    costs[0] = costs[2] = one, costs[1] = one + 2 * last, costs[3] = one + last;
    none[0] = none[2] = one / zero, none[1] = none[3] = one;
    CHECK(90, mcf_assign_doubles(&matrix, column_of, 2, rows, 2, columns, 2, &scale) == MCF_FLOW);
    CHECK(91, column_of[0] == 0 && column_of[1] == 1 && scale.is_rounded == 0);
    CHECK(92, mcf_check_doubles(&matrix, column_of, 2, rows, 2, columns, 2, &scale) == 0);
    rows[0].low++;
    CHECK(93, mcf_check_doubles(&matrix, column_of, 2, rows, 2, columns, 2, &scale) == 1);
    CHECK(94, mcf_check_doubles(&matrix, column_of, 2, rows, 1, columns, 2, &scale) == 1);
    scale.is_rounded = 1;
    CHECK(100, mcf_check_doubles(&matrix, column_of, 2, rows, 2, columns, 2, &scale) == 1);
    CHECK(114, mcf_assign_doubles(&wide, column_of, 1, rows, 1, columns, 2, &scale) == MCF_FLOW);
    CHECK(115, column_of[0] == 1 && scale.is_rounded == 1 && scale.unit == 1074 + 1 - 118);
    CHECK(116, mcf_check_doubles(&wide, column_of, 1, rows, 1, columns, 2, &scale) == 0);
    scale.is_rounded = 0;
    CHECK(117, mcf_check_doubles(&wide, column_of, 1, rows, 1, columns, 2, &scale) == 1);
    CHECK(95,
          mcf_assign_doubles(&without, column_of, 2, rows, 2, columns, 2, &scale) == MCF_BLOCKED);
    CHECK(96, rows[0].low == 0 && rows[1].low == 0 && columns[0].low == 0 && columns[1].low == 1);
    memcpy(faulty, costs, sizeof costs);
    faulty[3] = -one / zero;
    CHECK(97, mcf_assign_doubles(&wrong, column_of, 2, rows, 2, columns, 2, &scale) ==
                  MCF_INVALID_INPUT);
    faulty[3] = zero / zero;
    CHECK(98, mcf_check_doubles(&wrong, column_of, 2, rows, 2, columns, 2, &scale) ==
                  MCF_INVALID_INPUT);
    CHECK(99, mcf_assign_doubles(&matrix, column_of, 2, rows, 2, columns, 1, &scale) ==
                  MCF_BUFFER_TOO_SMALL);
    return 0;
}

/* Solves transport problems of doubles: one whose plans differ by a unit in the last place, one
   whose rows may both use the first column alone, and those with a fault. */
static int check_double_transport(void) {
    static const double one = 1.0, last = 2.220446049250313e-16, zero = 0.0;
    static const int64_t supplies[2] = {3, 4}, demands[2] = {5, 2};
    static double costs[4], one_way[4], faulty[4];
    const struct mcf_transport_doubles problem = {{costs, 4, 2, 2, 2}, supplies, 2, demands, 2},
                                       without = {{one_way, 4, 2, 2, 2}, supplies, 2, demands, 2},
                                       wrong = {{faulty, 4, 2, 2, 2}, supplies, 2, demands, 2},
                                       narrow = {{costs, 4, 2, 2, 2}, supplies, 2, demands, 1};
    struct mcf_shipment plan[3];
    struct mcf_planned_doubles told = {9, 9, {9, 9}};
    struct mcf_wide rows[2], columns[2];
    struct mcf_scale scale;
    size_t place;
    costs[0] = costs[2] = one, costs[1] = one + 2 * last, costs[3] = one + last;
    one_way[0] = one_way[2] = one, one_way[1] = one_way[3] = one / zero;
    memcpy(faulty, costs, sizeof costs);
    faulty[3] = zero / zero;
    CHECK(101, mcf_transport_doubles(&problem, plan, 3, rows, 2, columns, 2, &told) == MCF_FLOW);
    CHECK(102, told.used == 3 && told.side == 0 && told.scale.is_rounded == 0);
    for (place = 0; place < 3; place++)
        CHECK(103, plan[place].amount == (plan[place].row == 0 ? 3 : 2) &&
                       (plan[place].row == 1 || plan[place].column == 0));
    scale = told.scale;
    CHECK(104, mcf_check_transport_doubles(&problem, plan, 3, rows, 2, columns, 2, &scale) == 0);
    CHECK(105, mcf_check_transport_doubles(&problem, plan, 2, rows, 2, columns, 2, &scale) == 1);
    CHECK(106, mcf_check_transport_doubles(&narrow, plan, 3, rows, 2, columns, 2, &scale) == 1);
    rows[0].low++;
    CHECK(107, mcf_check_transport_doubles(&problem, plan, 3, rows, 2, columns, 2, &scale) == 1);
    CHECK(108, mcf_check_transport_doubles(&wrong, plan, 3, rows, 2, columns, 2, &scale) ==
                   MCF_INVALID_INPUT);
    CHECK(109, mcf_transport_doubles(&without, plan, 3, rows, 2, columns, 2, &told) == MCF_BLOCKED);
    CHECK(110, told.side == MCF_SEND && rows[0].low == 1 && rows[1].low == 1 &&
                   columns[0].low == 1 && columns[1].low == 0);
    CHECK(111,
          mcf_transport_doubles(&wrong, plan, 3, rows, 2, columns, 2, &told) == MCF_INVALID_INPUT);
    CHECK(112, mcf_transport_doubles(&problem, plan, 2, rows, 2, columns, 2, &told) ==
                   MCF_BUFFER_TOO_SMALL);
    CHECK(113, mcf_transport_doubles(&narrow, plan, 3, rows, 2, columns, 2, &told) ==
                   MCF_BUFFER_TOO_SMALL);
    return 0;
}

/* A chain of more than 9223 arcs that cost 10^15 each and carry 1: the last price is too low for 64
 * bits. */
static int check_wide(void) {
    enum { COUNT = 9224 };
    static struct mcf_arc arcs[COUNT];
    static int64_t supplies[COUNT + 1], flow[COUNT], prices[COUNT + 1];
    static const struct mcf_flow_problem problem = {supplies, COUNT + 1, arcs, COUNT};
    struct mcf_verdict verdict;
    uint32_t place;
    for (place = 0; place < COUNT; place++) {
        arcs[place].src = place + 1;
        arcs[place].dst = place + 2;
        arcs[place].cap = 2;
        arcs[place].cost = INT64_C(1000000000000000);
    }
    supplies[0] = 1;
    supplies[COUNT] = -1;
    CHECK(41, mcf_solve_arcs(&problem, &standard, flow, COUNT, prices, COUNT + 1, &verdict) ==
                  MCF_PRICE_OVERFLOW);
    return 0;
}

static int check_pairs(void) {
    static const struct mcf_pair pairs[5] = {
        {1, 1, 4}, {1, 2, 1}, {2, 1, 2}, {2, 2, -3}, {1, 2, 0}};
    static const struct mcf_pair wrong[1] = {{3, 1, 0}};
    static const struct mcf_assignment problem = {2, 2, pairs, 5}, narrow = {2, 2, pairs, 2},
                                       faulty = {2, 2, wrong, 1};
    int64_t flow[5], prices[4];
    struct mcf_verdict verdict;
    CHECK(31, mcf_solve_pairs(&problem, &standard, flow, 5, prices, 4, &verdict) == MCF_FLOW);
    CHECK(32, flow[0] == 1 && flow[1] == 0 && flow[2] == 0 && flow[3] == 1 && flow[4] == 0 &&
                  verdict.low == 1 && verdict.negative == 0);
    CHECK(33, mcf_check_pairs(&problem, flow, 5, prices, 4, &verdict) == 0);
    flow[3] = 0;
    CHECK(34, mcf_check_pairs(&problem, flow, 5, prices, 4, &verdict) == 1);
    CHECK(35, mcf_solve_pairs(&narrow, &standard, flow, 2, prices, 4, &verdict) == MCF_BLOCKED);
    CHECK(36,
          mcf_solve_pairs(&faulty, &standard, flow, 1, prices, 4, &verdict) == MCF_INVALID_INPUT &&
              verdict.low == 1 && verdict.code == MCF_SIDE);
    CHECK(37, mcf_solve_pairs(&problem, &standard, flow, 5, prices, 3, &verdict) ==
                  MCF_BUFFER_TOO_SMALL);
    CHECK(38, mcf_check_pairs(&faulty, flow, 1, prices, 4, &verdict) == MCF_INVALID_INPUT);
    return 0;
}

/* The way over node 2 is full, and costs 3 less than the direct arc. */
static int check_ranges(void) {
    static const struct mcf_arc arcs[3] = {{1, 2, 0, 3, 1}, {2, 3, 0, 3, 1}, {1, 3, 0, 9, 5}};
    static const int64_t supplies[3] = {4, 0, -4};
    static const struct mcf_flow_problem problem = {supplies, 3, arcs, 3};
    static const uint32_t all[3] = {1, 2, 3}, none[1] = {4};
    static int64_t flow[3], prices[3];
    static const struct mcf_shown_flow shown = {flow, 3, prices, 3};
    struct mcf_cost_range ranges[3];
    struct mcf_verdict verdict;
    CHECK(61, mcf_solve_arcs(&problem, &standard, flow, 3, prices, 3, &verdict) == MCF_FLOW);
    CHECK(62, mcf_cost_ranges(&problem, &shown, &verdict, all, 3, ranges, 3) == 0);
    CHECK(63, !ranges[0].down.is_limited && ranges[0].up.is_limited &&
                  ranges[0].up.change.low == 3 && ranges[0].up.change.high == 0);
    CHECK(64,
          ranges[2].down.is_limited && ranges[2].down.change.low == 3 && !ranges[2].up.is_limited);
    CHECK(65,
          mcf_cost_ranges(&problem, &shown, &verdict, all, 3, ranges, 2) == MCF_BUFFER_TOO_SMALL);
    CHECK(66,
          mcf_cost_ranges(&problem, &shown, &verdict, none, 1, ranges, 1) == MCF_INVALID_CHOICE);
    verdict.low++;
    CHECK(67, mcf_cost_ranges(&problem, &shown, &verdict, all, 3, ranges, 3) == 1);
    return 0;
}

/* Plans the flow of two tables: a plan, a bottleneck, faults, and options without a meaning. */
static int check_tables(void) {
    static const uint8_t places[] = "name,supply\nMill,3\nTown,-3\n";
    static const uint8_t routes[] = "from,to,most,cost\nMill,Town,5,1.5\n";
    static const uint8_t narrow[] = "from,to,most,cost\nMill,Town,2,1.5\n";
    static const uint8_t merged[] = "from,to,most,cost\nMill,Town,2,1.5\nMill,Town,2,\n";
    static const char plan[] = "\"answer\",\"plan\"\n\"cost\",\"4.5\"\n";
    static const char range[] = "\"range\",\"2\",\"Mill\",\"Town\",\"\",\"\"\n";
    struct mcf_plan_options options = {MCF_SHOWN_MARK, 0, 0, 0, (const uint8_t *)"", 0, NULL, 0};
    uint8_t room[1024];
    size_t used = 77, length = sizeof places - 1;
    CHECK(51, mcf_plan_flow(places, length, routes, sizeof routes - 1, &options, room, sizeof room,
                            &used) == MCF_FLOW);
    CHECK(52, used > sizeof plan && memcmp(room, plan, sizeof plan - 1) == 0);
    CHECK(53, mcf_plan_flow(places, length, routes, sizeof routes - 1, &options, room, used - 1,
                            &used) == MCF_BUFFER_TOO_SMALL);
    CHECK(54, mcf_plan_flow(places, length, narrow, sizeof narrow - 1, &options, room, sizeof room,
                            &used) == MCF_BLOCKED);
    options.ranges = 1;
    CHECK(68, mcf_plan_flow(places, length, routes, sizeof routes - 1, &options, room, sizeof room,
                            &used) == MCF_FLOW &&
                  memcmp(room + used - (sizeof range - 1), range, sizeof range - 1) == 0);
    options.ranges = 2;
    CHECK(69, mcf_plan_flow(places, length, routes, sizeof routes - 1, &options, room, sizeof room,
                            &used) == MCF_INVALID_CHOICE);
    options.ranges = 0;
    options.fill_down = (const uint8_t *)"cost";
    options.fill_down_length = 4;
    CHECK(119, mcf_plan_flow(places, length, merged, sizeof merged - 1, &options, room, sizeof room,
                             &used) == MCF_FLOW &&
                   memcmp(room, plan, sizeof plan - 1) == 0);
    options.fill_down_length = 3;
    CHECK(120, mcf_plan_flow(places, length, merged, sizeof merged - 1, &options, room, sizeof room,
                             &used) == MCF_INVALID_INPUT);
    options.fill_down_length = 0;
    options.allow_unused = options.allow_short = 1;
    options.penalty = (const uint8_t *)"0.5";
    options.penalty_length = 3;
    CHECK(55, mcf_plan_flow(places, length, narrow, sizeof narrow - 1, &options, room, sizeof room,
                            &used) == MCF_FLOW);
    CHECK(56, mcf_plan_flow(places, length, places, length, &options, room, sizeof room, &used) ==
                  MCF_INVALID_INPUT);
    options.decimal = MCF_COMMA;
    CHECK(57, mcf_plan_flow(places, length, narrow, sizeof narrow - 1, &options, room, sizeof room,
                            &used) == MCF_INVALID_CHOICE &&
                  used == 0);
    options.decimal = 3;
    options.penalty_length = 0;
    CHECK(58, mcf_plan_flow(places, length, narrow, sizeof narrow - 1, &options, room, sizeof room,
                            &used) == MCF_INVALID_CHOICE);
    return 0;
}

/* Pairs persons with things by a table: a choice, one of the greatest value, a competition, faults,
   and options without a meaning. */
static int check_rosters(void) {
    static const uint8_t costs[] = ",X,Y\nA,1,2.5\nB,3,3.5\n";
    static const uint8_t narrow[] = ",X\nA,1\nB,1\n";
    static const uint8_t merged[] = "who,what,cost\nA,X,1\n,Y,2.5\nB,X,3\n";
    static const char pairs[] = "\"answer\",\"plan\"\n\"cost\",\"4.5\"\n";
    static const char values[] = "\"answer\",\"plan\"\n\"cost\",\"5.5\"\n";
    static const uint8_t groups[] = "group,what,most\nboth,X,0\nboth,Y,\n";
    struct mcf_pair_options options = {MCF_SHOWN_MARK, MCF_EACH_AUTO, 0, 0, NULL, 0, NULL, 0};
    uint8_t room[1024];
    size_t used = 77, length = sizeof costs - 1;
    CHECK(71, mcf_plan_pairs(costs, length, &options, room, sizeof room, &used) == MCF_FLOW);
    CHECK(72, used > sizeof pairs && memcmp(room, pairs, sizeof pairs - 1) == 0);
    CHECK(73,
          mcf_plan_pairs(costs, length, &options, room, used - 1, &used) == MCF_BUFFER_TOO_SMALL);
    CHECK(74, mcf_plan_pairs(narrow, sizeof narrow - 1, &options, room, sizeof room, &used) ==
                  MCF_BLOCKED);
    options.groups = groups;
    options.groups_length = sizeof groups - 1;
    CHECK(118, mcf_plan_pairs(costs, length, &options, room, sizeof room, &used) == MCF_BLOCKED);
    options.groups_length = 0;
    options.fill_down = (const uint8_t *)"who";
    options.fill_down_length = 3;
    CHECK(121, mcf_plan_pairs(merged, sizeof merged - 1, &options, room, sizeof room, &used) ==
                   MCF_FLOW);
    options.fill_down_length = 2;
    CHECK(122, mcf_plan_pairs(merged, sizeof merged - 1, &options, room, sizeof room, &used) ==
                   MCF_INVALID_INPUT);
    options.fill_down_length = 0;
    options.each = MCF_EACH_WHAT;
    CHECK(75, mcf_plan_pairs(narrow, sizeof narrow - 1, &options, room, sizeof room, &used) ==
                  MCF_FLOW);
    options.each = MCF_EACH_BOTH;
    options.maximise = 1;
    CHECK(76, mcf_plan_pairs(costs, length, &options, room, sizeof room, &used) == MCF_FLOW &&
                  memcmp(room, values, sizeof values - 1) == 0);
    options.decimal = MCF_COMMA;
    CHECK(77,
          mcf_plan_pairs(costs, length, &options, room, sizeof room, &used) == MCF_INVALID_INPUT);
    options.each = MCF_EACH_BOTH + 1;
    CHECK(78,
          mcf_plan_pairs(costs, length, &options, room, sizeof room, &used) == MCF_INVALID_CHOICE &&
              used == 0);
    return 0;
}

int main(int count, char **words) {
    int place, status = check_arcs();
    if (status == 0) status = check_wide();
    if (status == 0) status = check_pairs();
    if (status == 0) status = check_matrix();
    if (status == 0) status = check_transport();
    if (status == 0) status = check_doubles();
    if (status == 0) status = check_double_transport();
    if (status == 0) status = check_tables();
    if (status == 0) status = check_rosters();
    if (status == 0) status = check_ranges();
    for (place = 1; status == 0 && place + 1 < count; place += 2)
        status = check_text(words[place + 1], (uint32_t)atoi(words[place]));
    return status;
}

/* Minimum-cost flow with proved answers, for C and C++. Link with libmcf.so or libmcf.a (pkg-config
   mcf).

   The code behind these functions is proved to do what this file says, for all values of their
   arguments; docs/LIBRARY.md says what that means. No proof covers the caller's duties: a pointer
   is not NULL, even if the length after it is 0; it points to as many values as that length says; a
   buffer that a call writes overlaps nothing else; and no other thread writes to any of this memory
   during the call. Several threads can call at once without a lock. No call keeps a pointer. */
#ifndef MCF_H
#define MCF_H

#include <stddef.h>
#include <stdint.h>

#ifdef __cplusplus
extern "C" {
#endif

/* The status that a solving call returns. A judging call returns 0 if it accepts the answer and 1
 * if it rejects it. */
enum mcf_status {
    MCF_FLOW = 0,          /* a least-cost flow, with prices that show it */
    MCF_BLOCKED = 1,       /* an infeasibility certificate: a node set that blocks every flow */
    MCF_INVALID_INPUT = 2, /* the text has a bad line, or the arrays have a fault: the first, and
                        what is wrong there */
    MCF_NO_MEMORY = 3,
    MCF_BUFFER_TOO_SMALL = 4, /* for a text, the buffer is too short, and `used` says how long it
                        must be; for arrays, a buffer has a wrong length */
    MCF_INVALID_CHOICE = 5,   /* a number of the choice or an option has no meaning */
    MCF_PRICE_OVERFLOW = 6,   /* for arrays, a price of the flow doesn't fit 64 bits */
    MCF_NOT_SHOWN = 7 /* for a cost matrix, the search found no answer that the judge accepts */
};

/* How to solve an instance and which form the answer has. All zeros are the defaults. */
struct mcf_choice {
    uint32_t engine;  /* MCF_AUTO to MCF_FAST */
    uint32_t pricing; /* the rule of the network simplex, MCF_BLOCK to MCF_WIDE_BLOCKS */
    uint32_t block;   /* the arcs in a block of MCF_BLOCK: 1 to 1000000, or 0 for 256 */
    uint32_t form;    /* the form of an answer text: MCF_FULL or 0, or MCF_SPARSE, which names only
                         the arcs whose flow differs from their lower bound */
    uint32_t check;   /* for arrays: unless 0, the checker judges a flow before the call returns it;
                         this takes less time than to call mcf_check_arcs or mcf_check_pairs */
};

enum mcf_engine {
    MCF_AUTO = 0,
    MCF_CANCEL = 1,
    MCF_SIMPLEX = 2,
    MCF_SCALING = 3,
    MCF_SAP = 4,
    MCF_FAST = 5
};

enum mcf_form { MCF_FULL = 1, MCF_SPARSE = 2 };

enum mcf_pricing { MCF_BLOCK = 0, MCF_FIRST = 1, MCF_BEST = 2, MCF_WIDE_BLOCKS = 3 };

/* A verdict, a cost, a node set or a fault. Its number is low + 2^64 high, negated if `negative` is
 * 1. */
struct mcf_verdict {
    uint32_t kind; /* MCF_ACCEPTED_FLOW to MCF_REJECTED_SET */
    uint32_t code; /* for a refusal or a fault, 1 to 19: MCF_KIND to MCF_MISSING; for a node set
                      from arrays, MCF_SEND or MCF_TAKE */
    uint32_t negative;
    uint64_t low, high;
};

enum mcf_kind {
    MCF_ACCEPTED_FLOW = 0,    /* number: the cost, which no feasible flow undercuts */
    MCF_ACCEPTED_BLOCKED = 1, /* number: how many nodes the set has; no flow is feasible */
    MCF_ACCEPTED_REFUSAL = 2, /* number: the line, or for arrays the node or the arc, from 1 */
    MCF_REJECTED_SHAPE = 3,   /* number: the first line of the answer that doesn't fit */
    MCF_REJECTED_KIND = 4,
    MCF_REJECTED_REFUSAL = 5,
    MCF_REJECTED_ARC = 6,   /* number: the arc, whose flow isn't within its bounds */
    MCF_REJECTED_NODE = 7,  /* number: the node, whose supply isn't met */
    MCF_REJECTED_PRICE = 8, /* number: the arc, whose reduced cost doesn't allow its flow */
    MCF_REJECTED_COST = 9,
    MCF_REJECTED_SET = 10
};

enum mcf_code {
    MCF_KIND = 1,
    MCF_FIELDS = 2,
    MCF_PROBLEM = 3,
    MCF_NUMBER = 4,
    MCF_SECOND_P = 5,
    MCF_BEFORE_P = 6,
    MCF_SIZE = 7,
    MCF_NODE = 8,
    MCF_LATE_N = 9,
    MCF_TWICE = 10,
    MCF_SUPPLY = 11,
    MCF_BOUND = 12,
    MCF_ORDER = 13,
    MCF_COST = 14,
    MCF_EXTRA = 15,
    MCF_SIDE = 16,
    MCF_TOTAL = 17,
    MCF_NO_P = 18,
    MCF_MISSING = 19
};

enum mcf_side { MCF_SEND = 0, MCF_TAKE = 1 };

/* Solves an instance text in a DIMACS format, and writes the answer text to the beginning of the
   buffer. Returns MCF_FLOW to MCF_INVALID_CHOICE. `used` becomes the length of the answer, also for
   MCF_BUFFER_TOO_SMALL, or 0 if there is no answer. From status 3 on, the buffer is unchanged. */
uint32_t mcf_solve(const uint8_t *input, size_t input_length, const struct mcf_choice *choice,
                   uint8_t *buffer, size_t buffer_length, size_t *used);

/* Judges an answer text for an instance text. Returns 0, 1 or MCF_NO_MEMORY, which leaves `verdict`
   unchanged. It accepts exactly if the answer is correct. */
uint32_t mcf_check(const uint8_t *input, size_t input_length, const uint8_t *answer,
                   size_t answer_length, struct mcf_verdict *verdict);

/* How tables are read, what plans may leave, and whether ranges are told. All zeros are the
   defaults. */
struct mcf_plan_options {
    uint32_t decimal;       /* the mark before decimals: MCF_SHOWN_MARK to MCF_COMMA */
    uint32_t allow_unused;  /* 1: supplies may stay where they are; 0: all is sent */
    uint32_t allow_short;   /* 1: demands may be missing; 0: all is met */
    uint32_t ranges;        /* 1: from what to what the cost of each route may change while a plan
                               stays least, by two searches a route; 0: not */
    const uint8_t *penalty; /* the cost of each missing unit at places whose column penalty is
                               empty, with a point before decimals unless `decimal` is
                               MCF_COMMA; 1.500, which may be 1500, is no number unless `decimal`
                               names a mark; if it is empty, and all those cells are, as little as
                               possible is missing */
    size_t penalty_length;
    const uint8_t *fill_down; /* the heads of columns in which an empty cell takes the one above,
                                 one a line, in UTF-8; if it is empty, there are none */
    size_t fill_down_length;
};

/* The mark that the tables show, a point, or a comma. */
enum mcf_decimal { MCF_SHOWN_MARK = 0, MCF_POINT = 1, MCF_COMMA = 2 };

/* Plans the flow of a table of places and a table of routes, which `man mcfplan` describes, and
   writes the answer as a third table to the beginning of the buffer. Both tables are in UTF-8.
   Returns MCF_FLOW: a least-cost plan, which no plan in any units undercuts; MCF_BLOCKED: there is
   no plan, and the answer says why; MCF_INVALID_INPUT: all faults of the tables; or MCF_NO_MEMORY
   to MCF_INVALID_CHOICE. `used` becomes the length of the answer, also for MCF_BUFFER_TOO_SMALL, or
   0 if there is no answer. From status 3 on, the buffer is unchanged. */
uint32_t mcf_plan_flow(const uint8_t *places, size_t places_length, const uint8_t *routes,
                       size_t routes_length, const struct mcf_plan_options *options,
                       uint8_t *buffer, size_t buffer_length, size_t *used);

/* How a table of persons and things is read, which choice is the best, and a table of groups. All
   zeros are the defaults. */
struct mcf_pair_options {
    uint32_t decimal;      /* the mark before decimals: MCF_SHOWN_MARK to MCF_COMMA */
    uint32_t each;         /* who gets just one, where no cell says how many: MCF_EACH_AUTO to
                              MCF_EACH_BOTH */
    uint32_t maximise;     /* 1: costs are values, and a choice is worth as much as possible; 0: it
                              costs as little as possible */
    uint32_t crossing;     /* groups that cross an earlier one: MCF_REFUSE_CROSSING or
                              MCF_CHECK_CROSSING */
    const uint8_t *groups; /* the text of a table of groups in UTF-8, which `man mcfplan`
                              describes; if it is empty, there are none */
    size_t groups_length;
    const uint8_t *fill_down; /* the heads of columns in which an empty cell takes the one above,
                                 one a line, in UTF-8; if it is empty, there are none */
    size_t fill_down_length;
};

/* Groups that cross an earlier one are faults; or they are left out, and the answer says who breaks
   them. */
enum mcf_crossing { MCF_REFUSE_CROSSING = 0, MCF_CHECK_CROSSING = 1 };

/* Each thing, if a cell says how many a person or a thing has, and otherwise each person; each
   person; each thing; or both. */
enum mcf_each { MCF_EACH_AUTO = 0, MCF_EACH_WHO = 1, MCF_EACH_WHAT = 2, MCF_EACH_BOTH = 3 };

/* Pairs persons with things by a table, which `man mcfplan` describes, and writes the answer as
   another table to the beginning of the buffer. The table is in UTF-8. Returns MCF_FLOW: a best
   choice, which none undercuts; MCF_BLOCKED: there is none, and the answer says who competes for
   what; MCF_INVALID_INPUT: all faults of the table; or MCF_NO_MEMORY to MCF_INVALID_CHOICE. `used`
   becomes the length of the answer, also for MCF_BUFFER_TOO_SMALL, or 0 if there is no answer. From
   status 3 on, the buffer is unchanged. */
uint32_t mcf_plan_pairs(const uint8_t *costs, size_t costs_length,
                        const struct mcf_pair_options *options, uint8_t *buffer,
                        size_t buffer_length, size_t *used);

/* An arc: its tail and head, from 1, its lower bound, its capacity, and the cost of a unit. */
struct mcf_arc {
    uint32_t src, dst;
    int64_t low, cap, cost;
};

/* A flow problem: the supplies by node and the arcs, in order. */
struct mcf_flow_problem {
    const int64_t *supplies;
    size_t nodes;
    const struct mcf_arc *arcs;
    size_t arc_count;
};

/* Solves a flow problem. `flow` has room for a number for each arc, and `prices` for one for each
   node.

   MCF_FLOW: the buffers hold the flow and the prices, and `verdict` the cost. MCF_BLOCKED: `prices`
   marks with 1 the nodes of a set that must send or take (`verdict.code`) more than it can, and
   with 0 all others. MCF_INVALID_INPUT: `verdict` has the first fault, because the arrays are
   beyond the limits: at most 1,000,000 nodes and 10,000,000 arcs; ends from 1 to the number of
   nodes; absolute values of at most 10^18 for supplies and bounds, and 10^15 for costs; low at most
   cap; and absolute values of cost times bound of at most 10^36 in sum.

   `flow` is unchanged for statuses 1 to 5, `prices` for 2 to 5, and `verdict` from 3 on. For
   MCF_PRICE_OVERFLOW the call writes both buffers, but they hold no answer. If a size or a supply
   is beyond the limits, the status is never MCF_NO_MEMORY. If the checker is asked and rejects the
   flow, the status is MCF_NOT_SHOWN: it is proved that this doesn't happen. */
uint32_t mcf_solve_arcs(const struct mcf_flow_problem *problem, const struct mcf_choice *choice,
                        int64_t *flow, size_t flow_length, int64_t *prices, size_t prices_length,
                        struct mcf_verdict *verdict);

/* The same, from the answer to a similar problem: `flow` and `prices` hold it when the call begins,
   as mcf_solve_arcs wrote them. Statuses, buffers and `verdict` are as there. The old answer may be
   anything: the new one is right in any case, and is found faster if few costs, bounds and supplies
   have changed. Of several least-cost flows it may be another one than that of mcf_solve_arcs; its
   prices are the same. The engines MCF_AUTO and MCF_FAST mend the old answer; the others solve the
   problem from nothing. */
uint32_t mcf_solve_arcs_from(const struct mcf_flow_problem *problem,
                             const struct mcf_choice *choice, int64_t *flow, size_t flow_length,
                             int64_t *prices, size_t prices_length, struct mcf_verdict *verdict);

/* An allowed pair: its row and its column, both from 1, and its cost. */
struct mcf_pair {
    uint32_t row, column;
    int64_t cost;
};

/* An assignment problem: how many rows and columns there are, and the pairs, in order. */
struct mcf_assignment {
    uint32_t rows, columns;
    const struct mcf_pair *pairs;
    size_t pair_count;
};

/* Solves an assignment problem: chooses pairs of least total cost that contain each row and each
   column once. `flow` has room for a number for each pair, which becomes 1 if the pair is chosen
   and otherwise 0. `prices` has room for the rows and then the columns. The statuses are those of
   mcf_solve_arcs, with the rows and then the columns as nodes. */
uint32_t mcf_solve_pairs(const struct mcf_assignment *problem, const struct mcf_choice *choice,
                         int64_t *flow, size_t flow_length, int64_t *prices, size_t prices_length,
                         struct mcf_verdict *verdict);

/* Judges a flow by arc with prices by node for a flow problem, whoever made them. Before the call
   `verdict` holds the claimed cost; after it, the verdict. Returns 0, 1, MCF_INVALID_INPUT
   (`verdict` has the first fault of the arrays), MCF_NO_MEMORY, or MCF_BUFFER_TOO_SMALL if an array
   has a wrong length. The call accepts exactly if the flow is feasible, has that cost, and the
   prices show that no feasible flow costs less. */
uint32_t mcf_check_arcs(const struct mcf_flow_problem *problem, const int64_t *flow,
                        size_t flow_length, const int64_t *prices, size_t prices_length,
                        struct mcf_verdict *verdict);

/* The same for an assignment problem. */
uint32_t mcf_check_pairs(const struct mcf_assignment *problem, const int64_t *flow,
                         size_t flow_length, const int64_t *prices, size_t prices_length,
                         struct mcf_verdict *verdict);

/* A whole number in two words: low + 2^64 high. */
struct mcf_wide {
    uint64_t low;
    int64_t high;
};

/* A flow by arc, and prices by node. */
struct mcf_shown_flow {
    const int64_t *flow;
    size_t arcs;
    const int64_t *prices;
    size_t nodes;
};

/* How far the cost of an arc may change in one direction; without a limit `is_limited` is 0. */
struct mcf_range_end {
    uint32_t is_limited;
    struct mcf_wide change;
};

/* How far the cost of an arc may fall, and how far it may rise, while a flow stays least. */
struct mcf_cost_range {
    struct mcf_range_end down, up;
};

/* Judges a flow with prices as mcf_check_arcs does, and writes for each of some arcs, numbered from
   1, how far its cost may fall and rise while the flow stays least, if all other costs stay. Beyond
   these ends the flow isn't least. Returns 0, 1 to MCF_NO_MEMORY as mcf_check_arcs,
   MCF_BUFFER_TOO_SMALL if an array or the buffer has a wrong length, or MCF_INVALID_CHOICE if a
   number is none of an arc. The buffer is unchanged unless it returns 0. */
uint32_t mcf_cost_ranges(const struct mcf_flow_problem *problem, const struct mcf_shown_flow *shown,
                         struct mcf_verdict *verdict, const uint32_t *arcs, size_t arc_count,
                         struct mcf_cost_range *ranges, size_t range_count);

/* A cost matrix: costs[i * stride + j] is the cost of row i and column j, both from 0, or INT64_MAX
   if the pair is forbidden. */
struct mcf_matrix {
    const int64_t *costs;
    size_t length;
    size_t rows, columns, stride;
};

/* Assigns all rows to columns, or all columns to rows, whichever are fewer, at least total cost.
   `column_of` and `row_prices` have room for a number for each row, and `column_prices` for one for
   each column.

   MCF_FLOW: `column_of` has the column of each row, or a number that is no column's for a row
   without one. The prices show that the assignment has least cost: each allowed pair costs at least
   the sum of the prices of its row and its column, and each assigned pair exactly that sum. If
   there are more columns than rows, no column's price is above 0, and an unassigned column's price
   is 0; the same holds for rows if there are more rows. MCF_BLOCKED: no such assignment exists. The
   prices mark with 1 rows and columns that cover all allowed pairs and are fewer than the smaller
   side has, and with 0 all others. MCF_INVALID_INPUT: rows overlap or don't end within `length`, or
   the absolute value of a cost is above 10^15. MCF_NOT_SHOWN decides nothing: call mcf_solve_pairs
   then. MCF_NO_MEMORY and MCF_BUFFER_TOO_SMALL are possible, too. `column_of` is unchanged from
   status 1 on, and the prices are from 2 on. */
uint32_t mcf_assign_matrix(const struct mcf_matrix *matrix, uint32_t *column_of,
                           size_t column_of_length, int64_t *row_prices, size_t row_prices_length,
                           int64_t *column_prices, size_t column_prices_length);

/* Judges an assignment with prices for a cost matrix, whoever made them. Returns 0 if the prices
   show that the assignment has least cost, 1 if they don't or an array has a wrong length,
   MCF_INVALID_INPUT or MCF_NO_MEMORY. */
uint32_t mcf_check_matrix(const struct mcf_matrix *matrix, const uint32_t *column_of,
                          size_t column_of_length, const int64_t *row_prices,
                          size_t row_prices_length, const int64_t *column_prices,
                          size_t column_prices_length);

/* A transport problem: a cost matrix, what each row supplies and what each column demands. */
struct mcf_transport {
    struct mcf_matrix matrix;
    const int64_t *supplies;
    size_t supply_count;
    const int64_t *demands;
    size_t demand_count;
};

/* An entry of a transport plan: so much goes from this row to this column, both from 0. */
struct mcf_shipment {
    uint32_t row, column;
    int64_t amount;
};

/* What is told of a transport problem: how many entries the plan has, and the side of a cut. */
struct mcf_planned {
    size_t used;
    uint32_t side; /* MCF_SEND or MCF_TAKE */
};

/* Sends all supplies to the demands at least total cost: the sum of cost times amount. `plan` has
   room for rows + columns - 1 entries or more, `row_prices` for a number for each row, and
   `column_prices` for one for each column.

   MCF_FLOW: `plan` begins with `told.used` entries, of which no amount is below 0. The prices show
   that the plan has least cost: each allowed pair costs at least the sum of the prices of its row
   and its column, and each pair that the plan uses exactly that sum. The rest of `plan` is
   unchanged. MCF_BLOCKED: no plan exists. The prices mark with 1 rows and columns, and with 0 all
   others: by MCF_SEND (`told.side`), the marked rows may send to the marked columns alone, and
   supply more than these demand; by MCF_TAKE, the marked columns may receive from the marked rows
   alone, and demand more than these supply. MCF_INVALID_INPUT: as for mcf_assign_matrix.
   MCF_BUFFER_TOO_SMALL: `plan` has less room, or another array, the supplies and demands among
   them, has a wrong length. MCF_NOT_SHOWN decides nothing: call mcf_solve_arcs then. MCF_NO_MEMORY
   is possible, too. Masses may be any numbers; a negative one leaves no plan. `plan` is unchanged
   from status 1 on, and the prices and `told` are from 2 on. */
uint32_t mcf_transport_matrix(const struct mcf_transport *problem, struct mcf_shipment *plan,
                              size_t plan_length, int64_t *row_prices, size_t row_prices_length,
                              int64_t *column_prices, size_t column_prices_length,
                              struct mcf_planned *told);

/* Judges a transport plan with prices, whoever made them. A pair may have several entries. Returns
   0 if the prices show that the plan has least cost, 1 if they don't or an array has a wrong
   length, MCF_INVALID_INPUT or MCF_NO_MEMORY. */
uint32_t mcf_check_transport(const struct mcf_transport *problem, const struct mcf_shipment *plan,
                             size_t plan_length, const int64_t *row_prices,
                             size_t row_prices_length, const int64_t *column_prices,
                             size_t column_prices_length);

/* A matrix of doubles: costs[i * stride + j] is the cost of row i and column j, both from 0, or
   +infinity if the pair is forbidden. A finite double is the number that its bits stand for. */
struct mcf_doubles {
    const double *costs;
    size_t length;
    size_t rows, columns, stride;
};

/* The unit of prices, 2^(unit - 1074), and whether they are prices of the costs rounded down to
   such units: any number but 0 says so. */
struct mcf_scale {
    uint32_t unit;
    uint32_t is_rounded;
};

/* Assigns rows and columns as mcf_assign_matrix does, with doubles for costs, which it reads
   exactly: no other assignment has a smaller exact sum. The prices are whole numbers of the units
   of `scale`. `is_rounded` becomes 1 only if the bits of finite entries span more than 118 places:
   the assignment is then a least one of the entries rounded down to units, its exact sum is above
   the least by less than one unit a pair, and the greatest size of an entry is at least 2^117
   units. MCF_INVALID_INPUT: rows overlap or don't end within `length`, or an entry is a NaN or
   -infinity. MCF_NOT_SHOWN decides nothing; no matrix with it is known. `column_of` and `scale` are
   unchanged from status 1 on, and the prices are from 2 on. */
uint32_t mcf_assign_doubles(const struct mcf_doubles *matrix, uint32_t *column_of,
                            size_t column_of_length, struct mcf_wide *row_prices,
                            size_t row_prices_length, struct mcf_wide *column_prices,
                            size_t column_prices_length, struct mcf_scale *scale);

/* Judges an assignment with prices for a matrix of doubles, whoever made them, exactly. Returns 0
   if the prices show that the assignment has least cost, of the entries or of these rounded down to
   units, as `scale` says; 1 if they don't, a price isn't less than 2^125 from 0 or an array has a
   wrong length; MCF_INVALID_INPUT or MCF_NO_MEMORY. */
uint32_t mcf_check_doubles(const struct mcf_doubles *matrix, const uint32_t *column_of,
                           size_t column_of_length, const struct mcf_wide *row_prices,
                           size_t row_prices_length, const struct mcf_wide *column_prices,
                           size_t column_prices_length, const struct mcf_scale *scale);

/* A transport problem with doubles for costs. */
struct mcf_transport_doubles {
    struct mcf_doubles matrix;
    const int64_t *supplies;
    size_t supply_count;
    const int64_t *demands;
    size_t demand_count;
};

/* What is told of such a problem: how many entries the plan has, the side of a cut, and the scale
   of the prices. */
struct mcf_planned_doubles {
    size_t used;
    uint32_t side; /* MCF_SEND or MCF_TAKE */
    struct mcf_scale scale;
};

/* Sends all supplies to the demands as mcf_transport_matrix does, with doubles for costs, which it
   reads exactly: no other plan has a smaller exact sum of cost times amount. The prices are whole
   numbers of the units of `told->scale`. If `is_rounded` becomes 1, as for mcf_assign_doubles, the
   exact sum is above the least by less than one unit times the total supply, or is least if that is
   0. MCF_INVALID_INPUT and MCF_NOT_SHOWN: as for mcf_assign_doubles. MCF_BUFFER_TOO_SMALL and what
   is unchanged: as for mcf_transport_matrix. At MCF_BLOCKED the scale is 0 and 0. */
uint32_t mcf_transport_doubles(const struct mcf_transport_doubles *problem,
                               struct mcf_shipment *plan, size_t plan_length,
                               struct mcf_wide *row_prices, size_t row_prices_length,
                               struct mcf_wide *column_prices, size_t column_prices_length,
                               struct mcf_planned_doubles *told);

/* Judges a transport plan with prices for costs of doubles, whoever made them, exactly. A pair may
   have several entries. Returns 0 if the prices show that the plan has least cost, for the entries
   or for these rounded down to units, as `scale` says; 1 if they don't, a price isn't less than
   2^125 from 0 or an array has a wrong length; MCF_INVALID_INPUT or MCF_NO_MEMORY. */
uint32_t mcf_check_transport_doubles(const struct mcf_transport_doubles *problem,
                                     const struct mcf_shipment *plan, size_t plan_length,
                                     const struct mcf_wide *row_prices, size_t row_prices_length,
                                     const struct mcf_wide *column_prices,
                                     size_t column_prices_length, const struct mcf_scale *scale);

#ifdef __cplusplus
}
#endif
#endif

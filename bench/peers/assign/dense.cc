// The cost of a least assignment by dlib, where each row has an arc to each column.
#include "instance.h"
#include <dlib/matrix.h>
#include <dlib/optimization/max_cost_assignment.h>

int main(int, char **words) {
    Assignment read = read_assignment(words[1]);
    int rows = read.nodes / 2;
    dlib::matrix<long long> gains(rows, rows);
    for (size_t k = 0; k < read.rows.size(); k++) {
        gains(read.rows[k] - 1, read.columns[k] - rows - 1) = -read.costs[k];
    }
    auto columns = dlib::max_cost_assignment(gains);
    long long cost = 0;
    for (int row = 0; row < rows; row++) cost -= gains(row, columns[row]);
    printf("s %lld\n", cost);
}

// The processor seconds of an assignment by dlib and its least cost: of a square matrix of 64-bit
// integers in a file, row by row. The least seconds of some rounds count.
#include <cstdio>
#include <cstdlib>
#include <ctime>
#include <dlib/matrix.h>
#include <dlib/optimization/max_cost_assignment.h>

int main(int, char **words) {
    FILE *file = fopen(words[1], "rb");
    int rows = atoi(words[2]), rounds = atoi(words[3]);
    dlib::matrix<long long> gains(rows, rows);
    for (int row = 0; row < rows; row++)
        for (int column = 0; column < rows; column++) {
            long long cost;
            if (fread(&cost, sizeof cost, 1, file) != 1) return 1;
            gains(row, column) = -cost;
        }
    double best = 1e9;
    long long cost = 0;
    for (int round = 0; round < rounds; round++) {
        clock_t begun = clock();
        auto columns = dlib::max_cost_assignment(gains);
        double seconds = double(clock() - begun) / CLOCKS_PER_SEC;
        if (seconds < best) best = seconds;
        cost = 0;
        for (int row = 0; row < rows; row++) cost -= gains(row, columns[row]);
    }
    printf("%.9f %lld\n", best, cost);
}

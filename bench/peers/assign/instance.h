// A quick reader of assignment instances for the peers. It trusts its input.
#pragma once
#include <cctype>
#include <cstdio>
#include <string>
#include <vector>

struct Assignment {
    int nodes = 0;
    std::vector<int> rows, columns;
    std::vector<long long> costs;
    std::vector<bool> is_row;
};

static Assignment read_assignment(const char *path) {
    Assignment read;
    FILE *file = fopen(path, "rb");
    if (!file) return read;
    std::string text;
    fseek(file, 0, SEEK_END);
    text.resize(ftell(file));
    rewind(file);
    size_t got = fread(&text[0], 1, text.size(), file);
    fclose(file);
    const char *at = text.data(), *end = at + got;
    auto number = [&]() {
        while (at < end && *at == ' ') at++;
        bool below = at < end && *at == '-';
        if (below) at++;
        long long value = 0;
        while (at < end && isdigit((unsigned char)*at)) value = value * 10 + (*at++ - '0');
        return below ? -value : value;
    };
    while (at < end) {
        char kind = *at++;
        if (kind == 'p') {
            at += 4;
            read.nodes = (int)number();
            long long arcs = number();
            read.is_row.assign(read.nodes + 1, false);
            read.rows.reserve(arcs);
            read.columns.reserve(arcs);
            read.costs.reserve(arcs);
        } else if (kind == 'n') {
            read.is_row[number()] = true;
        } else if (kind == 'a') {
            read.rows.push_back((int)number());
            read.columns.push_back((int)number());
            read.costs.push_back(number());
        }
        while (at < end && *at != '\n') at++;
        at++;
    }
    return read;
}

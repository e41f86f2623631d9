// A plain C++ judge, to measure ours against: the same input, the same rounds, the same output as judge_many.
// It checks sizes, points and liberties as ours does, and stops at the first board that it refuses.
#include <cstdint>
#include <cstdio>
#include <vector>

namespace {

constexpr int kMaxSide = 19;
constexpr int kMaxPoints = kMaxSide * kMaxSide;
constexpr int kNone = 65535;
constexpr int kWords = (kMaxPoints + 63) / 64;

struct Set {
    uint64_t words[kWords] = {};
    void insert(int i) { words[i / 64] |= uint64_t{1} << (i % 64); }
    void remove(int i) { words[i / 64] &= ~(uint64_t{1} << (i % 64)); }
    bool contains(int i) const { return words[i / 64] >> (i % 64) & 1; }
    void remove_all(const Set& o) { for (int k = 0; k < kWords; k++) words[k] &= ~o.words[k]; }
    void insert_all(const Set& o) { for (int k = 0; k < kWords; k++) words[k] |= o.words[k]; }
    int shared(const Set& o) const {
        int n = 0;
        for (int k = 0; k < kWords; k++) n += __builtin_popcountll(words[k] & o.words[k]);
        return n;
    }
};

struct Board {
    int w, h, n;
    const uint8_t* cells;

    int neighbour(int p, int k) const {
        switch (k) {
            case 0: return p >= w ? p - w : -1;
            case 1: return p % w != 0 ? p - 1 : -1;
            case 2: return p % w + 1 != w ? p + 1 : -1;
            default: return p + w < n ? p + w : -1;
        }
    }
};

void walk(const Board& b, const uint8_t* classes, uint16_t* labels, int p, int name) {
    labels[p] = name;
    for (int k = 0; k < 4; k++) {
        int q = b.neighbour(p, k);
        if (q >= 0 && classes[q] == classes[p] && labels[q] == kNone) walk(b, classes, labels, q, name);
    }
}

void label(const Board& b, const uint8_t* classes, uint8_t left_out, uint16_t* labels) {
    for (int p = 0; p < b.n; p++) labels[p] = kNone;
    for (int p = 0; p < b.n; p++)
        if (classes[p] != left_out && labels[p] == kNone) walk(b, classes, labels, p, p);
}

bool stands(const Board& b, const uint16_t* chains, int* first) {
    bool breathes[kMaxPoints] = {};
    for (int p = 0; p < b.n; p++) {
        if (b.cells[p] != '.') continue;
        for (int k = 0; k < 4; k++) {
            int q = b.neighbour(p, k);
            if (q >= 0 && b.cells[q] != '.') breathes[chains[q]] = true;
        }
    }
    for (int p = 0; p < b.n; p++)
        if (b.cells[p] != '.' && !breathes[chains[p]]) { *first = p; return false; }
    return true;
}

int judge(const Board& b, uint8_t own, const uint16_t* chains) {
    uint8_t classes[kMaxPoints];
    uint16_t rooms[kMaxPoints];
    for (int p = 0; p < b.n; p++) classes[p] = b.cells[p] == own;
    label(b, classes, 1, rooms);

    Set vital[kMaxPoints], walls[kMaxPoints];
    int first_empty[kMaxPoints];
    for (int p = 0; p < b.n; p++) first_empty[p] = -1;
    for (int p = 0; p < b.n; p++) {
        if (b.cells[p] == '.' && first_empty[rooms[p]] < 0) {
            first_empty[rooms[p]] = p;
            for (int k = 0; k < 4; k++) {
                int q = b.neighbour(p, k);
                if (q >= 0 && b.cells[q] == own) vital[chains[q]].insert(rooms[p]);
            }
        }
        if (b.cells[p] == own)
            for (int k = 0; k < 4; k++) {
                int y = b.neighbour(p, k);
                if (y >= 0 && b.cells[y] != own) walls[chains[p]].insert(rooms[y]);
            }
    }
    for (int e = 0; e < b.n; e++) {
        if (b.cells[e] != '.') continue;
        int e0 = first_empty[rooms[e]];
        for (int k = 0; k < 4; k++) {
            int q = b.neighbour(e0, k);
            if (q < 0 || b.cells[q] != own) continue;
            bool beside = false;
            for (int j = 0; j < 4; j++) {
                int s = b.neighbour(e, j);
                if (s >= 0 && b.cells[s] == own && chains[s] == chains[q]) beside = true;
            }
            if (!beside) vital[chains[q]].remove(rooms[e]);
        }
    }

    Set kept, open;
    for (int p = 0; p < b.n; p++) {
        if (b.cells[p] == own) kept.insert(chains[p]);
        else open.insert(rooms[p]);
    }
    for (;;) {
        Set struck;
        bool any = false;
        for (int c = 0; c < b.n; c++)
            if (kept.contains(c) && vital[c].shared(open) < 2) {
                kept.remove(c);
                struck.insert_all(walls[c]);
                any = true;
            }
        if (!any) break;
        open.remove_all(struck);
    }
    int marked = 0;
    for (int p = 0; p < b.n; p++) marked += b.cells[p] == own && kept.contains(chains[p]);
    return marked;
}

int refused(int number, size_t place) {
    std::printf("refused %d at %zu\n", number, place);
    return 1;
}

}  // namespace

int main() {
    std::vector<uint8_t> in;
    uint8_t buffer[65536];
    for (size_t got; (got = std::fread(buffer, 1, sizeof buffer, stdin)) > 0;) in.insert(in.end(), buffer, buffer + got);
    for (size_t at = 0; at < in.size();) {
        int w = in[at], h = at + 1 < in.size() ? in[at + 1] : 0;
        if (w < 1 || w > kMaxSide) return refused(1, 0);
        if (h < 1 || h > kMaxSide) return refused(1, 1);
        Board b{w, h, w * h, in.data() + at + 2};
        size_t rest = in.size() - at - 2;
        if (rest < static_cast<size_t>(b.n)) return refused(2, rest);
        for (int p = 0; p < b.n; p++)
            if (b.cells[p] != '.' && b.cells[p] != 'X' && b.cells[p] != 'O') return refused(3, 2 + p);
        uint16_t chains[kMaxPoints];
        int first;
        label(b, b.cells, '.', chains);
        if (!stands(b, chains, &first)) return refused(4, first);
        int x = judge(b, 'X', chains), o = judge(b, 'O', chains);
        std::printf("X %d O %d\n", x, o);
        at += 2 + b.n;
    }
}

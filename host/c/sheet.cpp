// The library from C++: tables as vectors, empty ones among them, and calls from many threads at once.

#include <array>
#include <atomic>
#include <cinttypes>
#include <cstdio>
#include <thread>
#include <vector>

#include "usm.h"

using Bytes = std::vector<std::uint8_t>;
using Answer = std::array<std::uint64_t, USM_ANSWER_NUMBERS>;

static void put(Bytes &table, std::size_t at, std::size_t bytes, std::uint64_t value)
{
    for (std::size_t i = 0; i < bytes; i++)
        table[table.size() - USM_RECORD_BYTES + at + i] = static_cast<std::uint8_t>(value >> (8 * i));
}

static void add_leg(Bytes &table, unsigned group, unsigned side, std::uint32_t strike)
{
    table.resize(table.size() + USM_RECORD_BYTES);
    put(table, USM_LEG_GROUP, 2, group);
    put(table, USM_LEG_SIDE, 1, side);
    put(table, USM_LEG_TYPE, 1, USM_CALL);
    put(table, USM_LEG_STYLE, 1, USM_AMERICAN);
    put(table, USM_LEG_MARKET, 1, USM_LISTED);
    put(table, USM_LEG_UNIT_SIZE, 2, 100);
    put(table, USM_LEG_UNDERLYING, 4, 7);
    put(table, USM_LEG_STRIKE, 4, strike);
    put(table, USM_LEG_EXPIRY, 4, 20110521);
    put(table, USM_LEG_CONTRACTS, 4, 1);
}

static void add_claim(Bytes &table, unsigned group, std::uint64_t margin)
{
    table.resize(table.size() + USM_RECORD_BYTES);
    put(table, USM_CLAIM_GROUP, 2, group);
    put(table, USM_CLAIM_MARGIN, 8, margin);
}

static Answer check(const Bytes &holdings, const Bytes &placement, const Bytes &claims)
{
    Answer answer;
    usm_check_sheet(holdings.data(), holdings.size(), placement.data(), placement.size(),
                    claims.data(), claims.size(), answer.data());
    return answer;
}

static void print(const char *what, const Answer &answer)
{
    std::printf("%s:", what);
    for (std::uint64_t number : answer)
        std::printf(" %" PRIu64, number);
    std::printf("\n");
}

// A fill of one contract.
static void add_fill(Bytes &table, unsigned action, unsigned side, std::uint32_t strike)
{
    add_leg(table, 0, side, strike);
    put(table, USM_FILL_ACTION, 1, action);
}

// The day's fills over holdings; prints the answer and what was refused.
static void play(const char *what, const Bytes &holdings, const Bytes &fills)
{
    Bytes result(USM_LEGS_BYTES), numbers(fills.size() / USM_RECORD_BYTES);
    std::vector<std::uint32_t> indices(numbers.size());
    Answer answer;
    usm_play_fills(holdings.data(), holdings.size(), fills.data(), fills.size(), result.data(), result.size(),
                   indices.data(), indices.size(), numbers.data(), numbers.size(), answer.data());
    print(what, answer);
    for (std::size_t i = 0; i < answer[2]; i++)
        std::printf("  fill %" PRIu32 ": %u\n", indices[i], static_cast<unsigned>(numbers[i]));
}

// Group 1 is worth a margin of 1,000 dollars; each thread claims another amount.
static bool answers_stay_apart(const Bytes &holdings, const Bytes &placement)
{
    std::atomic<bool> apart{true};
    std::vector<std::thread> threads;
    for (std::uint64_t mills = 999998; mills <= 1000001; mills++)
        threads.emplace_back([&, mills] {
            Bytes claims;
            add_claim(claims, 1, mills);
            const Answer refused{USM_CLAIM_NOT_MARGIN, USM_CLAIMS, 1, 0};
            const Answer due = mills == 1000000 ? Answer{0, 1, mills, 4} : refused;
            for (int call = 0; call < 2000; call++)
                if (check(holdings, placement, claims) != due)
                    apart = false;
        });
    for (std::thread &thread : threads)
        thread.join();
    return apart;
}

int main()
{
    const Bytes empty;
    Bytes holdings, placement, claims;
    for (unsigned group : {0u, 1u}) {
        Bytes &table = group == 0 ? holdings : placement;
        add_leg(table, group, USM_LONG, 60000);
        add_leg(table, group, USM_SHORT, 50000);
    }
    add_claim(claims, 1, 1000000);

    print("a sheet", check(holdings, placement, claims));
    print("no tables", check(empty, empty, empty));
    print("no placement", check(holdings, empty, empty));
    print("no holdings", check(empty, placement, claims));
    Answer answer;
    if (usm_check_file(empty.data(), empty.size(), answer.data()))
        print("no file", answer);
    std::vector<std::int64_t> no_room;
    if (usm_margins(placement.data(), placement.size(), 1, no_room.data(), no_room.size(), answer.data()))
        print("no room", answer);
    Bytes fills;
    add_fill(fills, USM_CLOSE, USM_LONG, 60000);
    add_fill(fills, USM_CLOSE, USM_LONG, 60000);
    add_fill(fills, USM_OPEN, USM_SHORT, 60000);
    play("a day", holdings, fills);
    play("no fills", holdings, empty);
    play("no holdings", empty, fills);
    std::printf("threads %s\n", answers_stay_apart(holdings, placement) ? "stay apart" : "MIX");
}

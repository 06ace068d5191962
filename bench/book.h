// A desk of one thread over plain arrays, in C++: the yardstick of the benches of a book and of a shared desk.
// It answers as the desk does, and keeps what the desk keeps: the entries, their changes, the vectors.
#pragma once
#include <cstdint>
#include <cstdlib>
#include <utility>
#include <vector>

using u64 = std::uint64_t;
using u32 = std::uint32_t;

constexpr u32 MOST_CALLERS = 64;

struct Span { u32 from, to; };
struct Stay { Span span; u64 rate, forecast; };

struct House {
    std::vector<u64> rooms, sold;
    std::vector<Stay> stays;
    u64 unit, entries, publications, stale_after;
};

enum class Verb { Book, Cancel, Reforecast, Reprice, Resize, Group, Publish, Enrol, Leave };
struct Act { Verb verb; u32 item; Span span; u64 first, second; };

enum class Word : u32 {
    Accepted, TooLow, NoRoom, Cancelled, NotBooked, AlreadyCancelled, Done, BelowSold, GroupNoRoom, Vector,
    HistoryFull, Behind, Unquoted, Superseded, PublicationsFull, GroupTooLow, GroupAccepted, Stale
};
struct Answer { Word word; u64 a, b, c; };

// What a group's rooms cost, in minor units of money times the unit, as of a position.
struct Quote { u64 position, displacement; };

struct Entry { u32 caller; Act act; Answer reply; };
struct Change { bool is_rooms, up; u32 stay; Span span; u64 value; };
struct Deltas { u32 count; Change changes[2]; };
struct Booking { std::uint16_t stay; std::uint8_t fate; };
struct Board { u64 position; std::vector<u64> sell, prices, sums; };
enum Standing : std::uint8_t { New, Present, Gone };
enum Fate : std::uint8_t { Held, Refused, GivenUp };

struct Book {
    u32 nights;
    u64 unit, most_entries, most_vectors, stale_after;
    std::vector<u64> rooms, sold, forecasts, rates, counts;
    std::vector<Stay> stays;
    std::vector<Entry> entries;
    std::vector<Deltas> deltas;
    std::vector<Board> boards;
    std::vector<std::vector<Booking>> bookings;
    Standing standings[MOST_CALLERS] = {};
    u64 commands = 0;

    explicit Book(const House &house)
        : nights(static_cast<u32>(house.rooms.size())), unit(house.unit), most_entries(house.entries),
          most_vectors(house.publications), stale_after(house.stale_after), rooms(house.rooms), sold(house.sold),
          stays(house.stays), bookings(MOST_CALLERS) {
        for (const Stay &stay : stays) {
            forecasts.push_back(stay.forecast);
            rates.push_back(stay.rate);
        }
        const u64 lines = most_entries + most_vectors + 130;
        entries.reserve(lines);
        deltas.reserve(lines);
        counts.reserve(lines + 1);
        counts.push_back(0);
        boards.reserve(most_vectors);
        for (auto &list : bookings) list.reserve(most_entries);
    }

    bool may_act(u32 caller) const { return caller == 0 || (caller < MOST_CALLERS && standings[caller] == Present); }
    bool may_enrol(u32 caller) const { return caller > 0 && caller < MOST_CALLERS && standings[caller] == New; }
    bool is_span(Span span) const { return span.from < span.to && span.to <= nights; }

    bool is_in_range(const Act &act) const {
        switch (act.verb) {
        case Verb::Book: return act.item < stays.size();
        case Verb::Cancel: return act.first >= 1 && act.first <= 200000;
        case Verb::Reforecast: return act.item < stays.size() && act.first <= 1000000;
        case Verb::Reprice: return act.item < stays.size() && act.first >= 1 && act.first <= 1000000000;
        case Verb::Resize: return act.item < nights && act.first <= 10000;
        case Verb::Group:
            return is_span(act.span) && act.first >= 1 && act.first <= 10000 && act.second <= 1000000000000000;
        default: return true;
        }
    }

    Answer log(u32 caller, const Act &act, Answer reply, bool is_change, Deltas changed) {
        const u64 before = counts[entries.size()];
        commands += act.verb < Verb::Publish;
        entries.push_back({caller, act, reply});
        deltas.push_back(changed);
        counts.push_back(before + is_change);
        return reply;
    }

    u64 changes_up_to(u64 from, u64 until) const { return until <= from ? 0 : counts[until] - counts[from]; }
    u64 lag() const { return changes_up_to(boards.back().position, entries.size()); }

    int first_full(Span span, u64 asked) const {
        for (u32 night = span.from; night < span.to; night++)
            if (rooms[night] - sold[night] < asked) return static_cast<int>(night);
        return -1;
    }

    Answer book(u32 caller, const Act &act) {
        const u64 position = boards.back().position, changes = lag();
        if (changes >= stale_after) return {Word::Behind, position, changes, 0};
        const u32 stay = act.item;
        const Span span = stays[stay].span;
        const u64 vector = boards.size() - 1, rate = rates[stay];
        const u64 sum = boards.back().sums[span.from] - boards.back().sums[span.to];
        const int full = rate < sum ? -1 : first_full(span, 1);
        Answer reply = {Word::Accepted, vector, sum, 0};
        if (rate < sum) reply = {Word::TooLow, vector, sum, rate};
        else if (full >= 0) reply = {Word::NoRoom, vector, sum, static_cast<u64>(full)};
        forecasts[stay] -= forecasts[stay] < unit ? forecasts[stay] : unit;
        const Change demand = {false, false, stay, {}, forecasts[stay]};
        if (reply.word != Word::Accepted) {
            bookings[caller].push_back({static_cast<std::uint16_t>(stay), Refused});
            return log(caller, act, reply, true, {1, {demand, {}}});
        }
        for (u32 night = span.from; night < span.to; night++) sold[night]++;
        bookings[caller].push_back({static_cast<std::uint16_t>(stay), Held});
        return log(caller, act, reply, true, {2, {{true, false, 0, span, unit}, demand}});
    }

    Answer cancel(u32 caller, const Act &act) {
        auto &mine = bookings[caller];
        if (act.first > mine.size() || mine[act.first - 1].fate == Refused)
            return log(caller, act, {Word::NotBooked, 0, 0, 0}, false, {});
        Booking &booking = mine[act.first - 1];
        if (booking.fate == GivenUp) return log(caller, act, {Word::AlreadyCancelled, 0, 0, 0}, false, {});
        const Span span = stays[booking.stay].span;
        for (u32 night = span.from; night < span.to; night++) sold[night]--;
        booking.fate = GivenUp;
        return log(caller, act, {Word::Cancelled, 0, 0, 0}, true, {1, {{true, true, 0, span, unit}, {}}});
    }

    Answer resize(u32 caller, const Act &act) {
        const u32 night = act.item;
        const u64 old = rooms[night], asked = act.first;
        if (asked < sold[night]) return log(caller, act, {Word::BelowSold, sold[night], 0, 0}, false, {});
        rooms[night] = asked;
        const bool up = old <= asked;
        const Change change = {true, up, 0, {night, night + 1}, unit * (up ? asked - old : old - asked)};
        return log(caller, act, {Word::Done, 0, 0, 0}, true, {1, {change, {}}});
    }

    Answer group(u32 caller, const Act &act, const Quote *quote) {
        const int full = first_full(act.span, act.first);
        if (full >= 0) return log(caller, act, {Word::GroupNoRoom, static_cast<u64>(full), 0, 0}, false, {});
        if (!quote) return {Word::Unquoted, 0, 0, 0};
        const u64 changes = changes_up_to(quote->position, entries.size());
        if (changes > 0) return {Word::Stale, quote->position, changes, 0};
        const Answer priced = {Word::GroupTooLow, quote->position, quote->displacement, 0};
        if (unit * act.second < quote->displacement) return log(caller, act, priced, false, {});
        for (u32 night = act.span.from; night < act.span.to; night++) sold[night] += act.first;
        const Change taken = {true, false, 0, act.span, unit * act.first};
        return log(caller, act, {Word::GroupAccepted, priced.a, priced.b, 0}, true, {1, {taken, {}}});
    }

    Answer ask(u32 caller, const Act &act, const Quote *quote = nullptr) {
        const bool may = act.verb == Verb::Enrol ? may_enrol(caller)
            : act.verb == Verb::Leave            ? caller != 0 && may_act(caller)
                                                 : may_act(caller);
        if (!may || !is_in_range(act)) std::abort();
        if (act.verb == Verb::Enrol || act.verb == Verb::Leave) {
            standings[caller] = act.verb == Verb::Enrol ? Present : Gone;
            return log(caller, act, {Word::Done, 0, 0, 0}, false, {});
        }
        if (commands == most_entries) return {Word::HistoryFull, 0, 0, 0};
        switch (act.verb) {
        case Verb::Book: return book(caller, act);
        case Verb::Cancel: return cancel(caller, act);
        case Verb::Reforecast:
            forecasts[act.item] = act.first;
            return log(caller, act, {Word::Done, 0, 0, 0}, true, {1, {{false, false, act.item, {}, act.first}, {}}});
        case Verb::Reprice:
            rates[act.item] = act.first;
            return log(caller, act, {Word::Done, 0, 0, 0}, true, {1, {{false, true, act.item, {}, act.first}, {}}});
        case Verb::Resize: return resize(caller, act);
        default: return group(caller, act, quote);
        }
    }

    Answer post(u32 caller, Board board, u64 least = 1) {
        if (!may_act(caller)) std::abort();
        const u64 position = boards.empty() ? 0 : boards.back().position;
        const u64 changes = changes_up_to(position, board.position);
        if (!boards.empty() && changes < least) return {Word::Superseded, position, changes, 0};
        if (boards.size() == most_vectors) return {Word::PublicationsFull, 0, 0, 0};
        const u64 number = boards.size();
        log(caller, {Verb::Publish, 0, {}, board.position, 0}, {Word::Vector, number, 0, 0}, false, {});
        boards.push_back(std::move(board));
        return {Word::Vector, number, 0, 0};
    }
};

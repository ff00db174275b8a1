// Runs bindings/cases.txt, from standard input, by bulwynef.hpp. bindings/README.md says how a line is read. Ends with 1 where an answer is
// another.
#include <bulwynef.hpp>

#include <algorithm>
#include <functional>
#include <iostream>
#include <iterator>
#include <sstream>

using namespace bulwynef;

namespace {

// What a call answers beside 0: nothing, a number or a text.
struct Answer {
    std::optional<uint64_t> number;
    std::optional<Bytes> text;
    Answer() = default;
    Answer(uint64_t it) : number(it) {}
    Answer(Bytes it) : text(std::move(it)) {}
    Answer(const std::string &it) : text(Bytes(it.begin(), it.end())) {}
};

struct Cases {
    std::map<std::string, Bytes> texts;
    std::map<std::string, Store> stores;
    std::map<std::string, Node> nodes;
    std::vector<std::string> words;

    uint64_t number(std::size_t place) const { return std::stoull(words.at(place)); }
    const Bytes &text(std::size_t place) const { return texts.at(words.at(place).substr(1)); }
    Program program(std::size_t place) const { return Program(number(place)); }
    Store &store(std::size_t place = 1) { return stores.at(words.at(place)); }
    Node &node() { return nodes.at(words.at(1)); }
    template <std::size_t N> std::array<uint8_t, N> array(std::size_t place) const {
        std::array<uint8_t, N> it;
        if (text(place).size() != N) throw std::logic_error("another length");
        std::copy(text(place).begin(), text(place).end(), it.begin());
        return it;
    }
    Key key(std::size_t place) const {
        const auto id = array<BULWYNEF_KEY_ID_LEN>(place + 2);
        return {id, array<BULWYNEF_SEED_LEN>(place + 3), uint32_t(number(place)), uint32_t(number(place + 1))};
    }
    // The keys of a text of secrets, each an identifier and a seed. The journal has their types.
    std::vector<Key> keys(std::size_t place) const {
        std::vector<Key> found;
        const Bytes &secrets = text(place);
        constexpr std::size_t size = BULWYNEF_KEY_ID_LEN + BULWYNEF_SEED_LEN;
        if (secrets.size() % size != 0) throw std::logic_error("another length");
        for (auto at = secrets.begin(); at != secrets.end(); at += size) {
            Key key{};
            std::copy_n(at, BULWYNEF_KEY_ID_LEN, key.id.begin());
            std::copy_n(at + BULWYNEF_KEY_ID_LEN, BULWYNEF_SEED_LEN, key.seed.begin());
            found.push_back(key);
        }
        return found;
    }
    Answer answer();
};

template <class List> auto at(const List &list, std::size_t place) {
    if (place >= list.size()) throw Refused(BULWYNEF_REFUSED_OUT_OF_RANGE);
    return list[place];
}

Answer Cases::answer() {
    const std::map<std::string, std::function<Answer()>> calls{
        {"check_proof", [&] { return check_proof(text(2), text(3), program(1)); }},
        {"explain_proof", [&] { return explain_proof(text(2), text(3), program(1)); }},
        {"public_key", [&] { const auto it = key(1).public_key(); return Bytes(it.begin(), it.end()); }},
        {"statement_of", [&] { return statement_of(text(1), number(2)); }},
        {"audit_challenge", [&] { return audit_challenge(text(2), text(1)); }},
        {"send_challenge", [&] { return send_challenge(text(1)); }},
        {"store_open", [&] { stores.insert_or_assign(words[1], Store(text(3), program(2))); return Answer(); }},
        {"store_take", [&] { return uint64_t(store().take(text(2))); }},
        {"store_import", [&] { return store().load(text(2)); }},
        {"store_merge", [&] { return store().merge(store(2)); }},
        {"store_includes", [&] { return uint64_t(store().includes(store(2))); }},
        {"store_indication", [&] { return uint64_t(store().indication(uint32_t(number(2)))); }},
        {"store_proof", [&] {
             auto proof = store().proof(uint32_t(number(2)));
             if (!proof) throw Refused(BULWYNEF_REFUSED_NOT_EXPOSED);
             return *proof;
         }},
        {"store_challenge", [&] { return at(store().challenges(uint32_t(number(2))), number(3)); }},
        {"store_explain", [&] { return store().explain(); }},
        {"store_export", [&] { return store().to_bytes(); }},
        {"store_outline", [&] { return store().outline(); }},
        {"store_summary", [&] { return store().summary(); }},
        {"store_short_summary", [&] { return store().summary(text(2)); }},
        {"store_pack", [&] { return store().pack(text(2)); }},
        {"store_apply", [&] { return store().apply(text(2)); }},
        {"node_new", [&] {
             nodes.insert_or_assign(words[1], Node(text(3), uint32_t(number(4)), key(6), program(2), number(5)));
             return Answer();
         }},
        {"node_timer", [&] { node().timer(number(2), array<BULWYNEF_ENTROPY_LEN>(3)); return Answer(); }},
        {"node_waiting", [&] { return at(node().waiting(), number(2)); }},
        {"node_message", [&] { return node().message(number(2)); }},
        {"node_answer", [&] { return node().answer(text(2), array<BULWYNEF_ENTROPY_LEN>(3)); }},
        {"node_history", [&] { return node().history(); }},
        {"node_accept_ack", [&] { node().accept_ack(text(2)); return Answer(); }},
        {"node_checkpoint", [&] { return node().checkpoint(); }},
        {"node_remaining", [&] { return uint64_t(node().remaining()); }},
        {"node_next_key", [&] { node().next_key(key(2)); return Answer(); }},
        {"journal_block", [&] { return journal_block(text(1)); }},
        {"journal_end", [&] { return uint64_t(journal_end(text(1))); }},
        {"node_beginning", [&] { return node_beginning(text(2), uint32_t(number(3)), key(5), program(1), number(4)); }},
        {"record_timer", [&] { return record_timer(number(1), array<BULWYNEF_ENTROPY_LEN>(2)); }},
        {"record_answer", [&] { return record_answer(text(1), array<BULWYNEF_ENTROPY_LEN>(2)); }},
        {"record_ack", [&] { return record_ack(text(1)); }},
        {"record_checkpoint", [&] { return record_checkpoint(); }},
        {"record_next_key", [&] { return record_next_key(key(1)); }},
        {"node_rebuild", [&] {
             nodes.insert_or_assign(words[1], Node::rebuild(text(3), keys(4), text(5), program(2)));
             return Answer();
         }},
        {"node_knows", [&] { return uint64_t(node().knows(text(2))); }},
    };
    return calls.at(words[0])();
}

// Whether a line's call answers what stands behind `=`.
bool is_right(Cases &cases, const std::vector<std::string> &wanted) {
    try {
        const Answer found = cases.answer();
        if (wanted[0] != "0") return false;
        if (wanted.size() == 1) return !found.number && !found.text;
        if (wanted[1][0] == '>') return found.text && cases.texts.emplace(wanted[1].substr(1), *found.text).second;
        if (wanted[1][0] == '@') return found.text == cases.texts.at(wanted[1].substr(1));
        return found.number == std::stoull(wanted[1]);
    } catch (const Refused &refused) {
        return wanted.size() == 1 && wanted[0] == std::to_string(refused.number());
    }
}

Bytes decoded(const std::string &digits) {
    Bytes text;
    for (std::size_t i = 0; i < digits.size(); i += 2) text.push_back(uint8_t(std::stoul(digits.substr(i, 2), nullptr, 16)));
    return text;
}

} // namespace

int main() {
    Cases cases;
    int calls = 0, wrong = 0, place = 0;
    for (std::string line; std::getline(std::cin, line);) {
        place++;
        std::istringstream words(line);
        std::vector<std::string> all{std::istream_iterator<std::string>(words), {}};
        if (all.empty() || all[0] == "#") continue;
        if (all[0] == "text") {
            cases.texts[all.at(1)] = decoded(all.size() > 2 ? all[2] : "");
            continue;
        }
        if (all[0] == "zeros") {
            cases.texts[all.at(1)] = Bytes(std::stoull(all.at(2)));
            continue;
        }
        const auto equals = std::find(all.begin(), all.end(), "=");
        cases.words.assign(all.begin(), equals);
        calls++;
        if (!is_right(cases, {equals + 1, all.end()})) {
            wrong++;
            std::cerr << "cases: line " << place << ": another answer\n";
        }
    }
    std::cout << "C++: " << calls << " calls, " << wrong << " wrong\n";
    return calls == 0 || wrong != 0;
}

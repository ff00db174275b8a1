// What bulwynef.hpp keeps: handles are moved and closed once, a child of fork is refused its parent's, and a node is rebuilt of its
// journal. Ends with 1 at the first that is not so.
#include <bulwynef.hpp>

#include <cstdio>
#include <sys/wait.h>
#include <type_traits>

using namespace bulwynef;

static_assert(!std::is_copy_constructible_v<Store> && !std::is_copy_assignable_v<Store>, "a store is not copied");
static_assert(!std::is_copy_constructible_v<Node> && !std::is_copy_assignable_v<Node>, "a node is not copied");
static_assert(std::is_nothrow_move_constructible_v<Store> && std::is_nothrow_move_assignable_v<Node>, "both are moved");

static void hold(bool is_so, const char *what) {
    if (is_so) return;
    std::fprintf(stderr, "kept: %s\n", what);
    std::exit(1);
}

template <class Call> int refused_by(Call call) {
    try {
        call();
    } catch (const Refused &refused) {
        return refused.number();
    } catch (const std::logic_error &) {
        return -1;
    }
    return 0;
}

int main() {
    const Key key = Key::random();
    const Bytes listed = directory({{1, {key.public_key()}}});
    Store store(listed, Program::tally);
    Store moved = std::move(store);
    hold(moved.indication(1) == Indication::trusted, "what was moved is there");
    hold(refused_by([&] { store.indication(1); }) == BULWYNEF_REFUSED_CLOSED, "what it was moved from is closed");
    store = std::move(moved);
    hold(store.indication(1) == Indication::trusted, "it is moved back");
    hold(store.includes(store) && store.merge(store) == 0, "a store includes itself");
    store.close();
    store.close();
    hold(refused_by([&] { store.indication(1); }) == BULWYNEF_REFUSED_CLOSED, "what is closed stays closed");
    const int refused = refused_by([&] { check_proof(listed, std::string_view("\x07"), Program::tally); });
    hold(refused == BULWYNEF_REFUSED_BAD_TAG, "a refusal is thrown");
    hold(std::string(Refused(24).what()).rfind("refused 24 Truncated: The directory is cut off.", 0) == 0, "it has name and sentence");

    Node node(listed, 1, key, Program::tally);
    const pid_t child = fork();
    if (child == 0) {
        const bool is_refused = refused_by([&] { node.timer(1); }) == -1;
        node.close();
        Store own(listed, Program::tally);
        _exit(is_refused && own.indication(1) == Indication::trusted ? 7 : 1);
    }
    int status = 0;
    hold(waitpid(child, &status, 0) == child && WIFEXITED(status) && WEXITSTATUS(status) == 7, "a child of fork is refused");
    hold(node.remaining() == 32, "the parent goes on");

    Bytes journal;
    for (const Bytes &text : {node_beginning(listed, 1, key, Program::tally), record_checkpoint()}) {
        const Bytes block = journal_block(text);
        journal.insert(journal.end(), block.begin(), block.end());
    }
    journal.push_back(0);
    hold(journal_end(journal) == journal.size() - 1, "a journal ends with its closed gate");
    node.checkpoint();
    Node back = Node::rebuild(listed, {key}, journal, Program::tally);
    hold(back.history() == node.history(), "a node of a journal is as the one that went on");
    hold(refused_by([&] { Node::rebuild(listed, {}, journal, Program::tally); }) == BULWYNEF_REFUSED_OTHER_KEY, "but not without its key");
    return 0;
}

/* Bulwynef for C++17, over bulwynef.h: stores of evidence, nodes and texts that are closed by themselves, and refusals that are thrown.
 *
 * Link with libbulwynef (pkg-config bulwynef). Nothing is checked here but what the C interface can't see: a View has its length beside its
 * pointer, a handle is moved and never copied, keys and entropy have their length by type, and a text is closed as soon as it is copied.
 *
 * A Store or a Node has no lock: one call at a time, so no method of theirs is const, and threads that share one bring a lock. After fork
 * the child is refused its parent's (std::logic_error), and closes none: both would sign by one leaf of a key.
 *
 * Copyright 2026 the Bulwynef authors. Licensed under MIT or Apache-2.0, at your choice: LICENSE-MIT, LICENSE-APACHE.
 */
#ifndef BULWYNEF_HPP
#define BULWYNEF_HPP
#include <bulwynef.h>

#include <array>
#include <fstream>
#include <initializer_list>
#include <map>
#include <optional>
#include <stdexcept>
#include <string>
#include <string_view>
#include <utility>
#include <vector>

#include <pthread.h>
#include <unistd.h>

namespace bulwynef {

using Bytes = std::vector<uint8_t>;

/* Bytes of somebody else's, for the call. */
class View {
  public:
    View() = default;
    View(const uint8_t *data, std::size_t size) : data_(data), size_(size) {}
    View(const Bytes &bytes) : View(bytes.data(), bytes.size()) {}
    View(std::string_view text) : View(reinterpret_cast<const uint8_t *>(text.data()), text.size()) {}
    template <std::size_t N> View(const std::array<uint8_t, N> &bytes) : View(bytes.data(), N) {}
    const uint8_t *data() const { return data_; }
    std::size_t size() const { return size_; }

  private:
    const uint8_t *data_ = nullptr;
    std::size_t size_ = 0;
};

/* What is refused, by the number of bulwynef.h: its name and a sentence. */
/* made by checks/reference/refusals.py */
inline const char *told(uint8_t number) {
    switch (number) {
    case 2: return "UnknownLmsType: The LMS typecode of a key is not known.";
    case 3: return "UnknownOtsType: The LM-OTS typecode of a key is not known.";
    case 4: return "HeightTooLarge: The tree of a key is too high for the key to be made.";
    case 20: return "DuplicateNode: The directory lists a node twice.";
    case 21: return "DuplicateKey: The directory lists a key twice.";
    case 22: return "TooManyNodes: The directory lists more nodes than it may.";
    case 23: return "BadMagic: The first bytes are not those of a directory.";
    case 24: return "Truncated: The directory is cut off.";
    case 25: return "Trailing: Bytes are left over after the directory.";
    case 26: return "KeyCount: The directory lists a node with no key, or with more than it may have.";
    case 27: return "UnlistedNode: A key is of a node that is not listed.";
    case 30: return "UnknownNode: The node that is to begin is not listed in the directory.";
    case 31: return "WrongKey: The key is none of the node's keys, is or was in use, or has signed already.";
    case 32: return "NotMine: The message is for another node.";
    case 33: return "UnknownSender: The sender is not listed in the directory, or is this node.";
    case 34: return "BadSignature: No key of the sender verifies the message's signature.";
    case 35: return "PayloadTooLong: The payload of a message is too long.";
    case 36: return "KeySpent: The key in use has too few leaves left.";
    case 37: return "LogFull: The log is full.";
    case 38: return "BadAck: The acknowledgement is for no message that the node sent, or it is not valid.";
    case 39: return "NumberTaken: Another message of this sender with this number was received.";
    case 40: return "Truncated: A text is cut off.";
    case 41: return "BadTag: A tag, a flag or a form is unknown, or is not the one that is asked for.";
    case 42: return "TooLong: A length or a count is above its limit.";
    case 43: return "Trailing: Bytes are left over.";
    case 44: return "UnknownNode: A node is not listed.";
    case 45: return "SelfMessage: A message is from a node to itself.";
    case 46: return "EmptySegment: A segment has no entry.";
    case 47: return "BadStart: A segment begins neither with a log's first entry nor with a CHECKPOINT.";
    case 48: return "BadRange: The range of an audit challenge is empty, or is of two nodes.";
    case 49: return "BadSignature: A signature of an item is not valid.";
    case 50: return "NoContradiction: The parts of a proof do not contradict each other, or are of two nodes.";
    case 51: return "Conforms: The segment that a proof presents conforms.";
    case 60: return "BadMagic: The first bytes of a text are not those of what it is read as.";
    case 61: return "NotAscending: The items of a store, or the digests of a summary, do not ascend.";
    case 62: return "NothingKept: No bucket of a short summary is kept.";
    case 70: return "NotForMe: The challenge is against another node.";
    case 71: return "NotInLog: The challenge names an entry that is not in the log.";
    case 72: return "NoAnswerNeeded: The item is no challenge.";
    case 99: return "Memory: A growth of memory was refused.";
    case 110: return "Closed: The handle is closed.";
    case 111: return "OtherKind: The handle is open for something else, or for another program.";
    case 112: return "OtherDirectory: The two stores are under two directories.";
    case 113: return "BadProgram: The program is unknown.";
    case 114: return "StillOpen: The handle is open.";
    case 115: return "NotExposed: The items do not expose the node.";
    case 116: return "OutOfRange: There is nothing at this place or with this number.";
    case 117: return "WrongLength: The bytes, or the room for them, have another length than they must have.";
    case 122: return "Damaged: The journal is damaged in a way that no crash causes.";
    case 123: return "OtherProgram: The journal is of another program.";
    case 124: return "OtherDirectory: The journal is of another directory.";
    case 126: return "EmptyJournal: The journal has no text.";
    case 127: return "NoBeginning: The first text of the journal does not say how a node began.";
    case 128: return "OtherKey: None of the seeds makes a key that the journal names.";
    case 129: return "BadRecord: A text of the journal is no record.";
    }
    return "Unknown: The number is none that there is.";
}
/* end */

/* A call was refused. It changed nothing, but that Node::answer may have received the message where it tells 99. */
class Refused : public std::runtime_error {
  public:
    explicit Refused(uint8_t number) : std::runtime_error("refused " + std::to_string(number) + " " + told(number)), number_(number) {}
    uint8_t number() const { return number_; }

  private:
    uint8_t number_;
};

enum class Program : uint8_t { tally = BULWYNEF_TALLY, relay = BULWYNEF_RELAY, mailbox = BULWYNEF_MAILBOX };
enum class Indication : uint8_t { trusted = BULWYNEF_TRUSTED, suspected = BULWYNEF_SUSPECTED, exposed = BULWYNEF_EXPOSED };

using Entropy = std::array<uint8_t, BULWYNEF_ENTROPY_LEN>;
using PublicKey = std::array<uint8_t, BULWYNEF_PUBLIC_KEY_LEN>;

/* Bytes of the system's random numbers. */
template <std::size_t N> std::array<uint8_t, N> random_bytes() {
    std::array<uint8_t, N> bytes;
    std::ifstream device("/dev/urandom", std::ios::binary);
    if (!device.read(reinterpret_cast<char *>(bytes.data()), N)) throw std::runtime_error("/dev/urandom does not give random bytes");
    return bytes;
}

namespace inner {

inline void done(uint8_t answer) {
    if (answer != BULWYNEF_OK) throw Refused(answer);
}

/* This process, and none that it was forked off or forks off. */
struct Process {
    pid_t id;
    unsigned forks;
    static Process now() {
        static unsigned forks = 0;
        static const int registered = pthread_atfork(nullptr, nullptr, [] { forks++; });
        (void)registered;
        return {getpid(), forks};
    }
    bool is_this() const {
        const Process it = now();
        return id == it.id && forks == it.forks;
    }
};

/* A handle that is closed at its end, in the process that opened it. */
class Handle {
  public:
    Handle() = default;
    Handle(Handle &&other) noexcept : handle_(std::exchange(other.handle_, {nullptr, false})), process_(other.process_) {}
    Handle &operator=(Handle &&other) noexcept {
        std::swap(handle_, other.handle_);
        std::swap(process_, other.process_);
        return *this;
    }
    ~Handle() { close(); }
    void close() noexcept {
        if (process_.is_this()) bulwynef_close(&handle_);
    }
    bulwynef_handle *get() {
        if (!process_.is_this()) throw std::logic_error("this handle was opened before fork, and is its parent's");
        return &handle_;
    }

  private:
    bulwynef_handle handle_ = BULWYNEF_HANDLE_INIT;
    Process process_ = Process::now();
};

/* A call that answers a text behind a handle at its end. */
template <class Call, class... Words> Bytes text(Call call, Words... words) {
    Handle handle;
    done(call(words..., handle.get()));
    Bytes bytes(bulwynef_text_len(handle.get()));
    done(bulwynef_text_copy(handle.get(), bytes.data(), bytes.size()));
    return bytes;
}

template <class Call, class... Words> std::string words_of(Call call, Words... words) {
    const Bytes bytes = text(call, words...);
    return std::string(bytes.begin(), bytes.end());
}

/* A call that writes one number at its end. */
template <class Number, class Call, class... Words> Number number(Call call, Words... words) {
    Number room = 0;
    done(call(words..., &room));
    return room;
}

/* What a call gives at each place, from 0 to the first at which there is nothing. */
template <class Call> auto each(Call at) {
    std::vector<decltype(at(std::size_t(0)))> found;
    try {
        for (;;) found.push_back(at(found.size()));
    } catch (const Refused &refused) {
        if (refused.number() != BULWYNEF_REFUSED_OUT_OF_RANGE) throw;
    }
    return found;
}

} // namespace inner

/* A seed and what else makes a key: a tree of H5 signs 32 statements, of H10 1,024. A seed signs in one node, in one process, once. */
struct Key {
    std::array<uint8_t, BULWYNEF_KEY_ID_LEN> id;
    std::array<uint8_t, BULWYNEF_SEED_LEN> seed;
    uint32_t lms_type = BULWYNEF_H5, ots_type = BULWYNEF_W8;

    static Key random(uint32_t lms_type = BULWYNEF_H5, uint32_t ots_type = BULWYNEF_W8) {
        return {random_bytes<BULWYNEF_KEY_ID_LEN>(), random_bytes<BULWYNEF_SEED_LEN>(), lms_type, ots_type};
    }
    PublicKey public_key() const {
        PublicKey key;
        inner::done(bulwynef_public_key(lms_type, ots_type, id.data(), id.size(), seed.data(), seed.size(), key.data(), key.size()));
        return key;
    }
};

/* The text of a directory of nodes, each with its public keys, one to eight. */
inline Bytes directory(const std::map<uint32_t, std::vector<PublicKey>> &nodes) {
    Bytes text{'P', 'R', 'D', 'I', 'R', 'E', 'C', '2'};
    const auto put = [&text](std::size_t number) {
        for (int shift = 24; shift >= 0; shift -= 8) text.push_back(uint8_t(number >> shift));
    };
    put(nodes.size());
    for (const auto &[node, keys] : nodes) {
        if (keys.empty() || keys.size() > 8) throw std::invalid_argument("a node has one key to eight");
        put(node);
        text.push_back(uint8_t(keys.size()));
        for (const PublicKey &key : keys) text.insert(text.end(), key.begin(), key.end());
    }
    return text;
}

/* The node that the proof convicts before anybody who has the directory and the program. */
inline uint32_t check_proof(View directory, View proof, Program program) {
    return inner::number<uint32_t>(bulwynef_check_proof, uint8_t(program), directory.data(), directory.size(), proof.data(), proof.size());
}

/* The same, and why, for a person to read. */
inline std::string explain_proof(View directory, View proof, Program program) {
    return inner::words_of(bulwynef_explain_proof, uint8_t(program), directory.data(), directory.size(), proof.data(), proof.size());
}

/* The statement at a place of those that an item has. Nothing is verified of items here: a store verifies what it takes. */
inline Bytes statement_of(View item, std::size_t place = 0) { return inner::text(bulwynef_statement_of, item.data(), item.size(), place); }

/* The demand for a node's log up to the entry of its statement, from that of another one or from the beginning. */
inline Bytes audit_challenge(View last, View first = {}) {
    return inner::text(bulwynef_audit_challenge, first.data(), first.size(), last.data(), last.size());
}

/* The demand to acknowledge the message of an item, a message or an acknowledgement. */
inline Bytes send_challenge(View message) { return inner::text(bulwynef_send_challenge, message.data(), message.size()); }

/* A set of items of evidence under a directory, of nodes that follow a program. */
class Store {
  public:
    Store(View directory, Program program) {
        inner::done(bulwynef_store_open(uint8_t(program), directory.data(), directory.size(), at_.get()));
    }
    /* Adds an item; whether it is new. */
    bool take(View item) { return inner::number<uint8_t>(bulwynef_store_take, at_.get(), item.data(), item.size()) == 1; }
    /* Adds the items of an export, all or none; how many are new. */
    uint64_t load(View text) { return inner::number<uint64_t>(bulwynef_store_import, at_.get(), text.data(), text.size()); }
    /* Adds the items of another store, all or none; how many are new. */
    uint64_t merge(Store &other) { return &other == this ? 0 : inner::number<uint64_t>(bulwynef_store_merge, at_.get(), other.at_.get()); }
    /* Whether each item of the other store is here. */
    bool includes(Store &other) {
        return &other == this || inner::number<uint8_t>(bulwynef_store_includes, at_.get(), other.at_.get()) == 1;
    }
    Indication indication(uint32_t node) { return Indication(inner::number<uint8_t>(bulwynef_store_indication, at_.get(), node)); }
    /* A proof that convicts the node, where the items expose it. */
    std::optional<Bytes> proof(uint32_t node) {
        try {
            return inner::text(bulwynef_store_proof, at_.get(), node);
        } catch (const Refused &refused) {
            if (refused.number() != BULWYNEF_REFUSED_NOT_EXPOSED) throw;
            return std::nullopt;
        }
    }
    /* The challenges against a node that no item answers, in the order of their bytes. */
    std::vector<Bytes> challenges(uint32_t node) {
        return inner::each([&](std::size_t place) { return inner::text(bulwynef_store_challenge, at_.get(), node, place); });
    }
    /* What the items say of each node, under which program and directory, and why, for a person to read. */
    std::string explain() { return inner::words_of(bulwynef_store_explain, at_.get()); }
    /* The export: the one text of the items. */
    Bytes to_bytes() { return inner::text(bulwynef_store_export, at_.get()); }
    /* What stores give one another: an outline, a summary of all or against an outline, and a pack of what the summary does not name. */
    Bytes outline() { return inner::text(bulwynef_store_outline, at_.get()); }
    Bytes summary() { return inner::text(bulwynef_store_summary, at_.get()); }
    Bytes summary(View outline) { return inner::text(bulwynef_store_short_summary, at_.get(), outline.data(), outline.size()); }
    Bytes pack(View summary) { return inner::text(bulwynef_store_pack, at_.get(), summary.data(), summary.size()); }
    uint64_t apply(View pack) { return inner::number<uint64_t>(bulwynef_store_apply, at_.get(), pack.data(), pack.size()); }
    void close() { at_.close(); }

  private:
    inner::Handle at_;
};

/* The texts of a node's journal. The host owns the file, and keeps to the order of the steps in bulwynef.h, "nodes that survive". It makes
 * the record of a call, and writes and syncs the record's block. Then it makes the call of the node, with the same input and the same
 * entropy. Last it sends what the node answers. */

/* The open block of a text, which stands for it in a journal. */
inline Bytes journal_block(View text) { return inner::text(bulwynef_journal_block, text.data(), text.size()); }
/* The place of the closed gate in the bytes of a journal. What is behind the gate counts for nothing. */
inline std::size_t journal_end(View journal) { return inner::number<std::size_t>(bulwynef_journal_end, journal.data(), journal.size()); }
/* The first text: how the node begins. It has the public key, and no seed. */
inline Bytes node_beginning(View directory, uint32_t id, const Key &key, Program program, uint64_t first_seq = 1) {
    return inner::text(bulwynef_node_beginning, uint8_t(program), directory.data(), directory.size(), id, first_seq, key.lms_type,
                       key.ots_type, key.id.data(), key.id.size(), key.seed.data(), key.seed.size());
}
/* The record of Node::timer. */
inline Bytes record_timer(uint64_t moment, const Entropy &entropy) {
    return inner::text(bulwynef_record_timer, moment, entropy.data(), entropy.size());
}
/* The record of Node::answer, if it is given a message. An audit changes nothing of the node, and has no record. */
inline Bytes record_answer(View challenge, const Entropy &entropy) {
    return inner::text(bulwynef_record_answer, challenge.data(), challenge.size(), entropy.data(), entropy.size());
}
/* The record of an acknowledgement that Node::accept_ack accepted. */
inline Bytes record_ack(View ack) { return inner::text(bulwynef_record_ack, ack.data(), ack.size()); }
/* The record of Node::checkpoint. */
inline Bytes record_checkpoint() { return inner::text(bulwynef_record_checkpoint); }
/* The record of Node::next_key. It has the public key, and no seed. */
inline Bytes record_next_key(const Key &key) {
    return inner::text(bulwynef_record_next_key, key.lms_type, key.ots_type, key.id.data(), key.id.size(), key.seed.data(),
                       key.seed.size());
}

/* A node that follows its program, logs what comes and goes, and signs it. It ends with its process, unless a journal has each call that
 * changed it. If a call is refused by 99 (Memory) and its record is written, close the node and rebuild it. */
class Node {
  public:
    Node(View directory, uint32_t id, const Key &key, Program program, uint64_t first_seq = 1) {
        inner::done(bulwynef_node_new(uint8_t(program), directory.data(), directory.size(), id, first_seq, key.lms_type, key.ots_type,
                                      key.id.data(), key.id.size(), key.seed.data(), key.seed.size(), at_.get()));
    }
    /* The node of a journal's bytes: it began as the first text says, and did what the further ones record. Each key that the journal names
       is among these. */
    static Node rebuild(View directory, const std::vector<Key> &keys, View journal, Program program) {
        Node node;
        Bytes secrets;
        for (const Key &key : keys) {
            secrets.insert(secrets.end(), key.id.begin(), key.id.end());
            secrets.insert(secrets.end(), key.seed.begin(), key.seed.end());
        }
        inner::done(bulwynef_node_rebuild(uint8_t(program), directory.data(), directory.size(), secrets.data(), secrets.size(),
                                          journal.data(), journal.size(), node.at_.get()));
        return node;
    }
    /* The timer ticks; what the node sends waits. */
    void timer(uint64_t moment, const Entropy &entropy = random_bytes<BULWYNEF_ENTROPY_LEN>()) {
        inner::done(bulwynef_node_timer(at_.get(), moment, entropy.data(), entropy.size()));
    }
    /* The numbers of the messages that wait for their acknowledgements. */
    std::vector<uint64_t> waiting() {
        return inner::each([&](std::size_t place) { return inner::number<uint64_t>(bulwynef_node_waiting, at_.get(), place); });
    }
    /* A message that was sent, as a challenge to acknowledge it. */
    Bytes message(uint64_t seq) { return inner::text(bulwynef_node_message, at_.get(), seq); }
    /* To a message its acknowledgement, to an audit a segment of the log; what was answered before, as it was. After 99 the same call again
       answers it. */
    Bytes answer(View challenge, const Entropy &entropy = random_bytes<BULWYNEF_ENTROPY_LEN>()) {
        return inner::text(bulwynef_node_answer, at_.get(), challenge.data(), challenge.size(), entropy.data(), entropy.size());
    }
    /* The entries of the log, each as a segment has it. Nothing is signed for it. */
    Bytes history() { return inner::text(bulwynef_node_history, at_.get()); }
    /* Accepts an acknowledgement of just a message that was sent: it waits no longer. */
    void accept_ack(View ack) { inner::done(bulwynef_node_accept_ack(at_.get(), ack.data(), ack.size())); }
    /* Logs a checkpoint, from which an audit can begin; its number. */
    uint64_t checkpoint() { return inner::number<uint64_t>(bulwynef_node_checkpoint, at_.get()); }
    /* How many statements the key in use still signs. */
    uint32_t remaining() { return inner::number<uint32_t>(bulwynef_node_remaining, at_.get()); }
    /* Signs by another of the node's keys from now on. */
    void next_key(const Key &key) {
        inner::done(bulwynef_node_next_key(at_.get(), key.lms_type, key.ots_type, key.id.data(), key.id.size(), key.seed.data(),
                                           key.seed.size()));
    }
    /* Whether a statement is another node's, or one that this node signed. If a witness holds one that the node does not know, the journal
       is an old copy, and none of the node's keys may ever sign again. Nothing is verified of the statement here. */
    bool knows(View statement) {
        return inner::number<uint8_t>(bulwynef_node_knows, at_.get(), statement.data(), statement.size()) == 1;
    }
    void close() { at_.close(); }

  private:
    Node() = default;
    inner::Handle at_;
};

} // namespace bulwynef
#endif

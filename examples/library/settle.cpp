// Settles a swap whose parties all keep to the protocol, by the library alone, as settle.c does.
//
// usage: settle < LINES > TRANSCRIPT
#include <iostream>
#include <map>
#include <sstream>
#include <stdexcept>
#include <string>
#include <vector>

#include "swap_party.h"

namespace {

const uint8_t *bytes(const std::string &text) { return reinterpret_cast<const uint8_t *>(text.data()); }

struct Party {
    std::string name, seed, notes, agreed;
};

struct Ledger {
    std::string from, to, entries;
    unsigned long count = 0;

    void enter(const std::string &entry) {
        entries += entry + "\n";
        count++;
    }
};

// What the library answers a party: what is due, or what the party agrees to.
std::string answered(const Party &party, bool is_next, const std::string &text) {
    std::string out(1 << 14, '\0');
    for (;;) {
        uint8_t *const at = reinterpret_cast<uint8_t *>(&out[0]);
        const uint8_t *const name = bytes(party.name);
        const swap_party_said said =
            is_next ? swap_party_next(bytes(text), text.size(), name, party.name.size(), bytes(party.seed), at, out.size())
                    : swap_party_terms(bytes(text), text.size(), name, party.name.size(), at, out.size());
        if (said.status == SWAP_PARTY_SHORT) {
            out.resize(said.length);
            continue;
        }
        out.resize(said.length);
        if (said.status != SWAP_PARTY_DONE)
            throw std::runtime_error(party.name + ": " + swap_party_status_text(said.status) + ": " + out);
        return out;
    }
}

// What stands behind a field's name in compact JSON, from a place on, up to a sign.
std::string field(const std::string &json, const std::string &name, char end, size_t from = 0) {
    const size_t at = json.find("\"" + name + "\":", from);
    if (at == std::string::npos)
        throw std::runtime_error("the header has no " + name);
    const size_t begin = at + name.size() + 3 + (end == '"');
    return json.substr(begin, json.find(end, begin) - begin);
}

struct Swap {
    std::string header;
    std::vector<Ledger> ledgers;
    std::vector<Party> parties;

    void read(std::istream &lines) {
        std::getline(lines, header);
        for (size_t at = 0; (at = header.find("\"from\":", at)) != std::string::npos; at++)
            ledgers.push_back({field(header, "from", '"', at), field(header, "to", '"', at), "", 0});
        for (std::string name, seed; lines >> name >> seed;) {
            Party party{name, "", "", ""};
            for (size_t at = 0; at + 1 < seed.size(); at += 2)
                party.seed += static_cast<char>(std::stoi(seed.substr(at, 2), nullptr, 16));
            party.seed.resize(SWAP_PARTY_SEED_SIZE);
            parties.push_back(party);
        }
    }

    // Keeps the digest of the terms, to which here every owner agrees as they are.
    void agree(Party &party) const {
        std::istringstream lines(answered(party, false, header + "\n"));
        for (std::string line; std::getline(lines, line);)
            if (line.rfind("agree ", 0) == 0)
                party.agreed = line.substr(6);
    }

    // The header, and what stands on every ledger, or on those that touch one party.
    std::string told(const std::string *name) const {
        std::ostringstream told;
        told << header << "\n";
        for (size_t arc = 0; arc < ledgers.size(); arc++) {
            const Ledger &it = ledgers[arc];
            if (!name || it.from == *name || it.to == *name)
                told << "ledger " << arc << " " << it.count << "\n" << it.entries;
        }
        return told.str() + "end\n";
    }

    // Keeps what is to be kept, writes down a publish before it goes out, and presents a call.
    bool obey(Party &party, const std::string &line) {
        std::istringstream words(line);
        std::string word, number, by, height, call;
        size_t arc;
        if (line.rfind("keep ", 0) == 0)
            party.notes += line + "\n";
        else if (words >> word >> arc >> number >> by >> height && word == "call" && std::getline(words, call)) {
            // (an unlock says until when it is accepted)
            if (call.rfind(" until ", 0) == 0)
                call.erase(0, call.find(' ', 7));
            if (call.rfind(" publish ", 0) == 0)
                party.notes += "sent " + std::to_string(arc) + "\n";
            ledgers.at(arc).enter("c " + number + call + " = accepted");
        } else
            return false;
        return true;
    }

    bool turn(Party &party) {
        bool acted = false;
        std::istringstream lines(answered(party, true, "agreed " + party.agreed + "\n" + party.notes + told(&party.name)));
        for (std::string line; std::getline(lines, line);)
            acted |= obey(party, line);
        return acted;
    }

    void settle() {
        const long bound = std::stol(field(header, "bound", ',')), delta = std::stol(field(header, "delta", ','));
        const long horizon = std::stol(field(header, "start", ',')) + (2 * bound + 2) * delta;
        for (Party &party : parties)
            agree(party);
        for (long height = 0; height <= horizon; height++) {
            for (bool acted = true; acted;) {
                acted = false;
                for (Party &party : parties)
                    acted |= turn(party);
            }
            for (Ledger &ledger : ledgers)
                ledger.enter("t 1");
        }
    }
};

} // namespace

int main() {
    Swap swap;
    uint8_t id[SWAP_PARTY_ID_SIZE];
    try {
        swap.read(std::cin);
        if (swap_party_check(bytes(swap.header), swap.header.size(), id, sizeof id).status != SWAP_PARTY_DONE)
            throw std::runtime_error("the header's deal isn't accepted");
        swap.settle();
    } catch (const std::exception &why) {
        std::cerr << "settle: " << why.what() << "\n";
        return 1;
    }
    std::cout << "swap transcript 1\n" << swap.told(nullptr) << std::flush;
    return std::cout ? 0 : 1;
}

// Two nodes and a witness: node 2 answers, then tells another history, and is exposed.
//   c++ -std=c++17 first.cpp $(pkg-config --cflags --libs bulwynef)
#include <bulwynef.hpp>
#include <iostream>

using namespace bulwynef;

int main() {
    const Key first = Key::random(), second = Key::random();
    const Bytes listed = directory({{1, {first.public_key()}}, {2, {second.public_key()}}});
    Node one(listed, 1, first, Program::tally), two(listed, 2, second, Program::tally), liar(listed, 2, second, Program::tally);
    Store witness(listed, Program::tally);
    one.timer(5);
    witness.take(two.answer(one.message(one.waiting().at(0))));
    std::cout << "exposed: " << (witness.indication(2) == Indication::exposed) << "\n";
    one.timer(6);
    witness.take(liar.answer(one.message(one.waiting().at(1))));
    std::cout << "exposed: " << (witness.indication(2) == Indication::exposed) << "\n";
    std::cout << "the proof exposes " << check_proof(listed, *witness.proof(2), Program::tally) << "\n";
}

//! Two nodes and a witness: node 2 answers, then tells another history, and is exposed.

use bulwynef::{check_proof, directory, Error, Key, Node, Program::Tally, Store};

fn main() -> Result<(), Error> {
    let (first, second) = (Key::random()?, Key::random()?);
    let listed = directory(&[(1, &[first.public()?]), (2, &[second.public()?])]);
    let (mut one, mut two) = (Node::new(&listed, 1, &first, Tally)?, Node::new(&listed, 2, &second, Tally)?);
    let (mut liar, mut witness) = (Node::new(&listed, 2, &second, Tally)?, Store::new(&listed, Tally)?);
    for (moment, node) in [(5, &mut two), (6, &mut liar)] {
        one.timer(moment)?;
        let seq = one.waiting().last().unwrap()?;
        witness.take(&node.answer(&one.message(seq)?)?)?;
        println!("node 2 is {:?}", witness.indication(2)?);
    }
    println!("the proof exposes {}", check_proof(&listed, &witness.proof(2)?.unwrap(), Tally)?);
    Ok(())
}

//! What is kept by types and at run time: handles go to other threads, a child of fork is refused them, and a node is rebuilt of its
//! journal.

use bulwynef::{directory, fresh_entropy, journal_block, journal_end, node_beginning, record_timer, statements_of};
use bulwynef::{Indication, Key, Node, Program, Refusal, Store};
use std::thread;

extern "C" {
    fn fork() -> i32;
    fn waitpid(process: i32, status: *mut i32, options: i32) -> i32;
    fn _exit(status: i32) -> !;
}

fn is_send<T: Send>() {}

fn scene() -> (Vec<u8>, Key, Key) {
    let (first, second) = (Key::random().unwrap(), Key::random().unwrap());
    let listed = directory(&[(1, &[first.public().unwrap()]), (2, &[second.public().unwrap()])]);
    (listed, first, second)
}

#[test]
fn a_store_and_a_node_go_to_another_thread() {
    is_send::<Store>();
    is_send::<Node>();
    let (listed, first, second) = scene();
    let mut one = Node::new(&listed, 1, &first, Program::Tally).unwrap();
    let mut two = Node::new(&listed, 2, &second, Program::Tally).unwrap();
    let mut witness = Store::new(&listed, Program::Tally).unwrap();
    let ack = thread::spawn(move || {
        one.timer(5).unwrap();
        let seq = one.waiting().next().unwrap().unwrap();
        let ack = two.answer(&one.message(seq).unwrap()).unwrap();
        one.accept_ack(&ack).unwrap();
        assert!(one.waiting().next().is_none());
        ack
    });
    let ack = ack.join().unwrap();
    let witness = thread::spawn(move || {
        assert!(witness.take(&ack).unwrap());
        assert_eq!(statements_of(&ack).map(Result::unwrap).count(), 2);
        witness
    });
    assert_eq!(witness.join().unwrap().indication(2).unwrap(), Indication::Trusted);
}

#[test]
fn a_child_of_fork_is_refused_its_parents_handles() {
    let (listed, first, _) = scene();
    let mut one = Node::new(&listed, 1, &first, Program::Tally).unwrap();
    // SAFETY: the child calls nothing but the library, allocates little, and ends by `_exit`.
    unsafe {
        let child = fork();
        if child == 0 {
            let is_refused = one.remaining() == Err(Refusal::Closed) && one.timer_with(1, &[0; 32]) == Err(Refusal::Closed);
            drop(one);
            let is_own = Store::new(&listed, Program::Tally).map(|mut it| it.indication(1)) == Ok(Ok(Indication::Trusted));
            _exit(if is_refused && is_own { 7 } else { 1 });
        }
        let mut status = 0;
        assert_eq!(waitpid(child, &mut status, 0), child);
        assert_eq!(status >> 8, 7);
    }
    assert_eq!(one.remaining(), Ok(32));
}

#[test]
fn a_node_is_rebuilt_of_its_journal() {
    let (listed, first, second) = scene();
    let entropy = fresh_entropy().unwrap();
    let texts = [node_beginning(&listed, 1, &first, Program::Tally, 1).unwrap(), record_timer(5, &entropy).unwrap()];
    let mut journal: Vec<u8> = texts.iter().flat_map(|text| journal_block(text).unwrap()).collect();
    journal.push(0);
    assert_eq!(journal_end(&journal), Ok(journal.len() - 1));
    let mut one = Node::new(&listed, 1, &first, Program::Tally).unwrap();
    one.timer_with(5, &entropy).unwrap();
    let mut back = Node::rebuild(&listed, &[&second, &first], &journal, Program::Tally).unwrap();
    let seq = one.waiting().next().unwrap().unwrap();
    let message = one.message(seq).unwrap();
    assert_eq!((back.message(seq), back.history(), back.remaining()), (Ok(message.clone()), one.history(), Ok(31)));
    for statement in statements_of(&message) {
        assert_eq!(back.knows(&statement.unwrap()), Ok(true));
    }
    assert_eq!(Node::rebuild(&listed, &[&second], &journal, Program::Tally).err(), Some(Refusal::OtherKey));
}

#[test]
fn a_refusal_has_its_number_and_its_name() {
    for number in 0..=u8::MAX {
        assert_eq!(Refusal::from_number(number).number(), number);
    }
    assert_eq!((Refusal::Truncated.number(), Refusal::Truncated.name()), (40, "Truncated"));
    assert_eq!((Refusal::DirectoryTruncated.number(), Refusal::DirectoryTruncated.name()), (24, "Truncated"));
    assert_eq!(Refusal::from_number(1), Refusal::Other(1));
}

#[test]
fn a_key_does_not_show_its_seed() {
    let key = Key::new(bulwynef::LmsType::H5, bulwynef::OtsType::W8, [1; 16], [0xab; 32]);
    assert!(!format!("{key:?}").contains("171"));
}

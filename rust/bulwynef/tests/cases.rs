//! bindings/cases.txt, by this crate. bindings/README.md says how a line is read.

use bulwynef::{audit_challenge, check_proof, explain_proof, send_challenge, statement_of};
use bulwynef::{journal_block, journal_end, node_beginning, record_ack, record_answer, record_checkpoint, record_next_key, record_timer};
use bulwynef::{Key, LmsType, Node, OtsType, Program, Refusal, Store};
use std::collections::HashMap;

/// What a call answers beside 0.
#[derive(PartialEq)]
enum Answer {
    Nothing,
    Number(u64),
    Text(Vec<u8>),
}

#[derive(Default)]
struct Runner {
    texts: HashMap<String, Vec<u8>>,
    stores: HashMap<String, Store>,
    nodes: HashMap<String, Node>,
}

fn bytes<const N: usize>(text: &[u8]) -> [u8; N] {
    text.try_into().expect("a text of this length")
}

fn program(word: &str) -> Program {
    match word {
        "1" => Program::Tally,
        "2" => Program::Relay,
        _ => Program::Mailbox,
    }
}

fn number(word: &str) -> u64 {
    word.parse().expect("a number")
}

fn flag(told: bool) -> Answer {
    Answer::Number(told.into())
}

impl Runner {
    fn text(&self, word: &str) -> &[u8] {
        &self.texts[&word[1..]]
    }

    fn key(&self, words: &[&str]) -> Key {
        let lms_type = if words[0] == "5" { LmsType::H5 } else { LmsType::Other(number(words[0]) as u32) };
        let ots_type = if words[1] == "4" { OtsType::W8 } else { OtsType::Other(number(words[1]) as u32) };
        Key::new(lms_type, ots_type, bytes(self.text(words[2])), bytes(self.text(words[3])))
    }

    /// The keys of a text of secrets, each an identifier and a seed. The journal has their types.
    fn keys(&self, word: &str) -> Vec<Key> {
        let secrets = self.text(word).chunks(48);
        secrets.map(|it| Key::new(LmsType::H5, OtsType::W8, bytes(&it[..16]), bytes(&it[16..]))).collect()
    }

    fn store(&mut self, words: &[&str]) -> Result<Answer, Refusal> {
        if words[0] == "store_open" {
            let store = Store::new(self.text(words[3]), program(words[2]))?;
            self.stores.insert(words[1].into(), store);
            return Ok(Answer::Nothing);
        }
        let mut store = self.stores.remove(words[1]).expect("a store");
        let answer = self.asked(&mut store, words);
        self.stores.insert(words[1].into(), store);
        answer
    }

    fn asked(&mut self, store: &mut Store, words: &[&str]) -> Result<Answer, Refusal> {
        Ok(match words[0] {
            "store_take" => flag(store.take(self.text(words[2]))?),
            "store_import" => Answer::Number(store.import(self.text(words[2]))?),
            "store_merge" => Answer::Number(store.merge(self.stores.get_mut(words[2]).expect("a store"))?),
            "store_includes" => flag(store.includes(self.stores.get_mut(words[2]).expect("a store"))?),
            "store_indication" => Answer::Number(store.indication(number(words[2]) as u32)? as u64 + 1),
            "store_proof" => Answer::Text(store.proof(number(words[2]) as u32)?.ok_or(Refusal::NotExposed)?),
            "store_challenge" => {
                let found = store.challenge(number(words[2]) as u32, number(words[3]) as usize);
                let nth = store.challenges(number(words[2]) as u32).nth(number(words[3]) as usize);
                assert_eq!(found, nth.unwrap_or(Err(Refusal::OutOfRange)));
                Answer::Text(found?)
            }
            "store_explain" => Answer::Text(store.explain()?.into_bytes()),
            "store_export" => Answer::Text(store.export()?),
            "store_outline" => Answer::Text(store.outline()?),
            "store_summary" => Answer::Text(store.summary()?),
            "store_short_summary" => Answer::Text(store.short_summary(self.text(words[2]))?),
            "store_pack" => Answer::Text(store.pack(self.text(words[2]))?),
            "store_apply" => Answer::Number(store.apply(self.text(words[2]))?),
            other => panic!("no such call: {other}"),
        })
    }

    fn node(&mut self, words: &[&str]) -> Result<Answer, Refusal> {
        if words[0] == "node_new" {
            let key = self.key(&words[6..]);
            let node = Node::from_seq(self.text(words[3]), number(words[4]) as u32, &key, program(words[2]), number(words[5]))?;
            self.nodes.insert(words[1].into(), node);
            return Ok(Answer::Nothing);
        }
        if words[0] == "node_rebuild" {
            let keys = self.keys(words[4]);
            let keys: Vec<&Key> = keys.iter().collect();
            let node = Node::rebuild(self.text(words[3]), &keys, self.text(words[5]), program(words[2]))?;
            self.nodes.insert(words[1].into(), node);
            return Ok(Answer::Nothing);
        }
        let mut node = self.nodes.remove(words[1]).expect("a node");
        let answer = self.asked_of(&mut node, words);
        self.nodes.insert(words[1].into(), node);
        answer
    }

    fn asked_of(&self, node: &mut Node, words: &[&str]) -> Result<Answer, Refusal> {
        Ok(match words[0] {
            "node_timer" => node.timer_with(number(words[2]), &bytes(self.text(words[3]))).map(|()| Answer::Nothing)?,
            "node_waiting" => Answer::Number(node.waiting().nth(number(words[2]) as usize).unwrap_or(Err(Refusal::OutOfRange))?),
            "node_message" => Answer::Text(node.message(number(words[2]))?),
            "node_answer" => Answer::Text(node.answer_with(self.text(words[2]), &bytes(self.text(words[3])))?),
            "node_history" => Answer::Text(node.history()?),
            "node_accept_ack" => node.accept_ack(self.text(words[2])).map(|()| Answer::Nothing)?,
            "node_checkpoint" => Answer::Number(node.checkpoint()?),
            "node_remaining" => Answer::Number(node.remaining()?.into()),
            "node_next_key" => node.next_key(&self.key(&words[2..])).map(|()| Answer::Nothing)?,
            "node_knows" => flag(node.knows(self.text(words[2]))?),
            other => panic!("no such call: {other}"),
        })
    }

    /// What belongs to no handle: a block, an end, and the texts of a journal.
    fn of_journal(&self, words: &[&str]) -> Result<Answer, Refusal> {
        let text = |place: usize| self.text(words[place]);
        Ok(Answer::Text(match words[0] {
            "journal_block" => journal_block(text(1))?,
            "journal_end" => return Ok(Answer::Number(journal_end(text(1))? as u64)),
            "node_beginning" => {
                node_beginning(text(2), number(words[3]) as u32, &self.key(&words[5..]), program(words[1]), number(words[4]))?
            }
            "record_timer" => record_timer(number(words[1]), &bytes(text(2)))?,
            "record_answer" => record_answer(text(1), &bytes(text(2)))?,
            "record_ack" => record_ack(text(1))?,
            "record_checkpoint" => record_checkpoint()?,
            "record_next_key" => record_next_key(&self.key(&words[1..]))?,
            other => panic!("no such call: {other}"),
        }))
    }

    fn answer(&mut self, words: &[&str]) -> Result<Answer, Refusal> {
        Ok(match words[0] {
            "check_proof" => Answer::Number(check_proof(self.text(words[2]), self.text(words[3]), program(words[1]))?.into()),
            "explain_proof" => Answer::Text(explain_proof(self.text(words[2]), self.text(words[3]), program(words[1]))?.into_bytes()),
            "public_key" => Answer::Text(self.key(&words[1..]).public()?.to_vec()),
            "statement_of" => Answer::Text(statement_of(self.text(words[1]), number(words[2]) as usize)?),
            "audit_challenge" => {
                let first = self.text(words[1]);
                Answer::Text(audit_challenge(Some(first).filter(|it| !it.is_empty()), self.text(words[2]))?)
            }
            "send_challenge" => Answer::Text(send_challenge(self.text(words[1]))?),
            call if call.starts_with("store_") => self.store(words)?,
            call if call.starts_with("record_") || call.starts_with("journal_") || call == "node_beginning" => self.of_journal(words)?,
            _ => self.node(words)?,
        })
    }

    /// Whether the call answers what stands behind `=`.
    fn is_right(&mut self, words: &[&str], wanted: &[&str]) -> bool {
        let (number, answer) = match self.answer(words) {
            Ok(answer) => (0, answer),
            Err(refusal) => (refusal.number(), Answer::Nothing),
        };
        if number.to_string() != wanted[0] {
            return false;
        }
        match wanted.get(1).map(|word| word.split_at(1)) {
            None => answer == Answer::Nothing,
            Some((">", name)) => match answer {
                Answer::Text(text) => self.texts.insert(name.into(), text).is_none(),
                _ => false,
            },
            Some(("@", name)) => answer == Answer::Text(self.texts[name].clone()),
            Some(_) => answer == Answer::Number(wanted[1].parse().expect("a number")),
        }
    }
}

fn decoded(digits: &str) -> Vec<u8> {
    (0..digits.len()).step_by(2).map(|at| u8::from_str_radix(&digits[at..at + 2], 16).expect("digits")).collect()
}

#[test]
fn each_call_answers_as_the_cases_say() {
    let text = std::fs::read_to_string(concat!(env!("CARGO_MANIFEST_DIR"), "/../../bindings/cases.txt")).expect("the cases");
    let (mut runner, mut calls) = (Runner::default(), 0);
    for (place, line) in text.lines().enumerate() {
        let words: Vec<&str> = line.split_whitespace().collect();
        if words[0] == "text" {
            runner.texts.insert(words[1].into(), decoded(words.get(2).unwrap_or(&"")));
        } else if words[0] == "zeros" {
            runner.texts.insert(words[1].into(), vec![0; number(words[2]) as usize]);
        } else if words[0] != "#" {
            let equals = words.iter().position(|word| *word == "=").expect("an equals sign");
            assert!(runner.is_right(&words[..equals], &words[equals + 1..]), "line {}: another answer", place + 1);
            calls += 1;
        }
    }
    assert!(calls > 100);
}

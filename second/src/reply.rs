//! The reply to a query for one of our names.

use crate::faults::{self, Fault};
use crate::history::Standing;
use crate::message::{Header, Message, Question, Record, ANY, CLASS_IN, HEADER};
use crate::table::{Named, Run};

const LONGEST_REPLY: usize = 512;
const TTL_SECONDS: u32 = 30;

/// The reply on an interface, by what the name is there.
pub fn reply(id: u16, question: &Question, named: &Named, interface: u8, standing: &Standing, fault: Fault) -> Message {
    let mut question = question.clone();
    if fault == faults::QUESTION_AS_IN_TABLE {
        question.name = named.labels.clone();
    }
    let wanted = records(&question, named, |run| is_valid(run, interface, &question, fault));
    let mut number = wanted.len();
    let mut used = HEADER + question.length();
    let elsewhere = records(&question, named, |run| !run.on.contains(&interface));
    match fault {
        faults::TC_ELSEWHERE => number += elsewhere.len(),
        faults::ROOM_ELSEWHERE => used += elsewhere.iter().map(Record::length_in_reply).sum::<usize>(),
        _ => {}
    }
    let answers = fitting(wanted, used, fault);
    let header = Header {
        id,
        response: true,
        conflict: if fault == faults::C_BY_TABLE { named.shared } else { *standing == Standing::Shared },
        truncated: answers.len() < number && fault != faults::TC_NEVER,
        tentative: is_tentative(standing, fault),
        questions: 1,
        // A name has at most 24 records.
        answers: answers.len() as u16,
        ..Header::default()
    };
    Message { header, question: Some(question), answers }
}

fn is_tentative(standing: &Standing, fault: Fault) -> bool {
    match standing {
        Standing::Verifying { .. } => true,
        Standing::Defending { .. } => fault == faults::T_WHILE_DEFENDING,
        _ => false,
    }
}

/// Whether a run's records may be taken on an interface.
fn is_valid(run: &Run, interface: u8, question: &Question, fault: Fault) -> bool {
    let whatever = match fault {
        faults::REPLY_ELSEWHERE => true,
        faults::REPLY_ANY_ELSEWHERE => question.qtype == ANY,
        _ => false,
    };
    whatever || run.on.contains(&interface)
}

/// The name's records of some runs that have the question's type, or any for type 255, in table order.
fn records(question: &Question, named: &Named, runs: impl Fn(&Run) -> bool) -> Vec<Record> {
    let wanted = named.records(runs).into_iter().filter(|data| question.qtype == ANY || question.qtype == data.rtype);
    let record = |owner: &Question, rtype, data| Record {
        owner: owner.name.clone(),
        rtype,
        class: CLASS_IN,
        ttl: TTL_SECONDS,
        data,
    };
    wanted.map(|data| record(question, data.rtype, data.octets.clone())).collect()
}

/// The records before the first that would pass 512 octets.
fn fitting(wanted: Vec<Record>, used: usize, fault: Fault) -> Vec<Record> {
    let longest = LONGEST_REPLY - usize::from(fault == faults::REPLY_BELOW_512);
    let mut used = used;
    let mut answers = Vec::new();
    for record in wanted {
        if used + record.length_in_reply() <= longest {
            used += record.length_in_reply();
            answers.push(record);
        } else if fault != faults::REPLY_SKIPS {
            break;
        }
    }
    answers
}

#[cfg(test)]
mod tests {
    use super::*;
    use crate::table::Lent;

    /// The name `a` with the entries after it: `4` and `6` are an A and an AAAA record, all else is a mask.
    fn named(entries: &[u8]) -> Named {
        let mut table = b"\x07\0\x01\0\x01a\0".to_vec();
        for entry in entries {
            match entry {
                b'4' => table.extend([8, 0, 3, 0, 192, 0, 2, 1]),
                b'6' => table.extend([[20, 0, 4, 0].as_slice(), &[0x20; 16]].concat()),
                mask => table.extend([5, 0, 6, 0, *mask]),
            }
        }
        Lent::decode(&table, faults::NONE).names.remove(0)
    }

    /// Types of the answers and TC of the reply on an interface.
    fn answered(named: &Named, interface: u8, qtype: u16, fault: Fault) -> (Vec<u16>, bool) {
        let question = Question { name: named.labels.clone(), qtype, class: CLASS_IN };
        let reply = reply(1, &question, named, interface, &Standing::Unique, fault);
        assert_eq!(usize::from(reply.header.answers), reply.answers.len());
        (reply.answers.iter().map(|record| record.rtype).collect(), reply.header.truncated)
    }

    #[test]
    fn only_what_is_valid_here_is_answered() {
        let named = named(b"4\x016\x024");
        let on = |interface, qtype| answered(&named, interface, qtype, faults::NONE);
        assert_eq!([0, 1, 2].map(|interface| on(interface, ANY).0), [vec![1, 28], vec![1, 1], vec![1]]);
        assert_eq!([0, 1, 2].map(|interface| on(interface, 28).0), [vec![28], vec![], vec![]]);
        assert!((0..4).all(|interface| !on(interface, ANY).1 && !on(interface, 28).1));
    }

    /// A name of three octets leaves 493 for records of 28: 17 fit.
    #[test]
    fn records_of_other_ports_neither_fill_a_reply_nor_cut_it() {
        let one_elsewhere = named(&[&b"\x01"[..], &[b'6'; 17], b"\x026"].concat());
        assert_eq!(answered(&one_elsewhere, 0, 28, faults::NONE), (vec![28; 17], false));
        assert_eq!(answered(&one_elsewhere, 1, ANY, faults::NONE), (vec![28], false));
        assert_eq!(answered(&one_elsewhere, 2, 28, faults::NONE), (vec![], false));
        let first_elsewhere = named(&[&b"\x026\x01"[..], &[b'6'; 18], b"\x026"].concat());
        assert_eq!(answered(&first_elsewhere, 0, ANY, faults::NONE), (vec![28; 17], true));
        assert_eq!(answered(&first_elsewhere, 1, 28, faults::NONE), (vec![28; 2], false));
        assert_eq!(answered(&one_elsewhere, 0, 28, faults::TC_ELSEWHERE), (vec![28; 17], true));
        assert_eq!(answered(&one_elsewhere, 0, 28, faults::ROOM_ELSEWHERE), (vec![28; 16], true));
        assert_eq!(answered(&one_elsewhere, 1, 28, faults::REPLY_ELSEWHERE), (vec![28; 17], true));
    }
}

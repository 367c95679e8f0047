//! Every record of every list is read as the README describes it, to its last
//! word, and the lists hold every refusal that their calls can give.

use std::collections::BTreeMap;

use oracle::answers::list;

const RECORD: usize = 21;

struct Cursor<'a> {
    rest: &'a [u64],
    /// How often each refusal number was read.
    refusals: &'a mut BTreeMap<u64, u64>,
}

impl Cursor<'_> {
    fn word(&mut self) -> u64 {
        self.skip(1)[0]
    }

    fn skip(&mut self, count: usize) -> &[u64] {
        let (taken, rest) = self.rest.split_at(count);
        self.rest = rest;
        taken
    }

    fn counted(&mut self) {
        let count = self.word() as usize;
        self.skip(count);
    }

    /// Arguments, a refusal number, and the mark of the memory, refused or not.
    fn marked(&mut self, arguments: usize) {
        self.skip(arguments);
        let refusal = self.word();
        *self.refusals.entry(refusal).or_default() += 1;
        self.skip(1);
    }

    fn bytes(&mut self) {
        let count = self.word() as usize;
        self.skip(count.div_ceil(8));
    }

    /// Whether the call was answered.
    fn answered(&mut self) -> bool {
        let number = self.word();
        *self.refusals.entry(number).or_default() += 1;
        number == 0
    }

    fn answer(&mut self, words: usize) {
        if self.answered() {
            self.skip(words);
        }
    }
}

fn stream(c: &mut Cursor) {
    match c.word() {
        1 => {
            c.skip(2);
            let words = c.word() as usize;
            c.answer(4 + words + 4);
        }
        2 => {
            c.skip(4);
            c.counted();
            c.skip(4);
        }
        3 | 9 => {
            c.skip(4 + 1 + 4);
        }
        4 | 7 => {
            c.skip(4);
            c.bytes();
            c.skip(4);
        }
        5 | 6 => {
            c.skip(4 + 4);
        }
        8 => {
            c.bytes();
            c.skip(4);
        }
        10 => {
            c.skip(1 + 4);
        }
        11 => {
            c.skip(2);
        }
        other => panic!("opcode {other}"),
    }
}

fn real(c: &mut Cursor) {
    match c.word() {
        1 | 2 | 4 | 5 | 7 => c.skip(2),
        3 => c.skip(3),
        6 => c.skip(4),
        other => panic!("opcode {other}"),
    };
}

fn plan(c: &mut Cursor) {
    assert_eq!(c.word(), 1);
    c.bytes();
    if !c.answered() {
        c.skip(1);
        return;
    }
    c.skip(1);
    for _ in 0..c.word() {
        match c.word() {
            1 => drop(c.skip(5)),
            3 => drop(c.skip(2)),
            other => panic!("kind {other}"),
        }
        c.counted();
    }
}

fn accumulator(c: &mut Cursor) {
    let opcode = c.word();
    c.skip(RECORD);
    match opcode {
        1 => {
            c.skip(2);
            c.answer(RECORD);
        }
        2 => {
            c.skip(RECORD);
            c.answer(RECORD);
        }
        3 | 4 => c.answer(1 + RECORD),
        5 => c.answer(3),
        6 | 7 => c.answer(RECORD),
        8 => {
            c.skip(RECORD);
            c.answer(2 * RECORD);
        }
        9 => c.answer(6),
        other => panic!("opcode {other}"),
    }
}

fn axis_state(c: &mut Cursor) {
    let held = c.word() as usize;
    c.skip(1 + (held + 1) + held + held + 6 * held);
}

fn axis_plan(c: &mut Cursor) {
    c.skip(3);
    c.counted();
}

fn axis(c: &mut Cursor) {
    match c.word() {
        1 => {
            c.counted();
            c.skip(1);
            c.answer(2);
        }
        2 => {
            c.counted();
            c.skip(4);
            c.answer(2 + 4);
        }
        opcode @ 3..=5 => {
            axis_plan(c);
            axis_state(c);
            match opcode {
                3 => drop(c.skip(3)),
                4 => drop(c.skip(1)),
                _ => {
                    axis_plan(c);
                    axis_state(c);
                }
            }
            if c.answered() {
                axis_state(c);
            }
        }
        6 => drop(c.skip(3)),
        other => panic!("opcode {other}"),
    }
}

fn point(c: &mut Cursor) {
    c.counted();
    c.counted();
    c.counted();
}

fn dump(c: &mut Cursor) {
    if c.answered() {
        c.counted();
    }
}

fn tree(c: &mut Cursor) {
    let opcode = c.word();
    assert!(c.word() < 2, "two places");
    match opcode {
        1 => {
            c.bytes();
            if c.answered() {
                c.counted();
            } else {
                c.skip(1);
            }
        }
        2 => {
            c.counted();
            c.answer(0);
        }
        3 => {
            c.skip(4);
            if c.answered() {
                point(c);
                c.skip(4);
            }
        }
        4 => {
            c.counted();
            let coordinates = c.word() as usize;
            c.skip(2 * coordinates);
            c.answer(1);
        }
        5 => {
            point(c);
            c.skip(2);
            dump(c);
        }
        6 => {
            c.skip(2);
            dump(c);
        }
        7 | 9 => dump(c),
        8 => c.answer(0),
        10 => c.answer(6),
        11 => {
            c.counted();
            c.answer(3);
        }
        other => panic!("opcode {other}"),
    }
}

fn grid(c: &mut Cursor) {
    assert_eq!(c.word() as usize, c.rest.len());
    c.bytes();
    c.skip(4);
    while !c.rest.is_empty() {
        let words = c.word() as usize;
        let left = c.rest.len() - words;
        match c.word() {
            1 => c.answer(24),
            2 => {
                c.skip(22);
                c.answer(1);
            }
            3 => c.answer(6),
            4 => c.answer(3),
            5 => {
                c.skip(5);
                c.answer(3);
            }
            6 => c.marked(22),
            7 => c.marked(2),
            8 => c.marked(1),
            9 => c.answer(0),
            10 => c.marked(0),
            11 => c.marked(3),
            12 => c.marked(2),
            other => panic!("opcode {other}"),
        }
        assert_eq!(c.rest.len(), left);
    }
}

fn program(c: &mut Cursor) {
    assert_eq!(c.word() as usize, c.rest.len());
    c.bytes();
    for _ in 0..c.word() {
        if c.answered() {
            c.skip(5);
        } else {
            c.skip(1);
            assert_eq!(c.skip(4), [0; 4]);
            assert!(c.rest.is_empty(), "lines behind a refusal");
        }
    }
}

/// Reads a list and holds it to the refusals it must show.
fn check(kind: &str, count: usize, read: fn(&mut Cursor), expected: &[u64]) {
    let records = list(kind, 5, count).expect("a known kind");
    assert_eq!(list(kind, 5, count).as_ref(), Some(&records));
    let mut refusals = BTreeMap::new();
    for record in &records {
        let mut cursor = Cursor {
            rest: record,
            refusals: &mut refusals,
        };
        read(&mut cursor);
        assert!(cursor.rest.is_empty(), "{kind}: words left of {record:x?}");
    }
    let shown: Vec<u64> = refusals.keys().copied().collect();
    assert_eq!(shown, expected, "{kind}: {refusals:?}");
}

#[test]
fn streams() {
    check("stream", 2000, stream, &[0, 3]);
}

#[test]
fn reals() {
    check("real", 2000, real, &[]);
}

#[test]
fn plans() {
    check("plan", 1500, plan, &[0, 1, 2, 3]);
}

#[test]
fn accumulators() {
    check("accumulator", 3000, accumulator, &[0, 3, 7, 8, 12]);
}

#[test]
fn axes() {
    check("axis", 4000, axis, &[0, 3, 4, 5, 7, 8, 9, 11, 12]);
}

#[test]
fn trees() {
    check("tree", 60, tree, &[0, 1, 2, 3, 4, 5, 6, 7, 8, 9, 11, 12]);
}

#[test]
fn grids() {
    check("grid", 300, grid, &[0, 3, 4, 5, 6, 7, 8, 9, 11, 12]);
}

#[test]
fn programs() {
    check("program", 300, program, &[0, 1, 2, 3, 7, 8, 9, 10]);
}

#[test]
fn an_unknown_kind_has_no_list() {
    assert!(list("grids", 1, 1).is_none());
}

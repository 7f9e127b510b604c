//! The stored sittings of `replay_sittings` that end in a fault: each number of an event and of an item, about its limits.
use crate::items::{self, Field, numbers_of};
use crate::player::bits;
use crate::questions::ITEM;
use crate::run::bytes_of;
use crate::sitting_examples::bus;
use crate::sitting_stored::{List, add, drawn, sitting};
use crate::sittings::Ending::{Failed, Refused};
use crate::sittings::Event::{Block, End, Restart};
use crate::stored_items::{failing_all, full};

// ---- events that fail

// So many groups, all but the last alike.
fn groups(many: usize, each: u8, last: u8) -> Vec<u8> {
    let mut bytes = vec![each; many - 1];
    bytes.push(last);
    bytes
}

// A block and a restart, then these bytes, which fail with this number.
fn fails(list: &mut List, bytes: &[u8], number: u64) {
    let mut all = sitting(&drawn(), &[Block(2), Restart(1)]);
    all.extend(bytes);
    list.push((all, Failed(2, number)));
}

// 12: its own number, each field; and however long it is.
fn cut(list: &mut List) {
    for bytes in [
        &[0x80][..],
        &[0xff; 9],
        &[0x80; 40],
        &[0],
        &[0, 0x81],
        &[1],
        &[1, 0xff, 0xff],
        &[2],
        &[2, 0x80],
        &[2, 0],
        &[2, 0, 0x80, 0x80, 0x80, 0xfc],
    ] {
        fails(list, bytes, 12);
    }
}

// 13: not in shortest form and too large, as its last byte is read; whatever follows, and before an unknown event and the questions.
fn long_and_large(list: &mut List) {
    fails(list, &[0x80, 0], 13);
    fails(list, &[0x83, 0], 13);
    fails(list, &[&[0][..], &groups(2, 0x85, 0), &[3]].concat(), 13);
    fails(list, &[&[2, 0][..], &groups(6, 0x80, 0)].concat(), 13);
    fails(list, &groups(10, 0xff, 2), 13);
    fails(list, &groups(11, 0x80, 1), 13);
    for event in 0..3 {
        fails(
            list,
            &[&[event][..], &groups(10, 0x80, 2), &[0, 3]].concat(),
            13,
        );
    }
    fails(list, &[&[1][..], &groups(40, 0xff, 0)].concat(), 13);
    // a value of 33 bits, and of a bus that there is not
    fails(list, &bytes_of(&[2, 0, 1 << 32]), 13);
    fails(list, &bytes_of(&[2, 16, u64::MAX]), 13);
}

// 17 alone and with bytes behind it, 18, and bytes after the end.
fn unknown(list: &mut List) {
    for n in [4, 127, 128, 256, 1 << 32, u64::MAX] {
        fails(list, &bytes_of(&[n]), 17);
    }
    fails(list, &[5, 0, 0x80], 17);
    fails(list, &[4, 3], 17);
    fails(list, &[], 18);
    list.push((sitting(&drawn(), &[]), Failed(0, 18)));
    list.push((sitting(&drawn(), &[Block(2)]), Failed(1, 18)));
    for more in [&[0][..], &[3], &[0x80], &[4], &[0, 2, 3]] {
        fails(list, &[&[3], more].concat(), 14);
    }
    list.push((sitting(&drawn(), &[End, End]), Failed(0, 14)));
}

// 7 of a block; 2 of a bus's value before its 9; nothing before is undone.
fn refused(list: &mut List) {
    for frames in [4097, 65_536, 1 << 32, (1 << 32) + 1, u64::MAX] {
        fails(list, &Block(frames).bytes(), 7);
    }
    for (n, x, number) in [
        (0, f32::NAN, 2),
        (15, f32::INFINITY, 2),
        (16, f32::NEG_INFINITY, 2),
        (16, 0.5, 9),
        (256, 0.0, 9),
        (1 << 32, -0.0, 9),
        (u64::MAX, 1.0, 9),
    ] {
        let event = bus(n, x);
        fails(list, &[event.bytes(), End.bytes()].concat(), number);
    }
}

// Indexes of more than one digit.
fn late(list: &mut List) {
    for (many, last, number) in [(9, 4, 17), (10, 3, 14), (99, 0x80, 12), (100, 4, 17)] {
        let mut bytes = sitting(&drawn(), &vec![Block(1); many]);
        bytes.extend([last, last]);
        list.push((bytes, Failed(many as u64, number)));
    }
}

// ---- items that are refused

// 12 and 13 of the record, whatever events follow.
fn no_items(list: &mut List) {
    let record = items::bytes(&full());
    for end in [0, 1, record.len() / 2, record.len() - 1] {
        list.push((record[..end].to_vec(), Refused(12)));
    }
    let first = |field: Field| {
        let numbers = numbers_of(&record);
        *numbers.iter().find(|n| n.field == field).expect("a number")
    };
    let endless = [&record[..first(Field::Phase).at], &[0x80; 30]].concat();
    list.push((endless, Refused(12)));
    for (field, there) in [
        (Field::Kind, vec![5]),
        (Field::Kind, vec![0x80, 0]),
        (Field::GridX, bytes_of(&[65_536])),
        (Field::ShapeCount, vec![65]),
        (Field::X, bytes_of(&[bits(-1e-45).into()])),
        (Field::Seed, groups(11, 0x80, 1)),
    ] {
        let n = first(field);
        let bytes = [&record[..n.at], &there, &record[n.end..], &[0, 2, 3]].concat();
        list.push((bytes, Refused(13)));
    }
}

// Each question of an item alone, with events behind it, and with the next one, with none. A record has no unknown code.
fn questions(list: &mut List) {
    let asked = &ITEM[1..];
    for numbers in asked.chunks(1) {
        let item = failing_all(numbers);
        add(list, &item, &[Block(2), End], Refused(numbers[0]));
    }
    for numbers in asked.windows(2) {
        add(list, &failing_all(numbers), &[], Refused(numbers[0]));
    }
}

/// Adds them to the list.
pub fn all(list: &mut List) {
    cut(list);
    long_and_large(list);
    unknown(list);
    refused(list);
    late(list);
    no_items(list);
    questions(list);
}

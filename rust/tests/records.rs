//! Byte records: the file of the manual's example byte by byte, there and back, every refusal, a writer beside a bench, a reader.
use dual_ledger::records::{get, get_into, to_bytes, to_bytes_into, to_text, to_text_into, Member, Operation, Records, Writer};
use dual_ledger::{Bench, GrowState, Handle, Refusal};

const TEXT: &str = "D 0 3\nB 0 1 2\nE 0 3\nS 0 1 -1\nG 0 -2\nF 2 0 1\nC 255\nK 7\n";

fn file() -> Vec<u8> {
    to_bytes(TEXT).unwrap()
}

/// The file with a change somewhere.
fn spoiled(change: impl FnOnce(&mut Vec<u8>)) -> Vec<u8> {
    let mut file = file();
    change(&mut file);
    file
}

#[test]
fn byte_by_byte() {
    let records: &[&[u8]] = &[
        &[b'D', 0, 3, 0, 0, 0],
        &[b'B', 0, 2, 0, 1, 0, 0, 0, 1, 0, 0, 0, 1, 0, 0, 0, 2, 0, 0, 0, 2, 0, 0, 0, 2, 0, 0, 0],
        &[b'E', 0, 3, 0, 0, 0],
        &[b'S', 0, 1, 0, 0, 0, 255],
        &[b'G', 0, 254, 255, 255, 255, 255, 255, 255, 255],
        &[b'F', 2, 0, 1],
        &[b'C', 255],
        &[b'K', 7],
    ];
    let starts = [0u32, 6, 34, 40, 47, 57, 61, 63];
    let mut wanted = records.concat();
    starts.iter().for_each(|start| wanted.extend(start.to_le_bytes()));
    [65u32, 8, 65 + 32].iter().for_each(|number| wanted.extend(number.to_le_bytes()));
    wanted.extend(b"DLG2");
    assert_eq!(file(), wanted);
    assert_eq!(to_text(&wanted).as_deref(), Ok(TEXT));
    assert_eq!(to_bytes("").unwrap(), [0u32, 0, 0].iter().flat_map(|number| number.to_le_bytes()).chain(*b"DLG2").collect::<Vec<u8>>());
    assert_eq!(to_text(to_bytes("").unwrap()).as_deref(), Ok(""));
}

#[test]
fn a_text_that_does_not_move() {
    for text in ["D 0 3", "\n", "D 0 3\n\n", "X 0\n", "D 0 3\nE 0 0\n", "D 0 03\n", "K 256\n", "D 0 3\r\n"] {
        assert_eq!(to_bytes(text), Err(Refusal::File), "{text:?}");
    }
    // lines that a run would refuse do move, and so does a circle of more than 64
    let many = format!("D 200 1\nG 0 -1\nB 0{}\n", " 1".repeat(100));
    assert_eq!(to_text(to_bytes(&many).unwrap()).as_deref(), Ok(&many[..]));
    // a line of 1,024 bytes with its newline, and one of 1,025
    let long = |last: &str| format!("B 0{} {last}\n", " 1234567890".repeat(92));
    assert_eq!((long("1234567").len(), to_bytes(long("1234567")).map(|file| file.len())), (1024, Ok(4 + 12 * 93 + 4 + 16)));
    assert_eq!(to_bytes(long("12345678")), Err(Refusal::File));
}

#[test]
fn a_file_that_is_none() {
    let end = file().len();
    let files: Vec<(&str, Vec<u8>)> = vec![
        ("empty", vec![]),
        ("cut", spoiled(|file| file.truncate(end - 1))),
        ("no letters", spoiled(|file| file[end - 1] = b'3')),
        ("a byte more", spoiled(|file| file.insert(0, 0))),
        ("bytes before the trailer", spoiled(|file| file[end - 8] += 1)),
        ("start of the list", spoiled(|file| file[end - 16] += 4)),
        ("number of records", spoiled(|file| file[end - 12] -= 1)),
        ("a start", spoiled(|file| file[65 + 4] += 1)),
        ("a letter", spoiled(|file| file[0] = b'X')),
        ("a state", spoiled(|file| file[46] = 2)),
        ("a serial 0", spoiled(|file| file[36] = 0)),
        ("a pair's serial 0", spoiled(|file| file[14] = 0)),
        ("no members", spoiled(|file| file[8] = 0)),
        ("a trailer high byte first", spoiled(|file| file[end - 16..end - 12].reverse())),
    ];
    for (what, file) in files {
        assert_eq!(Records::new(&file).map(|records| records.len()), Err(Refusal::File), "{what}");
        let mut out = [7; 100];
        assert_eq!((to_text_into(&file, &mut out), out), (Err(Refusal::File), [7; 100]), "{what}");
    }
}

#[test]
fn file_then_self_then_small() {
    let foreign = spoiled(|file| file[14] = 2);
    assert_eq!(to_text(&foreign), Err(Refusal::SelfPair));
    assert_eq!(to_text_into(&foreign, &mut []), Err(Refusal::SelfPair));
    assert_eq!(to_text(spoiled(|file| (file[14], file[63]) = (2, 0))), Err(Refusal::File));
    let mut out = [7; 80];
    assert_eq!(to_text_into(file(), &mut out[..TEXT.len() - 1]), Err(Refusal::Small));
    assert_eq!(out, [7; 80]);
    assert_eq!(to_text_into(file(), &mut out), Ok(TEXT.len()));
    assert_eq!((&out[..TEXT.len()], &out[TEXT.len()..]), (TEXT.as_bytes(), &[7; 80][TEXT.len()..]));
    assert_eq!(to_bytes_into(TEXT, &mut [0; 112]), Err(Refusal::Small));
    assert_eq!(to_bytes_into("D 0\n", &mut []), Err(Refusal::File));
}

#[test]
fn a_reader() {
    let file = file();
    let records = Records::new(&file).unwrap();
    assert_eq!((records.len(), records.is_empty(), records.get(8)), (8, false, None));
    assert_eq!(records.get(1), Some(Operation::Blossom { unit: 0, members: vec![Member::itself(1), Member::itself(2)] }));
    let all: Vec<Operation> = records.iter().collect();
    assert_eq!(all[3], Operation::SetState { unit: 0, serial: 1, state: GrowState::Shrink });
    assert_eq!(all[4], Operation::Grow { unit: 0, length: -2 });
    assert_eq!(all[5], Operation::Fuse { parent: 2, left: 0, right: 1 });
    // the same operations written anew are the same file
    let mut writer = Writer::new();
    all.iter().for_each(|operation| writer.push(operation).unwrap());
    assert_eq!((writer.len(), writer.finish()), (8, file));
}

#[test]
fn one_record_of_any_bytes() {
    let file = file();
    let whole: Vec<Operation> = Records::new(&file).unwrap().iter().collect();
    (0..8).for_each(|at| assert_eq!(get(&file, at), Ok(whole[at].clone())));
    assert_eq!((get(&file, 8), get(&file, usize::MAX), get([], 0)), (Err(Refusal::Range), Err(Refusal::Range), Err(Refusal::File)));
    // its words, and no others
    let mut out = [7; 10];
    assert_eq!((get_into(&file, 1, &mut out), out), (Ok(9), [66, 0, 2, 1, 1, 1, 2, 2, 2, 7]));
    assert_eq!((get_into(&file, 4, &mut out[..3]), &out[..4]), (Ok(3), &[71, 0, -2i64 as u64, 1][..]));
    assert_eq!((get_into(&file, 3, &mut out), out[3]), (Ok(4), u64::MAX));
    let before = out;
    assert_eq!((get_into(&file, 1, &mut out[..8]), get_into(&file, 8, &mut []), out), (Err(Refusal::Small), Err(Refusal::Range), before));
    // what is looked at must fit, before SMALL; the rest may be anything
    for (what, at, others, file) in [
        ("its start", 2, 6, spoiled(|file| file[65 + 8] += 1)),
        ("the next start", 1, 6, spoiled(|file| file[65 + 8] += 1)),
        ("the first start", 0, 7, spoiled(|file| file[65] += 1)),
        ("the record", 3, 7, spoiled(|file| file[46] = 2)),
        ("the trailer", 0, 0, spoiled(|file| *file.last_mut().unwrap() = b'3')),
    ] {
        assert_eq!((get(&file, at), get_into(&file, at, &mut [])), (Err(Refusal::File), Err(Refusal::File)), "{what}");
        assert_eq!((0..8).filter(|other| get(&file, *other).as_ref() == Ok(&whole[*other])).count(), others, "{what}");
    }
    // as many members as a line has room for
    let many = to_bytes(format!("B 0{}\n", " 1".repeat(510))).unwrap();
    assert!(matches!(get(&many, 0), Ok(Operation::Blossom { unit: 0, members }) if members.len() == 510));
    assert_eq!((get_into(&many, 0, &mut [0; 1532]), get_into(&many, 0, &mut [0; 1533])), (Err(Refusal::Small), Ok(1533)));
}

#[test]
fn a_writer_beside_a_bench() {
    let (mut bench, mut writer) = (Bench::default(), Writer::new());
    let mut nodes = vec![];
    for vertex in 0..3 {
        nodes.push(bench.create_defect_node(1, vertex).unwrap());
        writer.create_defect_node(1, vertex).unwrap();
    }
    let touching = [[nodes[1], nodes[2]], [nodes[1], nodes[1]], [nodes[0], nodes[2]]];
    let blossom = bench.create_blossom(1, &nodes, &touching).unwrap();
    writer.create_blossom(1, &nodes, &touching).unwrap();
    writer.set_grow_state(1, blossom, GrowState::Stay).unwrap();
    writer.grow(1, 5).unwrap();
    writer.expand_blossom(1, blossom).unwrap();
    writer.fuse(3, 1, 2).unwrap();
    writer.sanity_check(3).unwrap();
    writer.clear(3).unwrap();
    let file = writer.finish();
    let members = [(1, 2, 3), (2, 2, 2), (3, 1, 3)].map(|(serial, first, second)| Member { serial, first, second }).to_vec();
    assert_eq!(Records::new(&file).unwrap().get(3), Some(Operation::Blossom { unit: 1, members }));
    assert_eq!(to_text(&file), Err(Refusal::SelfPair));
    // without pairs it is as its text
    let mut writer = Writer::new();
    writer.create_blossom(1, &nodes, &[]).unwrap();
    assert_eq!(writer.finish(), to_bytes("B 1 1 2 3\n").unwrap());
}

#[test]
fn what_has_no_record_is_not_written() {
    let (node, none) = (Handle::new(0, 0, 7), Handle::new(0, 0, 0));
    let mut writer = Writer::new();
    assert_eq!(writer.expand_blossom(0, none), Err(Refusal::File));
    assert_eq!(writer.create_blossom(0, &[], &[]), Err(Refusal::File));
    assert_eq!(writer.create_blossom(0, &[node], &[[node, none]]), Err(Refusal::File));
    assert_eq!(writer.create_blossom(0, &[node, node], &[[node, node]]), Err(Refusal::Touch));
    let many = |count| vec![Member::itself(u32::MAX); count];
    assert_eq!(writer.push(&Operation::Blossom { unit: 0, members: many(93) }), Err(Refusal::File));
    assert!(writer.is_empty());
    writer.push(&Operation::Blossom { unit: 0, members: many(92) }).unwrap();
    assert_eq!(to_text(writer.finish()).unwrap().len(), 4 + 92 * 11);
}

#[test]
fn of_every_length() {
    let letters = ["D 255 0\n", "E 0 4294967295\n", "S 1 2 0\n", "G 0 9223372036854775807\n", "F 255 254 253\n", "C 0\n", "K 0\n"];
    let mut text = String::new();
    for members in 1..130 {
        text += &format!("B 0{}\n{}", " 7".repeat(members), letters[members % letters.len()]);
        let file = to_bytes(&text).unwrap();
        assert_eq!(Records::new(&file).map(|records| records.len()), Ok(2 * members));
        assert_eq!(to_text(&file).as_deref(), Ok(&text[..]));
    }
}

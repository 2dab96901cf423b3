// Refusals of a sheet: 1 to 7 at the first, a middle and the last record, alone and two at once; the largest sheet.
use crate::limits::*;
use crate::records::*;
use crate::rows::*;
use crate::table::*;

pub fn all(t: &mut Table) {
    reading(t);
    reading_pairs(t);
}

fn reading(t: &mut Table) {
    let whole = base().concat();
    t.register("the base sheet", &whole, &[], 0, 0);

    // 1: first, middle, last.
    t.sheet("empty sheet", &[], 1, 1);
    t.sheet("three bytes", &[10, 0, 1], 1, 1);
    t.sheet("frame of the head alone", &[10, 0, 1, 0], 1, 1);
    t.sheet("head one byte short", &cut(1, 11), 1, 1);
    for (no, label) in [(1, "first"), (3, "a group"), (5, "middle"), (8, "a claim"), (10, "last")] {
        let b = base();
        t.sheet(&format!("{label}: nothing there"), &cut(no, 0), 1, no as u64);
        t.sheet(&format!("{label}: one byte"), &cut(no, 1), 1, no as u64);
        t.sheet(&format!("{label}: three bytes"), &cut(no, 3), 1, no as u64);
        t.sheet(&format!("{label}: frame alone"), &cut(no, 4), 1, no as u64);
        t.sheet(&format!("{label}: last byte missing"), &cut(no, b[no - 1].len() - 1), 1, no as u64);
        let kind = b[no - 1][2] as u16;
        let body = b[no - 1][4..].to_vec();
        for l in [0, 1, 65535] {
            t.sheet(&format!("{label}: length {l}"), &with(no, framed(l, kind, &body)), 1, no as u64);
        }
    }

    // 2.
    t.sheet("a group first", &with(1, group(0, 0, 9, 0)), 2, 1);
    t.sheet("kind 0 first", &with(1, framed(10, 0, &words(&[1, 3, 3, 3]))), 2, 1);
    t.sheet("kind 257 first", &with(1, framed(10, 257, &words(&[1, 3, 3, 3]))), 2, 1);
    t.sheet("a second head", &with(2, head(3, 3, 3)), 2, 2);
    t.sheet("a name among the groups", &with(4, name(1, "Z")), 2, 4);
    t.sheet("a group among the names", &with(5, group(1, 0, 9, 0)), 2, 5);
    t.sheet("a claim among the names", &with(6, count(1, 0, 9)), 2, 6);
    t.sheet("a name among the claims", &with(8, name(1, "Z")), 2, 8);
    t.sheet("kind 8 last", &with(10, lists(8, &[1], &[2])), 2, 10);
    t.sheet("kind 260 last", &with(10, lists(260, &[1], &[2])), 2, 10);
    t.sheet("kind 3 last", &with(10, name(1, "Z")), 2, 10);

    // 3.
    t.sheet("head of length 8", &with(1, record(1, &words(&[1, 3, 3]))), 3, 1);
    t.sheet("head of length 12", &with(1, record(1, &words(&[1, 3, 3, 3, 0]))), 3, 1);
    t.sheet("head of length 2", &with(1, record(1, &[])), 3, 1);
    t.sheet("group of length 9", &with(2, record(2, &[0; 7])), 3, 2);
    t.sheet("group of length 11", &with(3, record(2, &[0; 9])), 3, 3);
    t.sheet("name without label", &with(5, name(1, "")), 3, 5);
    t.sheet("name of length 3", &with(5, record(3, &[1])), 3, 5);
    t.sheet_once("label of 17", &with(6, name(1, "ABCDEFGHIJKLMNOPQ")), 3, 6);
    t.sheet("count of length 6", &with(8, record(4, &words(&[1, 0]))), 3, 8);
    t.sheet("count of length 10", &with(8, record(4, &words(&[1, 0, 9, 0]))), 3, 8);
    t.sheet("inside of length 8", &with(9, record(5, &words(&[1, 1, 1]))), 3, 9);
    t.sheet("inside of odd length", &with(9, record(5, &[1, 0, 1, 0, 1, 0, 1, 0, 0])), 3, 9);
    t.sheet("apart of length 40", &with(10, record(6, &words(&[8, 9, 1, 1, 1, 1, 1, 1, 1, 1, 1, 1, 1, 1, 1, 1, 1, 1, 1]))), 3, 10);
    t.sheet("apart of length 2", &with(10, record(6, &[])), 3, 10);

    // 4.
    t.sheet("edition 0", &with(1, record(1, &words(&[0, 3, 3, 3]))), 4, 1);
    t.sheet("edition 3", &with(1, record(1, &words(&[3, 3, 3, 3]))), 4, 1);
    t.sheet("edition 257", &with(1, record(1, &words(&[257, 3, 3, 3]))), 4, 1);
    t.sheet("no groups", &with(1, head(0, 3, 3)), 4, 1);
    t.sheet_once("129 groups", &with(1, head(129, 3, 3)), 4, 1);
    t.sheet("129 names", &with(1, head(3, 129, 3)), 4, 1);
    t.sheet("65 claims", &with(1, head(3, 3, 65)), 4, 1);
    t.sheet("root with lo 65535", &with(2, group(0, 65535, 65535, 0)), 4, 2);
    t.sheet("mode 8", &with(3, group(1, 0, 9, 8)), 4, 3);
    t.sheet("mode 256", &with(4, group(1, 0, 9, 256)), 4, 4);
    t.sheet("last group with lo 65535", &with(4, group(1, 65535, 9, 0)), 4, 4);
    for label in ["a", "A B", "A_", "[", "@", "/", ":", ",", "."] {
        t.sheet(&format!("label {label}"), &with(5, name(1, label)), 4, 5);
    }
    t.sheet("label with a zero byte", &with(7, name(1, "C\0")), 4, 7);
    t.sheet("label of 16 with a small last letter", &with(7, name(1, "ABCDEFGHIJKLMNOp")), 4, 7);
    t.sheet("count with lo 65535", &with(8, count(1, 65535, 65535)), 4, 8);
    t.sheet("inside with m 0", &with(9, record(5, &words(&[0, 2, 1, 1]))), 4, 9);
    t.sheet("inside with n 0", &with(9, record(5, &words(&[2, 0, 1, 1]))), 4, 9);
    t.sheet("inside with m 9", &with(9, lists(5, &[1; 9], &[1])), 4, 9);
    t.sheet("apart with n 9", &with(10, lists(6, &[1], &[1; 9])), 4, 10);
    t.sheet("apart with one name too many", &with(10, record(6, &words(&[1, 1, 1, 1, 1]))), 4, 10);
    t.sheet("apart with one name too few", &with(10, record(6, &words(&[1, 2, 1, 1]))), 4, 10);
    t.sheet("m that wraps", &with(10, record(6, &words(&[65535, 3, 1, 1]))), 4, 10);

    // 5.
    t.sheet("root with parent 1", &with(2, group(1, 0, 9, 0)), 5, 2);
    t.sheet("second group with parent 0", &with(3, group(0, 0, 9, 0)), 5, 3);
    t.sheet("second group its own parent", &with(3, group(2, 0, 9, 0)), 5, 3);
    t.sheet("parent later", &with(3, group(3, 0, 9, 0)), 5, 3);
    t.sheet("last group its own parent", &with(4, group(3, 0, 9, 0)), 5, 4);
    t.sheet("parent 257", &with(4, group(257, 0, 9, 0)), 5, 4);
    t.sheet("parent 65535", &with(4, group(65535, 0, 9, 0)), 5, 4);
    t.sheet("first name for group 4", &with(5, name(4, "A")), 5, 5);
    t.sheet("name for group 65535", &with(6, name(65535, "B")), 5, 6);
    t.sheet("last name for group 257", &with(7, name(257, "C")), 5, 7);
    t.sheet("count of name 0", &with(8, count(0, 0, 9)), 5, 8);
    t.sheet("count of name 4", &with(8, count(4, 0, 9)), 5, 8);
    t.sheet("inside, left name 0", &with(9, inside(&[0], &[1])), 5, 9);
    t.sheet("inside, second right name 4", &with(9, inside(&[1], &[1, 4])), 5, 9);
    t.sheet("apart, last of 16 names 4", &with(10, apart(&[1; 8], &[1, 1, 1, 1, 1, 1, 1, 4])), 5, 10);
    let mut no_names = head(1, 0, 1);
    no_names.extend(group(0, 0, 9, 0));
    no_names.extend(count(1, 0, 9));
    t.sheet("a claim without names", &no_names, 5, 3);

    // 6: a first name can't meet it.
    t.sheet("second label as the first", &with(6, name(2, "A")), 6, 6);
    t.sheet("third label as the first", &with(7, name(3, "A")), 6, 7);
    t.sheet("third label as the second", &with(7, name(2, "B")), 6, 7);
    let mut ends_in_name = head(1, 3, 0);
    ends_in_name.extend([group(0, 0, 9, 0), name(0, "ABCDEFGHIJKLMNOP"), name(1, "B"), name(1, "ABCDEFGHIJKLMNOP")].concat());
    t.sheet("last record: a label of 16 again", &ends_in_name, 6, 5);
    let prefix = [head(1, 3, 0), group(0, 0, 9, 0), name(0, "AB"), name(1, "A"), name(1, "ABC")].concat();
    t.register("labels that begin alike differ", &prefix, &[], 0, 0);

    // 7.
    for tail in [vec![0], vec![0, 0], vec![255; 3], count(1, 0, 9), vec![1; 5000]] {
        let mut b = whole.clone();
        b.extend(&tail);
        t.sheet(&format!("{} bytes after the last record", tail.len()), &b, 7, 11);
    }
    let mut one = [head(1, 0, 0), group(0, 0, 9, 0)].concat();
    t.register("one group", &one, &[], 0, 0);
    one.push(7);
    t.sheet("a byte after the only group", &one, 7, 3);

    // The largest sheet: 6,924 bytes, and one more.
    let mut large = head(128, 128, 64);
    for g in 1..=128u16 {
        large.extend(group(if g == 1 { 0 } else { 1 }, 0, NO_END, 0));
    }
    for n in 1..=128 {
        large.extend(name(n, &format!("LONGLABEL-{n:06}")));
    }
    for _ in 0..64 {
        large.extend(inside(&[1, 2, 3, 4, 5, 6, 7, 8], &[128, 1, 127, 126, 125, 124, 123, 122]));
    }
    assert_eq!(large.len(), 6924);
    t.register("the largest sheet", &large, &[], 0, 0);
    t.register("the largest sheet, a member of groups 1 and 128", &large, &row(1, &[1, 128]), 0, 0);
    t.verdicts("the largest sheet", &large, &[Holds; 64]);
    let mut last_label = large.clone();
    let at = 12 + 128 * 12 + 127 * 22 + 6;
    last_label[at..at + 16].copy_from_slice(b"LONGLABEL-000001");
    t.sheet("the 128th label as the first", &last_label, 6, 257);
    last_label[at..at + 16].copy_from_slice(b"LONGLABEL-000127");
    t.sheet("the 128th label as the one before", &last_label, 6, 257);
    large.push(0);
    t.sheet("the largest sheet and a byte", &large, 7, 322);
}

fn reading_pairs(t: &mut Table) {
    // 1 and 2.
    t.sheet("1+2 first", &with(1, framed(65535, 9, &words(&[1, 3, 3, 3]))), 1, 1);
    t.sheet("1+2 middle", &with(5, framed(65535, 2, &words(&[1, 65]))), 1, 5);
    t.sheet("1+2 last", &with(10, framed(11, 1, &words(&[1, 1, 2, 3]))), 1, 10);
    t.sheet("1+2, length 1", &with(10, framed(1, 1, &words(&[1, 1, 2, 3]))), 1, 10);
    // 2 and 3.
    t.sheet("2+3 first", &with(1, record(2, &[0; 3])), 2, 1);
    t.sheet("2+3 middle", &with(5, record(4, &[0; 30])), 2, 5);
    t.sheet("2+3 last", &with(10, record(9, &[])), 2, 10);
    // 3 and 4.
    t.sheet("3+4 first", &with(1, record(1, &words(&[3, 0, 129, 65, 0]))), 3, 1);
    t.sheet("3+4 group", &with(3, record(2, &words(&[1, 65535, 0, 8, 0]))), 3, 3);
    t.sheet_once("3+4 name", &with(5, name(1, "abcdefghijklmnopq")), 3, 5);
    t.sheet("3+4 count", &with(8, record(4, &words(&[1, 65535, 0, 0]))), 3, 8);
    t.sheet("3+4 last", &with(10, record(6, &[0, 0, 9, 0, 1, 0, 1, 0, 1])), 3, 10);
    // 4 and 5.
    t.sheet("4+5 root", &with(2, group(1, 0, 9, 8)), 4, 2);
    t.sheet("4+5 group", &with(3, group(9, 65535, 9, 0)), 4, 3);
    t.sheet("4+5 name", &with(5, name(9, "a")), 4, 5);
    t.sheet("4+5 count", &with(8, count(0, 65535, 9)), 4, 8);
    t.sheet("4+5 last", &with(10, record(6, &words(&[1, 3, 0, 9]))), 4, 10);
    // 5 and 6; 4 and 6.
    t.sheet("5+6 second name", &with(6, name(4, "A")), 5, 6);
    t.sheet("5+6 last name", &with(7, name(4, "B")), 5, 7);
    t.sheet("4+6", &with2(6, name(2, "a"), 5, name(1, "a")), 4, 5);
    // 6 and 7.
    let ends = [head(1, 2, 0), group(0, 0, 9, 0), name(1, "A"), name(1, "A"), vec![0]].concat();
    t.sheet("6+7", &ends, 6, 4);
    // Of two records the earlier one counts, whatever the number.
    t.sheet("5 before 1", &with2(3, group(3, 0, 9, 0), 4, framed(0, 2, &[])), 5, 3);
    t.sheet("6 before 2", &with2(6, name(2, "A"), 7, group(1, 0, 9, 0)), 6, 6);
    t.sheet("4 before 1", &with2(2, group(0, 0, 9, 8), 3, framed(65535, 2, &[])), 4, 2);
    let mut tail = with(8, count(9, 0, 9));
    tail.push(0);
    t.sheet("5 before 7", &tail, 5, 8);
    // 7 and 8: an impossible sheet with a byte behind it.
    let mut b = groups(&[(0, 3, 2, 0)]);
    b.push(0);
    t.sheet("7+8", &b, 7, 3);
}

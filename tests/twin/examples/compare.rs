//! Compares one pair of terms, by the library or by the twin, to have its instructions counted:
//! `compare ours|twin FAMILY NODES TIMES`, where 1 node stands for a variable compared with itself. Both compare the
//! pair once before. Without arguments, it lists the families.

use std::hint::black_box;

use twin::generate::families;

fn main() {
    let arguments: Vec<String> = std::env::args().skip(1).collect();
    let [who, name, nodes, times] = arguments.as_slice() else {
        families().iter().for_each(|family| println!("{}", family.name));
        return;
    };
    let family = families().into_iter().find(|family| family.name == *name).expect("a family's name");
    let nodes: usize = nodes.parse().expect("a count of nodes");
    let times: usize = times.parse().expect("a count of comparisons");
    let book = family.book();
    let (left, right) = if nodes == 1 { (vec![256], vec![256]) } else { family.pair(nodes) };
    let ours = || ackbo::compare(black_box(&book), black_box(&left), black_box(&right)).map(|reply| reply.margin).ok();
    let twins = || twin::compare(black_box(&book), black_box(&left), black_box(&right)).map(|reply| reply.margin).ok();
    assert_eq!(ours(), twins());
    for _ in 0..times {
        match who.as_str() {
            "ours" => black_box(ours()),
            "twin" => black_box(twins()),
            _ => panic!("{who} is neither ours nor twin"),
        };
    }
}

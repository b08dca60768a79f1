//! What the receiving program must print for a link text, from document 01 in plain Rust; no exported call takes part. Usage: stored N < text

use oracle::call::Call;
use oracle::frame::{missing, Frame, INBOX};
use oracle::plain;
use oracle::rules::Tree;
use oracle::table::Table;
use std::io::Read;

fn print(tree: &Tree) {
    if let Some(node) = tree {
        print(&node.left);
        println!("{:08x}{:08x}", node.key, node.value);
        print(&node.right);
    }
}

fn main() {
    let n = std::env::args().nth(1).and_then(|text| text.parse().ok()).expect("N is a number");
    let mut text = Vec::new();
    std::io::stdin().read_to_end(&mut text).expect("standard input can be read");
    let lines: Vec<&[u8]> = text.split_inclusive(|&byte| byte == b'\n').filter(|line| line.ends_with(b"\n")).collect();
    let Some(first) = lines.iter().find_map(|line| Frame::parse(line)) else {
        println!("ffffffff");
        return;
    };
    let (mut table, mut inbox) = (Table::fresh(n), vec![0; INBOX]);
    inbox[0] = first.batch;
    for line in lines {
        plain::answer(&mut table, &mut inbox, &Call::Receive { version: 0, line: line.to_vec() });
    }
    print(&table.versions[0]);
    println!("{:08x}", missing(&inbox));
}

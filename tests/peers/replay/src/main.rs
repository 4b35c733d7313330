//! Replays the list: puts each case through the port, fills the fields, compares with the peer.
//!
//! replay LIST            compares verdicts with the recorded ones; counts for each type and peer
//! replay --table LIST    the same, with a table by type and output kind
//! replay --record LIST   prints the list with the verdicts of now

mod case;
mod counts;
mod fill;
mod filled;
mod port;
mod verdict;

use counts::Counts;
use filled::Filled;
use std::process::ExitCode;

fn record(text: &str) {
    for line in text.lines() {
        let Some(case) = case::parse(line) else {
            println!("{line}");
            continue;
        };
        let mut fields: Vec<&str> = line.split(' ').collect();
        fields[9] = verdict::verdict(&case).0;
        println!("{}", fields.join(" "));
    }
}

fn compare(text: &str, table: bool) -> ExitCode {
    let (mut counts, mut cases, mut differ) = (Counts::default(), 0, 0);
    let mut filled = Filled::default();
    for line in text.lines().filter(|line| !line.starts_with('#')) {
        let Some(case) = case::parse(line) else {
            println!("not a case: {line}");
            return ExitCode::FAILURE;
        };
        let (now, fields) = verdict::verdict(&case);
        cases += case.peers.len();
        filled.add(&case, fields);
        if now != case.recorded {
            let (name, kind, recorded) = (&case.name, &case.kind, &case.recorded);
            let peers = case.peers.join(",");
            println!("{name} {kind} {peers}: {now}, recorded {recorded}");
            differ += case.peers.len();
        }
        counts.add(&case, now);
    }
    if table {
        counts.table()
    } else {
        counts.print()
    }
    let unseen = filled.print();
    println!(
        "peers: {cases} cases, {} verdicts as recorded, {differ} differ; filled by the port as by the peer: {}",
        cases - differ,
        filled.sums()
    );
    if differ == 0 && cases > 0 && unseen == 0 {
        ExitCode::SUCCESS
    } else {
        ExitCode::FAILURE
    }
}

fn main() -> ExitCode {
    let words: Vec<String> = std::env::args().skip(1).collect();
    let (option, path) = match &words[..] {
        [path] => ("", path),
        [option, path] => (option.as_str(), path),
        _ => {
            eprintln!("usage: replay [--table | --record] LIST");
            return ExitCode::FAILURE;
        }
    };
    let text = std::fs::read_to_string(path).expect("the list can be read");
    if option == "--record" {
        record(&text);
        return ExitCode::SUCCESS;
    }
    compare(&text, option == "--table")
}

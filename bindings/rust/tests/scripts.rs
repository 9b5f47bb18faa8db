//! Scripts by the library: the stored reports and the numbers of faults. The twin has none.
#![cfg(not(feature = "twin"))]

use std::fs;
use std::path::Path;
use yalwythen::script::{Checkup, ScriptError, check, is_bound, replay};

#[test]
fn examples_give_their_stored_reports() {
    let folder = Path::new(env!("CARGO_MANIFEST_DIR")).join("../../examples");
    let mut same = 0;
    for entry in fs::read_dir(folder).unwrap() {
        let path = entry.unwrap().path();
        let Ok(stored) = fs::read(path.with_extension("report")) else { continue };
        if path.extension().is_none_or(|extension| extension != "json") {
            continue;
        }
        let script = fs::read(&path).unwrap();
        assert!(check(&script).is_ok());
        match replay(&script) {
            Ok(report) => {
                assert_eq!(report, stored, "{}", path.display());
                same += 1;
            }
            Err(fault) => assert_eq!(fault, ScriptError::Broadcast, "{}", path.display()),
        }
    }
    assert!(same > 0);
}

#[test]
fn faults_have_their_numbers() {
    assert_eq!(check(b""), Err(ScriptError::Fault(3)));
    assert_eq!(check(br#"{"version":2}"#), Err(ScriptError::Fault(5)));
    assert_eq!(check(br#"{"version":1,"channels":[],"seats":[[]]}"#), Ok(Checkup { channels: 0, seats: 1 }));
    assert_eq!(replay(br#"{"version":1,"channels":[{"kind":"TChan"}],"seats":[[]]}"#), Err(ScriptError::Broadcast));
}

#[test]
fn a_report_longer_than_the_first_buffer_is_whole() {
    let steps = vec![r#"[["write",0,7]]"#; 1000].join(",");
    let script = format!(r#"{{"version":1,"channels":[{{"kind":"TQueue"}}],"seats":[[{steps}]]}}"#);
    let report = replay(script.as_bytes()).unwrap();
    assert!(report.len() > 4096 && report.ends_with(b"end done\n"));
}

#[test]
fn bounds_end_at_65535() {
    assert!(is_bound(0) && is_bound(65_535) && !is_bound(65_536) && !is_bound(u64::MAX));
}

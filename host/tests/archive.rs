//! The archive asks for nothing from outside but `memset`, so that it links where there is no more of a C library.

use std::process::Command;

#[test]
fn only_memset_comes_from_outside() {
    let nm = std::env::var("NM").unwrap_or_else(|_| "nm".to_owned());
    let said = Command::new(nm).arg("-u").arg(env!("PEGSIENNA_ARCHIVE_COPY")).output().unwrap();
    assert!(said.status.success(), "{}", String::from_utf8_lossy(&said.stderr));
    let listed = String::from_utf8_lossy(&said.stdout);
    let wanted: Vec<&str> = listed.lines().filter_map(|line| line.trim().strip_prefix("U ")).collect();
    assert_eq!(wanted, ["memset"]);
}

//! Archive, header and crate are of one version.

const HEADER: &str = include_str!("../../../include/zirgumtak.h");

#[test]
fn versions_agree() {
    let [major, minor, patch] = [
        env!("CARGO_PKG_VERSION_MAJOR"),
        env!("CARGO_PKG_VERSION_MINOR"),
        env!("CARGO_PKG_VERSION_PATCH"),
    ]
    .map(|number| number.parse::<u64>().unwrap());
    let version = 10_000 * major + 100 * minor + patch;
    assert_eq!(zirgumtak::version(), version);
    let mut defined = HEADER
        .lines()
        .filter_map(|line| line.strip_prefix("#define ZT_VERSION "));
    let number = defined
        .next()
        .and_then(|rest| rest.split_whitespace().next());
    assert_eq!(number, Some(version.to_string().as_str()));
}

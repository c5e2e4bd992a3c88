//! 01, "Addresses and needs", held against the original question by question: scripts reach needs by the frames of W-201, but no frame
//! asks for `addr`, `try_as_addr`, `into_addr` or an assignment from elsewhere.
//! No function of the original makes a need with a Local or a Dangling address, so 19 can't be asked of it.

/// Written from 01. "refused" is 18.
const TABLE: &str = "\
defer, output: refused
defer, addr: refused
defer, try_as_addr: none
defer, alloc: 0
defer, alloc_output: keep 0
defer, assign 5: keep 5
defer, assign 6: keep 6
defer, into_addr: refused
defer, free: freed, dangling []
assigned, output: keep 5
assigned, addr: 5
assigned, try_as_addr: 5
assigned, alloc: 5
assigned, alloc_output: keep 5
assigned, assign 5: keep 5
assigned, assign 6: copy 6, keep 5
assigned, into_addr: 5
assigned, free: freed, dangling []
scope, output: keep 0
scope, addr: 0
scope, try_as_addr: 0
scope, alloc: 0
scope, alloc_output: keep 0
scope, assign 5: copy 5, keep 0
scope, assign 6: copy 6, keep 0
scope, into_addr: 0
scope, free: freed, dangling [0]
ignore, output: discard
ignore, addr: refused
ignore, try_as_addr: none
ignore, alloc: none
ignore, alloc_output: discard
ignore, assign 5: discard
ignore, assign 6: discard
ignore, into_addr: refused
ignore, free: freed, dangling []
";

#[test]
fn needs() {
    let theirs = rune::probe::needs();
    assert_eq!(theirs, TABLE.lines().collect::<Vec<_>>());
}

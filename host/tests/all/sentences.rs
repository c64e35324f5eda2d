//! Each refusal: its number, name, values and sentence.

use crate::support::{block, chain, external, internal, record, table};
use forest_merge::{canonicalize, canonicalize_in, merge, merge_in, validate, Refusal, Room};

/// Compares a refusal with its number, name and values, and its sentence.
fn says<T>(result: Result<T, Refusal>, head: (u32, &str, u64, u64), sentence: &str) {
    let refusal = result.err().unwrap();
    let found = (
        refusal.number(),
        refusal.name(),
        refusal.first(),
        refusal.second(),
    );
    assert_eq!(found, head);
    assert_eq!(refusal.sentence(), sentence);
    assert_eq!(refusal.to_string(), format!("{}: {sentence}", head.1));
}

#[test]
fn bad_buffers_of_the_input() {
    let head = |buffer| (1, "BadBuffers", buffer, 0);
    says(
        merge(&[0; 12], &[], &[], 256),
        head(1),
        "the table has 12 bytes, which is 1 row of 8 bytes and 4 bytes more",
    );
    says(
        merge(&table(&[(2, 0), (1, 0)]), &block(1), &[], 256),
        head(2),
        "the table counts 3 nodes, which take 144 bytes, but the nodes have 48 bytes",
    );
    says(
        merge(&table(&[(1, 2)]), &block(1), &[0], 256),
        head(3),
        "the table counts 2 roots, but the roots have 1 entry",
    );
    let sentence = "the nodes have 97 bytes, which is 2 records of 48 bytes and 1 byte more";
    says(validate(&[0; 97]), head(2), sentence);
    says(canonicalize(&[0; 97], &[]), head(2), sentence);
}

#[test]
fn bad_buffers_of_the_room() {
    let rooms = [
        (4, "node output", Room::with_lengths(47, 1, 1, 16)),
        (5, "root output", Room::with_lengths(48, 2, 1, 16)),
        (6, "id list", Room::with_lengths(48, 1, 0, 16)),
        (7, "work room", Room::with_lengths(48, 1, 1, 15)),
    ];
    for (buffer, name, room) in rooms {
        says(
            canonicalize_in(room, &block(1), &[0]),
            (1, "BadBuffers", buffer, 0),
            &format!("the {name} (buffer {buffer}) that was lent has the wrong length"),
        );
    }
}

#[test]
fn too_many() {
    let head = (2, "TooMany", 0, 0);
    says(
        merge(&table(&[(u32::MAX, 0), (1, 0)]), &[], &[], 256),
        head,
        "the table counts 4294967296 nodes, more than the 1073741823 that a call takes",
    );
    says(
        merge(&table(&[(0, 1_073_741_824)]), &[], &[], 256),
        head,
        "the table counts 1073741824 roots, more than the 1073741823 that a call takes",
    );
    says(
        merge(&[0; 8 * 1025], &[], &[], 256),
        head,
        "the table counts 1025 forests, more than the 1024 that a merge takes",
    );
}

#[test]
fn bad_record() {
    let faults = [
        (record(300, 0, [0, 0], 1), "its kind is 300, above 255"),
        (record(2, 3, [0, 0], 1), "its child count is 3, above 2"),
        (
            record(1, 1, [0, 0], 1),
            "its kind is 1 (block), which has no children, but its child count is 1",
        ),
        (
            record(2, 1, [0, 5], 1),
            "its child count is 1, but its second child field is 5 and not 0",
        ),
        (
            record(0, 0, [4, 0], 1),
            "its child count is 0, but its first child field is 4 and not 0",
        ),
    ];
    for (bad, fault) in faults {
        let nodes = [block(1), block(2), bad].concat();
        says(
            merge(&table(&[(1, 0), (0, 0), (2, 0)]), &nodes, &[], 256),
            (3, "BadRecord", 2, 0),
            &format!("node 1 of forest 2 (position 2) is a bad record: {fault}"),
        );
        says(
            validate(&nodes),
            (3, "BadRecord", 2, 0),
            &format!("node 2 is a bad record: {fault}"),
        );
    }
}

#[test]
fn root_range() {
    says(
        merge(
            &table(&[(1, 2), (1, 2)]),
            &[block(1), block(1)].concat(),
            &[0, 0, 0, 3],
            256,
        ),
        (4, "RootRange", 3, 0),
        "root 1 of forest 1 (place 3 of all roots) names node 3, but its forest has 1 node",
    );
    says(
        canonicalize(&block(1), &[4]),
        (4, "RootRange", 0, 0),
        "root 0 names node 4, but the forest has 1 node",
    );
}

#[test]
fn duplicate_external() {
    let nodes = [9, 7, 9, 7, 7].map(external).concat();
    says(
        canonicalize(&nodes, &[]),
        (5, "DuplicateExternal", 3, 0),
        "node 3 is an external with the digest 7.0.0.0, which the external at node 1 has already",
    );
}

#[test]
fn child_range() {
    let nodes = [
        block(1),
        block(1),
        internal(2, &[0, 1]),
        internal(2, &[0, 5]),
    ]
    .concat();
    says(
        merge(&table(&[(2, 0), (2, 0)]), &nodes, &[], 256),
        (6, "ChildRange", 3, 5),
        "node 1 of forest 1 (position 3) names child 5, but its forest has 2 nodes",
    );
    says(
        canonicalize(&internal(3, &[5, 9]), &[]),
        (6, "ChildRange", 0, 9),
        "node 0 names child 9, but its forest has 1 node",
    );
}

#[test]
fn cycle_in_a_merge() {
    let nodes = [block(1), external(7), internal(7, &[0])].concat();
    says(
        merge(&table(&[(1, 0), (2, 1)]), &nodes, &[1], 2),
        (7, "Cycle", 2, 0),
        "node 1 of forest 1 (position 2) leads back to itself, and a root reaches it: \
         node 1 of forest 1 (position 2) has the child \
         node 0 of forest 1 (position 1), which is an external replaced by \
         node 1 of forest 1 (position 2)",
    );
}

#[test]
fn cycle_in_one_forest() {
    let nodes = [internal(3, &[1]), internal(4, &[2]), internal(5, &[1])].concat();
    says(
        canonicalize(&nodes, &[]),
        (7, "Cycle", 0, 0),
        "node 0 lies on a cycle or above one: node 1 has the child node 2, which has the child node 1",
    );
}

#[test]
fn long_cycle_is_cut() {
    let nodes: Vec<u8> = (0..100)
        .flat_map(|n| internal(n, &[(n as u32 + 1) % 100]))
        .collect();
    let refusal = canonicalize(&nodes, &[]).err().unwrap();
    let end = "which has the child node 8, and so on, 92 steps more, back to node 0";
    assert!(refusal.sentence().ends_with(end));
}

#[test]
fn too_deep() {
    says(
        merge(&table(&[(3, 1)]), &chain(3), &[2], 2),
        (8, "TooDeep", 0, 0),
        "node 0 of forest 0 (position 0) cannot be opened, as the limit is 2 nodes open at once; merge with a larger limit, up to 4096",
    );
    says(
        merge(&table(&[(4097, 1)]), &chain(4097), &[4096], 4096),
        (8, "TooDeep", 0, 0),
        "node 0 of forest 0 (position 0) cannot be opened, as the limit is 4096 nodes open at once; no larger limit is possible",
    );
    assert!(merge(&table(&[(4096, 1)]), &chain(4096), &[4095], 4096).is_ok());
}

#[test]
fn no_room() {
    let room = Room::with_lengths(47, 1, 1, 16);
    says(
        merge_in(room, &table(&[(1, 1)]), &block(1), &[0], 256),
        (9, "NoRoom", 1, 1),
        "the result has 1 node and 1 root, more than the room that was lent holds",
    );
}

#[test]
fn class_order() {
    says(
        validate(&[block(1), external(1)].concat()),
        (10, "ClassOrder", 1, 0),
        "node 1 is an external, but the node before it is a block: externals come first, then blocks, then internals",
    );
    says(
        validate(&[internal(1, &[]), block(1)].concat()),
        (10, "ClassOrder", 1, 0),
        "node 1 is a block, but the node before it is an internal: externals come first, then blocks, then internals",
    );
}

#[test]
fn digest_order() {
    says(
        validate(&[external(7), external(7)].concat()),
        (11, "DigestOrder", 1, 0),
        "node 1 is an external with the digest 7.0.0.0, which is equal to the digest 7.0.0.0 of the external before it",
    );
    says(
        validate(&[external(16), external(10)].concat()),
        (11, "DigestOrder", 1, 0),
        "node 1 is an external with the digest a.0.0.0, which is below the digest 10.0.0.0 of the external before it",
    );
}

#[test]
fn forward_reference() {
    says(
        validate(&internal(3, &[0])),
        (12, "ForwardReference", 0, 0),
        "node 0 names itself as a child",
    );
    says(
        validate(&internal(3, &[4, 7])),
        (12, "ForwardReference", 0, 7),
        "node 0 names child 7, but the forest has 1 node",
    );
    says(
        validate(&[internal(3, &[1]), internal(4, &[])].concat()),
        (12, "ForwardReference", 0, 1),
        "node 0 names child 1, which does not come before it",
    );
}

#[test]
fn bad_limit() {
    for limit in [0, 4097] {
        says(
            merge(&[], &[], &[], limit),
            (13, "BadLimit", 0, 0),
            &format!("the limit is {limit}, but it must be from 1 to 4096"),
        );
    }
}

//! Results of the library.

use crate::support::{block, external, internal, k4, k4_merged, table};
use forest_merge::{canonicalize, merge, validate, NO_ID};

#[test]
fn nothing_is_a_good_job() {
    let merged = merge(&[], &[], &[], 256).unwrap();
    assert!(merged.nodes.is_empty() && merged.roots.is_empty() && merged.ids.is_empty());
    assert!(canonicalize(&[], &[]).unwrap().nodes.is_empty());
    assert_eq!(validate(&[]), Ok(0));
}

#[test]
fn k4_merges_equal_externals() {
    let merged = merge(&table(&[(4, 2)]), &k4(), &[2, 3], 256).unwrap();
    assert_eq!(merged.nodes, k4_merged());
    assert_eq!(merged.roots, [2, 1]);
    assert_eq!(merged.ids, [1, 0, 2, 1]);
    assert_eq!(validate(&merged.nodes), Ok(3));
}

#[test]
fn k5_is_cut_to_one_node() {
    let nodes = [block(7), internal(7, &[]), external(7)].concat();
    let merged = merge(&table(&[(3, 1)]), &nodes, &[2], 256).unwrap();
    assert_eq!(merged.nodes, internal(7, &[]));
    assert_eq!(merged.roots, [0]);
    assert_eq!(merged.ids, [NO_ID, 0, 0]);
}

#[test]
fn k8_is_put_into_order() {
    let nodes = [internal(3, &[1, 1]), internal(4, &[])].concat();
    let canonical = canonicalize(&nodes, &[0]).unwrap();
    assert_eq!(
        canonical.nodes,
        [internal(4, &[]), internal(3, &[0, 0])].concat()
    );
    assert_eq!(canonical.roots, [1]);
    assert_eq!(canonical.ids, [1, 0]);
}

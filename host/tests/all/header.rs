//! The C header: a program in C that includes it merges K4.

use crate::support::Scratch;
use std::fs;
use std::path::Path;
use std::process::Command;

const PROGRAM: &str = r#"
#include "forest.h"
#include <stdio.h>

int main(void) {
    uint8_t table[8] = {4, 0, 0, 0, 2, 0, 0, 0};
    uint8_t nodes[4 * FOREST_NODE_BYTES] = {0};
    uint32_t roots[2] = {2, 3}, root_out[2], ids[4], work[4 * FOREST_WORK_WORDS], none;
    uint8_t node_out[4 * FOREST_NODE_BYTES], nothing;
    uint64_t first, second;
    nodes[16] = 7, nodes[48 + 16] = 5, nodes[96 + 16] = 3, nodes[144 + 16] = 7;
    nodes[96] = 2, nodes[96 + 4] = 2, nodes[96 + 12] = 1;
    uint32_t number = forest_merge(table, 8, nodes, sizeof nodes, roots, 2, 256, node_out, sizeof node_out,
                                   root_out, 2, ids, 4, work, 64, &first, &second);
    printf("%u %u %u\n", (unsigned)number, (unsigned)first, (unsigned)second);
    printf("%u %u, %u %u %u %u\n", (unsigned)root_out[0], (unsigned)root_out[1], (unsigned)ids[0],
           (unsigned)ids[1], (unsigned)ids[2], (unsigned)ids[3]);
    number = forest_canonicalize(&nothing, 0, &none, 0, &nothing, 0, &none, 0, &none, 0, &none, 0, &first, &second);
    printf("%d\n", number == FOREST_ACCEPTED);
    number = forest_validate(nodes, sizeof nodes, &first, &second);
    printf("%d %u\n", number == FOREST_DIGEST_ORDER, (unsigned)first);
    return 0;
}
"#;

#[test]
fn a_program_in_c() {
    let scratch = Scratch::new();
    let (source, program) = (scratch.path("k4.c"), scratch.path("k4"));
    fs::write(&source, PROGRAM).unwrap();
    let package = Path::new(env!("CARGO_MANIFEST_DIR"));
    let built = Command::new("cc")
        .args(["-std=c99", "-Wall", "-Wextra", "-Werror", "-I"])
        .arg(package)
        .arg(&source)
        .arg(package.join("../target/staticlib/libabi.a"))
        .arg("-o")
        .arg(&program)
        .output()
        .unwrap();
    assert!(
        built.status.success(),
        "{}",
        String::from_utf8_lossy(&built.stderr)
    );
    let ran = Command::new(&program).output().unwrap();
    let text = String::from_utf8_lossy(&ran.stdout);
    assert_eq!(text, "0 3 2\n2 1, 1 0 2 1\n1\n1 1\n");
}

//! Concerns about a file whose configurations are signed, which is made here.

use bootimg::{check, concerns, Concern, Concerns, Limits, Policy, Verdict};

/// A node: its name, its properties, and its children.
struct Node(&'static str, Vec<Property>, Vec<Node>);

type Property = (&'static str, Vec<u8>);

/// Returns a property whose value is one or more texts.
fn texts(name: &'static str, texts: &[&str]) -> Property {
    (name, (texts.join("\0") + "\0").into_bytes())
}

/// Returns a signature node that records these paths, and that no name of a property is covered.
fn signature(name: &'static str, paths: &[&str]) -> Node {
    let strings = ("hashed-strings", vec![0; 8]);
    let recorded = texts("hashed-nodes", paths);
    Node(name, vec![("value", vec![1]), recorded, strings], vec![])
}

/// Adds a number of four bytes.
fn add_cell(blob: &mut Vec<u8>, number: usize) {
    blob.extend((number as u32).to_be_bytes());
}

/// Adds bytes, and zeros after them up to a multiple of four.
fn add_padded(blob: &mut Vec<u8>, bytes: &[u8]) {
    blob.extend(bytes);
    blob.resize((blob.len() + 3) / 4 * 4, 0);
}

/// Adds the tokens of a node. The names of properties are added to the strings.
fn add_node(tokens: &mut Vec<u8>, strings: &mut Vec<u8>, Node(name, properties, children): &Node) {
    add_cell(tokens, 1);
    add_padded(tokens, format!("{name}\0").as_bytes());
    for (name, value) in properties {
        add_cell(tokens, 3);
        add_cell(tokens, value.len());
        add_cell(tokens, strings.len());
        add_padded(tokens, value);
        strings.extend(format!("{name}\0").bytes());
    }
    for child in children {
        add_node(tokens, strings, child);
    }
    add_cell(tokens, 2);
}

/// Returns the blob of a tree.
fn blob_of(root: &Node) -> Vec<u8> {
    let (mut tokens, mut strings) = (Vec::new(), Vec::new());
    add_node(&mut tokens, &mut strings, root);
    add_cell(&mut tokens, 9);
    let end = 56 + tokens.len();
    let total = end + strings.len();
    let mut blob = Vec::new();
    let header = [0xd00d_feed, total, 56, end, 40, 17, 16, 0, strings.len()];
    for number in header.into_iter().chain([tokens.len(), 0, 0, 0, 0]) {
        add_cell(&mut blob, number);
    }
    [blob, tokens, strings].concat()
}

/// A FIT with each kind of concerns about signatures, and two about hash nodes.
fn signed() -> Vec<u8> {
    let hash = |name, more: &[Property]| {
        let found = [
            texts("algo", &["crc32"]),
            ("value", vec![0x35, 0x24, 0x41, 0xc2]),
        ];
        Node(name, [&found[..], more].concat(), vec![])
    };
    let skipped = hash("hash-1", &[("uboot-ignore", vec![0, 0, 0, 1])]);
    let image = Node("a", vec![("data", b"abc".to_vec())], vec![skipped]);
    let weak = Node(
        "-",
        vec![("data", b"abc".to_vec())],
        vec![hash("hash%", &[])],
    );
    let recorded = ["/", "/images/a/hash-1", "/x y"];
    let signatures = vec![
        Node("signature-1", vec![("value", vec![1])], vec![]),
        signature("signature-2", &recorded),
    ];
    let lists = vec![
        texts("kernel", &["a"]),
        texts("fdt", &["b"]),
        ("script", vec![1]),
    ];
    let configurations = vec![
        Node("c 1", lists, signatures),
        Node("d", vec![], vec![]),
        Node(
            "e",
            vec![],
            vec![signature("signature", &["/", "/configurations/e"])],
        ),
    ];
    let nodes = vec![
        Node("images", vec![], vec![image, weak]),
        Node(
            "configurations",
            vec![texts("default", &["f"])],
            configurations,
        ),
        Node("y@1", vec![], vec![]),
    ];
    blob_of(&Node("", vec![], nodes))
}

#[test]
fn each_kind_has_its_names() {
    let mut file = signed();
    file.extend(b"more");
    let policy = Policy {
        allowed: Concerns::default(),
        signed: true,
    };
    let found = concerns(&file, policy, Limits::default()).unwrap();
    let lines: Vec<_> = found.iter().map(Concern::to_string).collect();
    let wanted = [
        "skipped-hash a hash-1",
        "unhashed a",
        "weak-hash %2D crc32",
        "missing c%201 fdt 0",
        "bad-list c%201 script",
        "no-nodes c%201 signature-1",
        "uncovered c%201 signature-2 /configurations/c%201",
        "uncovered c%201 signature-2 /images/a",
        "foreign c%201 signature-2 /x%20y",
        "strings c%201 signature-2",
        "unsigned d",
        "no-images e signature",
        "unit-address /y@1",
        "bad-default f",
        "trailing 4",
    ];
    assert_eq!(lines, wanted);
    let text = check(&file, policy, Limits::default()).unwrap();
    assert_eq!(text, wanted.map(|line| format!("{line}\n")).concat());
    let is_foreign = |one: &&Concern| matches!(one, Concern::Foreign { .. });
    let Some(Concern::Foreign {
        configuration,
        signature,
        path,
        ..
    }) = found.iter().find(is_foreign)
    else {
        panic!("{found:?}");
    };
    assert_eq!(
        (&configuration[..], &signature[..]),
        (&b"c 1"[..], &b"signature-2"[..])
    );
    assert_eq!(path, b"/x y");
}

#[test]
fn a_bad_hash_has_its_verdict() {
    let mut file = signed();
    let payload = file.windows(3).position(|bytes| bytes == b"abc").unwrap();
    let last = file.windows(3).rposition(|bytes| bytes == b"abc").unwrap();
    file[payload] = b'b';
    file[last] = b'b';
    let allowed = Concerns {
        skipped_hash: true,
        unhashed: true,
        ..Concerns::default()
    };
    let found = concerns(&file, allowed, Limits::default()).unwrap();
    let [Concern::BadHash {
        verdict: Verdict::Bad,
        ..
    }, Concern::BadHash { .. }, ..] = &found[..]
    else {
        panic!("{found:?}");
    };
    assert_eq!(found[0].to_string(), "bad-hash a hash-1 crc32 bad");
    assert_eq!(found[1].to_string(), "bad-hash %2D hash%25 crc32 bad");
}

#[test]
fn no_configuration_is_unsigned() {
    let policy = Policy {
        signed: true,
        ..Policy::default()
    };
    let tree = Node("", vec![], vec![Node("images", vec![], vec![])]);
    let file = blob_of(&tree);
    let found = concerns(&file, policy, Limits::default()).unwrap();
    assert_eq!(
        found.iter().map(Concern::to_string).collect::<Vec<_>>(),
        ["unsigned -"]
    );
}

//! Short vectors in long buffers: what a script says and what is printed of it are those of its vector length, whatever
//! the buffers are laid out for.

mod common;

use common::{piped, runner};
use std::fs;
use std::path::{Path, PathBuf};

/// A word of each kind on vectors of 16 bytes, with memory and contents.
const KERNEL: &str = "memory-address 1000\nmemory 000102030405060708090A0B0C0D0E0F101112131415161718191A1B1C1D1E1F\n\
                      vector 5  A0A1A2A3A4A5A6A7A8A9AAABACADAEAF\npredicate 3  5A3C\nregister 1 1004\n\
                      register 12 7\nregister 8 5\n\
                      word C0800CA9 C0C203BF C0062CE8 C0060A6A E0BF0C21 C0820D25 E05F0C29\n";

/// A run of the kernel in buffers for vectors of this length.
fn run(largest: usize, options: &[&str]) -> String {
    let script = format!("vector-bytes 16\nlargest-vector-bytes {largest}\n{KERNEL}");
    let arguments = [&["-", "--strict"], options].concat();
    let output = piped(&arguments, script.as_bytes());
    let text = String::from_utf8_lossy(&output.stdout).into_owned();
    assert_eq!(output.status.code(), Some(0), "{script}{text}");
    text
}

/// All but what tells the length itself.
#[test]
fn reports_and_documents_do_not_depend_on_the_layout() {
    for options in [&["--all"][..], &["--json"], &["--quiet"]] {
        let close = run(16, options);
        for largest in [32, 64, 128, 256] {
            let long = run(largest, options);
            let [report, document] = [
                format!("vectors of 16 bytes in buffers for {largest},"),
                format!("\"largest_vector_bytes\": {largest}}}"),
            ];
            let told = [&report, &document].map(|text| long.contains(text.as_str()));
            let quiet = options == ["--quiet"];
            assert_ne!(told[0] || told[1], quiet, "{long}");
            let alike = long
                .replace(&report, "vectors of 16 bytes in buffers for 16,")
                .replace(&document, "\"largest_vector_bytes\": 16}");
            assert_eq!(alike, close);
        }
    }
}

/// A folder for one test, empty.
fn folder(name: &str) -> PathBuf {
    let folder = Path::new(env!("CARGO_TARGET_TMPDIR")).join(name);
    let _ = fs::remove_dir_all(&folder);
    fs::create_dir_all(&folder).expect("the folder can be made");
    folder
}

/// A file of the array has the vectors close together, so that any layout takes and gives the same one.
#[test]
fn files_of_the_array_do_not_depend_on_the_layout() {
    let folder = folder("long-buffers");
    let noise: Vec<u8> = (0..1024).map(|i| (i * 167 % 251) as u8).collect();
    fs::write(folder.join("array"), &noise).expect("the file can be written");
    let mut written = Vec::new();
    for largest in [32, 64, 256] {
        let script = format!(
            "vector-bytes 32\nlargest-vector-bytes {largest}\narray-file array\n\
             word 00000000\nexpect array 9 {}\nword C0C203BF\n",
            noise[288..320]
                .iter()
                .map(|byte| format!("{byte:02X}"))
                .collect::<String>()
        );
        fs::write(folder.join("k.txt"), script).expect("the file can be written");
        let mut command = runner(&["--quiet", "k.txt", "--array-out", "out"]);
        let output = command.current_dir(&folder).output().expect("it starts");
        assert_eq!(output.status.code(), Some(0), "{output:?}");
        written.push(fs::read(folder.join("out")).expect("the file is there"));
    }
    assert_eq!(written[0].len(), 1024);
    assert!(written[0] != noise);
    assert!(written.iter().all(|file| *file == written[0]));
}

#[test]
fn a_file_of_the_array_has_no_bytes_beyond() {
    let folder = folder("long-array");
    fs::write(folder.join("array"), [0; 64 * 64]).expect("the file can be written");
    let script = "vector-bytes 16\nlargest-vector-bytes 64\narray-file array\nword 00000000\n";
    fs::write(folder.join("k.txt"), script).expect("the file can be written");
    let mut command = runner(&["k.txt"]);
    let output = command.current_dir(&folder).output().expect("it starts");
    assert_eq!(output.status.code(), Some(2));
    let told = String::from_utf8_lossy(&output.stderr);
    let expected = "k.txt:3: 'array' has more than the 256 bytes that there is room for\n";
    assert_eq!(told, expected);
}

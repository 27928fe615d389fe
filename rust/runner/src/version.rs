//! The versions of this program and of what it is built on.

/// The file that states the binding's version, so that it need not be repeated.
const BINDING: &str = include_str!("../../sme_move/Cargo.toml");

/// Each part's name and version. The archive's has two numbers, as the header's has.
pub fn parts() -> [(&'static str, String); 3] {
    let archive = sme_move::numbers::version();
    [
        ("runner", env!("CARGO_PKG_VERSION").to_string()),
        ("sme_move", stated(BINDING).to_string()),
        ("archive", format!("{}.{}", archive >> 16, archive & 0xFFFF)),
    ]
}

/// A line for each part.
pub fn text() -> String {
    let line = |(name, version)| format!("{name} {version}\n");
    parts().into_iter().map(line).collect()
}

/// The version that a package's description states.
fn stated(description: &'static str) -> &'static str {
    let mut lines = description.lines();
    let version = lines.find_map(|line| line.strip_prefix("version = "));
    version.map_or("of unknown version", |text| text.trim_matches('"'))
}

#[cfg(test)]
mod tests {
    use super::*;

    #[test]
    fn each_part_has_a_version_in_numbers() {
        let parts = parts();
        for ((name, version), length) in parts.iter().zip([3, 3, 2]) {
            let numbers: Vec<&str> = version.split('.').collect();
            assert!(numbers.len() == length && numbers.iter().all(|n| n.parse::<u32>().is_ok()));
            assert!(text().contains(&format!("{name} {version}\n")));
        }
        // The binding is written for this archive.
        assert!(parts[1].1.starts_with(&format!("{}.", parts[2].1)));
    }
}

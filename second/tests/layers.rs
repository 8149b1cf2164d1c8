//! The modules stand in layers: each uses only those that are declared above it.

use std::fs;
use std::path::Path;

fn read(file: &Path) -> String {
    fs::read_to_string(file).unwrap_or_else(|error| panic!("{}: {error}", file.display()))
}

/// The modules that a file declares, in turn.
fn declared(file: &Path) -> Vec<String> {
    let module = |line: &str| {
        let name = line.trim_start_matches("pub ").strip_prefix("mod ")?;
        Some(name.strip_suffix(';')?.to_owned())
    };
    read(file).lines().filter_map(module).collect()
}

/// The module's file, in which `super` is what the prefix says, and the files of its folder, all
/// without their tests.
fn text(folder: &Path, module: &str, prefix: &str) -> String {
    let before_tests = |file: &Path| read(file).split("#[cfg(test)]").next().map(str::to_owned);
    let file = folder.join(module).with_extension("rs");
    let own = if file.exists() { before_tests(&file) } else { None };
    let inner = fs::read_dir(folder.join(module)).into_iter().flatten();
    let inner = inner.filter_map(|file| before_tests(&file.expect("a file").path()));
    own.map(|text| text.replace("super::", prefix)).into_iter().chain(inner).collect()
}

/// The names behind the prefix: one, or those in braces.
fn names<'a>(text: &'a str, prefix: &str) -> impl Iterator<Item = &'a str> {
    let lists = text.split(prefix).skip(1).map(|path| match path.strip_prefix('{') {
        Some(list) => list.split('}').next().unwrap_or(list).trim_end_matches([',', '\n']),
        None => path.split(',').next().unwrap_or(path),
    });
    let paths = lists.flat_map(|list| list.split(','));
    paths.filter_map(|path| path.trim().split([':', ';', ' ', ')']).next())
}

#[test]
fn each_module_uses_only_modules_above_it() {
    let src = Path::new(env!("CARGO_MANIFEST_DIR")).join("src");
    let inner = |name: &str| (src.join(name), "mod.rs", "super::");
    // `corpus` is left alone.
    let folders = ["baseline", "inputs", "digests"].map(inner);
    for (folder, declaring, prefix) in folders.into_iter().chain([(src, "lib.rs", "crate::")]) {
        let modules = declared(&folder.join(declaring));
        assert!(modules.len() > 1, "{}: {modules:?}", folder.display());
        for (place, module) in modules.iter().enumerate() {
            let text = text(&folder, module, prefix);
            assert!(!text.is_empty(), "{module} has no file");
            for name in names(&text, prefix) {
                let is_above = modules[..=place].iter().any(|above| above == name);
                assert!(is_above, "{module} uses {prefix}{name}, which is not declared above it");
            }
        }
    }
}

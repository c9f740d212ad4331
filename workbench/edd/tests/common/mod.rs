//! What the tests share: the examples, and the images of those that have one.
#![allow(dead_code, reason = "each test uses a part of it")]

use edd::{Image, ItemNo, Kind, MethNo};
use std::path::{Path, PathBuf};
use std::sync::LazyLock;

/// The images of all examples.
pub(crate) static IMAGES: LazyLock<Vec<Image>> = LazyLock::new(|| {
    let images = sources()
        .into_iter()
        .map(|(_, source)| edd::compile(&source));
    images
        .collect::<Result<_, _>>()
        .expect("all examples are accepted")
});

fn folder(name: &str) -> PathBuf {
    Path::new(env!("CARGO_MANIFEST_DIR"))
        .join("../..")
        .join(name)
}

/// The sources in a folder of the repository, by the extension of their files. A folder that is not
/// there has none.
pub(crate) fn sources_in(name: &str, extension: &str) -> Vec<String> {
    let entries = std::fs::read_dir(folder(name)).into_iter().flatten();
    let paths = entries.map(|entry| entry.expect("a file").path());
    let sources = paths.filter(|path| path.extension().is_some_and(|it| it == extension));
    sources
        .map(|path| std::fs::read_to_string(path).expect("a source"))
        .collect()
}

/// The examples, by their names.
pub(crate) fn sources() -> Vec<(String, Vec<u8>)> {
    let mut found = Vec::new();
    for entry in std::fs::read_dir(folder("examples")).expect("the examples") {
        let path = entry.expect("an example").path();
        if path.extension().is_some_and(|extension| extension == "edd") {
            let name = path
                .file_name()
                .expect("a name")
                .to_string_lossy()
                .into_owned();
            found.push((name, std::fs::read(&path).expect("a source")));
        }
    }
    found.sort();
    assert!(found.len() > 9, "the examples are there");
    found
}

/// The blocks of a page of docs/, each as the body of a source.
pub(crate) fn sources_of_page(name: &str) -> Vec<Vec<u8>> {
    let page = std::fs::read_to_string(folder("docs").join(name)).expect("a page");
    let blocks = page.split("\n\n").filter(|block| block.starts_with("    "));
    let unindented = blocks.map(|block| {
        let lines = block
            .lines()
            .map(|line| line.strip_prefix("    ").unwrap_or(line));
        let body = lines.collect::<Vec<_>>().join("\n");
        format!("{IDENTIFICATION}{body}").into_bytes()
    });
    unindented.collect()
}

/// What each source begins with.
pub(crate) const IDENTIFICATION: &str =
    "MANUFACTURER 1, DEVICE_TYPE 2, DEVICE_REVISION 3, DD_REVISION 4\n";

/// The image of a source with this body.
pub(crate) fn image_of(body: &str) -> Image {
    edd::compile(format!("{IDENTIFICATION}{body}").as_bytes()).expect("an image")
}

/// The methods of an image.
pub(crate) fn methods(image: &Image) -> Vec<MethNo> {
    let items = image
        .items_of(Kind::Method)
        .filter_map(|item| match item.number {
            ItemNo::Method(method) => Some(method),
            _ => None,
        });
    items.collect()
}

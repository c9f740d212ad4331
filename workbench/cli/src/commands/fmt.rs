//! `edd fmt`: sources in their layout. The core decides whether a draft is the same text, and saves it.

use crate::command_line::Fmt;
use crate::failure::{Failure, REFUSED};
use core_std::alloc::Global;
use core_std::vec::Vec as CoreVec;
use edd_files::{
    Files, INPUT, Layout, STANDARD, Source, layout_of, read, read_sources, save_layout,
};
use edd_fmt::LexFault;
use std::io::Write;

/// Formats the sources, or names those that are not formatted. The standard input alone goes to the
/// output.
pub(crate) fn run(args: &Fmt, files: &mut impl Files, out: &mut impl Write) -> Result<(), Failure> {
    match args.sources.as_slice() {
        [name] if !args.check && (name == INPUT || name == STANDARD) => filter(name, files, out),
        names => format_files(names, args, files, out),
    }
}

/// Writes the layout of the standard input to the output, also where it is as it was.
fn filter(name: &str, files: &mut impl Files, out: &mut impl Write) -> Result<(), Failure> {
    let text = read(Global, files, name)?;
    let source = Source { name, text };
    let layout = find_layout(&source)?;
    out.write_all(layout.as_ref().map_or(&source.text, |layout| &layout.bytes))?;
    Ok(())
}

/// All sources are read and formatted before the first is written.
fn format_files(
    names: &[String],
    args: &Fmt,
    files: &mut impl Files,
    out: &mut impl Write,
) -> Result<(), Failure> {
    let names: Vec<&str> = names.iter().map(String::as_str).collect();
    let sources = read_sources(Global, &names, files)?;
    let mut changes = Vec::new();
    for source in &sources {
        if let Some(layout) = find_layout(source)? {
            changes.push((source, layout));
        }
    }
    for (source, layout) in &changes {
        if !args.check {
            save_layout(layout, files)?;
            writeln!(out, "laid out {}", layout.name)?;
            continue;
        }
        writeln!(out, "differs {}", layout.name)?;
        if args.diff {
            let [old, new] =
                [&source.text, &layout.bytes].map(|text| String::from_utf8_lossy(text));
            out.write_all(edd_fmt::unified_diff(layout.name, &old, &new).as_bytes())?;
        }
    }
    if args.check && !changes.is_empty() {
        return Err(Failure::Printed(REFUSED));
    }
    Ok(())
}

/// Returns the layout of a source, where the source has another one.
fn find_layout<'a>(source: &Source<'a>) -> Result<Option<Layout<'a>>, Failure> {
    let draft = edd_fmt::draft(&source.text).map(CoreVec::from_real);
    match draft.and_then(|draft| layout_of(Global, source, draft)) {
        Ok(layout) => Ok(layout),
        Err(LexFault::Memory) => Err(Failure::Memory),
        Err(fault) => Err(Failure::SourceOf {
            name: source.name.to_owned(),
            refusal: fault.to_string(),
        }),
    }
}

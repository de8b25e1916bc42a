//! `info`: what a file holds, and how long it would be in each kind.

mod parts;

use radar_archive::{Archive, Kind, Lengths, Offer, Setting};

use crate::arguments::{Command, Given, Operands, Opt};
use crate::commands::best::width_and_step;
use crate::failure::{Failure, DONE};
use crate::input::Input;
use crate::json::Object;
use crate::numbers;
use crate::output::Results;

use parts::{parts, Part};

pub(super) static COMMAND: Command = Command {
    name: "info",
    options: &[Opt::JSON],
    operands: Operands::each(&["FILE"]),
    help: include_str!("../help/info.txt"),
    run,
};

fn run(given: &Given) -> Result<u8, Failure> {
    let file = Input::picture(&given.operands[0])?;
    let archive = file.open()?;
    let lengths = Lengths::of(&archive);
    let parts = parts(archive.bytes());
    let offers = Kind::ALL.map(|kind| lengths.shortest_of_kind(kind));
    let mut results = Results::open()?;
    if given.has(&Opt::JSON) {
        let mut object = object(&file, &archive, lengths.runs(), &parts, &offers);
        results.put(&object.line())?;
    } else {
        results.put(format!("{:<14}", "File").as_bytes())?;
        results.put_path(&file.path, "\n")?;
        let facts = facts(&archive, lengths.runs());
        let text = format!("{facts}\n{}\n{}", part_table(&parts), offer_table(&offers));
        results.put(text.as_bytes())?;
    }
    results.finish()?;
    Ok(DONE)
}

/// A setting's kind with its name.
fn kind(setting: Setting) -> String {
    format!("{} {}", setting.kind.number(), setting.kind)
}

/// What the header says.
fn facts(archive: &Archive<&[u8]>, runs: u32) -> String {
    let setting = archive.setting();
    let dimensions = archive.dimensions();
    let (cells, stored) = (archive.cells(), archive.stored_count());
    let share = 100.0 * f64::from(stored) / f64::from(cells);
    let empty = archive.empty();
    let rows = [
        ("Length", format!("{} bytes", archive.bytes().len())),
        ("Kind", kind(setting)),
        ("Width", setting.width.to_string()),
        ("Step", setting.step.to_string()),
        ("Dimensions", numbers::joined(dimensions.extents(), "x")),
        ("Cells", cells.to_string()),
        ("Empty word", format!("{empty} (0x{empty:08x})")),
        ("Stored", format!("{stored} ({share:.1} %)")),
        ("Runs", runs.to_string()),
    ];
    rows.iter()
        .map(|(name, value)| format!("{name:<14}{value}\n"))
        .collect()
}

/// The parts with offset and bytes.
fn part_table(parts: &[Part]) -> String {
    let widest = |value: fn(&Part) -> usize, least: usize| {
        let digits = parts.iter().map(|part| value(part).to_string().len());
        digits.max().unwrap_or(0).max(least)
    };
    let offset = widest(|part| part.offset, 6);
    let bytes = widest(|part| part.bytes, 5);
    let mut table = format!(
        "{:<14}{:>offset$}   {:>bytes$}\n",
        "Part", "Offset", "Bytes"
    );
    for part in parts {
        let (name, at, length) = (part.name, part.offset, part.bytes);
        table += &format!("{name:<14}{at:>offset$}   {length:>bytes$}\n");
    }
    table
}

/// The shortest file of each kind.
fn offer_table(offers: &[Offer]) -> String {
    let digits = offers.iter().map(|offer| offer.length.to_string().len());
    let width = digits.max().unwrap_or(0).max(6);
    let mut table = format!("{:<16}{:>width$}   {}\n", "Kind", "Length", "Setting");
    for Offer { setting, length } in offers {
        let options = width_and_step(*setting);
        let options = match options.as_str() {
            "" => String::new(),
            options => format!("  {options}"),
        };
        table += &format!("{:<16}{length:>width$}{options}\n", kind(*setting));
    }
    table
}

/// All of it as an object.
fn object(
    file: &Input,
    archive: &Archive<&[u8]>,
    runs: u32,
    parts: &[Part],
    offers: &[Offer],
) -> Object {
    let (setting, dimensions) = (archive.setting(), archive.dimensions());
    let mut object = Object::new();
    object.path("path", &file.path);
    object.number("length", file.bytes.len() as u64);
    setting_members(&mut object, setting);
    object
        .numbers("dimensions", dimensions.extents())
        .number("cells", archive.cells().into())
        .number("empty", archive.empty().into())
        .number("stored", archive.stored_count().into())
        .number("runs", runs.into());
    let parts: Vec<Object> = parts.iter().map(Part::object).collect();
    object.objects("parts", &parts);
    let offers: Vec<Object> = offers.iter().map(offer_object).collect();
    object.objects("lengths", &offers);
    object
}

/// Kind, its name, width and step.
fn setting_members(object: &mut Object, setting: Setting) {
    object
        .number("kind", setting.kind.number().into())
        .text("name", setting.kind.name())
        .number("width", setting.width.into())
        .number("step", setting.step.into());
}

/// The shortest file of a kind as an object.
fn offer_object(offer: &Offer) -> Object {
    let mut object = Object::new();
    setting_members(&mut object, offer.setting);
    object.number("length", offer.length as u64);
    object
}

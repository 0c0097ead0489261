//! A damaged file, and what is whole in it as a sound one.

use std::ffi::OsStr;
use std::process::ExitCode;

use usm::{salvage_file, sentences, Salvaged, BLOCK_BYTES, LONGEST_FILE};

use crate::found::{Found, Judged};
use crate::input::read_into;
use crate::inputs::{not_beside_json, not_over_itself};
use crate::json::Object;
use crate::make::write;
use crate::output::print;
use crate::program::{self, shown};

/// Writes the sound file, and tells what was dropped, how many records that leaves out, and the verdict on the rest.
pub fn salvage(name: &OsStr, out_name: &OsStr, force: bool, json: bool) -> Result<ExitCode, String> {
    not_over_itself(name, out_name)?;
    not_beside_json(json, out_name)?;
    let mut bytes = Vec::new();
    read_into(&mut bytes, name, LONGEST_FILE)?;
    let salvaged = salvage_file(&bytes).map_err(|refusal| {
        let sentence = sentences::of_salvage(&bytes, &refusal);
        format!("{}: refusal {}: {sentence}", shown(name), refusal.number)
    })?;
    write(out_name, &salvaged.file, force)?;
    match json {
        true => print(&object(name, out_name, &bytes, &salvaged).line())?,
        false => tell(name, out_name, &bytes, &salvaged),
    };
    Ok(ExitCode::from(u8::from(!salvaged.dropped.is_empty())))
}

fn tell(name: &OsStr, out_name: &OsStr, bytes: &[u8], Salvaged { file, dropped }: &Salvaged) -> ExitCode {
    let tell = |what: &str| program::tell(&format!("{}: {what}", shown(name)));
    sentences::of_dropped(bytes, dropped).iter().for_each(|sentence| tell(sentence));
    if let Some(left_out) = sentences::of_left_out(bytes, dropped) {
        tell(&left_out);
    }
    let blocks = blocks_in(bytes);
    tell(&match (dropped.len(), file == bytes) {
        (0, true) => String::from("nothing was dropped; the file comes out as it was"),
        (0, false) => String::from("nothing was dropped; its blocks stand and are numbered anew"),
        (dropped, _) => format!("{dropped} of {blocks} blocks dropped, {} kept", blocks - dropped),
    });
    let judged = Judged::of(Found::of(file), file);
    let out = shown(out_name);
    let line = judged.found.line();
    program::tell(&format!(
        "{out}: a salvaged sheet is not accepted by that; its verdict: {}",
        line.trim_end()
    ));
    program::tell(&format!("{out}: {}", judged.sentence()));
    ExitCode::SUCCESS
}

fn blocks_in(bytes: &[u8]) -> usize {
    bytes.chunks(BLOCK_BYTES).len()
}

/// What was dropped, and the verdict on the file that was written.
fn object(name: &OsStr, out_name: &OsStr, bytes: &[u8], Salvaged { file, dropped }: &Salvaged) -> Object {
    let told = dropped.iter().zip(sentences::of_dropped(bytes, dropped)).map(|(block, sentence)| {
        let number = block.reason.number();
        Object::new().with("block", block.index).with("number", number).with("sentence", sentence)
    });
    let judged = Judged::of(Found::of(file), file);
    Object::of(name)
        .named("out", out_name)
        .origin(judged.origin)
        .with("blocks", blocks_in(bytes))
        .with("dropped", told.collect::<Vec<Object>>())
        .with("left_out", sentences::of_left_out(bytes, dropped))
        .verdict(&judged)
}

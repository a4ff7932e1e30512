//! Kept sheets in a folder: what is read in NAME.in, what must be written in
//! NAME.out.

use std::collections::BTreeMap;
use std::path::{Path, PathBuf};
use std::{fs, io};

use super::{sheet, sheet_in_place};

#[derive(Debug, Default)]
pub struct Checked {
    /// Sheets by the part of the name before `-`.
    pub groups: BTreeMap<String, usize>,
    /// How often each answer stands in the sheets, plans' included.
    pub answers: BTreeMap<u32, usize>,
    /// The names of sheets that were written otherwise.
    pub wrong: Vec<String>,
}

impl Checked {
    pub fn sheets(&self) -> usize {
        self.groups.values().sum()
    }
}

pub fn check_folder(folder: &Path) -> io::Result<Checked> {
    let mut inputs: Vec<PathBuf> = fs::read_dir(folder)?
        .map(|file| Ok(file?.path()))
        .collect::<io::Result<_>>()?;
    inputs.retain(|path| path.extension().is_some_and(|end| end == "in"));
    inputs.sort();
    let mut checked = Checked::default();
    for input in inputs {
        let name = input.file_stem().unwrap_or_default().to_string_lossy();
        let read = fs::read(&input)?;
        let kept = fs::read(input.with_extension("out"))?;
        let written = sheet(&read);
        if written != kept || sheet_in_place(&read) != kept {
            checked.wrong.push(name.to_string());
        }
        for answer in answers(&written) {
            *checked.answers.entry(answer).or_default() += 1;
        }
        let group = name.split('-').next().unwrap_or_default().to_string();
        *checked.groups.entry(group).or_default() += 1;
    }
    Ok(checked)
}

/// The answers that a sheet lists.
pub fn answers(sheet: &[u8]) -> Vec<u32> {
    String::from_utf8_lossy(sheet)
        .lines()
        .filter_map(|line| line.strip_prefix("A "))
        .filter_map(|numbers| numbers.split(' ').nth(1)?.parse().ok())
        .collect()
}

//! Document 01, "The sheet", and request 2026-07: what the program `sheet` writes for what
//! it reads.

pub mod practice;
#[cfg(test)]
mod tests;
pub mod vectors;

use crate::answer::{ACCEPTED, FRAME_LENGTH};
use crate::clock::Clock;
use crate::line::{step, Entry, Frame, Line, Restart, Status};
use crate::plan::length_field;
use crate::state::{self, direct, read_line, LENGTH};

/// "The sheet opens with the fixed line LINE 1."
const OPENING: &[u8] = b"LINE 1\n";

pub fn sheet(input: &[u8]) -> Vec<u8> {
    sheet_told(input, |_, _, _| {})
}

/// The same; `told` hears of each frame that is passed to the line, its answer, and the
/// line after it.
pub fn sheet_told(input: &[u8], mut told: impl FnMut(&[u8], u32, &Line)) -> Vec<u8> {
    let (plan, frames) = parts(input);
    match Line::load(plan) {
        Err(refusal) => refused(refusal),
        Ok(mut line) => {
            let mut text = answered(frames, |frame| {
                let answer = step(&mut line, frame);
                told(frame, answer, &line);
                answer
            });
            list_nodes(&mut text, &line);
            text
        }
    }
}

/// The same with every step in place, in the bytes of a state: what the engine's
/// program is timed beside.
pub fn sheet_in_place(input: &[u8]) -> Vec<u8> {
    let (plan, frames) = parts(input);
    let mut state = [0; LENGTH];
    match state::load(plan, &mut state) {
        ACCEPTED => {
            let mut text = answered(frames, |frame| direct::step_unchecked(&mut state, frame));
            list_nodes(&mut text, &read_line(&state).expect("a line's state"));
            text
        }
        refusal => refused(refusal),
    }
}

/// The plan and the frames. "The plan is as long as its length field says, or all
/// there is."
pub fn parts(input: &[u8]) -> (&[u8], &[u8]) {
    if input.len() < 2 {
        (input, &[])
    } else {
        input.split_at(length_field(input).min(input.len()))
    }
}

/// "A refused plan gives `A 0` and the number, and no more."
fn refused(refusal: u32) -> Vec<u8> {
    let mut text = OPENING.to_vec();
    list_answer(&mut text, 0, refusal);
    text
}

/// "Each frame gives `A`, its number from 1, its answer." "A frame length field
/// cut short, under 5, or more than is left, is answered 9 and ends reading."
fn answered(frames: &[u8], mut step: impl FnMut(&[u8]) -> u32) -> Vec<u8> {
    let mut text = OPENING.to_vec();
    let mut left = frames;
    let mut number = 0;
    while !left.is_empty() {
        number += 1;
        let length = if left.len() < 2 {
            0
        } else {
            length_field(left)
        };
        if length < Frame::LEAST_LENGTH || length > left.len() {
            list_answer(&mut text, number, FRAME_LENGTH);
            break;
        }
        let (frame, after) = left.split_at(length);
        list_answer(&mut text, number, step(frame));
        left = after;
    }
    text
}

fn list_answer(text: &mut Vec<u8>, number: u32, answer: u32) {
    text.extend(b"A ");
    list_numbers(text, &[number, answer]);
    text.push(b'\n');
}

/// "Then per node: `N` node, up, down or replay, time; a line `L` per log entry;
/// `T` and the clock." "After a node's `T` the sheet prints a kept answer."
fn list_nodes(text: &mut Vec<u8>, line: &Line) {
    for (number, node) in line.nodes.iter().enumerate() {
        let status: &[u8] = match node.status {
            Status::Up => b" up ",
            Status::Down => b" down ",
            Status::Replaying => b" replay ",
        };
        text.extend(b"N ");
        list_numbers(text, &[number as u32]);
        text.extend(status);
        list_numbers(text, &[node.time()]);
        text.push(b'\n');
        for entry in &node.log {
            list_entry(text, number, entry);
        }
        text.extend(b"T ");
        list_clock(text, &node.clock);
        text.push(b'\n');
        if let Some(kept) = &node.kept {
            list_kept(text, kept);
        }
    }
}

/// "(Node, time, sender, sender's time, or `-` twice, piece, material, mass)."
fn list_entry(text: &mut Vec<u8>, node: usize, entry: &Entry) {
    let message = &entry.message;
    text.extend(b"L ");
    list_numbers(text, &[node as u32, message.time]);
    match message.made_from {
        None => text.extend(b" - - "),
        Some(origin) => {
            text.push(b' ');
            list_numbers(text, &[origin.sender as u32, origin.time]);
            text.push(b' ');
        }
    }
    let record = &message.record;
    list_numbers(
        text,
        &[record.piece, record.material.into(), record.mass.into()],
    );
    text.push(b'\n');
}

/// "The clock is listed root first, each parent's part listed the same way
/// inside brackets, parents rising, one space between; a node without parents,
/// or in the third layer, has no brackets."
fn list_clock(text: &mut Vec<u8>, clock: &Clock) {
    list_time(text, clock.node, clock.time);
    if clock.parents.is_empty() {
        return;
    }
    text.push(b'[');
    for (index, part) in clock.parents.iter().enumerate() {
        if index > 0 {
            text.push(b' ');
        }
        list_clock(text, part);
    }
    text.push(b']');
}

/// "`Q`, low, high, each parent's restored entry as `parent:time`, each target as
/// `time[parent:time]`, parents and times rising."
fn list_kept(text: &mut Vec<u8>, kept: &Restart) {
    text.extend(b"Q ");
    list_numbers(text, &[kept.low, kept.high]);
    for entry in &kept.restored {
        text.push(b' ');
        list_time(text, entry.sender, entry.time);
    }
    for target in &kept.targets {
        text.push(b' ');
        list_numbers(text, &[target.time]);
        text.push(b'[');
        list_time(text, target.parent, target.parent_time);
        text.push(b']');
    }
    text.push(b'\n');
}

fn list_time(text: &mut Vec<u8>, node: usize, time: u32) {
    list_numbers(text, &[node as u32]);
    text.push(b':');
    list_numbers(text, &[time]);
}

/// In decimal digits, one space between.
fn list_numbers(text: &mut Vec<u8>, numbers: &[u32]) {
    for (index, &number) in numbers.iter().enumerate() {
        if index > 0 {
            text.push(b' ');
        }
        let mut digits = [0; 10];
        let mut first = digits.len();
        let mut left = number;
        loop {
            first -= 1;
            digits[first] = b'0' + (left % 10) as u8;
            left /= 10;
            if left == 0 {
                break;
            }
        }
        text.extend_from_slice(&digits[first..]);
    }
}

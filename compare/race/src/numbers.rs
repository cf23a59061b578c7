//! Numbers after the letters of a command, once in each race: each below 1,000, with every count of digits to four.
//! Answers to 01, "The program", and to the number 23.

use crate::bodies::NUMBERED;
use crate::case::{Case, Function};
use crate::racer::Racer;
use crate::records::running_image;
use reference::calls::STEP_ANSWER_SIZE;

/// Each command that takes a number, stepped, which tells the value of a right one, and judged. The list has the pace twice.
pub fn numbers(racer: &mut Racer) -> Option<()> {
    for &(letters, ..) in &NUMBERED[1..] {
        for digits in 1..=4 {
            for value in 0..10_usize.pow(digits.min(3)) {
                let number = format!("{value:0width$}", width = digits as usize);
                let close: &[u8] = if letters == b"L" { b"^E" } else { b"" };
                let body = [b"^", letters, number.as_bytes(), close].concat();
                let answer = racer.random.bytes(STEP_ANSWER_SIZE);
                racer.call(Case::new(Function::Step, &[]).image(&running_image(&body)).out(answer))?;
                racer.call(Case::new(Function::Judge, &[]).bytes(body))?;
            }
        }
    }
    Some(())
}

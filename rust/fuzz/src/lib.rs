//! A target for libFuzzer: its bytes are taken as a case, and the kit, fast Rust and the judge are asked the same.
//!
//! A number is one byte, from −127 to 127; byte 80 stands before one of four bytes, little-endian. Numbers and bytes go in rows: a count
//! of two bytes, then what it counts, or what is left where that is less. A case is seven rows: the book's bytes, the clauses to ask the
//! constraint of, the derivation, its goal (relation, then values), the trace, its goal, the model's bytes. So all bytes are a case.

use ruahmitz_compare::cases::Case;
use ruahmitz_compare::compare::Comparer;
use ruahmitz_compare::lists::Question;

/// Stands before a number of four bytes.
const LONG: u8 = 0x80;
/// A room is longer than needed by this.
const SLACK: usize = 3;

/// What is left of the fuzzer's bytes.
struct Input<'a>(&'a [u8]);

impl Input<'_> {
    /// The next N bytes, with zeros for what is not there.
    fn take<const N: usize>(&mut self) -> [u8; N] {
        let mut taken = [0; N];
        let (front, rest) = self.0.split_at(N.min(self.0.len()));
        taken[..front.len()].copy_from_slice(front);
        self.0 = rest;
        taken
    }

    fn number(&mut self) -> i32 {
        match self.take() {
            [LONG] => i32::from_le_bytes(self.take()),
            [byte] => i32::from(byte as i8),
        }
    }

    fn row<T>(&mut self, next: impl Fn(&mut Self) -> T) -> Vec<T> {
        let mut row = Vec::new();
        for _ in 0..u16::from_le_bytes(self.take()) {
            if self.0.is_empty() {
                break;
            }
            row.push(next(self));
        }
        row
    }

    fn bytes(&mut self) -> Vec<u8> {
        self.row(|input| u8::from_le_bytes(input.take()))
    }

    fn numbers(&mut self) -> Vec<i32> {
        self.row(Input::number)
    }

    fn question(&mut self) -> Question {
        let list = self.numbers();
        let goal = self.numbers();
        let (relation, values) = goal.split_first().unwrap_or((&0, &[]));
        Question { list, relation: i64::from(*relation) as u64, values: values.to_vec(), ..Question::default() }
    }
}

/// The case that the bytes stand for.
pub fn unpack(data: &[u8]) -> Case {
    let mut input = Input(data);
    Case {
        book: input.bytes(),
        clauses: input.numbers().into_iter().map(|clause| i64::from(clause) as u64).collect(),
        derivation: input.question(),
        trace: input.question(),
        model: input.bytes(),
        slack: SLACK,
    }
}

fn pack_number(data: &mut Vec<u8>, number: i32) {
    match i8::try_from(number) {
        Ok(small) if small as u8 != LONG => data.push(small as u8),
        _ => {
            data.push(LONG);
            data.extend(number.to_le_bytes());
        }
    }
}

fn pack_numbers(data: &mut Vec<u8>, numbers: &[i32]) -> Option<()> {
    data.extend(u16::try_from(numbers.len()).ok()?.to_le_bytes());
    numbers.iter().for_each(|&number| pack_number(data, number));
    Some(())
}

fn pack_bytes(data: &mut Vec<u8>, bytes: &[u8]) -> Option<()> {
    data.extend(u16::try_from(bytes.len()).ok()?.to_le_bytes());
    data.extend(bytes);
    Some(())
}

fn pack_question(data: &mut Vec<u8>, question: &Question) -> Option<()> {
    let mut goal = vec![i32::try_from(question.relation as i64).ok()?];
    goal.extend(&question.values);
    pack_numbers(data, &question.list)?;
    pack_numbers(data, &goal)
}

/// Bytes that stand for the case, without clauses whose number is too large; none if a goal's relation or a row is.
pub fn pack(case: &Case) -> Option<Vec<u8>> {
    let mut data = Vec::new();
    let clauses: Vec<i32> = case.clauses.iter().filter_map(|&clause| i32::try_from(clause as i64).ok()).collect();
    pack_bytes(&mut data, &case.book)?;
    pack_numbers(&mut data, &clauses)?;
    pack_question(&mut data, &case.derivation)?;
    pack_question(&mut data, &case.trace)?;
    pack_bytes(&mut data, &case.model)?;
    Some(data)
}

/// Asks all; ends the process where they differ.
fn ask(data: &[u8]) {
    let mut comparer = Comparer::default();
    if !comparer.case(&unpack(data)) {
        for difference in &comparer.differences {
            eprintln!("{difference}");
        }
        std::process::abort();
    }
}

/// libFuzzer's entry.
///
/// # Safety
/// `data` points to `size` bytes.
#[no_mangle]
pub unsafe extern "C" fn LLVMFuzzerTestOneInput(data: *const u8, size: usize) -> i32 {
    // SAFETY: the caller says so; a null pointer comes with size 0 only.
    let data = if size == 0 { &[] } else { unsafe { std::slice::from_raw_parts(data, size) } };
    ask(data);
    0
}

#[cfg(test)]
mod tests {
    use super::*;

    #[test]
    fn a_packed_case_is_itself_again() {
        let mut packed = 0;
        for number in 1..300 {
            let case = Case::make(5, number);
            let Some(data) = pack(&case) else { continue };
            let again = unpack(&data);
            assert_eq!((&again.book, &again.model), (&case.book, &case.model));
            for (one, other) in [(&again.derivation, &case.derivation), (&again.trace, &case.trace)] {
                assert_eq!((&one.list, one.relation, &one.values), (&other.list, other.relation, &other.values));
            }
            packed += 1;
        }
        assert!(packed > 200);
    }

    #[test]
    fn numbers_of_one_byte_and_of_four() {
        let mut data = Vec::new();
        pack_numbers(&mut data, &[0, 127, -127, -128, 128, i32::MIN, i32::MAX]).unwrap();
        assert_eq!(data.len(), 2 + 3 + 4 * 5);
        assert_eq!(Input(&data).numbers(), [0, 127, -127, -128, 128, i32::MIN, i32::MAX]);
    }

    #[test]
    fn all_bytes_are_a_case() {
        let data = pack(&Case::make(5, 1)).unwrap();
        for end in 0..data.len() {
            ask(&data[..end]);
        }
    }
}

//! Prints what the crate `num-integer` answers over fixed inputs, as the list that `crates/replay` holds.

mod calls;
mod checksum;
mod inputs;

/// The crate that is asked.
#[cfg(feature = "cellarcove")]
use cellarcove as asked;
#[cfg(not(feature = "cellarcove"))]
use num_integer as asked;

use calls::{Call, Number, OF_PAIRS};
use checksum::Checksum;
use inputs::{counts, degree, Shape, Whole, DEGREES, LISTS, ROOTED, ROWS};
use std::panic::set_hook;

/// What is printed on standard error beside the list.
enum Shown {
    Nothing,
    /// Each input at which the crate answers at `i128` alone.
    Differences,
    /// Each input of the line of this type and call, after its place and the checksum with it.
    Inputs(String, String),
}

impl Shown {
    fn of_words(words: &[String]) -> Shown {
        match words {
            [] => Shown::Nothing,
            [word] if word == "differences" => Shown::Differences,
            [word, it, call] if word == "inputs" => Shown::Inputs(it.clone(), call.clone()),
            _ => panic!("no words, `differences`, or `inputs` with a type and a call"),
        }
    }

    /// Whether an input of the line of this type and call is printed.
    fn has(&self, it: &str, call: Call, wide: bool) -> bool {
        match self {
            Shown::Nothing => false,
            Shown::Differences => wide,
            Shown::Inputs(shown, of) => shown == it && *of == call.name(),
        }
    }
}

/// A type by its name, and what is shown of it.
#[derive(Clone, Copy)]
struct At<'a> {
    name: &'a str,
    shape: Shape,
    shown: &'a Shown,
}

/// How many inputs were answered in the type, how many only at `i128`, and the checksum over each
/// answered input and its answer.
struct Line<'a> {
    at: At<'a>,
    in_type: u32,
    at_128_bits: u32,
    checksum: Checksum,
}

impl<'a> Line<'a> {
    fn new(at: At<'a>) -> Line<'a> {
        Line {
            at,
            in_type: 0,
            at_128_bits: 0,
            checksum: Checksum(0),
        }
    }

    /// Adds the input, where it has an answer.
    fn ask<T: Number>(&mut self, call: Call, operands: &[Whole]) {
        let Some((answer, wide)) = call.narrowed::<T>(operands) else {
            return;
        };
        if wide {
            self.at_128_bits += 1;
        } else {
            self.in_type += 1;
        }
        self.checksum = self.checksum.with_each(operands);
        if let Call::NthRoot(degree) = call {
            self.checksum = self.checksum.with((false, u128::from(degree)));
        }
        self.checksum = self.checksum.with_each(&answer);
        let (count, Checksum(sum)) = (self.in_type + self.at_128_bits, self.checksum);
        let name = self.at.name;
        if self.at.shown.has(name, call, wide) {
            eprintln!("{count} {sum} {name} {call:?} {operands:?} {answer:?}");
        }
    }

    fn text(&self, call: Call) -> (String, String) {
        let (count, wide, Checksum(sum)) = (self.in_type, self.at_128_bits, self.checksum);
        (call.name(), format!("{count} {wide} {sum}"))
    }
}

fn numbers(shape: Shape, count: u32) -> Vec<Whole> {
    (0..count)
        .filter_map(|index| shape.number(index))
        .map(positive_zero)
        .collect()
}

fn positive_zero((negative, magnitude): Whole) -> Whole {
    (negative && magnitude != 0, magnitude)
}

fn pairs<T: Number>(at: At, call: Call) -> Line {
    let numbers = numbers(at.shape, at.shape.paired());
    let mut line = Line::new(at);
    for a in &numbers {
        for b in &numbers {
            line.ask::<T>(call, &[*a, *b]);
        }
    }
    line
}

fn roots<'a, T: Number>(at: At<'a>, calls: &[Call]) -> Line<'a> {
    let mut line = Line::new(at);
    for n in numbers(at.shape, ROOTED) {
        for call in calls {
            line.ask::<T>(*call, &[n]);
        }
    }
    line
}

fn lists<T: Number>(at: At) -> Line {
    let mut line = Line::new(at);
    for n in numbers(at.shape, at.shape.paired()) {
        for index in 0..LISTS {
            line.ask::<T>(Call::Multinomial, &counts(n, index));
        }
    }
    line
}

fn rows<T: Number>(at: At) -> Line {
    let mut line = Line::new(at);
    for n in 0..ROWS {
        line.ask::<T>(Call::IterBinomial, &[(false, u128::from(n))]);
    }
    line
}

/// The name of each call, and what is found of it at a type.
type Found = Vec<(String, String)>;

/// What is found at a type.
fn lines_of<T: Number>(name: &str, shown: &Shown) -> Found {
    let high = T::max_value().to_u128().expect("it is positive");
    let low = T::min_value().to_i128().unwrap_or(0).unsigned_abs();
    let shape = Shape::between(low, high);
    let at = At { name, shape, shown };
    let of_pair = |call: Call| pairs::<T>(at, call).text(call);
    let mut lines: Found = OF_PAIRS.iter().copied().map(of_pair).collect();
    if low > 0 {
        lines.push(of_pair(Call::ExtendedGcdLcm));
    }
    if shape.width <= 64 {
        let nth_roots: Vec<Call> = (0..DEGREES).map(degree).map(Call::NthRoot).collect();
        for calls in [&[Call::Sqrt], &[Call::Cbrt], &nth_roots[..]] {
            lines.push(roots::<T>(at, calls).text(calls[0]));
        }
    }
    lines.push(lists::<T>(at).text(Call::Multinomial));
    lines.push(rows::<T>(at).text(Call::IterBinomial));
    lines
}

/// The same at a type of 64 bits, where the type of the size of a pointer has the same lines.
fn lines_of_both<T: Number, P: Number>(names: [&str; 2], shown: &Shown) -> Found {
    let lines = lines_of::<T>(names[0], shown);
    assert_eq!(lines, lines_of::<P>(names[1], shown), "{names:?}");
    lines
}

/// The text above the lines.
const HEAD: &str = "\
//! What the Rust crate `num-integer` returned, as the program in `compare/` printed it.

use super::calls::Call;
use super::lines::Line;

/// The lines: a call, and for each type how many inputs have a result, how many more have one at `i128` alone, by numbers of
/// the type, and the checksum.
macro_rules! lines {
    ($($call:ident: $($in_type:literal $at_128_bits:literal $checksum:literal),+;)+) => {
        [$((Call::$call, [$(($in_type, $at_128_bits, $checksum)),+])),+]
    };
}

/// At `i8`, `i16`, `i32`, `i64` and `isize`, and `i128`, and then at the unsigned types in the same order.";

fn main() {
    set_hook(Box::new(|_| ()));
    let words: Vec<String> = std::env::args().skip(1).collect();
    let shown = Shown::of_words(&words);
    println!("{HEAD}");
    print_table(&[
        lines_of::<i8>("I8", &shown),
        lines_of::<i16>("I16", &shown),
        lines_of::<i32>("I32", &shown),
        lines_of_both::<i64, isize>(["I64", "Isize"], &shown),
        lines_of::<i128>("I128", &shown),
        lines_of::<u8>("U8", &shown),
        lines_of::<u16>("U16", &shown),
        lines_of::<u32>("U32", &shown),
        lines_of_both::<u64, usize>(["U64", "Usize"], &shown),
        lines_of::<u128>("U128", &shown),
    ]);
}

/// Prints a line for each call, with what is found at each type, four types in a row. The first type has all calls.
fn print_table(types: &[Found]) {
    let (calls, count) = (&types[0], types.len());
    println!("pub(crate) const LINES: [Line<Call, {count}>; {}] = lines! {{", calls.len());
    for (call, _) in calls {
        let found = |lines: &Found| {
            let line = lines.iter().find(|(name, _)| name == call);
            line.map_or("0 0 0".to_string(), |(_, text)| text.clone())
        };
        let results: Vec<String> = types.iter().map(found).collect();
        let rows: Vec<String> = results.chunks(4).map(|row| row.join(", ")).collect();
        println!("    {call}: {};", rows.join(",\n        "));
    }
    println!("}};");
}

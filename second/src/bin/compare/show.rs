//! Prints a call as a small C program that makes it again.

use crate::calls::{Argument, Call};
use crate::memory::Memory;
use std::fmt::Write;

/// A C program that makes the call and prints the answer and every slice.
pub fn c_program<C: Call>(call: &C) -> String {
    let arguments = call.arguments();
    let mut text = String::from("#include <stddef.h>\n#include <stdint.h>\n#include <stdio.h>\n");
    let types: Vec<String> = arguments.iter().map(c_types).collect();
    let _ = writeln!(text, "uint32_t {}({});", call.name(), types.join(", "));
    for (place, argument) in arguments.iter().enumerate() {
        text += &c_definition(place, argument);
    }
    let given: Vec<String> = (0..).zip(&arguments).map(c_given).collect();
    let given = given.join(", ");
    let _ = writeln!(text, "int main(void) {{");
    let _ = writeln!(
        text,
        "  printf(\"answer %u\\n\", {}({given}));",
        call.name()
    );
    for memory in call.memories() {
        text += &c_printing(&memory);
    }
    text + "}\n"
}

/// The parameter types of an argument.
fn c_types(argument: &Argument) -> String {
    match argument {
        Argument::Number(_) => "uint32_t".to_string(),
        Argument::Float(_) => "float".to_string(),
        Argument::Slice(memory) => format!("{} *, size_t", memory.c_type),
        Argument::Pointer(memory) => format!("{} *", memory.c_type),
    }
}

/// The type of the array that holds a memory; floats are held by their bits.
fn held_type(memory: &Memory) -> &'static str {
    if memory.c_type == "float" {
        "uint32_t"
    } else {
        memory.c_type
    }
}

fn c_definition(place: usize, argument: &Argument) -> String {
    match argument {
        Argument::Number(_) => String::new(),
        Argument::Float(bits) => {
            format!("union {{ uint32_t bits; float value; }} float{place} = {{ {bits:#010x} }};\n")
        }
        Argument::Slice(memory) | Argument::Pointer(memory) => {
            let elements: Vec<String> = memory.elements.iter().map(i64::to_string).collect();
            let (held, name) = (held_type(memory), memory.name);
            let note = format!("/* slice: {} from {} */", memory.len, memory.start);
            format!("{held} {name}[] = {{ {} }}; {note}\n", elements.join(", "))
        }
    }
}

/// The argument as it is handed over.
fn c_given((place, argument): (usize, &Argument)) -> String {
    match argument {
        Argument::Number(number) => format!("{number}u"),
        Argument::Float(_) => format!("float{place}.value"),
        Argument::Slice(memory) => format!("{}, {}", c_pointer(memory), memory.len),
        Argument::Pointer(memory) => c_pointer(memory),
    }
}

fn c_pointer(memory: &Memory) -> String {
    let (c_type, name, start) = (memory.c_type, memory.name, memory.start);
    format!("({c_type} *)({name} + {start})")
}

fn c_printing(memory: &Memory) -> String {
    let (name, count) = (memory.name, memory.elements.len());
    format!(
        "  printf(\"{name}\");\n  for (int i = 0; i < {count}; i++) \
         printf(\" %lld\", (long long){name}[i]);\n  printf(\"\\n\");\n"
    )
}

/// What differs between two outcomes of a call, first the answers; `origin`
/// says where the other one is from.
pub fn differences<C: Call>(one: (u32, &C), other: (u32, &C), origin: &str) -> String {
    let mut text = answer_difference(one.0, other.0, origin);
    let pairs = one.1.memories().into_iter().zip(other.1.memories());
    for (one, other) in pairs {
        text += &memory_differences(&one, &other, 0..one.elements.len(), origin);
    }
    text
}

/// A line where two answers are not the same.
pub fn answer_difference(one: u32, other: u32, origin: &str) -> String {
    if one == other {
        return String::new();
    }
    format!("answer: {one}, {origin}: {other}\n")
}

/// A line for each of the first ten of these places, counted from the beginning
/// of the fence, where two memories are not the same.
pub fn memory_differences(
    one: &Memory,
    other: &Memory,
    places: impl Iterator<Item = usize>,
    origin: &str,
) -> String {
    let mut text = String::new();
    let places = places.filter(|&i| one.elements[i] != other.elements[i]);
    for i in places.take(10) {
        let place = i as i64 - one.start as i64;
        let (name, len) = (one.name, one.len);
        let (a, b) = (one.elements[i], other.elements[i]);
        let _ = writeln!(text, "{name}[{place}] (length {len}): {a}, {origin}: {b}");
    }
    text
}

//! Answers and JSON of the notation.

use super::scan::Scanner;
use super::Fault;
use crate::describe::{Answer, Json, ObjectAnswer};

/// The root's answer, whose type name is the root's.
pub(super) fn read_root(scanner: &mut Scanner<'_>, root: &str) -> Result<ObjectAnswer, Fault> {
    let answer = object(scanner, root.into())?;
    if scanner.at_end() {
        Ok(answer)
    } else {
        scanner.fault("the end of the answers")
    }
}

pub(super) fn read_variables(scanner: &mut Scanner<'_>) -> Result<Vec<(String, Json)>, Fault> {
    if scanner.at_end() {
        return Ok(Vec::new());
    }
    match json(scanner)? {
        Json::Object(variables) if scanner.at_end() => Ok(variables),
        _ => scanner.fault("an object of variables"),
    }
}

fn object(scanner: &mut Scanner<'_>, type_name: String) -> Result<ObjectAnswer, Fault> {
    scanner.expect("{")?;
    let fields = scanner.until("}", |scanner| {
        let name = scanner.name()?;
        scanner.expect(":")?;
        Ok((name, answer(scanner)?))
    })?;
    Ok(ObjectAnswer { type_name, fields })
}

fn answer(scanner: &mut Scanner<'_>) -> Result<Answer, Fault> {
    if scanner.take("[") {
        return Ok(Answer::List(scanner.until("]", answer)?));
    }
    match scanner.peek_name() {
        Some("skip") => scanner.name().map(|_| Answer::Skip),
        Some("error") => scanner.name().map(|_| Answer::Error),
        Some("leaf") => {
            scanner.name()?;
            json(scanner).map(Answer::Leaf)
        }
        Some("echo") => {
            scanner.name()?;
            scanner.name().map(Answer::Echo)
        }
        None | Some("null" | "true" | "false") => json(scanner).map(Answer::Leaf),
        Some(_) => {
            let type_name = scanner.name()?;
            if !scanner.take("^") {
                return object(scanner, type_name).map(Answer::Object);
            }
            let outwards = scanner.number().and_then(|number| number.parse().ok());
            let outwards = outwards.ok_or("no number behind ^")?;
            Ok(Answer::Again { type_name, outwards })
        }
    }
}

fn json(scanner: &mut Scanner<'_>) -> Result<Json, Fault> {
    if let Some(text) = scanner.string()? {
        return Ok(Json::String(text));
    }
    if let Some(number) = scanner.number() {
        return Ok(match number.parse() {
            Ok(value) => Json::Int(value),
            Err(_) => Json::Float(number),
        });
    }
    if scanner.take("[") {
        return Ok(Json::Array(scanner.until("]", json)?));
    }
    if scanner.take("{") {
        let entries = scanner.until("}", |scanner| {
            let key = scanner.string()?.ok_or("a key is no string")?;
            scanner.expect(":")?;
            Ok((key, json(scanner)?))
        })?;
        return Ok(Json::Object(entries));
    }
    match scanner.name()?.as_str() {
        "null" => Ok(Json::Null),
        "true" => Ok(Json::Bool(true)),
        "false" => Ok(Json::Bool(false)),
        other => Err(format!("{other} is no JSON")),
    }
}

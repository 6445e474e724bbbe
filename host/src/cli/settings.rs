//! `settings`: settings files converted and shown.

use std::ffi::OsStr;
use std::io::Write;
use std::path::Path;

use super::arguments::Arguments;
use super::{store, text, Done, Failure};
use crate::settings::{
    clock, convert, form_of, place_in_words, settings, Conversion, Converter, Form, Refused, Setting,
};

pub fn settings_file<L: Converter>(arguments: &Arguments, out: &mut dyn Write) -> Done {
    match arguments.operand(0).as_encoded_bytes() {
        b"widen" => rewrite::<L>(arguments, Conversion::Widen),
        b"narrow" => rewrite::<L>(arguments, Conversion::Narrow),
        b"show" if arguments.optional(2).is_none() => show::<L>(arguments.operand(1), out),
        b"show" => Err(arguments.trouble("show prints, and takes no OUT")),
        _ => Err(arguments.trouble("widen, narrow or show, and then a file")),
    }
}

/// Converts FILE into OUT, or into FILE itself; whichever it is changes as a whole or not at all.
fn rewrite<L: Converter>(arguments: &Arguments, conversion: Conversion) -> Done {
    let name = arguments.operand(1);
    let target = arguments.optional(2).unwrap_or(name);
    if target == "-" {
        return Err(arguments.trouble("the result goes to a file: OUT must be named"));
    }
    let _held = Path::new(target).exists().then(|| store::hold(target)).transpose()?;
    let file = store::read(name)?;
    let result =
        convert::<L>(conversion, &file).map_err(|refused| failure(name, &file, conversion, refused))?;
    store::replace(target, &result)
}

/// A refusal with the record that it is about, and where that stands.
fn failure(name: &OsStr, file: &[u8], conversion: Conversion, refused: Refused) -> Failure {
    let form = conversion.from();
    let about = match settings(form, file) {
        Err(fault) => format!(": {fault}"),
        Ok(settings) => {
            let named = settings.iter().enumerate().find(|(_, setting)| Some(setting.key) == refused.key);
            named.map_or_else(String::new, |(record, Setting { key, seconds })| {
                format!(
                    ": {}, key {key}, has {seconds} s ({})",
                    place_in_words(form, record),
                    clock(*seconds)
                )
            })
        }
    };
    Failure::Refused(format!("{}: {}{about}", text::show_os(name), refused.error))
}

/// A file that is of neither form: what is wrong with it in the form whose mark it begins with, else in the old
/// one.
fn of_neither(name: &OsStr, file: &[u8]) -> Failure {
    let form = if file.starts_with(&Form::NEW.mark) { Form::NEW } else { Form::OLD };
    let fault = settings(form, file).map_or_else(|fault| fault.to_string(), |_| String::from("it is sound"));
    let name = text::show_os(name);
    Failure::Refused(format!(
        "{name}: 50: a settings file of neither form: read in the {} form, {fault}",
        form.name
    ))
}

fn show<L: Converter>(name: &OsStr, out: &mut dyn Write) -> Done {
    let file = store::read(name)?;
    let Some(form) = form_of::<L>(&file) else {
        return Err(of_neither(name, &file));
    };
    writeln!(out, "  key     seconds          time")?;
    for Setting { key, seconds } in settings(form, &file).unwrap_or_default() {
        writeln!(out, "{key:>5}  {seconds:>10}  {:>12}", clock(seconds))?;
    }
    Ok(())
}

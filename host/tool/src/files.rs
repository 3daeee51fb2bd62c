//! Reading and writing: `-` stands for standard input and output, and a file is written whole or not at all.

use std::fs::File;
use std::io::{Read, Write};
use std::path::PathBuf;

use jirvuntsag_text::{escaped, Lone, Model, Names, Reading, TextError};

use crate::failure::Failure;

/// The word for standard input and output.
pub const STANDARD: &str = "-";

/// Bytes beyond which no file is read: no text, image or file of names is near to so many.
const LARGEST: usize = 16 << 20;

/// Faults of a text that are told at most; of the others their number is said.
const MOST_FAULTS: usize = 20;

/// A model, and what is known of the file that held it.
pub struct Held {
    pub model: Model,
    /// Whether the file holds a text.
    pub is_text: bool,
    /// The symbols that stand in one place of the text only.
    pub lone: Vec<Lone>,
}

/// What a message calls a file.
pub fn shown(path: &str) -> String {
    match path {
        STANDARD => "standard input".into(),
        path => escaped(path.chars()),
    }
}

/// The bytes of a file; one that is too large is not read to its end.
fn read(path: &str) -> Result<Vec<u8>, Failure> {
    let source: std::io::Result<Box<dyn Read>> = match path {
        STANDARD => Ok(Box::new(std::io::stdin())),
        path => File::open(path).map(|file| Box::new(file) as Box<dyn Read>),
    };
    let mut bytes = Vec::new();
    let failed = |error| Failure::file(&shown(path), error);
    source.map_err(failed)?.take(LARGEST as u64 + 1).read_to_end(&mut bytes).map_err(failed)?;
    if bytes.len() > LARGEST {
        return Err(Failure::refused(format!("{}: this is no model: it has more than {LARGEST} bytes", shown(path))));
    }
    Ok(bytes)
}

/// The text of a file, which must be no image.
pub fn read_text(path: &str) -> Result<String, Failure> {
    let bytes = read(path)?;
    if is_image(path, &bytes) {
        let message = "this is an image, not a text: 'unpack' makes a text of it";
        return Err(Failure::refused(format!("{}: {message}", shown(path))));
    }
    text_of(path, bytes)
}

/// The image of a file, which must be no text.
pub fn read_image(path: &str) -> Result<Vec<u8>, Failure> {
    let bytes = read(path)?;
    if is_image(path, &bytes) || std::str::from_utf8(&bytes).is_err() {
        return Ok(bytes);
    }
    let message = "this is a text, not an image: 'pack' makes an image of it";
    Err(Failure::refused(format!("{}: {message}", shown(path))))
}

fn text_of(path: &str, bytes: Vec<u8>) -> Result<String, Failure> {
    String::from_utf8(bytes).map_err(|error| {
        let valid = &error.as_bytes()[..error.utf8_error().valid_up_to()];
        let line = 1 + valid.iter().filter(|&&byte| byte == b'\n').count();
        let fault = TextError::at(line, 0, "this is no text: a byte that is not UTF-8");
        Failure::refused(fault.in_file(&shown(path)))
    })
}

/// The model of an image; names are invented, or those of a file.
pub fn model_of_image(path: &str, image: &[u8], names: Option<&str>) -> Result<Model, Failure> {
    let model = Model::from_image(image).map_err(|refused| Failure::refused(format!("{}: {refused}", shown(path))))?;
    let Some(names_path) = names else { return Ok(model) };
    let refused = |error: TextError| Failure::refused(error.in_file(&shown(names_path)));
    let names = Names::from_json(&text_of(names_path, read(names_path)?)?).map_err(refused)?;
    model.with_names(names).map_err(refused)
}

/// The model of a text, or all its faults.
pub fn model_of_text(path: &str, text: &str) -> Result<Held, Failure> {
    let Reading { model, lone } = Model::read(text);
    let told = |faults: Vec<TextError>| {
        let mut lines: Vec<String> = faults.iter().take(MOST_FAULTS).map(|fault| fault.in_file(&shown(path))).collect();
        if faults.len() > MOST_FAULTS {
            lines.push(format!("{}: and {} more faults", shown(path), faults.len() - MOST_FAULTS));
        }
        Failure::refused(lines.join("\n"))
    };
    Ok(Held { model: model.map_err(told)?, is_text: true, lone })
}

/// The model of a file that holds a text or an image; only an image takes names from another file.
pub fn model_of_file(path: &str, names: Option<&str>) -> Result<Held, Failure> {
    let bytes = read(path)?;
    if is_image(path, &bytes) {
        return Ok(Held { model: model_of_image(path, &bytes, names)?, is_text: false, lone: Vec::new() });
    }
    match names {
        None => model_of_text(path, &text_of(path, bytes)?),
        Some(_) => Err(Failure::usage(format!("{} is a text, which has its own names", shown(path)))),
    }
}

/// Whether a file is an image: by a first byte with which no text begins (an image's is 1 or 2), or by its name if it is no text.
fn is_image(path: &str, bytes: &[u8]) -> bool {
    match bytes.first() {
        Some(&byte) if byte < b'\t' => true,
        Some(_) => path.ends_with(".image") && std::str::from_utf8(bytes).is_err(),
        None => path.ends_with(".image"),
    }
}

/// Writes to standard output.
pub fn write_out(bytes: &[u8]) -> Result<(), Failure> {
    let mut out = std::io::stdout().lock();
    out.write_all(bytes).and_then(|()| out.flush()).map_err(|error| Failure::file("standard output", error))
}

/// What is to be written to a file: a temporary file beside it, which takes its place when all is written.
struct Pending {
    /// As the user wrote it, for messages.
    said: String,
    path: PathBuf,
    temporary: PathBuf,
}

impl Pending {
    /// Writes the temporary file; a link is followed, so that it stays a link.
    fn new(said: &str, bytes: &[u8]) -> Result<Pending, Failure> {
        let path = std::fs::canonicalize(said).unwrap_or_else(|_| said.into());
        let mut name = path.file_name().unwrap_or_default().to_owned();
        name.push(format!(".{}.part", std::process::id()));
        let pending = Pending { said: said.into(), temporary: path.with_file_name(name), path };
        std::fs::write(&pending.temporary, bytes).map_err(|error| pending.failure(error))?;
        Ok(pending)
    }

    fn failure(&self, error: std::io::Error) -> Failure {
        Failure::file(&self.said, error)
    }

    /// Puts it in its place.
    fn keep(self) -> Result<(), Failure> {
        std::fs::rename(&self.temporary, &self.path).map_err(|error| self.failure(error))
    }
}

impl Drop for Pending {
    /// Nothing stays behind if it was not kept; a file that was kept is no longer there under this name.
    fn drop(&mut self) {
        let _ = std::fs::remove_file(&self.temporary);
    }
}

/// Writes what was made of an input; of the files, all or none.
pub fn write_all(input: &str, outputs: &[(&str, &[u8])]) -> Result<(), Failure> {
    if input != STANDARD && outputs.iter().any(|(path, _)| *path == input) {
        return Err(Failure::usage(format!("'{input}' is read, and is not to be written")));
    }
    let twice =
        outputs.iter().enumerate().find(|(at, (path, _))| outputs[..*at].iter().any(|(other, _)| other == path));
    if let Some((_, (path, _))) = twice {
        return Err(Failure::usage(format!("'{path}' is to be written twice")));
    }
    let (streams, files): (Vec<_>, Vec<_>) = outputs.iter().partition(|(path, _)| is_stream(path));
    let pending: Vec<Pending> =
        files.iter().map(|(path, bytes)| Pending::new(path, bytes)).collect::<Result<_, _>>()?;
    streams.iter().try_for_each(|(path, bytes)| write_stream(path, bytes))?;
    pending.into_iter().try_for_each(Pending::keep)
}

/// Whether a path is standard output, a device or a pipe, whose place no file may take.
fn is_stream(path: &str) -> bool {
    path == STANDARD || std::fs::metadata(path).is_ok_and(|known| !known.is_file())
}

fn write_stream(path: &str, bytes: &[u8]) -> Result<(), Failure> {
    match path {
        STANDARD => write_out(bytes),
        path => std::fs::write(path, bytes).map_err(|error| Failure::file(path, error)),
    }
}

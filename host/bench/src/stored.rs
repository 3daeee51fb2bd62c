//! A model in files, as CLIPS and the proved library read it.

use std::hint::black_box;
use std::path::{Path, PathBuf};

use jirvuntsag_proved::Model;

use crate::clips::program;
use crate::engine::{Clips, Failure};
use crate::opened::Opened;

/// The program for CLIPS as text.
const TEXT: &str = "model.clp";
/// The same as the binary image of CLIPS.
const BINARY: &str = "model.bin";
/// The packed image.
const IMAGE: &str = "model.image";

/// A model in files, in a folder that goes with it.
pub struct Stored {
    folder: PathBuf,
}

impl Stored {
    /// Writes the files.
    pub fn new(opened: &Opened) -> Result<Stored, Failure> {
        let folder = std::env::temp_dir().join(format!("jirvuntsag-bench-{}", std::process::id()));
        std::fs::create_dir(&folder).map_err(|failure| format!("{}: {failure}", folder.display()))?;
        let stored = Stored { folder };
        std::fs::write(stored.folder.join(IMAGE), &opened.model.image)?;
        std::fs::write(stored.folder.join(TEXT), program(&opened.decoded))?;
        Clips::start(&stored.folder)?.save_binary(TEXT, BINARY)?;
        Ok(stored)
    }

    /// Where they are.
    pub fn folder(&self) -> &Path {
        &self.folder
    }

    /// The command by which CLIPS loads the text, and prints nothing.
    pub fn load_text(&self) -> String {
        format!("(load* \"{TEXT}\")")
    }

    /// The command by which CLIPS loads the binary image.
    pub fn load_binary(&self) -> String {
        format!("(bload \"{BINARY}\")")
    }

    /// The whole way by the proved library, as a user goes it: the file is read, and the model opened and run.
    pub fn by_proved(&self, steps: u16) -> impl FnMut() {
        let image = self.folder.join(IMAGE);
        move || {
            let image = std::fs::read(&image).expect("the image was written");
            let (model, state, mut table) = Model::open(&image).expect("a valid model");
            let _ = black_box(model.run(state, &mut table, steps));
        }
    }
}

impl Drop for Stored {
    fn drop(&mut self) {
        // Nothing is left to be done if it cannot be removed.
        let _ = std::fs::remove_dir_all(&self.folder);
    }
}
